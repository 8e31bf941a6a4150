/*
 * README.md's lines for C, which tests/readme compares with those between the two markers, run: P1 directly, two
 * commands whose tables in the initiator's memory are read side by side and complete in the other order, a bad table, a
 * command that draws a logout, a login rejected and a login refused.
 */
#include <string.h>

#include "calls.h"
#include "cases.h"

/* P1's segment: 1000h, handle 7, 1,300 bytes. As a table it stands at 9000h, handle 3. */
static const uint8_t segment[16] = {0, 0, 0, 0, 0, 0, 0x10, 0, 0, 0, 0, 7, 0, 0, 0x05, 0x14};
static const uint8_t by_table[20] = {0, 0, 0, 0, 0, 0, 0x90, 0, 0, 0, 0, 3, 0, 0, 0, 16, 0, 0, 0x05, 0x14};

/* What the adapter says next: a message, or that the Reads of a tag are complete, with its tables, out and in. */
struct event {
    const uint8_t *msg;
    size_t len;
    uint64_t tag;
    const uint8_t *table[2];
    size_t table_len[2];
};

/* What the adapter will say, and what it was told: the messages one after the other, the operations, the tables. */
static struct event script[8];
static unsigned events, happened;
static uint8_t sent[256];
static size_t sent_len;
static uint64_t posted[8][5];
static unsigned operations, fetches, cdbs;

static void send(const uint8_t *message, size_t len)
{
    if (len <= sizeof sent - sent_len)
        memcpy(sent + sent_len, message, len);
    sent_len += len;
}

static void rdma(uint64_t operation, uint64_t handle, uint64_t address, uint64_t length, uint64_t offset)
{
    const uint64_t words[5] = {operation, handle, address, length, offset};
    if (operations < 8)
        memcpy(posted[operations], words, sizeof words);
    operations++;
}

static int await(struct event *e)
{
    if (happened == events)
        return 0;
    *e = script[happened++];
    return 1;
}

/* Data-in alone has a table. */
static void fetch(uint64_t tag, const uint8_t *out, const uint8_t *in)
{
    static const uint8_t none[16];
    if (tag < 5 || memcmp(out, none, 16) || memcmp(in, by_table, 16))
        fail("README", "another table is fetched");
    fetches++;
}

static void keep_cdb(uint64_t tag, const uint8_t *cdb, size_t len)
{
    if (len != 16 || cdb[0] != tag)
        fail("README", "another CDB");
    cdbs++;
}

/* What the CDB says: 1,300 bytes of data-in. */
static uint32_t required(uint64_t tag, uint32_t way)
{
    return tag && way == SRP_DIRECTION_IN ? 1300 : 0;
}

static void owner(const uint8_t own[16], const uint8_t *login, size_t login_len)
{
    static const uint32_t settings[SRP_SETTINGS] = {4, 512, 1364, 1, 1};
    const uint32_t agreed = 1364, formats = 6;
    /* README.md: */
    static uint64_t port[SRP_PORT_WORDS]; static uint8_t store[SRP_STORE_BYTES]; uint64_t a[8];
    uint8_t buf[SRP_MESSAGE_BYTES], named[SRP_ANSWER_BYTES];
    if (srp_target_login(port, settings, 0, own, login, login_len, buf, sizeof buf, a) != 0) return; /* Q = 0: none */
    send(buf, a[0]);
    if (a[1] != 0) return;                          /* rejected: make no connection */
    for (struct event e; await(&e);) {              /* a message came, or the Reads of a waiting tag are complete */
        uint64_t tag = e.tag;
        uint32_t refusal = e.msg ? srp_target_take(port, store, e.msg, e.len, buf, sizeof buf, a) : srp_target_tables(
            port, store, tag, e.table[0], e.table_len[0], e.table[1], e.table_len[1], buf, sizeof buf, a);
        if (a[0]) send(buf, a[0]);                  /* an answer, also with a refusal; SRP_T_LOGOUT: then disconnect */
        if (refusal != 0 || (e.msg && a[1] != SRP_KIND_COMMAND)) continue;
        if (e.msg) keep_cdb(tag = a[2], e.msg + a[4], a[5]);              /* LUN a[3] */
        if (e.msg && a[6] == 1) {                   /* it waits: post its Reads, and take the next message meanwhile */
            srp_look(e.msg, e.len, agreed, formats, named, sizeof named); /* of the login: bytes 16-19 and 24-25 */
            fetch(tag, named, named + 16); continue; }                    /* F bytes out and in, or none */
        srp_target_plan(port, tag, required(tag, SRP_DIRECTION_OUT), required(tag, SRP_DIRECTION_IN));
        for (uint32_t way = SRP_DIRECTION_OUT; way <= SRP_DIRECTION_IN; way++) {
            srp_target_move(port, tag, way, 0, required(tag, way));       /* all of it; or in parts, in any order */
            while (srp_target_step(port, store, tag, way, a) == 0 && a[0]) rdma(a[1], a[2], a[3], a[4], a[5]); }
        if (srp_target_finish(port, tag, 0x00, NULL, 0, buf, sizeof buf, a) == 0) send(buf, a[0]); }
    /* end */
}

/* A message to come, whose CDB starts with its tag; and tables of data-in, complete. */
static void comes(struct bytes msg)
{
    static uint8_t messages[8][128];
    uint8_t *copy = messages[events];
    memcpy(copy, msg.at, msg.len);
    copy[32] = copy[15];
    script[events++] = (struct event){.msg = copy, .len = msg.len};
}

static void completes(uint64_t tag, const uint8_t *table)
{
    script[events++] = (struct event){.tag = tag, .table = {NULL, table}, .table_len = {0, 16}};
}

static struct bytes direct(uint64_t tag)
{
    return command_with(tag, 0, 0x01, 0, 0, BYTES(segment));
}

static struct bytes indirect(uint64_t tag)
{
    return command_with(tag, 0, 0x02, 0, 0, BYTES(by_table));
}

/* Runs the lines on the script: the messages sent after the login's, and how many operations and tables. */
static void run(const char *name, unsigned pieces, unsigned tables_read, const uint8_t *answer, size_t len)
{
    struct bytes login = login_request(9, 1364, 0x0006, LOSOLNT, own_identifier);
    sent_len = operations = fetches = cdbs = happened = 0;
    owner(own_identifier, login.at, login.len);
    events = 0;
    if (sent_len != 52 + len || memcmp(sent + 52, answer, len))
        fail(name, "another answer");
    if (memcmp(sent, login_response(4, 9, 1364, 0x0006, 0x10), 52))
        fail(name, "another answer to the login");
    if (operations != pieces || fetches != tables_read)
        fail(name, "other operations");
}

/* A login that is not accepted: its rejection, if any, is sent, and no message is taken. */
static void no_connection(const char *name, const uint8_t own[16], size_t login_len, size_t len)
{
    struct bytes login;
    comes(indirect(5));
    login = login_request(9, 1364, 0x0006, 0, own_identifier);
    sent_len = operations = fetches = happened = 0;
    owner(own, login.at, login_len);
    events = 0;
    if (sent_len != len || memcmp(sent, login_rejection(SRP_REJECTED_TARGET, 9, 0x0006), len))
        fail(name, "another answer to the login");
    if (operations || fetches || happened)
        fail(name, "operations");
}

static void is_p1(const char *name, unsigned first)
{
    static const uint64_t p1[3][5] = {{SRP_RDMA_WRITE, 7, 0x1000, 512, 0},
                                      {SRP_RDMA_WRITE, 7, 0x1200, 512, 512},
                                      {SRP_RDMA_WRITE, 7, 0x1400, 276, 1024}};
    if (memcmp(posted[first], p1, sizeof p1))
        fail(name, "other pieces");
}

/* Tags 5 and 6 are taken, and wait; 6 is carried out first. */
static void side_by_side(void)
{
    uint8_t both[72];
    memcpy(both, response(0, 1, 6, 0, NO_RESIDUALS, NO_BYTES), 36);
    memcpy(both + 36, response(0, 1, 5, 0, NO_RESIDUALS, NO_BYTES), 36);
    comes(indirect(5));
    comes(indirect(6));
    completes(6, segment);
    completes(5, segment);
    run("README, side by side", 6, 2, both, sizeof both);
    is_p1("README, side by side", 0);
    is_p1("README, side by side", 3);
    if (cdbs != 2)
        fail("README, side by side", "other CDBs");
}

void readme_lines(void)
{
    static const uint8_t other[16] = {1};
    uint8_t good[36];
    memcpy(good, response(0, 1, 5, 0, NO_RESIDUALS, NO_BYTES), sizeof good);
    comes(direct(5));
    run("README, P1", 3, 0, good, sizeof good);
    is_p1("README, P1", 0);
    side_by_side();
    comes(indirect(5));
    completes(5, by_table);
    run("README, bad table", 0, 1, code_response(0, 1, 5, 0x02), 40);
    comes(command_with(5, 0, 0x03, 0, 0, NO_BYTES));
    run("README, logout", 0, 0, target_logout(1, SRP_LOGOUT_IN_FORMAT), 16);
    no_connection("README, rejected", other, 64, 32);
    no_connection("README, refused", own_identifier, 63, 0);
}
