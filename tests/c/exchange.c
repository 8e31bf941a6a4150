/*
 * An exchange from login to logout, every message written out byte by byte from document 01's layouts: a login,
 * data-in, data-out with a table that is fetched, an abort, a grant, a credit response, a logout.
 */
#include "calls.h"
#include "cases.h"

static const uint8_t login_req[64] = {
    0x00, 0, 0, 0, 0, 0, 0, 0, 0, 0, 0, 0, 0, 0, 0, 0x99, /* type; tag 8-15 */
    0, 0, 0x05, 0x54, 0, 0, 0, 0, 0, 0x06, 0x30, 0, 0, 0, 0, 0, /* length 1,364; formats 0006h; CRSOLNT and LOSOLNT */
    0xee, 0xee, 0xee, 0xee, 0xee, 0xee, 0xee, 0xee, 0xee, 0xee, 0xee, 0xee, 0xee, 0xee, 0xee, 0xee, /* initiator */
    0x21, 0x22, 0x23, 0x24, 0x25, 0x26, 0x27, 0x28, 0x29, 0x2a, 0x2b, 0x2c, 0x2d, 0x2e, 0x2f, 0x30, /* target */
};
static const uint8_t login_rsp[52] = {
    0xc0, 0, 0, 0, 0, 0, 0, 4, 0, 0, 0, 0, 0, 0, 0, 0x99,         /* type; N = 4; tag */
    0, 0, 0x05, 0x54, 0, 0, 0, 0x84, 0, 0x06, 0x10, 0, 0, 0, 0, 0, /* 1,364; 132; formats 0006h; SOLNTSUP */
};

/* Data-in of 1,300 bytes at 1000h, handle 7; SCSOLNT; tag A1h, LUN 3. */
static const uint8_t read_cmd[64] = {
    0x02, 0x02, 0, 0, 0, 0x01, 0, 0, 0, 0, 0, 0, 0, 0, 0, 0xa1, 0, 0, 0, 0, 0, 0, 0, 0, 0, 0, 0, 3, 0, 0, 0, 0,
    0x28, 0, 0, 0, 0, 0x10, 0, 0, 0x03, 0, 0, 0, 0, 0, 0, 0,
    0, 0, 0, 0, 0, 0, 0x10, 0, 0, 0, 0, 7, 0, 0, 0x05, 0x14,
};
/* 276 of the 1,300 bytes were not handed out: flags DIUNDER (20h), in residual 114h; SOLNT is SCSOLNT. */
static const uint8_t read_rsp[36] = {
    0xc1, 0x01, 0, 0, 0, 0, 0, 1, 0, 0, 0, 0, 0, 0, 0, 0xa1,
    0, 0, 0x20, 0, 0, 0, 0, 0, 0, 0, 0x01, 0x14, 0, 0, 0, 0, 0, 0, 0, 0,
};

/* Data-out by a table of 32 bytes at 9000h, handle 5, no copy, total 150; UCSOLNT; tag A2h, LUN 3; n = 1. */
static const uint8_t write_cmd[72] = {
    0x02, 0x04, 0, 0, 0, 0x20, 0, 0, 0, 0, 0, 0, 0, 0, 0, 0xa2, 0, 0, 0, 0, 0, 0, 0, 0, 0, 0, 0, 3, 0, 0, 0, 0x04,
    0x7f, 0, 0, 0, 0, 0, 0, 0, 0, 0, 0, 0, 0, 0, 0, 0, 0x11, 0x12, 0x13, 0x14,
    0, 0, 0, 0, 0, 0, 0x90, 0, 0, 0, 0, 5, 0, 0, 0, 32, 0, 0, 0, 150,
};
static const uint8_t write_fetch[32] = {0, 0, 0, 0, 0, 0, 0x90, 0, 0, 0, 0, 5, 0, 0, 0, 32};
static const uint8_t write_table[32] = {
    0, 0, 0, 0, 0, 0, 0x60, 0, 0, 0, 0, 8, 0, 0, 0, 100,
    0, 0, 0, 0, 0, 0, 0x70, 0, 0, 0, 0, 9, 0, 0, 0, 50,
};
/* 160 bytes were required of 150: flags SNSVALID and DOOVER (06h), status 02h, out residual 10, sense of 4 bytes. */
static const uint8_t write_sense[4] = {0x72, 0x05, 0x24, 0x00};
static const uint8_t write_rsp[40] = {
    0xc1, 0x01, 0, 0, 0, 0, 0, 1, 0, 0, 0, 0, 0, 0, 0, 0xa2,
    0, 0, 0x06, 0x02, 0, 0, 0, 10, 0, 0, 0, 0, 0, 0, 0, 4, 0, 0, 0, 0, 0x72, 0x05, 0x24, 0x00,
};

/* A command without data, tag A3h, LUN 4; and the task request that aborts it, tag A4h, function 01h. */
static const uint8_t idle_cmd[48] = {0x02, [15] = 0xa3, [27] = 4};
static const uint8_t abort_tsk[48] = {0x01, 0x02, [15] = 0xa4, [27] = 4, [30] = 0x01, [39] = 0xa3};
/* RSPVALID (01h), response length 4, RSP_CODE 00h, delta 2; SOLNT is SCSOLNT. */
static const uint8_t abort_rsp[40] = {0xc1, 0x01, [7] = 2, [15] = 0xa4, [18] = 0x01, [35] = 4};

/* Tag 1, delta 2, CRSOLNT; and its answer. */
static const uint8_t cred_req[16] = {0x81, 0x01, [7] = 2, [15] = 1};
static const uint8_t cred_rsp[16] = {0x41, [15] = 1};

static const uint8_t i_logout[16] = {0x03, [15] = 0xa5};

static void read_command(void)
{
    static const uint8_t no_fetch[32];
    static const uint64_t part_moved[1][SRP_RECORD_WORDS] = {{0xa1, 3, 0, 1024}};
    look("read, look", 0, no_fetch, BYTES(read_cmd), 1364, 6, 32);
    take("read", 0, (struct after){OTHER, {0, SRP_KIND_COMMAND, 0xa1, 3, 32, 16}, NULL}, BYTES(read_cmd), 132);
    planned("read, plan", 0xa1, 0, 1300);
    step("read, first", 0, (struct after){OTHER, {1, SRP_RDMA_WRITE, 7, 0x1000, 512, 0, 1}, NULL}, 0xa1, 1);
    step("read, second", 0, (struct after){OTHER, {1, SRP_RDMA_WRITE, 7, 0x1200, 512, 512, 2}, NULL}, 0xa1, 1);
    list("read, listed", 0, SRP_LIST_WORDS, 1, part_moved);
    finish("read, finish", 0, (struct after){OTHER, {36}, read_rsp}, 0xa1, 0x00, NO_BYTES, 132);
}

static void write_command(void)
{
    look("write, look", 0, write_fetch, BYTES(write_cmd), 1364, 6, 32);
    take("write", 0, (struct after){OTHER, {0, SRP_KIND_COMMAND, 0xa2, 3, 32, 20, 1}, NULL}, BYTES(write_cmd), 132);
    tables("write, table", 0, (struct after){OTHER, {0}, NULL}, 0xa2, BYTES(write_table), NO_BYTES, 132);
    planned("write, plan", 0xa2, 160, 0);
    step("write, first", 0, (struct after){OTHER, {1, SRP_RDMA_READ, 8, 0x6000, 100, 0, 1}, NULL}, 0xa2, 0);
    step("write, second", 0, (struct after){OTHER, {1, SRP_RDMA_READ, 9, 0x7000, 50, 100, 2}, NULL}, 0xa2, 0);
    step("write, done", 0, (struct after){SAME, {0, 0, 0, 0, 0, 0, 2}, NULL}, 0xa2, 0);
    finish("write, finish", 0, (struct after){OTHER, {40}, write_rsp}, 0xa2, 0x02, BYTES(write_sense), 132);
}

static void abort_and_grant(void)
{
    take("idle", 0, (struct after){OTHER, {0, SRP_KIND_COMMAND, 0xa3, 4, 32, 16}, NULL}, BYTES(idle_cmd), 132);
    take("abort", 0, (struct after){OTHER, {40, SRP_KIND_TASK, 0xa4, 4}, abort_rsp}, BYTES(abort_tsk), 132);
    add("add", 0, 2);
    grant("grant", 0, (struct after){OTHER, {16}, cred_req}, 132);
    take("credit response", 0, (struct after){OTHER, {0, SRP_KIND_CREDIT_RESPONSE}, NULL}, BYTES(cred_rsp), 132);
    counters("six buffers", 0, 6, 6, 0, 0);
}

void exchange(void)
{
    lay(STORE, NULL, 0);
    login("login", 0, (struct after){OTHER, {52, 0}, login_rsp}, SETTINGS_OF(4, 512, 1364, 1, 1), 0, BYTES(login_req),
          132);
    read_command();
    write_command();
    abort_and_grant();
    take("logout", 0, (struct after){CLOSED, {0, SRP_KIND_LOGOUT}, NULL}, BYTES(i_logout), 132);
    counters("closed", SRP_REFUSED_CLOSED, 0, 0, 0, 0);
}
