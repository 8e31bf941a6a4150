/* Messages of each type with arbitrary fields, set in Linux's structs, and messages that are UNKNOWN, traced. */
#include <string.h>

#include "build.h"
#include "lines.h"
#include "outside.h"
#include "random.h"
#include "tally.h"

static uint8_t msg[9000];

/* A message begins with a struct's bytes, those behind them are arbitrary. */
static size_t put(const void *m, size_t size, size_t len)
{
    any_bytes(msg, size + 300);
    memcpy(msg, m, size);
    return len;
}

/* Small numbers, those around 99,999, the largest, any. */
static uint32_t some_number(void)
{
    if (one_in(3))
        return one_in(3) ? UINT32_MAX - from_to(0, 9) : (uint32_t)any_number();
    return one_in(2) ? from_to(99990, 100009) : from_to(0, 20000);
}

static size_t login_req(void)
{
    struct login l = {.tag = any_number()};
    l.length = some_number();
    l.formats = from_to(0, 0xffff);
    any_bytes(l.target, sizeof l.target);
    return build_login(msg, &l);
}

static size_t tsk_mgmt(void)
{
    struct request r = {.tag = any_number()};
    r.lun = any_number();
    return build_task(msg, &r, SRP_TSK_ABORT_TASK, any_number());
}

static unsigned some_descriptor(unsigned format, unsigned copies)
{
    if (format == SRP_DATA_DESC_INDIRECT && copies > 32)
        count(COUNTS_ABOVE_32);
    if (format == SRP_DATA_DESC_INDIRECT)
        return sizeof(struct srp_indirect_buf) + copies * sizeof(struct srp_direct_buf);
    return format == SRP_DATA_DESC_DIRECT ? sizeof(struct srp_direct_buf) : 0;
}

/* Any counts, whatever the formats. */
static size_t cmd(void)
{
    unsigned out = from_to(0, 2), in = from_to(0, 2), more_cdb = from_to(0, 63);
    struct srp_cmd m;
    any_bytes(&m, sizeof m);
    m.opcode = SRP_CMD;
    m.buf_fmt = (u8)(out << 4 | in);
    SET(m.tag, any_number());
    SET(m.lun, any_number());
    m.add_cdb_len = (u8)(more_cdb << 2 | from_to(0, 3));
    return put(&m, sizeof m, sizeof m + 4 * more_cdb + some_descriptor(out, m.data_out_desc_cnt) +
                                 some_descriptor(in, m.data_in_desc_cnt));
}

static size_t i_logout(void)
{
    return build_i_logout(msg);
}

static size_t cred_rsp(void)
{
    return build_cred_rsp(msg, any_number());
}

static size_t t_logout(void)
{
    struct srp_t_logout m;
    any_bytes(&m, sizeof m);
    m.opcode = SRP_T_LOGOUT;
    SET(m.tag, any_number());
    SET(m.reason, some_number());
    return put(&m, sizeof m, sizeof m);
}

static size_t cred_req(void)
{
    struct srp_cred_req m;
    any_bytes(&m, sizeof m);
    m.opcode = SRP_CRED_REQ;
    SET(m.tag, any_number());
    SET(m.req_lim_delta, some_number());
    return put(&m, sizeof m, sizeof m);
}

static size_t login_rsp(void)
{
    struct srp_login_rsp m;
    any_bytes(&m, sizeof m);
    m.opcode = SRP_LOGIN_RSP;
    SET(m.tag, any_number());
    SET(m.req_lim_delta, some_number());
    return put(&m, sizeof m, sizeof m);
}

/* Any flags; resp_data_len is as often 4 as not. */
static size_t rsp(void)
{
    uint32_t sense = from_to(0, 200);
    size_t len = sizeof(struct srp_rsp);
    struct srp_rsp m;
    any_bytes(&m, sizeof m);
    m.opcode = SRP_RSP;
    SET(m.tag, any_number());
    SET(m.req_lim_delta, some_number());
    SET(m.sense_data_len, sense);
    SET(m.resp_data_len, one_in(2) ? 4 : some_number());
    len += m.flags & SRP_RSP_FLAG_RSPVALID ? 4 : 0;
    len += m.flags & SRP_RSP_FLAG_SNSVALID ? sense : 0;
    return put(&m, sizeof m, len);
}

static size_t login_rej(void)
{
    struct srp_login_rej m;
    any_bytes(&m, sizeof m);
    m.opcode = SRP_LOGIN_REJ;
    SET(m.tag, any_number());
    SET(m.reason, one_in(2) ? SRP_LOGIN_REJ_UNABLE_ESTABLISH_CHANNEL : some_number());
    return put(&m, sizeof m, sizeof m);
}

static const struct {
    const char *type;
    size_t (*make)(void);
} kinds[] = {
    {"LOGIN_REQ", login_req}, {"TSK_MGMT", tsk_mgmt}, {"CMD", cmd}, {"I_LOGOUT", i_logout},
    {"CRED_RSP", cred_rsp}, {"T_LOGOUT", t_logout}, {"CRED_REQ", cred_req}, {"LOGIN_RSP", login_rsp},
    {"RSP", rsp}, {"LOGIN_REJ", login_rej},
};
enum { KINDS = sizeof kinds / sizeof *kinds };

/* A message of one of the types, of another length. */
static size_t other_length(void)
{
    size_t own = kinds[from_to(0, KINDS - 1)].make(), len;
    do
        len = one_in(2) ? own - 1 + from_to(0, 2) : from_to(0, 300);
    while (len == own);
    count(OTHER_LENGTHS);
    return len;
}

/* A command with immediate data, or with a format that nobody has; of any length. */
static size_t other_format(void)
{
    size_t len = cmd();
    u8 format = (u8)from_to(SRP_DATA_DESC_IMM, one_in(2) ? SRP_DATA_DESC_IMM : 15), *byte;
    byte = msg + offsetof(struct srp_cmd, buf_fmt);
    *byte = one_in(2) ? (u8)(format << 4 | (*byte & 15)) : (u8)((*byte & 0xf0) | format);
    count(OTHER_FORMATS);
    return one_in(2) ? len : from_to(48, 48 + 4 * 63 + 20);
}

/* A sense length that would give the message's length if the sum were made in 32 bits. */
static size_t wrapped_sense(void)
{
    size_t len = from_to(one_in(2) ? sizeof(struct srp_rsp) : 0, sizeof(struct srp_rsp) + 3);
    struct srp_rsp m;
    rsp();
    memcpy(&m, msg, sizeof m);
    m.flags |= SRP_RSP_FLAG_RSPVALID | SRP_RSP_FLAG_SNSVALID;
    SET(m.sense_data_len, len - sizeof m - 4);
    memcpy(msg, &m, sizeof m);
    count(WRAPPED_SENSES);
    return len;
}

/* An event report or its answer, of whatever length. */
static size_t event_report(void)
{
    struct srp_aer_req m;
    any_bytes(&m, sizeof m);
    m.opcode = one_in(2) ? SRP_AER_REQ : SRP_AER_RSP;
    SET(m.tag, any_number());
    SET(m.req_lim_delta, some_number());
    SET(m.sense_data_len, from_to(0, 200));
    count(EVENT_REPORTS);
    put(&m, sizeof m, 0);
    return m.opcode == SRP_AER_RSP ? sizeof(struct srp_aer_rsp) : sizeof m + (one_in(2) ? GET(m.sense_data_len) : 0);
}

static uint32_t any_direction(void)
{
    return one_in(2) ? TO_PORT : from_to(FROM_PORT, one_in(2) ? 3 : UINT32_MAX);
}

void trace_messages(unsigned rounds)
{
    static size_t (*const unknown[4])(void) = {other_length, other_format, wrapped_sense, event_report};
    size_t len;
    unsigned i;
    while (rounds--) {
        for (i = 0; i < KINDS; i++) {
            len = kinds[i].make();
            traced(kinds[i].type, kinds[i].type, msg, len, any_direction());
        }
        for (i = 0; i < 4; i++) {
            len = unknown[i]();
            traced("UNKNOWN", "UNKNOWN", msg, len, any_direction());
        }
    }
}
