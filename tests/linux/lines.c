#include <stdio.h>
#include <string.h>

#include "lines.h"
#include "outside.h"
#include "srp_target.h"
#include "tally.h"

/* A message's first bytes, and the structs in which more of it is read than the tag. */
union message {
    struct srp_tsk_mgmt tsk_mgmt;
    struct srp_cmd cmd;
    struct srp_t_logout t_logout;
    struct srp_cred_req cred_req;
    struct srp_login_rsp login_rsp;
    struct srp_rsp rsp;
    struct srp_login_rej login_rej;
    uint8_t bytes[64];
};

/* Linux has SRP_AER_REQ and SRP_AER_RSP too. Document 01 leaves event reports out: they are UNKNOWN. */
#define TYPE(name, type) {SRP_##name, #name, sizeof(struct type), offsetof(struct type, tag), LINES_##name}
static const struct type {
    uint8_t opcode;
    const char *name;
    size_t size, tag; /* the bytes that are always there, and where the tag stands */
    enum tally tally;
} types[] = {
    TYPE(LOGIN_REQ, srp_login_req), TYPE(TSK_MGMT, srp_tsk_mgmt), TYPE(CMD, srp_cmd), TYPE(I_LOGOUT, srp_i_logout),
    TYPE(CRED_RSP, srp_cred_rsp), TYPE(T_LOGOUT, srp_t_logout), TYPE(CRED_REQ, srp_cred_req),
    TYPE(LOGIN_RSP, srp_login_rsp), TYPE(RSP, srp_rsp), TYPE(LOGIN_REJ, srp_login_rej),
};

/* What the columns hold; an empty text is spaces. */
struct line {
    const char *type;
    char tag[17], lun[17], number[24], code[9];
};

static uint64_t descriptor_size(unsigned format, unsigned count)
{
    if (format == SRP_DATA_DESC_INDIRECT)
        return sizeof(struct srp_indirect_buf) + count * sizeof(struct srp_direct_buf);
    return format == SRP_DATA_DESC_DIRECT ? sizeof(struct srp_direct_buf) : 0;
}

/* Whether formats and length are a command's; the additional CDB has 4 bytes for each of add_cdb_len bits 7-2. */
static int is_command(const struct srp_cmd *m, uint64_t len)
{
    unsigned out = m->buf_fmt >> 4, in = m->buf_fmt & 15;
    uint64_t descriptors = descriptor_size(out, m->data_out_desc_cnt) + descriptor_size(in, m->data_in_desc_cnt);
    return out <= SRP_DATA_DESC_INDIRECT && in <= SRP_DATA_DESC_INDIRECT &&
           len == sizeof *m + 4 * (uint64_t)(m->add_cdb_len >> 2) + descriptors;
}

static int is_response(const struct srp_rsp *m, uint64_t len)
{
    uint64_t responses = m->flags & SRP_RSP_FLAG_RSPVALID ? 4 : 0;
    uint64_t sense = m->flags & SRP_RSP_FLAG_SNSVALID ? GET(m->sense_data_len) : 0;
    return len == sizeof *m + responses + sense;
}

/* NULL where it is UNKNOWN. */
static const struct type *type_of(const union message *m, size_t len)
{
    const struct type *t;
    for (t = types; t < types + sizeof types / sizeof *types; t++) {
        if (t->opcode != m->bytes[0])
            continue;
        if (t->opcode == SRP_CMD)
            return is_command(&m->cmd, len) ? t : NULL;
        if (t->opcode == SRP_RSP)
            return is_response(&m->rsp, len) ? t : NULL;
        return len == t->size ? t : NULL;
    }
    return NULL;
}

static void put_number(struct line *l, uint64_t value)
{
    snprintf(l->number, sizeof l->number, "%llu", (unsigned long long)value);
    if (value > 99999) {
        strcpy(l->number, "*****");
        count(STARS);
    }
}

static void put_hex(char *to, int digits, uint64_t value)
{
    snprintf(to, (size_t)digits + 1, "%0*llx", digits, (unsigned long long)value);
}

static void put_response(struct line *l, const union message *m)
{
    put_number(l, GET(m->rsp.req_lim_delta));
    if (m->rsp.flags & SRP_RSP_FLAG_RSPVALID) {
        put_hex(l->code, 8, m->bytes[offsetof(struct srp_rsp, data) + 3]);
        count(RSP_CODES);
    }
}

/* What a type has beside its tag. */
static void put_fields(struct line *l, const union message *m)
{
    switch (m->bytes[0]) {
    case SRP_TSK_MGMT:
        put_hex(l->lun, 16, GET(m->tsk_mgmt.lun));
        break;
    case SRP_CMD:
        put_hex(l->lun, 16, GET(m->cmd.lun));
        break;
    case SRP_T_LOGOUT:
        put_hex(l->code, 8, GET(m->t_logout.reason));
        break;
    case SRP_CRED_REQ:
        put_number(l, GET(m->cred_req.req_lim_delta));
        break;
    case SRP_LOGIN_RSP:
        put_number(l, GET(m->login_rsp.req_lim_delta));
        break;
    case SRP_RSP:
        put_response(l, m);
        break;
    case SRP_LOGIN_REJ:
        put_hex(l->code, 8, GET(m->login_rej.reason));
    }
}

static struct line line_of(const uint8_t *msg, size_t len)
{
    struct line l = {.type = "UNKNOWN"};
    const struct type *t;
    union message m;
    memset(&m, 0, sizeof m);
    if (len)
        memcpy(&m, msg, len < sizeof m ? len : sizeof m);
    t = type_of(&m, len);
    count(t ? t->tally : LINES_UNKNOWN);
    if (t) {
        l.type = t->name;
        put_hex(l.tag, 16, get_number(m.bytes + t->tag, 8));
        put_fields(&l, &m);
    } else {
        put_number(&l, len);
    }
    return l;
}

void traced(const char *name, const char *type, const uint8_t *msg, size_t len, uint32_t direction)
{
    static const uint8_t fill[8] = {0xa5, 0xa5, 0xa5, 0xa5, 0xa5, 0xa5, 0xa5, 0xa5};
    struct line l = line_of(msg, len);
    uint8_t buf[SRP_TRACE_BYTES + sizeof fill];
    char line[SRP_TRACE_BYTES + 64];
    memset(buf, fill[0], sizeof buf);
    same(name, "srp_trace", srp_trace(msg, len, direction, buf, sizeof buf), 0);
    snprintf(line, sizeof line, "%c %-12s %16s %16s %5s %8s%17s\n", direction == TO_PORT ? '>' : '<', l.type, l.tag,
             l.lun, l.number, l.code, "");
    same_text(name, "line", (const char *)buf, line, SRP_TRACE_BYTES);
    same_bytes(name, "bytes behind the line", buf + SRP_TRACE_BYTES, fill, sizeof fill);
    if (type)
        same(name, "type in the line", strcmp(l.type, type), 0);
}
