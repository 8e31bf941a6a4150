#include <string.h>

#include "decode.h"
#include "lines.h"
#include "outside.h"
#include "tally.h"

void is_login_rsp(const uint8_t *msg, size_t len, const struct login_answer *a)
{
    static const char name[] = "SRP_LOGIN_RSP";
    struct srp_login_rsp m;
    same(name, "length", len, sizeof m);
    memcpy(&m, msg, sizeof m);
    same(name, "opcode", m.opcode, SRP_LOGIN_RSP);
    all_zero(name, "reserved1", m.reserved1, sizeof m.reserved1);
    same(name, "req_lim_delta", GET(m.req_lim_delta), a->buffers);
    same(name, "tag", GET(m.tag), a->tag);
    same(name, "max_it_iu_len", GET(m.max_it_iu_len), a->length);
    same(name, "max_ti_iu_len", GET(m.max_ti_iu_len), 132);
    same(name, "buf_fmt", GET(m.buf_fmt), a->formats);
    same(name, "rsp_flags", m.rsp_flags, SRP_LOGIN_RSP_MULTICHAN_NO_CHAN | (a->solicited ? SOLNTSUP : 0));
    all_zero(name, "reserved2", m.reserved2, sizeof m.reserved2);
    traced(name, "LOGIN_RSP", msg, len, FROM_PORT);
    count(LOGIN_RSPS);
}

void is_login_rej(const uint8_t *msg, size_t len, const struct login_answer *a)
{
    static const char name[] = "SRP_LOGIN_REJ";
    struct srp_login_rej m;
    same(name, "length", len, sizeof m);
    memcpy(&m, msg, sizeof m);
    same(name, "opcode", m.opcode, SRP_LOGIN_REJ);
    all_zero(name, "reserved1", m.reserved1, sizeof m.reserved1);
    same(name, "reason", GET(m.reason), a->reason);
    same(name, "tag", GET(m.tag), a->tag);
    all_zero(name, "reserved2", m.reserved2, sizeof m.reserved2);
    same(name, "buf_fmt", GET(m.buf_fmt), a->formats);
    all_zero(name, "reserved3", m.reserved3, sizeof m.reserved3);
    traced(name, "LOGIN_REJ", msg, len, FROM_PORT);
    count(LOGIN_REJS);
}

/* Response bytes, three of 0 and RSP_CODE, then sense. */
static void is_data(const char *name, const uint8_t *data, const struct response *r)
{
    uint32_t responses = r->has_code ? 4 : 0;
    if (r->has_code) {
        all_zero(name, "response bytes 0-2", data, 3);
        same(name, "RSP_CODE", data[3], r->code);
    }
    same_bytes(name, "sense", data + responses, r->sense, r->sense_len);
}

void is_rsp(const char *name, const uint8_t *msg, size_t len, const struct response *r)
{
    uint32_t responses = r->has_code ? 4 : 0;
    struct srp_rsp m;
    same(name, "length", len, sizeof m + responses + r->sense_len);
    memcpy(&m, msg, sizeof m);
    same(name, "opcode", m.opcode, SRP_RSP);
    same(name, "sol_not", m.sol_not, r->solnt ? SOLNT : 0);
    all_zero(name, "reserved1", m.reserved1, sizeof m.reserved1);
    same(name, "req_lim_delta", GET(m.req_lim_delta), r->delta);
    same(name, "tag", GET(m.tag), r->tag);
    all_zero(name, "reserved2", m.reserved2, sizeof m.reserved2);
    same(name, "flags", m.flags, r->flags);
    same(name, "status", m.status, r->status);
    same(name, "data_out_res_cnt", GET(m.data_out_res_cnt), r->out);
    same(name, "data_in_res_cnt", GET(m.data_in_res_cnt), r->in);
    same(name, "sense_data_len", GET(m.sense_data_len), r->sense_len);
    same(name, "resp_data_len", GET(m.resp_data_len), responses);
    is_data(name, msg + sizeof m, r);
    traced(name, "RSP", msg, len, FROM_PORT);
}

void is_cred_req(const uint8_t *msg, size_t len, int solnt, uint32_t delta)
{
    static const char name[] = "SRP_CRED_REQ";
    struct srp_cred_req m;
    same(name, "length", len, sizeof m);
    memcpy(&m, msg, sizeof m);
    same(name, "opcode", m.opcode, SRP_CRED_REQ);
    same(name, "sol_not", m.sol_not, solnt ? SOLNT : 0);
    all_zero(name, "reserved", m.reserved, sizeof m.reserved);
    same(name, "req_lim_delta", GET(m.req_lim_delta), delta);
    same(name, "tag", GET(m.tag), 1);
    traced(name, "CRED_REQ", msg, len, FROM_PORT);
    count(CRED_REQS);
}

void is_t_logout(const char *name, const uint8_t *msg, size_t len, int solnt, uint32_t reason)
{
    struct srp_t_logout m;
    same(name, "length", len, sizeof m);
    memcpy(&m, msg, sizeof m);
    same(name, "opcode", m.opcode, SRP_T_LOGOUT);
    same(name, "sol_not", m.sol_not, solnt ? SOLNT : 0);
    all_zero(name, "reserved", m.reserved, sizeof m.reserved);
    same(name, "reason", GET(m.reason), reason);
    same(name, "tag", GET(m.tag), 0);
    traced(name, "T_LOGOUT", msg, len, FROM_PORT);
}
