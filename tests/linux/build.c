#include <string.h>

#include "build.h"
#include "outside.h"
#include "random.h"

size_t build_login(uint8_t *msg, const struct login *l)
{
    struct srp_login_req m;
    any_bytes(&m, sizeof m);
    m.opcode = SRP_LOGIN_REQ;
    SET(m.tag, l->tag);
    SET(m.req_it_iu_len, l->length);
    SET(m.req_buf_fmt, l->formats);
    m.req_flags &= (u8)~(LOGIN_CRSOLNT | LOGIN_LOSOLNT | 0x03);
    m.req_flags |= (u8)(l->action | (l->crsolnt ? LOGIN_CRSOLNT : 0) | (l->losolnt ? LOGIN_LOSOLNT : 0));
    memcpy(m.target_port_id, l->target, sizeof m.target_port_id);
    memcpy(msg, &m, sizeof m);
    return sizeof m;
}

static struct srp_direct_buf descriptor(uint64_t address, uint32_t handle, uint32_t length)
{
    struct srp_direct_buf d;
    SET(d.va, address);
    SET(d.key, handle);
    SET(d.len, length);
    return d;
}

static size_t put_segment(uint8_t *to, const struct segment *s)
{
    struct srp_direct_buf d = descriptor(s->address, s->handle, s->length);
    memcpy(to, &d, sizeof d);
    return sizeof d;
}

size_t build_table(uint8_t *table, const struct side *s)
{
    size_t at = 0;
    unsigned i;
    for (i = 0; i < s->entries; i++)
        at += put_segment(table + at, &s->segments[i]);
    return at;
}

static size_t put_descriptor(uint8_t *to, const struct side *s)
{
    struct srp_indirect_buf m;
    size_t at = sizeof m;
    unsigned i;
    if (s->format == SRP_NO_DATA_DESC)
        return 0;
    if (s->format == SRP_DATA_DESC_DIRECT)
        return put_segment(to, &s->segments[0]);
    m.table_desc = descriptor(s->table_address, s->table_handle, s->table_length);
    SET(m.len, s->total);
    memcpy(to, &m, sizeof m);
    for (i = 0; i < s->copies; i++)
        at += put_segment(to + at, &s->segments[i]);
    return at;
}

static u8 unread_but(u8 mask, unsigned bits)
{
    return (u8)((any_number() & (u8)~mask) | bits);
}

/* The count of a direction: unread but for a table. */
static u8 count_of(const struct side *s)
{
    return (u8)(s->format == SRP_DATA_DESC_INDIRECT ? s->copies : any_number());
}

size_t build_command(uint8_t *msg, const struct request *r)
{
    size_t at = sizeof(struct srp_cmd) + 4 * r->more_cdb;
    struct srp_cmd m;
    any_bytes(&m, sizeof m);
    m.opcode = SRP_CMD;
    m.sol_not = unread_but(UCSOLNT | SCSOLNT, r->notification);
    m.buf_fmt = (u8)(r->out.format << 4 | r->in.format);
    m.data_out_desc_cnt = count_of(&r->out);
    m.data_in_desc_cnt = count_of(&r->in);
    SET(m.tag, r->tag);
    SET(m.lun, r->lun);
    m.add_cdb_len = unread_but(0xfc, r->more_cdb << 2);
    memcpy(msg, &m, sizeof m);
    any_bytes(msg + sizeof m, 4 * r->more_cdb);
    at += put_descriptor(msg + at, &r->out);
    at += put_descriptor(msg + at, &r->in);
    return at;
}

size_t build_task(uint8_t *msg, const struct request *r, uint8_t function, uint64_t managed)
{
    struct srp_tsk_mgmt m;
    any_bytes(&m, sizeof m);
    m.opcode = SRP_TSK_MGMT;
    m.sol_not = unread_but(UCSOLNT | SCSOLNT, r->notification);
    SET(m.tag, r->tag);
    SET(m.lun, r->lun);
    m.tsk_mgmt_func = function;
    SET(m.task_tag, managed);
    memcpy(msg, &m, sizeof m);
    return sizeof m;
}

size_t build_cred_rsp(uint8_t *msg, uint64_t tag)
{
    struct srp_cred_rsp m;
    any_bytes(&m, sizeof m);
    m.opcode = SRP_CRED_RSP;
    SET(m.tag, tag);
    memcpy(msg, &m, sizeof m);
    return sizeof m;
}

size_t build_i_logout(uint8_t *msg)
{
    struct srp_i_logout m;
    any_bytes(&m, sizeof m);
    m.opcode = SRP_I_LOGOUT;
    memcpy(msg, &m, sizeof m);
    return sizeof m;
}
