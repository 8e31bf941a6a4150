/* Commands: taken, planned, finished. */
#include <string.h>

#include "decode.h"
#include "events.h"
#include "outside.h"
#include "port.h"
#include "random.h"
#include "tally.h"

static void is_fetch(const uint8_t *bytes, const struct side *s)
{
    uint32_t length = fetched_length(s);
    struct srp_direct_buf d;
    memcpy(&d, bytes, sizeof d);
    same("look", "va", GET(d.va), length ? s->table_address : 0);
    same("look", "key", GET(d.key), length ? s->table_handle : 0);
    same("look", "len", GET(d.len), length);
}

static void look_first(const struct channel *c, const struct request *r)
{
    uint8_t fetches[SRP_ANSWER_BYTES];
    uint32_t returned = srp_look(port.msg, port.msg_len, c->agreed, c->formats, fetches, sizeof fetches);
    same("look", "returned", returned, 0);
    is_fetch(fetches, &r->out);
    is_fetch(fetches + sizeof(struct srp_direct_buf), &r->in);
}

static void count_side(const struct side *s)
{
    if (s->format == SRP_DATA_DESC_DIRECT)
        count(DIRECT);
    if (s->format == SRP_DATA_DESC_INDIRECT)
        count(s->copies == s->entries ? INDIRECT_WHOLE : INDIRECT_FETCHED);
}

static void count_command(const struct request *r)
{
    count_side(&r->out);
    count_side(&r->in);
    if (r->out.format && r->in.format)
        count(BOTH_WAYS);
    if (r->more_cdb)
        count(LONG_CDBS);
}

/* A command is taken and open; with a fetch it waits. */
static void opens(struct channel *c, struct request *r)
{
    r->waiting = has_fetch(r);
    same("SRP_CMD", "returned", take_message(), 0);
    answered("SRP_CMD", (const uint64_t[SRP_ANSWER_WORDS]){0, SRP_KIND_COMMAND, r->tag, r->lun,
                                                           offsetof(struct srp_cmd, cdb), 16 + 4 * r->more_cdb,
                                                           (uint64_t)r->waiting});
    kept_from("SRP_CMD", 0);
    begin_request(c);
    if (ended_before(c, r->tag))
        count(TAGS_AGAIN);
    if (r->waiting)
        count(WAITING);
    c->commands[c->held++] = *r;
    count_command(r);
}

void new_command(struct channel *c)
{
    struct request r;
    if (c->announced <= 0)
        return;
    any_command(&r, c);
    port.msg_len = build_command(port.msg, &r);
    look_first(c, &r);
    build_table(r.tables[0], &r.out);
    build_table(r.tables[1], &r.in);
    opens(c, &r);
}

void is_bad_rsp(struct channel *c, const char *name, const struct request *r)
{
    struct response a = {.flags = SRP_RSP_FLAG_RSPVALID, .has_code = 1, .code = FIELDS_INVALID};
    a.tag = r->tag;
    a.delta = delta_after(c);
    a.solnt = r->notification & UCSOLNT;
    answered(name, (const uint64_t[SRP_ANSWER_WORDS]){40});
    kept_from(name, 40);
    is_rsp(name, port.buf, port.answer[0], &a);
}

/* Without a fetch taken, answered and ended in one call; else its tables will end it. */
void bad_command(struct channel *c)
{
    struct request r;
    if (c->announced <= 0)
        return;
    any_command(&r, c);
    build_table(r.tables[0], &r.out);
    build_table(r.tables[1], &r.in);
    r.bad = spoil(&r.out, r.tables[0]);
    r.bad |= one_in(3) || !r.bad ? spoil(&r.in, r.tables[1]) : 0;
    if (!r.bad)
        return;
    port.msg_len = build_command(port.msg, &r);
    look_first(c, &r);
    if (has_fetch(&r)) {
        opens(c, &r);
        return;
    }
    same("bad fields", "returned", take_message(), SRP_REFUSED_FIELDS);
    begin_request(c);
    is_bad_rsp(c, "SRP_RSP to bad fields", &r);
    count(BAD_FIELDS);
}

void plan_one(struct channel *c)
{
    struct request *r = any_open(c);
    if (!r || r->planned)
        return;
    if (r->waiting) {
        same("plan", "returned", srp_target_plan(port.words, r->tag, 1, 1), SRP_REFUSED_WAITING);
        count(CALLS_WAITING);
        return;
    }
    r->out.required = any_required(&r->out);
    r->in.required = any_required(&r->in);
    r->planned = 1;
    same("plan", "returned", srp_target_plan(port.words, r->tag, r->out.required, r->in.required), 0);
}

/* Where R is not above B, and h is not the number of bytes handed out. */
static void count_handed(const struct side *s, int over)
{
    if (over <= 0 && s->highest != s->handed)
        count(s->highest < s->handed ? BELOW_HANDED : ABOVE_HANDED);
}

/* Flags and counts of the residuals. */
static void put_residuals(struct response *a, const struct request *r)
{
    int out = residual(&r->out, &a->out), in = residual(&r->in, &a->in);
    a->flags |= out > 0 ? SRP_RSP_FLAG_DOOVER : out < 0 ? SRP_RSP_FLAG_DOUNDER : 0;
    a->flags |= in > 0 ? SRP_RSP_FLAG_DIOVER : in < 0 ? SRP_RSP_FLAG_DIUNDER : 0;
    if (out)
        count(out > 0 ? OUT_OVER : OUT_UNDER);
    if (in)
        count(in > 0 ? IN_OVER : IN_UNDER);
    if (!out && !in)
        count(NO_RESIDUAL);
    count_handed(&r->out, out);
    count_handed(&r->in, in);
}

/* A command that waits is not finished. */
static void unfinished(uint64_t tag)
{
    lend();
    same("finish", "returned", srp_target_finish(port.words, tag, 0, NULL, 0, port.buf, SRP_MESSAGE_BYTES, port.answer),
         SRP_REFUSED_WAITING);
    kept_from("finish", 0);
    count(CALLS_WAITING);
}

void finish_one(struct channel *c)
{
    struct request *r = any_open(c);
    uint8_t sense[SRP_SENSE_BYTES];
    struct response a = {.sense = sense};
    if (!r)
        return;
    if (r->waiting) {
        unfinished(r->tag);
        return;
    }
    any_bytes(sense, sizeof sense);
    a.tag = r->tag;
    a.status = one_in(2) ? 0 : one_in(2) ? 0x02 : (uint8_t)any_number();
    a.sense_len = a.status == 0x02 ? from_to(0, SRP_SENSE_BYTES) : 0;
    a.solnt = r->notification & (a.status ? UCSOLNT : SCSOLNT);
    a.flags = a.sense_len ? SRP_RSP_FLAG_SNSVALID : 0;
    put_residuals(&a, r);
    if (is_between(c, r))
        count(FINISHED_BETWEEN);
    if (has_moves(c, r->tag))
        count(FINISHED_IN_LINE);
    drop(c, r);
    a.delta = delta_after(c);
    lend();
    same("finish", "returned", srp_target_finish(port.words, a.tag, a.status, sense, a.sense_len, port.buf,
                                                 SRP_MESSAGE_BYTES, port.answer), 0);
    answered("finish", (const uint64_t[SRP_ANSWER_WORDS]){36 + a.sense_len});
    kept_from("finish", 36 + a.sense_len);
    is_rsp("SRP_RSP of finish", port.buf, port.answer[0], &a);
    count(FINISHED);
    if (a.sense_len)
        count(WITH_SENSE);
}
