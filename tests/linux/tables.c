/* Tables brought to commands that wait. */
#include "events.h"
#include "port.h"
#include "random.h"
#include "tally.h"

static uint32_t call_tables(uint64_t tag, const struct request *r, uint32_t out_len, uint32_t in_len)
{
    lend();
    return srp_target_tables(port.words, port.store, tag, r->tables[0], out_len, r->tables[1], in_len, port.buf,
                             SRP_MESSAGE_BYTES, port.answer);
}

static void refused(const char *name, uint32_t returned, uint32_t refusal)
{
    same(name, "returned", returned, refusal);
    answered(name, (const uint64_t[SRP_ANSWER_WORDS]){0});
    kept_from(name, 0);
}

/* Of a tag that is not open, and of a command that does not wait, whatever the lengths are. */
static void not_waiting(struct channel *c, const struct request *r)
{
    uint64_t tag = any_number();
    uint32_t out_len = from_to(0, LONGEST_TABLE), in_len = from_to(0, LONGEST_TABLE);
    if (!find(c, tag)) {
        refused("tables, not open", call_tables(tag, r, out_len, in_len), SRP_REFUSED_TAG_NOT_OPEN);
        count(TABLES_NOT_OPEN);
    }
    if (!r->waiting) {
        refused("tables, not waiting", call_tables(r->tag, r, out_len, in_len), SRP_REFUSED_WAITING);
        count(TABLES_READY);
    }
}

/* One table has another length, its content right or not: the command waits on. */
static void of_another_length(const struct request *r)
{
    uint32_t out_len = fetched_length(&r->out), in_len = fetched_length(&r->in);
    uint32_t *len = one_in(2) ? &out_len : &in_len, right = *len;
    while (*len == right)
        *len = one_in(2) ? 16 * from_to(0, 32) : from_to(0, LONGEST_TABLE);
    refused("tables of another length", call_tables(r->tag, r, out_len, in_len), SRP_REFUSED_TABLE_LENGTH);
    count(TABLES_LENGTH);
}

/* Whether an older command waits too. */
static int is_early(const struct channel *c, const struct request *r)
{
    const struct request *older;
    for (older = c->commands; older < r; older++)
        if (older->waiting)
            return 1;
    return 0;
}

static void bring(struct channel *c, struct request *r)
{
    uint32_t returned = call_tables(r->tag, r, fetched_length(&r->out), fetched_length(&r->in));
    struct request ended;
    if (is_early(c, r))
        count(TABLES_EARLY);
    if (!r->bad) {
        refused("tables", returned, 0);
        r->waiting = 0;
        count(TABLES);
        return;
    }
    same("bad tables", "returned", returned, SRP_REFUSED_FIELDS);
    ended = *r;
    drop(c, r);
    is_bad_rsp(c, "SRP_RSP to bad tables", &ended);
    count(TABLES_BAD);
}

void bring_one(struct channel *c)
{
    struct request *r = any_open(c);
    if (!r)
        return;
    if (!r->waiting || one_in(8))
        not_waiting(c, r);
    if (!r->waiting)
        return;
    if (one_in(4))
        of_another_length(r);
    bring(c, r);
}
