/* Turns: the move that is first in line is served, and put back at its end if pieces are left. */
#include "events.h"
#include "port.h"
#include "random.h"
#include "tally.h"

/* No move has pieces: every word of the answer is 0. */
static void is_idle(const struct channel *c)
{
    unsigned i;
    answered("idle", (const uint64_t[SRP_ANSWER_WORDS]){0});
    for (i = 0; i < c->held; i++) {
        const struct request *r = &c->commands[i];
        same("idle", "bytes left", r->out.at < r->out.end || r->in.at < r->in.end, 0);
    }
    count(c->held ? IDLE_TURNS : IDLE_CHANNELS);
}

static void is_served(struct channel *c, struct place first)
{
    struct request *r = find(c, first.tag);
    struct side *s = first.in ? &r->in : &r->out;
    struct piece p;
    same("turn", "has a piece", (uint64_t)next_piece(s, c, &p), 1);
    hand_out(s, &p);
    answered("turn", (const uint64_t[SRP_ANSWER_WORDS]){1, first.in ? SRP_RDMA_WRITE : SRP_RDMA_READ, p.handle,
                                                        p.address, p.length, p.offset, s->operations, first.tag});
    judge_piece(c, s, &p);
    if (s->at < s->end) {
        count(c->moves ? PUT_BACK_BEHIND : PUT_BACK_ALONE);
        join_line(c, first.tag, first.in);
    } else {
        count(LAST_BY_TURN);
    }
}

static void turn_once(struct channel *c)
{
    struct place first;
    lend();
    same("turn", "returned", srp_target_turn(port.words, port.store, port.answer), 0);
    if (first_in_line(c, &first))
        is_served(c, first);
    else
        is_idle(c);
}

void turn_some(struct channel *c)
{
    uint32_t turns = one_in(8) ? from_to(30, 70) : from_to(1, 6);
    while (turns--)
        turn_once(c);
}
