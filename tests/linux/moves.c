/* Moves: named, and handed out piece by piece. */
#include "events.h"
#include "port.h"
#include "random.h"
#include "tally.h"

static uint32_t refusal_of(const struct request *r, const struct side *s, uint32_t offset)
{
    if (r->waiting)
        return SRP_REFUSED_WAITING;
    if (!r->planned)
        return SRP_REFUSED_UNPLANNED;
    if (offset > data_length(s))
        return SRP_REFUSED_OFFSET;
    return s->at < s->end ? SRP_REFUSED_UNFINISHED : 0;
}

static void count_refusal(uint32_t refusal)
{
    if (refusal == SRP_REFUSED_WAITING)
        count(CALLS_WAITING);
    if (refusal == SRP_REFUSED_UNPLANNED)
        count(MOVES_UNPLANNED);
    if (refusal == SRP_REFUSED_OFFSET)
        count(MOVES_ABOVE);
    if (refusal == SRP_REFUSED_UNFINISHED)
        count(MOVES_UNFINISHED);
}

/* A move that is named: empty; else where it starts and what is trimmed. */
static void count_move(const struct side *s, uint32_t offset, uint32_t bytes)
{
    uint64_t past = (uint64_t)offset + bytes;
    if (s->at == s->end) {
        count(EMPTY_MOVES);
        return;
    }
    if (offset && !s->highest)
        count(MIDDLE_FIRST);
    if (offset < s->highest)
        count(BACKWARDS);
    if (past > s->end)
        count(past > UINT32_MAX ? PAST_2_32 : TRIMMED);
}

static void name_one(struct channel *c, struct request *r, struct side *s, uint32_t in)
{
    uint32_t offset, bytes, refusal;
    any_move(s, &offset, &bytes);
    refusal = refusal_of(r, s, offset);
    same("move", "returned", srp_target_move(port.words, r->tag, in, offset, bytes), refusal);
    count_refusal(refusal);
    if (refusal)
        return;
    name_move(s, offset, bytes);
    count_move(s, offset, bytes);
    if (s->at < s->end)
        join_line(c, r->tag, in);
}

/* It may have all bytes between, or end at the second and at nothing else. */
void judge_piece(const struct channel *c, const struct side *s, const struct piece *p)
{
    uint64_t q = c->boundary, first = port.answer[3], last = first + port.answer[4] - 1;
    count(PIECES);
    if (!q)
        return;
    same("piece", "boundaries below its last byte", last / q, first / q);
    if (p->left && p->length < c->longest_piece && s->at < s->end)
        count(UP_TO_BOUNDARY);
    if (p->length == q)
        count(BETWEEN_BOUNDARIES);
}

/* The last piece of a move takes it out of the line, from wherever it stands. */
static void count_last(struct channel *c, uint64_t tag, uint32_t in)
{
    int at = in_line(c, tag, in);
    if (at == 0)
        count(LAST_OF_FIRST);
    else
        count(at + 1 < (int)c->moves ? LAST_BETWEEN : LAST_OF_LAST);
    leave_line(c, tag, in);
}

static void step_once(struct channel *c, uint64_t tag, struct side *s, uint32_t in)
{
    struct piece p;
    lend();
    same("step", "returned", srp_target_step(port.words, port.store, tag, in, port.answer), 0);
    if (!next_piece(s, c, &p)) {
        answered("done", (const uint64_t[SRP_ANSWER_WORDS]){0, 0, 0, 0, 0, 0, s->operations});
        if (s->operations > 1)
            count(DONES);
        return;
    }
    hand_out(s, &p);
    answered("piece", (const uint64_t[SRP_ANSWER_WORDS]){1, in ? SRP_RDMA_WRITE : SRP_RDMA_READ, p.handle, p.address,
                                                         p.length, p.offset, s->operations});
    judge_piece(c, s, &p);
    if (s->at == s->end)
        count_last(c, tag, in);
}

static void step_side(struct channel *c, struct request *r, uint32_t in, uint32_t steps)
{
    while (steps--)
        step_once(c, r->tag, in ? &r->in : &r->out, in);
}

/* Moves of one direction, one after the other, each stepped or not. */
void move_some(struct channel *c)
{
    struct request *r = any_open(c);
    uint32_t in = from_to(0, 1), moves = from_to(1, 4);
    if (!r)
        return;
    while (moves--) {
        name_one(c, r, in ? &r->in : &r->out, in);
        if (r->planned && one_in(2))
            step_side(c, r, in, from_to(1, 30));
    }
}

/* A move each way of every command that can have one: many are in line. */
void move_all(struct channel *c)
{
    unsigned i;
    for (i = 0; i < c->held; i++) {
        struct request *r = &c->commands[i];
        name_one(c, r, &r->out, 0);
        name_one(c, r, &r->in, 1);
    }
}

/* Of a move in line, or of any direction. */
void step_some(struct channel *c)
{
    struct request *r = any_open(c);
    uint32_t in = from_to(0, 1), steps = from_to(1, 8);
    if (c->moves && one_in(2)) {
        struct place place = c->line[from_to(0, c->moves - 1)];
        r = find(c, place.tag);
        in = (uint32_t)place.in;
    }
    if (r && r->planned)
        step_side(c, r, in, steps);
    if (r && r->waiting)
        same("step", "returned", srp_target_step(port.words, port.store, r->tag, in, port.answer), SRP_REFUSED_WAITING);
}
