#include <string.h>

#include "model.h"

uint32_t buffer_length(const struct side *s)
{
    uint32_t sum = 0;
    unsigned i;
    for (i = 0; i < s->entries; i++)
        sum += s->segments[i].length;
    return sum;
}

uint32_t fetched_length(const struct side *s)
{
    uint32_t length = s->table_length;
    int whole = length % 16 == 0 && length >= 16 && length <= 512;
    return s->format == 2 && whole && length != 16 * s->copies ? length : 0;
}

int has_fetch(const struct request *r)
{
    return fetched_length(&r->out) || fetched_length(&r->in);
}

uint32_t data_length(const struct side *s)
{
    uint32_t b = buffer_length(s);
    return s->required < b ? s->required : b;
}

void name_move(struct side *s, uint32_t offset, uint32_t count)
{
    uint32_t room = data_length(s) - offset;
    s->at = offset;
    s->end = offset + (count < room ? count : room);
    s->operations = 0;
}

/* How many bytes from an address on lie before the next multiple of a boundary above it. */
static uint64_t room_before(uint64_t boundary, uint64_t address)
{
    return boundary ? boundary - address % boundary : UINT64_MAX;
}

int next_piece(const struct side *s, const struct channel *c, struct piece *p)
{
    uint32_t within = s->at;
    const struct segment *segment = s->segments;
    if (s->at >= s->end)
        return 0;
    while (within >= segment->length)
        within -= segment++->length;
    p->address = segment->address + within;
    p->handle = segment->handle;
    p->offset = s->at;
    p->length = segment->length - within;
    if (p->length > c->longest_piece)
        p->length = c->longest_piece;
    if (p->length > room_before(c->boundary, p->address))
        p->length = (uint32_t)room_before(c->boundary, p->address);
    if (p->length > s->end - s->at)
        p->length = s->end - s->at;
    p->left = segment->length - within - p->length;
    return 1;
}

void hand_out(struct side *s, const struct piece *p)
{
    s->at += p->length;
    s->handed += p->length;
    s->operations++;
    if (s->highest < s->at)
        s->highest = s->at;
}

int residual(const struct side *s, uint32_t *count)
{
    uint32_t b = buffer_length(s);
    *count = 0;
    if (s->required > b) {
        *count = s->required - b;
        return 1;
    }
    if (s->highest < b) {
        *count = b - s->highest;
        return -1;
    }
    return 0;
}

int64_t owed(const struct channel *c)
{
    return c->wanted - c->announced - c->held;
}

void begin_request(struct channel *c)
{
    c->announced--;
}

uint32_t delta_after(struct channel *c)
{
    int64_t d = owed(c);
    uint32_t delta = d > 0 ? (uint32_t)d : 0;
    c->announced += delta;
    return delta;
}

int is_between(const struct channel *c, const struct request *r)
{
    return r > c->commands && r < c->commands + c->held - 1;
}

int ended_before(const struct channel *c, uint64_t tag)
{
    unsigned i;
    for (i = 0; i < c->endings && i < MOST_COMMANDS; i++)
        if (c->ended[i] == tag)
            return 1;
    return 0;
}

struct request *find(struct channel *c, uint64_t tag)
{
    unsigned i;
    for (i = 0; i < c->held; i++)
        if (c->commands[i].tag == tag)
            return &c->commands[i];
    return NULL;
}

void drop(struct channel *c, struct request *r)
{
    c->ended[c->endings++ % MOST_COMMANDS] = r->tag;
    leave_line(c, r->tag, 0);
    leave_line(c, r->tag, 1);
    c->held--;
    memmove(r, r + 1, (size_t)(c->commands + c->held - r) * sizeof *r);
}
