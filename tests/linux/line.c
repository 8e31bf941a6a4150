/* The line: the moves that have pieces left, the next to be served first. */
#include <string.h>

#include "model.h"

void join_line(struct channel *c, uint64_t tag, uint32_t in)
{
    c->line[c->moves++] = (struct place){tag, in != 0};
}

/* Takes the place at a number off, and closes up. */
static void take_off(struct channel *c, unsigned at)
{
    c->moves--;
    memmove(c->line + at, c->line + at + 1, (c->moves - at) * sizeof *c->line);
}

int in_line(const struct channel *c, uint64_t tag, uint32_t in)
{
    unsigned i;
    for (i = 0; i < c->moves; i++)
        if (c->line[i].tag == tag && c->line[i].in == (in != 0))
            return (int)i;
    return -1;
}

int has_moves(const struct channel *c, uint64_t tag)
{
    return in_line(c, tag, 0) >= 0 || in_line(c, tag, 1) >= 0;
}

void leave_line(struct channel *c, uint64_t tag, uint32_t in)
{
    int at = in_line(c, tag, in);
    if (at >= 0)
        take_off(c, (unsigned)at);
}

int first_in_line(struct channel *c, struct place *first)
{
    if (!c->moves)
        return 0;
    *first = c->line[0];
    take_off(c, 0);
    return 1;
}
