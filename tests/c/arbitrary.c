#include "arbitrary.h"
#include "lent.h"
#include "srp_target.h"

/* xorshift. */
uint64_t next(void)
{
    static uint64_t state = 0x9e3779b97f4a7c15;
    state ^= state << 13;
    state ^= state >> 7;
    state ^= state << 17;
    return state;
}

uint32_t any_size(void)
{
    return (uint32_t)next() >> (next() >> 59);
}

uint64_t some_boundary(void)
{
    static const uint64_t some[8] = {0, 512, 4096, SRP_GREATEST_BOUNDARY, 1, 511, 768, 2 * SRP_GREATEST_BOUNDARY};
    return some[next() >> 61];
}

/* What the command of a slot waits with: mostly nothing each way, or a table of up to 3 entries without a copy. */
static void some_descriptors(uint64_t *slot)
{
    unsigned at;
    slot[WAITS] = next() >> 62 == 0;
    for (at = OUT_WORDS; at <= IN_WORDS; at += 4)
        if (next() >> 62) {
            slot[at] = 2 * (next() >> 63);
            slot[at + 1] = 0;
            slot[at + 2] = 16 * (next() >> 62);
            slot[at + 3] = 0;
        }
}

/* Mostly moves of the commands in the slots, from any place on. */
static void some_line(uint64_t *words)
{
    unsigned i;
    for (i = 0; i < LINE_MOVES; i++)
        if (next() >> 62)
            words[LINE_PLACES + 2 * i] = words[SLOTS + SLOT * (next() >> 61)];
}

struct in_line first_in_line(void)
{
    const uint64_t *port = lent_words(PORT), *place = port + LINE_PLACES + 2 * (port[LINE_FIRST] % LINE_MOVES);
    uint64_t count = port[LINE_COUNT];
    return (struct in_line){count < LINE_MOVES ? (unsigned)count : LINE_MOVES, place[0], (int)(place[1] % 2)};
}

/* Large numbers and small ones; an odd first word is an open port's, and most are. */
void arbitrary_port(void)
{
    static const uint64_t masks[4] = {3, 15, 31, UINT64_MAX};
    uint64_t words[SRP_PORT_WORDS];
    unsigned i;
    for (i = 0; i < SRP_PORT_WORDS; i++)
        words[i] = next() & masks[next() >> 62];
    words[0] |= next() >> 62 != 0;
    words[BOUNDARY] = some_boundary();
    for (i = 0; i < 16; i++)
        some_descriptors(words + SLOTS + SLOT * i);
    some_line(words);
    lay(PORT, words, sizeof words);
    lay(STORE, NULL, 0);
}
