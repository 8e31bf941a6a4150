/* Words of a port that are all 0, and words that are copied. */
#include <string.h>

#include "calls.h"
#include "cases.h"

enum { M = 512 };

/* Words that are all 0 are a closed port. */
static void all_zero(void)
{
    static const uint64_t zeros[SRP_PORT_WORDS];
    lay(PORT, zeros, sizeof zeros);
    take("words of 0", SRP_REFUSED_CLOSED, NOTHING, command(1, 0, 0), 132);
    tables("words of 0", SRP_REFUSED_CLOSED, NOTHING, 0, NO_BYTES, NO_BYTES, 132);
    plan("words of 0", SRP_REFUSED_CLOSED, 0, 0, 0);
    move("words of 0", SRP_REFUSED_CLOSED, 0, 0, 0, 0);
    step("words of 0", SRP_REFUSED_CLOSED, NOTHING, 0, 0);
    turn("words of 0", SRP_REFUSED_CLOSED, NOTHING);
    finish("words of 0", SRP_REFUSED_CLOSED, NOTHING, 0, 0, NO_BYTES, 132);
    add("words of 0", SRP_REFUSED_CLOSED, 1);
    withdraw("words of 0", SRP_REFUSED_CLOSED, 1);
    grant("words of 0", SRP_REFUSED_CLOSED, NOTHING, 132);
    close_channel("words of 0", SRP_REFUSED_CLOSED, NOTHING, 0, 132);
    counters("words of 0", SRP_REFUSED_CLOSED, 0, 0, 0, 0);
    list("words of 0", SRP_REFUSED_CLOSED, SRP_LIST_WORDS, 0, NULL);
}

/* A port's words and its store may be copied together between calls. */
static void copied(void)
{
    static uint64_t port[SRP_PORT_WORDS];
    static uint8_t store[SRP_STORE_BYTES];
    static const uint8_t direct[16] = {0, 0, 0, 0, 0, 0, 0x10, 0, 0, 0, 0, 7, 0, 0, 0x05, 0x14};
    opened(2, M);
    taken("before the copy", command_with(5, 0, 0x01, 0, 0, BYTES(direct)));
    taken("before the copy", command_with(6, 0, 0x01, 0, 0, BYTES(direct)));
    planned("before the copy", 6, 0, 1300);
    memcpy(port, lent(PORT), sizeof port);
    memcpy(store, lent(STORE), sizeof store);
    opened(1, 1);
    lay(PORT, port, sizeof port);
    lay(STORE, store, sizeof store);
    planned("after the copy", 5, 0, 1300);
    piece("after the copy", 5, 1, 7, 0x1000, 512, 0, 1);
    served("after the copy", 6, 1, 7, 0x1000, 512, 0, 1);
    served("after the copy", 5, 1, 7, 0x1200, 512, 512, 2);
}

void words_cases(void)
{
    all_zero();
    copied();
}
