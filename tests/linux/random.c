#include "random.h"

/* xorshift64* */
uint64_t any_number(void)
{
    static uint64_t state = 0x853c49e6748fea9b;
    state ^= state >> 12;
    state ^= state << 25;
    state ^= state >> 27;
    return state * 0x2545f4914f6cdd1d;
}

uint32_t from_to(uint32_t least, uint32_t most)
{
    return least + (uint32_t)((any_number() >> 16) % ((uint64_t)most - least + 1));
}

int one_in(uint32_t n)
{
    return from_to(1, n) == 1;
}

void any_bytes(void *to, size_t len)
{
    uint8_t *bytes = to;
    while (len--)
        *bytes++ = (uint8_t)(any_number() >> 24);
}
