#include <stdio.h>
#include <string.h>

#include "lent.h"
#include "srp_target.h"

enum { GUARD = 64, ROOM = SRP_STORE_BYTES, WHOLE = GUARD + ROOM + GUARD };

static const char *const names[REGIONS] = {
    "port", "store", "settings", "own", "msg", "out", "in", "sense", "list", "buf", "answer", "records",
};
static _Alignas(8) uint8_t memory[REGIONS][WHOLE];
static uint8_t expected[REGIONS][WHOLE];
static unsigned calls, failures;

uint8_t *lent(enum region r)
{
    return memory[r] + GUARD;
}

uint64_t *lent_words(enum region r)
{
    return (uint64_t *)(void *)lent(r);
}

void lay(enum region r, const void *bytes, size_t len)
{
    size_t i;
    for (i = 0; i < WHOLE; i++)
        memory[r][i] = (uint8_t)(1 + (i * 7 + (unsigned)r * 17) % 251);
    if (len)
        memcpy(lent(r), bytes, len);
}

void begin(void)
{
    memcpy(expected, memory, sizeof memory);
}

void expect(enum region r, size_t at, const void *bytes, size_t len)
{
    memcpy(expected[r] + GUARD + at, bytes, len);
}

void let_change(enum region r, size_t len)
{
    expect(r, 0, lent(r), len);
}

int changed(enum region r, size_t len)
{
    return memcmp(lent(r), expected[r] + GUARD, len) != 0;
}

void fail(const char *name, const char *what)
{
    printf("FAILED %s: %s\n", name, what);
    failures++;
}

static int agrees(const char *name, enum region r)
{
    size_t i;
    for (i = 0; i < WHOLE; i++) {
        if (memory[r][i] != expected[r][i]) {
            printf("FAILED %s: byte %ld of %s is %02x, not %02x\n", name, (long)i - GUARD, names[r], memory[r][i],
                   expected[r][i]);
            failures++;
            return 0;
        }
    }
    return 1;
}

void compare(const char *name, uint32_t returned, uint32_t number)
{
    int r;
    calls++;
    if (returned != number) {
        printf("FAILED %s: returned %u, not %u\n", name, (unsigned)returned, (unsigned)number);
        failures++;
        return;
    }
    for (r = 0; r < REGIONS; r++)
        if (!agrees(name, (enum region)r))
            return;
}

int tell(void)
{
    printf("C: %u calls, %u failed\n", calls, failures);
    return failures ? 1 : 0;
}
