/* P1 to P10 of document 01, through the calls on a port. */
#include "calls.h"
#include "cases.h"

enum { M = 512, DIUNDER = 0x20, DIOVER = 0x10 };

/* In-direct: 1000h, handle 7, length 1,300. */
static void p1(void)
{
    static const uint8_t direct[16] = {0, 0, 0, 0, 0, 0, 0x10, 0, 0, 0, 0, 7, 0, 0, 0x05, 0x14};
    opened(4, M);
    taken("P1", command_with(1, 0, 0x01, 0, 0, BYTES(direct)));
    planned("P1, plan", 1, 0, 1300);
    piece("P1, first", 1, SRP_DIRECTION_IN, 7, 0x1000, 512, 0, 1);
    piece("P1, second", 1, SRP_DIRECTION_IN, 7, 0x1200, 512, 512, 2);
    piece("P1, third", 1, SRP_DIRECTION_IN, 7, 0x1400, 276, 1024, 3);
    done("P1, done", 1, SRP_DIRECTION_IN, 3);
}

/* A table of 48 bytes, all of it copied into the message, total 700: segments 2000h/0, 3000h/600, 5000h/100. */
static const uint8_t three_segments[68] = {
    0, 0, 0, 0, 0, 0, 0x90, 0, 0, 0, 0, 5, 0, 0, 0, 48, 0, 0, 0x02, 0xbc,
    0, 0, 0, 0, 0, 0, 0x20, 0, 0, 0, 0, 7, 0, 0, 0, 0,
    0, 0, 0, 0, 0, 0, 0x30, 0, 0, 0, 0, 7, 0, 0, 0x02, 0x58,
    0, 0, 0, 0, 0, 0, 0x50, 0, 0, 0, 0, 7, 0, 0, 0, 100,
};

/* All steps with R, of which the last piece has `last` bytes; then the residual. */
static void three(const char *name, uint32_t r, uint64_t last, struct residuals residuals)
{
    opened(1, M);
    taken(name, command_with(1, 0, 0x02, 0, 3, BYTES(three_segments)));
    planned(name, 1, 0, r);
    piece(name, 1, SRP_DIRECTION_IN, 7, 0x3000, 512, 0, 1);
    piece(name, 1, SRP_DIRECTION_IN, 7, 0x3200, 88, 512, 2);
    piece(name, 1, SRP_DIRECTION_IN, 7, 0x5000, last, 600, 3);
    done(name, 1, SRP_DIRECTION_IN, 3);
    finished(name, 1, 1, residuals);
}

/* P5, P6 and P7: lengths. */
static void lengths(void)
{
    static const uint8_t table[32] = {
        0, 0, 0, 0, 0, 0, 0x60, 0, 0, 0, 0, 8, 0, 0, 0, 10,
        0, 0, 0, 0, 0, 0, 0x70, 0, 0, 0, 0, 9, 0, 0, 0, 10,
    };
    uint8_t indirect[52] = {0, 0, 0, 0, 0, 0, 0x90, 0, 0, 0, 0, 5, 0, 0, 0, 32, 0, 0, 0, 20};
    uint8_t longer[52] = {0x02, [15] = 2, [31] = 0x07};
    struct bytes short_command;
    size_t i;
    for (i = 0; i < sizeof table; i++)
        indirect[20 + i] = table[i];
    opened(4, M);
    taken("P5, 48 bytes", command(1, 0, 0));
    taken("P6, n = 1, 52 bytes", BYTES(longer));
    waits("P7, c = 0, 68 bytes", command_with(3, 0, 0x20, 0, 0, (struct bytes){indirect, 20}));
    brought("P7, c = 0, its table", 3, BYTES(table), NO_BYTES);
    taken("P7, c = 2, 100 bytes", command_with(4, 0, 0x20, 2, 0, BYTES(indirect)));
    short_command = command(5, 0, 0);
    short_command.len = 47;
    take("P5, 47 bytes", SRP_REFUSED_LENGTH, (struct after){CLOSED, {16}, target_logout(1, 0)}, short_command, 132);
}

/* P8 to P10: credit. */
static void credit(void)
{
    opened(4, M);
    taken("P8, first", command(1, 0, 0));
    taken("P8, second", command(2, 0, 0));
    withdraw("P8", 0, 3);
    counters("P8, D = -3", 0, 1, 2, 2, -3);
    finished("P9, first", 1, 0, NO_RESIDUALS);
    finished("P9, second", 2, 0, NO_RESIDUALS);
    counters("P9, D = -1", 0, 1, 2, 0, -1);
    taken("P10, third", command(3, 0, 0));
    finished("P10, third", 3, 0, NO_RESIDUALS);
    taken("P10, fourth", command(4, 0, 0));
    finished("P10, fourth", 4, 1, NO_RESIDUALS);
    counters("P10", 0, 1, 1, 0, 0);
}

void points(void)
{
    p1();
    three("P2", 700, 100, NO_RESIDUALS);
    three("P3", 650, 50, (struct residuals){DIUNDER, 0, 50});
    three("P4", 800, 100, (struct residuals){DIOVER, 0, 100});
    lengths();
    credit();
}
