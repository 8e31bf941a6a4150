/* srp_target_move: the bytes that it names, by the pieces that step then hands out, and its refusals. */
#include "calls.h"
#include "cases.h"

enum { N = 3, M = 512, TAG = 0x1234, DOUNDER = 0x08, DIOVER = 0x10, DIUNDER = 0x20 };

static void both_open(uint32_t r_out, uint32_t r_in)
{
    opened(N, M);
    taken("both ways", command_both_ways(TAG, 0));
    plan("plan", 0, TAG, r_out, r_in);
}

/* A move of one piece of `length` bytes, and then done. */
static void moves_out(const char *name, uint32_t offset, uint32_t count, uint64_t length)
{
    move(name, 0, TAG, 0, offset, count);
    piece(name, TAG, 0, 7, 0x1000ull + offset, length, offset, 1);
    done(name, TAG, 0, 1);
}

static void moves_in(const char *name, uint32_t offset, uint32_t count, uint64_t length)
{
    move(name, 0, TAG, 1, offset, count);
    piece(name, TAG, 1, 9, 0x5000ull + offset, length, offset, 1);
    done(name, TAG, 1, 1);
}

static void moves_nothing(const char *name, uint32_t direction, uint32_t offset, uint32_t count)
{
    named(name, TAG, direction, offset, count);
    done(name, TAG, direction, 0);
}

/* h each way, of the only open command. */
static void highest(const char *name, uint64_t out, uint64_t in)
{
    const uint64_t record[1][SRP_RECORD_WORDS] = {{TAG, 0, out, in}};
    list(name, 0, SRP_LIST_WORDS, 1, record);
}

/* Offset 600 and count 650 out, 100 and 90 in. Exchanged, it would give
 *   offset and count       first pieces at 650 and 90
 *   direction and offset   no piece out
 *   direction and count    no piece out
 *   tag and another        24 */
static void arguments(void)
{
    both_open(1300, 700);
    done("plan alone, out", TAG, 0, 0);
    done("plan alone, in", TAG, 1, 0);
    move("out", 0, TAG, 0, 600, 650);
    done("in has none yet", TAG, 1, 0);
    move("in", 0, TAG, 1, 100, 90);
    piece("first out", TAG, 0, 7, 0x1258, 512, 600, 1);
    piece("all in", TAG, 1, 9, 0x5064, 90, 100, 1);
    piece("last out", TAG, 0, 7, 0x1458, 138, 1112, 2);
    done("done out", TAG, 0, 2);
    done("done in", TAG, 1, 1);
    highest("both", 1250, 190);
}

/* Every direction but 0 is in. */
static void directions(void)
{
    both_open(1300, 700);
    move("direction 2", 0, TAG, 2, 10, 20);
    piece("direction 2", TAG, 1, 9, 0x500a, 20, 10, 1);
    move("direction 2^31", 0, TAG, 0x80000000, 20, 30);
    piece("direction 2^31", TAG, 1, 9, 0x5014, 30, 20, 1);
    move("direction 256", 0, TAG, 0x100, 30, 40);
    piece("direction 256", TAG, 1, 9, 0x501e, 40, 30, 1);
    done("out has none", TAG, 0, 0);
    highest("in alone", 0, 70);
}

/* Data-in by a table of 64 bytes, all of it copied, total 700: 2000h/0, 3000h/600, 4000h/0, 5000h/100. */
static const uint8_t four_segments[84] = {
    0, 0, 0, 0, 0, 0, 0x90, 0, 0, 0, 0, 5, 0, 0, 0, 64, 0, 0, 0x02, 0xbc,
    0, 0, 0, 0, 0, 0, 0x20, 0, 0, 0, 0, 1, 0, 0, 0, 0,
    0, 0, 0, 0, 0, 0, 0x30, 0, 0, 0, 0, 2, 0, 0, 0x02, 0x58,
    0, 0, 0, 0, 0, 0, 0x40, 0, 0, 0, 0, 3, 0, 0, 0, 0,
    0, 0, 0, 0, 0, 0, 0x50, 0, 0, 0, 0, 4, 0, 0, 0, 100,
};

/* Moves that start inside a segment and at its start; M counts from the move's own offset. */
static void segments(void)
{
    opened(N, M);
    taken("four segments", command_with(TAG, 0, 0x02, 0, 4, BYTES(four_segments)));
    plan("four segments", 0, TAG, 0, 700);
    move("into the last", 0, TAG, 1, 550, 100);
    piece("into the last", TAG, 1, 2, 0x3226, 50, 550, 1);
    piece("into the last", TAG, 1, 4, 0x5000, 50, 600, 2);
    done("into the last", TAG, 1, 2);
    move("the last", 0, TAG, 1, 600, 100);
    piece("the last", TAG, 1, 4, 0x5000, 100, 600, 1);
    done("the last", TAG, 1, 1);
    move("M from 80 on", 0, TAG, 1, 80, 521);
    piece("M from 80 on", TAG, 1, 2, 0x3050, 512, 80, 1);
    piece("M from 80 on", TAG, 1, 2, 0x3250, 8, 592, 2);
    piece("M from 80 on", TAG, 1, 4, 0x5000, 1, 600, 3);
    done("M from 80 on", TAG, 1, 3);
    move("from the start", 0, TAG, 1, 0, 1);
    piece("from the start", TAG, 1, 2, 0x3000, 1, 0, 1);
    done("from the start", TAG, 1, 1);
}

/* A move ends at min(R, B): R 650 of 1,300 out, 2,000 of 700 in. */
static void trimmed(void)
{
    both_open(650, 2000);
    moves_out("one byte short of R", 600, 49, 49);
    moves_out("up to R", 600, 50, 50);
    moves_out("one byte past R", 600, 51, 50);
    moves_out("past B", 600, 1000, 50);
    moves_in("one byte short of B", 690, 9, 9);
    moves_in("up to B", 690, 10, 10);
    moves_in("one byte past B", 690, 11, 10);
    moves_in("past R", 690, 5000, 10);
    /* The sum is 2^32 + 599, 2^32 and 2^32 + 4. */
    moves_out("past 2^32", 600, 0xffffffff, 50);
    moves_in("2^32", 690, 0xfffffd4e, 10);
    move("past 2^32, from 5", 0, TAG, 1, 5, 0xffffffff);
    piece("past 2^32, from 5", TAG, 1, 9, 0x5005, 512, 5, 1);
    piece("past 2^32, from 5", TAG, 1, 9, 0x5205, 183, 517, 2);
    done("past 2^32, from 5", TAG, 1, 2);
    highest("all", 650, 700);
    finished("all", TAG, 1, (struct residuals){DOUNDER | DIOVER, 650, 1300});
}

/* B and R are 2^32 - 1, the most that can be. */
static void longest(void)
{
    static const uint8_t direct[16] = {0, 0, 0, 0, 0, 0, 0x10, 0, 0, 0, 0, 7, 0xff, 0xff, 0xff, 0xff};
    opened(N, SRP_LONGEST_PIECE);
    taken("longest", command_with(TAG, 0, 0x10, 0, 0, BYTES(direct)));
    plan("longest", 0, TAG, 0xffffffff, 0);
    moves_out("the last byte", 0xfffffffe, 0xffffffff, 1);
    highest("the last byte", 0xffffffff, 0);
    moves_nothing("behind it", 0, 0xffffffff, 0xffffffff);
    move("half of it", 0, TAG, 0, 0, 0x80000000);
    piece("half of it", TAG, 0, 7, 0x1000, SRP_LONGEST_PIECE, 0, 1);
    highest("half of it", 0xffffffff, 0);
    finished("longest", TAG, 1, NO_RESIDUALS);
}

/* Moves of no bytes are lawful; they hold up no other, and change no h. */
static void empty(void)
{
    both_open(650, 0);
    moves_nothing("count 0", 0, 0, 0);
    moves_nothing("count 0, inside", 0, 300, 0);
    moves_nothing("at min(R, B), count 0", 0, 650, 0);
    moves_nothing("at min(R, B)", 0, 650, 1);
    moves_nothing("at min(R, B), past 2^32", 0, 650, 0xffffffff);
    moves_nothing("R = 0", 1, 0, 1);
    highest("nothing handed out", 0, 0);
    moves_out("after empty ones", 100, 200, 200);
    moves_nothing("count 0, below h", 0, 0, 0);
    moves_nothing("at min(R, B), above h", 0, 650, 1);
    highest("h as it was", 300, 0);
    finished("empty", TAG, 1, (struct residuals){DOUNDER | DIUNDER, 1000, 700});
}

/* Without descriptors min(R, B) is 0. */
static void no_buffer(void)
{
    opened(N, M);
    taken("no data", command(TAG, 0, 0));
    plan("no data", 0, TAG, 5, 0);
    moves_nothing("no data", 0, 0, 5);
    moves_nothing("no data, in", 1, 0, 0);
    move("31, no data", SRP_REFUSED_OFFSET, TAG, 0, 1, 4);
}

/* 21 before 24, 24 before 29, 29 before 31. */
static void unplanned(void)
{
    opened(N, M);
    taken("both ways", command_both_ways(TAG, 0));
    move("move 29", SRP_REFUSED_UNPLANNED, TAG, 0, 0, 0);
    move("move 29, in", SRP_REFUSED_UNPLANNED, TAG, 1, 0, 1);
    move("move 29 before 31", SRP_REFUSED_UNPLANNED, TAG, 0, 0xffffffff, 1);
    move("move 24", SRP_REFUSED_TAG_NOT_OPEN, TAG + 1, 0, 0, 0);
    move("move 24, high half of the tag", SRP_REFUSED_TAG_NOT_OPEN, TAG | 1ull << 32, 0, 0, 0);
    plan("plan", 0, TAG, 0, 0);
    close_channel("close", 0, (struct after){CLOSED, {16}, target_logout(1, 0)}, 0, 132);
    move("move 21", SRP_REFUSED_CLOSED, TAG, 0, 0, 0);
    move("move 21 before 31", SRP_REFUSED_CLOSED, TAG, 0, 1, 0);
}

/* 31 above min(R, B), whichever of the two it is; at it: empty. */
static void offsets(void)
{
    both_open(650, 2000);
    move("31, above R", SRP_REFUSED_OFFSET, TAG, 0, 651, 0);
    move("31, at B above R", SRP_REFUSED_OFFSET, TAG, 0, 1300, 1);
    move("31, above B", SRP_REFUSED_OFFSET, TAG, 1, 701, 0);
    move("31, at R above B", SRP_REFUSED_OFFSET, TAG, 1, 2000, 1);
    move("31, highest offset", SRP_REFUSED_OFFSET, TAG, 1, 0xffffffff, 0xffffffff);
    moves_out("the last byte", 649, 1, 1);
    moves_in("the last byte", 699, 1, 1);
}

/* 32 while the direction's earlier move has a piece left, and not after the last; 31 before it. That move goes on. */
static void unfinished(void)
{
    both_open(650, 2000);
    move("out", 0, TAG, 0, 0, 600);
    move("32", SRP_REFUSED_UNFINISHED, TAG, 0, 0, 600);
    move("32, count 0", SRP_REFUSED_UNFINISHED, TAG, 0, 0, 0);
    move("32, at min(R, B)", SRP_REFUSED_UNFINISHED, TAG, 0, 650, 1);
    move("31 before 32", SRP_REFUSED_OFFSET, TAG, 0, 651, 1);
    move("in, while out has pieces", 0, TAG, 1, 0, 1);
    piece("first out", TAG, 0, 7, 0x1000, 512, 0, 1);
    move("32, a piece left", SRP_REFUSED_UNFINISHED, TAG, 0, 620, 10);
    move("32, in", SRP_REFUSED_UNFINISHED, TAG, 1, 1, 1);
    piece("last out", TAG, 0, 7, 0x1200, 88, 512, 2);
    moves_out("after the last piece", 620, 10, 10);
    move("32, in, while out has none", SRP_REFUSED_UNFINISHED, TAG, 1, 1, 1);
    piece("in", TAG, 1, 9, 0x5000, 1, 0, 1);
    moves_in("after the last piece in", 1, 1, 1);
}

void move_cases(void)
{
    arguments();
    directions();
    segments();
    trimmed();
    longest();
    empty();
    no_buffer();
    unplanned();
    offsets();
    unfinished();
}
