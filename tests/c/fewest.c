/*
 * Step's number: how many pieces of the current move were handed out. For a finished move no list of operations that
 * covers its bytes has fewer, and it is at most the segments with a byte in the move + the move's bytes / M + the
 * multiples of Q strictly inside a segment's part of the move.
 */
#include <limits.h>

#include "calls.h"
#include "cases.h"

enum { N = 3, M = 512, TAG = 0x1234, ADDRESS = 0x1000, HANDLE = 7, MOST = 32, BYTES_AT_MOST = 64 };

/* Out 1000h/1,300 with handle 7, in 5000h/700 with handle 9, of which all is required. */
static void both_planned(uint64_t tag)
{
    taken("both ways", command_both_ways(tag, 0));
    step("step 29", SRP_REFUSED_UNPLANNED, NOTHING, tag, 0);
    plan("plan", 0, tag, 1300, 700);
    done("plan alone, out", tag, 0, 0);
    done("plan alone, in", tag, 1, 0);
}

/* The first two of the three pieces out. */
static void two_out(uint64_t tag)
{
    move("out", 0, tag, 0, 0, 1300);
    piece("first out", tag, 0, 7, 0x1000, 512, 0, 1);
    piece("second out", tag, 0, 7, 0x1200, 512, 512, 2);
}

/* Each direction counts its own; done has the last number, each time again. */
static void directions(void)
{
    opened(N, M);
    both_planned(TAG);
    two_out(TAG);
    done("in has no move", TAG, 1, 0);
    move("in", 0, TAG, 1, 100, 90);
    piece("in", TAG, 1, 9, 0x5064, 90, 100, 1);
    piece("third out", TAG, 0, 7, 0x1400, 276, 1024, 3);
    done("out", TAG, 0, 3);
    done("in", TAG, 1, 1);
    done("out again", TAG, 0, 3);
    done("in again", TAG, 1, 1);
}

/* Each move counts from 1, also the same one again; one without bytes has 0. */
static void next_moves(void)
{
    unsigned i;
    opened(N, M);
    both_planned(TAG);
    for (i = 0; i < 2; i++) {
        two_out(TAG);
        piece("third out", TAG, 0, 7, 0x1400, 276, 1024, 3);
    }
    named("count 0", TAG, 0, 600, 0);
    done("count 0", TAG, 0, 0);
    move("behind an empty one", 0, TAG, 0, 600, 513);
    piece("behind an empty one", TAG, 0, 7, 0x1258, 512, 600, 1);
    piece("behind an empty one", TAG, 0, 7, 0x1458, 1, 1112, 2);
    named("at min(R, B)", TAG, 0, 1300, 1);
    done("at min(R, B)", TAG, 0, 0);
    done("in has no move", TAG, 1, 0);
}

/* A move refused leaves the number; a step refused has none, and is not counted. */
static void refusals(void)
{
    opened(N, M);
    both_planned(TAG);
    two_out(TAG);
    move("31", SRP_REFUSED_OFFSET, TAG, 0, 1301, 0);
    move("32", SRP_REFUSED_UNFINISHED, TAG, 0, 0, 1);
    step("step 24", SRP_REFUSED_TAG_NOT_OPEN, NOTHING, TAG + 1, 0);
    piece("third out", TAG, 0, 7, 0x1400, 276, 1024, 3);
    move("31, none left", SRP_REFUSED_OFFSET, TAG, 0, 1301, 0);
    done("31, none left", TAG, 0, 3);
    close_channel("close", 0, (struct after){CLOSED, {16}, target_logout(1, 0)}, 0, SRP_MESSAGE_BYTES);
    step("step 21", SRP_REFUSED_CLOSED, NOTHING, TAG, 0);
}

/* Each command counts its own; a tag used again starts at 0. */
static void commands(void)
{
    struct residuals under = {0x28, 276, 700};
    opened(N, M);
    both_planned(TAG);
    both_planned(TAG + 1);
    two_out(TAG);
    two_out(TAG + 1);
    piece("third of the second", TAG + 1, 0, 7, 0x1400, 276, 1024, 3);
    finished("the first", TAG, 1, under);
    both_planned(TAG);
    done("third of the second", TAG + 1, 0, 3);
    two_out(TAG);
}

/* A number above 255. */
static void many(void)
{
    uint32_t i;
    opened(N, 1);
    both_planned(TAG);
    move("300 pieces", 0, TAG, 1, 100, 300);
    for (i = 0; i < 300; i++)
        piece("300 pieces", TAG, 1, 9, 0x5064 + i, 1, 100 + i, i + 1);
    done("300 pieces", TAG, 1, 300);
}

/* A move of data-in, its pieces and the bound: segments with a byte in it + its bytes / M. */
struct row {
    const char *name;
    unsigned segments;
    uint32_t lengths[MOST];
    uint32_t m, offset, count;
    unsigned number;
    uint32_t pieces[MOST];
    unsigned bound;
};

static const struct row rows[] = {
    /* the bound is met */
    {"one byte", 1, {1}, 8, 0, 1, 1, {1}, 1 + 0},
    {"M - 1 bytes", 1, {7}, 8, 0, 7, 1, {7}, 1 + 0},
    {"M + 1 bytes", 1, {9}, 8, 0, 9, 2, {8, 1}, 1 + 1},
    {"M + 1 bytes from 4 on", 1, {16}, 8, 4, 9, 2, {8, 1}, 1 + 1},
    {"two segments below M", 2, {3, 3}, 8, 0, 6, 2, {3, 3}, 2 + 0},
    {"one byte of each", 2, {8, 8}, 8, 7, 2, 2, {1, 1}, 2 + 0},
    {"three of M + 1 bytes", 3, {5, 5, 5}, 4, 0, 15, 6, {4, 1, 4, 1, 4, 1}, 3 + 3},
    {"trimmed at B", 2, {5, 5}, 4, 3, 100, 3, {2, 4, 1}, 2 + 1},
    {"empty segments around", 6, {0, 3, 0, 0, 2, 0}, 8, 0, 5, 2, {3, 2}, 2 + 0},
    {"up to an empty segment", 3, {4, 0, 4}, 8, 0, 4, 1, {4}, 1 + 0},
    {"behind an empty segment", 3, {4, 0, 4}, 8, 4, 4, 1, {4}, 1 + 0},
    /* it is not */
    {"M bytes", 1, {8}, 8, 0, 8, 1, {8}, 1 + 1},
    {"2 M bytes", 1, {16}, 8, 0, 16, 2, {8, 8}, 1 + 2},
    {"up to a segment's end", 2, {8, 8}, 8, 0, 8, 1, {8}, 1 + 1},
    {"two of M bytes", 2, {8, 8}, 8, 0, 16, 2, {8, 8}, 2 + 2},
    {"M bytes of two segments", 2, {8, 8}, 8, 4, 8, 2, {4, 4}, 2 + 1},
    {"M bytes of three segments", 3, {4, 3, 1}, 8, 0, 8, 3, {4, 3, 1}, 3 + 1},
    {"M + 1 bytes of two segments", 2, {16, 8}, 8, 8, 9, 2, {8, 1}, 2 + 1},
    {"M = 1", 3, {3, 0, 2}, 1, 0, 5, 5, {1, 1, 1, 1, 1}, 2 + 5},
    {"M = 1, inside", 3, {3, 0, 2}, 1, 2, 2, 2, {1, 1}, 2 + 2},
};

/* The same with a boundary, and the address of the first segment. */
struct bounded {
    uint64_t q, address;
    struct row row;
};

static const struct bounded bounded[] = {
    /* the bound is met */
    {512, 0x1ffd, {"one multiple inside", 1, {6}, 8, 0, 6, 2, {3, 3}, 1 + 0 + 1}},
    {512, 0x1ff7, {"M + 1 bytes on either side", 1, {18}, 8, 0, 18, 4, {8, 1, 8, 1}, 1 + 2 + 1}},
    {512, 0x1ffc, {"in the second segment", 2, {2, 4}, 8, 0, 6, 3, {2, 2, 2}, 2 + 0 + 1}},
    {512, 0x2000, {"from a multiple", 1, {8}, 9, 0, 8, 1, {8}, 1 + 0 + 0}},
    {512, 0x1ffc, {"from a multiple in a segment", 1, {8}, 8, 4, 4, 1, {4}, 1 + 0 + 0}},
    {512, 0x1ffc, {"up to a multiple in a segment", 1, {8}, 8, 0, 4, 1, {4}, 1 + 0 + 0}},
    {SRP_GREATEST_BOUNDARY, 0xfffffffd, {"2^32", 1, {6}, 8, 0, 6, 2, {3, 3}, 1 + 0 + 1}},
    /* it is not */
    {512, 0x1ff8, {"up to a multiple", 1, {8}, 8, 0, 8, 1, {8}, 1 + 1 + 0}},
    {512, 0x1ffc, {"between two segments", 2, {4, 4}, 8, 0, 8, 2, {4, 4}, 2 + 1 + 0}},
    {512, 0x1ff9, {"M bytes behind a multiple", 1, {15}, 8, 0, 15, 2, {7, 8}, 1 + 1 + 1}},
    {1024, 0x21fc, {"a multiple of half of Q", 1, {9}, 9, 0, 9, 1, {9}, 1 + 1 + 0}},
};

/* The port of a row, its segments adjoining in memory with one handle; its move is handed out whole. */
static void moved(const struct row *r, uint64_t q, uint64_t address)
{
    struct segment segments[MOST];
    uint32_t b = 0, at = r->offset;
    unsigned i;
    for (i = 0; i < r->segments; i++) {
        segments[i] = (struct segment){address + b, HANDLE, r->lengths[i]};
        b += r->lengths[i];
    }
    opened_with(N, r->m, q);
    taken(r->name, command_with(TAG, 0, 0x02, 0, (uint8_t)r->segments, whole_table(segments, r->segments)));
    plan(r->name, 0, TAG, 0, b);
    move(r->name, 0, TAG, 1, r->offset, r->count);
    for (i = 0; i < r->number; i++) {
        piece(r->name, TAG, 1, HANDLE, address + at, r->pieces[i], at, i + 1);
        at += r->pieces[i];
    }
    done(r->name, TAG, 1, r->number);
    done(r->name, TAG, 1, r->number);
}

/* Of each byte of a row's buffer the segment that it is in; how many bytes there are. */
static unsigned buffer_of(const struct row *r, unsigned *segment_of)
{
    unsigned i, b = 0;
    uint32_t j;
    for (i = 0; i < r->segments; i++)
        for (j = 0; j < r->lengths[i]; j++)
            segment_of[b++] = i;
    return b;
}

/* Of each byte the part of its segment that it is in: a multiple of Q begins another. */
static void parts_of(const unsigned *segment_of, unsigned b, uint64_t q, uint64_t address, unsigned *part_of)
{
    unsigned i, part = 0;
    for (i = 0; i < b; i++) {
        part += i && (segment_of[i] != segment_of[i - 1] || (q && (address + i) % q == 0));
        part_of[i] = part;
    }
}

/* The fewest operations, of all lists that cover the bytes in order, each inside one part and at most M long. */
static unsigned fewest(const unsigned *part_of, unsigned from, unsigned to, uint32_t m)
{
    unsigned least[BYTES_AT_MOST + 1] = {0}, first, end;
    for (end = from + 1; end <= to; end++) {
        least[end] = UINT_MAX;
        for (first = end; first-- > from && end - first <= m && part_of[first] == part_of[end - 1];)
            if (least[first] + 1 < least[end])
                least[end] = least[first] + 1;
    }
    return least[to];
}

/* The number and the bound of a row, by a table of its bytes. */
static void judged(const struct row *r, uint64_t q, uint64_t address)
{
    unsigned segment_of[BYTES_AT_MOST], part_of[BYTES_AT_MOST], b = buffer_of(r, segment_of), from = r->offset, i;
    unsigned to = r->count < b - from ? from + r->count : b, with_a_byte = 0, inside = 0;
    parts_of(segment_of, b, q, address, part_of);
    for (i = from; i < to; i++) {
        int first = i == from || segment_of[i] != segment_of[i - 1];
        with_a_byte += first;
        inside += !first && q && (address + i) % q == 0;
    }
    if (fewest(part_of, from, to, r->m) != r->number)
        fail(r->name, "not the fewest operations");
    if (with_a_byte + (to - from) / r->m + inside != r->bound || r->number > r->bound)
        fail(r->name, "another bound");
}

/* 32 segments of two bytes, a move of 63 bytes, M = 64: the bound is met by the segments alone. */
static void thirty_two(void)
{
    struct row r = {"32 segments", MOST, {0}, 64, 1, 63, MOST, {1}, 32 + 0};
    unsigned i;
    for (i = 0; i < MOST; i++)
        r.lengths[i] = 2;
    for (i = 1; i < MOST; i++)
        r.pieces[i] = 2;
    moved(&r, 0, ADDRESS);
    judged(&r, 0, ADDRESS);
}

void fewest_cases(void)
{
    unsigned i;
    directions();
    next_moves();
    refusals();
    commands();
    many();
    for (i = 0; i < sizeof rows / sizeof rows[0]; i++) {
        moved(&rows[i], 0, ADDRESS);
        judged(&rows[i], 0, ADDRESS);
    }
    for (i = 0; i < sizeof bounded / sizeof bounded[0]; i++) {
        moved(&bounded[i].row, bounded[i].q, bounded[i].address);
        judged(&bounded[i].row, bounded[i].q, bounded[i].address);
    }
    thirty_two();
}
