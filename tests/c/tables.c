/* srp_target_tables: a command with a table each way, refusals 9 and 10; and srp_target_take's 10 and its CDB. */
#include <string.h>

#include "calls.h"
#include "cases.h"

enum { N = 3, M = 512, TAG = 0x31 };

/* Data-out: 2000h/100, 3000h/200, 4000h/300, handles 11h, 12h, 13h. Data-in: 7000h/40, 8000h/50, handles 21h, 22h. */
static const uint8_t out_table[48] = {
    0, 0, 0, 0, 0, 0, 0x20, 0, 0, 0, 0, 0x11, 0, 0, 0, 100,
    0, 0, 0, 0, 0, 0, 0x30, 0, 0, 0, 0, 0x12, 0, 0, 0, 200,
    0, 0, 0, 0, 0, 0, 0x40, 0, 0, 0, 0, 0x13, 0, 0, 0x01, 0x2c,
};
static const uint8_t in_table[32] = {
    0, 0, 0, 0, 0, 0, 0x70, 0, 0, 0, 0, 0x21, 0, 0, 0, 40,
    0, 0, 0, 0, 0, 0, 0x80, 0, 0, 0, 0, 0x22, 0, 0, 0, 50,
};

/* Table descriptors: out with a copy of its first entry, total 600; in without a copy, total 90. */
static const uint8_t descriptors[56] = {
    0, 0, 0, 0, 0, 0, 0x90, 0, 0, 0, 0, 0x41, 0, 0, 0, 48, 0, 0, 0x02, 0x58,
    0, 0, 0, 0, 0, 0, 0x20, 0, 0, 0, 0, 0x11, 0, 0, 0, 100,
    0, 0, 0, 0, 0, 0, 0xa0, 0, 0, 0, 0, 0x42, 0, 0, 0, 32, 0, 0, 0, 90,
};
enum { OUT_TOTAL_LOW = 19, COPY_HANDLE = 31, COPY_LENGTH = 35, IN_TABLE_LENGTH = 51, IN_TOTAL_LOW = 55 };

/* Tables of 48 and 32 bytes, of other handles each; tag 31h, which is 49. Exchanged, it would give
 *   out and in, with their lengths   9
 *   out and in alone                 10, the sums being others than the totals
 *   tag and a length                 24
 *   port and answer                  guards and words */
static void arguments(void)
{
    opened(N, M);
    waits("two tables", command_with(TAG, 0, 0x22, 1, 0, BYTES(descriptors)));
    tables("two tables", 0, (struct after){OTHER, {0}, NULL}, TAG, BYTES(out_table), BYTES(in_table), 140);
    planned("two tables, plan", TAG, 600, 90);
    piece("two tables, in", TAG, 1, 0x21, 0x7000, 40, 0, 1);
    piece("two tables, out", TAG, 0, 0x11, 0x2000, 100, 0, 1);
    piece("two tables, out", TAG, 0, 0x12, 0x3000, 200, 100, 2);
    piece("two tables, in", TAG, 1, 0x22, 0x8000, 50, 40, 2);
    piece("two tables, out", TAG, 0, 0x13, 0x4000, 300, 300, 3);
    done("two tables, out", TAG, 0, 3);
    done("two tables, in", TAG, 1, 2);
}

/* 9: either table with another length, or none where one is named. Nothing is altered, and the command waits on. */
static void table_lengths(void)
{
    struct bytes out = BYTES(out_table), in = BYTES(in_table), short_out = {out_table, 47}, long_in = {out_table, 33};
    struct after after = {OTHER, {40}, NULL};
    uint8_t bad[56];
    memcpy(bad, descriptors, sizeof bad);
    bad[OUT_TOTAL_LOW]++;
    opened(N, M);
    waits("a table each way", command_with(TAG, 0, 0x22, 1, 0, BYTES(bad)));
    tables("tables 9 before 10", SRP_REFUSED_TABLE_LENGTH, NOTHING, TAG, out, NO_BYTES, 132);
    tables("tables 9, exchanged", SRP_REFUSED_TABLE_LENGTH, NOTHING, TAG, in, out, 132);
    tables("tables 9, out 47", SRP_REFUSED_TABLE_LENGTH, NOTHING, TAG, short_out, in, 132);
    tables("tables 9, in 33", SRP_REFUSED_TABLE_LENGTH, NOTHING, TAG, out, long_in, 132);
    tables("tables 9, none", SRP_REFUSED_TABLE_LENGTH, NOTHING, TAG, NO_BYTES, NO_BYTES, 132);
    tables("tables 1 before 9", SRP_REFUSED_SHORT_BUFFER, NOTHING, TAG, out, NO_BYTES, 131);
    counters("tables 9, still held", 0, N, N - 1, 1, 0);
    after.message = code_response(0, 1, TAG, 0x02);
    tables("tables 10 after 9", SRP_REFUSED_FIELDS, after, TAG, out, in, 132);
    waits("the tag again", command_with(TAG, 0, 0x22, 1, 0, BYTES(descriptors)));
    tables("tables 9, none, once more", SRP_REFUSED_TABLE_LENGTH, NOTHING, TAG, NO_BYTES, NO_BYTES, 132);
    brought("tables after 9", TAG, out, in);
    tables("tables 33 before 9", SRP_REFUSED_WAITING, NOTHING, TAG, NO_BYTES, NO_BYTES, 132);
}

/* A table for data-out alone: one lent for data-in too draws 9, whatever it holds. */
static void unnamed(void)
{
    opened(N, M);
    waits("out alone", command_with(TAG, 0, 0x20, 1, 0, (struct bytes){descriptors, 36}));
    tables("tables 9, unnamed", SRP_REFUSED_TABLE_LENGTH, NOTHING, TAG, BYTES(out_table), BYTES(in_table), 132);
    tables("tables 9, unnamed alone", SRP_REFUSED_TABLE_LENGTH, NOTHING, TAG, NO_BYTES, BYTES(out_table), 132);
    brought("out alone", TAG, BYTES(out_table), NO_BYTES);
    taken("no data", command(TAG + 1, 0, 0));
    tables("tables 33, no fetch", SRP_REFUSED_WAITING, NOTHING, TAG + 1, NO_BYTES, BYTES(in_table), 132);
}

/* A command whose descriptors have byte `at` set to `value` waits; with its tables it is answered with RSP_CODE 02h and
 * open no more. */
static void bad(const char *name, size_t at, uint8_t value, struct bytes in)
{
    static const uint64_t listed[1][SRP_RECORD_WORDS] = {{TAG}};
    struct after after = {OTHER, {40}, NULL};
    uint8_t fields[56];
    memcpy(fields, descriptors, sizeof fields);
    fields[at] = value;
    opened(N, M);
    waits(name, command_with(TAG, UCSOLNT, 0x22, 1, 0, BYTES(fields)));
    counters(name, 0, N, N - 1, 1, 0);
    list(name, 0, SRP_LIST_WORDS, 1, listed);
    after.message = code_response(1, 1, TAG, 0x02);
    tables(name, SRP_REFUSED_FIELDS, after, TAG, BYTES(out_table), in, 132);
    counters(name, 0, N, N, 0, 0);
    list(name, 0, SRP_LIST_WORDS, 0, NULL);
    plan(name, SRP_REFUSED_TAG_NOT_OPEN, TAG, 0, 0);
}

static void bad_fields(void)
{
    bad("tables 10, out total", OUT_TOTAL_LOW, 0x59, BYTES(in_table));
    bad("tables 10, in total", IN_TOTAL_LOW, 91, BYTES(in_table));
    bad("tables 10, copy's handle", COPY_HANDLE, 0x12, BYTES(in_table));
    bad("tables 10, copy's length", COPY_LENGTH, 99, BYTES(in_table));
    bad("tables 10, in table of 24 bytes", IN_TABLE_LENGTH, 24, NO_BYTES);
    bad("tables 10, in table of 0 bytes", IN_TABLE_LENGTH, 0, NO_BYTES);
}

/* Without a fetch take draws 10: a table that is copied whole, with another total. */
static void whole_copies(void)
{
    static const struct segment segments[2] = {{0x2000, 1, 100}, {0x3000, 2, 200}};
    struct after after = {ANY, {40}, NULL};
    uint8_t fields[52];
    memcpy(fields, whole_table(segments, 2).at, sizeof fields);
    opened(N, M);
    taken("copied whole", command_with(TAG, 0, 0x02, 0, 2, BYTES(fields)));
    fields[19]++;
    after.message = code_response(1, 1, TAG + 1, 0x02);
    take("take 10, total", SRP_REFUSED_FIELDS, after, command_with(TAG + 1, UCSOLNT, 0x02, 0, 2, BYTES(fields)), 132);
    counters("take 10, total", 0, N, N - 1, 1, 0);
}

/* A direct segment may end at 2^64, and not past it. SOLNT is UCSOLNT, which is off. */
static void highest_address(void)
{
    uint8_t segment[16] = {0xff, 0xff, 0xff, 0xff, 0xff, 0xff, 0xff, 0x00, 0, 0, 0, 7, 0, 0, 0x01, 0x00};
    struct after after = {OTHER, {40}, NULL};
    opened(N, M);
    taken("ends at 2^64", command_with(TAG, 0, 0x10, 0xff, 0xff, BYTES(segment)));
    segment[15] = 1;
    /* The request that ends is owed, but one buffer is withdrawn: delta 0. */
    withdraw("owed -1", 0, 1);
    after.message = code_response(0, 0, TAG + 1, 0x02);
    take("take 10, ends past 2^64", SRP_REFUSED_FIELDS, after, command_with(TAG + 1, 0, 0x01, 0, 0, BYTES(segment)),
         132);
    counters("credit", 0, N - 1, 1, 1, 0);
}

/* The CDB: byte 31 bits 7-2 are n, in units of 4 bytes; the descriptors stand behind it. Bits 1-0 are unread. */
static void cdbs(void)
{
    static const uint8_t direct[16] = {0, 0, 0, 0, 0, 0, 0x10, 0, 0, 0, 0, 7, 0, 0, 0x05, 0x14};
    uint8_t msg[48 + 252 + 16] = {0x02, 0, 0, 0, 0, 0x01};
    memcpy(msg + 48 + 252, direct, sizeof direct);
    msg[15] = TAG;
    msg[31] = 0xff;
    opened(N, M);
    taken("63 words more of CDB", BYTES(msg));
    planned("63 words, plan", TAG, 0, 100);
    piece("63 words, piece", TAG, 1, 7, 0x1000, 100, 0, 1);
}

/* Sixteen commands open, each with its own segment: none overwrites another's in the store. */
static void sixteen(void)
{
    uint8_t segment[16] = {0};
    unsigned i;
    opened(16, M);
    for (i = 0; i < 16; i++) {
        segment[6] = (uint8_t)(0x40 + i);
        segment[15] = (uint8_t)(10 + i);
        taken("one of sixteen", command_with(100 + i, 0, i % 2 ? 0x10 : 0x01, 0, 0, BYTES(segment)));
        planned("one of sixteen, plan", 100 + i, 99, 99);
    }
    for (i = 0; i < 16; i++) {
        uint32_t in = i % 2 ? 0 : 1;
        piece("one of sixteen, piece", 100 + i, in, 0, (0x40 + i) << 8, 10 + i, 0, 1);
        done("one of sixteen, done", 100 + i, in, 1);
        done("one of sixteen, other way", 100 + i, !in, 0);
    }
}

void table_cases(void)
{
    arguments();
    table_lengths();
    unnamed();
    bad_fields();
    whole_copies();
    highest_address();
    cdbs();
    sixteen();
}
