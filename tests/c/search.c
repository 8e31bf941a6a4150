/* The segment that holds an offset, where segments without a byte stand around it: by srp_cut, and by move and step. */
#include "calls.h"
#include "cases.h"

enum { N = 3, M = 512, TAG = 0x1234, TABLE = 20, SEGMENT = 16, MOST = 32 };

struct found {
    uint32_t offset;
    uint64_t handle, address, length;
};

/* Data-in by a table of 144 bytes, all of it copied, total 706. */
static const uint8_t indirect[TABLE + 9 * SEGMENT] = {
    0, 0, 0, 0, 0, 0, 0xa0, 0, 0, 0, 0, 0xaa, 0, 0, 0, 144, 0, 0, 0x02, 0xc2,
    0, 0, 0, 0, 0, 0, 0x10, 0, 0, 0, 0, 1, 0, 0, 0, 0,
    0, 0, 0, 0, 0, 0, 0x20, 0, 0, 0, 0, 2, 0, 0, 0, 0,
    0, 0, 0, 0, 0, 0, 0x30, 0, 0, 0, 0, 3, 0, 0, 0, 5,
    0, 0, 0, 0, 0, 0, 0x40, 0, 0, 0, 0, 4, 0, 0, 0, 0,
    0, 0, 0, 0, 0, 0, 0x50, 0, 0, 0, 0, 5, 0, 0, 0, 1,
    0, 0, 0, 0, 0, 0, 0x60, 0, 0, 0, 0, 6, 0, 0, 0, 0,
    0, 0, 0, 0, 0, 0, 0x70, 0, 0, 0, 0, 7, 0, 0, 0, 0,
    0, 0, 0, 0, 0, 0, 0x80, 0, 0, 0, 0, 8, 0, 0, 0x02, 0xbc,
    0, 0, 0, 0, 0, 0, 0x90, 0, 0, 0, 0, 9, 0, 0, 0, 0,
};

/* The first and the last byte of each segment that has one; 194 is the last offset at which M ends the piece. */
static const struct found pieces[] = {
    {0, 3, 0x3000, 5},   {4, 3, 0x3004, 1},     {5, 5, 0x5000, 1},
    {6, 8, 0x8000, 512}, {194, 8, 0x80bc, 512}, {195, 8, 0x80bd, 511},
    {705, 8, 0x82bb, 1},
};

/* By srp_cut, and by the first step of a move from there to the end; descriptors are a table's and all its copies. */
static void finds(const char *name, struct bytes descriptors, uint32_t b, struct found at)
{
    uint8_t answer[SRP_ANSWER_BYTES] = {0};
    struct bytes list = {descriptors.at + TABLE, descriptors.len - TABLE};
    put(answer, 0, 8, at.address);
    put(answer, 8, 4, at.handle);
    put(answer, 12, 4, at.length);
    put(answer, 16, 4, at.offset);
    cut(name, 0, answer, list, M, 0, b, at.offset, SRP_ANSWER_BYTES);
    opened(N, M);
    taken(name, command_with(TAG, 0, 0x02, 0, (uint8_t)(list.len / SEGMENT), descriptors));
    plan(name, 0, TAG, 0, b);
    move(name, 0, TAG, SRP_DIRECTION_IN, at.offset, b);
    piece(name, TAG, SRP_DIRECTION_IN, at.handle, at.address, at.length, at.offset, 1);
}

/* At the end there is no piece; on the port that `finds` has left, with a move whose only piece was handed out. */
static void ends(const char *name, struct bytes descriptors, uint32_t b)
{
    static const uint8_t nothing[SRP_ANSWER_BYTES];
    struct bytes list = {descriptors.at + TABLE, descriptors.len - TABLE};
    cut(name, 0, nothing, list, M, 0, b, b, SRP_ANSWER_BYTES);
    done(name, TAG, SRP_DIRECTION_IN, 1);
    named(name, TAG, SRP_DIRECTION_IN, b, 1);
    done(name, TAG, SRP_DIRECTION_IN, 0);
}

static void nine_segments(void)
{
    unsigned i;
    for (i = 0; i < sizeof pieces / sizeof pieces[0]; i++)
        finds("nine segments", BYTES(indirect), 706, pieces[i]);
    ends("nine segments, the end", BYTES(indirect), 706);
}

/* One of 32 segments has three bytes, the others none: segment 1 at 1000h, segment 2 at 2000h and so on. */
static void one_of_32(void)
{
    struct segment segments[MOST];
    unsigned only, i;
    for (only = 1; only <= MOST; only++) {
        struct bytes descriptors;
        for (i = 1; i <= MOST; i++)
            segments[i - 1] = (struct segment){0x1000 * i, i, i == only ? 3 : 0};
        descriptors = whole_table(segments, MOST);
        finds("one of 32, its first byte", descriptors, 3, (struct found){0, only, 0x1000 * only, 3});
        finds("one of 32, its last byte", descriptors, 3, (struct found){2, only, 0x1000 * only + 2, 1});
        ends("one of 32, the end", descriptors, 3);
    }
}

void search_cases(void)
{
    nine_segments();
    one_of_32();
}
