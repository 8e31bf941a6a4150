/* Commands that wait for their tables: side by side, in any order, aborted, with a tag used again. */
#include <string.h>

#include "calls.h"
#include "cases.h"

enum { M = 512, TASK = 0x61 };

/* The table of a direction of tag t: two entries at t000000h and t100000h, out, or at t800000h and t900000h, in; the
 * lengths are t + 10 and t + 20, the handles t and t + 100. */
struct table {
    uint8_t bytes[32];
};

static struct table table_of(uint64_t tag, int in)
{
    struct table t;
    put(t.bytes, 0, 8, tag << 24 | (in ? 0x800000 : 0));
    put(t.bytes, 8, 4, tag);
    put(t.bytes, 12, 4, tag + 10);
    put(t.bytes, 16, 8, tag << 24 | (in ? 0x900000 : 0x100000));
    put(t.bytes, 24, 4, tag + 100);
    put(t.bytes, 28, 4, tag + 20);
    return t;
}

/* A command of LUN 0 with a table of 32 bytes each way where `formats` has one; the first out entry is copied. */
static struct bytes indirect(uint64_t tag, uint8_t formats)
{
    static uint8_t descriptors[56];
    const struct table out = table_of(tag, 0);
    size_t at = 0;
    memset(descriptors, 0, sizeof descriptors);
    if (formats & 0x20) {
        put(descriptors, 12, 4, 32);
        put(descriptors, 16, 4, 2 * tag + 30);
        memcpy(descriptors + 20, out.bytes, 16);
        at = 36;
    }
    if (formats & 0x02) {
        put(descriptors, at + 12, 4, 32);
        put(descriptors, at + 16, 4, 2 * tag + 30);
        at += 20;
    }
    return command_with(tag, 0, formats, 1, 0, (struct bytes){descriptors, at});
}

/* Its tables, as they were fetched. */
static void bring(const char *name, uint32_t number, uint64_t tag, uint8_t formats)
{
    const struct table out = table_of(tag, 0), in = table_of(tag, 1);
    struct after after = {number ? SAME : OTHER, {0}, NULL};
    tables(name, number, after, tag, (struct bytes){out.bytes, formats & 0x20 ? 32 : 0},
           (struct bytes){in.bytes, formats & 0x02 ? 32 : 0}, 132);
}

/* One move each way, piece by piece; then the end. */
static void carried_out(const char *name, uint64_t tag, uint8_t formats)
{
    uint32_t in;
    planned(name, tag, formats & 0x20 ? 2 * (uint32_t)tag + 30 : 0, formats & 0x02 ? 2 * (uint32_t)tag + 30 : 0);
    for (in = 0; in < 2; in++) {
        uint64_t address = tag << 24 | (in ? 0x800000 : 0);
        if (!(formats & (in ? 0x02 : 0x20)))
            continue;
        piece(name, tag, in, tag, address, tag + 10, 0, 1);
        piece(name, tag, in, tag + 100, address + 0x100000, tag + 20, tag + 10, 2);
        done(name, tag, in, 2);
    }
    finished(name, tag, 1, NO_RESIDUALS);
}

static void draws_33(const char *name, uint64_t tag)
{
    static const uint8_t sense[1] = {0x70};
    plan(name, SRP_REFUSED_WAITING, tag, 1, 1);
    move(name, SRP_REFUSED_WAITING, tag, 0, 0xffffffff, 1);
    step(name, SRP_REFUSED_WAITING, NOTHING, tag, 1);
    finish(name, SRP_REFUSED_WAITING, NOTHING, tag, 0, NO_BYTES, 132);
    finish(name, SRP_REFUSED_ARGUMENT, NOTHING, tag, 0, BYTES(sense), 132);
    finish(name, SRP_REFUSED_SHORT_BUFFER, NOTHING, tag, 0, BYTES(sense), 131);
}

/* The tags listed, all of LUN 0 and with nothing handed out. */
static void listed(const char *name, size_t count, const uint64_t *tags)
{
    uint64_t expected[16][SRP_RECORD_WORDS] = {{0}};
    size_t i;
    for (i = 0; i < count; i++)
        expected[i][0] = tags[i];
    list(name, 0, SRP_LIST_WORDS, count, (const uint64_t(*)[SRP_RECORD_WORDS])expected);
}

#define LISTED(name, ...) listed(name, sizeof((uint64_t[]){__VA_ARGS__}) / 8, (const uint64_t[]){__VA_ARGS__})

static void aborted(const char *name, uint64_t tag, uint32_t delta)
{
    struct after after = {OTHER, {40, SRP_KIND_TASK, TASK, 0}, code_response(0, delta, TASK, 0x00)};
    take(name, 0, after, task(TASK, 0, 0, 0x01, tag), 132);
}

/* The header's example: four commands, the fetches of three of them side by side. */
static void side_by_side(void)
{
    opened(8, M);
    waits("tag 1", indirect(1, 0x20));
    waits("tag 2", indirect(2, 0x22));
    taken("tag 3", command(3, 0, 0));
    planned("tag 3", 3, 0, 0);
    finished("tag 3", 3, 1, NO_RESIDUALS);
    waits("tag 4", indirect(4, 0x02));
    LISTED("three wait", 1, 2, 4);
    counters("three wait", 0, 8, 5, 3, 0);
    bring("the Reads of 4 complete", 0, 4, 0x02);
    draws_33("tag 2 still waits", 2);
    LISTED("as they were taken", 1, 2, 4);
    carried_out("tag 4", 4, 0x02);
    aborted("a task request aborts 1", 1, 2);
    bring("tag 1 draws 24", SRP_REFUSED_TAG_NOT_OPEN, 1, 0x20);
    bring("the Reads of 2 complete", 0, 2, 0x22);
    carried_out("tag 2", 2, 0x22);
    counters("none open", 0, 8, 8, 0, 0);
}

/* Sixteen that wait: their tables in steps of 5 from `first` on, which is each once; tags 0 to 15. */
static void sixteen(unsigned first, unsigned by)
{
    static const uint8_t formats[3] = {0x20, 0x02, 0x22};
    uint64_t tag;
    unsigned i;
    opened(16, M);
    for (tag = 0; tag < 16; tag++)
        waits("one of sixteen", indirect(tag, formats[tag % 3]));
    counters("sixteen wait", 0, 16, 0, 16, 0);
    for (i = 0; i < 16; i++) {
        tag = (first + by * i) % 16;
        draws_33("before its tables", tag);
        bring("one of sixteen", 0, tag, formats[tag % 3]);
        bring("brought twice", SRP_REFUSED_WAITING, tag, formats[tag % 3]);
        bring("brought twice, other lengths", SRP_REFUSED_WAITING, tag, 0);
    }
    LISTED("sixteen", 0, 1, 2, 3, 4, 5, 6, 7, 8, 9, 10, 11, 12, 13, 14, 15);
    for (i = 0; i < 16; i++)
        carried_out("one of sixteen", (first + by * i) % 16, formats[(first + by * i) % 16 % 3]);
}

/* A tag used again: the table of the command that was aborted is judged by the new one's message. */
static void used_again(void)
{
    const struct table old = table_of(5, 0), in = table_of(5, 1);
    struct after after = {OTHER, {40}, NULL};
    opened(4, M);
    waits("tag 5", indirect(5, 0x20));
    aborted("aborted while it waits", 5, 2);
    waits("tag 6", indirect(6, 0x22));
    draws_33("tag 6 waits", 6);
    plan("plan of an aborted command", SRP_REFUSED_TAG_NOT_OPEN, 5, 1, 1);
    waits("tag 5 again, both ways", indirect(5, 0x22));
    LISTED("taken anew", 6, 5);
    tables("the old table", SRP_REFUSED_TABLE_LENGTH, NOTHING, 5, BYTES(old.bytes), NO_BYTES, 132);
    after.message = code_response(0, 1, 5, 0x02);
    tables("out for in, in for out", SRP_REFUSED_FIELDS, after, 5, BYTES(in.bytes), BYTES(old.bytes), 132);
    waits("tag 5 once more", indirect(5, 0x02));
    bring("its table", 0, 5, 0x02);
    carried_out("tag 5", 5, 0x02);
    bring("tag 6", 0, 6, 0x22);
    carried_out("tag 6", 6, 0x22);
}

/* Bytes of FFh draw 10, in either direction. */
static void failed_fetch(void)
{
    const struct table out = table_of(7, 0), in = table_of(7, 1);
    struct after after = {OTHER, {40}, NULL};
    uint8_t ones[32];
    memset(ones, 0xff, sizeof ones);
    opened(4, M);
    waits("both ways", indirect(7, 0x22));
    after.message = code_response(0, 1, 7, 0x02);
    tables("FFh out", SRP_REFUSED_FIELDS, after, 7, BYTES(ones), BYTES(in.bytes), 132);
    waits("both ways", indirect(7, 0x22));
    after.message = code_response(0, 1, 7, 0x02);
    tables("FFh in", SRP_REFUSED_FIELDS, after, 7, BYTES(out.bytes), BYTES(ones), 132);
    counters("ended", 0, 4, 4, 0, 0);
}

/* A command that waits is held and its tag is open: 22 and 23, which drop it. */
static void held(void)
{
    struct after after = {CLOSED, {16}, NULL};
    opened(1, M);
    waits("the only buffer", indirect(8, 0x20));
    after.message = target_logout(1, 0);
    take("take 22", SRP_REFUSED_NO_CREDIT, after, command(9, 0, 0), 132);
    bring("tables 21", SRP_REFUSED_CLOSED, 8, 0x20);
    opened(2, M);
    waits("one of two", indirect(8, 0x20));
    after.message = target_logout(1, 0);
    take("take 23", SRP_REFUSED_TAG_OPEN, after, indirect(8, 0x20), 132);
    opened(2, M);
    waits("one of two", indirect(8, 0x20));
    close_channel("close", 0, (struct after){CLOSED, {16}, target_logout(1, 0)}, 0, 132);
    bring("tables 21, closed", SRP_REFUSED_CLOSED, 8, 0x20);
}

void waiting_cases(void)
{
    unsigned i;
    side_by_side();
    for (i = 0; i < 16; i++) {
        sixteen(i, 1);
        sixteen(i, 15);
        sixteen(i, 5);
    }
    used_again();
    failed_fetch();
    held();
}
