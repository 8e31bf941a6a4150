/* srp_target_list. */
#include "calls.h"
#include "cases.h"

enum { M = 512, TASK = 0x61 };

/* Tag, LUN, h out and in are four other numbers: shows an exchange of two of them. 65 words: the rest stays. */
static void records(void)
{
    static const uint64_t expected[2][SRP_RECORD_WORDS] = {{0x8000000000000001, 0, 1024, 512},
                                                           {3, 0xfedcba9876543210}};
    opened(4, M);
    list("none open", 0, SRP_LIST_WORDS, 0, NULL);
    taken("both ways", command_both_ways(0x8000000000000001, 0));
    planned("plan", 0x8000000000000001, 1300, 700);
    piece("out", 0x8000000000000001, 0, 7, 0x1000, 512, 0, 1);
    piece("out", 0x8000000000000001, 0, 7, 0x1200, 512, 512, 2);
    piece("in", 0x8000000000000001, 1, 9, 0x5000, 512, 0, 1);
    taken("no data", command(3, 0xfedcba9876543210, 0));
    list("two open", 0, 65, 2, expected);
    list("list 11", SRP_REFUSED_ARGUMENT, 63, 0, NULL);
    list("list 11, no words", SRP_REFUSED_ARGUMENT, 0, 0, NULL);
    finished("the first ends", 0x8000000000000001, 1, (struct residuals){0x28, 276, 188});
    list("one open", 0, SRP_LIST_WORDS, 1, expected + 1);
}

/* As the commands were taken, oldest first: as many as can be. The younger a command, the smaller its tag. */
static void sixteen(void)
{
    uint64_t expected[16][SRP_RECORD_WORDS] = {{0}};
    unsigned i;
    opened(16, M);
    for (i = 0; i < 16; i++) {
        expected[i][0] = 1000 - i;
        expected[i][1] = i / 2;
        taken("one of sixteen", command(1000 - i, i / 2, 0));
    }
    list("sixteen open", 0, 100, 16, (const uint64_t(*)[SRP_RECORD_WORDS])expected);
    counters("sixteen open", 0, 16, 0, 16, 0);
}

/* The tags listed, all of LUN 0 and without data. */
static void listed(const char *name, size_t count, const uint64_t *tags)
{
    uint64_t expected[16][SRP_RECORD_WORDS] = {{0}};
    size_t i;
    for (i = 0; i < count; i++)
        expected[i][0] = tags[i];
    list(name, 0, SRP_LIST_WORDS, count, (const uint64_t(*)[SRP_RECORD_WORDS])expected);
}

#define LISTED(name, ...) listed(name, sizeof((uint64_t[]){__VA_ARGS__}) / 8, (const uint64_t[]){__VA_ARGS__})

/* One in the middle ends, or is aborted, and the others keep their order. A tag used again counts as taken anew. */
static void ages(void)
{
    struct after after = {OTHER, {40, SRP_KIND_TASK, TASK, 0}, NULL};
    uint64_t tag;
    opened(8, M);
    for (tag = 50; tag >= 10; tag -= 10)
        taken("one of five", command(tag, 0, 0));
    LISTED("five open", 50, 40, 30, 20, 10);
    finished("the second ends", 40, 1, (struct residuals){0});
    LISTED("four open", 50, 30, 20, 10);
    after.message = code_response(0, 2, TASK, 0x00);
    take("the third is aborted", 0, after, task(TASK, 0, 0, 0x01, 20), SRP_MESSAGE_BYTES);
    LISTED("three open", 50, 30, 10);
    taken("the tag that ended", command(40, 0, 0));
    taken("the tag that was aborted", command(20, 0, 0));
    LISTED("five open again", 50, 30, 10, 40, 20);
    finished("the oldest ends", 50, 1, (struct residuals){0});
    taken("its tag", command(50, 0, 0));
    LISTED("the oldest is the youngest", 30, 10, 40, 20, 50);
}

void list_cases(void)
{
    records();
    sixteen();
    ages();
}
