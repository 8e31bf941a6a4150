/* h, the highest offset handed out + 1, in the listing and in the residual; what a command's end leaves of moves. */
#include "calls.h"
#include "cases.h"

enum { N = 3, M = 512, TAG = 0x1234, DOOVER = 0x04, DOUNDER = 0x08, DIOVER = 0x10, DIUNDER = 0x20 };

static void planned_alone(uint64_t tag, uint32_t r_out, uint32_t r_in)
{
    taken("both ways", command_both_ways(tag, 0));
    plan("plan", 0, tag, r_out, r_in);
}

static void both_open(uint32_t r_out, uint32_t r_in)
{
    opened(N, M);
    planned_alone(TAG, r_out, r_in);
}

/* A move of one piece; then h each way, of the only open command. */
static void then(const char *name, uint32_t direction, uint32_t offset, uint32_t count, uint64_t out, uint64_t in)
{
    const uint64_t record[1][SRP_RECORD_WORDS] = {{TAG, 0, out, in}};
    move(name, 0, TAG, direction, offset, count);
    piece(name, TAG, direction, direction ? 9 : 7, (direction ? 0x5000 : 0x1000) + offset, count, offset, 1);
    list(name, 0, SRP_LIST_WORDS, 1, record);
}

/* The middle before the start, and parts of both again: h is no sum, and never falls. */
static void middle_first(void)
{
    both_open(1300, 700);
    then("middle", 0, 600, 100, 700, 0);
    then("start", 0, 0, 500, 700, 0);
    then("again", 0, 0, 500, 700, 0);
    then("overlapping the middle", 0, 650, 100, 750, 0);
    then("inside", 0, 10, 1, 750, 0);
    then("in, end", 1, 699, 1, 750, 700);
    then("in, start", 1, 0, 1, 750, 700);
    finished("middle first", TAG, 1, (struct residuals){DOUNDER, 550, 0});
}

/* As many bytes as B were handed out, and not the last ones. */
static void repeated(void)
{
    both_open(1300, 700);
    then("first", 1, 0, 350, 0, 350);
    then("second", 1, 0, 350, 0, 350);
    then("third", 1, 0, 350, 0, 350);
    finished("repeated", TAG, 1, (struct residuals){DOUNDER | DIUNDER, 1300, 350});
}

/* h is of pieces handed out and not of moves named. */
static void pieces_count(void)
{
    static const uint64_t none[1][SRP_RECORD_WORDS] = {{TAG}};
    static const uint64_t one[1][SRP_RECORD_WORDS] = {{TAG, 0, 612, 0}};
    both_open(1300, 700);
    move("out", 0, TAG, 0, 100, 1200);
    move("in", 0, TAG, 1, 0, 700);
    list("named", 0, SRP_LIST_WORDS, 1, none);
    piece("one piece", TAG, 0, 7, 0x1064, 512, 100, 1);
    list("one piece", 0, SRP_LIST_WORDS, 1, one);
    finished("one piece", TAG, 1, (struct residuals){DOUNDER | DIUNDER, 688, 700});
}

/* R above B is over by R - B, whatever h is; under takes B and not R. */
static void over_and_under(void)
{
    both_open(1400, 650);
    finished("over, plan alone", TAG, 1, (struct residuals){DOOVER | DIUNDER, 100, 700});
    both_open(1400, 650);
    then("over, the middle", 0, 600, 100, 700, 0);
    then("under, up to R", 1, 600, 50, 700, 650);
    finished("over, the middle", TAG, 1, (struct residuals){DOOVER | DIUNDER, 100, 50});
    both_open(1300, 701);
    then("neither, the last byte", 0, 1299, 1, 1300, 0);
    then("over, the last byte", 1, 699, 1, 1300, 700);
    finished("neither and over", TAG, 1, (struct residuals){DIOVER, 0, 1});
}

/* A tag used again has no plan, no move and no h. */
static void again(const char *name)
{
    planned_alone(TAG, 650, 700);
    done(name, TAG, 0, 0);
    done(name, TAG, 1, 0);
    then(name, 0, 10, 20, 30, 0);
    then(name, 1, 0, 5, 30, 5);
}

static void used_again(void)
{
    struct after after = {OTHER, {40, SRP_KIND_TASK, TAG + 1, 0}, NULL};
    both_open(1300, 700);
    then("before the end", 1, 600, 100, 0, 700);
    move("unfinished", 0, TAG, 0, 0, 1300);
    piece("unfinished", TAG, 0, 7, 0x1000, 512, 0, 1);
    finished("unfinished", TAG, 1, (struct residuals){DOUNDER, 788, 0});
    taken("the tag again", command_both_ways(TAG, 0));
    move("29, the tag again", SRP_REFUSED_UNPLANNED, TAG, 0, 0, 0);
    finished("unplanned", TAG, 1, (struct residuals){DOUNDER | DIUNDER, 1300, 700});
    again("after the end");
    move("unfinished", 0, TAG, 0, 0, 650);
    after.message = code_response(0, 2, TAG + 1, 0x00);
    take("abort", 0, after, task(TAG + 1, 0, 0, 0x01, TAG), 132);
    move("24, aborted", SRP_REFUSED_TAG_NOT_OPEN, TAG, 0, 0, 0);
    again("after the abort");
}

/* Each command has its own moves; an end leaves those of the others as they were. */
static void several(void)
{
    static const uint64_t left[2][SRP_RECORD_WORDS] = {{2, 0, 800, 0}, {3, 0, 900, 0}};
    uint32_t tag;
    opened(N, M);
    for (tag = 1; tag <= 3; tag++) {
        planned_alone(tag, 1300, 700);
        move("one of three", 0, tag, 0, 100 * tag, 600);
    }
    for (tag = 3; tag >= 1; tag--)
        piece("one of three", tag, 0, 7, 0x1000 + 100 * tag, 512, 100 * tag, 1);
    finished("the first", 1, 1, (struct residuals){DOUNDER | DIUNDER, 688, 700});
    for (tag = 2; tag <= 3; tag++) {
        move("32, one of two", SRP_REFUSED_UNFINISHED, tag, 0, 0, 1);
        piece("one of two", tag, 0, 7, 0x1200 + 100 * tag, 88, 512 + 100 * tag, 2);
        done("one of two", tag, 0, 2);
    }
    list("two of three", 0, SRP_LIST_WORDS, 2, left);
}

void highest_cases(void)
{
    middle_first();
    repeated();
    pieces_count();
    over_and_under();
    used_again();
    several();
}
