/* srp_target_take of task requests: what each function aborts and answers. */
#include "calls.h"
#include "cases.h"

enum { N = 8, M = 512, TAG = 0x61 };

/* Open commands: tags 1 and 2 of LUN 5, tag 3 of LUN 6. */
static const uint64_t open_commands[3][SRP_RECORD_WORDS] = {{1, 5}, {2, 5}, {3, 6}};

static void three_open(void)
{
    opened(N, M);
    taken("tag 1", command(1, 5, 0));
    taken("tag 2", command(2, 5, 0));
    taken("tag 3", command(3, 6, 0));
}

/* A task request, RSP_CODE of its answer, and the commands that are still open, of the three from `first` on. */
static void managed(const char *name, uint8_t bits, uint8_t function, uint64_t lun, uint64_t tag, uint8_t code,
                    size_t first, size_t count)
{
    int solnt = code ? bits & UCSOLNT : bits & SCSOLNT;
    struct after after = {OTHER, {40, SRP_KIND_TASK, TAG, lun}, NULL};
    after.port = count == 3 ? ANY : OTHER;
    three_open();
    after.message = code_response(solnt, (uint32_t)(1 + 3 - count), TAG, code);
    take(name, 0, after, task(TAG, lun, bits, function, tag), 132);
    counters(name, 0, N, N - count, count, 0);
    list(name, 0, SRP_LIST_WORDS, count, open_commands + first);
}

/* LUN 5, task tag 1, own tag 61h: shows an exchange of the tags, of tag and LUN, of UCSOLNT and SCSOLNT. */
static void functions(void)
{
    unsigned function;
    managed("abort task", SCSOLNT, 0x01, 5, 1, 0x00, 1, 2);
    managed("abort task, another LUN", UCSOLNT, 0x01, 6, 1, 0x00, 0, 3);
    managed("abort task, no such tag", 0, 0x01, 5, 4, 0x00, 0, 3);
    managed("abort task set", SCSOLNT, 0x02, 5, 3, 0x00, 2, 1);
    managed("clear task set", UCSOLNT, 0x04, 6, 1, 0x00, 0, 2);
    managed("logical unit reset", 0xff, 0x08, 5, 0, 0x00, 2, 1);
    managed("logical unit reset, no such LUN", 0, 0x08, 7, 0, 0x00, 0, 3);
    for (function = 0; function < 256; function++)
        if (function != 0x01 && function != 0x02 && function != 0x04 && function != 0x08)
            managed("other function", function % 2 ? UCSOLNT : SCSOLNT, (uint8_t)function, 5, 1,
                    function == 0x40 ? 0x04 : 0x02, 0, 3);
}

/* An aborted command gets no response; its tag may be used again. */
static void aborted(void)
{
    struct after after = {OTHER, {40, SRP_KIND_TASK, TAG, 5}, NULL};
    three_open();
    plan("plan", 0, 1, 0, 0);
    after.message = code_response(0, 2, TAG, 0x00);
    take("abort", 0, after, task(TAG, 5, 0, 0x01, 1), 132);
    finish("finish of an aborted command", SRP_REFUSED_TAG_NOT_OPEN, NOTHING, 1, 0, NO_BYTES, 132);
    step("step of an aborted command", SRP_REFUSED_TAG_NOT_OPEN, NOTHING, 1, 0);
    taken("its tag again", command(1, 5, 0));
    plan("its plan", 0, 1, 0, 0);
    taken("the task's tag", command(TAG, 5, 0));
}

void task_cases(void)
{
    functions();
    aborted();
}
