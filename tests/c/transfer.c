/* srp_target_plan and srp_target_step, with one move each way. */
#include "calls.h"
#include "cases.h"

enum { N = 3, M = 512, TAG = 0x1234 };

static void both_open(void)
{
    opened(N, M);
    taken("both ways", command_both_ways(TAG, 0));
}

/* R 650 out, 90 in; M 512. Exchanged, it would give
 *   r_out and r_in               a first piece of 90 bytes out, 512 in
 *   tag and a length             24
 *   direction and tag of a step  24 */
static void arguments(void)
{
    both_open();
    planned("plan", TAG, 650, 90);
    piece("first out", TAG, SRP_DIRECTION_OUT, 7, 0x1000, 512, 0, 1);
    piece("all in", TAG, SRP_DIRECTION_IN, 9, 0x5000, 90, 0, 1);
    piece("last out", TAG, SRP_DIRECTION_OUT, 7, 0x1200, 138, 512, 2);
    done("done out", TAG, SRP_DIRECTION_OUT, 2);
    done("done in", TAG, SRP_DIRECTION_IN, 1);
    done("done again", TAG, SRP_DIRECTION_OUT, 2);
}

/* Every direction but 0 is in. */
static void directions(void)
{
    both_open();
    planned("plan", TAG, 650, 700);
    piece("direction 2", TAG, 2, 9, 0x5000, 512, 0, 1);
    piece("direction 2^31", TAG, 0x80000000, 9, 0x5200, 188, 512, 2);
    done("direction 256", TAG, 0x100, 2);
}

/* Each direction's pieces end at multiples of Q, as long as M lets them; both buffers start at one. */
static void boundary(void)
{
    opened_with(N, 1024, 512);
    taken("both ways", command_both_ways(TAG, 0));
    planned("plan", TAG, 1300, 700);
    piece("out, from a multiple", TAG, SRP_DIRECTION_OUT, 7, 0x1000, 512, 0, 1);
    piece("in, from a multiple", TAG, SRP_DIRECTION_IN, 9, 0x5000, 512, 0, 1);
    piece("out, the next", TAG, SRP_DIRECTION_OUT, 7, 0x1200, 512, 512, 2);
    piece("in, the last", TAG, SRP_DIRECTION_IN, 9, 0x5200, 188, 512, 2);
    piece("out, the last", TAG, SRP_DIRECTION_OUT, 7, 0x1400, 276, 1024, 3);
    done("done out", TAG, SRP_DIRECTION_OUT, 3);
    done("done in", TAG, SRP_DIRECTION_IN, 2);
}

/* R of 0, and R above B. */
static void lengths(void)
{
    both_open();
    planned("plan", TAG, 0, 0xffffffff);
    done("R = 0", TAG, SRP_DIRECTION_OUT, 0);
    piece("R above B", TAG, SRP_DIRECTION_IN, 9, 0x5000, 512, 0, 1);
    piece("R above B", TAG, SRP_DIRECTION_IN, 9, 0x5200, 188, 512, 2);
    done("R above B", TAG, SRP_DIRECTION_IN, 2);
}

/* 21 before 24; 24 before 30 and 29. */
static void refusals(void)
{
    both_open();
    step("step 29", SRP_REFUSED_UNPLANNED, NOTHING, TAG, 0);
    step("step 29, in", SRP_REFUSED_UNPLANNED, NOTHING, TAG, 1);
    step("step 24", SRP_REFUSED_TAG_NOT_OPEN, NOTHING, TAG + 1, 0);
    plan("plan 24", SRP_REFUSED_TAG_NOT_OPEN, TAG + 1, 1, 1);
    plan("plan 24, high half of the tag", SRP_REFUSED_TAG_NOT_OPEN, TAG | 1ull << 32, 1, 1);
    plan("plan", 0, TAG, 0, 0);
    plan("plan 30", SRP_REFUSED_PLANNED, TAG, 1, 1);
    move("the first plan stands", SRP_REFUSED_OFFSET, TAG, 0, 1, 0);
    close_channel("close", 0, (struct after){CLOSED, {16}, target_logout(1, 0)}, 0, 132);
    plan("plan 21", SRP_REFUSED_CLOSED, TAG, 1, 1);
    step("step 21", SRP_REFUSED_CLOSED, NOTHING, TAG, 0);
}

void transfer_cases(void)
{
    arguments();
    directions();
    boundary();
    lengths();
    refusals();
}
