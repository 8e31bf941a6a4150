/* srp_target_finish: status, sense, residuals, SOLNT. */
#include "calls.h"
#include "cases.h"

enum { N = 3, M = 512, TAG = 0x77, DOOVER = 0x04, DOUNDER = 0x08, DIOVER = 0x10, DIUNDER = 0x20 };

/* Both ways direct: out 1000h/100, in 5000h/60. */
static const uint8_t both[32] = {
    0, 0, 0, 0, 0, 0, 0x10, 0, 0, 0, 0, 7, 0, 0, 0, 100,
    0, 0, 0, 0, 0, 0, 0x50, 0, 0, 0, 0, 9, 0, 0, 0, 60,
};
static const uint8_t sense[97] = {0x70, 0, 5, 1, 2, 3, 4, 0x0a, 5, 6, 7, 8,
                                  0x24, 9, 10, 11, 12, 13, [95] = 14, [96] = 15};

static struct bytes sense_of(size_t len)
{
    return (struct bytes){sense, len};
}

static void both_open(uint8_t bits)
{
    opened(N, M);
    taken("both ways", command_with(TAG, bits, 0x11, 0, 0, BYTES(both)));
}

static void ended(const char *name, uint8_t bits, int solnt, uint8_t status, size_t sense_len)
{
    struct residuals unplanned = {DOUNDER | DIUNDER, 100, 60};
    struct after after = {OTHER, {36 + sense_len}, NULL};
    both_open(bits);
    after.message = response(solnt, 1, TAG, status, unplanned, sense_of(sense_len));
    finish(name, 0, after, TAG, status, sense_of(sense_len), 140);
    counters(name, 0, N, N, 0, 0);
    finish(name, SRP_REFUSED_TAG_NOT_OPEN, NOTHING, TAG, status, sense_of(sense_len), 140);
}

/* sense_len 18, buf_len 140, status 2. Exchanged, it would give
 *   sense_len and buf_len   1, 18 being under 132
 *   sense and buf           sense of other bytes
 *   status and tag          24 */
static void arguments(void)
{
    ended("status 2, sense", SCSOLNT, 0, 0x02, 18);
    ended("status 2, longest sense", UCSOLNT, 1, 0x02, 96);
    ended("status 2, least sense", UCSOLNT | SCSOLNT, 1, 0x02, 1);
    ended("status 2, no sense", UCSOLNT, 1, 0x02, 0);
    ended("status 0", SCSOLNT, 1, 0x00, 0);
    ended("status 0", UCSOLNT, 0, 0x00, 0);
    ended("status 28h", UCSOLNT, 1, 0x28, 0);
    ended("status FFh", SCSOLNT, 0, 0xff, 0);
}

static void refusals(void)
{
    both_open(0);
    finish("finish 1", SRP_REFUSED_SHORT_BUFFER, NOTHING, TAG + 1, 0, sense_of(97), 131);
    finish("finish 11, 97 bytes", SRP_REFUSED_ARGUMENT, NOTHING, TAG + 1, 0x02, sense_of(97), 132);
    finish("finish 11, status 0", SRP_REFUSED_ARGUMENT, NOTHING, TAG + 1, 0x00, sense_of(1), 132);
    finish("finish 11, status 3", SRP_REFUSED_ARGUMENT, NOTHING, TAG, 0x03, sense_of(18), 132);
    finish("finish 24", SRP_REFUSED_TAG_NOT_OPEN, NOTHING, TAG + 1, 0x02, sense_of(18), 132);
    finished("finish", TAG, 1, (struct residuals){DOUNDER | DIUNDER, 100, 60});
    close_channel("close", 0, (struct after){CLOSED, {16}, target_logout(1, 0)}, 0, 132);
    finish("finish 21", SRP_REFUSED_CLOSED, NOTHING, TAG, 0x00, sense_of(97), 132);
    finish("finish 1 before 21", SRP_REFUSED_SHORT_BUFFER, NOTHING, TAG, 0x00, NO_BYTES, 131);
}

/* R each way, with a move of all of it, whether the pieces are handed out, and what the response says. */
static void moved(const char *name, uint32_t r_out, uint32_t r_in, int all, struct residuals residuals)
{
    both_open(0);
    planned(name, TAG, r_out, r_in);
    if (all && r_out)
        piece(name, TAG, 0, 7, 0x1000, r_out < 100 ? r_out : 100, 0, 1);
    if (all && r_in)
        piece(name, TAG, 1, 9, 0x5000, r_in < 60 ? r_in : 60, 0, 1);
    finished(name, TAG, 1, residuals);
}

static void residuals(void)
{
    moved("all moved", 100, 60, 1, NO_RESIDUALS);
    moved("nothing moved", 100, 60, 0, (struct residuals){DOUNDER | DIUNDER, 100, 60});
    moved("under", 70, 59, 1, (struct residuals){DOUNDER | DIUNDER, 30, 1});
    moved("nothing required", 0, 0, 1, (struct residuals){DOUNDER | DIUNDER, 100, 60});
    moved("over", 101, 90, 1, (struct residuals){DOOVER | DIOVER, 1, 30});
    moved("over, nothing moved", 101, 90, 0, (struct residuals){DOOVER | DIOVER, 1, 30});
    moved("over and under", 0xffffffff, 20, 1, (struct residuals){DOOVER | DIUNDER, 0xffffff9b, 40});
    moved("under and over", 99, 61, 1, (struct residuals){DOUNDER | DIOVER, 1, 1});
    moved("under and neither", 1, 60, 1, (struct residuals){DOUNDER, 99, 0});
    moved("neither and over", 100, 61, 1, (struct residuals){DIOVER, 0, 1});
}

/* Without descriptors: over by R. */
static void no_buffer(void)
{
    opened(N, M);
    taken("no data", command(TAG, 0, 0));
    planned("no data, plan", TAG, 5, 0);
    done("no data, done", TAG, 0, 0);
    finished("no data", TAG, 1, (struct residuals){DOOVER, 5, 0});
}

void finish_cases(void)
{
    arguments();
    refusals();
    residuals();
    no_buffer();
}
