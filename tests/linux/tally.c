#include <stdio.h>
#include <string.h>

#include "tally.h"

static const char *const names[TALLIES] = {
    "SRP_LOGIN_RSP", "SRP_LOGIN_REJ", "SRP_RSP of finish", "SRP_RSP to a task request", "SRP_RSP to bad fields",
    "SRP_CRED_REQ", "SRP_T_LOGOUT of take", "SRP_T_LOGOUT of close",
    "sense", "out over", "out under", "in over", "in under", "no residual",
    "h below the bytes handed out", "h above the bytes handed out",
    "SRP_LOGIN_REQ", "SRP_TSK_MGMT", "SRP_CRED_RSP", "SRP_I_LOGOUT",
    "direct", "indirect, all copied", "indirect, fetched", "both ways", "additional CDB",
    "empty move", "middle first", "move backwards", "move past 2^32", "move trimmed",
    "move unplanned", "move above min(R, B)", "move unfinished",
    "line of SRP_LOGIN_REQ", "line of SRP_TSK_MGMT", "line of SRP_CMD", "line of SRP_I_LOGOUT", "line of SRP_CRED_RSP",
    "line of SRP_T_LOGOUT", "line of SRP_CRED_REQ", "line of SRP_LOGIN_RSP", "line of SRP_RSP",
    "line of SRP_LOGIN_REJ", "line of UNKNOWN",
    "line with *****", "line with RSP_CODE", "line of a count above 32", "line of another length",
    "line of another format", "line of a sense past 2^32", "line of an event report",
    "RDMA operation", "done after several operations", "record",
    "RDMA operation up to a boundary", "RDMA operation between boundaries", "bad boundary",
    "tag used again", "finished between two", "aborted between two",
    "command that waits", "tables", "tables before an older command's", "tables of another length", "bad tables",
    "tables of a command that does not wait", "tables of a tag not open", "call refused while a command waits",
    "aborted while it waits",
    "turn, idle", "turn, idle, no command open", "turn, put back behind others", "turn, put back alone",
    "turn, the last piece", "last piece by a step, first in line", "last piece by a step, between others",
    "last piece by a step, last in line",
    "finished with a move in line", "aborted with a move in line",
};
static unsigned tallies[TALLIES], comparisons, failures;

void count(enum tally t)
{
    tallies[t]++;
}

void same(const char *message, const char *field, uint64_t got, uint64_t wanted)
{
    comparisons++;
    if (got == wanted)
        return;
    if (failures++ < 20)
        printf("FAILED %s: %s is %llx, not %llx\n", message, field, (unsigned long long)got,
               (unsigned long long)wanted);
}

void same_bytes(const char *message, const char *field, const void *got, const void *wanted, size_t len)
{
    same(message, field, len && memcmp(got, wanted, len) != 0, 0);
}

void same_text(const char *message, const char *field, const char *got, const char *wanted, size_t len)
{
    comparisons++;
    if (memcmp(got, wanted, len) == 0)
        return;
    if (failures++ < 20)
        printf("FAILED %s: %s is\n%.*s\nnot\n%.*s\n", message, field, (int)len, got, (int)len, wanted);
}

void all_zero(const char *message, const char *field, const void *got, size_t len)
{
    const uint8_t *bytes = got;
    uint8_t any = 0;
    while (len--)
        any |= *bytes++;
    same(message, field, any, 0);
}

int tell(unsigned exchanges, unsigned least)
{
    unsigned decoded = 0, lines = 0, fewest = tallies[0];
    int t;
    for (t = 0; t < TALLIES; t++) {
        if (tallies[t] < least) {
            printf("FAILED %s: came up %u times, fewer than %u\n", names[t], tallies[t], least);
            failures++;
        }
        if (tallies[t] < fewest)
            fewest = tallies[t];
        if (t <= CLOSINGS)
            decoded += tallies[t];
        if (t >= LINES_LOGIN_REQ && t <= LINES_UNKNOWN)
            lines += tallies[t];
    }
    printf("Linux srp.h: %u exchanges, %u messages decoded, %u RDMA operations, %u lines, each kind at least %u times, "
           "%u comparisons, %u failed\n", exchanges, decoded, tallies[PIECES], lines, fewest, comparisons, failures);
    return failures ? 1 : 0;
}
