/* Turns: whose piece comes next, what joins the line and what leaves it, and the words of the answer. */
#include <string.h>

#include "calls.h"
#include "cases.h"

enum { N = 16, M = 512, TASK = 0x61, OUT_WAY = SRP_DIRECTION_OUT, IN_WAY = SRP_DIRECTION_IN };

/* The header's example: 5 out with three pieces, 5 in with one, 9 in with two. */
static void three_moves(void)
{
    opened(N, M);
    idle("nothing open");
    taken("tag 5", command_both_ways(5, 0));
    taken("tag 9", command_both_ways(9, 0));
    idle("not planned");
    plan("tag 5", 0, 5, 1300, 700);
    plan("tag 9", 0, 9, 1300, 700);
    idle("no move");
    move("5 out", 0, 5, OUT_WAY, 0, 1300);
    move("5 in", 0, 5, IN_WAY, 0, 512);
    move("9 in", 0, 9, IN_WAY, 0, 700);
}

/* tag exchanged with number in the answer would show in each. */
static void example(void)
{
    three_moves();
    served("5 out", 5, OUT_WAY, 7, 0x1000, 512, 0, 1);
    served("5 in, its last", 5, IN_WAY, 9, 0x5000, 512, 0, 1);
    piece("5 out by a step", 5, OUT_WAY, 7, 0x1200, 512, 512, 2);
    served("9 in, the place of 5 out stays", 9, IN_WAY, 9, 0x5000, 512, 0, 1);
    piece("5 out, its last by a step", 5, OUT_WAY, 7, 0x1400, 276, 1024, 3);
    served("9 in, its last", 9, IN_WAY, 9, 0x5200, 188, 512, 2);
    idle("nothing left");
    idle("and again");
    done("5 out", 5, OUT_WAY, 3);
    done("9 in", 9, IN_WAY, 2);
}

/* The last piece by a step takes its own direction out, and not the command's other one. */
static void last_by_a_step(void)
{
    three_moves();
    piece("5 in, its last by a step", 5, IN_WAY, 9, 0x5000, 512, 0, 1);
    done("5 in", 5, IN_WAY, 1);
    served("5 out", 5, OUT_WAY, 7, 0x1000, 512, 0, 1);
    served("9 in", 9, IN_WAY, 9, 0x5000, 512, 0, 1);
    served("5 out", 5, OUT_WAY, 7, 0x1200, 512, 512, 2);
    piece("9 in, its last by a step", 9, IN_WAY, 9, 0x5200, 188, 512, 2);
    served("5 out, alone", 5, OUT_WAY, 7, 0x1400, 276, 1024, 3);
    idle("nothing left");
}

/* A move joins at the end, also one that was just done; one without bytes joins none, nor one that is refused. */
static void joining(void)
{
    three_moves();
    served("5 out", 5, OUT_WAY, 7, 0x1000, 512, 0, 1);
    move("32", SRP_REFUSED_UNFINISHED, 5, OUT_WAY, 0, 1);
    move("31", SRP_REFUSED_OFFSET, 9, OUT_WAY, 1301, 1);
    named("9 out, no bytes", 9, OUT_WAY, 1300, 7);
    served("5 in", 5, IN_WAY, 9, 0x5000, 512, 0, 1);
    move("5 in again", 0, 5, IN_WAY, 512, 1000);
    served("9 in", 9, IN_WAY, 9, 0x5000, 512, 0, 1);
    move("9 out", 0, 9, OUT_WAY, 1299, 1);
    served("5 out", 5, OUT_WAY, 7, 0x1200, 512, 512, 2);
    served("5 in, from 512 on", 5, IN_WAY, 9, 0x5200, 188, 512, 1);
    served("9 in", 9, IN_WAY, 9, 0x5200, 188, 512, 2);
    served("9 out", 9, OUT_WAY, 7, 0x1513, 1, 1299, 1);
    served("5 out", 5, OUT_WAY, 7, 0x1400, 276, 1024, 3);
    idle("nothing left");
}

/* Finish takes both moves of its command out, and the tag used again has none. */
static void finished_in_line(void)
{
    three_moves();
    finished("5 with pieces left", 5, 1, (struct residuals){0x28, 1300, 700});
    served("9 in", 9, IN_WAY, 9, 0x5000, 512, 0, 1);
    taken("5 used again", command_both_ways(5, 0));
    plan("5", 0, 5, 1300, 700);
    served("9 in, 5 has no move", 9, IN_WAY, 9, 0x5200, 188, 512, 2);
    idle("5 has no move");
    move("5 in", 0, 5, IN_WAY, 100, 1);
    served("5 in", 5, IN_WAY, 9, 0x5064, 1, 100, 1);
    idle("nothing left");
}

static void aborted(const char *name, uint64_t lun, uint8_t function, uint64_t tag, uint32_t delta)
{
    struct after after = {ANY, {40, SRP_KIND_TASK, TASK, lun}, code_response(0, delta, TASK, 0x00)};
    take(name, 0, after, task(TASK, lun, 0, function, tag), 132);
}

/* An abort of another LUN takes nothing out; one of the tag both moves, one of the LUN those of all its commands. */
static void aborted_in_line(void)
{
    three_moves();
    aborted("of another LUN", 1, 0x01, 5, 1);
    aborted("of another tag", 0, 0x01, 6, 1);
    served("5 out", 5, OUT_WAY, 7, 0x1000, 512, 0, 1);
    aborted("of tag 5", 0, 0x01, 5, 2);
    served("9 in", 9, IN_WAY, 9, 0x5000, 512, 0, 1);
    served("9 in, alone", 9, IN_WAY, 9, 0x5200, 188, 512, 2);
    idle("nothing left");
    three_moves();
    aborted("of the LUN", 0, 0x08, 0, 3);
    idle("nothing left");
}

/* A command that waits has no move, and refusal 10 of its tables leaves the moves of others in line. */
static void ended_by_tables(void)
{
    static const uint8_t table[20] = {0, 0, 0, 0, 0, 0, 0x90, 0, 0, 0, 0, 3, 0, 0, 0, 16, 0, 0, 0, 9};
    static uint8_t ones[16];
    memset(ones, 0xff, sizeof ones);
    three_moves();
    served("5 out", 5, OUT_WAY, 7, 0x1000, 512, 0, 1);
    waits("tag 6", command_with(6, 0, 0x02, 0, 0, BYTES(table)));
    served("5 in", 5, IN_WAY, 9, 0x5000, 512, 0, 1);
    tables("tag 6", SRP_REFUSED_FIELDS, (struct after){OTHER, {40}, code_response(0, 1, 6, 0x02)}, 6, NO_BYTES,
           BYTES(ones), 132);
    served("9 in", 9, IN_WAY, 9, 0x5000, 512, 0, 1);
    served("5 out", 5, OUT_WAY, 7, 0x1200, 512, 512, 2);
}

/* A closed channel draws 21, however it was closed; after a login nothing is in line. */
static void closed(void)
{
    static const uint8_t other_type[16] = {0x07};
    three_moves();
    close_channel("close", 0, (struct after){CLOSED, {16}, target_logout(1, 4)}, 4, 132);
    turn("closed", SRP_REFUSED_CLOSED, NOTHING);
    three_moves();
    take("logout", 0, (struct after){CLOSED, {0, SRP_KIND_LOGOUT}, NULL}, initiator_logout(3), 132);
    turn("logged out", SRP_REFUSED_CLOSED, NOTHING);
    three_moves();
    take("hang-up", SRP_REFUSED_OTHER_TYPE, (struct after){CLOSED, {16}, target_logout(1, 0)}, BYTES(other_type), 132);
    turn("hung up", SRP_REFUSED_CLOSED, NOTHING);
}

/* 16 commands, both ways: 32 moves, named the last command first. Each is served in its turn, three rounds of those
 * out, whose moves have three pieces, and two of those in, some of them after steps. */
static void whole_line(void)
{
    uint64_t tag, round;
    opened(N, M);
    for (tag = 1; tag <= 16; tag++) {
        taken("16 commands", command_both_ways(tag << 56 | tag, 0));
        plan("16 commands", 0, tag << 56 | tag, 1300, 700);
    }
    for (tag = 16; tag >= 1; tag--) {
        move("out", 0, tag << 56 | tag, OUT_WAY, 0, 1300);
        move("in", 0, tag << 56 | tag, IN_WAY, 0, 700);
    }
    for (tag = 1; tag <= 16; tag += 5)
        piece("a step before", tag << 56 | tag, IN_WAY, 9, 0x5000, 512, 0, 1);
    for (round = 1; round <= 3; round++)
        for (tag = 16; tag >= 1; tag--) {
            uint64_t at = M * (round - 1), number = round + (tag % 5 == 1), in_at = M * (number - 1);
            served("out", tag << 56 | tag, OUT_WAY, 7, 0x1000 + at, round < 3 ? M : 276, at, round);
            if (number <= 2)
                served("in", tag << 56 | tag, IN_WAY, 9, 0x5000 + in_at, number < 2 ? M : 188, in_at, number);
        }
    idle("nothing left");
}

void turn_cases(void)
{
    example();
    last_by_a_step();
    joining();
    finished_in_line();
    aborted_in_line();
    ended_by_tables();
    closed();
    whole_line();
}
