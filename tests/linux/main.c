/*
 * A decoder built elsewhere: the structs of Linux's scsi/srp.h. Every message that the port writes is decoded with
 * them and compared with what document 01 says that it must hold. Every message to the port is built with them, and
 * the port takes it as those fields. The exchanges are arbitrary, and the same in every run. Every message either way,
 * and further ones, have the line in srp_trace that their fields in the structs give. The values of buf_fmt divide as
 * srp_format_counts has it.
 */
#include "events.h"
#include "formats.h"
#include "lines.h"
#include "port.h"
#include "random.h"
#include "tally.h"

enum { EXCHANGES = 3000, EVENTS = 140, ROUNDS = 2000, LEAST = 100 };

/* One of these, some of them more often. */
static void one_event(struct channel *c)
{
    static void (*const events[])(struct channel *) = {
        new_command, new_command, new_command, new_command, bring_one, bring_one, bring_one, bring_one, plan_one,
        plan_one, plan_one, plan_one, plan_one, plan_one, move_some, move_some, move_some, move_some, move_some,
        move_some, step_some, step_some, step_some, turn_some, turn_some, move_all, finish_one, finish_one,
        bad_command, manage, change_buffers, grant_credit, answer_grant, answer_grant,
    };
    events[from_to(0, sizeof events / sizeof *events - 1)](c);
}

int main(void)
{
    unsigned i, j, events;
    for (i = 0; i < EXCHANGES; i++) {
        struct channel c;
        open_channel(&c);
        agree(&c);
        events = from_to(0, EVENTS);
        for (j = 0; j < events; j++) {
            one_event(&c);
            agree(&c);
        }
        end_channel(&c);
        agree(&c);
    }
    trace_messages(ROUNDS);
    divide_formats();
    return tell(EXCHANGES, LEAST);
}
