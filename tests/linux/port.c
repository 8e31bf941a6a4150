#include <string.h>

#include "lines.h"
#include "outside.h"
#include "port.h"
#include "tally.h"

struct port port;

enum { FILL = 0xa5 };

void lend(void)
{
    memset(port.buf, FILL, sizeof port.buf);
    memset(port.answer, FILL, sizeof port.answer);
}

void answered(const char *name, const uint64_t *words)
{
    unsigned i;
    for (i = 0; i < SRP_ANSWER_WORDS; i++)
        same(name, "word of the answer", port.answer[i], words[i]);
}

void kept_from(const char *name, size_t len)
{
    while (len < sizeof port.buf && port.buf[len] == FILL)
        len++;
    same(name, "first byte written past the message", len, sizeof port.buf);
}

/* The line of a message taken names what it was taken as, by the kind in the answer. Then its memory is used again. */
uint32_t take_message(void)
{
    static const char *const types[5] = {NULL, "CMD", "TSK_MGMT", "CRED_RSP", "I_LOGOUT"};
    uint32_t returned;
    lend();
    returned = srp_target_take(port.words, port.store, port.msg, port.msg_len, port.buf, SRP_MESSAGE_BYTES,
                               port.answer);
    traced("message taken", port.answer[1] < 5 ? types[port.answer[1]] : NULL, port.msg, port.msg_len, TO_PORT);
    memset(port.msg, FILL, sizeof port.msg);
    return returned;
}

/* The open commands are listed as they were taken, oldest first. */
static void agree_listing(const struct channel *c)
{
    uint64_t records[SRP_LIST_WORDS];
    unsigned i;
    same("list", "returned", srp_target_list(port.words, records, SRP_LIST_WORDS, port.answer), 0);
    same("list", "how many", port.answer[0], c->held);
    for (i = 0; i < c->held; i++) {
        const uint64_t *record = records + SRP_RECORD_WORDS * i;
        const struct request *r = &c->commands[i];
        same("list", "tag", record[0], r->tag);
        same("list", "LUN", record[1], r->lun);
        same("list", "out", record[2], r->out.highest);
        same("list", "in", record[3], r->in.highest);
        count(LISTED);
    }
}

void agree(struct channel *c)
{
    uint32_t returned = srp_target_counters(port.words, port.answer);
    same("counters", "returned", returned, c->open ? 0 : SRP_REFUSED_CLOSED);
    if (!c->open) {
        lend();
        same("turn", "returned", srp_target_turn(port.words, port.store, port.answer), SRP_REFUSED_CLOSED);
        answered("turn, closed", (const uint64_t[SRP_ANSWER_WORDS]){0});
        return;
    }
    answered("counters", (const uint64_t[SRP_ANSWER_WORDS]){(uint64_t)c->wanted, (uint64_t)c->announced, c->held,
                                                            (uint64_t)owed(c)});
    agree_listing(c);
}
