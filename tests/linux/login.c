/* Logins, accepted and rejected. */
#include <string.h>

#include "decode.h"
#include "events.h"
#include "lines.h"
#include "port.h"
#include "random.h"
#include "tally.h"

static uint32_t call_login(const struct settings *s)
{
    uint32_t values[SRP_SETTINGS] = {s->buffers, s->longest_piece, s->longest_message, s->indirect, s->solicited};
    lend();
    return srp_target_login(port.words, values, s->boundary, s->own, port.msg, port.msg_len, port.buf,
                            SRP_MESSAGE_BYTES, port.answer);
}

/* The same login with a boundary that is none: refused, whatever its message is. */
static void refused(const struct settings *s)
{
    struct settings bad = *s;
    bad.boundary = bad_boundary();
    same("bad boundary", "returned", call_login(&bad), SRP_REFUSED_SETTING);
    answered("bad boundary", (const uint64_t[SRP_ANSWER_WORDS]){0});
    kept_from("bad boundary", 0);
    same("bad boundary", "closed", srp_target_counters(port.words, port.answer), SRP_REFUSED_CLOSED);
    count(BAD_BOUNDARIES);
}

static void opens(struct channel *c, const struct settings *s, const struct login *l)
{
    memset(c, 0, sizeof *c);
    c->open = 1;
    c->longest_piece = s->longest_piece;
    c->boundary = s->boundary;
    c->agreed = l->length;
    c->formats = l->formats;
    c->crsolnt = l->crsolnt;
    c->losolnt = l->losolnt;
    c->wanted = c->announced = s->buffers;
}

/* Whether it is accepted. */
static int log_in(struct channel *c)
{
    struct settings s;
    struct login l;
    struct login_answer a;
    any_settings(&s);
    any_login(&l, &s);
    a = (struct login_answer){s.buffers, rejection(&l, &s), l.length, l.tag, s.indirect ? 6 : 2, s.solicited};
    port.msg_len = build_login(port.msg, &l);
    if (one_in(3))
        refused(&s);
    same("login", "returned", call_login(&s), 0);
    answered("login", (const uint64_t[SRP_ANSWER_WORDS]){a.reason ? 32 : 52, a.reason});
    kept_from("login", a.reason ? 32 : 52);
    traced("login", "LOGIN_REQ", port.msg, port.msg_len, TO_PORT);
    count(LOGIN_REQS);
    if (a.reason) {
        is_login_rej(port.buf, port.answer[0], &a);
        same("login", "closed", srp_target_counters(port.words, port.answer), SRP_REFUSED_CLOSED);
        return 0;
    }
    is_login_rsp(port.buf, port.answer[0], &a);
    opens(c, &s, &l);
    return 1;
}

void open_channel(struct channel *c)
{
    while (!log_in(c))
        ;
}
