/* How a channel ends. */
#include <string.h>

#include "decode.h"
#include "events.h"
#include "outside.h"
#include "port.h"
#include "random.h"
#include "tally.h"

/* The message in port.msg draws a refusal and an SRP_T_LOGOUT with a reason. */
static void hangs_up(struct channel *c, uint32_t refusal, uint32_t reason)
{
    same("hang-up", "returned", take_message(), refusal);
    answered("hang-up", (const uint64_t[SRP_ANSWER_WORDS]){16});
    kept_from("hang-up", 16);
    is_t_logout("SRP_T_LOGOUT of take", port.buf, port.answer[0], c->losolnt, reason);
    count(HANG_UPS);
}

static void no_data_command(struct channel *c, struct request *r)
{
    any_request(r, c);
    port.msg_len = build_command(port.msg, r);
}

/* A format that was not agreed: 5 and reason 6, or 6 and reason 7. */
static void bad_format(struct channel *c)
{
    uint32_t format;
    struct request r;
    int out = one_in(2);
    no_data_command(c, &r);
    do
        format = from_to(1, one_in(2) ? 2 : 15);
    while (format <= 2 && c->formats & 1u << format);
    port.msg[offsetof(struct srp_cmd, buf_fmt)] = (uint8_t)(out ? format << 4 | from_to(0, 15) : format);
    hangs_up(c, out ? SRP_REFUSED_OUT_FORMAT : SRP_REFUSED_IN_FORMAT, out ? 6 : 7);
}

/* One copy and a table of less than 16 bytes: 7 and reason 8, or 8 and reason 9. 0 where no table can be sent. */
static int bad_count(struct channel *c)
{
    struct request r;
    struct side *s;
    int out = one_in(2);
    if (!(c->formats & SRP_BUF_FORMAT_INDIRECT) || c->agreed < 48 + 36)
        return 0;
    any_request(&r, c);
    s = out ? &r.out : &r.in;
    s->format = SRP_DATA_DESC_INDIRECT;
    s->copies = s->entries = 1;
    s->table_length = from_to(0, 15);
    port.msg_len = build_command(port.msg, &r);
    hangs_up(c, out ? SRP_REFUSED_OUT_COUNT : SRP_REFUSED_IN_COUNT, out ? 8 : 9);
    return 1;
}

/* A request without credit, or with a tag that is open; 0 where neither can be. */
static int bad_request(struct channel *c)
{
    struct request r;
    no_data_command(c, &r);
    if (c->announced <= 0) {
        hangs_up(c, SRP_REFUSED_NO_CREDIT, 0);
        return 1;
    }
    if (!c->held)
        return 0;
    r.tag = c->commands[from_to(0, c->held - 1)].tag;
    port.msg_len = one_in(2) ? build_command(port.msg, &r) : build_task(port.msg, &r, SRP_TSK_ABORT_TASK, r.tag);
    hangs_up(c, SRP_REFUSED_TAG_OPEN, 0);
    return 1;
}

/* A credit response that is not due, another type, another length. */
static void bad_message(struct channel *c)
{
    static const uint8_t types[8] = {SRP_LOGIN_REQ, SRP_LOGIN_RSP, SRP_RSP, SRP_LOGIN_REJ,
                                     SRP_T_LOGOUT, SRP_CRED_REQ, SRP_AER_REQ, SRP_AER_RSP};
    uint32_t refusal = SRP_REFUSED_CREDIT_RESPONSE;
    port.msg_len = build_cred_rsp(port.msg, c->unanswered || one_in(2) ? any_number() | 2 : 1);
    if (one_in(3)) {
        port.msg[0] = types[from_to(0, 7)];
        refusal = SRP_REFUSED_OTHER_TYPE;
    } else if (one_in(2)) {
        port.msg_len = one_in(2) ? from_to(0, 15) : from_to(17, c->agreed);
        refusal = SRP_REFUSED_LENGTH;
    }
    hangs_up(c, refusal, 0);
}

static void log_out(void)
{
    port.msg_len = build_i_logout(port.msg);
    same("SRP_I_LOGOUT", "returned", take_message(), 0);
    answered("SRP_I_LOGOUT", (const uint64_t[SRP_ANSWER_WORDS]){0, SRP_KIND_LOGOUT});
    kept_from("SRP_I_LOGOUT", 0);
    count(I_LOGOUTS);
}

static void close_it(struct channel *c)
{
    uint32_t reason = one_in(2) ? from_to(0, 9) : (uint32_t)any_number();
    lend();
    same("close", "returned", srp_target_close(port.words, reason, port.buf, SRP_MESSAGE_BYTES, port.answer), 0);
    answered("close", (const uint64_t[SRP_ANSWER_WORDS]){16});
    kept_from("close", 16);
    is_t_logout("SRP_T_LOGOUT of close", port.buf, port.answer[0], c->losolnt, reason);
    count(CLOSINGS);
}

void end_channel(struct channel *c)
{
    switch (from_to(0, 7)) {
    case 0:
    case 1:
        log_out();
        break;
    case 2:
    case 3:
        close_it(c);
        break;
    case 4:
        bad_format(c);
        break;
    case 5:
        if (bad_count(c))
            break;
        /* fall through */
    case 6:
        if (bad_request(c))
            break;
        /* fall through */
    default:
        bad_message(c);
    }
    c->open = 0;
}
