#include <string.h>

#include "calls.h"

/* The header's declarations have these types and no other. */
static uint64_t (*const words_of_header)(void) = srp_target_words;
static uint32_t (*const login_of_header)(uint64_t *, const uint32_t *, uint64_t, const uint8_t *, const uint8_t *,
                                         size_t, uint8_t *, size_t, uint64_t *) = srp_target_login;
static uint32_t (*const take_of_header)(uint64_t *, uint8_t *, const uint8_t *, size_t, uint8_t *, size_t,
                                        uint64_t *) = srp_target_take;
static uint32_t (*const tables_of_header)(uint64_t *, uint8_t *, uint64_t, const uint8_t *, size_t, const uint8_t *,
                                          size_t, uint8_t *, size_t, uint64_t *) = srp_target_tables;
static uint32_t (*const plan_of_header)(uint64_t *, uint64_t, uint32_t, uint32_t) = srp_target_plan;
static uint32_t (*const move_of_header)(uint64_t *, uint64_t, uint32_t, uint32_t, uint32_t) = srp_target_move;
static uint32_t (*const step_of_header)(uint64_t *, const uint8_t *, uint64_t, uint32_t, uint64_t *) = srp_target_step;
static uint32_t (*const turn_of_header)(uint64_t *, const uint8_t *, uint64_t *) = srp_target_turn;
static uint32_t (*const finish_of_header)(uint64_t *, uint64_t, uint8_t, const uint8_t *, size_t, uint8_t *, size_t,
                                          uint64_t *) = srp_target_finish;
static uint32_t (*const add_of_header)(uint64_t *, uint32_t) = srp_target_add;
static uint32_t (*const withdraw_of_header)(uint64_t *, uint32_t) = srp_target_withdraw;
static uint32_t (*const grant_of_header)(uint64_t *, uint8_t *, size_t, uint64_t *) = srp_target_grant;
static uint32_t (*const close_of_header)(uint64_t *, uint32_t, uint8_t *, size_t, uint64_t *) = srp_target_close;
static uint32_t (*const counters_of_header)(const uint64_t *, uint64_t *) = srp_target_counters;
static uint32_t (*const list_of_header)(const uint64_t *, uint64_t *, size_t, uint64_t *) = srp_target_list;
static uint32_t (*const look_of_header)(const uint8_t *, size_t, uint32_t, uint32_t, uint8_t *, size_t) = srp_look;
static uint32_t (*const cut_of_header)(const uint8_t *, size_t, uint32_t, uint64_t, uint32_t, uint32_t, uint8_t *,
                                       size_t) = srp_cut;
static uint32_t (*const trace_of_header)(const uint8_t *, size_t, uint32_t, uint8_t *, size_t) = srp_trace;
static uint32_t (*const format_counts_of_header)(uint32_t, uint64_t *) = srp_format_counts;

const uint8_t own_identifier[16] = {0x21, 0x22, 0x23, 0x24, 0x25, 0x26, 0x27, 0x28,
                                    0x29, 0x2a, 0x2b, 0x2c, 0x2d, 0x2e, 0x2f, 0x30};

enum { PORT_BYTES = 8 * SRP_PORT_WORDS, ANSWER_BYTES = 8 * SRP_ANSWER_WORDS };

/* What the port's words must be. */
static void judge_port(const char *name, enum words_after port)
{
    static const uint8_t closed[PORT_BYTES];
    if (port == CLOSED)
        expect(PORT, 0, closed, PORT_BYTES);
    if (port == OTHER && !changed(PORT, PORT_BYTES))
        fail(name, "the port is as it was");
    if (port == OTHER || port == ANY)
        let_change(PORT, PORT_BYTES);
}

static void judge(const char *name, uint32_t returned, uint32_t number, const struct after *after)
{
    judge_port(name, after->port);
    expect(ANSWER, 0, after->answer, ANSWER_BYTES);
    if (after->message)
        expect(BUF, 0, after->message, after->answer[0]);
    compare(name, returned, number);
}

static void lend_answers(void)
{
    lay(BUF, NULL, 0);
    lay(ANSWER, NULL, 0);
    begin();
}

void look(const char *name, uint32_t number, const uint8_t *answer, struct bytes msg, uint32_t agreed,
          uint32_t formats, size_t buf_len)
{
    uint32_t returned;
    lay(MSG, msg.at, msg.len);
    lend_answers();
    returned = look_of_header(lent(MSG), msg.len, agreed, formats, lent(BUF), buf_len);
    if (answer)
        expect(BUF, 0, answer, SRP_ANSWER_BYTES);
    compare(name, returned, number);
}

void cut(const char *name, uint32_t number, const uint8_t *answer, struct bytes list, uint32_t m, uint64_t q,
         uint32_t r, uint32_t handed, size_t buf_len)
{
    uint32_t returned;
    lay(SEGMENTS, list.at, list.len);
    lend_answers();
    returned = cut_of_header(lent(SEGMENTS), list.len, m, q, r, handed, lent(BUF), buf_len);
    if (answer)
        expect(BUF, 0, answer, SRP_ANSWER_BYTES);
    compare(name, returned, number);
}

void trace(const char *name, uint32_t number, const char *line, struct bytes msg, uint32_t direction, size_t buf_len)
{
    uint32_t returned;
    lay(MSG, msg.at, msg.len);
    lend_answers();
    returned = trace_of_header(lent(MSG), msg.len, direction, lent(BUF), buf_len);
    if (line && strlen(line) != SRP_TRACE_BYTES)
        fail(name, "the line to compare with has not 81 bytes");
    else if (line)
        expect(BUF, 0, line, SRP_TRACE_BYTES);
    compare(name, returned, number);
}

void format_counts(const char *name, uint32_t number, uint64_t pass, uint64_t out, uint64_t in, uint32_t formats)
{
    struct after after = {SAME, {pass, out, in}, NULL};
    lend_answers();
    judge(name, format_counts_of_header(formats, lent_words(ANSWER)), number, &after);
}

void login(const char *name, uint32_t number, struct after after, const uint32_t *settings, uint64_t boundary,
           struct bytes msg, size_t buf_len)
{
    uint32_t returned;
    if (words_of_header() != SRP_PORT_WORDS)
        fail(name, "another number of words");
    lay(PORT, NULL, 0);
    lay(SETTINGS, settings, SRP_SETTINGS * sizeof *settings);
    lay(OWN, own_identifier, sizeof own_identifier);
    lay(MSG, msg.at, msg.len);
    lend_answers();
    returned = login_of_header(lent_words(PORT), (const uint32_t *)(const void *)lent(SETTINGS), boundary, lent(OWN),
                               lent(MSG), msg.len, lent(BUF), buf_len, lent_words(ANSWER));
    judge(name, returned, number, &after);
}

/* The message's memory holds something else as soon as take returns. */
void take(const char *name, uint32_t number, struct after after, struct bytes msg, size_t buf_len)
{
    uint32_t returned;
    lay(MSG, msg.at, msg.len);
    lend_answers();
    returned = take_of_header(lent_words(PORT), lent(STORE), lent(MSG), msg.len, lent(BUF), buf_len,
                              lent_words(ANSWER));
    if (after.answer[1] == SRP_KIND_COMMAND)
        let_change(STORE, SRP_STORE_BYTES);
    judge(name, returned, number, &after);
    lay(MSG, NULL, 0);
}

/* Of the store a place has the tables, out at its start and in from its middle on; no other byte is written. */
static void expect_tables(struct bytes out, struct bytes in)
{
    enum { PLACE = SRP_STORE_BYTES / SRP_MOST_BUFFERS };
    size_t at;
    for (at = 0; at < SRP_STORE_BYTES; at += PLACE) {
        const uint8_t *place = lent(STORE) + at;
        if (memcmp(place, lent(OUT), out.len) || memcmp(place + PLACE / 2, lent(IN), in.len))
            continue;
        expect(STORE, at, lent(OUT), out.len);
        expect(STORE, at + PLACE / 2, lent(IN), in.len);
    }
}

void tables(const char *name, uint32_t number, struct after after, uint64_t tag, struct bytes out, struct bytes in,
            size_t buf_len)
{
    uint32_t returned;
    lay(OUT, out.at, out.len);
    lay(IN, in.at, in.len);
    lend_answers();
    returned = tables_of_header(lent_words(PORT), lent(STORE), tag, lent(OUT), out.len, lent(IN), in.len, lent(BUF),
                                buf_len, lent_words(ANSWER));
    if (number == 0)
        expect_tables(out, in);
    judge(name, returned, number, &after);
}

/* A call without an answer: nothing is altered but, where it is not refused, the port. */
static void judge_plain(const char *name, uint32_t returned, uint32_t number)
{
    judge_port(name, number ? SAME : OTHER);
    compare(name, returned, number);
}

void plan(const char *name, uint32_t number, uint64_t tag, uint32_t r_out, uint32_t r_in)
{
    begin();
    judge_plain(name, plan_of_header(lent_words(PORT), tag, r_out, r_in), number);
}

void move(const char *name, uint32_t number, uint64_t tag, uint32_t direction, uint32_t offset, uint32_t count)
{
    begin();
    judge_plain(name, move_of_header(lent_words(PORT), tag, direction, offset, count), number);
}

void named(const char *name, uint64_t tag, uint32_t direction, uint32_t offset, uint32_t count)
{
    uint32_t returned;
    begin();
    returned = move_of_header(lent_words(PORT), tag, direction, offset, count);
    judge_port(name, ANY);
    compare(name, returned, 0);
}

void step(const char *name, uint32_t number, struct after after, uint64_t tag, uint32_t direction)
{
    lend_answers();
    judge(name, step_of_header(lent_words(PORT), lent(STORE), tag, direction, lent_words(ANSWER)), number, &after);
}

void turn(const char *name, uint32_t number, struct after after)
{
    lend_answers();
    judge(name, turn_of_header(lent_words(PORT), lent(STORE), lent_words(ANSWER)), number, &after);
}

void finish(const char *name, uint32_t number, struct after after, uint64_t tag, uint8_t status, struct bytes sense,
            size_t buf_len)
{
    uint32_t returned;
    lay(SENSE, sense.at, sense.len);
    lend_answers();
    returned = finish_of_header(lent_words(PORT), tag, status, lent(SENSE), sense.len, lent(BUF), buf_len,
                                lent_words(ANSWER));
    judge(name, returned, number, &after);
}

void add(const char *name, uint32_t number, uint32_t k)
{
    begin();
    judge_plain(name, add_of_header(lent_words(PORT), k), number);
}

void withdraw(const char *name, uint32_t number, uint32_t k)
{
    begin();
    judge_plain(name, withdraw_of_header(lent_words(PORT), k), number);
}

void grant(const char *name, uint32_t number, struct after after, size_t buf_len)
{
    lend_answers();
    judge(name, grant_of_header(lent_words(PORT), lent(BUF), buf_len, lent_words(ANSWER)), number, &after);
}

void close_channel(const char *name, uint32_t number, struct after after, uint32_t reason, size_t buf_len)
{
    lend_answers();
    judge(name, close_of_header(lent_words(PORT), reason, lent(BUF), buf_len, lent_words(ANSWER)), number, &after);
}

void counters(const char *name, uint32_t number, uint64_t w, uint64_t a, uint64_t h, int64_t d)
{
    struct after after = {SAME, {w, a, h, (uint64_t)d}, NULL};
    lend_answers();
    judge(name, counters_of_header(lent_words(PORT), lent_words(ANSWER)), number, &after);
}

void list(const char *name, uint32_t number, size_t words, size_t count, const uint64_t (*records)[SRP_RECORD_WORDS])
{
    struct after after = {SAME, {count}, NULL};
    uint32_t returned;
    lay(RECORDS, NULL, 0);
    lend_answers();
    returned = list_of_header(lent_words(PORT), lent_words(RECORDS), words, lent_words(ANSWER));
    if (count && memcmp(lent_words(RECORDS), records, sizeof records[0] * count))
        fail(name, "other records");
    let_change(RECORDS, 8 * SRP_RECORD_WORDS * count);
    judge(name, returned, number, &after);
}
