/*
 * Any words are a port, and any bytes its store: every call returns 0 or a refusal of its own, and writes nothing but
 * what it is lent to write.
 */
#include <string.h>

#include "arbitrary.h"
#include "calls.h"
#include "cases.h"

enum { M = 512 };

enum call {
    PLAN, MOVE, STEP_OUT, STEP_IN, TURN, FINISH, ADD, GRANT, WITHDRAW, LIST, COUNTERS, TABLES, TAKE, CLOSE, LOGIN, CALLS
};

#define BIT(n)        ((uint64_t)1 << (n))
#define WITH_A_LOGOUT (BIT(3) | BIT(4) | BIT(5) | BIT(6) | BIT(7) | BIT(8) | BIT(22) | BIT(23) | BIT(25))

/* Of each call what it is lent to write, and its refusals in the papers; no argument here draws 1 or 11. */
static const struct {
    const char *name;
    uint64_t writes, refusals;
} rules[CALLS] = {
    [TAKE] = {"any words, take", BIT(PORT) | BIT(STORE) | BIT(BUF) | BIT(ANSWER), WITH_A_LOGOUT | BIT(10) | BIT(21)},
    [TABLES] = {"any words, tables", BIT(PORT) | BIT(STORE) | BIT(BUF) | BIT(ANSWER),
                BIT(9) | BIT(10) | BIT(21) | BIT(24) | BIT(33)},
    [PLAN] = {"any words, plan", BIT(PORT), BIT(21) | BIT(24) | BIT(30) | BIT(33)},
    [MOVE] = {"any words, move", BIT(PORT), BIT(21) | BIT(24) | BIT(29) | BIT(31) | BIT(32) | BIT(33)},
    [STEP_OUT] = {"any words, step out", BIT(PORT) | BIT(ANSWER), BIT(21) | BIT(24) | BIT(29) | BIT(33)},
    [STEP_IN] = {"any words, step in", BIT(PORT) | BIT(ANSWER), BIT(21) | BIT(24) | BIT(29) | BIT(33)},
    [TURN] = {"any words, turn", BIT(PORT) | BIT(ANSWER), BIT(21)},
    [FINISH] = {"any words, finish", BIT(PORT) | BIT(BUF) | BIT(ANSWER), BIT(21) | BIT(24) | BIT(33)},
    [ADD] = {"any words, add", BIT(PORT), BIT(21) | BIT(28)},
    [GRANT] = {"any words, grant", BIT(PORT) | BIT(BUF) | BIT(ANSWER), BIT(21) | BIT(26) | BIT(27)},
    [WITHDRAW] = {"any words, withdraw", BIT(PORT), BIT(21) | BIT(28)},
    [LIST] = {"any words, list", BIT(RECORDS) | BIT(ANSWER), BIT(21)},
    [COUNTERS] = {"any words, counters", BIT(ANSWER), BIT(21)},
    [CLOSE] = {"any words, close", BIT(PORT) | BIT(BUF) | BIT(ANSWER), BIT(21)},
    [LOGIN] = {"any words, login", BIT(PORT) | BIT(BUF) | BIT(ANSWER), BIT(2)},
};

/* Whether a number is among those of a set of bits. */
static int among(uint64_t numbers, uint32_t number)
{
    return number < 64 && (numbers & BIT(number)) != 0;
}

/* Of what a call is lent to write, the part that it writes with its answer. */
static void let_write(enum call call, uint32_t returned)
{
    const uint64_t *answer = lent_words(ANSWER), writes = rules[call].writes;
    if (writes & BIT(PORT))
        let_change(PORT, 8 * SRP_PORT_WORDS);
    if (writes & BIT(STORE) && returned == 0 && (call == TABLES || answer[1] == SRP_KIND_COMMAND))
        let_change(STORE, SRP_STORE_BYTES);
    if (writes & BIT(BUF) && answer[0] <= SRP_MESSAGE_BYTES)
        let_change(BUF, answer[0]);
    if (writes & BIT(RECORDS) && answer[0] <= SRP_MOST_BUFFERS)
        let_change(RECORDS, 8 * SRP_RECORD_WORDS * answer[0]);
    if (writes & BIT(ANSWER))
        let_change(ANSWER, 8 * SRP_ANSWER_WORDS);
}

/* Tables that a command was waiting for, and with which one was answered. */
static unsigned accepted_tables, answered_tables;

/* Steps that had a piece numbered above 1, and that said done with a number above 0. */
static unsigned later_pieces, numbered_dones;

/* Each operation had a byte: a piece's number is from 1 to the offset behind it, done's is an offset. */
static void judge_number(const char *name)
{
    const uint64_t *answer = lent_words(ANSWER), number = answer[6];
    uint64_t most = answer[0] ? answer[5] + answer[4] : UINT32_MAX;
    if (number < answer[0] || number > most)
        fail(name, "more operations than bytes, or none");
    later_pieces += answer[0] && number > 1;
    numbered_dones += !answer[0] && number > 0;
}

/* Steps that had a piece up to a multiple of the boundary in the words. */
static unsigned bounded_pieces;

/* No piece crosses a multiple of it, unless it is none. */
static void judge_boundary(const char *name)
{
    const uint64_t *answer = lent_words(ANSWER), q = lent_words(PORT)[BOUNDARY], last = answer[3] + answer[4] - 1;
    if (!answer[0] || q < SRP_LEAST_BOUNDARY || q > SRP_GREATEST_BOUNDARY || (q & (q - 1)) != 0)
        return;
    if (answer[3] / q != last / q)
        fail(name, "a piece across a boundary");
    bounded_pieces += last % q == q - 1;
}

/* Turns that had a piece, and that were idle though the line is not empty. */
static unsigned served_turns, idle_turns;

/* A piece has the tag and the direction that stood first in line, and leaves other words; idle alters nothing. */
static void judge_turn(const char *name, struct in_line first)
{
    static const uint64_t zeros[SRP_ANSWER_WORDS];
    const uint64_t *answer = lent_words(ANSWER);
    int is_first = first.moves && answer[7] == first.tag && answer[1] == 1 + (uint64_t)first.in;
    int is_idle = !memcmp(answer, zeros, sizeof zeros);
    if (changed(PORT, 8 * SRP_PORT_WORDS) ? !answer[0] || !is_first : !is_idle)
        fail(name, "neither the first in line nor idle");
    served_turns += answer[0] != 0;
    idle_turns += first.moves && !answer[0];
}

/* A refusal without a message leaves all as it was, but that a login closes the port, and the answer is 0. */
static void judge(enum call call, uint32_t returned)
{
    static const uint64_t zeros[SRP_PORT_WORDS];
    int logout = call == TAKE && among(WITH_A_LOGOUT, returned);
    if (returned == 0 || logout || returned == SRP_REFUSED_FIELDS)
        let_write(call, returned);
    else if (rules[call].writes & BIT(ANSWER))
        expect(ANSWER, 0, zeros, 8 * SRP_ANSWER_WORDS);
    if (logout || (call == CLOSE && returned == 0) || (call == LOGIN && returned))
        expect(PORT, 0, zeros, sizeof zeros);
    accepted_tables += call == TABLES && returned == 0;
    answered_tables += call == TABLES && returned == SRP_REFUSED_FIELDS;
    if (returned == 0 && (call == STEP_OUT || call == STEP_IN || (call == TURN && lent_words(ANSWER)[0]))) {
        judge_number(rules[call].name);
        judge_boundary(rules[call].name);
    }
    compare(rules[call].name, returned, among(rules[call].refusals, returned) ? returned : 0);
}

/* A message to be taken: a command without data, one with a descriptor that may be bad, or an abort. */
static struct bytes some_message(uint64_t tag)
{
    uint8_t descriptor[16];
    put(descriptor, 0, 8, next() & 1 ? UINT64_MAX : 0x1000);
    put(descriptor, 8, 8, 1300);
    switch (next() >> 62) {
    case 0:
        return command_with(next(), 0, 0x01, 0, 0, BYTES(descriptor));
    case 1:
        return task(next(), 1, 0, 0x01, tag);
    default:
        return command(next(), 1, 0);
    }
}

/* F of a direction, by the words of its slot: a table without a copy. */
static size_t fetched(const uint64_t *words)
{
    return words[0] % 3 == 2 && words[1] == 0 ? (size_t)(words[2] % 528) : 0;
}

/* Tables of 0 bytes each, as long as the words of the command's slot say: no entry has a byte. */
static uint32_t made_tables(uint64_t tag)
{
    static const uint8_t zeros[528];
    const uint64_t *slot = lent_words(PORT) + SLOTS;
    unsigned i;
    for (i = 0; i < 15 && slot[0] != tag; i++)
        slot += SLOT;
    lay(OUT, zeros, sizeof zeros);
    lay(IN, zeros, sizeof zeros);
    begin();
    return srp_target_tables(lent_words(PORT), lent(STORE), tag, lent(OUT), fetched(slot + OUT_WORDS), lent(IN),
                             fetched(slot + IN_WORDS), lent(BUF), 132, lent_words(ANSWER));
}

static uint32_t made(enum call call, uint64_t tag, size_t msg_len)
{
    uint64_t *port = lent_words(PORT), *answer = lent_words(ANSWER);
    uint8_t *buf = lent(BUF);
    switch (call) {
    case TAKE:
        return srp_target_take(port, lent(STORE), lent(MSG), msg_len, buf, 132, answer);
    case TABLES:
        return made_tables(tag);
    case PLAN:
        return srp_target_plan(port, tag, (uint32_t)next(), (uint32_t)next());
    case MOVE:
        return srp_target_move(port, tag, next() & 1, any_size(), any_size());
    case STEP_OUT:
    case STEP_IN:
        return srp_target_step(port, lent(STORE), tag, call == STEP_IN, answer);
    case TURN:
        return srp_target_turn(port, lent(STORE), answer);
    case FINISH:
        return srp_target_finish(port, tag, 0x02, lent(SENSE), 96, buf, 132, answer);
    case ADD:
        return srp_target_add(port, 1);
    case GRANT:
        return srp_target_grant(port, buf, 132, answer);
    case WITHDRAW:
        return srp_target_withdraw(port, 1);
    case LIST:
        return srp_target_list(port, lent_words(RECORDS), SRP_LIST_WORDS, answer);
    case COUNTERS:
        return srp_target_counters(port, answer);
    case CLOSE:
        return srp_target_close(port, (uint32_t)next(), buf, 132, answer);
    default:
        return srp_target_login(port, (const uint32_t *)(const void *)lent(SETTINGS), some_boundary(), lent(OWN),
                                lent(MSG), msg_len, buf, 132, answer);
    }
}

static void one_call(enum call call, uint64_t tag, struct bytes msg)
{
    struct in_line first = first_in_line();
    uint32_t returned;
    lay(MSG, msg.at, msg.len);
    lay(BUF, NULL, 0);
    lay(ANSWER, NULL, 0);
    lay(RECORDS, NULL, 0);
    begin();
    returned = made(call, tag, msg.len);
    if (call == TURN && returned == 0)
        judge_turn(rules[TURN].name, first);
    judge(call, returned);
}

/* W in 1 to 16, A + H at most 16, D = W - A - H; and H commands are listed. */
static int in_ranges(void)
{
    uint64_t c[SRP_ANSWER_WORDS], l[SRP_ANSWER_WORDS], *records = lent_words(RECORDS);
    uint32_t counted = srp_target_counters(lent_words(PORT), c);
    uint32_t listed = srp_target_list(lent_words(PORT), records, SRP_LIST_WORDS, l);
    if (counted)
        return counted == SRP_REFUSED_CLOSED && listed == SRP_REFUSED_CLOSED;
    return listed == 0 && c[0] >= 1 && c[0] <= 16 && c[1] + c[2] <= 16 && c[3] == c[0] - c[1] - c[2] && l[0] == c[2];
}

/* A step made again: a piece has the next number, done the same one. */
static void step_again(enum call call, uint64_t tag)
{
    const uint64_t *answer = lent_words(ANSWER), number = answer[6];
    one_call(call, tag, NO_BYTES);
    if (answer[6] != number + answer[0])
        fail(rules[call].name, "the next step has another number");
}

/* Some calls on one arbitrary port, then a close; the tags are those that it lists, as far as it does. */
static void some_calls(void)
{
    unsigned i;
    for (i = 0; i < 40; i++) {
        enum call call = i < 39 ? (enum call)(i % CLOSE) : CLOSE;
        uint64_t tag;
        lay(RECORDS, NULL, 0);
        if (!in_ranges())
            fail("any words", "counters or listing out of their ranges");
        tag = lent_words(RECORDS)[SRP_RECORD_WORDS * (i % 4)];
        one_call(call, tag, some_message(tag));
        if (call == STEP_OUT || call == STEP_IN)
            step_again(call, tag);
    }
}

/* A login on arbitrary words; N is 0 to 17. */
static void some_login(void)
{
    const uint32_t settings[SRP_SETTINGS] = {(uint32_t)(next() % 18), M, SRP_LONGEST_AGREED, 1, 1};
    lay(SETTINGS, settings, sizeof settings);
    lay(OWN, own_identifier, sizeof own_identifier);
    one_call(LOGIN, 0, login_request(next(), SRP_LONGEST_AGREED, 0x0006, 0, own_identifier));
    if (!in_ranges())
        fail("any words, login", "counters or listing out of their ranges");
}

void any_words_cases(void)
{
    unsigned i;
    for (i = 0; i < 200; i++) {
        arbitrary_port();
        some_calls();
        arbitrary_port();
        some_login();
    }
    if (!later_pieces || !numbered_dones)
        fail("any words", "no step with a number to judge");
    if (!bounded_pieces)
        fail("any words", "no piece up to a boundary");
    if (!accepted_tables || !answered_tables)
        fail("any words", "no tables to judge");
    if (!served_turns || !idle_turns)
        fail("any words", "no turn to judge");
}
