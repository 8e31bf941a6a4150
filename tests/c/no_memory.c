/* A pointer may be NULL where its length is 0. */
#include "calls.h"
#include "cases.h"

static const uint8_t nothing[SRP_ANSWER_BYTES];
static const char no_message[] =
    "> UNKNOWN                                            0                          \n";

static void fresh(void)
{
    lay(BUF, NULL, 0);
    lay(ANSWER, NULL, 0);
    begin();
}

static void stateless(void)
{
    fresh();
    compare("look, NULL message", srp_look(NULL, 0, 1364, 6, lent(BUF), 40), SRP_REFUSED_LENGTH);
    compare("look, NULL both", srp_look(NULL, 0, 1364, 6, NULL, 0), SRP_REFUSED_SHORT_BUFFER);
    compare("cut, NULL both", srp_cut(NULL, 0, 300, 0, 650, 0, NULL, 0), SRP_REFUSED_SHORT_BUFFER);
    expect(BUF, 0, nothing, sizeof nothing);
    compare("cut, NULL list", srp_cut(NULL, 0, 300, 0, 650, 0, lent(BUF), 40), 0);
    fresh();
    compare("trace, NULL both", srp_trace(NULL, 0, 0, NULL, 0), SRP_REFUSED_SHORT_BUFFER);
    expect(BUF, 0, no_message, SRP_TRACE_BYTES);
    compare("trace, NULL message", srp_trace(NULL, 0, 0, lent(BUF), 90), 0);
}

/* Refused, and nothing is written but answer, all of it 0. */
static void refused(const char *name, uint32_t returned, uint32_t number)
{
    static const uint64_t zeros[SRP_ANSWER_WORDS];
    expect(ANSWER, 0, zeros, sizeof zeros);
    compare(name, returned, number);
}

static void refusals(void)
{
    uint64_t *port = lent_words(PORT), *answer = lent_words(ANSWER);
    opened(2, 512);
    fresh();
    refused("take, all NULL", srp_target_take(port, lent(STORE), NULL, 0, NULL, 0, answer), 1);
    refused("tables, all NULL", srp_target_tables(port, lent(STORE), 1, NULL, 0, NULL, 0, NULL, 0, answer), 1);
    refused("tables, NULL tables",
            srp_target_tables(port, lent(STORE), 1, NULL, 0, NULL, 0, lent(BUF), 132, answer), 24);
    refused("finish, all NULL", srp_target_finish(port, 1, 0, NULL, 0, NULL, 0, answer), 1);
    refused("grant, NULL buffer", srp_target_grant(port, NULL, 0, answer), 1);
    refused("close, NULL buffer", srp_target_close(port, 0, NULL, 0, answer), 1);
    refused("list, NULL records", srp_target_list(port, NULL, 0, answer), 11);
}

/* A command taken and finished with NULL sense; then a NULL message. */
static void unrefused(void)
{
    static const uint64_t command_taken[SRP_ANSWER_WORDS] = {0, SRP_KIND_COMMAND, 1, 0, 32, 16};
    static const uint64_t wrote_36[SRP_ANSWER_WORDS] = {36};
    uint64_t *port = lent_words(PORT), *answer = lent_words(ANSWER);
    uint32_t returned;
    lay(MSG, command(1, 0, 0).at, 48);
    fresh();
    returned = srp_target_take(port, lent(STORE), lent(MSG), 48, lent(BUF), 132, answer);
    expect(ANSWER, 0, command_taken, sizeof command_taken);
    let_change(PORT, 8 * SRP_PORT_WORDS);
    let_change(STORE, SRP_STORE_BYTES);
    compare("take", returned, 0);
    fresh();
    refused("tables, NULL tables, not waiting",
            srp_target_tables(port, lent(STORE), 1, NULL, 0, NULL, 0, lent(BUF), 132, answer), 33);
    fresh();
    returned = srp_target_finish(port, 1, 0, NULL, 0, lent(BUF), 132, answer);
    expect(ANSWER, 0, wrote_36, sizeof wrote_36);
    expect(BUF, 0, response(0, 1, 1, 0, NO_RESIDUALS, NO_BYTES), 36);
    let_change(PORT, 8 * SRP_PORT_WORDS);
    compare("finish, NULL sense", returned, 0);
    returned = srp_target_take(port, lent(STORE), NULL, 0, lent(BUF), 132, answer);
    if (returned != SRP_REFUSED_LENGTH)
        fail("take, NULL message", "another refusal");
}

/* A login's message and buffer. */
static void logins(void)
{
    uint64_t *port = lent_words(PORT), *answer = lent_words(ANSWER);
    static const uint64_t closed[SRP_PORT_WORDS];
    const uint32_t *settings = SETTINGS_OF(2, 512, 64, 0, 0);
    fresh();
    expect(PORT, 0, closed, sizeof closed);
    refused("login, NULL message",
            srp_target_login(port, settings, 0, own_identifier, NULL, 0, lent(BUF), 132, answer), 3);
    refused("login, all NULL", srp_target_login(port, settings, 0, own_identifier, NULL, 0, NULL, 0, answer), 1);
}

void no_memory_cases(void)
{
    stateless();
    refusals();
    unrefused();
    logins();
}
