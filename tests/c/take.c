/* srp_target_take: what it takes, and what it refuses with a logout or alters nothing for. */
#include <string.h>

#include "calls.h"
#include "cases.h"

enum { N = 3, M = 512 };

static const struct after logged_out = {CLOSED, {0, SRP_KIND_LOGOUT}, NULL};
static const struct after settled = {OTHER, {0, SRP_KIND_CREDIT_RESPONSE}, NULL};

/* A direct descriptor: 1000h, handle 7, 1,300 bytes. */
static const uint8_t direct[16] = {0, 0, 0, 0, 0, 0, 0x10, 0, 0, 0, 0, 7, 0, 0, 0x05, 0x14};

/* One that ends past 2^64. */
static const uint8_t past_the_end[16] = {0xff, 0xff, 0xff, 0xff, 0xff, 0xff, 0xff, 0xff, 0, 0, 0, 7, 0, 0, 0, 2};

/* A message that draws a logout on a fresh port with a command open, tag 1; then the port is closed. */
static void hung_up(const char *name, uint32_t number, uint32_t reason, struct bytes msg)
{
    uint8_t copy[1400];
    struct after after = {CLOSED, {16}, NULL};
    if (msg.len)
        memcpy(copy, msg.at, msg.len);
    opened(N, M);
    taken("a command", command(1, 5, 0));
    after.message = target_logout(1, reason);
    take(name, number, after, (struct bytes){copy, msg.len}, SRP_MESSAGE_BYTES);
    counters(name, SRP_REFUSED_CLOSED, 0, 0, 0, 0);
    list(name, SRP_REFUSED_CLOSED, SRP_LIST_WORDS, 0, NULL);
}

static struct bytes cut_to(struct bytes msg, size_t len)
{
    return (struct bytes){msg.at, len};
}

static void lengths(void)
{
    uint8_t long_message[1365] = {0x02};
    hung_up("take 3, no byte", SRP_REFUSED_LENGTH, 0, NO_BYTES);
    hung_up("take 3, 15 bytes", SRP_REFUSED_LENGTH, 0, cut_to(initiator_logout(0), 15));
    hung_up("take 3, above agreed", SRP_REFUSED_LENGTH, 0, BYTES(long_message));
    hung_up("take 3, task of 47", SRP_REFUSED_LENGTH, 0, cut_to(task(2, 5, 0, 1, 1), 47));
    hung_up("take 3, task of 49", SRP_REFUSED_LENGTH, 0, cut_to(task(2, 5, 0, 1, 1), 49));
    hung_up("take 3, logout of 17", SRP_REFUSED_LENGTH, 0, cut_to(initiator_logout(0), 17));
    hung_up("take 3, credit response of 17", SRP_REFUSED_LENGTH, 0, cut_to(credit_response(9), 17));
    hung_up("take 3, command of 47", SRP_REFUSED_LENGTH, 0, cut_to(command(2, 5, 0), 47));
    hung_up("take 3, command of 49", SRP_REFUSED_LENGTH, 0, cut_to(command(1, 5, 0), 49));
}

/* Every type but the four. */
static void types(void)
{
    unsigned type;
    for (type = 0; type < 256; type++) {
        uint8_t msg[16] = {(uint8_t)type};
        if (type != 0x01 && type != 0x02 && type != 0x03 && type != 0x41)
            hung_up("take 4", SRP_REFUSED_OTHER_TYPE, 0, BYTES(msg));
    }
}

/* Formats and counts, with their reasons; what is checked later is wrong too. */
static void formats(void)
{
    uint8_t tables[72] = {0}; /* two table descriptors, 36 bytes each: one copy, a table of 0 bytes */
    hung_up("take 5", SRP_REFUSED_OUT_FORMAT, SRP_LOGOUT_OUT_FORMAT, command_with(1, 0, 0x33, 0, 0, NO_BYTES));
    hung_up("take 6", SRP_REFUSED_IN_FORMAT, SRP_LOGOUT_IN_FORMAT, command_with(1, 0, 0x1f, 0, 0, NO_BYTES));
    hung_up("take 3, counts", SRP_REFUSED_LENGTH, 0, command_with(1, 0, 0x22, 33, 33, BYTES(tables)));
    hung_up("take 7", SRP_REFUSED_OUT_COUNT, SRP_LOGOUT_OUT_COUNT, command_with(1, 0, 0x22, 1, 1, BYTES(tables)));
    tables[15] = 16;
    hung_up("take 8", SRP_REFUSED_IN_COUNT, SRP_LOGOUT_IN_COUNT, command_with(1, 0, 0x22, 1, 1, BYTES(tables)));
}

/* Credit and tags: 22 before 23, and 23 before 10. */
static void credit(void)
{
    struct after logout = {CLOSED, {16}, NULL};
    opened(1, M);
    taken("the only buffer", command(1, 5, 0));
    logout.message = target_logout(1, 0);
    take("take 22, command", SRP_REFUSED_NO_CREDIT, logout, command(1, 5, 0), 132);
    opened(1, M);
    taken("the only buffer", command(1, 5, 0));
    logout.message = target_logout(1, 0);
    take("take 22, task", SRP_REFUSED_NO_CREDIT, logout, task(1, 5, 0, 1, 1), 132);
    hung_up("take 23, command", SRP_REFUSED_TAG_OPEN, 0, command(1, 5, 0));
    hung_up("take 23, task that would abort it", SRP_REFUSED_TAG_OPEN, 0, task(1, 5, 0, 1, 1));
    opened(N, M);
    taken("a command", command(1, 5, 0));
    logout.message = target_logout(1, 0);
    take("take 23 before 10", SRP_REFUSED_TAG_OPEN, logout, command_with(1, 0, 0x01, 0, 0, BYTES(past_the_end)), 132);
}

/* SRP_CRED_RSP: settles a grant once; SRP_I_LOGOUT: at any moment, without credit, whatever its tag. */
static void short_messages(void)
{
    struct after logout = {CLOSED, {16}, NULL};
    hung_up("take 25, none unanswered", SRP_REFUSED_CREDIT_RESPONSE, 0, credit_response(1));
    opened(1, M);
    taken("the only buffer", command(1, 5, 0));
    add("one owed", 0, 1);
    grant("grant", 0, (struct after){OTHER, {16}, credit_request(1, 1)}, 132);
    taken("the buffer granted", command(2, 5, 0));
    take("credit response with A = 0", 0, settled, credit_response(1), 132);
    counters("credit as it was", 0, 2, 0, 2, 0);
    take("logout with A = 0", 0, logged_out, initiator_logout(1), 132);
    counters("logged out", SRP_REFUSED_CLOSED, 0, 0, 0, 0);
    opened(1, M);
    add("one owed", 0, 1);
    grant("grant", 0, (struct after){OTHER, {16}, credit_request(1, 1)}, 132);
    logout.message = target_logout(1, 0);
    take("take 25, another tag", SRP_REFUSED_CREDIT_RESPONSE, logout, credit_response(2), 132);
}

/* 1 before 21 before 3; nothing is altered, and the message can be taken afterwards. */
static void nothing_altered(void)
{
    opened(N, M);
    take("take 1", SRP_REFUSED_SHORT_BUFFER, NOTHING, command(1, 5, 0), 131);
    take("take 1, logout", SRP_REFUSED_SHORT_BUFFER, NOTHING, initiator_logout(1), 0);
    take("take 1 before 3", SRP_REFUSED_SHORT_BUFFER, NOTHING, NO_BYTES, 131);
    taken("taken after 1", command(1, 5, 0));
    take("logout", 0, logged_out, initiator_logout(0), 132);
    take("take 21", SRP_REFUSED_CLOSED, NOTHING, command(1, 5, 0), 132);
    take("take 21 before 3", SRP_REFUSED_CLOSED, NOTHING, NO_BYTES, 132);
    take("take 1 before 21", SRP_REFUSED_SHORT_BUFFER, NOTHING, NO_BYTES, 131);
}

/* LOSOLNT of the login, off here, is on in every other logout. */
static void notification(void)
{
    struct bytes request = login_request(1, 64, 0, 0xff & ~LOSOLNT & ~3, own_identifier);
    struct after after = {OTHER, {52, 0}, login_response(N, 1, 64, 0x0002, 0)};
    lay(STORE, NULL, 0);
    login("login without LOSOLNT", 0, after, SETTINGS_OF(N, M, 64, 0, 0), 0, request, 132);
    after = (struct after){CLOSED, {16}, target_logout(0, SRP_LOGOUT_IN_FORMAT)};
    take("take 6, format not agreed", SRP_REFUSED_IN_FORMAT, after, command_with(1, 0, 0x01, 0, 0, BYTES(direct)), 132);
}

void take_cases(void)
{
    lengths();
    types();
    formats();
    credit();
    short_messages();
    nothing_altered();
    notification();
}
