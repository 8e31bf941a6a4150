/* srp_target_login. */
#include <string.h>

#include "calls.h"
#include "cases.h"

static const uint64_t tag = 0x1122334455667788;

/* Like the port's own but in the last byte. */
static const uint8_t other_identifier[16] = {0x21, 0x22, 0x23, 0x24, 0x25, 0x26, 0x27, 0x28,
                                             0x29, 0x2a, 0x2b, 0x2c, 0x2d, 0x2e, 0x2f, 0x31};

static void arguments(void)
{
    struct bytes request = login_request(tag, 150, 0x0002, 0, own_identifier);
    struct after after = {OTHER, {52, 0}, login_response(3, tag, 150, 0x0006, 0)};
    /* N 3, M 100, X 200, indirect, not solicited; Q 1024; 64 bytes that request 150; buf_len 140. Exchanged, it would
     * give
     *   N and M or X             2, 100 and 200 being above 16
     *   Q and msg_len, buf_len   2, neither being a power of two from 512 on
     *   M and X                  rejection 0001 0002h, 150 being above 100
     *   indirect and solicited   formats 0002h, and SOLNTSUP
     *   own and msg              4, by the identifier's first byte
     *   msg and buf              4, by what the lent buffer holds
     *   msg_len and buf_len      1, 64 being under 132
     *   port and answer          the port as it was, and an answer of other words */
    login("login", 0, after, SETTINGS_OF(3, 100, 200, 1, 0), 1024, request, 140);
    counters("login, counters", 0, 3, 3, 0, 0);
    /* The other way round; and any number but 0 is yes. */
    after.message = login_response(3, tag, 150, 0x0002, 0x10);
    login("login, solicited", 0, after, SETTINGS_OF(3, 100, 200, 0, 0x80000000), 0, request, 132);
    after.message = login_response(3, tag, 150, 0x0006, 0x10);
    login("login, both", 0, after, SETTINGS_OF(3, 100, 200, 0x80000000, 2), 0, request, 133);
}

/* The bounds of the settings and of the requested length. */
static void bounds(void)
{
    struct bytes request = login_request(tag, 64, 0x0000, 0, own_identifier);
    struct after after = {OTHER, {52, 0}, login_response(1, tag, 64, 0x0002, 0)};
    login("login, least settings", 0, after, SETTINGS_OF(1, 1, 64, 0, 0), SRP_LEAST_BOUNDARY, request, 132);
    request = login_request(tag, 1364, 0x0006, 0xff & ~3, own_identifier);
    after.message = login_response(16, tag, 1364, 0x0006, 0x10);
    login("login, largest settings", 0, after, SETTINGS_OF(16, 1048576, 1364, 1, 1), SRP_GREATEST_BOUNDARY, request,
          132);
    counters("login, sixteen buffers", 0, 16, 16, 0, 0);
}

/* The port is closed, and buf as it was. What is checked later is wrong too, in every case. */
static void refusals(void)
{
    static const struct after closed = {CLOSED, {0}, NULL};
    uint8_t msg[65];
    memcpy(msg, login_request(tag, 9, 0xffff, 3, other_identifier).at, sizeof msg);
    msg[0] = 0x02;
    login("login 1", SRP_REFUSED_SHORT_BUFFER, closed, SETTINGS_OF(0, 0, 0, 0, 0), 1, BYTES(msg), 131);
    login("login 1, no buffer", SRP_REFUSED_SHORT_BUFFER, closed, SETTINGS_OF(0, 0, 0, 0, 0), 1, BYTES(msg), 0);
    login("login 2, N 0", SRP_REFUSED_SETTING, closed, SETTINGS_OF(0, 512, 1364, 1, 1), 0, BYTES(msg), 132);
    login("login 2, N 17", SRP_REFUSED_SETTING, closed, SETTINGS_OF(17, 512, 1364, 1, 1), 0, BYTES(msg), 132);
    login("login 2, N 2^31", SRP_REFUSED_SETTING, closed, SETTINGS_OF(0x80000001, 512, 1364, 1, 1), 0, BYTES(msg), 132);
    login("login 2, M 0", SRP_REFUSED_SETTING, closed, SETTINGS_OF(4, 0, 1364, 1, 1), 0, BYTES(msg), 132);
    login("login 2, M too large", SRP_REFUSED_SETTING, closed, SETTINGS_OF(4, 1048577, 1364, 1, 1), 0, BYTES(msg), 132);
    login("login 2, X 63", SRP_REFUSED_SETTING, closed, SETTINGS_OF(4, 512, 63, 1, 1), 0, BYTES(msg), 132);
    login("login 2, X 1365", SRP_REFUSED_SETTING, closed, SETTINGS_OF(4, 512, 1365, 1, 1), 0, BYTES(msg), 132);
    login("login 2, Q 1", SRP_REFUSED_SETTING, closed, SETTINGS_OF(4, 512, 1364, 1, 1), 1, BYTES(msg), 132);
    login("login 2, Q 511", SRP_REFUSED_SETTING, closed, SETTINGS_OF(4, 512, 1364, 1, 1), 511, BYTES(msg), 132);
    login("login 2, Q 768", SRP_REFUSED_SETTING, closed, SETTINGS_OF(4, 512, 1364, 1, 1), 768, BYTES(msg), 132);
    login("login 2, Q 2^33", SRP_REFUSED_SETTING, closed, SETTINGS_OF(4, 512, 1364, 1, 1), 1ull << 33, BYTES(msg), 132);
    login("login 3, 65 bytes", SRP_REFUSED_LENGTH, closed, SETTINGS_OF(4, 512, 1364, 1, 1), 0, BYTES(msg), 132);
    login("login 3, 63 bytes", SRP_REFUSED_LENGTH, closed, SETTINGS_OF(4, 512, 1364, 1, 1), 512,
          ((struct bytes){msg, 63}), 132);
    login("login 3, no byte", SRP_REFUSED_LENGTH, closed, SETTINGS_OF(4, 512, 1364, 1, 1), 1ull << 32, NO_BYTES, 132);
    login("login 4", SRP_REFUSED_OTHER_TYPE, closed, SETTINGS_OF(4, 512, 1364, 1, 1), 4096,
          ((struct bytes){msg, 64}), 132);
    counters("login 4, closed", SRP_REFUSED_CLOSED, 0, 0, 0, 0);
}

static void rejected(const char *name, uint32_t reason, uint32_t length, uint16_t formats, uint8_t action,
                     const uint8_t *target, uint32_t indirect)
{
    struct bytes request = login_request(tag, length, formats, action, target);
    struct after after = {CLOSED, {32, reason}, login_rejection(reason, tag, indirect ? 0x0006 : 0x0002)};
    login(name, 0, after, SETTINGS_OF(4, 512, 200, indirect, 1), 0, request, 150);
}

/* X is 200. What is tested later is wrong too, in every case. */
static void rejections(void)
{
    rejected("login, length 63", SRP_REJECTED_NO_REASON, 63, 0x0009, 1, other_identifier, 1);
    rejected("login, length 201", SRP_REJECTED_LENGTH, 201, 0x0009, 1, other_identifier, 1);
    rejected("login, length 2^31", SRP_REJECTED_LENGTH, 0x80000040, 0x0009, 1, other_identifier, 0);
    rejected("login, format bit 0", SRP_REJECTED_FORMATS, 200, 0x0001, 1, other_identifier, 1);
    rejected("login, format bit 3", SRP_REJECTED_FORMATS, 200, 0x000e, 1, other_identifier, 1);
    rejected("login, format bit 15", SRP_REJECTED_FORMATS, 200, 0x8006, 1, other_identifier, 1);
    rejected("login, indirect unsupported", SRP_REJECTED_FORMATS, 200, 0x0004, 1, other_identifier, 0);
    rejected("login, action 1", SRP_REJECTED_CHANNELS, 200, 0x0006, 1, other_identifier, 1);
    rejected("login, action 2", SRP_REJECTED_NO_REASON, 200, 0x0006, 2, other_identifier, 1);
    rejected("login, action 3", SRP_REJECTED_NO_REASON, 200, 0x0006, 0xff, other_identifier, 1);
    rejected("login, other target", SRP_REJECTED_TARGET, 200, 0x0006, 0, other_identifier, 1);
    counters("login, rejected, closed", SRP_REFUSED_CLOSED, 0, 0, 0, 0);
}

/* A login uses nothing of what the words held. */
static void earlier_words(void)
{
    static uint64_t ones[SRP_PORT_WORDS], zeros[SRP_PORT_WORDS];
    uint64_t answer[SRP_ANSWER_WORDS];
    uint8_t buf[SRP_MESSAGE_BYTES];
    struct bytes request = login_request(tag, 200, 0x0006, 0, own_identifier);
    const uint32_t *settings = SETTINGS_OF(4, 512, 200, 1, 1);
    memset(ones, 0xff, sizeof ones);
    srp_target_login(ones, settings, 512, own_identifier, request.at, request.len, buf, sizeof buf, answer);
    srp_target_login(zeros, settings, 512, own_identifier, request.at, request.len, buf, sizeof buf, answer);
    if (memcmp(ones, zeros, sizeof ones) != 0)
        fail("login", "the port depends on what its words held");
}

void login_cases(void)
{
    arguments();
    bounds();
    refusals();
    rejections();
    earlier_words();
}
