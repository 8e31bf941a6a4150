/* srp_target_add, srp_target_withdraw, srp_target_grant, srp_target_close, srp_target_counters. */
#include "calls.h"
#include "cases.h"

enum { M = 512 };

static void changes(void)
{
    opened(4, M);
    add("add 12", 0, 12);
    counters("added", 0, 16, 4, 0, 12);
    add("add 28", SRP_REFUSED_WANTED, 1);
    withdraw("withdraw 28", SRP_REFUSED_WANTED, 16);
    withdraw("withdraw 28, 2^32 - 1", SRP_REFUSED_WANTED, 0xffffffff);
    withdraw("withdraw 28, 257", SRP_REFUSED_WANTED, 257);
    withdraw("withdraw 15", 0, 15);
    counters("withdrawn", 0, 1, 4, 0, -3);
    withdraw("withdraw 28, the last", SRP_REFUSED_WANTED, 1);
    add("add 28, 2^32 - 1", SRP_REFUSED_WANTED, 0xffffffff);
    /* Its low byte alone would be lawful, or 0. */
    add("add 28, 257", SRP_REFUSED_WANTED, 257);
    add("add 28, 2^16", SRP_REFUSED_WANTED, 0x10000);
    add("add 11", SRP_REFUSED_ARGUMENT, 0);
    withdraw("withdraw 11", SRP_REFUSED_ARGUMENT, 0);
    counters("as it was", 0, 1, 4, 0, -3);
}

/* The delta is D; 26 comes before 27. */
static void grants(void)
{
    opened(2, M);
    grant("grant 27", SRP_REFUSED_NOT_OWED, NOTHING, 132);
    add("add", 0, 3);
    grant("grant 1", SRP_REFUSED_SHORT_BUFFER, NOTHING, 131);
    grant("grant", 0, (struct after){OTHER, {16}, credit_request(1, 3)}, 150);
    counters("granted", 0, 5, 5, 0, 0);
    grant("grant 26 before 27", SRP_REFUSED_UNANSWERED, NOTHING, 132);
    add("add", 0, 1);
    grant("grant 26", SRP_REFUSED_UNANSWERED, NOTHING, 132);
    take("answered", 0, (struct after){OTHER, {0, SRP_KIND_CREDIT_RESPONSE}, NULL}, credit_response(1), 132);
    grant("grant again", 0, (struct after){OTHER, {16}, credit_request(1, 1)}, 132);
    withdraw("withdraw", 0, 1);
    take("answered", 0, (struct after){OTHER, {0, SRP_KIND_CREDIT_RESPONSE}, NULL}, credit_response(1), 132);
    grant("grant 27, below 0", SRP_REFUSED_NOT_OWED, NOTHING, 132);
}

/* CRSOLNT and LOSOLNT apart: with the one, the other is not set. */
static void notification(void)
{
    struct bytes request = login_request(1, 64, 0, CRSOLNT, own_identifier);
    struct after after = {OTHER, {52, 0}, login_response(2, 1, 64, 0x0002, 0)};
    login("login, CRSOLNT", 0, after, SETTINGS_OF(2, M, 64, 0, 0), 0, request, 132);
    add("add", 0, 1);
    grant("grant, CRSOLNT", 0, (struct after){OTHER, {16}, credit_request(1, 1)}, 132);
    close_channel("close, CRSOLNT", 0, (struct after){CLOSED, {16}, target_logout(0, 1)}, 1, 132);
    request = login_request(1, 64, 0, LOSOLNT, own_identifier);
    after.message = login_response(2, 1, 64, 0x0002, 0);
    login("login, LOSOLNT", 0, after, SETTINGS_OF(2, M, 64, 0, 0), 0, request, 132);
    add("add", 0, 1);
    grant("grant, LOSOLNT", 0, (struct after){OTHER, {16}, credit_request(0, 1)}, 132);
    close_channel("close, LOSOLNT", 0, (struct after){CLOSED, {16}, target_logout(1, 1)}, 1, 132);
}

/* Reason 80000085h, buf_len 133: exchanged, the reason would be 85h. A grant unanswered does not hold it up. */
static void closing(void)
{
    opened(2, M);
    taken("a command", command(1, 0, 0));
    add("add", 0, 1);
    grant("grant", 0, (struct after){OTHER, {16}, credit_request(1, 1)}, 132);
    close_channel("close 1", SRP_REFUSED_SHORT_BUFFER, NOTHING, 0, 131);
    close_channel("close", 0, (struct after){CLOSED, {16}, target_logout(1, 0x80000085)}, 0x80000085, 133);
    close_channel("close 21", SRP_REFUSED_CLOSED, NOTHING, 0, 132);
    close_channel("close 1 before 21", SRP_REFUSED_SHORT_BUFFER, NOTHING, 0, 131);
    counters("counters 21", SRP_REFUSED_CLOSED, 0, 0, 0, 0);
    add("add 21 before 11", SRP_REFUSED_CLOSED, 0);
    withdraw("withdraw 21 before 11", SRP_REFUSED_CLOSED, 0);
    grant("grant 21", SRP_REFUSED_CLOSED, NOTHING, 132);
    grant("grant 1 before 21", SRP_REFUSED_SHORT_BUFFER, NOTHING, 131);
    list("list 21 before 11", SRP_REFUSED_CLOSED, 63, 0, NULL);
}

void credit_cases(void)
{
    changes();
    grants();
    notification();
    closing();
}
