/*
 * Q: a piece ends at the next multiple of it above its first address, if nothing else is nearer, by srp_cut and by
 * srp_target_step. One that is bad is refused with 2, and in a port's words it is none.
 */
#include "calls.h"
#include "cases.h"

/* The word of a port that has Q. */
enum { N = 3, TAG = 0x1234, HANDLE = 7, MOST = 8, BOUNDARY = 10 };

/* One segment, and the lengths of all its pieces. */
struct row {
    const char *name;
    uint64_t q, address;
    uint32_t length, m;
    unsigned number;
    uint32_t pieces[MOST];
};

static const struct row rows[] = {
    {"across two multiples", 4096, 0x1f00, 6000, 8192, 3, {256, 4096, 1648}},
    {"across none", 8192, 0x4000, 6000, 8192, 1, {6000}},
    {"no boundary", 0, 0x1f00, 6000, 8192, 1, {6000}},
    {"from a multiple", 4096, 0x2000, 4095, 8192, 1, {4095}},
    {"from a multiple, Q bytes", 4096, 0x2000, 4096, 8192, 1, {4096}},
    {"from a multiple, a byte more", 4096, 0x2000, 4097, 8192, 2, {4096, 1}},
    {"a byte before a multiple", 4096, 0x1fff, 1, 8192, 1, {1}},
    {"a byte on either side", 4096, 0x1fff, 2, 8192, 2, {1, 1}},
    {"a byte behind a multiple", 4096, 0x2001, 4096, 8192, 2, {4095, 1}},
    {"M is nearer", 4096, 0x1000, 4096, 1024, 4, {1024, 1024, 1024, 1024}},
    {"M and Q in turn", 4096, 0x1000, 8192, 3000, 4, {3000, 1096, 3000, 1096}},
    {"the least Q", 512, 0x11ff, 1026, 8192, 4, {1, 512, 512, 1}},
    {"the greatest Q", SRP_GREATEST_BOUNDARY, SRP_GREATEST_BOUNDARY - 100, 200, 8192, 2, {100, 100}},
    {"the greatest Q, half of it", SRP_GREATEST_BOUNDARY, 0x80000000 - 100, 200, 8192, 1, {200}},
    {"the last byte of memory", 512, UINT64_MAX, 1, 8192, 1, {1}},
    {"up to 2^64", 512, UINT64_MAX - 599, 600, 8192, 2, {88, 512}},
    {"up to 2^64, the greatest Q", SRP_GREATEST_BOUNDARY, UINT64_MAX - 599, 600, 8192, 1, {600}},
};

/* Its pieces by srp_cut, and done. */
static void cuts(const struct row *r)
{
    uint8_t list[16], answer[SRP_ANSWER_BYTES];
    uint32_t at = 0;
    unsigned i;
    put(list, 0, 8, r->address);
    put(list, 8, 4, HANDLE);
    put(list, 12, 4, r->length);
    for (i = 0; i <= r->number; i++) {
        uint32_t length = i < r->number ? r->pieces[i] : 0;
        put(answer, 0, 8, length ? r->address + at : 0);
        put(answer, 8, 4, length ? HANDLE : 0);
        put(answer, 12, 4, length);
        put(answer, 16, 4, length ? at : 0);
        put(answer, 20, 8, 0);
        put(answer, 28, 4, 0);
        cut(r->name, 0, answer, BYTES(list), r->m, r->q, r->length, at, SRP_ANSWER_BYTES);
        at += length;
    }
}

/* A port with the row's segment as data-in, of which all is named. */
static void moves(const struct row *r)
{
    struct segment segment = {r->address, HANDLE, r->length};
    opened_with(N, r->m, r->q);
    taken(r->name, command_with(TAG, 0, 0x02, 0, 1, whole_table(&segment, 1)));
    planned(r->name, TAG, 0, r->length);
}

static void steps(const struct row *r)
{
    uint32_t at = 0;
    unsigned i;
    moves(r);
    for (i = 0; i < r->number; i++) {
        piece(r->name, TAG, SRP_DIRECTION_IN, HANDLE, r->address + at, r->pieces[i], at, i + 1);
        at += r->pieces[i];
    }
    done(r->name, TAG, SRP_DIRECTION_IN, r->number);
}

/* The pieces are all of the segment, and no more than its bytes / M and the multiples inside it allow. */
static void judged(const struct row *r)
{
    uint32_t i, sum = 0, multiples = 0;
    for (i = 0; i < r->number; i++)
        sum += r->pieces[i];
    for (i = 1; i < r->length; i++)
        multiples += r->q && (r->address + i) % r->q == 0;
    if (sum != r->length || r->number > 1 + r->length / r->m + multiples)
        fail(r->name, "other pieces");
}

/* A login with a bad Q makes no port. */
static void refused(void)
{
    static const uint64_t bad[] = {1, 256, 511, 513, 1023, 3 * 512, 0x80000001, UINT32_MAX,
                                   SRP_GREATEST_BOUNDARY + 512, 2 * SRP_GREATEST_BOUNDARY, (uint64_t)1 << 63,
                                   UINT64_MAX};
    static const struct after closed = {CLOSED, {0}, NULL};
    unsigned i;
    for (i = 0; i < sizeof bad / sizeof bad[0]; i++) {
        login("boundary 2", SRP_REFUSED_SETTING, closed, SETTINGS_OF(N, 512, 1364, 1, 1), bad[i],
              login_request(9, 1364, 0x0006, 0, own_identifier), 132);
        counters("boundary 2, closed", SRP_REFUSED_CLOSED, 0, 0, 0, 0);
        cut("cut, boundary 2", SRP_REFUSED_SETTING, NULL, NO_BYTES, 512, bad[i], 0, 0, 32);
    }
}

/* 384 bytes before a multiple of 512, 1,408 before one of 4,096. The login's Q is 4,096, then its word has another. */
static void in_words(void)
{
    static const struct row row = {"in the words", 4096, 0x1a80, 6000, 8192, 1, {1408}};
    static const struct {
        uint64_t word;
        uint32_t length;
    } words[] = {
        {4096, 1408}, {512, 384}, {8192, 1408}, {SRP_GREATEST_BOUNDARY, 6000}, {0, 6000},
        {1, 6000}, {2, 6000}, {256, 6000}, {511, 6000}, {513, 6000}, {768, 6000}, {4095, 6000}, {4097, 6000},
        {SRP_GREATEST_BOUNDARY + 512, 6000}, {2 * SRP_GREATEST_BOUNDARY, 6000}, {UINT64_MAX, 6000},
    };
    unsigned i;
    for (i = 0; i < sizeof words / sizeof words[0]; i++) {
        moves(&row);
        if (lent_words(PORT)[BOUNDARY] != row.q)
            fail(row.name, "the login's boundary is in another word");
        lent_words(PORT)[BOUNDARY] = words[i].word;
        piece(row.name, TAG, SRP_DIRECTION_IN, HANDLE, row.address, words[i].length, 0, 1);
    }
}

void boundary_cases(void)
{
    unsigned i;
    for (i = 0; i < sizeof rows / sizeof rows[0]; i++) {
        cuts(&rows[i]);
        steps(&rows[i]);
        judged(&rows[i]);
    }
    refused();
    in_words();
}
