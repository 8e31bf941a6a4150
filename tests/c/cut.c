/* srp_cut. */
#include "calls.h"
#include "cases.h"

/* Segments 2000h/0, 3000h/600, 5000h/100, each with a handle of its own. */
static const uint8_t segments[48] = {
    0, 0, 0, 0, 0, 0, 0x20, 0, 0xe1, 0xe2, 0xe3, 0xe4, 0, 0, 0, 0,
    0, 0, 0, 0, 0, 0, 0x30, 0, 0xf1, 0xf2, 0xf3, 0xf4, 0, 0, 0x02, 0x58,
    0, 0, 0, 0, 0, 0, 0x50, 0, 0xa5, 0xa6, 0xa7, 0xa8, 0, 0, 0, 100,
};
static const uint8_t nothing[SRP_ANSWER_BYTES]; /* done */

static void arguments(void)
{
    static const uint8_t piece[32] = {
        0, 0, 0, 0, 0, 0, 0x30, 100, 0xf1, 0xf2, 0xf3, 0xf4, 0, 0, 0x01, 0x2c, /* 3064h, 300 */
        0, 0, 0, 100,
    };
    static const uint8_t rest[32] = {
        0, 0, 0, 0, 0, 0, 0x32, 0, 0xf1, 0xf2, 0xf3, 0xf4, 0, 0, 0, 88, /* 3200h, 88 */
        0, 0, 0x02, 0x00,
    };
    static const uint8_t last[32] = {
        0, 0, 0, 0, 0, 0, 0x50, 0, 0xa5, 0xa6, 0xa7, 0xa8, 0, 0, 0, 50, /* 5000h, 50 */
        0, 0, 0x02, 0x58,
    };
    /* list_len 48, m 300, q 512, r 650, handed 100, buf_len 40. Exchanged, it would give
     *   q and any other               2, none of them a power of two from 512 on
     *   list_len and m, r or handed   11, none of them a multiple of 16
     *   list_len and buf_len          11, 40 being no multiple of 16
     *   m and r                       a piece of 200 bytes
     *   m and handed                  another address
     *   m and buf_len                 a piece of 40 bytes
     *   r and handed                  11, 650 being above 100
     *   r and buf_len                 11, 100 being above 40
     *   handed and buf_len            another address
     *   list and buf                  another number, or an answer written over the list */
    cut("cut", 0, piece, BYTES(segments), 300, 512, 650, 100, 40);
    /* The segment ends the piece; then, from the last segment's first byte on, r does. */
    cut("cut, up to the segment's end", 0, rest, BYTES(segments), 512, 0, 650, 512, 32);
    cut("cut, last piece", 0, last, BYTES(segments), 512, 0, 650, 600, 32);
    cut("cut, done", 0, nothing, BYTES(segments), 300, 0, 650, 650, 33);
    cut("cut, done at the buffer's end", 0, nothing, BYTES(segments), 300, 0, 701, 700, 40);
    cut("cut, no segment", 0, nothing, NO_BYTES, 300, 0, 650, 0, 40);
}

/* What is checked later is wrong too, in every case. */
static void refusals(void)
{
    static const uint8_t past[17] = {0xff, 0xff, 0xff, 0xff, 0xff, 0xff, 0xff, 0xff, 0, 0, 0, 7, 0, 0, 0, 2, 0};
    cut("cut 1", SRP_REFUSED_SHORT_BUFFER, NULL, BYTES(past), 0, 1, 1, 9, 31);
    cut("cut 1, no buffer", SRP_REFUSED_SHORT_BUFFER, NULL, BYTES(past), 0, 1, 1, 9, 0);
    cut("cut 2, m 0", SRP_REFUSED_SETTING, NULL, BYTES(past), 0, 0, 1, 9, 40);
    cut("cut 2, m 1048577", SRP_REFUSED_SETTING, NULL, BYTES(past), 1048577, 512, 1, 9, 40);
    cut("cut 2, q 511", SRP_REFUSED_SETTING, NULL, BYTES(past), 1, 511, 1, 9, 40);
    cut("cut 2, q 2^33", SRP_REFUSED_SETTING, NULL, BYTES(past), 1048576, 1ull << 33, 1, 9, 40);
    cut("cut 11, list", SRP_REFUSED_ARGUMENT, NULL, BYTES(past), 1048576, 1ull << 32, 1, 9, 40);
    cut("cut 10, past 2^64", SRP_REFUSED_FIELDS, NULL, ((struct bytes){past, 16}), 1048576, 512, 1, 9, 40);
    cut("cut 11, handed out", SRP_REFUSED_ARGUMENT, NULL, BYTES(segments), 1, 0, 650, 651, 40);
}

void cut_cases(void)
{
    arguments();
    refusals();
}
