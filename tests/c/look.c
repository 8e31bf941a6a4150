/* srp_look. */
#include <string.h>

#include "calls.h"
#include "cases.h"

/* An SRP_CMD of 100 bytes: out direct, at 1122334455667788h; in indirect, no copy, a table of 32 bytes; n = 4. */
static const uint8_t message[100] = {
    0x02, 0x06, 0, 0, 0, 0x12, 0xff, 0, /* type, notification, formats, out count (unread), in count */
    0, 0, 0, 0, 0, 0, 0, 1,             /* tag */
    0, 0, 0, 0, 0, 0, 0, 0,             /* reserved, LUN */
    0, 0, 0, 0, 0, 0, 0, 0x13,          /* LUN, reserved, task attribute, reserved, n in bits 7-2 */
    0x28, 0, 0, 0, 0, 0x10, 0, 0, 0x08, 0, 0, 0, 0, 0, 0, 0, /* CDB */
    1, 2, 3, 4, 5, 6, 7, 8, 9, 10, 11, 12, 13, 14, 15, 16,   /* additional CDB */
    0x11, 0x22, 0x33, 0x44, 0x55, 0x66, 0x77, 0x88, 0xa1, 0xa2, 0xa3, 0xa4, 0, 0, 0x05, 0x14, /* out */
    0x99, 0x88, 0x77, 0x66, 0x55, 0x44, 0x33, 0x22, 0xb1, 0xb2, 0xb3, 0xb4, 0, 0, 0, 0x20,    /* in: table */
    0, 0, 0x02, 0xbc,                                                                         /* total */
};
static const uint8_t message_answer[32] = {
    0, 0, 0, 0, 0, 0, 0, 0, 0, 0, 0, 0, 0, 0, 0, 0,
    0x99, 0x88, 0x77, 0x66, 0x55, 0x44, 0x33, 0x22, 0xb1, 0xb2, 0xb3, 0xb4, 0, 0, 0, 0x20,
};

/* An SRP_CMD of 120 bytes: each way indirect with one copy, out a table of 48 bytes, in one of 64. */
static const uint8_t two_tables[120] = {
    0x02, 0, 0, 0, 0, 0x22, 1, 1, 0, 0, 0, 0, 0, 0, 0, 2, 0, 0, 0, 0, 0, 0, 0, 0, 0, 0, 0, 0, 0, 0, 0, 0,
    0x28, 0, 0, 0, 0, 0x10, 0, 0, 0x08, 0, 0, 0, 0, 0, 0, 0,
    0x01, 0x02, 0x03, 0x04, 0x05, 0x06, 0x07, 0x08, 0xc1, 0xc2, 0xc3, 0xc4, 0, 0, 0, 0x30, 0, 0, 0, 9,
    0, 0, 0, 0, 0, 0, 0x10, 0, 0, 0, 0, 7, 0, 0, 0, 9,
    0x11, 0x12, 0x13, 0x14, 0x15, 0x16, 0x17, 0x18, 0xd1, 0xd2, 0xd3, 0xd4, 0, 0, 0, 0x40, 0, 0, 0, 9,
    0, 0, 0, 0, 0, 0, 0x20, 0, 0, 0, 0, 7, 0, 0, 0, 9,
};
static const uint8_t two_tables_answer[32] = {
    0x01, 0x02, 0x03, 0x04, 0x05, 0x06, 0x07, 0x08, 0xc1, 0xc2, 0xc3, 0xc4, 0, 0, 0, 0x30,
    0x11, 0x12, 0x13, 0x14, 0x15, 0x16, 0x17, 0x18, 0xd1, 0xd2, 0xd3, 0xd4, 0, 0, 0, 0x40,
};

static struct bytes first(const uint8_t *bytes, size_t len)
{
    return (struct bytes){bytes, len};
}

static void arguments(void)
{
    /* msg_len 100, agreed 1,364, formats 6, buf_len 40. Exchanged, it would draw
     *   msg_len and agreed    3, the message being longer than agreed
     *   msg_len and formats   2, bits 5 and 6 of formats
     *   msg_len and buf_len   3, 40 bytes being under 48
     *   agreed and formats    2
     *   agreed and buf_len    2, 40 being under 64
     *   formats and buf_len   1, 6 being under 32
     *   msg and buf           4, by what the lent buffer holds */
    look("look", 0, message_answer, BYTES(message), 1364, 6, 40);
    /* buf_len 32, agreed 100: the bounds themselves. */
    look("look, least buffer, least agreed length", 0, message_answer, BYTES(message), 100, 6, 32);
    /* Out and in both with a fetch: shows an exchange of the two. */
    look("look, two fetches", 0, two_tables_answer, BYTES(two_tables), 1364, 6, 33);
    /* formats 2 and 4 differ in which direction they allow: shows an exchange of the format bits or nibbles. */
    look("look, direct alone agreed", SRP_REFUSED_IN_FORMAT, NULL, BYTES(message), 1364, 2, 40);
    look("look, indirect alone agreed", SRP_REFUSED_OUT_FORMAT, NULL, BYTES(message), 1364, 4, 40);
}

/* What is checked later is wrong too, in every case as far as the order of checking is to be seen. */
static void refusals(void)
{
    uint8_t other_type[100];
    memcpy(other_type, message, sizeof other_type);
    other_type[0] = 0x01;
    look("look 1", SRP_REFUSED_SHORT_BUFFER, NULL, first(other_type, 5), 0, 0xffffffff, 31);
    look("look 1, no buffer", SRP_REFUSED_SHORT_BUFFER, NULL, first(other_type, 5), 0, 0xffffffff, 0);
    look("look 2, agreed 63", SRP_REFUSED_SETTING, NULL, first(other_type, 5), 63, 6, 40);
    look("look 2, agreed 1365", SRP_REFUSED_SETTING, NULL, first(other_type, 5), 1365, 6, 40);
    look("look 2, format bit 0", SRP_REFUSED_SETTING, NULL, first(other_type, 5), 1364, 7, 40);
    look("look 2, format bit 31", SRP_REFUSED_SETTING, NULL, first(other_type, 5), 1364, 0x80000006, 40);
    look("look 3, 15 bytes", SRP_REFUSED_LENGTH, NULL, first(other_type, 15), 1364, 0, 40);
    look("look 3, above agreed", SRP_REFUSED_LENGTH, NULL, first(other_type, 65), 64, 0, 40);
    look("look 4", SRP_REFUSED_OTHER_TYPE, NULL, first(other_type, 16), 1364, 0, 40);
    look("look 3, 47 bytes", SRP_REFUSED_LENGTH, NULL, first(message, 47), 1364, 0, 40);
    look("look 5", SRP_REFUSED_OUT_FORMAT, NULL, first(message, 99), 1364, 0, 40);
    look("look 6", SRP_REFUSED_IN_FORMAT, NULL, first(message, 99), 1364, 2, 40);
    look("look 3, exact", SRP_REFUSED_LENGTH, NULL, first(message, 99), 1364, 6, 40);
}

static void counts(void)
{
    uint8_t msg[120];
    enum { OUT_COUNT = 6, OUT_TABLE_LENGTH = 63, IN_TABLE_LENGTH = 99 };
    /* Four copies are more than the table of 48 bytes holds, but the message has one: 3 before 7. */
    memcpy(msg, two_tables, sizeof msg);
    msg[OUT_COUNT] = 4;
    look("look 3, copies missing", SRP_REFUSED_LENGTH, NULL, BYTES(msg), 1364, 6, 40);
    /* One copy, and tables of 0 bytes: 7 before 8. */
    memcpy(msg, two_tables, sizeof msg);
    msg[IN_TABLE_LENGTH] = 0;
    look("look 8", SRP_REFUSED_IN_COUNT, NULL, BYTES(msg), 1364, 6, 40);
    msg[OUT_TABLE_LENGTH] = 0;
    look("look 7", SRP_REFUSED_OUT_COUNT, NULL, BYTES(msg), 1364, 6, 40);
}

void look_cases(void)
{
    arguments();
    refusals();
    counts();
}
