/*
 * srp_trace, each line written out:
 *              1         2         3         4         5         6         7         8
 *     12345678901234567890123456789012345678901234567890123456789012345678901234567890
 */
#include <stdio.h>
#include <string.h>

#include "calls.h"
#include "cases.h"

enum { TOWARDS = 0, FROM = 1 };
enum { RSPVALID = 0x01, SNSVALID = 0x02 };

static uint8_t memory[8500];

/* A message of a type with the tag 0123456789abcdefh and the number in bytes 4-7; what nobody sets is eeh. */
static struct bytes message(uint8_t type, size_t len, uint32_t number)
{
    memset(memory, 0xee, sizeof memory);
    memory[0] = type;
    put(memory, 4, 4, number);
    put(memory, 8, 8, 0x0123456789abcdef);
    return (struct bytes){memory, len};
}

/* An SRP_CMD with the LUN fedcba9876543210h; `formats` is byte 5. */
static struct bytes command_of(size_t len, uint8_t formats, uint8_t out_count, uint8_t in_count, uint8_t n)
{
    struct bytes msg = message(0x02, len, 0);
    memory[5] = formats;
    memory[6] = out_count;
    memory[7] = in_count;
    put(memory, 20, 8, 0xfedcba9876543210);
    memory[31] = (uint8_t)(n << 2 | 3);
    return msg;
}

/* An SRP_RSP with the delta 7 and a5h in byte 39; of the flags all stand but RSPVALID and SNSVALID, which are given. */
static struct bytes response_of(size_t len, uint8_t valid, uint32_t sense_len)
{
    struct bytes msg = message(0xc1, len, 7);
    memory[18] = (uint8_t)(0xfc | valid);
    put(memory, 28, 4, sense_len);
    memory[39] = 0xa5;
    return msg;
}

static void prints(struct bytes msg, uint32_t direction, const char *line)
{
    char name[80];
    snprintf(name, sizeof name, "trace %.63s", line);
    trace(name, 0, line, msg, direction, 96);
}

static void arguments(void)
{
    static const uint32_t from[5] = {1, 2, 0x100, 0x80000000, 0xffffffff};
    unsigned i;
    /* msg_len 40, direction 2, buf_len 90. Exchanged, it would give
     *   msg_len and direction   UNKNOWN, of two bytes
     *   msg_len and buf_len     1, 40 being under 81
     *   direction and buf_len   1
     *   msg and buf             the line of what the lent buffer holds, written over the message */
    trace("trace", 0, "< RSP          0123456789abcdef                      7 000000a5                 \n",
          response_of(40, RSPVALID, 0), 2, 90);
    /* 0 alone is towards the port. */
    prints(message(0x03, 16, 0), 0,
           "> I_LOGOUT     0123456789abcdef                                                 \n");
    for (i = 0; i < 5; i++)
        prints(message(0x03, 16, 0), from[i],
               "< I_LOGOUT     0123456789abcdef                                                 \n");
}

/* Each type, with each field that it has. */
static void types(void)
{
    prints(message(0x00, 64, 9), TOWARDS,
           "> LOGIN_REQ    0123456789abcdef                                                 \n");
    prints(message(0x01, 48, 9), TOWARDS,
           "> TSK_MGMT     0123456789abcdef eeeeeeeeeeeeeeee                                \n");
    prints(command_of(48, 0x00, 0, 0, 0), TOWARDS,
           "> CMD          0123456789abcdef fedcba9876543210                                \n");
    prints(message(0x03, 16, 9), TOWARDS,
           "> I_LOGOUT     0123456789abcdef                                                 \n");
    prints(message(0x41, 16, 9), TOWARDS,
           "> CRED_RSP     0123456789abcdef                                                 \n");
    prints(message(0x80, 16, 9), FROM,
           "< T_LOGOUT     0123456789abcdef                        00000009                 \n");
    prints(message(0x81, 16, 9), FROM,
           "< CRED_REQ     0123456789abcdef                      9                          \n");
    prints(message(0xc0, 52, 16), FROM,
           "< LOGIN_RSP    0123456789abcdef                     16                          \n");
    prints(response_of(36, 0, 0), FROM,
           "< RSP          0123456789abcdef                      7                          \n");
    prints(response_of(40, RSPVALID, 0), FROM,
           "< RSP          0123456789abcdef                      7 000000a5                 \n");
    prints(message(0xc2, 32, 0x00010005), FROM,
           "< LOGIN_REJ    0123456789abcdef                        00010005                 \n");
}

/* A type that cannot go that way prints too. */
static void other_way(void)
{
    prints(command_of(48, 0x00, 0, 0, 0), FROM,
           "< CMD          0123456789abcdef fedcba9876543210                                \n");
    prints(message(0xc2, 32, 0x00010000), TOWARDS,
           "> LOGIN_REJ    0123456789abcdef                        00010000                 \n");
}

/* Columns 50-54 and 56-63. */
static void numbers(void)
{
    prints(message(0x81, 16, 0), FROM,
           "< CRED_REQ     0123456789abcdef                      0                          \n");
    prints(message(0x81, 16, 10203), FROM,
           "< CRED_REQ     0123456789abcdef                  10203                          \n");
    prints(message(0x81, 16, 99999), FROM,
           "< CRED_REQ     0123456789abcdef                  99999                          \n");
    prints(message(0x81, 16, 100000), FROM,
           "< CRED_REQ     0123456789abcdef                  *****                          \n");
    prints(message(0xc0, 52, 4567), FROM,
           "< LOGIN_RSP    0123456789abcdef                   4567                          \n");
    prints(message(0xc0, 52, 0xffffffff), FROM,
           "< LOGIN_RSP    0123456789abcdef                  *****                          \n");
    prints(message(0x80, 16, 0), FROM,
           "< T_LOGOUT     0123456789abcdef                        00000000                 \n");
    prints(message(0x80, 16, 0x9abcdef8), FROM,
           "< T_LOGOUT     0123456789abcdef                        9abcdef8                 \n");
    prints(message(0xc2, 32, 0xffffffff), FROM,
           "< LOGIN_REJ    0123456789abcdef                        ffffffff                 \n");
}

/* A count is read with format 2 alone, and may be above 32. Formats above 2 are in no length. */
static void commands(void)
{
    static const char known[] = "> CMD          0123456789abcdef fedcba9876543210                                \n";
    prints(command_of(48 + 4 * 63, 0x00, 255, 255, 63), TOWARDS, known);
    prints(command_of(48 + 16, 0x01, 255, 255, 0), TOWARDS, known);
    prints(command_of(48 + 4 + (20 + 16 * 2) + 16, 0x21, 2, 255, 1), TOWARDS, known);
    prints(command_of(48 + (20 + 16 * 1), 0x02, 255, 1, 0), TOWARDS, known);
    prints(command_of(48 + (20 + 16 * 255) + (20 + 16 * 33), 0x22, 255, 33, 0), TOWARDS, known);
    prints(command_of(48, 0x30, 0, 0, 0), TOWARDS,
           "> UNKNOWN                                           48                          \n");
    prints(command_of(48, 0x03, 0, 0, 0), TOWARDS,
           "> UNKNOWN                                           48                          \n");
    prints(command_of(48 + 16, 0x1f, 0, 0, 0), FROM,
           "< UNKNOWN                                           64                          \n");
    prints(command_of(48 + 20, 0x82, 0, 0, 0), TOWARDS,
           "> UNKNOWN                                           68                          \n");
}

/* The response length, which is eeeeeeeeh, is unread. */
static void responses(void)
{
    prints(response_of(36 + 18, SNSVALID, 18), FROM,
           "< RSP          0123456789abcdef                      7                          \n");
    prints(response_of(36 + 4 + 18, RSPVALID | SNSVALID, 18), FROM,
           "< RSP          0123456789abcdef                      7 000000a5                 \n");
    prints(response_of(36, SNSVALID, 0), FROM,
           "< RSP          0123456789abcdef                      7                          \n");
    prints(response_of(36, 0, 18), FROM,
           "< RSP          0123456789abcdef                      7                          \n");
    prints(response_of(36, RSPVALID, 0), FROM,
           "< UNKNOWN                                           36                          \n");
    prints(response_of(40, 0, 0), FROM,
           "< UNKNOWN                                           40                          \n");
    prints(response_of(40, RSPVALID | SNSVALID, 18), FROM,
           "< UNKNOWN                                           40                          \n");
    /* In 32 bits 40 + 4,294,967,292 is 36, and 36 + 4,294,967,295 is 35. */
    prints(response_of(36, RSPVALID | SNSVALID, 0xfffffffc), FROM,
           "< UNKNOWN                                           36                          \n");
    prints(response_of(35, SNSVALID, 0xffffffff), FROM,
           "< UNKNOWN                                           35                          \n");
}

/* Lengths that are not the type's; types that document 01 has not. */
static void unknown(void)
{
    prints(message(0x03, 0, 0), TOWARDS,
           "> UNKNOWN                                            0                          \n");
    prints(message(0x03, 1, 0), FROM,
           "< UNKNOWN                                            1                          \n");
    prints(message(0x41, 15, 0), TOWARDS,
           "> UNKNOWN                                           15                          \n");
    prints(message(0x81, 17, 5), FROM,
           "< UNKNOWN                                           17                          \n");
    prints(message(0x42, 16, 0), TOWARDS,
           "> UNKNOWN                                           16                          \n");
    prints(message(0x82, 16, 0), FROM,
           "< UNKNOWN                                           16                          \n");
    prints(message(0x82, 36, 0), FROM,
           "< UNKNOWN                                           36                          \n");
    prints(message(0x04, 48, 0), TOWARDS,
           "> UNKNOWN                                           48                          \n");
    prints(message(0xff, 8500, 0), TOWARDS,
           "> UNKNOWN                                         8500                          \n");
}

/* Under 81 bytes nothing is written, from 81 on the first 81. */
static void buffers(void)
{
    static const char line[] = "< RSP          0123456789abcdef                      7 000000a5                 \n";
    trace("trace 1", SRP_REFUSED_SHORT_BUFFER, NULL, response_of(40, RSPVALID, 0), FROM, 80);
    trace("trace 1, UNKNOWN", SRP_REFUSED_SHORT_BUFFER, NULL, message(0x42, 16, 0), TOWARDS, 80);
    trace("trace 1, no message", SRP_REFUSED_SHORT_BUFFER, NULL, NO_BYTES, TOWARDS, 80);
    trace("trace 1, no buffer", SRP_REFUSED_SHORT_BUFFER, NULL, response_of(40, RSPVALID, 0), FROM, 0);
    trace("trace, 81 bytes", 0, line, response_of(40, RSPVALID, 0), FROM, 81);
    trace("trace, 82 bytes", 0, line, response_of(40, RSPVALID, 0), FROM, 82);
    trace("trace, 200 bytes", 0, line, response_of(40, RSPVALID, 0), FROM, 200);
}

void trace_cases(void)
{
    arguments();
    types();
    other_way();
    numbers();
    commands();
    responses();
    unknown();
    buffers();
}
