/*
 * srp_trace over every type byte, over the lengths that an SRP_CMD and an SRP_RSP can have, and over messages of more
 * than 2^32 bytes. Of each message the first 40 bytes can be read and no other: a page that cannot be read follows.
 */
#define _DEFAULT_SOURCE /* MAP_ANONYMOUS */
#include <signal.h>
#include <stdio.h>
#include <string.h>
#include <sys/mman.h>
#include <unistd.h>

#include "calls.h"
#include "cases.h"

enum { HEAD = 40, READABLE = 65536 };

#define TWO_TO_32 ((uint64_t)1 << 32)
#define RESERVED  (READABLE + 2 * TWO_TO_32)

static uint8_t *readable;
static uint8_t head[HEAD]; /* the first bytes of the message */

/* The lines of messages that are 0 behind their type. */
static const struct {
    uint8_t type;
    size_t len;
    const char *line;
} known[] = {
    {0x00, 64, "> LOGIN_REQ    0000000000000000                                                 \n"},
    {0x01, 48, "> TSK_MGMT     0000000000000000 0000000000000000                                \n"},
    {0x02, 48, "> CMD          0000000000000000 0000000000000000                                \n"},
    {0x03, 16, "> I_LOGOUT     0000000000000000                                                 \n"},
    {0x41, 16, "> CRED_RSP     0000000000000000                                                 \n"},
    {0x80, 16, "> T_LOGOUT     0000000000000000                        00000000                 \n"},
    {0x81, 16, "> CRED_REQ     0000000000000000                      0                          \n"},
    {0xc0, 52, "> LOGIN_RSP    0000000000000000                      0                          \n"},
    {0xc1, 36, "> RSP          0000000000000000                      0                          \n"},
    {0xc2, 32, "> LOGIN_REJ    0000000000000000                        00000000                 \n"},
};
enum { KNOWN = sizeof known / sizeof *known };

static void read_too_far(int number)
{
    static const char text[] = "FAILED trace: reads behind the message's end or its byte 39\n";
    (void)number;
    _exit(write(STDOUT_FILENO, text, sizeof text - 1) < 0 ? 2 : 1);
}

static void begin_message(uint8_t type)
{
    memset(head, 0, sizeof head);
    head[0] = type;
}

/* The first failures are told. */
static void prints(uint64_t len, const char *line)
{
    static unsigned failures;
    size_t some = len < HEAD ? (size_t)len : HEAD;
    uint8_t *msg = readable + READABLE - some, buf[SRP_TRACE_BYTES] = {0};
    char name[160];
    memcpy(msg, head, some);
    if (srp_trace(msg, len, 0, buf, sizeof buf) == 0 && memcmp(buf, line, sizeof buf) == 0)
        return;
    snprintf(name, sizeof name, "trace, type %02x, %llu bytes, %.80s", head[0], (unsigned long long)len,
             (const char *)buf);
    if (failures++ < 20)
        fail(name, line);
    fflush(stdout);
}

static void prints_unknown(uint64_t len)
{
    char number[24], line[128];
    snprintf(number, sizeof number, "%llu", (unsigned long long)len);
    snprintf(line, sizeof line, "> UNKNOWN                                        %5s                          \n",
             len > 99999 ? "*****" : number);
    prints(len, line);
}

static void every_type(void)
{
    unsigned type, i;
    size_t len;
    for (type = 0; type < 256; type++) {
        for (i = 0; i < KNOWN && known[i].type != type; i++)
            ;
        begin_message((uint8_t)type);
        for (len = 0; len <= 160; len++) {
            if (i < KNOWN && known[i].len == len)
                prints(len, known[i].line);
            else
                prints_unknown(len);
        }
    }
}

static size_t descriptor_bytes(unsigned format, unsigned count)
{
    return format == 2 ? 20 + 16 * count : format == 1 ? 16 : 0;
}

/* At the length that formats, counts and n give, and one byte beside it. */
static void one_command(unsigned formats, uint8_t out_count, uint8_t in_count, uint8_t n)
{
    unsigned out = formats >> 4, in = formats & 15;
    size_t len = 48 + 4 * n + descriptor_bytes(out, out_count) + descriptor_bytes(in, in_count);
    begin_message(0x02);
    head[5] = (uint8_t)formats;
    head[6] = out_count;
    head[7] = in_count;
    head[31] = (uint8_t)(n << 2);
    if (out > 2 || in > 2)
        prints_unknown(len);
    else
        prints(len, "> CMD          0000000000000000 0000000000000000                                \n");
    prints_unknown(len - 1);
    prints_unknown(len + 1);
}

static void command_lengths(void)
{
    static const uint8_t counts[6] = {0, 1, 31, 32, 33, 255}, ns[4] = {0, 1, 32, 63};
    unsigned formats, i, j, k;
    for (formats = 0; formats < 256; formats++)
        for (i = 0; i < 6; i++)
            for (j = 0; j < 6; j++)
                for (k = 0; k < 4; k++)
                    one_command(formats, counts[i], counts[j], ns[k]);
}

/* RSP_CODE is 9; the response length, which is unread, is the sense length. */
static void one_response(uint8_t flags, uint32_t sense_len)
{
    static const char *const lines[2] = {
        "> RSP          0000000000000000                      0                          \n",
        "> RSP          0000000000000000                      0 00000009                 \n",
    };
    uint64_t len, own = 36;
    own += flags & 1 ? 4 : 0;
    own += flags & 2 ? sense_len : 0;
    begin_message(0xc1);
    head[18] = flags;
    put(head, 28, 4, sense_len);
    put(head, 32, 4, sense_len);
    head[39] = 9;
    for (len = 30; len < 150; len++)
        if (len != own)
            prints_unknown(len);
    prints(own, lines[flags & 1]);
    prints_unknown(own - 1);
    prints_unknown(own + 1);
}

static void response_lengths(void)
{
    /* 0 - k: a sum in 32 bits would be the length of a shorter message. */
    static const uint32_t senses[10] = {0, 1, 4, 96, 99959, 99960, 0 - 1u, 0 - 4u, 0 - 36u, 0 - 40u};
    unsigned flags, i;
    for (flags = 0; flags < 256; flags++)
        for (i = 0; i < 10; i++)
            one_response((uint8_t)flags, senses[i]);
}

/* Longer than its type's by 2^32, and around 99,999. */
static void long_messages(void)
{
    unsigned i;
    for (i = 0; i < KNOWN; i++) {
        begin_message(known[i].type);
        prints_unknown(known[i].len + TWO_TO_32);
        prints_unknown(TWO_TO_32);
        prints_unknown(TWO_TO_32 - 1);
        prints_unknown(99999);
        prints_unknown(100000);
    }
}

void trace_length_cases(void)
{
    readable = mmap(NULL, RESERVED, PROT_NONE, MAP_PRIVATE | MAP_ANONYMOUS | MAP_NORESERVE, -1, 0);
    if (readable == MAP_FAILED || mprotect(readable, READABLE, PROT_READ | PROT_WRITE)) {
        fail("trace", "no memory for long messages");
        return;
    }
    fflush(stdout);
    signal(SIGSEGV, read_too_far);
    every_type();
    command_lengths();
    response_lengths();
    long_messages();
    signal(SIGSEGV, SIG_DFL);
    munmap(readable, RESERVED);
}
