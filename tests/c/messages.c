#include <string.h>

#include "messages.h"

static uint8_t to_port[1400];
static uint8_t from_port[132];

void put(uint8_t *bytes, size_t at, size_t width, uint64_t value)
{
    while (width--) {
        bytes[at + width] = (uint8_t)value;
        value >>= 8;
    }
}

static uint8_t *message(uint8_t *memory, size_t size, uint8_t type, uint8_t bits, uint64_t tag)
{
    memset(memory, 0, size);
    memory[0] = type;
    memory[1] = bits;
    put(memory, 8, 8, tag);
    return memory;
}

static uint8_t *to(uint8_t type, uint8_t bits, uint64_t tag)
{
    return message(to_port, sizeof to_port, type, bits, tag);
}

static uint8_t *from(uint8_t type, int solnt, uint64_t tag)
{
    return message(from_port, sizeof from_port, type, solnt ? 1 : 0, tag);
}

struct bytes login_request(uint64_t tag, uint32_t length, uint16_t formats, uint8_t bits, const uint8_t *target)
{
    uint8_t *m = to(0x00, 0, tag);
    put(m, 16, 4, length);
    put(m, 24, 2, formats);
    m[26] = bits;
    memset(m + 32, 0xee, 16);
    memcpy(m + 48, target, 16);
    return (struct bytes){m, 64};
}

struct bytes command(uint64_t tag, uint64_t lun, uint8_t bits)
{
    uint8_t *m = to(0x02, bits, tag);
    put(m, 20, 8, lun);
    return (struct bytes){m, 48};
}

struct bytes command_with(uint64_t tag, uint8_t bits, uint8_t formats, uint8_t out_count, uint8_t in_count,
                          struct bytes descriptors)
{
    uint8_t *m = to(0x02, bits, tag);
    m[5] = formats;
    m[6] = out_count;
    m[7] = in_count;
    if (descriptors.len)
        memcpy(m + 48, descriptors.at, descriptors.len);
    return (struct bytes){m, 48 + descriptors.len};
}

struct bytes command_both_ways(uint64_t tag, uint8_t bits)
{
    static const uint8_t both[32] = {
        0, 0, 0, 0, 0, 0, 0x10, 0, 0, 0, 0, 7, 0, 0, 0x05, 0x14,
        0, 0, 0, 0, 0, 0, 0x50, 0, 0, 0, 0, 9, 0, 0, 0x02, 0xbc,
    };
    return command_with(tag, bits, 0x11, 0, 0, BYTES(both));
}

struct bytes whole_table(const struct segment *segments, size_t count)
{
    static uint8_t descriptors[20 + 32 * 16];
    uint64_t total = 0;
    size_t i;
    for (i = 0; i < count; i++) {
        put(descriptors, 20 + 16 * i, 8, segments[i].address);
        put(descriptors, 28 + 16 * i, 4, segments[i].handle);
        put(descriptors, 32 + 16 * i, 4, segments[i].length);
        total += segments[i].length;
    }
    put(descriptors, 0, 8, 0xa000);
    put(descriptors, 8, 4, 0xaa);
    put(descriptors, 12, 4, 16 * count);
    put(descriptors, 16, 4, total);
    return (struct bytes){descriptors, 20 + 16 * count};
}

struct bytes task(uint64_t tag, uint64_t lun, uint8_t bits, uint8_t function, uint64_t managed)
{
    uint8_t *m = to(0x01, bits, tag);
    put(m, 20, 8, lun);
    m[30] = function;
    put(m, 32, 8, managed);
    return (struct bytes){m, 48};
}

struct bytes initiator_logout(uint64_t tag)
{
    return (struct bytes){to(0x03, 0, tag), 16};
}

struct bytes credit_response(uint64_t tag)
{
    return (struct bytes){to(0x41, 0, tag), 16};
}

const uint8_t *login_response(uint32_t n, uint64_t tag, uint32_t length, uint16_t formats, uint8_t bits)
{
    uint8_t *m = from(0xc0, 0, tag);
    put(m, 4, 4, n);
    put(m, 16, 4, length);
    put(m, 20, 4, 132);
    put(m, 24, 2, formats);
    m[26] = bits;
    return m;
}

const uint8_t *login_rejection(uint32_t reason, uint64_t tag, uint16_t formats)
{
    uint8_t *m = from(0xc2, 0, tag);
    put(m, 4, 4, reason);
    put(m, 24, 2, formats);
    return m;
}

const uint8_t *response(int solnt, uint32_t delta, uint64_t tag, uint8_t status, struct residuals residuals,
                        struct bytes sense)
{
    uint8_t *m = from(0xc1, solnt, tag);
    put(m, 4, 4, delta);
    m[18] = residuals.flags | (sense.len ? 0x02 : 0);
    m[19] = status;
    put(m, 20, 4, residuals.out);
    put(m, 24, 4, residuals.in);
    put(m, 28, 4, sense.len);
    if (sense.len)
        memcpy(m + 36, sense.at, sense.len);
    return m;
}

const uint8_t *code_response(int solnt, uint32_t delta, uint64_t tag, uint8_t code)
{
    uint8_t *m = from(0xc1, solnt, tag);
    put(m, 4, 4, delta);
    m[18] = 0x01;
    put(m, 32, 4, 4);
    m[39] = code;
    return m;
}

const uint8_t *credit_request(int solnt, uint32_t delta)
{
    uint8_t *m = from(0x81, solnt, 1);
    put(m, 4, 4, delta);
    return m;
}

const uint8_t *target_logout(int solnt, uint32_t reason)
{
    uint8_t *m = from(0x80, solnt, 0);
    put(m, 4, 4, reason);
    return m;
}
