/*
 * The layouts of Linux's include/scsi/srp.h, which is part of Debian's linux-headers-*-common. The macro SRP_H is its
 * path; nothing of it is kept here. Its fields are big-endian in memory: GET reads one, SET writes one.
 */
#ifndef OUTSIDE_H
#define OUTSIDE_H

#include <stddef.h>
#include <stdint.h>

#include SRP_H

/* Bits of document 01 that the header does not name. */
enum { UCSOLNT = 0x04, SCSOLNT = 0x02, SOLNT = 0x01, LOGIN_CRSOLNT = 0x20, LOGIN_LOSOLNT = 0x10, SOLNTSUP = 0x10 };

/* RSP_CODEs, likewise. */
enum { COMPLETE = 0x00, FIELDS_INVALID = 0x02, NOT_SUPPORTED = 0x04 };

static inline uint64_t get_number(const void *field, size_t width)
{
    const uint8_t *bytes = field;
    uint64_t value = 0;
    while (width--)
        value = value << 8 | *bytes++;
    return value;
}

static inline void set_number(void *field, size_t width, uint64_t value)
{
    uint8_t *bytes = field;
    while (width--) {
        bytes[width] = (uint8_t)value;
        value >>= 8;
    }
}

#define GET(field)        get_number(&(field), sizeof(field))
#define SET(field, value) set_number(&(field), sizeof(field), (value))

#endif
