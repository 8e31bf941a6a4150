/*
 * Messages by document 01's byte positions, for the tests. What a function returns stays until another
 * message of its direction is made.
 */
#ifndef MESSAGES_H
#define MESSAGES_H

#include <stddef.h>
#include <stdint.h>

struct bytes {
    const uint8_t *at;
    size_t len;
};

#define BYTES(array) ((struct bytes){(array), sizeof(array)})
#define NO_BYTES     ((struct bytes){NULL, 0})

/* Notification bits of a request's byte 1, and of a login's byte 26. */
enum { UCSOLNT = 0x04, SCSOLNT = 0x02, CRSOLNT = 0x20, LOSOLNT = 0x10 };

/* A big-endian number of `width` bytes. */
void put(uint8_t *bytes, size_t at, size_t width, uint64_t value);

/* To the port. `bits` is byte 26 of a login, byte 1 of a request; `formats` is byte 5 of a command. */
struct bytes login_request(uint64_t tag, uint32_t length, uint16_t formats, uint8_t bits, const uint8_t *target);
struct bytes command(uint64_t tag, uint64_t lun, uint8_t bits);
struct bytes command_with(uint64_t tag, uint8_t bits, uint8_t formats, uint8_t out_count, uint8_t in_count,
                          struct bytes descriptors);
/* Both ways direct, whose lengths are unlike: out 1000h/1,300 with handle 7, in 5000h/700 with handle 9. */
struct bytes command_both_ways(uint64_t tag, uint8_t bits);
/* The descriptors of an indirect buffer whose table, at A000h with handle AAh, is copied whole: up to 32 segments. What
 * it returns stays until it is called again. */
struct segment {
    uint64_t address;
    uint32_t handle, length;
};
struct bytes whole_table(const struct segment *segments, size_t count);
struct bytes task(uint64_t tag, uint64_t lun, uint8_t bits, uint8_t function, uint64_t managed);
struct bytes initiator_logout(uint64_t tag);
struct bytes credit_response(uint64_t tag);

/* From the port. */
struct residuals {
    uint8_t flags;
    uint32_t out, in;
};
#define NO_RESIDUALS ((struct residuals){0, 0, 0})

const uint8_t *login_response(uint32_t n, uint64_t tag, uint32_t length, uint16_t formats, uint8_t bits);
const uint8_t *login_rejection(uint32_t reason, uint64_t tag, uint16_t formats);
const uint8_t *response(int solnt, uint32_t delta, uint64_t tag, uint8_t status, struct residuals residuals,
                        struct bytes sense);
const uint8_t *code_response(int solnt, uint32_t delta, uint64_t tag, uint8_t code);
const uint8_t *credit_request(int solnt, uint32_t delta);
const uint8_t *target_logout(int solnt, uint32_t reason);

#endif
