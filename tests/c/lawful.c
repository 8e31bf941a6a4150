/* Calls that are not refused, and leave little to say. */
#include "calls.h"

void opened_with(uint32_t n, uint32_t m, uint64_t boundary)
{
    struct bytes request = login_request(9, SRP_LONGEST_AGREED, 0x0006, CRSOLNT | LOSOLNT, own_identifier);
    struct after after = {OTHER, {52, 0}, login_response(n, 9, SRP_LONGEST_AGREED, 0x0006, 0x10)};
    lay(STORE, NULL, 0);
    login("login", 0, after, SETTINGS_OF(n, m, SRP_LONGEST_AGREED, 1, 1), boundary, request, SRP_MESSAGE_BYTES);
}

void opened(uint32_t n, uint32_t m)
{
    opened_with(n, m, 0);
}

static uint64_t number_at(const uint8_t *bytes, size_t at)
{
    uint64_t value = 0;
    size_t i;
    for (i = 0; i < 8; i++)
        value = value << 8 | bytes[at + i];
    return value;
}

static void took(const char *name, struct bytes msg, uint64_t w)
{
    uint64_t cdb = 16 + 4 * (uint64_t)(msg.at[31] >> 2), tag = number_at(msg.at, 8), lun = number_at(msg.at, 20);
    take(name, 0, (struct after){OTHER, {0, SRP_KIND_COMMAND, tag, lun, 32, cdb, w}, NULL}, msg, SRP_MESSAGE_BYTES);
}

void taken(const char *name, struct bytes msg)
{
    took(name, msg, 0);
}

void waits(const char *name, struct bytes msg)
{
    took(name, msg, 1);
}

void brought(const char *name, uint64_t tag, struct bytes out, struct bytes in)
{
    tables(name, 0, (struct after){OTHER, {0}, NULL}, tag, out, in, SRP_MESSAGE_BYTES);
}

void planned(const char *name, uint64_t tag, uint32_t r_out, uint32_t r_in)
{
    plan(name, 0, tag, r_out, r_in);
    named(name, tag, SRP_DIRECTION_OUT, 0, r_out);
    named(name, tag, SRP_DIRECTION_IN, 0, r_in);
}

void piece(const char *name, uint64_t tag, uint32_t direction, uint64_t handle, uint64_t address, uint64_t length,
           uint64_t offset, uint64_t number)
{
    uint64_t operation = direction ? SRP_RDMA_WRITE : SRP_RDMA_READ;
    struct after after = {OTHER, {1, operation, handle, address, length, offset, number}, NULL};
    step(name, 0, after, tag, direction);
}

void done(const char *name, uint64_t tag, uint32_t direction, uint64_t number)
{
    step(name, 0, (struct after){SAME, {0, 0, 0, 0, 0, 0, number}, NULL}, tag, direction);
}

void served(const char *name, uint64_t tag, uint32_t direction, uint64_t handle, uint64_t address, uint64_t length,
            uint64_t offset, uint64_t number)
{
    uint64_t operation = direction ? SRP_RDMA_WRITE : SRP_RDMA_READ;
    turn(name, 0, (struct after){OTHER, {1, operation, handle, address, length, offset, number, tag}, NULL});
}

void idle(const char *name)
{
    turn(name, 0, (struct after){SAME, {0}, NULL});
}

void finished(const char *name, uint64_t tag, uint32_t delta, struct residuals residuals)
{
    struct after after = {OTHER, {36}, response(0, delta, tag, 0, residuals, NO_BYTES)};
    finish(name, 0, after, tag, 0, NO_BYTES, SRP_MESSAGE_BYTES);
}
