/*
 * Messages to the port, built with Linux's structs. Bytes and bits that document 01 has unread hold arbitrary values.
 * Each function returns the message's length.
 */
#ifndef BUILD_H
#define BUILD_H

#include "model.h"

struct login {
    uint64_t tag;
    uint32_t length;
    unsigned formats, action;
    int crsolnt, losolnt;
    uint8_t target[16];
};

size_t build_login(uint8_t *msg, const struct login *l);
size_t build_command(uint8_t *msg, const struct request *r);
size_t build_task(uint8_t *msg, const struct request *r, uint8_t function, uint64_t managed);
size_t build_cred_rsp(uint8_t *msg, uint64_t tag);
size_t build_i_logout(uint8_t *msg);

/* The table that a direction's descriptor names, as it lies in the initiator's memory. */
size_t build_table(uint8_t *table, const struct side *s);

#endif
