/* Messages that the port wrote, decoded with Linux's structs and compared field by field; and their lines. */
#ifndef DECODE_H
#define DECODE_H

#include <stddef.h>
#include <stdint.h>

struct login_answer {
    uint32_t buffers, reason, length;
    uint64_t tag;
    unsigned formats;
    int solicited;
};
void is_login_rsp(const uint8_t *msg, size_t len, const struct login_answer *a);
void is_login_rej(const uint8_t *msg, size_t len, const struct login_answer *a);

struct response {
    uint64_t tag;
    uint32_t delta;
    int solnt;
    uint8_t status, flags, code;
    int has_code;
    uint32_t out, in;
    const uint8_t *sense;
    uint32_t sense_len;
};
void is_rsp(const char *name, const uint8_t *msg, size_t len, const struct response *r);

void is_cred_req(const uint8_t *msg, size_t len, int solnt, uint32_t delta);
void is_t_logout(const char *name, const uint8_t *msg, size_t len, int solnt, uint32_t reason);

#endif
