/*
 * Each call of the header with its arguments lent from guarded memory, and what is compared after it: the number
 * returned, the answer, the message in the lent buffer, the port's words, and that all other memory is as it was.
 */
#ifndef CALLS_H
#define CALLS_H

#include "lent.h"
#include "messages.h"
#include "srp_target.h"

/* The port's words after a call: as they were; others; any, the state perhaps as before; those of a closed port. */
enum words_after { SAME, OTHER, ANY, CLOSED };

struct after {
    enum words_after port;
    uint64_t answer[SRP_ANSWER_WORDS];
    const uint8_t *message; /* where one is written: answer[0] bytes */
};

/* After a refusal that alters nothing. */
#define NOTHING ((struct after){SAME, {0}, NULL})

/* Settings of a login, in their order. */
#define SETTINGS_OF(...) ((const uint32_t[SRP_SETTINGS]){__VA_ARGS__})

extern const uint8_t own_identifier[16];

void look(const char *name, uint32_t number, const uint8_t *answer, struct bytes msg, uint32_t agreed,
          uint32_t formats, size_t buf_len);
void cut(const char *name, uint32_t number, const uint8_t *answer, struct bytes list, uint32_t m, uint64_t q,
         uint32_t r, uint32_t handed, size_t buf_len);

/* The line expected has its line feed, and is NULL for a refusal. */
void trace(const char *name, uint32_t number, const char *line, struct bytes msg, uint32_t direction, size_t buf_len);
void format_counts(const char *name, uint32_t number, uint64_t pass, uint64_t out, uint64_t in, uint32_t formats);

/* The words of the port are arbitrary before a login. */
void login(const char *name, uint32_t number, struct after after, const uint32_t *settings, uint64_t boundary,
           struct bytes msg, size_t buf_len);
void take(const char *name, uint32_t number, struct after after, struct bytes msg, size_t buf_len);
void tables(const char *name, uint32_t number, struct after after, uint64_t tag, struct bytes out, struct bytes in,
            size_t buf_len);
void plan(const char *name, uint32_t number, uint64_t tag, uint32_t r_out, uint32_t r_in);
void move(const char *name, uint32_t number, uint64_t tag, uint32_t direction, uint32_t offset, uint32_t count);
void step(const char *name, uint32_t number, struct after after, uint64_t tag, uint32_t direction);
void turn(const char *name, uint32_t number, struct after after);
void finish(const char *name, uint32_t number, struct after after, uint64_t tag, uint8_t status, struct bytes sense,
            size_t buf_len);
void add(const char *name, uint32_t number, uint32_t k);
void withdraw(const char *name, uint32_t number, uint32_t k);
void grant(const char *name, uint32_t number, struct after after, size_t buf_len);
void close_channel(const char *name, uint32_t number, struct after after, uint32_t reason, size_t buf_len);
void counters(const char *name, uint32_t number, uint64_t w, uint64_t a, uint64_t h, int64_t d);

/* The records expected, in their order. */
void list(const char *name, uint32_t number, size_t words, size_t count, const uint64_t (*records)[SRP_RECORD_WORDS]);

/* Calls that leave little to say: a port opened with N and M, perhaps with Q, a command taken that does not wait, one
 * that does, its tables brought, a move that may have no bytes, a plan with a move each way of offset 0 and count R, a
 * piece, done, the piece of a turn, idle, an end with status 0. */
void opened(uint32_t n, uint32_t m);
void opened_with(uint32_t n, uint32_t m, uint64_t boundary);
void taken(const char *name, struct bytes msg);
void waits(const char *name, struct bytes msg);
void brought(const char *name, uint64_t tag, struct bytes out, struct bytes in);
void named(const char *name, uint64_t tag, uint32_t direction, uint32_t offset, uint32_t count);
void planned(const char *name, uint64_t tag, uint32_t r_out, uint32_t r_in);
void piece(const char *name, uint64_t tag, uint32_t direction, uint64_t handle, uint64_t address, uint64_t length,
           uint64_t offset, uint64_t number);
void done(const char *name, uint64_t tag, uint32_t direction, uint64_t number);
void served(const char *name, uint64_t tag, uint32_t direction, uint64_t handle, uint64_t address, uint64_t length,
            uint64_t offset, uint64_t number);
void idle(const char *name);
void finished(const char *name, uint64_t tag, uint32_t delta, struct residuals residuals);

#endif
