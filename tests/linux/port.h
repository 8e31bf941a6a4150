/* The port under test, and what is common to its calls: lent buffers, answers, counters, the listing. */
#ifndef PORT_H
#define PORT_H

#include "generate.h"
#include "model.h"
#include "srp_target.h"

struct port {
    uint64_t words[SRP_PORT_WORDS];
    uint8_t store[SRP_STORE_BYTES];
    uint8_t msg[SRP_LONGEST_AGREED + 16];
    size_t msg_len;
    uint8_t buf[SRP_MESSAGE_BYTES + 8];
    uint64_t answer[SRP_ANSWER_WORDS];
};

extern struct port port;

/* Before a call: buf and answer hold what no call writes. After it: the words of the answer, the bytes of buf kept. */
void lend(void);
void answered(const char *name, const uint64_t *words);
void kept_from(const char *name, size_t len);

/* Takes the message and has it traced. */
uint32_t take_message(void);

/* The port's counters and its listing are the model's. */
void agree(struct channel *c);

#endif
