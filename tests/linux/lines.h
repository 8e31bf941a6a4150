/* The lines of srp_trace, beside those that snprintf makes of a message's fields in Linux's structs. */
#ifndef LINES_H
#define LINES_H

#include <stddef.h>
#include <stdint.h>

enum { TO_PORT = 0, FROM_PORT = 1 };

/* The message's line is that of its fields. It names this type; NULL where the caller cannot know which. */
void traced(const char *name, const char *type, const uint8_t *msg, size_t len, uint32_t direction);

/* In each round a message of each type, with arbitrary fields, and some that are UNKNOWN. */
void trace_messages(unsigned rounds);

#endif
