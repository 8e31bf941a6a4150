/* Arbitrary logins and commands, and ways to spoil a command's fields. */
#ifndef GENERATE_H
#define GENERATE_H

#include "build.h"
#include "model.h"

struct settings {
    uint32_t buffers, longest_piece, longest_message;
    uint64_t boundary;
    int indirect, solicited;
    uint8_t own[16];
};

/* Lawful ones; a boundary that is not. */
void any_settings(struct settings *s);
uint64_t bad_boundary(void);
void any_login(struct login *l, const struct settings *s);

/* The reason of its rejection, 0 where it is accepted. */
uint32_t rejection(const struct login *l, const struct settings *s);

/* A request with a tag that is not open; a command without a bad field that fits the channel's agreed length. */
void any_request(struct request *r, struct channel *c);
void any_command(struct request *r, struct channel *c);

/* An open command, or NULL. */
struct request *any_open(struct channel *c);

/* A lawful R, of any size; a move, lawful or not. */
uint32_t any_required(const struct side *s);
void any_move(const struct side *s, uint32_t *offset, uint32_t *count);

/* Gives one direction a bad field, in the message or in its table; 0 where it has none to spoil. */
int spoil(struct side *s, uint8_t *table);

#endif
