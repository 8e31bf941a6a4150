/* What happens on a channel, each event with its message built or decoded and compared. */
#ifndef EVENTS_H
#define EVENTS_H

#include "model.h"

/* A login that is accepted, after any that are rejected. */
void open_channel(struct channel *c);

/* Each does nothing where the channel's state has no place for it. */
void new_command(struct channel *c);
void bad_command(struct channel *c);
void bring_one(struct channel *c);
void plan_one(struct channel *c);
void move_some(struct channel *c);
void move_all(struct channel *c);
void step_some(struct channel *c);
void turn_some(struct channel *c);
void finish_one(struct channel *c);
void manage(struct channel *c);
void change_buffers(struct channel *c);
void grant_credit(struct channel *c);
void answer_grant(struct channel *c);

/* The piece that was answered lies between two multiples of the boundary. */
void judge_piece(const struct channel *c, const struct side *s, const struct piece *p);

/* The message in port.buf is the SRP_RSP to a request that has ended, with RSP_CODE 02h. */
void is_bad_rsp(struct channel *c, const char *name, const struct request *r);

/* The channel ends: the initiator's logout, the owner's close, or a message that draws a logout. */
void end_channel(struct channel *c);

#endif
