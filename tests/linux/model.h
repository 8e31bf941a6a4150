/*
 * What the papers say of one channel: its credit, its open commands and which of them wait for their tables, the moves,
 * pieces and residuals of a direction, the line of the moves, a login's rejection. Written from them alone.
 */
#ifndef MODEL_H
#define MODEL_H

#include <stddef.h>
#include <stdint.h>

enum { MOST_SEGMENTS = 32, MOST_COMMANDS = 16, LONGEST_TABLE = 512 };

struct segment {
    uint64_t address;
    uint32_t handle, length;
};

/* One direction of a command: its descriptor's format, the copies in the message, the table; R, h and the bytes handed
 * out, each as often as it was; and of the current move the bytes left, from `at` up to `end`, and its operations. */
struct side {
    unsigned format, copies, entries;
    uint64_t table_address;
    uint32_t table_handle, table_length, total;
    struct segment segments[MOST_SEGMENTS];
    uint32_t required, highest;
    uint64_t handed;
    uint32_t at, end, operations;
};

struct request {
    uint64_t tag, lun;
    unsigned notification; /* UCSOLNT and SCSOLNT as in byte 1 */
    unsigned more_cdb;     /* n */
    int waiting, planned;
    struct side out, in;
    uint8_t tables[2][LONGEST_TABLE]; /* out, in, as they lie in the initiator's memory */
    int bad;                          /* a field, in the message or in a table */
};

/* A move in line, by its command's tag and its direction. */
struct place {
    uint64_t tag;
    int in;
};

struct channel {
    uint32_t longest_piece, agreed;
    uint64_t boundary;
    unsigned formats;
    int crsolnt, losolnt, open, unanswered;
    int64_t wanted, announced;
    unsigned held;
    struct request commands[MOST_COMMANDS]; /* in the order of taking */
    struct place line[2 * MOST_COMMANDS];
    unsigned moves;
    uint64_t ended[MOST_COMMANDS]; /* tags of the last that ended */
    unsigned endings;
};

/* B, and the bytes of a table that are to be fetched; whether a command has a fetch, in either direction. */
uint32_t buffer_length(const struct side *s);
uint32_t fetched_length(const struct side *s);
int has_fetch(const struct request *r);

/* min(R, B), where moves end; a move is named. */
uint32_t data_length(const struct side *s);
void name_move(struct side *s, uint32_t offset, uint32_t count);

/* The next piece of the current move, 0 where none is left; it is handed out. `left` is of its segment, behind it. */
struct piece {
    uint64_t address;
    uint32_t handle, length, offset, left;
};
int next_piece(const struct side *s, const struct channel *c, struct piece *p);
void hand_out(struct side *s, const struct piece *p);

/* Whether more was required than B (1), or h stayed below it (-1); and by how much. */
int residual(const struct side *s, uint32_t *count);

int64_t owed(const struct channel *c);

/* A request is taken; so many end, and what a message then carries as its delta. */
void begin_request(struct channel *c);
uint32_t delta_after(struct channel *c);

/* A move joins the line at its end; where it stands, -1 for nowhere; whether a command has one there; it leaves; the
 * first, if there is one, leaves. */
void join_line(struct channel *c, uint64_t tag, uint32_t in);
int in_line(const struct channel *c, uint64_t tag, uint32_t in);
int has_moves(const struct channel *c, uint64_t tag);
void leave_line(struct channel *c, uint64_t tag, uint32_t in);
int first_in_line(struct channel *c, struct place *first);

/* The open command with a tag, or NULL; one that ends, which leaves the others, and those in line, in their order. */
struct request *find(struct channel *c, uint64_t tag);
void drop(struct channel *c, struct request *r);

/* Whether an older command and a younger one are open; whether the tag is one of the last 16 that ended. */
int is_between(const struct channel *c, const struct request *r);
int ended_before(const struct channel *c, uint64_t tag);

#endif
