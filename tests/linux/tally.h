/* Comparisons, and how often each kind of case came up. */
#ifndef TALLY_H
#define TALLY_H

#include <stddef.h>
#include <stdint.h>

enum tally {
    /* messages decoded */
    LOGIN_RSPS, LOGIN_REJS, FINISHED, TASK_ANSWERS, BAD_FIELDS, CRED_REQS, HANG_UPS, CLOSINGS,
    /* of those of finish */
    WITH_SENSE, OUT_OVER, OUT_UNDER, IN_OVER, IN_UNDER, NO_RESIDUAL, BELOW_HANDED, ABOVE_HANDED,
    /* messages built that are no command; descriptors and additional CDBs of commands */
    LOGIN_REQS, TASKS, CRED_RSPS, I_LOGOUTS, DIRECT, INDIRECT_WHOLE, INDIRECT_FETCHED, BOTH_WAYS, LONG_CDBS,
    /* moves, and those refused */
    EMPTY_MOVES, MIDDLE_FIRST, BACKWARDS, PAST_2_32, TRIMMED, MOVES_UNPLANNED, MOVES_ABOVE, MOVES_UNFINISHED,
    /* lines of srp_trace, by the type that they name */
    LINES_LOGIN_REQ, LINES_TSK_MGMT, LINES_CMD, LINES_I_LOGOUT, LINES_CRED_RSP, LINES_T_LOGOUT, LINES_CRED_REQ,
    LINES_LOGIN_RSP, LINES_RSP, LINES_LOGIN_REJ, LINES_UNKNOWN,
    /* of those: a number above 99,999, an RSP_CODE, counts that a port refuses; why a message is UNKNOWN */
    STARS, RSP_CODES, COUNTS_ABOVE_32, OTHER_LENGTHS, OTHER_FORMATS, WRAPPED_SENSES, EVENT_REPORTS,
    /* answers; pieces that a boundary ended, and those from one multiple to the next; logins with a bad one */
    PIECES, DONES, LISTED, UP_TO_BOUNDARY, BETWEEN_BOUNDARIES, BAD_BOUNDARIES,
    /* commands with a tag used again; some that end with an older and a younger one open */
    TAGS_AGAIN, FINISHED_BETWEEN, ABORTED_BETWEEN,
    /* commands that wait; tables brought, some before those of an older command, and refused; what else befalls */
    WAITING, TABLES, TABLES_EARLY, TABLES_LENGTH, TABLES_BAD, TABLES_READY, TABLES_NOT_OPEN, CALLS_WAITING,
    ABORTED_WAITING,
    /* turns: idle, put back, the last piece; a step's last piece, by where its move stood in line */
    IDLE_TURNS, IDLE_CHANNELS, PUT_BACK_BEHIND, PUT_BACK_ALONE, LAST_BY_TURN, LAST_OF_FIRST, LAST_BETWEEN, LAST_OF_LAST,
    /* commands that end with a move in line */
    FINISHED_IN_LINE, ABORTED_IN_LINE,
    TALLIES
};

void count(enum tally t);

/* A field of a message, or a word of an answer, and what it must be. */
void same(const char *message, const char *field, uint64_t got, uint64_t wanted);
void same_bytes(const char *message, const char *field, const void *got, const void *wanted, size_t len);
void same_text(const char *message, const char *field, const char *got, const char *wanted, size_t len);
void all_zero(const char *message, const char *field, const void *got, size_t len);

/* Prints the result; the program's exit status: 1 where a comparison failed or a tally is below `least`. */
int tell(unsigned exchanges, unsigned least);

#endif
