/*
 * SRP target port, one channel: its calls from C. Static library libexports.a, x86-64. Of the C library it needs
 * memcpy, memmove, memset and memcmp at most.
 *
 * The owner calls. It has the adapter, the device server and the memory. A port is SRP_PORT_WORDS words and a store of
 * SRP_STORE_BYTES bytes, both lent by the owner. srp_look, srp_cut, srp_trace and srp_format_counts need no port.
 *
 * True of every function below:
 *   - It returns 0, or the number of its refusal: the first that hits, in the order given beside it. (srp_target_words
 *     returns a number of words.)
 *   - It keeps no pointer past the call, has no state of its own, reads nothing but its arguments and what they point
 *     to, and writes nothing but what its data sheet names.
 *   - The caller owes memory, aligned for its type. A pointer with a length behind it leads to as many elements as the
 *     length says; port to SRP_PORT_WORDS words, store to SRP_STORE_BYTES bytes, settings, own and answer to as many
 *     elements as they are declared with. What is pointed to without const overlaps no other argument. A pointer may
 *     be NULL only where its length is 0. Nothing here can check this.
 *   - It has no other precondition: every value of every argument, and every content, has its outcome. Any words are a
 *     port, any bytes a store. Words that are all 0 are a closed port, and a call that closes a port leaves them so.
 *   - Calls on different ports, and on none, may run at the same time. Calls on one port are made one after the other,
 *     srp_target_counters and srp_target_list too, and nobody else writes its words or its store between them: the
 *     owner sees to that. A port holds no address: words and store may be copied elsewhere together.
 *   - A refusal alters nothing: port, store, buf and records are as they were. There are three exceptions, as said
 *     beside the calls: srp_target_login always writes the port, and some refusals of srp_target_take, and refusal 10
 *     of srp_target_tables, come with a message.
 *   - answer is written whole by every call that has one. Words that its data sheet does not name are 0. After a
 *     refusal that alters nothing all eight are 0.
 *   - A message is written from byte 0 of buf on. Every other byte of buf is as it was. Calls that can write a message
 *     want a buf_len of at least 132 each time, also when they write none.
 *
 * What the owner does:
 *   - It takes messages from the initiator in the order in which they came, and sends messages in the order of the
 *     calls that wrote them, with a solicited event where the adapter has them and SOLNT (byte 1 bit 0) is 1. A buf
 *     may be lent again when its message has been sent.
 *   - A command that waits for its tables, as srp_target_take says of it, has the fetches that srp_look names for its
 *     message. They are RDMA Reads, for data-in too; where the adapter has a boundary, the owner splits a Read that
 *     would cross it. Meanwhile further messages are taken, and other commands carried out and fetched for: the
 *     fetches of all commands may be under way side by side. When those of a command are complete:
 *     srp_target_tables, by its tag, whichever command was taken first.
 *   - A fetch that was started for a command which then ended, by an abort or a closed channel, is the owner's to
 *     stop, and its table is brought no more: a command is known by its tag alone, and the tag may be used again.
 *   - Where a fetch fails, no call ends its command with a status: srp_target_finish draws 33 while it waits. The owner
 *     leaves it open, held and listed, until a task request aborts it; or brings F bytes of FFh for the table, which
 *     draw 10 whatever the message says (srp_target_take has what Linux's initiator makes of 10); or closes the
 *     channel.
 *   - For a command taken that does not wait, or not any more: srp_target_plan; then for each part of its data, in the
 *     order in which the device has them, srp_target_move, and srp_target_step in that direction until done, each piece
 *     posted as the RDMA operation that the answer names; then srp_target_finish. One move of offset 0 and count R is
 *     all of a direction.
 *   - An owner with moves of several commands may call srp_target_turn instead of srp_target_step, or now and then: it
 *     picks the next piece among all of them, each in its turn, and says whose it is. A move is done with the piece
 *     that ends at the move's end.
 *   - Each piece needs a slot of the adapter until its operation is complete; the slots are common to the moves of all
 *     commands and to the fetches of tables. A move of k bytes has at most 32 + k / M pieces, rounded down, with a
 *     boundary Q another 32 + k / Q at most, and as few as can be: srp_target_step says more. An owner with fewer slots
 *     asks for the next piece when slots are free again. Bytes that are named in two moves instead of one can cost one
 *     piece more.
 *   - The port does not know EMDP (mode page 02h, byte 12 bit 7). While it is 0, each move in a direction starts at or
 *     behind the end of the one before it.
 *   - Data-out: RDMA Reads complete in any order. Wait for each Read's completion before its data are used. The port
 *     knows of pieces handed out, not of completions.
 *   - Data-in: post the RDMA Writes before the response is sent, on the same channel. The initiator then has the data
 *     when it has the response.
 *   - Once the channel is closed, its open commands are dropped and get no response. Operations already posted for
 *     them are the owner's to stop. For the device server it is the loss of the I_T nexus.
 *
 * Credit, in receive buffers: W wanted, A announced and unused, H held (commands open), D owed; A + H + D = W. D is
 * negative after a withdrawal of buffers that are announced already. Each SRP_RSP and SRP_CRED_REQ carries a delta,
 * the larger of D and 0, which moves from D to A. A request is an SRP_CMD or an SRP_TSK_MGMT.
 *
 * B of a direction is the sum of its segments' lengths, R the length that the SCSI command requires, h the highest
 * offset handed out + 1, 0 where nothing was: it never falls. Numbers in messages, in tables and in the answers of
 * srp_look and srp_cut are big-endian, those in words the processor's own. Bit 0 is the lowest. An h behind digits
 * marks hexadecimal. A memory descriptor has 16 bytes: address in 0-7, handle in 8-11, length in 12-15.
 */
#ifndef SRP_TARGET_H
#define SRP_TARGET_H

#include <stddef.h>
#include <stdint.h>

#ifdef __cplusplus
extern "C" {
#endif

/* The version of this interface. In version 0 there were no moves: after srp_target_plan, step served all the data.
 * Version 2 has srp_trace; all else is as in version 1. There was no version 3: each version is named after the job of
 * document 02 that changed the interface, and job 3 did not. Version 4 has the number of pieces in the answer of
 * srp_target_step, where version 2 has 0; all else is as in version 2. Version 5 promises that the open commands are
 * listed oldest first, where version 4 promises no order; their libraries are the same. Version 6 has address
 * boundaries: srp_target_login and srp_cut take one argument more, and where it is 0 all else is as in version 5.
 * Version 7 has commands that wait for their tables: srp_target_take is lent none and has a word more in its answer,
 * srp_target_tables is new, and draws the refusals 9 and 10 of such commands; all else is as in version 6. Version 8
 * has turns: srp_target_turn is new, and a port has 594 words instead of 528; all else is as in version 7. But for
 * versions 4 and 5, the words that a library of one version made are not promised to be a port of another. */
#define SRP_TARGET_VERSION 8

/* Refusals: from the message or the caller. */
#define SRP_REFUSED_SHORT_BUFFER 1  /* lent buffer too short */
#define SRP_REFUSED_SETTING      2  /* setting out of range */
#define SRP_REFUSED_LENGTH       3  /* message under 16 bytes, over the agreed length, or not of its type's length */
#define SRP_REFUSED_OTHER_TYPE   4  /* message of another type */
#define SRP_REFUSED_OUT_FORMAT   5  /* out format not agreed */
#define SRP_REFUSED_IN_FORMAT    6  /* in format not agreed */
#define SRP_REFUSED_OUT_COUNT    7  /* out count above 32, or more copies than the table's length holds */
#define SRP_REFUSED_IN_COUNT     8  /* in count, likewise */
#define SRP_REFUSED_TABLE_LENGTH 9  /* lent table not of the fetched length */
#define SRP_REFUSED_FIELDS       10 /* bad fields */
#define SRP_REFUSED_ARGUMENT     11 /* argument bad */

/* Refusals: from what went before. */
#define SRP_REFUSED_CLOSED          21 /* channel closed */
#define SRP_REFUSED_NO_CREDIT       22 /* request with A = 0 */
#define SRP_REFUSED_TAG_OPEN        23 /* request with the tag of an open command */
#define SRP_REFUSED_TAG_NOT_OPEN    24 /* no open command has the tag */
#define SRP_REFUSED_CREDIT_RESPONSE 25 /* SRP_CRED_RSP unexpected, or with another tag */
#define SRP_REFUSED_UNANSWERED      26 /* the last SRP_CRED_REQ is unanswered */
#define SRP_REFUSED_NOT_OWED        27 /* D not above 0 */
#define SRP_REFUSED_WANTED          28 /* W would leave 1 to 16 */
#define SRP_REFUSED_UNPLANNED       29 /* move or step before plan */
#define SRP_REFUSED_PLANNED         30 /* planned already */
#define SRP_REFUSED_OFFSET          31 /* offset above min(R, B) */
#define SRP_REFUSED_UNFINISHED      32 /* the direction's earlier move still has pieces */
#define SRP_REFUSED_WAITING         33 /* the command waits for its tables; or tables, and it does not */

/* Sizes: of a port, of the answers, of lent buffers and lists. */
#define SRP_PORT_WORDS    594   /* words of a port */
#define SRP_STORE_BYTES   16384 /* bytes of a port's store */
#define SRP_ANSWER_WORDS  8     /* words of an answer of the calls on a port and of srp_format_counts */
#define SRP_ANSWER_BYTES  32    /* bytes of an answer of srp_look and srp_cut, and their least buf_len */
#define SRP_TRACE_BYTES   81    /* bytes of a line of srp_trace, and its least buf_len */
#define SRP_MESSAGE_BYTES 132   /* the longest message that a port writes, and the least buf_len for one */
#define SRP_SENSE_BYTES   96    /* the longest sense */
#define SRP_TABLE_BYTES   512   /* the longest table of memory descriptors */
#define SRP_RECORD_WORDS  4     /* words of a record of a listing */
#define SRP_LIST_WORDS    64    /* the least words of a listing: 16 records */

/* The settings of a login, and their ranges. */
#define SRP_SETTING_BUFFERS   0 /* N */
#define SRP_SETTING_PIECE     1 /* M */
#define SRP_SETTING_LENGTH    2 /* X */
#define SRP_SETTING_INDIRECT  3
#define SRP_SETTING_SOLICITED 4
#define SRP_SETTINGS          5
#define SRP_MOST_BUFFERS      16      /* N and W are 1 to this */
#define SRP_LONGEST_PIECE     1048576 /* M is 1 to this */
#define SRP_SHORTEST_AGREED   64      /* X and an agreed length are from this */
#define SRP_LONGEST_AGREED    1364    /* to this */

/* The boundary of a login and of the cut, Q: 0 for none, or a power of two. */
#define SRP_LEAST_BOUNDARY    512        /* from this */
#define SRP_GREATEST_BOUNDARY 4294967296 /* to this, 2^32 */

/* Formats of data buffer descriptors, as bits of a login's required formats. */
#define SRP_FORMAT_BIT_DIRECT   0x0002
#define SRP_FORMAT_BIT_INDIRECT 0x0004

/* Reasons of SRP_LOGIN_REJ. */
#define SRP_REJECTED_NO_REASON 0x00010000 /* length under 64, or channel action 2 or 3 */
#define SRP_REJECTED_LENGTH    0x00010002 /* length above X */
#define SRP_REJECTED_TARGET    0x00010003 /* another target identifier */
#define SRP_REJECTED_FORMATS   0x00010004 /* a format that is not supported */
#define SRP_REJECTED_CHANNELS  0x00010005 /* channel action 1: several channels */

/* Reasons of SRP_T_LOGOUT when srp_target_take closes the channel. */
#define SRP_LOGOUT_NO_REASON  0 /* after 3, 4, 22, 23 and 25 */
#define SRP_LOGOUT_OUT_FORMAT 6 /* after 5 */
#define SRP_LOGOUT_IN_FORMAT  7 /* after 6 */
#define SRP_LOGOUT_OUT_COUNT  8 /* after 7 */
#define SRP_LOGOUT_IN_COUNT   9 /* after 8 */

/* What srp_target_take took: answer[1]. */
#define SRP_KIND_REFUSED         0
#define SRP_KIND_COMMAND         1
#define SRP_KIND_TASK            2
#define SRP_KIND_CREDIT_RESPONSE 3
#define SRP_KIND_LOGOUT          4

/* Directions, and the operations of their pieces. */
#define SRP_DIRECTION_OUT 0
#define SRP_DIRECTION_IN  1
#define SRP_RDMA_READ     1 /* data-out */
#define SRP_RDMA_WRITE    2 /* data-in */

/*
 * The number of words of a port in the library that is linked: SRP_PORT_WORDS. It has no refusal.
 */
uint64_t srp_target_words(void);

/*
 * Login: makes a port from the first message of a channel, and writes the message that answers it.
 *
 *   port           the port to be made; what it held is not used. The store is not touched and needs no clearing
 *   settings       N          receive buffers for requests, 1 to 16, each of X bytes. SRP_CRED_RSP and SRP_I_LOGOUT
 *                             use no credit: the adapter has a receive buffer for each of the two beside these.
 *                             Linux's initiator keeps one credit for task management: with N = 1 it sends no command
 *                  M          the longest RDMA operation, 1 to 1,048,576 bytes, for the whole channel: what the
 *                             adapter moves in one, or the MAXIMUM BURST SIZE if that is less (mode page 02h, in
 *                             units of 512 bytes, 0 for no limit)
 *                  X          the longest message, 64 to 1,364 bytes; no command that can be taken is longer. Linux's
 *                             initiator requests 8,260 and is rejected, unless ib_srp has use_imm_data=N
 *                             or max_it_iu_size=1364
 *                  indirect   0 where format 2 is not supported, else it is
 *                  solicited  0 where the adapter has no solicited events; else SRP_LOGIN_RSP has SOLNTSUP (byte 26
 *                             bit 4). Nothing else depends on it: SOLNT bits are written either way
 *   boundary       Q, for the whole channel: by its addresses no RDMA operation that srp_target_step or
 *                  srp_target_turn names crosses a multiple of it. A power of two from 512 to 2^32, where the adapter
 *                  fails an operation that crosses one; 0 for none
 *   own            the target port identifier
 *   msg, msg_len   the message, an SRP_LOGIN_REQ of 64 bytes. Over RDMA/CM Linux sends 56 of them, in another order:
 *                  the adapter restores the 64
 *   buf, buf_len   where the message goes
 *
 * Refusals, in the order of checking:
 *    1  buf_len under 132
 *    2  N outside 1 to 16, M outside 1 to 1,048,576, X outside 64 to 1,364, or boundary neither 0 nor a power of two
 *       from 512 to 2^32
 *    3  msg_len not 64
 *    4  byte 0, the type, other than 00h
 * Then the login is rejected, with the reason of the first that fits:
 *   0001 0000h  requested length (bytes 16-19) under 64
 *   0001 0002h  requested length above X
 *   0001 0004h  a bit of the required formats (bytes 24-25) set other than 1, and 2 if indirect
 *   0001 0005h  channel action (byte 26 bits 1-0) 1
 *   0001 0000h  channel action 2 or 3
 *   0001 0003h  target port identifier (bytes 48-63) other than own
 *
 *              returned   answer       port after                   buf after
 *   accepted   0          52, 0        open, W = A = N, H = D = 0   SRP_LOGIN_RSP
 *   rejected   0          32, reason   closed                       SRP_LOGIN_REJ
 *   refused    1 to 4     0, 0         closed                       as it was
 *
 * The owner keeps, for srp_look, the agreed length, which is the requested length, and the agreed formats, which are
 * the required formats. After a rejection it sends the message and makes no connection; after a refusal it makes none.
 */
uint32_t srp_target_login(uint64_t *port, const uint32_t settings[5], uint64_t boundary, const uint8_t own[16],
                          const uint8_t *msg, size_t msg_len, uint8_t *buf, size_t buf_len, uint64_t answer[8]);

/*
 * Take: a message from the initiator, after the login. It is lent no table: a command for which srp_look names a fetch,
 * in either direction, is taken all the same, and waits for its tables.
 *
 *   port, store    the port
 *   msg, msg_len   the message
 *   buf, buf_len   where a message goes
 *
 * Refusals, in the order of checking:
 *    1  buf_len under 132
 *   21  channel closed
 *    3  msg_len under 16 or above the agreed length
 *    4  byte 0, the type, other than 01h (SRP_TSK_MGMT), 02h (SRP_CMD), 03h (SRP_I_LOGOUT) and 41h (SRP_CRED_RSP)
 *    3  msg_len not 48 for an SRP_TSK_MGMT, not 16 for an SRP_I_LOGOUT or SRP_CRED_RSP, under 48 for an SRP_CMD
 *    5, 6, 3, 7, 8   SRP_CMD: as srp_look has them
 *   22  SRP_CMD, SRP_TSK_MGMT: A = 0
 *   23  SRP_CMD, SRP_TSK_MGMT: its own tag (bytes 8-15) is that of an open command
 *   25  SRP_CRED_RSP: no SRP_CRED_REQ is unanswered, or a tag other than 1
 *   10  SRP_CMD without a fetch: in either direction a table's length not a multiple of 16 from 16 to 512; a total
 *       length unlike the sum of the segments' lengths; a segment with address + length above 2^64 (equal is fine).
 *       With a fetch srp_target_tables judges all that, of both directions
 *
 *   returned            answer                                after the call
 *   0, a command        0, 1, tag, LUN, 32, CDB's length, w   the command is open: A - 1, H + 1
 *   0, a task request   40, 2, tag, LUN                       it is carried out and answered: buf has its SRP_RSP
 *   0, SRP_CRED_RSP     0, 3                                  the SRP_CRED_REQ is answered; W, A, H and D as they were
 *   0, SRP_I_LOGOUT     0, 4                                  the port is closed
 *   3 to 8, 22, 23, 25  16                                    the port is closed: buf has an SRP_T_LOGOUT with tag 0
 *   10                  40                                    the command is answered: buf has its SRP_RSP
 *   1, 21               0                                     all is as it was
 * Where no message is named, buf is as it was. Unless a command was taken every byte of the store is as it was; a
 * command taken changes the bytes of its own place there, 1,024 that no other open command uses, and no other byte.
 *
 * Command: the whole CDB is part of msg, from byte 32 on, 16 + 4n long; n is byte 31 bits 7-2. What the port needs of
 * msg it has copied: msg may be lent again when the owner is done with the CDB and srp_look has named the fetches, also
 * while the command waits.
 *
 * w is 1 where the command waits for its tables, else 0. A command that waits is open: it counts as held from here on,
 * a request with its tag draws 23, it is listed, with 0 bytes each way, and it can be aborted. Until srp_target_tables
 * has brought its tables, srp_target_plan, srp_target_move, srp_target_step and srp_target_finish draw 33.
 *
 * Task request, by its function (byte 30): 01h aborts the open command with the task tag (bytes 32-39) and the LUN;
 * 02h, 04h and 08h abort all open commands of the LUN. They answer RSP_CODE 00h, also where nothing was open; 40h
 * answers 04h, any other value 02h. An aborted command gets no response, its tag is not open any more, and its moves
 * leave the line of srp_target_turn; which commands are left, srp_target_list shows. A - 1; D + 1 for the task request
 * and for each command aborted; then the delta.
 *
 * Refusal 10: the answer has RSP_CODE 02h. A - 1, D + 1, then the delta. The command was never open.
 *
 * What the owner does next:
 *   a command           carries it out, as said at the top
 *   a command, w = 1    starts its fetches and takes the next message; srp_target_tables when they are complete
 *   a task request      sends the message; operations and fetches posted for aborted commands are its own to stop
 *   SRP_I_LOGOUT        disconnects
 *   3 to 8, 22, 23, 25  sends the message, waits until it is sent, disconnects: Linux's initiator heeds the disconnect
 *                       alone. The reason is 0, but 6, 7, 8, 9 after 5, 6, 7, 8
 *   10                  sends the message. Linux's initiator does not heed RSP_CODE in a command's response: it sees
 *                       status GOOD
 *   1                   takes the message again, with a longer buffer: it is still to be taken
 *   21                  drops the message
 */
uint32_t srp_target_take(uint64_t *port, uint8_t *store, const uint8_t *msg, size_t msg_len, uint8_t *buf,
                         size_t buf_len, uint64_t answer[8]);

/*
 * Tables: brings a command that waits for them its tables, of both directions in one call. Commands may get theirs in
 * any order.
 *
 *   port, store    the port
 *   tag            the command's tag
 *   out, out_len   the table fetched for data-out, F bytes as srp_look names it; 0 bytes where it names none
 *   in, in_len     the table fetched for data-in, likewise
 *   buf, buf_len   where a message goes
 *
 * Refusals, in the order of checking:
 *    1  buf_len under 132
 *   21  channel closed
 *   24  tag not open
 *   33  the command does not wait: it had no fetch, or has its tables
 *    9  out_len or in_len other than F of its direction, whatever the tables hold
 *   10  in either direction, also in one without a fetch: a table's length not a multiple of 16 from 16 to 512; a copy
 *       in the message unlike its entry in the table; a total length unlike the sum of the segments' lengths; a segment
 *       with address + length above 2^64 (equal is fine)
 *
 *   returned            answer   after the call
 *   0                   0        the command has its segments and waits no more; W, A, H and D as they were
 *   10                  40       the command is answered and not open any more: buf has its SRP_RSP
 *   1, 9, 21, 24, 33    0        all is as it was: after 1 and 9 the command waits on
 * Where no message is named, buf is as it was. After 0 each table of F bytes stands in the command's place of the
 * store, and every byte of the other places is as it was; after a refusal every byte of the store is. The port keeps no
 * pointer to out and in: they may be lent again.
 *
 * After 0 the command is as one that take took without waiting: it can be planned, and nothing was handed out. Its age
 * in the listing counts from its take.
 *
 * Refusal 10: the answer has RSP_CODE 02h, and its SOLNT is the command's UCSOLNT (byte 1 bit 2 of the SRP_CMD). H - 1,
 * D + 1, then the delta.
 *
 * What the owner does next:
 *   0      carries the command out, as said at the top
 *   10     sends the message, as after 10 of srp_target_take
 *   1, 9   brings the tables again, with a longer buffer, or of the lengths that srp_look named
 *   24     drops the tables: the command was aborted
 *
 * Four commands, the fetches of three of them side by side; a[6] is the word w of take's answer:
 *   srp_target_take of tag 1     a[6] = 1: srp_look names a table for data-out, its Read is posted
 *   srp_target_take of tag 2     a[6] = 1: a table each way, two Reads are posted
 *   srp_target_take of tag 3     a[6] = 0: planned, moved and finished at once
 *   srp_target_take of tag 4     a[6] = 1: a table for data-in, its Read is posted
 *   the Reads of 4 complete      srp_target_tables of tag 4, out_len 0; then its plan, moves and finish
 *   a task request aborts 1      the Read under way is the owner's to stop; tag 1 draws 24
 *   the Reads of 2 complete      srp_target_tables of tag 2 with both tables
 */
uint32_t srp_target_tables(uint64_t *port, uint8_t *store, uint64_t tag, const uint8_t *out, size_t out_len,
                           const uint8_t *in, size_t in_len, uint8_t *buf, size_t buf_len, uint64_t answer[8]);

/*
 * Plan: states what an open command requires, once.
 *
 *   port    the port
 *   tag     the command's tag
 *   r_out   R of data-out, from the CDB
 *   r_in    R of data-in
 *
 * Refusals, in the order of checking:
 *   21  channel closed
 *   24  tag not open
 *   33  the command waits for its tables
 *   30  planned already
 *
 * After 0 moves of the first min(R, B) bytes of each direction can be named; none is yet, and step says done. R above
 * B is lawful, also where a direction has no descriptor.
 */
uint32_t srp_target_plan(uint64_t *port, uint64_t tag, uint32_t r_out, uint32_t r_in);

/*
 * Move: names the bytes of an open command in a direction that srp_target_step and srp_target_turn hand out next, from
 * offset up to the smaller of offset + count and min(R, B). The sum does not wrap at 2^32.
 *
 *   port        the port
 *   tag         the command's tag
 *   direction   0 out, else in
 *   offset      of the first byte in the command's data
 *   count       how many bytes
 *
 * Refusals, in the order of checking:
 *   21  channel closed
 *   24  tag not open
 *   33  the command waits for its tables
 *   29  not planned
 *   31  offset above min(R, B)
 *   32  the earlier move of this direction still has pieces
 *
 * After 0 it is the direction's current move, and the number in the answers of step and turn starts at 0. It joins the
 * line of srp_target_turn at its end. Moves may come in any order, overlap, and be repeated; h does not change until a
 * piece is handed out. A count of 0, or an offset of min(R, B), names no bytes and is lawful: step says done, and the
 * move joins no line.
 */
uint32_t srp_target_move(uint64_t *port, uint64_t tag, uint32_t direction, uint32_t offset, uint32_t count);

/*
 * Step: the next RDMA operation of an open command's current move in a direction, or done. Moves and steps of other
 * commands, and of the other direction, may stand between, and turns.
 *
 *   port, store   the port; the store is only read
 *   tag           the command's tag
 *   direction     0 out, else in
 *
 * Refusals, in the order of checking:
 *   21  channel closed
 *   24  tag not open
 *   33  the command waits for its tables
 *   29  not planned
 *
 * answer after 0, with a piece:   1, operation (1 RDMA Read, 2 RDMA Write), handle, address, length, offset, number
 * answer after 0, done:           0, 0, 0, 0, 0, 0, number
 * A piece is handed out by the call. The first starts at the move's offset, each other one behind the last. It is 1 to
 * M long, with the login's M and Q, and ends at the nearest of M bytes, its segment's end, the move's end and, where Q
 * is not 0, the next multiple of Q above its first address; its data stand at the offset in the command's data. So by
 * its addresses no piece crosses a multiple of Q, and one that starts at a multiple may be Q long; 2^64 counts as one.
 * Done comes when the current move has no bytes left, or none was named, and then each time again until another is; it
 * alters no word of the port. In the line of srp_target_turn the move keeps its place; its last piece takes it out.
 *
 * The number is how many pieces of the current move have been handed out, by steps and by turns, this one included: 1,
 * 2, 3 and so on. Done has that of the last piece, each time again, and 0 where the move has no bytes or none was
 * named. Each direction has its own. For a finished move it is the length of the list of its pieces. Then:
 *   - Every other list of operations that covers the same bytes in order, each inside one segment, at most M long and
 *     across no multiple of Q, has at least as many. Two segments that adjoin in memory are two: an operation over both
 *     is inside neither.
 *   - It is at most (segments with a byte in the move) + (bytes of the move / M, rounded down), so at most
 *     32 + (2^32 - 1) / M: 4,127 with M = 1,048,576. A segment of length 0 has no byte. Where Q is not 0, this grows by
 *     one for each multiple of Q strictly inside a segment's part of the move, which is the address of a byte of that
 *     part other than its first: by at most 32 + (bytes of the move / Q, rounded down).
 */
uint32_t srp_target_step(uint64_t *port, const uint8_t *store, uint64_t tag, uint32_t direction, uint64_t answer[8]);

/*
 * Turn: the next RDMA operation of whichever open command's turn it is, or idle. The moves that have pieces left stand
 * in a line, and a turn serves the first.
 *
 *   port, store   the port; the store is only read
 *
 * Refusals:
 *   21  channel closed
 *
 * answer after 0, with a piece:   1, operation (1 RDMA Read, 2 RDMA Write), handle, address, length, offset, number,
 *                                 tag
 * answer after 0, idle:           all eight 0
 * The operation tells the direction: an RDMA Read is data-out, an RDMA Write data-in. The piece is the one that
 * srp_target_step would hand out for that tag and direction, and the call hands it out as a step does; the number
 * counts the move's steps and turns together. Idle comes exactly where no move has a piece left; in words that no login
 * made, also where the first of the line has none. It alters no word of the port.
 *
 * The line:
 *   - A move that has a byte joins it at its end when srp_target_move names it. The two directions of a command are two
 *     moves, and each direction has one at a time: no move stands in it twice, and it has at most 32.
 *   - A turn takes the first move off, and puts it back at the end if pieces remain.
 *   - A step leaves the move where it stands. Where its piece is the move's last, the move leaves.
 *   - Both moves of a command leave when it ends: by srp_target_finish, by a task request, by refusal 10 of
 *     srp_target_tables. The others keep their order. A tag used again has no move in it until one is named.
 *   - A closed channel has none, and after a login it is empty.
 * A move in line is served within 32 turns unless it leaves before, whatever other calls stand between: within as many
 * turns as its place says. In any mix of turns and steps each command's operations are the same as by steps alone.
 *
 * Three moves, named in this order: tag 5 out with three pieces, tag 5 in with one, tag 9 in with two:
 *   srp_target_turn             5 out, number 1; put back behind 9 in
 *   srp_target_turn             5 in, number 1, its last
 *   srp_target_step of 5, out   number 2; its place, behind 9 in, stays
 *   srp_target_turn             9 in, number 1; put back behind 5 out
 *   srp_target_step of 5, out   number 3, its last: it leaves
 *   srp_target_turn             9 in, number 2, its last
 *   srp_target_turn             idle
 */
uint32_t srp_target_turn(uint64_t *port, const uint8_t *store, uint64_t answer[8]);

/*
 * Finish: ends an open command, planned or not, that does not wait for its tables, and writes its SRP_RSP.
 *
 *   port               the port
 *   tag                the command's tag
 *   status             the SCSI status, any
 *   sense, sense_len   sense data, up to 96 bytes, only with status 02h (CHECK CONDITION). The owner truncates longer
 *                      sense. Status 02h without sense is lawful
 *   buf, buf_len       where the message goes
 *
 * Refusals, in the order of checking:
 *    1  buf_len under 132
 *   21  channel closed
 *   11  sense_len above 96, or above 0 with a status other than 02h
 *   24  tag not open
 *   33  the command waits for its tables
 *
 * answer after 0: 36 + sense_len, the bytes of the message. The tag is not open any more, and moves of the command that
 * had pieces left leave the line of srp_target_turn: H - 1, D + 1, then the delta. Its residual in a direction: R above
 * B gives over, R - B; else h below B gives under, B - h, also where bytes below h were left out; else there is none,
 * and 0. Without a plan R is 0. SOLNT is the command's UCSOLNT (byte 1 bit 2 of the SRP_CMD) if status is not 0, else
 * its SCSOLNT (bit 1).
 */
uint32_t srp_target_finish(uint64_t *port, uint64_t tag, uint8_t status, const uint8_t *sense, size_t sense_len,
                           uint8_t *buf, size_t buf_len, uint64_t answer[8]);

/*
 * Add: k more receive buffers. They are there before the call.
 *
 * Refusals, in the order of checking:
 *   21  channel closed
 *   11  k = 0
 *   28  W + k above 16
 *
 * After 0: W + k, D + k. The initiator learns of them by the next SRP_RSP, or by srp_target_grant.
 */
uint32_t srp_target_add(uint64_t *port, uint32_t k);

/*
 * Withdraw: k fewer receive buffers.
 *
 * Refusals, in the order of checking:
 *   21  channel closed
 *   11  k = 0
 *   28  W - k below 1
 *
 * After 0: W - k, D - k. The initiator may still use what was announced: nothing takes it back, but while D is below 0
 * ended requests give no new credit. The buffers are free when D, as srp_target_counters has it, is 0 or more. With
 * W = 1, as with N = 1, Linux's initiator sends no command.
 */
uint32_t srp_target_withdraw(uint64_t *port, uint32_t k);

/*
 * Grant: writes an SRP_CRED_REQ with tag 1, which gives the initiator what it is owed without waiting for a response.
 *
 * Refusals, in the order of checking:
 *    1  buf_len under 132
 *   21  channel closed
 *   26  the last SRP_CRED_REQ is unanswered
 *   27  D not above 0
 *
 * answer after 0: 16, the bytes of the message. Its delta is D: A + D, and D is 0. The SRP_CRED_RSP that answers it is
 * taken by srp_target_take; until then srp_target_grant draws 26, and responses carry what is owed. SOLNT is the
 * login's CRSOLNT (its byte 26 bit 5).
 */
uint32_t srp_target_grant(uint64_t *port, uint8_t *buf, size_t buf_len, uint64_t answer[8]);

/*
 * Close: ends the channel and writes an SRP_T_LOGOUT with tag 0.
 *
 *   reason   any, written as it is. SRP-2 has 0 for none, 1 for an inactive channel whose resources are reclaimed, 4
 *            for a new login that ends older channels
 *
 * Refusals, in the order of checking:
 *    1  buf_len under 132
 *   21  channel closed
 *
 * answer after 0: 16, the bytes of the message. The port is closed. The owner sends the message, waits until it is
 * sent, and disconnects. SOLNT of every SRP_T_LOGOUT is the login's LOSOLNT (its byte 26 bit 4).
 */
uint32_t srp_target_close(uint64_t *port, uint32_t reason, uint8_t *buf, size_t buf_len, uint64_t answer[8]);

/*
 * Counters: W, A, H and D of an open channel.
 *
 * Refusals:
 *   21  channel closed
 *
 * answer after 0: W, A, H, D. D may be negative: (int64_t)answer[3].
 */
uint32_t srp_target_counters(const uint64_t *port, uint64_t answer[8]);

/*
 * List: the open commands, each once, as they were taken, oldest first; those too that wait for their tables. A tag
 * used again counts as taken anew.
 *
 *   records, words   where the records go, four words each; 64 words have room for all
 *
 * Refusals, in the order of checking:
 *   21  channel closed
 *   11  words under 64
 *
 * answer after 0: how many, which is H. Their records stand from records[0] on: tag, LUN, h of data-out, h of data-in.
 * Words behind them are as they were.
 */
uint32_t srp_target_list(const uint64_t *port, uint64_t *records, size_t words, uint64_t answer[8]);

/*
 * Look: reads one SRP_CMD, and names for each direction the table of memory descriptors that is to be fetched.
 *
 *   msg, msg_len   the message
 *   agreed         agreed length: the longest message that the login allows, 64 to 1,364
 *   formats        agreed formats: bit 1 for format 1 (direct), bit 2 for format 2 (indirect)
 *   buf, buf_len   where the answer goes
 *
 * Refusals, in the order of checking:
 *    1  buf_len under 32
 *    2  agreed outside 64 to 1,364, or a bit of formats set other than 1 and 2
 *    3  msg_len under 16 or above agreed
 *    4  byte 0, the type, other than 02h
 *    3  msg_len under 48
 *    5  out format (byte 5 bits 7-4) above 2, or 1 or 2 without its bit in formats
 *    6  in format (byte 5 bits 3-0), likewise
 *    3  msg_len other than 48 + 4n + the out descriptor + the in descriptor. n is byte 31 bits 7-2. A descriptor has
 *       0 bytes in format 0, 16 in format 1, 20 + 16c in format 2, c being byte 6 (out) or byte 7 (in), 0 to 255
 *    7  out format 2, and c above 32 or 16c above the table's length (bytes 12-15 of the descriptor)
 *    8  in format 2, likewise
 *
 * buf after 0:
 *    0-15   out fetch: the table's address and handle as the message has them, then the fetched length F
 *   16-31   in fetch, likewise
 *   32-     as before
 * F is the table's length, and all of the table is to be fetched, if that is a multiple of 16 from 16 to 512 and not
 * 16c. Otherwise nothing is to be fetched, and all 16 bytes are 0: the format is 0 or 1, or the copies in the message
 * are the whole table, or the table's length is bad (such a command draws 10, when it is taken or, where the other
 * direction has a fetch, when its tables are brought). Look is given no boundary: the fetch that it names may cross a
 * multiple of the login's Q, and is the owner's to split.
 */
uint32_t srp_look(const uint8_t *msg, size_t msg_len, uint32_t agreed, uint32_t formats, uint8_t *buf, size_t buf_len);

/*
 * The cut: the piece of a buffer that the next RDMA operation moves, or done. The buffer's B bytes are those of its
 * segments in order. Of its first min(R, B) bytes, `handed` have been handed out; the next piece starts there and ends
 * at the nearest of M bytes, its segment's end, min(R, B) and, where Q is not 0, the next multiple of Q above its first
 * address. Segments of length 0 are skipped.
 *
 *   list, list_len   the segments, one memory descriptor of 16 bytes each; none is lawful (B = 0)
 *   m                M, the longest piece, 1 to 1,048,576
 *   q                Q, the boundary, 0 for none, or a power of two from 512 to 2^32
 *   r                R, the length that the SCSI command requires
 *   handed           bytes already handed out: 0 at first, then the last piece's offset + its length
 *   buf, buf_len     where the answer goes
 *
 * Refusals, in the order of checking:
 *    1  buf_len under 32
 *    2  m outside 1 to 1,048,576, or q neither 0 nor a power of two from 512 to 2^32
 *   11  list_len not a multiple of 16, or above 512
 *   10  a segment with address + length above 2^64 (equal is fine), or a sum of lengths above 2^32 - 1
 *   11  handed above min(R, B)
 *
 * buf after 0, with a piece (its length is at least 1):
 *    0-15   memory descriptor of the piece: address, its segment's handle, length
 *   16-19   offset of the piece in the buffer, equal to handed
 *   20-31   0
 *   32-     as before
 * buf after 0, done (handed is min(R, B)):
 *    0-31   0
 *   32-     as before
 */
uint32_t srp_cut(const uint8_t *list, size_t list_len, uint32_t m, uint64_t q, uint32_t r, uint32_t handed,
                 uint8_t *buf, size_t buf_len);

/*
 * Trace: writes one message as a line of text, 80 columns and a line feed, to be read on a terminal. It keeps no state
 * and may be called for any bytes at any time, also for a message that a port refused.
 *
 *   msg, msg_len   the message. At most its first 40 bytes are read, and none beyond msg_len
 *   direction      of the message, 0 towards the port, else from it (SRP_DIRECTION_OUT and _IN are of data). A type
 *                  that cannot go that way still prints
 *   buf, buf_len   where the line goes
 *
 * Refusals:
 *    1  buf_len under 81
 *
 * buf after 0:
 *    0-80   the line: columns 1 to 80, and a line feed (0Ah). No 0 byte ends it
 *   81-     as before
 *
 * Its columns. Hexadecimal digits are lowercase. All other columns, and those of a field that the type has not, are
 * spaces.
 *    1      > towards the port, < from it
 *    3-14   the type's name without its leading SRP_
 *   16-31   tag (bytes 8-15), 16 hexadecimal digits
 *   33-48   LUN (bytes 20-27) of SRP_CMD and SRP_TSK_MGMT, 16 hexadecimal digits
 *   50-54   delta of SRP_RSP and SRP_CRED_REQ, N of SRP_LOGIN_RSP (bytes 4-7, unsigned), decimal and right-aligned;
 *           ***** above 99,999
 *   56-63   reason of SRP_T_LOGOUT and SRP_LOGIN_REJ (bytes 4-7), RSP_CODE of an SRP_RSP with RSPVALID (byte 39), 8
 *           hexadecimal digits
 *
 *   type   name        msg_len
 *   00h    LOGIN_REQ   64
 *   01h    TSK_MGMT    48
 *   02h    CMD         48 + 4n + the out descriptor + the in descriptor, as srp_look has them, with any counts
 *   03h    I_LOGOUT    16
 *   41h    CRED_RSP    16
 *   80h    T_LOGOUT    16
 *   81h    CRED_REQ    16
 *   C0h    LOGIN_RSP   52
 *   C1h    RSP         36, + 4 with RSPVALID (byte 18 bit 0), + the sense length (bytes 28-31) with SNSVALID (bit 1);
 *                      the sum does not wrap at 2^32, and the response length (bytes 32-35) is not read
 *   C2h    LOGIN_REJ   32
 * A message of another type, of another msg_len than its type's, or of type 02h with a format above 2 (byte 5 bits 7-4,
 * 3-0) has UNKNOWN as its name and msg_len in columns 50-54 by the rule of a delta; all else but column 1 is spaces.
 *
 * Lines, their last spaces left out:
 *   > CMD          00000000000000a1 0003000000000000
 *   < RSP          00000000000000a1                      1
 *   < RSP          00000000000000a4                      2 00000004
 *   < T_LOGOUT     0000000000000000                        00000006
 *   > UNKNOWN                                           15
 */
uint32_t srp_trace(const uint8_t *msg, size_t msg_len, uint32_t direction, uint8_t *buf, size_t buf_len);

/*
 * Format counts: where the 256 values of an SRP_CMD's byte 5 lead, out format in bits 7-4 and in format in bits 3-0, in
 * a message whose length never decides: of the checks of srp_look those of 5 and 6 alone are asked. It reads no message
 * and goes through all values.
 *
 *   formats   agreed formats, as srp_look has them: bit 1 for format 1 (direct), bit 2 for format 2 (indirect)
 *
 * Refusals:
 *    2  a bit of formats set other than 1 and 2
 *
 * answer after 0: how many values pass, how many draw 5, how many draw 6; together they are 256. With f formats
 * allowed, of which format 0 always is one, these are f * f, 16 * (16 - f) and f * (16 - f):
 *   formats             f   pass   draw 5   draw 6
 *   0, none agreed      1   1      240      15
 *   2, direct alone     2   4      224      28
 *   4, indirect alone   2   4      224      28
 *   6, both             3   9      208      39
 *
 * With these formats agreed, a value that draws 5 or 6 here does so in every message of type 02h from 48 bytes up to
 * the agreed length: in srp_look where neither 1 nor 2 comes first, in srp_target_take where neither 1 nor 21 does. One
 * that passes here may still draw what is checked behind 5 and 6: 3, 7 or 8 by the message's length or a count, and in
 * srp_target_take 22, 23 or 10.
 */
uint32_t srp_format_counts(uint32_t formats, uint64_t answer[8]);

#ifdef __cplusplus
}
#endif

#endif
