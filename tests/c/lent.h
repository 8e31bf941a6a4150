/*
 * The memory that the tests lend to the library: a region for each argument, guard bytes around it, and after a call
 * the comparison of every byte of every region.
 */
#ifndef LENT_H
#define LENT_H

#include <stddef.h>
#include <stdint.h>

enum region { PORT, STORE, SETTINGS, OWN, MSG, OUT, IN, SENSE, SEGMENTS, BUF, ANSWER, RECORDS, REGIONS };

/* The first byte lent of a region, aligned for words. */
uint8_t *lent(enum region r);
uint64_t *lent_words(enum region r);

/* Fills a region and its guards, no byte like its neighbour and none 0; then puts bytes where it starts. */
void lay(enum region r, const void *bytes, size_t len);

/* Before a call: what memory holds now, it must hold after the call. */
void begin(void);

/* After a call: what these bytes of a region must hold instead; bytes that may hold anything. */
void expect(enum region r, size_t at, const void *bytes, size_t len);
void let_change(enum region r, size_t len);

/* Whether the first bytes lent of a region are other than before the call. */
int changed(enum region r, size_t len);

/* Compares the number returned, and all memory. */
void compare(const char *name, uint32_t returned, uint32_t number);

void fail(const char *name, const char *what);

/* Prints how many calls were compared and how many failed; returns the program's exit status. */
int tell(void);

#endif
