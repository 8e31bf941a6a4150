/* Numbers by a fixed rule, and a port of arbitrary words. */
#ifndef ARBITRARY_H
#define ARBITRARY_H

#include <stdint.h>

/* The word of a port that has Q; its first slot, the words of one, and those that have whether its command waits and,
 * each way, format, count, table length and total length. The line: where it begins, how many moves it has, and its 32
 * places, a tag and a direction each. */
enum { BOUNDARY = 10, SLOTS = 16, SLOT = 32, WAITS = 20, OUT_WORDS = 21, IN_WORDS = 25 };
enum { LINE_FIRST = 528, LINE_COUNT = 529, LINE_PLACES = 530, LINE_MOVES = 32 };

/* A number; a small or a large one; a boundary: none, some, and numbers that are no boundary. */
uint64_t next(void);
uint32_t any_size(void);
uint64_t some_boundary(void);

/* Lays arbitrary words as the port, and fills its store. */
void arbitrary_port(void);

/* How many moves are in line, by the port's words, and the first of them. */
struct in_line {
    unsigned moves;
    uint64_t tag;
    int in;
};
struct in_line first_in_line(void);

#endif
