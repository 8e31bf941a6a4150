/* Numbers by a fixed rule, the same in every run. */
#ifndef RANDOM_H
#define RANDOM_H

#include <stddef.h>
#include <stdint.h>

uint64_t any_number(void);
uint32_t from_to(uint32_t least, uint32_t most);
int one_in(uint32_t n);
void any_bytes(void *to, size_t len);

#endif
