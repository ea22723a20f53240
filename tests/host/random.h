/* Random numbers from a fixed seed (splitmix64). */
#ifndef RANDOM_H
#define RANDOM_H

#include <stdint.h>

void random_seed(uint64_t seed);
uint64_t random_next(void);
/* a number below n; 0 where n is 0 */
uint32_t below(uint32_t n);
/* 1 in n times true */
int once_in(uint32_t n);

#endif
