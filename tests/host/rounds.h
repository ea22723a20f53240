/* Rounds of calls on one table, with random arguments, many of them at their limits. */
#ifndef ROUNDS_H
#define ROUNDS_H

#include "tables.h"

/* `times` comparisons of any of the calls that read a table, sound or damaged */
void round_of_calls(const struct table *t, int times);

/* sizes for a growth that may well be accepted: more buckets, more bins, or both */
void ask_growth(const struct table *t, uint32_t *buckets, uint32_t *bins);

/* `times` loads of what is left of a saved map after random harm, or of nothing but noise */
void round_of_files(const struct table *t, int times);

/* the calls that read no table, at and around their limits */
void round_of_sizes(void);

#endif
