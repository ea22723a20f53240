/* The archive against a full directory of buckets. */
#ifndef BUCKETS_H
#define BUCKETS_H

#include "tables.h"

/* A growth of `old` that the archive accepted: `grown` is the table that it wrote, `moved` the
 * count in its reply. The table must be sound and the count the least; if the directory can hold
 * the map, all of it is compared, bucket by bucket, and so are the words of a rack that is carried
 * row by row. */
void check_growth(const struct table *old, const struct table *grown, uint32_t moved);

/* A growth of `old` that the archive refused by 31: some bin's due and its label would need more
 * than the capacity, and the move list is refused too. */
void check_overfull(const struct table *old, uint32_t buckets, uint32_t bins);

/* A sound table: every bucket, bin and position, lists of buckets, the least capacity, and the
 * sheet. */
void check_map(const struct table *t);

/* prints what was compared */
void buckets_summary(void);

#endif
