/* Tables for the tests: sound ones, and damaged ones. */
#ifndef TABLES_H
#define TABLES_H

#include "irr.h"

enum { TABLE_TOPS = IRR_MAX_BLOCKS + 1, TABLE_INTERVALS = IRR_MAX_INTERVALS + 1, FIELDS = 5 };

struct table {
    struct irr_header header;
    /* entries that the arrays really hold: the header of a damaged table may say otherwise */
    uint32_t tops_len, intervals_len;
    uint32_t tops[TABLE_TOPS];
    uint32_t ends[TABLE_INTERVALS], blocks[TABLE_INTERVALS], adjustments[TABLE_INTERVALS];
};

/* a copy, of no more than what the arrays hold */
void table_copy(struct table *to, const struct table *from);

/* number of bins, or 0 where the table has no tops */
uint32_t table_bins(const struct table *t);

/* the number of buckets in the largest bin of a map of these sizes; 0 where there are no bins */
uint32_t largest_bin(uint32_t buckets, uint32_t bins);

/* a random capacity that such a map allows: the least one, which is what its largest bin and the
 * label need, little more, or any; the greatest where it allows none */
uint32_t capacity_for(uint32_t buckets, uint32_t bins);

/* any number for a capacity, mostly at or next to a limit: its own, the least one of such a map, or
 * what the label alone or the largest bin alone needs */
uint32_t capacity_near(uint32_t buckets, uint32_t bins);

/* a random sound table, its intervals in any order of blocks; `most` bounds its blocks */
void table_random(struct table *t, uint32_t buckets, uint32_t bins, uint32_t most);

/* a sound table of exactly so many blocks and intervals, but for limits; buckets must abound */
void table_exact(struct table *t, uint32_t buckets, uint32_t bins, uint32_t blocks,
                 uint32_t intervals);

/* the adjustments that the ends and blocks ask for */
void table_adjust(struct table *t);

/* does one random damage, of any kind */
void table_damage(struct table *t);

/* the saved form, unchecked; answers its length */
size_t table_encode(const struct table *t, uint8_t *bytes);

/* the numbers of a line of a sheet; answers whether it is FIELDS of 10 columns, each a number with
 * nothing but blanks before it, and a line feed */
int line_read(const uint8_t *line, uint32_t *numbers);

#endif
