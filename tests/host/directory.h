/*
 * A full directory of single buckets: document 01's method worked out bucket by bucket, with no
 * interval arithmetic. For maps of few buckets.
 */
#ifndef DIRECTORY_H
#define DIRECTORY_H

#include "irr.h"

enum { DIRECTORY_BUCKETS = 1200, DIRECTORY_BLOCKS = 65 };

struct directory {
    int buckets, blocks;
    int tops[DIRECTORY_BLOCKS];        /* bins up to and including the block */
    int block[DIRECTORY_BUCKETS];      /* of each bucket */
    int starts[DIRECTORY_BUCKETS + 1]; /* whether an interval (run) starts at the bucket */
    int bin[DIRECTORY_BUCKETS];
    int position[DIRECTORY_BUCKETS];   /* in its bin, behind the label */
};

/* number of bins */
int directory_bins(const struct directory *d);

/* the due size of each bin: the buckets dealt one by one to the bins in turn */
void directory_due(int buckets, int bins, int *due);

/* a sound table, read bucket by bucket */
void directory_read(struct directory *d, struct irr_header header, const uint32_t *tops,
                    const uint32_t *ends, const uint32_t *blocks);

/* the directory after a growth of `old` to accepted sizes */
void directory_grow(const struct directory *old, int buckets, int bins, struct directory *d);

/* the intervals of the directory; answers how many */
int directory_write(const struct directory *d, uint32_t *ends, uint32_t *blocks,
                    uint32_t *adjustments);

#endif
