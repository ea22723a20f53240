/* A full directory of single buckets. */
#include "directory.h"

#include <string.h>

enum { LABEL = 8 }; /* the first positions of every bin, which are dealt to no bucket */

int directory_bins(const struct directory *d)
{
    return d->tops[d->blocks - 1];
}

void directory_due(int buckets, int bins, int *due)
{
    for (int y = 0; y < bins; y++)
        due[y] = 0;
    for (int x = 0; x < buckets; x++)
        due[x % bins]++;
}

/* deals the buckets of each block, in rising order, to its bins in turn, each to the next place */
static void deal(struct directory *d)
{
    static int placed[DIRECTORY_BUCKETS];
    int next[DIRECTORY_BLOCKS];
    memset(placed, 0, sizeof placed);
    for (int j = 0; j < d->blocks; j++)
        next[j] = j == 0 ? 0 : d->tops[j - 1];
    for (int x = 0; x < d->buckets; x++) {
        int j = d->block[x], y = next[j]++;
        if (next[j] == d->tops[j])
            next[j] = j == 0 ? 0 : d->tops[j - 1];
        d->bin[x] = y;
        d->position[x] = LABEL + placed[y]++;
    }
}

void directory_read(struct directory *d, struct irr_header header, const uint32_t *tops,
                    const uint32_t *ends, const uint32_t *blocks)
{
    int x = 0;
    d->buckets = (int)header.buckets;
    d->blocks = (int)header.block_count;
    for (int j = 0; j < d->blocks; j++)
        d->tops[j] = (int)tops[j];
    for (int i = 0; i < (int)header.interval_count; i++) {
        for (int start = x; x < (int)ends[i]; x++) {
            d->block[x] = (int)blocks[i];
            d->starts[x] = x == start;
        }
    }
    deal(d);
}

/* what each block is due: the sum over its bins */
static void due_of_blocks(const struct directory *d, int *due)
{
    static int bins[DIRECTORY_BUCKETS];
    directory_due(d->buckets, directory_bins(d), bins);
    for (int j = 0, y = 0; j < d->blocks; j++) {
        due[j] = 0;
        for (; y < d->tops[j]; y++)
            due[j] += bins[y];
    }
}

/* no old block is due less: the new buckets one by one, each to the block whose turn it is */
static void fill(struct directory *d, int old_buckets, const int *due, int *held)
{
    int last = d->block[old_buckets - 1], turn = last;
    for (int x = old_buckets; x < d->buckets; x++) {
        int before = turn;
        if (held[turn] == due[turn])
            for (turn = 0; turn == last || held[turn] == due[turn];)
                turn++;
        d->block[x] = turn;
        d->starts[x] = turn != before;
        held[turn]++;
    }
}

/* some old block is due less: a bucket moves if its block already has its due before it */
static void drain(struct directory *d, int old_buckets, const int *due, int *held)
{
    int moved = 0, fresh = d->blocks - 1;
    for (int x = 0; x < old_buckets; x++) {
        int was_moved = moved, j = d->block[x];
        moved = held[j] == due[j];
        if (moved)
            d->block[x] = fresh;
        else
            held[j]++;
        /* within an old interval those that stay come first */
        if (moved && !was_moved)
            d->starts[x] = 1;
    }
    for (int x = old_buckets; x < d->buckets; x++) {
        d->block[x] = fresh;
        d->starts[x] = x == old_buckets && !moved;
    }
}

void directory_grow(const struct directory *old, int buckets, int bins, struct directory *d)
{
    int due[DIRECTORY_BLOCKS], held[DIRECTORY_BLOCKS] = {0}, less = 0;
    *d = *old;
    d->buckets = buckets;
    if (bins > directory_bins(old))
        d->tops[d->blocks++] = bins;
    due_of_blocks(d, due);
    for (int x = 0; x < old->buckets; x++)
        held[old->block[x]]++;
    for (int j = 0; j < old->blocks; j++)
        less = less || due[j] < held[j];
    if (less) {
        memset(held, 0, sizeof held);
        drain(d, old->buckets, due, held);
    } else {
        fill(d, old->buckets, due, held);
    }
    deal(d);
}

int directory_write(const struct directory *d, uint32_t *ends, uint32_t *blocks,
                    uint32_t *adjustments)
{
    int k = 0;
    for (int x = 0; x < d->buckets; x++) {
        if (d->starts[x]) {
            uint32_t others = 0;
            for (int before = 0; before < x; before++)
                others += d->block[before] != d->block[x];
            blocks[k] = (uint32_t)d->block[x];
            adjustments[k++] = others;
        }
        ends[k - 1] = (uint32_t)x + 1;
    }
    return k;
}
