/* The method in plain C, on a table that is known to be sound: what bench/irr.c (the calls)
 * and bench/rackmap.c (the program) have in common.
 *
 * Document 01's drawer, group and run are called bin, block and interval here, after
 * source 000. Numbers in comments are its refusals and those of document 02. All sizes, ranks,
 * positions and sums stay below 2^32: a sum has at most two terms of at most 1,000,000,000 each.
 */
#ifndef BENCH_METHOD_H
#define BENCH_METHOD_H

#include <stdbool.h>
#include <stdint.h>
#include <string.h>

#include "../include/irr.h"

/* What a bin is due in a map of B buckets and n bins: B / n, and one more in the bins below
 * B % n. */
struct share {
	uint32_t each, extra;
};

static inline struct share share_of(uint32_t buckets, uint32_t bins)
{
	return (struct share){buckets / bins, buckets % bins};
}

/* A table to read. Interval i has the buckets from the end before it (0 for the first) to
 * ends[i] - 1. A bucket's rank in its block is the bucket minus adjustments[i]. */
struct table {
	struct irr_header header;
	const uint32_t *tops, *ends, *blocks, *adjustments;
	struct share share; /* of its sizes */
};

/* The arrays that a new table is written to, and the intervals written so far. */
struct new_table {
	uint32_t *restrict tops, *restrict ends, *restrict blocks, *restrict adjustments;
	uint32_t intervals;
};

static inline uint32_t min(uint32_t a, uint32_t b)
{
	return a < b ? a : b;
}

static inline uint32_t max(uint32_t a, uint32_t b)
{
	return a > b ? a : b;
}

/* Two numbers that lie side by side in memory, as one. */
static inline uint64_t pair(uint32_t a, uint32_t b)
{
	return a + ((uint64_t)b << 32);
}

/* Writes the two digits of a number below 100. */
static inline void put_pair(char *to, uint32_t pair)
{
	static const char pairs[] =
		"00010203040506070809101112131415161718192021222324252627282930313233"
		"34353637383940414243444546474849505152535455565758596061626364656667"
		"6869707172737475767778798081828384858687888990919293949596979899";

	memcpy(to, pairs + 2 * pair, 2);
}

static inline uint32_t bins_of(const struct table *t)
{
	return t->tops[t->header.block_count - 1];
}

/* The first bucket of an interval. */
static inline uint32_t start_of(const struct table *t, uint32_t i)
{
	return i == 0 ? 0 : t->ends[i - 1];
}

/* The first bin of a block. */
static inline uint32_t first_bin(const struct table *t, uint32_t block)
{
	return block == 0 ? 0 : t->tops[block - 1];
}

static inline void add_interval(struct new_table *new, uint32_t end, uint32_t block,
				uint32_t adjustment)
{
	uint32_t i = new->intervals++;

	new->ends[i] = end;
	new->blocks[i] = block;
	new->adjustments[i] = adjustment;
}

/* ----------------------------------------------------------------- refusals */

static inline bool outside(uint32_t limit, uint32_t x)
{
	return x == 0 || x > limit;
}

/* The refusal of the sizes of a map: 1, 2, or 0. */
static inline uint32_t size_refusal(uint32_t buckets, uint32_t bins)
{
	if (outside(IRR_MAX_BUCKETS, buckets) || outside(IRR_MAX_BINS, bins))
		return 1;
	return bins > buckets ? 2 : 0;
}

/* Whether some bin of a map of these sizes is due more than the capacity leaves beside the label.
 * The first is due the most, B / n rounded up. */
static inline bool overfull(uint32_t capacity, uint32_t buckets, uint32_t bins)
{
	return (uint64_t)capacity * bins < buckets + (uint64_t)IRR_LABEL * bins;
}

/* The refusal of the sizes of a fresh map: 1, 2, 31, or 0. */
static inline uint32_t fresh_refusal(uint32_t buckets, uint32_t bins, uint32_t capacity)
{
	uint32_t refusal = size_refusal(buckets, bins);

	if (refusal != 0)
		return refusal;
	return overfull(capacity, buckets, bins) ? 31 : 0;
}

/* The refusal of the sizes of a growth: 1 to 5, 31, or 0. */
static inline uint32_t growth_refusal(const struct table *old, uint32_t buckets, uint32_t bins)
{
	uint32_t refusal = size_refusal(buckets, bins);

	if (refusal != 0)
		return refusal;
	if (buckets < old->header.buckets || bins < bins_of(old))
		return 3;
	if (buckets == old->header.buckets && bins == bins_of(old))
		return 4;
	if (bins > bins_of(old) && old->header.block_count == IRR_MAX_BLOCKS)
		return 5;
	return overfull(old->header.capacity, buckets, bins) ? 31 : 0;
}

static inline struct irr_table_reply refused_table(uint32_t refusal)
{
	return (struct irr_table_reply){.refusal = refusal};
}

/* ------------------------------------------------------ fresh map and growth */

/* A fresh map, written to arrays with room for any table. */
static inline struct irr_table_reply initial(uint32_t buckets, uint32_t bins, uint32_t capacity,
					    struct new_table *new)
{
	uint32_t refusal = fresh_refusal(buckets, bins, capacity);

	if (refusal != 0)
		return refused_table(refusal);
	new->tops[0] = bins;
	add_interval(new, buckets, 0, 0);
	return (struct irr_table_reply){.header = {buckets, capacity, 1, 1}};
}

/* What the bins below `top` are due. */
static inline uint32_t due_below(struct share share, uint32_t top)
{
	return top * share.each + min(top, share.extra);
}

/* What each block of t is due in a map of which its blocks are the first ones. Returns the
 * sum. */
static inline uint32_t due_sizes(const struct table *t, struct share share,
				 uint32_t due[IRR_MAX_BLOCKS])
{
	uint32_t below = 0;

	for (uint32_t j = 0; j < t->header.block_count; j++) {
		uint32_t through = due_below(share, t->tops[j]);

		due[j] = through - below;
		below = through;
	}
	return below;
}

/* How many buckets of the old map move, where its bins are due so many after the growth. */
static inline uint32_t moved_count(const struct table *old, uint32_t due)
{
	return due < old->header.buckets ? old->header.buckets - due : 0;
}

/* Where an interval of a map that drains is cut, its block being due so many: the buckets from
 * `start` up to the cut stay, those from the cut to the end move. A cut at the end means that the
 * interval stays, a cut at the start that it moves whole. */
static inline uint32_t cut_at(uint32_t due, uint32_t start, uint32_t end, uint32_t adjustment)
{
	return min(max(due + adjustment, start), end);
}

/* The cut of interval i. */
static inline uint32_t cut_of(const struct table *t, const uint32_t due[], uint32_t i,
			      uint32_t start)
{
	return cut_at(due[t->blocks[i]], start, t->ends[i], t->adjustments[i]);
}

/* Lists the intervals of which buckets move: those at whose end their block holds more than
 * its due. Returns their number. No branch on the data: it can't be predicted. */
static inline uint32_t list_drained(const struct table *old, const uint32_t due[],
				    uint32_t drained[IRR_MAX_INTERVALS])
{
	uint32_t count = 0;

	for (uint32_t i = 0; i < old->header.interval_count; i++) {
		drained[count] = i;
		count += due[old->blocks[i]] < old->ends[i] - old->adjustments[i];
	}
	return count;
}

/* The number of intervals that `drain` writes: one more for each interval of which buckets
 * stay and buckets move. */
static inline uint32_t count_drained(const struct table *old, uint32_t buckets,
				     const uint32_t due[], const uint32_t drained[],
				     uint32_t drained_count)
{
	uint32_t k = old->header.interval_count;
	uint32_t count = k;

	for (uint32_t m = 0; m < drained_count; m++) {
		uint32_t i = drained[m];

		count += start_of(old, i) < due[old->blocks[i]] + old->adjustments[i];
	}
	return count + (drained[drained_count - 1] != k - 1 && buckets > old->header.buckets);
}

/* Adds the intervals of the old map from `from` up to `to`. */
static inline void keep_intervals(const struct table *old, uint32_t from, uint32_t to,
				  struct new_table *new)
{
	size_t bytes = (to - from) * sizeof *old->ends;

	if (to - from == 1) { /* a fresh map: no call is worth it */
		add_interval(new, old->ends[from], old->blocks[from], old->adjustments[from]);
		return;
	}
	memcpy(new->ends + new->intervals, old->ends + from, bytes);
	memcpy(new->blocks + new->intervals, old->blocks + from, bytes);
	memcpy(new->adjustments + new->intervals, old->adjustments + from, bytes);
	new->intervals += to - from;
}

/* The same where at least three more intervals of the old map follow, each of which adds one
 * or two: by four at a time, the last of them past the end perhaps. */
static inline void keep_by_fours(const struct table *old, uint32_t from, uint32_t to,
				 struct new_table *new)
{
	uint32_t o = new->intervals;

	for (uint32_t i = from; i < to; i += 4, o += 4) {
		memcpy(new->ends + o, old->ends + i, 4 * sizeof *old->ends);
		memcpy(new->blocks + o, old->blocks + i, 4 * sizeof *old->blocks);
		memcpy(new->adjustments + o, old->adjustments + i, 4 * sizeof *old->adjustments);
	}
	new->intervals += to - from;
}

/* Some old block is due less than it has: what is above its due goes to the new block,
 * and so do the new buckets. */
static inline void drain(const struct table *old, uint32_t buckets, const uint32_t due[],
			 const uint32_t drained[], uint32_t drained_count,
			 struct new_table *new)
{
	struct irr_header h = old->header;
	uint32_t next = 0, moved = 0; /* the interval to come, and the buckets moved so far */

	for (uint32_t m = 0; m < drained_count; m++) {
		uint32_t i = drained[m];
		uint32_t start = start_of(old, i);
		uint32_t cut = cut_of(old, due, i, start);

		if (i + 3 <= h.interval_count)
			keep_by_fours(old, next, i, new);
		else if (next < i)
			keep_intervals(old, next, i, new);
		/* What stays is written in any case: the part that moves is written over it
		 * where there is none. */
		add_interval(new, cut, old->blocks[i], old->adjustments[i]);
		new->intervals -= start == cut;
		add_interval(new, old->ends[i], h.block_count, cut - moved);
		moved += old->ends[i] - cut;
		next = i + 1;
	}
	if (next == h.interval_count) {
		new->ends[new->intervals - 1] = buckets;
		return;
	}
	keep_intervals(old, next, h.interval_count, new);
	if (buckets > h.buckets)
		add_interval(new, buckets, h.block_count, h.buckets - moved);
}

/* The number of intervals that `fill` writes. */
static inline uint32_t count_filled(const struct table *old, uint32_t bins,
				    const uint32_t had[], const uint32_t due[])
{
	uint32_t last = old->blocks[old->header.interval_count - 1];
	uint32_t count = old->header.interval_count + (bins > bins_of(old));

	for (uint32_t j = 0; j < old->header.block_count; j++)
		count += due[j] > had[j];
	return count - (due[last] > had[last]);
}

/* No old block is due less than it has: all old buckets stay, and the new ones are handed
 * out block by block, the last interval's block first. */
static inline void fill(const struct table *old, uint32_t buckets, uint32_t bins,
			const uint32_t had[], const uint32_t due[], struct new_table *new)
{
	uint32_t k = old->header.interval_count;
	uint32_t last = old->blocks[k - 1];
	uint32_t next = old->header.buckets + due[last] - had[last];

	keep_intervals(old, 0, k, new);
	new->ends[k - 1] = next;

	for (uint32_t j = 0; j < old->header.block_count; j++) {
		if (j != last && due[j] > had[j]) {
			uint32_t end = next + due[j] - had[j];

			add_interval(new, end, j, next - had[j]);
			next = end;
		}
	}
	if (bins > bins_of(old))
		add_interval(new, buckets, old->header.block_count, next);
}

/* A growth, written to arrays with room for any table. Both tables are lent as copies, so
 * that no number that is stored can change where their arrays are. */
static inline __attribute__((always_inline)) struct irr_table_reply
grown(struct table lent, uint32_t buckets, uint32_t bins, struct new_table lent_new)
{
	const struct table *old = &lent;
	struct new_table *new = &lent_new;
	struct irr_header h = old->header;
	uint32_t had[IRR_MAX_BLOCKS], due[IRR_MAX_BLOCKS], drained[IRR_MAX_INTERVALS];
	uint32_t drained_count = 0, count;
	uint32_t refusal = growth_refusal(old, buckets, bins);

	if (refusal != 0)
		return refused_table(refusal);

	/* The due of a bin never falls in one old block and rises in another, so the sum
	 * tells whether a block drains. */
	uint32_t most = due_sizes(old, share_of(buckets, bins), due);

	if (most < h.buckets) {
		drained_count = list_drained(old, due, drained);
		count = count_drained(old, buckets, due, drained, drained_count);
	} else {
		due_sizes(old, old->share, had);
		count = count_filled(old, bins, had, due);
	}
	if (count > IRR_MAX_INTERVALS)
		return refused_table(8);

	if (h.block_count == 1) /* no call is worth it */
		new->tops[0] = old->tops[0];
	else
		memcpy(new->tops, old->tops, h.block_count * sizeof *old->tops);
	if (bins > bins_of(old))
		new->tops[h.block_count] = bins;
	if (most < h.buckets)
		drain(old, buckets, due, drained, drained_count, new);
	else
		fill(old, buckets, bins, had, due, new);

	return (struct irr_table_reply){
		.moved = moved_count(old, most),
		.header = {buckets, h.capacity, h.block_count + (bins > bins_of(old)), count},
	};
}

/* ------------------------------------------------------ placing and finding */

/* The interval of a bucket: the first whose end is above it. A turn leaves a quarter of the
 * intervals by three ends that don't wait for each other, without a branch on the data,
 * since the outcome can't be predicted. */
static inline uint32_t interval_of(const struct table *t, uint32_t bucket)
{
	const uint32_t *base = t->ends;
	uint32_t length = t->header.interval_count;

	while (length > 3) {
		uint32_t quarter = length / 4;

		base += quarter * ((base[quarter - 1] <= bucket) + (base[2 * quarter - 1] <= bucket) +
				   (base[3 * quarter - 1] <= bucket));
		length -= 3 * quarter;
	}
	while (length > 1) {
		base += *base <= bucket;
		length--;
	}
	return (uint32_t)(base - t->ends);
}

/* A reply. Its first two numbers come back in one register: they are made one number here,
 * since the compiler would store them apart, load them together and wait for that. */
static inline struct irr_place_reply place_reply(uint32_t refusal, uint32_t bin,
						 uint32_t position)
{
	struct irr_place_reply reply;
	uint64_t first = pair(refusal, bin);

	memcpy(&reply, &first, sizeof first);
	reply.position = position;
	return reply;
}

/* The place of a bucket, or 6. */
static inline struct irr_place_reply placed(const struct table *t, uint32_t bucket)
{
	if (bucket >= t->header.buckets)
		return place_reply(6, 0, 0);

	uint32_t i = interval_of(t, bucket);
	uint32_t rank = bucket - t->adjustments[i];
	uint32_t first = first_bin(t, t->blocks[i]);
	uint32_t size = t->tops[t->blocks[i]] - first;

	return place_reply(0, first + rank % size, rank / size + IRR_LABEL);
}

/* The number of buckets in a bin below n: its due size. */
static inline uint32_t size_of_bin(const struct table *t, uint32_t bin)
{
	return t->share.each + (bin < t->share.extra);
}

/* The bucket at a place, or 7. */
static inline struct irr_find_reply found(const struct table *t, uint32_t bin,
					  uint32_t position)
{
	/* How many positions of buckets are below it; for one of the label the difference wraps,
	 * and is above any size. */
	uint32_t below = position - IRR_LABEL;

	if (bin >= bins_of(t) || below >= size_of_bin(t, bin))
		return (struct irr_find_reply){.refusal = 7};

	uint32_t block = 0;
	for (uint32_t j = 0; j < t->header.block_count; j++)
		block += t->tops[j] <= bin;

	uint32_t first = first_bin(t, block);
	uint32_t rank = below * (t->tops[block] - first) + (bin - first);

	/* Ranks of a block rise from the left, and the position is one that the bin has, so
	 * the loop ends at the interval that holds the rank. */
	uint32_t i = 0;
	while (t->blocks[i] != block || rank + t->adjustments[i] >= t->ends[i])
		i++;
	return (struct irr_find_reply){0, rank + t->adjustments[i]};
}

#endif
