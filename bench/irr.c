/* The twelve calls of the placement map in plain C: what the proved calls are measured
 * against. Same arguments, same replies, same refusals in the same order. What they do
 * with a table that has passed the check is in method.h.
 */
#include "method.h"
#include "plain.h"

enum {
	SUMS = 68, /* cells for the sums of IRR_MAX_BLOCKS, a multiple of 4 */
	FIELD = 10, /* columns */
	HEAD = 2 * FIELD, /* of a line of a sheet: the fields of an interval */
	TAIL = 3 * FIELD + 1, /* those of its block, and the line feed */
	MANY = 128 /* intervals from which on it pays to write each block's tail once, or to pass over
		    * them four a turn for a row */
};

_Static_assert(__BYTE_ORDER__ == __ORDER_LITTLE_ENDIAN__, "a saved number is copied as it is");

/* ------------------------------------------------------------------ numbers */

/* Number i of an array or a file, which need not be aligned. */
static inline uint32_t number(const void *numbers, size_t i)
{
	uint32_t x;

	memcpy(&x, (const char *)numbers + 4 * i, sizeof x);
	return x;
}

static inline int32_t signed_number(const void *numbers, size_t i)
{
	return (int32_t)number(numbers, i);
}

/* ----------------------------------------------------------------- refusals */

/* The tests of arrays gather what is wrong without a branch on what they read: the compiler
 * makes vector code of them. */

/* 11: B, G or k outside its limits. */
static inline bool header_wrong(struct irr_header h)
{
	return outside(IRR_MAX_BUCKETS, h.buckets) || outside(IRR_MAX_BLOCKS, h.block_count) ||
	       outside(IRR_MAX_INTERVALS, h.interval_count);
}

/* Whether the first entries rise strictly from above 0, and stay below 2^31 (as signed
 * numbers they compare faster): whoever asks also wants the last below that. */
static inline bool rising(const void *xs, uint32_t count)
{
	int32_t right = -(signed_number(xs, 0) > 0);

#pragma GCC unroll 4
	for (uint32_t i = 1; i < count; i++)
		right &= -(signed_number(xs, i - 1) < signed_number(xs, i));
	return right != 0;
}

/* 12: tops that don't rise strictly, a first of 0, a last above its limit or above B. */
static inline bool tops_wrong(struct irr_header h, const void *tops)
{
	uint32_t bins = number(tops, h.block_count - 1);

	return !rising(tops, h.block_count) | (bins > IRR_MAX_BINS) | (bins > h.buckets);
}

/* 13: ends that don't rise strictly, a first of 0, a last other than B. */
static inline bool ends_wrong(struct irr_header h, const void *ends)
{
	return !rising(ends, h.interval_count) |
	       (number(ends, h.interval_count - 1) != h.buckets);
}

/* 14: an interval's block not below G. */
static inline bool blocks_wrong(struct irr_header h, const void *blocks)
{
	int32_t wrong = 0;

#pragma GCC unroll 4
	for (uint32_t i = 0; i < h.interval_count; i++)
		wrong |= -(number(blocks, i) > h.block_count - 1);
	return wrong != 0;
}

/* 15: a block whose intervals hold another number than its due. */
static inline bool holdings_wrong(struct irr_header h, struct share share, const void *tops,
				  const uint32_t sums[])
{
	uint32_t below = 0, wrong = 0;

	for (uint32_t j = 0; j < h.block_count; j++) {
		uint32_t through = due_below(share, number(tops, j));

		wrong |= sums[j] ^ (through - below);
		below = through;
	}
	return wrong != 0;
}

/* The refusal of a table whose arrays have their counts: 12 to 14, or 0. */
static inline uint32_t order_refusal(struct irr_header h, const void *tops, const void *ends,
				     const void *blocks)
{
	if (tops_wrong(h, tops))
		return 12;
	if (ends_wrong(h, ends))
		return 13;
	return blocks_wrong(h, blocks) ? 14 : 0;
}

/* Clears the sums of the blocks, four at a time. */
static inline void clear(uint32_t sums[SUMS], uint32_t block_count)
{
	for (uint32_t j = 0; j < block_count; j += 4)
		memset(sums + j, 0, 4 * sizeof *sums);
}

/* Where an adjustment is wrong: 15 if a block holds another number than its due, else 16. */
static __attribute__((noinline, cold)) uint32_t adjustment_refusal(const struct table *t)
{
	uint32_t sums[SUMS];
	uint32_t start = 0;

	clear(sums, t->header.block_count);
	for (uint32_t i = 0; i < t->header.interval_count; i++) {
		sums[t->blocks[i]] += t->ends[i] - start;
		start = t->ends[i];
	}
	return holdings_wrong(t->header, t->share, t->tops, sums) ? 15 : 16;
}

/* Meets an interval. Where its adjustment is right, its block holds before it the start less
 * the adjustment, and then the end less the adjustment: no turn waits for the sum of the
 * turn before it. Returns 0 where the block held that. */
static inline uint32_t meet(uint32_t start, uint32_t end, uint32_t block, uint32_t adjustment,
			    uint32_t sums[])
{
	uint32_t wrong = sums[block] ^ (start - adjustment);

	sums[block] = end - adjustment;
	return wrong;
}

/* Meets the intervals of a table, one a turn. Returns 0 where each block held what it should. */
static inline uint32_t walk_by_ones(uint32_t start, const uint32_t *ends, const uint32_t *stop,
				    const uint32_t *blocks, const uint32_t *adjustments,
				    uint32_t sums[])
{
	uint32_t wrong = 0;

	for (; ends < stop; ends++, blocks++, adjustments++) {
		wrong |= meet(start, *ends, *blocks, *adjustments, sums);
		start = *ends;
	}
	return wrong;
}

/* The same, four a turn, by hand: unrolled by the compiler it is slower. Not inlined, so that
 * the calls on a small map stay short. */
static __attribute__((noinline)) uint32_t walk_by_fours(const uint32_t *ends, const uint32_t *stop,
							const uint32_t *blocks,
							const uint32_t *adjustments,
							uint32_t *restrict sums)
{
	uint32_t start = 0, wrong = 0;

	for (; ends + 3 < stop; ends += 4, blocks += 4, adjustments += 4) {
		wrong |= meet(start, ends[0], blocks[0], adjustments[0], sums);
		wrong |= meet(ends[0], ends[1], blocks[1], adjustments[1], sums);
		wrong |= meet(ends[1], ends[2], blocks[2], adjustments[2], sums);
		wrong |= meet(ends[2], ends[3], blocks[3], adjustments[3], sums);
		start = ends[3];
	}
	return wrong | walk_by_ones(start, ends, stop, blocks, adjustments, sums);
}

/* 15 and 16, or 0, of a table that passes 12 to 14. */
static inline __attribute__((always_inline)) uint32_t sums_refusal(const struct table *t)
{
	uint32_t sums[SUMS];
	const uint32_t *stop = t->ends + t->header.interval_count;
	uint32_t wrong;

	clear(sums, t->header.block_count);
	if (t->header.interval_count < 4)
		wrong = walk_by_ones(0, t->ends, stop, t->blocks, t->adjustments, sums);
	else
		wrong = walk_by_fours(t->ends, stop, t->blocks, t->adjustments, sums);
	if (wrong != 0)
		return adjustment_refusal(t);
	return holdings_wrong(t->header, t->share, t->tops, sums) ? 15 : 0;
}

/* 30: the capacity is 0 or above its limit, or below the size of the largest bin plus the label,
 * in a map of which every bin has its due. */
static inline bool capacity_wrong(struct irr_header h, uint32_t bins)
{
	return outside(IRR_MAX_CAPACITY, h.capacity) || overfull(h.capacity, h.buckets, bins);
}

/* The refusal of a lent table: 11 to 16, 30, or 0. Then its share is known. */
static uint32_t check(struct table *t, size_t tops_length, size_t ends_length,
		      size_t blocks_length, size_t adjustments_length)
{
	struct irr_header h = t->header;
	uint32_t refusal;

	if (header_wrong(h) || tops_length < h.block_count || ends_length < h.interval_count ||
	    blocks_length < h.interval_count || adjustments_length < h.interval_count)
		return 11;
	refusal = order_refusal(h, t->tops, t->ends, t->blocks);
	if (refusal != 0)
		return refusal;
	t->share = share_of(h.buckets, bins_of(t));
	refusal = sums_refusal(t);
	if (refusal != 0)
		return refusal;
	return capacity_wrong(h, bins_of(t)) ? 30 : 0;
}

/* 21: less room than any new table may need. */
static bool room_short(size_t tops_length, size_t ends_length, size_t blocks_length,
		       size_t adjustments_length)
{
	return tops_length < IRR_MAX_BLOCKS || ends_length < IRR_MAX_INTERVALS ||
	       blocks_length < IRR_MAX_INTERVALS || adjustments_length < IRR_MAX_INTERVALS;
}

/* ---------------------------------------------------------------- move list */

/* Writes so many rows in which neither bin is the last of its block, but for the last row. */
static inline uint32_t *write_run(uint32_t *restrict row, uint32_t count, uint64_t bucket_bin,
				  uint32_t position, uint64_t place)
{
	for (; count > 0; count--, row += IRR_ROW) {
		memcpy(row, &bucket_bin, sizeof bucket_bin);
		row[2] = position;
		memcpy(row + 3, &place, sizeof place);
		bucket_bin += pair(1, 1);
		place++;
	}
	return row;
}

/* Writes the rows of the buckets from `bucket` on, `count` of them, which interval i of the
 * old map holds. `order` is the first bucket's order number, and so its rank in the new
 * block, of the bins from new_first to new_last. From row to row both places step, each by
 * one of two sums that are both ready before it is known which: in the block's last bin the
 * next bin is its first, and the position rises. */
static void write_rows(const struct table *old, uint32_t i, uint32_t bucket, uint32_t count,
		       uint32_t order, uint32_t new_last, uint32_t *restrict row)
{
	uint32_t first = first_bin(old, old->blocks[i]), last = old->tops[old->blocks[i]] - 1;
	uint32_t width = last - first + 1, rank = bucket - old->adjustments[i];
	uint32_t new_first = bins_of(old), new_width = new_last - new_first + 1;
	uint32_t position = rank / width + IRR_LABEL;
	uint64_t bucket_bin = pair(bucket, first + rank % width), last_bin = pair(0, last);
	uint64_t step = pair(1, 1), wrap = step - pair(0, width);
	uint64_t place = pair(new_first + order % new_width, order / new_width + IRR_LABEL);
	uint64_t new_wrap = pair(1, 1) - new_width;

	/* In wide blocks, whole runs up to the next last bin. */
	while (width >= 8 && new_width >= 8 && count > 0) {
		uint32_t run = min(last - (uint32_t)(bucket_bin >> 32), new_last - (uint32_t)place);

		run = min(run + 1, count);
		row = write_run(row, run, bucket_bin, position, place);
		count -= run;
		bucket_bin += pair(run, run);
		place += run;
		if (bucket_bin >= last_bin + pair(0, 1)) {
			bucket_bin -= pair(0, width);
			position++;
		}
		if ((uint32_t)place > new_last)
			place += pair(0, 1) - new_width;
	}
	for (uint32_t *end = row + (size_t)IRR_ROW * count; row < end; row += IRR_ROW) {
		uint64_t next = bucket_bin + step, next_wrapped = bucket_bin + wrap;
		uint64_t next_place = place + 1, next_place_wrapped = place + new_wrap;

		memcpy(row, &bucket_bin, sizeof bucket_bin);
		row[2] = position;
		memcpy(row + 3, &place, sizeof place);
		position += bucket_bin >= last_bin;
		bucket_bin = bucket_bin >= last_bin ? next_wrapped : next;
		place = (uint32_t)place >= new_last ? next_place_wrapped : next_place;
	}
}

/* Writes the rows from order number `first` on, `count` of them: whole intervals before
 * them are skipped, and the pass ends with the last row asked for. */
static void list_moves(const struct table *old, uint32_t bins, const uint32_t due[],
		       uint32_t first, uint32_t count, uint32_t *restrict rows)
{
	uint32_t start = 0, order = 0; /* order number of the interval's first move */

	for (uint32_t i = 0; count > 0; i++) {
		uint32_t end = old->ends[i];
		uint32_t cut = cut_of(old, due, i, start);
		uint32_t next = order + (end - cut);

		if (next > first) {
			uint32_t here = min(next - first, count);

			write_rows(old, i, cut + (first - order), here, first, bins - 1, rows);
			rows += (size_t)IRR_ROW * here;
			first += here;
			count -= here;
		}
		order = next;
		start = end;
	}
}

/* ------------------------------------------------------------ one row carried */

/* The word of the place of a rank in the block of `width` bins from `first` on. */
static inline size_t word_of(uint32_t capacity, uint32_t first, uint32_t width, uint32_t rank)
{
	return (size_t)(first + rank % width) * capacity + (rank / width + IRR_LABEL);
}

/* Does the row of order number `mark`, which is also its bucket's rank in the new block. Its
 * interval is i or a later one, and `rows` rows from i's first on come before it. */
static inline void carry_from(const struct table *old, uint32_t bins, const uint32_t due[],
			      uint32_t i, uint32_t rows, uint32_t mark, uint32_t *words)
{
	uint32_t start = start_of(old, i), cut = cut_of(old, due, i, start);

	while (old->ends[i] - cut <= rows) {
		rows -= old->ends[i] - cut;
		start = old->ends[i++];
		cut = cut_of(old, due, i, start);
	}

	uint32_t first = first_bin(old, old->blocks[i]);
	uint32_t width = old->tops[old->blocks[i]] - first, old_bins = bins_of(old);
	uint32_t rank = cut + rows - old->adjustments[i];

	words[word_of(old->header.capacity, old_bins, bins - old_bins, mark)] =
		words[word_of(old->header.capacity, first, width, rank)];
}

/* How many buckets of an interval move, where its block is due so many. */
static inline uint32_t moving(uint32_t due, uint32_t start, uint32_t end, uint32_t adjustment)
{
	return end - cut_at(due, start, end, adjustment);
}

/* The same of many intervals: those before the row's are passed over four a turn. */
static __attribute__((noinline)) void carry_by_fours(struct table old, uint32_t bins,
						     const uint32_t due[], uint32_t mark,
						     uint32_t *words)
{
	const uint32_t *ends = old.ends, *blocks = old.blocks, *adjustments = old.adjustments;
	const uint32_t *stop = ends + old.header.interval_count;
	uint32_t start = 0, rows = mark;

	for (; ends + 3 < stop; ends += 4, blocks += 4, adjustments += 4) {
		uint32_t here = moving(due[blocks[0]], start, ends[0], adjustments[0]) +
				moving(due[blocks[1]], ends[0], ends[1], adjustments[1]) +
				moving(due[blocks[2]], ends[1], ends[2], adjustments[2]) +
				moving(due[blocks[3]], ends[2], ends[3], adjustments[3]);

		if (rows < here)
			break;
		rows -= here;
		start = ends[3];
	}
	carry_from(&old, bins, due, (uint32_t)(ends - old.ends), rows, mark, words);
}

/* ---------------------------------------------------------- a list of buckets */

/* 32: a bucket smaller than the one before it. As with a table, no branch on the data. */
static inline bool falls(const uint32_t *buckets, size_t count)
{
	int32_t wrong = 0;

	for (size_t n = 1; n < count; n++)
		wrong |= -(buckets[n] < buckets[n - 1]);
	return wrong != 0;
}

/* The interval of a bucket, from interval i on, which is not past it: eight at a time, and in
 * the last eight by a count, without a branch on the data, since it can't be predicted. */
static inline uint32_t interval_from(const struct table *t, uint32_t i, uint32_t bucket)
{
	uint32_t count = t->header.interval_count;

	while (i + 8 < count && t->ends[i + 7] <= bucket)
		i += 8;
	if (i + 8 < count) {
		uint32_t past = 0;

		for (uint32_t j = 0; j < 7; j++)
			past += t->ends[i + j] <= bucket;
		return i + past;
	}
	while (t->ends[i] <= bucket)
		i++;
	return i;
}

/* Writes the place of number n of the list: its bin, and the position that has so many positions
 * of buckets below it. */
static inline void put_place(uint32_t *restrict places, size_t n, uint32_t bin, uint32_t below)
{
	uint64_t place = pair(bin, below + IRR_LABEL);

	memcpy(places + 2 * n, &place, sizeof place);
}

/* Writes the places of the buckets from n on that lie before `end`, all in one interval: so
 * many that they share a division. A rank is divided by the size of the block by taking the
 * upper half of its product with 2^64 / size, rounded up: that is exact, since a rank times a
 * size is below 2^64. Returns the number past them. */
static inline size_t place_run(const uint32_t *buckets, size_t n, size_t count, uint32_t end,
			       uint32_t first, uint32_t size, uint32_t adjustment,
			       uint32_t *restrict places)
{
	uint64_t inverse = UINT64_MAX / size + 1;

	if (size == 1) { /* its inverse does not fit */
		for (; n < count && buckets[n] < end; n++)
			put_place(places, n, first, buckets[n] - adjustment);
		return n;
	}
	for (; n < count && buckets[n] < end; n++) {
		uint32_t rank = buckets[n] - adjustment;
		uint32_t below = (uint32_t)(((unsigned __int128)inverse * rank) >> 64);

		put_place(places, n, first + rank - below * size, below);
	}
	return n;
}

/* Writes the places of buckets below B that don't fall: one walk of the intervals. */
static inline void place_each(struct table t, const uint32_t *buckets, size_t count,
			      uint32_t *restrict places)
{
	uint32_t i = 0, end = 0; /* the interval, and its end */
	uint32_t first = 0, size = 1, adjustment = 0;

	for (size_t n = 0; n < count;) {
		uint32_t bucket = buckets[n];

		if (end <= bucket) {
			i = interval_from(&t, i, bucket);
			end = t.ends[i];
			first = first_bin(&t, t.blocks[i]);
			size = t.tops[t.blocks[i]] - first;
			adjustment = t.adjustments[i];
			if (count - n > 8 && buckets[n + 8] < end) {
				n = place_run(buckets, n, count, end, first, size, adjustment,
					      places);
				continue;
			}
		}
		put_place(places, n, first + (bucket - adjustment) % size,
			  (bucket - adjustment) / size);
		n++;
	}
}

/* ---------------------------------------------------------------- the calls */

struct irr_table_reply
plain_initial(uint32_t buckets, uint32_t bins, uint32_t capacity,
	      uint32_t *tops, size_t tops_length, uint32_t *ends, size_t ends_length,
	      uint32_t *blocks, size_t blocks_length,
	      uint32_t *adjustments, size_t adjustments_length)
{
	struct new_table new = {tops, ends, blocks, adjustments, 0};

	if (room_short(tops_length, ends_length, blocks_length, adjustments_length))
		return refused_table(21);
	if (outside(IRR_MAX_CAPACITY, capacity))
		return refused_table(30);
	return initial(buckets, bins, capacity, &new);
}

struct irr_table_reply
plain_expand(struct irr_header header,
	     const uint32_t *tops, size_t tops_length, const uint32_t *ends, size_t ends_length,
	     const uint32_t *blocks, size_t blocks_length,
	     const uint32_t *adjustments, size_t adjustments_length,
	     uint32_t buckets, uint32_t bins,
	     uint32_t *new_tops, size_t new_tops_length,
	     uint32_t *new_ends, size_t new_ends_length,
	     uint32_t *new_blocks, size_t new_blocks_length,
	     uint32_t *new_adjustments, size_t new_adjustments_length)
{
	struct table t = {header, tops, ends, blocks, adjustments, {0, 0}};
	struct new_table new = {new_tops, new_ends, new_blocks, new_adjustments, 0};
	uint32_t refusal;

	if (room_short(new_tops_length, new_ends_length, new_blocks_length,
		       new_adjustments_length))
		return refused_table(21);
	refusal = check(&t, tops_length, ends_length, blocks_length, adjustments_length);
	if (refusal != 0)
		return refused_table(refusal);
	return grown(t, buckets, bins, new);
}

/* As place_reply. */
static inline struct irr_relocations_reply relocations_reply(uint32_t refusal, uint32_t written,
							     uint32_t total)
{
	struct irr_relocations_reply reply;
	uint64_t first = pair(refusal, written);

	memcpy(&reply, &first, sizeof first);
	reply.total = total;
	return reply;
}

struct irr_relocations_reply
plain_relocations(struct irr_header header,
		  const uint32_t *tops, size_t tops_length,
		  const uint32_t *ends, size_t ends_length,
		  const uint32_t *blocks, size_t blocks_length,
		  const uint32_t *adjustments, size_t adjustments_length,
		  uint32_t buckets, uint32_t bins, uint32_t first,
		  uint32_t *rows, size_t rows_length)
{
	struct table t = {header, tops, ends, blocks, adjustments, {0, 0}};
	uint32_t refusal = check(&t, tops_length, ends_length, blocks_length, adjustments_length);
	uint32_t due[IRR_MAX_BLOCKS];
	size_t room = rows_length / IRR_ROW;

	if (refusal == 0)
		refusal = growth_refusal(&t, buckets, bins);
	if (refusal != 0)
		return relocations_reply(refusal, 0, 0);

	uint32_t total = moved_count(&t, due_sizes(&t, share_of(buckets, bins), due));

	if (first > total)
		return relocations_reply(9, 0, 0);

	uint32_t count = room < total - first ? (uint32_t)room : total - first;

	list_moves(&t, bins, due, first, count, rows);
	return relocations_reply(0, count, total);
}

/* As place_reply. */
static inline struct irr_carry_reply carry_reply(uint32_t refusal, uint32_t mark,
						 uint32_t finished)
{
	struct irr_carry_reply reply;
	uint64_t first = pair(refusal, mark);

	memcpy(&reply, &first, sizeof first);
	reply.finished = finished;
	return reply;
}

struct irr_carry_reply
plain_carry(struct irr_header header,
	    const uint32_t *tops, size_t tops_length, const uint32_t *ends, size_t ends_length,
	    const uint32_t *blocks, size_t blocks_length,
	    const uint32_t *adjustments, size_t adjustments_length,
	    uint32_t buckets, uint32_t bins,
	    uint32_t *words, size_t words_length, uint32_t mark)
{
	struct table t = {header, tops, ends, blocks, adjustments, {0, 0}};
	uint32_t refusal = check(&t, tops_length, ends_length, blocks_length, adjustments_length);
	uint32_t due[IRR_MAX_BLOCKS];

	if (refusal == 0)
		refusal = growth_refusal(&t, buckets, bins);
	if (refusal != 0)
		return carry_reply(refusal, 0, 0);
	if (words_length < (size_t)bins * header.capacity)
		return carry_reply(40, 0, 0);

	uint32_t total = moved_count(&t, due_sizes(&t, share_of(buckets, bins), due));

	if (mark > total)
		return carry_reply(41, 0, 0);
	if (mark == total)
		return carry_reply(0, mark, 1);
	if (header.interval_count < MANY)
		carry_from(&t, bins, due, 0, mark, mark, words);
	else
		carry_by_fours(t, bins, due, mark, words);
	return carry_reply(0, mark + 1, 0);
}

struct irr_place_reply
plain_place(struct irr_header header,
	    const uint32_t *tops, size_t tops_length, const uint32_t *ends, size_t ends_length,
	    const uint32_t *blocks, size_t blocks_length,
	    const uint32_t *adjustments, size_t adjustments_length, uint32_t bucket)
{
	struct table t = {header, tops, ends, blocks, adjustments, {0, 0}};
	uint32_t refusal = check(&t, tops_length, ends_length, blocks_length, adjustments_length);

	if (refusal != 0)
		return place_reply(refusal, 0, 0);
	return placed(&t, bucket);
}

struct irr_places_reply
plain_places(struct irr_header header,
	     const uint32_t *tops, size_t tops_length, const uint32_t *ends, size_t ends_length,
	     const uint32_t *blocks, size_t blocks_length,
	     const uint32_t *adjustments, size_t adjustments_length,
	     const uint32_t *buckets, size_t buckets_length,
	     uint32_t *places, size_t places_length)
{
	struct table t = {header, tops, ends, blocks, adjustments, {0, 0}};
	uint32_t refusal;

	if (places_length / 2 < buckets_length)
		return (struct irr_places_reply){33};
	refusal = check(&t, tops_length, ends_length, blocks_length, adjustments_length);
	if (refusal != 0)
		return (struct irr_places_reply){refusal};
	if (falls(buckets, buckets_length))
		return (struct irr_places_reply){32};
	/* The last bucket is the largest. */
	if (buckets_length > 0 && buckets[buckets_length - 1] >= header.buckets)
		return (struct irr_places_reply){6};
	place_each(t, buckets, buckets_length, places);
	return (struct irr_places_reply){0};
}

struct irr_find_reply
plain_find(struct irr_header header,
	   const uint32_t *tops, size_t tops_length, const uint32_t *ends, size_t ends_length,
	   const uint32_t *blocks, size_t blocks_length,
	   const uint32_t *adjustments, size_t adjustments_length,
	   uint32_t bin, uint32_t position)
{
	struct table t = {header, tops, ends, blocks, adjustments, {0, 0}};
	uint32_t refusal = check(&t, tops_length, ends_length, blocks_length, adjustments_length);

	if (refusal != 0)
		return (struct irr_find_reply){.refusal = refusal};
	return found(&t, bin, position);
}

struct irr_bin_size_reply
plain_bin_size(struct irr_header header,
	       const uint32_t *tops, size_t tops_length,
	       const uint32_t *ends, size_t ends_length,
	       const uint32_t *blocks, size_t blocks_length,
	       const uint32_t *adjustments, size_t adjustments_length, uint32_t bin)
{
	struct table t = {header, tops, ends, blocks, adjustments, {0, 0}};
	uint32_t refusal = check(&t, tops_length, ends_length, blocks_length, adjustments_length);

	if (refusal != 0)
		return (struct irr_bin_size_reply){.refusal = refusal};
	if (bin >= bins_of(&t))
		return (struct irr_bin_size_reply){.refusal = 7};
	return (struct irr_bin_size_reply){0, size_of_bin(&t, bin)};
}

struct irr_room_reply
plain_room(uint32_t expansions)
{
	if (expansions > IRR_MAX_EXPANSIONS)
		return (struct irr_room_reply){.refusal = 9};
	return (struct irr_room_reply){0, expansions * (expansions + 1) / 2 + 1};
}

/* --------------------------------------------------------------- saved form */

/* Writes the first numbers of an array. Returns the place past them. */
static inline uint8_t *put_numbers(uint8_t *to, const void *numbers, uint32_t count)
{
	memcpy(to, numbers, 4 * (size_t)count);
	return to + 4 * (size_t)count;
}

static size_t saved_length(struct irr_header h)
{
	return 12 + 4 * (size_t)h.block_count + 8 * (size_t)h.interval_count;
}

struct irr_save_reply
plain_save(struct irr_header header,
	   const uint32_t *tops, size_t tops_length, const uint32_t *ends, size_t ends_length,
	   const uint32_t *blocks, size_t blocks_length,
	   const uint32_t *adjustments, size_t adjustments_length,
	   uint8_t *buffer, size_t buffer_length)
{
	struct table t = {header, tops, ends, blocks, adjustments, {0, 0}};
	uint32_t refusal = check(&t, tops_length, ends_length, blocks_length, adjustments_length);

	if (refusal != 0)
		return (struct irr_save_reply){.refusal = refusal};
	if (buffer_length < saved_length(header))
		return (struct irr_save_reply){.refusal = 21};

	uint32_t counts[] = {header.buckets, header.block_count, header.interval_count};

	buffer = put_numbers(buffer, counts, 3);
	buffer = put_numbers(buffer, tops, header.block_count);
	buffer = put_numbers(buffer, ends, header.interval_count);
	put_numbers(buffer, blocks, header.interval_count);
	return (struct irr_save_reply){0, (uint32_t)saved_length(header)};
}

/* Works out the adjustments of a table that passes 12 to 14. Returns 15, or 0. Two a turn, and
 * both sums are read before one is stored: a sum read right after it is stored is waited for.
 * In one block the second interval is then adjusted from the start of the first. */
static inline uint32_t adjust(struct irr_header h, const void *tops, const void *ends,
			      const void *blocks, uint32_t adjustments[IRR_MAX_INTERVALS])
{
	struct share share = share_of(h.buckets, number(tops, h.block_count - 1));
	uint32_t sums[SUMS];
	uint32_t start = 0, i = 0;

	clear(sums, h.block_count);
	for (; i + 1 < h.interval_count; i += 2) {
		uint32_t middle = number(ends, i), end = number(ends, i + 1);
		uint32_t block = number(blocks, i), other = number(blocks, i + 1);
		uint32_t first = start - sums[block];
		uint32_t second = (block == other ? start : middle) - sums[other];

		sums[block] = middle - first;
		sums[other] = end - second;
		adjustments[i] = first;
		adjustments[i + 1] = second;
		start = end;
	}
	if (i < h.interval_count) {
		uint32_t block = number(blocks, i);

		adjustments[i] = start - sums[block];
		sums[block] = number(ends, i) - adjustments[i];
	}
	return holdings_wrong(h, share, tops, sums) ? 15 : 0;
}

static inline struct irr_load_reply refused_load(uint32_t refusal)
{
	return (struct irr_load_reply){.refusal = refusal};
}

/* The file is tested where it lies, and its adjustments are worked out in an array of its
 * own: a refused file writes nothing. */
struct irr_load_reply
plain_load(const uint8_t *bytes, size_t bytes_length, uint32_t capacity,
	   uint32_t *tops, size_t tops_length, uint32_t *ends, size_t ends_length,
	   uint32_t *blocks, size_t blocks_length,
	   uint32_t *adjustments, size_t adjustments_length)
{
	uint32_t adjustment[IRR_MAX_INTERVALS];
	uint32_t refusal;

	if (room_short(tops_length, ends_length, blocks_length, adjustments_length))
		return refused_load(21);
	if (bytes_length < 12)
		return refused_load(11);

	struct irr_header h = {number(bytes, 0), capacity, number(bytes, 1), number(bytes, 2)};

	if (header_wrong(h) || bytes_length != saved_length(h))
		return refused_load(11);

	size_t tops_bytes = 4 * (size_t)h.block_count, bytes_each = 4 * (size_t)h.interval_count;
	const uint8_t *file_tops = bytes + 12;
	const uint8_t *file_ends = file_tops + tops_bytes;
	const uint8_t *file_blocks = file_ends + bytes_each;

	refusal = order_refusal(h, file_tops, file_ends, file_blocks);
	if (refusal == 0)
		refusal = adjust(h, file_tops, file_ends, file_blocks, adjustment);
	if (refusal == 0 && capacity_wrong(h, number(file_tops, h.block_count - 1)))
		refusal = 30;
	if (refusal != 0)
		return refused_load(refusal);
	memcpy(tops, file_tops, tops_bytes);
	memcpy(ends, file_ends, bytes_each);
	memcpy(blocks, file_blocks, bytes_each);
	memcpy(adjustments, adjustment, bytes_each);
	return (struct irr_load_reply){0, h};
}

/* -------------------------------------------------------------------- sheet */

/* A number right-aligned in its field, two digits at a time from the last. */
static inline void put_field(char *to, uint32_t value)
{
	char *end = to + FIELD;

	memset(to, ' ', FIELD);
	while (value >= 100) {
		end -= 2;
		put_pair(end, value % 100);
		value /= 100;
	}
	if (value >= 10)
		put_pair(end - 2, value);
	else
		end[-1] = (char)('0' + value);
}

static inline void put_head(char *to, uint32_t start, uint32_t end)
{
	put_field(to, start);
	put_field(to + FIELD, end - 1);
}

static inline void put_tail(char *to, const uint32_t *tops, uint32_t block)
{
	uint32_t first = block == 0 ? 0 : tops[block - 1];

	put_field(to, block);
	put_field(to + FIELD, first);
	put_field(to + 2 * FIELD, tops[block] - first);
	to[3 * FIELD] = '\n';
}

static inline void write_few(const struct table *t, char *to)
{
	uint32_t start = 0;

	for (uint32_t i = 0; i < t->header.interval_count; i++, to += IRR_LINE) {
		put_head(to, start, t->ends[i]);
		put_tail(to + HEAD, t->tops, t->blocks[i]);
		start = t->ends[i];
	}
}

static __attribute__((noinline)) void write_many(const struct table *t, char *to)
{
	char tails[IRR_MAX_BLOCKS][TAIL + 1];
	uint32_t start = 0;

	for (uint32_t j = 0; j < t->header.block_count; j++)
		put_tail(tails[j], t->tops, j);
	for (uint32_t i = 0; i < t->header.interval_count; i++, to += IRR_LINE) {
		put_head(to, start, t->ends[i]);
		memcpy(to + HEAD, tails[t->blocks[i]], TAIL);
		start = t->ends[i];
	}
}

struct irr_sheet_reply
plain_sheet(struct irr_header header,
	    const uint32_t *tops, size_t tops_length, const uint32_t *ends, size_t ends_length,
	    const uint32_t *blocks, size_t blocks_length,
	    const uint32_t *adjustments, size_t adjustments_length,
	    uint8_t *buffer, size_t buffer_length)
{
	struct table t = {header, tops, ends, blocks, adjustments, {0, 0}};
	uint32_t refusal = check(&t, tops_length, ends_length, blocks_length, adjustments_length);

	if (refusal != 0)
		return (struct irr_sheet_reply){.refusal = refusal};
	if (buffer_length < (size_t)IRR_LINE * header.interval_count)
		return (struct irr_sheet_reply){.refusal = 34};
	if (header.interval_count < MANY)
		write_few(&t, (char *)buffer);
	else
		write_many(&t, (char *)buffer);
	return (struct irr_sheet_reply){0, IRR_LINE * header.interval_count};
}
