/* Compares the proved calls (irr_...) with those by hand in irr.c (plain_...): first that
 * both answer the same, then how fast they are.
 *
 *   calls [rounds]
 *
 * A round measures both one right after the other; there are 101 unless another number is
 * given. Ends with 1 if an answer differs, with 2 if it can't compare.
 */
#define _DEFAULT_SOURCE
#include "plain.h"

#include <stdbool.h>
#include <stdio.h>
#include <stdlib.h>
#include <string.h>
#include <sys/mman.h>
#include <time.h>

enum {
	MAX_BLOCKS = 65,
	MAX_INTERVALS = 2081,
	MAX_SAVED = 12 + 4 * MAX_BLOCKS + 8 * MAX_INTERVALS,
	PAGE = 8192,       /* rows of the longer page of the move list */
	SHORT_PAGE = 64,
	MANY_BUCKETS = 324999988, /* of the maps that are measured */
	FEW_BUCKETS = 324988,     /* of one whose sheet has short numbers */
	ONE_BIN_BUCKETS = IRR_MAX_CAPACITY - IRR_LABEL, /* the most in one bin */
	CARRIED_BUCKETS = 999999910, /* of the maps whose words are carried */
	CARRIED_BINS = 2,  /* of their first blocks: the middle of a list is far from its start */
	MANY_BINS = 100,   /* of the first blocks of the others */
	RACK = 4096,       /* words of the largest rack that is compared whole */
	LIST = 100000,     /* buckets of the longest list */
	SHORT_LIST = 300,
	ARGUMENTS = 1024,  /* a power of 2: the calls of a measurement go round them */
	PAST = 4,          /* entries behind a lent array, which no call may write */
	MAX_WORKS = 64
};

/* ---------------------------------------------------------------- the calls */

enum call {
	INITIAL, EXPAND, RELOCATIONS, CARRY, PLACE, PLACES, FIND, BIN_SIZE, ROOM, SAVE, LOAD, SHEET,
	CALL_COUNT
};

static const char *const names[CALL_COUNT] = {
	"initial", "expand", "relocations", "carry", "place", "places", "find", "bin_size", "room",
	"save", "load", "sheet",
};

struct calls {
	__typeof__(irr_initial) *initial;
	__typeof__(irr_expand) *expand;
	__typeof__(irr_relocations) *relocations;
	__typeof__(irr_carry) *carry;
	__typeof__(irr_place) *place;
	__typeof__(irr_places) *places;
	__typeof__(irr_find) *find;
	__typeof__(irr_bin_size) *bin_size;
	__typeof__(irr_room) *room;
	__typeof__(irr_save) *save;
	__typeof__(irr_load) *load;
	__typeof__(irr_sheet) *sheet;
};

static const struct calls proved = {
	irr_initial, irr_expand, irr_relocations, irr_carry, irr_place, irr_places, irr_find,
	irr_bin_size, irr_room, irr_save, irr_load, irr_sheet,
};

static const struct calls plain = {
	plain_initial, plain_expand, plain_relocations, plain_carry, plain_place, plain_places,
	plain_find, plain_bin_size, plain_room, plain_save, plain_load, plain_sheet,
};

/* In the place of `bin_size`, a sum over the lent numbers: the least that reading them costs. */
static struct irr_bin_size_reply
sum_of_table(struct irr_header h, const uint32_t *tops, size_t tops_length,
	     const uint32_t *ends, size_t ends_length, const uint32_t *blocks, size_t blocks_length,
	     const uint32_t *adjustments, size_t adjustments_length, uint32_t bin)
{
	uint32_t sum = bin;

	(void)tops_length, (void)ends_length, (void)blocks_length, (void)adjustments_length;
	for (uint32_t j = 0; j < h.block_count; j++)
		sum += tops[j];
	for (uint32_t i = 0; i < h.interval_count; i++)
		sum += ends[i] + blocks[i] + adjustments[i];
	return (struct irr_bin_size_reply){0, sum};
}

static const struct calls summing = {.bin_size = sum_of_table};

/* In the place of `places`, a proved `place` for each bucket. */
static struct irr_places_reply
place_each(struct irr_header h, const uint32_t *tops, size_t tops_length,
	   const uint32_t *ends, size_t ends_length, const uint32_t *blocks, size_t blocks_length,
	   const uint32_t *adjustments, size_t adjustments_length,
	   const uint32_t *buckets, size_t buckets_length, uint32_t *places, size_t places_length)
{
	uint32_t refusal = 0;

	(void)places_length;
	for (size_t n = 0; n < buckets_length; n++) {
		struct irr_place_reply reply =
			irr_place(h, tops, tops_length, ends, ends_length, blocks, blocks_length,
				  adjustments, adjustments_length, buckets[n]);

		refusal |= reply.refusal;
		places[2 * n] = reply.bin;
		places[2 * n + 1] = reply.position;
	}
	return (struct irr_places_reply){refusal};
}

static const struct calls single = {.places = place_each};

/* In the place of `sheet`, its lines by snprintf, with no check: the buffer has room for a null
 * character behind the last. */
static struct irr_sheet_reply
format_each(struct irr_header h, const uint32_t *tops, size_t tops_length,
	    const uint32_t *ends, size_t ends_length, const uint32_t *blocks, size_t blocks_length,
	    const uint32_t *adjustments, size_t adjustments_length,
	    uint8_t *buffer, size_t buffer_length)
{
	uint32_t start = 0;

	(void)tops_length, (void)ends_length, (void)blocks_length, (void)adjustments;
	(void)adjustments_length, (void)buffer_length;
	for (uint32_t i = 0; i < h.interval_count; i++) {
		uint32_t block = blocks[i], first = block == 0 ? 0 : tops[block - 1];

		snprintf((char *)buffer + IRR_LINE * i, IRR_LINE + 1, "%10u%10u%10u%10u%10u\n", start,
			 ends[i] - 1, block, first, tops[block] - first);
		start = ends[i];
	}
	return (struct irr_sheet_reply){0, IRR_LINE * h.interval_count};
}

static const struct calls formatting = {.sheet = format_each};

struct map {
	struct irr_header header;
	uint32_t tops[MAX_BLOCKS], ends[MAX_INTERVALS], blocks[MAX_INTERVALS];
	uint32_t adjustments[MAX_INTERVALS];
};

/* The arrays of a map, as arguments. */
#define ARRAYS(m) (m)->tops, MAX_BLOCKS, (m)->ends, MAX_INTERVALS, \
		  (m)->blocks, MAX_INTERVALS, (m)->adjustments, MAX_INTERVALS

static void fail(const char *what, int status)
{
	fflush(stdout);
	fprintf(stderr, "calls: %s\n", what);
	exit(status);
}

/* ---------------------------------------------------------------- histories */

static struct map fresh(uint32_t buckets, uint32_t bins)
{
	struct map m = {0};
	struct irr_table_reply reply = plain.initial(buckets, bins, IRR_MAX_CAPACITY, ARRAYS(&m));

	if (reply.refusal != 0)
		fail("a fresh map is refused", 2);
	m.header = reply.header;
	return m;
}

static struct map grown(const struct map *old, uint32_t buckets, uint32_t bins)
{
	struct map m = {0};
	struct irr_table_reply reply = plain.expand(old->header, ARRAYS(old), buckets, bins,
						    ARRAYS(&m));

	if (reply.refusal != 0)
		fail("a growth of a history is refused", 2);
	m.header = reply.header;
	return m;
}

static uint32_t bins_of(const struct map *m)
{
	return m->tops[m->header.block_count - 1];
}

/* A fresh map, and one bin more at a time until there are so many blocks. Each growth cuts nearly
 * every old block's last interval. */
static struct map history(uint32_t buckets, uint32_t bins, uint32_t blocks)
{
	struct map m = fresh(buckets, bins);

	while (m.header.block_count < blocks)
		m = grown(&m, m.header.buckets, bins_of(&m) + 1);
	return m;
}

/* The largest table: the history to 65 blocks, and one bucket more. */
static struct map largest(void)
{
	struct map m = history(MANY_BUCKETS, MANY_BINS, MAX_BLOCKS);

	m = grown(&m, m.header.buckets + 1, bins_of(&m));
	if (m.header.block_count != MAX_BLOCKS || m.header.interval_count != MAX_INTERVALS)
		fail("the largest table is not 65 blocks and 2,081 intervals", 2);
	return m;
}

/* A map with the most intervals that can still have more bins: the history to 64 blocks, and
 * one bucket more at a time. */
static struct map most_intervals(void)
{
	struct map m = history(CARRIED_BUCKETS, CARRIED_BINS, MAX_BLOCKS - 1);

	while (m.header.interval_count < MAX_INTERVALS)
		m = grown(&m, m.header.buckets + 1, bins_of(&m));
	return m;
}

/* The map with the least capacity that it allows. */
static struct map tight(struct map m)
{
	uint32_t bins = bins_of(&m);

	m.header.capacity = (m.header.buckets + bins - 1) / bins + IRR_LABEL;
	return m;
}

/* How many rows the growth of a map to so many bins has. */
static uint32_t row_count(const struct map *m, uint32_t bins)
{
	return plain.relocations(m->header, ARRAYS(m), m->header.buckets, bins, 0, NULL, 0).total;
}

/* The words of a rack of so many bins like the map's. */
static size_t words_of(const struct map *m, uint32_t bins)
{
	return (size_t)bins * m->header.capacity;
}

/* ------------------------------------------------------------ random numbers */

static uint64_t random_state = 1;

static uint32_t random_number(void)
{
	random_state = random_state * 6364136223846793005u + 1442695040888963407u;
	return (uint32_t)(random_state >> 32);
}

/* From 0 to bound - 1. */
static uint32_t below(uint32_t bound)
{
	return (uint32_t)(((uint64_t)random_number() * bound) >> 32);
}

/* --------------------------------------------------------------- comparison */

/* A call with its arguments; which of them count depends on the call. */
struct question {
	enum call call;
	const struct map *map;   /* the lent table */
	size_t lengths[4];       /* of its arrays */
	uint32_t x, y, z;        /* the numbers, in their order */
	uint32_t capacity;       /* of a fresh or loaded map */
	size_t new_lengths[4];   /* of the arrays of a new table */
	size_t rows_length, words_length, buffer_length;
	const uint8_t *bytes;    /* the file */
	size_t bytes_length;
	const uint32_t *buckets; /* the list */
	size_t buckets_length, places_length;
};

struct answer {
	uint32_t reply[6];
	uint32_t tops[MAX_BLOCKS + PAST], ends[MAX_INTERVALS + PAST];
	uint32_t blocks[MAX_INTERVALS + PAST], adjustments[MAX_INTERVALS + PAST];
	uint32_t rows[5 * PAGE + PAST];
	uint32_t words[RACK + PAST];
	uint8_t buffer[IRR_MAX_SHEET + PAST];
	uint32_t places[2 * LIST + PAST]; /* last: only what is lent of it is compared */
};

static size_t answer_size(const struct question *q)
{
	return offsetof(struct answer, places) + (q->places_length + PAST) * sizeof(uint32_t);
}

#define REPLY(a, call) do {                                       \
	__typeof__(call) reply = (call);                          \
	memcpy((a)->reply, &reply, sizeof reply);                 \
} while (0)

#define LENT(q) (q)->map->header, (q)->map->tops, (q)->lengths[0], \
		(q)->map->ends, (q)->lengths[1], (q)->map->blocks, (q)->lengths[2], \
		(q)->map->adjustments, (q)->lengths[3]
#define NEW(q, a) (a)->tops, (q)->new_lengths[0], (a)->ends, (q)->new_lengths[1], \
		  (a)->blocks, (q)->new_lengths[2], (a)->adjustments, (q)->new_lengths[3]

/* The words of the racks that are too large to be compared whole: address space, in which only
 * the words that are carried take memory. NULL where it can't be had. */
static uint32_t *hall;
static size_t hall_length;

/* Carries a word of the hall; the answer takes the two words of the row. */
static void carry_in_hall(const struct calls *c, const struct question *q, struct answer *a)
{
	uint32_t row[IRR_ROW] = {0};

	plain.relocations(LENT(q), q->x, q->y, q->z, row, IRR_ROW);

	size_t from = (size_t)row[1] * q->map->header.capacity + row[2];
	size_t to = (size_t)row[3] * q->map->header.capacity + row[4];

	hall[from] = q->z + 1;
	hall[to] = ~q->z;
	REPLY(a, c->carry(LENT(q), q->x, q->y, hall, q->words_length, q->z));
	a->words[0] = hall[from];
	a->words[1] = hall[to];
}

/* Carries a word of the answer's. No two of them are the same. */
static void carry_in_rack(const struct calls *c, const struct question *q, struct answer *a)
{
	for (uint32_t i = 0; i < RACK + PAST; i++)
		a->words[i] = i;
	REPLY(a, c->carry(LENT(q), q->x, q->y, a->words, q->words_length, q->z));
}

static void ask(const struct calls *c, const struct question *q, struct answer *a)
{
	memset(a, 0xa5, answer_size(q));
	switch (q->call) {
	case INITIAL:
		REPLY(a, c->initial(q->x, q->y, q->capacity, NEW(q, a)));
		break;
	case EXPAND:
		REPLY(a, c->expand(LENT(q), q->x, q->y, NEW(q, a)));
		break;
	case RELOCATIONS:
		REPLY(a, c->relocations(LENT(q), q->x, q->y, q->z, a->rows, q->rows_length));
		break;
	case CARRY:
		if (q->words_length > RACK)
			carry_in_hall(c, q, a);
		else
			carry_in_rack(c, q, a);
		break;
	case PLACE:
		REPLY(a, c->place(LENT(q), q->x));
		break;
	case PLACES:
		REPLY(a, c->places(LENT(q), q->buckets, q->buckets_length,
				   a->places, q->places_length));
		break;
	case FIND:
		REPLY(a, c->find(LENT(q), q->x, q->y));
		break;
	case BIN_SIZE:
		REPLY(a, c->bin_size(LENT(q), q->x));
		break;
	case ROOM:
		REPLY(a, c->room(q->x));
		break;
	case SAVE:
		REPLY(a, c->save(LENT(q), a->buffer, q->buffer_length));
		break;
	case SHEET:
		REPLY(a, c->sheet(LENT(q), a->buffer, q->buffer_length));
		break;
	default:
		REPLY(a, c->load(q->bytes, q->bytes_length, q->capacity, NEW(q, a)));
	}
}

static unsigned long questions, accepted;
static bool seen[42]; /* refusals */

/* Asks both. Ends the program if their replies or any array that they were lent differ, or
 * if an array that is only to be read has changed. */
static void compare(const struct question *q)
{
	static struct answer of_proved, of_plain;
	static struct map table;
	static uint8_t file[MAX_SAVED];
	static uint32_t list[LIST];
	size_t list_size = q->buckets_length * sizeof *list;
	uint32_t refusal;

	table = *q->map;
	memcpy(file, q->bytes, q->bytes_length);
	memcpy(list, q->buckets, list_size);
	ask(&proved, q, &of_proved);
	ask(&plain, q, &of_plain);
	refusal = of_plain.reply[0];
	if (memcmp(&of_proved, &of_plain, answer_size(q)) != 0 ||
	    memcmp(&table, q->map, sizeof table) != 0 ||
	    memcmp(file, q->bytes, q->bytes_length) != 0 ||
	    memcmp(list, q->buckets, list_size) != 0) {
		fprintf(stderr, "calls: %s of %u, %u, %u or of %zu buckets differs: "
			"refusals %u and %u\n", names[q->call], q->x, q->y, q->z,
			q->buckets_length, of_proved.reply[0], refusal);
		exit(1);
	}
	questions++;
	accepted += refusal == 0;
	if (refusal < sizeof seen)
		seen[refusal] = true;
}

/* The question with full arrays. */
static struct question full_question(enum call call, const struct map *m)
{
	static const uint32_t no_buckets[1];

	return (struct question){
		.call = call,
		.map = m,
		.capacity = IRR_MAX_CAPACITY,
		.lengths = {MAX_BLOCKS, MAX_INTERVALS, MAX_INTERVALS, MAX_INTERVALS},
		.new_lengths = {MAX_BLOCKS, MAX_INTERVALS, MAX_INTERVALS, MAX_INTERVALS},
		.rows_length = 5 * SHORT_PAGE,
		.words_length = RACK,
		.buffer_length = IRR_MAX_SHEET,
		.bytes = (const uint8_t *)"",
		.buckets = no_buckets,
	};
}

/* A map of few buckets after some growths. */
static struct map small_map(void)
{
	uint32_t buckets = 1 + below(200);
	struct map m = fresh(buckets, 1 + below(buckets < 9 ? buckets : 9));

	for (uint32_t growths = below(9); growths > 0; growths--) {
		uint32_t more = below(2) * below(20);
		uint32_t bins = bins_of(&m) + below(4);

		if (bins <= m.header.buckets + more && more + bins > bins_of(&m))
			m = grown(&m, m.header.buckets + more, bins);
	}
	return m;
}

/* A number near x, or any. */
static uint32_t near(uint32_t x)
{
	return below(8) == 0 ? random_number() : x + below(5) - 2;
}

/* Breaks one entry of a table, mostly by little. */
static void damage(struct map *m)
{
	uint32_t block = below(m->header.block_count < MAX_BLOCKS ? m->header.block_count : 1);
	uint32_t count = m->header.interval_count;
	uint32_t i = below(count < MAX_INTERVALS ? count : MAX_INTERVALS);
	uint32_t *entries[] = {
		&m->header.buckets, &m->header.capacity, &m->header.block_count,
		&m->header.interval_count, &m->tops[block], &m->ends[i], &m->blocks[i],
		&m->adjustments[i],
	};
	uint32_t *entry = entries[below(8)];

	*entry = near(*entry);
}

/* A capacity for a map of these sizes: mostly that of its largest bin and the label or a little
 * more, or the greatest. Sizes that are 0 or too many bins are refused whatever it is. */
static uint32_t capacity_for(uint32_t buckets, uint32_t bins)
{
	uint32_t largest = bins == 0 ? 1 : buckets / bins + (buckets % bins > 0);
	uint32_t least = largest + IRR_LABEL;
	const uint32_t edges[4] = {least, largest, IRR_LABEL, IRR_MAX_CAPACITY};

	switch (below(4)) {
	case 0:
		return least;
	case 1:
		return least + below(3);
	case 2:
		return IRR_MAX_CAPACITY;
	default:
		return near(edges[below(4)]);
	}
}

/* A random list, with repeats and gaps, and room for its places. Mostly it does not fall. */
static void ask_list(struct question *q, const struct map *m)
{
	static uint32_t buckets[SHORT_LIST];
	uint32_t count = below(4) ? below(SHORT_LIST + 1) : below(4);
	uint32_t gap = below(4) ? 2 * (m->header.buckets / (count + 1)) + 2 : 1 + below(3);
	uint32_t bucket = below(gap);

	for (uint32_t n = 0; n < count; n++) {
		if (bucket >= m->header.buckets)
			bucket = m->header.buckets - 1;
		buckets[n] = bucket;
		bucket += below(gap);
	}
	for (uint32_t times = count > 0 ? below(3) : 0; times > 0; times--) {
		uint32_t n = below(2) ? below(count) : count - 1;

		buckets[n] = near(below(2) ? buckets[n] : m->header.buckets);
	}
	q->buckets = buckets;
	q->buckets_length = count;
	q->places_length = 2 * count + below(3) * below(2);
}

/* The words that a rack of the sizes asked for needs, or a few more, or a whole rack of those that
 * are compared where it needs more. */
static size_t words_for(const struct question *q)
{
	size_t words = (size_t)q->y * q->map->header.capacity + below(3);

	return words < RACK ? words : RACK;
}

/* Random numbers for a question about m: mostly such that it is accepted. */
static void ask_numbers(struct question *q, const struct map *m)
{
	uint32_t buckets = m->header.buckets, bins = bins_of(m);

	switch (q->call) {
	case INITIAL:
		q->x = below(2) ? near(buckets) : near(bins);
		q->y = below(8) ? near(bins) : near(65535);
		q->capacity = capacity_for(q->x, q->y);
		break;
	case EXPAND:
	case RELOCATIONS:
	case CARRY:
		q->x = below(4) ? buckets + below(3) * below(70) : near(buckets);
		q->y = below(4) ? bins + below(3) : near(bins);
		q->z = below(4) ? below(3) : near(buckets / (bins + 1));
		q->words_length = words_for(q);
		break;
	case ROOM:
		q->x = near(below(66));
		break;
	case PLACE:
		q->x = below(4) ? below(buckets) : near(buckets);
		break;
	case PLACES:
		ask_list(q, m);
		break;
	case LOAD:
		q->capacity = capacity_for(buckets, bins);
		break;
	default:
		q->x = below(4) ? below(bins) : near(bins);
		q->y = below(4) ? IRR_LABEL + below(buckets / bins + 1) :
		       near(below(2) ? IRR_LABEL + buckets / bins : below(IRR_LABEL + 1));
	}
}

/* Lends arrays and buffers that are often too short. */
static void ask_lengths(struct question *q, const struct map *m)
{
	size_t needed = q->call == SHEET ? IRR_LINE * m->header.interval_count :
			12 + 4 * m->header.block_count + 8 * m->header.interval_count;

	q->lengths[0] = m->header.block_count;
	for (int i = 1; i < 4; i++)
		q->lengths[i] = m->header.interval_count;
	q->lengths[below(4)] -= below(4) == 0;
	q->new_lengths[below(4)] -= below(4) == 0;
	q->rows_length = below(5 * SHORT_PAGE);
	q->words_length -= q->words_length > 0 && below(4) == 0;
	q->buffer_length = needed - (below(4) == 0);
	q->places_length = 2 * q->buckets_length;
	q->places_length -= q->places_length > 0 && below(4) == 0;
}

/* One random question of each kind about a map, whole or damaged. */
static void compare_about(const struct map *whole)
{
	static struct map m;
	static uint8_t file[MAX_SAVED];
	struct irr_save_reply saved = plain.save(whole->header, ARRAYS(whole), file, MAX_SAVED);

	for (int call = 0; call < CALL_COUNT; call++) {
		struct question q = full_question(call, &m);

		m = *whole;
		m.header.capacity = capacity_for(m.header.buckets, bins_of(&m));
		ask_numbers(&q, whole);
		q.bytes = file;
		q.bytes_length = saved.length;
		if (below(2))
			ask_lengths(&q, whole);
		for (uint32_t times = below(3); times > 0; times--)
			damage(&m);
		if (call == LOAD && below(2)) {
			file[4 * below(saved.length / 4)] += (uint8_t)(below(5) - 2);
			q.bytes_length -= below(4) == 0 ? below(saved.length) : 0;
		}
		compare(&q);
	}
}

/* Growths of a map by buckets alone: of the largest, they pass the limit of rule 8. */
static void compare_growths(const struct map *m)
{
	struct question q = full_question(EXPAND, m);

	q.y = bins_of(m);
	for (uint32_t more = 0; more < 200; more++) {
		q.x = m->header.buckets + more;
		compare(&q);
	}
}

/* Every call about maps of one bin that is nearly full, full or overfull, with the greatest
 * capacity: fresh, lent and in a file, and growths by one bucket. */
static void compare_one_bin(struct map m)
{
	for (uint32_t buckets = ONE_BIN_BUCKETS - 2; buckets <= IRR_MAX_BUCKETS; buckets++) {
		const uint32_t x[CALL_COUNT] = {
			[INITIAL] = buckets, [EXPAND] = buckets + 1, [RELOCATIONS] = buckets + 1,
			[CARRY] = buckets + 1, [PLACE] = buckets - 1,
		};
		const uint32_t y[CALL_COUNT] = {
			[INITIAL] = 1, [EXPAND] = 1, [RELOCATIONS] = 1, [CARRY] = 1,
			[FIND] = IRR_LABEL + buckets - 1,
		};
		const uint32_t file[6] = {buckets, 1, 1, 1, buckets, 0};

		m.header.buckets = m.ends[0] = buckets;
		for (int call = 0; call < CALL_COUNT; call++) {
			struct question q = full_question(call, &m);

			q.x = x[call];
			q.y = y[call];
			q.bytes = (const uint8_t *)file;
			q.bytes_length = sizeof file;
			compare(&q);
		}
	}
}

/* Both at any marks of the list of a growth to twice the bins, and at those of its ends. */
static void compare_carries(const struct map *m)
{
	struct question q = full_question(CARRY, m);
	uint32_t total;

	q.x = m->header.buckets;
	q.y = 2 * bins_of(m);
	q.words_length = words_of(m, q.y);
	total = row_count(m, q.y);

	const uint32_t edges[] = {0, 1, total - 1, total, total + 1, UINT32_MAX};

	for (size_t i = 0; i < 500 + sizeof edges / sizeof *edges; i++) {
		q.z = i < 500 ? below(total) : edges[i - 500];
		compare(&q);
	}
	q.words_length--;
	compare(&q);
}

static void compare_random(const struct map *large, size_t count)
{
	static const int numbers[] = {1, 2, 3, 4, 5, 6, 7, 8, 9, 11, 12, 13, 14, 15, 16, 21,
				      30, 31, 32, 33, 34, 40, 41};
	struct map m;

	for (int i = 0; i < 3000; i++) {
		m = i % 4 == 0 ? large[below((uint32_t)count)] : small_map();
		compare_about(&m);
	}
	for (size_t i = 0; i < sizeof numbers / sizeof *numbers; i++)
		if (!seen[numbers[i]])
			fail("a refusal did not come up", 2);
}

/* -------------------------------------------------------------- measurement */

/* A call to measure: its table, and the numbers that it goes round. */
struct work {
	enum call call;
	const struct map *map;
	char what[120];         /* the table and the arguments, in words */
	size_t rows_length;
	uint32_t rows;          /* that a call of relocations writes */
	size_t words_length;
	size_t bytes_length;
	uint8_t bytes[MAX_SAVED];
	uint32_t x[ARGUMENTS], y[ARGUMENTS], z;
	const uint32_t *lists;  /* of so many buckets each; their number is a power of 2 */
	size_t list_length, list_count;
	size_t times;           /* calls in a round */
	const struct calls *third; /* what is measured besides, or NULL: so many calls of it */
	size_t third_times;
	double *seconds[3];     /* of each round: proved, plain, and the third */
	double *ratios;         /* proved to plain, of each round */
};

/* What the measured calls write. */
static struct map out;
static uint32_t rows[5 * PAGE];
static uint32_t places[2 * LIST];
static uint8_t buffer[IRR_MAX_SHEET + 1];

#define INLINE static inline __attribute__((always_inline))
#define LOOP(name) INLINE uint32_t name(const struct calls *c, const struct work *w, size_t times)
#define EACH_CALL for (size_t n = 0; n < times; n++)
#define TURN (n % ARGUMENTS)

/* Each loop makes so many calls and returns a sum of their replies. */

LOOP(initial_loop)
{
	uint32_t sum = 0;

	EACH_CALL
		sum += c->initial(w->x[TURN], w->y[TURN], IRR_MAX_CAPACITY,
				  ARRAYS(&out)).header.buckets;
	return sum;
}

LOOP(expand_loop)
{
	uint32_t sum = 0;

	EACH_CALL
		sum += c->expand(w->map->header, ARRAYS(w->map), w->x[TURN], w->y[TURN],
				 ARRAYS(&out)).header.interval_count;
	return sum;
}

LOOP(relocations_loop)
{
	uint32_t sum = 0;

	EACH_CALL
		sum += c->relocations(w->map->header, ARRAYS(w->map), w->x[TURN], w->y[TURN],
				      w->z, rows, w->rows_length).written;
	return sum;
}

/* At the marks from w->z on: as many as there are other arguments. */
LOOP(carry_loop)
{
	uint32_t sum = 0;

	EACH_CALL
		sum += c->carry(w->map->header, ARRAYS(w->map), w->x[TURN], w->y[TURN],
				hall, w->words_length, w->z + TURN).mark;
	return sum;
}

LOOP(place_loop)
{
	uint32_t sum = 0;

	EACH_CALL
		sum += c->place(w->map->header, ARRAYS(w->map), w->x[TURN]).position;
	return sum;
}

LOOP(places_loop)
{
	uint32_t sum = 0;

	EACH_CALL {
		const uint32_t *list = w->lists + w->list_length * (n & (w->list_count - 1));

		sum += c->places(w->map->header, ARRAYS(w->map), list, w->list_length,
				 places, 2 * w->list_length).refusal;
	}
	return sum + places[0];
}

LOOP(find_loop)
{
	uint32_t sum = 0;

	EACH_CALL
		sum += c->find(w->map->header, ARRAYS(w->map), w->x[TURN], w->y[TURN]).bucket;
	return sum;
}

LOOP(bin_size_loop)
{
	uint32_t sum = 0;

	EACH_CALL
		sum += c->bin_size(w->map->header, ARRAYS(w->map), w->x[TURN]).buckets;
	return sum;
}

LOOP(room_loop)
{
	uint32_t sum = 0;

	EACH_CALL
		sum += c->room(w->x[TURN]).intervals;
	return sum;
}

LOOP(save_loop)
{
	uint32_t sum = 0;

	EACH_CALL
		sum += c->save(w->map->header, ARRAYS(w->map), buffer, MAX_SAVED).length;
	return sum;
}

LOOP(load_loop)
{
	uint32_t sum = 0;

	EACH_CALL
		sum += c->load(w->bytes, w->bytes_length, IRR_MAX_CAPACITY,
			       ARRAYS(&out)).header.interval_count;
	return sum;
}

LOOP(sheet_loop)
{
	uint32_t sum = 0;

	EACH_CALL
		sum += c->sheet(w->map->header, ARRAYS(w->map), buffer, IRR_MAX_SHEET).length;
	return sum;
}

INLINE uint32_t loop(const struct calls *c, const struct work *w, size_t times)
{
	switch (w->call) {
	case INITIAL: return initial_loop(c, w, times);
	case EXPAND: return expand_loop(c, w, times);
	case RELOCATIONS: return relocations_loop(c, w, times);
	case CARRY: return carry_loop(c, w, times);
	case PLACE: return place_loop(c, w, times);
	case PLACES: return places_loop(c, w, times);
	case FIND: return find_loop(c, w, times);
	case BIN_SIZE: return bin_size_loop(c, w, times);
	case ROOM: return room_loop(c, w, times);
	case SAVE: return save_loop(c, w, times);
	case LOAD: return load_loop(c, w, times);
	case SHEET: return sheet_loop(c, w, times);
	default: return 0;
	}
}

/* Each side has loops of its own, which call its functions by their names, as a program does.
 * Called by a pointer from one loop for both, the side that comes second in a round takes 0.8
 * nanoseconds a call more on one processor that was tried, whichever it is. */
static __attribute__((noinline)) uint32_t proved_loop(const struct work *w, size_t times)
{
	return loop(&proved, w, times);
}

static __attribute__((noinline)) uint32_t plain_loop(const struct work *w, size_t times)
{
	return loop(&plain, w, times);
}

static __attribute__((noinline)) uint32_t
third_loop(const struct calls *c, const struct work *w, size_t times)
{
	return loop(c, w, times);
}

/* Seconds of processor time that so many calls take. Each round has its frames elsewhere on
 * the stack: where they lie decides some nanoseconds of a short call. */
static double seconds(const struct calls *c, const struct work *w, size_t times, int round)
{
	static volatile uint32_t sink;
	volatile char gap[16 + 16 * (round % 16)];
	struct timespec from, to;

	gap[0] = 0;
	clock_gettime(CLOCK_PROCESS_CPUTIME_ID, &from);
	sink = c == &proved ? proved_loop(w, times) :
	       c == &plain ? plain_loop(w, times) : third_loop(c, w, times);
	clock_gettime(CLOCK_PROCESS_CPUTIME_ID, &to);
	(void)sink;
	(void)gap[0];
	return (double)(to.tv_sec - from.tv_sec) + 1e-9 * (double)(to.tv_nsec - from.tv_nsec);
}

/* So many calls that the plain ones take about 5 ms. */
static size_t calls_for(const struct work *w)
{
	size_t times = ARGUMENTS / 4;
	double taken;

	while ((taken = seconds(&plain, w, times, 0)) < 0.002)
		times *= 2;
	return (size_t)(0.005 * (double)times / taken) + 1;
}

/* A number with a comma before every three digits. */
static const char *grouped(double value)
{
	static char texts[4][32];
	static int turn;
	char digits[32];
	char *to = texts[turn = (turn + 1) % 4], *text = to;
	int length = snprintf(digits, sizeof digits, "%.0f", value);

	for (int i = 0; i < length; i++) {
		if (i > 0 && (length - i) % 3 == 0)
			*to++ = ',';
		*to++ = digits[i];
	}
	*to = '\0';
	return text;
}

static int ascending(const void *a, const void *b)
{
	double x = *(const double *)a, y = *(const double *)b;

	return x < y ? -1 : x > y;
}

static double *room_for(int rounds)
{
	double *xs = malloc((size_t)rounds * sizeof *xs);

	if (xs == NULL)
		fail("no memory", 2);
	return xs;
}

/* Measures all works, the calls of both one right after the other, now these and now those
 * first. A round goes through all works before the next, so that other load on the machine
 * spoils few rounds of a work. Then sorts what was measured. */
static void measure(struct work *works, size_t count, int rounds)
{
	const struct calls *both[2] = {&proved, &plain};

	for (size_t i = 0; i < count; i++) {
		works[i].times = calls_for(&works[i]);
		/* as many calls, or few where one does the work of many */
		works[i].third_times = works[i].call == PLACES || works[i].call == SHEET ?
				       works[i].times / 64 + 1 : works[i].times;
		for (int which = 0; which < 3; which++)
			works[i].seconds[which] = room_for(rounds);
		works[i].ratios = room_for(rounds);
	}
	for (int round = 0; round < rounds; round++) {
		for (size_t i = 0; i < count; i++) {
			struct work *w = &works[i];

			for (int turn = 0; turn < 2; turn++) {
				int which = (round + turn) % 2;

				w->seconds[which][round] = seconds(both[which], w, w->times, round);
			}
			if (w->third != NULL)
				w->seconds[2][round] = seconds(w->third, w, w->third_times, round);
			w->ratios[round] = w->seconds[0][round] / w->seconds[1][round];
		}
	}
	for (size_t i = 0; i < count; i++) {
		for (int which = 0; which < (works[i].third != NULL ? 3 : 2); which++)
			qsort(works[i].seconds[which], (size_t)rounds, sizeof(double), ascending);
		qsort(works[i].ratios, (size_t)rounds, sizeof(double), ascending);
	}
}

/* Asks both every question that is measured; each has to be accepted. */
static void compare_work(const struct work *w)
{
	struct question q = full_question(w->call, w->map);
	unsigned long before = accepted;

	q.rows_length = w->rows_length;
	q.words_length = w->words_length;
	q.bytes = w->bytes;
	q.bytes_length = w->bytes_length;
	q.buckets_length = w->list_length;
	q.places_length = 2 * w->list_length;

	size_t count = w->call == PLACES ? w->list_count : ARGUMENTS;

	for (size_t i = 0; i < count; i++) {
		q.x = w->x[i];
		q.y = w->y[i];
		q.z = w->z + (w->call == CARRY ? (uint32_t)i : 0);
		if (w->call == PLACES)
			q.buckets = w->lists + w->list_length * i;
		compare(&q);
	}
	if (accepted - before != count)
		fail("a call that is to be measured is refused", 2);
}

/* --------------------------------------------------------- what is measured */

static struct work works[MAX_WORKS];
static size_t work_count;

/* A new work: numbers that suit most calls, random but the same every time. */
static struct work *add(enum call call, const struct map *m, const char *what)
{
	struct work *w = &works[work_count++];

	if (work_count > MAX_WORKS)
		fail("too many measurements", 2);
	w->call = call;
	w->map = m;
	snprintf(w->what, sizeof w->what, "%s", what);
	w->third = call == BIN_SIZE ? &summing : call == SHEET ? &formatting : NULL;
	w->bytes_length = plain.save(m->header, ARRAYS(m), w->bytes, MAX_SAVED).length;
	for (int i = 0; i < ARGUMENTS; i++) {
		uint32_t bins = bins_of(m);

		w->x[i] = call == PLACE ? below(m->header.buckets) : below(bins);
		w->y[i] = IRR_LABEL + below(m->header.buckets / bins);
		if (call == ROOM)
			w->x[i] = below(65);
		if (call == INITIAL) {
			w->x[i] = 65535 + below(900000000);
			w->y[i] = 1 + below(65535);
		}
	}
	return w;
}

/* A growth to the sizes given. */
static struct work *add_growth(enum call call, const struct map *m, uint32_t buckets,
			       uint32_t bins, const char *what)
{
	struct work *w = add(call, m, what);

	for (int i = 0; i < ARGUMENTS; i++) {
		w->x[i] = buckets;
		w->y[i] = bins;
	}
	return w;
}

/* A page of the move list of a growth without new buckets, from its first row or from the
 * middle of its list. */
static void add_page(const struct map *m, uint32_t bins, bool middle, uint32_t page,
		     const char *where)
{
	uint32_t total = row_count(m, bins);
	struct work *w = add_growth(RELOCATIONS, m, m->header.buckets, bins, "");

	w->z = middle ? total / 2 : 0;
	w->rows = page;
	w->rows_length = 5 * page;
	snprintf(w->what, sizeof w->what, "%s: %s of %s rows, a page of %s", where,
		 middle ? "the middle" : "the start", grouped(total), grouped(page));
}

static void add_pages(const struct map *m, uint32_t bins, const char *where)
{
	add_page(m, bins, false, PAGE, where);
	add_page(m, bins, true, PAGE, where);
	add_page(m, bins, false, SHORT_PAGE, where);
	add_page(m, bins, true, SHORT_PAGE, where);
}

static int ascending_numbers(const void *a, const void *b)
{
	uint32_t x = *(const uint32_t *)a, y = *(const uint32_t *)b;

	return x < y ? -1 : x > y;
}

/* Lists of so many random buckets each: many, so that the branches of none are learnt by
 * heart. */
static struct work *add_lists(const struct map *m, size_t length, size_t count, const char *where)
{
	struct work *w = add(PLACES, m, "");
	uint32_t *lists = malloc(length * count * sizeof *lists);

	if (lists == NULL)
		fail("no memory", 2);
	for (size_t i = 0; i < length * count; i++)
		lists[i] = below(m->header.buckets);
	for (size_t i = 0; i < count; i++)
		qsort(lists + length * i, length, sizeof *lists, ascending_numbers);
	w->lists = lists;
	w->list_length = length;
	w->list_count = count;
	snprintf(w->what, sizeof w->what, "%s: a list of %s", where, grouped((double)length));
	return w;
}

/* The maps of the measurements, by their blocks or what becomes of them; the widest, which
 * has as many bins as a map may have, is only asked about. */
enum {
	ONE, TWELVE, THIRTY_TWO, SIXTY_FOUR, LARGEST, HALVED_ONE, HALVED_TEN, WIDEST, SHORT_NUMBERS,
	CARRIED_ONE, CARRIED_TWELVE, CARRIED_MOST, MAP_COUNT
};
static struct map maps[MAP_COUNT];

static void make_maps(void)
{
	maps[ONE] = history(MANY_BUCKETS, MANY_BINS, 1);
	maps[TWELVE] = history(MANY_BUCKETS, MANY_BINS, 12);
	maps[THIRTY_TWO] = history(MANY_BUCKETS, MANY_BINS, 32);
	maps[SIXTY_FOUR] = history(MANY_BUCKETS, MANY_BINS, 64);
	maps[LARGEST] = largest();
	maps[HALVED_ONE] = fresh(ONE_BIN_BUCKETS, 1);
	maps[HALVED_TEN] = fresh(1000000000, 10);
	maps[WIDEST] = fresh(999999999, 65535);
	maps[SHORT_NUMBERS] = history(FEW_BUCKETS, MANY_BINS, 64);
	maps[CARRIED_ONE] = tight(history(CARRIED_BUCKETS, CARRIED_BINS, 1));
	maps[CARRIED_TWELVE] = tight(history(CARRIED_BUCKETS, CARRIED_BINS, 12));
	maps[CARRIED_MOST] = tight(most_intervals());
}

/* Address space for the words of the maps that are carried. Small pages: a word that is carried
 * takes no more than one. */
static void open_hall(void)
{
	for (int i = CARRIED_ONE; i <= CARRIED_MOST; i++) {
		size_t words = words_of(&maps[i], 2 * bins_of(&maps[i]));

		hall_length = words > hall_length ? words : hall_length;
	}
	hall = mmap(NULL, hall_length * sizeof *hall, PROT_READ | PROT_WRITE,
		    MAP_PRIVATE | MAP_ANONYMOUS | MAP_NORESERVE, -1, 0);
	if (hall == MAP_FAILED) {
		hall = NULL;
		printf("`carry` is not measured: no address space for %s words.\n",
		       grouped((double)hall_length));
		return;
	}
	madvise(hall, hall_length * sizeof *hall, MADV_NOHUGEPAGE);
}

/* Rows of the list of a growth to twice the bins, a call each: from its middle on, or its last. */
static void add_carry(const struct map *m, bool last)
{
	uint32_t bins = 2 * bins_of(m), total = row_count(m, bins);
	struct work *w = add_growth(CARRY, m, m->header.buckets, bins, "");

	w->z = last ? total - ARGUMENTS : total / 2;
	w->words_length = words_of(m, bins);
	snprintf(w->what, sizeof w->what, "intervals %s, blocks %u: the %s of %s rows",
		 grouped(m->header.interval_count), m->header.block_count,
		 last ? "end" : "middle", grouped(total));
}

/* On a fresh map, on few intervals, and on the most. */
static void add_carries(void)
{
	if (hall == NULL)
		return;
	for (int i = CARRIED_ONE; i <= CARRIED_MOST; i++)
		add_carry(&maps[i], false);
	add_carry(&maps[CARRIED_MOST], true);
}

/* The calls on the largest table and on a fresh one. */
static void add_calls(void)
{
	const struct map *one = &maps[ONE], *all = &maps[LARGEST], *most = &maps[SIXTY_FOUR];
	enum call plain_ones[] = {PLACE, FIND, BIN_SIZE, SAVE, LOAD};

	for (size_t i = 0; i < sizeof plain_ones / sizeof *plain_ones; i++) {
		add(plain_ones[i], all, "largest");
		add(plain_ones[i], one, "fresh");
	}
	add_lists(all, 1, ARGUMENTS, "largest");
	add_lists(all, SHORT_LIST, 256, "largest")->third = &single;
	add_lists(all, LIST, 1, "largest");
	add_growth(EXPAND, all, all->header.buckets + 1, bins_of(all),
		   "largest: one bucket more, which lengthens the last interval");
	add_growth(EXPAND, most, most->header.buckets, bins_of(most) + 1,
		   "64 blocks: one bin more, which splits intervals of all blocks");
	add_growth(EXPAND, one, one->header.buckets + 1, bins_of(one),
		   "fresh: one bucket more");
	add_growth(EXPAND, one, one->header.buckets, bins_of(one) + 1, "fresh: one bin more");
	add_pages(most, bins_of(most) + 1, "64 blocks to 65");
	add_pages(&maps[HALVED_ONE], 2, "1 bin to 2");
	add_pages(&maps[HALVED_TEN], 20, "10 bins to 20");
	add_carries();
	add(INITIAL, one, "any sizes");
	add(ROOM, one, "0 to 64 growths");
	add(SHEET, all, "largest");
	add(SHEET, &maps[SHORT_NUMBERS], "64 blocks, 324,988 buckets");
	add(SHEET, &maps[TWELVE], "12 blocks");
	add(SHEET, one, "fresh");
}

/* The same calls on tables of rising length. */
static void add_lengths(void)
{
	static const int sizes[] = {ONE, TWELVE, THIRTY_TWO, SIXTY_FOUR, LARGEST};
	char what[100];

	for (int i = 0; i < 10; i++) {
		const struct map *m = &maps[sizes[i % 5]];
		uint32_t bins = bins_of(m) + (m->header.block_count < MAX_BLOCKS);

		snprintf(what, sizeof what, "intervals %s, blocks %u%s",
			 grouped(m->header.interval_count), m->header.block_count,
			 i < 5 ? "" : bins > bins_of(m) ? ": one bin more" : ": one bucket more");
		if (i < 5)
			add(PLACE, m, what);
		else
			add_growth(EXPAND, m, m->header.buckets + (bins == bins_of(m)), bins,
				   what);
	}
}

/* --------------------------------------------------------------------- main */

static int rounds = 101;

/* The value in the middle of those measured, or a quarter before or behind it. */
static double quartile(const double *sorted, int quarters)
{
	return sorted[(rounds - 1) * quarters / 4];
}

/* What the words for the tables mean. */
static void print_histories(void)
{
	printf("\nTables: a fresh map of 324,999,988 buckets in 100 bins (fresh), then one bin\n"
	       "more at a time to 12, 32 and 64 blocks, and to 65 with one bucket more at the\n"
	       "end (largest: %s intervals). \"1 bin to 2\" and \"10 bins to 20\" are growths\n"
	       "of fresh maps of %s and of %s buckets.\n",
	       grouped(maps[LARGEST].header.interval_count),
	       grouped(maps[HALVED_ONE].header.buckets), grouped(maps[HALVED_TEN].header.buckets));
	if (hall == NULL)
		return;
	printf("`carry` is measured on such histories of %s buckets from %d bins on, the last\n"
	       "with one bucket more at a time to %s intervals; each has the least capacity, and\n"
	       "grows to twice its bins. A call is a row.\n", grouped(CARRIED_BUCKETS), CARRIED_BINS,
	       grouped(maps[CARRIED_MOST].header.interval_count));
}

static void print_table(const char *title, const struct work *from, const struct work *to)
{
	printf("\n%s\n\n| call | table | proved | C | proved time / C time | quartiles |\n", title);
	printf("|---|---|---:|---:|---:|---:|\n");
	for (const struct work *w = from; w < to; w++) {
		double units = (double)w->times * (w->call == RELOCATIONS ? w->rows :
						   w->call == PLACES ? (double)w->list_length : 1);

		printf("| `%s` | %s | %s | %s | %.2f | %.2f to %.2f |\n", names[w->call], w->what,
		       grouped(units / quartile(w->seconds[0], 2)),
		       grouped(units / quartile(w->seconds[1], 2)), quartile(w->ratios, 2),
		       quartile(w->ratios, 1), quartile(w->ratios, 3));
	}
}

/* What the check reads: all numbers of the table, 12 bytes an interval and 4 a block.
 * `bin_size` does little else. */
static void print_bytes(void)
{
	static const char *const what[3] = {"`bin_size`, proved", "`bin_size`, C", "their sum in C"};
	const struct work *w = works;

	while (w->call != BIN_SIZE || w->map != &maps[LARGEST])
		w++;

	double bytes = 12.0 * w->map->header.interval_count + 4.0 * w->map->header.block_count;

	printf("\nThe %s bytes of the largest table, bytes read a second:\n\n", grouped(bytes));
	printf("| | bytes a second | time / time of the sum |\n|---|---:|---:|\n");
	for (int which = 0; which < 3; which++) {
		double taken = quartile(w->seconds[which], 2);

		printf("| %s | %s | %.2f |\n", what[which],
		       grouped(bytes * (double)w->times / taken),
		       taken / quartile(w->seconds[2], 2));
	}
}

/* What a list costs in one call, and bucket by bucket. */
static void print_single(void)
{
	const struct work *w = works;

	while (w->third != &single)
		w++;

	double batch = quartile(w->seconds[0], 2) / (double)w->times;
	double each = quartile(w->seconds[2], 2) / (double)w->third_times;

	printf("\n%zu buckets of the largest table, both proved: %.2f microseconds in one call of\n"
	       "`places`, %.2f in %zu calls of `place`, which is %.0f times as long.\n",
	       w->list_length, 1e6 * batch, 1e6 * each, w->list_length, each / batch);
}

/* What a sheet costs by snprintf, without any check of the table. */
static void print_formatted(void)
{
	const struct work *w = works;

	while (w->third != &formatting)
		w++;

	double proved_call = quartile(w->seconds[0], 2) / (double)w->times;
	double formatted = quartile(w->seconds[2], 2) / (double)w->third_times;

	printf("\nThe sheet of the largest table: %.1f microseconds by the proved `sheet`, check and all,\n"
	       "%.1f by snprintf without a check, which is %.1f times as long.\n",
	       1e6 * proved_call, 1e6 * formatted, formatted / proved_call);
}

static void print_slower(void)
{
	bool slower = false;

	printf("\n");
	for (const struct work *w = works; w < works + work_count; w++) {
		double ratio = quartile(w->ratios, 2);

		if (ratio > 1.0) {
			printf("Above 1.00: %.2f, `%s`, %s\n", ratio, names[w->call], w->what);
			slower = true;
		}
	}
	if (!slower)
		printf("None is above 1.00.\n");
}

int main(int argc, char **argv)
{
	size_t calls_end;

	if (argc > 1)
		rounds = atoi(argv[1]);
	if (rounds < 1)
		fail("the number of rounds is not above 0", 2);
	make_maps();
	open_hall();
	add_calls();
	calls_end = work_count;
	add_lengths();

	compare_random(maps, MAP_COUNT);
	compare_growths(&maps[LARGEST]);
	compare_one_bin(maps[HALVED_ONE]);
	for (int i = CARRIED_ONE; i <= CARRIED_MOST && hall != NULL; i++)
		compare_carries(&maps[i]);
	for (size_t i = 0; i < work_count; i++)
		compare_work(&works[i]);
	printf("The same answers to %s questions, %s of them refused.\n",
	       grouped((double)questions), grouped((double)(questions - accepted)));
	fflush(stdout);

	measure(works, work_count, rounds);
	print_histories();
	print_table("Calls a second, rows a second for `relocations`, buckets a second for\n"
		    "`places`, the median of the rounds:", works, works + calls_end);
	print_table("The same by the number of intervals:", works + calls_end,
		    works + work_count);
	print_bytes();
	print_single();
	print_formatted();
	print_slower();
	return 0;
}
