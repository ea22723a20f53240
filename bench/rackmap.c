/* The program rackmap of document 01 in plain C: the baseline that the proved
 * program is measured against. Same lines, same replies, same method.
 *
 * It trusts the tables that it writes itself, and nothing of its input. The
 * method is in method.h.
 */
#define _GNU_SOURCE /* memrchr, rawmemchr */
#include <errno.h>
#include <unistd.h>

#include "method.h"

enum {
	MAX_LINE = 64,       /* bytes of a line, the line feed not counted */
	INPUT_BLOCK = 65536, /* bytes asked for by one read */
	OUTPUT_BLOCK = 65536,
	MAX_REPLY = 64       /* no reply line is longer: five numbers take 60 */
};

/* ------------------------------------------------------------------ output */

static char output[OUTPUT_BLOCK];
static char *output_next = output;

/* Writes what is buffered. Ends the program if nobody takes it. */
static void flush(void)
{
	const char *from = output;

	while (from < output_next) {
		ssize_t written = write(STDOUT_FILENO, from, (size_t)(output_next - from));

		if (written >= 0)
			from += written;
		else if (errno != EINTR)
			_exit(1);
	}
	output_next = output;
}

/* A place in the buffer with room for one reply line. */
static inline char *reply_room(void)
{
	if (output + OUTPUT_BLOCK - output_next < MAX_REPLY)
		flush();
	return output_next;
}

/* Writes a number below 100,000,000 in eight digits, all at once: its first four and its last
 * four stand in the halves of a word, then the pairs in its quarters, then the digits in its
 * bytes, the last one lowest. */
static inline void put_digits(char *to, uint32_t value)
{
	uint64_t fours = value + UINT64_C(4294957296) * (value / 10000);
	uint64_t pairs = fours + 65436 * ((fours * 5243 >> 19) & UINT64_C(0x7f0000007f));
	uint64_t digits = pairs + 246 * ((pairs * 103 >> 10) & UINT64_C(0xf000f000f000f));

	digits = __builtin_bswap64(digits) + UINT64_C(0x3030303030303030);
	memcpy(to, &digits, sizeof digits);
}

/* Writes a blank and a number, by pairs and eight digits at a time. The zero before a single
 * first digit is stored where the blank goes. */
static inline char *put_number(char *to, uint32_t value)
{
	char *end;

	if (value >= 100000000) {
		end = to + 11 - (value < 1000000000);
		put_pair(end - 10, value / 100000000);
		put_digits(end - 8, value % 100000000);
	} else if (value >= 1000000) {
		end = to + 9 - (value < 10000000);
		put_digits(end - 8, value);
	} else if (value >= 10000) {
		end = to + 7 - (value < 100000);
		put_pair(end - 6, value / 10000);
		put_pair(end - 4, value / 100 % 100);
		put_pair(end - 2, value % 100);
	} else if (value >= 100) {
		end = to + 5 - (value < 1000);
		put_pair(end - 4, value / 100);
		put_pair(end - 2, value % 100);
	} else {
		end = to + 3 - (value < 10);
		put_pair(end - 2, value);
	}
	*to = ' ';
	return end;
}

static inline char *put_text(char *to, const char *text)
{
	size_t length = strlen(text);

	memcpy(to, text, length);
	return to + length;
}

/* One reply line: a word, and one number or two. */
static inline void reply_one(const char *word, uint32_t a)
{
	char *p = put_text(reply_room(), word);

	p = put_number(p, a);
	*p++ = '\n';
	output_next = p;
}

static inline void reply_two(const char *word, uint32_t a, uint32_t b)
{
	char *p = put_text(reply_room(), word);

	p = put_number(p, a);
	p = put_number(p, b);
	*p++ = '\n';
	output_next = p;
}

static void refuse(uint32_t number)
{
	reply_one("refused", number);
}

/* ------------------------------------------------------------------ tables */

/* A table in memory of its own. */
struct map {
	struct irr_header header;
	uint32_t tops[IRR_MAX_BLOCKS];
	uint32_t ends[IRR_MAX_INTERVALS];
	uint32_t blocks[IRR_MAX_INTERVALS];
	uint32_t adjustments[IRR_MAX_INTERVALS];
	struct share share;
};

static struct map maps[2];
static struct map *map = &maps[0];    /* the present map */
static struct map *before = &maps[1]; /* the map before its latest growth */
static bool has_map;
static bool has_before;

static inline struct table to_read(const struct map *m)
{
	return (struct table){m->header, m->tops, m->ends, m->blocks, m->adjustments, m->share};
}

static inline struct new_table to_write(struct map *m)
{
	return (struct new_table){m->tops, m->ends, m->blocks, m->adjustments, 0};
}

/* ------------------------------------------------------------ the commands */

static void fresh(uint32_t buckets, uint32_t bins)
{
	struct new_table new = to_write(map);
	struct irr_table_reply reply = initial(buckets, bins, IRR_MAX_CAPACITY, &new);

	if (reply.refusal != 0) {
		refuse(reply.refusal);
		return;
	}
	map->header = reply.header;
	map->share = share_of(buckets, bins);
	has_map = true;
	has_before = false;
	reply_two("ok", 0, 1);
}

/* A refused growth leaves both tables as they are. */
static void grow(uint32_t buckets, uint32_t bins)
{
	struct map *old = map;
	struct irr_table_reply reply = grown(to_read(old), buckets, bins, to_write(before));

	if (reply.refusal != 0) {
		refuse(reply.refusal);
		return;
	}
	map = before;
	map->header = reply.header;
	map->share = share_of(buckets, bins);
	before = old;
	has_before = true;
	reply_two("ok", reply.moved, reply.header.interval_count);
}

static void where(uint32_t bucket)
{
	struct table t = to_read(map);
	struct irr_place_reply reply = placed(&t, bucket);

	if (reply.refusal != 0)
		refuse(reply.refusal);
	else
		reply_two("place", reply.bin, reply.position);
}

static void find(uint32_t bin, uint32_t position)
{
	struct table t = to_read(map);
	struct irr_find_reply reply = found(&t, bin, position);

	if (reply.refusal != 0)
		refuse(reply.refusal);
	else
		reply_one("bucket", reply.bucket);
}

/* The rows of the latest growth. Moved buckets take the ranks of the new block in
 * their own order, so the new place steps on from row to row; the old place does so
 * inside an interval. */
static void moves(void)
{
	if (!has_before || map->header.block_count == before->header.block_count)
		return;

	struct table old = to_read(before), now = to_read(map);
	uint32_t due[IRR_MAX_BLOCKS];
	uint32_t new_first = bins_of(&old), new_top = bins_of(&now);
	uint32_t new_bin = new_first, new_position = IRR_LABEL;
	uint32_t start = 0;

	due_sizes(&old, now.share, due);
	for (uint32_t i = 0; i < old.header.interval_count; i++) {
		uint32_t end = old.ends[i];
		uint32_t cut = cut_of(&old, due, i, start);

		start = end;
		if (cut == end)
			continue;

		uint32_t first = first_bin(&old, old.blocks[i]);
		uint32_t top = old.tops[old.blocks[i]];
		uint32_t rank = cut - old.adjustments[i];
		uint32_t bin = first + rank % (top - first);
		uint32_t position = rank / (top - first) + IRR_LABEL;

		for (uint32_t bucket = cut; bucket < end; bucket++) {
			char *p = put_text(reply_room(), "move");

			p = put_number(p, bucket);
			p = put_number(p, bin);
			p = put_number(p, position);
			p = put_number(p, new_bin);
			p = put_number(p, new_position);
			*p++ = '\n';
			output_next = p;

			if (++bin == top) {
				bin = first;
				position++;
			}
			if (++new_bin == new_top) {
				new_bin = new_first;
				new_position++;
			}
		}
	}
}

/* ------------------------------------------------------------------- lines */

/* A line ends with a line feed, which no word and no number has in it: so nothing is read
 * past a line but the rest of a block of 8 bytes. */

/* Takes the text if the line goes on with it. */
static inline bool take_text(const char **at, const char *text)
{
	size_t length = strlen(text);

	if (memcmp(*at, text, length) != 0)
		return false;
	*at += length;
	return true;
}

/* Takes up to eight digits. Returns their value. */
static inline uint32_t take_eight(const char **at)
{
	uint64_t bytes, others;
	unsigned count;

	memcpy(&bytes, *at, sizeof bytes);
	bytes ^= UINT64_C(0x3030303030303030); /* digits are 0 to 9 now, other bytes above */
	others = (bytes | (bytes + UINT64_C(0x7676767676767676))) & UINT64_C(0x8080808080808080);
	count = others == 0 ? 8 : (unsigned)__builtin_ctzll(others) / 8;
	if (count == 0)
		return 0;
	*at += count;
	bytes <<= 64 - 8 * count; /* zeros before the first digit */
	bytes = bytes * 10 + (bytes >> 8);                                     /* pairs */
	bytes = (bytes & UINT64_C(0x00ff00ff00ff00ff)) * 100 +
		((bytes >> 16) & UINT64_C(0x00ff00ff00ff00ff));                /* fours */
	bytes = (bytes & UINT64_C(0x0000ffff0000ffff)) * 10000 +
		((bytes >> 32) & UINT64_C(0x0000ffff0000ffff));
	return (uint32_t)bytes;
}

/* Takes one to ten digits with a value below 2^32. */
static inline bool take_number(const char **at, uint32_t *value)
{
	const char *first = *at;
	const char *p = first;
	uint64_t sum = take_eight(&p);

	while (p < first + 10 && (unsigned char)(*p - '0') < 10)
		sum = sum * 10 + (unsigned char)(*p++ - '0');
	*at = p;
	*value = (uint32_t)sum;
	return p != first && sum <= UINT32_MAX;
}

/* Takes a number and the line feed. */
static inline bool take_one(const char **at, uint32_t *a)
{
	return take_number(at, a) && take_text(at, "\n");
}

/* Takes two numbers with a blank between, and the line feed. */
static inline bool take_two(const char **at, uint32_t *a, uint32_t *b)
{
	return take_number(at, a) && take_text(at, " ") && take_one(at, b);
}

/* Refuses a readable line, other than a fresh one, while there is no map. Returns whether it did. */
static inline bool unmapped(void)
{
	if (!has_map)
		refuse(10);
	return !has_map;
}

/* Answers one line. Returns the place past it. No readable line is longer than 27 bytes, so
 * one of more than 64 is unreadable without a test of its length. */
static const char *answer(const char *line)
{
	const char *at = line;
	uint32_t a, b;

	if (take_text(&at, "where ")) {
		if (take_one(&at, &a)) {
			if (!unmapped())
				where(a);
			return at;
		}
	} else if (take_text(&at, "at ")) {
		if (take_two(&at, &a, &b)) {
			if (!unmapped())
				find(a, b);
			return at;
		}
	} else if (take_text(&at, "grow ")) {
		if (take_two(&at, &a, &b)) {
			if (!unmapped())
				grow(a, b);
			return at;
		}
	} else if (take_text(&at, "moves\n")) {
		if (!unmapped())
			moves();
		return at;
	} else if (take_text(&at, "fresh ")) {
		if (take_two(&at, &a, &b)) {
			fresh(a, b);
			return at;
		}
	}
	refuse(23);
	return (const char *)rawmemchr(line, '\n') + 1;
}

int main(void)
{
	static char input[MAX_LINE + 1 + INPUT_BLOCK + 8]; /* 8 that may be read past a line */
	size_t kept = 0; /* bytes of an unfinished line at the start of the input */

	for (;;) {
		flush();
		ssize_t got = read(STDIN_FILENO, input + kept, INPUT_BLOCK);

		if (got < 0 && errno == EINTR)
			continue;
		if (got < 0)
			return 1;
		if (got == 0)
			break;

		const char *line = input;
		const char *stop = input + kept + got;
		const char *last_feed = memrchr(input + kept, '\n', (size_t)got);

		while (last_feed != NULL && line <= last_feed)
			line = answer(line);

		/* Of an overlong line, so much is kept that it stays overlong. */
		kept = (size_t)(stop - line);
		if (kept > MAX_LINE + 1)
			kept = MAX_LINE + 1;
		memmove(input, line, kept);
	}
	if (kept > 0) {
		input[kept] = '\n';
		answer(input);
	}
	flush();
	return 0;
}
