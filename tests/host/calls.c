/* One comparison of a call of the archive with the reference. */
#define _DEFAULT_SOURCE
#include "calls.h"

#include <inttypes.h>
#include <signal.h>
#include <stdio.h>
#include <string.h>
#include <unistd.h>

#include "lent.h"
#include "random.h"
#include "reference.h"

enum { REFUSALS = 42, SHOWN = 10 };

static const char *const names[CALLS] = {"irr_initial", "irr_expand", "irr_relocations",
                                         "irr_carry",   "irr_place",  "irr_places",
                                         "irr_find",    "irr_bin_size", "irr_room",
                                         "irr_save",    "irr_load",   "irr_sheet"};

/* the refusals that each call can answer; 0 is an accepted call */
static const signed char possible[CALLS][REFUSALS] = {
    {0, 21, 30, 1, 2, 31, -1},
    {0, 21, 11, 12, 13, 14, 15, 16, 30, 1, 2, 3, 4, 5, 31, 8, -1},
    {0, 11, 12, 13, 14, 15, 16, 30, 1, 2, 3, 4, 5, 31, 9, -1},
    {0, 11, 12, 13, 14, 15, 16, 30, 1, 2, 3, 4, 5, 31, 40, 41, -1},
    {0, 11, 12, 13, 14, 15, 16, 30, 6, -1},
    {0, 33, 11, 12, 13, 14, 15, 16, 30, 32, 6, -1},
    {0, 11, 12, 13, 14, 15, 16, 30, 7, -1},
    {0, 11, 12, 13, 14, 15, 16, 30, 7, -1},
    {0, 9, -1},
    {0, 11, 12, 13, 14, 15, 16, 30, 21, -1},
    {0, 21, 11, 12, 13, 14, 15, 30, -1},
    {0, 11, 12, 13, 14, 15, 16, 30, 34, -1},
};

static struct lent in[4], out[4], list, more;
static uint64_t seed, compared[CALLS], answered[CALLS][REFUSALS];
static uint32_t most_blocks, most_intervals;
static int fault_count, lend_enough;
static volatile sig_atomic_t current = -1;

/* COUNTS */

static void memory_fault(int signal)
{
    (void)signal;
    const char *name = current < 0 ? "the tests" : names[current];
    const char before[] = "memory fault in ", after[] = " or its reference\n";
    if (write(2, before, sizeof before - 1) < 0 || write(2, name, strlen(name)) < 0 ||
        write(2, after, sizeof after - 1) < 0)
        _exit(3);
    _exit(1);
}

void calls_open(uint64_t with_seed)
{
    struct sigaction action;
    memset(&action, 0, sizeof action);
    action.sa_handler = memory_fault;
    sigaction(SIGSEGV, &action, NULL);
    sigaction(SIGBUS, &action, NULL);
    seed = with_seed;
    random_seed(with_seed);
    for (int i = 0; i < 4; i++) {
        lent_open(&in[i]);
        lent_open(&out[i]);
    }
    lent_open(&list);
    lent_open(&more);
}

void fault(const char *what, uint32_t a, uint32_t b, uint32_t c)
{
    if (fault_count++ < SHOWN)
        printf("FAULT %s (%" PRIu32 ", %" PRIu32 ", %" PRIu32 ")\n", what, a, b, c);
}

int faults(void)
{
    return fault_count;
}

void calls_lend_enough(int enough)
{
    lend_enough = enough;
}

int calls_summary(void)
{
    for (int call = 0; call < CALLS; call++) {
        printf("%-15s %8" PRIu64 " compared; refusals:", names[call], compared[call]);
        for (int r = 0; r < REFUSALS; r++)
            if (answered[call][r] > 0)
                printf(" %d (%" PRIu64 ")", r, answered[call][r]);
        printf("\n");
        for (int i = 0; possible[call][i] >= 0; i++)
            if (answered[call][possible[call][i]] == 0)
                fault("refusal never seen: call, number", (uint32_t)call,
                      (uint32_t)possible[call][i], 0);
    }
    printf("largest table: %" PRIu32 " blocks, %" PRIu32 " intervals\n", most_blocks,
           most_intervals);
    if (most_blocks != IRR_MAX_BLOCKS || most_intervals != IRR_MAX_INTERVALS)
        fault("no table of 65 blocks or of 2,081 intervals", most_blocks, most_intervals, 0);
    return fault_count;
}

/* LENDING */

static size_t enough_or_more(size_t count)
{
    return count + (once_in(4) ? 1 + below(6) : 0);
}

/* lends the four arrays of a table to read: at times longer, at times one of them shorter. The
 * counts of a damaged header are met with junk, where they are not far beyond their limits. */
static void lend_table(const struct table *t)
{
    const uint32_t *arrays[4] = {t->tops, t->ends, t->blocks, t->adjustments};
    uint32_t short_one = !lend_enough && once_in(25) ? below(4) : 4, met = once_in(2);
    for (uint32_t i = 0; i < 4; i++) {
        size_t count = i == 0 ? t->tops_len : t->intervals_len, length = enough_or_more(count);
        size_t claimed = i == 0 ? t->header.block_count : t->header.interval_count;
        if (met && claimed > length && claimed <= IRR_MAX_INTERVALS + 1)
            length = claimed;
        if (i == short_one)
            length = once_in(4) ? 0 : once_in(3) ? below((uint32_t)count) : count - 1;
        lent_junk(&in[i], 4 * length);
        lent_put(&in[i], arrays[i], 4 * count);
    }
}

/* lends the four arrays of a table to write: at times longer, at times one of them too short */
static void lend_room(void)
{
    uint32_t short_one = !lend_enough && once_in(20) ? below(4) : 4;
    for (uint32_t i = 0; i < 4; i++) {
        size_t count = i == 0 ? IRR_MAX_BLOCKS : IRR_MAX_INTERVALS, length = enough_or_more(count);
        if (i == short_one)
            length = once_in(4) ? 0 : once_in(3) ? below((uint32_t)count) : count - 1;
        lent_junk(&out[i], 4 * length);
    }
}

/* the table that the archive wrote */
static void take_table(struct irr_header header, struct table *to)
{
    if (header.block_count > IRR_MAX_BLOCKS || header.interval_count > IRR_MAX_INTERVALS) {
        fault("a table beyond its limits", header.buckets, header.block_count,
              header.interval_count);
        return;
    }
    if (header.block_count > most_blocks)
        most_blocks = header.block_count;
    if (header.interval_count > most_intervals)
        most_intervals = header.interval_count;
    to->header = header;
    to->tops_len = header.block_count;
    to->intervals_len = header.interval_count;
    memcpy(to->tops, words(&out[0], ARCHIVE), 4 * header.block_count);
    memcpy(to->ends, words(&out[1], ARCHIVE), 4 * header.interval_count);
    memcpy(to->blocks, words(&out[2], ARCHIVE), 4 * header.interval_count);
    memcpy(to->adjustments, words(&out[3], ARCHIVE), 4 * header.interval_count);
}

/* JUDGING */

static const char *difference(int table, int room, int buckets, int extra)
{
    static const char *const inside[4] = {"tops read", "ends read", "blocks read",
                                          "adjustments read"};
    static const char *const outside[4] = {"tops written", "ends written", "blocks written",
                                           "adjustments written"};
    for (int i = 0; i < 4; i++) {
        if (table && !lent_same(&in[i]))
            return inside[i];
        if (room && !lent_same(&out[i]))
            return outside[i];
    }
    if (buckets && !lent_same(&list))
        return "buckets read";
    return extra && !lent_same(&more) ? "rows, words, places or bytes" : NULL;
}

static void show(enum call call, const struct table *t, const uint32_t *asked, const uint32_t *got,
                 const uint32_t *want, size_t n, const char *memory)
{
    if (fault_count++ >= SHOWN)
        return;
    printf("FAULT %s, seed %" PRIu64 ", comparison %" PRIu64 "; asked", names[call], seed,
           compared[call]);
    for (int i = 0; i < 3; i++)
        printf(" %" PRIu32, asked[i]);
    if (t != NULL)
        printf("; header %" PRIu32 " %" PRIu32 " %" PRIu32 " %" PRIu32, t->header.buckets,
               t->header.capacity, t->header.block_count, t->header.interval_count);
    printf("; archive");
    for (size_t i = 0; i < n; i++)
        printf(" %" PRIu32, got[i]);
    printf("; reference");
    for (size_t i = 0; i < n; i++)
        printf(" %" PRIu32, want[i]);
    printf("; memory: %s\n", memory == NULL ? "same" : memory);
}

/* compares the two replies, of `size` bytes, and the memory that was lent */
static uint32_t judge(enum call call, const struct table *t, const uint32_t *asked,
                      const void *reply, const void *expected, size_t size)
{
    uint32_t got[6], want[6];
    int room = call == INITIAL || call == EXPAND || call == LOAD;
    int extra = call == RELOCATIONS || call == CARRY || call == PLACES || call == SAVE ||
                call == LOAD || call == SHEET;
    const char *memory = difference(t != NULL, room, call == PLACES, extra);
    memcpy(got, reply, size);
    memcpy(want, expected, size);
    compared[call]++;
    answered[call][got[0] < REFUSALS ? got[0] : REFUSALS - 1]++;
    if (memory != NULL || memcmp(got, want, size) != 0)
        show(call, t, asked, got, want, size / 4, memory);
    current = -1;
    return got[0];
}
#define JUDGE(call, t, a, b, c) \
    judge(call, t, (const uint32_t[]){a, b, c}, &got, &want, sizeof got)

/* THE TWELVE CALLS */

uint32_t compare_initial(uint32_t buckets, uint32_t bins, uint32_t capacity, struct table *to)
{
    lend_room();
    current = INITIAL;
    struct irr_table_reply got = irr_initial(buckets, bins, capacity, FOUR(out, ARCHIVE));
    struct irr_table_reply want = ref_initial(buckets, bins, capacity, FOUR(out, REFERENCE));
    if (JUDGE(INITIAL, NULL, buckets, bins, capacity) == 0)
        take_table(got.header, to);
    return got.refusal;
}

uint32_t compare_expand(const struct table *t, uint32_t buckets, uint32_t bins, struct table *to,
                        uint32_t *moved)
{
    lend_table(t);
    lend_room();
    current = EXPAND;
    struct irr_table_reply got =
        irr_expand(t->header, FOUR(in, ARCHIVE), buckets, bins, FOUR(out, ARCHIVE));
    struct irr_table_reply want =
        ref_expand(t->header, FOUR(in, REFERENCE), buckets, bins, FOUR(out, REFERENCE));
    if (JUDGE(EXPAND, t, buckets, bins, 0) == 0) {
        take_table(got.header, to);
        *moved = got.moved;
    }
    return got.refusal;
}

uint32_t compare_relocations(const struct table *t, uint32_t buckets, uint32_t bins,
                             uint32_t first, size_t rows_len)
{
    lend_table(t);
    lent_junk(&more, 4 * rows_len);
    current = RELOCATIONS;
    struct irr_relocations_reply got = irr_relocations(t->header, FOUR(in, ARCHIVE), buckets, bins,
                                                       first, WORDS(&more, ARCHIVE));
    struct irr_relocations_reply want = ref_relocations(
        t->header, FOUR(in, REFERENCE), buckets, bins, first, WORDS(&more, REFERENCE));
    return JUDGE(RELOCATIONS, t, buckets, bins, first);
}

uint32_t compare_carry(const struct table *t, uint32_t buckets, uint32_t bins, size_t words_len,
                       uint32_t mark)
{
    lend_table(t);
    lent_junk(&more, 4 * words_len);
    current = CARRY;
    struct irr_carry_reply got = irr_carry(t->header, FOUR(in, ARCHIVE), buckets, bins,
                                           WORDS(&more, ARCHIVE), mark);
    struct irr_carry_reply want = ref_carry(t->header, FOUR(in, REFERENCE), buckets, bins,
                                            WORDS(&more, REFERENCE), mark);
    return JUDGE(CARRY, t, buckets, bins, mark);
}

uint32_t compare_place(const struct table *t, uint32_t bucket)
{
    lend_table(t);
    current = PLACE;
    struct irr_place_reply got = irr_place(t->header, FOUR(in, ARCHIVE), bucket);
    struct irr_place_reply want = ref_place(t->header, FOUR(in, REFERENCE), bucket);
    return JUDGE(PLACE, t, bucket, 0, 0);
}

uint32_t compare_places(const struct table *t, const uint32_t *buckets, size_t buckets_len,
                        size_t places_len)
{
    lend_table(t);
    lent_junk(&list, 4 * buckets_len);
    lent_put(&list, buckets, 4 * buckets_len);
    lent_junk(&more, 4 * places_len);
    current = PLACES;
    struct irr_places_reply got = irr_places(t->header, FOUR(in, ARCHIVE), WORDS(&list, ARCHIVE),
                                             WORDS(&more, ARCHIVE));
    struct irr_places_reply want = ref_places(t->header, FOUR(in, REFERENCE),
                                              WORDS(&list, REFERENCE), WORDS(&more, REFERENCE));
    return JUDGE(PLACES, t, (uint32_t)buckets_len, (uint32_t)places_len,
                 buckets_len == 0 ? 0 : buckets[buckets_len - 1]);
}

uint32_t compare_find(const struct table *t, uint32_t bin, uint32_t position)
{
    lend_table(t);
    current = FIND;
    struct irr_find_reply got = irr_find(t->header, FOUR(in, ARCHIVE), bin, position);
    struct irr_find_reply want = ref_find(t->header, FOUR(in, REFERENCE), bin, position);
    return JUDGE(FIND, t, bin, position, 0);
}

uint32_t compare_bin_size(const struct table *t, uint32_t bin)
{
    lend_table(t);
    current = BIN_SIZE;
    struct irr_bin_size_reply got = irr_bin_size(t->header, FOUR(in, ARCHIVE), bin);
    struct irr_bin_size_reply want = ref_bin_size(t->header, FOUR(in, REFERENCE), bin);
    return JUDGE(BIN_SIZE, t, bin, 0, 0);
}

uint32_t compare_room(uint32_t expansions)
{
    current = ROOM;
    struct irr_room_reply got = irr_room(expansions), want = ref_room(expansions);
    return JUDGE(ROOM, NULL, expansions, 0, 0);
}

uint32_t compare_save(const struct table *t, size_t buffer_len)
{
    lend_table(t);
    lent_junk(&more, buffer_len);
    current = SAVE;
    struct irr_save_reply got = irr_save(t->header, FOUR(in, ARCHIVE), BYTES(&more, ARCHIVE));
    struct irr_save_reply want = ref_save(t->header, FOUR(in, REFERENCE), BYTES(&more, REFERENCE));
    return JUDGE(SAVE, t, (uint32_t)buffer_len, 0, 0);
}

uint32_t compare_load(const uint8_t *file, size_t length, uint32_t capacity, struct table *to)
{
    lent_junk(&more, length);
    lent_put(&more, file, length);
    lend_room();
    current = LOAD;
    struct irr_load_reply got = irr_load(BYTES(&more, ARCHIVE), capacity, FOUR(out, ARCHIVE));
    struct irr_load_reply want = ref_load(BYTES(&more, REFERENCE), capacity, FOUR(out, REFERENCE));
    if (JUDGE(LOAD, NULL, (uint32_t)length, capacity, 0) == 0)
        take_table(got.header, to);
    return got.refusal;
}

/* the archive's sheet, read back line by line: the numbers are those of the table */
static void check_lines(const struct table *t)
{
    for (uint32_t i = 0; i < t->header.interval_count; i++) {
        uint32_t got[FIELDS], block = t->blocks[i];
        uint32_t bin = block == 0 ? 0 : t->tops[block - 1];
        const uint32_t want[FIELDS] = {i == 0 ? 0 : t->ends[i - 1], t->ends[i] - 1, block, bin,
                                       t->tops[block] - bin};
        if (!line_read(bytes(&more, ARCHIVE) + IRR_LINE * i, got))
            fault("irr_sheet: no such line: line, of", i, t->header.interval_count, 0);
        else
            for (uint32_t f = 0; f < FIELDS; f++)
                if (got[f] != want[f])
                    fault("irr_sheet, read back: field, number, right one", f, got[f], want[f]);
    }
}

uint32_t compare_sheet(const struct table *t, size_t buffer_len)
{
    lend_table(t);
    lent_junk(&more, buffer_len);
    current = SHEET;
    struct irr_sheet_reply got = irr_sheet(t->header, FOUR(in, ARCHIVE), BYTES(&more, ARCHIVE));
    struct irr_sheet_reply want =
        ref_sheet(t->header, FOUR(in, REFERENCE), BYTES(&more, REFERENCE));
    if (JUDGE(SHEET, t, (uint32_t)buffer_len, 0, 0) == 0 && want.refusal == 0)
        check_lines(t);
    return got.refusal;
}
