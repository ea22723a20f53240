/*
 * irr_carry at its edges: the order of its refusals, the lengths of the words, the marks, and a
 * growth that irr_expand refuses by 8. The words end at a page that may not be touched, and the
 * table lies in pages that may only be read.
 */
#define _DEFAULT_SOURCE
#include <inttypes.h>
#include <stdio.h>
#include <stdlib.h>
#include <string.h>
#include <sys/mman.h>

#include "irr.h"
#include "lent.h"
#include "tables.h"

/* the refusals of a table, in their order */
static const uint32_t table_refusals[] = {11, 12, 13, 14, 15, 16, 30};

enum {
    PAGES = 1 << 16,
    MANY = 2080,             /* intervals of the growth that is refused by 8, of */
    EACH = 4,                /* buckets each */
    MANY_ROWS = 2773,
    HARMS = sizeof table_refusals / sizeof *table_refusals
};
_Static_assert(sizeof(struct table) <= PAGES, "room for a table");

struct sizes {
    uint32_t buckets, bins;
};

static struct lent rack;  /* the words, and beside them what they should be */
static struct table *map; /* the table that is lent */
static int checks, faults;

#define ARRAYS(t)                                                                             \
    (t)->tops, (t)->tops_len, (t)->ends, (t)->intervals_len, (t)->blocks, (t)->intervals_len, \
        (t)->adjustments, (t)->intervals_len
#define MAP map->header, ARRAYS(map)

/* LENDING */

static void open_pages(void)
{
    lent_open(&rack);
    map = mmap(NULL, PAGES, PROT_READ | PROT_WRITE, MAP_PRIVATE | MAP_ANONYMOUS, -1, 0);
    if (map == MAP_FAILED) {
        perror("a table's pages");
        exit(2);
    }
}

/* what may be done with the table's pages */
static void protect(int allowed)
{
    if (mprotect(map, PAGES, allowed) != 0) {
        perror("a table's pages");
        exit(2);
    }
}

/* lends a table, which may only be read from now on */
static void lend_table(const struct table *t)
{
    protect(PROT_READ | PROT_WRITE);
    table_copy(map, t);
    protect(PROT_READ);
}

/* lends so many words, which end at the page that may not be touched */
static void lend_words(size_t count)
{
    do
        lent_junk(&rack, 4 * count);
    while (rack.after != 0);
}

/* ONE CALL */

/* its whole reply, and every word after it */
static void carry(struct sizes to, uint32_t mark, struct irr_carry_reply want)
{
    struct irr_carry_reply got =
        irr_carry(MAP, to.buckets, to.bins, WORDS(&rack, ARCHIVE), mark);
    int same = lent_same(&rack);
    checks++;
    if (same && memcmp(&got, &want, sizeof got) == 0)
        return;
    faults++;
    printf("FAULT (%" PRIu32 ", %" PRIu32 "), mark %" PRIu32 ", %zu words: %" PRIu32 " %" PRIu32
           " %" PRIu32 " (%" PRIu32 " %" PRIu32 " %" PRIu32 ")%s\n", to.buckets, to.bins, mark,
           rack.length / 4, got.refusal, got.mark, got.finished, want.refusal, want.mark,
           want.finished, same ? "" : "; words");
}

static void refused(struct sizes to, uint32_t mark, uint32_t refusal)
{
    carry(to, mark, (struct irr_carry_reply){refusal, 0, 0});
}

static void finished(struct sizes to, uint32_t total)
{
    carry(to, total, (struct irr_carry_reply){0, total, 1});
}

/* a row: the word `from` goes to the word `into` */
static void carried(struct sizes to, uint32_t mark, size_t from, size_t into)
{
    words(&rack, REFERENCE)[into] = words(&rack, REFERENCE)[from];
    carry(to, mark, (struct irr_carry_reply){0, mark + 1, 0});
}

/* refused from any mark on, whether there are words or not */
static void refused_anyway(struct sizes to, size_t enough, uint32_t refusal)
{
    lend_words(0);
    refused(to, 0, refusal);
    refused(to, UINT32_MAX, refusal);
    lend_words(enough);
    refused(to, 0, refusal);
    refused(to, UINT32_MAX, refusal);
}

/* THE ORDER OF THE REFUSALS */

/* the table of (12, 3) after (8, 2), with the least capacity */
static const struct table grown = {
    {12, 12, 2, 2}, 2, 2, {2, 3}, {8, 12}, {0, 1}, {0, 8}
};
static const struct sizes one_bin_more = {12, 4};
enum { FOUR_BINS = 4 * 12 };

static void harm(struct table *t, uint32_t refusal)
{
    switch (refusal) {
    case 11: t->header.interval_count = 0; break;
    case 12: t->tops[0] = t->tops[1]; break;
    case 13: t->ends[1]++; break;
    case 14: t->blocks[1] = 2; break;
    case 15: t->ends[0]--, t->adjustments[1]--; break;
    case 16: t->adjustments[1] += 2; break;
    default: t->header.capacity--;
    }
}

/* each of a table's, with each later one of them, and with sizes that are refused too */
static void check_table_order(void)
{
    static const struct sizes asked[] = {{12, 4}, {0, 0}, {3, 4}, {11, 3}, {12, 3}, {1000, 4}};
    struct table t;
    for (int i = 0; i < HARMS; i++)
        for (int later = i; later < HARMS; later++) {
            table_copy(&t, &grown);
            harm(&t, table_refusals[i]);
            if (later > i)
                harm(&t, table_refusals[later]);
            lend_table(&t);
            for (size_t s = 0; s < sizeof asked / sizeof *asked; s++)
                refused_anyway(asked[s], FOUR_BINS, table_refusals[i]);
        }
}

/* an array of the table that is an entry shorter than its count */
static void check_short_arrays(void)
{
    struct table t;
    table_copy(&t, &grown);
    t.tops_len--;
    lend_table(&t);
    refused_anyway(one_bin_more, FOUR_BINS, 11);
    table_copy(&t, &grown);
    t.intervals_len--;
    lend_table(&t);
    refused_anyway(one_bin_more, FOUR_BINS, 11);
}

struct refused_sizes {
    struct sizes to;
    uint32_t refusal;
};

static void check_sizes(const struct refused_sizes *cases, size_t n)
{
    for (size_t i = 0; i < n; i++)
        refused_anyway(cases[i].to, FOUR_BINS, cases[i].refusal);
}

/* 65 blocks of one bin with a bucket each, and the least capacity */
static void most_blocks(struct table *t)
{
    t->header = (struct irr_header){IRR_MAX_BLOCKS, IRR_LABEL + 1, IRR_MAX_BLOCKS, IRR_MAX_BLOCKS};
    t->tops_len = t->intervals_len = IRR_MAX_BLOCKS;
    for (uint32_t i = 0; i < IRR_MAX_BLOCKS; i++) {
        t->tops[i] = t->ends[i] = i + 1;
        t->blocks[i] = i;
    }
    table_adjust(t);
}

/* each of the sizes', alone and with later ones */
static void check_size_order(void)
{
    static const struct refused_sizes of_grown[] = {
        {{0, 4}, 1},  {{12, 0}, 1},  {{1000000001, 3}, 1}, {{12, 65536}, 1}, {{0, 2}, 1},
        {{12, 13}, 2}, {{11, 12}, 2}, {{1, 2}, 2},          {{11, 4}, 3},     {{13, 2}, 3},
        {{100, 2}, 3}, {{12, 3}, 4},  {{13, 3}, 31},        {{17, 4}, 31},    {{1000000000, 4}, 31}};
    static const struct refused_sizes of_blocks[] = {
        {{1000000001, 66}, 1}, {{65, 66}, 2}, {{64, 64}, 3}, {{65, 65}, 4},
        {{66, 66}, 5},         {{133, 66}, 5}, {{66, 65}, 31}};
    struct table t;
    lend_table(&grown);
    check_sizes(of_grown, sizeof of_grown / sizeof *of_grown);
    most_blocks(&t);
    lend_table(&t);
    check_sizes(of_blocks, sizeof of_blocks / sizeof *of_blocks);
}

/* LENGTHS AND MARKS */

/* Of (12, 3) to (12, 4), buckets 6, 7 and 11 move: from position 11 of bins 0, 1 and 2 to positions
 * 8, 9 and 10 of bin 3. A moved bucket never has the last position of a bin: the word of the last
 * row is the last but one. */
static void check_rows(size_t more)
{
    lend_words(FOUR_BINS + more);
    carried(one_bin_more, 0, 11, 44);
    carried(one_bin_more, 1, 23, 45);
    carried(one_bin_more, 2, 35, 46);
    finished(one_bin_more, 3);
    refused(one_bin_more, 4, IRR_MARK_OUTSIDE);
    refused(one_bin_more, UINT32_MAX, IRR_MARK_OUTSIDE);
    lend_words(FOUR_BINS + more);
    carried(one_bin_more, 2, 35, 46);
    carried(one_bin_more, 2, 35, 46);
    carried(one_bin_more, 0, 11, 44);
}

/* as many words as are needed, more, and less: 40 comes before 41 */
static void check_lengths(void)
{
    lend_table(&grown);
    check_rows(0);
    check_rows(1);
    check_rows(100);
    for (size_t less = 1; less <= FOUR_BINS; less++) {
        lend_words(FOUR_BINS - less);
        for (uint32_t mark = 0; mark <= 4; mark++)
            refused(one_bin_more, mark, IRR_WORDS_SHORT);
        refused(one_bin_more, UINT32_MAX, IRR_WORDS_SHORT);
    }
}

/* a growth that moves nothing: finished from the beginning, it needs the words all the same */
static void check_no_rows(void)
{
    const struct sizes to = {16, 4};
    lend_table(&grown);
    lend_words(FOUR_BINS);
    finished(to, 0);
    refused(to, 1, IRR_MARK_OUTSIDE);
    lend_words(FOUR_BINS - 1);
    refused(to, 0, IRR_WORDS_SHORT);
    refused(to, 1, IRR_WORDS_SHORT);
}

/* A GROWTH THAT IS REFUSED BY 8 */

/* two blocks of one bin, with 4 buckets in turn */
static void many_intervals(struct table *t)
{
    uint32_t buckets = EACH * MANY;
    t->header = (struct irr_header){buckets, buckets / 2 + IRR_LABEL, 2, MANY};
    t->tops_len = 2;
    t->intervals_len = MANY;
    t->tops[0] = 1;
    t->tops[1] = 2;
    for (uint32_t i = 0; i < MANY; i++) {
        t->ends[i] = EACH * (i + 1);
        t->blocks[i] = i % 2;
    }
    table_adjust(t);
}

static void want(const char *what, uint32_t got, uint32_t expected)
{
    checks++;
    if (got == expected)
        return;
    faults++;
    printf("FAULT %s: %" PRIu32 ", not %" PRIu32 "\n", what, got, expected);
}

/* it has a move list, and all of its rows are carried */
static void check_many_intervals(void)
{
    static struct table t, new;
    static uint32_t rows[IRR_ROW * MANY_ROWS];
    many_intervals(&t);
    lend_table(&t);
    const struct sizes to = {t.header.buckets, 3};
    size_t p = t.header.capacity;
    new.tops_len = IRR_MAX_BLOCKS;
    new.intervals_len = IRR_MAX_INTERVALS;
    want("irr_expand", irr_expand(MAP, to.buckets, to.bins, ARRAYS(&new)).refusal,
         IRR_INTERVALS_FULL);
    want("rows", irr_relocations(MAP, to.buckets, to.bins, 0, rows, IRR_ROW * MANY_ROWS).total,
         MANY_ROWS);
    lend_words(to.bins * p);
    for (uint32_t mark = 0; mark < MANY_ROWS; mark++) {
        const uint32_t *row = rows + IRR_ROW * mark;
        carried(to, mark, row[1] * p + row[2], row[3] * p + row[4]);
    }
    finished(to, MANY_ROWS);
    refused(to, MANY_ROWS + 1, IRR_MARK_OUTSIDE);
    for (const uint32_t *row = rows; row < rows + IRR_ROW * MANY_ROWS; row += IRR_ROW)
        want("the word at its new place", words(&rack, ARCHIVE)[row[3] * p + row[4]],
             words(&rack, ARCHIVE)[row[1] * p + row[2]]);
    lend_words(to.bins * p - 1);
    refused(to, 0, IRR_WORDS_SHORT);
}

int main(void)
{
    open_pages();
    check_table_order();
    check_short_arrays();
    check_size_order();
    check_lengths();
    check_no_rows();
    check_many_intervals();
    printf("%d checks, %d faults\n", checks, faults);
    return faults != 0;
}
