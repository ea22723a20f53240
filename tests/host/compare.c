/*
 * The archive against the reference and the directory: histories of growths, sound tables of any
 * kind, damaged tables, files and sizes, all from one seed. Takes another seed as its argument.
 */
#include <inttypes.h>
#include <stdio.h>
#include <stdlib.h>

#include "buckets.h"
#include "calls.h"
#include "random.h"
#include "rounds.h"

enum {
    SMALL_HISTORIES = 9000,
    SMALL_TABLES = 20000,
    LARGE_HISTORIES = 40,
    LARGE_TABLES = 500,
    LONG_HISTORIES = 12,
    LIMIT_TABLES = 50,
    ONE_BIN_TABLES = 60,
    DAMAGED_TABLES = 60000,
    SIZES = 20000
};

static struct table one, two;

/* a fresh map of at most the given sizes, and of the given capacity, or, where that is 0, of any
 * that the map allows; sets t */
static void fresh(struct table *t, uint32_t buckets, uint32_t bins, uint32_t capacity)
{
    uint32_t b = 1 + below(buckets), n = 1 + below(b < bins ? b : bins);
    if (capacity == 0)
        capacity = capacity_for(b, n);
    calls_lend_enough(1);
    if (compare_initial(b, n, capacity, t) != 0)
        fault("a fresh map refused", b, n, capacity);
    calls_lend_enough(0);
}

/* one growth of *t to the sizes asked for; *t is the new table if it was accepted */
static uint32_t step(struct table **t, struct table **other, uint32_t buckets, uint32_t bins)
{
    uint32_t moved, refusal = compare_expand(*t, buckets, bins, *other, &moved);
    if (refusal == 0) {
        struct table *grown = *other;
        check_growth(*t, grown, moved);
        *other = *t;
        *t = grown;
    }
    if (refusal == IRR_BIN_OVERFULL)
        check_overfull(*t, buckets, bins);
    return refusal;
}

static void small_history(void)
{
    struct table *t = &one, *other = &two;
    uint32_t buckets = 1 + below(once_in(3) ? 300 : 40), growths = 1 + below(12);
    fresh(t, buckets, once_in(2) ? 4 : buckets, 0);
    for (uint32_t g = 0; g < growths; g++) {
        uint32_t b, n;
        ask_growth(t, &b, &n);
        if (b > 600 && !once_in(30))
            b = t->header.buckets + below(3);
        step(&t, &other, b, n);
        round_of_calls(t, 4);
        round_of_files(t, 1);
    }
}

static void small_table(void)
{
    uint32_t b = 1 + below(once_in(4) ? 500 : 40), n = 1 + below(b < 30 ? b : 30), moved;
    table_random(&one, b, n, 1 + below(once_in(10) ? 30 : 5));
    check_map(&one);
    round_of_calls(&one, 5);
    round_of_files(&one, 1);
    ask_growth(&one, &b, &n);
    if (compare_expand(&one, b, n, &two, &moved) == 0)
        check_growth(&one, &two, moved);
}

static void large_history(void)
{
    struct table *t = &one, *other = &two;
    uint32_t most = 1 + below(IRR_MAX_CAPACITY - IRR_LABEL); /* one bin takes so many */
    fresh(t, most, 1 + below(once_in(2) ? IRR_MAX_BINS : 100), 0);
    for (int g = 0; g < 12; g++) {
        uint32_t b, n;
        ask_growth(t, &b, &n);
        if (once_in(3))
            b = t->header.buckets;
        step(&t, &other, b, n);
        round_of_calls(t, 3);
        round_of_files(t, 1);
    }
}

static void large_table(void)
{
    uint32_t b = once_in(4) ? IRR_MAX_BUCKETS : 1 + below(IRR_MAX_BUCKETS);
    uint32_t n = once_in(8) ? IRR_MAX_BINS : 1 + below(once_in(4) ? IRR_MAX_BINS : 300);
    table_random(&one, b, n < b ? n : b, once_in(2) ? IRR_MAX_BLOCKS : 1 + below(12));
    round_of_calls(&one, 5);
    round_of_files(&one, 1);
}

/* a table at all its limits, sound but for what is one past: blocks, intervals, buckets or bins */
static void limit_table(uint32_t past)
{
    table_exact(&one, IRR_MAX_BUCKETS + (past == 3), IRR_MAX_BINS + (past == 4),
                IRR_MAX_BLOCKS + (past == 1), IRR_MAX_INTERVALS + (past == 2));
    round_of_calls(&one, 12);
    round_of_files(&one, 3);
}

/* a table of one bin that has so many positions more than buckets: too few for the label, or not */
static void one_bin_table(uint32_t less)
{
    table_random(&one, IRR_MAX_CAPACITY - less, 1, 1);
    round_of_calls(&one, 12);
    round_of_files(&one, 3);
}

/* growths with more bins up to `blocks` blocks, then with more buckets until no interval is left,
 * the last ones bucket by bucket */
static void long_history(uint32_t blocks)
{
    struct table *t = &one, *other = &two;
    uint32_t coarse = 1 + below(3), refused = 0;
    fresh(t, once_in(2) ? 2000 : 1000000, 3, IRR_MAX_CAPACITY);
    for (int g = 0; g < 400 && refused < 6; g++) {
        uint32_t b = t->header.buckets, n = table_bins(t), wide = t->header.block_count < blocks;
        if (wide)
            n += 1 + below(coarse);
        b += wide ? below(n / 2 + 1) : refused > 0 ? 1 : 1 + below(2 * n);
        if (b < n)
            b = n;
        refused += step(&t, &other, b, n) == IRR_INTERVALS_FULL;
        round_of_calls(t, g % 8 == 0 || refused > 0 ? 4 : 0);
    }
    round_of_calls(t, 150);
    round_of_files(t, 10);
    /* the same of a capacity that may leave no room: 31 comes before 8 */
    t->header.capacity = capacity_for(t->header.buckets, table_bins(t));
    round_of_calls(t, 50);
}

static void damaged_table(void)
{
    uint32_t b = 1 + below(once_in(4) ? 500 : 30), n = 1 + below(b < 20 ? b : 20);
    table_random(&two, b, n, 1 + below(6));
    for (int i = 0; i < 3; i++) {
        table_copy(&one, &two);
        for (uint32_t harms = 1 + below(3); harms > 0; harms--)
            table_damage(&one);
        round_of_calls(&one, 2);
        round_of_files(&one, 1);
    }
}

/* a large table, damaged once at a time */
static void damaged_large_table(void)
{
    uint32_t b = IRR_MAX_BUCKETS - below(1000), n = IRR_MAX_BLOCKS + below(600);
    table_random(&two, b, n, IRR_MAX_BLOCKS);
    for (int i = 0; i < 6; i++) {
        table_copy(&one, &two);
        table_damage(&one);
        round_of_calls(&one, 2);
        round_of_files(&one, 1);
    }
}

int main(int argc, char **argv)
{
    uint64_t seed = argc > 1 ? strtoull(argv[1], NULL, 10) : 1;
    calls_open(seed);
    printf("seed %" PRIu64 "\n", seed);
    for (int i = 0; i < SIZES; i++)
        round_of_sizes();
    for (int i = 0; i < SMALL_HISTORIES; i++)
        small_history();
    for (int i = 0; i < SMALL_TABLES; i++)
        small_table();
    for (int i = 0; i < DAMAGED_TABLES; i++)
        damaged_table();
    for (int i = 0; i < LARGE_HISTORIES; i++)
        large_history();
    for (int i = 0; i < LARGE_TABLES; i++) {
        large_table();
        damaged_large_table();
    }
    for (uint32_t i = 0; i < LIMIT_TABLES; i++)
        limit_table(i % 5);
    for (uint32_t i = 0; i < ONE_BIN_TABLES; i++)
        one_bin_table(i % (IRR_LABEL + 2));
    for (uint32_t i = 0; i < LONG_HISTORIES; i++)
        long_history(i % 2 == 0 ? IRR_MAX_BLOCKS : 5 + below(60));
    buckets_summary();
    int failed = calls_summary();
    printf("%d faults\n", failed);
    return failed != 0;
}
