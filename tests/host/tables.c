/* Tables for the tests. */
#include "tables.h"

#include <stdlib.h>
#include <string.h>

#include "random.h"
#include "reference.h"

void table_copy(struct table *to, const struct table *from)
{
    to->header = from->header;
    to->tops_len = from->tops_len;
    to->intervals_len = from->intervals_len;
    memcpy(to->tops, from->tops, from->tops_len * sizeof *to->tops);
    memcpy(to->ends, from->ends, from->intervals_len * sizeof *to->ends);
    memcpy(to->blocks, from->blocks, from->intervals_len * sizeof *to->blocks);
    memcpy(to->adjustments, from->adjustments, from->intervals_len * sizeof *to->adjustments);
}

uint32_t table_bins(const struct table *t)
{
    return t->tops_len == 0 ? 0 : t->tops[t->tops_len - 1];
}

/* CAPACITIES */

uint32_t largest_bin(uint32_t buckets, uint32_t bins)
{
    return bins == 0 ? 0 : buckets / bins + (buckets % bins > 0);
}

uint32_t capacity_for(uint32_t buckets, uint32_t bins)
{
    uint32_t least = largest_bin(buckets, bins) + IRR_LABEL, more = below(3);
    switch (below(5)) {
    case 0: more = 0; break;
    case 1: break;
    case 2: more = below(least + 2); break;
    default: more = below(IRR_MAX_CAPACITY);
    }
    if (once_in(4) || least + more > IRR_MAX_CAPACITY)
        return IRR_MAX_CAPACITY;
    return least + more;
}

uint32_t capacity_near(uint32_t buckets, uint32_t bins)
{
    uint32_t largest = largest_bin(buckets, bins), least = largest + IRR_LABEL;
    switch (below(14)) {
    case 0: return 0;
    case 1: return least - 1;
    case 2: return least;
    case 3: return least + 1;
    case 4: return below(least);
    case 5: return largest;
    case 6: return largest + below(IRR_LABEL);
    case 7: return 1 + below(IRR_LABEL);
    case 8: return IRR_MAX_CAPACITY;
    case 9: return IRR_MAX_CAPACITY + 1;
    case 10: return (uint32_t)random_next();
    default: return capacity_for(buckets, bins);
    }
}

/* SOUND TABLES */

void table_adjust(struct table *t)
{
    for (uint32_t i = 0; i < t->intervals_len; i++) {
        uint32_t start = 0, others = 0;
        for (uint32_t before = 0; before < i; before++) {
            if (t->blocks[before] != t->blocks[i])
                others += t->ends[before] - start;
            start = t->ends[before];
        }
        t->adjustments[i] = others;
    }
}

/* tops that cut `bins` into at most `most` blocks */
static void random_tops(struct table *t, uint32_t bins, uint32_t most)
{
    uint32_t top = 0;
    t->tops_len = 0;
    while (t->tops_len + 1 < most && top + 1 < bins && !once_in(most)) {
        top += 1 + below((bins - top) / (1 + below(most)));
        if (top >= bins)
            break;
        t->tops[t->tops_len++] = top;
    }
    t->tops[t->tops_len++] = bins;
}

/* intervals that share out each block's due, in any order */
static void random_intervals(struct table *t, uint32_t buckets, uint32_t bins)
{
    uint32_t left[TABLE_TOPS], x = 0, k = 0, blocks = t->tops_len;
    for (uint32_t j = 0; j < blocks; j++)
        left[j] = (uint32_t)ref_due_of_block(buckets, bins, t->tops, j);
    uint32_t sparing = 1 + below(4);
    while (x < buckets) {
        uint32_t j = below(blocks), take;
        while (left[j] == 0)
            j = (j + 1) % blocks;
        take = once_in(sparing) || k + 2 * blocks > IRR_MAX_INTERVALS ? left[j]
                                                                      : 1 + below(left[j]);
        left[j] -= take;
        x += take;
        t->ends[k] = x;
        t->blocks[k++] = j;
    }
    t->intervals_len = k;
}

static void finish(struct table *t, uint32_t buckets)
{
    table_adjust(t);
    t->header.buckets = buckets;
    t->header.capacity = capacity_for(buckets, table_bins(t));
    t->header.block_count = t->tops_len;
    t->header.interval_count = t->intervals_len;
}

void table_random(struct table *t, uint32_t buckets, uint32_t bins, uint32_t most)
{
    random_tops(t, bins, most);
    random_intervals(t, buckets, bins);
    finish(t, buckets);
}

void table_exact(struct table *t, uint32_t buckets, uint32_t bins, uint32_t blocks,
                 uint32_t intervals)
{
    uint32_t taken[TABLE_TOPS] = {0}, x = 0;
    for (uint32_t j = 0; j < blocks; j++)
        t->tops[j] = j + 1 == blocks ? bins : j + 1;
    /* intervals of one bucket for each block in turn, and at last the rest of each block */
    for (uint32_t i = 0; i < intervals; i++) {
        uint32_t j = i % blocks, take = 1;
        if (i + blocks >= intervals)
            take = (uint32_t)ref_due_of_block(buckets, bins, t->tops, j) - taken[j];
        taken[j] += take;
        x += take;
        t->ends[i] = x;
        t->blocks[i] = j;
    }
    t->tops_len = blocks;
    t->intervals_len = intervals;
    finish(t, buckets);
}

/* DAMAGED TABLES */

/* a number at or next to a limit, or next to the one that was there */
static uint32_t near(uint32_t was, uint32_t limit)
{
    switch (below(8)) {
    case 0: return 0;
    case 1: return limit;
    case 2: return limit + 1;
    case 3: return UINT32_MAX;
    case 4: return was - 1;
    case 5: return was + 1;
    case 6: return (uint32_t)random_next();
    default: return below(2 * was + 2);
    }
}

static void damage_header(struct table *t)
{
    switch (below(5)) {
    case 0:
        t->header.buckets = near(t->header.buckets, IRR_MAX_BUCKETS);
        break;
    case 1:
        t->header.block_count = near(t->header.block_count, IRR_MAX_BLOCKS);
        break;
    case 2:
    case 3:
        t->header.capacity = capacity_near(t->header.buckets, table_bins(t));
        break;
    default:
        t->header.interval_count = near(t->header.interval_count, IRR_MAX_INTERVALS);
    }
}

/* entries that should rise strictly from above 0, none of them above the limit */
static void damage_rise(uint32_t *entries, uint32_t n, uint32_t limit)
{
    uint32_t i = below(n), swap;
    switch (below(6)) {
    case 0:
        entries[0] = 0;
        break;
    case 1:
        entries[n - 1] = near(entries[n - 1], limit);
        break;
    case 2:
        entries[i] = i == 0 ? 0 : entries[i - 1];
        break;
    case 3:
        swap = entries[i];
        entries[i] = entries[n - 1 - i];
        entries[n - 1 - i] = swap;
        break;
    case 4:
        entries[i] += once_in(2) ? 1 : UINT32_MAX;
        break;
    default:
        entries[i] = near(entries[i], limit);
    }
}

static void damage_blocks(struct table *t)
{
    uint32_t i = below(t->intervals_len), other = below(t->intervals_len), swap = t->blocks[i];
    switch (below(4)) {
    case 0:
        t->blocks[i] = near(t->blocks[i], t->tops_len - 1);
        break;
    case 1:
        t->blocks[i] = below(t->tops_len);
        break;
    default:
        t->blocks[i] = t->blocks[other];
        t->blocks[other] = swap;
    }
}

static void damage_adjustments(struct table *t)
{
    uint32_t i = below(t->intervals_len);
    switch (below(5)) {
    case 0:
        t->adjustments[i] += 1;
        break;
    case 1:
        t->adjustments[i] -= 1;
        break;
    case 2:
        t->adjustments[i] = i == 0 ? 0 : t->ends[i - 1];
        break;
    case 3:
        t->adjustments[i] = t->adjustments[below(t->intervals_len)];
        break;
    default:
        t->adjustments[i] = near(t->adjustments[i], IRR_MAX_BUCKETS);
    }
}

/* moves the border of two intervals by one bucket: the ends still rise, the dues may fail */
static void damage_border(struct table *t)
{
    uint32_t i = below(t->intervals_len - 1), start = i == 0 ? 0 : t->ends[i - 1];
    if (t->intervals_len < 2)
        return;
    if (t->ends[i] - start > 1 && once_in(2))
        t->ends[i]--;
    else if (t->ends[i + 1] - t->ends[i] > 1)
        t->ends[i]++;
}

void table_damage(struct table *t)
{
    switch (below(8)) {
    case 0:
    case 1:
        damage_header(t);
        break;
    case 2:
        damage_rise(t->tops, t->tops_len, once_in(2) ? IRR_MAX_BINS : t->header.buckets);
        break;
    case 3:
        damage_rise(t->ends, t->intervals_len, t->header.buckets);
        break;
    case 4:
        damage_blocks(t);
        break;
    case 5:
        damage_adjustments(t);
        break;
    case 6:
        damage_blocks(t);
        table_adjust(t);
        break;
    default:
        damage_border(t);
        if (once_in(2))
            table_adjust(t);
    }
}

/* THE SAVED FORM */

static uint8_t *put(uint8_t *at, uint32_t number)
{
    for (int shift = 0; shift < 32; shift += 8)
        *at++ = (uint8_t)(number >> shift);
    return at;
}

size_t table_encode(const struct table *t, uint8_t *bytes)
{
    uint8_t *at = put(put(put(bytes, t->header.buckets), t->header.block_count),
                      t->header.interval_count);
    for (uint32_t j = 0; j < t->tops_len; j++)
        at = put(at, t->tops[j]);
    for (uint32_t i = 0; i < t->intervals_len; i++)
        at = put(at, t->ends[i]);
    for (uint32_t i = 0; i < t->intervals_len; i++)
        at = put(at, t->blocks[i]);
    return (size_t)(at - bytes);
}

/* A LINE OF A SHEET */

int line_read(const uint8_t *line, uint32_t *numbers)
{
    for (int i = 0; i < FIELDS; i++) {
        char field[11] = "";
        memcpy(field, line + 10 * i, 10);
        size_t blanks = strspn(field, " "), digits = strspn(field + blanks, "0123456789");
        if (digits == 0 || blanks + digits != 10)
            return 0;
        numbers[i] = (uint32_t)strtoul(field + blanks, NULL, 10);
    }
    return line[10 * FIELDS] == '\n';
}
