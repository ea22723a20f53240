/* Rounds of calls on one table. */
#include "rounds.h"

#include <string.h>

#include "calls.h"
#include "lent.h"
#include "random.h"
#include "reference.h"

/* the most buckets in a list; words for which there is room to lend, and a few more */
enum { MOST_LISTED = 700, LENT_WORDS = LENT_BYTES / 4 - 16 };

static struct table spare;

static uint32_t one_of(const uint32_t *numbers, uint32_t n)
{
    return numbers[below(n)];
}

/* one of the numbers; C fixes no order among them, so none of them may itself be drawn */
#define ONE_OF(...) \
    one_of((const uint32_t[]){__VA_ARGS__}, \
           (uint32_t)(sizeof((const uint32_t[]){__VA_ARGS__}) / sizeof(uint32_t)))

/* SIZES ASKED FOR */

void ask_growth(const struct table *t, uint32_t *buckets, uint32_t *bins)
{
    uint32_t b = t->header.buckets, n = table_bins(t);
    switch (below(5)) {
    case 0:
        n += 1 + below(3);
        break;
    case 1:
        b += 1 + below(2 * n + 2);
        break;
    case 2:
        b += below(b / 4 + 2);
        n += below(n / 2 + 2);
        break;
    case 3:
        b += below(4);
        n += below(3);
        break;
    default:
        b += below(3 * n + 2);
        n += 1 + below(n + 1);
    }
    *buckets = b;
    *bins = n;
}

/* sizes of every kind: growths, and at or next to each limit */
static void ask_sizes(const struct table *t, uint32_t *buckets, uint32_t *bins)
{
    uint32_t b = t->header.buckets, n = table_bins(t);
    ask_growth(t, buckets, bins);
    switch (below(12)) {
    case 0:
        *buckets = ONE_OF(0, 1, b - 1, b, b + 1, IRR_MAX_BUCKETS, IRR_MAX_BUCKETS + 1, UINT32_MAX);
        break;
    case 1:
        *bins = ONE_OF(0, 1, n - 1, n, n + 1, IRR_MAX_BINS, IRR_MAX_BINS + 1, UINT32_MAX);
        break;
    case 2:
        *buckets = ONE_OF(b, b, b - 1, *bins, *bins - 1);
        *bins = ONE_OF(n, n, n - 1, n + 1, b, b + 1, *bins);
        break;
    case 3:
        *buckets = IRR_MAX_BUCKETS - below(IRR_LABEL + 3);
        *bins = ONE_OF(n, n + 1, *bins, IRR_MAX_BINS);
        break;
    default:
        break;
    }
}

/* THE CALLS ON A TABLE */

static void try_expand(const struct table *t)
{
    uint32_t buckets, bins, moved;
    ask_sizes(t, &buckets, &bins);
    compare_expand(t, buckets, bins, &spare, &moved);
}

/* the rows of the whole list, or some number where there is no list */
static uint32_t total_rows(const struct table *t, uint32_t buckets, uint32_t bins)
{
    struct irr_relocations_reply r = ref_relocations(
        t->header, t->tops, t->tops_len, t->ends, t->intervals_len, t->blocks, t->intervals_len,
        t->adjustments, t->intervals_len, buckets, bins, 0, NULL, 0);
    return r.refusal == 0 ? r.total : below(9);
}

static void try_relocations(const struct table *t)
{
    uint32_t buckets, bins, total, any, late;
    size_t rows_len = once_in(2) ? below(18) : once_in(4) ? below(2000) : below(120);
    ask_sizes(t, &buckets, &bins);
    total = total_rows(t, buckets, bins);
    any = below(total + 1);
    late = total - below(30);
    compare_relocations(t, buckets, bins,
                        ONE_OF(0, 0, total / 2, total - 1, total, total + 1, UINT32_MAX, any, any,
                               any, late),
                        rows_len);
}

/* a capacity for words that can be lent: mostly the least that both maps allow, or little more; or
 * the table's own */
static uint32_t carried_capacity(const struct table *t, uint32_t buckets, uint32_t bins)
{
    uint32_t before = largest_bin(t->header.buckets, table_bins(t));
    uint32_t after = largest_bin(buckets, bins), least = before > after ? before : after;
    return once_in(6) ? t->header.capacity : least + IRR_LABEL + (once_in(2) ? below(4) : 0);
}

static void try_carry(const struct table *t)
{
    uint32_t buckets, bins, total, any, less;
    ask_sizes(t, &buckets, &bins);
    table_copy(&spare, t);
    spare.header.capacity = carried_capacity(t, buckets, bins);
    total = total_rows(&spare, buckets, bins);
    any = below(total + 1);
    uint64_t words = (uint64_t)bins * spare.header.capacity;
    uint32_t exact = words < LENT_WORDS ? (uint32_t)words : LENT_WORDS;
    less = below(exact);
    compare_carry(&spare, buckets, bins,
                  ONE_OF(exact, exact, exact, exact, exact + 1, exact + 9, exact - (exact > 0),
                         less),
                  ONE_OF(0, 0, total / 2, total - 1, total - 1, total, total + 1, UINT32_MAX, any,
                         any, any));
}

static void try_place(const struct table *t)
{
    uint32_t b = t->header.buckets, end = t->ends[below(t->intervals_len)], any = below(b);
    compare_place(t, ONE_OF(0, b - 1, b, b + 1, UINT32_MAX, end, end - 1, end + 1, any, any, any));
}

/* A list that does not fall, of buckets of a sound table: one again and again, all from some on,
 * with repeats, or with gaps up to those that skip many intervals. Answers its length. */
static uint32_t list_buckets(const struct table *t, uint32_t *buckets)
{
    uint32_t b = t->header.buckets, few = below(20), many = below(MOST_LISTED + 1);
    uint32_t n = ONE_OF(0, 1, 2, few, few, many), x = once_in(2) ? 0 : below(b);
    uint32_t least = below(2), narrow = 1 + below(3), wide = 1 + (b - x) / (n + 1);
    uint32_t gaps = ONE_OF(1, narrow, wide, 2 * wide);
    for (uint32_t i = 0; i < n; i++) {
        buckets[i] = x;
        x += least + below(gaps);
        if (x >= b)
            x = b - 1;
    }
    return n;
}

/* harms a list of at least two buckets: it falls by one, or a bucket of it is not below b */
static void harm_list(uint32_t *buckets, uint32_t n, uint32_t b)
{
    uint32_t any = below(n - 1), before = ONE_OF(0, any, n - 2);
    switch (below(4)) {
    case 0:
        buckets[before] = buckets[before + 1] + 1;
        break;
    case 1:
        buckets[before] = ONE_OF(b, UINT32_MAX);
        break;
    case 2:
        buckets[n - 1] = ONE_OF(b, b + 1, UINT32_MAX);
        break;
    default:
        for (uint32_t i = before + 1; i < n; i++)
            buckets[i] = b + i;
    }
}

static void try_places(const struct table *t)
{
    static uint32_t buckets[MOST_LISTED];
    uint32_t b = t->header.buckets, n = list_buckets(t, buckets);
    uint32_t exact = 2 * n, less = below(exact), last = ONE_OF(b - 1, b, UINT32_MAX);
    for (uint32_t harms = n > 1 ? below(3) : 0; harms > 0; harms--)
        harm_list(buckets, n, b);
    if (n == 1 && once_in(4))
        buckets[0] = last;
    compare_places(t, buckets, n,
                   ONE_OF(exact, exact, exact, exact, exact + 1, exact + 6, exact - (n > 0), less));
}

static void try_find(const struct table *t)
{
    uint32_t n = table_bins(t), size = n == 0 ? 0 : t->header.buckets / n;
    uint32_t any_bin = below(n), any = IRR_LABEL + below(size + 1), past = IRR_LABEL + size;
    uint32_t of_label = below(IRR_LABEL), after_size = size + below(IRR_LABEL);
    uint32_t bin = ONE_OF(0, n - 1, n, UINT32_MAX, any_bin, any_bin, any_bin);
    compare_find(t, bin, ONE_OF(0, of_label, IRR_LABEL - 1, IRR_LABEL, size - 1, after_size,
                                past - 1, past, past + 1, UINT32_MAX, any, any, any, any, any,
                                any, any, any));
}

static void try_bin_size(const struct table *t)
{
    uint32_t n = table_bins(t), top = t->tops[below(t->tops_len)], any = below(n);
    compare_bin_size(t, ONE_OF(0, n - 1, n, n + 1, UINT32_MAX, top, top - 1, any, any));
}

static void try_save(const struct table *t)
{
    uint32_t exact = 12 + 4 * t->tops_len + 8 * t->intervals_len;
    uint32_t less = below(exact), more = exact + below(50);
    compare_save(t, ONE_OF(exact, exact, exact, exact + 5, exact - 1, 0, less, more));
}

static void try_sheet(const struct table *t)
{
    uint32_t exact = IRR_LINE * t->intervals_len, less = below(exact), more = exact + below(120);
    compare_sheet(t, ONE_OF(exact, exact, exact, exact + 1, exact + IRR_LINE, exact - 1,
                            exact - IRR_LINE, 0, less, more));
}

void round_of_calls(const struct table *t, int times)
{
    for (int i = 0; i < times; i++) {
        switch (below(12)) {
        case 0: try_expand(t); break;
        case 1: try_expand(t); break;
        case 2: try_relocations(t); break;
        case 3: try_relocations(t); break;
        case 4: try_carry(t); break;
        case 5: try_carry(t); break;
        case 6: try_place(t); break;
        case 7: try_places(t); break;
        case 8: try_find(t); break;
        case 9: try_bin_size(t); break;
        case 10: try_save(t); break;
        default: try_sheet(t);
        }
    }
}

/* FILES */

/* flips one of the `bits` low bits of a byte at `from` or after it, below `to` */
static void flip(uint8_t *bytes, uint32_t from, uint32_t to, uint32_t bits)
{
    uint32_t at = from + below(to - from);
    bytes[at] ^= (uint8_t)(1u << below(bits));
}

/* harms a file of the given length; answers its length then */
static size_t harm(uint8_t *bytes, size_t length)
{
    uint32_t n = (uint32_t)length, at = below(n);
    switch (below(9)) {
    case 0:
        return once_in(2) ? at : length - 1 - below(4);
    case 1:
        return once_in(4) ? below(13) : length + 1 + below(9);
    case 2:
        flip(bytes, 0, 12, 8);
        break;
    case 3:
        flip(bytes, 0, n, 8);
        break;
    case 4:
        flip(bytes, 12, n, 4);
        break;
    case 5:
        bytes[at] = (uint8_t)below(256);
        flip(bytes, 0, n, 8);
        break;
    default:
        break;
    }
    return length;
}

void round_of_files(const struct table *t, int times)
{
    static uint8_t whole[IRR_MAX_SAVED + 64], bytes[IRR_MAX_SAVED + 64];
    size_t length = table_encode(t, whole);
    for (int i = 0; i < times; i++) {
        memcpy(bytes, whole, length);
        for (size_t b = length; b < length + 16; b++)
            bytes[b] = (uint8_t)below(256);
        size_t left = harm(bytes, length);
        if (once_in(40))
            for (size_t b = 0; b < left; b++)
                bytes[b] = (uint8_t)below(256);
        compare_load(bytes, left, capacity_near(t->header.buckets, table_bins(t)), &spare);
    }
}

/* SIZES AND ROOM */

void round_of_sizes(void)
{
    uint32_t b = 1 + below(once_in(2) ? 100 : IRR_MAX_BUCKETS), n = 1 + below(IRR_MAX_BINS);
    uint32_t any = (uint32_t)random_next(), m = below(65), most = IRR_MAX_BUCKETS - below(20);
    uint32_t buckets = ONE_OF(0, 1, 2, b, b, b, IRR_MAX_BINS - 1, IRR_MAX_BINS, most,
                              IRR_MAX_BUCKETS, IRR_MAX_BUCKETS + 1, UINT32_MAX, any);
    any = (uint32_t)random_next();
    uint32_t bins = ONE_OF(0, 1, 2, b - 1, b, b + 1, n, IRR_MAX_BINS, IRR_MAX_BINS + 1, UINT32_MAX,
                           any);
    compare_initial(buckets, bins, capacity_near(buckets, bins), &spare);
    compare_room(ONE_OF(m, m, m, 63, 64, 65, 66, UINT32_MAX, any));
}
