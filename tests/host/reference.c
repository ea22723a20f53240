/* The twelve calls written from documents 01 and 02, simple rather than fast; arithmetic is in
 * int64_t. */
#include "reference.h"

#include <stdio.h>
#include <string.h>

enum {
    MOST_BUCKETS = 1000000000,
    MOST_POSITIONS = 1000000000,
    LABEL = 8, /* the first positions of every bin, which no bucket has */
    MOST_BINS = 65535,
    MOST_BLOCKS = 65,
    MOST_INTERVALS = 2081,
    LINE_BYTES = 51,
    /* a growth parts each interval in two at most, or adds one a block */
    MOST_GROWN = 2 * MOST_INTERVALS + MOST_BLOCKS + 2
};

/* A lent table as it came. */
struct view {
    int64_t buckets, capacity, block_count, interval_count;
    const uint32_t *tops, *ends, *blocks, *adjustments;
    size_t tops_len, ends_len, blocks_len, adjustments_len;
};

/* A table that passed the rules: an interval from `start` to `end`, of block `block`. */
struct span {
    int64_t start, end, block, adjustment;
};

struct map {
    int64_t buckets, capacity, block_count, interval_count;
    uint32_t tops[MOST_BLOCKS + 1];
    struct span spans[MOST_GROWN];
};

static struct view view_of(struct irr_header header, REF_TABLE)
{
    struct view v = {header.buckets, header.capacity, header.block_count, header.interval_count,
                     tops, ends, blocks, adjustments,
                     tops_len, ends_len, blocks_len, adjustments_len};
    return v;
}
#define VIEW \
    view_of(header, tops, tops_len, ends, ends_len, blocks, blocks_len, adjustments, \
            adjustments_len)

/* DUE SIZES */

static int64_t due(int64_t buckets, int64_t bins, int64_t y)
{
    return buckets / bins + (y < buckets % bins ? 1 : 0);
}

int64_t ref_due_of_block(int64_t buckets, int64_t bins, const uint32_t *tops, int64_t j)
{
    int64_t sum = 0;
    for (int64_t y = j == 0 ? 0 : tops[j - 1]; y < (int64_t)tops[j]; y++)
        sum += due(buckets, bins, y);
    return sum;
}

/* RULES 11 TO 16, AND 30 */

static int outside(int64_t x, int64_t limit)
{
    return x == 0 || x > limit;
}

static int counts_wrong(const struct view *v)
{
    return outside(v->buckets, MOST_BUCKETS) || outside(v->block_count, MOST_BLOCKS) ||
           outside(v->interval_count, MOST_INTERVALS);
}

static int arrays_short(const struct view *v)
{
    size_t g = (size_t)v->block_count, k = (size_t)v->interval_count;
    return v->tops_len < g || v->ends_len < k || v->blocks_len < k || v->adjustments_len < k;
}

/* whether n entries don't rise strictly, or the first is 0 */
static int rises_wrongly(const uint32_t *entries, int64_t n)
{
    for (int64_t i = 0; i < n; i++)
        if (entries[i] <= (i == 0 ? 0 : entries[i - 1]))
            return 1;
    return 0;
}

static int tops_wrong(const struct view *v)
{
    int64_t last = v->tops[v->block_count - 1];
    return rises_wrongly(v->tops, v->block_count) || last > MOST_BINS || last > v->buckets;
}

static int ends_wrong(const struct view *v)
{
    return rises_wrongly(v->ends, v->interval_count) ||
           (int64_t)v->ends[v->interval_count - 1] != v->buckets;
}

static int blocks_wrong(const struct view *v)
{
    for (int64_t i = 0; i < v->interval_count; i++)
        if ((int64_t)v->blocks[i] >= v->block_count)
            return 1;
    return 0;
}

static int64_t length_of(const struct view *v, int64_t i)
{
    return (int64_t)v->ends[i] - (i == 0 ? 0 : (int64_t)v->ends[i - 1]);
}

/* the buckets that the intervals of block j hold */
static int64_t holding(const struct view *v, int64_t j)
{
    int64_t held = 0;
    for (int64_t i = 0; i < v->interval_count; i++)
        if ((int64_t)v->blocks[i] == j)
            held += length_of(v, i);
    return held;
}

static int holdings_wrong(const struct view *v)
{
    int64_t bins = v->tops[v->block_count - 1];
    for (int64_t j = 0; j < v->block_count; j++)
        if (holding(v, j) != ref_due_of_block(v->buckets, bins, v->tops, j))
            return 1;
    return 0;
}

/* the adjustment of each interval: the buckets before its start that belong to other blocks */
static void work_out_adjustments(const struct view *v, int64_t *adjustment)
{
    for (int64_t j = 0; j < v->block_count; j++) {
        int64_t others = 0;
        for (int64_t i = 0; i < v->interval_count; i++) {
            if ((int64_t)v->blocks[i] == j)
                adjustment[i] = others;
            else
                others += length_of(v, i);
        }
    }
}

static int adjustments_wrong(const struct view *v)
{
    int64_t adjustment[MOST_INTERVALS];
    work_out_adjustments(v, adjustment);
    for (int64_t i = 0; i < v->interval_count; i++)
        if ((int64_t)v->adjustments[i] != adjustment[i])
            return 1;
    return 0;
}

/* the ranks below `held` that fall to number `turn` of d bins */
static int64_t share(int64_t held, int64_t d, int64_t turn)
{
    return held <= turn ? 0 : (held - turn - 1) / d + 1;
}

/* whether P is outside its limits, or some bin's buckets and its label need more than P */
static int capacity_wrong(const struct view *v)
{
    if (outside(v->capacity, MOST_POSITIONS))
        return 1;
    for (int64_t j = 0; j < v->block_count; j++) {
        int64_t d = v->tops[j] - (j == 0 ? 0 : v->tops[j - 1]), held = holding(v, j);
        for (int64_t turn = 0; turn < d; turn++)
            if (share(held, d, turn) + LABEL > v->capacity)
                return 1;
    }
    return 0;
}

/* 12 to 15, which tables and files share */
static uint32_t shared_refusal(const struct view *v)
{
    if (tops_wrong(v))
        return 12;
    if (ends_wrong(v))
        return 13;
    if (blocks_wrong(v))
        return 14;
    return holdings_wrong(v) ? 15 : 0;
}

static uint32_t table_refusal(const struct view *v)
{
    if (counts_wrong(v) || arrays_short(v))
        return 11;
    uint32_t refusal = shared_refusal(v);
    if (refusal != 0)
        return refusal;
    if (adjustments_wrong(v))
        return 16;
    return capacity_wrong(v) ? 30 : 0;
}

static void read_map(const struct view *v, struct map *m)
{
    m->buckets = v->buckets;
    m->capacity = v->capacity;
    m->block_count = v->block_count;
    m->interval_count = v->interval_count;
    for (int64_t j = 0; j < v->block_count; j++)
        m->tops[j] = v->tops[j];
    for (int64_t i = 0; i < v->interval_count; i++) {
        m->spans[i].start = i == 0 ? 0 : v->ends[i - 1];
        m->spans[i].end = v->ends[i];
        m->spans[i].block = v->blocks[i];
        m->spans[i].adjustment = v->adjustments[i];
    }
}

/* WHERE A BUCKET IS */

static int64_t first_bin(const struct map *m, int64_t j)
{
    return j == 0 ? 0 : m->tops[j - 1];
}

static int64_t bins_of(const struct map *m, int64_t j)
{
    return m->tops[j] - first_bin(m, j);
}

static int64_t span_of(const struct map *m, int64_t x)
{
    int64_t i = 0;
    while (m->spans[i].end <= x)
        i++;
    return i;
}

/* bin and position of bucket x of interval i: the source's position, behind the label */
static void placed(const struct map *m, int64_t i, int64_t x, uint32_t *bin, uint32_t *position)
{
    int64_t rank = x - m->spans[i].adjustment;
    int64_t d = bins_of(m, m->spans[i].block);
    *bin = (uint32_t)(first_bin(m, m->spans[i].block) + rank % d);
    *position = (uint32_t)(LABEL + rank / d);
}

static int64_t held_by(const struct map *m, int64_t j)
{
    int64_t held = 0;
    for (int64_t i = 0; i < m->interval_count; i++)
        if (m->spans[i].block == j)
            held += m->spans[i].end - m->spans[i].start;
    return held;
}

static int64_t block_of_bin(const struct map *m, int64_t y)
{
    int64_t j = 0;
    while ((int64_t)m->tops[j] <= y)
        j++;
    return j;
}

/* the buckets in bin y: the ranks below its block's holding that fall to it */
static int64_t size_of_bin(const struct map *m, int64_t y)
{
    int64_t j = block_of_bin(m, y);
    return share(held_by(m, j), bins_of(m, j), y - first_bin(m, j));
}

/* A GROWTH */

static void add_span(struct map *m, int64_t end, int64_t block, int64_t adjustment)
{
    struct span *s = &m->spans[m->interval_count];
    s->start = m->interval_count == 0 ? 0 : s[-1].end;
    s->end = end;
    s->block = block;
    s->adjustment = adjustment;
    m->interval_count++;
}

/* no old block is due less than it has */
static void fill(const struct map *old, const int64_t *dues, struct map *m)
{
    for (int64_t i = 0; i < old->interval_count; i++)
        add_span(m, old->spans[i].end, old->spans[i].block, old->spans[i].adjustment);
    int64_t last = old->spans[old->interval_count - 1].block;
    int64_t next = old->buckets;
    if (dues[last] > held_by(old, last)) {
        next += dues[last] - held_by(old, last);
        m->spans[m->interval_count - 1].end = next;
    }
    for (int64_t j = 0; j < m->block_count; j++) {
        int64_t had = held_by(old, j);
        if (j == last || dues[j] <= had)
            continue;
        add_span(m, next + dues[j] - had, j, next - had);
        next += dues[j] - had;
    }
}

/* some old block is due less */
static void drain(const struct map *old, const int64_t *dues, struct map *m)
{
    int64_t w = 0, fresh = old->block_count;
    int last_moved = 0;
    for (int64_t i = 0; i < old->interval_count; i++) {
        int64_t s = old->spans[i].start, e = old->spans[i].end, j = old->spans[i].block;
        int64_t c = old->spans[i].adjustment, t = dues[j];
        last_moved = t < e - c;
        if (t >= e - c) {
            add_span(m, e, j, c);
        } else if (t <= s - c) {
            add_span(m, e, fresh, s - w);
            w += e - s;
        } else {
            add_span(m, t + c, j, c);
            add_span(m, e, fresh, t + c - w);
            w += e - (t + c);
        }
    }
    if (last_moved)
        m->spans[m->interval_count - 1].end = m->buckets;
    else if (m->buckets > old->buckets)
        add_span(m, m->buckets, fresh, old->buckets - w);
}

static int64_t bins_in(const struct map *m)
{
    return m->tops[m->block_count - 1];
}

static void grow(const struct map *old, int64_t buckets, int64_t bins, struct map *m)
{
    int64_t dues[MOST_BLOCKS + 1];
    int less = 0;
    m->buckets = buckets;
    m->capacity = old->capacity;
    m->interval_count = 0;
    m->block_count = old->block_count;
    for (int64_t j = 0; j < old->block_count; j++)
        m->tops[j] = old->tops[j];
    if (bins > bins_in(old))
        m->tops[m->block_count++] = (uint32_t)bins;
    for (int64_t j = 0; j < m->block_count; j++)
        dues[j] = ref_due_of_block(buckets, bins, m->tops, j);
    for (int64_t j = 0; j < old->block_count; j++)
        less = less || dues[j] < held_by(old, j);
    if (less)
        drain(old, dues, m);
    else
        fill(old, dues, m);
}

/* THE MOVE LIST, from the maps before and after alone */

/* whether bucket x, of interval i before and of interval j after, has another bin after */
static int moves(const struct map *old, int64_t i, const struct map *m, int64_t j, int64_t x)
{
    uint32_t bin, new_bin, position, new_position;
    placed(old, i, x, &bin, &position);
    placed(m, j, x, &new_bin, &new_position);
    return bin != new_bin;
}

static void write_row(const struct map *old, int64_t i, const struct map *m, int64_t j, int64_t x,
                      uint32_t *row)
{
    row[0] = (uint32_t)x;
    placed(old, i, x, &row[1], &row[2]);
    placed(m, j, x, &row[3], &row[4]);
}

/* A page of the list: the rows from `first` on, `fit` at most. */
struct page {
    int64_t first, fit;
    uint32_t *rows;
    int64_t total, written;
};

/* the rows of buckets from x to e, all of interval i before and of interval j after */
static void page_part(struct page *p, const struct map *old, int64_t i, const struct map *m,
                      int64_t j, int64_t x, int64_t e)
{
    int alike = old->spans[i].block == m->spans[j].block;
    if (alike && old->spans[i].adjustment == m->spans[j].adjustment)
        return;
    /* blocks have no bin in common, so here every bucket moves: pass over those not asked for */
    if (!alike && p->total + (e - x) <= p->first) {
        p->total += e - x;
        return;
    }
    if (!alike && p->total < p->first) {
        x += p->first - p->total;
        p->total = p->first;
    }
    for (; x < e; x++) {
        if (!alike && p->written == p->fit) {
            p->total += e - x;
            return;
        }
        if (!moves(old, i, m, j, x))
            continue;
        if (p->total >= p->first && p->written < p->fit)
            write_row(old, i, m, j, x, p->rows + 5 * p->written++);
        p->total++;
    }
}

static void list_moves(const struct map *old, const struct map *m, struct page *p)
{
    int64_t i = 0, j = 0, x = 0;
    p->total = p->written = 0;
    while (x < old->buckets) {
        int64_t e = old->spans[i].end < m->spans[j].end ? old->spans[i].end : m->spans[j].end;
        page_part(p, old, i, m, j, x, e);
        x = e;
        i += old->spans[i].end == e;
        j += m->spans[j].end == e;
    }
}

static int64_t count_moves(const struct map *old, const struct map *m)
{
    struct page p = {0, 0, NULL, 0, 0};
    list_moves(old, m, &p);
    return p.total;
}

/* REFUSALS OF SIZES AND ROOM */

static uint32_t size_refusal(int64_t buckets, int64_t bins)
{
    if (outside(buckets, MOST_BUCKETS) || outside(bins, MOST_BINS))
        return 1;
    return bins > buckets ? 2 : 0;
}

/* whether some bin's due in a map of these sizes, and its label, need more than the capacity */
static int overfills(int64_t capacity, int64_t buckets, int64_t bins)
{
    for (int64_t y = 0; y < bins; y++)
        if (due(buckets, bins, y) + LABEL > capacity)
            return 1;
    return 0;
}

static uint32_t fresh_refusal(int64_t buckets, int64_t bins, int64_t capacity)
{
    if (outside(capacity, MOST_POSITIONS))
        return 30;
    uint32_t refusal = size_refusal(buckets, bins);
    if (refusal != 0)
        return refusal;
    return overfills(capacity, buckets, bins) ? 31 : 0;
}

static uint32_t growth_refusal(const struct map *old, int64_t buckets, int64_t bins)
{
    uint32_t refusal = size_refusal(buckets, bins);
    if (refusal != 0)
        return refusal;
    if (buckets < old->buckets || bins < bins_in(old))
        return 3;
    if (buckets == old->buckets && bins == bins_in(old))
        return 4;
    if (bins > bins_in(old) && old->block_count == MOST_BLOCKS)
        return 5;
    return overfills(old->capacity, buckets, bins) ? 31 : 0;
}

static int room_short(size_t tops, size_t ends, size_t blocks, size_t adjustments)
{
    return tops < MOST_BLOCKS || ends < MOST_INTERVALS || blocks < MOST_INTERVALS ||
           adjustments < MOST_INTERVALS;
}
#define ROOM_SHORT room_short(new_tops_len, new_ends_len, new_blocks_len, new_adjustments_len)

static struct irr_header header_of(const struct map *m)
{
    struct irr_header h = {(uint32_t)m->buckets, (uint32_t)m->capacity, (uint32_t)m->block_count,
                           (uint32_t)m->interval_count};
    return h;
}

static void write_map(const struct map *m, uint32_t *tops, uint32_t *ends, uint32_t *blocks,
                      uint32_t *adjustments)
{
    for (int64_t j = 0; j < m->block_count; j++)
        tops[j] = m->tops[j];
    for (int64_t i = 0; i < m->interval_count; i++) {
        ends[i] = (uint32_t)m->spans[i].end;
        blocks[i] = (uint32_t)m->spans[i].block;
        adjustments[i] = (uint32_t)m->spans[i].adjustment;
    }
}

/* THE TWELVE CALLS */

static struct map before, after;

struct irr_table_reply ref_initial(uint32_t buckets, uint32_t bins, uint32_t capacity, REF_ROOM)
{
    struct irr_table_reply reply = {0, 0, {0, 0, 0, 0}};
    reply.refusal = ROOM_SHORT ? 21 : fresh_refusal(buckets, bins, capacity);
    if (reply.refusal != 0)
        return reply;
    new_tops[0] = bins;
    new_ends[0] = buckets;
    new_blocks[0] = 0;
    new_adjustments[0] = 0;
    reply.header.buckets = buckets;
    reply.header.capacity = capacity;
    reply.header.block_count = 1;
    reply.header.interval_count = 1;
    return reply;
}

/* the refusal of a lent table, or of its growth; where there is none, the maps before and after */
static uint32_t grown_refusal(const struct view *v, int64_t buckets, int64_t bins)
{
    uint32_t refusal = table_refusal(v);
    if (refusal != 0)
        return refusal;
    read_map(v, &before);
    refusal = growth_refusal(&before, buckets, bins);
    if (refusal == 0)
        grow(&before, buckets, bins, &after);
    return refusal;
}

struct irr_table_reply ref_expand(struct irr_header header, REF_TABLE, uint32_t buckets,
                                  uint32_t bins, REF_ROOM)
{
    struct irr_table_reply reply = {0, 0, {0, 0, 0, 0}};
    struct view v = VIEW;
    reply.refusal = ROOM_SHORT ? 21 : grown_refusal(&v, buckets, bins);
    if (reply.refusal != 0)
        return reply;
    if (after.interval_count > MOST_INTERVALS) {
        reply.refusal = 8;
        return reply;
    }
    write_map(&after, new_tops, new_ends, new_blocks, new_adjustments);
    reply.moved = (uint32_t)count_moves(&before, &after);
    reply.header = header_of(&after);
    return reply;
}

struct irr_relocations_reply ref_relocations(struct irr_header header, REF_TABLE, uint32_t buckets,
                                             uint32_t bins, uint32_t first, uint32_t *rows,
                                             size_t rows_len)
{
    struct irr_relocations_reply reply = {0, 0, 0};
    struct view v = VIEW;
    struct page page = {first, (int64_t)(rows_len / 5), rows, 0, 0};
    reply.refusal = grown_refusal(&v, buckets, bins);
    if (reply.refusal != 0)
        return reply;
    if (first > count_moves(&before, &after)) {
        reply.refusal = 9;
        return reply;
    }
    list_moves(&before, &after, &page);
    reply.written = (uint32_t)page.written;
    reply.total = (uint32_t)page.total;
    return reply;
}

/* the word of a place */
static int64_t word_at(const struct map *m, uint32_t bin, uint32_t position)
{
    return bin * m->capacity + position;
}

struct irr_carry_reply ref_carry(struct irr_header header, REF_TABLE, uint32_t buckets,
                                 uint32_t bins, uint32_t *words, size_t words_len, uint32_t mark)
{
    struct irr_carry_reply reply = {0, 0, 0};
    struct view v = VIEW;
    uint32_t row[5];
    struct page page = {mark, 1, row, 0, 0};
    reply.refusal = grown_refusal(&v, buckets, bins);
    if (reply.refusal == 0 && words_len < (size_t)(bins * v.capacity))
        reply.refusal = 40;
    if (reply.refusal == 0 && mark > count_moves(&before, &after))
        reply.refusal = 41;
    if (reply.refusal != 0)
        return reply;
    list_moves(&before, &after, &page);
    if (page.written == 1)
        words[word_at(&before, row[3], row[4])] = words[word_at(&before, row[1], row[2])];
    reply.mark = (uint32_t)(mark + page.written);
    reply.finished = page.written == 0;
    return reply;
}

struct irr_place_reply ref_place(struct irr_header header, REF_TABLE, uint32_t bucket)
{
    struct irr_place_reply reply = {0, 0, 0};
    struct view v = VIEW;
    reply.refusal = table_refusal(&v);
    if (reply.refusal == 0 && bucket >= v.buckets)
        reply.refusal = 6;
    if (reply.refusal != 0)
        return reply;
    read_map(&v, &before);
    placed(&before, span_of(&before, bucket), bucket, &reply.bin, &reply.position);
    return reply;
}

static int list_falls(const uint32_t *buckets, size_t n)
{
    for (size_t i = 1; i < n; i++)
        if (buckets[i] < buckets[i - 1])
            return 1;
    return 0;
}

static int bucket_outside(const struct view *v, const uint32_t *buckets, size_t n)
{
    for (size_t i = 0; i < n; i++)
        if (buckets[i] >= v->buckets)
            return 1;
    return 0;
}

/* each bucket placed by itself */
struct irr_places_reply ref_places(struct irr_header header, REF_TABLE, const uint32_t *buckets,
                                   size_t buckets_len, uint32_t *places, size_t places_len)
{
    struct irr_places_reply reply = {0};
    struct view v = VIEW;
    if (places_len < buckets_len || places_len - buckets_len < buckets_len)
        reply.refusal = 33;
    else
        reply.refusal = table_refusal(&v);
    if (reply.refusal == 0 && list_falls(buckets, buckets_len))
        reply.refusal = 32;
    if (reply.refusal == 0 && bucket_outside(&v, buckets, buckets_len))
        reply.refusal = 6;
    if (reply.refusal != 0)
        return reply;
    read_map(&v, &before);
    for (size_t i = 0; i < buckets_len; i++)
        placed(&before, span_of(&before, buckets[i]), buckets[i], &places[2 * i],
               &places[2 * i + 1]);
    return reply;
}

struct irr_find_reply ref_find(struct irr_header header, REF_TABLE, uint32_t bin,
                               uint32_t position)
{
    struct irr_find_reply reply = {0, 0};
    struct view v = VIEW;
    reply.refusal = table_refusal(&v);
    if (reply.refusal != 0)
        return reply;
    read_map(&v, &before);
    if (bin >= bins_in(&before) || position < LABEL ||
        position >= LABEL + size_of_bin(&before, bin)) {
        reply.refusal = 7;
        return reply;
    }
    int64_t j = block_of_bin(&before, bin);
    int64_t rank = (position - LABEL) * bins_of(&before, j) + (bin - first_bin(&before, j));
    for (int64_t i = 0; i < before.interval_count; i++) {
        const struct span *s = &before.spans[i];
        if (s->block == j && s->start - s->adjustment <= rank && rank < s->end - s->adjustment) {
            reply.bucket = (uint32_t)(rank + s->adjustment);
            break;
        }
    }
    return reply;
}

struct irr_bin_size_reply ref_bin_size(struct irr_header header, REF_TABLE, uint32_t bin)
{
    struct irr_bin_size_reply reply = {0, 0};
    struct view v = VIEW;
    reply.refusal = table_refusal(&v);
    if (reply.refusal != 0)
        return reply;
    read_map(&v, &before);
    if (bin >= bins_in(&before))
        reply.refusal = 7;
    else
        reply.buckets = (uint32_t)size_of_bin(&before, bin);
    return reply;
}

struct irr_room_reply ref_room(uint32_t expansions)
{
    struct irr_room_reply reply = {0, 0};
    if (expansions > 64)
        reply.refusal = 9;
    else
        reply.intervals = expansions * (expansions + 1) / 2 + 1;
    return reply;
}

/* THE SAVED FORM */

static uint8_t *put_number(uint8_t *at, int64_t number)
{
    for (int byte = 0; byte < 4; byte++) {
        *at++ = (uint8_t)(number % 256);
        number /= 256;
    }
    return at;
}

static uint32_t number_at(const uint8_t *bytes, int64_t i)
{
    int64_t number = 0;
    for (int byte = 3; byte >= 0; byte--)
        number = number * 256 + bytes[4 * i + byte];
    return (uint32_t)number;
}

struct irr_save_reply ref_save(struct irr_header header, REF_TABLE, uint8_t *buffer,
                               size_t buffer_len)
{
    struct irr_save_reply reply = {0, 0};
    struct view v = VIEW;
    reply.refusal = table_refusal(&v);
    if (reply.refusal != 0)
        return reply;
    int64_t length = 12 + 4 * v.block_count + 8 * v.interval_count;
    if (buffer_len < (size_t)length) {
        reply.refusal = 21;
        return reply;
    }
    buffer = put_number(buffer, v.buckets);
    buffer = put_number(buffer, v.block_count);
    buffer = put_number(buffer, v.interval_count);
    for (int64_t j = 0; j < v.block_count; j++)
        buffer = put_number(buffer, tops[j]);
    for (int64_t i = 0; i < v.interval_count; i++)
        buffer = put_number(buffer, ends[i]);
    for (int64_t i = 0; i < v.interval_count; i++)
        buffer = put_number(buffer, blocks[i]);
    reply.length = (uint32_t)length;
    return reply;
}

/* the numbers of a file; v takes its counts and arrays, if rule 11 holds */
static uint32_t read_file(const uint8_t *bytes, size_t bytes_len, struct view *v)
{
    static uint32_t tops[MOST_BLOCKS], ends[MOST_INTERVALS], blocks[MOST_INTERVALS];
    struct view file = {0, 0, 0, 0, tops, ends, blocks, NULL, 0, 0, 0, 0};
    if (bytes_len < 12)
        return 11;
    file.buckets = number_at(bytes, 0);
    file.block_count = number_at(bytes, 1);
    file.interval_count = number_at(bytes, 2);
    int64_t g = file.block_count, k = file.interval_count;
    if (counts_wrong(&file) || bytes_len != (size_t)(12 + 4 * g + 8 * k))
        return 11;
    for (int64_t j = 0; j < g; j++)
        tops[j] = number_at(bytes, 3 + j);
    for (int64_t i = 0; i < k; i++) {
        ends[i] = number_at(bytes, 3 + g + i);
        blocks[i] = number_at(bytes, 3 + g + k + i);
    }
    *v = file;
    return 0;
}

static uint32_t file_refusal(const uint8_t *bytes, size_t bytes_len, uint32_t capacity,
                             struct view *v)
{
    if (read_file(bytes, bytes_len, v) != 0)
        return 11;
    uint32_t refusal = shared_refusal(v);
    if (refusal != 0)
        return refusal;
    v->capacity = capacity;
    return capacity_wrong(v) ? 30 : 0;
}

struct irr_load_reply ref_load(const uint8_t *bytes, size_t bytes_len, uint32_t capacity, REF_ROOM)
{
    struct irr_load_reply reply = {0, {0, 0, 0, 0}};
    struct view v;
    int64_t adjustment[MOST_INTERVALS];
    reply.refusal = ROOM_SHORT ? 21 : file_refusal(bytes, bytes_len, capacity, &v);
    if (reply.refusal != 0)
        return reply;
    work_out_adjustments(&v, adjustment);
    for (int64_t j = 0; j < v.block_count; j++)
        new_tops[j] = v.tops[j];
    for (int64_t i = 0; i < v.interval_count; i++) {
        new_ends[i] = v.ends[i];
        new_blocks[i] = v.blocks[i];
        new_adjustments[i] = (uint32_t)adjustment[i];
    }
    reply.header.buckets = (uint32_t)v.buckets;
    reply.header.capacity = (uint32_t)v.capacity;
    reply.header.block_count = (uint32_t)v.block_count;
    reply.header.interval_count = (uint32_t)v.interval_count;
    return reply;
}

/* THE RACK SHEET */

/* the line of interval i */
static void put_line(const struct map *m, int64_t i, uint8_t *to)
{
    const struct span *s = &m->spans[i];
    char line[LINE_BYTES + 1];
    snprintf(line, sizeof line, "%10u%10u%10u%10u%10u\n", (unsigned)s->start,
             (unsigned)(s->end - 1), (unsigned)s->block, (unsigned)first_bin(m, s->block),
             (unsigned)bins_of(m, s->block));
    memcpy(to, line, LINE_BYTES);
}

struct irr_sheet_reply ref_sheet(struct irr_header header, REF_TABLE, uint8_t *buffer,
                                 size_t buffer_len)
{
    struct irr_sheet_reply reply = {0, 0};
    struct view v = VIEW;
    reply.refusal = table_refusal(&v);
    if (reply.refusal != 0)
        return reply;
    int64_t length = LINE_BYTES * v.interval_count;
    if (buffer_len < (size_t)length) {
        reply.refusal = 34;
        return reply;
    }
    read_map(&v, &before);
    for (int64_t i = 0; i < before.interval_count; i++)
        put_line(&before, i, buffer + LINE_BYTES * i);
    reply.length = (uint32_t)length;
    return reply;
}
