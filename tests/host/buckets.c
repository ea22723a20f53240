/* The archive against a full directory of buckets. */
#include "buckets.h"

#include <inttypes.h>
#include <stdio.h>
#include <string.h>

#include "calls.h"
#include "directory.h"
#include "random.h"

#define ARRAYS(t)                                                                       \
    (t)->tops, (t)->tops_len, (t)->ends, (t)->intervals_len, (t)->blocks, (t)->intervals_len, \
        (t)->adjustments, (t)->intervals_len
#define TABLE(t) (t)->header, ARRAYS(t)
#define ROOM(t)                                                                             \
    (t)->tops, IRR_MAX_BLOCKS, (t)->ends, IRR_MAX_INTERVALS, (t)->blocks, IRR_MAX_INTERVALS, \
        (t)->adjustments, IRR_MAX_INTERVALS

/* entries behind the places of a list or the words of a rack, which no call may write, and what
 * those of a list hold; words of the largest rack */
enum { PAST = 3, KEPT = 0xeeee, RACK = 16384 };

static struct directory before, after;
static uint64_t maps, places, lists, lines, growths, rows_seen, carried_seen, overfull_seen;
static uint32_t listed[2 * DIRECTORY_BUCKETS], numbers[4 * DIRECTORY_BUCKETS + PAST];
static struct irr_place_reply single[DIRECTORY_BUCKETS];

static void read_directory(struct directory *d, const struct table *t)
{
    directory_read(d, t->header, t->tops, t->ends, t->blocks);
}

/* irr_find refuses the positions of the bin's label, and the one past its last bucket */
static void check_edges(const struct table *t, uint32_t bin, uint32_t size)
{
    for (uint32_t p = 0; p <= IRR_LABEL; p++) {
        uint32_t position = p < IRR_LABEL ? p : IRR_LABEL + size;
        struct irr_find_reply r = irr_find(TABLE(t), bin, position);
        if (r.refusal != IRR_PLACE_OUTSIDE || r.bucket != 0)
            fault("irr_find where no bucket is: bin, position, refusal", bin, position, r.refusal);
    }
}

/* every bin holds its due size */
static void check_sizes(const struct directory *d, const struct table *t)
{
    static int due[DIRECTORY_BUCKETS], size[DIRECTORY_BUCKETS];
    int bins = directory_bins(d);
    directory_due(d->buckets, bins, due);
    for (int y = 0; y < bins; y++)
        size[y] = 0;
    for (int x = 0; x < d->buckets; x++)
        size[d->bin[x]]++;
    for (int y = 0; y < bins; y++) {
        struct irr_bin_size_reply r = irr_bin_size(TABLE(t), (uint32_t)y);
        if ((uint32_t)size[y] + IRR_LABEL > t->header.capacity)
            fault("overfull: bin, size, capacity", (uint32_t)y, (uint32_t)size[y],
                  t->header.capacity);
        if (size[y] != due[y])
            fault("directory: bin, size, due", (uint32_t)y, (uint32_t)size[y], (uint32_t)due[y]);
        if (r.refusal != 0 || r.buckets != (uint32_t)due[y])
            fault("irr_bin_size: bin, size, due", (uint32_t)y, r.buckets, (uint32_t)due[y]);
        check_edges(t, (uint32_t)y, (uint32_t)size[y]);
    }
}

/* the size of the directory's largest bin */
static uint32_t largest_size(const struct directory *d)
{
    static int size[DIRECTORY_BUCKETS];
    int largest = 0;
    for (int y = 0; y < directory_bins(d); y++)
        size[y] = 0;
    for (int x = 0; x < d->buckets; x++)
        if (++size[d->bin[x]] > largest)
            largest = size[d->bin[x]];
    return (uint32_t)largest;
}

/* the refusal of placing bucket 0, if the table has another capacity */
static uint32_t refusal_with(const struct table *t, uint32_t capacity)
{
    struct irr_header h = t->header;
    h.capacity = capacity;
    return irr_place(h, ARRAYS(t), 0).refusal;
}

/* the largest bin's size plus the label is the least capacity of the table, and of its file: the
 * capacities that are less, down to that size, are refused */
static void check_capacity(const struct directory *d, const struct table *t)
{
    static struct table loaded;
    static uint8_t file[IRR_MAX_SAVED];
    uint32_t size = largest_size(d), least = size + IRR_LABEL;
    uint32_t length = irr_save(TABLE(t), file, sizeof file).length;
    if (refusal_with(t, least) != 0)
        fault("least capacity refused", least, t->header.buckets, refusal_with(t, least));
    struct irr_load_reply r = irr_load(file, length, least, ROOM(&loaded));
    if (r.refusal != 0 || r.header.capacity != least)
        fault("irr_load, least capacity: refusal, capacity", least, r.refusal, r.header.capacity);
    for (uint32_t less = size; less < least; less++) {
        if (refusal_with(t, less) != IRR_WRONG_CAPACITY)
            fault("a capacity that the largest bin exceeds", less, size, t->header.buckets);
        if (irr_load(file, length, less, ROOM(&loaded)).refusal != IRR_WRONG_CAPACITY)
            fault("irr_load with a capacity that the largest bin exceeds", less, size,
                  t->header.buckets);
    }
}

/* place and find, of every bucket; the single placings are kept */
static void check_places(const struct directory *d, const struct table *t)
{
    for (int x = 0; x < d->buckets; x++) {
        uint32_t y = (uint32_t)d->bin[x], p = (uint32_t)d->position[x];
        struct irr_place_reply place = irr_place(TABLE(t), (uint32_t)x);
        struct irr_find_reply find = irr_find(TABLE(t), y, p);
        if (place.refusal != 0 || place.bin != y || place.position != p)
            fault("irr_place: bucket, bin, position", (uint32_t)x, place.bin, place.position);
        if (place.position >= t->header.capacity)
            fault("irr_place: bucket, position, capacity", (uint32_t)x, place.position,
                  t->header.capacity);
        if (find.refusal != 0 || find.bucket != (uint32_t)x)
            fault("irr_find: bin, position, bucket", y, p, find.bucket);
        single[x] = place;
    }
    places += (uint64_t)d->buckets;
}

/* asks for the places of the first n that are listed, with so many numbers lent for them; the
 * numbers from `written` on must be kept */
static void ask_list(const struct table *t, uint32_t n, uint32_t lent, uint32_t refusal,
                     uint32_t written)
{
    for (uint32_t i = 0; i < 2 * n + PAST; i++)
        numbers[i] = KEPT;
    struct irr_places_reply r = irr_places(TABLE(t), listed, n, numbers, lent);
    if (r.refusal != refusal)
        fault("irr_places: buckets, refusal, right one", n, r.refusal, refusal);
    for (uint32_t i = written; i < 2 * n + PAST; i++)
        if (numbers[i] != KEPT)
            fault("irr_places: buckets, number written, its place", n, numbers[i], i);
    lists++;
}

/* a list that is accepted, against the directory and the single placings */
static void check_list(const struct directory *d, const struct table *t, uint32_t n)
{
    ask_list(t, n, 2 * n + below(PAST + 1), 0, 2 * n);
    for (uint32_t i = 0; i < n; i++) {
        uint32_t x = listed[i], y = numbers[2 * i], p = numbers[2 * i + 1];
        if (y != (uint32_t)d->bin[x] || p != (uint32_t)d->position[x])
            fault("irr_places, directory: bucket, bin, position", x, y, p);
        if (y != single[x].bin || p != single[x].position)
            fault("irr_places, irr_place: bucket, bin, position", x, y, p);
    }
}

/* every bucket that lies `step` behind the one before it, so many times each */
static uint32_t list_steps(uint32_t b, uint32_t step, uint32_t times)
{
    uint32_t n = 0;
    for (uint32_t x = 0; x < b; x += step)
        for (uint32_t i = 0; i < times; i++)
            listed[n++] = x;
    return n;
}

/* the first or the last bucket of some of the intervals */
static uint32_t list_intervals(const struct table *t, uint32_t skipped)
{
    uint32_t n = 0;
    for (uint32_t i = below(skipped + 1); i < t->header.interval_count; i += 1 + below(skipped + 1))
        listed[n++] = once_in(2) || i == 0 ? t->ends[i] - 1 : t->ends[i - 1];
    return n;
}

static void swap_listed(uint32_t i)
{
    uint32_t x = listed[i];
    listed[i] = listed[i + 1];
    listed[i + 1] = x;
}

/* the first n that are listed, each above the one before it, with one pair that falls: the first,
 * any, the last */
static void check_falls(const struct table *t, uint32_t n)
{
    uint32_t any = below(n - 1);
    const uint32_t pairs[3] = {0, any, n - 2};
    for (int i = 0; i < 3 && n > 1; i++) {
        swap_listed(pairs[i]);
        ask_list(t, n, 2 * n, IRR_LIST_FALLS, 0);
        swap_listed(pairs[i]);
    }
}

/* the list of all buckets, with what is refused: a result too short, a pair that falls by one, the
 * last bucket not below B, and a fall before or behind that bucket */
static void check_wrong_lists(const struct table *t)
{
    uint32_t b = t->header.buckets, n = list_steps(b, 1, 1);
    ask_list(t, n, 2 * n - 1, IRR_RESULT_SHORT, 0);
    check_falls(t, n);
    listed[n - 1] = b;
    ask_list(t, n, 2 * n, IRR_BUCKET_OUTSIDE, 0);
    check_falls(t, n);
}

/* lists of buckets: none, one, all, all twice, some, and some intervals' */
static void check_lists(const struct directory *d, const struct table *t)
{
    uint32_t b = t->header.buckets, step = 2 + below(b), times = 1 + below(2);
    check_list(d, t, 0);
    listed[0] = below(b);
    check_list(d, t, 1);
    check_list(d, t, list_steps(b, 1, 1));
    check_list(d, t, list_steps(b, 1, 2));
    check_list(d, t, list_steps(b, step, times));
    check_list(d, t, list_intervals(t, 0));
    check_list(d, t, list_intervals(t, 4));
    check_wrong_lists(t);
}

/* whether bucket x is in the block and among the bins that a line of the sheet names */
static int is_on_line(const struct directory *d, uint32_t x, const uint32_t *line)
{
    uint32_t bin = (uint32_t)d->bin[x];
    return (uint32_t)d->block[x] == line[2] && bin >= line[3] && bin - line[3] < line[4];
}

/* the sheet: its lines take all buckets in turn, and each bucket's block and bin are on its line */
static void check_sheet(const struct directory *d, const struct table *t)
{
    static uint8_t sheet[IRR_MAX_SHEET];
    uint32_t line[FIELDS] = {0}, x = 0;
    struct irr_sheet_reply r = irr_sheet(TABLE(t), sheet, sizeof sheet);
    if (r.refusal != 0 || r.length != IRR_LINE * t->header.interval_count) {
        fault("irr_sheet: refusal, length, intervals", r.refusal, r.length,
              t->header.interval_count);
        return;
    }
    for (uint32_t at = 0; at < r.length; at += IRR_LINE) {
        if (!line_read(sheet + at, line) || line[0] != x || line[1] < x ||
            line[1] >= t->header.buckets) {
            fault("irr_sheet: byte, first bucket, right one", at, line[0], x);
            return;
        }
        for (; x <= line[1]; x++)
            if (!is_on_line(d, x, line))
                fault("irr_sheet: bucket, block, first bin", x, line[2], line[3]);
    }
    if (x != t->header.buckets)
        fault("irr_sheet: buckets on it, buckets", x, t->header.buckets, 0);
    lines += r.length / IRR_LINE;
}

void check_map(const struct table *t)
{
    if (t->header.buckets > DIRECTORY_BUCKETS)
        return;
    read_directory(&before, t);
    check_sizes(&before, t);
    check_places(&before, t);
    check_lists(&before, t);
    check_capacity(&before, t);
    check_sheet(&before, t);
    maps++;
}

/* the table that the directory's growth gives is the one that the archive wrote */
static void check_table(const struct directory *d, const struct table *t)
{
    static uint32_t ends[DIRECTORY_BUCKETS], blocks[DIRECTORY_BUCKETS];
    static uint32_t adjustments[DIRECTORY_BUCKETS];
    int k = directory_write(d, ends, blocks, adjustments);
    if (d->blocks != (int)t->header.block_count || k != (int)t->header.interval_count ||
        d->buckets != (int)t->header.buckets) {
        fault("directory: buckets, blocks, intervals", (uint32_t)d->buckets, (uint32_t)d->blocks,
              (uint32_t)k);
        return;
    }
    for (int j = 0; j < d->blocks; j++)
        if (d->tops[j] != (int)t->tops[j])
            fault("top: block, directory, archive", (uint32_t)j, (uint32_t)d->tops[j], t->tops[j]);
    for (int i = 0; i < k; i++) {
        if (ends[i] != t->ends[i])
            fault("end: interval, directory, archive", (uint32_t)i, ends[i], t->ends[i]);
        if (blocks[i] != t->blocks[i])
            fault("block: interval, directory, archive", (uint32_t)i, blocks[i], t->blocks[i]);
        if (adjustments[i] != t->adjustments[i])
            fault("adjustment: interval, directory, archive", (uint32_t)i, adjustments[i],
                  t->adjustments[i]);
    }
}

/* the old buckets whose bin differs; those that stay keep their position */
static uint32_t count_moved(void)
{
    uint32_t moved = 0;
    for (int x = 0; x < before.buckets; x++) {
        if (before.bin[x] != after.bin[x])
            moved++;
        else if (before.position[x] != after.position[x])
            fault("a bucket that stays changes position", (uint32_t)x,
                  (uint32_t)before.position[x], (uint32_t)after.position[x]);
    }
    return moved;
}

/* max(0, B - T), T the most that the old bins hold in any balanced map of the new sizes */
static uint32_t least_moved(uint32_t buckets, uint32_t bins, const struct table *grown)
{
    uint32_t b = grown->header.buckets, n = table_bins(grown);
    uint32_t t = bins * (b / n) + (bins < b % n ? bins : b % n);
    return buckets > t ? buckets - t : 0;
}

/* the rows of the archive, page by page, are the buckets whose bin differs, in rising order */
static void check_rows(const struct table *old, const struct table *grown, uint32_t moved)
{
    uint32_t rows[IRR_ROW * 40], first = 0, i = 0;
    size_t page = 1 + below(40);
    struct irr_relocations_reply r = {0, 0, 0};
    for (int x = 0; x < before.buckets; x++) {
        if (before.bin[x] == after.bin[x])
            continue;
        if (i == r.written) {
            first += r.written;
            i = 0;
            r = irr_relocations(TABLE(old), grown->header.buckets, table_bins(grown), first, rows,
                                IRR_ROW * page);
            if (r.refusal != 0 || r.total != moved || r.written == 0 || r.written > page) {
                fault("irr_relocations: first, written, total", first, r.written, r.total);
                return;
            }
        }
        const uint32_t *row = rows + IRR_ROW * i++;
        if (row[0] != (uint32_t)x || row[1] != (uint32_t)before.bin[x] ||
            row[2] != (uint32_t)before.position[x] || row[3] != (uint32_t)after.bin[x] ||
            row[4] != (uint32_t)after.position[x])
            fault("row: bucket, row's bucket, row's new bin", (uint32_t)x, row[0], row[3]);
    }
    if (first + i != moved || i != r.written)
        fault("rows: listed, moved, written last", first + i, moved, r.written);
    rows_seen += moved;
}

/* where the word of bucket x is */
static size_t word_at(const struct directory *d, uint32_t capacity, int x)
{
    return (size_t)d->bin[x] * capacity + (size_t)d->position[x];
}

/* the words of a rack, and what they should be */
static uint32_t words[RACK + PAST], right[RACK + PAST];

/* one call at `mark`: its reply, and every word after it */
static void check_call(const struct table *old, struct irr_header h, const struct table *grown,
                       uint32_t mark, struct irr_carry_reply want)
{
    uint32_t bins = table_bins(grown);
    size_t count = (size_t)bins * h.capacity;
    struct irr_carry_reply r =
        irr_carry(h, ARRAYS(old), grown->header.buckets, bins, words, count, mark);
    if (r.refusal != want.refusal || r.mark != want.mark || r.finished != want.finished)
        fault("irr_carry: mark, refusal, mark replied", mark, r.refusal, r.mark);
    if (memcmp(words, right, (count + PAST) * sizeof *words) != 0)
        fault("irr_carry: a word that is not right: mark, buckets, bins", mark,
              grown->header.buckets, bins);
}

/* The moved buckets carried one by one, from the first row to the last: after each call, every word
 * is the directory's. Then a call at the total, and one above it. The capacity is the least. */
static void check_carried(const struct table *old, const struct table *grown, uint32_t moved)
{
    struct irr_header h = old->header;
    uint32_t sizes[2] = {largest_size(&before), largest_size(&after)}, mark = 0;
    h.capacity = sizes[sizes[0] < sizes[1]] + IRR_LABEL;
    uint64_t count = (uint64_t)table_bins(grown) * h.capacity;
    if (count > RACK)
        return;
    for (uint32_t i = 0; i < count + PAST; i++)
        words[i] = right[i] = (uint32_t)random_next();
    for (int x = 0; x < before.buckets; x++) {
        if (before.bin[x] == after.bin[x])
            continue;
        right[word_at(&after, h.capacity, x)] = right[word_at(&before, h.capacity, x)];
        check_call(old, h, grown, mark, (struct irr_carry_reply){0, mark + 1, 0});
        mark++;
    }
    check_call(old, h, grown, moved, (struct irr_carry_reply){0, moved, 1});
    check_call(old, h, grown, moved + 1, (struct irr_carry_reply){IRR_MARK_OUTSIDE, 0, 0});
    carried_seen += mark;
}

void check_growth(const struct table *old, const struct table *grown, uint32_t moved)
{
    uint32_t least = least_moved(old->header.buckets, table_bins(old), grown);
    struct irr_place_reply last = irr_place(TABLE(grown), grown->header.buckets - 1);
    if (last.refusal != 0)
        fault("a grown table refused: buckets, intervals, refusal", grown->header.buckets,
              grown->header.interval_count, last.refusal);
    if (least != moved)
        fault("moved: least, archive", least, moved, 0);
    if (grown->header.capacity != old->header.capacity)
        fault("capacity: old, grown", old->header.capacity, grown->header.capacity, 0);
    if (grown->header.buckets > DIRECTORY_BUCKETS)
        return;
    read_directory(&before, old);
    directory_grow(&before, (int)grown->header.buckets, (int)table_bins(grown), &after);
    check_table(&after, grown);
    if (count_moved() != moved)
        fault("moved: directory, archive", count_moved(), moved, 0);
    check_rows(old, grown, moved);
    check_carried(old, grown, moved);
    check_sizes(&after, grown);
    check_places(&after, grown);
    check_lists(&after, grown);
    check_capacity(&after, grown);
    check_sheet(&after, grown);
    growths++;
}

void check_overfull(const struct table *old, uint32_t buckets, uint32_t bins)
{
    static int due[DIRECTORY_BUCKETS];
    uint32_t largest = 0;
    struct irr_relocations_reply r = irr_relocations(TABLE(old), buckets, bins, 0, NULL, 0);
    if (r.refusal != IRR_BIN_OVERFULL || r.written != 0 || r.total != 0)
        fault("irr_relocations of an overfull map: buckets, bins, refusal", buckets, bins,
              r.refusal);
    overfull_seen++;
    if (buckets > DIRECTORY_BUCKETS)
        return;
    directory_due((int)buckets, (int)bins, due);
    for (uint32_t y = 0; y < bins; y++)
        if ((uint32_t)due[y] > largest)
            largest = (uint32_t)due[y];
    if (largest + IRR_LABEL <= old->header.capacity)
        fault("refused by 31: buckets, bins, largest bin", buckets, bins, largest);
}

void buckets_summary(void)
{
    printf("directory: %" PRIu64 " growths with %" PRIu64 " rows, %" PRIu64
           " of them carried, %" PRIu64 " other maps, %" PRIu64
           " buckets placed and found, %" PRIu64 " lists of buckets, %" PRIu64
           " lines of sheets, %" PRIu64 " growths that overfill a bin\n",
           growths, rows_seen, carried_seen, maps, places, lists, lines, overfull_seen);
    if (growths == 0 || rows_seen == 0 || carried_seen == 0 || maps == 0 || overfull_seen == 0)
        fault("the directory was never compared", (uint32_t)growths, (uint32_t)rows_seen, 0);
}
