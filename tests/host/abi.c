/*
 * The header against the archive: the layout of every struct, every field of every reply, headers
 * by value, arrays of length 0 behind any pointer, and the figures of documents 01 and 02.
 */
#include <inttypes.h>
#include <stdio.h>
#include <string.h>

#include "irr.h"

#define AT(type, field, offset) \
    _Static_assert(offsetof(struct type, field) == (offset), #type " " #field)
#define SIZE(type, size) _Static_assert(sizeof(struct type) == (size), #type)

SIZE(irr_header, 16);
AT(irr_header, buckets, 0);
AT(irr_header, capacity, 4);
AT(irr_header, block_count, 8);
AT(irr_header, interval_count, 12);
SIZE(irr_table_reply, 24);
AT(irr_table_reply, refusal, 0);
AT(irr_table_reply, moved, 4);
AT(irr_table_reply, header, 8);
SIZE(irr_relocations_reply, 12);
AT(irr_relocations_reply, refusal, 0);
AT(irr_relocations_reply, written, 4);
AT(irr_relocations_reply, total, 8);
SIZE(irr_carry_reply, 12);
AT(irr_carry_reply, refusal, 0);
AT(irr_carry_reply, mark, 4);
AT(irr_carry_reply, finished, 8);
SIZE(irr_place_reply, 12);
AT(irr_place_reply, refusal, 0);
AT(irr_place_reply, bin, 4);
AT(irr_place_reply, position, 8);
SIZE(irr_places_reply, 4);
AT(irr_places_reply, refusal, 0);
SIZE(irr_find_reply, 8);
AT(irr_find_reply, refusal, 0);
AT(irr_find_reply, bucket, 4);
SIZE(irr_bin_size_reply, 8);
AT(irr_bin_size_reply, refusal, 0);
AT(irr_bin_size_reply, buckets, 4);
SIZE(irr_room_reply, 8);
AT(irr_room_reply, refusal, 0);
AT(irr_room_reply, intervals, 4);
SIZE(irr_save_reply, 8);
AT(irr_save_reply, refusal, 0);
AT(irr_save_reply, length, 4);
SIZE(irr_load_reply, 20);
AT(irr_load_reply, refusal, 0);
AT(irr_load_reply, header, 4);
SIZE(irr_sheet_reply, 8);
AT(irr_sheet_reply, refusal, 0);
AT(irr_sheet_reply, length, 4);

_Static_assert(IRR_MAX_SAVED == 12 + 4 * IRR_MAX_BLOCKS + 8 * IRR_MAX_INTERVALS, "largest file");
_Static_assert(IRR_LABEL == 8, "positions of the label");
_Static_assert(IRR_LINE == 51 && IRR_MAX_SHEET == 106131, "a line, the longest sheet");
_Static_assert(IRR_MAX_SHEET == IRR_LINE * IRR_MAX_INTERVALS, "longest sheet");
_Static_assert(IRR_MAX_INTERVALS == IRR_MAX_EXPANSIONS * (IRR_MAX_EXPANSIONS + 1) / 2 + 1, "room");
_Static_assert(IRR_OK == 0 && IRR_SIZE_OUTSIDE == 1 && IRR_BINS_ABOVE == 2 &&
                   IRR_SIZE_BELOW == 3 && IRR_SIZES_EQUAL == 4 && IRR_BLOCKS_FULL == 5 &&
                   IRR_BUCKET_OUTSIDE == 6 && IRR_PLACE_OUTSIDE == 7 && IRR_INTERVALS_FULL == 8 &&
                   IRR_ORDER_OUTSIDE == 9 && IRR_WRONG_COUNT == 11 && IRR_WRONG_TOP == 12 &&
                   IRR_WRONG_END == 13 && IRR_WRONG_BLOCK == 14 && IRR_WRONG_HOLDING == 15 &&
                   IRR_WRONG_ADJUSTMENT == 16 && IRR_ROOM_SHORT == 21 && IRR_WRONG_CAPACITY == 30 &&
                   IRR_BIN_OVERFULL == 31 && IRR_LIST_FALLS == 32 && IRR_RESULT_SHORT == 33 &&
                   IRR_SHEET_SHORT == 34 && IRR_WORDS_SHORT == 40 && IRR_MARK_OUTSIDE == 41,
               "refusal numbers");

struct table {
    struct irr_header header;
    uint32_t tops[IRR_MAX_BLOCKS];
    uint32_t ends[IRR_MAX_INTERVALS], blocks[IRR_MAX_INTERVALS], adjustments[IRR_MAX_INTERVALS];
};
#define ARRAYS(t) \
    (t)->tops, IRR_MAX_BLOCKS, (t)->ends, IRR_MAX_INTERVALS, (t)->blocks, IRR_MAX_INTERVALS, \
        (t)->adjustments, IRR_MAX_INTERVALS
#define NONE(p) p, 0, p, 0, p, 0, p, 0

/* the capacity of document 01's figures */
enum { MOST_NUMBERS = 9, P = 1000000000 };

static int checks, faults;

/* the numbers at `got`, n of them, against those expected */
static void same(const char *what, const void *got, size_t n, const uint32_t *want)
{
    uint32_t numbers[MOST_NUMBERS];
    memcpy(numbers, got, 4 * n);
    checks++;
    if (memcmp(numbers, want, 4 * n) == 0)
        return;
    faults++;
    printf("FAULT %s:", what);
    for (size_t i = 0; i < n; i++)
        printf(" %" PRIu32 " (%" PRIu32 ")", numbers[i], want[i]);
    printf("\n");
}
#define WANT(...) \
    sizeof((const uint32_t[]){__VA_ARGS__}) / 4, (const uint32_t[]) { __VA_ARGS__ }

/* the fields of a reply, by name */
#define HEADER(h) (h).buckets, (h).capacity, (h).block_count, (h).interval_count
#define TABLE(r) (const uint32_t[]){(r).refusal, (r).moved, HEADER((r).header)}
#define LIST(r) (const uint32_t[]){(r).refusal, (r).written, (r).total}
#define CARRY(r) (const uint32_t[]){(r).refusal, (r).mark, (r).finished}
#define PLACE(r) (const uint32_t[]){(r).refusal, (r).bin, (r).position}
#define PLACES(r) (const uint32_t[]){(r).refusal}
#define FIND(r) (const uint32_t[]){(r).refusal, (r).bucket}
#define BIN_SIZE(r) (const uint32_t[]){(r).refusal, (r).buckets}
#define ROOM(r) (const uint32_t[]){(r).refusal, (r).intervals}
#define SAVE(r) (const uint32_t[]){(r).refusal, (r).length}
#define LOAD(r) (const uint32_t[]){(r).refusal, HEADER((r).header)}
#define SHEET(r) (const uint32_t[]){(r).refusal, (r).length}

static struct table a, b;

/* each function once, accepted, every field of its reply, and a position of the label; the figures
 * of documents 01 and 02 */
static void check_replies(void)
{
    struct irr_table_reply table = irr_initial(10, 2, P, ARRAYS(&a));
    same("irr_initial", TABLE(table), WANT(0, 0, 10, P, 1, 1));
    a.header = table.header;
    struct irr_place_reply place = irr_place(a.header, ARRAYS(&a), 7);
    same("irr_place", PLACE(place), WANT(0, 1, 11));
    uint32_t rows[3 * IRR_ROW + 1] = {0};
    struct irr_relocations_reply list =
        irr_relocations(a.header, ARRAYS(&a), 10, 3, 1, rows, 3 * IRR_ROW);
    same("irr_relocations", LIST(list), WANT(0, 2, 3));
    same("row 1", rows, WANT(8, 0, 12, 2, 9));
    same("row 2", rows + IRR_ROW, WANT(9, 1, 12, 2, 10));
    table = irr_expand(a.header, ARRAYS(&a), 10, 3, ARRAYS(&b));
    same("irr_expand", TABLE(table), WANT(0, 3, 10, P, 2, 2));
    b.header = table.header;
    same("tops", b.tops, WANT(2, 3));
    same("ends", b.ends, WANT(7, 10));
    same("blocks", b.blocks, WANT(0, 1));
    same("adjustments", b.adjustments, WANT(0, 7));
    uint32_t numbers[9] = {0};
    struct irr_places_reply places =
        irr_places(b.header, ARRAYS(&b), (const uint32_t[]){3, 6, 8, 8}, 4, numbers, 9);
    same("irr_places", PLACES(places), WANT(0));
    same("places", numbers, WANT(1, 9, 0, 11, 2, 9, 2, 9, 0));
    place = irr_place(b.header, ARRAYS(&b), 8);
    same("irr_place, a moved bucket", PLACE(place), WANT(0, 2, 9));
    struct irr_find_reply find = irr_find(b.header, ARRAYS(&b), 2, 9);
    same("irr_find", FIND(find), WANT(0, 8));
    find = irr_find(b.header, ARRAYS(&b), 2, 1);
    same("irr_find, in the label", FIND(find), WANT(7, 0));
    struct irr_bin_size_reply size = irr_bin_size(b.header, ARRAYS(&b), 0);
    same("irr_bin_size", BIN_SIZE(size), WANT(0, 4));
    struct irr_room_reply room = irr_room(64);
    same("irr_room", ROOM(room), WANT(0, 2081));
}

/* the rows of the growth of (10, 2) to (10, 3) in bins of 13 positions, carried from the last to the
 * first: the words of the two old bins, and those of the new one at their positions 8 to 10 */
static void check_words(void)
{
    struct irr_header header = {10, 13, 1, 1};
    uint32_t words[3 * 13 + 1];
    for (uint32_t i = 0; i < 3 * 13 + 1; i++)
        words[i] = i;
    struct irr_carry_reply carry = irr_carry(header, ARRAYS(&a), 10, 3, words, 3 * 13, 2);
    same("irr_carry, row 2", CARRY(carry), WANT(0, 3, 0));
    same("its word, and those beside it", words + 35, WANT(35, 25, 37, 38, 39));
    carry = irr_carry(header, ARRAYS(&a), 10, 3, words, 3 * 13, 1);
    same("irr_carry, row 1", CARRY(carry), WANT(0, 2, 0));
    carry = irr_carry(header, ARRAYS(&a), 10, 3, words, 3 * 13, 0);
    same("irr_carry, row 0", CARRY(carry), WANT(0, 1, 0));
    same("the words of the new bin", words + 33, WANT(33, 24, 12, 25, 37, 38, 39));
    carry = irr_carry(header, ARRAYS(&a), 10, 3, words, 3 * 13, 3);
    same("irr_carry, at the total", CARRY(carry), WANT(0, 3, 1));
    carry = irr_carry(header, ARRAYS(&a), 10, 3, words, 3 * 13, 4);
    same("irr_carry, above the total", CARRY(carry), WANT(41, 0, 0));
    carry = irr_carry(header, ARRAYS(&a), 10, 3, words, 3 * 13 - 1, 0);
    same("irr_carry, a word short", CARRY(carry), WANT(40, 0, 0));
    same("words of the old bins", words, WANT(0, 1, 2, 3, 4, 5, 6, 7, 8));
    same("and their last ones", words + 24, WANT(24, 25, 26, 27, 28));
}

/* room: one interval, and for each expansion one more than for the one before it; then 9, also
 * where the product of the rule does not fit in 32 bits */
static void check_rooms(void)
{
    static const uint32_t past[] = {65, 66, 65535, 65536, UINT32_MAX - 1, UINT32_MAX};
    struct irr_room_reply room;
    uint32_t intervals = 1;
    for (uint32_t m = 0; m <= IRR_MAX_EXPANSIONS; m++) {
        intervals += m;
        room = irr_room(m);
        same("irr_room, step by step", ROOM(room), WANT(0, intervals));
    }
    for (size_t i = 0; i < sizeof past / sizeof *past; i++) {
        room = irr_room(past[i]);
        same("irr_room, past its limit", ROOM(room), WANT(9, 0));
    }
}

/* the bytes of document 01's saved form of the map of 10 buckets in 3 bins */
static void check_file(void)
{
    static const _Alignas(uint32_t) uint8_t want[36] = {
        10, 0, 0, 0, 2, 0, 0, 0, 2, 0, 0, 0, 2, 0, 0, 0, 3, 0, 0, 0,
        7, 0, 0, 0, 10, 0, 0, 0, 0, 0, 0, 0, 1, 0, 0, 0};
    uint8_t file[40];
    memset(file, 0xee, sizeof file);
    struct irr_save_reply save = irr_save(b.header, ARRAYS(&b), file, sizeof file);
    same("irr_save", SAVE(save), WANT(0, 36));
    same("bytes", file, 9, (const uint32_t *)(const void *)want);
    same("bytes past the file", file + 36, WANT(0xeeeeeeee));
    struct irr_load_reply load = irr_load(file, 36, P, ARRAYS(&a));
    same("irr_load", LOAD(load), WANT(0, 10, P, 2, 2));
    same("loaded tops", a.tops, WANT(2, 3));
    same("loaded ends", a.ends, WANT(7, 10));
    same("loaded blocks", a.blocks, WANT(0, 1));
    same("loaded adjustments", a.adjustments, WANT(0, 7));
}

/* The text of the sheet of t, in buffers exactly long enough, longer and a byte short: a refused
 * call writes nothing, and an accepted one nothing past the sheet. */
static void check_sheet(const struct table *t, const char *text)
{
    uint8_t sheet[6 * IRR_LINE], kept[6 * IRR_LINE];
    uint32_t length = (uint32_t)strlen(text);
    const size_t lengths[] = {length - 1, length, length + 1, sizeof sheet};
    for (size_t i = 0; i < sizeof lengths / sizeof *lengths; i++) {
        uint32_t refusal = lengths[i] < length ? IRR_SHEET_SHORT : 0;
        memset(sheet, 0xee, sizeof sheet);
        memset(kept, 0xee, sizeof kept);
        if (refusal == 0)
            memcpy(kept, text, length);
        struct irr_sheet_reply reply = irr_sheet(t->header, ARRAYS(t), sheet, lengths[i]);
        same("irr_sheet", SHEET(reply), WANT(refusal, refusal == 0 ? length : 0));
        same("its text, and the bytes past it",
             (const uint32_t[]){memcmp(sheet, kept, sizeof sheet) != 0}, WANT(0));
    }
}

/* the sheets of document 01's map of (14, 5), and of the largest sizes */
static void check_sheets(void)
{
    b.header = (struct irr_header){14, P, 4, 5};
    check_sheet(&b, "         0         5         0         0         2\n"
                    "         6         6         3         4         1\n"
                    "         7         9         1         2         1\n"
                    "        10        10         3         4         1\n"
                    "        11        13         2         3         1\n");
    struct irr_table_reply r = irr_initial(P, 65535, P, ARRAYS(&a));
    a.header = r.header;
    check_sheet(&a, "         0 999999999         0         0     65535\n");
}

/* the move list of the growth of a to (14, 5), and where bucket 10 is after it, in b */
static void check_moves(struct irr_header before, struct irr_header after)
{
    uint32_t rows[2 * IRR_ROW] = {0}, numbers[2] = {0};
    struct irr_relocations_reply list =
        irr_relocations(before, ARRAYS(&a), 14, 5, 0, rows, 2 * IRR_ROW);
    same("moves", LIST(list), WANT(0, 2, 2));
    same("move of bucket 6", rows, WANT(6, 0, 11, 4, 8));
    same("move of bucket 10", rows + IRR_ROW, WANT(10, 1, 11, 4, 9));
    struct irr_place_reply place = irr_place(after, ARRAYS(&b), 10);
    same("bucket 10", PLACE(place), WANT(0, 4, 9));
    struct irr_places_reply places =
        irr_places(after, ARRAYS(&b), (const uint32_t[]){10}, 1, numbers, 2);
    same("bucket 10 in a list", PLACES(places), WANT(0));
    same("its place", numbers, WANT(4, 9));
    struct irr_find_reply find = irr_find(after, ARRAYS(&b), 4, 9);
    same("what is at its place", FIND(find), WANT(0, 10));
}

/* the other figures: the table after each growth in turn */
static void check_figures(void)
{
    struct irr_header before;
    struct irr_table_reply r = irr_expand(b.header, ARRAYS(&b), 14, 4, ARRAYS(&a));
    same("(14, 4)", TABLE(r), WANT(0, 0, 14, P, 3, 4));
    same("(14, 4) ends", a.ends, WANT(7, 10, 11, 14));
    same("(14, 4) blocks", a.blocks, WANT(0, 1, 0, 2));
    same("(14, 4) adjustments", a.adjustments, WANT(0, 7, 3, 11));
    before = r.header;
    r = irr_expand(before, ARRAYS(&a), 14, 5, ARRAYS(&b));
    same("(14, 5)", TABLE(r), WANT(0, 2, 14, P, 4, 5));
    check_moves(before, r.header);
    same("(14, 5) ends", b.ends, WANT(6, 7, 10, 11, 14));
    same("(14, 5) blocks", b.blocks, WANT(0, 3, 1, 3, 2));
    same("(14, 5) adjustments", b.adjustments, WANT(0, 6, 7, 9, 11));
    r = irr_expand(r.header, ARRAYS(&b), 16, 5, ARRAYS(&a));
    same("(16, 5)", TABLE(r), WANT(0, 0, 16, P, 4, 7));
    same("(16, 5) ends", a.ends + 5, WANT(15, 16));
    same("(16, 5) blocks", a.blocks + 5, WANT(0, 3));
    same("(16, 5) adjustments", a.adjustments + 5, WANT(8, 13));
    r = irr_initial(65535, 65535, P, ARRAYS(&a));
    same("(65535, 65535)", TABLE(r), WANT(0, 0, 65535, P, 1, 1));
    r = irr_initial(65536, 65536, P, ARRAYS(&a));
    same("(65536, 65536)", TABLE(r), WANT(1, 0, 0, 0, 0, 0));
    r = irr_initial(1000000001, 1, P, ARRAYS(&a));
    same("(1000000001, 1)", TABLE(r), WANT(1, 0, 0, 0, 0, 0));
    r = irr_initial(1000000000, 1, P, ARRAYS(&a));
    same("(1000000000, 1)", TABLE(r), WANT(31, 0, 0, 0, 0, 0));
    r = irr_initial(999999992, 1, P, ARRAYS(&a));
    same("(999999992, 1)", TABLE(r), WANT(0, 0, 999999992, P, 1, 1));
}

/* and those of small maps */
static void check_small_figures(void)
{
    struct irr_table_reply r = irr_initial(1, 1, P, ARRAYS(&a));
    same("(1, 1)", TABLE(r), WANT(0, 0, 1, P, 1, 1));
    r = irr_initial(1, 2, P, ARRAYS(&a));
    same("(1, 2)", TABLE(r), WANT(2, 0, 0, 0, 0, 0));
    r = irr_initial(4, 2, P, ARRAYS(&a));
    a.header = r.header;
    r = irr_expand(a.header, ARRAYS(&a), 6, 2, ARRAYS(&b));
    same("(6, 2)", TABLE(r), WANT(0, 0, 6, P, 1, 1));
    same("(6, 2) end", b.ends, WANT(6));
    r = irr_expand(a.header, ARRAYS(&a), 5, 4, ARRAYS(&b));
    same("(5, 4)", TABLE(r), WANT(0, 1, 5, P, 2, 2));
    same("(5, 4) ends", b.ends, WANT(3, 5));
    same("(5, 4) adjustments", b.adjustments, WANT(0, 3));
}

/* every array of length 0, its pointer anything: the refusal is that of the lengths */
static void check_empty(uint32_t *p)
{
    struct irr_header header = {10, P, 1, 1};
    uint8_t *bytes = (uint8_t *)p;
    struct irr_table_reply table = irr_initial(10, 2, P, NONE(p));
    same("irr_initial, empty", TABLE(table), WANT(21, 0, 0, 0, 0, 0));
    table = irr_expand(header, NONE(p), 10, 3, NONE(p));
    same("irr_expand, empty", TABLE(table), WANT(21, 0, 0, 0, 0, 0));
    table = irr_expand(header, NONE(p), 10, 3, ARRAYS(&a));
    same("irr_expand, empty table", TABLE(table), WANT(11, 0, 0, 0, 0, 0));
    struct irr_relocations_reply list = irr_relocations(header, NONE(p), 10, 3, 0, p, 0);
    same("irr_relocations, empty", LIST(list), WANT(11, 0, 0));
    struct irr_carry_reply carry = irr_carry(header, NONE(p), 10, 3, p, 0, 0);
    same("irr_carry, empty", CARRY(carry), WANT(11, 0, 0));
    struct irr_place_reply place = irr_place(header, NONE(p), 7);
    same("irr_place, empty", PLACE(place), WANT(11, 0, 0));
    struct irr_places_reply places = irr_places(header, NONE(p), p, 0, p, 0);
    same("irr_places, empty", PLACES(places), WANT(11));
    struct irr_find_reply find = irr_find(header, NONE(p), 1, 1);
    same("irr_find, empty", FIND(find), WANT(11, 0));
    struct irr_bin_size_reply size = irr_bin_size(header, NONE(p), 1);
    same("irr_bin_size, empty", BIN_SIZE(size), WANT(11, 0));
    struct irr_save_reply save = irr_save(header, NONE(p), bytes, 0);
    same("irr_save, empty", SAVE(save), WANT(11, 0));
    struct irr_sheet_reply sheet = irr_sheet(header, NONE(p), bytes, 0);
    same("irr_sheet, empty", SHEET(sheet), WANT(11, 0));
    struct irr_load_reply load = irr_load(bytes, 0, P, NONE(p));
    same("irr_load, empty", LOAD(load), WANT(21, 0, 0, 0, 0));
    load = irr_load(bytes, 0, P, ARRAYS(&a));
    same("irr_load, empty file", LOAD(load), WANT(11, 0, 0, 0, 0));
    table = irr_initial(10, 2, P, ARRAYS(&a));
    list = irr_relocations(table.header, ARRAYS(&a), 10, 3, 0, p, 0);
    same("irr_relocations, no rows", LIST(list), WANT(0, 0, 3));
    carry = irr_carry(table.header, ARRAYS(&a), 10, 3, p, 0, 0);
    same("irr_carry, no words", CARRY(carry), WANT(40, 0, 0));
    places = irr_places(table.header, ARRAYS(&a), p, 0, p, 0);
    same("irr_places, no buckets", PLACES(places), WANT(0));
    places = irr_places(table.header, ARRAYS(&a), (const uint32_t[]){7}, 1, p, 0);
    same("irr_places, no room", PLACES(places), WANT(33));
    save = irr_save(table.header, ARRAYS(&a), bytes, 0);
    same("irr_save, no room", SAVE(save), WANT(21, 0));
    sheet = irr_sheet(table.header, ARRAYS(&a), bytes, 0);
    same("irr_sheet, no room", SHEET(sheet), WANT(34, 0));
}

int main(void)
{
    check_replies();
    check_words();
    check_rooms();
    check_file();
    check_figures();
    check_sheets();
    check_small_figures();
    check_empty(NULL);
    check_empty((uint32_t *)(uintptr_t)1);
    check_empty((uint32_t *)UINTPTR_MAX);
    printf("%d checks, %d faults\n", checks, faults);
    return faults != 0;
}
