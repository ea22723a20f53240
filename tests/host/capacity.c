/*
 * The capacity and the label: refusals 30 and 31 at their edges on both sides, what is tested
 * before and after them, and the first and last position of buckets. A refused call answers zeros,
 * and leaves all that it is lent as it was.
 */
#include <inttypes.h>
#include <stdio.h>
#include <string.h>

#include "irr.h"

/* the greatest capacity, and the most buckets that a bin takes with it */
enum { P_MOST = 1000000000, B_MOST = 999999992 };

enum { MOST_NUMBERS = 6, ROWS = 4, LISTED = 2, WORDS = 3 * 13 };

struct table {
    struct irr_header header;
    uint32_t tops[IRR_MAX_BLOCKS];
    uint32_t ends[IRR_MAX_INTERVALS], blocks[IRR_MAX_INTERVALS], adjustments[IRR_MAX_INTERVALS];
};

/* all that is lent: a table to read, one to write, rows, words, a list, places, a file, a sheet */
struct lent {
    struct table old, new;
    uint32_t rows[IRR_ROW * ROWS], words[WORDS + 1], list[LISTED], places[2 * LISTED];
    uint8_t file[48], sheet[2 * IRR_LINE + 10];
};

static struct lent lent, kept;
static int checks, faults;

#define ARRAYS(t, tops_len) \
    (t).tops, tops_len, (t).ends, IRR_MAX_INTERVALS, (t).blocks, IRR_MAX_INTERVALS, \
        (t).adjustments, IRR_MAX_INTERVALS
#define OLD lent.old.header, ARRAYS(lent.old, IRR_MAX_BLOCKS)
#define NEW ARRAYS(lent.new, IRR_MAX_BLOCKS)
#define SHORT_NEW ARRAYS(lent.new, IRR_MAX_BLOCKS - 1)
#define FILE_OF(length) lent.file, length
#define SHEET_OF(length) lent.sheet, length

/* the n numbers at `got` against those expected, and whether the memory is as it should be */
static void judge(const char *what, const uint32_t *got, const uint32_t *want, size_t n, int memory)
{
    checks++;
    if (memcmp(got, want, 4 * n) == 0 && memory)
        return;
    faults++;
    printf("FAULT %s:", what);
    for (size_t i = 0; i < n; i++)
        printf(" %" PRIu32 " (%" PRIu32 ")", got[i], want[i]);
    printf("%s\n", memory ? "" : "; lent memory changed");
}

/* n numbers that an accepted call wrote */
static void numbers(const char *what, const uint32_t *got, const uint32_t *want, size_t n)
{
    judge(what, got, want, n, 1);
}

/* a refused reply of `size` bytes */
static void refused(const char *what, const void *reply, size_t size, uint32_t refusal)
{
    uint32_t got[MOST_NUMBERS] = {0}, want[MOST_NUMBERS] = {refusal};
    memcpy(got, reply, size);
    judge(what, got, want, size / 4, memcmp(&lent, &kept, sizeof lent) == 0);
}
#define REFUSED(refusal, call) \
    do { \
        kept = lent; \
        __typeof__(call) reply = call; \
        refused(#call, &reply, sizeof reply, refusal); \
    } while (0)

/* an accepted reply of `size` bytes: the numbers after its refusal are given */
static void accepted(const char *what, const void *reply, size_t size, const uint32_t *want)
{
    uint32_t got[MOST_NUMBERS] = {0};
    memcpy(got, reply, size);
    judge(what, got, want, size / 4, 1);
}
#define ACCEPTED(call, ...) \
    do { \
        __typeof__(call) reply = call; \
        const uint32_t want[sizeof reply / 4] = {0, __VA_ARGS__}; \
        accepted(#call, &reply, sizeof reply, want); \
    } while (0)

/* The table of (10, 2), lent with a capacity. */
static void lend_small(uint32_t capacity)
{
    memset(&lent, 0xee, sizeof lent);
    lent.old.header = (struct irr_header){10, capacity, 1, 1};
    lent.old.tops[0] = 2;
    lent.old.ends[0] = 10;
    lent.old.blocks[0] = lent.old.adjustments[0] = 0;
    lent.list[0] = 3;
    lent.list[1] = 7;
}

/* The table of (12, 3) after (10, 2): four buckets in every bin. */
static void lend_grown(uint32_t capacity)
{
    lend_small(capacity);
    lent.old.header = (struct irr_header){12, capacity, 2, 2};
    lent.old.tops[1] = 3;
    lent.old.ends[0] = lent.old.adjustments[1] = 8;
    lent.old.ends[1] = 12;
    lent.old.blocks[1] = 1;
}

/* The table of (11, 3) after (10, 2): four buckets in two bins, three in the last. */
static void lend_uneven(uint32_t capacity)
{
    lend_grown(capacity);
    lent.old.header.buckets = lent.old.ends[1] = 11;
}

/* A table of one bin. */
static void lend_one(uint32_t buckets, uint32_t capacity)
{
    lend_small(capacity);
    lent.old.header.buckets = lent.old.ends[0] = buckets;
    lent.old.tops[0] = 1;
}

/* A table of the most buckets, in one block of so many bins, with the greatest capacity. */
static void lend_many(uint32_t bins)
{
    lend_one(P_MOST, P_MOST);
    lent.old.tops[0] = bins;
}

/* 65 blocks of one bin, with one bucket each. */
static void lend_blocks(uint32_t capacity)
{
    lend_small(capacity);
    lent.old.header = (struct irr_header){65, capacity, 65, 65};
    for (uint32_t i = 0; i < 65; i++) {
        lent.old.tops[i] = lent.old.ends[i] = i + 1;
        lent.old.blocks[i] = lent.old.adjustments[i] = i;
    }
}

static void check_fresh(void)
{
    lend_small(13);
    ACCEPTED(irr_initial(10, 2, 13, NEW), 0, 10, 13, 1, 1);
    for (uint32_t p = 1; p <= 12; p++)
        REFUSED(31, irr_initial(10, 2, p, NEW));
    REFUSED(31, irr_initial(12, 2, 13, NEW));
    ACCEPTED(irr_initial(12, 3, 13, NEW), 0, 12, 13, 1, 1);
    REFUSED(30, irr_initial(10, 2, 0, NEW));
    REFUSED(30, irr_initial(10, 2, P_MOST + 1, NEW));
    REFUSED(30, irr_initial(10, 2, UINT32_MAX, NEW));
    ACCEPTED(irr_initial(10, 2, P_MOST, NEW), 0, 10, P_MOST, 1, 1);
    /* the largest bin decides: 6 of (11, 2), 15260 of the most bins */
    ACCEPTED(irr_initial(11, 2, 14, NEW), 0, 11, 14, 1, 1);
    REFUSED(31, irr_initial(11, 2, 13, NEW));
    ACCEPTED(irr_initial(P_MOST, 65535, 15268, NEW), 0, P_MOST, 15268, 1, 1);
    REFUSED(31, irr_initial(P_MOST, 65535, 15267, NEW));
    REFUSED(31, irr_initial(P_MOST, 65535, 15260, NEW));
    /* P n is above a multiple of 2^32 by less than B */
    ACCEPTED(irr_initial(P_MOST, 43, P_MOST, NEW), 0, P_MOST, P_MOST, 1, 1);
}

/* 31 of a fresh map with the least buckets a bin, and with the most */
static void check_fresh_edges(void)
{
    lend_small(13);
    for (uint32_t p = 1; p <= 8; p++) {
        REFUSED(31, irr_initial(1, 1, p, NEW));
        REFUSED(31, irr_initial(65535, 65535, p, NEW));
        REFUSED(31, irr_initial(P_MOST, 1, p, NEW));
    }
    ACCEPTED(irr_initial(1, 1, 9, NEW), 0, 1, 9, 1, 1);
    ACCEPTED(irr_initial(65535, 65535, 9, NEW), 0, 65535, 9, 1, 1);
    REFUSED(31, irr_initial(2, 1, 9, NEW));
    REFUSED(31, irr_initial(65536, 65535, 9, NEW));
    ACCEPTED(irr_initial(B_MOST, 1, P_MOST, NEW), 0, B_MOST, P_MOST, 1, 1);
    REFUSED(31, irr_initial(B_MOST, 1, P_MOST - 1, NEW));
    REFUSED(31, irr_initial(B_MOST + 1, 1, P_MOST, NEW));
    REFUSED(31, irr_initial(P_MOST, 1, P_MOST, NEW));
    REFUSED(31, irr_initial(P_MOST, 1, P_MOST - 1, NEW));
    ACCEPTED(irr_initial(P_MOST, 2, P_MOST, NEW), 0, P_MOST, P_MOST, 1, 1);
}

/* 21, 30, 1, 2, 31 */
static void check_fresh_order(void)
{
    lend_small(13);
    REFUSED(21, irr_initial(10, 2, 0, SHORT_NEW));
    REFUSED(21, irr_initial(10, 2, 4, SHORT_NEW));
    REFUSED(30, irr_initial(0, 2, 0, NEW));
    REFUSED(30, irr_initial(10, 0, P_MOST + 1, NEW));
    REFUSED(30, irr_initial(1, 2, 0, NEW));
    REFUSED(1, irr_initial(P_MOST + 1, 1, 4, NEW));
    REFUSED(1, irr_initial(10, 0, 4, NEW));
    REFUSED(2, irr_initial(1, 2, 1, NEW));
    REFUSED(2, irr_initial(1, 2, 8, NEW));
    REFUSED(2, irr_initial(1, 2, 9, NEW));
}

/* every call that reads a table refuses it, also where it would refuse what is asked of it */
static void check_all_refuse(uint32_t refusal)
{
    REFUSED(refusal, irr_place(OLD, 7));
    REFUSED(refusal, irr_place(OLD, UINT32_MAX));
    REFUSED(refusal, irr_places(OLD, lent.list, LISTED, lent.places, 2 * LISTED));
    REFUSED(refusal, irr_places(OLD, lent.list, 0, lent.places, 0));
    REFUSED(refusal, irr_find(OLD, 0, 0));
    REFUSED(refusal, irr_find(OLD, UINT32_MAX, 0));
    REFUSED(refusal, irr_find(OLD, 0, 8));
    REFUSED(refusal, irr_find(OLD, UINT32_MAX, 8));
    REFUSED(refusal, irr_bin_size(OLD, 0));
    REFUSED(refusal, irr_bin_size(OLD, UINT32_MAX));
    REFUSED(refusal, irr_save(OLD, FILE_OF(sizeof lent.file)));
    REFUSED(refusal, irr_save(OLD, FILE_OF(3)));
    REFUSED(refusal, irr_sheet(OLD, SHEET_OF(sizeof lent.sheet)));
    REFUSED(refusal, irr_sheet(OLD, SHEET_OF(IRR_LINE - 1)));
    REFUSED(refusal, irr_sheet(OLD, NULL, 0));
    REFUSED(refusal, irr_expand(OLD, 100, 50, NEW));
    REFUSED(refusal, irr_expand(OLD, 0, 0, NEW));
    REFUSED(refusal, irr_expand(OLD, 1000, 3, NEW));
    REFUSED(refusal, irr_relocations(OLD, 100, 50, 0, lent.rows, IRR_ROW * ROWS));
    REFUSED(refusal, irr_relocations(OLD, 0, 0, 0, lent.rows, IRR_ROW * ROWS));
    REFUSED(refusal, irr_relocations(OLD, 100, 50, UINT32_MAX, lent.rows, IRR_ROW * ROWS));
    REFUSED(refusal, irr_carry(OLD, 12, 3, lent.words, WORDS, 0));
    REFUSED(refusal, irr_carry(OLD, 0, 0, lent.words, WORDS, 0));
    REFUSED(refusal, irr_carry(OLD, 100, 50, NULL, 0, UINT32_MAX));
}

/* 30 of a lent table: below its largest bin and the label, 0, above the limit; before 32, and after
 * 21 and 33 */
static void check_lent(void)
{
    static const uint32_t wrong[] = {12, 8, 7, 5, 4, 1, 0, P_MOST + 1, UINT32_MAX};
    for (size_t i = 0; i < sizeof wrong / sizeof *wrong; i++) {
        lend_small(wrong[i]);
        check_all_refuse(30);
        lent.list[0] = 8;
        REFUSED(30, irr_places(OLD, lent.list, LISTED, lent.places, 2 * LISTED));
        REFUSED(33, irr_places(OLD, lent.list, LISTED, lent.places, 2 * LISTED - 1));
        REFUSED(21, irr_expand(OLD, 12, 3, SHORT_NEW));
    }
    for (uint32_t p = 0; p <= 11; p++) {
        lend_grown(p);
        check_all_refuse(30);
        lend_uneven(p);
        check_all_refuse(30);
    }
    for (uint32_t p = 1; p <= 8; p++) {
        lend_one(1, p);
        check_all_refuse(30);
        lend_blocks(p);
        check_all_refuse(30);
    }
    lend_one(B_MOST + 1, P_MOST);
    check_all_refuse(30);
    lend_one(P_MOST, P_MOST);
    check_all_refuse(30);
    lend_one(B_MOST, P_MOST - 1);
    check_all_refuse(30);
}

/* the rows of (10, 2) to (12, 3) carried, with the words of three bins of the capacity; of the
 * greatest they are too many */
static void check_carried(uint32_t capacity)
{
    for (uint32_t i = 0; i <= WORDS; i++)
        lent.words[i] = i;
    if (capacity == P_MOST) {
        REFUSED(40, irr_carry(OLD, 12, 3, lent.words, WORDS, 0));
        REFUSED(40, irr_carry(OLD, 12, 3, lent.words, WORDS, 3));
        return;
    }
    REFUSED(40, irr_carry(OLD, 12, 3, lent.words, WORDS - 1, 0));
    REFUSED(40, irr_carry(OLD, 12, 3, lent.words, WORDS - 1, 3));
    REFUSED(41, irr_carry(OLD, 12, 3, lent.words, WORDS, 3));
    ACCEPTED(irr_carry(OLD, 12, 3, lent.words, WORDS, 0), 1, 0);
    ACCEPTED(irr_carry(OLD, 12, 3, lent.words, WORDS, 1), 2, 0);
    ACCEPTED(irr_carry(OLD, 12, 3, lent.words, WORDS, 2), 2, 1);
    numbers("words of the new bin", lent.words + 33, (const uint32_t[]){33, 12, 25, 36, 37, 38, 39},
            7);
}

/* the capacity at its edge, and the greatest: every call accepts the table */
static void check_lent_right(uint32_t capacity)
{
    lend_small(capacity);
    ACCEPTED(irr_place(OLD, 7), 1, 11);
    ACCEPTED(irr_places(OLD, lent.list, LISTED, lent.places, 2 * LISTED), );
    numbers("places", lent.places, (const uint32_t[]){1, 9, 1, 11}, 4);
    ACCEPTED(irr_find(OLD, 1, 11), 7);
    ACCEPTED(irr_bin_size(OLD, 1), 5);
    ACCEPTED(irr_save(OLD, FILE_OF(24)), 24);
    ACCEPTED(irr_sheet(OLD, SHEET_OF(IRR_LINE)), IRR_LINE);
    REFUSED(34, irr_sheet(OLD, SHEET_OF(IRR_LINE - 1)));
    REFUSED(34, irr_sheet(OLD, NULL, 0));
    ACCEPTED(irr_expand(OLD, 12, 3, NEW), 2, 12, capacity, 2, 2);
    ACCEPTED(irr_relocations(OLD, 12, 3, 0, lent.rows, IRR_ROW * ROWS), 2, 2);
    numbers("rows", lent.rows, (const uint32_t[]){8, 0, 12, 2, 8, 9, 1, 12, 2, 9}, 2 * IRR_ROW);
    check_carried(capacity);
    lend_grown(capacity);
    ACCEPTED(irr_bin_size(OLD, 2), 4);
    ACCEPTED(irr_sheet(OLD, SHEET_OF(2 * IRR_LINE)), 2 * IRR_LINE);
    REFUSED(34, irr_sheet(OLD, SHEET_OF(2 * IRR_LINE - 1)));
    REFUSED(34, irr_sheet(OLD, SHEET_OF(IRR_LINE)));
}

/* the lent table's bin holds the buckets `first` and `last` at its ends, and `size` in all */
static void check_bin(uint32_t bin, uint32_t size, uint32_t first, uint32_t last)
{
    ACCEPTED(irr_bin_size(OLD, bin), size);
    for (uint32_t position = 0; position <= 7; position++)
        REFUSED(7, irr_find(OLD, bin, position));
    ACCEPTED(irr_find(OLD, bin, 8), first);
    ACCEPTED(irr_find(OLD, bin, size + 7), last);
    REFUSED(7, irr_find(OLD, bin, size + 8));
    REFUSED(7, irr_find(OLD, bin, size + 9));
    REFUSED(7, irr_find(OLD, bin, UINT32_MAX));
    ACCEPTED(irr_place(OLD, first), bin, 8);
    ACCEPTED(irr_place(OLD, last), bin, size + 7);
}

/* the first and the last position of buckets: of bins of one size, of two, of one bucket, and of as
 * many as a bin takes */
static void check_bins(void)
{
    lend_small(13);
    check_bin(0, 5, 0, 8);
    check_bin(1, 5, 1, 9);
    REFUSED(7, irr_find(OLD, 2, 8));
    lend_grown(12);
    check_bin(0, 4, 0, 6);
    check_bin(1, 4, 1, 7);
    check_bin(2, 4, 8, 11);
    REFUSED(7, irr_find(OLD, 3, 8));
    lend_uneven(12);
    check_bin(0, 4, 0, 6);
    check_bin(1, 4, 1, 7);
    check_bin(2, 3, 8, 10);
    lend_one(1, 9);
    check_bin(0, 1, 0, 0);
    REFUSED(7, irr_find(OLD, 1, 8));
    lend_blocks(9);
    for (uint32_t bin = 0; bin < 65; bin++)
        check_bin(bin, 1, bin, bin);
    lend_one(B_MOST, P_MOST);
    check_bin(0, B_MOST, 0, B_MOST - 1);
    lend_many(43);
    check_bin(40, 23255814, 40, P_MOST - 1);
    check_bin(42, 23255813, 42, 999999958);
}

/* 11 to 16 come before 30 */
static void check_table_order(void)
{
    static const uint32_t wrong[] = {0, 3, 8, 11};
    for (size_t i = 0; i < sizeof wrong / sizeof *wrong; i++) {
        uint32_t capacity = wrong[i];
        lend_grown(capacity);
        lent.old.header.interval_count = 0;
        check_all_refuse(11);
        lend_grown(capacity);
        lent.old.tops[0] = 3;
        check_all_refuse(12);
        lend_grown(capacity);
        lent.old.ends[1] = 13;
        check_all_refuse(13);
        lend_grown(capacity);
        lent.old.blocks[1] = 2;
        check_all_refuse(14);
        lend_grown(capacity);
        lent.old.ends[0] = lent.old.adjustments[1] = 7;
        check_all_refuse(15);
        lend_grown(capacity);
        lent.old.adjustments[1] = 7;
        check_all_refuse(16);
    }
}

/* a growth, its move list and its mover, refused alike, from whatever row on */
static void check_growth_refused(uint32_t refusal, uint32_t buckets, uint32_t bins)
{
    REFUSED(refusal, irr_expand(OLD, buckets, bins, NEW));
    REFUSED(refusal, irr_relocations(OLD, buckets, bins, 0, lent.rows, IRR_ROW * ROWS));
    REFUSED(refusal, irr_relocations(OLD, buckets, bins, UINT32_MAX, lent.rows, IRR_ROW * ROWS));
    REFUSED(refusal, irr_carry(OLD, buckets, bins, lent.words, WORDS, 0));
    REFUSED(refusal, irr_carry(OLD, buckets, bins, NULL, 0, UINT32_MAX));
}

/* 31 of a growth: 1 to 5 come before it, 9, 40 and 41 after it */
static void check_growths(void)
{
    lend_small(13);
    check_growth_refused(31, 12, 2);
    check_growth_refused(31, 11, 2);
    check_growth_refused(31, 16, 3);
    ACCEPTED(irr_expand(OLD, 12, 3, NEW), 2, 12, 13, 2, 2);
    ACCEPTED(irr_expand(OLD, 15, 3, NEW), 0, 15, 13, 2, 2);
    ACCEPTED(irr_relocations(OLD, 15, 3, 0, lent.rows, IRR_ROW * ROWS), 0, 0);
    REFUSED(9, irr_relocations(OLD, 12, 3, 3, lent.rows, IRR_ROW * ROWS));
    check_growth_refused(1, P_MOST + 1, 2);
    check_growth_refused(2, 10, 11);
    check_growth_refused(3, 100, 1);
    check_growth_refused(4, 10, 2);
    lend_small(14);
    ACCEPTED(irr_expand(OLD, 12, 2, NEW), 0, 12, 14, 1, 1);
    lend_one(1, 9);
    check_growth_refused(31, 2, 1);
    ACCEPTED(irr_expand(OLD, 2, 2, NEW), 0, 2, 9, 2, 2);
    lend_one(1, 10);
    ACCEPTED(irr_expand(OLD, 2, 1, NEW), 0, 2, 10, 1, 1);
    lend_blocks(9);
    check_growth_refused(31, 66, 65);
    check_growth_refused(5, 66, 66);
    check_growth_refused(5, 132, 66);
    lend_blocks(10);
    ACCEPTED(irr_expand(OLD, 66, 65, NEW), 0, 66, 10, 65, 66);
}

/* growths of one bin to as many buckets as it takes, to more, and to two bins: the last row has the
 * last position that there is */
static void check_large_growths(void)
{
    lend_one(B_MOST, P_MOST);
    check_growth_refused(31, B_MOST + 1, 1);
    check_growth_refused(31, P_MOST, 1);
    ACCEPTED(irr_expand(OLD, P_MOST, 2, NEW), 499999992, P_MOST, P_MOST, 2, 2);
    ACCEPTED(irr_relocations(OLD, P_MOST, 2, 499999991, lent.rows, IRR_ROW * ROWS), 1, 499999992);
    numbers("last row", lent.rows, (const uint32_t[]){B_MOST - 1, 0, P_MOST - 1, 1, 499999999},
            IRR_ROW);
    lent.list[0] = 0;
    lent.list[1] = B_MOST - 1;
    ACCEPTED(irr_places(OLD, lent.list, LISTED, lent.places, 2 * LISTED), );
    numbers("first and last place", lent.places, (const uint32_t[]){0, 8, 0, P_MOST - 1}, 4);
    lend_one(B_MOST - 1, P_MOST);
    ACCEPTED(irr_expand(OLD, B_MOST, 1, NEW), 0, B_MOST, P_MOST, 1, 1);
    check_growth_refused(31, B_MOST + 1, 1);
    /* before and after, P n is above a multiple of 2^32 by less than B */
    lend_many(43);
    ACCEPTED(irr_expand(OLD, P_MOST, 86, NEW), 499999999, P_MOST, P_MOST, 2, 2);
    ACCEPTED(irr_relocations(OLD, P_MOST, 86, 0, lent.rows, IRR_ROW), 1, 499999999);
    numbers("first row", lent.rows, (const uint32_t[]){500000001, 0, 11627915, 43, 8}, IRR_ROW);
}

/* the file of the lent table, whose largest bin and the label need the capacity `least` */
static void check_file(uint32_t length, uint32_t least)
{
    uint32_t b = lent.old.header.buckets, g = lent.old.header.block_count;
    ACCEPTED(irr_save(OLD, FILE_OF(sizeof lent.file)), length);
    for (uint32_t less = 1; less <= 9; less++)
        REFUSED(30, irr_load(FILE_OF(length), least - less, NEW));
    REFUSED(30, irr_load(FILE_OF(length), 0, NEW));
    REFUSED(30, irr_load(FILE_OF(length), P_MOST + 1, NEW));
    REFUSED(30, irr_load(FILE_OF(length), UINT32_MAX, NEW));
    REFUSED(21, irr_load(FILE_OF(length), least - 1, SHORT_NEW));
    REFUSED(21, irr_load(FILE_OF(length), 0, SHORT_NEW));
    REFUSED(11, irr_load(FILE_OF(length - 1), 0, NEW));
    ACCEPTED(irr_load(FILE_OF(length), P_MOST, NEW), b, P_MOST, g, g);
    ACCEPTED(irr_load(FILE_OF(length), least, NEW), b, least, g, g);
}

/* a byte of the file of (12, 3), changed: what is wrong comes before the capacity */
static void check_changed(uint32_t refusal, int at, uint8_t byte)
{
    lend_grown(12);
    ACCEPTED(irr_save(OLD, FILE_OF(sizeof lent.file)), 36);
    lent.file[at] = byte;
    REFUSED(refusal, irr_load(FILE_OF(36), 0, NEW));
    REFUSED(refusal, irr_load(FILE_OF(36), 8, NEW));
    REFUSED(refusal, irr_load(FILE_OF(36), 11, NEW));
    REFUSED(refusal, irr_load(FILE_OF(36), 13, NEW));
}

/* the file of a map of more buckets in one bin than any capacity allows: that of B_MOST with other
 * low bytes in B and in the end */
static void check_overfull_file(uint32_t buckets)
{
    lend_one(B_MOST, P_MOST);
    ACCEPTED(irr_save(OLD, FILE_OF(sizeof lent.file)), 24);
    lent.file[0] = lent.file[16] = (uint8_t)buckets;
    lent.file[1] = lent.file[17] = (uint8_t)(buckets >> 8);
    REFUSED(30, irr_load(FILE_OF(24), P_MOST, NEW));
    REFUSED(30, irr_load(FILE_OF(24), P_MOST + 1, NEW));
}

static void check_files(void)
{
    lend_small(13);
    check_file(24, 13);
    lend_grown(13);
    check_file(36, 12);
    lend_uneven(13);
    check_file(36, 12);
    lend_one(1, 9);
    check_file(24, 9);
    lend_one(B_MOST, P_MOST);
    check_file(24, P_MOST);
    lend_many(43);
    check_file(24, 23255822);
    check_overfull_file(B_MOST + 1);
    check_overfull_file(P_MOST);
    check_changed(11, 0, 0);
    check_changed(12, 12, 3);
    check_changed(13, 24, 11);
    check_changed(14, 32, 2);
    check_changed(15, 20, 7);
}

int main(void)
{
    check_fresh();
    check_fresh_edges();
    check_fresh_order();
    check_lent();
    check_lent_right(13);
    check_lent_right(P_MOST);
    check_bins();
    check_table_order();
    check_growths();
    check_large_growths();
    check_files();
    printf("%d checks, %d faults\n", checks, faults);
    return faults != 0;
}
