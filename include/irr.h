/*
 * The placement map for C: Interval-Round-Robin (Choy, Fagin, Stockmeyer). Its library, libirr.a, is
 * for x86-64 Linux. irr(3) has an example.
 *
 * Buckets 0 to B-1 lie in bins 0 to n-1, each at a position of its bin. A block is the bins that
 * were added together; an interval is a span of bucket numbers, all in one block; the rank of a
 * bucket is its number less the adjustment of its interval; an expansion adds buckets, bins or
 * both. Document 01 calls them drawer (bin), group (block), run (interval) and growth (expansion).
 * Positions are counted from 0. The first 8 of every bin hold its label, so those of buckets start
 * at 8. The capacity P is the number of positions in every bin, the label's among them: a bin whose
 * buckets plus 8 exceed P is overfull, and no map has one.
 *
 * A table is a header and four arrays: tops (one a block: the bins up to and including it), and
 * ends, blocks and adjustments (one an interval: the first bucket past it, its block's number, its
 * adjustment). An array may be longer than its count in the header; the rest is never read.
 *
 * Of every call:
 * - It takes any numbers and any arrays, and answers the full result or one refusal number.
 * - An array is a pointer and a length in entries. With length 0 the pointer may be anything, also
 *   NULL; otherwise it must be aligned as its type, and valid for that length. An array that a call
 *   writes must not overlap any other array of the call.
 * - A refusal writes nothing, and its reply has zeros beside the number. A call tests its refusals
 *   in the order in which they stand beside it, each over the whole table before the next.
 * - Entries past those that an accepted call writes keep their contents.
 * - No call allocates, keeps state or blocks: calls on different memory may run at the same time.
 */
#ifndef IRR_H
#define IRR_H

#include <stddef.h>
#include <stdint.h>

#ifdef __cplusplus
extern "C" {
#endif

/* The version of this header and its library; IRR_VERSION is one number, to compare in an #if. */
#define IRR_VERSION_MAJOR 0
#define IRR_VERSION_MINOR 6
#define IRR_VERSION_PATCH 0
#define IRR_VERSION (10000 * IRR_VERSION_MAJOR + 100 * IRR_VERSION_MINOR + IRR_VERSION_PATCH)

#define IRR_MAX_BUCKETS 1000000000  /* B */
#define IRR_MAX_CAPACITY 1000000000 /* P; with this one, a bin takes at most 999,999,992 buckets */
#define IRR_LABEL 8                 /* positions 0 to 7 of every bin hold its label; those of
                                       buckets start here */
#define IRR_MAX_BINS 65535          /* n, which is also at most B */
#define IRR_MAX_BLOCKS 65           /* entries of tops to lend for a new table */
#define IRR_MAX_INTERVALS 2081      /* entries of each interval array to lend for a new table */
#define IRR_MAX_EXPANSIONS 64       /* the most that irr_room answers for */
#define IRR_ROW 5                   /* numbers in a row of irr_relocations */
#define IRR_MAX_SAVED 16920         /* bytes of the largest saved map: 12 + 4 * 65 + 8 * 2081 */
#define IRR_LINE 51                 /* bytes in a line of irr_sheet, its line feed among them */
#define IRR_MAX_SHEET 106131        /* bytes of the longest sheet: 51 * 2081 */

/* The refusal numbers, as document 01 has them, and those that requests add to it. */
enum irr_refusal {
    IRR_OK = 0,
    /* sizes asked for */
    IRR_SIZE_OUTSIDE = 1,    /* a size is 0 or above its limit */
    IRR_BINS_ABOVE = 2,      /* more bins than buckets */
    IRR_SIZE_BELOW = 3,      /* a size is below the old one */
    IRR_SIZES_EQUAL = 4,     /* both sizes equal the old ones */
    IRR_BLOCKS_FULL = 5,     /* more bins, with 65 blocks present */
    IRR_BIN_OVERFULL = 31,   /* some bin's due plus 8 would exceed the capacity */
    IRR_INTERVALS_FULL = 8,  /* the new table needs more than 2,081 intervals */
    /* what is asked of a map */
    IRR_BUCKET_OUTSIDE = 6,  /* bucket not below B */
    IRR_PLACE_OUTSIDE = 7,   /* bin not below n, or position below 8 or not below the bin's size
                                plus 8 */
    IRR_ORDER_OUTSIDE = 9,   /* first order number above the total, or expansions above 64 */
    IRR_LIST_FALLS = 32,     /* in a list of buckets, one smaller than the one before it */
    IRR_MARK_OUTSIDE = 41,   /* mark above the total */
    /* a lent table or a file */
    IRR_WRONG_COUNT = 11,    /* B or a count outside its limits, an array shorter than its count,
                                or a file of another length */
    IRR_WRONG_TOP = 12,      /* tops that don't rise strictly, a first of 0, a last above 65,535
                                or above B */
    IRR_WRONG_END = 13,      /* ends that don't rise strictly, a first of 0, a last other than B */
    IRR_WRONG_BLOCK = 14,    /* an interval's block not below the number of blocks */
    IRR_WRONG_HOLDING = 15,  /* a block whose intervals hold another number than its due */
    IRR_WRONG_ADJUSTMENT = 16, /* other than the buckets of other blocks before the interval */
    IRR_WRONG_CAPACITY = 30, /* the capacity is 0 or above its limit, or, in a lent or loaded map,
                                below the size of its largest bin plus 8 */
    /* lent room */
    IRR_ROOM_SHORT = 21,     /* below 65 tops or 2,081 of an interval array, or a file's length */
    IRR_RESULT_SHORT = 33,   /* a result shorter than two numbers a bucket */
    IRR_SHEET_SHORT = 34,    /* a buffer shorter than 51 bytes an interval */
    IRR_WORDS_SHORT = 40     /* fewer words than the new number of bins * P */
};

/* What travels with the four arrays of a table. */
struct irr_header {
    uint32_t buckets;        /* B */
    uint32_t capacity;       /* P: positions in every bin, the label's among them */
    uint32_t block_count;    /* entries of tops in use */
    uint32_t interval_count; /* entries of ends, blocks and adjustments in use */
};

struct irr_table_reply {
    uint32_t refusal;
    uint32_t moved;           /* old buckets whose bin differs; 0 for irr_initial */
    struct irr_header header; /* of the table written */
};

struct irr_relocations_reply {
    uint32_t refusal;
    uint32_t written; /* rows */
    uint32_t total;   /* rows of the whole list */
};

struct irr_carry_reply {
    uint32_t refusal;
    uint32_t mark;     /* of an accepted call: the one to store */
    uint32_t finished; /* 1 where there was no row left to do; otherwise 0 */
};

struct irr_place_reply {
    uint32_t refusal;
    uint32_t bin;
    uint32_t position;
};

struct irr_places_reply {
    uint32_t refusal;
};

struct irr_find_reply {
    uint32_t refusal;
    uint32_t bucket;
};

struct irr_bin_size_reply {
    uint32_t refusal;
    uint32_t buckets;
};

struct irr_room_reply {
    uint32_t refusal;
    uint32_t intervals;
};

struct irr_save_reply {
    uint32_t refusal;
    uint32_t length; /* bytes written */
};

struct irr_load_reply {
    uint32_t refusal;
    struct irr_header header; /* of the table written */
};

struct irr_sheet_reply {
    uint32_t refusal;
    uint32_t length; /* bytes written */
};

/*
 * A fresh map of `buckets` in `bins` of the given capacity: one block, one interval.
 * Refusals: 21, 30, 1, 2, 31. Writes entry 0 of each array.
 */
struct irr_table_reply irr_initial(
    uint32_t buckets, uint32_t bins, uint32_t capacity,
    uint32_t *tops, size_t tops_len,
    uint32_t *ends, size_t ends_len,
    uint32_t *blocks, size_t blocks_len,
    uint32_t *adjustments, size_t adjustments_len);

/*
 * The map of `buckets` in `bins` that follows the lent one, which is only read. It has the capacity
 * of the lent one.
 * Refusals: 21, 11, 12, 13, 14, 15, 16, 30, 1, 2, 3, 4, 5, 31, 8. Writes to the new arrays as many
 * entries as the header of its reply counts.
 */
struct irr_table_reply irr_expand(
    struct irr_header header,
    const uint32_t *tops, size_t tops_len,
    const uint32_t *ends, size_t ends_len,
    const uint32_t *blocks, size_t blocks_len,
    const uint32_t *adjustments, size_t adjustments_len,
    uint32_t buckets, uint32_t bins,
    uint32_t *new_tops, size_t new_tops_len,
    uint32_t *new_ends, size_t new_ends_len,
    uint32_t *new_blocks, size_t new_blocks_len,
    uint32_t *new_adjustments, size_t new_adjustments_len);

/*
 * The move list of the expansion of the lent map to `buckets` in `bins`, from order number `first`
 * (from 0) on. Rows rise by bucket; a row is bucket, old bin, old position, new bin, new position.
 * Refusals: 11, 12, 13, 14, 15, 16, 30, 1, 2, 3, 4, 5, 31, 9; not 8. Writes as many rows as remain
 * or fit whole into `rows`; `first` equal to the total writes none.
 */
struct irr_relocations_reply irr_relocations(
    struct irr_header header,
    const uint32_t *tops, size_t tops_len,
    const uint32_t *ends, size_t ends_len,
    const uint32_t *blocks, size_t blocks_len,
    const uint32_t *adjustments, size_t adjustments_len,
    uint32_t buckets, uint32_t bins, uint32_t first,
    uint32_t *rows, size_t rows_len);

/*
 * Carries one moved bucket: does the row of order number `mark` of the list of irr_relocations for
 * this map and these sizes. The word of a place is words[bin * P + position], a 64-bit index. The
 * word at the row's old place is copied to its new place, and the reply has the mark plus 1; where
 * the mark is the total nothing is copied, and the reply has the mark as it was and `finished` 1.
 * What the plant has to do, for a run that power cuts can't harm:
 * - It begins at mark 0, with the word of every old bucket at its old place.
 * - It gives all calls of the run the same map and the same sizes, and nothing else writes to the
 *   words.
 * - After an accepted call it stores the mark of the reply, once the copied word is stored, and
 *   gives the stored mark to the next call. The mark of a refusal is 0, and not to be stored.
 * A cut in a copy may leave anything in the word at the row's new place, and a cut in storing the
 * mark the old one or the new one, whole. At any time a moved bucket with an order number below the
 * stored mark is right at its new place, and every other old bucket at its old one. Carried on from
 * the stored mark, the run ends with the words of one that was not cut.
 * Refusals: 11, 12, 13, 14, 15, 16, 30, 1, 2, 3, 4, 5, 31, 40, 41; not 8. Writes one word, or none.
 */
struct irr_carry_reply irr_carry(
    struct irr_header header,
    const uint32_t *tops, size_t tops_len,
    const uint32_t *ends, size_t ends_len,
    const uint32_t *blocks, size_t blocks_len,
    const uint32_t *adjustments, size_t adjustments_len,
    uint32_t buckets, uint32_t bins,
    uint32_t *words, size_t words_len, uint32_t mark);

/*
 * The bin and the position of a bucket: a position from 8 on, and below the capacity.
 * Refusals: 11, 12, 13, 14, 15, 16, 30, 6. Writes nothing.
 */
struct irr_place_reply irr_place(
    struct irr_header header,
    const uint32_t *tops, size_t tops_len,
    const uint32_t *ends, size_t ends_len,
    const uint32_t *blocks, size_t blocks_len,
    const uint32_t *adjustments, size_t adjustments_len,
    uint32_t bucket);

/*
 * The bins and positions of a list of buckets that does not fall: a bucket may stand in it twice,
 * but not behind a larger one. An empty list is accepted.
 * Refusals: 33, 11, 12, 13, 14, 15, 16, 30, 32, 6; 32 and 6 each over the whole list. Writes to
 * `places` two numbers a bucket, its bin and its position, in the order of the list.
 */
struct irr_places_reply irr_places(
    struct irr_header header,
    const uint32_t *tops, size_t tops_len,
    const uint32_t *ends, size_t ends_len,
    const uint32_t *blocks, size_t blocks_len,
    const uint32_t *adjustments, size_t adjustments_len,
    const uint32_t *buckets, size_t buckets_len,
    uint32_t *places, size_t places_len);

/*
 * The bucket at a position of a bin. At the label's positions, 0 to 7, there is none.
 * Refusals: 11, 12, 13, 14, 15, 16, 30, 7. Writes nothing.
 */
struct irr_find_reply irr_find(
    struct irr_header header,
    const uint32_t *tops, size_t tops_len,
    const uint32_t *ends, size_t ends_len,
    const uint32_t *blocks, size_t blocks_len,
    const uint32_t *adjustments, size_t adjustments_len,
    uint32_t bin, uint32_t position);

/*
 * The number of buckets in a bin (drawer count), the label not counted.
 * Refusals: 11, 12, 13, 14, 15, 16, 30, 7. Writes nothing.
 */
struct irr_bin_size_reply irr_bin_size(
    struct irr_header header,
    const uint32_t *tops, size_t tops_len,
    const uint32_t *ends, size_t ends_len,
    const uint32_t *blocks, size_t blocks_len,
    const uint32_t *adjustments, size_t adjustments_len,
    uint32_t bin);

/*
 * The intervals to set aside for m expansions: m(m+1)/2 + 1.
 * Refusals: 9. Writes nothing.
 */
struct irr_room_reply irr_room(uint32_t expansions);

/*
 * The saved form of a table: 4-byte numbers, low byte first: B, the number of blocks and of
 * intervals, the tops, the ends, the blocks of the intervals. The capacity is not saved.
 * Refusals: 11, 12, 13, 14, 15, 16, 30, 21. Writes 12 + 4 * blocks + 8 * intervals bytes of
 * `buffer`.
 */
struct irr_save_reply irr_save(
    struct irr_header header,
    const uint32_t *tops, size_t tops_len,
    const uint32_t *ends, size_t ends_len,
    const uint32_t *blocks, size_t blocks_len,
    const uint32_t *adjustments, size_t adjustments_len,
    uint8_t *buffer, size_t buffer_len);

/*
 * The table of a saved map, with the given capacity; the adjustments, which are not saved, are
 * worked out.
 * Refusals: 21, 11, 12, 13, 14, 15, 30. Writes as many entries as the header of its reply counts.
 */
struct irr_load_reply irr_load(
    const uint8_t *bytes, size_t bytes_len, uint32_t capacity,
    uint32_t *tops, size_t tops_len,
    uint32_t *ends, size_t ends_len,
    uint32_t *blocks, size_t blocks_len,
    uint32_t *adjustments, size_t adjustments_len);

/*
 * The rack sheet of a table, as text: one line an interval, from the left. A line has five decimal
 * numbers, each right-aligned with blanks in 10 columns, and a line feed: the interval's first
 * bucket and its last, its block, the block's first bin and how many bins the block has. There is no
 * heading, and no null character at the end.
 * Refusals: 11, 12, 13, 14, 15, 16, 30, 34. Writes 51 * intervals bytes of `buffer`.
 */
struct irr_sheet_reply irr_sheet(
    struct irr_header header,
    const uint32_t *tops, size_t tops_len,
    const uint32_t *ends, size_t ends_len,
    const uint32_t *blocks, size_t blocks_len,
    const uint32_t *adjustments, size_t adjustments_len,
    uint8_t *buffer, size_t buffer_len);

#ifdef __cplusplus
}
#endif

#endif
