/*
 * Lengths and indices that need more than 32 bits: reserved memory, of which only the start is open,
 * or, of the words of a wide rack, only the start of each bin. Ends with 77, for skipped, where so
 * much cannot be reserved.
 */
#define _DEFAULT_SOURCE
#include <inttypes.h>
#include <stdio.h>
#include <sys/mman.h>

#include "irr.h"

static const size_t huge = (size_t)1 << 32;
enum { OPEN = 1 << 16, ARRAYS = 6, P = 13, SKIPPED = 77 };

/* A wide rack: 60 buckets in 6 bins, and in 8 after its growth, each of the most positions, of which
 * the first ones are seen. From bin 5 on, a word's index does not fit in 32 bits. */
enum { WIDE_BUCKETS = 60, WIDE_BINS = 6, WIDER_BINS = 8, WIDE_ROWS = 14, SEEN = 20 };
static const size_t wide = (size_t)WIDER_BINS * IRR_MAX_CAPACITY;

static unsigned char *memory[ARRAYS], *wide_memory;
static int faults;

/* reserves so many words, and as many bytes more as are opened at once */
static void *reserve_words(size_t count)
{
    void *all = mmap(NULL, 4 * count + OPEN, PROT_NONE,
                     MAP_PRIVATE | MAP_ANONYMOUS | MAP_NORESERVE, -1, 0);
    return all == MAP_FAILED ? NULL : all;
}

/* opens what is around the given byte */
static int open_at(unsigned char *all, size_t byte)
{
    return mprotect(all + byte / OPEN * OPEN, OPEN, PROT_READ | PROT_WRITE) == 0;
}

static int reserve(void)
{
    for (int i = 0; i < ARRAYS; i++) {
        memory[i] = reserve_words(huge);
        if (memory[i] == NULL || !open_at(memory[i], 0))
            return 0;
    }
    wide_memory = reserve_words(wide);
    for (size_t bin = 0; bin < WIDER_BINS; bin++)
        if (wide_memory == NULL || !open_at(wide_memory, 4 * bin * IRR_MAX_CAPACITY))
            return 0;
    return 1;
}

static uint32_t *array(int i)
{
    return (uint32_t *)(void *)memory[i];
}
#define FOUR(n) array(0), n, array(1), n, array(2), n, array(3), n

static void want(const char *what, uint32_t got, uint32_t expected)
{
    if (got == expected)
        return;
    faults++;
    printf("FAULT %s: %" PRIu32 ", not %" PRIu32 "\n", what, got, expected);
}

/* a list and its result, of the lengths given */
static uint32_t places(struct irr_header h, size_t buckets_len, size_t places_len)
{
    return irr_places(h, FOUR(huge), array(4), buckets_len, array(5), places_len).refusal;
}

/* lists of more buckets than two numbers each fit into the result, or into a size_t; 33 is tested
 * first, so no bucket is read */
static void check_lists(struct irr_header h)
{
    want("irr_places of 2^32 buckets", places(h, huge, huge), IRR_RESULT_SHORT);
    want("irr_places of 2^32 + 1 buckets into 2 numbers", places(h, huge + 1, 2),
         IRR_RESULT_SHORT);
    want("irr_places of 2^31 buckets, a number short", places(h, huge / 2, huge - 1),
         IRR_RESULT_SHORT);
    want("irr_places of half as many as a size_t counts", places(h, SIZE_MAX / 2 + 1, huge),
         IRR_RESULT_SHORT);
    want("the same and one more, into 2 numbers", places(h, SIZE_MAX / 2 + 2, 2),
         IRR_RESULT_SHORT);
    want("irr_places of as many as a size_t counts", places(h, SIZE_MAX, SIZE_MAX),
         IRR_RESULT_SHORT);
    array(4)[0] = 7;
    want("irr_places of 1 bucket into 2^32 numbers", places(h, 1, huge), 0);
    want("its bin", array(5)[0], 1);
    want("its position", array(5)[1], 11);
}

/* a sheet of one line, into lengths whose low 32 bits are too short for it */
static void check_sheet(struct irr_header h)
{
    struct irr_sheet_reply sheet = irr_sheet(h, FOUR(huge), memory[5], huge);
    want("irr_sheet into 2^32 bytes, refusal", sheet.refusal, 0);
    want("its length", sheet.length, IRR_LINE);
    want("the last digit of its last bucket", memory[5][19], '9');
    want("irr_sheet into 2^32 bytes and a line but for 1, refusal",
         irr_sheet(h, FOUR(huge), memory[5], huge + IRR_LINE - 1).refusal, 0);
    want("irr_sheet into a line but for 1, refusal",
         irr_sheet(h, FOUR(huge), memory[5], IRR_LINE - 1).refusal, IRR_SHEET_SHORT);
}

/* words of lengths whose low 32 bits are too short for the rack */
static void check_words(struct irr_header h)
{
    uint32_t *words = array(5);
    words[11] = 110;
    words[12] = 120;
    struct irr_carry_reply r = irr_carry(h, FOUR(huge), 10, 3, words, huge, 1);
    want("irr_carry of 2^32 words, refusal", r.refusal, 0);
    want("its mark", r.mark, 2);
    want("its word", words[2 * P + 9], 120);
    r = irr_carry(h, FOUR(huge), 10, 3, words, huge + 3 * P - 1, 3);
    want("irr_carry of 2^32 words and a rack but for 1, at the total: finished", r.finished, 1);
    want("irr_carry of a rack but for 1, refusal",
         irr_carry(h, FOUR(huge), 10, 3, words, 3 * P - 1, 1).refusal, IRR_WORDS_SHORT);
}

/* 40, where the number of words needed is above a multiple of 2^32 by less than there are */
static void check_wide_lengths(void)
{
    struct irr_header h = irr_initial(100000, 20, IRR_MAX_CAPACITY, FOUR(huge)).header;
    const size_t needed = (size_t)43 * IRR_MAX_CAPACITY, lengths[] = {
        needed % huge, huge - 1, huge, needed - 1, needed - huge};
    for (size_t i = 0; i < sizeof lengths / sizeof *lengths; i++)
        want("irr_carry of too few words for 43 bins, refusal",
             irr_carry(h, FOUR(huge), 100000, 43, array(5), lengths[i], 0).refusal,
             IRR_WORDS_SHORT);
    want("irr_carry of too few words for the most bins, refusal",
         irr_carry(h, FOUR(huge), 100000, IRR_MAX_BINS, array(5),
                   (size_t)IRR_MAX_BINS * IRR_MAX_CAPACITY - 1, 0).refusal,
         IRR_WORDS_SHORT);
}

static uint32_t *wide_word(uint32_t bin, uint32_t position)
{
    return (uint32_t *)(void *)wide_memory + (size_t)bin * IRR_MAX_CAPACITY + position;
}

/* a wide rack carried row by row: words from behind the first 2^32, and into those */
static void check_wide(void)
{
    struct irr_header h =
        irr_initial(WIDE_BUCKETS, WIDE_BINS, IRR_MAX_CAPACITY, FOUR(huge)).header;
    uint32_t rows[IRR_ROW * WIDE_ROWS] = {0}, far = 0;
    want("a wide rack, rows",
         irr_relocations(h, FOUR(huge), WIDE_BUCKETS, WIDER_BINS, 0, rows, IRR_ROW * WIDE_ROWS)
             .total, WIDE_ROWS);
    for (uint32_t bin = 0; bin < WIDER_BINS; bin++)
        for (uint32_t position = 0; position < SEEN; position++)
            *wide_word(bin, position) = 100 * bin + position;
    for (uint32_t mark = 0; mark < WIDE_ROWS; mark++) {
        const uint32_t *row = rows + IRR_ROW * mark;
        struct irr_carry_reply r = irr_carry(h, FOUR(huge), WIDE_BUCKETS, WIDER_BINS,
                                             wide_word(0, 0), wide, mark);
        want("a wide rack, refusal", r.refusal, 0);
        want("a wide rack, mark", r.mark, mark + 1);
        want("a wide rack, word", *wide_word(row[3], row[4]), 100 * row[1] + row[2]);
        far += row[1] == WIDE_BINS - 1 && row[3] >= WIDE_BINS;
    }
    want("whether rows go from bin 5 to bins 6 and 7", far > 1, 1);
    want("a wide rack but for a word, refusal",
         irr_carry(h, FOUR(huge), WIDE_BUCKETS, WIDER_BINS, wide_word(0, 0), wide - 1, 0).refusal,
         IRR_WORDS_SHORT);
    for (uint32_t bin = 0; bin < WIDER_BINS; bin++)
        for (uint32_t position = 0; position < SEEN; position++)
            if (bin < WIDE_BINS || position < IRR_LABEL ||
                position >= IRR_LABEL + WIDE_BUCKETS / WIDER_BINS)
                want("a wide rack, other words", *wide_word(bin, position), 100 * bin + position);
}

int main(void)
{
    if (!reserve()) {
        printf("skipped: no address space for arrays of more than 2^32 entries\n");
        return SKIPPED;
    }
    struct irr_table_reply made = irr_initial(10, 2, P, FOUR(huge));
    want("irr_initial, refusal", made.refusal, 0);
    struct irr_header h = made.header;
    want("irr_place, refusal", irr_place(h, FOUR(huge), 7).refusal, 0);
    want("irr_place, bin", irr_place(h, FOUR(huge), 7).bin, 1);
    want("irr_relocations, written",
         irr_relocations(h, FOUR(huge), 10, 3, 0, array(4), huge).written, 3);
    want("last row, bucket", array(4)[10], 9);
    want("irr_relocations into 4 numbers more than 2^32, written",
         irr_relocations(h, FOUR(huge + 1), 10, 3, 2, array(4), huge + 4).written, 1);
    check_lists(h);
    check_sheet(h);
    check_words(h);
    struct irr_save_reply saved = irr_save(h, FOUR(huge), memory[4], huge);
    want("irr_save, length", saved.length, 24);
    want("irr_load of 2^32 bytes too many", irr_load(memory[4], huge + 24, P, FOUR(huge)).refusal,
         IRR_WRONG_COUNT);
    want("irr_load", irr_load(memory[4], 24, P, FOUR(huge)).refusal, 0);
    check_wide_lengths();
    check_wide();
    printf("lengths above 2^32: %d faults\n", faults);
    return faults != 0;
}
