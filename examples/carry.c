/*
 * The carrier of a plant: moves the words of a rack of 10 buckets from 2 bins into 3, one bucket a
 * call. Each time the mark is stored behind the copy. The power fails once in a copy and once before
 * a mark is stored, and the carrier goes on from the stored mark.
 */
#include <stdio.h>
#include <stdlib.h>

#include "irr.h"

enum { BUCKETS = 10, BINS = 2, NEW_BINS = 3, CAPACITY = IRR_LABEL + 5 };

static struct irr_header header;
static uint32_t tops[IRR_MAX_BLOCKS], ends[IRR_MAX_INTERVALS], blocks[IRR_MAX_INTERVALS],
    adjustments[IRR_MAX_INTERVALS];

/* the four arrays of the table, as arguments of a call */
#define ARRAYS                                                       \
    tops, IRR_MAX_BLOCKS, ends, IRR_MAX_INTERVALS, blocks,           \
        IRR_MAX_INTERVALS, adjustments, IRR_MAX_INTERVALS

/* What lasts through a power cut: the words of all places, and the mark. */
static struct {
    uint32_t words[NEW_BINS * CAPACITY];
    uint32_t mark;
} stored;

/* leaves the program if a call was refused: its mark is not to be stored */
static void need(const char *call, uint32_t refusal)
{
    if (refusal == IRR_OK)
        return;
    fprintf(stderr, "carry: %s: refused %u\n", call, (unsigned)refusal);
    exit(EXIT_FAILURE);
}

/* a word for every bucket at its old place: its number and 100 */
static void fill(void)
{
    for (uint32_t bucket = 0; bucket < BUCKETS; bucket++) {
        struct irr_place_reply place = irr_place(header, ARRAYS, bucket);
        need("irr_place", place.refusal);
        stored.words[place.bin * CAPACITY + place.position] = 100 + bucket;
    }
}

static void print_bins(void)
{
    for (uint32_t bin = 0; bin < NEW_BINS; bin++) {
        printf("  bin %u:", (unsigned)bin);
        for (uint32_t position = IRR_LABEL; position < CAPACITY; position++)
            printf(" %3u", (unsigned)stored.words[bin * CAPACITY + position]);
        printf("\n");
    }
}

/* one call with the stored mark */
static struct irr_carry_reply carry(void)
{
    struct irr_carry_reply reply =
        irr_carry(header, ARRAYS, BUCKETS, NEW_BINS, stored.words,
                  sizeof stored.words / sizeof *stored.words, stored.mark);
    need("irr_carry", reply.refusal);
    return reply;
}

/* calls until there is no row left, at most so many; the mark is stored behind each */
static void run(int most)
{
    while (most-- > 0) {
        struct irr_carry_reply reply = carry();
        if (reply.finished) {
            printf("mark %u: finished\n", (unsigned)reply.mark);
            return;
        }
        stored.mark = reply.mark;
        printf("mark %u stored\n", (unsigned)stored.mark);
    }
}

int main(void)
{
    struct irr_table_reply made = irr_initial(BUCKETS, BINS, CAPACITY, ARRAYS);
    need("irr_initial", made.refusal);
    header = made.header;
    fill();
    print_bins();

    run(1);
    stored.words[2 * CAPACITY + 9] = 7;
    printf("power cut in a copy, which leaves junk\n");
    print_bins();

    run(1);
    carry();
    printf("power cut behind a copy, before its mark is stored\n");
    run(NEW_BINS * CAPACITY);
    print_bins();
    return EXIT_SUCCESS;
}
