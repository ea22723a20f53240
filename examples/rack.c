/*
 * A rack kept through the C calls: a fresh map, three growths with their moves, one that its bins
 * are too small for, the map saved, loaded elsewhere, and asked where its buckets are. The other
 * sizes are those of document 01's listing.
 */
#include <stdio.h>
#include <stdlib.h>

#include "irr.h"

/* the positions in every bin: its label, and 5 buckets; the saved form does not have their number,
 * so loading needs it again */
enum { CAPACITY = IRR_LABEL + 5 };

/* One table: its header, and room for the largest map. */
struct table {
    struct irr_header header;
    uint32_t tops[IRR_MAX_BLOCKS];
    uint32_t ends[IRR_MAX_INTERVALS];
    uint32_t blocks[IRR_MAX_INTERVALS];
    uint32_t adjustments[IRR_MAX_INTERVALS];
};

/* the four arrays of a table, as arguments of a call */
#define ARRAYS(t)                                                            \
    (t)->tops, IRR_MAX_BLOCKS, (t)->ends, IRR_MAX_INTERVALS, (t)->blocks,    \
        IRR_MAX_INTERVALS, (t)->adjustments, IRR_MAX_INTERVALS

/* leaves the program if a call was refused */
static void need(const char *call, uint32_t refusal)
{
    if (refusal == IRR_OK)
        return;
    fprintf(stderr, "rack: %s: refused %u\n", call, (unsigned)refusal);
    exit(EXIT_FAILURE);
}

static void print_table(const struct table *t)
{
    for (uint32_t i = 0; i < t->header.interval_count; i++)
        printf("  interval: end %u, block %u, adjustment %u\n", (unsigned)t->ends[i],
               (unsigned)t->blocks[i], (unsigned)t->adjustments[i]);
}

/* the moves of a growth, page by page: each call fills the row buffer from the next row on */
static void print_moves(const struct table *old, uint32_t buckets, uint32_t bins)
{
    uint32_t rows[2 * IRR_ROW], first = 0;
    struct irr_relocations_reply page;
    do {
        page = irr_relocations(old->header, ARRAYS(old), buckets, bins, first, rows, 2 * IRR_ROW);
        need("irr_relocations", page.refusal);
        for (uint32_t i = 0; i < page.written; i++) {
            const uint32_t *row = rows + IRR_ROW * i;
            printf("  bucket %2u moves from bin %u, position %u to bin %u, position %u\n",
                   (unsigned)row[0], (unsigned)row[1], (unsigned)row[2], (unsigned)row[3],
                   (unsigned)row[4]);
        }
        first += page.written;
    } while (first < page.total);
}

/* lets the rack grow: `old` is only read, `grown` takes the new table */
static void grow(const struct table *old, uint32_t buckets, uint32_t bins, struct table *grown)
{
    struct irr_table_reply reply =
        irr_expand(old->header, ARRAYS(old), buckets, bins, ARRAYS(grown));
    need("irr_expand", reply.refusal);
    grown->header = reply.header;
    printf("growth to %u buckets in %u bins: %u moved\n", (unsigned)buckets, (unsigned)bins,
           (unsigned)reply.moved);
    print_table(grown);
    print_moves(old, buckets, bins);
}

/* asks for a growth after which some bin's buckets and its label would need more positions than it
 * has */
static void overfill(const struct table *old, uint32_t buckets, uint32_t bins, struct table *grown)
{
    struct irr_table_reply reply =
        irr_expand(old->header, ARRAYS(old), buckets, bins, ARRAYS(grown));
    if (reply.refusal != IRR_BIN_OVERFULL) {
        fprintf(stderr, "rack: irr_expand: an overfull bin, and refusal %u\n",
                (unsigned)reply.refusal);
        exit(EXIT_FAILURE);
    }
    printf("growth to %u buckets in %u bins: refused, a bin has only %u positions\n",
           (unsigned)buckets, (unsigned)bins, (unsigned)old->header.capacity);
}

/* each bin with the buckets at its positions, which start behind the label */
static void print_bins(const struct table *t, uint32_t bins)
{
    for (uint32_t bin = 0; bin < bins; bin++) {
        struct irr_bin_size_reply size = irr_bin_size(t->header, ARRAYS(t), bin);
        need("irr_bin_size", size.refusal);
        printf("  bin %u:", (unsigned)bin);
        for (uint32_t i = 0; i < size.buckets; i++) {
            struct irr_find_reply found = irr_find(t->header, ARRAYS(t), bin, IRR_LABEL + i);
            need("irr_find", found.refusal);
            printf(" %u", (unsigned)found.bucket);
        }
        printf("\n");
    }
}

/* a trend screen: where its buckets are, asked for in one call; two of its curves share a bucket */
static void print_screen(const struct table *t)
{
    static const uint32_t buckets[] = {3, 6, 8, 8, 13};
    enum { SHOWN = sizeof buckets / sizeof *buckets };
    uint32_t places[2 * SHOWN];
    struct irr_places_reply reply =
        irr_places(t->header, ARRAYS(t), buckets, SHOWN, places, 2 * SHOWN);
    need("irr_places", reply.refusal);
    printf("a screen of %u buckets\n", (unsigned)SHOWN);
    for (size_t i = 0; i < SHOWN; i++)
        printf("  bucket %2u: bin %u, position %u\n", (unsigned)buckets[i],
               (unsigned)places[2 * i], (unsigned)places[2 * i + 1]);
}

/* leaves the program unless both tables place every bucket alike */
static void need_same_places(const struct table *a, const struct table *b)
{
    for (uint32_t bucket = 0; bucket < a->header.buckets; bucket++) {
        struct irr_place_reply x = irr_place(a->header, ARRAYS(a), bucket);
        struct irr_place_reply y = irr_place(b->header, ARRAYS(b), bucket);
        need("irr_place", x.refusal);
        need("irr_place", y.refusal);
        if (x.bin != y.bin || x.position != y.position) {
            fprintf(stderr, "rack: bucket %u is at two places\n", (unsigned)bucket);
            exit(EXIT_FAILURE);
        }
    }
    printf("both maps place all %u buckets alike\n", (unsigned)a->header.buckets);
}

int main(void)
{
    static struct table one, two, loaded;
    static uint8_t file[IRR_MAX_SAVED];

    struct irr_table_reply made = irr_initial(10, 2, CAPACITY, ARRAYS(&one));
    need("irr_initial", made.refusal);
    one.header = made.header;
    printf("fresh map of 10 buckets in 2 bins of %u positions\n", (unsigned)CAPACITY);
    print_table(&one);

    grow(&one, 10, 3, &two);
    grow(&two, 14, 4, &one);
    grow(&one, 14, 5, &two);
    overfill(&two, 26, 5, &one);

    struct irr_save_reply saved = irr_save(two.header, ARRAYS(&two), file, sizeof file);
    need("irr_save", saved.refusal);
    struct irr_load_reply load = irr_load(file, saved.length, CAPACITY, ARRAYS(&loaded));
    need("irr_load", load.refusal);
    loaded.header = load.header;
    printf("saved in %u bytes, and loaded\n", (unsigned)saved.length);

    need_same_places(&two, &loaded);
    print_bins(&loaded, 5);
    print_screen(&loaded);
    return EXIT_SUCCESS;
}
