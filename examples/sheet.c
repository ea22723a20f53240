/*
 * Prints the rack sheet of a saved map: reads the map from standard input, loads it, and writes the
 * sheet to standard output. A refusal goes to standard error by its number and its words, and the
 * status is 1 then, as it is after a read or write error.
 *
 *   sheet < rack14.map
 */
#include <stdio.h>
#include <stdlib.h>

#include "irr.h"

/* One table: its header, and room for the largest map. */
struct table {
    struct irr_header header;
    uint32_t tops[IRR_MAX_BLOCKS];
    uint32_t ends[IRR_MAX_INTERVALS];
    uint32_t blocks[IRR_MAX_INTERVALS];
    uint32_t adjustments[IRR_MAX_INTERVALS];
};

/* the four arrays of a table, as arguments of a call */
#define ARRAYS(t)                                                            \
    (t)->tops, IRR_MAX_BLOCKS, (t)->ends, IRR_MAX_INTERVALS, (t)->blocks,    \
        IRR_MAX_INTERVALS, (t)->adjustments, IRR_MAX_INTERVALS

/* what the refusals of irr_load and irr_sheet say */
static const char *words(uint32_t refusal)
{
    switch (refusal) {
    case IRR_WRONG_COUNT:
        return "B or a count outside its limits, or a file of another length";
    case IRR_WRONG_TOP:
        return "tops that don't rise strictly, a first of 0, or a last above 65,535 or above B";
    case IRR_WRONG_END:
        return "ends that don't rise strictly, a first of 0, or a last other than B";
    case IRR_WRONG_BLOCK:
        return "an interval's block not below the number of blocks";
    case IRR_WRONG_HOLDING:
        return "a block whose intervals hold another number than its due";
    case IRR_WRONG_ADJUSTMENT:
        return "an adjustment other than the buckets of other blocks before the interval";
    case IRR_ROOM_SHORT:
        return "room for less than 65 tops, or than 2,081 of an interval array";
    case IRR_WRONG_CAPACITY:
        return "a capacity of 0, above its limit, or below the size of the largest bin plus 8";
    case IRR_SHEET_SHORT:
        return "a buffer shorter than 51 bytes an interval";
    default:
        return "not a refusal of these calls";
    }
}

/* leaves the program if a call was refused */
static void need(uint32_t refusal)
{
    if (refusal == IRR_OK)
        return;
    fprintf(stderr, "refused %u: %s\n", (unsigned)refusal, words(refusal));
    exit(EXIT_FAILURE);
}

/* Reads standard input; answers how many bytes there were. A byte more than the largest saved map
 * has is enough of an input that is too long: no saved map has that length. */
static size_t read_input(uint8_t *file)
{
    size_t length = fread(file, 1, IRR_MAX_SAVED + 1, stdin);
    if (ferror(stdin)) {
        perror("sheet: standard input");
        exit(EXIT_FAILURE);
    }
    return length;
}

int main(void)
{
    static uint8_t file[IRR_MAX_SAVED + 1], text[IRR_MAX_SHEET];
    static struct table t;

    /* the saved form has no capacity: with the greatest one, all maps load that load with any */
    size_t length = read_input(file);
    struct irr_load_reply load = irr_load(file, length, IRR_MAX_CAPACITY, ARRAYS(&t));
    need(load.refusal);
    t.header = load.header;

    struct irr_sheet_reply sheet = irr_sheet(t.header, ARRAYS(&t), text, sizeof text);
    need(sheet.refusal);
    if (fwrite(text, 1, sheet.length, stdout) != sheet.length || fflush(stdout) != 0) {
        perror("sheet: standard output");
        return EXIT_FAILURE;
    }
    return EXIT_SUCCESS;
}
