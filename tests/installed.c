/*
 * A program that uses the installed header and library, in C and in C++: prints the header's version,
 * and where a bucket of document 01's example is.
 */
#include <irr.h>
#include <stdio.h>

#if IRR_VERSION != 10000 * IRR_VERSION_MAJOR + 100 * IRR_VERSION_MINOR + IRR_VERSION_PATCH
#error "IRR_VERSION is not made of its parts"
#endif

static uint32_t tops[IRR_MAX_BLOCKS], ends[IRR_MAX_INTERVALS], blocks[IRR_MAX_INTERVALS],
    adjustments[IRR_MAX_INTERVALS];

#define ARRAYS \
    tops, IRR_MAX_BLOCKS, ends, IRR_MAX_INTERVALS, blocks, IRR_MAX_INTERVALS, adjustments, \
        IRR_MAX_INTERVALS

int main(void)
{
    struct irr_table_reply made = irr_initial(10, 2, 5 + IRR_LABEL, ARRAYS);
    struct irr_place_reply place = irr_place(made.header, ARRAYS, 7);

    printf("%d.%d.%d\n", IRR_VERSION_MAJOR, IRR_VERSION_MINOR, IRR_VERSION_PATCH);
    printf("%u %u %u %u\n", (unsigned)made.refusal, (unsigned)place.refusal, (unsigned)place.bin,
           (unsigned)place.position);
    return 0;
}
