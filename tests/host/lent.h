/*
 * Lent memory. Each array exists twice, filled alike: one is lent to the archive, the other to the
 * reference; afterwards the two must be the same, with the guards around them. The archive's array
 * ends at a page that may not be touched, or GUARD bytes before it.
 */
#ifndef LENT_H
#define LENT_H

#include <stddef.h>
#include <stdint.h>

enum { GUARD = 16, LENT_BYTES = 1 << 17 };

enum side { ARCHIVE, REFERENCE };

struct lent {
    unsigned char *close; /* the page that may not be touched */
    unsigned char *copy;  /* the reference's memory: a guard, the array, a guard */
    size_t length;        /* bytes */
    size_t after;         /* guard bytes after the array: 0 or GUARD */
    void *nowhere;        /* the archive's pointer, where the length is 0 */
};

void lent_open(struct lent *l);

/* lends `bytes` of junk, the same on both sides */
void lent_junk(struct lent *l, size_t bytes);

/* the first `bytes` on both sides; what does not fit is left out */
void lent_put(struct lent *l, const void *data, size_t bytes);

/* whether both sides are the same, guards included */
int lent_same(const struct lent *l);

uint32_t *words(const struct lent *l, enum side side);
uint8_t *bytes(const struct lent *l, enum side side);

/* a lent array, or the four of a table, as arguments of a call */
#define WORDS(l, side) words(l, side), (l)->length / 4
#define BYTES(l, side) bytes(l, side), (l)->length
#define FOUR(l, side) \
    WORDS(&(l)[0], side), WORDS(&(l)[1], side), WORDS(&(l)[2], side), WORDS(&(l)[3], side)

#endif
