/* Lent memory, twice, between guards. */
#define _DEFAULT_SOURCE
#include "lent.h"

#include <stdio.h>
#include <stdlib.h>
#include <string.h>
#include <sys/mman.h>

#include "random.h"

enum { CLOSED = 1 << 16 };

void lent_open(struct lent *l)
{
    size_t open = LENT_BYTES + CLOSED;
    unsigned char *pages = mmap(NULL, open + CLOSED, PROT_READ | PROT_WRITE,
                                MAP_PRIVATE | MAP_ANONYMOUS, -1, 0);
    l->copy = malloc(LENT_BYTES + 2 * GUARD);
    if (pages == MAP_FAILED || l->copy == NULL || mprotect(pages + open, CLOSED, PROT_NONE) != 0) {
        perror("lent memory");
        exit(2);
    }
    l->close = pages + open;
    lent_junk(l, 0);
}

static unsigned char *archive_start(const struct lent *l)
{
    return l->close - l->after - l->length - GUARD;
}

void lent_junk(struct lent *l, size_t bytes)
{
    void *nowheres[] = {NULL, (void *)(uintptr_t)3, (void *)UINTPTR_MAX, l->close};
    l->length = bytes;
    l->after = once_in(2) ? GUARD : 0;
    l->nowhere = nowheres[below(4)];
    size_t all = GUARD + bytes + l->after;
    for (size_t i = 0; i < all; i += 8) {
        uint64_t junk = random_next();
        memcpy(l->copy + i, &junk, all - i < 8 ? all - i : 8);
    }
    memcpy(archive_start(l), l->copy, all);
}

void lent_put(struct lent *l, const void *data, size_t bytes)
{
    if (bytes > l->length)
        bytes = l->length;
    if (bytes == 0)
        return;
    memcpy(l->copy + GUARD, data, bytes);
    memcpy(archive_start(l) + GUARD, data, bytes);
}

int lent_same(const struct lent *l)
{
    return memcmp(archive_start(l), l->copy, GUARD + l->length + l->after) == 0;
}

uint8_t *bytes(const struct lent *l, enum side side)
{
    if (side == REFERENCE)
        return l->copy + GUARD;
    return l->length == 0 ? l->nowhere : archive_start(l) + GUARD;
}

uint32_t *words(const struct lent *l, enum side side)
{
    return (uint32_t *)(void *)bytes(l, side);
}
