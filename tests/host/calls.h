/*
 * One comparison of a call of the archive with the reference: the whole reply, and every entry of
 * lent memory, guards included. Comparisons, refusals and faults are counted.
 */
#ifndef CALLS_H
#define CALLS_H

#include "tables.h"

enum call {
    INITIAL, EXPAND, RELOCATIONS, CARRY, PLACE, PLACES, FIND, BIN_SIZE, ROOM, SAVE, LOAD, SHEET,
    CALLS
};

void calls_open(uint64_t seed);

/* prints the counts; answers the number of faults, a refusal never seen included */
int calls_summary(void);

/* counts a fault, and prints the first few */
void fault(const char *what, uint32_t a, uint32_t b, uint32_t c);

/* faults so far */
int faults(void);

/* Each of these answers the archive's refusal; a table that it wrote goes to `to`. The arrays that
 * they lend are mostly as long as the call asks for or longer, and at times too short. */
uint32_t compare_initial(uint32_t buckets, uint32_t bins, uint32_t capacity, struct table *to);
uint32_t compare_expand(const struct table *t, uint32_t buckets, uint32_t bins, struct table *to,
                        uint32_t *moved);
uint32_t compare_relocations(const struct table *t, uint32_t buckets, uint32_t bins,
                             uint32_t first, size_t rows_len);
uint32_t compare_carry(const struct table *t, uint32_t buckets, uint32_t bins, size_t words_len,
                       uint32_t mark);
uint32_t compare_place(const struct table *t, uint32_t bucket);
uint32_t compare_places(const struct table *t, const uint32_t *buckets, size_t buckets_len,
                        size_t places_len);
uint32_t compare_find(const struct table *t, uint32_t bin, uint32_t position);
uint32_t compare_bin_size(const struct table *t, uint32_t bin);
uint32_t compare_room(uint32_t expansions);
uint32_t compare_save(const struct table *t, size_t buffer_len);
uint32_t compare_load(const uint8_t *bytes, size_t length, uint32_t capacity, struct table *to);
uint32_t compare_sheet(const struct table *t, size_t buffer_len);

/* whether, from now on, no array that is lent is too short */
void calls_lend_enough(int enough);

#endif
