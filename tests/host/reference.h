/* The twelve calls written from documents 01 and 02, plainly: each ref_ call answers what irr_
 * should. */
#ifndef REFERENCE_H
#define REFERENCE_H

#include "irr.h"

/* the four arrays of a lent table, and those of a table to write */
#define REF_TABLE \
    const uint32_t *tops, size_t tops_len, const uint32_t *ends, size_t ends_len, \
        const uint32_t *blocks, size_t blocks_len, const uint32_t *adjustments, \
        size_t adjustments_len
#define REF_ROOM \
    uint32_t *new_tops, size_t new_tops_len, uint32_t *new_ends, size_t new_ends_len, \
        uint32_t *new_blocks, size_t new_blocks_len, uint32_t *new_adjustments, \
        size_t new_adjustments_len

struct irr_table_reply ref_initial(uint32_t buckets, uint32_t bins, uint32_t capacity, REF_ROOM);
struct irr_table_reply ref_expand(struct irr_header header, REF_TABLE, uint32_t buckets,
                                  uint32_t bins, REF_ROOM);
struct irr_relocations_reply ref_relocations(struct irr_header header, REF_TABLE, uint32_t buckets,
                                             uint32_t bins, uint32_t first, uint32_t *rows,
                                             size_t rows_len);
struct irr_carry_reply ref_carry(struct irr_header header, REF_TABLE, uint32_t buckets,
                                 uint32_t bins, uint32_t *words, size_t words_len, uint32_t mark);
struct irr_place_reply ref_place(struct irr_header header, REF_TABLE, uint32_t bucket);
struct irr_places_reply ref_places(struct irr_header header, REF_TABLE, const uint32_t *buckets,
                                   size_t buckets_len, uint32_t *places, size_t places_len);
struct irr_find_reply ref_find(struct irr_header header, REF_TABLE, uint32_t bin,
                               uint32_t position);
struct irr_bin_size_reply ref_bin_size(struct irr_header header, REF_TABLE, uint32_t bin);
struct irr_room_reply ref_room(uint32_t expansions);
struct irr_save_reply ref_save(struct irr_header header, REF_TABLE, uint8_t *buffer,
                               size_t buffer_len);
struct irr_load_reply ref_load(const uint8_t *bytes, size_t bytes_len, uint32_t capacity,
                               REF_ROOM);
struct irr_sheet_reply ref_sheet(struct irr_header header, REF_TABLE, uint8_t *buffer,
                                 size_t buffer_len);

/* what block j of the given tops is due in a map of `buckets` in `bins`: the sum over its bins */
int64_t ref_due_of_block(int64_t buckets, int64_t bins, const uint32_t *tops, int64_t j);

#endif
