/*
 * Power cuts: random small racks, whose moved buckets are carried while the power fails at every row
 * in turn, and again and again in one run. A cut in the copy leaves the old word, the new one or
 * junk at the new place, and a cut in storing the mark the old mark or the new one. After each cut
 * every old bucket is right where it has to be, and carrying on ends with the words of a run that
 * was not cut.
 */
#include <inttypes.h>
#include <stdio.h>
#include <string.h>

#include "irr.h"
#include "random.h"
#include "reference.h"
#include "tables.h"

enum { RACKS = 3000, BUCKETS = 80, BINS = 12, WORDS = BINS * (IRR_LABEL + BUCKETS + 2) };

/* what is stored: the words and the mark */
struct stored {
    uint32_t words[WORDS], mark;
};

/* what a cut leaves: in the copy, or in storing the mark */
enum cut { OLD_WORD, NEW_WORD, JUNK, OLD_MARK, NEW_MARK, CUTS };

static struct table map;
static uint32_t buckets, bins, total;        /* the sizes asked for, and the rows */
static size_t count;                         /* words of the rack */
static size_t from[BUCKETS], into[BUCKETS];  /* the words of each row */
static size_t places[BUCKETS];               /* that of each old bucket, before */
static uint32_t bucket_of[BUCKETS];          /* of each row */
static struct stored begun, uncut;
static uint64_t cuts, calls, racks;
static int faults;

#define MAP                                                                              \
    map.header, map.tops, map.tops_len, map.ends, map.intervals_len, map.blocks,         \
        map.intervals_len, map.adjustments, map.intervals_len

static void fault(const char *what, uint32_t a, uint32_t b)
{
    if (faults++ < 10)
        printf("FAULT %s (%" PRIu32 ", %" PRIu32 "): rack %" PRIu64 "\n", what, a, b, racks);
}

/* RACKS */

static size_t word_at(uint32_t bin, uint32_t position)
{
    return (size_t)bin * map.header.capacity + position;
}

/* a random table and growth, with the least capacity; answers whether it has rows */
static int make_rack(void)
{
    uint32_t b = 1 + below(BUCKETS), n = 1 + below(b < BINS / 2 ? b : BINS / 2);
    table_random(&map, b, n, 1 + below(5));
    buckets = b + (once_in(2) ? 0 : below(b / 2 + 1));
    bins = n + 1 + below(BINS / 2);
    uint32_t old = largest_bin(b, n), new = largest_bin(buckets, bins);
    map.header.capacity = IRR_LABEL + (old > new ? old : new) + (once_in(2) ? 0 : below(3));
    count = word_at(bins, 0);
    struct irr_relocations_reply list = ref_relocations(MAP, buckets, bins, 0, NULL, 0);
    total = list.total;
    return list.refusal == 0 && total > 0;
}

/* the words that each row and each old bucket has */
static void read_places(void)
{
    uint32_t row[IRR_ROW];
    for (uint32_t i = 0; i < total; i++) {
        ref_relocations(MAP, buckets, bins, i, row, IRR_ROW);
        bucket_of[i] = row[0];
        from[i] = word_at(row[1], row[2]);
        into[i] = word_at(row[3], row[4]);
    }
    for (uint32_t x = 0; x < map.header.buckets; x++) {
        struct irr_place_reply place = ref_place(MAP, x);
        places[x] = word_at(place.bin, place.position);
    }
}

/* CALLS */

/* a call with what is stored; answers its reply */
static struct irr_carry_reply carry(struct stored *s)
{
    struct irr_carry_reply r = irr_carry(MAP, buckets, bins, s->words, count, s->mark);
    calls++;
    if (r.refusal != 0)
        fault("refused: mark, refusal", s->mark, r.refusal);
    return r;
}

static void copy(struct stored *to, const struct stored *s)
{
    memcpy(to->words, s->words, count * sizeof *s->words);
    to->mark = s->mark;
}

/* a call whose copy or whose mark is cut */
static void carry_cut(struct stored *s, enum cut cut)
{
    size_t at = into[s->mark];
    uint32_t before = s->words[at];
    struct irr_carry_reply r = carry(s);
    if (cut == OLD_WORD)
        s->words[at] = before;
    if (cut == JUNK)
        s->words[at] = (uint32_t)random_next();
    if (cut == NEW_MARK)
        s->mark = r.mark;
    cuts++;
}

/* calls up to the end, none of them cut */
static void carry_on(struct stored *s)
{
    for (uint32_t left = total + 1; left > 0; left--) {
        struct irr_carry_reply r = carry(s);
        if (r.finished)
            return;
        s->mark = r.mark;
    }
    fault("no end: mark, total", s->mark, total);
}

/* WHAT IS STORED */

/* buckets with an order number below the mark are right at their new place, all other old ones at
 * their old one */
static void check_reads(const struct stored *s)
{
    uint8_t is_new[BUCKETS] = {0};
    for (uint32_t i = 0; i < s->mark && i < total; i++) {
        is_new[bucket_of[i]] = 1;
        if (s->words[into[i]] != begun.words[from[i]])
            fault("at its new place: bucket, mark", bucket_of[i], s->mark);
    }
    for (uint32_t x = 0; x < map.header.buckets; x++)
        if (!is_new[x] && s->words[places[x]] != begun.words[places[x]])
            fault("at its old place: bucket, mark", x, s->mark);
}

static void check_end(const struct stored *s)
{
    check_reads(s);
    if (s->mark != total)
        fault("ended: mark, total", s->mark, total);
    if (memcmp(s->words, uncut.words, count * sizeof *s->words) != 0)
        fault("not the words of an uncut run: mark, total", s->mark, total);
}

/* a cut of each kind at the row that is next in s */
static void check_cuts(const struct stored *s)
{
    static struct stored left;
    for (int cut = 0; cut < CUTS; cut++) {
        copy(&left, s);
        carry_cut(&left, (enum cut)cut);
        check_reads(&left);
        carry_on(&left);
        check_end(&left);
    }
}

/* a run in which any of the calls may be cut, one right after the other too */
static void check_many_cuts(void)
{
    static struct stored s;
    copy(&s, &begun);
    while (s.mark < total && faults == 0) {
        if (once_in(2))
            carry_cut(&s, (enum cut)below(CUTS));
        else
            s.mark = carry(&s).mark;
        check_reads(&s);
    }
    check_end(&s);
}

static void check_rack(void)
{
    static struct stored s;
    read_places();
    for (size_t i = 0; i < count; i++)
        begun.words[i] = (uint32_t)random_next();
    begun.mark = 0;
    copy(&uncut, &begun);
    carry_on(&uncut);
    check_end(&uncut);
    for (copy(&s, &begun); s.mark < total && faults == 0; s.mark = carry(&s).mark)
        check_cuts(&s);
    check_many_cuts();
}

int main(void)
{
    random_seed(1);
    while (racks < RACKS && faults == 0)
        if (make_rack()) {
            check_rack();
            racks++;
        }
    printf("%" PRIu64 " racks, %" PRIu64 " cuts, %" PRIu64 " calls, %d faults\n", racks, cuts,
           calls, faults);
    return faults != 0;
}
