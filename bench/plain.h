/* The twelve calls by hand (irr.c), each declared like the proved call of its name. */
#ifndef BENCH_PLAIN_H
#define BENCH_PLAIN_H

#include "../include/irr.h"

#define PLAIN(call) __typeof__(irr_##call) plain_##call

PLAIN(initial);
PLAIN(expand);
PLAIN(relocations);
PLAIN(carry);
PLAIN(place);
PLAIN(places);
PLAIN(find);
PLAIN(bin_size);
PLAIN(room);
PLAIN(save);
PLAIN(load);
PLAIN(sheet);

#undef PLAIN

#endif
