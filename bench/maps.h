/* maps.h - building maps directly, for bench.c, stack.c and tests/c. No kernel call is used here. */
#ifndef MAPS_H
#define MAPS_H

#include <stddef.h>
#include <stdint.h>

#define NONE UINT32_C(0xFFFFFFFF)
#define MAX_SLOTS 65536u
#define MAX_ENTRIES (4 * MAX_SLOTS)
#define MAX_JOURNAL 1048576u

/* A deterministic stream of numbers. */
typedef struct { uint64_t state; } rng;
rng rng_from(uint64_t seed, uint64_t stream);
uint64_t rng_next(rng *r);
uint32_t rng_below(rng *r, uint32_t bound);          /* 0 if bound is 0 */

uint32_t cell_darts(uint32_t n);                      /* 8 or 48 */
uint32_t cell_link(uint32_t n, uint32_t k, uint32_t i);

int map_live(const uint32_t *table, uint32_t d);
uint32_t map_count_live(const uint32_t *table, uint32_t slots);

/* Every slot unused. */
void map_clear(uint32_t *table, uint32_t slots);

/* Free cells in the slots 0, 1, ...; the rest unused. */
void map_cells(uint32_t n, uint32_t cells, uint32_t *table, uint32_t slots);

/* A grid of size[0] x size[1] x size[2] cells (size[2] is 1 for n = 2); the rest unused. */
void map_grid(uint32_t n, const uint32_t size[3], uint32_t *table, uint32_t slots);

/* To put a cell behind another one along an axis, the far dart of this one is sewn to the near dart
 * of that one, each counted from the first slot of its cell. */
uint32_t far_dart(uint32_t n, uint32_t axis);
uint32_t near_dart(uint32_t n, uint32_t axis);

/* The sews (i, d, e) that make a grid of its free cells, three words each; gives how many words. */
size_t map_grid_sews(uint32_t n, const uint32_t size[3], uint32_t *list);

/* Sews the side of d, in a block map, to that of e by link n. */
void map_glue(uint32_t n, uint32_t *table, uint32_t d, uint32_t e);

/* Cells whose sides are sewn in pairs at random, each at a random turn; `percent` of the pairs
 * are sewn. */
void map_random(uint32_t n, uint32_t cells, uint32_t percent, uint32_t *table, uint32_t slots,
                rng *r);

/* n = 3: rings under links j0 and j1 in turn, all else free; `len` (even) darts each. */
void map_rings(uint32_t rings, uint32_t len, uint32_t j0, uint32_t j1, uint32_t *table);

/* Renumbers the slots at random, unused ones too. */
void map_shuffle(uint32_t *table, uint32_t slots, rng *r);

#endif
