/* orders.c - layers of maps at random, removed in either order (02, R-14): orders [SEED [MAPS]].
 *
 * Of any two layers that have no cell in common both orders must be accepted and leave the same
 * table; when the one is removed the other must have its marks 1 and 2, and its counts, as before.
 * Of those that have a cell in common nothing is promised: the program tells how many pairs whose
 * four removals are accepted leave tables that differ. */
#include <stdio.h>
#include <stdlib.h>
#include <string.h>

#include "../../bench/maps.h"
#include "../../include/phlernsap.h"

enum { CELLS = 8, SLOTS = 48 * CELLS, WORDS = 2 + 2 * (3 * 4 * SLOTS + 3) };

static uint32_t n, cells, slots, map[4 * SLOTS], table[4 * SLOTS], other[4 * SLOTS], journal[WORDS];
static uint8_t marks[SLOTS], sheet[SLOTS][SLOTS];    /* the marks of each sheet */
static uint32_t sheets, of[SLOTS];                   /* the sheet of each dart */
static unsigned long pairs, crossing, differ;

static int in_layer(uint8_t mark) { return mark == 1 || mark == 2; }

static void fault(const char *what, uint32_t d, uint32_t e)
{
    printf("layers %lu and %lu of this map: %s\n", (unsigned long)d, (unsigned long)e, what);
    for (uint32_t x = 0; x < slots; x++)
        printf("%lu: %lu %lu %lu %lu\n", (unsigned long)x, (unsigned long)map[4 * x],
               (unsigned long)map[4 * x + 1], (unsigned long)map[4 * x + 2],
               (unsigned long)map[4 * x + 3]);
    exit(1);
}

/* The count of remove at d in t, or 0 where it is refused. */
static uint32_t removed(uint32_t *t, uint32_t d)
{
    uint32_t place, count;
    return phl_remove(n, t, 4 * slots, marks, slots, journal, WORDS, 0, d, &place, &count) == 0
               ? count : 0;
}

static void start(uint32_t *t)
{
    memcpy(t, map, 16 * slots);
    journal[0] = journal[1] = PHL_FRESH;
}

static void find_sheets(void)
{
    memset(of, 0xFF, sizeof of);
    sheets = 0;
    for (uint32_t d = 0; d < slots; d++) {
        uint32_t place, count;
        if (of[d] != NONE)
            continue;
        if (phl_sheet(n, map, 4 * slots, sheet[sheets], slots, d, &place, &count) != 0)
            fault("sheet is refused", d, d);
        for (uint32_t x = 0; x < slots; x++)
            if (sheet[sheets][x] == 1) {
                if (of[x] != NONE)
                    fault("a dart is in two sheets", d, x);
                of[x] = sheets;
            }
        sheets++;
    }
}

/* In t, from which d was removed, the layer of e has its marks 1 and 2 where it had them. */
static void same_layer(const uint32_t *t, uint32_t d, uint32_t e)
{
    uint32_t place, count;
    if (phl_sheet(n, t, 4 * slots, marks, slots, e, &place, &count) != 0)
        fault("sheet of the second is refused", d, e);
    for (uint32_t x = 0; x < slots; x++) {
        uint8_t now = marks[x], was = sheet[of[e]][x];
        if ((in_layer(now) || in_layer(was)) && now != was)
            fault("the second layer is another", d, e);
    }
}

static void both_orders(uint32_t d, uint32_t e, int common)
{
    start(table);
    uint32_t one = removed(table, d);
    if (!common)
        same_layer(table, d, e);
    uint32_t two = removed(table, e);
    start(other);
    uint32_t three = removed(other, e), four = removed(other, d);
    int accepted = one && two && three && four;
    int alike = memcmp(table, other, 16 * slots) == 0;
    if (!common) {
        if (!accepted)
            fault("a removal is refused", d, e);
        if (one != four || two != three)
            fault("the counts differ", d, e);
        if (!alike)
            fault("the tables differ", d, e);
        pairs++;
    } else if (accepted) {
        crossing++;
        differ += !alike;
    }
}

/* Of two sheets each pair of cells that only one of them goes through, with a seed in each. */
static void try_sheets(uint32_t a, uint32_t b)
{
    uint32_t size = cell_darts(n), seed[2][CELLS], seeds[2] = {0, 0};
    int common = 0;
    for (uint32_t x = 0; x < slots; x++)
        common |= in_layer(sheet[a][x]) && in_layer(sheet[b][x]);
    for (uint32_t c = 0; c < cells; c++)
        for (int k = 0; k < 2; k++)
            for (uint32_t x = c * size; x < (c + 1) * size; x++)
                if (of[x] == (k ? b : a) && !in_layer(sheet[k ? a : b][x])) {
                    seed[k][seeds[k]++] = x;
                    break;
                }
    for (uint32_t i = 0; i < seeds[0]; i++)
        for (uint32_t j = 0; j < seeds[1]; j++)
            both_orders(seed[0][i], seed[1][j], common);
}

static void try_maps(uint64_t seed, unsigned long maps)
{
    pairs = crossing = differ = 0;
    slots = cell_darts(n) * cells;
    for (unsigned long k = 0; k < maps; k++) {
        rng r = rng_from(seed, 16 * k + 2 * cells + n % 2);
        map_random(n, cells, 20 + rng_below(&r, 81), map, slots, &r);
        find_sheets();
        for (uint32_t a = 0; a < sheets; a++)
            for (uint32_t b = a + 1; b < sheets; b++)
                try_sheets(a, b);
    }
    printf("%luD, %lu cells, %lu maps: %lu pairs of layers in both orders alike; of %lu with a"
           " common cell %lu differ\n",
           (unsigned long)n, (unsigned long)cells, maps, pairs, crossing, differ);
    if (pairs == 0) {
        printf("no pair of layers without a common cell came up\n");
        exit(1);
    }
}

int main(int argc, char **argv)
{
    uint64_t seed = argc > 1 ? strtoull(argv[1], NULL, 10) : 1;
    unsigned long maps = argc > 2 ? strtoul(argv[2], NULL, 10) : 1000;
    for (n = 2; n <= 3; n++)
        for (cells = 2; cells <= CELLS; cells++)
            try_maps(seed, maps);
    return 0;
}
