/* grid.c - builds a grid of 2 x 2 x 2 hexahedra, picks a layer, cuts it, takes a half of it out,
 * undoes both, and goes on from a copy of the buffers, as a program does that saved and loaded
 * them. The table begins with just enough slots, so that the cut is refused and the table grows.
 *
 *     cc -I DIRECTORY_OF_THE_HEADER grid.c libphlernsap.a -o grid
 */
#include <stdio.h>
#include <stdlib.h>
#include <string.h>

#include "phlernsap.h"

enum { SIDE = 2, BLOCKS = SIDE * SIDE * SIDE, DARTS = 48, WORDS = 16384 };

/* All that there is to a blocking: the buffers are the state. */
typedef struct {
    uint32_t *table;
    uint8_t *marks;
    size_t slots;
    uint32_t journal[WORDS];
} blocking;

/* The tags of our steps: undo and redo give them back. */
enum step { BLOCK, SEAM, CUT, LAYER_OUT };

static const char *const step_name[] = {
    "add a block", "sew two faces", "cut a layer", "take a layer out",
};

/* Gives the table more slots. New slots are unused, and the darts that are there keep theirs. */
static void grow(blocking *b, size_t slots)
{
    b->table = realloc(b->table, 4 * slots * sizeof *b->table);
    b->marks = realloc(b->marks, slots);
    if (b->table == NULL || b->marks == NULL)
        exit(2);
    for (size_t k = 4 * b->slots; k < 4 * slots; k++)
        b->table[k] = PHL_UNUSED;
    b->slots = slots;
}

/* A journal with no steps, also to forget those that it has. */
static void forget(blocking *b)
{
    b->journal[0] = b->journal[1] = PHL_FRESH;
}

static void show(const char *call, uint32_t number, uint32_t place, uint32_t count)
{
    printf("%-26s number %u, place %u, count %u\n", call, (unsigned)number, (unsigned)place,
           (unsigned)count);
}

/* Shows an answer, and ends the program if the call was refused. */
static void accepted(const char *call, uint32_t number, uint32_t place, uint32_t count)
{
    show(call, number, place, count);
    if (number != PHL_ACCEPTED)
        exit(1);
}

static void check(const blocking *b)
{
    uint32_t place, count;
    uint32_t number = phl_check(3, b->table, 4 * b->slots, &place, &count);
    accepted("check", number, place, count);
}

/* The first dart of the block at x, y, z: blocks are added in this order, 48 slots to each. */
static uint32_t block(uint32_t x, uint32_t y, uint32_t z)
{
    return DARTS * (x + SIDE * (y + SIDE * z));
}

static void add_block(blocking *b)
{
    uint32_t place, count;
    uint32_t number = phl_add(3, b->table, 4 * b->slots, b->journal, WORDS, BLOCK, &place, &count);
    accepted("add", number, place, count);
}

static void sew(blocking *b, const char *along, uint32_t d, uint32_t e)
{
    uint32_t place, count;
    uint32_t number = phl_sew(3, b->table, 4 * b->slots, b->journal, WORDS, SEAM, 3, d, e, &place,
                              &count);
    accepted(along, number, place, count);
}

/* Dart 8p + s of a block starts at vertex s, and the last axis of its order p is the one across
 * its face. So 25 and 24 have the order yzx (p = 3), at vertex 1 on the face towards +x and at
 * vertex 0 on the face towards -x; 10 and 8 the order xzy (p = 1), at vertices 2 and 0; 4 and 0
 * the order xyz (p = 0), at vertices 4 and 0. */
static void build(blocking *b)
{
    for (int k = 0; k < BLOCKS; k++)
        add_block(b);
    for (uint32_t v = 0; v < SIDE; v++)
        for (uint32_t u = 0; u < SIDE; u++)
            for (uint32_t k = 0; k + 1 < SIDE; k++) {
                sew(b, "sew along x", block(k, u, v) + 25, block(k + 1, u, v) + 24);
                sew(b, "sew along y", block(u, k, v) + 10, block(u, k + 1, v) + 8);
                sew(b, "sew along z", block(u, v, k) + 4, block(u, v, k + 1));
            }
}

/* How many darts have each mark. */
static void show_marks(const blocking *b)
{
    unsigned of[4] = {0, 0, 0, 0};
    for (size_t d = 0; d < b->slots; d++)
        of[b->marks[d]]++;
    printf("  in the sheet %u, in its blocks beside %u, touching %u, elsewhere %u\n", of[1], of[2],
           of[3], of[0]);
}

static void undo(blocking *b)
{
    uint32_t place, count;
    uint32_t number = phl_undo(3, b->table, 4 * b->slots, b->journal, WORDS, &place, &count);
    accepted("undo", number, place, count);
    printf("  the step: %s\n", step_name[place]);
}

/* The same blocking in other memory: what is saved and loaded is table and journal as they are. */
static blocking copy(const blocking *b)
{
    blocking c = {NULL, NULL, 0, {0}};
    grow(&c, b->slots);
    memcpy(c.table, b->table, 4 * b->slots * sizeof *b->table);
    memcpy(c.journal, b->journal, sizeof b->journal);
    return c;
}

static void drop(blocking *b)
{
    free(b->table);
    free(b->marks);
}

int main(void)
{
    static blocking b, c;
    uint32_t place, count, number;

    grow(&b, BLOCKS * DARTS);
    forget(&b);
    build(&b);
    check(&b);

    number = phl_sheet(3, b.table, 4 * b.slots, b.marks, b.slots, block(0, 0, 0), &place, &count);
    accepted("sheet across x", number, place, count);
    show_marks(&b);

    number = phl_split(3, b.table, 4 * b.slots, b.marks, b.slots, b.journal, WORDS, CUT,
                       block(0, 0, 0), &place, &count);
    show("split, with no unused slot", number, place, count);
    if (number == PHL_TOO_FEW_SLOTS)
        grow(&b, 2 * b.slots);
    number = phl_split(3, b.table, 4 * b.slots, b.marks, b.slots, b.journal, WORDS, CUT,
                       block(0, 0, 0), &place, &count);
    accepted("split", number, place, count);
    check(&b);

    number = phl_remove(3, b.table, 4 * b.slots, b.marks, b.slots, b.journal, WORDS, LAYER_OUT,
                        block(0, 0, 0), &place, &count);
    accepted("remove a half", number, place, count);
    check(&b);
    undo(&b);

    c = copy(&b);
    drop(&b);
    undo(&c);
    check(&c);
    drop(&c);
    return 0;
}
