/* insert.c - puts a layer in along a wall: builds 3 x 2 quads, marks the edges between the two rows,
 * one after the other, until insert takes them for a wall, and draws the map before and after. Then
 * it takes the new layer out, and sees that the table is as it was.
 *
 *     cc -I DIRECTORY_OF_THE_HEADER insert.c libphlernsap.a -o insert
 */
#include <stdio.h>
#include <stdlib.h>
#include <string.h>

#include "phlernsap.h"

enum { WIDTH = 3, HEIGHT = 2, DARTS = 8, SLOTS = 72, ENTRIES = 4 * SLOTS, WORDS = 2048 };

static uint32_t table[ENTRIES], journal[WORDS];
static uint8_t marks[SLOTS];

/* The tags of our steps. */
enum step { QUAD, SEAM, LAYER_IN, LAYER_OUT };

static void show(const char *call, uint32_t number, uint32_t place, uint32_t count)
{
    printf("%s: number %u, place %u, count %u\n", call, (unsigned)number, (unsigned)place,
           (unsigned)count);
}

/* Shows an answer, and ends the program if the call was refused. */
static void accepted(const char *call, uint32_t number, uint32_t place, uint32_t count)
{
    show(call, number, place, count);
    if (number != PHL_ACCEPTED)
        exit(1);
}

static void check(void)
{
    uint32_t place, count;
    uint32_t number = phl_check(2, table, ENTRIES, &place, &count);
    accepted("check", number, place, count);
}

/* ---------------------------------------------------------------- the map */

/* The first dart of the quad at x, y: quads are added in this order, 8 slots to each. */
static uint32_t quad(uint32_t x, uint32_t y)
{
    return DARTS * (x + WIDTH * y);
}

static void sew(uint32_t d, uint32_t e)
{
    uint32_t place, count;
    uint32_t number = phl_sew(2, table, ENTRIES, journal, WORDS, SEAM, 2, d, e, &place, &count);
    if (number != PHL_ACCEPTED)
        accepted("sew", number, place, count);
}

/* A quad's edge towards +x has its darts 5 and 7, that towards -x 4 and 6, that towards +y 2 and 3,
 * that towards -y 0 and 1. */
static void build(void)
{
    uint32_t place, count;
    for (int k = 0; k < WIDTH * HEIGHT; k++) {
        uint32_t number = phl_add(2, table, ENTRIES, journal, WORDS, QUAD, &place, &count);
        if (number != PHL_ACCEPTED)
            accepted("add", number, place, count);
    }
    for (uint32_t y = 0; y < HEIGHT; y++)
        for (uint32_t x = 0; x + 1 < WIDTH; x++)
            sew(quad(x, y) + 5, quad(x + 1, y) + 4);
    for (uint32_t y = 0; y + 1 < HEIGHT; y++)
        for (uint32_t x = 0; x < WIDTH; x++)
            sew(quad(x, y) + 2, quad(x, y + 1));
}

/* ---------------------------------------------------------------- the drawing */

/* From d along some links, which are written one after the other. */
static uint32_t go(uint32_t d, const char *links)
{
    for (; *links != 0; links++)
        d = table[4 * d + (uint32_t)(*links - '0')];
    return d;
}

/* Of a quad we hold the dart at its lower left vertex along its lower edge, as dart 0 of a new quad
 * is. The name of a quad is its least dart. */
static unsigned name(uint32_t d)
{
    uint32_t least = d, e = d;
    do {
        uint32_t beside = go(e, "1");
        least = e < least ? e : least;
        least = beside < least ? beside : least;
        e = go(beside, "0");
    } while (e != d);
    return (unsigned)least;
}

/* The upper or lower edges of a row: to_edge leads to them. Marked ones, the wall, are drawn double. */
static void draw_line(uint32_t row, const char *to_edge)
{
    for (uint32_t d = row;; d = go(d, "0121")) {
        printf("%s", marks[go(d, to_edge)] ? "+=====" : "+-----");
        if (go(d, "012") == go(d, "01"))
            break;
    }
    printf("+\n");
}

static void draw_row(uint32_t row)
{
    for (uint32_t d = row;; d = go(d, "0121")) {
        printf("|%3u  ", name(d));
        if (go(d, "012") == go(d, "01"))
            break;
    }
    printf("|\n");
}

/* The rows, from the uppermost one down to that of dart 0. */
static void draw(void)
{
    uint32_t row = 0;
    while (go(row, "1012") != go(row, "101"))
        row = go(row, "1012");
    draw_line(row, "101");
    for (;;) {
        draw_row(row);
        draw_line(row, "");
        if (go(row, "2") == row)
            return;
        row = go(row, "2101");
    }
}

/* ---------------------------------------------------------------- the wall */

/* Marks the edge of d with the darts on both sides of it: what links 0 and 2 reach. */
static void mark_edge(uint32_t d)
{
    static uint8_t edge[SLOTS];
    uint32_t place, count;
    uint32_t number = phl_orbit(2, table, ENTRIES, edge, SLOTS, 5, d, &place, &count);
    if (number != PHL_ACCEPTED)
        accepted("orbit", number, place, count);
    for (size_t k = 0; k < SLOTS; k++)
        marks[k] |= edge[k];
}

int main(void)
{
    static uint32_t before[ENTRIES];
    uint32_t place, count, number;
    memset(table, 0xFF, sizeof table);          /* PHL_UNUSED in each entry */
    journal[0] = journal[1] = PHL_FRESH;
    build();
    check();
    draw();

    mark_edge(quad(0, 0) + 2);
    number = phl_insert(2, table, ENTRIES, marks, SLOTS, journal, WORDS, LAYER_IN, &place, &count);
    show("insert, where the wall ends inside", number, place, count);
    draw();
    if (number != PHL_WALL_ENDS_OR_CROSSES)
        return 1;

    for (uint32_t x = 1; x < WIDTH; x++)
        mark_edge(quad(x, 0) + 2);
    draw();
    memcpy(before, table, sizeof table);
    number = phl_insert(2, table, ENTRIES, marks, SLOTS, journal, WORDS, LAYER_IN, &place, &count);
    accepted("insert", number, place, count);
    memset(marks, 0, sizeof marks);
    check();
    draw();

    /* q of the wall's first dart h: its p is in the first new slot, and q is link 1 of that. */
    number = phl_remove(2, table, ENTRIES, marks, SLOTS, journal, WORDS, LAYER_OUT, go(place, "1"),
                        &place, &count);
    accepted("remove the new layer", number, place, count);
    memset(marks, 0, sizeof marks);
    draw();
    if (memcmp(before, table, sizeof table) != 0)
        return 1;
    printf("the table is as it was before insert\n");
    return 0;
}
