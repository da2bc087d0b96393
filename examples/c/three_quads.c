/* three_quads.c - builds three quads in a row, shows the layer of the middle one with what touches
 * it, takes the layer out, undoes two steps and does one again. The tag of a step is the place of
 * its name: undo and redo give it back. */
#include <stdio.h>
#include <stdlib.h>

#include "phlernsap.h"

enum { SLOTS = 24, ENTRIES = 4 * SLOTS, WORDS = 1024 };

static uint32_t table[ENTRIES];
static uint8_t marks[SLOTS];
static uint32_t journal[WORDS];

enum step { QUAD, SEAM, LAYER_OUT };

static const char *const step_name[] = {"add a quad", "sew two quads", "take the layer out"};

/* Prints what a call answered; ends the program if it was refused. */
static void answered(const char *call, uint32_t number, uint32_t place, uint32_t count)
{
    printf("%s: number %u, place %u, count %u\n", call, (unsigned)number, (unsigned)place, (unsigned)count);
    if (number != PHL_ACCEPTED)
        exit(1);
}

static void add_quad(void)
{
    uint32_t place, count;
    uint32_t number = phl_add(2, table, ENTRIES, journal, WORDS, QUAD, &place, &count);
    answered("add", number, place, count);
}

static void sew(uint32_t d, uint32_t e)
{
    uint32_t place, count;
    uint32_t number = phl_sew(2, table, ENTRIES, journal, WORDS, SEAM, 2, d, e, &place, &count);
    answered("sew", number, place, count);
}

/* The same of undo and redo: place is the tag, which tells the step. */
static void stepped(const char *call, uint32_t number, uint32_t place, uint32_t count)
{
    answered(call, number, place, count);
    printf("  the step: %s\n", step_name[place]);
}

/* The darts of the first quad's right edge, and where link 2 leads from them. */
static void show_edge(void)
{
    printf("  5.2 = %u, 7.2 = %u\n", (unsigned)table[4 * 5 + 2], (unsigned)table[4 * 7 + 2]);
}

/* A line for each quad: 1 in the sheet, 2 at the other darts of its cells, 3 where a dart touches. */
static void show_marks(void)
{
    for (size_t d = 0; d < SLOTS; d++)
        printf("%s%u%s", d % 8 == 0 ? "  " : "", (unsigned)marks[d], d % 8 == 7 ? "\n" : "");
}

int main(void)
{
    uint32_t place, count, number;
    for (size_t k = 0; k < ENTRIES; k++)
        table[k] = PHL_UNUSED;
    journal[0] = journal[1] = 2;

    add_quad();
    add_quad();
    add_quad();
    sew(5, 12);
    sew(13, 20);
    show_edge();

    number = phl_sheet(2, table, ENTRIES, marks, SLOTS, 8, &place, &count);
    answered("sheet of the middle quad", number, place, count);
    show_marks();

    number = phl_remove(2, table, ENTRIES, marks, SLOTS, journal, WORDS, LAYER_OUT, 8,
                        &place, &count);
    answered("remove the middle layer", number, place, count);
    show_edge();

    number = phl_undo(2, table, ENTRIES, journal, WORDS, &place, &count);
    stepped("undo", number, place, count);
    show_edge();

    number = phl_undo(2, table, ENTRIES, journal, WORDS, &place, &count);
    stepped("undo", number, place, count);

    number = phl_redo(2, table, ENTRIES, journal, WORDS, &place, &count);
    stepped("redo", number, place, count);

    number = phl_check(2, table, ENTRIES, &place, &count);
    answered("check", number, place, count);
    return 0;
}
