/* read_vtk.c - reads VTK files and tells of each what the kernel answers, how many blocks and layers
 * it has, and how many faces are free: read_vtk [FILE ..]. Without a name it reads those of ../vtk.
 *
 *     cc -I DIRECTORY_OF_THE_HEADER read_vtk.c libphlernsap.a -o read_vtk
 */
#include <stdio.h>
#include <stdlib.h>
#include <string.h>

#include "phlernsap.h"

enum { BLOCK = 48, FACE = 8, READ = 1 };         /* darts of a block, of a face; the tag of our step */

static uint32_t table[PHL_MAX_ENTRIES], journal[PHL_MAX_JOURNAL];
static uint8_t marks[PHL_MAX_SLOTS], found[PHL_MAX_SLOTS];

/* All bytes of a file; ends the program if there is none. */
static uint8_t *bytes_of(const char *name, size_t *len)
{
    FILE *file = fopen(name, "rb");
    uint8_t *text = NULL;
    long size = -1;
    if (file && fseek(file, 0, SEEK_END) == 0)
        size = ftell(file);
    if (size >= 0)
        text = malloc((size_t)size + 1);
    if (!text || fseek(file, 0, SEEK_SET) != 0 || fread(text, 1, (size_t)size, file) != (size_t)size) {
        fprintf(stderr, "%s cannot be read\n", name);
        exit(1);
    }
    fclose(file);
    *len = (size_t)size;
    return text;
}

/* The layers of the first `darts` slots, which are live: each dart is in exactly one sheet. */
static unsigned count_layers(uint32_t darts)
{
    unsigned layers = 0;
    memset(found, 0, sizeof found);
    for (uint32_t d = 0; d < darts; d++) {
        uint32_t place, count;
        if (found[d])
            continue;
        if (phl_sheet(3, table, 4 * (size_t)darts, marks, darts, d, &place, &count) != PHL_ACCEPTED)
            exit(1);
        for (uint32_t e = 0; e < darts; e++)
            found[e] |= marks[e] == 1;
        layers++;
    }
    return layers;
}

static unsigned count_free_faces(uint32_t darts)
{
    unsigned free_darts = 0;
    for (uint32_t d = 0; d < darts; d++)
        free_darts += table[4 * d + 3] == d;
    return free_darts / FACE;
}

static void read_file(const char *name)
{
    const char *last = strrchr(name, '/');
    uint32_t number, place, count;
    size_t len;
    uint8_t *text = bytes_of(name, &len);
    memset(table, 0xFF, sizeof table);           /* PHL_UNUSED in each entry */
    journal[0] = journal[1] = PHL_FRESH;
    number = phl_read_vtk(3, table, PHL_MAX_ENTRIES, journal, PHL_MAX_JOURNAL, READ, text, len,
                          &place, &count);
    free(text);
    printf("%s: number %u, place %u, count %u\n", last ? last + 1 : name, (unsigned)number,
           (unsigned)place, (unsigned)count);
    if (number == PHL_ACCEPTED)
        printf("  blocks %u, free faces %u, layers %u\n", (unsigned)count / BLOCK,
               count_free_faces(count), count_layers(count));
}

int main(int argc, char **argv)
{
    static const char *const ours[] = {
        "../vtk/brick.vtk", "../vtk/pipe.vtk", "../vtk/ring.vtk", "../vtk/two_faces.vtk",
        "../vtk/pentagon_prism.vtk", "../vtk/as_written.vtk", "../vtk/three_at_a_face.vtk",
    };
    for (int k = 1; k < argc; k++)
        read_file(argv[k]);
    for (size_t k = 0; argc < 2 && k < sizeof ours / sizeof *ours; k++)
        read_file(ours[k]);
    return 0;
}
