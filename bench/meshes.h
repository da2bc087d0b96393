/* meshes.h - meshes of hexahedra, and VTK legacy files of them, for bench.c, stack.c and tests/c. No
 * kernel call is used here. */
#ifndef MESHES_H
#define MESHES_H

#include <stddef.h>
#include <stdint.h>

#include "maps.h"

/* The vertices of a cell are points, as a VTK file lists them. */
typedef struct {
    uint32_t points, cells;
    double (*places)[3];
    uint32_t (*corners)[8];
} mesh;

void mesh_drop(mesh *m);

/* A brick of size[0] x size[1] x size[2] cells, its sides of length 1. */
mesh mesh_brick(const uint32_t size[3]);

/* A pipe: `inner` x `inner` cells in the middle, `round` rings of cells round them, `length` times one
 * behind the other; all of these at least 1. */
mesh mesh_pipe(uint32_t inner, uint32_t round, uint32_t length);

/* A closed ring of at least three cells. */
mesh mesh_ring(uint32_t cells);

/* Cells round one edge, at least two; of two cells two faces are in common. */
mesh mesh_fan(uint32_t cells);

/* Two cells with two faces in common, on opposite sides, where the second is turned by a quarter. */
mesh mesh_turned(void);

/* Cells with vertices at random, of which there are at least eight: any two may have anything in
 * common. */
mesh mesh_any(uint32_t points, uint32_t cells, rng *r);

/* A mesh of some shape, of up to `most` cells (at least 1) or of a few. */
mesh mesh_some(uint32_t most, rng *r);

/* Lists a cell again in the place of another, or a vertex in the place of another of its cell. */
void mesh_spoil(mesh *m, rng *r);

/* The same mesh otherwise: its cells in another order, its points with other numbers, each cell listed
 * in one of its 48 ways. */
void mesh_shuffle(mesh *m, rng *r);

/* ---------------------------------------------------------------- files */

/* How a mesh is written. */
typedef struct {
    int version;                         /* 2 or 3 */
    const char *title;
    rng *partings;                       /* what parts the words: NULL as meshers write, else at random */
    int ends;                            /* whether something parts the last word from the end */
} vtk_style;

extern const vtk_style vtk_plain;

/* Bytes that a file of the mesh takes at most, without what damage adds. */
size_t vtk_room(const mesh *m, const vtk_style *style);

/* Writes the file; gives its length. */
size_t vtk_write(const mesh *m, const vtk_style *style, uint8_t *to);

/* The file of a brick, as meshers write it; the caller frees it. */
uint8_t *vtk_of_brick(const uint32_t size[3], size_t *len);

/* Finds the next word, which begins at *end or later; 0 if there is none. */
static inline int vtk_next_word(const uint8_t *text, size_t len, size_t *begin, size_t *end)
{
    size_t at = *end;
    while (at < len && (text[at] == ' ' || text[at] == '\t' || text[at] == '\n'))
        at++;
    *begin = at;
    while (at < len && text[at] != ' ' && text[at] != '\t' && text[at] != '\n')
        at++;
    *end = at;
    return *begin < at;
}

/* Damages a file in one place or another; gives its length, at most VTK_DAMAGE more than before. Most
 * often it is no point that is hit. The file may still be a good one. */
enum { VTK_DAMAGE = 64 };
size_t vtk_damage(uint8_t *text, size_t len, rng *r);

#endif
