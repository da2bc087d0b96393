/* meshes.c - see meshes.h. */
#include "meshes.h"

#include <stdio.h>
#include <stdlib.h>
#include <string.h>

/* ---------------------------------------------------------------- meshes */

static mesh mesh_new(uint32_t points, uint32_t cells)
{
    mesh m = {points, cells, calloc(points, sizeof *m.places), calloc(cells, sizeof *m.corners)};
    if (!m.places || !m.corners)
        abort();
    return m;
}

void mesh_drop(mesh *m)
{
    free(m->places);
    free(m->corners);
}

static void put_place(mesh *m, uint32_t point, double x, double y, double z)
{
    m->places[point][0] = x;
    m->places[point][1] = y;
    m->places[point][2] = z;
}

/* A cell between two faces, whose vertices stand in turn. */
static void put_cell(mesh *m, uint32_t cell, const uint32_t low[4], const uint32_t high[4])
{
    for (int k = 0; k < 4; k++) {
        m->corners[cell][k] = low[k];
        m->corners[cell][4 + k] = high[k];
    }
}

/* A cell on a face, with the same again `up` points further. */
static void put_cell_on(mesh *m, uint32_t cell, const uint32_t low[4], uint32_t up)
{
    const uint32_t high[4] = {low[0] + up, low[1] + up, low[2] + up, low[3] + up};
    put_cell(m, cell, low, high);
}

mesh mesh_brick(const uint32_t size[3])
{
    uint32_t wide = size[0] + 1, up = wide * (size[1] + 1), cell = 0;
    mesh m = mesh_new(up * (size[2] + 1), size[0] * size[1] * size[2]);
    for (uint32_t p = 0; p < m.points; p++)
        put_place(&m, p, (double)(p % wide) / size[0], (double)(p / wide % (size[1] + 1)) / size[1],
                  (double)(p / up) / size[2]);
    for (uint32_t z = 0; z < size[2]; z++)
        for (uint32_t y = 0; y < size[1]; y++)
            for (uint32_t x = 0; x < size[0]; x++) {
                uint32_t p = x + wide * y + up * z;
                const uint32_t low[4] = {p, p + 1, p + wide + 1, p + wide};
                put_cell_on(&m, cell++, low, up);
            }
    return m;
}

/* The k-th point along the edge of a square of side n, from its corner 0, 0 on. */
static void along_edge(uint32_t n, uint32_t k, uint32_t at[2])
{
    uint32_t side = k / n, x = k % n;
    at[0] = side == 0 ? x : side == 1 ? n : side == 2 ? n - x : 0;
    at[1] = side == 0 ? 0 : side == 1 ? x : side == 2 ? n : n - x;
}

/* A layer of points has the square in the middle, row by row, then the rings. */
mesh mesh_pipe(uint32_t inner, uint32_t round, uint32_t length)
{
    uint32_t wide = inner + 1, around = 4 * inner, up = wide * wide + round * around, cell = 0;
    mesh m = mesh_new(up * (length + 1), (inner * inner + round * around) * length);
    for (uint32_t z = 0; z <= length; z++) {
        for (uint32_t p = 0; p < wide * wide; p++)
            put_place(&m, z * up + p, (double)(p % wide) / inner - 0.5,
                      (double)(p / wide) / inner - 0.5, z);
        for (uint32_t p = 0; p < round * around; p++) {
            uint32_t at[2];
            double out = 1 + (double)(p / around + 1) / round;
            along_edge(inner, p % around, at);
            put_place(&m, z * up + wide * wide + p, out * ((double)at[0] / inner - 0.5),
                      out * ((double)at[1] / inner - 0.5), z);
        }
    }
    for (uint32_t z = 0; z < length; z++) {
        for (uint32_t p = 0; p < inner * inner; p++) {
            uint32_t q = z * up + p % inner + wide * (p / inner);
            const uint32_t low[4] = {q, q + 1, q + wide + 1, q + wide};
            put_cell_on(&m, cell++, low, up);
        }
        for (uint32_t p = 0; p < round * around; p++) {
            uint32_t a[2], b[2], k = p % around, next = (k + 1) % around, ring = p - k;
            uint32_t first = z * up + wide * wide;
            along_edge(inner, k, a);
            along_edge(inner, next, b);
            const uint32_t low[4] = {
                p < around ? z * up + a[0] + wide * a[1] : first + ring - around + k,
                first + ring + k,
                first + ring + next,
                p < around ? z * up + b[0] + wide * b[1] : first + ring - around + next,
            };
            put_cell_on(&m, cell++, low, up);
        }
    }
    return m;
}

/* The cells stand along the edge of a square. */
mesh mesh_ring(uint32_t cells)
{
    mesh m = mesh_new(4 * cells, cells);
    for (uint32_t c = 0; c < cells; c++) {
        uint32_t a = 4 * c, b = 4 * ((c + 1) % cells), at[2];
        const uint32_t low[4] = {a, a + 1, a + 2, a + 3}, high[4] = {b, b + 1, b + 2, b + 3};
        along_edge(cells, 4 * c, at);
        for (uint32_t k = 0; k < 4; k++) {
            double out = k == 1 || k == 2 ? 2 : 1;
            put_place(&m, a + k, out * ((double)at[0] / cells - 0.5),
                      out * ((double)at[1] / cells - 0.5), k / 2);
        }
        put_cell(&m, c, low, high);
    }
    return m;
}

/* The points 0 and 1 are the edge; each cell has two points more below, and the same two above. */
mesh mesh_fan(uint32_t cells)
{
    mesh m = mesh_new(2 + 4 * cells, cells);
    put_place(&m, 1, 0, 0, 1);
    for (uint32_t c = 0; c < cells; c++) {
        uint32_t a = 2 + 4 * c, b = 2 + 4 * ((c + 1) % cells);
        const uint32_t low[4] = {0, a, a + 1, b}, high[4] = {1, a + 2, a + 3, b + 2};
        for (uint32_t k = 0; k < 4; k++) {
            uint32_t at[2];
            along_edge(2 * cells, 8 * c + 4 * (k % 2), at);
            put_place(&m, a + k, (double)at[0] / cells - 1, (double)at[1] / cells - 1, k / 2);
        }
        put_cell(&m, c, low, high);
    }
    return m;
}

mesh mesh_turned(void)
{
    mesh m = mesh_new(8, 2);
    const uint32_t low[4] = {0, 1, 2, 3}, high[4] = {4, 5, 6, 7}, turned[4] = {5, 6, 7, 4};
    for (uint32_t p = 0; p < 8; p++)
        put_place(&m, p, (p + 1) / 2 % 2, p / 2 % 2, p / 4);
    put_cell(&m, 0, low, high);
    put_cell(&m, 1, low, turned);
    return m;
}

mesh mesh_any(uint32_t points, uint32_t cells, rng *r)
{
    mesh m = mesh_new(points, cells);
    for (uint32_t p = 0; p < points; p++)
        put_place(&m, p, rng_below(r, 100) / 8.0, rng_below(r, 100) / 7.0, rng_below(r, 100));
    for (uint32_t c = 0; c < cells; c++)
        for (int k = 0; k < 8;) {
            uint32_t p = rng_below(r, points);
            int before = 0;
            while (before < k && m.corners[c][before] != p)
                before++;
            if (before == k)
                m.corners[c][k++] = p;
        }
    return m;
}

mesh mesh_some(uint32_t most, rng *r)
{
    uint32_t size[3] = {1, 1, 1};
    switch (rng_below(r, 8)) {
    case 0:
        return mesh_ring(3 + rng_below(r, most));
    case 1:
        return mesh_pipe(1, 1 + rng_below(r, 2), 1 + rng_below(r, most / 5));
    case 2:
        return mesh_pipe(2, 1, 1 + rng_below(r, most / 20));
    case 3:
        return rng_below(r, 4) == 0 ? mesh_turned() : mesh_fan(2 + rng_below(r, most));
    case 4:
    case 5:
        size[0] = 8 + rng_below(r, 8);
        return mesh_any(size[0], 1 + rng_below(r, 6), r);
    default:
        for (uint32_t axis = 0; axis < 3; axis++)
            size[axis] += rng_below(r, most / (size[0] * size[1] * size[2]));
        return mesh_brick(size);
    }
}

void mesh_spoil(mesh *m, rng *r)
{
    uint32_t c = rng_below(r, m->cells), d = rng_below(r, m->cells), from = rng_below(r, 8);
    if (rng_below(r, 3) == 0)
        m->corners[c][rng_below(r, 8)] = m->corners[c][from];
    else
        memmove(m->corners[c], m->corners[d], sizeof m->corners[c]);
}

/* ---------------------------------------------------------------- the same mesh otherwise */

/* Vertex s of a cell is listed there; and what is listed there is this vertex. */
static uint32_t listed(uint32_t s) { return s ^ (s >> 1 & 1); }

/* Lists the cell by other axes: vertex s is then the one that was vertex `turned`. */
static void turn_cell(uint32_t v[8], rng *r)
{
    uint32_t flip = rng_below(r, 8), axis[3] = {0, 1, 2}, old[8];
    for (uint32_t k = 3; k > 1; k--) {
        uint32_t other = rng_below(r, k), swap = axis[k - 1];
        axis[k - 1] = axis[other];
        axis[other] = swap;
    }
    memcpy(old, v, sizeof old);
    for (uint32_t s = 0; s < 8; s++) {
        uint32_t turned = flip;
        for (uint32_t k = 0; k < 3; k++)
            turned ^= (s >> k & 1) << axis[k];
        v[listed(s)] = old[listed(turned)];
    }
}

void mesh_shuffle(mesh *m, rng *r)
{
    uint32_t *to = malloc(m->points * sizeof *to + 1);
    double (*places)[3] = malloc(m->points * sizeof *places + 1);
    if (!to || !places)
        abort();
    for (uint32_t p = 0; p < m->points; p++) {
        uint32_t other = rng_below(r, p + 1);
        to[p] = p;
        to[p] = to[other];
        to[other] = p;
    }
    memcpy(places, m->places, m->points * sizeof *places);
    for (uint32_t p = 0; p < m->points; p++)
        memcpy(m->places[to[p]], places[p], sizeof *places);
    for (uint32_t c = 0; c < m->cells; c++) {
        uint32_t other = rng_below(r, c + 1), v[8];
        for (int k = 0; k < 8; k++)
            v[k] = to[m->corners[c][k]];
        memmove(m->corners[c], m->corners[other], sizeof v);
        turn_cell(v, r);
        memcpy(m->corners[other], v, sizeof v);
    }
    free(to);
    free(places);
}

/* ---------------------------------------------------------------- files */

const vtk_style vtk_plain = {3, "a mesh of hexahedra", NULL, 1};

enum { WORD = 32, PARTING = 3 };         /* bytes at most of a word and of what parts two */

size_t vtk_room(const mesh *m, const vtk_style *style)
{
    size_t words = 16 + 3 * (size_t)m->points + 10 * (size_t)m->cells;
    return 64 + strlen(style->title) + words * (WORD + PARTING);
}

/* What parts a word from the next one: `plain`, or anything. */
static uint8_t *part(const vtk_style *style, char plain, uint8_t *at)
{
    if (!style->partings) {
        *at++ = (uint8_t)plain;
        return at;
    }
    for (uint32_t len = 1 + rng_below(style->partings, PARTING); len > 0; len--)
        *at++ = (uint8_t)" \t\n"[rng_below(style->partings, 3)];
    return at;
}

static uint8_t *put_word(const vtk_style *style, const char *word, char plain, uint8_t *at)
{
    size_t len = strlen(word);
    memcpy(at, word, len);
    return part(style, plain, at + len);
}

static uint8_t *put_number(const vtk_style *style, uint32_t number, char plain, uint8_t *at)
{
    char word[WORD];
    snprintf(word, sizeof word, "%lu", (unsigned long)number);
    return put_word(style, word, plain, at);
}

size_t vtk_write(const mesh *m, const vtk_style *style, uint8_t *to)
{
    uint8_t *at = to;
    char word[WORD];
    at += sprintf((char *)at, "# vtk DataFile Version %d.0\n%s\n", style->version, style->title);
    at = put_word(style, "ASCII", '\n', at);
    at = put_word(style, "DATASET", ' ', at);
    at = put_word(style, "UNSTRUCTURED_GRID", '\n', at);
    at = put_word(style, "POINTS", ' ', at);
    at = put_number(style, m->points, ' ', at);
    at = put_word(style, "double", '\n', at);
    for (uint32_t p = 0; p < m->points; p++)
        for (int k = 0; k < 3; k++) {
            snprintf(word, sizeof word, "%.16g", m->places[p][k]);
            at = put_word(style, word, k == 2 ? '\n' : ' ', at);
        }
    at = put_word(style, "CELLS", ' ', at);
    at = put_number(style, m->cells, ' ', at);
    at = put_number(style, 9 * m->cells, '\n', at);
    for (uint32_t c = 0; c < m->cells; c++) {
        at = put_number(style, 8, ' ', at);
        for (int k = 0; k < 8; k++)
            at = put_number(style, m->corners[c][k], k == 7 ? '\n' : ' ', at);
    }
    at = put_word(style, "CELL_TYPES", ' ', at);
    at = put_number(style, m->cells, '\n', at);
    for (uint32_t c = 0; c < m->cells; c++)
        at = put_number(style, 12, '\n', at);
    while (!style->ends && (at[-1] == ' ' || at[-1] == '\t' || at[-1] == '\n'))
        at--;
    return (size_t)(at - to);
}

uint8_t *vtk_of_brick(const uint32_t size[3], size_t *len)
{
    mesh m = mesh_brick(size);
    uint8_t *text = malloc(vtk_room(&m, &vtk_plain));
    if (!text)
        abort();
    *len = vtk_write(&m, &vtk_plain, text);
    mesh_drop(&m);
    return text;
}

/* ---------------------------------------------------------------- damage */

typedef struct { size_t begin, end; } span;

static int is_word(const uint8_t *text, span s, const char *word)
{
    return s.end - s.begin == strlen(word) && memcmp(text + s.begin, word, s.end - s.begin) == 0;
}

/* A word of the file; most often it is none of the points. */
static span some_word(const uint8_t *text, size_t len, rng *r)
{
    span s = {0, 0};
    uint32_t words = 0, from = 0, to = 0, chosen;
    for (; vtk_next_word(text, len, &s.begin, &s.end); words++) {
        if (from == 0 && is_word(text, s, "POINTS"))
            from = words + 3;
        if (to == 0 && is_word(text, s, "CELLS"))
            to = words;
    }
    do
        chosen = rng_below(r, words);
    while (from <= chosen && chosen < to && rng_below(r, 64) != 0);
    s = (span){0, 0};
    for (uint32_t x = 0; x <= chosen; x++)
        vtk_next_word(text, len, &s.begin, &s.end);
    return s;
}

/* The word that ends last. */
static span last_word(const uint8_t *text, size_t len)
{
    span s = {0, 0}, last = {0, 0};
    while (vtk_next_word(text, len, &s.begin, &s.end))
        last = s;
    return last;
}

/* Puts other bytes in the place of the span. */
static size_t put_bytes(uint8_t *text, size_t len, span s, const void *bytes, size_t bytes_len)
{
    memmove(text + s.begin + bytes_len, text + s.end, len - s.end);
    memcpy(text + s.begin, bytes, bytes_len);
    return len - (s.end - s.begin) + bytes_len;
}

static const char *one_text(rng *r, const char *const *texts, size_t len)
{
    return texts[rng_below(r, (uint32_t)len)];
}

#define ONE_TEXT(r, texts) one_text(r, texts, sizeof(texts) / sizeof *(texts))

/* What a number, or any other word, is made. */
static void change_word(const char *word, char *to, size_t room, rng *r)
{
    static const char *const others[] = {
        "1.0", "2.0", "3.0", "3.00", "4.2", "5.1", "ASCII", "BINARY", "CELLS", "cells", "POLYDATA",
        "POINT_DATA", "12", "8", "10", "0", "1e1", "0x8", "4294967295", "4294967296",
        "18446744073709551615", "18446744073709551616", "99999999999999999999999999999999999999",
    };
    unsigned long value = strtoul(word, NULL, 10) % 1000000;
    switch (rng_below(r, 12)) {
    case 0: snprintf(to, room, "%lu", value + 1); break;
    case 1: snprintf(to, room, "%lu", value - (value > 0)); break;
    case 2: snprintf(to, room, "%lu", (unsigned long)rng_below(r, 20)); break;
    case 3: snprintf(to, room, "0%s", word); break;
    case 4: snprintf(to, room, "+%s", word); break;
    case 5: snprintf(to, room, "-%s", word); break;
    case 6: snprintf(to, room, "%s.", word); break;
    case 7: snprintf(to, room, "%llu", value + 4294967296ull); break;
    case 8: snprintf(to, room, "184467440737%08lu", value + 9551616ul); break;
    case 9: snprintf(to, room, "%s\r", word); break;
    case 10: snprintf(to, room, "%s %s", word, word); break;
    default: snprintf(to, room, "%s", ONE_TEXT(r, others));
    }
}

size_t vtk_damage(uint8_t *text, size_t len, rng *r)
{
    static const char bytes[] = "0123456789 \t\n\r\v+-.,eEx#\177\200\240\377";
    static const char *const tails[] = {
        " ", "\t \n", "\n\n\n", "\r\n", "\f", "12", "\n12\n", " 0", "\nCELL_DATA 1\n",
        "\nPOINT_DATA 1\nSCALARS a int\nLOOKUP_TABLE default\n0\n", "\nMETADATA\n",
    };
    char word[WORD], to[VTK_DAMAGE];
    span s = some_word(text, len, r), other;
    if (s.end == s.begin)
        return len;
    size_t at = s.begin + rng_below(r, (uint32_t)(s.end - s.begin + 1));
    uint8_t byte = (uint8_t)bytes[rng_below(r, sizeof bytes)];
    snprintf(word, sizeof word, "%.*s", (int)(s.end - s.begin < WORD ? s.end - s.begin : WORD - 1),
             (const char *)text + s.begin);
    switch (rng_below(r, 11)) {
    case 0:
        return put_bytes(text, len, (span){at, at + (at < len)}, &byte, 1);
    case 1:
        return put_bytes(text, len, (span){at, at + (at < len)}, "", 0);
    case 2:
        return put_bytes(text, len, (span){at, at}, &byte, 1);
    case 3:
        return at;
    case 4:
        return put_bytes(text, len, s, "", 0);
    case 5:
        other = some_word(text, len, r);
        snprintf(to, sizeof to, "%.*s",
                 (int)(other.end - other.begin < WORD ? other.end - other.begin : WORD - 1),
                 (const char *)text + other.begin);
        return put_bytes(text, len, s, to, strlen(to));
    case 6:
        snprintf(to, sizeof to, "%s", ONE_TEXT(r, tails));
        return put_bytes(text, len, (span){len, len}, to, strlen(to));
    case 7:
        snprintf(to, sizeof to, "%lu", (unsigned long)rng_below(r, 16));
        return put_bytes(text, len, last_word(text, len), to, strlen(to));
    default:
        change_word(word, to, sizeof to, r);
        return put_bytes(text, len, s, to, strlen(to));
    }
}
