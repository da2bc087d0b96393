/* vtk.c - reading VTK files: vtk [SEED [MESHES]].
 *
 * Files written by hand, with the number that each must be given: every refusal, and every way in
 * which a line, a word, a count or a section can be wrong. Then files of meshes at random, whose
 * numbers and tables are worked out from the meshes: each cell by add, each pair of faces by sew. Then
 * such files with damage, ten for each mesh, of which the yardstick says what they give, and large
 * ones. The library and the yardstick must both answer so; what is refused must change nothing, and
 * what is read must go by undo and come back by redo, with its tag. Each number that the header lists
 * for read_vtk must come up. */
#include <inttypes.h>
#include <stdio.h>
#include <stdlib.h>
#include <string.h>

#include "../../bench/impl.h"
#include "../../bench/maps.h"
#include "../../bench/meshes.h"
#include "vtk_cases.h"

static const char *const numbers[] = {
#include "numbers.h"
};

DEFINE_RUN(run_yard, yard_)
DEFINE_RUN(run_library, phl_)

enum { BOTH = 2, TAG = 77, PAST_NUMBERS = 39 };

static run_fn *const runs[BOTH] = {run_yard, run_library};
static const char *const run_name[BOTH] = {"the yardstick", "the library"};

static unsigned long came_up[PAST_NUMBERS], files;

/* ---------------------------------------------------------------- texts */

static uint8_t *text;
static size_t text_len, text_room;

static void add_bytes(const void *bytes, size_t len)
{
    if (text_len + len > text_room) {
        text_room = 2 * (text_len + len);
        text = realloc(text, text_room);
        if (!text)
            abort();
    }
    memcpy(text + text_len, bytes, len);
    text_len += len;
}

static void add_text(const char *t) { add_bytes(t, strlen(t)); }

static void add_number(uint32_t number)
{
    char word[16];
    snprintf(word, sizeof word, "%" PRIu32, number);
    add_text(word);
}

/* The first place of `from` becomes `to`; without `from`, `to` stands behind all. */
static void change_bytes(const char *from, const void *to, size_t to_len)
{
    size_t from_len = from ? strlen(from) : 0, at = from ? 0 : text_len;
    while (at + from_len <= text_len && memcmp(text + at, from ? from : "", from_len) != 0)
        at++;
    if (at + from_len > text_len) {
        printf("there is no '%s' in the text\n", from);
        exit(1);
    }
    add_bytes(to, to_len);
    memmove(text + at + to_len, text + at + from_len, text_len - to_len - at - from_len);
    memcpy(text + at, to, to_len);
    text_len -= from_len;
}

static void change(const char *from, const char *to) { change_bytes(from, to, strlen(to)); }

/* ---------------------------------------------------------------- what is lent */

static uint32_t lent_table[MAX_ENTRIES + 4], lent_journal[MAX_JOURNAL + 1];
static uint32_t table[MAX_ENTRIES + 4], journal[MAX_JOURNAL + 1], first[MAX_ENTRIES];

/* Reading `text` into an empty table with a fresh journal. */
static request reading(size_t slots, size_t words)
{
    request q = {READ_VTK, 3, lent_table, 4 * slots, NULL, 0, lent_journal, words,
                 0, 0, 0, 0, TAG, NULL, 0, NULL, 0, NULL, NULL, 0};
    memset(lent_table, 0xFF, 16 * slots);
    memset(lent_journal, 9, 4 * words);
    lent_journal[0] = lent_journal[1] = PHL_FRESH;
    return q;
}

static void fail(const char *name, int who, const char *what)
{
    printf("%s, %s: %s\n", name, run_name[who], what);
    if (text_len < 4000)
        printf("%.*s\n", (int)text_len, (const char *)text);
    exit(1);
}

/* ---------------------------------------------------------------- one file */

/* Undo takes the file back, redo reads it again; the table is as read, with `count` darts. */
static void must_go_and_come(const char *name, int who, request q, uint32_t count)
{
    uint32_t place, changed, end = q.journal[0];
    memcpy(first, q.table, 4 * q.table_len);
    q.call = CHECK;
    if (runs[who](&q, &place, &changed) != 0 || changed != 2)
        fail(name, who, "no block map");
    q.call = UNDO;
    if (runs[who](&q, &place, &changed) != 0 || place != TAG || changed != 4 * count)
        fail(name, who, "undo does not take it back with its tag");
    if (memcmp(q.table, lent_table, 4 * q.table_len) != 0 || q.journal[0] != lent_journal[0])
        fail(name, who, "undo does not give the empty table back");
    q.call = REDO;
    if (runs[who](&q, &place, &changed) != 0 || place != TAG || changed != 4 * count)
        fail(name, who, "redo does not bring it with its tag");
    if (memcmp(q.table, first, 4 * q.table_len) != 0 || q.journal[0] != end)
        fail(name, who, "redo does not give the table back");
}

/* The record of a step that read so many darts. */
static void must_be_recorded(const char *name, int who, const request *q, uint32_t count)
{
    uint32_t at = lent_journal[0], k = 4 * count;
    const uint32_t *record = q->journal + at;
    if (q->journal[0] != at + PHL_RECORD_WORDS(k) || q->journal[1] != q->journal[0]
        || record[0] != k || record[1] != TAG || record[PHL_RECORD_WORDS(k) - 1] != k)
        fail(name, who, "the record's place, counts or tag");
    for (uint32_t x = 0; x < k; x++)
        if (record[2 + 3 * x] != x || record[3 + 3 * x] != NONE || record[4 + 3 * x] != q->table[x])
            fail(name, who, "a change in the record");
    if (memcmp(q->journal + 2, lent_journal + 2, 4 * (at - 2)) != 0
        || memcmp(q->journal + q->journal[0], lent_journal + q->journal[0],
                  4 * (q->journal_len - q->journal[0])) != 0)
        fail(name, who, "other words of the journal");
}

/* Both read the text on buffers as q has them and must give this answer. The table that is left must
 * be `want`, if that is not NULL, with all slots behind it unused. The text ends where its memory
 * does. */
static void must_answer(const char *name, const request *q, answer want, const uint32_t *want_table)
{
    uint8_t *exact = malloc(text_len + (text_len == 0));
    if (!exact)
        abort();
    files++;
    for (int who = 0; who < BOTH; who++) {
        request c = *q;
        answer a = {0, 9, 9};
        c.table = memcpy(table, q->table, 4 * q->table_len);
        c.journal = memcpy(journal, q->journal, 4 * q->journal_len);
        c.text = memcpy(exact, text ? text : exact, text_len);
        c.text_len = text_len;
        a.no = runs[who](&c, &a.place, &a.count);
        if (a.no != want.no || a.place != want.place || a.count != want.count) {
            printf("number %" PRIu32 " place %" PRIu32 " count %" PRIu32 ", expected number %" PRIu32
                   " place %" PRIu32 " count %" PRIu32 "\n", a.no, a.place, a.count, want.no,
                   want.place, want.count);
            fail(name, who, "another answer");
        }
        if (text_len > 0 && memcmp(exact, text, text_len) != 0)
            fail(name, who, "the text is written");
        if (a.no == 0) {
            if (want_table && memcmp(c.table, want_table, 16 * (size_t)want.count) != 0)
                fail(name, who, "the table is not that of the cells");
            if (memcmp(c.table + 4 * want.count, q->table + 4 * want.count,
                       4 * q->table_len - 16 * (size_t)want.count) != 0)
                fail(name, who, "a slot behind the cells is written");
            must_be_recorded(name, who, &c, want.count);
            must_go_and_come(name, who, c, want.count);
        } else if (memcmp(c.table, q->table, 4 * q->table_len) != 0
                   || memcmp(c.journal, q->journal, 4 * q->journal_len) != 0) {
            fail(name, who, "a refusal changes table or journal");
        }
    }
    came_up[want.no]++;
    free(exact);
}

/* The text gives this number, into so many slots and words; or so many cells are read. */
static void must_give(const char *name, size_t slots, size_t words, uint32_t number, uint32_t cells)
{
    request q = reading(slots, words);
    must_answer(name, &q, (answer){number, 0, number == 0 ? 48 * cells : 0}, NULL);
}

/* The yardstick says what the text gives, number and table; gives the number. */
static uint32_t must_be_as_yardstick(const char *name, size_t slots, size_t words)
{
    static uint32_t yard_table[MAX_ENTRIES];
    request q = reading(slots, words), c = q;
    answer a = {0, 0, 0};
    c.table = memcpy(yard_table, q.table, 4 * q.table_len);
    c.journal = memcpy(journal, q.journal, 4 * q.journal_len);
    c.text = text;
    c.text_len = text_len;
    a.no = run_yard(&c, &a.place, &a.count);
    must_answer(name, &q, a, yard_table);
    return a.no;
}

enum { SLOTS = 480, WORDS = 6000 };

/* ---------------------------------------------------------------- one cell, and what is wrong there */

static void try_edits(void)
{
    for (size_t x = 0; x < sizeof edits / sizeof *edits; x++) {
        char name[100];
        text_len = 0;
        add_text(one_cell);
        change(edits[x].from, edits[x].to);
        snprintf(name, sizeof name, "edit %zu, '%.30s' to '%.30s'", x,
                 edits[x].from ? edits[x].from : "", edits[x].to);
        must_give(name, SLOTS, WORDS, edits[x].number, 1);
    }
}

/* Every beginning of the file. Without its last LF it is one; without the last digit, of type 1. */
static void try_beginnings(void)
{
    size_t len = strlen(one_cell);
    for (size_t k = 0; k <= len; k++) {
        text_len = 0;
        add_bytes(one_cell, k);
        must_give("a beginning", SLOTS, WORDS, k + 1 >= len ? 0 : k + 2 == len ? 20 : 19, 1);
    }
}

/* Every byte is made every other one. The yardstick says what number it is; in the version line it is
 * always 19. */
static void try_bytes(void)
{
    size_t len = strlen(one_cell);
    for (size_t k = 0; k < len; k++)
        for (int byte = 0; byte < 256; byte++) {
            text_len = 0;
            add_bytes(one_cell, len);
            text[k] = (uint8_t)byte;
            uint32_t no = must_be_as_yardstick("a byte changed", SLOTS, WORDS);
            int in_line = k < strlen("# vtk DataFile Version 3.0\n");
            int same = byte == one_cell[k] || (k == 23 && byte == '2');
            if (in_line && no != (same ? 0 : 19))
                fail("a byte of the version line", 0, "is not seen");
        }
}

/* CR before each LF; NUL bytes; words and titles of a megabyte. */
static void try_bytes_and_lengths(void)
{
    enum { MEGABYTE = 1 << 20 };
    static char many[MEGABYTE + 1];
    text_len = 0;
    for (const char *at = one_cell; *at != 0; at++) {
        if (*at == '\n')
            add_text("\r");
        add_bytes(at, 1);
    }
    must_give("CRLF", SLOTS, WORDS, 19, 1);

    text_len = 0;
    must_give("no bytes", SLOTS, WORDS, 19, 1);
    add_bytes("\0", 1);
    must_give("NUL", SLOTS, WORDS, 19, 1);
    static const struct { const char *from, *to; size_t len; uint32_t number; } nuls[] = {
        {"one cell\n", "o\0e\n", 4, 0},     {"0 0 0\n", "0 \0 0\n", 6, 0},
        {"0 0 0\n", "0 0 0\0\n", 7, 0},     {"0 0 0\n", "0 0\0" "0\n", 6, 19},
        {"float\n", "\0\n", 2, 0},          {"ASCII\n", "ASCII\0\n", 7, 19},
        {"ASCII\n", "ASCII\0", 6, 19},      {"8 0 1", "8 0\0 1", 6, 19},
        {"8 0 1", "8\0" "0 1", 5, 19},      {"12\n", "12\0", 3, 19},
        {"12\n", "12\n\0", 4, 19},          {"12\n", "1\0" "2\n", 4, 19},
        {"POINTS 8", "POINTS 8\0", 9, 19},  {"3.0\n", "3.0\0\n", 5, 19},
        {"CELLS", "CELLS\0", 6, 19},        {"CELL_TYPES", "CELL_TYPES\0", 11, 19},
    };
    for (size_t x = 0; x < sizeof nuls / sizeof *nuls; x++) {
        text_len = 0;
        add_text(one_cell);
        change_bytes(nuls[x].from, nuls[x].to, nuls[x].len);
        must_give("NUL in it", SLOTS, WORDS, nuls[x].number, 1);
    }

    static const struct { const char *from, *before; uint32_t number; } places[] = {
        {"one cell", "", 0},          {"float", "", 0},           {"0 0 0", "0 0 ", 0},
        {"ASCII", "", 19},            {"POINTS 8", "POINTS ", 19}, {"CELLS 1", "CELLS ", 19},
        {"CELLS 1 9", "CELLS 1 ", 19}, {"8 0 1", "", 19},          {"8 0 1", "8 0 ", 19},
        {"CELL_TYPES 1", "CELL_TYPES ", 19}, {"12\n", "", 20},     {NULL, "", 19},
    };
    for (size_t x = 0; x < sizeof places / sizeof *places; x++) {
        size_t before = strlen(places[x].before);
        memcpy(many, places[x].before, before);
        memset(many + before, '7', MEGABYTE - before);
        text_len = 0;
        add_text(one_cell);
        change(places[x].from, many);
        must_give("a word of a megabyte", SLOTS, WORDS, places[x].number, 1);
    }
}

/* ---------------------------------------------------------------- several cells */

/* A file with these rows and types, parted by blanks; its counts are those of the words. */
static void write_rows(uint32_t points, const char *rows, const char *types)
{
    uint32_t words = 0, cells = 0;
    size_t begin, end = 0;
    while (vtk_next_word((const uint8_t *)rows, strlen(rows), &begin, &end))
        words++;
    for (end = 0; vtk_next_word((const uint8_t *)types, strlen(types), &begin, &end);)
        cells++;
    text_len = 0;
    add_text("# vtk DataFile Version 2.0\n\nASCII DATASET UNSTRUCTURED_GRID POINTS ");
    add_number(points);
    add_text(" float\n");
    for (uint32_t p = 0; p < points; p++)
        add_text("0 0 0\n");
    add_text("CELLS ");
    add_number(cells);
    add_text(" ");
    add_number(words);
    add_text("\n");
    add_text(rows);
    add_text("\nCELL_TYPES ");
    add_number(cells);
    add_text("\n");
    add_text(types);
    add_text("\n");
}

/* ---------------------------------------------------------------- what a mesh makes, in plain words */

/* The points at the vertex of dart k of a cell, at the other end of its edge, and at the corners of
 * its face, which the links 0 and 1 go round. */
static uint32_t vertex(const uint32_t v[8], uint32_t k)
{
    static const int listed[8] = {0, 1, 3, 2, 4, 5, 7, 6};      /* s is listed there */
    return v[listed[k % 8]];
}

static uint32_t other_end(const uint32_t v[8], uint32_t k) { return vertex(v, cell_link(3, k, 0)); }

static void round_face(const uint32_t v[8], uint32_t k, uint32_t ring[4])
{
    for (int x = 0; x < 4; x++) {
        ring[x] = vertex(v, k);
        k = cell_link(3, cell_link(3, k, 0), 1);
    }
}

static int same_vertices(const uint32_t a[4], const uint32_t b[4])
{
    int found = 0;
    for (int x = 0; x < 4; x++)
        for (int y = 0; y < 4; y++)
            found += a[x] == b[y];
    return found == 4;                                          /* no vertex is repeated */
}

/* Whether what is opposite in the one is opposite in the other; the vertices are the same. */
static int same_order(const uint32_t a[4], const uint32_t b[4])
{
    int x = 0;
    while (b[x] != a[0])
        x++;
    return b[(x + 2) % 4] == a[2];
}

/* One dart of each face. */
static const uint32_t face_dart[6] = {0, 4, 8, 10, 24, 25};

/* The number from 21 on that the mesh is given by itself, or 0. */
static uint32_t judge(const mesh *m)
{
    int three = 0, turned = 0;
    for (uint32_t c = 0; c < m->cells; c++)
        for (int x = 0; x < 8; x++)
            for (int y = 0; y < x; y++)
                if (m->corners[c][x] == m->corners[c][y])
                    return 21;
    for (uint32_t face = 0; face < 6 * m->cells; face++) {
        int alike = 0;
        uint32_t a[4], b[4];
        round_face(m->corners[face / 6], face_dart[face % 6], a);
        for (uint32_t other = 0; other < 6 * m->cells; other++) {
            round_face(m->corners[other / 6], face_dart[other % 6], b);
            if (same_vertices(a, b)) {
                alike++;
                turned |= !same_order(a, b);
            }
        }
        three |= alike >= 3;
    }
    return three ? 22 : turned ? 23 : 0;
}

/* The table of the mesh: each cell by add; then for any two darts at the same vertex and edge, in faces
 * with the same vertices, their faces by sew, unless that is done. */
static void make_by_hand(const mesh *m, uint32_t *to)
{
    static uint32_t steps[MAX_JOURNAL];
    size_t slots = 48 * (size_t)m->cells;
    uint32_t place, count;
    memset(to, 0xFF, 16 * slots);
    steps[0] = steps[1] = PHL_FRESH;
    for (uint32_t c = 0; c < m->cells; c++)
        if (phl_add(3, to, 4 * slots, steps, MAX_JOURNAL, 0, &place, &count) != 0)
            fail("add", 1, "is refused");
    for (uint32_t d = 0; d < slots; d++)
        for (uint32_t e = d / 48 * 48 + 48; e < slots; e++) {
            const uint32_t *v = m->corners[d / 48], *w = m->corners[e / 48];
            uint32_t a[4], b[4];
            if (vertex(v, d % 48) != vertex(w, e % 48)
                || other_end(v, d % 48) != other_end(w, e % 48))
                continue;
            round_face(v, d % 48, a);
            round_face(w, e % 48, b);
            if (!same_vertices(a, b) || to[4 * d + 3] == e)
                continue;
            if (phl_sew(3, to, 4 * slots, steps, MAX_JOURNAL, 0, 3, d, e, &place, &count) != 0)
                fail("sew", 1, "is refused");
        }
}

/* The text, which is of this mesh and has nothing else that is wrong, into so many slots and words. */
static void must_read_mesh(const char *name, const mesh *m, size_t slots, size_t words)
{
    static uint32_t by_hand[MAX_ENTRIES];
    request q = reading(slots, words);
    uint32_t no = judge(m);
    if (no == 0 && 48 * (size_t)m->cells > slots)
        no = 14;
    if (no == 0 && 576 * (size_t)m->cells + 3 > words - 2)
        no = 15;
    if (no == 0)
        make_by_hand(m, by_hand);
    must_answer(name, &q, (answer){no, 0, no == 0 ? 48 * m->cells : 0}, no == 0 ? by_hand : NULL);
}

static void try_meshes_by_hand(void)
{
    for (size_t x = 0; x < sizeof meshes / sizeof *meshes; x++) {
        uint32_t corners[5][8], number = meshes[x].number;
        mesh m = {24, meshes[x].cells, NULL, corners};
        const char *at = meshes[x].rows;
        write_rows(24, meshes[x].rows, meshes[x].types);
        must_give(meshes[x].rows, SLOTS, WORDS, number, m.cells);
        for (uint32_t k = 0; number == 0 && k < 9 * m.cells; k++) {
            uint32_t word = (uint32_t)strtoul(at, (char **)&at, 10);
            if (k % 9 > 0)
                corners[k / 9][k % 9 - 1] = word;
        }
        if (number == 0)
            must_read_mesh(meshes[x].rows, &m, SLOTS, WORDS);
        /* 14 and 15 come last */
        must_give(meshes[x].rows, 47, 2, number == 0 ? 14 : number, 0);
        must_give(meshes[x].rows, SLOTS, 2, number == 0 ? 15 : number, 0);
    }
    /* a file without points: a row without numbers is of the form, of another type than 12 */
    write_rows(0, "0", "7");
    must_give("no points", SLOTS, WORDS, 20, 0);
    write_rows(0, "0", "12");
    must_give("no points", SLOTS, WORDS, 19, 0);
    write_rows(0, "1 0", "1");
    must_give("no points", SLOTS, WORDS, 19, 0);
    /* any two of the eight vertices alike */
    for (uint32_t x = 0; x < 64; x++) {
        char row[] = "8 0 1 2 3 4 5 6 7";
        row[2 + 2 * (x / 8)] = (char)('0' + x % 8);
        write_rows(8, row, "12");
        must_give("a vertex repeated", SLOTS, WORDS, x / 8 == x % 8 ? 0 : 21, 1);
    }
    /* of the cell that is there twice each face is sewn */
    write_rows(8, HEX HEX, "12 12");
    request q = reading(96, WORDS);
    answer a = {0, 0, 0};
    q.text = text;
    q.text_len = text_len;
    a.no = run_library(&q, &a.place, &a.count);
    for (uint32_t d = 0; d < 96; d++)
        if (a.no != 0 || lent_table[4 * d + 3] != (d + 48) % 96)
            fail("the same cell twice", 1, "a face is not sewn to its own");
}

/* ---------------------------------------------------------------- what stands before the text */

/* The same text, and a bad one, on these buffers. */
static void must_refuse(const char *name, const request *q, answer want)
{
    text_len = 0;
    add_text(one_cell);
    must_answer(name, q, want, NULL);
    add_text("x");
    must_answer(name, q, want, NULL);
}

static void try_buffers(void)
{
    static const uint32_t dimensions[] = {0, 1, 2, 4, 9, NONE};
    request q = reading(SLOTS, WORDS);
    for (size_t x = 0; x < sizeof dimensions / sizeof *dimensions; x++) {
        q.n = dimensions[x];
        must_refuse("dimension", &q, (answer){1, 0, 0});
    }
    q.table_len = 5;
    q.journal_len = 0;
    q.n = 2;
    must_refuse("2D, and all else bad", &q, (answer){1, 0, 0});
    q.n = 3;
    must_refuse("entries", &q, (answer){2, 0, 0});
    q = reading(MAX_SLOTS, WORDS);
    q.table_len += 4;
    must_refuse("too many entries", &q, (answer){2, 0, 0});
    for (size_t words = 0; words < 2; words++) {
        q = reading(SLOTS, words + 2);
        q.journal_len = words;
        lent_table[7] = 0;
        must_refuse("words", &q, (answer){4, 0, 0});
    }
    q = reading(SLOTS, WORDS);
    lent_journal[0] = 3;
    must_refuse("cursor behind the end", &q, (answer){4, 0, 0});
    lent_journal[0] = lent_journal[1] = WORDS + 1;
    must_refuse("end behind all", &q, (answer){4, 0, 0});

    /* tables that are no maps; one that is not empty */
    q = reading(SLOTS, WORDS);
    lent_table[4 * 7 + 2] = 0;
    must_refuse("half used", &q, (answer){5, 7, 0});
    for (uint32_t i = 0; i < 4; i++)
        lent_table[4 * 7 + i] = 7;
    must_refuse("a dart", &q, (answer){18, 0, 0});
    for (uint32_t i = 0; i < 4; i++)
        lent_table[4 * 8 + i] = 8;
    lent_table[4 * 7 + 1] = 8;
    must_refuse("not returned", &q, (answer){24, 7, 1});
    lent_table[4 * 8 + 1] = 7;
    must_refuse("two darts", &q, (answer){18, 0, 0});
    for (uint32_t d = 9; d < 11; d++)
        for (uint32_t i = 0; i < 4; i++)
            lent_table[4 * d + i] = d;
    lent_table[4 * 8 + 3] = 9;
    lent_table[4 * 9 + 3] = 8;
    must_refuse("a pair", &q, (answer){25, 7, 1});
    q = reading(SLOTS, WORDS);
    map_cells(3, 1, lent_table + 4 * (SLOTS - 48), 48);
    for (uint32_t x = 4 * (SLOTS - 48); x < 4 * SLOTS; x++)
        lent_table[x] += SLOTS - 48;
    must_refuse("a cell in the last slots", &q, (answer){18, 0, 0});

    /* room: just enough, and one too few; 14 before 15 */
    text_len = 0;
    add_text(one_cell);
    must_give("no slots", 0, WORDS, 14, 0);
    must_give("47 slots", 47, WORDS, 14, 0);
    must_give("47 slots and no words", 47, 2, 14, 0);
    must_give("48 slots", 48, WORDS, 0, 1);
    must_give("580 words", 48, 580, 15, 0);
    must_give("581 words", 48, 581, 0, 1);
    /* steps stand before, and one that is undone gives way */
    q = reading(48, 10 + 579);
    lent_journal[0] = lent_journal[1] = 10;
    must_answer("words before the cursor", &q, (answer){0, 0, 48}, NULL);
    q.journal_len--;
    must_answer("words before the cursor, one too few", &q, (answer){15, 0, 0}, NULL);
    q = reading(48, 2000);
    lent_journal[1] = 1999;
    must_answer("words behind the cursor", &q, (answer){0, 0, 48}, NULL);
}

/* ---------------------------------------------------------------- meshes at random */

enum { MOST_CELLS = 16 };

static void write_mesh(const mesh *m, const vtk_style *style)
{
    size_t room = vtk_room(m, style);
    text_len = 0;
    if (text_room < room) {
        free(text);
        text_room = room;
        text = malloc(room);
        if (!text)
            abort();
    }
    text_len = vtk_write(m, style, text);
}

static void try_random_meshes(uint64_t seed, unsigned long count)
{
    for (unsigned long x = 0; x < count; x++) {
        rng r = rng_from(seed, x);
        mesh m = mesh_some(MOST_CELLS, &r);
        vtk_style style = {2 + (int)rng_below(&r, 2), "at random", rng_below(&r, 2) ? &r : NULL,
                           rng_below(&r, 4) != 0};
        size_t slots = 48 * (size_t)m.cells + rng_below(&r, 100);
        size_t words = 5 + 576 * (size_t)m.cells + rng_below(&r, 100);
        char name[64];
        while (rng_below(&r, 4) == 0)
            mesh_spoil(&m, &r);
        if (rng_below(&r, 4) != 0)
            mesh_shuffle(&m, &r);
        if (rng_below(&r, 8) == 0)
            slots = 48 * (size_t)m.cells - 1 - rng_below(&r, 48);
        if (rng_below(&r, 8) == 0)
            words = 4 + 576 * (size_t)m.cells - rng_below(&r, 576);
        write_mesh(&m, &style);
        snprintf(name, sizeof name, "seed %" PRIu64 ", mesh %lu", seed, x);
        must_read_mesh(name, &m, slots, words);
        mesh_drop(&m);
    }
}

/* Files with damage here and there. */
static void try_damage(uint64_t seed, unsigned long count)
{
    for (unsigned long x = 0; x < count; x++) {
        rng r = rng_from(seed, UINT64_C(1) << 40 | x);
        mesh m = mesh_some(MOST_CELLS, &r);
        vtk_style style = {2 + (int)rng_below(&r, 2), "damaged", rng_below(&r, 2) ? &r : NULL, 1};
        size_t cells = m.cells;
        char name[64];
        write_mesh(&m, &style);
        mesh_drop(&m);
        do {
            uint8_t room[VTK_DAMAGE] = {0};
            add_bytes(room, sizeof room);
            text_len = vtk_damage(text, text_len - sizeof room, &r);
        } while (rng_below(&r, 3) == 0);
        snprintf(name, sizeof name, "seed %" PRIu64 ", damage %lu", seed, x);
        must_be_as_yardstick(name, 48 * cells + 48, 5 + 576 * cells + 576);
    }
}

/* ---------------------------------------------------------------- large files */

/* The text has as many cells as any table takes, or far more; it is given the number by itself. */
static void must_judge(const char *name, const mesh *m, uint32_t number)
{
    write_mesh(m, &vtk_plain);
    must_give(name, MAX_SLOTS, MAX_JOURNAL, number, m->cells);
}

static void try_large(void)
{
    static const uint32_t full[3] = {13, 15, 7}, one_more[3] = {2, 683, 1}, far_more[3] = {50, 50, 40};
    static uint32_t grid[MAX_ENTRIES];
    mesh m = mesh_brick(full);
    write_mesh(&m, &vtk_plain);
    map_grid(3, full, grid, MAX_SLOTS);
    request q = reading(MAX_SLOTS, MAX_JOURNAL);
    must_answer("1,365 cells", &q, (answer){0, 0, 65520}, grid);
    mesh_drop(&m);

    m = mesh_brick(one_more);
    must_judge("1,366 cells", &m, 14);
    mesh_drop(&m);

    /* 20 to 23 are told in a file of any length, wherever the cells stand */
    m = mesh_brick(far_more);
    uint32_t last = m.cells - 1, kept[8];
    must_judge("100,000 cells", &m, 14);
    memcpy(kept, m.corners[last], sizeof kept);
    memcpy(m.corners[last], m.corners[0], sizeof kept);
    must_judge("100,000 cells, the first again as the last", &m, 22);
    memcpy(m.corners[last], kept, sizeof kept);
    m.corners[last][0] = m.corners[last][6];
    must_judge("100,000 cells, a vertex repeated in the last", &m, 21);
    memcpy(m.corners[last], kept, sizeof kept);
    /* the last cell turned over its face towards the one before: 0 3 4 7 as listed, two exchanged */
    m.corners[last][0] = kept[3];
    m.corners[last][3] = kept[0];
    must_judge("100,000 cells, a face of the last in another order", &m, 23);
    memcpy(m.corners[last], kept, sizeof kept);
    write_mesh(&m, &vtk_plain);
    text[text_len - 2] = '3';
    must_give("100,000 cells, the last of type 13", MAX_SLOTS, MAX_JOURNAL, 20, 0);
    text[text_len - 2] = 'x';
    must_give("100,000 cells, no type at the end", MAX_SLOTS, MAX_JOURNAL, 19, 0);
    mesh_drop(&m);

    /* all cells have an edge in common; or all is */
    m = mesh_fan(100000);
    must_judge("100,000 cells round an edge", &m, 14);
    for (uint32_t c = 0; c < m.cells; c++)
        memcpy(m.corners[c], m.corners[0], sizeof m.corners[c]);
    must_judge("the same cell 100,000 times", &m, 22);
    mesh_drop(&m);
}

/* A word, so many times. */
static void add_times(const char *word, uint32_t times)
{
    for (; times > 0; times--)
        add_text(word);
}

/* Many words of one kind. */
static void try_many(void)
{
    enum { MANY = 300000 };
    static const struct { uint32_t last; uint32_t number; } ends[] = {{7, 20}, {12, 19}};
    for (int x = 0; x < 2; x++) {
        /* rows without numbers, and the last of this type */
        text_len = 0;
        add_text("# vtk DataFile Version 3.0\n\nASCII DATASET UNSTRUCTURED_GRID POINTS 0 float\n");
        add_text("CELLS 300000 300000\n");
        add_times("0\n", MANY);
        add_text("CELL_TYPES 300000\n");
        add_times("7 ", MANY - 1);
        add_number(ends[x].last);
        must_give("rows without numbers", SLOTS, WORDS, ends[x].number, 0);
        /* one row of many */
        text_len = 0;
        add_text("# vtk DataFile Version 3.0\n\nASCII DATASET UNSTRUCTURED_GRID POINTS 1 float\n0 0 0\n");
        add_text("CELLS 1 300001\n300000");
        add_times(" 0", MANY);
        add_text("\nCELL_TYPES 1\n");
        add_number(ends[x].last);
        must_give("a row of many numbers", SLOTS, WORDS, ends[x].number, 0);
    }
    /* points that no cell has, and blanks */
    text_len = 0;
    add_text("# vtk DataFile Version 3.0\n\n");
    add_times(" \t\n", MANY);
    add_text("ASCII DATASET UNSTRUCTURED_GRID POINTS 300000 float");
    add_times(" 0.5 -1e-9 3\n", MANY);
    add_text("CELLS 1 9\n8 0 1 2 3 4 5 6 299999\nCELL_TYPES 1\n12\n");
    must_give("many points", SLOTS, WORDS, 0, 1);
    change("299999", "300000");
    must_give("many points, and one beyond them", SLOTS, WORDS, 19, 0);
}

/* ---------------------------------------------------------------- the report */

int main(int argc, char **argv)
{
    uint64_t seed = argc > 1 ? strtoull(argv[1], NULL, 10) : 1;
    unsigned long count = argc > 2 ? strtoul(argv[2], NULL, 10) : 2000;
    int complete = 1;
    try_edits();
    try_beginnings();
    try_bytes();
    try_bytes_and_lengths();
    try_meshes_by_hand();
    try_buffers();
    try_random_meshes(seed, count);
    try_damage(seed, 10 * count);
    try_large();
    try_many();
    printf("%lu files read; how often each number was given:", files);
    for (uint32_t no = 0; no < PAST_NUMBERS; no++) {
        char word[16];
        snprintf(word, sizeof word, " %" PRIu32 " ", no);
        if (no != 0 && strstr(numbers[READ_VTK], word) == NULL)
            continue;
        printf(" %" PRIu32 ": %lu", no, came_up[no]);
        complete &= came_up[no] > 0;
    }
    printf("\n");
    if (!complete)
        printf("a number that the header lists never came up\n");
    return !complete;
}
