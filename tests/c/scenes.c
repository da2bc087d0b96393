/* scenes.c - see scenes.h. */
#include "scenes.h"

#include <string.h>

/* The longest list, and two words behind it that make it no list of items. */
enum { MOST_ITEMS = 40, LIST_ROOM = 3 * MOST_ITEMS + 2 };

static uint32_t table[TABLE_ROOM], journal[JOURNAL_ROOM], list[LIST_ROOM], queue[TABLE_ROOM];
static uint8_t marks[MARKS_ROOM], text[TEXT_ROOM];

static uint32_t slots_of(const request *q) { return (uint32_t)(q->table_len / 4); }

/* ---------------------------------------------------------------- drawing */

int one_in(rng *r, uint32_t times) { return rng_below(r, times) == 0; }

static uint32_t any(rng *r) { return (uint32_t)rng_next(r); }

static uint32_t one_of(rng *r, const uint32_t *values, size_t len)
{
    return values[rng_below(r, (uint32_t)len)];
}

/* Of the values at most one is drawn itself: C does not say in which order they are worked out. */
#define ONE_OF(r, ...)                                                                            \
    one_of(r, (const uint32_t[]){__VA_ARGS__}, sizeof((const uint32_t[]){__VA_ARGS__}) / 4)

/* ---------------------------------------------------------------- tables */

/* Sews the far end of a grid to its near end along an axis; for n = 2 it may be turned over, so that
 * a twisted band is made. */
static void close_grid(uint32_t n, const uint32_t size[3], uint32_t axis, int turned, uint32_t *to)
{
    const uint32_t step[3] = {1, size[0], size[0] * size[1]};
    for (uint32_t c = 0; c < size[0] * size[1] * size[2]; c++) {
        uint32_t at[3] = {c % size[0], c / step[1] % size[1], c / step[2]};
        uint32_t d = cell_darts(n) * c + far_dart(n, axis), first, e;
        if (at[axis] + 1 != size[axis])
            continue;
        at[axis] = 0;
        if (turned)
            at[1 - axis] = size[1 - axis] - 1 - at[1 - axis];
        first = at[0] + step[1] * at[1] + step[2] * at[2];
        e = cell_darts(n) * first + near_dart(n, axis);
        map_glue(n, to, d, turned ? to[4 * e] : e);
    }
}

static void make_grid(uint32_t n, uint32_t cells, uint32_t *to, uint32_t slots, rng *r)
{
    uint32_t size[3] = {1, 1, 1};
    for (uint32_t axis = 0; axis < n; axis++)
        size[axis] += rng_below(r, cells / (size[0] * size[1] * size[2]));
    map_grid(n, size, to, slots);
    for (uint32_t axis = 0; axis < n; axis++)
        if (one_in(r, 4))
            close_grid(n, size, axis, n == 2 && one_in(r, 2), to);
}

/* Two rings or more, long or short, which two links make. The first two may be sewn, if they are
 * faces; else some rings may be cut, and are paths then. */
static void make_rings(uint32_t n, uint32_t *to, uint32_t slots, rng *r)
{
    uint32_t most = slots / 4, j = n == 3 ? ONE_OF(r, 0, 0, 0, 1, 2) : rng_below(r, 2);
    uint32_t len = 2 * (one_in(r, 4) ? most : 1 + rng_below(r, most >> rng_below(r, 8)));
    map_rings(slots / len, len, j, j + 1, to);
    if (n == 3 && j == 0 && one_in(r, 2)) {
        map_glue(3, to, 0, len);
        return;
    }
    for (uint32_t cuts = ONE_OF(r, 0, 0, 1, 2); cuts > 0; cuts--) {
        uint32_t *link = to + j + rng_below(r, 2);
        uint32_t x = rng_below(r, slots / len * len), y = link[4 * x];
        link[4 * x] = x;
        link[4 * y] = y;
    }
}

/* A chain of cells, in each of which two sides are sewn so that its axes are joined: one sheet has
 * every dart. */
static void make_wound(uint32_t n, uint32_t cells, uint32_t *to, uint32_t slots)
{
    uint32_t k = cell_darts(n);
    map_cells(n, cells, to, slots);
    for (uint32_t c = 0; c < cells; c++) {
        /* The side +y to -x, for n = 3 to +z: x goes on as y, and z as x. */
        map_glue(n, to, k * c + (n == 2 ? 2 : 10), k * c + (n == 2 ? 4 : 20));
        if (c + 1 < cells)
            map_glue(n, to, k * c + (n == 2 ? 5 : 25), k * (c + 1) + (n == 2 ? 0 : 24));
    }
}

/* In a map of cells a side is sewn onto itself, so that it is folded; or not even a map is left. */
static void fold(uint32_t n, uint32_t cells, uint32_t *to, rng *r)
{
    uint32_t d = rng_below(r, cells * cell_darts(n)), e = d;
    uint32_t steps = n == 2 ? 1 : 1 + rng_below(r, 7);
    if (to[4 * d + n] != d)
        return;
    for (uint32_t t = 0; t < steps; t++)
        e = to[4 * e + t % 2];
    map_glue(n, to, d, e);
}

/* Each link leads there and back, but pairs need not commute. */
static void make_matches(uint32_t n, uint32_t *to, uint32_t slots, rng *r)
{
    for (uint32_t x = 0; x < 4 * slots; x++)
        to[x] = x / 4;
    for (uint32_t t = 0; t < slots * (n + 1) / 2; t++) {
        uint32_t d = rng_below(r, slots), e = rng_below(r, slots), i = rng_below(r, n + 1);
        if (to[4 * d + i] == d && to[4 * e + i] == e) {
            to[4 * d + i] = e;
            to[4 * e + i] = d;
        }
    }
}

/* Darts that are free for every link, with unused slots between them. */
static void make_loose(uint32_t *to, uint32_t slots, rng *r)
{
    uint32_t of = ONE_OF(r, 2, 8, 100);
    for (uint32_t d = 0; d < slots; d++) {
        if (one_in(r, of))
            continue;
        for (uint32_t i = 0; i < 4; i++)
            to[4 * d + i] = d;
    }
}

static void make_numbers(uint32_t *to, uint32_t slots, rng *r)
{
    for (uint32_t x = 0; x < 4 * slots; x++)
        to[x] = one_in(r, 8) ? NONE : rng_below(r, slots + 1);
}

enum kind { EMPTY, RINGS, MATCHES, LOOSE, NUMBERS, GRID, RANDOM, WOUND };

/* A table of one kind or another; mostly a map. */
static void make_table(uint32_t n, uint32_t cells, uint32_t *to, uint32_t slots, rng *r)
{
    enum kind kind = cells == 0  ? ONE_OF(r, EMPTY, RINGS, MATCHES, LOOSE, NUMBERS)
                   : slots < 500 ? ONE_OF(r, EMPTY, EMPTY, RINGS, MATCHES, LOOSE, LOOSE, NUMBERS,
                                          GRID, GRID, GRID, RANDOM, RANDOM, RANDOM, RANDOM,
                                          WOUND)
                   : ONE_OF(r, EMPTY, RINGS, RINGS, RINGS, LOOSE, GRID, GRID, RANDOM, RANDOM,
                            WOUND);
    map_clear(to, slots);
    if (kind == RINGS && slots >= 4)
        make_rings(n, to, slots, r);
    else if (kind == MATCHES)
        make_matches(n, to, rng_below(r, slots < 12 ? slots + 1 : 12), r);
    else if (kind == LOOSE)
        make_loose(to, slots, r);
    else if (kind == NUMBERS)
        make_numbers(to, slots, r);
    else if (kind == GRID)
        make_grid(n, cells, to, slots, r);
    else if (kind == RANDOM)
        map_random(n, cells, ONE_OF(r, 0, 50, 80, 100), to, slots, r);
    else if (kind == WOUND)
        make_wound(n, cells, to, slots);
    if ((kind == GRID || kind == RANDOM) && one_in(r, 8))
        fold(n, cells, to, r);
    if (one_in(r, 3))
        map_shuffle(to, slots, r);
}

/* ---------------------------------------------------------------- journals */

static void make_fresh_journal(request *q, uint32_t about, rng *r)
{
    q->journal_len = about > 0 ? ONE_OF(r, 4000, PHL_ANY_STEP, PHL_MAX_JOURNAL)
                   : q->n == 2 ? ONE_OF(r, 2, 3, 100, 300, 1000, 3000)
                               : ONE_OF(r, 2, 600, 1200, 3000, 6000, 6000);
    memset(journal, 9, 4 * q->journal_len);
    for (uint32_t x = 2; x < 100; x++)
        journal[x] = rng_below(r, 4);
    journal[0] = journal[1] = PHL_FRESH;
}

/* The table with a few links changed. */
static void make_near(const request *q, uint32_t *to, rng *r)
{
    uint32_t slots = slots_of(q);
    memcpy(to, table, 4 * q->table_len);
    for (uint32_t changes = 1 + rng_below(r, 2); changes > 0 && slots > 0; changes--) {
        uint32_t d = rng_below(r, slots), i = rng_below(r, q->n + 1), e = rng_below(r, slots);
        uint32_t old = to[4 * d + i];
        to[4 * d + i] = ONE_OF(r, d, d, e, NONE);
        if (one_in(r, 2) && old < slots)
            to[4 * old + i] = old;
    }
}

static uint32_t *put(uint32_t *at, uint32_t entry, uint32_t old, uint32_t new)
{
    at[0] = entry;
    at[1] = old;
    at[2] = new;
    return at + 3;
}

/* One record, from the table to another one: before the cursor or at it. At one entry it may have a
 * triple too many: one that changes nothing, or the same again. */
static void make_record(request *q, uint32_t cells, rng *r)
{
    static uint32_t other[MAX_ENTRIES];
    uint32_t slots = slots_of(q), *at = journal + 4;
    uint32_t odd = one_in(r, 2) ? rng_below(r, 4 * slots) : NONE;
    if (one_in(r, 2))
        make_near(q, other, r);
    else
        make_table(q->n, cells, other, slots, r);
    for (uint32_t x = 0; x < q->table_len; x++) {
        if (table[x] != other[x])
            at = put(at, x, table[x], other[x]);
        if (x == odd)
            at = put(at, x, table[x], other[x]);
    }
    *at = journal[2] = (uint32_t)(at - (journal + 4)) / 3;
    journal[3] = any(r);
    journal[0] = PHL_FRESH;
    journal[1] = (uint32_t)(at - journal) + 1;
    q->journal_len = journal[1] + rng_below(r, 100);
    if (one_in(r, 2)) {
        journal[0] = journal[1];
        memcpy(table, other, 4 * q->table_len);
    }
}

/* ---------------------------------------------------------------- scenes */

request scene_new(rng *r, uint32_t about)
{
    uint32_t n = ONE_OF(r, 2, 3, about == 0 ? 2 : 3), k = cell_darts(n), slots, cells;
    if (about == 0) {
        cells = rng_below(r, n == 2 ? 7 : 5);
        slots = k * cells + rng_below(r, n == 2 ? 48 : 160);
    } else {
        slots = about - 8 + rng_below(r, 17);
        if (slots > MAX_SLOTS)
            slots = MAX_SLOTS;
        cells = slots / k / ONE_OF(r, 1, 2, 2);
    }
    if (one_in(r, 12))
        slots = k * cells;
    request q = {CHECK, n, table, 4 * (size_t)slots, marks, slots, journal, 0, 0, 0, 0, 0, 0,
                 list, 0, queue, slots, NULL, text, 0};
    make_table(n, cells, table, slots, r);
    make_fresh_journal(&q, about, r);
    if (about <= 4096 && one_in(r, 8))
        make_record(&q, cells, r);
    return q;
}

/* ---------------------------------------------------------------- arguments */

/* A number that is no slot. */
static uint32_t no_slot(const request *q, rng *r)
{
    return ONE_OF(r, slots_of(q), slots_of(q) + 1, UINT32_C(1) << 30, NONE, any(r));
}

enum wish { FREE, SEWN, EITHER };

/* A live dart, link i of it as wished, if there is one that a few tries find. */
static uint32_t some_dart(const request *q, enum wish wish, rng *r)
{
    uint32_t d = 0;
    for (int tries = 0; tries < 20; tries++) {
        d = rng_below(r, slots_of(q));
        if (d >= slots_of(q) || !map_live(q->table, d))
            continue;
        int free = q->table[4 * d + q->i % 4] == d;
        if (wish == EITHER || free == (wish == FREE))
            break;
    }
    return d;
}

/* Whether link j is one of a side for link i. */
static int is_side_link(uint32_t i, uint32_t j) { return j + 2 <= i || i + 2 <= j; }

/* A dart of d's side for link i. */
static uint32_t dart_beside(const request *q, uint32_t i, uint32_t d, rng *r)
{
    for (uint32_t steps = rng_below(r, 8); steps > 0; steps--) {
        uint32_t j = rng_below(r, 4);
        if (is_side_link(i, j) && d < slots_of(q) && map_live(q->table, d))
            d = q->table[4 * d + j];
    }
    return d;
}

/* ---------------------------------------------------------------- walls */

/* Link i of d; d itself, if that is no slot. */
static uint32_t to(const request *q, uint32_t d, uint32_t i)
{
    uint32_t e = q->table[4 * d + i];
    return e < slots_of(q) ? e : d;
}

/* The live darts that the links of the mask reach from d and that are not 1 yet get 1 in bytes; they
 * go to found. Gives their number. */
static uint32_t mark_reached(const request *q, uint32_t d, uint32_t mask, uint8_t *bytes,
                             uint32_t *found)
{
    uint32_t len = 0;
    if (bytes[d] == 1 || !map_live(q->table, d))
        return 0;
    bytes[d] = 1;
    found[len++] = d;
    for (uint32_t x = 0; x < len; x++) {
        for (uint32_t i = 0; i < 4; i++) {
            uint32_t e = to(q, found[x], i);
            if ((mask >> i & 1) && bytes[e] != 1 && map_live(q->table, e)) {
                bytes[e] = 1;
                found[len++] = e;
            }
        }
    }
    return len;
}

/* The links 0 .. n-2 and n: they reach an edge of quads, or a face of blocks, from both sides. */
static uint32_t wall_links(const request *q) { return q->n == 2 ? 5 : 11; }

/* Where a wall may go on from its dart h, after so many cells: straight on after one, in a grid. */
static uint32_t turned(const request *q, uint32_t h, uint32_t cells)
{
    uint32_t x = to(q, h, q->n - 1);
    for (; cells > 0 && to(q, x, q->n) != x; cells--)
        x = to(q, to(q, x, q->n), q->n - 1);
    return x;
}

/* A wall from d on, of so many edges or faces at most, side by side. It goes straight on, or bends. */
static void draw_from(const request *q, uint32_t d, uint32_t most, int bends, rng *r)
{
    static uint32_t ends[MAX_SLOTS + 1], found[MAX_SLOTS];
    uint32_t head = 0, len = 1;
    ends[0] = d;
    for (; head < len && most > 0; head++) {
        uint32_t size = mark_reached(q, ends[head], wall_links(q), marks, found);
        most -= size > 0;
        for (uint32_t x = 0; x < size; x++) {
            uint32_t e = turned(q, found[x], bends ? rng_below(r, 4) : 1);
            if (marks[e] != 1 && to(q, e, q->n) != e)
                ends[len++] = e;
        }
    }
}

/* The wall between some of the cells and the others. */
static void draw_round_cells(const request *q, rng *r)
{
    static uint8_t inside[MARKS_ROOM], seen[MARKS_ROOM];
    static uint32_t found[MAX_SLOTS];
    uint32_t slots = slots_of(q), of = ONE_OF(r, 2, 3, 6);
    memset(inside, 0, slots);
    memset(seen, 0, slots);
    for (uint32_t d = 0; d < slots; d++) {
        uint32_t size = mark_reached(q, d, (UINT32_C(1) << q->n) - 1, seen, found);
        uint8_t in = (uint8_t)one_in(r, of);
        for (uint32_t x = 0; x < size; x++)
            inside[found[x]] = in;
    }
    for (uint32_t d = 0; d < slots; d++)
        marks[d] = inside[d] != inside[to(q, d, q->n)];
}

/* What some of the links of a wall reach from d: most often it is not closed. */
static void draw_part(const request *q, uint32_t d, rng *r)
{
    static uint32_t found[MAX_SLOTS];
    mark_reached(q, d, wall_links(q) & ~(UINT32_C(1) << rng_below(r, 4)), marks, found);
}

static void draw_anything(const request *q, rng *r)
{
    for (uint32_t d = 0; d < slots_of(q); d++)
        marks[d] = (uint8_t)rng_below(r, 2);
}

enum wall { ONE, FEW, BENT, WHOLE, ROUND_CELLS, PART, ANYTHING };

static void draw_one(const request *q, enum wall wall, uint32_t d, rng *r)
{
    if (wall == ROUND_CELLS)
        draw_round_cells(q, r);
    else if (wall == PART)
        draw_part(q, d, r);
    else if (wall == ANYTHING)
        draw_anything(q, r);
    else
        draw_from(q, d, wall == ONE ? 1 : wall == WHOLE ? slots_of(q) : 1 + rng_below(r, 4),
                  wall == BENT, r);
}

/* A wall, or more than one, or what might be one. */
static void draw(request *q, rng *r)
{
    enum wall wall = ONE_OF(r, ONE, ONE, FEW, BENT, BENT, BENT, WHOLE, WHOLE, WHOLE, WHOLE, WHOLE,
                            WHOLE, ROUND_CELLS, ROUND_CELLS, ROUND_CELLS, PART, ANYTHING);
    memset(marks, 0, slots_of(q) + 1);
    q->i = q->n;
    for (uint32_t walls = ONE_OF(r, 1, 1, 1, 1, 1, 2, 2, 3); slots_of(q) > 0 && walls > 0; walls--)
        draw_one(q, wall, some_dart(q, one_in(r, 16) ? EITHER : SEWN, r), r);
}

/* ---------------------------------------------------------------- lists */

/* For each link, the darts of the sides that the items drawn so far sew. */
static uint8_t taken[4][MARKS_ROOM];

/* Takes a live dart that is free for link q->i and not taken yet, with its side; 0 if a few tries
 * find none. */
static int take(const request *q, uint32_t *d, rng *r)
{
    static uint32_t found[MAX_SLOTS];
    uint32_t links = 0;
    for (int tries = 0; tries < 8; tries++) {
        *d = some_dart(q, FREE, r);
        if (!taken[q->i][*d])
            break;
    }
    for (uint32_t j = 0; j <= q->n; j++)
        links |= (uint32_t)is_side_link(q->i, j) << j;
    return mark_reached(q, *d, links, taken[q->i], found) > 0 && to(q, *d, q->i) == *d;
}

/* Makes an item of the list one that is refused, most often. */
static void spoil_item(const request *q, uint32_t *item, rng *r)
{
    uint32_t word = 1 + rng_below(r, 2), other = 3 * rng_below(r, (uint32_t)q->list_len / 3);
    switch (rng_below(r, 6)) {
    case 0:
        item[0] = ONE_OF(r, q->n + 1, 4, 255, 256, NONE, any(r));
        break;
    case 1:
        item[word] = no_slot(q, r);
        break;
    case 2:
        item[word] = rng_below(r, slots_of(q));
        break;
    case 3:
        item[2] = dart_beside(q, item[0], item[1], r);
        break;
    case 4:
        item[word] = list[other + word];
        break;
    default:
        item[0] = rng_below(r, q->n + 1);
        item[word] = list[other + word];
    }
}

/* A list of sews, all by link q->i or by any links, as far as there are free sides; one item may be
 * bad, often the first or the last. */
static void draw_list(request *q, rng *r)
{
    uint32_t items = 0, most = one_in(r, 3) ? rng_below(r, 5) : rng_below(r, MOST_ITEMS + 1);
    int mixed = one_in(r, 3);
    for (uint32_t i = 0; i <= q->n; i++)
        memset(taken[i], 0, slots_of(q) + 1);
    for (; items < most; items++) {
        uint32_t *item = list + 3 * items;
        if (mixed)
            q->i = rng_below(r, q->n + 1);
        item[0] = q->i;
        int good = take(q, &item[1], r);
        good &= take(q, &item[2], r);
        if (!good && items > 0 && !one_in(r, 8))
            break;
    }
    q->list_len = 3 * (size_t)items;
    if (items > 0 && one_in(r, 2))
        spoil_item(q, list + 3 * ONE_OF(r, 0, items - 1, rng_below(r, items)), r);
}

/* ---------------------------------------------------------------- queues */

/* Words of any kind in the queue, and in what a queue that is too long has besides. */
static void fill_queue(const request *q, rng *r)
{
    uint32_t slots = slots_of(q), kind = rng_below(r, 4), word = ONE_OF(r, 0, 1, NONE, any(r));
    for (uint32_t k = 0; k < 4 * slots + 1; k++)
        queue[k] = kind == 0 ? word : kind == 1 ? k : kind == 2 ? rng_below(r, slots) : any(r);
}

/* ---------------------------------------------------------------- texts */

static void spoil_text(request *q, rng *r)
{
    if (q->text_len + VTK_DAMAGE <= TEXT_ROOM)
        q->text_len = vtk_damage(text, q->text_len, r);
}

/* The file of a mesh of about as many cells as the table takes, or of a few. */
static void draw_text(request *q, rng *r)
{
    uint32_t most = slots_of(q) / 48 + rng_below(r, 2);
    mesh m = mesh_some(most < 1 ? 1 : most, r);
    vtk_style style = {one_in(r, 2) ? 2 : 3, one_in(r, 2) ? "" : "a title of several words",
                       one_in(r, 2) ? r : NULL, !one_in(r, 4)};
    while (one_in(r, 4))
        mesh_spoil(&m, r);
    if (one_in(r, 2))
        mesh_shuffle(&m, r);
    q->text_len = vtk_room(&m, &style) <= TEXT_ROOM ? vtk_write(&m, &style, text) : 0;
    mesh_drop(&m);
    if (one_in(r, 3))
        do
            spoil_text(q, r);
        while (one_in(r, 2));
}

/* ---------------------------------------------------------------- a call */

void scene_ask(request *q, rng *r)
{
    enum wish wish = one_in(r, 8) ? EITHER : FREE;
    q->call = (enum call)rng_below(r, CALLS);
    if (one_in(r, 2) && map_count_live(q->table, slots_of(q)) == 0)
        q->call = ADD;
    if (q->call == READ_VTK && q->n == 2 && !one_in(r, 8))
        q->call = (enum call)rng_below(r, READ_VTK);
    if (one_in(r, 3) && q->n == 3 && map_count_live(q->table, slots_of(q)) == 0)
        q->call = READ_VTK;
    if (one_in(r, 4) && journal[0] < journal[1])
        q->call = REDO;
    if (one_in(r, 8))
        q->call = INSERT;
    if (one_in(r, slots_of(q) < 500 ? 32 : 4))
        q->call = SEW_LIST;
    if (one_in(r, slots_of(q) < 500 ? 16 : 8))
        q->call = PICK;
    if (q->call == UNSEW && wish == FREE)
        wish = SEWN;
    q->tag = any(r);
    memset(marks, (int)(q->tag & 0xFF), slots_of(q) + 1);
    q->i = one_in(r, 4) ? rng_below(r, q->n + 1) : q->n;
    q->mask = rng_below(r, UINT32_C(2) << q->n);
    q->d = some_dart(q, q->call == SEW || q->call == UNSEW ? wish : EITHER, r);
    q->e = one_in(r, 8) ? dart_beside(q, q->i, q->d, r) : some_dart(q, wish, r);
    if (q->call == INSERT)
        draw(q, r);
    if (q->call == SEW_LIST)
        draw_list(q, r);
    if (q->call == PICK)
        fill_queue(q, r);
    if (q->call == READ_VTK)
        draw_text(q, r);
}

/* ---------------------------------------------------------------- spoiling */

enum { MOST_SPOILT = 64 };

static struct { uint32_t *at, old; } spoilt[MOST_SPOILT];
static int spoilt_len;

static void spoil(uint32_t *at, uint32_t value)
{
    if (spoilt_len == MOST_SPOILT)
        return;
    spoilt[spoilt_len].at = at;
    spoilt[spoilt_len++].old = *at;
    *at = value;
}

void scene_mend(int back)
{
    for (; spoilt_len > 0; spoilt_len--)
        if (back)
            *spoilt[spoilt_len - 1].at = spoilt[spoilt_len - 1].old;
}

static void spoil_length(request *q, rng *r)
{
    size_t slots = slots_of(q);
    switch (rng_below(r, 4)) {
    case 0:
        q->table_len -= q->table_len < 4 ? 0 : 1 + rng_below(r, 4);
        break;
    case 1:
        q->marks_len = ONE_OF(r, 0, slots / 2, slots < 1 ? 1 : slots - 1, slots + 1);
        break;
    case 2:
        q->journal_len = ONE_OF(r, 0, 1, 2, journal[1] < JOURNAL_ROOM ? journal[1] : 2,
                                journal[1] - 1 < JOURNAL_ROOM ? journal[1] - 1 : 2);
        break;
    default:
        if (!one_in(r, 100))
            break;
        if (one_in(r, 2))
            q->table_len = PHL_MAX_ENTRIES + ONE_OF(r, 0, 1, 4);
        else
            q->journal_len = PHL_MAX_JOURNAL + ONE_OF(r, 0, 1);
    }
}

/* A length that is too short or too long, also with marks of a wrong length. */
static void spoil_queue(request *q, rng *r)
{
    size_t slots = slots_of(q);
    q->queue_len = ONE_OF(r, 0, slots / 2, slots < 1 ? 1 : slots - 1, slots + 1, 4 * slots);
    if (one_in(r, 8))
        q->marks_len = ONE_OF(r, 0, slots < 1 ? 1 : slots - 1, slots + 1);
}

static void spoil_argument(request *q, rng *r)
{
    switch (rng_below(r, 4)) {
    case 0:
        q->i = ONE_OF(r, q->n + 1, 4, 255, 256, NONE, any(r));
        break;
    case 1:
        q->mask = ONE_OF(r, UINT32_C(2) << (q->n & 3), 16, 256, NONE, any(r));
        break;
    case 2:
        q->d = no_slot(q, r);
        break;
    default:
        q->e = no_slot(q, r);
    }
}

/* The next call draws its list anew: it need not be put back. */
static void spoil_list(request *q, rng *r)
{
    if (q->list_len % 3 == 0 && one_in(r, 2))
        q->list_len += 1 + rng_below(r, 2);
    if (q->list_len >= 3 && one_in(r, 2))
        spoil_item(q, list + 3 * rng_below(r, (uint32_t)q->list_len / 3), r);
}

/* The next call draws its marks anew: they need not be put back. */
static void spoil_mark(const request *q, rng *r)
{
    uint32_t d = rng_below(r, slots_of(q) + 1), mark = marks[d];
    marks[d] = (uint8_t)ONE_OF(r, 0, 1, mark ^ 1, 2, 3, 128, 255);
}

/* An entry leads elsewhere: to a slot, to none, or it is as in an unused slot. */
static void spoil_entry(const request *q, rng *r)
{
    uint32_t *at = q->table + rng_below(r, (uint32_t)q->table_len);
    uint32_t slot = rng_below(r, slots_of(q));
    spoil(at, ONE_OF(r, slot, slot, *at ^ 1, slots_of(q), NONE, any(r)));
}

/* Two darts are linked, and those that they were linked to are free: all links still lead back. */
static void spoil_links(const request *q, rng *r)
{
    uint32_t i = rng_below(r, 4), *link = q->table + i, slots = slots_of(q);
    uint32_t d = rng_below(r, slots), e = rng_below(r, slots), x = link[4 * d], y = link[4 * e];
    if (x >= slots || y >= slots)
        return;
    spoil(link + 4 * x, x);
    spoil(link + 4 * y, y);
    spoil(link + 4 * d, e);
    spoil(link + 4 * e, d);
}

static void spoil_slot(const request *q, rng *r)
{
    uint32_t d = rng_below(r, slots_of(q));
    for (uint32_t i = 0; i < 4; i++)
        spoil(q->table + 4 * d + i, NONE);
}

static void spoil_cursor_or_end(const request *q, rng *r)
{
    uint32_t cursor = journal[0], end = journal[1], len = (uint32_t)q->journal_len;
    uint32_t *at = journal + rng_below(r, 2);
    spoil(at, ONE_OF(r, 0, 1, 2, cursor - 1, cursor + 1, end, end + 1, end - 6, len, len + 1, NONE,
                     rng_below(r, len + 1)));
}

/* A word of a record: one next to the cursor, or any. Or the counts next to the cursor are so large
 * that 3k+3 does not fit in 32 bits. */
static void spoil_record(const request *q, rng *r)
{
    uint32_t cursor = journal[0], end = journal[1];
    if (end > q->journal_len || cursor > end || end < 4)
        return;
    if (one_in(r, 10) && cursor >= 4) {
        uint32_t k = ONE_OF(r, 1431655765, 1431655766, UINT32_C(2863311531), NONE);
        for (uint32_t at = cursor - 2; at < cursor + 2; at++)
            spoil(journal + at, k);
        return;
    }
    uint32_t at = one_in(r, 2) ? cursor - 3 + rng_below(r, 8) : 2 + rng_below(r, end - 2);
    if (at < 2 || at >= end)
        return;
    uint32_t word = journal[at], entries = (uint32_t)q->table_len, entry = rng_below(r, entries);
    spoil(journal + at, ONE_OF(r, 0, 1, 2, word + 1, word - 1, word ^ 1, word + 4, entry, entries,
                               NONE, any(r)));
}

void scene_spoil(request *q, rng *r)
{
    uint32_t what = q->call >= UNDO && one_in(r, 3) ? 4 : rng_below(r, 10);
    if (q->call == PICK && one_in(r, 4))
        spoil_queue(q, r);
    if (what == 0)
        q->n = ONE_OF(r, 0, 1, 4, 9, NONE, 2, 3);
    else if (what == 1)
        spoil_length(q, r);
    else if (what == 2 && q->call == INSERT)
        spoil_mark(q, r);
    else if (what == 2 && q->call == SEW_LIST)
        spoil_list(q, r);
    else if (what == 2 && q->call == READ_VTK)
        spoil_text(q, r);
    else if (what == 2)
        spoil_argument(q, r);
    else if (what == 3)
        spoil_cursor_or_end(q, r);
    else if (what == 4 || slots_of(q) == 0)
        spoil_record(q, r);
    else if (what == 5)
        spoil_slot(q, r);
    else if (what < 8)
        spoil_entry(q, r);
    else
        spoil_links(q, r);
}
