/* yardstick.c - the calls of 01 and the requests of 02 that have landed (docs/REFERENCE.md has
 * both), in C99, tuned: what a careful engineer gets without proofs.
 *
 * Every call, with a list of sews too, validates its whole input in one pass over the table and
 * takes time linear in slots plus entries written, read_vtk also in the bytes of its text. Nothing
 * is kept between calls but the lent buffers; the static scratch is written by a call before it is
 * read (so: one call at a time). A text with more cells than a table takes is judged in memory of the
 * C library; all else is without.
 *
 * Functions marked INLINE take the dimension (or mask, or axis order) as a constant and are
 * compiled once per value. With YARD_AS_PHL the calls are named phl_ instead of yard_.
 */
#include <stddef.h>
#include <stdint.h>
#include <stdlib.h>
#include <string.h>

#ifdef YARD_AS_PHL
#include "../include/phlernsap.h"
#define YARD(call) phl_##call
#else
#include "yardstick.h"
#define YARD(call) yard_##call
#endif

#ifdef __GNUC__
#define INLINE static inline __attribute__((always_inline))
#define COLD static __attribute__((cold, noinline))
#define ALONE static __attribute__((noinline))
#define LIKELY(x) __builtin_expect(x, 1)
#else
#define INLINE static inline
#define COLD static
#define ALONE static
#define LIKELY(x) (x)
#endif

#define NONE UINT32_C(0xFFFFFFFF)   /* each entry of an unused slot */
#define MAX_SLOTS 65536u
#define MAX_JOURNAL 1048576u

typedef struct { uint32_t no, place, count; } answer;

static answer refuse(uint32_t no) { return (answer){no, 0, 0}; }
static answer refuse_at(uint32_t no, uint32_t place) { return (answer){no, place, 0}; }
static answer accept(uint32_t place, uint32_t count) { return (answer){0, place, count}; }

static uint32_t give(answer a, uint32_t *place, uint32_t *count)
{
    *place = a.place;
    *count = a.count;
    return a.no;
}

/* The row of dart d: its four links. */
#define ROW(table, d) ((table) + 4 * (size_t)(d))

/* ---------------------------------------------------------------- scratch */

static uint8_t seen[MAX_SLOTS];          /* a byte per slot */
static uint32_t work[MAX_SLOTS + 1];     /* queue, worklist or old values */
static uint32_t list[2 * MAX_SLOTS];     /* slots, rising */
static uint32_t fresh[MAX_SLOTS];        /* unused slots, rising */
static uint32_t where[MAX_SLOTS];        /* a word per slot */
static uint32_t pairs[MAX_SLOTS][2];     /* a side and its partners */
static uint32_t nexts[MAX_SLOTS];        /* next of each dart of a wall */

/* ---------------------------------------------------------------- eight bytes at a time */

#define ONES UINT64_C(0x0101010101010101)

INLINE uint64_t eight(const uint8_t *bytes)
{
    uint64_t w;
    memcpy(&w, bytes, 8);
    return w;
}

/* The slots below `slots` from `at` up to the next multiple of eight. */
INLINE uint32_t chunk_end(uint32_t at, uint32_t slots)
{
    return slots - at < 8 ? slots : at + 8;
}

/* Whether the bytes at..at+8 are all there and 0. */
INLINE int bare(const uint8_t *bytes, uint32_t at, uint32_t slots)
{
    return slots - at >= 8 && eight(bytes + at) == 0;
}

/* Slots whose byte is 1, rising, into out. */
static uint32_t gather(const uint8_t *restrict bytes, uint32_t slots, uint32_t *restrict out)
{
    uint32_t len = 0;
    for (uint32_t at = 0; at < slots; at += 8) {
        if (bare(bytes, at, slots))
            continue;
        uint32_t end = chunk_end(at, slots);
        for (uint32_t x = at; x < end; x++)
            if (bytes[x] == 1)
                out[len++] = x;
    }
    return len;
}

/* ---------------------------------------------------------------- gates 1, 2, 4 */

/* 0, 1 or 2. */
static uint32_t gate(uint32_t n, size_t table_len)
{
    if (n != 2 && n != 3)
        return 1;
    if (table_len % 4 != 0 || table_len > 4 * (size_t)MAX_SLOTS)
        return 2;
    return 0;
}

/* Whether length, cursor and end are in rule. */
static int journal_fits(const uint32_t *journal, size_t len)
{
    if (len < 2 || len > MAX_JOURNAL)
        return 0;
    return 2 <= journal[0] && journal[0] <= journal[1] && journal[1] <= len;
}

/* ---------------------------------------------------------------- map check (5, 24 to 26) */

/* Whether the links of slot d are in range; for n = 2, link 3 need not be. */
INLINE int links_in_range(int n, const uint32_t *table, uint32_t slots, uint32_t d)
{
    const uint32_t *r = ROW(table, d);
    return LIKELY(r[0] < slots) && LIKELY(r[1] < slots) && LIKELY(r[2] < slots)
        && (n == 2 || LIKELY(r[3] < slots));
}

/* The rules at slot d, its links in range, in the form that is local to its neighbours: each link
 * turned back, and i, j commuting for i + 2 <= j <= n. Gives 0 if they hold. Over all live slots
 * together this is the same as the rules of 01: a link that turns back leads to a live slot, and
 * with all links turning back i j i j returns exactly if i and j commute there. */
INLINE uint32_t local_fault(int n, const uint32_t *table, uint32_t d)
{
    const uint32_t *r = ROW(table, d);
    const uint32_t *a = ROW(table, r[0]), *b = ROW(table, r[1]), *c = ROW(table, r[2]);
    int ok = (a[0] == d) & (b[1] == d) & (c[2] == d) & (a[2] == c[0]);
    if (n == 2)
        return !(ok & (r[3] == d));
    const uint32_t *e = ROW(table, r[3]);
    return !(ok & (e[3] == d) & (a[3] == e[0]) & (b[3] == e[1]));
}

INLINE int unused(const uint32_t *table, uint32_t d)
{
    const uint32_t *r = ROW(table, d);
    return (r[0] & r[1] & r[2] & r[3]) == NONE;
}

INLINE int live(const uint32_t *table, uint32_t slots, uint32_t d)
{
    return d < slots && !unused(table, d);
}

/* Whether the table is a map. The first `want` unused slots go to `free_slots`, their number
 * to *found. Verdicts are gathered over the whole table: the only branch per row is the one for
 * bounds, by which an unused slot shows itself. */
INLINE int map_ok_in(int n, const uint32_t *restrict table, uint32_t slots,
                     uint32_t *restrict free_slots, uint32_t want, uint32_t *restrict found)
{
    for (uint32_t d = 0; d < slots; d++) {
        if (links_in_range(n, table, slots, d)) {
            if (local_fault(n, table, d) != 0)
                return 0;
        } else if (!unused(table, d)) {
            return 0;
        } else if (*found < want) {
            free_slots[(*found)++] = d;
        }
    }
    return 1;
}

static int map_ok(uint32_t n, const uint32_t *table, uint32_t slots)
{
    uint32_t found = 0;
    return n == 3 ? map_ok_in(3, table, slots, NULL, 0, &found)
                  : map_ok_in(2, table, slots, NULL, 0, &found);
}

/* Whether going i, j, i, j from d returns to d; link i of d is in range. */
INLINE int returns(const uint32_t *table, uint32_t slots, uint32_t d, uint32_t i, uint32_t j)
{
    uint32_t x = ROW(table, ROW(table, d)[i])[j];
    if (x >= slots)
        return 0;
    x = ROW(table, x)[i];
    return x < slots && ROW(table, x)[j] == d;
}

/* The rules at live slot d as 01 puts them, walks and all. No test for live slots is needed on
 * the way: a slot with an entry in range is live, and each slot met must have one here. */
INLINE int literal_rule(int n, const uint32_t *table, uint32_t slots, uint32_t d)
{
    const uint32_t *r = ROW(table, d);
    for (int i = 0; i < 4; i++)
        if (r[i] >= slots || ROW(table, r[i])[i] != d)
            return 0;
    if (n == 2)
        return r[3] == d && returns(table, slots, d, 0, 2);
    return returns(table, slots, d, 0, 2) && returns(table, slots, d, 0, 3)
        && returns(table, slots, d, 1, 3);
}

INLINE uint32_t first_fault(int n, const uint32_t *table, uint32_t slots)
{
    uint32_t d = 0;
    while (d < slots && (unused(table, d) || literal_rule(n, table, slots, d)))
        d++;
    return d;
}

/* Only on the way to a refusal: the least slot that breaks a rule, the first rule that it breaks,
 * and the least link that breaks it; a pair goes by its lower link. */
COLD answer not_a_map(uint32_t n, const uint32_t *table, uint32_t slots)
{
    uint32_t d = n == 3 ? first_fault(3, table, slots) : first_fault(2, table, slots);
    const uint32_t *r = ROW(table, d);
    for (uint32_t i = 0; i < 4; i++)
        if (r[i] >= slots || unused(table, r[i]))
            return (answer){5, d, i};
    for (uint32_t i = 0; i < 4; i++)
        if (ROW(table, r[i])[i] != d)
            return (answer){24, d, i};
    for (uint32_t i = 0; i + 2 <= n; i++)
        for (uint32_t j = i + 2; j <= n; j++)
            if (!returns(table, slots, d, i, j))
                return (answer){25, d, i};
    return (answer){26, d, 3};
}

/* Gates 1, 2, 4 and 5 (24 to 26), of a call that takes any map and a journal: number 0 if they
 * are passed. */
static answer map_gate(uint32_t n, const uint32_t *table, size_t table_len,
                       const uint32_t *journal, size_t journal_len)
{
    uint32_t no = gate(n, table_len);
    if (no)
        return refuse(no);
    if (!journal_fits(journal, journal_len))
        return refuse(4);
    uint32_t slots = (uint32_t)(table_len / 4);
    return map_ok(n, table, slots) ? accept(0, 0) : not_a_map(n, table, slots);
}

/* ---------------------------------------------------------------- cells */

/* Darts of a cell, darts of a cell in a sheet through its place 0 (they are the first places),
 * new darts per sheet dart. */
#define CELL(n) ((n) == 3 ? 48u : 8u)
#define SHEET(n) ((n) == 3 ? 16u : 4u)
#define NEW(n) ((n) == 3 ? 3u : 2u)

/* One sheet dart on each side the sheet crosses. */
static const uint8_t cross2[2] = {0, 2}, cross3[4] = {0, 4, 8, 10};

/* The darts of the two sides it does not cross: of the axis orders that end in x, each 8 in a row
 * (4 for n = 2). */
static const uint8_t apart2[1] = {4}, apart3[2] = {24, 40};

/* Link i of place k in a free cell. */
INLINE uint32_t cell_link(int n, uint32_t k, int i)
{
    static const uint8_t bit[6] = {1, 1, 2, 2, 4, 4};
    static const uint8_t by1[6] = {2, 4, 0, 5, 1, 3};
    static const uint8_t by2[6] = {1, 0, 3, 2, 5, 4};
    if (n == 2)
        return i == 0 ? k ^ (1 + k / 4) : i == 1 ? k ^ 4 : k;
    uint32_t p = k / 8, s = k % 8;
    switch (i) {
    case 0: return 8 * p + (s ^ bit[p]);
    case 1: return 8u * by1[p] + s;
    case 2: return 8u * by2[p] + s;
    default: return k;
    }
}

/* Darts reached from d by the words of the numbering; 0 if a link is out of range. */
INLINE int cell_list(int n, const uint32_t *restrict table, uint32_t slots, uint32_t d,
                     uint32_t *restrict l)
{
#define STEP(k, from, i)                      \
    do {                                      \
        if (l[from] >= slots)                 \
            return 0;                         \
        l[k] = ROW(table, l[from])[i];        \
    } while (0)
    l[0] = d;
    if (n == 2) {
        STEP(1, 0, 0); STEP(4, 0, 1); STEP(5, 1, 1); STEP(6, 4, 0);
        STEP(7, 5, 0); STEP(2, 6, 1); STEP(3, 7, 1);
        return 1;
    }
    STEP(1, 0, 0);   STEP(16, 0, 1);  STEP(8, 0, 2);   STEP(17, 1, 1);  STEP(9, 1, 2);
    STEP(18, 16, 0); STEP(24, 16, 2); STEP(32, 8, 1);  STEP(19, 17, 0); STEP(25, 17, 2);
    STEP(33, 9, 1);  STEP(2, 18, 1);  STEP(26, 18, 2); STEP(40, 24, 1); STEP(36, 32, 0);
    STEP(3, 19, 1);  STEP(27, 19, 2); STEP(41, 25, 1); STEP(37, 33, 0); STEP(10, 2, 2);
    STEP(42, 26, 1); STEP(44, 40, 0); STEP(12, 36, 1); STEP(11, 3, 2);  STEP(43, 27, 1);
    STEP(45, 41, 0); STEP(13, 37, 1); STEP(34, 10, 1); STEP(46, 42, 0); STEP(28, 44, 1);
    STEP(4, 12, 2);  STEP(35, 11, 1); STEP(47, 43, 0); STEP(29, 45, 1); STEP(5, 13, 2);
    STEP(38, 34, 0); STEP(30, 46, 1); STEP(20, 28, 2); STEP(39, 35, 0); STEP(31, 47, 1);
    STEP(21, 29, 2); STEP(14, 38, 1); STEP(22, 30, 2); STEP(15, 39, 1); STEP(23, 31, 2);
    STEP(6, 14, 2);  STEP(7, 15, 2);
    return 1;
#undef STEP
}

/* Links 0..2 of the places 8p..8p+8 of axis order p are those of the numbering; out gets link 3.
 * f: bit of the first axis; x, y: orders by links 1, 2. */
INLINE int order_fits(const uint32_t *restrict table, uint32_t slots, const uint32_t *restrict l,
                      uint32_t *restrict out, uint32_t p, uint32_t f, uint32_t x, uint32_t y)
{
    for (uint32_t s = 0; s < 8; s++) {
        if (l[8 * p + s] >= slots)
            return 0;
        const uint32_t *r = ROW(table, l[8 * p + s]);
        out[8 * p + s] = r[3];
        if ((r[0] ^ l[8 * p + (s ^ f)]) | (r[1] ^ l[8 * x + s]) | (r[2] ^ l[8 * y + s]))
            return 0;
    }
    return 1;
}

/* Link 3 turns back and commutes with links 0 and 1 at every second dart around each side (the
 * four vertices v). With all cells right in links 0, 1, 2, the darts between follow: m = k.0
 * has m.3 = k.3.0, and so on. */
INLINE int order_sewn(const uint32_t *restrict table, uint32_t slots, const uint32_t *restrict l,
                      const uint32_t *restrict out, uint32_t p, uint32_t f, uint32_t x,
                      const uint8_t v[4])
{
    for (int t = 0; t < 4; t++) {
        uint32_t s = v[t];
        if (out[8 * p + s] >= slots)
            return 0;
        const uint32_t *r = ROW(table, out[8 * p + s]);
        if ((r[3] ^ l[8 * p + s]) | (r[0] ^ out[8 * p + (s ^ f)]) | (r[1] ^ out[8 * x + s]))
            return 0;
    }
    return 1;
}

/* Whether link 3 leads from the first dart of one of two opposite faces to another dart of that
 * face. Their last axis has the bit z, its axis orders are p and x. Link 3 commutes with links 0
 * and 1, so one dart of a face tells for all. */
INLINE int faces_folded(const uint32_t *restrict l, const uint32_t *restrict out,
                        uint32_t p, uint32_t x, uint32_t z)
{
    int folded = 0;
    for (uint32_t s = 0; s < 8; s++) {
        uint32_t to = out[8 * p + (s & z)];
        folded |= to == l[8 * x + s];
        folded |= (s & z) != s && to == l[8 * p + s];
    }
    return folded;
}

/* Links 0..n-1 of the listed darts are those of the numbering, all darts differ, link n turns
 * back and commutes, and no side is folded; for n = 2 also link 3 is the dart itself. The listing
 * respects links, so two places share a dart only if another place shares that of place 0. */
INLINE int cell_fits(int n, const uint32_t *restrict table, uint32_t slots,
                     const uint32_t *restrict l)
{
    static const uint8_t even[4] = {0, 3, 5, 6}, odd[4] = {1, 2, 4, 7};
    uint32_t out[48];
    int same = 0;
    for (uint32_t k = 1; k < CELL(n); k++)
        same |= l[k] == l[0];
    if (same)
        return 0;
    if (n == 3)
        return order_fits(table, slots, l, out, 0, 1, 2, 1)
            && order_fits(table, slots, l, out, 1, 1, 4, 0)
            && order_fits(table, slots, l, out, 2, 2, 0, 3)
            && order_fits(table, slots, l, out, 3, 2, 5, 2)
            && order_fits(table, slots, l, out, 4, 4, 1, 5)
            && order_fits(table, slots, l, out, 5, 4, 3, 4)
            && order_sewn(table, slots, l, out, 0, 1, 2, even)
            && order_sewn(table, slots, l, out, 1, 1, 4, odd)
            && order_sewn(table, slots, l, out, 2, 2, 0, odd)
            && order_sewn(table, slots, l, out, 3, 2, 5, even)
            && order_sewn(table, slots, l, out, 4, 4, 1, even)
            && order_sewn(table, slots, l, out, 5, 4, 3, odd)
            && !faces_folded(l, out, 0, 2, 4)
            && !faces_folded(l, out, 1, 4, 2)
            && !faces_folded(l, out, 3, 5, 1);
    for (uint32_t k = 0; k < 8; k++) {
        if (l[k] >= slots)
            return 0;
        const uint32_t *r = ROW(table, l[k]);
        out[k] = r[2];
        if ((r[0] ^ l[cell_link(2, k, 0)]) | (r[1] ^ l[k ^ 4]) | (r[3] ^ l[k]))
            return 0;
    }
    for (int t = 0; t < 4; t++) {
        uint32_t k = even[t];
        if (out[k] >= slots)
            return 0;
        const uint32_t *r = ROW(table, out[k]);
        uint32_t m = cell_link(2, k, 0);
        if ((r[2] ^ l[k]) | (r[0] ^ out[m]) | (out[k] == l[m]))
            return 0;
    }
    return 1;
}

/* To the other side of the cell: 1.0.1, or 2.1.0.1.2. */
INLINE uint32_t opposite(int n, const uint32_t *table, uint32_t y)
{
    if (n == 3)
        y = ROW(table, y)[2];
    y = ROW(table, y)[1];
    y = ROW(table, y)[0];
    y = ROW(table, y)[1];
    if (n == 3)
        y = ROW(table, y)[2];
    return y;
}

/* Map check and block check at once, each cell visited once, by rising least dart. NONE: a block
 * map, and seen is 1 at each live slot, 0 at each unused one. Else no block map; if it is a map,
 * the value is the least live slot in a wrong cell. */
INLINE uint32_t block_fault(int n, const uint32_t *restrict table, uint32_t slots)
{
    uint32_t l[48];
    memset(seen, 0, slots);
    for (uint32_t d = 0; d < slots;) {
        if (seen[d] || unused(table, d)) {
            d++;
            continue;
        }
        if (!cell_list(n, table, slots, d, l) || !cell_fits(n, table, slots, l))
            return d;
        /* No dart of the cell is below d. Most cells fill a range of slots. */
        uint32_t most = 0;
        for (uint32_t k = 0; k < CELL(n); k++)
            most = l[k] > most ? l[k] : most;
        if (most == d + CELL(n) - 1) {
            memset(seen + d, 1, CELL(n));
            d += CELL(n);
            continue;
        }
        for (uint32_t k = 0; k < CELL(n); k++)
            seen[l[k]] = 1;
        d++;
    }
    return NONE;
}

/* ---------------------------------------------------------------- check */

uint32_t YARD(check)(uint32_t n, const uint32_t *table, size_t table_len,
                     uint32_t *place, uint32_t *count)
{
    uint32_t no = gate(n, table_len);
    if (no)
        return give(refuse(no), place, count);
    uint32_t slots = (uint32_t)(table_len / 4);
    uint32_t fault = n == 3 ? block_fault(3, table, slots) : block_fault(2, table, slots);
    if (fault == NONE)
        return give(accept(0, 2), place, count);
    if (map_ok(n, table, slots))
        return give(accept(0, 1), place, count);
    return give(not_a_map(n, table, slots), place, count);
}

/* ---------------------------------------------------------------- orbit */

/* Breadth first, each dart in the queue once. Gives the number of darts reached. */
INLINE uint32_t flood(uint32_t mask, const uint32_t *restrict table, uint8_t *restrict marks,
                      uint32_t slots, uint32_t d)
{
    uint32_t *restrict queue = work;
    uint32_t head = 0, end = 1;
    memset(marks, 0, slots);
    marks[d] = 1;
    queue[0] = d;
    while (head < end) {
        const uint32_t *r = ROW(table, queue[head++]);
        for (int i = 0; i < 4; i++) {
            if ((mask >> i & 1) && !marks[r[i]]) {
                marks[r[i]] = 1;
                queue[end++] = r[i];
            }
        }
    }
    return end;
}

/* One flood per mask, so that the loop tests no bits. */
static uint32_t flood_by(uint32_t mask, const uint32_t *table, uint8_t *marks, uint32_t slots,
                         uint32_t d)
{
    switch (mask) {
#define CASE(m) case m: return flood(m, table, marks, slots, d);
    CASE(0) CASE(1) CASE(2) CASE(3) CASE(4) CASE(5) CASE(6) CASE(7)
    CASE(8) CASE(9) CASE(10) CASE(11) CASE(12) CASE(13) CASE(14) CASE(15)
#undef CASE
    default: return 0;
    }
}

static answer orbit(uint32_t n, const uint32_t *table, size_t table_len,
                    uint8_t *marks, size_t marks_len, uint32_t mask, uint32_t d)
{
    uint32_t no = gate(n, table_len);
    if (no)
        return refuse(no);
    if (marks_len != table_len / 4)
        return refuse(3);
    uint32_t slots = (uint32_t)marks_len;
    if (!map_ok(n, table, slots))
        return not_a_map(n, table, slots);
    if (mask > (UINT32_C(1) << (n + 1)) - 1)
        return refuse(6);
    if (!live(table, slots, d))
        return refuse(7);
    uint32_t reached = flood_by(mask, table, marks, slots, d);
    uint32_t ones = 0, missing = 0;
    for (uint32_t i = 0; i <= n; i++) {
        if (mask >> i & 1)
            ones++;
        else
            missing = i;
    }
    return accept(ones == n ? 1 + missing : 0, reached);
}

uint32_t YARD(orbit)(uint32_t n, const uint32_t *table, size_t table_len,
                     uint8_t *marks, size_t marks_len, uint32_t mask, uint32_t d,
                     uint32_t *place, uint32_t *count)
{
    return give(orbit(n, table, table_len, marks, marks_len, mask, d), place, count);
}

/* ---------------------------------------------------------------- sheet */

/* Gates 5, 7, 8: number 0, 5, 7 or 8 and the place. If 0, seen is 1 exactly at live slots. */
INLINE answer sheet_gate(int n, const uint32_t *table, uint32_t slots, uint32_t d)
{
    uint32_t fault = block_fault(n, table, slots);
    if (fault != NONE && !map_ok((uint32_t)n, table, slots))
        return not_a_map((uint32_t)n, table, slots);
    if (!live(table, slots, d))
        return refuse(7);
    return fault == NONE ? accept(0, 0) : refuse_at(8, fault);
}

typedef struct { uint32_t size; int crossing; } spread_result;

/* The sheet of d in a block map: each cell is visited at most once per axis. Gives the size of S
 * and whether some g in S has g.1 in S, which is a cell met along two axes. A cell pushes at
 * most 2 of 8 or 4 of 48 darts per axis, so the worklist never outgrows the slots. A dart that
 * is led to gets 3, and 1 or 2 if its cell is visited later. */
INLINE spread_result spread(int n, const uint32_t *restrict table, uint8_t *restrict marks,
                            uint32_t slots, uint32_t d)
{
    const uint8_t *cross = n == 3 ? cross3 : cross2, *apart = n == 3 ? apart3 : apart2;
    spread_result s = {0, 0};
    uint32_t l[48];
    uint32_t len = 0;
    memset(marks, 0, slots);
    work[len++] = d;
    while (len > 0) {
        uint32_t g = work[--len];
        if (marks[g] == 1 || !cell_list(n, table, slots, g, l))
            continue;
        uint8_t other = 0;
        for (uint32_t k = SHEET(n); k < CELL(n); k++) {
            uint8_t in = marks[l[k]] == 1;
            other |= in;
            marks[l[k]] = (uint8_t)(2 - in);
        }
        for (uint32_t k = 0; k < SHEET(n); k++)
            marks[l[k]] = 1;
        s.crossing |= other;
        s.size += SHEET(n);
        for (int c = 0; c < (n == 3 ? 4 : 2); c++) {
            uint32_t y = ROW(table, l[cross[c]])[n];
            if (marks[y] != 1)
                work[len++] = y;
        }
        for (int c = 0; c < n - 1; c++)
            for (uint32_t k = apart[c]; k < apart[c] + (n == 3 ? 8u : 4u); k++) {
                uint32_t y = ROW(table, l[k])[n];
                if (!marks[y])
                    marks[y] = 3;
            }
    }
    return s;
}

INLINE answer sheet_in(int n, const uint32_t *table, uint32_t slots, uint8_t *marks, uint32_t d)
{
    answer a = sheet_gate(n, table, slots, d);
    return a.no ? a : accept(0, spread(n, table, marks, slots, d).size);
}

uint32_t YARD(sheet)(uint32_t n, const uint32_t *table, size_t table_len,
                     uint8_t *marks, size_t marks_len, uint32_t d,
                     uint32_t *place, uint32_t *count)
{
    uint32_t no = gate(n, table_len);
    if (!no && marks_len != table_len / 4)
        no = 3;
    if (no)
        return give(refuse(no), place, count);
    uint32_t slots = (uint32_t)marks_len;
    return give(n == 3 ? sheet_in(3, table, slots, marks, d) : sheet_in(2, table, slots, marks, d),
                place, count);
}

/* ---------------------------------------------------------------- pick */

/* The darts of S in g's cell along g's axis, in a block map: the first places of cell_list. */
INLINE void sheet_list(int n, const uint32_t *restrict table, uint32_t g, uint32_t *restrict l)
{
    l[0] = g;
    l[2] = opposite(2, table, g);
    if (n == 3) {
        l[8] = ROW(table, l[0])[2];
        l[10] = ROW(table, l[2])[2];
        l[12] = opposite(2, table, l[8]);
        l[14] = opposite(2, table, l[10]);
        l[4] = ROW(table, l[12])[2];
        l[6] = ROW(table, l[14])[2];
    }
    for (uint32_t k = 0; k < SHEET(n); k += 2)
        l[k + 1] = ROW(table, l[k])[0];
}

/* The marks beside those of S at a cell that was not met before: 2 at its other darts, and 3 beyond
 * the two sides that S does not cross, the darts of even places and those of odd ones. A cell that is
 * met has marks at all its darts, so one dart beyond a side tells whether it is. */
INLINE void mark_round(int n, const uint32_t *restrict table, uint8_t *restrict marks,
                       const uint32_t *restrict l)
{
    const uint8_t *apart = n == 3 ? apart3 : apart2;
    for (uint32_t k = SHEET(n); k < CELL(n); k++)
        marks[l[k]] = 2;
    for (uint32_t side = 0; side < 2; side++) {
        if (marks[ROW(table, l[apart[0] + side])[n]])
            continue;
        for (int c = 0; c < n - 1; c++)
            for (uint32_t k = apart[c] + side; k < apart[c] + (n == 3 ? 8u : 4u); k += 2)
                marks[ROW(table, l[k])[n]] = 3;
    }
}

/* The darts of S in g's cell along g's axis enter at the queue's end; gives the new end. */
INLINE uint32_t enter(int n, const uint32_t *restrict table, uint8_t *restrict marks,
                      uint32_t slots, uint32_t g, uint32_t *restrict queue, uint32_t end)
{
    uint32_t l[48];
    int met = marks[g] == 2;                /* along another axis */
    if (met)
        sheet_list(n, table, g, l);
    else if (!cell_list(n, table, slots, g, l))
        return end;
    for (uint32_t k = 0; k < SHEET(n); k++) {
        marks[l[k]] = 1;
        queue[end++] = l[k];
    }
    if (!met)
        mark_round(n, table, marks, l);
    return end;
}

/* The sheet of d in a block map; gives how many darts were taken off the queue, *size is that of S.
 * Each dart enters once. They enter and are taken off cell by cell, as many as a cell has in S along
 * an axis: link n of one dart on each side that S crosses leads to where it goes on. */
INLINE uint32_t queued(int n, const uint32_t *restrict table, uint8_t *restrict marks,
                       uint32_t slots, uint32_t d, uint32_t *restrict queue,
                       uint32_t *restrict size)
{
    const uint8_t *cross = n == 3 ? cross3 : cross2;
    memset(marks, 0, slots);
    uint32_t taken = 0, end = enter(n, table, marks, slots, d, queue, 0);
    while (taken < end) {
        const uint32_t *l = queue + taken;
        taken += SHEET(n);
        for (int c = 0; c < (n == 3 ? 4 : 2); c++) {
            uint32_t y = ROW(table, l[cross[c]])[n];
            if (marks[y] != 1)
                end = enter(n, table, marks, slots, y, queue, end);
        }
    }
    *size = end;
    return taken;
}

/* Not inlined, so that the checks before it are compiled as those of sheet are. */
ALONE uint32_t queued_by(uint32_t n, const uint32_t *table, uint8_t *marks, uint32_t slots,
                         uint32_t d, uint32_t *queue, uint32_t *size)
{
    return n == 3 ? queued(3, table, marks, slots, d, queue, size)
                  : queued(2, table, marks, slots, d, queue, size);
}

INLINE answer pick_in(int n, const uint32_t *table, uint32_t slots, uint8_t *marks,
                      uint32_t *queue, uint32_t d, uint32_t *taken)
{
    uint32_t size;
    answer a = sheet_gate(n, table, slots, d);
    if (a.no)
        return a;
    *taken = queued_by((uint32_t)n, table, marks, slots, d, queue, &size);
    return accept(0, size);
}

static answer pick(uint32_t n, const uint32_t *table, size_t table_len,
                   uint8_t *marks, size_t marks_len, uint32_t *queue, size_t queue_len,
                   uint32_t d, uint32_t *taken)
{
    uint32_t no = gate(n, table_len);
    if (no)
        return refuse(no);
    if (marks_len != table_len / 4)
        return refuse(3);
    if (queue_len != table_len / 4)
        return refuse(37);
    uint32_t slots = (uint32_t)marks_len;
    return n == 3 ? pick_in(3, table, slots, marks, queue, d, taken)
                  : pick_in(2, table, slots, marks, queue, d, taken);
}

uint32_t YARD(pick)(uint32_t n, const uint32_t *table, size_t table_len,
                    uint8_t *marks, size_t marks_len, uint32_t *queue, size_t queue_len,
                    uint32_t d, uint32_t *taken, uint32_t *place, uint32_t *count)
{
    *taken = 0;
    return give(pick(n, table, table_len, marks, marks_len, queue, queue_len, d, taken),
                place, count);
}

/* ---------------------------------------------------------------- records */

/* Begins a record of k triples at the cursor: writes its counts and its tag, moves cursor and end
 * behind it and gives the place of the first triple; NULL if there is no room (15). */
static uint32_t *begin_record(uint32_t *journal, size_t journal_len, uint32_t tag, uint32_t k)
{
    uint32_t words = 3 * k + 3;
    uint32_t cursor = journal[0];
    if (words > journal_len - cursor)
        return NULL;
    journal[0] = journal[1] = cursor + words;
    journal[cursor] = journal[cursor + words - 1] = k;
    journal[cursor + 1] = tag;
    return journal + cursor + 2;
}

INLINE uint32_t *put(uint32_t *restrict at, uint32_t entry, uint32_t old, uint32_t new)
{
    at[0] = entry;
    at[1] = old;
    at[2] = new;
    return at + 3;
}

/* All of row d: it was unused and now is as in the table. */
INLINE uint32_t *put_new_row(uint32_t *restrict at, const uint32_t *restrict table, uint32_t d)
{
    const uint32_t *r = ROW(table, d);
    for (uint32_t i = 0; i < 4; i++)
        at = put(at, 4 * d + i, NONE, r[i]);
    return at;
}

/* All of row d: it is as in the table and becomes unused. */
INLINE uint32_t *put_old_row(uint32_t *restrict at, const uint32_t *restrict table, uint32_t d)
{
    const uint32_t *r = ROW(table, d);
    for (uint32_t i = 0; i < 4; i++)
        at = put(at, 4 * d + i, r[i], NONE);
    return at;
}

/* ---------------------------------------------------------------- add */

INLINE answer add_in(int n, uint32_t *table, uint32_t slots, uint32_t *journal, size_t journal_len,
                     uint32_t tag)
{
    uint32_t slot[48], found = 0;
    if (!map_ok_in(n, table, slots, slot, CELL(n), &found))
        return not_a_map((uint32_t)n, table, slots);
    if (found < CELL(n))
        return refuse(14);
    uint32_t *at = begin_record(journal, journal_len, tag, 4 * CELL(n));
    if (!at)
        return refuse(15);
    for (uint32_t k = 0; k < CELL(n); k++) {
        uint32_t *r = ROW(table, slot[k]);
        for (int i = 0; i < 4; i++)
            r[i] = slot[cell_link(n, k, i)];
        at = put_new_row(at, table, slot[k]);
    }
    return accept(slot[0], CELL(n));
}

uint32_t YARD(add)(uint32_t n, uint32_t *table, size_t table_len,
                   uint32_t *journal, size_t journal_len, uint32_t tag,
                   uint32_t *place, uint32_t *count)
{
    uint32_t no = gate(n, table_len);
    if (!no && !journal_fits(journal, journal_len))
        no = 4;
    if (no)
        return give(refuse(no), place, count);
    uint32_t slots = (uint32_t)(table_len / 4);
    return give(n == 3 ? add_in(3, table, slots, journal, journal_len, tag)
                       : add_in(2, table, slots, journal, journal_len, tag), place, count);
}

/* ---------------------------------------------------------------- sew, sew_list, unsew */

/* The links j <= n with |j - i| >= 2 (never more than two) into links; gives their number. */
static int side_links(uint32_t n, uint32_t i, uint32_t links[2])
{
    int len = 0;
    for (uint32_t j = 0; j <= n; j++)
        if (j + 2 <= i || i + 2 <= j)
            links[len++] = j;
    return len;
}

/* The side of d and, in step with it, that of e, into pairs; *size their number. A side is a path
 * or a ring under two links taken in turn: forward until it ends or closes, then backward from
 * d. Gives 0 if the two sides differ. With d = e this lists the side of d. */
static int side_pairs(const uint32_t *table, const uint32_t *links, int links_len,
                      uint32_t d, uint32_t e, uint32_t *size)
{
    uint32_t len = 0;
    pairs[len][0] = d;
    pairs[len++][1] = e;
    *size = len;
    for (int first = 0; first < links_len; first++) {
        int t = first;
        uint32_t x = d, y = e;
        for (;;) {
            uint32_t nx = ROW(table, x)[links[t]], ny = ROW(table, y)[links[t]];
            if ((nx == x) != (ny == y) || (nx == d) != (ny == e))
                return 0;
            if (nx == x)
                break;
            if (nx == d)
                return 1;
            pairs[len][0] = x = nx;
            pairs[len++][1] = y = ny;
            *size = len;
            if (links_len < 2)
                return 1;
            t ^= 1;
        }
    }
    return 1;
}

/* Sorts a few slots, rising. */
static void sort_few(uint32_t *a, uint32_t len)
{
    for (uint32_t x = 1; x < len; x++) {
        uint32_t v = a[x], y = x;
        for (; y > 0 && a[y - 1] > v; y--)
            a[y] = a[y - 1];
        a[y] = v;
    }
}

/* Sorts slots, rising: by the low byte, then by the high one. */
static void sort_by_bytes(uint32_t *a, uint32_t len)
{
    uint32_t *from = a, *to = work;
    for (int shift = 0; shift < 16; shift += 8) {
        uint32_t start[257] = {0}, *swap = from;
        for (uint32_t x = 0; x < len; x++)
            start[(from[x] >> shift & 255) + 1]++;
        for (int b = 0; b < 256; b++)
            start[b + 1] += start[b];
        for (uint32_t x = 0; x < len; x++)
            to[start[from[x] >> shift & 255]++] = from[x];
        from = to;
        to = swap;
    }
}

/* The slots of both columns of the pairs, rising and without repeats, into list; gives their
 * number. They are sorted; but where they are many beside all slots, they are set in a byte map and
 * read back. */
static uint32_t rising(uint32_t size, uint32_t slots)
{
    if (size > 8 && size > slots / 64) {
        memset(seen, 0, slots);
        for (uint32_t p = 0; p < size; p++)
            seen[pairs[p][0]] = seen[pairs[p][1]] = 1;
        return gather(seen, slots, list);
    }
    for (uint32_t p = 0; p < size; p++) {
        list[p] = pairs[p][0];
        list[size + p] = pairs[p][1];
    }
    if (size > 8)
        sort_by_bytes(list, 2 * size);
    else
        sort_few(list, 2 * size);
    uint32_t len = 1;
    for (uint32_t x = 1; x < 2 * size; x++)
        if (list[x] != list[len - 1])
            list[len++] = list[x];
    return len;
}

/* Sew behind gate 5, in a map, which it stays: the time goes by the two sides. */
static answer sew_in_map(uint32_t n, uint32_t *table, uint32_t slots,
                         uint32_t *journal, size_t journal_len, uint32_t tag,
                         uint32_t i, uint32_t d, uint32_t e)
{
    if (i > n)
        return refuse(6);
    if (!live(table, slots, d) || !live(table, slots, e))
        return refuse(7);
    uint32_t links[2], size;
    int links_len = side_links(n, i, links);
    int paired = side_pairs(table, links, links_len, d, e, &size);
    if (!paired)
        side_pairs(table, links, links_len, d, d, &size);
    for (uint32_t p = 0; p < size; p++)
        if (pairs[p][0] == e)
            return refuse(9);
    if (ROW(table, d)[i] != d || ROW(table, e)[i] != e)
        return refuse(10);
    if (!paired)
        return refuse(12);
    /* e is not in d's side, so the sides are disjoint; d and e are i-free, so all of them are. */
    uint32_t *at = begin_record(journal, journal_len, tag, 2 * size);
    if (!at)
        return refuse(15);
    for (uint32_t p = 0; p < size; p++) {
        ROW(table, pairs[p][0])[i] = pairs[p][1];
        ROW(table, pairs[p][1])[i] = pairs[p][0];
    }
    uint32_t len = rising(size, slots);
    for (uint32_t x = 0; x < len; x++)
        at = put(at, 4 * list[x] + i, list[x], ROW(table, list[x])[i]);
    return accept(0, 2 * size);
}

static answer sew(uint32_t n, uint32_t *table, size_t table_len,
                  uint32_t *journal, size_t journal_len, uint32_t tag,
                  uint32_t i, uint32_t d, uint32_t e)
{
    answer gated = map_gate(n, table, table_len, journal, journal_len);
    if (gated.no)
        return gated;
    return sew_in_map(n, table, (uint32_t)(table_len / 4), journal, journal_len, tag, i, d, e);
}

uint32_t YARD(sew)(uint32_t n, uint32_t *table, size_t table_len,
                   uint32_t *journal, size_t journal_len, uint32_t tag,
                   uint32_t i, uint32_t d, uint32_t e, uint32_t *place, uint32_t *count)
{
    return give(sew(n, table, table_len, journal, journal_len, tag, i, d, e), place, count);
}

/* Items of three words: i, d, e. */
static answer sew_list(uint32_t n, uint32_t *table, size_t table_len,
                       uint32_t *journal, size_t journal_len, uint32_t tag,
                       const uint32_t *items, size_t items_len)
{
    answer gated = map_gate(n, table, table_len, journal, journal_len);
    if (gated.no)
        return gated;
    if (items_len % 3 != 0)
        return refuse(38);
    uint32_t slots = (uint32_t)(table_len / 4), changed = 0;
    for (size_t x = 0; x < items_len; x += 3) {
        answer a = sew_in_map(n, table, slots, journal, journal_len, tag,
                              items[x], items[x + 1], items[x + 2]);
        if (a.no)
            return (answer){a.no, (uint32_t)(x / 3) + 1, changed};
        changed += a.count;
    }
    return accept(0, changed);
}

uint32_t YARD(sew_list)(uint32_t n, uint32_t *table, size_t table_len,
                        uint32_t *journal, size_t journal_len, uint32_t tag,
                        const uint32_t *items, size_t items_len,
                        uint32_t *place, uint32_t *count)
{
    return give(sew_list(n, table, table_len, journal, journal_len, tag, items, items_len),
                place, count);
}

static answer unsew(uint32_t n, uint32_t *table, size_t table_len,
                    uint32_t *journal, size_t journal_len, uint32_t tag, uint32_t i, uint32_t d)
{
    answer gated = map_gate(n, table, table_len, journal, journal_len);
    if (gated.no)
        return gated;
    uint32_t slots = (uint32_t)(table_len / 4);
    if (i > n)
        return refuse(6);
    if (!live(table, slots, d))
        return refuse(7);
    if (ROW(table, d)[i] == d)
        return refuse(11);
    uint32_t links[2], size;
    int links_len = side_links(n, i, links);
    side_pairs(table, links, links_len, d, d, &size);
    for (uint32_t p = 0; p < size; p++)
        pairs[p][1] = ROW(table, pairs[p][0])[i];
    /* d is not i-free, so no dart of its side is: every listed entry changes. A side may be
     * its own partner, and then each dart is listed once. */
    uint32_t len = rising(size, slots);
    uint32_t *at = begin_record(journal, journal_len, tag, len);
    if (!at)
        return refuse(15);
    for (uint32_t x = 0; x < len; x++) {
        uint32_t *link = ROW(table, list[x]) + i;
        at = put(at, 4 * list[x] + i, *link, list[x]);
        *link = list[x];
    }
    return accept(0, len);
}

uint32_t YARD(unsew)(uint32_t n, uint32_t *table, size_t table_len,
                     uint32_t *journal, size_t journal_len, uint32_t tag,
                     uint32_t i, uint32_t d, uint32_t *place, uint32_t *count)
{
    return give(unsew(n, table, table_len, journal, journal_len, tag, i, d), place, count);
}

/* ---------------------------------------------------------------- remove */

INLINE answer remove_in(int n, uint32_t *restrict table, uint32_t slots, uint8_t *restrict marks,
                        uint32_t *restrict journal, size_t journal_len, uint32_t tag, uint32_t d)
{
    answer a = sheet_gate(n, table, slots, d);
    if (a.no)
        return a;
    spread(n, table, marks, slots, d);

    /* Removed darts, and (3) remaining darts whose link n leads to one. */
    uint32_t removed = 0, edge = 0;
    for (uint32_t x = 0; x < slots; x++) {
        removed += marks[x] == 1 || marks[x] == 2;
        edge += marks[x] == 3;
    }
    uint32_t *rec = begin_record(journal, journal_len, tag, 4 * removed + edge);
    if (!rec)
        return refuse(15);

    /* The record, rising, and the walks. They read link n of removed darts only, so link n of a
     * remaining dart is written at once; the removed rows are cleared after the last walk. */
    for (uint32_t at = 0; at < slots; at += 8) {
        if (bare(marks, at, slots))
            continue;
        uint32_t end = chunk_end(at, slots);
        for (uint32_t x = at; x < end; x++) {
            if (marks[x] == 3) {
                uint32_t old = ROW(table, x)[n], y = old;
                do
                    y = ROW(table, opposite(n, table, y))[n];
                while (marks[y] != 3);
                rec = put(rec, 4 * x + (uint32_t)n, old, y);
                ROW(table, x)[n] = y;
            } else if (marks[x]) {
                rec = put_old_row(rec, table, x);
            }
        }
    }
    for (uint32_t at = 0; at < slots; at += 8) {
        if (bare(marks, at, slots))
            continue;
        uint32_t end = chunk_end(at, slots);
        for (uint32_t x = at; x < end; x++)
            if (marks[x] && marks[x] != 3)
                memset(ROW(table, x), 0xFF, 4 * sizeof *table);
    }
    return accept(0, removed);
}

/* ---------------------------------------------------------------- split */

/* The lowest unused slots into fresh, at most `need`: those where seen is 0. */
static uint32_t find_fresh(uint32_t slots, uint32_t need)
{
    uint32_t found = 0, at = 0;
    while (at < slots && found < need) {
        if (slots - at >= 8 && eight(seen + at) == ONES) {
            at += 8;
            continue;
        }
        if (!seen[at])
            fresh[found++] = at;
        at++;
    }
    return found;
}

/* New dart j (0 for a or p, 1 for b or q, 2 for c or r) of the dart g of a sheet or wall. */
INLINE uint32_t new_dart(uint32_t g, uint32_t j)
{
    return fresh[where[g] + j];
}

INLINE void set_row(uint32_t *table, uint32_t d, uint32_t l0, uint32_t l1, uint32_t l2,
                    uint32_t l3)
{
    uint32_t *r = ROW(table, d);
    r[0] = l0;
    r[1] = l1;
    r[2] = l2;
    r[3] = l3;
}

/* The triples of the old darts in list, whose links i were as in work, and of the new ones in
 * fresh: two rising lists merged. */
INLINE void put_old_and_new(uint32_t *restrict rec, const uint32_t *restrict table, uint32_t size,
                            uint32_t need, uint32_t i)
{
    uint32_t q = 0;
    for (uint32_t r = 0; r < size; r++) {
        uint32_t g = list[r];
        while (q < need && fresh[q] < g)
            rec = put_new_row(rec, table, fresh[q++]);
        rec = put(rec, 4 * g + i, work[r], ROW(table, g)[i]);
    }
    while (q < need)
        rec = put_new_row(rec, table, fresh[q++]);
}

INLINE answer split_in(int n, uint32_t *restrict table, uint32_t slots, uint8_t *restrict marks,
                       uint32_t *restrict journal, size_t journal_len, uint32_t tag, uint32_t d)
{
    answer gated = sheet_gate(n, table, slots, d);
    if (gated.no)
        return gated;
    spread_result s = spread(n, table, marks, slots, d);
    if (s.crossing)
        return refuse(13);
    uint32_t need = NEW(n) * s.size;
    if (find_fresh(slots, need) < need)
        return refuse(14);
    uint32_t *rec = begin_record(journal, journal_len, tag, s.size * (1 + 4 * NEW(n)));
    if (!rec)
        return refuse(15);

    /* S rising in list; where[g] is the place of a(g) in fresh. */
    gather(marks, slots, list);
    for (uint32_t r = 0; r < s.size; r++)
        where[list[r]] = NEW(n) * r;

    /* One pass: link 0 of g is read before it is written and by no other dart of S (g.1 is outside
     * S, so g.1.0 is as before). The old values stay in work. */
    for (uint32_t r = 0; r < s.size; r++) {
        uint32_t g = list[r], *row = ROW(table, g);
        const uint32_t *f = fresh + NEW(n) * r;
        uint32_t across = ROW(table, ROW(table, row[1])[0])[1];
        uint32_t a = f[0], b = f[1];
        if (n == 3) {
            uint32_t c = f[2];
            set_row(table, a, g, b, new_dart(row[2], 0), new_dart(row[3], 0));
            set_row(table, b, new_dart(across, 1), a, c, new_dart(row[3], 1));
            set_row(table, c, new_dart(across, 2), new_dart(row[2], 2), b, new_dart(row[0], 2));
        } else {
            set_row(table, a, g, b, new_dart(row[2], 0), a);
            set_row(table, b, new_dart(across, 1), a, new_dart(row[0], 1), b);
        }
        work[r] = row[0];
        row[0] = a;
    }

    put_old_and_new(rec, table, s.size, need, 0);
    return accept(fresh[0], need);
}

/* ---------------------------------------------------------------- insert */

/* Whether each mark is 0 or 1, and 1 only on live slots, where seen is 1. */
static int drawn(const uint8_t *marks, uint32_t slots)
{
    uint64_t wrong = 0;
    uint32_t at = 0;
    for (; slots - at >= 8; at += 8)
        wrong |= eight(marks + at) & ~eight(seen + at);
    for (; at < slots; at++)
        wrong |= (uint64_t)(marks[at] & ~seen[at]);
    return wrong == 0;
}

/* 29 or 30 for the wall in list, or 0. */
INLINE uint32_t wall_fault(int n, const uint32_t *restrict table, const uint8_t *restrict marks,
                           uint32_t size)
{
    int closed = size > 0, sewn = 1;
    for (uint32_t x = 0; x < size; x++) {
        const uint32_t *r = ROW(table, list[x]);
        closed &= marks[r[0]] & marks[r[n]] & (n == 2 || marks[r[1]]);
        sewn &= r[n] != list[x];
    }
    return !closed ? 29 : !sewn ? 30 : 0;
}

/* The wall dart that the turn from h meets, or h if a free side ends the turn: it never comes back
 * to h otherwise, since no dart of a block cell is its own link n-1. */
INLINE uint32_t turn_from(int n, const uint32_t *restrict table, const uint8_t *restrict marks,
                          uint32_t h)
{
    uint32_t x = ROW(table, h)[n - 1];
    while (!marks[x]) {
        uint32_t y = ROW(table, x)[n];
        if (y == x)
            return h;
        x = ROW(table, y)[n - 1];
    }
    return x;
}

/* Next of each dart of the wall. A turn leads back the way it came, and for n = 3 link 0 of h turns
 * along with h, so each way is gone once; each dart outside the wall is on at most two of them. */
INLINE void find_nexts(int n, const uint32_t *restrict table, const uint8_t *restrict marks,
                       uint32_t size)
{
    for (uint32_t x = 0; x < size; x++)
        nexts[list[x]] = NONE;
    for (uint32_t x = 0; x < size; x++) {
        uint32_t h = list[x];
        if (nexts[h] != NONE)
            continue;
        uint32_t k = turn_from(n, table, marks, h);
        nexts[h] = k;
        nexts[k] = h;
        if (n == 3) {
            nexts[ROW(table, h)[0]] = ROW(table, k)[0];
            nexts[ROW(table, k)[0]] = ROW(table, h)[0];
        }
    }
}

/* Whether what is needed of next holds. Where h and h.n both end free, next is the dart itself and
 * passes too: h is not n-free, nor h.0, and its side is not folded. */
INLINE int nexts_fit(int n, const uint32_t *table, uint32_t size)
{
    int fit = 1;
    for (uint32_t x = 0; x < size; x++) {
        const uint32_t *r = ROW(table, list[x]);
        uint32_t k = nexts[list[x]];
        fit &= (ROW(table, k)[n] == nexts[r[n]]) & (k != r[n]);
        if (n == 3)
            fit &= (k != r[0]) & (k != ROW(table, r[0])[n]);
    }
    return fit;
}

/* Whether links 0..n-2, n and next connect the wall: side by side, each once, from one to those
 * that next leads to. Next goes along with link n, and for n = 3 with link 0, so one dart of each
 * edge of a side is enough. seen is 2 where it was; then it is 1 again. */
INLINE int wall_connected(int n, const uint32_t *restrict table, uint32_t size)
{
    uint32_t len = 0, reached = 0;
    work[len++] = list[0];
    while (len > 0) {
        uint32_t h = work[--len];
        if (seen[h] == 2)
            continue;
        for (int edge = 0; edge < (n == 3 ? 4 : 1); edge++) {
            uint32_t g = ROW(table, h)[0];
            seen[h] = seen[ROW(table, h)[n]] = seen[g] = seen[ROW(table, g)[n]] = 2;
            reached += 4;
            if (seen[nexts[h]] != 2)
                work[len++] = nexts[h];
            if (n == 2 && seen[nexts[g]] != 2)
                work[len++] = nexts[g];
            h = ROW(table, g)[1];
        }
    }
    for (uint32_t x = 0; x < size; x++)
        seen[list[x]] = 1;
    return reached == size;
}

INLINE answer insert_in(int n, uint32_t *restrict table, uint32_t slots,
                        const uint8_t *restrict marks, uint32_t *restrict journal,
                        size_t journal_len, uint32_t tag)
{
    uint32_t fault = block_fault(n, table, slots);
    if (fault != NONE)
        return map_ok((uint32_t)n, table, slots) ? refuse_at(8, fault)
                                                 : not_a_map((uint32_t)n, table, slots);
    if (!drawn(marks, slots))
        return refuse(28);
    uint32_t size = gather(marks, slots, list), no = wall_fault(n, table, marks, size);
    if (no)
        return refuse(no);
    find_nexts(n, table, marks, size);
    if (!nexts_fit(n, table, size))
        return refuse(31);
    if (!wall_connected(n, table, size))
        return refuse(32);
    uint32_t need = NEW(n) * size;
    if (find_fresh(slots, need) < need)
        return refuse(14);
    uint32_t *rec = begin_record(journal, journal_len, tag, size * (1 + 4 * NEW(n)));
    if (!rec)
        return refuse(15);

    /* where[h] is the place of p(h) in fresh. One pass: link n of h is read by h alone, before it is
     * written. The old values stay in work. */
    for (uint32_t x = 0; x < size; x++)
        where[list[x]] = NEW(n) * x;
    for (uint32_t x = 0; x < size; x++) {
        uint32_t h = list[x], k = nexts[h], *row = ROW(table, h);
        const uint32_t *f = fresh + NEW(n) * x;
        uint32_t p = f[0], q = f[1];
        if (n == 3) {
            uint32_t r = f[2];
            set_row(table, p, new_dart(row[0], 0), new_dart(row[1], 0), q, h);
            set_row(table, q, new_dart(row[0], 1), r, p, new_dart(k, 1));
            set_row(table, r, new_dart(row[3], 2), q, new_dart(row[1], 2), new_dart(k, 2));
        } else {
            set_row(table, p, new_dart(row[0], 0), q, h, p);
            set_row(table, q, new_dart(row[2], 1), p, new_dart(k, 1), q);
        }
        work[x] = row[n];
        row[n] = p;
    }
    put_old_and_new(rec, table, size, need, (uint32_t)n);
    return accept(fresh[0], need);
}

/* ---------------------------------------------------------------- the calls with a layer */

/* Gates 1 to 4 of remove, split and insert: 0 or the number. */
static uint32_t layer_gate(uint32_t n, size_t table_len, size_t marks_len,
                           const uint32_t *journal, size_t journal_len)
{
    uint32_t no = gate(n, table_len);
    if (no)
        return no;
    if (marks_len != table_len / 4)
        return 3;
    return journal_fits(journal, journal_len) ? 0 : 4;
}

uint32_t YARD(remove)(uint32_t n, uint32_t *table, size_t table_len,
                      uint8_t *marks, size_t marks_len, uint32_t *journal, size_t journal_len,
                      uint32_t tag, uint32_t d, uint32_t *place, uint32_t *count)
{
    uint32_t no = layer_gate(n, table_len, marks_len, journal, journal_len);
    if (no)
        return give(refuse(no), place, count);
    uint32_t slots = (uint32_t)marks_len;
    return give(n == 3 ? remove_in(3, table, slots, marks, journal, journal_len, tag, d)
                       : remove_in(2, table, slots, marks, journal, journal_len, tag, d),
                place, count);
}

uint32_t YARD(split)(uint32_t n, uint32_t *table, size_t table_len,
                     uint8_t *marks, size_t marks_len, uint32_t *journal, size_t journal_len,
                     uint32_t tag, uint32_t d, uint32_t *place, uint32_t *count)
{
    uint32_t no = layer_gate(n, table_len, marks_len, journal, journal_len);
    if (no)
        return give(refuse(no), place, count);
    uint32_t slots = (uint32_t)marks_len;
    return give(n == 3 ? split_in(3, table, slots, marks, journal, journal_len, tag, d)
                       : split_in(2, table, slots, marks, journal, journal_len, tag, d),
                place, count);
}

uint32_t YARD(insert)(uint32_t n, uint32_t *table, size_t table_len,
                      const uint8_t *marks, size_t marks_len,
                      uint32_t *journal, size_t journal_len, uint32_t tag,
                      uint32_t *place, uint32_t *count)
{
    uint32_t no = layer_gate(n, table_len, marks_len, journal, journal_len);
    if (no)
        return give(refuse(no), place, count);
    uint32_t slots = (uint32_t)marks_len;
    return give(n == 3 ? insert_in(3, table, slots, marks, journal, journal_len, tag)
                       : insert_in(2, table, slots, marks, journal, journal_len, tag),
                place, count);
}

/* ---------------------------------------------------------------- read_vtk: words */

/* What is left of a text. Its words stand between blanks, tabs and LF. */
typedef struct { const uint8_t *at, *end; } text;

INLINE int parting(uint8_t c)
{
    return (c == ' ') | (c == '\t') | (c == '\n');
}

INLINE void skip_parting(text *t)
{
    while (t->at < t->end && parting(*t->at))
        t->at++;
}

/* Passes `words` words, with any bytes; 0 if there are fewer. A block of bytes that ends fewer of
 * them than are left is passed at once. */
static int pass_words(text *t, uint64_t words)
{
    enum { BLOCK = 64 };
    while (t->end - t->at > BLOCK) {
        uint8_t ends = 0;
        for (int k = 0; k < BLOCK; k++)
            ends += parting(t->at[k]) < parting(t->at[k + 1]);
        if (ends >= words)
            break;
        words -= ends;
        t->at += BLOCK;
    }
    for (; words > 0; words--) {
        skip_parting(t);
        if (t->at == t->end)
            return 0;
        while (t->at < t->end && !parting(*t->at))
            t->at++;
    }
    return 1;
}

/* Passes these bytes, if the text begins with them. */
static int pass_bytes(text *t, const char *bytes)
{
    size_t len = strlen(bytes);
    if ((size_t)(t->end - t->at) < len || memcmp(t->at, bytes, len) != 0)
        return 0;
    t->at += len;
    return 1;
}

/* Passes the next word, if it is this one. */
static int pass_word(text *t, const char *word)
{
    skip_parting(t);
    return pass_bytes(t, word) && (t->at == t->end || parting(*t->at));
}

/* No count or number of a text is as large. */
#define TOO_LARGE UINT64_C(1000000000000000000)

/* Passes the next word, if it is a plain decimal; the value of a larger one is TOO_LARGE. */
INLINE int pass_number(text *t, uint64_t *value)
{
    const uint8_t *at, *end = t->end;
    uint64_t v;
    skip_parting(t);
    at = t->at;
    if (at == end || (uint8_t)(*at - '0') > 9)
        return 0;
    v = (uint64_t)(*at++ - '0');
    if (v > 0)
        for (; at < end && (uint8_t)(*at - '0') <= 9; at++) {
            v = 10 * v + (uint64_t)(*at - '0');
            if (v > TOO_LARGE)
                v = TOO_LARGE;
        }
    if (at < end && !parting(*at))
        return 0;
    t->at = at;
    *value = v;
    return 1;
}

/* ---------------------------------------------------------------- read_vtk: the form */

#define MOST_CELLS (MAX_SLOTS / 48)      /* that a table has room for */

static uint32_t few_corners[MOST_CELLS][8];

/* The cells of a text: the eight vertices of each, as listed, where each has eight. A text with more
 * than 2^32 points has above 2^34 bytes; it is not asked for. */
typedef struct {
    size_t len;
    uint32_t (*corners)[8];              /* NULL if some row has not eight numbers */
    int repeated;                        /* whether one has the same vertex twice */
} cells;

/* More than a table takes are lent by the C library. */
static void *lend(void *few, int fits, size_t bytes)
{
    void *lent = fits ? few : malloc(bytes);
    if (!lent)
        abort();
    return lent;
}

static void give_back(void *lent, const void *few)
{
    if (lent != few)
        free(lent);
}

INLINE int has_repeated(const uint32_t v[8])
{
    int same = 0;
    for (int x = 0; x < 8; x++)
        for (int y = 0; y < x; y++)
            same |= v[x] == v[y];
    return same;
}

/* Passes a row: its length and so many numbers below `points`. Eight go to v. */
INLINE int pass_row(text *t, uint64_t points, uint64_t *len, uint32_t v[8])
{
    uint64_t number;
    if (!pass_number(t, len))
        return 0;
    for (uint64_t x = 0; x < *len; x++) {
        if (!pass_number(t, &number) || number >= points)
            return 0;
        v[x % 8] = (uint32_t)number;
    }
    return 1;
}

/* Passes the rows. The vertices are kept as long as each row has eight numbers. */
static int pass_rows(text *t, uint64_t points, uint64_t size, cells *c)
{
    uint32_t other[8];
    uint64_t words = 0, len;
    for (size_t x = 0; x < c->len; x++) {
        uint32_t *v = c->corners ? c->corners[x] : other;
        if (!pass_row(t, points, &len, v))
            return 0;
        words += 1 + len;
        if (c->corners && len == 8)
            c->repeated |= has_repeated(v);
        else if (c->corners) {
            give_back(c->corners, few_corners);
            c->corners = NULL;
        }
    }
    return words == size;
}

/* Passes the types. Gives 0, or 19 if a row of type 12 has not eight numbers, or 20. The rows are
 * gone through again beside them where not all have eight. */
static uint32_t pass_types(text *t, text rows, const cells *c)
{
    int others = 0;
    uint64_t type, len = 8;
    for (size_t x = 0; x < c->len; x++) {
        if (!c->corners && (!pass_number(&rows, &len) || !pass_words(&rows, len)))
            return 19;
        if (!pass_number(t, &type) || (type == 12 && len != 8))
            return 19;
        others |= type != 12;
    }
    skip_parting(t);
    return t->at != t->end ? 19 : others ? 20 : 0;
}

/* Reads the text up to 20: the number, and the cells. */
static uint32_t read_form(text t, cells *c)
{
    uint64_t points, len, types, size;
    *c = (cells){0, NULL, 0};
    if (!pass_bytes(&t, "# vtk DataFile Version 2.0\n")
        && !pass_bytes(&t, "# vtk DataFile Version 3.0\n"))
        return 19;
    t.at = memchr(t.at, '\n', (size_t)(t.end - t.at));
    if (!t.at || !pass_word(&t, "ASCII") || !pass_word(&t, "DATASET")
        || !pass_word(&t, "UNSTRUCTURED_GRID"))
        return 19;
    if (!pass_word(&t, "POINTS") || !pass_number(&t, &points) || !pass_words(&t, 1)
        || !pass_words(&t, 3 * points))
        return 19;
    if (!pass_word(&t, "CELLS") || !pass_number(&t, &len) || len == 0 || !pass_number(&t, &size))
        return 19;
    /* A row of eight numbers has 18 bytes or more, with those behind its words. */
    c->len = len;
    if (len <= (size_t)(t.end - t.at) / 18)
        c->corners = lend(few_corners, len <= MOST_CELLS, len * sizeof *c->corners);
    text rows = t;
    if (!pass_rows(&t, points, size, c) || !pass_word(&t, "CELL_TYPES") || !pass_number(&t, &types)
        || types != len)
        return 19;
    return pass_types(&t, rows, c);
}

/* ---------------------------------------------------------------- read_vtk: faces */

/* The faces of a cell, -z +z -y +y -x +x: their vertices, as listed in a text, and their darts. From
 * dart to dart it goes by links 0 and 1 in turn; every second one, the first too, begins an edge. */
static const uint8_t face_corners[6][4] = {
    {0, 1, 2, 3}, {4, 5, 6, 7}, {0, 1, 5, 4}, {3, 2, 6, 7}, {0, 3, 7, 4}, {1, 2, 6, 5},
};
static const uint8_t face_darts[6][8] = {
    {0, 1, 17, 19, 3, 2, 18, 16},   {4, 5, 21, 23, 7, 6, 22, 20},
    {8, 9, 33, 37, 13, 12, 36, 32}, {10, 11, 35, 39, 15, 14, 38, 34},
    {24, 26, 42, 46, 30, 28, 44, 40}, {25, 27, 43, 47, 31, 29, 45, 41},
};

/* A face: its vertices, rising; then what is not compared: where its least vertex stands, whether
 * from there the lower neighbour comes next, which of the rising ones is opposite, and the face with
 * the same vertices: itself if there is none. */
typedef struct {
    uint32_t v[4];
    uint8_t least, forth, opposite;
    uint32_t mate;
} face;

#define MOST_FACES (6 * MOST_CELLS)
#define MOST_BUCKETS 16384               /* at least two for each face */

static face few_faces[MOST_FACES];
static uint32_t few_buckets[MOST_BUCKETS];

INLINE face face_of(const uint32_t v[8], const uint8_t at[4], uint32_t itself)
{
    uint32_t u[4] = {v[at[0]], v[at[1]], v[at[2]], v[at[3]]};
    uint8_t least = 0;
    for (uint8_t x = 1; x < 4; x++)
        least = u[x] < u[least] ? x : least;
    uint32_t next = u[(least + 1) & 3], over = u[(least + 2) & 3], last = u[(least + 3) & 3];
    uint8_t forth = next < last;
    uint32_t lower = forth ? next : last, upper = forth ? last : next;
    face f = {{u[least], lower, over, upper}, least, forth, 2, itself};
    if (over < lower) {
        f.v[1] = over;
        f.v[2] = lower;
        f.opposite = 1;
    } else if (over > upper) {
        f.v[2] = upper;
        f.v[3] = over;
        f.opposite = 3;
    }
    return f;
}

INLINE uint32_t bucket_of(const face *f, uint32_t mask)
{
    uint64_t h = (f->v[0] | (uint64_t)f->v[1] << 32) * UINT64_C(0x9E3779B97F4A7C15);
    h = (h ^ h >> 29 ^ (f->v[2] | (uint64_t)f->v[3] << 32)) * UINT64_C(0xBF58476D1CE4E5B9);
    return (uint32_t)(h >> 32) & mask;
}

/* Finds the mates of all faces: 0, 22 or 23. A bucket holds 1 + a face, or 0. */
static uint32_t pair_faces(const cells *c, face *faces, uint32_t *buckets, uint32_t mask)
{
    int turned = 0;
    for (size_t x = 0; x < c->len; x++)
        for (uint32_t k = 0; k < 6; k++) {
            uint32_t id = (uint32_t)(6 * x + k);
            face *f = faces + id, *g;
            *f = face_of(c->corners[x], face_corners[k], id);
            uint32_t b = bucket_of(f, mask);
            for (; buckets[b] != 0; b = (b + 1) & mask)
                if (memcmp(faces[buckets[b] - 1].v, f->v, sizeof f->v) == 0)
                    break;
            if (buckets[b] == 0) {
                buckets[b] = id + 1;
                continue;
            }
            g = faces + (buckets[b] - 1);
            if (g->mate != buckets[b] - 1)
                return 22;
            turned |= g->opposite != f->opposite;
            g->mate = id;
            f->mate = buckets[b] - 1;
        }
    return turned ? 23 : 0;
}

/* Sews each face to its mate, vertex to vertex: from the dart at the least vertex, along the edge
 * towards its lower neighbour, round both. */
static void sew_faces(uint32_t *restrict table, const face *restrict faces, uint32_t len)
{
    for (uint32_t x = 0; x < len; x++) {
        const face *f = faces + x;
        uint32_t y = f->mate;
        if (y == x)
            continue;
        const uint8_t *own = face_darts[x % 6], *its = face_darts[y % 6];
        uint32_t a = 2u * f->least + 7 + f->forth, by = f->forth ? 1 : 7;
        uint32_t b = 2u * faces[y].least + 7 + faces[y].forth, by_its = faces[y].forth ? 1 : 7;
        for (uint32_t step = 0; step < 8; step++, a += by, b += by_its)
            ROW(table, 48 * (x / 6) + own[a & 7])[3] = 48 * (y / 6) + its[b & 7];
    }
}

/* ---------------------------------------------------------------- read_vtk */

/* Puts the cells, with their faces sewn, into the first slots. */
static void put_cells(uint32_t *restrict table, const face *faces, uint32_t len)
{
    uint32_t one[192];
    for (uint32_t k = 0; k < 48; k++)
        for (int i = 0; i < 4; i++)
            one[4 * k + (uint32_t)i] = cell_link(3, k, i);
    for (uint32_t x = 0; x < len; x++)
        for (uint32_t k = 0; k < 192; k++)
            table[192 * (size_t)x + k] = 48 * x + one[k];
    sew_faces(table, faces, 6 * len);
}

/* The cells of a text are known, and no vertex is repeated. */
static answer read_cells(uint32_t *table, uint32_t slots, uint32_t *journal, size_t journal_len,
                         uint32_t tag, const cells *c)
{
    int fits = c->len <= MOST_CELLS;
    size_t many = 16;
    while (many < 12 * c->len)
        many *= 2;
    face *faces = lend(few_faces, fits, 6 * c->len * sizeof *faces);
    uint32_t *buckets = lend(few_buckets, fits, many * sizeof *buckets);
    memset(buckets, 0, many * sizeof *buckets);
    uint32_t no = pair_faces(c, faces, buckets, (uint32_t)(many - 1)), *at = NULL;
    uint32_t len = (uint32_t)c->len;
    if (!no && 48 * c->len > slots)
        no = 14;
    if (!no && !(at = begin_record(journal, journal_len, tag, 192 * len)))
        no = 15;
    if (!no) {
        put_cells(table, faces, len);
        for (uint32_t d = 0; d < 48 * len; d++)
            at = put_new_row(at, table, d);
    }
    give_back(faces, few_faces);
    give_back(buckets, few_buckets);
    return no ? refuse(no) : accept(0, 48 * len);
}

/* Whether no slot is live. */
static int empty(const uint32_t *table, size_t table_len)
{
    uint32_t all = NONE;
    for (size_t x = 0; x < table_len; x++)
        all &= table[x];
    return all == NONE;
}

static answer read_vtk(uint32_t n, uint32_t *table, size_t table_len, uint32_t *journal,
                       size_t journal_len, uint32_t tag, text t)
{
    uint32_t no = n == 2 ? 1 : gate(n, table_len);
    if (!no && !journal_fits(journal, journal_len))
        no = 4;
    if (no)
        return refuse(no);
    uint32_t slots = (uint32_t)(table_len / 4);
    if (!empty(table, table_len))
        return map_ok(3, table, slots) ? refuse(18) : not_a_map(3, table, slots);
    cells c;
    no = read_form(t, &c);
    if (!no && c.repeated)
        no = 21;
    answer a = no ? refuse(no) : read_cells(table, slots, journal, journal_len, tag, &c);
    if (c.corners)
        give_back(c.corners, few_corners);
    return a;
}

uint32_t YARD(read_vtk)(uint32_t n, uint32_t *table, size_t table_len,
                        uint32_t *journal, size_t journal_len, uint32_t tag,
                        const uint8_t *bytes, size_t bytes_len, uint32_t *place, uint32_t *count)
{
    text t = {bytes, bytes + bytes_len};
    return give(read_vtk(n, table, table_len, journal, journal_len, tag, t), place, count);
}

/* ---------------------------------------------------------------- undo, redo */

/* Whether slot x is unused or keeps the local rules; a number past the table is no slot. */
INLINE int fine(int n, const uint32_t *table, uint32_t slots, uint32_t x)
{
    return x >= slots || unused(table, x)
        || (links_in_range(n, table, slots, x) && local_fault(n, table, x) == 0);
}

/* Whether the slots touched by the triples, and those they led to before, keep the rules.
 * was: which word of a triple is the replaced value. */
INLINE int near_ok(int n, const uint32_t *table, uint32_t slots, const uint32_t *triples,
                   uint32_t k, uint32_t was)
{
    for (uint32_t t = 0; t < k;) {
        uint32_t x = triples[3 * t] / 4, before[4];
        memcpy(before, ROW(table, x), sizeof before);
        for (; t < k && triples[3 * t] / 4 == x; t++)
            before[triples[3 * t] % 4] = triples[3 * t + was];
        if (!fine(n, table, slots, x))
            return 0;
        for (int i = 0; i < 4; i++)
            if (!fine(n, table, slots, before[i]))
                return 0;
    }
    return 1;
}

static answer replay(uint32_t n, uint32_t *table, size_t table_len,
                     uint32_t *journal, size_t journal_len, int back)
{
    answer gated = map_gate(n, table, table_len, journal, journal_len);
    if (gated.no)
        return gated;
    uint32_t slots = (uint32_t)(table_len / 4);

    /* Where the record lies: its first count, its tag, its triples, its last count. */
    uint32_t cursor = journal[0], space = back ? cursor - 2 : journal[1] - cursor;
    if (space == 0)
        return refuse(16);
    uint32_t k = back ? journal[cursor - 1] : journal[cursor];
    uint64_t words = 3 * (uint64_t)k + 3;
    if (k == 0 || words > space)
        return refuse(17);
    uint32_t from = back ? cursor - (uint32_t)words : cursor;
    uint32_t to = from + (uint32_t)words;
    if (journal[from] != journal[to - 1])
        return refuse(17);

    /* Soundness of the triples, and the number of slots they touch. */
    const uint32_t *triples = journal + from + 2;
    uint32_t now = back ? 2 : 1, then = back ? 1 : 2;
    uint32_t touched = 0;
    for (uint32_t t = 0; t < k; t++) {
        const uint32_t *p = triples + 3 * t;
        if ((t > 0 && p[-3] >= p[0]) || p[0] >= table_len || p[1] == p[2] || table[p[0]] != p[now])
            return refuse(17);
        touched += t == 0 || p[-3] / 4 != p[0] / 4;
    }
    for (uint32_t t = 0; t < k; t++)
        table[triples[3 * t]] = triples[3 * t + then];

    /* The table was a map and the rules are local to a slot and its neighbours, so only touched
     * slots and those next to them before need a second look. */
    int ok = 5 * touched >= slots ? map_ok(n, table, slots)
           : n == 3 ? near_ok(3, table, slots, triples, k, now)
                    : near_ok(2, table, slots, triples, k, now);
    if (!ok) {
        for (uint32_t t = 0; t < k; t++)
            table[triples[3 * t]] = triples[3 * t + now];
        return refuse(17);
    }
    journal[0] = back ? from : to;
    return accept(journal[from + 1], k);
}

uint32_t YARD(undo)(uint32_t n, uint32_t *table, size_t table_len,
                    uint32_t *journal, size_t journal_len, uint32_t *place, uint32_t *count)
{
    return give(replay(n, table, table_len, journal, journal_len, 1), place, count);
}

uint32_t YARD(redo)(uint32_t n, uint32_t *table, size_t table_len,
                    uint32_t *journal, size_t journal_len, uint32_t *place, uint32_t *count)
{
    return give(replay(n, table, table_len, journal, journal_len, 0), place, count);
}
