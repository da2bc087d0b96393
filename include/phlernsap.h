/* phlernsap.h - a proved topology kernel for hexahedral blocking: fourteen calls over lent buffers.
 * Version 1.4.
 *
 * This file is the manual for programs in C and C++. docs/REFERENCE.md has the same with drawings,
 * examples/c has programs: three_quads.c; grid.c, which builds and cuts 2 x 2 x 2 hexahedra;
 * insert.c, which puts a layer in along a wall; and read_vtk.c, which reads a blocking from a file.
 *
 *
 * 1. To build
 *
 *     scripts/prove library phlernsap      proves the kernel, writes crates/phlernsap/out/libphlernsap.a
 *     cc -I include program.c crates/phlernsap/out/libphlernsap.a -o program
 *
 * The library is x86-64 code for Linux. Of the C library it takes memset, and no more. It
 * allocates nothing, keeps nothing between calls and has no global state: calls on different buffers
 * may run on different threads.
 * Every call reads the whole table, to see that it is a map: its time is linear in the length of the
 * table, whatever it changes. phl_sew_list reads it once for its whole list; each item then takes what
 * its two sides take. phl_read_vtk also reads its text.
 *
 * Bytes of stack that a call takes at most, on a table of up to 2,048 slots and on a larger one
 * (bench/README.md has them for tables of other sizes, as measured):
 *
 *                     up to 2,048   above
 *     phl_check              3008   68592
 *     phl_orbit              4392  131368
 *     phl_sheet              3152   68736
 *     phl_pick               3152   68736
 *     phl_add                 336     336
 *     phl_sew                6792  197512
 *     phl_sew_list           6776  197496
 *     phl_unsew              2504   66248
 *     phl_remove             3200   68784
 *     phl_split              8208  230416
 *     phl_insert            14808  395736
 *     phl_read_vtk         158792  158792
 *     phl_undo                256     256
 *     phl_redo                256     256
 *
 *
 * 2. Words
 *
 *   dart      the smallest part of a blocking: a vertex of a cell, with an edge there and, for
 *             n = 3, a face at that edge. A quad has 8 darts, a hexahedron 48.
 *   slot      four entries of the table. Entry 4d+i is link i of dart d, written d.i. A slot whose
 *             four entries are PHL_UNUSED is unused, any other is live and is a dart.
 *   link      d.0 is the dart at the other end of the edge, d.1 the one at the other edge of the
 *             same vertex and face, d.2 at the other face of the same edge and vertex (for n = 2: in
 *             the quad across the edge), d.3 in the block across the face (for n = 2: d itself).
 *   free      d is i-free if d.i = d: nothing is sewn there.
 *   map       at each live slot d, every link is a live slot, d.i.i = d, going i, j, i, j comes back
 *             to d for i + 2 <= j <= n, and d.3 = d for n = 2. An empty table is a map.
 *   cell      a quad (n = 2) or a block (n = 3): all that is reached by the links 0 .. n-1.
 *   side      of d for link i: all that is reached from d by the links j <= n that differ from i by
 *             2 or more. For i = n it is an edge of a quad (2 darts), or a face of a block (8).
 *   block map a map in which each cell is a quad (a hexahedron), and no side for link n is sewn onto
 *             itself. phl_sheet, phl_pick, phl_remove, phl_split and phl_insert ask for one.
 *   sheet     of d: the least set of darts that has d and with each dart g also g.0, the opposite
 *             edge g.1.0.1, and g.2 .. g.n: all edges that are parallel to d's, from cell to cell.
 *   layer     the cells that a sheet goes through: what phl_remove takes out, phl_split cuts and
 *             phl_insert puts in.
 *   wall      what a caller marks for phl_insert: edges between two quads (n = 2), or faces between
 *             two blocks (n = 3), each with the darts on both sides of it.
 *   next      of a dart h of a wall: where the wall goes on at h's vertex (n = 2) or edge (n = 3).
 *             The turn from h goes link n-1, then n and n-1 by turns, from cell to cell. It ends at
 *             the first dart of the wall, which is next(h), or at one that is n-free: h ends free.
 *
 *
 * 3. The numbering of a new cell
 *
 * Vertex s of a cell has bit 1 for x, bit 2 for y, bit 4 for z. A dart stands at a vertex and has an
 * order of the axes: the first is along its edge, for n = 3 the first two lie in its face and the
 * last is across it.
 *
 *     n = 2   dart 4p + s, p = 0, 1 for the orders xy, yx
 *     n = 3   dart 8p + s, p = 0 .. 5 for the orders xyz, xzy, yxz, yzx, zxy, zyx
 *
 * counted from the cell's first slot, where the slots that it was given are consecutive. Link 0
 * flips the bit of the first axis in s, link 1 exchanges the first two axes, link 2 (n = 3) the last
 * two; the other links lead to the dart itself. In a quad:
 *
 *     2 ----------------- 3       0> is dart 0, at vertex 0 along x,
 *     | 2>             <3 |       4^ is dart 4, at vertex 0 along y
 *     | 6v             7v |
 *     |                   |       the edge towards +x has the darts 5 and 7, that towards -x 4 and 6,
 *     | 4^             5^ |       that towards +y 2 and 3, that towards -y 0 and 1
 *     | 0>             <1 |
 *     0 ----------------- 1
 *
 * So to put the cell B behind A (first slots a, b) along an axis, face to face and not turned:
 *
 *     n = 2, link 2   x: phl_sew a+5, b+4     y: a+2, b+0
 *     n = 3, link 3   x: phl_sew a+25, b+24   y: a+10, b+8     z: a+4, b+0
 *
 *
 * 4. Buffers
 *
 *   table    table_len entries, four to a slot; at most PHL_MAX_ENTRIES. Fill it with PHL_UNUSED.
 *   marks    marks_len bytes, one to a slot: marks_len = table_len / 4. phl_insert reads them and
 *            never writes them; for every other call what they hold does not matter.
 *   journal  journal_len words, 2 to PHL_MAX_JOURNAL. To begin: journal[0] = journal[1] = PHL_FRESH.
 *            Word 0 is the cursor, word 1 the end; from then on only the calls write it.
 *   list     list_len words, of any number, three to an item: i, d and e, as phl_sew takes them.
 *            phl_sew_list reads them and never writes them.
 *   queue    queue_len words, one to a slot: queue_len = table_len / 4. phl_pick works in them; what
 *            they hold before does not matter, and after an accepted call they may hold anything.
 *   text     text_len bytes, of any number and any content: a file as it was read. phl_read_vtk reads
 *            them and never writes them. No byte 0 need stand behind them.
 *   place, count   where the call stores place and count.
 *   taken    where phl_pick stores how many darts it took off the queue.
 *
 * What the caller owes: lengths are in elements, not in bytes, and are those of the buffers; each
 * pointer is aligned to its elements; no two buffers of one call overlap, place, count and taken
 * included; no pointer is null, but that a buffer of length 0 may have a null pointer. Nothing else: a
 * call takes any content of its buffers and any numbers, and ends in an answer.
 *
 *
 * 5. Answers
 *
 * Every call returns a number, 0 for accepted, else the reason why it is refused, and stores place
 * and count. The numbers are those of enum phl_number below, in the order of the checks: the first
 * that applies is given. A refusal leaves table, journal and queue as they were. Its place is 0 but
 * for 5, 24, 25, 26 and 8, its count 0 but for 5, 24, 25 and 26, taken is 0. It leaves the marks too,
 * but that phl_remove and phl_split refused by 13, 14 or 15 leave the sheet's marks.
 *
 * All that a call answers and leaves is determined by what it is given, but for the content of the
 * queue after an accepted phl_pick.
 *
 * phl_sew_list makes the checks up to 38 once, before any item, and its refusals by them are as
 * above. Then it checks each item in its turn, from 6 on. Where an item is refused, place says which,
 * counted from 1. The items before it stand, and count is the entries that they changed; the item
 * itself and those behind it change nothing.
 *
 *
 * 6. Steps, undo and redo
 *
 * phl_add, phl_sew, phl_unsew, phl_remove, phl_split, phl_insert and phl_read_vtk are operations. An
 * accepted one is a step: it writes a record of the k entries that it changed at the journal's cursor,
 * PHL_RECORD_WORDS(k) = 3k+3 words: k, the tag, k triples (entry, old value, new value) by rising
 * entry, k. Cursor and end go behind it, so what was undone before is gone. phl_undo and phl_redo put
 * values back and move the cursor. The tag is any number of the caller's, to name the step by: undo
 * and redo give it back as place. Each item of phl_sew_list is an operation of its own, and a step if
 * it is accepted, also where a later one is refused; all of them have the one tag. How many entries
 * change:
 *
 *     phl_add      32 (n = 2), 192 (n = 3)
 *     phl_sew      2 for each dart of the side: for i = n 4 (n = 2), 16 (n = 3)
 *     phl_unsew    the same (for a side sewn onto itself, 1 for each)
 *     phl_sew_list phl_sew's for each item: for i = n records of 15 words (n = 2), 51 (n = 3)
 *     phl_remove   4 for each dart removed, the marks 1 and 2, and 1 for each mark 3
 *     phl_split    9 (n = 2) or 13 (n = 3) for each dart of the sheet
 *     phl_insert   9 (n = 2) or 13 (n = 3) for each dart of the wall
 *     phl_read_vtk 192 for each cell
 *
 * From a map and a fresh journal, whatever calls with the same n follow, the table is what the steps
 * that stand make of the first table; undo is refused (16) exactly if none stands, redo exactly if
 * none is undone, and neither by 17. That is proved of buffers that only the calls write. What a
 * program writes besides, as below to grow a buffer, is its own affair: undo and redo test the record,
 * and that its result is a map, and else leave all as it was (17).
 *
 * 14, too few unused slots: give the table more. Copy it to a longer buffer, fill the new entries
 * with PHL_UNUSED, use longer marks and a longer queue, keep the journal: slots and records stay what
 * they are.
 *
 * 15, no room in the journal: give it more words, up to PHL_MAX_JOURNAL, by copying it to a longer
 * buffer; or forget the history: journal[0] = journal[1] = PHL_FRESH. The table stays, and nothing
 * can be undone past that point. A fresh journal of PHL_ANY_STEP words has room for any one step.
 * To forget only what is undone, so that redo is refused: journal[1] = journal[0].
 *
 * To save and load: the buffers are the state. Write the table's entries, and the journal's words
 * up to journal[1] if undo is to work after loading; there is nothing else. A file may be damaged:
 * phl_check says whether the table is a map, and no call takes that for granted.
 */
#ifndef PHLERNSAP_H
#define PHLERNSAP_H

#include <stddef.h>
#include <stdint.h>

#ifdef __cplusplus
extern "C" {
#endif

/* The version: MAJOR changes where a program, a table or a journal of before may not fit any more,
 * MINOR where something is new. 1.1 has phl_insert and its numbers, 1.2 phl_sew_list and 38, 1.3
 * phl_pick and 37, 1.4 phl_read_vtk and 18 to 23. */
#define PHL_VERSION_MAJOR 1
#define PHL_VERSION_MINOR 4
#define PHL_VERSION "1.4"

/* Each entry of an unused slot. */
#define PHL_UNUSED UINT32_C(4294967295)

/* The longest table, in slots and in entries, and the longest journal, in words. */
#define PHL_MAX_SLOTS 65536
#define PHL_MAX_ENTRIES 262144
#define PHL_MAX_JOURNAL 1048576

/* The first two words of a fresh journal. */
#define PHL_FRESH UINT32_C(2)

/* The words of a record of k changes, and of a fresh journal with room for any one step. */
#define PHL_RECORD_WORDS(k) (3 * (k) + 3)
#define PHL_ANY_STEP 786437

/* The numbers, in the order of the checks.
 *
 * 5, 24, 25 and 26 say that the table is not a map. Place is the least slot that breaks a rule, and
 * the number is of the first rule that this slot breaks; count is the index of the least link that
 * breaks it. A map that only these calls write never gives them. */
enum phl_number {
    PHL_ACCEPTED = 0,
    PHL_WRONG_DIMENSION = 1,     /* n is not 2 or 3, or for phl_read_vtk not 3 */
    PHL_WRONG_TABLE_LENGTH = 2,  /* table_len is no multiple of 4, or above PHL_MAX_ENTRIES */
    PHL_WRONG_MARKS_LENGTH = 3,  /* marks_len differs from the number of slots */
    PHL_WRONG_QUEUE_LENGTH = 37, /* queue_len differs from the number of slots */
    PHL_WRONG_JOURNAL = 4,       /* not 2 <= journal_len <= PHL_MAX_JOURNAL, or not
                                    2 <= cursor <= end <= journal_len */
    PHL_LINK_NOT_LIVE = 5,       /* a link leads to no live slot; so does PHL_UNUSED in a slot that
                                    is half used */
    PHL_LINK_NOT_RETURNED = 24,  /* link i leads to a dart whose link i leads elsewhere */
    PHL_PAIR_NOT_RETURNING = 25, /* i, j, i, j with i + 2 <= j <= n leads elsewhere, or meets a slot
                                    that is not live; count: i */
    PHL_LINK_3_NOT_FREE = 26,    /* n is 2, and link 3 leaves its dart; count: 3 */
    PHL_WRONG_LIST_LENGTH = 38,  /* list_len is no multiple of 3 */
    PHL_TABLE_NOT_EMPTY = 18,    /* a slot is live */
    PHL_TEXT_NOT_OF_THE_FORM = 19,
                                 /* the text is not of the form that phl_read_vtk takes */
    PHL_OTHER_CELL_TYPE = 20,    /* a cell is of another type than 12, the hexahedron */
    PHL_VERTEX_REPEATED = 21,    /* a cell has a vertex twice */
    PHL_THREE_CELLS_AT_A_FACE = 22,
                                 /* three cells or more have a face with the same four vertices */
    PHL_OTHER_VERTEX_ORDER = 23, /* two faces have the same four vertices, and not in the same cyclic
                                    order, read in either sense */
    PHL_OUT_OF_RANGE = 6,        /* i above n, or mask above 2^(n+1) - 1 */
    PHL_NOT_LIVE = 7,            /* d or e is not a live slot */
    PHL_NO_BLOCK_MAP = 8,        /* not a block map; place: the least slot in a wrong cell */
    PHL_WRONG_MARK = 28,         /* a mark is neither 0 nor 1, or an unused slot has the mark 1 */
    PHL_NO_WALL = 29,            /* no mark is 1, or a link 0 .. n-2 or n leads off the wall */
    PHL_WALL_FREE = 30,          /* a dart of the wall is n-free */
    PHL_WALL_ENDS_OR_CROSSES = 31,
                                 /* the wall ends inside, branches, crosses itself or turns back. At
                                    each dart h of it, h and h.n must both end free, or
                                    next(h).n = next(h.n), where next(h) is not h.n, nor for n = 3
                                    h.0 or h.0.n */
    PHL_WALL_NOT_CONNECTED = 32, /* the links 0 .. n-2, n and next do not connect the wall */
    PHL_SAME_SIDE = 9,           /* e is in d's side */
    PHL_NOT_FREE = 10,           /* d or e is not i-free */
    PHL_FREE = 11,               /* d is i-free */
    PHL_NO_PAIRING = 12,         /* no pairing of the two sides exists */
    PHL_CROSSES_ITSELF = 13,     /* the layer crosses itself: some g and g.1 are in the sheet */
    PHL_TOO_FEW_SLOTS = 14,      /* too few unused slots */
    PHL_NO_ROOM = 15,            /* the record is longer than the words from cursor to journal_len */
    PHL_NO_RECORD = 16,          /* nothing to undo, or to redo */
    PHL_BROKEN_RECORD = 17       /* the record is broken, or its result is no map */
};

/* Whether the table is a map. Count: 1 for a map, 2 for a block map. Numbers: 1 2 5 24 25 26. */
uint32_t phl_check(uint32_t n, const uint32_t *table, size_t table_len,
                   uint32_t *place, uint32_t *count);

/* What is reached from d by the links whose bit the mask has: bit i, of value 2^i, permits link i.
 * Marks: 1 reached, 0 otherwise. Count: darts reached. Place: 1 + the missing index if the mask has
 * exactly n ones, else 0. All links but i give the vertex, edge, face or block of d (i = 0, 1, 2, 3).
 * Numbers: 1 2 3 5 24 25 26 6 7. */
uint32_t phl_orbit(uint32_t n, const uint32_t *table, size_t table_len,
                   uint8_t *marks, size_t marks_len, uint32_t mask, uint32_t d,
                   uint32_t *place, uint32_t *count);

/* The sheet of d, its layer, and what touches the layer. Marks: 1 in the sheet, 2 at the other darts
 * of the layer, 3 at each dart outside it whose link n leads into it, 0 elsewhere. Count: darts of
 * the sheet, 4 (n = 2) or 16 (n = 3) in each cell that it passes once.
 * Numbers: 1 2 3 5 24 25 26 7 8. */
uint32_t phl_sheet(uint32_t n, const uint32_t *table, size_t table_len,
                   uint8_t *marks, size_t marks_len, uint32_t d,
                   uint32_t *place, uint32_t *count);

/* The sheet of d by a second engine, which is faster where the sheet is large: number, place, count
 * and marks are phl_sheet's for every input, but that 37 is given too. It keeps a queue in a lent
 * buffer of one uint32_t for each slot, and each dart of the sheet enters it once. Taken: darts taken
 * off the queue; it equals count if the call is accepted, and is 0 if it is refused.
 *
 * The queue overlaps none of table, marks, taken, place and count. What it holds before the call does
 * not matter. A refusal leaves it as it was; after an accepted call it may hold anything.
 * Numbers: 1 2 3 37 5 24 25 26 7 8. */
uint32_t phl_pick(uint32_t n, const uint32_t *table, size_t table_len,
                  uint8_t *marks, size_t marks_len, uint32_t *queue, size_t queue_len,
                  uint32_t d, uint32_t *taken, uint32_t *place, uint32_t *count);

/* Adds one free cell: its k-th dart in the k-th lowest unused slot. Place: its first slot. Count: 8
 * or 48. Numbers: 1 2 4 5 24 25 26 14 15. */
uint32_t phl_add(uint32_t n, uint32_t *table, size_t table_len,
                 uint32_t *journal, size_t journal_len, uint32_t tag,
                 uint32_t *place, uint32_t *count);

/* Sews the side of d to the side of e by link i, d to e: every other dart of the one side to that of
 * the other which the same links lead to. It is refused by 12 exactly if the sides do not fit so.
 * Count: entries changed. Numbers: 1 2 4 5 24 25 26 6 7 9 10 12 15. */
uint32_t phl_sew(uint32_t n, uint32_t *table, size_t table_len,
                 uint32_t *journal, size_t journal_len, uint32_t tag,
                 uint32_t i, uint32_t d, uint32_t e, uint32_t *place, uint32_t *count);

/* Sews a whole list: does what phl_sew would for its items (i, d, e), one after the other, each with
 * this tag and a record of its own, and stops at the first that is refused. The number is that item's,
 * or 0 if all are accepted, as those of an empty list are. Place: the item refused, counted from 1,
 * else 0. Count: entries changed by the items that stand: all of them, or those before the refused.
 *
 * To go on at the refused item: with the words from list + 3 * (place - 1) on. To take a list back:
 * phl_undo as many times as items stand, list_len / 3 or place - 1.
 * Numbers: 1 2 4 5 24 25 26 38 6 7 9 10 12 15. */
uint32_t phl_sew_list(uint32_t n, uint32_t *table, size_t table_len,
                      uint32_t *journal, size_t journal_len, uint32_t tag,
                      const uint32_t *list, size_t list_len,
                      uint32_t *place, uint32_t *count);

/* Makes each dart of d's side for link i, and the dart that its link i leads to, i-free. Count:
 * entries changed. Numbers: 1 2 4 5 24 25 26 6 7 11 15. */
uint32_t phl_unsew(uint32_t n, uint32_t *table, size_t table_len,
                   uint32_t *journal, size_t journal_len, uint32_t tag,
                   uint32_t i, uint32_t d, uint32_t *place, uint32_t *count);

/* Removes the layer of d: its slots become unused, and what lay on either side of it is linked; a
 * dart beyond which the layer was free becomes n-free. Marks: as phl_sheet gives them before the
 * change; the darts with 1 and 2 are removed, and link n of each dart with 3 changes. A layer that
 * crosses itself is removed like any other. Layers that have no cell in common (no dart has a 1 or a
 * 2 in the marks of both) can be removed in any order, and leave the same table. Count: darts removed.
 * Numbers: 1 2 3 4 5 24 25 26 7 8 15. */
uint32_t phl_remove(uint32_t n, uint32_t *table, size_t table_len,
                    uint8_t *marks, size_t marks_len, uint32_t *journal, size_t journal_len,
                    uint32_t tag, uint32_t d, uint32_t *place, uint32_t *count);

/* Splits each cell of the layer of d in two, across d's edge. Each dart g of the sheet, rising, gets
 * n new darts in the lowest unused slots. Marks: as phl_sheet gives them before the change. Place:
 * the first new slot. Count: darts added. Numbers: 1 2 3 4 5 24 25 26 7 8 13 14 15. */
uint32_t phl_split(uint32_t n, uint32_t *table, size_t table_len,
                   uint8_t *marks, size_t marks_len, uint32_t *journal, size_t journal_len,
                   uint32_t tag, uint32_t d, uint32_t *place, uint32_t *count);

/* Inserts a layer of new cells along a wall, one for each edge (n = 2) or face (n = 3) of it. The wall
 * is the darts with the mark 1; all others have the mark 0. It may begin and end where the map ends,
 * or be closed; it may not cross itself or end inside. Each dart h of the wall, rising, gets n new
 * darts in the lowest unused slots: p(h), which is sewn to h by link n, q(h), and for n = 3 r(h).
 * Marks: they stay. Place: the first new slot. Count: darts added.
 *
 * To take the layer out again: phl_remove at q(h) (n = 2), which is p(h).1, or at r(h) (n = 3), which
 * is p(h).2.1, where place is p(h) for the first h. Given room in the journal, it gives back the
 * table of before, entry for entry.
 * To mark a wall: phl_orbit from a dart of it, with the mask 5 (n = 2) or 11 (n = 3), marks its edge
 * or face; join what it marks for each of them.
 * Numbers: 1 2 3 4 5 24 25 26 8 28 29 30 31 32 14 15. */
uint32_t phl_insert(uint32_t n, uint32_t *table, size_t table_len,
                    const uint8_t *marks, size_t marks_len,
                    uint32_t *journal, size_t journal_len, uint32_t tag,
                    uint32_t *place, uint32_t *count);

/* Reads the hexahedra of a VTK legacy file into a table that has no live slot, and sews their faces. n
 * is 3. Place: 0. Count: darts added, 48 for each cell, in the slots from 0 on: dart k of the c-th
 * cell of the text, counted from 0, is in slot 48c + k. A cell is as phl_add makes one, with its eight
 * vertices, as listed, at s = 0, 1, 3, 2, 4, 5, 7, 6. Where two faces have the same four vertices in
 * the same cyclic order, read in either sense, they are sewn by link 3, vertex to vertex: each dart to
 * the one at the same vertex and edge. A vertex is the number of a point; two points are two vertices,
 * wherever they lie. The result is a block map.
 *
 * The form of the text:
 *
 *     # vtk DataFile Version 3.0      or 2.0: these bytes, and LF
 *     any title                       any bytes, and LF
 *     ASCII                           from here on words, between blanks, tabs or LF, as many as one
 *     DATASET UNSTRUCTURED_GRID       likes. Each other byte is part of a word, CR too
 *     POINTS p type                   any word for the type, then 3p words, of any kind: the places,
 *     x y z ..                        which are passed over
 *     CELLS c size                    c is 1 or more; then c rows, each its length and so many numbers
 *     8 v v v v v v v v ..            below p. size is the number of words in all rows
 *     CELL_TYPES c                    the same c; then c types. A row of type 12 has 8 numbers
 *     12 ..                           nothing but blanks, tabs and LF stands behind the last
 *
 * Keywords are in capitals. Counts, lengths, numbers and types are plain decimals: digits, without a
 * sign and without a leading 0, of any length. What does not fit is 19; a type other than 12 is 20, in
 * a text that is of the form. 20 to 23 are each looked for in the whole text before the next: a vertex
 * repeated in the last cell is told before three cells at a face of the first. All of them are told
 * before 14 and 15, also where the text has more cells than any table takes.
 *
 * A file of version 4.2, one with data behind the types, and one with lines and quads among the cells
 * are refused. To have such a file read: set its first line to version 3.0, end the text before
 * POINT_DATA or CELL_DATA, and let the mesher write its hexahedra only. Version 5.1 lists cells in
 * another way.
 * Numbers: 1 2 4 5 24 25 18 19 20 21 22 23 14 15. */
uint32_t phl_read_vtk(uint32_t n, uint32_t *table, size_t table_len,
                      uint32_t *journal, size_t journal_len, uint32_t tag,
                      const uint8_t *text, size_t text_len,
                      uint32_t *place, uint32_t *count);

/* Takes back the newest step that stands: puts back the old values of the record before the cursor.
 * Place: the step's tag. Count: entries changed. Numbers: 1 2 4 5 24 25 26 16 17. */
uint32_t phl_undo(uint32_t n, uint32_t *table, size_t table_len,
                  uint32_t *journal, size_t journal_len,
                  uint32_t *place, uint32_t *count);

/* Does the step again that was undone last: puts back the new values of the record at the cursor.
 * Place: the step's tag. Count: entries changed. Numbers: 1 2 4 5 24 25 26 16 17. */
uint32_t phl_redo(uint32_t n, uint32_t *table, size_t table_len,
                  uint32_t *journal, size_t journal_len,
                  uint32_t *place, uint32_t *count);

#ifdef __cplusplus
}
#endif
#endif
