/* header.c - includes the header, twice, and names all that it has. The script `run` compiles it as
 * C and as C++. */
#include "phlernsap.h"
#include "phlernsap.h"

const char *version(void) { return PHL_VERSION; }

/* Each call once; gives the sum of what they give back. */
uint32_t call_each(void)
{
    enum { SLOTS = 8, ENTRIES = 4 * SLOTS, WORDS = 2 + PHL_RECORD_WORDS(ENTRIES), TAG = 7 };
    static uint32_t table[ENTRIES], journal[WORDS], queue[SLOTS];
    static uint8_t marks[SLOTS];
    static const uint32_t list[3] = {2, 0, 4};
    static const uint8_t text[1] = {'#'};
    uint32_t place, count, taken, sum = 0;
    for (int k = 0; k < ENTRIES; k++)
        table[k] = PHL_UNUSED;
    journal[0] = journal[1] = PHL_FRESH;
    sum += phl_add(2, table, ENTRIES, journal, WORDS, TAG, &place, &count);
    sum += phl_check(2, table, ENTRIES, &place, &count);
    sum += phl_orbit(2, table, ENTRIES, marks, SLOTS, 3, 0, &place, &count);
    sum += phl_sheet(2, table, ENTRIES, marks, SLOTS, 0, &place, &count);
    sum += phl_pick(2, table, ENTRIES, marks, SLOTS, queue, SLOTS, 0, &taken, &place, &count);
    sum += phl_sew(2, table, ENTRIES, journal, WORDS, TAG, 2, 5, 2, &place, &count);
    sum += phl_sew_list(2, table, ENTRIES, journal, WORDS, TAG, list, 3, &place, &count);
    sum += phl_unsew(2, table, ENTRIES, journal, WORDS, TAG, 2, 5, &place, &count);
    sum += phl_remove(2, table, ENTRIES, marks, SLOTS, journal, WORDS, TAG, 0, &place, &count);
    sum += phl_split(2, table, ENTRIES, marks, SLOTS, journal, WORDS, TAG, 0, &place, &count);
    sum += phl_insert(2, table, ENTRIES, marks, SLOTS, journal, WORDS, TAG, &place, &count);
    sum += phl_read_vtk(3, table, ENTRIES, journal, WORDS, TAG, text, 1, &place, &count);
    sum += phl_undo(2, table, ENTRIES, journal, WORDS, &place, &count);
    sum += phl_redo(2, table, ENTRIES, journal, WORDS, &place, &count);
    return sum;
}

/* The bounds and the numbers; no two cases are alike. */
int kind_of(uint32_t x)
{
    switch (x) {
    case PHL_MAX_SLOTS:
    case PHL_MAX_ENTRIES:
    case PHL_MAX_JOURNAL:
    case PHL_ANY_STEP:
        return PHL_VERSION_MAJOR + PHL_VERSION_MINOR;
    case PHL_ACCEPTED:
    case PHL_WRONG_DIMENSION:
    case PHL_WRONG_TABLE_LENGTH:
    case PHL_WRONG_MARKS_LENGTH:
    case PHL_WRONG_QUEUE_LENGTH:
    case PHL_WRONG_JOURNAL:
    case PHL_LINK_NOT_LIVE:
    case PHL_LINK_NOT_RETURNED:
    case PHL_PAIR_NOT_RETURNING:
    case PHL_LINK_3_NOT_FREE:
    case PHL_WRONG_LIST_LENGTH:
    case PHL_TABLE_NOT_EMPTY:
    case PHL_TEXT_NOT_OF_THE_FORM:
    case PHL_OTHER_CELL_TYPE:
    case PHL_VERTEX_REPEATED:
    case PHL_THREE_CELLS_AT_A_FACE:
    case PHL_OTHER_VERTEX_ORDER:
    case PHL_OUT_OF_RANGE:
    case PHL_NOT_LIVE:
    case PHL_NO_BLOCK_MAP:
    case PHL_WRONG_MARK:
    case PHL_NO_WALL:
    case PHL_WALL_FREE:
    case PHL_WALL_ENDS_OR_CROSSES:
    case PHL_WALL_NOT_CONNECTED:
    case PHL_SAME_SIDE:
    case PHL_NOT_FREE:
    case PHL_FREE:
    case PHL_NO_PAIRING:
    case PHL_CROSSES_ITSELF:
    case PHL_TOO_FEW_SLOTS:
    case PHL_NO_ROOM:
    case PHL_NO_RECORD:
    case PHL_BROKEN_RECORD:
        return 1;
    default:
        return 0;
    }
}
