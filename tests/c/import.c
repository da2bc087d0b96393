/* import.c - the program import, with the yardstick's call: a VTK file from standard input, the map
 * that it gives to standard output. It works out what the files of examples/vtk expect. */
#include <stdio.h>
#include <stdlib.h>
#include <string.h>

#include "../../bench/impl.h"
#include "../../bench/maps.h"

static uint32_t table[MAX_ENTRIES], journal[MAX_JOURNAL];

/* All of standard input; *len gets its length. */
static uint8_t *read_input(size_t *len)
{
    size_t room = 1 << 16, got;
    uint8_t *text = malloc(room);
    for (*len = 0; text && (got = fread(text + *len, 1, room - *len, stdin)) > 0;) {
        *len += got;
        if (*len == room)
            text = realloc(text, room *= 2);
    }
    if (!text)
        exit(1);
    return text;
}

int main(void)
{
    size_t len;
    uint8_t *text = read_input(&len);
    uint32_t no, place, count;
    map_clear(table, MAX_SLOTS);
    journal[0] = journal[1] = PHL_FRESH;
    no = yard_read_vtk(3, table, MAX_ENTRIES, journal, MAX_JOURNAL, 0, text, len, &place, &count);
    free(text);
    if (no != PHL_ACCEPTED) {
        printf("no=%lu\nat=%lu\nn=%lu\n", (unsigned long)no, (unsigned long)place,
               (unsigned long)count);
        return 0;
    }
    printf("dim=3\nslots=%lu\n", (unsigned long)count);
    for (uint32_t d = 0; d < count; d++)
        printf("to=%lu,%lu,%lu,%lu\n", (unsigned long)table[4 * d],
               (unsigned long)table[4 * d + 1], (unsigned long)table[4 * d + 2],
               (unsigned long)table[4 * d + 3]);
    return 0;
}
