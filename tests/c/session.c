/* session.c - the session program, as docs/REFERENCE.md has it, with the yardstick's calls: standard
 * input to standard output. It works out what tests/sessions and the examples expect. */
#include <stdio.h>
#include <stdlib.h>
#include <string.h>

#include "../../bench/impl.h"
#include "../../bench/maps.h"

DEFINE_RUN(run_yard, yard_)

enum { MOST_SLOTS = 960, WORDS = 16384, LINE = 32 };   /* no line that fits has 32 bytes */

static uint32_t table[4 * MOST_SLOTS], journal[WORDS];
static uint8_t marks[MOST_SLOTS];

static unsigned long line_number;

/* The end, at a line that does not fit or is missing. */
static void bad(void)
{
    printf("bad=%lu\n", line_number);
    exit(0);
}

/* The next line, cut to LINE - 1 bytes; 0 if the input is at its end. */
static int next_line(char line[LINE])
{
    size_t len = 0;
    int c = getchar();
    line_number++;
    if (c == EOF)
        return 0;
    for (; c != '\n'; c = getchar()) {
        if (c == EOF)
            bad();
        if (len < LINE - 1)
            line[len++] = (char)(c == 0 ? '?' : c);
    }
    line[len] = 0;
    return 1;
}

/* What stands behind the key of a line. */
static const char *value_of(const char *line, const char *key)
{
    if (strncmp(line, key, strlen(key)) != 0)
        bad();
    return line + strlen(key);
}

/* The next line has this key and a number up to `most`: decimal, without leading zeros. */
static uint32_t next_number(const char *key, uint32_t most)
{
    char line[LINE];
    uint64_t number = 0;
    if (!next_line(line))
        bad();
    const char *value = value_of(line, key);
    if (value[0] == 0 || (value[0] == '0' && value[1] != 0))
        bad();
    for (; *value; value++) {
        if (*value < '0' || *value > '9')
            bad();
        number = 10 * number + (uint64_t)(*value - '0');
        if (number > most)
            bad();
    }
    return (uint32_t)number;
}

/* A session has neither lists nor walls nor queues. */
static enum call call_of(const char *name)
{
    int call = 0;
    while (call < CALLS && strcmp(name, call_name[call]) != 0)
        call++;
    if (call == CALLS || call == SEW_LIST || call == INSERT || call == PICK)
        bad();
    return (enum call)call;
}

static void show_table(const request *q)
{
    uint32_t slots = (uint32_t)q->marks_len;
    printf("live=%u\n", (unsigned)map_count_live(table, slots));
    for (uint32_t d = 0; d < slots; d++) {
        const uint32_t *to = table + 4 * d;
        if (map_live(table, d))
            printf("dart=%u\nto=%u,%u,%u,%u\n", (unsigned)d, (unsigned)to[0], (unsigned)to[1],
                   (unsigned)to[2], (unsigned)to[3]);
    }
}

int main(void)
{
    char line[LINE];
    request q = {CHECK, 0, table, 0, marks, 0, journal, WORDS, 0, 0, 0, 0, 0, NULL, 0,
                 NULL, 0, NULL, NULL, 0};
    q.n = next_number("dim=", NONE);
    q.marks_len = next_number("slots=", MOST_SLOTS);
    q.table_len = 4 * q.marks_len;
    map_clear(table, MOST_SLOTS);
    journal[0] = journal[1] = PHL_FRESH;
    while (next_line(line)) {
        uint32_t number, place = 0, count = 0;
        q.call = call_of(value_of(line, "op="));
        q.i = q.mask = next_number("i=", 255);
        q.d = next_number("d=", NONE);
        q.e = next_number("e=", NONE);
        number = run_yard(&q, &place, &count);
        printf("no=%u\nat=%u\nn=%u\n", (unsigned)number, (unsigned)place, (unsigned)count);
    }
    show_table(&q);
    return 0;
}
