/* trials.c - plays crates/trials/stdin with the yardstick's calls, standard input to standard
 * output: it works out crates/trials/stdout. The head of that script says what its lines do. */
#include <stdio.h>
#include <stdlib.h>
#include <string.h>

#include "../../bench/impl.h"
#include "../../bench/maps.h"

DEFINE_RUN(run_yard, yard_)

enum { SLOTS = MAX_SLOTS + 1, WORDS = 443000, LIST = 96, TEXT = 4096, LINE = 1000, MOST_NUMBERS = 3 };

static uint32_t table[4 * SLOTS], journal[WORDS], list[LIST], queue[SLOTS], taken;
static uint32_t queue_word;                /* each word of the queue that is lent */
static uint8_t marks[SLOTS], drawn[SLOTS], text[TEXT];

/* What the calls are given from here on. */
static request given = {CHECK, 0, table, 0, marks, 0, journal, 0, 0, 0, 0, 0, 0, list, 0,
                        queue, 0, &taken, text, 0};

/* The numbers of the line, and how many it has. */
static uint32_t number[MOST_NUMBERS];
static int numbers;

/* ---------------------------------------------------------------- what is printed */

static void show_word(uint32_t word)
{
    if (word == NONE)
        printf(" -");
    else
        printf(" %u", (unsigned)word);
}

static void show_words(const uint32_t *words, size_t from, size_t to)
{
    printf(":");
    for (size_t k = from; k < to; k++)
        show_word(words[k]);
}

static unsigned digest(const uint32_t *words, size_t len)
{
    uint64_t value = 1;
    for (size_t k = 0; k < len; k++)
        value = (31 * value + words[k]) % 65521;
    return (unsigned)value;
}

static void show_marks(const request *q)
{
    printf(", marks");
    for (size_t d = 0; d < q->marks_len; d++)
        printf("%s%u", d % 8 == 0 ? " " : "", (unsigned)marks[d]);
}

static int has_marks(enum call call)
{
    return call == ORBIT || call == SHEET || call == PICK || call == REMOVE || call == SPLIT
        || call == INSERT;
}

/* ---------------------------------------------------------------- lines */

static int queue_as_lent(const request *q)
{
    size_t k = 0;
    while (k < q->queue_len && queue[k] == queue_word)
        k++;
    return k == q->queue_len;
}

/* A call, on marks that are 9; insert, on those that are drawn. */
static void play_call(request q)
{
    uint32_t no, place = 0, count = 0;
    memset(marks, 9, sizeof marks);
    if (q.call == INSERT)
        memcpy(marks, drawn, sizeof marks);
    for (size_t k = 0; q.call == PICK && k < q.queue_len; k++)
        queue[k] = queue_word;
    no = run_yard(&q, &place, &count);
    printf(": number %u, place %u, count %u", (unsigned)no, (unsigned)place, (unsigned)count);
    if (q.call == PICK)
        printf(", taken %u%s", (unsigned)taken,
               no == 0 ? "" : queue_as_lent(&q) ? ", queue as lent" : ", queue changed");
    if (q.call >= ADD) {
        printf(", cursor %u, end %u, journal %u, table %u",
               q.journal_len > 0 ? (unsigned)journal[0] : 0,
               q.journal_len > 1 ? (unsigned)journal[1] : 0,
               digest(journal, q.journal_len), digest(table, q.table_len));
    }
    if (has_marks(q.call) && q.marks_len < 100)
        show_marks(&q);
}

static void play_scene(void)
{
    given.n = number[0];
    given.marks_len = number[1];
    given.table_len = 4 * given.marks_len;
    given.queue_len = number[1];
    queue_word = 9;
    given.journal_len = number[2];
    given.tag = 0;
    given.list_len = 0;
    given.text_len = 0;
    map_clear(table, number[1]);
    memset(drawn, 0, sizeof drawn);
    for (uint32_t k = 0; k < number[2]; k++)
        journal[k] = k < 2 ? PHL_FRESH : 9;
}

static void play_tile(uint32_t first, uint32_t width)
{
    for (size_t k = 4 * (size_t)(first + width); k < given.table_len; k++)
        table[k] = table[k - 4 * (size_t)width] + width;
    for (size_t d = (size_t)first + width; d < given.table_len / 4; d++)
        drawn[d] = drawn[d - width];
}

/* A word behind the list, if there is room for it. */
static void play_word(uint32_t word)
{
    if (given.list_len < LIST)
        list[given.list_len++] = word;
    else
        printf(" ?");
}

/* Sew_list, after which the list is empty. */
static void play_list(request q)
{
    q.call = SEW_LIST;
    play_call(q);
    given.list_len = 0;
}

/* A line behind the text, as far as there is room. */
static void play_text(const char *line)
{
    for (const char *at = line; given.text_len < TEXT; at++) {
        text[given.text_len++] = (uint8_t)(*at ? *at : '\n');
        if (*at == 0)
            return;
    }
}

/* Read_vtk, after which the text is empty. */
static void play_read(request q)
{
    q.call = READ_VTK;
    play_call(q);
    given.text_len = 0;
}

/* Whether the line has this first word and so many numbers. */
static int is(const char *line, const char *word, int count)
{
    size_t len = strlen(word);
    return numbers == count && strncmp(line, word, len) == 0
        && (line[len] == 0 || line[len] == ' ');
}

/* Whether the line is a call, other than sew_list and read_vtk; its arguments go to q. */
static int is_call(const char *line, request *q)
{
    static const int arguments[CALLS] = {0, 2, 1, 1, 0, 3, 0, 2, 1, 1, 0, 0, 0, 0};
    for (int call = 0; call < CALLS; call++) {
        if (call == SEW_LIST || call == READ_VTK || !is(line, call_name[call], arguments[call]))
            continue;
        q->call = (enum call)call;
        q->i = q->mask = number[0];
        q->d = number[arguments[call] > 1 ? 1 : 0];
        q->e = number[2];
        return 1;
    }
    return 0;
}

/* Undo or redo, with another word in the journal for this call. */
static void play_with(enum call call, uint32_t at, uint32_t word)
{
    request q = given;
    uint32_t kept = journal[at];
    journal[at] = word;
    q.call = call;
    play_call(q);
    journal[at] = kept;
}

static void play(const char *line)
{
    request q = given;
    uint32_t a = number[0], b = number[1], c = number[2];
    if (line[0] == 0 || line[0] == '#')
        return;
    if (line[0] == '>')
        play_text(line + 1);
    else if (is_call(line, &q))
        play_call(q);
    else if (is(line, "undo with", 2))
        play_with(UNDO, a, b);
    else if (is(line, "redo with", 2))
        play_with(REDO, a, b);
    else if (is(line, "item", 3)) {
        play_word(a);
        play_word(b);
        play_word(c);
    } else if (is(line, "word", 1))
        play_word(a);
    else if (is(line, "sewlist", 0))
        play_list(q);
    else if (is(line, "readvtk", 0))
        play_read(q);
    else if (is(line, "scene", 3))
        play_scene();
    else if (is(line, "dim", 1))
        given.n = a;
    else if (is(line, "tag", 1))
        given.tag = a;
    else if (is(line, "lend", 3)) {
        given.table_len = a;
        given.marks_len = b;
        given.journal_len = c;
    } else if (is(line, "queue", 2) && a <= SLOTS) {
        given.queue_len = a;
        queue_word = b;
    } else if (is(line, "put", 3))
        table[4 * a + b] = c;
    else if (is(line, "write", 2))
        journal[a] = b;
    else if (is(line, "fill", 3)) {
        for (uint32_t k = a; k < b; k++)
            journal[k] = c;
    } else if (is(line, "mark", 3)) {
        for (uint32_t k = a; k < b && k < SLOTS; k++)
            drawn[k] = (uint8_t)c;
    } else if (is(line, "tile", 2))
        play_tile(a, b);
    else if (is(line, "links", 1))
        show_words(table, 4 * a, 4 * a + 4);
    else if (is(line, "table", 0))
        show_words(table, 0, given.table_len);
    else if (is(line, "words", 2))
        show_words(journal, a, b);
    else
        printf(" ?");
}

/* Digits that stand together are a number. */
static void find_numbers(const char *at)
{
    memset(number, 0, sizeof number);
    for (numbers = 0; *(at += strcspn(at, "0123456789")) != 0; numbers++) {
        char *end;
        unsigned long long value = strtoull(at, &end, 10);
        if (numbers < MOST_NUMBERS)
            number[numbers] = (uint32_t)value;
        at = end;
    }
}

int main(void)
{
    static char line[LINE];
    while (fgets(line, sizeof line, stdin)) {
        line[strcspn(line, "\n")] = 0;
        fputs(line, stdout);
        find_numbers(line);
        play(line);
        putchar('\n');
    }
    return 0;
}
