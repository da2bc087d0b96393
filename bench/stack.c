/* stack.c - how much stack each call takes: it runs on a stack that was filled with a pattern, and
 * the deepest byte that changed tells. One line per call and map, `stack call dim slots bytes`. */
#define _POSIX_C_SOURCE 200112L
#include <pthread.h>
#include <stdio.h>
#include <stdlib.h>
#include <string.h>

#include "impl.h"
#include "maps.h"
#include "meshes.h"

DEFINE_RUN(run_test, phl_)

enum { STACK = 4 << 20, PATTERN = 0xA5 };

static uint32_t table[MAX_ENTRIES];
static uint8_t marks[MAX_SLOTS];
static uint32_t journal[MAX_JOURNAL];
static uint32_t queue[MAX_SLOTS], off;     /* for pick, and what it took off */

static void *nothing(void *q) { return q; }

static void *one_call(void *q)
{
    uint32_t place, count;
    ((request *)q)->i = run_test(q, &place, &count);    /* the request is done: i holds its number */
    return NULL;
}

/* Bytes of a stack that a thread with this function takes. */
static size_t taken(void *(*run)(void *), request *q)
{
    void *stack;
    pthread_attr_t attr;
    pthread_t thread;
    if (posix_memalign(&stack, 4096, STACK))
        exit(1);
    memset(stack, PATTERN, STACK);
    pthread_attr_init(&attr);
    if (pthread_attr_setstack(&attr, stack, STACK) || pthread_create(&thread, &attr, run, q))
        exit(1);
    pthread_join(thread, NULL);
    size_t untouched = 0;
    while (untouched < STACK && ((unsigned char *)stack)[untouched] == PATTERN)
        untouched++;
    free(stack);
    return STACK - untouched;
}

static void measure_request(request q)
{
    request none = q;
    size_t base = taken(nothing, &none);
    size_t whole = taken(one_call, &q);
    printf("stack %s %u %u %zu number %u\n", call_name[q.call], (unsigned)q.n,
           (unsigned)(q.table_len / 4), whole - base, (unsigned)q.i);
}

static void measure(enum call call, uint32_t n, uint32_t slots, uint32_t i, uint32_t d, uint32_t e)
{
    const uint32_t item[3] = {i, d, e};
    request q = {call, n, table, 4 * (size_t)slots, marks, slots, journal, MAX_JOURNAL,
                 i, 2, d, e, 0, item, 3, queue, slots, &off, NULL, 0};
    measure_request(q);
}

/* Reading the file of a brick. */
static void measure_text(const uint32_t size[3], uint32_t slots)
{
    size_t len;
    uint8_t *text = vtk_of_brick(size, &len);
    request q = {READ_VTK, 3, table, 4 * (size_t)slots, marks, slots, journal, MAX_JOURNAL,
                 0, 0, 0, 0, 0, NULL, 0, NULL, 0, NULL, text, len};
    map_clear(table, slots);
    journal[0] = journal[1] = 2;
    measure_request(q);
    free(text);
}

/* A wall where split cut the cells, its new darts being those from `first` on: the last of each n. */
static void draw_cut(uint32_t n, uint32_t first, uint32_t slots)
{
    memset(marks, 0, slots);
    for (uint32_t d = first + n - 1; d < slots && map_live(table, d); d += n)
        marks[d] = 1;
}

/* Each call on a grid that leaves at least half of the slots unused. */
static void measure_all(uint32_t n, const uint32_t grid[3], uint32_t slots)
{
    uint32_t place, count, d, e;
    map_grid(n, grid, table, slots);
    uint32_t first = map_count_live(table, slots);
    journal[0] = journal[1] = 2;
    measure(CHECK, n, slots, 0, 0, 0);
    measure(ORBIT, n, slots, 0, 0, 0);
    measure(SHEET, n, slots, 0, 0, 0);
    measure(PICK, n, slots, 0, 0, 0);
    measure(SPLIT, n, slots, 0, 0, 0);
    measure(UNDO, n, slots, 0, 0, 0);
    measure(REDO, n, slots, 0, 0, 0);
    draw_cut(n, first, slots);
    measure(INSERT, n, slots, 0, 0, 0);
    request q = {UNDO, n, table, 4 * (size_t)slots, marks, slots, journal, MAX_JOURNAL,
                 0, 0, 0, 0, 0, NULL, 0, NULL, 0, NULL, NULL, 0};
    run_test(&q, &place, &count);
    measure(REMOVE, n, slots, 0, 0, 0);
    measure(ADD, n, slots, 0, 0, 0);
    q.call = ADD;
    run_test(&q, &place, &count);
    d = place;
    run_test(&q, &place, &count);
    e = place;
    measure(SEW, n, slots, n, d, e);
    measure(UNSEW, n, slots, n, d, 0);
    measure(SEW_LIST, n, slots, n, d, e);
}

int main(void)
{
    static const struct { uint32_t n, grid[3], slots; } maps[] = {
        {2, {1, 1, 1}, 24}, {2, {8, 16, 1}, 2048}, {2, {64, 64, 1}, 65536},
        {3, {2, 3, 3}, 2048}, {3, {8, 8, 8}, 65536},
    };
    for (size_t x = 0; x < sizeof maps / sizeof maps[0]; x++)
        measure_all(maps[x].n, maps[x].grid, maps[x].slots);
    /* as many cells as the table takes, and far more */
    measure_text((const uint32_t[3]){7, 3, 2}, 2048);
    measure_text((const uint32_t[3]){13, 15, 7}, MAX_SLOTS);
    measure_text((const uint32_t[3]){50, 50, 40}, MAX_SLOTS);
    return 0;
}
