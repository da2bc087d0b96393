/* impl.h - an implementation as a table of its calls, and any call of it by number. */
#ifndef IMPL_H
#define IMPL_H

#include <stddef.h>
#include <stdint.h>

#include "../include/phlernsap.h"
#include "yardstick.h"

enum call {
    CHECK, ORBIT, SHEET, PICK, ADD, SEW, SEW_LIST, UNSEW, REMOVE, SPLIT, INSERT,
    READ_VTK, UNDO, REDO, CALLS
};

static const char *const call_name[CALLS] = {
    "check", "orbit", "sheet", "pick", "add", "sew", "sew_list", "unsew", "remove", "split",
    "insert", "read_vtk", "undo", "redo",
};

typedef struct { uint32_t no, place, count; } answer;

/* All that some call takes, and where pick stores taken. */
typedef struct {
    enum call call;
    uint32_t n;
    uint32_t *table;
    size_t table_len;
    uint8_t *marks;
    size_t marks_len;
    uint32_t *journal;
    size_t journal_len;
    uint32_t i, mask, d, e, tag;
    const uint32_t *list;
    size_t list_len;
    uint32_t *queue;
    size_t queue_len;
    uint32_t *taken;
    const uint8_t *text;
    size_t text_len;
} request;

/* Defines NAME, which runs a request on the implementation of that prefix. The place, the count and
 * what is taken hold no meaningful value before the call. */
#define DEFINE_RUN(NAME, PREFIX)                                                                  \
    static uint32_t NAME(const request *q, uint32_t *place, uint32_t *count)                      \
    {                                                                                             \
        switch (q->call) {                                                                        \
        case CHECK:                                                                               \
            return PREFIX##check(q->n, q->table, q->table_len, place, count);                     \
        case ORBIT:                                                                               \
            return PREFIX##orbit(q->n, q->table, q->table_len, q->marks, q->marks_len, q->mask,   \
                                 q->d, place, count);                                             \
        case SHEET:                                                                               \
            return PREFIX##sheet(q->n, q->table, q->table_len, q->marks, q->marks_len, q->d,      \
                                 place, count);                                                   \
        case PICK:                                                                                \
            return PREFIX##pick(q->n, q->table, q->table_len, q->marks, q->marks_len, q->queue,   \
                                q->queue_len, q->d, q->taken, place, count);                      \
        case ADD:                                                                                 \
            return PREFIX##add(q->n, q->table, q->table_len, q->journal, q->journal_len, q->tag,  \
                               place, count);                                                     \
        case SEW:                                                                                 \
            return PREFIX##sew(q->n, q->table, q->table_len, q->journal, q->journal_len, q->tag,  \
                               q->i, q->d, q->e, place, count);                                   \
        case SEW_LIST:                                                                            \
            return PREFIX##sew_list(q->n, q->table, q->table_len, q->journal, q->journal_len,     \
                                    q->tag, q->list, q->list_len, place, count);                  \
        case UNSEW:                                                                               \
            return PREFIX##unsew(q->n, q->table, q->table_len, q->journal, q->journal_len,        \
                                 q->tag, q->i, q->d, place, count);                               \
        case REMOVE:                                                                              \
            return PREFIX##remove(q->n, q->table, q->table_len, q->marks, q->marks_len,           \
                                  q->journal, q->journal_len, q->tag, q->d, place, count);        \
        case SPLIT:                                                                               \
            return PREFIX##split(q->n, q->table, q->table_len, q->marks, q->marks_len,            \
                                 q->journal, q->journal_len, q->tag, q->d, place, count);         \
        case INSERT:                                                                              \
            return PREFIX##insert(q->n, q->table, q->table_len, q->marks, q->marks_len,           \
                                  q->journal, q->journal_len, q->tag, place, count);              \
        case READ_VTK:                                                                            \
            return PREFIX##read_vtk(q->n, q->table, q->table_len, q->journal, q->journal_len,     \
                                    q->tag, q->text, q->text_len, place, count);                  \
        case UNDO:                                                                                \
            return PREFIX##undo(q->n, q->table, q->table_len, q->journal, q->journal_len, place,  \
                                count);                                                           \
        case REDO:                                                                                \
            return PREFIX##redo(q->n, q->table, q->table_len, q->journal, q->journal_len, place,  \
                                count);                                                           \
        default:                                                                                  \
            return 0;                                                                             \
        }                                                                                         \
    }

typedef uint32_t run_fn(const request *q, uint32_t *place, uint32_t *count);

#endif
