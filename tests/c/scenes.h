/* scenes.h - what the calls are tried on: tables, journals and arguments, good ones and bad ones,
 * all drawn from one stream of numbers. */
#ifndef SCENES_H
#define SCENES_H

#include "../../bench/impl.h"
#include "../../bench/maps.h"
#include "../../bench/meshes.h"

/* Room also for lengths that the calls refuse. */
enum {
    TABLE_ROOM = PHL_MAX_ENTRIES + 8,
    MARKS_ROOM = PHL_MAX_SLOTS + 8,
    JOURNAL_ROOM = PHL_MAX_JOURNAL + 8,
    TEXT_ROOM = 1 << 20
};

/* A table and a journal, in buffers that the next scene takes over. `about` is the number of slots,
 * up to eight more or fewer; 0 is for a few. */
request scene_new(rng *r, uint32_t about);

/* A call, with arguments that are good ones most often; for insert a wall is drawn in the marks, for
 * sew_list a list, for pick the queue is filled with anything, and for read_vtk a file is written, of
 * a mesh that may not be taken, and with damage at times. */
void scene_ask(request *q, rng *r);

/* Makes one thing bad: n, a length, an argument, a mark, an item, a text, or words of table or journal;
 * for pick at times also the queue's length. */
void scene_spoil(request *q, rng *r);

/* Puts the words back that were spoilt since the last call; if not `back`, they stay. */
void scene_mend(int back);

/* One time of `times`. */
int one_in(rng *r, uint32_t times);

#endif
