/* compare.c - holds the library (phl_) to the yardstick (yard_), call by call.
 *
 *   compare [SEED [ROUNDS]]
 *
 * A round is a table, a journal and a run of calls on them; some calls are given something bad.
 * Both are lent the same buffers: number, place, count, what is taken, and all of table, marks and
 * journal must come out alike, and what stands before and behind each buffer must stay. What an
 * insert changed must come back, by remove and by undo; what a list does must be what its sews do one
 * by one; what pick does must be what sheet does, but for its queue, which it leaves as it likes if it
 * is accepted. Each number that the header lists for a call must come up, those of an item at the
 * first, at a middle and at the last item, and those of sheet also where pick's queue is of a wrong
 * length, so that no part of the comparison is empty, and no other may. numbers.h, which the script
 * `run` makes, has the header's lines "Numbers:" as strings, with a blank before and behind each
 * number. */
#include <inttypes.h>
#include <stdio.h>
#include <stdlib.h>
#include <string.h>

#include "scenes.h"

static const char *const numbers[] = {
#include "numbers.h"
};

DEFINE_RUN(run_yard, yard_)
DEFINE_RUN(run_library, phl_)

enum { YARD, LIBRARY, BOTH };

static run_fn *const runs[BOTH] = {run_yard, run_library};
static const char *const run_name[BOTH] = {"yardstick", "library"};

/* ---------------------------------------------------------------- buffers */

enum { TABLE, MARKS, JOURNAL, LIST, TEXT, QUEUE, BUFFERS };

typedef struct {
    const char *name;
    void *at;
    size_t bytes, unit;              /* all of it, and one element */
} buffer;

static buffer buffer_of(const request *q, int which)
{
    switch (which) {
    case TABLE:
        return (buffer){"table", q->table, 4 * q->table_len, 4};
    case MARKS:
        return (buffer){"marks", q->marks, q->marks_len, 1};
    case JOURNAL:
        return (buffer){"journal", q->journal, 4 * q->journal_len, 4};
    case LIST:
        return (buffer){"list", (void *)q->list, 4 * q->list_len, 4};
    case TEXT:
        return (buffer){"text", (void *)q->text, q->text_len, 1};
    default:
        return (buffer){"queue", q->queue, 4 * q->queue_len, 4};
    }
}

/* Of each buffer, a copy for each implementation, with guards before and behind it; and one for other
 * calls that should do the same: the sews of a list, or sheet. */
enum { GUARD = 32, GUARD_BYTE = 0xA5, MOST_SHIFT = 7, OTHERWISE = BOTH, COPIES };

static uint32_t room[COPIES][BUFFERS][JOURNAL_ROOM + (2 * GUARD + MOST_SHIFT) / 4 + 1];

/* A copy of b that begins `shift` elements further than the room's first guard ends. */
static void *copied(uint32_t *to, buffer b, size_t shift)
{
    uint8_t *at = (uint8_t *)to + shift * b.unit + GUARD;
    memset(at - GUARD, GUARD_BYTE, GUARD);
    memcpy(at, b.at, b.bytes);
    memset(at + b.bytes, GUARD_BYTE, GUARD);
    return at;
}

static request lent(const request *q, int who, const size_t shift[BUFFERS])
{
    request c = *q;
    c.table = copied(room[who][TABLE], buffer_of(q, TABLE), shift[TABLE]);
    c.marks = copied(room[who][MARKS], buffer_of(q, MARKS), shift[MARKS]);
    c.journal = copied(room[who][JOURNAL], buffer_of(q, JOURNAL), shift[JOURNAL]);
    c.list = copied(room[who][LIST], buffer_of(q, LIST), shift[LIST]);
    c.text = copied(room[who][TEXT], buffer_of(q, TEXT), shift[TEXT]);
    c.queue = copied(room[who][QUEUE], buffer_of(q, QUEUE), shift[QUEUE]);
    return c;
}

static int guards_stand(buffer b)
{
    static uint8_t guard[GUARD];
    memset(guard, GUARD_BYTE, GUARD);
    return memcmp((uint8_t *)b.at - GUARD, guard, GUARD) == 0
        && memcmp((uint8_t *)b.at + b.bytes, guard, GUARD) == 0;
}

/* ---------------------------------------------------------------- differences */

static uint64_t seed, round_now;
static unsigned long calls;

/* Tells where a difference was found; the caller tells what differs. */
static void tell_call(const request *q)
{
    printf("DIFFERENT: seed %" PRIu64 ", round %" PRIu64 ", call %lu: ", seed, round_now, calls);
    printf("%s n=%" PRIu32 " i=%" PRIu32 " mask=%" PRIu32 " d=%" PRIu32 " e=%" PRIu32,
           call_name[q->call], q->n, q->i, q->mask, q->d, q->e);
    printf(" tag=%" PRIu32 ", %zu entries, %zu marks, %zu words", q->tag, q->table_len,
           q->marks_len, q->journal_len);
    if (q->journal_len >= 2)
        printf(", cursor %" PRIu32 ", end %" PRIu32, q->journal[0], q->journal[1]);
    if (q->call == SEW_LIST) {
        printf(", list");
        for (size_t x = 0; x < q->list_len; x++)
            printf("%s %" PRIu32, x > 0 && x % 3 == 0 ? "," : "", q->list[x]);
    }
    if (q->call == PICK)
        printf(", a queue of %zu", q->queue_len);
    if (q->call == READ_VTK)
        printf(", a text of %zu bytes, which begins:\n%.*s", q->text_len,
               (int)(q->text_len < 4000 ? q->text_len : 4000), (const char *)q->text);
    printf("\n");
}

static void fail_word(const request *q, const char *what, size_t at, uint32_t yard,
                      uint32_t library)
{
    tell_call(q);
    printf("%s (at %zu): yardstick %" PRIu32 ", library %" PRIu32 "\n", what, at, yard, library);
    exit(1);
}

static void fail_text(const request *q, const char *who, const char *what, const char *text)
{
    tell_call(q);
    printf("%s: %s %s\n", who, what, text);
    exit(1);
}

static uint32_t element(buffer b, size_t k)
{
    return b.unit == 1 ? ((uint8_t *)b.at)[k] : ((uint32_t *)b.at)[k];
}

static void must_be_same(const request *q, buffer yard, buffer library)
{
    size_t k = 0;
    if (memcmp(yard.at, library.at, yard.bytes) == 0)
        return;
    while (element(yard, k) == element(library, k))
        k++;
    fail_word(q, yard.name, k, element(yard, k), element(library, k));
}

/* ---------------------------------------------------------------- one call */

enum { PAST_NUMBERS = 39 };

static unsigned long came_up[CALLS][PAST_NUMBERS];

/* Of lists of three items or more: at the first item, at one between, at the last. */
enum { FIRST, MIDDLE, LAST, PLACES };

static unsigned long came_up_at[PLACES][PAST_NUMBERS];
static const char *const place_name[PLACES] = {" first", " middle", " last"};

/* Of picks with a queue of a wrong length: what sheet gave. Of accepted ones: how many of a dimension
 * had every slot in the sheet, so that the queue was full. */
static unsigned long came_up_beside[PAST_NUMBERS], full[4];

/* Whether the header lists the number for the call. */
static int listed(enum call call, uint32_t number)
{
    char word[16];
    snprintf(word, sizeof word, " %" PRIu32 " ", number);
    return number == PHL_ACCEPTED || strstr(numbers[call], word) != NULL;
}

static int is_no_map(uint32_t number)
{
    return number == PHL_LINK_NOT_LIVE || number == PHL_LINK_NOT_RETURNED
        || number == PHL_PAIR_NOT_RETURNING || number == PHL_LINK_3_NOT_FREE;
}

/* Whether a list may be refused at an item by this number. */
static int is_of_an_item(uint32_t number)
{
    return number == PHL_OUT_OF_RANGE || number == PHL_NOT_LIVE || number == PHL_SAME_SIDE
        || number == PHL_NOT_FREE || number == PHL_NO_PAIRING || number == PHL_NO_ROOM;
}

/* Whether a list was refused at an item: those before it stand. */
static int is_at_an_item(const request *q, answer a)
{
    return q->call == SEW_LIST && is_of_an_item(a.no);
}

/* What the header says of a refusal, but of one at an item; c has the buffers as they were left. */
static void must_be_a_refusal(const request *q, const request *c, answer a)
{
    int not_a_map = is_no_map(a.no);
    int leaves_marks = a.no == PHL_CROSSES_ITSELF || a.no == PHL_TOO_FEW_SLOTS
                    || a.no == PHL_NO_ROOM;
    if (a.place != 0 && !not_a_map && a.no != PHL_NO_BLOCK_MAP)
        fail_text(q, "both", "place", "is not 0");
    if (a.count != 0 && !not_a_map)
        fail_text(q, "both", "count", "is not 0");
    for (int which = 0; which < BUFFERS; which++) {
        buffer was = buffer_of(q, which), is = buffer_of(c, which);
        if (memcmp(was.at, is.at, was.bytes) != 0 && !(which == MARKS && leaves_marks))
            fail_text(q, "both", was.name, "is changed by a refusal");
    }
}

/* What the sews of a list give one by one, on the buffers of q, up to the first that is refused: as
 * the list should answer. The checks before any item are those of a sew with i above n. */
static answer one_by_one(const request *q)
{
    request sew = *q;
    answer a = {0, 0, 0};
    uint32_t changed = 0;
    sew.call = SEW;
    sew.i = NONE;
    a.no = run_yard(&sew, &a.place, &a.count);
    if (a.no != PHL_OUT_OF_RANGE)
        return a;
    if (q->list_len % 3 != 0)
        return (answer){PHL_WRONG_LIST_LENGTH, 0, 0};
    for (size_t x = 0; x < q->list_len; x += 3) {
        sew.i = q->list[x];
        sew.d = q->list[x + 1];
        sew.e = q->list[x + 2];
        a.no = run_yard(&sew, &a.place, &a.count);
        if (a.no != PHL_ACCEPTED)
            return (answer){a.no, (uint32_t)(x / 3) + 1, changed};
        changed += a.count;
    }
    return (answer){PHL_ACCEPTED, 0, changed};
}

/* The list of q was answered by a and left the buffers of c. */
static void must_be_as_one_by_one(const request *q, const size_t shift[BUFFERS], const request *c,
                                  answer a)
{
    request sews = lent(q, OTHERWISE, shift);
    answer b = one_by_one(&sews);
    size_t items = q->list_len / 3;
    if (a.no != b.no || a.place != b.place || a.count != b.count)
        fail_text(q, "both", "the list", "is not answered as its sews one by one");
    for (int which = 0; which < BUFFERS; which++) {
        buffer is = buffer_of(c, which), should = buffer_of(&sews, which);
        if (memcmp(is.at, should.at, is.bytes) != 0)
            fail_text(q, "both", is.name, "is not as the sews one by one leave it");
    }
    if (is_of_an_item(a.no) && items >= 3)
        came_up_at[a.place == 1 ? FIRST : a.place == items ? LAST : MIDDLE][a.no]++;
}

/* Whether a call is refused by this number before the length of a queue is looked at. */
static int is_before_queue(uint32_t number)
{
    return number == PHL_WRONG_DIMENSION || number == PHL_WRONG_TABLE_LENGTH
        || number == PHL_WRONG_MARKS_LENGTH;
}

/* The pick of q was answered by a and left the buffers of c. The library's sheet answers the same and
 * leaves the same, but that a queue of a wrong length has its place in the order. */
static void must_be_as_sheet(const request *q, const size_t shift[BUFFERS], const request *c,
                             answer a)
{
    request sheet = lent(q, OTHERWISE, shift);
    answer b = {0, 0, 0};
    int fits = q->queue_len == q->table_len / 4;
    sheet.call = SHEET;
    b.no = run_library(&sheet, &b.place, &b.count);
    if (!fits)
        came_up_beside[b.no]++;
    if (!fits && !is_before_queue(b.no)) {
        if (a.no != PHL_WRONG_QUEUE_LENGTH)
            fail_text(q, "both", "a queue of a wrong length", "is not told");
        return;
    }
    if (a.no != b.no || a.place != b.place || a.count != b.count)
        fail_text(q, "both", "pick", "is not answered as sheet");
    for (int which = 0; which < QUEUE; which++) {
        buffer is = buffer_of(c, which), should = buffer_of(&sheet, which);
        if (memcmp(is.at, should.at, is.bytes) != 0)
            fail_text(q, "both", is.name, "is not as sheet leaves it");
    }
    if (a.no == PHL_ACCEPTED && a.count == q->queue_len)
        full[q->n]++;
}

/* Runs the call on both, and fails if they differ. *left is the yardstick's request, with the
 * buffers as it left them. */
static answer held(const request *q, const size_t shift[BUFFERS], request *left)
{
    static uint32_t out[7];                         /* the even ones are place, count and taken */
    request c[BOTH];
    answer a[BOTH];
    uint32_t taken[BOTH];
    for (int who = 0; who < BOTH; who++) {
        for (uint32_t x = 0; x < 7; x++)
            out[x] = x + 1;
        c[who] = lent(q, who, shift);
        c[who].taken = &out[5];
        a[who].no = runs[who](&c[who], &out[1], &out[3]);
        a[who].place = out[1];
        a[who].count = out[3];
        taken[who] = out[5];
        if (out[0] != 1 || out[2] != 3 || out[4] != 5 || out[6] != 7)
            fail_text(q, run_name[who], "a word beside place, count or taken", "is written");
        for (int which = 0; which < BUFFERS; which++)
            if (!guards_stand(buffer_of(&c[who], which)))
                fail_text(q, run_name[who], buffer_of(q, which).name, "is written past its ends");
        if (memcmp(q->list, c[who].list, 4 * q->list_len) != 0)
            fail_text(q, run_name[who], "list", "is written");
        if (memcmp(q->text, c[who].text, q->text_len) != 0)
            fail_text(q, run_name[who], "text", "is written");
    }
    calls++;
    if (a[YARD].no != a[LIBRARY].no)
        fail_word(q, "number", 0, a[YARD].no, a[LIBRARY].no);
    if (a[YARD].place != a[LIBRARY].place)
        fail_word(q, "place", 0, a[YARD].place, a[LIBRARY].place);
    if (a[YARD].count != a[LIBRARY].count)
        fail_word(q, "count", 0, a[YARD].count, a[LIBRARY].count);
    if (taken[YARD] != taken[LIBRARY])
        fail_word(q, "taken", 0, taken[YARD], taken[LIBRARY]);
    for (int which = 0; which < BUFFERS; which++)
        if (which != QUEUE || a[YARD].no != PHL_ACCEPTED)
            must_be_same(q, buffer_of(&c[YARD], which), buffer_of(&c[LIBRARY], which));
    if (!listed(q->call, a[YARD].no))
        fail_text(q, "both", "a number", "that the header does not list for this call");
    if (a[YARD].no != PHL_ACCEPTED && !is_at_an_item(q, a[YARD]))
        must_be_a_refusal(q, &c[YARD], a[YARD]);
    if (q->call == SEW_LIST)
        must_be_as_one_by_one(q, shift, &c[YARD], a[YARD]);
    if (q->call == PICK) {
        must_be_as_sheet(q, shift, &c[YARD], a[YARD]);
        if (taken[YARD] != (a[YARD].no == PHL_ACCEPTED ? a[YARD].count : 0))
            fail_text(q, "both", "taken", "is not the sheet's size, or not 0 where there is none");
    }
    if (q->call == INSERT && memcmp(q->marks, c[YARD].marks, q->marks_len) != 0)
        fail_text(q, "both", "marks", "are written by insert");
    came_up[q->call][a[YARD].no]++;
    *left = c[YARD];
    return a[YARD];
}

/* ---------------------------------------------------------------- rounds */

static int is_operation(enum call call) { return ADD <= call && call <= READ_VTK; }

/* The buffers of q become what the call left. */
static void keep(const request *q, const request *left)
{
    memcpy(q->table, left->table, 4 * q->table_len);
    memcpy(q->journal, left->journal, 4 * q->journal_len);
}

/* The buffers of q are as an accepted insert left them, with the answer a; the table was `before`.
 * Undo gives that back, and so does removing the new sheet. */
static void must_come_back(const request *q, const size_t shift[BUFFERS], answer a,
                           const uint32_t *before)
{
    static uint32_t fresh[PHL_MAX_JOURNAL];
    request back = *q, left;
    uint32_t p = a.place, darts = a.count / q->n;
    back.call = UNDO;
    answer b = held(&back, shift, &left);
    if (b.no != PHL_ACCEPTED || b.place != q->tag
        || memcmp(left.table, before, 4 * q->table_len) != 0)
        fail_text(&back, "both", "undo", "does not take insert back");
    back.call = REMOVE;
    back.d = q->n == 2 ? q->table[4 * p + 1] : q->table[4 * q->table[4 * p + 2] + 1];
    back.journal = fresh;
    back.journal_len = 2 + PHL_RECORD_WORDS(4 * a.count + darts);
    fresh[0] = fresh[1] = PHL_FRESH;
    b = held(&back, shift, &left);
    if (b.no != PHL_ACCEPTED || b.count != a.count
        || memcmp(left.table, before, 4 * q->table_len) != 0)
        fail_text(&back, "both", "remove", "does not take insert back");
}

/* A length for a journal: just room for what an accepted operation wrote, or a word too few; for a
 * list also anywhere in what it wrote. */
static size_t tight_length(const request *q, const request *left, rng *r)
{
    uint32_t written = left->journal[1] - q->journal[0];
    return left->journal[1]
         - rng_below(r, q->call == SEW_LIST && one_in(r, 2) ? written + 1 : 2);
}

/* One call, good or bad. An accepted operation is now and then held again, with a journal that is
 * tight. */
static void turn(const request *scene, rng *r)
{
    static uint32_t before[TABLE_ROOM];
    request q = *scene, left;
    size_t shift[BUFFERS];
    for (int which = 0; which < BUFFERS; which++)
        shift[which] = rng_below(r, MOST_SHIFT + 1);
    scene_ask(&q, r);
    if (one_in(r, 3)) {
        do
            scene_spoil(&q, r);
        while (one_in(r, 3));
    }
    answer a = held(&q, shift, &left);
    if (a.no == PHL_ACCEPTED && is_operation(q.call) && one_in(r, 4)) {
        size_t tight = tight_length(&q, &left, r);
        if (tight >= q.journal[1]) {
            q.journal_len = tight;
            a = held(&q, shift, &left);
        }
    }
    int stands = a.no == PHL_ACCEPTED || is_at_an_item(&q, a);
    if (stands) {
        memcpy(before, q.table, 4 * q.table_len);
        keep(&q, &left);
        if (q.call == INSERT)
            must_come_back(&q, shift, a, before);
    }
    scene_mend(!stands);
}

/* Most tables are small. The library has buffers of its own of 2,048, 16,384 and 65,536 slots. */
static uint32_t slots_of_round(uint64_t x)
{
    return x % 50 == 10 ? 2048 : x % 100 == 20 ? 16384 : x % 400 == 30 ? 65536 : 0;
}

static void play(uint64_t round)
{
    rng r = rng_from(seed, round);
    request scene = scene_new(&r, slots_of_round(round));
    round_now = round;
    for (uint32_t turns = 8 + rng_below(&r, 9); turns > 0; turns--)
        turn(&scene, &r);
}

/* ---------------------------------------------------------------- null pointers */

/* The library is given these buffers, the yardstick the same without null pointers. */
static void try_null(request q)
{
    static uint32_t no_word[1];
    static uint8_t no_mark[1];
    uint32_t taken[BOTH] = {9, 9};
    request plain = q;
    answer a = {0, 0, 0}, b = {0, 0, 0};
    q.taken = &taken[LIBRARY];
    plain.taken = &taken[YARD];
    plain.table = no_word;
    plain.marks = no_mark;
    plain.journal = q.journal != NULL ? q.journal : no_word;
    plain.list = no_word;
    plain.queue = no_word;
    plain.text = no_mark;
    a.no = run_library(&q, &a.place, &a.count);
    b.no = run_yard(&plain, &b.place, &b.count);
    calls++;
    if (a.no != b.no || a.place != b.place || a.count != b.count || taken[YARD] != taken[LIBRARY])
        fail_text(&plain, "library", "a null pointer", "gives another answer");
    if (q.call == CHECK && (q.n == 2 || q.n == 3) && a.count != 2)
        fail_text(&plain, "both", "no slot", "is no block map");
    if (q.call >= ADD && (q.n == 3 || (q.n == 2 && q.call != READ_VTK)) && q.journal_len == 0
        && a.no != PHL_WRONG_JOURNAL)
        fail_text(&plain, "both", "a journal of no words", "is taken");
}

/* Null pointers for no slots, no marks, no list, no queue and no text, and for a journal of no words or
 * not for a fresh one. */
static void try_null_pointers(void)
{
    static uint32_t fresh[2] = {PHL_FRESH, PHL_FRESH};
    for (int call = 0; call < CALLS; call++) {
        for (uint32_t n = 0; n < 4; n++) {
            request q = {(enum call)call, n, NULL, 0, NULL, 0, NULL, 0, 1, 1, 0, 0, 7, NULL, 0,
                         NULL, 0, NULL, NULL, 0};
            try_null(q);
            q.journal = fresh;
            q.journal_len = 2;
            try_null(q);
        }
    }
}

/* ---------------------------------------------------------------- the report */

static const uint32_t order[] = {0,  1,  2,  3,  37, 4,  5,  24, 25, 26, 38, 18,
                                 19, 20, 21, 22, 23, 6,  7,  8,  28, 29, 30, 31,
                                 32, 9,  10, 11, 12, 13, 14, 15, 16, 17};
enum { NUMBERS = sizeof order / sizeof *order };

/* A number that should come up, and did so often: 0 if never. */
static int tell_times(unsigned long times)
{
    printf("%6lu", times);
    return times > 0;
}

/* How often lists were refused at an item by each number; 0 if one never came up somewhere. */
static int tell_places(void)
{
    int complete = 1;
    for (int place = 0; place < PLACES; place++) {
        printf("%-8s", place_name[place]);
        for (int x = 0; x < NUMBERS; x++) {
            if (!is_of_an_item(order[x]))
                printf("%6s", "-");
            else
                complete &= tell_times(came_up_at[place][order[x]]);
        }
        printf("\n");
    }
    return complete;
}

/* How often sheet gave each number where pick's queue was of a wrong length; 0 if one never came up,
 * or if no sheet filled the queue. */
static int tell_queues(void)
{
    int complete = 1;
    printf("%-8s", " beside");
    for (int x = 0; x < NUMBERS; x++) {
        if (!listed(SHEET, order[x]))
            printf("%6s", "-");
        else
            complete &= tell_times(came_up_beside[order[x]]);
    }
    printf("\n full queues: %lu for n = 2, %lu for n = 3\n", full[2], full[3]);
    return complete && full[2] > 0 && full[3] > 0;
}

/* How often each call gave each number; 0 if some number never came up. */
static int tell_numbers(void)
{
    int complete = 1;
    printf("%-8s", "");
    for (int x = 0; x < NUMBERS; x++)
        printf("%6" PRIu32, order[x]);
    printf("\n");
    for (int call = 0; call < CALLS; call++) {
        printf("%-8s", call_name[call]);
        for (int x = 0; x < NUMBERS; x++) {
            if (!listed((enum call)call, order[x]))
                printf("%6s", "-");
            else
                complete &= tell_times(came_up[call][order[x]]);
        }
        printf("\n");
        if (call == SEW_LIST)
            complete &= tell_places();
        if (call == PICK)
            complete &= tell_queues();
    }
    return complete;
}

int main(int argc, char **argv)
{
    uint64_t rounds = argc > 2 ? strtoull(argv[2], NULL, 10) : 18000;
    seed = argc > 1 ? strtoull(argv[1], NULL, 10) : 1;
    if (sizeof numbers / sizeof *numbers != CALLS) {
        printf("the header has no line of numbers for each call\n");
        return 1;
    }
    printf("seed %" PRIu64 ", %" PRIu64 " rounds\n", seed, rounds);
    try_null_pointers();
    for (uint64_t round = 0; round < rounds; round++)
        play(round);
    printf("%lu calls alike; how often each gave each number:\n", calls);
    if (!tell_numbers()) {
        printf("a number that the header lists never came up\n");
        return 1;
    }
    return 0;
}
