/*
 * A case of the vectors, and one run of it.
 */
#ifndef CASE_H
#define CASE_H

#include "calls.h"
#include "guarded.h"

typedef struct {
    buffer slices[MOST_SLICES], written[MOST_DESTS];
    size_t slice_count, written_count, answer_count;
    uint64_t answers[MOST_ANSWERS];
    uint32_t refusal;
} vector;

/* The number and the rooms of one run. */
typedef struct {
    uint64_t number;
    size_t rooms[MOST_DESTS];
} try;

/* The slices, and after them the destinations. */
static guarded lent_parts[MOST_SLICES + MOST_DESTS];
static const char *case_name;

/* A number before the first answer, and after each. */
static uint64_t answers[2 * MOST_ANSWERS + 1];

static inline void lend_answers(void)
{
    for (size_t i = 0; i < sizeof answers / sizeof *answers; i++)
        answers[i] = NUMBER_BEFORE;
}

static inline int answers_left(const vector *v)
{
    int same = answers[0] == NUMBER_BEFORE;
    for (size_t i = 0; i < MOST_ANSWERS; i++) {
        uint64_t wanted = i < v->answer_count ? v->answers[i] : NUMBER_BEFORE;
        same = same && answers[2 * i + 1] == wanted && answers[2 * i + 2] == NUMBER_BEFORE;
    }
    return same;
}

static inline asked lend_parts(const struct call *call, const vector *v, const try *lent,
                               uint8_t filling)
{
    asked a = {.number = lent->number, .answers = answers + 1};
    for (size_t i = 0; i < call->slices + call->dests; i++) {
        size_t d = i - call->slices;
        if (i < call->slices) {
            lend(&lent_parts[i], v->slices[i].bytes, v->slices[i].length, 0xff);
            a.slices[i] = (slice){inside(&lent_parts[i]), v->slices[i].length};
        } else {
            lend(&lent_parts[i], NULL, lent->rooms[d], filling);
            a.dests[d] = (dest){inside(&lent_parts[i]), lent->rooms[d]};
        }
    }
    return a;
}

/* Slices as they were, and destinations with what is written. */
static inline int parts_left(const struct call *call, const vector *v)
{
    int same = 1;
    for (size_t i = 0; i < call->slices + call->dests; i++) {
        const buffer *left = i < call->slices ? &v->slices[i] : &v->written[i - call->slices];
        same = same && is_left(&lent_parts[i], left);
    }
    return same;
}

static inline int runs(const struct call *call, const vector *v, const try *lent, uint8_t filling)
{
    lend_answers();
    asked a = lend_parts(call, v, lent, filling);
    uint32_t got = call->run(&a);
    int good = got == v->refusal && answers_left(v) && parts_left(call, v);
    if (!good)
        printf("  returned %" PRIu32 ", first answer %" PRId64 "\n", got, (int64_t)answers[1]);
    return good;
}

/* How often each call was taken, and how often it refused. */
static unsigned outcomes[CALL_COUNT][2];

/* One run, with two fillings, since a byte that is written may be the one that was there. */
static inline void run(const struct call *call, const vector *v, const try *lent)
{
    static char name[300];
    outcomes[call - calls][v->refusal != 0]++;
    int good = runs(call, v, lent, BEFORE);
    good = runs(call, v, lent, (uint8_t)~BEFORE) && good;
    snprintf(name, sizeof name, "%s:%u: %s: %s", file_name, line_number, call->name, case_name);
    count(good, name);
}

#endif
