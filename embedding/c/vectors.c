/* Runs the vectors of crates/vectors_test/stdin, which reference/ makes, through the library: vectors FILE [THREADS].
 * Each call is made twice: with an answer slice one number short, which must touch nothing, and with one of just the length that it
 * asks for. The answer, the returned number and every byte of the lent slices, and some past them, are compared. A call that has no
 * vector, and a vector of a call that is not listed, count as wrong. crates/vectors_test says how the vectors stand in the file. */
#include "vectors.h"

#include <pthread.h>
#include <stdio.h>
#include <stdlib.h>
#include <string.h>

#define MARK 0xA5A5A5A5A5A5A5A5u /* what an answer slice is filled with */
#define PAST 64                  /* elements past each lent slice that must stay */
#define BYTES_MOST 40000
#define OUT_MOST 111000
#define WORK_LONG 21000

struct state {
    const uint8_t *at, *end;                 /* what is left of the file */
    uint8_t bytes[BYTES_MOST];               /* the bytes that were read, of which the input is a part */
    size_t from, to;
    uint8_t written[OUT_MOST];
    size_t called, wrong, passed_over, seen[CALLS];
    uint64_t answer[ANSWER_LONG], got[ANSWER_LONG];
    uint8_t out[OUT_MOST + PAST];
    uint16_t work[WORK_LONG + PAST];
};

static uint64_t four(struct state *s)
{
    uint64_t n = 0;
    for (int i = 0; i < 4; i++)
        n |= (uint64_t)*s->at++ << (8 * i);
    return n == UINT32_MAX ? UINT64_MAX : n;
}

static void numbers(struct state *s, uint64_t *to, size_t count)
{
    memset(to, 0, NUMBERS * sizeof *to);
    for (size_t i = 0; i < count; i++)
        to[i] = four(s);
}

static void fill(struct state *s, const struct lent *l, uint8_t byte)
{
    memset(s->out, byte, l->room + PAST);
    memset(s->work, byte, (l->entries + PAST) * sizeof *s->work);
    for (size_t i = 0; i < ANSWER_LONG; i++)
        s->answer[i] = MARK;
}

/* whether nothing but the first `out` bytes, `changed` entries and `told` numbers differs from what the slices were filled with */
static int kept(const struct state *s, const struct lent *l, uint8_t byte, size_t out, size_t changed, size_t told)
{
    for (size_t i = out; i < l->room + PAST; i++)
        if (s->out[i] != byte)
            return 0;
    for (size_t i = changed; i < l->entries + PAST; i++)
        if (s->work[i] != 257u * byte)
            return 0;
    for (size_t i = told; i < ANSWER_LONG; i++)
        if (s->answer[i] != MARK)
            return 0;
    return 1;
}

static int run_call(struct state *s, const struct call *call, const uint64_t *given, const uint64_t *expected)
{
    struct lent l = {.input = s->bytes + s->from, .input_length = s->to - s->from, .work = s->work, .entries = given[7],
                     .out = s->out, .room = given[5], .answer = s->answer, .asked = call->asked - 1};
    uint8_t byte = (uint8_t)given[4];
    fill(s, &l, byte);
    if (call->run(&l, given, s->got) != MUSSELTWIG_BAD_LENGTH || !kept(s, &l, byte, 0, 0, 0))
        return 0;
    l.asked = call->asked;
    size_t status = call->run(&l, given, s->got);
    if (status != expected[0] || status != s->got[0] || l.told == 0)
        return 0;
    for (size_t i = 0; i < NUMBERS; i++)
        if (s->got[i] != expected[i])
            return 0;
    size_t out = given[6], changed = given[8];
    if (call->figures) { /* they stand in the working slice, and the vector has them as bytes */
        for (size_t i = 0; i < out / 2; i++)
            if (s->work[i] != s->written[2 * i] + 256 * s->written[2 * i + 1])
                return 0;
        out = 0;
    }
    if (call->list) { /* the answer has what the vector has as bytes, and where that has none nothing */
        for (size_t i = 0; i < LISTED; i++)
            if (l.list[i] != (i < out ? s->written[i] : 0))
                return 0;
        out = 0;
    }
    return kept(s, &l, byte, out, changed, l.told) && memcmp(s->out, s->written, out) == 0;
}

static void run(struct state *s)
{
    uint64_t given[NUMBERS], expected[NUMBERS];
    while (s->at < s->end) {
        unsigned what = s->at[0], g = s->at[2], e = s->at[3];
        s->at += 4;
        numbers(s, given, g);
        numbers(s, expected, e);
        if (what == 0) {
            memcpy(s->bytes, s->at, given[0]);
            s->at += given[0], s->from = 0, s->to = given[0];
        } else if (what == 1) {
            memcpy(s->written, s->at, given[0]);
            s->at += given[0];
        } else if (what == 2) {
            s->bytes[given[0]] = (uint8_t)given[1];
        } else if (what == 3) {
            s->from = given[0], s->to = given[1];
        } else if (what < CALLS && calls[what].run) {
            s->called++, s->seen[what]++;
            if (!run_call(s, &calls[what], given, expected) && s->wrong++ < 5)
                fprintf(stderr, "%s differs, call %zu\n", calls[what].name, s->called);
        } else if (what < CALLS && calls[what].name) {
            s->passed_over++;
        } else {
            fprintf(stderr, "no call has the number %u\n", what);
            s->wrong++;
            return;
        }
    }
    for (unsigned what = 0; what < CALLS; what++)
        if (calls[what].run && !s->seen[what]) {
            fprintf(stderr, "%s has no vector\n", calls[what].name);
            s->wrong++;
        }
}

static void *thread(void *s)
{
    run(s);
    return NULL;
}

int main(int argc, char **argv)
{
    int asked = argc > 2 ? atoi(argv[2]) : 1;
    if (asked < 1)
        return 2;
    size_t threads = (size_t)asked, wrong = 0;
    FILE *f = argc > 1 ? fopen(argv[1], "rb") : NULL;
    if (!f || fseek(f, 0, SEEK_END))
        return 2;
    long size = ftell(f);
    uint8_t *file = malloc((size_t)size);
    rewind(f);
    if (!file || fread(file, 1, (size_t)size, f) != (size_t)size)
        return 2;
    fclose(f);
    struct state *states = calloc(threads, sizeof *states);
    pthread_t *ids = calloc(threads, sizeof *ids);
    if (!states || !ids)
        return 2;
    for (size_t i = 0; i < threads; i++) {
        states[i].at = file, states[i].end = file + size;
        if (pthread_create(&ids[i], NULL, thread, &states[i]))
            return 2;
    }
    for (size_t i = 0; i < threads; i++)
        pthread_join(ids[i], NULL), wrong += states[i].wrong;
    printf("C: %zu threads, %zu vectors each, %zu of calls that are not exported, %zu differ\n", threads, states[0].called,
           states[0].passed_over, wrong);
    free(file), free(states), free(ids);
    return wrong != 0;
}
