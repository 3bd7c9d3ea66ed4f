/* The calls of the vectors, by their numbers in crates/vectors_test and reference/script.py. */
#include "vectors.h"

#include <stdio.h>
#include <stdlib.h>
#include <string.h>

/* The call's answer as the vector has it: so many numbers of a result, or a refusal's two. */
static size_t tell(struct lent *l, size_t status, size_t values, uint64_t *got)
{
    memset(got, 0, NUMBERS * sizeof *got);
    if (status == MUSSELTWIG_BAD_LENGTH)
        return status;
    l->told = status ? 2 : values;
    for (size_t i = 0; i < l->told && i < NUMBERS; i++)
        got[i] = l->answer[i];
    return status;
}

#define IN l->input, l->input_length
#define OUT l->out, l->room
#define WORK l->work, l->entries
#define ANSWER l->answer, l->asked
#define RUN(name) static size_t name(struct lent *l, const uint64_t *g, uint64_t *got)

RUN(read_number) { return tell(l, musseltwig_read_number(IN, g[0], ANSWER), 3, got); }
RUN(read_within) { return tell(l, musseltwig_read_within(IN, g[0], g[1], g[2], ANSWER), 3, got); }
RUN(write_number) { return tell(l, musseltwig_write_number(OUT, g[0], ANSWER), 2, got); }
RUN(plan) { return tell(l, musseltwig_plan(IN, g[0], g[1], g[2], WORK, OUT, ANSWER), 8, got); }
RUN(plan_operator) { return tell(l, musseltwig_plan_operator(IN, g[0], g[1], g[2], g[3], WORK, OUT, ANSWER), 8, got); }
RUN(ask) { return tell(l, musseltwig_ask(IN, g[0], g[1], g[2], WORK, ANSWER), 12, got); }
RUN(commit) { return tell(l, musseltwig_commit(IN, g[0], g[1], g[2], g + 9, OUT, ANSWER), 8, got); }
RUN(certify) { (void)g; return tell(l, musseltwig_certify(IN, OUT, ANSWER), 8, got); }
RUN(rounds) { return tell(l, musseltwig_rounds(IN, g[0], ANSWER), 2, got); }
RUN(worst_case) { (void)g; return tell(l, musseltwig_worst_case(IN, OUT, ANSWER), 2, got); }
RUN(curve) { (void)g; return tell(l, musseltwig_curve(IN, WORK, ANSWER), 2, got); }
RUN(page) { (void)g; return tell(l, musseltwig_page(IN, OUT, ANSWER), 2, got); }
RUN(check_reply) { (void)g; return tell(l, musseltwig_check_reply(IN, OUT, ANSWER), 2, got); }

RUN(join)
{
    const uint8_t *second = l->input + g[1], *third = l->input + g[2];
    size_t end = l->input_length;
    if (g[0] == 1)
        return tell(l, musseltwig_join_one(IN, OUT, ANSWER), 2, got);
    if (g[0] == 2)
        return tell(l, musseltwig_join_two(l->input, g[1], second, end - g[1], OUT, ANSWER), 2, got);
    return tell(l, musseltwig_join_three(l->input, g[1], second, g[2] - g[1], third, end - g[2], OUT, ANSWER), 2, got);
}

/* The vector has 0, the kind, n, r, s, k, b, F, the first row's place and the layers, and what follows them in the answer apart: from
 * `at` on `l->told` reaches past it. Beside a refusal there is none. */
static void list(struct lent *l, size_t at)
{
    for (size_t i = at; i < l->told && i - at < LISTED; i++)
        l->list[i - at] = l->answer[i];
}

/* A pack has 0 for what only a placement has. */
RUN(check_pack)
{
    (void)g;
    size_t status = tell(l, musseltwig_check_pack(IN, ANSWER), 15, got);
    if (status)
        return status;
    const uint64_t *a = l->answer, head[] = {0, 0, a[1], a[2], 0, 0, 0, 0, a[3]};
    memcpy(got, head, sizeof head);
    memcpy(got + 9, a + 4, 10 * sizeof *got);
    l->told += a[14];
    list(l, 14);
    return status;
}

RUN(check_placement)
{
    (void)g;
    size_t status = tell(l, musseltwig_check_placement(IN, ANSWER), 20, got);
    if (status)
        return status;
    const uint64_t *a = l->answer;
    l->told += a[19] + (a[1] == 6 ? 1 + a[2] : 0);
    list(l, 19);
    return status;
}

RUN(replay)
{
    size_t count = (l->input_length - g[0]) / 6;
    uint32_t *times = calloc(count + 1, sizeof *times);
    uint8_t *nodes = calloc(count + 1, 1), *downs = calloc(count + 1, 1);
    if (!times || !nodes || !downs) {
        fprintf(stderr, "no memory for a log\n");
        exit(2);
    }
    for (size_t i = 0; i < count; i++) {
        const uint8_t *e = l->input + g[0] + 6 * i;
        times[i] = e[0] | (uint32_t)e[1] << 8 | (uint32_t)e[2] << 16 | (uint32_t)e[3] << 24;
        nodes[i] = e[4], downs[i] = e[5];
    }
    size_t status = tell(l, musseltwig_replay(l->input, g[0], times, count, nodes, count, downs, count, ANSWER), count ? 3 : 2, got);
    if (status == 0 && count) { /* the vector has 1 before the event */
        got[3] = got[2], got[2] = 1;
    }
    for (int longer = 0; longer < 3; longer++) { /* each of the three in turn longer than the others */
        uint64_t unequal[3] = {7, 7, 7};
        size_t bad = musseltwig_replay(l->input, g[0], times, count + (longer == 0), nodes, count + (longer == 1), downs,
                                       count + (longer == 2), unequal, 3);
        if (bad != MUSSELTWIG_BAD_LENGTH || unequal[0] != 7 || unequal[1] != 7 || unequal[2] != 7)
            l->told = 0;
    }
    free(times), free(nodes), free(downs);
    return status;
}

/* To the end and two steps past it: the rows are put into the output. */
RUN(row_walk)
{
    (void)g;
    uint64_t a[6], rows = 0, bytes = 0, lengths[2];
    size_t status = tell(l, musseltwig_open_walk(IN, ANSWER), 4, got);
    if (status)
        return status;
    const uint64_t *first = l->answer;
    uint64_t at = first[1], r = first[2], left = first[3], short_answer[5] = {7, 7, 7, 7, 7};
    if (musseltwig_step(IN, at, r, left, short_answer, 5) != MUSSELTWIG_BAD_LENGTH)
        l->told = 0;
    for (int i = 0; i < 5; i++)
        if (short_answer[i] != 7)
            l->told = 0;
    while (musseltwig_step(IN, at, r, left, a, 6) == 0 && a[2]) {
        memcpy(l->out + bytes, l->input + a[1], a[2]);
        bytes += a[2], rows++, at = a[3], r = a[4], left = a[5];
    }
    uint64_t last = at, last_left = left;
    for (int i = 0; i < 2; i++) {
        musseltwig_step(IN, at, r, left, a, 6);
        lengths[i] = a[2], at = a[3], r = a[4], left = a[5];
    }
    const uint64_t all[] = {0, first[1], first[2], first[3], rows, bytes, last, last_left, lengths[0], lengths[1], at, left, first[1], first[3]};
    memcpy(got, all, sizeof all);
    return status;
}

/* The two with a name alone are not exported. */
const struct call calls[CALLS] = {
    [8] = {"first_crowded", NULL, 0, 0, 0},
    [13] = {"plan_reply", NULL, 0, 0, 0},
    [4] = {"read_number", read_number, MUSSELTWIG_READ_NUMBER_ANSWER, 0, 0},
    [5] = {"read_within", read_within, MUSSELTWIG_READ_WITHIN_ANSWER, 0, 0},
    [6] = {"check_pack", check_pack, MUSSELTWIG_CHECK_PACK_ANSWER, 0, 1},
    [7] = {"check_placement", check_placement, MUSSELTWIG_CHECK_PLACEMENT_ANSWER, 0, 1},
    [9] = {"write_number", write_number, MUSSELTWIG_WRITE_NUMBER_ANSWER, 0, 0},
    [10] = {"plan", plan, MUSSELTWIG_PLAN_ANSWER, 0, 0},
    [11] = {"row_walk", row_walk, MUSSELTWIG_OPEN_WALK_ANSWER, 0, 0},
    [12] = {"check_reply", check_reply, MUSSELTWIG_CHECK_REPLY_ANSWER, 0, 0},
    [14] = {"curve", curve, MUSSELTWIG_CURVE_ANSWER, 1, 0},
    [15] = {"join", join, MUSSELTWIG_JOIN_ONE_ANSWER, 0, 0},
    [16] = {"plan_operator", plan_operator, MUSSELTWIG_PLAN_OPERATOR_ANSWER, 0, 0},
    [17] = {"ask", ask, MUSSELTWIG_ASK_ANSWER, 0, 0},
    [18] = {"commit", commit, MUSSELTWIG_COMMIT_ANSWER, 0, 0},
    [19] = {"worst_case", worst_case, MUSSELTWIG_WORST_CASE_ANSWER, 0, 0},
    [20] = {"rounds", rounds, MUSSELTWIG_ROUNDS_ANSWER, 0, 0},
    [21] = {"replay", replay, MUSSELTWIG_REPLAY_ANSWER, 0, 0},
    [22] = {"page", page, MUSSELTWIG_PAGE_ANSWER, 0, 0},
    [23] = {"certify", certify, MUSSELTWIG_CERTIFY_ANSWER, 0, 0},
};
