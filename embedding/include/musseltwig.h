/* Musseltwig for C: plans and checks placements of replicated records. Made by embedding/declarations.py: change
 * calls.txt instead.
 *
 * A slice is a pointer and how many elements it has. No pointer is null, also where there are 0 elements. What a
 * call may write does not overlap what it reads or another slice that it may write, and nothing else touches its
 * slices before it returns. A call keeps no state, so that threads may call at the same time on slices of their own.
 *
 * Every call returns 0 for a result, or a refusal's number. For a result answer[0] is 0 and the values follow it;
 * for a refusal answer[0] is its number and answer[1] its place. Numbers of the answer past these are left as they
 * were. A refusal leaves every other slice as it was, and a result leaves what stands past the length that it gives.
 * Where answer has fewer elements than the call's constant MUSSELTWIG_.._ANSWER the call returns
 * MUSSELTWIG_BAD_LENGTH and touches nothing; so does musseltwig_replay where the three slices of its log are not
 * equally long. docs/FORMATS.md has the files, the refusals and what each call promises; docs/EMBEDDING.md what is
 * proved of the calls. */
#ifndef MUSSELTWIG_H
#define MUSSELTWIG_H

#include <stddef.h>
#include <stdint.h>

#if SIZE_MAX != UINT64_MAX
#error "libmusseltwig.a is for x86-64 Linux"
#endif

#ifdef __cplusplus
extern "C" {
#endif

/* returned where a slice is not as long as stated: nothing is touched */
#define MUSSELTWIG_BAD_LENGTH 255
/* entries of a working slice that every order can be planned in */
#define MUSSELTWIG_WORK_MOST 20485
/* bytes of an output that every placement that is planned and every joined pack fits */
#define MUSSELTWIG_OUTPUT_MOST 20928
/* entries of an output that every curve fits */
#define MUSSELTWIG_CURVE_MOST 254
/* bytes of an output that every worst set fits */
#define MUSSELTWIG_SET_MOST 254
/* bytes of an output that every page fits */
#define MUSSELTWIG_PAGE_MOST 110619
/* bytes that the certificate line asks for */
#define MUSSELTWIG_LINE_NEEDED 200
/* bytes that every number fits */
#define MUSSELTWIG_NUMBER_MOST 4

/* The refusals' numbers. */
#define MUSSELTWIG_ENDED 1
#define MUSSELTWIG_MALFORMED 2
#define MUSSELTWIG_WRONG_KIND 3
#define MUSSELTWIG_OUTSIDE_LIMITS 4
#define MUSSELTWIG_TRAILING 5
#define MUSSELTWIG_BAD_ROW 6
#define MUSSELTWIG_CROWDED 7
#define MUSSELTWIG_WRONG_FIGURE 8
#define MUSSELTWIG_NO_BLOCK 9
#define MUSSELTWIG_SHORT_WORK 10
#define MUSSELTWIG_SHORT_OUTPUT 11
#define MUSSELTWIG_BAD_ORDER 12
#define MUSSELTWIG_UNJOINABLE 13
#define MUSSELTWIG_BAD_WISH 14
#define MUSSELTWIG_OUT_OF_SERVICE 15
#define MUSSELTWIG_BAD_COUNTS 16
#define MUSSELTWIG_TOO_MANY_SETS 17
#define MUSSELTWIG_BAD_ROUNDS 18
#define MUSSELTWIG_EARLIER_EVENT 19
#define MUSSELTWIG_BAD_EVENT 20
#define MUSSELTWIG_SHARED_FEEDER 21

/* How many numbers each call asks of its answer. */
#define MUSSELTWIG_CHECK_PACK_ANSWER 270
#define MUSSELTWIG_CHECK_PLACEMENT_ANSWER 531
#define MUSSELTWIG_PLAN_ANSWER 8
#define MUSSELTWIG_PLAN_OPERATOR_ANSWER 8
#define MUSSELTWIG_ASK_ANSWER 12
#define MUSSELTWIG_COMMIT_ANSWER 8
#define MUSSELTWIG_CERTIFY_ANSWER 8
#define MUSSELTWIG_JOIN_ONE_ANSWER 2
#define MUSSELTWIG_JOIN_TWO_ANSWER 2
#define MUSSELTWIG_JOIN_THREE_ANSWER 2
#define MUSSELTWIG_CURVE_ANSWER 2
#define MUSSELTWIG_WORST_CASE_ANSWER 2
#define MUSSELTWIG_ROUNDS_ANSWER 2
#define MUSSELTWIG_REPLAY_ANSWER 3
#define MUSSELTWIG_PAGE_ANSWER 2
#define MUSSELTWIG_CHECK_REPLY_ANSWER 2
#define MUSSELTWIG_OPEN_WALK_ANSWER 4
#define MUSSELTWIG_STEP_ANSWER 6
#define MUSSELTWIG_READ_NUMBER_ANSWER 3
#define MUSSELTWIG_READ_WITHIN_ANSWER 3
#define MUSSELTWIG_WRITE_NUMBER_ANSWER 2

/* Checks a pack.
 * Answer: 0, n, r, the first block's place, mu and m of five layers, how many nodes are out of service, and these. */
size_t musseltwig_check_pack(const uint8_t *pack, size_t pack_length, uint64_t *answer, size_t answer_length);

/* Checks a placement.
 * Answer: 0, kind, n, r, s, k, b, F, first row, five lambda and c, the list as check_pack's; kind 6: g, feeders. */
size_t musseltwig_check_placement(const uint8_t *placement, size_t placement_length, uint64_t *answer,
    size_t answer_length);

/* Plans b records on a pack; work has at least s * (b + 1) entries, free afterwards, out at least 448 + b * r bytes.
 * Answer: 0, the placement's length in out, F, and the counts of five layers. */
size_t musseltwig_plan(const uint8_t *pack, size_t pack_length, uint64_t s, uint64_t k, uint64_t b, uint16_t *work,
    size_t work_length, uint8_t *out, size_t out_length, uint64_t *answer, size_t answer_length);

/* Plans one of two operators alone, b being what it is granted beside the other; work and out as in musseltwig_plan.
 * Answer: 0, the placement's length in out, F, and the counts of five layers. */
size_t musseltwig_plan_operator(const uint8_t *pack, size_t pack_length, uint64_t s, uint64_t k, uint64_t wish,
    uint64_t other, uint16_t *work, size_t work_length, uint8_t *out, size_t out_length, uint64_t *answer,
    size_t answer_length);

/* Tells what musseltwig_plan would give, and writes no placement; work as there.
 * Answer: 0, F, the counts of five layers, and the copies of their blocks. */
size_t musseltwig_ask(const uint8_t *pack, size_t pack_length, uint64_t s, uint64_t k, uint64_t b, uint16_t *work,
    size_t work_length, uint64_t *answer, size_t answer_length);

/* Writes the placement of the split with these five counts and the least copies; out as in musseltwig_plan.
 * Answer: 0, the placement's length in out, F, and the counts of five layers. */
size_t musseltwig_commit(const uint8_t *pack, size_t pack_length, uint64_t s, uint64_t k, uint64_t b,
    const uint64_t counts[5], uint8_t *out, size_t out_length, uint64_t *answer, size_t answer_length);

/* Certifies bare rows: writes their placement, all in the layer with the highest figure; out as in musseltwig_plan.
 * Answer: 0, the placement's length in out, F, and the counts of five layers: b in the layer taken, 0 in the others. */
size_t musseltwig_certify(const uint8_t *rows, size_t rows_length, uint8_t *out, size_t out_length, uint64_t *answer,
    size_t answer_length);

/* Joins one pack: rewrites it as kind 4; out has room for the joined pack: MUSSELTWIG_OUTPUT_MOST bytes always do.
 * Answer: 0, the joined pack's length in out. */
size_t musseltwig_join_one(const uint8_t *first, size_t first_length, uint8_t *out, size_t out_length, uint64_t *answer,
    size_t answer_length);

/* Joins two packs, the second's nodes last; a place is in the refused pack; out as in musseltwig_join_one.
 * Answer: 0, the joined pack's length in out. */
size_t musseltwig_join_two(const uint8_t *first, size_t first_length, const uint8_t *second, size_t second_length,
    uint8_t *out, size_t out_length, uint64_t *answer, size_t answer_length);

/* Joins three packs, as musseltwig_join_two joins two.
 * Answer: 0, the joined pack's length in out. */
size_t musseltwig_join_three(const uint8_t *first, size_t first_length, const uint8_t *second, size_t second_length,
    const uint8_t *third, size_t third_length, uint8_t *out, size_t out_length, uint64_t *answer, size_t answer_length);

/* Writes a placement's figure for each number of failures, from s to n - 1, in kind 6 to g - 1.
 * Answer: 0, how many figures stand in out. */
size_t musseltwig_curve(const uint8_t *placement, size_t placement_length, uint16_t *out, size_t out_length,
    uint64_t *answer, size_t answer_length);

/* Finds the true worst case over all sets of k nodes, in kind 6 feeders, and writes the first such set as k bytes.
 * Answer: 0, the fewest usable records. */
size_t musseltwig_worst_case(const uint8_t *placement, size_t placement_length, uint8_t *out, size_t out_length,
    uint64_t *answer, size_t answer_length);

/* Plays q rounds of cuts and repairs.
 * Answer: 0, the usable records after the last cut. */
size_t musseltwig_rounds(const uint8_t *placement, size_t placement_length, uint64_t q, uint64_t *answer,
    size_t answer_length);

/* Runs an outage log: event i is at times[i], of nodes[i], down where downs[i] is not 0; the three are equally long.
 * Answer: 0, the lowest number of usable records and the first event after which it stood; of an empty log b alone. */
size_t musseltwig_replay(const uint8_t *placement, size_t placement_length, const uint32_t *times, size_t times_length,
    const uint8_t *nodes, size_t nodes_length, const uint8_t *downs, size_t downs_length, uint64_t *answer,
    size_t answer_length);

/* Writes the cabinet page, 27 * (b + 1) bytes.
 * Answer: 0, the page's length in out. */
size_t musseltwig_page(const uint8_t *placement, size_t placement_length, uint8_t *out, size_t out_length,
    uint64_t *answer, size_t answer_length);

/* Writes the line `accepted F b k n most mean` or `refused number place`, and a newline; out has 200 bytes or more.
 * Answer: 0, the line's length in out. */
size_t musseltwig_check_reply(const uint8_t *placement, size_t placement_length, uint8_t *out, size_t out_length,
    uint64_t *answer, size_t answer_length);

/* Opens a row walk.
 * Answer: 0, the first row's place, r and b: the at, r and left of the first step. */
size_t musseltwig_open_walk(const uint8_t *placement, size_t placement_length, uint64_t *answer, size_t answer_length);

/* Steps a row walk.
 * Answer: 0, where the row begins in placement and its length, 0 and 0 at the end; the next step's at, r and left. */
size_t musseltwig_step(const uint8_t *placement, size_t placement_length, uint64_t at, uint64_t r, uint64_t left,
    uint64_t *answer, size_t answer_length);

/* Reads the number at a place.
 * Answer: 0, its value and the next place. */
size_t musseltwig_read_number(const uint8_t *bytes, size_t bytes_length, uint64_t at, uint64_t *answer,
    size_t answer_length);

/* Reads the number at a place, which is to be lo to hi.
 * Answer: 0, its value and the next place. */
size_t musseltwig_read_within(const uint8_t *bytes, size_t bytes_length, uint64_t at, uint64_t lo, uint64_t hi,
    uint64_t *answer, size_t answer_length);

/* Writes a number in its shortest form, 1 to 4 bytes.
 * Answer: 0, how many bytes stand in out. */
size_t musseltwig_write_number(uint8_t *out, size_t out_length, uint64_t value, uint64_t *answer, size_t answer_length);

#ifdef __cplusplus
}
#endif
#endif
