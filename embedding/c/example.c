/* Plans nine records on seven cabinets, checks the placement, and prints its certificate line. */
#include "musseltwig.h"

#include <inttypes.h>
#include <stdio.h>

static const uint8_t pack[] = {1, 7, 3, 1, 2, 1, 7, 1, 0,                                          /* n = 7, r = 3; mu and m of three layers */
                               0, 1, 2, 3, 4, 5,                                                   /* layer 0 */
                               0, 1, 2, 0, 3, 4, 0, 5, 6, 1, 3, 5, 1, 4, 6, 2, 3, 6, 2, 4, 5};     /* layer 1 */

static int refused(const uint64_t *answer)
{
    fprintf(stderr, "refused %" PRIu64 " %" PRIu64 "\n", answer[0], answer[1]);
    return 1;
}

int main(void)
{
    static uint16_t work[MUSSELTWIG_WORK_MOST];
    static uint8_t out[MUSSELTWIG_OUTPUT_MOST], line[MUSSELTWIG_LINE_NEEDED];
    uint64_t plan[MUSSELTWIG_PLAN_ANSWER], check[MUSSELTWIG_CHECK_PLACEMENT_ANSWER], reply[MUSSELTWIG_CHECK_REPLY_ANSWER];

    if (musseltwig_plan(pack, sizeof pack, 2, 3, 9, work, MUSSELTWIG_WORK_MOST, out, sizeof out, plan, MUSSELTWIG_PLAN_ANSWER))
        return refused(plan);
    if (musseltwig_check_placement(out, plan[1], check, MUSSELTWIG_CHECK_PLACEMENT_ANSWER))
        return refused(check);
    if (musseltwig_check_reply(out, plan[1], line, sizeof line, reply, MUSSELTWIG_CHECK_REPLY_ANSWER))
        return refused(reply);
    printf("%" PRIu64 " of %" PRIu64 " records stay usable whichever %" PRIu64 " cabinets fail\n", check[7], check[6], check[5]);
    fwrite(line, 1, reply[1], stdout);
    return 0;
}
