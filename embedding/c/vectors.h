/* A vector's call: what it is lent, and what it gives as the numbers that the vector has. */
#ifndef VECTORS_H
#define VECTORS_H

#include "musseltwig.h"

#define NUMBERS 19       /* the numbers that a vector gives or expects at most */
#define ANSWER_LONG 600  /* longer than every answer */
#define CALLS 24
#define LISTED 512      /* the nodes out of service, their number, g and the feeders, at most */

struct lent {
    const uint8_t *input;
    size_t input_length;
    uint16_t *work;
    size_t entries;
    uint8_t *out;
    size_t room;
    uint64_t *answer;
    size_t asked;          /* how many numbers of the answer are lent */
    size_t told;           /* how many of them the call gave */
    uint64_t list[LISTED]; /* what the answer has past the layers: the nodes out of service, their number first, and the feeders */
};

struct call {
    const char *name;
    size_t (*run)(struct lent *, const uint64_t *given, uint64_t *got);
    size_t asked;
    int figures, list;
};

extern const struct call calls[CALLS];

#endif
