/* What goes between relay.c and server.c: a question, then the bytes of its slices; back come the result and the bytes
 * of the slices that are written. Both sides are little-endian and align alike. */
#ifndef RELAY_H
#define RELAY_H

#include <stdint.h>

enum call { PROJECT_IMPL, EXPECTED_SIGNATURES };

struct question {
    uint32_t call, number;
    /* lengths in bytes; the answer's is of words */
    uint64_t image, output, detail, answer;
};

#endif
