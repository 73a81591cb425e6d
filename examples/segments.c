/* A modulator with twelve encoders in parallel (section 6): a test block of format 13, and the
 * interleaved bits that come of it, in twelve equal segments. Prints where each begins, the state
 * in which its run from zero ended and the state in which it is started again, outer and inner.
 *     cc -Iinclude examples/segments.c build/libsccc.a -o build/segments && build/segments */
#include "sccc.h"

#include <inttypes.h>
#include <stdio.h>
#include <stdlib.h>

enum { ENCODERS = 12 };

static uint8_t block[SCCC_MAX_K], work[SCCC_MAX_I], codeword[SCCC_MAX_N];

static void fill(uint64_t seed, size_t length)
{
    for (size_t i = 0; i < length; i++) {
        seed = (seed * 1103515245 + 12345) % 2147483648;
        block[i] = (uint8_t)(seed / 65536 % 2);
    }
}

static void pass(const char *call, uint64_t number)
{
    if (number != SCCC_PASSED) {
        fprintf(stderr, "%s: check %" PRIu64 " failed\n", call, number);
        exit(EXIT_FAILURE);
    }
}

int main(void)
{
    const uint64_t format = 13;
    const sccc_format_info f = sccc_format(format);
    fill(2000 + 16 * format, f.k);

    /* where the segments begin; all but the first are cuts */
    uint16_t outer[ENCODERS], inner[ENCODERS];
    for (size_t j = 0; j < ENCODERS; j++) {
        outer[j] = (uint16_t)(f.k1 * j / ENCODERS);
        inner[j] = (uint16_t)(f.i * j / ENCODERS);
    }
    const sccc_segments_answer s =
        sccc_encode_segments(format, block, f.k, work, f.i, codeword, f.n, outer + 1, ENCODERS - 1,
                             inner + 1, ENCODERS - 1);
    pass("encode by segments", s.number);

    for (size_t j = 0; j < ENCODERS; j++)
        printf("format %" PRIu64 ", segment %zu: outer from %d, ended %d, started %d; "
               "inner from %d, ended %d, started %d\n",
               format, j, outer[j], s.outer.ended[j], s.outer.started[j], inner[j],
               s.inner.ended[j], s.inner.started[j]);
    return EXIT_SUCCESS;
}
