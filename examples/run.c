/* A unit that is stopped halfway: the outer trellis' run over a test block of format 13, in two
 * parts, the second from the state in which the first ended. Prints where it was stopped, and the
 * digest of all bits and parities.
 *     cc -Iinclude examples/run.c build/libsccc.a -o build/run && build/run */
#include "sccc.h"

#include <inttypes.h>
#include <stdio.h>
#include <stdlib.h>

static uint8_t block[SCCC_MAX_K], out[2 * SCCC_MAX_K];

static void fill(uint64_t seed, size_t length)
{
    for (size_t i = 0; i < length; i++) {
        seed = (seed * 1103515245 + 12345) % 2147483648;
        block[i] = (uint8_t)(seed / 65536 % 2);
    }
}

static uint64_t digest(size_t length)
{
    uint64_t d = 1;
    for (size_t i = 0; i < length; i++)
        d = (d * 1000003 + out[i] + 1) % 4294967291;
    return d;
}

static void pass(const char *call, uint64_t number)
{
    if (number != SCCC_PASSED) {
        fprintf(stderr, "%s: check %" PRIu64 " failed\n", call, number);
        exit(EXIT_FAILURE);
    }
}

int main(void)
{
    const uint64_t format = 13;
    const size_t k = sccc_format(format).k, half = k / 2;
    fill(2000 + 16 * format, k);

    const sccc_run_answer stopped = sccc_run(0, block, half, out, 2 * half);
    pass("first part", stopped.number);
    const sccc_run_answer ended =
        sccc_run(stopped.state, block + half, k - half, out + 2 * half, 2 * (k - half));
    pass("second part", ended.number);

    printf("format %" PRIu64 ", stopped after %zu bits in state %" PRIu64 ", run digest %" PRIu64
           "\n",
           format, half, stopped.state, digest(2 * k));
    return EXIT_SUCCESS;
}
