/* A bench with two channels and memory for one expanded interleaver: test blocks of A in format 13,
 * of B in formats 28 and 27, in turn. Prints of each call the size that the memory holds
 * afterwards, and the digests of the codeword and of the entries held.
 *     cc -Iinclude examples/shared.c build/libsccc.a -o build/shared && build/shared */
#include "sccc.h"

#include <inttypes.h>
#include <stdio.h>
#include <stdlib.h>

static uint8_t block[SCCC_MAX_K], work[SCCC_MAX_I], codeword[SCCC_MAX_N];
static uint16_t memory[SCCC_MAX_I];

static void fill(uint64_t seed, size_t length)
{
    for (size_t i = 0; i < length; i++) {
        seed = (seed * 1103515245 + 12345) % 2147483648;
        block[i] = (uint8_t)(seed / 65536 % 2);
    }
}

static uint64_t digest(uint64_t d, uint64_t x)
{
    return (d * 1000003 + x + 1) % 4294967291;
}

static void pass(const char *call, uint64_t number)
{
    if (number != SCCC_PASSED) {
        fprintf(stderr, "%s: check %" PRIu64 " failed\n", call, number);
        exit(EXIT_FAILURE);
    }
}

/* formats 13 and 28 have one size, so the second call builds nothing; the last two do */
static const struct {
    char channel;
    uint64_t format;
} calls[] = {{'A', 13}, {'B', 28}, {'A', 13}, {'B', 27}, {'A', 13}};

int main(void)
{
    uint64_t held = 0;
    for (size_t j = 0; j < sizeof calls / sizeof *calls; j++) {
        const uint64_t format = calls[j].format;
        const sccc_format_info f = sccc_format(format);
        fill(2000 + 16 * format + j, f.k);
        const sccc_shared_answer s = sccc_encode_shared(format, block, f.k, work, f.i, codeword,
                                                        f.n, memory, SCCC_MAX_I, held);
        pass("encode, shared", s.number);
        held = s.held;

        uint64_t of_codeword = 1, of_entries = 1;
        for (size_t i = 0; i < f.n; i++)
            of_codeword = digest(of_codeword, codeword[i]);
        for (size_t i = 0; i < held; i++)
            of_entries = digest(of_entries, memory[i]);
        printf("channel %c, format %" PRIu64 ": held %" PRIu64 ", codeword digest %" PRIu64
               ", entries digest %" PRIu64 "\n",
               calls[j].channel, format, held, of_codeword, of_entries);
    }
    return EXIT_SUCCESS;
}
