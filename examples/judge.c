/* A captured unit judged: the labels of a codeword of test bits, of format 33 or of the format that
 * is given, held against a capture of their points, each moved by test noise, every hundredth lost.
 * Prints how many samples agree, differ and are lost, and the first place at which one differs.
 *     cc -Iinclude examples/judge.c build/libsccc.a -o build/judge
 *     build/judge && build/judge 37 */
#include "sccc.h"

#include <inttypes.h>
#include <stdio.h>
#include <stdlib.h>
#include <string.h>

/* Bits where there are 2 values, octets where there are 256. */
static void fill(uint64_t seed, uint64_t values, uint8_t *elements, size_t length)
{
    for (size_t i = 0; i < length; i++) {
        seed = (seed * 1103515245 + 12345) % 2147483648;
        elements[i] = (uint8_t)(seed / 65536 % values);
    }
}

static void pass(const char *call, uint64_t number)
{
    if (number != SCCC_PASSED) {
        fprintf(stderr, "%s: check %" PRIu64 " failed\n", call, number);
        exit(EXIT_FAILURE);
    }
}

static double noise(uint8_t octet)
{
    return (octet - 128) * 0.0005;
}

/* The line of a pair in a capture, and its length. */
static size_t put_pair(char *line, double i, double q)
{
    uint64_t bits[2];
    memcpy(&bits[0], &i, sizeof i);
    memcpy(&bits[1], &q, sizeof q);
    return (size_t)sprintf(line, "%016" PRIX64 ",%016" PRIX64 "\n", bits[0], bits[1]);
}

/* The text of the labels' capture, and its length. */
static size_t put_capture(char *text, uint64_t format, const uint8_t *labels)
{
    static uint8_t octets[2 * SCCC_SYMBOLS];
    size_t length = 0;
    fill(6000 + format, 256, octets, sizeof octets);

    for (size_t p = 0; p < SCCC_SYMBOLS; p++) {
        const sccc_point_answer point = sccc_point(format, labels[p], SCCC_UNSCRAMBLED, p);
        pass("point", point.number);
        if (p % 100 == 99)
            length += (size_t)sprintf(text + length, "LOST\n");
        else
            length += put_pair(text + length, point.i + noise(octets[2 * p]),
                               point.q + noise(octets[2 * p + 1]));
    }
    return length;
}

int main(int argc, char **argv)
{
    static uint8_t block[SCCC_MAX_K], work[SCCC_MAX_I], codeword[SCCC_MAX_N];
    static uint8_t labels[SCCC_SYMBOLS];
    /* sprintf ends what it writes with a zero */
    static char text[SCCC_LONGEST_CAPTURE + 1];
    const uint64_t format = argc > 1 ? strtoull(argv[1], NULL, 10) : 33;
    const sccc_format_info f = sccc_format(format);
    pass("format", f.number);

    fill(5000 + format, 2, block, f.k);
    pass("encode", sccc_encode(format, block, f.k, work, f.i, codeword, f.n));
    pass("labels", sccc_labels(format, codeword, f.n, labels, SCCC_SYMBOLS));
    const size_t length = put_capture(text, format, labels);

    const sccc_judgement j =
        sccc_judge(format, labels, SCCC_SYMBOLS, (const uint8_t *)text, length);
    pass("judge", j.number);
    printf("format %" PRIu64 ", %d samples: agreeing %" PRIu64 ", differing %" PRIu64
           ", lost %" PRIu64 ", ",
           format, SCCC_SYMBOLS, j.agreeing, j.differing, j.lost);
    if (j.none)
        printf("none differs\n");
    else
        printf("first that differs at place %" PRIu64 "\n", j.first);
    return EXIT_SUCCESS;
}
