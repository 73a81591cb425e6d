/* Eight symbols in a row as a signal generator sends them, of format 33 with the code number 0 from
 * place 0 on, or of the format, the code number (- for unscrambled) and the place that are given.
 * Prints of each its place, its label and the bits of its two coordinates.
 *     cc -Iinclude examples/waveform.c build/libsccc.a -o build/waveform
 *     build/waveform && build/waveform 37 262142 131072 && build/waveform 33 - 0 */
#include "sccc.h"

#include <inttypes.h>
#include <stdio.h>
#include <stdlib.h>
#include <string.h>

static const uint16_t labels[] = {0, 37, 74, 111, 148, 185, 222, 255};

static void pass(const char *call, uint64_t number)
{
    if (number != SCCC_PASSED) {
        fprintf(stderr, "%s: check %" PRIu64 " failed\n", call, number);
        exit(EXIT_FAILURE);
    }
}

static uint64_t code_number(const char *text)
{
    return strcmp(text, "-") == 0 ? SCCC_UNSCRAMBLED : strtoull(text, NULL, 10);
}

static uint64_t bits(double coordinate)
{
    uint64_t b;
    memcpy(&b, &coordinate, sizeof b);
    return b;
}

int main(int argc, char **argv)
{
    const uint64_t format = argc > 1 ? strtoull(argv[1], NULL, 10) : 33;
    const uint64_t code = argc > 2 ? code_number(argv[2]) : 0;
    const uint64_t place = argc > 3 ? strtoull(argv[3], NULL, 10) : 0;

    for (size_t j = 0; j < sizeof labels / sizeof *labels; j++) {
        const sccc_point_answer p = sccc_point(format, labels[j], code, place + j);
        pass("point", p.number);
        printf("place %" PRIu64 ", label %u: i %016" PRIX64 ", q %016" PRIX64 "\n", place + j,
               (unsigned)labels[j], bits(p.i), bits(p.q));
    }
    return EXIT_SUCCESS;
}
