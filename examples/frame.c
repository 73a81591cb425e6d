/* A frame from sixteen blocks of test bits, of format 13 without pilots or of the format and the
 * choice of pilots that are given; prints the digests of its slots and of the labels found in them.
 *     cc -Iinclude examples/frame.c build/libsccc.a -o build/frame
 *     build/frame && build/frame 37 1 */
#include "sccc.h"

#include <inttypes.h>
#include <stdio.h>
#include <stdlib.h>

static void fill(uint64_t seed, uint8_t *block, size_t length)
{
    for (size_t i = 0; i < length; i++) {
        seed = (seed * 1103515245 + 12345) % 2147483648;
        block[i] = (uint8_t)(seed / 65536 % 2);
    }
}

static uint64_t digest(const uint16_t *slots, size_t length)
{
    uint64_t d = 1;
    for (size_t i = 0; i < length; i++)
        d = (d * 1000003 + slots[i] + 1) % 4294967291;
    return d;
}

/* What a receiver finds behind the header: the labels, and no pilots. */
static size_t receive(uint64_t pilots, const uint16_t *slots, size_t length, uint16_t *found)
{
    size_t n = 0;
    for (size_t s = SCCC_HEADER_SLOTS; s < length; s++) {
        const size_t place = (s - SCCC_HEADER_SLOTS) % SCCC_SUBSECTION_SLOTS;
        if (pilots == SCCC_PILOTS_OFF || place < SCCC_SUBSECTION_LABELS)
            found[n++] = slots[s];
    }
    return n;
}

static void pass(const char *call, unsigned number)
{
    if (number != SCCC_PASSED) {
        fprintf(stderr, "%s: check %u failed\n", call, number);
        exit(EXIT_FAILURE);
    }
}

int main(int argc, char **argv)
{
    static uint8_t block[SCCC_MAX_K], work[SCCC_MAX_I], codeword[SCCC_MAX_N];
    static uint8_t labels[SCCC_FRAME_LABELS];
    static uint16_t slots[SCCC_PILOT_FRAME_SLOTS], found[SCCC_PILOT_FRAME_SLOTS];
    const uint64_t format = argc > 1 ? strtoull(argv[1], NULL, 10) : 13;
    const uint64_t pilots = argc > 2 ? strtoull(argv[2], NULL, 10) : SCCC_PILOTS_OFF;
    const size_t length = pilots == SCCC_PILOTS_OFF ? SCCC_FRAME_SLOTS : SCCC_PILOT_FRAME_SLOTS;
    const sccc_format_info f = sccc_format(format);
    pass("format", (unsigned)f.number);

    for (uint64_t place = 0; place < SCCC_SECTIONS; place++) {
        uint8_t *section = labels + sccc_section(labels, SCCC_FRAME_LABELS, place).start;
        fill(2000 + 16 * format + place, block, f.k);
        pass("encode", sccc_encode(format, block, f.k, work, f.i, codeword, f.n));
        pass("labels", sccc_labels(format, codeword, f.n, section, SCCC_SYMBOLS));
    }
    pass("frame", sccc_frame(format, pilots, labels, SCCC_FRAME_LABELS, slots, length));
    const size_t n = receive(pilots, slots, length, found);
    printf("format %" PRIu64 ", pilots %" PRIu64 ", frame digest %" PRIu64
           ", labels digest %" PRIu64 "\n",
           format, pilots, digest(slots, length), digest(found, n));
    return EXIT_SUCCESS;
}
