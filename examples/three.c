/* A frame from three stored ones, which are the frames of three lists of transfer frames of 1,115
 * test octets, of format 13 without pilots or of the format and the choice of pilots that are
 * given: their exclusive or, slot by slot. Prints its digest, and in how many slots it differs from
 * the frame of the list that is the exclusive or of the three, octet by octet.
 *     cc -Iinclude examples/three.c build/libsccc.a -o build/three
 *     build/three && build/three 37 1 */
#include "sccc.h"

#include <inttypes.h>
#include <stdio.h>
#include <stdlib.h>

/* so many transfer frames fill a frame of any format */
enum { OCTETS = 1115, COUNT = 109, LENGTH = COUNT * OCTETS };

static void fill(uint64_t seed, uint8_t *transfer, size_t length)
{
    for (size_t i = 0; i < length; i++) {
        seed = (seed * 1103515245 + 12345) % 2147483648;
        transfer[i] = (uint8_t)(seed / 65536 % 256);
    }
}

static uint64_t digest(const uint16_t *slots, size_t length)
{
    uint64_t d = 1;
    for (size_t i = 0; i < length; i++)
        d = (d * 1000003 + slots[i] + 1) % 4294967291;
    return d;
}

static void pass(const char *call, uint64_t number)
{
    if (number != SCCC_PASSED) {
        fprintf(stderr, "%s: check %" PRIu64 " failed\n", call, number);
        exit(EXIT_FAILURE);
    }
}

/* The frame of a list's first sixteen blocks, through a fresh slicer. */
static void make_frame(uint64_t format, uint64_t pilots, const uint8_t *list, uint16_t *slots,
                       size_t length)
{
    static uint8_t waiting[SCCC_WAITING_MEMORY];
    static uint8_t block[SCCC_MAX_K], work[SCCC_MAX_I], codeword[SCCC_MAX_N];
    static uint8_t labels[SCCC_FRAME_LABELS];
    const sccc_format_info f = sccc_format(format);
    sccc_slicer slicer = sccc_slicer_new(format);

    for (uint64_t place = 0; place < SCCC_SECTIONS; place++) {
        uint8_t *section = labels + sccc_section(labels, SCCC_FRAME_LABELS, place).start;
        sccc_block_answer b = sccc_slicer_block(slicer, waiting, sizeof waiting, block, f.k);
        for (; b.wait; list += OCTETS) {
            sccc_slicer_answer p =
                sccc_slicer_push(b.slicer, list, OCTETS, waiting, sizeof waiting);
            pass("push", p.number);
            b = sccc_slicer_block(p.slicer, waiting, sizeof waiting, block, f.k);
        }
        pass("block", b.number);
        slicer = b.slicer;
        pass("encode", sccc_encode(format, block, f.k, work, f.i, codeword, f.n));
        pass("labels", sccc_labels(format, codeword, f.n, section, SCCC_SYMBOLS));
    }
    pass("frame", sccc_frame(format, pilots, labels, SCCC_FRAME_LABELS, slots, length));
}

int main(int argc, char **argv)
{
    static uint8_t lists[3][LENGTH], combined[LENGTH];
    static uint16_t stored[3][SCCC_PILOT_FRAME_SLOTS];
    static uint16_t made[SCCC_PILOT_FRAME_SLOTS], built[SCCC_PILOT_FRAME_SLOTS];
    const uint64_t format = argc > 1 ? strtoull(argv[1], NULL, 10) : 13;
    const uint64_t pilots = argc > 2 ? strtoull(argv[2], NULL, 10) : SCCC_PILOTS_OFF;
    const size_t length = pilots == SCCC_PILOTS_OFF ? SCCC_FRAME_SLOTS : SCCC_PILOT_FRAME_SLOTS;

    for (size_t j = 0; j < 3; j++) {
        for (size_t n = 0; n < COUNT; n++)
            fill(4000 + 1000 * j + n, lists[j] + OCTETS * n, OCTETS);
        make_frame(format, pilots, lists[j], stored[j], length);
    }
    for (size_t s = 0; s < length; s++)
        made[s] = stored[0][s] ^ stored[1][s] ^ stored[2][s];

    for (size_t i = 0; i < LENGTH; i++)
        combined[i] = lists[0][i] ^ lists[1][i] ^ lists[2][i];
    make_frame(format, pilots, combined, built, length);

    size_t differ = 0;
    for (size_t s = 0; s < length; s++)
        differ += made[s] != built[s];
    printf("format %" PRIu64 ", pilots %" PRIu64 ": three frames' exclusive or has digest %" PRIu64
           "; slots that differ from the frame of the lists' exclusive or: %zu\n",
           format, pilots, digest(made, length), differ);
    return differ == 0 ? EXIT_SUCCESS : EXIT_FAILURE;
}
