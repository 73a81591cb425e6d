/* A frame of format 13 from transfer frames of 1,115 test octets; prints the digest of its slots.
 *     cc -Iinclude examples/stream.c build/libsccc.a -o build/stream && build/stream */
#include "sccc.h"

#include <inttypes.h>
#include <stdio.h>
#include <stdlib.h>

static void fill(uint64_t seed, uint8_t *transfer, size_t length)
{
    for (size_t i = 0; i < length; i++) {
        seed = (seed * 1103515245 + 12345) % 2147483648;
        transfer[i] = (uint8_t)(seed / 65536 % 256);
    }
}

static uint64_t digest(const uint16_t *slots, size_t length)
{
    uint64_t d = 1;
    for (size_t i = 0; i < length; i++)
        d = (d * 1000003 + slots[i] + 1) % 4294967291;
    return d;
}

static void pass(const char *call, uint64_t number)
{
    if (number != SCCC_PASSED) {
        fprintf(stderr, "%s: check %" PRIu64 " failed\n", call, number);
        exit(EXIT_FAILURE);
    }
}

int main(void)
{
    static uint8_t transfer[1115], waiting[SCCC_WAITING_MEMORY];
    static uint8_t block[SCCC_MAX_K], work[SCCC_MAX_I], codeword[SCCC_MAX_N];
    static uint8_t labels[SCCC_FRAME_LABELS];
    static uint16_t slots[SCCC_FRAME_SLOTS];
    const uint64_t format = 13;
    const sccc_format_info f = sccc_format(format);
    sccc_slicer slicer = sccc_slicer_new(format);
    uint64_t seed = 4000;

    for (uint64_t place = 0; place < SCCC_SECTIONS; place++) {
        uint8_t *section = labels + sccc_section(labels, SCCC_FRAME_LABELS, place).start;
        sccc_block_answer b = sccc_slicer_block(slicer, waiting, sizeof waiting, block, f.k);
        while (b.wait) {
            fill(seed++, transfer, sizeof transfer);
            sccc_slicer_answer p =
                sccc_slicer_push(b.slicer, transfer, sizeof transfer, waiting, sizeof waiting);
            pass("push", p.number);
            b = sccc_slicer_block(p.slicer, waiting, sizeof waiting, block, f.k);
        }
        pass("block", b.number);
        slicer = b.slicer;
        pass("encode", sccc_encode(format, block, f.k, work, f.i, codeword, f.n));
        pass("labels", sccc_labels(format, codeword, f.n, section, SCCC_SYMBOLS));
    }
    pass("frame", sccc_frame(format, SCCC_PILOTS_OFF, labels, SCCC_FRAME_LABELS, slots,
                             SCCC_FRAME_SLOTS));
    printf("format %" PRIu64 ", transfer frames of %zu octets, frame digest %" PRIu64 "\n", format,
           sizeof transfer, digest(slots, SCCC_FRAME_SLOTS));
    return EXIT_SUCCESS;
}
