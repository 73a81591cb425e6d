/* A change of format during a pass: a frame of format 13 from transfer frames of 1,115 test octets,
 * then a look ahead, the command, and a frame of format 1. Prints what the look says, and the digest
 * of the second frame's slots.
 *     cc -Iinclude examples/change.c build/libsccc.a -o build/change && build/change */
#include "sccc.h"

#include <inttypes.h>
#include <stdio.h>
#include <stdlib.h>

static uint8_t waiting[SCCC_WAITING_MEMORY];
static uint16_t slots[SCCC_FRAME_SLOTS];

static void fill(uint64_t seed, uint8_t *transfer, size_t length)
{
    for (size_t i = 0; i < length; i++) {
        seed = (seed * 1103515245 + 12345) % 2147483648;
        transfer[i] = (uint8_t)(seed / 65536 % 256);
    }
}

static uint64_t digest(void)
{
    uint64_t d = 1;
    for (size_t i = 0; i < SCCC_FRAME_SLOTS; i++)
        d = (d * 1000003 + slots[i] + 1) % 4294967291;
    return d;
}

static void pass(const char *call, uint64_t number)
{
    if (number != SCCC_PASSED) {
        fprintf(stderr, "%s: check %" PRIu64 " failed\n", call, number);
        exit(EXIT_FAILURE);
    }
}

/* The next block; transfer frames are pushed until it is there. */
static sccc_slicer take(sccc_slicer slicer, uint8_t *block)
{
    static uint8_t transfer[1115];
    static uint64_t seed = 4000;
    const size_t k = sccc_format(slicer.format).k;
    sccc_block_answer b = sccc_slicer_block(slicer, waiting, sizeof waiting, block, k);
    while (b.wait) {
        fill(seed++, transfer, sizeof transfer);
        sccc_slicer_answer p =
            sccc_slicer_push(b.slicer, transfer, sizeof transfer, waiting, sizeof waiting);
        pass("push", p.number);
        b = sccc_slicer_block(p.slicer, waiting, sizeof waiting, block, k);
    }
    pass("block", b.number);
    return b.slicer;
}

/* A frame of the next sixteen blocks, in the slicer's format. */
static sccc_slicer make_frame(sccc_slicer slicer)
{
    static uint8_t block[SCCC_MAX_K], work[SCCC_MAX_I], codeword[SCCC_MAX_N];
    static uint8_t labels[SCCC_FRAME_LABELS];
    const sccc_format_info f = sccc_format(slicer.format);
    for (uint64_t place = 0; place < SCCC_SECTIONS; place++) {
        uint8_t *section = labels + sccc_section(labels, SCCC_FRAME_LABELS, place).start;
        slicer = take(slicer, block);
        pass("encode", sccc_encode(slicer.format, block, f.k, work, f.i, codeword, f.n));
        pass("labels", sccc_labels(slicer.format, codeword, f.n, section, SCCC_SYMBOLS));
    }
    pass("frame", sccc_frame(slicer.format, SCCC_PILOTS_OFF, labels, SCCC_FRAME_LABELS, slots,
                             SCCC_FRAME_SLOTS));
    return slicer;
}

int main(void)
{
    sccc_slicer slicer = make_frame(sccc_slicer_new(13));

    const sccc_look_answer ahead = sccc_slicer_look(slicer, 1);
    pass("look", ahead.number);
    const sccc_slicer_answer changed = sccc_slicer_change(slicer, 1);
    pass("change", changed.number);
    slicer = make_frame(changed.slicer);

    printf("from format 13 to %" PRIu64 ": blocks ahead %" PRIu64 ", bits that stay %" PRIu64
           ", frame digest %" PRIu64 "\n",
           slicer.format, ahead.blocks, ahead.bits, digest());
    return EXIT_SUCCESS;
}
