/*
 * sccc.h: the SCCC encoder of CCSDS 131.2-O-1 and of its extension CCSDS 131.21-O-1 (SCCC-X, here
 * document 004: formats 28 to 37) for C and C++, from transfer frames to information blocks, from a
 * block to its codeword, the codeword's labels and a frame with or without pilots, a comparison of
 * two label lists, the job lines of a bench, and of formats 33 to 37 the points for a signal
 * generator and the judgement of a captured unit. Link build/libsccc.a or build/libsccc.so (x86-64
 * Linux).
 *
 * Data      A bit is a byte, 0 or 1. A label is a byte below 2^m. A slot of a frame is a uint16_t,
 *           and so are a cut of a trellis' input and an entry of an interleaver's memory. An octet
 *           of a transfer frame is a byte, and so is a character of a job line or of a capture
 *           (ASCII). A point's coordinates are doubles. Places and positions count from 0. K, K1,
 *           I, W, N and m are those of the ACM format; K1 is K in formats 1 to 27, less in the
 *           others.
 *
 * Answers   A call makes its checks in the order that is given with it. The number of the first
 *           one that fails is the answer, 0 if none does. Every argument has an answer: a number
 *           is taken whole, so 257 is not format 1, and any byte may stand in a buffer.
 *           A refusal has 0 in every other field but a slicer and held, which it gives back as they
 *           came, and leaves every buffer as it was.
 *
 * Buffers   A buffer is a pointer and a number of elements, all of which the caller can read, and
 *           write if the pointer is not to const. No buffer that a call writes overlaps another
 *           buffer of the same call. Input is unchanged, and so is output past the stated length.
 *           Where a length is 0 nothing is read or written, and the pointer may be null. A buffer
 *           of uint16_t is aligned to 2 bytes, one of double to 8.
 *
 * Threads   The library has no variables, allocates nothing and reads or writes nothing but the
 *           buffers. Calls may run in several threads at once, as long as no other thread writes
 *           a call's buffers, or reads those that it writes, before it returns. A call takes less
 *           than 32 KiB of stack.
 *
 * WARNING: FORMATS 12, 14, 29 AND 34 ARE PROVISIONAL. Ten rows of their interleaver's table (annex
 * C, size 32,040, rows 257 to 266) are missing from the copy of the standard that was at hand.
 * Others stand in for them, so what sccc_interleave, sccc_encode, sccc_encode_segments and
 * sccc_encode_shared give for these four formats is not the standard's. A program learns it from
 * the field provisional of sccc_format's answer.
 */
#ifndef SCCC_H
#define SCCC_H

#include <stddef.h>
#include <stdint.h>

#ifdef __cplusplus
extern "C" {
#endif

/* The checks' numbers. */
#define SCCC_PASSED 0           /* every check holds */
#define SCCC_BAD_FORMAT 1       /* the format is not 1 to 37, for a point or a capture not 33 to
                                   37 */
#define SCCC_BAD_LENGTH 2       /* a list is not as long as the call takes, or too many bits wait */
#define SCCC_BAD_ELEMENT 3      /* a bit is not 0 or 1, a label not below 2^m, a state not 0 to 3,
                                   an entry of a memory not its position's, a point's slot not 0
                                   to 255 */
#define SCCC_SHORT_WORKSPACE 4  /* the workspace or a slicer's memory is too short */
#define SCCC_SHORT_OUTPUT 5     /* the output is too short */
#define SCCC_BAD_LINE 6         /* the job line is not well formed, or of the other form */
#define SCCC_BAD_PATTERN 7      /* the pattern is not 0, 1 or 2 */
#define SCCC_BAD_PLACE 8        /* the place or position is not inside */
#define SCCC_BAD_FRAME_LENGTH 9 /* the transfer frame does not have 223 to 65,536 octets */
#define SCCC_OTHER_LENGTH 10    /* the transfer frame is not as long as the channel's first */
#define SCCC_BLOCK_WAITS 11     /* K or more bits still wait */
#define SCCC_TOO_MANY_CUTS 12   /* a list has more than fifteen cuts */
#define SCCC_BAD_CUT 13         /* a cut falls below the one before it, or lies beyond the input */
#define SCCC_BAD_PILOTS 14      /* the pilot choice is not 0 or 1 */
#define SCCC_SHORT_MEMORY 15    /* the interleaver's memory is too short */
#define SCCC_BAD_CODE 16        /* the code number is above 262,142 */
#define SCCC_NO_WAY_BACK 17     /* the job line has pilots or a code number, and cannot go back */
#define SCCC_BAD_CAPTURE 18     /* the capture is not 8,100 well-formed lines */
#define SCCC_BAD_COORDINATE 19  /* a coordinate of the capture is not a number from -2 to 2 */

/* Sizes that all formats share, and the largest of those that they do not. */
#define SCCC_FORMATS 37          /* the formats are 1 to 37 */
#define SCCC_SYMBOLS 8100        /* labels of a codeword */
#define SCCC_SECTIONS 16         /* codewords of a frame */
#define SCCC_FRAME_LABELS 129600 /* labels of a frame */
#define SCCC_SEGMENTS 16         /* segments of a trellis' input, at most */
#define SCCC_MAX_K 60510         /* bits of a block */
#define SCCC_MAX_I 65520         /* bytes of a workspace, entries of an interleaver's memory */
#define SCCC_MAX_N 64800         /* bits of a codeword */

/* The frame's choice of pilots, and its slots. */
#define SCCC_PILOTS_OFF 0
#define SCCC_PILOTS_ON 1
#define SCCC_FRAME_SLOTS 129920       /* slots of a frame without pilots */
#define SCCC_PILOT_FRAME_SLOTS 133760 /* and of one with them */
#define SCCC_HEADER_SLOTS 320         /* slots of marker and descriptor, before the first label */
#define SCCC_SUBSECTION_LABELS 540    /* labels that the pilots follow */
#define SCCC_SUBSECTION_SLOTS 556     /* these labels and their sixteen pilots */
#define SCCC_PILOT 258                /* what a pilot's slot holds */

/* The slicer's sizes. */
#define SCCC_LEAST_TRANSFER_FRAME 223  /* octets of a transfer frame, at least */
#define SCCC_MOST_TRANSFER_FRAME 65536 /* and at most */
#define SCCC_WAITING_MEMORY 600000     /* bytes of the memory in which bits wait, at least */

/* The job line's sizes, and its code number. */
#define SCCC_LONGEST_OLD_LINE 8     /* bytes of a line of the old form, at most */
#define SCCC_LONGEST_LINE 19        /* and of the longer form */
#define SCCC_LAST_CODE 262142       /* code numbers are 0 to 262,142 */
#define SCCC_UNSCRAMBLED UINT64_MAX /* and this stands for none */

/* The points' formats and labels, and the places of symbols. */
#define SCCC_FIRST_POINT_FORMAT 33 /* points and captures are of formats 33 to 37 */
#define SCCC_POINTS 256            /* one for each label */
#define SCCC_POINT_PLACES 133760   /* places are below this */

/* The capture's size. */
#define SCCC_LONGEST_CAPTURE 275400 /* bytes of a capture, at most: 8,100 lines of 34 */

/*
 * provisional: 1 where the interleaver has rows that stand in for published ones, else 0
 * k1, k2: bits of a block that go through the trellises, its first, and that the BCH code covers
 * soft: bits of a label that come from the trellises
 */
typedef struct {
    uint64_t number, m, k, i, w, n, provisional, k1, k2, soft;
} sccc_format_info;

/* state: the state that follows */
typedef struct {
    uint64_t number, systematic, parity, state;
} sccc_stepped;

/* state: the state that the run ends in */
typedef struct {
    uint64_t number, state;
} sccc_run_answer;

typedef struct {
    uint64_t number, position;
} sccc_interleaved;

/* of each segment: the state in which its run from zero ends, and its true starting state */
typedef struct {
    uint8_t ended[SCCC_SEGMENTS], started[SCCC_SEGMENTS];
} sccc_segment_states;

typedef struct {
    uint64_t number;
    sccc_segment_states outer, inner;
} sccc_segments_answer;

/* held: the size I that the memory holds, 0 for none */
typedef struct {
    uint64_t number, held;
} sccc_shared_answer;

/* where the section stands in the caller's labels */
typedef struct {
    uint64_t number, start, length;
} sccc_section_range;

/* same: 1 or 0; count is of bits, first a label's place; both are 0 where the lists are the same */
typedef struct {
    uint64_t number, same, count, first;
} sccc_comparison;

/* frame_length: octets of the channel's frames, 0 before the first; waiting: bits that wait */
typedef struct {
    uint64_t format, frame_length, waiting;
} sccc_slicer;

typedef struct {
    uint64_t number;
    sccc_slicer slicer;
} sccc_slicer_answer;

/* wait: 1 where fewer than K bits wait, else 0 */
typedef struct {
    uint64_t number, wait;
    sccc_slicer slicer;
} sccc_block_answer;

/* blocks that the waiting bits would yield, and bits that would stay */
typedef struct {
    uint64_t number, blocks, bits;
} sccc_look_answer;

/* code: SCCC_UNSCRAMBLED where there is no code number */
typedef struct {
    uint64_t number, format, pattern, pilots, code;
} sccc_job_answer;

/* length: bytes of the line that is written */
typedef struct {
    uint64_t number, length;
} sccc_line_answer;

/* the in-phase and the quadrature coordinate */
typedef struct {
    uint64_t number;
    double i, q;
} sccc_point_answer;

/* samples that agree, differ and are lost; none: 1 where none differs, and first is then 0 */
typedef struct {
    uint64_t number, agreeing, differing, lost, none, first;
} sccc_judgement;

/*
 * sccc_format: an ACM format's parameters (tables 4-1, 4-3; 004, tables 3-1, 4-1, 5-3).
 *
 * Computes  m, the bits of a label; K, of a block; I, the length of the interleaver; W = I / 120;
 *           N, the bits of a codeword; whether the format is provisional (see above); and the
 *           soft share: K1, the bits of a block that go through the trellises, K2, those that the
 *           BCH code covers, and the soft bits, those of a label that come from the trellises. K is
 *           K1 + K2, and 2 I is 3 (K1 + 2). In formats 1 to 27 the three are K, 0 and m; in formats
 *           28 to 37 K1 is the K of a format from 13 to 17, K2 is 8,048 (m - 4), and soft is 4.
 * Checks    1  the format is 1 to 37
 * Success   number is 0, and the other fields are the format's.
 * Refusal   number is the check's, and every other field is 0.
 */
sccc_format_info sccc_format(uint64_t format);

/*
 * sccc_step: one step of the trellis (section 6, equation 6-4).
 *
 * Computes  the systematic bit, the parity bit and the next state. A state is 2 * x0 + x1.
 * Checks    3  the state is 0 to 3, and the bit 0 or 1
 * Success   number is 0, and the other fields are the step's.
 * Refusal   number is the check's, and every other field is 0.
 */
sccc_stepped sccc_step(uint64_t state, uint64_t bit);

/*
 * sccc_run: a run of the trellis over a list of bits, from any state.
 *
 * Computes  the steps on each bit in turn: what each gives, and the state 2 * x0 + x1 after the
 *           last. The run is not terminated, so another may go on from where it ends: what the two
 *           write, one behind the other, and the state of the second are those of one run over both
 *           lists. A list of no bits is a run too, and gives the state back.
 * Checks    3  the state is 0 to 3, and each element of bits 0 or 1
 *           5  out_len is at least 2 * bits_len
 * Success   number is 0, and state is the state that the run ends in. The first 2 * bits_len bytes
 *           of out are the first bit, its parity, the second bit, its parity and so on, and the
 *           bytes after those as they were.
 * Refusal   number is the check's, and state is 0. out is as it was.
 */
sccc_run_answer sccc_run(uint64_t state, const uint8_t *bits, size_t bits_len, uint8_t *out,
                         size_t out_len);

/*
 * sccc_interleave: the interleaver (4.3, annex C).
 *
 * Computes  the interleaved position of a position in the upper register: the upper register has
 *           there the outer kept bit of that number.
 * Checks    1  the format is 1 to 37
 *           8  the position is below I
 * Success   number is 0, and position is the interleaved position, below I.
 * Refusal   number is the check's, and position is 0.
 */
sccc_interleaved sccc_interleave(uint64_t format, uint64_t position);

/*
 * sccc_encode: the encoder (4.1 to 4.4; 004, 4.1 to 4.3).
 *
 * Computes  the codeword of an information block: what the two trellises make of its first K1 bits,
 *           8,100 bits for each soft bit of a label, and in formats 28 to 37 behind it the other
 *           bits, 8,048 at a time, each time with the 52 check bits of the BCH code. The check bits
 *           are those of 91 zeros and then the 8,048 bits: figure 4-3 of 004 draws the zeros behind
 *           the bits, which would give others.
 * Checks    1  the format is 1 to 37
 *           2  block_len is K
 *           3  each element of block is 0 or 1
 *           4  work_len is at least I
 *           5  out_len is at least N
 * Success   The answer is 0. The first N bytes of out are the codeword, the first I bytes of work
 *           the outer kept bits before interleaving, and the bytes after those as they were.
 * Refusal   The answer is the check's number. work and out are as they were.
 */
uint8_t sccc_encode(uint64_t format, const uint8_t *block, size_t block_len, uint8_t *work,
                    size_t work_len, uint8_t *out, size_t out_len);

/*
 * sccc_encode_segments: the encoder by segments (section 6).
 *
 * Computes  the codeword as encoders in parallel do: each segment of a trellis' input is run from
 *           the zero state, its true starting state is worked out from where those runs end
 *           (equation 6-6), and it is run again from there. The outer trellis' input is the first
 *           K1 bits of the block, the inner one's the I interleaved bits. A list of cuts makes one
 *           segment more than it has cuts: the first begins at 0 and each other at a cut, and each
 *           ends where the next begins, the last at the input's end. Equal cuts make an empty
 *           segment, as do a cut at 0 and one at the end. The two lists may overlap, since neither
 *           is written.
 * Checks    1   the format is 1 to 37
 *           2   block_len is K
 *           3   each element of block is 0 or 1
 *           4   work_len is at least I
 *           5   out_len is at least N
 *           12  outer_len and inner_len are at most 15
 *           13  no cut is below the one before it in its list, none of outer_cuts is above K1, and
 *               none of inner_cuts above I
 * Success   number is 0. work and out are as sccc_encode leaves them, wherever the cuts are. For
 *           each trellis and each segment, in order from element 0 on, ended is the state
 *           2 * x0 + x1 in which its run from zero ends, and started the state that the plain run
 *           has where it begins. Both are 0 past the last segment.
 * Refusal   number is the check's, and every state is 0. work and out are as they were.
 */
sccc_segments_answer sccc_encode_segments(uint64_t format, const uint8_t *block, size_t block_len,
                                          uint8_t *work, size_t work_len, uint8_t *out,
                                          size_t out_len, const uint16_t *outer_cuts,
                                          size_t outer_len, const uint16_t *inner_cuts,
                                          size_t inner_len);

/*
 * sccc_encode_shared: the encoder through an expanded interleaver in lent memory, which channels
 * share.
 *
 * The memory goes from call to call, whichever channel makes it, and with it held, the size I that
 * it holds: each call is given both as the last one left them, the first 0 and any memory. Then
 * a call that passes gives what sccc_encode gives, and a channel's numbers, codewords and
 * workspaces are the same whatever the others ask for.
 *
 * Computes  the codeword, with the interleaved positions read from the memory. Where held is not
 *           the format's I, be it 0, the I of another format or any other number, they are first
 *           written there. Formats of one I have one interleaver, and so share what is held.
 * Checks    1   the format is 1 to 37
 *           2   block_len is K
 *           3   each element of block is 0 or 1
 *           4   work_len is at least I
 *           5   out_len is at least N
 *           15  memory_len is at least I
 *           3   if held is I, each of the first I entries of memory is its position's interleaved
 *               position
 * Success   number is 0, and held is I. work and out are as sccc_encode leaves them. Entry i of the
 *           first I of memory is what sccc_interleave gives for position i, and the entries after
 *           those are as they were. Where held was I, memory is only read.
 * Refusal   number is the check's, and held as it came. work, out and memory are as they were.
 */
sccc_shared_answer sccc_encode_shared(uint64_t format, const uint8_t *block, size_t block_len,
                                      uint8_t *work, size_t work_len, uint8_t *out, size_t out_len,
                                      uint16_t *memory, size_t memory_len, uint64_t held);

/*
 * sccc_labels: the row-column interleaver and the labels (4.5, 4.6; 004, 4.4).
 *
 * Computes  the 8,100 labels of a codeword, of m bits each; the first bit weighs most.
 * Checks    1  the format is 1 to 37
 *           2  codeword_len is N
 *           3  each element of codeword is 0 or 1
 *           5  out_len is at least 8,100
 * Success   The answer is 0. The first 8,100 bytes of out are the labels, and those after them as
 *           they were.
 * Refusal   The answer is the check's number. out is as it was.
 */
uint8_t sccc_labels(uint64_t format, const uint8_t *codeword, size_t codeword_len, uint8_t *out,
                    size_t out_len);

/*
 * sccc_frame: the physical layer frame, without pilots or with them (5; 004, 5.3).
 *
 * Computes  the slots of a frame: 256 bits of the frame marker, 64 bits of the frame descriptor,
 *           which says whether there are pilots, then the labels of sixteen codewords, and with
 *           pilots 1 sixteen pilots behind every 540 of them. A marker or descriptor bit is 256 for
 *           0 and 257 for 1; a label's slot is the label; a pilot's is 258.
 *           With pilots, slot s is a pilot's exactly if s is at least 320 and (s - 320) % 556 at
 *           least 540, and label i has the slot 320 + i / 540 * 556 + i % 540. Without the pilots'
 *           slots the frame is the one without pilots, but for the descriptor, which has each of
 *           its bits turned over.
 * Checks    1   the format is 1 to 37
 *           14  pilots is 0, for none, or 1
 *           2   labels_len is 129,600
 *           3   each element of labels is below 2^m
 *           5   out_len is at least 129,920, with pilots 133,760
 * Success   The answer is 0. The first 129,920 slots of out, with pilots the first 133,760, are the
 *           frame, and those after them as they were.
 * Refusal   The answer is the check's number. out is as it was.
 */
uint8_t sccc_frame(uint64_t format, uint64_t pilots, const uint8_t *labels, size_t labels_len,
                   uint16_t *out, size_t out_len);

/*
 * sccc_section: a codeword section of a frame's labels.
 *
 * Computes  where the labels of the codeword at a place stand in the caller's labels. Any byte is a
 *           label there, since no format is given.
 * Checks    2  labels_len is 129,600
 *           8  the place is 0 to 15
 * Success   number is 0, and the section is labels[start] to labels[start + length - 1]: start is
 *           place * 8,100, and length 8,100.
 * Refusal   number is the check's, and start and length are 0.
 */
sccc_section_range sccc_section(const uint8_t *labels, size_t labels_len, uint64_t place);

/*
 * sccc_compare: two label lists held against each other.
 *
 * Computes  whether two lists of a format's labels are the same; if not, in how many bits the
 *           labels differ, added over all places, and the first place at which they do. a and b
 *           may overlap, since neither is written.
 * Checks    1  the format is 1 to 37
 *           2  a_len and b_len are 8,100
 *           3  each element of a and of b is below 2^m
 * Success   number is 0. Lists that are the same have same 1, and 0 in count and first; others
 *           have same 0, and their count and first.
 * Refusal   number is the check's, and every other field is 0.
 */
sccc_comparison sccc_compare(uint64_t format, const uint8_t *a, size_t a_len, const uint8_t *b,
                             size_t b_len);

/*
 * sccc_slicer_new: a channel's slicer (3.4), to which transfer frames are pushed and from which
 * blocks are taken.
 *
 * A slicer goes from call to call by value, and with it the memory in which its bits wait, a bit a
 * byte, from byte 0 on: each call is given slicer and memory as the last one left them. Then the
 * blocks taken, and behind them the bits that wait, are the stream of the frames pushed, whatever
 * formats were commanded between.
 *
 * Computes  a slicer before the first frame.
 * Checks    none: a format that is none is refused by the calls that are given the slicer.
 * Success   format is the format's; frame_length and waiting are 0. The memory may hold anything.
 */
sccc_slicer sccc_slicer_new(uint64_t format);

/*
 * sccc_slicer_push: a transfer frame in (3.1 to 3.3).
 *
 * Computes  what the frame puts on the channel: the 32 bits of 1ACFFC1D, hexadecimal, then the
 *           frame's octets, heaviest bit first, randomized from the frame's first bit on.
 * Checks    1   the slicer's format is 1 to 37
 *           9   frame_len is 223 to 65,536
 *           10  the slicer's frame_length is 0 or frame_len
 *           11  fewer than K bits wait
 *           2   at most 600,000 bits wait
 *           3   the bytes that wait, of those that are there, are 0 or 1
 *           4   waiting_len is at least 600,000
 * Success   number is 0. The frame's bits stand in waiting behind those that wait, and the bytes
 *           before and after them are as they were. The slicer has frame_len for its frame_length,
 *           and 32 + 8 * frame_len bits more wait.
 * Refusal   number is the check's, and the slicer as it came. waiting is as it was.
 */
sccc_slicer_answer sccc_slicer_push(sccc_slicer slicer, const uint8_t *frame, size_t frame_len,
                                    uint8_t *waiting, size_t waiting_len);

/*
 * sccc_slicer_block: an information block out (3.4).
 *
 * Computes  the first K bits that wait, for sccc_encode; or that there are not so many.
 * Checks    1  the slicer's format is 1 to 37
 *           2  at most 600,000 bits wait
 *           3  the bytes that wait, of those that are there, are 0 or 1
 *           4  waiting_len is at least 600,000
 *           5  out_len is at least K
 * Success   number is 0. Where fewer than K bits wait, wait is 1, the slicer is as it came, and
 *           waiting and out are as they were. Else wait is 0, the first K bytes of out are the
 *           block, the other bits that wait have moved to the front of waiting, the bytes after
 *           those, here and in out, are as they were, and K bits fewer wait.
 * Refusal   number is the check's, wait 0, and the slicer as it came. waiting and out are as they
 *           were.
 */
sccc_block_answer sccc_slicer_block(sccc_slicer slicer, uint8_t *waiting, size_t waiting_len,
                                    uint8_t *out, size_t out_len);

/*
 * sccc_slicer_change: another format, between blocks.
 *
 * Computes  the slicer in the commanded format. The bits that wait are kept, in order: the blocks
 *           taken from now on have the new K, and check 11 of sccc_slicer_push goes by it. The
 *           memory is not needed.
 * Checks    1  the slicer's format and the commanded one are 1 to 37
 *           2  at most 600,000 bits wait
 * Success   number is 0, and the slicer has the commanded format; its frame_length and waiting are
 *           as they came.
 * Refusal   number is the check's, and the slicer as it came.
 */
sccc_slicer_answer sccc_slicer_change(sccc_slicer slicer, uint64_t format);

/*
 * sccc_slicer_look: what that change would bring.
 *
 * Computes  how many blocks the waiting bits would yield if the format were commanded, and how many
 *           bits would stay: what sccc_slicer_change on a copy of the slicer, and then
 *           sccc_slicer_block until wait is 1, would come to. Nothing is altered, and the memory is
 *           not needed.
 * Checks    1  the slicer's format and the one asked about are 1 to 37
 *           2  at most 600,000 bits wait
 * Success   number is 0, blocks the number of blocks, and bits the number of bits, fewer than K.
 * Refusal   number is the check's, and blocks and bits are 0.
 */
sccc_look_answer sccc_slicer_look(sccc_slicer slicer, uint64_t format);

/*
 * sccc_job: what a job line asks for.
 *
 * A job line is format,pattern and a line feed, or in the longer form format,pattern,pilots,code
 * and a line feed, and nothing else. Format, pattern and pilots are numbers of 1 to 3 decimal
 * digits; the code is one of 1 to 6 or, where the job is unscrambled, a single -. No number begins
 * with a 0 but 0 itself. So 13,0 and 13,0,0,- are one job.
 *
 * Computes  the numbers of a line of either form. A line of the old form has pilots 0 and is
 *           unscrambled.
 * Checks    6   line is a job line
 *           1   the format is 1 to 37
 *           7   the pattern is 0 for all zeros, 1 for all ones or 2 for a single one at place 0
 *           14  pilots is 0, for none, or 1
 *           16  the code number is at most 262,142, or the job is unscrambled
 * Success   number is 0, and the other fields are the line's. Where the job is unscrambled, code is
 *           SCCC_UNSCRAMBLED.
 * Refusal   number is the check's, and every other field is 0.
 */
sccc_job_answer sccc_job(const uint8_t *line, size_t line_len);

/*
 * sccc_job_lengthen: a job line of the old form in the longer one.
 *
 * Computes  the line with the same format and pattern, pilots 0 and - for the code number.
 * Checks    6  line is a job line of the old form
 *           1  the format is 1 to 37
 *           7  the pattern is 0, 1 or 2
 *           5  out_len is at least line_len + 4, the length of the line that is written
 * Success   number is 0, and length that length. The first length bytes of out are the line, and
 *           the bytes after those as they were.
 * Refusal   number is the check's, and length is 0. out is as it was.
 */
sccc_line_answer sccc_job_lengthen(const uint8_t *line, size_t line_len, uint8_t *out,
                                   size_t out_len);

/*
 * sccc_job_shorten: a job line of the longer form back in the old one.
 *
 * Computes  the line with the same format and pattern, of a line with pilots 0 and - for the code
 *           number. What sccc_job_lengthen has written goes back to what it was, byte for byte.
 * Checks    6   line is a job line of the longer form
 *           1   the format is 1 to 37
 *           7   the pattern is 0, 1 or 2
 *           14  pilots is 0 or 1
 *           16  the code number is at most 262,142, or the job is unscrambled
 *           17  pilots is 0, and the job is unscrambled
 *           5   out_len is at least line_len - 4, the length of the line that is written
 * Success   number is 0, and length that length. The first length bytes of out are the line, and
 *           the bytes after those as they were.
 * Refusal   number is the check's, and length is 0. out is as it was.
 */
sccc_line_answer sccc_job_shorten(const uint8_t *line, size_t line_len, uint8_t *out,
                                  size_t out_len);

/*
 * sccc_point: the point of a symbol, for a signal generator (004, table 5-2; annex E).
 *
 * A place counts the symbols behind a frame's header, pilots among them: slot s has place s - 320.
 * The code number is as sccc_job gives it, with SCCC_UNSCRAMBLED for none.
 *
 * Computes  the coordinates of a label's point: each the whole number of ten-thousandths that the
 *           table prints, divided by 10,000 with one rounding. With a code number the point is
 *           turned by the 0 to 3 quarter turns that the physical-layer randomizer has at the place;
 *           this swaps and negates the coordinates and rounds nothing.
 * Checks    1   the format is 33 to 37
 *           3   the slot is at most 255, so a label, and no marker bit, descriptor bit or pilot
 *           16  the code number is at most 262,142, or there is none
 *           8   the place is below 133,760
 * Success   number is 0, and i and q are the coordinates.
 * Refusal   number is the check's, and i and q are +0.0.
 */
sccc_point_answer sccc_point(uint64_t format, uint64_t slot, uint64_t code, uint64_t place);

/*
 * sccc_points: the points of symbols in a row.
 *
 * Of a frame without pilots the slots behind the header may go into one call, at place 0. A pilot
 * has no point, so with pilots a call takes at most the 540 labels between two lots of them.
 *
 * Computes  the coordinates that sccc_point gives for each element of slots: for the first at the
 *           place, and for each other one place further on than for the one before it.
 * Checks    1   the format is 33 to 37
 *           3   each element of slots is at most 255
 *           16  the code number is at most 262,142, or there is none
 *           8   place + slots_len is at most 133,760, so each symbol's place is below that
 *           5   out_len is at least 2 * slots_len
 * Success   The answer is 0. The first 2 * slots_len numbers of out are the first symbol's i and q,
 *           the second's and so on, and those after them as they were.
 * Refusal   The answer is the check's number. out is as it was.
 */
uint8_t sccc_points(uint64_t format, const uint16_t *slots, size_t slots_len, uint64_t code,
                    uint64_t place, double *out, size_t out_len);

/*
 * sccc_judge: what a modulator sent, held against the labels of one codeword.
 *
 * A capture is a text of one line for each label, in order, each ended by a line feed. A line is
 * LOST, or the two coordinates of a sample, in-phase first, with a comma between: of each double
 * its bits, in 16 hexadecimal digits, 0 to 9 and A to F, heaviest first. The samples are held
 * against points that are not turned, so those of a scrambled unit have to be turned back first.
 *
 * Computes  of each sample that is not lost, the label whose point is nearest: the sample agrees if
 *           that is the label at its place, and else it differs. Distances are squared, and rounded
 *           to the nearest double at each operation: two subtractions, two squares and their sum.
 *           Of labels that are equally near the lowest is taken. labels and capture may overlap,
 *           since neither is written.
 * Checks    1   the format is 33 to 37
 *           2   labels_len is 8,100
 *           3   each element of labels is below 2^m; m is 8, so each is
 *           18  capture is 8,100 such lines, and nothing else
 *           19  each coordinate is a number from -2 to 2, -0.0 and subnormal ones among them: no
 *               infinity, no NaN
 * Success   number is 0. agreeing, differing and lost are the numbers of samples that agree, differ
 *           and are lost, 8,100 in all. Where none differs, none is 1 and first 0; else none is 0,
 *           and first is the first place at which one differs.
 * Refusal   number is the check's, and every other field is 0.
 */
sccc_judgement sccc_judge(uint64_t format, const uint8_t *labels, size_t labels_len,
                          const uint8_t *capture, size_t capture_len);

#ifdef __cplusplus
}
#endif

#endif
