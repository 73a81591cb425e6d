/* Every check of every call, in order, and every byte that a call is lent. Buffers are filled
 * beforehand; a length of 0 goes with a null pointer. */
#define _POSIX_C_SOURCE 200809L

#include "sccc.h"

#include <pthread.h>
#include <stdio.h>
#include <stdlib.h>
#include <string.h>
#include <sys/mman.h>
#include <unistd.h>

enum { SPARE = 5 }; /* elements past those that a call needs */

static uint8_t block[SCCC_MAX_K + SPARE];
static uint8_t work[SCCC_MAX_I + SPARE];
static uint8_t codeword[SCCC_MAX_N + SPARE];
static uint16_t entries[SCCC_MAX_I + SPARE];
static uint8_t labels[SCCC_FRAME_LABELS + SPARE];
static uint8_t others[SCCC_SYMBOLS + SPARE];
static uint16_t slots[SCCC_PILOT_FRAME_SLOTS + SPARE];
static double coordinates[2 * SCCC_POINT_PLACES + SPARE];
static uint8_t capture[SCCC_LONGEST_CAPTURE + 40 + SPARE]; /* a line more than there may be */
static uint8_t transfer[SCCC_MOST_TRANSFER_FRAME + SPARE];
static uint8_t waiting[SCCC_WAITING_MEMORY + SPARE];

static const uint64_t not_formats[] = {0, 38, 256, 257, UINT64_C(4294967297), UINT64_MAX};
static const uint64_t not_small[] = {256, UINT64_C(4294967296), UINT64_MAX};
static const uint64_t not_pilots[] = {
    2, 3, 256, 257, UINT64_C(4294967296), UINT64_C(4294967297), UINT64_MAX};

#define LENGTH(array) (sizeof(array) / sizeof(array)[0])

static unsigned long checks, failures;

#define CHECK(condition) check(__LINE__, (condition) != 0, #condition)

static void check(int line, int holds, const char *condition)
{
    checks++;
    if (!holds) {
        failures++;
        printf("%s:%d: not so: %s\n", __FILE__, line, condition);
    }
}

/* What an element holds before a call: no bit, no label below 128 and not 255, so never what a call
 * would write there by chance alone. */
static unsigned filling(size_t i)
{
    return 128 + (unsigned)(i % 127);
}

static void fill(uint8_t *buffer, size_t length)
{
    size_t i;
    for (i = 0; i < length; i++)
        buffer[i] = (uint8_t)filling(i);
}

static int as_filled(const uint8_t *buffer, size_t from, size_t length)
{
    size_t i;
    for (i = from; i < length; i++)
        if (buffer[i] != filling(i))
            return 0;
    return 1;
}

static void fill_slots(void)
{
    size_t i;
    for (i = 0; i < LENGTH(slots); i++)
        slots[i] = (uint16_t)(1000 + filling(i));
}

static int slots_as_filled(size_t from)
{
    size_t i;
    for (i = from; i < LENGTH(slots); i++)
        if (slots[i] != 1000 + filling(i))
            return 0;
    return 1;
}

/* Whether a list is one value throughout. */
static int all(const uint8_t *list, size_t length, uint8_t value)
{
    size_t i;
    for (i = 0; i < length; i++)
        if (list[i] != value)
            return 0;
    return 1;
}

static const uint8_t *lent(const uint8_t *list, size_t length)
{
    return length == 0 ? NULL : list;
}

static uint8_t *lent_out(uint8_t *list, size_t length)
{
    return length == 0 ? NULL : list;
}

/* Document 004, 4.2: the format that encodes the first K1 bits of formats 28 to 37 alike. */
static uint64_t trellis_format(uint64_t f)
{
    return 13 + (f - 28) % 5;
}

/* Formats 1 to 27 send every bit through the trellises. Of the others document 004's table 3-1 has
 * the K; K1 and I are those of their trellis format, and the K2 other bits are pieces of 8,048. */
static void soft_share(uint64_t f, sccc_format_info r)
{
    static const uint64_t k[] = {43342, 45502, 47662, 50062, 52462,
                                 51390, 53550, 55710, 58110, 60510};
    sccc_format_info t;
    if (f <= 27) {
        CHECK(r.m <= 6 && r.k1 == r.k && r.k2 == 0 && r.soft == r.m);
        return;
    }
    t = sccc_format(trellis_format(f));
    CHECK(r.m == (f <= 32 ? 7 : 8) && r.soft == 4);
    CHECK(r.k == k[f - 28] && r.k1 == t.k && r.k2 == 8048 * (r.m - 4));
    CHECK(r.i == t.i && r.w == t.w && r.provisional == t.provisional);
}

static void format(void)
{
    uint64_t f, k = 0, i = 0, n = 0;
    size_t j;
    CHECK(sizeof(sccc_format_info) == 10 * sizeof(uint64_t));
    CHECK(offsetof(sccc_format_info, k1) == 7 * sizeof(uint64_t));
    for (f = 1; f <= SCCC_FORMATS; f++) {
        sccc_format_info r = sccc_format(f);
        CHECK(r.number == SCCC_PASSED);
        CHECK(r.m >= 2 && r.m <= 8);
        soft_share(f, r);
        CHECK(r.k == r.k1 + r.k2);
        CHECK(2 * r.i == 3 * (r.k1 + 2));
        CHECK(r.i == 120 * r.w);
        CHECK(r.n == SCCC_SYMBOLS * r.m);
        CHECK(r.provisional == STAND_IN(r.i));
        k = r.k > k ? r.k : k;
        i = r.i > i ? r.i : i;
        n = r.n > n ? r.n : n;
    }
    CHECK(k == SCCC_MAX_K && i == SCCC_MAX_I && n == SCCC_MAX_N);
    CHECK(k == 60510 && i == 65520 && n == 64800);
    CHECK(sccc_format(13).k == 19198 && sccc_format(13).w == 240);
    /* one interleaver: rows that stand in make all four provisional */
    CHECK(sccc_format(12).i == 32040 && sccc_format(14).i == 32040);
    CHECK(sccc_format(29).i == 32040 && sccc_format(34).i == 32040);
    for (j = 0; j < LENGTH(not_formats); j++) {
        sccc_format_info r = sccc_format(not_formats[j]);
        CHECK(r.number == SCCC_BAD_FORMAT);
        CHECK((r.m | r.k | r.i | r.w | r.n | r.provisional | r.k1 | r.k2 | r.soft) == 0);
    }
}

static int step_refused(uint64_t state, uint64_t bit)
{
    sccc_stepped r = sccc_step(state, bit);
    return r.number == SCCC_BAD_ELEMENT && (r.systematic | r.parity | r.state) == 0;
}

static void step(void)
{
    uint64_t state, bit;
    size_t j;
    CHECK(sizeof(sccc_stepped) == 4 * sizeof(uint64_t));
    for (state = 0; state < 4; state++)
        for (bit = 0; bit < 2; bit++) {
            uint64_t x0 = state / 2, x1 = state % 2;
            sccc_stepped r = sccc_step(state, bit);
            CHECK(r.number == SCCC_PASSED);
            CHECK(r.systematic == bit);
            CHECK(r.parity == (bit ^ x1));
            CHECK(r.state == 2 * x1 + (x0 ^ x1 ^ bit));
        }
    CHECK(step_refused(4, 0));
    CHECK(step_refused(0, 2));
    CHECK(step_refused(4, 2));
    for (j = 0; j < LENGTH(not_small); j++) {
        CHECK(step_refused(not_small[j], 0));
        CHECK(step_refused(0, not_small[j]));
    }
}

/* A run over the front of the block on filled memory, to the front of work: its answer, and every
 * byte that it leaves. */
static void run_gives(int line, uint64_t number, uint64_t state, size_t bits_len, size_t out_len)
{
    static uint8_t before[sizeof block];
    const size_t steps = number == SCCC_PASSED ? bits_len : 0;
    uint64_t x0 = state / 2, x1 = state % 2;
    size_t j;
    int written = 1;
    sccc_run_answer r;
    memcpy(before, block, sizeof block);
    fill(work, sizeof work);
    r = sccc_run(state, lent(block, bits_len), bits_len, lent_out(work, out_len), out_len);
    for (j = 0; j < steps; j++) {
        uint64_t u = block[j], next = x0 ^ x1 ^ u;
        written = written && work[2 * j] == u && work[2 * j + 1] == (u ^ x1);
        x0 = x1;
        x1 = next;
    }
    check(line, r.number == number, "the number of sccc_run");
    check(line, r.state == (number == SCCC_PASSED ? 2 * x0 + x1 : 0), "the state of sccc_run");
    check(line, written, "out has each bit and its parity");
    check(line, as_filled(work, 2 * steps, sizeof work), "out is unchanged where nothing is due");
    check(line, memcmp(block, before, sizeof block) == 0, "the bits are unchanged");
}

#define RUN(number, state, bits_len, out_len) run_gives(__LINE__, number, state, bits_len, out_len)

static void run(void)
{
    static const size_t lengths[] = {0, 1, 2, 3, 255, 256, 1023, 1024, 1025, 20000};
    /* document 01's readings: three bits from 00, and the closing steps from the other states */
    static const struct {
        uint64_t state;
        size_t length;
        uint8_t bits[3], written[6];
    } readings[] = {
        {0, 3, {1, 1, 1}, {1, 1, 1, 0, 1, 1}},
        {1, 2, {1, 1, 0}, {1, 0, 1, 1, 0, 0}},
        {3, 2, {0, 1, 0}, {0, 1, 1, 1, 0, 0}},
        {2, 2, {1, 0, 0}, {1, 1, 0, 0, 0, 0}},
    };
    static uint8_t whole[40000];
    uint64_t state;
    size_t j;
    CHECK(sizeof(sccc_run_answer) == 2 * sizeof(uint64_t));
    for (j = 0; j < LENGTH(readings); j++) {
        const size_t n = readings[j].length;
        sccc_run_answer r = sccc_run(readings[j].state, readings[j].bits, n, work, 2 * n);
        CHECK(r.number == SCCC_PASSED && r.state == 0);
        CHECK(memcmp(work, readings[j].written, 2 * n) == 0);
    }
    for (j = 0; j < sizeof block; j++)
        block[j] = (uint8_t)(j * j / 7 % 2);
    for (state = 0; state < 4; state++) {
        for (j = 0; j < LENGTH(lengths); j++) {
            size_t n = lengths[j];
            RUN(SCCC_PASSED, state, n, 2 * n);
            RUN(SCCC_PASSED, state, n, 2 * n + 1);
            RUN(SCCC_PASSED, state, n, sizeof work);
            if (n > 0) {
                RUN(SCCC_SHORT_OUTPUT, state, n, 2 * n - 1);
                RUN(SCCC_SHORT_OUTPUT, state, n, n);
                RUN(SCCC_SHORT_OUTPUT, state, n, 0);
                block[n - 1] ^= 2;
                RUN(SCCC_BAD_ELEMENT, state, n, 2 * n);
                RUN(SCCC_BAD_ELEMENT, state, n, 2 * n - 1);
                RUN(SCCC_PASSED, state, n - 1, 2 * n);
                block[n - 1] ^= 2;
            }
        }
        block[0] = 255;
        RUN(SCCC_BAD_ELEMENT, state, 1, 2);
        RUN(SCCC_BAD_ELEMENT, state, 1000, 0);
        block[0] = 0;
    }
    RUN(SCCC_BAD_ELEMENT, 4, 0, 0);
    RUN(SCCC_BAD_ELEMENT, 4, 10, 20);
    RUN(SCCC_BAD_ELEMENT, 4, 10, 19);
    for (j = 0; j < LENGTH(not_small); j++) {
        RUN(SCCC_BAD_ELEMENT, not_small[j], 0, 0);
        RUN(SCCC_BAD_ELEMENT, not_small[j], 10, 20);
    }
    /* the runs over two parts of a list are the run over all of it */
    for (state = 0; state < 4; state++)
        for (j = 0; j <= 20000; j += 800) {
            sccc_run_answer first = sccc_run(state, block, j, work, 2 * j);
            sccc_run_answer second =
                sccc_run(first.state, block + j, 20000 - j, work + 2 * j, 40000 - 2 * j);
            sccc_run_answer joined = sccc_run(state, block, 20000, whole, sizeof whole);
            CHECK(joined.number == SCCC_PASSED && second.number == SCCC_PASSED);
            CHECK(second.state == joined.state);
            CHECK(memcmp(work, whole, sizeof whole) == 0);
        }
}

static int interleave_refused(uint64_t number, uint64_t f, uint64_t position)
{
    sccc_interleaved r = sccc_interleave(f, position);
    return r.number == number && r.position == 0;
}

static void interleave(void)
{
    static const uint64_t formats[] = {1, 12, 27, 29, 37};
    static uint8_t met[SCCC_MAX_I];
    size_t j;
    uint64_t p;
    CHECK(sizeof(sccc_interleaved) == 2 * sizeof(uint64_t));
    for (j = 0; j < LENGTH(formats); j++) {
        uint64_t f = formats[j], i = sccc_format(f).i;
        int inside = 1;
        memset(met, 0, sizeof met);
        for (p = 0; p < i; p++) {
            sccc_interleaved r = sccc_interleave(f, p);
            if (r.number == SCCC_PASSED && r.position < i)
                met[r.position] = 1;
            else
                inside = 0;
        }
        CHECK(inside);
        CHECK(all(met, i, 1));
        CHECK(interleave_refused(SCCC_BAD_PLACE, f, i));
        CHECK(interleave_refused(SCCC_BAD_PLACE, f, UINT64_C(4294967296)));
        CHECK(interleave_refused(SCCC_BAD_PLACE, f, UINT64_MAX));
    }
    for (j = 0; j < LENGTH(not_formats); j++) {
        CHECK(interleave_refused(SCCC_BAD_FORMAT, not_formats[j], 0));
        CHECK(interleave_refused(SCCC_BAD_FORMAT, not_formats[j], UINT64_MAX));
    }
}

/* An encode call on the block and on filled memory: its answer, and every byte that it leaves. */
static void encode_gives(int line, uint8_t number, uint64_t f, size_t block_len, size_t work_len,
                         size_t out_len)
{
    static uint8_t before[sizeof block];
    int passes = number == SCCC_PASSED;
    uint8_t answer;
    memcpy(before, block, sizeof block);
    fill(work, sizeof work);
    fill(codeword, sizeof codeword);
    answer = sccc_encode(f, lent(block, block_len), block_len, lent_out(work, work_len), work_len,
                         lent_out(codeword, out_len), out_len);
    check(line, answer == number, "the answer of sccc_encode");
    check(line, memcmp(block, before, sizeof block) == 0, "the block is unchanged");
    check(line, as_filled(work, passes ? sccc_format(f).i : 0, sizeof work),
          "work is unchanged where nothing is due");
    check(line, as_filled(codeword, passes ? sccc_format(f).n : 0, sizeof codeword),
          "out is unchanged where nothing is due");
}

#define ENCODE(number, f, block_len, work_len, out_len)                                            \
    encode_gives(__LINE__, number, f, block_len, work_len, out_len)

/* Whether 8,100 bits are a multiple of document 004's generator polynomial, the first bit being the
 * highest power's. 4.3.1 prints its coefficients in hexadecimal, that of x^0 first. */
static int bch_codeword(const uint8_t *bits)
{
    const uint64_t printed = UINT64_C(0x1AAC3AB8418945);
    uint64_t g = 0, rest = 0;
    size_t j;
    for (j = 0; j <= 52; j++)
        g |= (printed >> j & 1) << (52 - j);
    for (j = 0; j < 8100; j++) {
        rest = rest << 1 | bits[j];
        if (rest >> 52)
            rest ^= g;
    }
    return rest == 0;
}

/* Formats 28 to 37: the codeword of the first K1 bits in their trellis format, and behind it each
 * piece of 8,048 bits with its 52 check bits. */
static void two_stages(uint64_t f)
{
    static uint8_t plain_work[SCCC_MAX_I], plain_out[SCCC_MAX_N];
    const uint64_t t = trellis_format(f);
    const sccc_format_info r = sccc_format(f);
    const size_t trellis_part = sccc_format(t).n;
    size_t j;
    for (j = 0; j < sizeof block; j++)
        block[j] = (uint8_t)(j * j / 7 % 2);
    ENCODE(SCCC_PASSED, f, r.k, r.i, r.n);
    CHECK(sccc_encode(t, block, r.k1, plain_work, r.i, plain_out, trellis_part) == SCCC_PASSED);
    CHECK(memcmp(work, plain_work, r.i) == 0);
    CHECK(memcmp(codeword, plain_out, trellis_part) == 0);
    for (j = 0; j < r.m - 4; j++) {
        const uint8_t *piece = codeword + trellis_part + 8100 * j;
        CHECK(memcmp(piece, block + r.k1 + 8048 * j, 8048) == 0);
        CHECK(bch_codeword(piece));
    }
    block[r.k - 1] = 2;
    ENCODE(SCCC_BAD_ELEMENT, f, r.k, r.i, r.n);
    ENCODE(SCCC_BAD_LENGTH, f, r.k1, r.i, r.n);
    block[r.k - 1] = 0;
    block[r.k1] = 255;
    ENCODE(SCCC_BAD_ELEMENT, f, r.k, r.i, r.n);
    memset(block, 0, sizeof block);
}

/* A single one, at the end of a block: the last piece's check bits are the generator polynomial's
 * coefficients below x^52, the highest first, and so the digits that 4.3.1 prints, backwards. */
static void one_at_the_end(uint64_t f)
{
    static const char printed[] = "11010101011000011101010111000010000011000100101000101";
    const sccc_format_info r = sccc_format(f);
    const uint8_t *last = codeword + r.n - 53;
    size_t j;
    block[r.k - 1] = 1;
    ENCODE(SCCC_PASSED, f, r.k, r.i, r.n);
    CHECK(all(work, r.i, 0) && all(codeword, r.n - 53, 0));
    for (j = 0; j <= 52; j++)
        CHECK(last[j] == printed[52 - j] - '0');
    block[r.k - 1] = 0;
}

static void encode(void)
{
    uint64_t f;
    size_t j;
    memset(block, 0, sizeof block);
    for (f = 1; f <= SCCC_FORMATS; f++) {
        sccc_format_info r = sccc_format(f);
        ENCODE(SCCC_PASSED, f, r.k, r.i, r.n);
        CHECK(all(work, r.i, 0) && all(codeword, r.n, 0));
        ENCODE(SCCC_PASSED, f, r.k, sizeof work, sizeof codeword);
        ENCODE(SCCC_BAD_LENGTH, f, r.k - 1, r.i, r.n);
        ENCODE(SCCC_BAD_LENGTH, f, r.k + 1, r.i, r.n);
        ENCODE(SCCC_SHORT_WORKSPACE, f, r.k, r.i - 1, r.n);
        ENCODE(SCCC_SHORT_OUTPUT, f, r.k, r.i, r.n - 1);
    }
    for (f = 28; f <= SCCC_FORMATS; f++) {
        two_stages(f);
        one_at_the_end(f);
    }
    for (j = 0; j < LENGTH(not_formats); j++) {
        ENCODE(SCCC_BAD_FORMAT, not_formats[j], 5758, 8640, 16200);
        ENCODE(SCCC_BAD_FORMAT, not_formats[j], 0, 0, 0);
    }
    ENCODE(SCCC_BAD_LENGTH, 1, 0, 0, 0);
    ENCODE(SCCC_BAD_LENGTH, 1, 0, 8640, 16200);
    ENCODE(SCCC_SHORT_WORKSPACE, 1, 5758, 0, 0);
    ENCODE(SCCC_SHORT_WORKSPACE, 1, 5758, 8639, 16199);
    ENCODE(SCCC_SHORT_OUTPUT, 1, 5758, 8640, 0);
    ENCODE(SCCC_PASSED, 1, 5758, 8640, 16201);
    block[5757] = 2;
    ENCODE(SCCC_BAD_LENGTH, 1, 5759, 0, 0);
    ENCODE(SCCC_BAD_ELEMENT, 1, 5758, 0, 0);
    ENCODE(SCCC_BAD_ELEMENT, 1, 5758, 8640, 16200);
    block[5757] = 255;
    ENCODE(SCCC_BAD_ELEMENT, 1, 5758, 8640, 16200);
    block[5757] = 1;
    ENCODE(SCCC_PASSED, 1, 5758, 8640, 16200);
    block[0] = 2;
    ENCODE(SCCC_BAD_ELEMENT, 1, 5758, 8640, 16200);
}

/* A list of cuts, and ways to make one. */
typedef struct {
    size_t length;
    uint16_t places[300];
} cut_list;

static cut_list cuts_of(size_t count, const uint16_t *places)
{
    cut_list list = {count, {0}};
    memcpy(list.places, places, count * sizeof *places);
    return list;
}

static cut_list cuts_from(uint64_t first, uint64_t step, size_t count)
{
    cut_list list = {count, {0}};
    size_t j;
    for (j = 0; j < count; j++)
        list.places[j] = (uint16_t)(first + j * step);
    return list;
}

#define NO_CUTS cuts_from(0, 0, 0)
#define CUTS(...)                                                                                  \
    cuts_of(LENGTH(((const uint16_t[]){__VA_ARGS__})), (const uint16_t[]){__VA_ARGS__})

static uint8_t next_state(uint8_t state, uint8_t bit)
{
    const unsigned x0 = state / 2, x1 = state % 2;
    return (uint8_t)(2 * x1 + (x0 ^ x1 ^ bit));
}

/* The segments' states by their definition: a run from zero over each, and the plain run. */
static sccc_segment_states states_of(const uint8_t *bits, size_t length, const cut_list *cuts)
{
    sccc_segment_states s;
    uint8_t plain = 0;
    size_t i = 0, j;
    memset(&s, 0, sizeof s);
    for (j = 0; j <= cuts->length; j++) {
        const size_t end = j < cuts->length ? cuts->places[j] : length;
        s.started[j] = plain;
        for (; i < end; i++) {
            s.ended[j] = next_state(s.ended[j], bits[i]);
            plain = next_state(plain, bits[i]);
        }
    }
    return s;
}

/* The interleaved positions of a format, which are asked for once. */
static const uint16_t *positions(uint64_t f)
{
    static uint16_t lists[SCCC_FORMATS][SCCC_MAX_I];
    static uint8_t asked[SCCC_FORMATS];
    const uint64_t i = sccc_format(f).i;
    uint16_t *list = lists[f - 1];
    uint64_t p;
    for (p = 0; p < i && !asked[f - 1]; p++)
        list[p] = (uint16_t)sccc_interleave(f, p).position;
    asked[f - 1] = 1;
    return list;
}

/* What the inner trellis reads of the outer kept bits. */
static const uint8_t *interleaved(uint64_t f, const uint8_t *kept)
{
    static uint8_t read[SCCC_MAX_I];
    const uint16_t *position = positions(f);
    const uint64_t i = sccc_format(f).i;
    uint64_t p;
    for (p = 0; p < i; p++)
        read[p] = kept[position[p]];
    return read;
}

/* What a call that encodes another way is to leave: the block as it was, workspace and output as
 * sccc_encode leaves them, or as they were filled. */
static uint8_t block_due[sizeof block], work_due[sizeof work], codeword_due[sizeof codeword];

static void fill_for_encoding(uint64_t number, uint64_t f, size_t block_len, size_t work_len,
                              size_t out_len)
{
    memcpy(block_due, block, sizeof block);
    fill(work, sizeof work);
    fill(codeword, sizeof codeword);
    fill(work_due, sizeof work_due);
    fill(codeword_due, sizeof codeword_due);
    if (number == SCCC_PASSED)
        sccc_encode(f, block, block_len, work_due, work_len, codeword_due, out_len);
}

static void check_encoding(int line)
{
    check(line, memcmp(work, work_due, sizeof work) == 0, "work is as sccc_encode leaves it");
    check(line, memcmp(codeword, codeword_due, sizeof codeword) == 0,
          "out is as sccc_encode leaves it");
    check(line, memcmp(block, block_due, sizeof block) == 0, "the block is unchanged");
}

/* A call by segments on the block and on filled memory: its answer, and that it leaves every byte
 * as sccc_encode does, or as it was. */
static void segments_give(int line, uint64_t number, uint64_t f, size_t block_len, size_t work_len,
                          size_t out_len, cut_list outer, cut_list inner)
{
    const cut_list outer_before = outer, inner_before = inner;
    sccc_segments_answer r, due;
    memset(&due, 0, sizeof due);
    fill_for_encoding(number, f, block_len, work_len, out_len);
    r = sccc_encode_segments(f, lent(block, block_len), block_len, lent_out(work, work_len),
                             work_len, lent_out(codeword, out_len), out_len,
                             outer.length == 0 ? NULL : outer.places, outer.length,
                             inner.length == 0 ? NULL : inner.places, inner.length);
    if (number == SCCC_PASSED) {
        due.outer = states_of(block, sccc_format(f).k1, &outer);
        due.inner = states_of(interleaved(f, work_due), sccc_format(f).i, &inner);
    }
    check(line, r.number == number, "the number of sccc_encode_segments");
    check(line, memcmp(&r.outer, &due.outer, sizeof r.outer) == 0, "the outer states");
    check(line, memcmp(&r.inner, &due.inner, sizeof r.inner) == 0, "the inner states");
    check_encoding(line);
    check(line, memcmp(&outer, &outer_before, sizeof outer) == 0, "the outer cuts are unchanged");
    check(line, memcmp(&inner, &inner_before, sizeof inner) == 0, "the inner cuts are unchanged");
}

#define SEGMENTS(number, f, block_len, work_len, out_len, outer, inner)                            \
    segments_give(__LINE__, number, f, block_len, work_len, out_len, outer, inner)

/* Each format: good cuts, and each way in which a list can be wrong. Outer cuts end at K1. */
static void segments_of_format(uint64_t f)
{
    const sccc_format_info r = sccc_format(f);
    const size_t k = r.k, k1 = r.k1, i = r.i, n = r.n;
    SEGMENTS(SCCC_PASSED, f, k, i, n, NO_CUTS, NO_CUTS);
    SEGMENTS(SCCC_PASSED, f, k, i, n, cuts_from(k1 / 16, k1 / 16, 15),
             cuts_from(i / 16, i / 16, 15));
    SEGMENTS(SCCC_PASSED, f, k, sizeof work, sizeof codeword, CUTS(k1 / 2), NO_CUTS);
    SEGMENTS(SCCC_PASSED, f, k, i, n, NO_CUTS, CUTS(i / 3, i / 2, i / 2, k1 + 1, i - 1));
    SEGMENTS(SCCC_PASSED, f, k, i, n, cuts_from(0, 0, 15), cuts_from(i, 0, 15));
    SEGMENTS(SCCC_PASSED, f, k, i, n, cuts_from(k1, 0, 15), cuts_from(0, 0, 15));
    SEGMENTS(SCCC_PASSED, f, k, i, n, cuts_from(k1 / 3, 0, 14), cuts_from(0, 1, 15));
    SEGMENTS(SCCC_PASSED, f, k, i, n, cuts_from(k1 - 14, 1, 15), CUTS(0, 0, 1, 1, i, i));
    SEGMENTS(SCCC_TOO_MANY_CUTS, f, k, i, n, cuts_from(0, 0, 16), NO_CUTS);
    SEGMENTS(SCCC_TOO_MANY_CUTS, f, k, i, n, NO_CUTS, cuts_from(1, 1, 16));
    SEGMENTS(SCCC_BAD_CUT, f, k, i, n, CUTS(k1 + 1), NO_CUTS);
    SEGMENTS(SCCC_BAD_CUT, f, k, i, n, NO_CUTS, CUTS(0, i + 1));
    SEGMENTS(SCCC_BAD_CUT, f, k, i, n, CUTS(k1, k1 - 1), CUTS(k1 + 1));
    SEGMENTS(SCCC_BAD_CUT, f, k, i, n, CUTS(k1), CUTS(i, i, i - 1));
    if (k > k1)
        SEGMENTS(SCCC_BAD_CUT, f, k, i, n, CUTS(0, k), NO_CUTS);
}

/* Of several things that are wrong the first is answered: what comes after it fails too. */
static void segments_refused(void)
{
    const cut_list falls = CUTS(1, 0), many = cuts_from(0, 0, 16);
    size_t j;
    for (j = 0; j < LENGTH(not_formats); j++) {
        SEGMENTS(SCCC_BAD_FORMAT, not_formats[j], 5758, 8640, 16200, NO_CUTS, NO_CUTS);
        SEGMENTS(SCCC_BAD_FORMAT, not_formats[j], 0, 0, 0, falls, many);
    }
    block[5757] = 2;
    SEGMENTS(SCCC_BAD_LENGTH, 1, 0, 0, 0, many, falls);
    SEGMENTS(SCCC_BAD_LENGTH, 1, 5759, 0, 0, many, falls);
    SEGMENTS(SCCC_BAD_ELEMENT, 1, 5758, 0, 0, falls, many);
    block[5757] = 1;
    SEGMENTS(SCCC_SHORT_WORKSPACE, 1, 5758, 8639, 16199, many, falls);
    SEGMENTS(SCCC_SHORT_OUTPUT, 1, 5758, 8640, 16199, falls, many);
    SEGMENTS(SCCC_SHORT_OUTPUT, 1, 5758, 8640, 0, CUTS(5759), NO_CUTS);
    SEGMENTS(SCCC_TOO_MANY_CUTS, 1, 5758, 8640, 16200, falls, many);
    SEGMENTS(SCCC_TOO_MANY_CUTS, 1, 5758, 8640, 16200, many, falls);
    SEGMENTS(SCCC_TOO_MANY_CUTS, 1, 5758, 8640, 16200, cuts_from(65535, 0, 16), NO_CUTS);
    SEGMENTS(SCCC_TOO_MANY_CUTS, 1, 5758, 8640, 16200, NO_CUTS, cuts_from(16, UINT64_MAX, 16));
    SEGMENTS(SCCC_BAD_CUT, 1, 5758, 8640, 16200, falls, falls);
}

static void encode_segments(void)
{
    static const size_t many[] = {16, 17, 255, 256, 271, 300};
    static const uint8_t ended[SCCC_SEGMENTS] = {1}, started[SCCC_SEGMENTS] = {0, 1, 3, 2, 1, 3};
    const cut_list cuts = cuts_from(1, 1, 5);
    sccc_segments_answer r;
    uint64_t f;
    size_t j;
    CHECK(sizeof(sccc_segment_states) == 2 * SCCC_SEGMENTS);
    CHECK(sizeof(sccc_segments_answer) == sizeof(uint64_t) + 4 * SCCC_SEGMENTS);
    for (j = 0; j < sizeof block; j++)
        block[j] = (uint8_t)(j * j / 7 % 2);
    for (f = 1; f <= SCCC_FORMATS; f++)
        segments_of_format(f);
    for (j = 0; j < LENGTH(many); j++) {
        SEGMENTS(SCCC_TOO_MANY_CUTS, 1, 5758, 8640, 16200, cuts_from(0, 1, many[j]), NO_CUTS);
        SEGMENTS(SCCC_TOO_MANY_CUTS, 1, 5758, 8640, 16200, NO_CUTS, cuts_from(0, 1, many[j]));
    }
    for (j = 0; j < 15; j++) {
        cut_list bad = cuts_from(100, 100, 15);
        bad.places[j] = (uint16_t)(100 * j - 1); /* below the one before; the first is 65,535 */
        SEGMENTS(SCCC_BAD_CUT, 1, 5758, 8640, 16200, bad, NO_CUTS);
        SEGMENTS(SCCC_BAD_CUT, 1, 5758, 8640, 16200, NO_CUTS, bad);
    }
    segments_refused();
    /* one list for both trellises */
    r = sccc_encode_segments(1, block, 5758, work, 8640, codeword, 16200, cuts.places, 5,
                             cuts.places, 5);
    CHECK(r.number == SCCC_PASSED);
    /* a one and then zeros: the powers of A, by equation 6-7 */
    memset(block, 0, sizeof block);
    block[0] = 1;
    r = sccc_encode_segments(1, block, 5758, work, 8640, codeword, 16200, cuts.places, 5, NULL, 0);
    CHECK(memcmp(r.outer.ended, ended, sizeof ended) == 0);
    CHECK(memcmp(r.outer.started, started, sizeof started) == 0);
}

/* What the entries hold before a call: no position, so never what a call would write there. */
static void fill_entries(void)
{
    size_t j;
    for (j = 0; j < LENGTH(entries); j++)
        entries[j] = (uint16_t)(SCCC_MAX_I + j % 16);
}

/* A call with shared memory on the block, on filled buffers and on the entries as they are: its
 * answer, and that it leaves every byte as sccc_encode does, and each entry as it is due. */
static void shared_gives(int line, uint64_t number, uint64_t f, size_t block_len, size_t work_len,
                         size_t out_len, size_t memory_len, uint64_t held)
{
    static uint16_t due[LENGTH(entries)];
    const uint64_t i = sccc_format(f).i;
    sccc_shared_answer r;
    fill_for_encoding(number, f, block_len, work_len, out_len);
    memcpy(due, entries, sizeof entries);
    if (number == SCCC_PASSED)
        memcpy(due, positions(f), i * sizeof *due);
    r = sccc_encode_shared(f, lent(block, block_len), block_len, lent_out(work, work_len), work_len,
                           lent_out(codeword, out_len), out_len, memory_len == 0 ? NULL : entries,
                           memory_len, held);
    check(line, r.number == number, "the number of sccc_encode_shared");
    check(line, r.held == (number == SCCC_PASSED ? i : held), "the size held");
    check_encoding(line);
    check(line, memcmp(entries, due, sizeof entries) == 0, "the entries are as they are due");
}

#define SHARED(number, f, block_len, work_len, out_len, memory_len, held)                          \
    shared_gives(__LINE__, number, f, block_len, work_len, out_len, memory_len, held)

/* Each format: every mark that is not its size builds, and with its size what was built is held. A
 * refusal builds nothing. */
static void shared_of_format(uint64_t f)
{
    const sccc_format_info r = sccc_format(f);
    const size_t k = r.k, i = r.i, n = r.n;
    const uint64_t other = sccc_format(f % SCCC_FORMATS + 1).i;
    const uint64_t not_held[] = {
        0, f, r.w, i - 1, i + 1, other, i + UINT64_C(65536), i + UINT64_C(4294967296), UINT64_MAX};
    size_t j;
    for (j = 0; j < LENGTH(not_held); j++) {
        fill_entries();
        SHARED(SCCC_PASSED, f, k, i, n, i, not_held[j]);
    }
    SHARED(SCCC_PASSED, f, k, i, n, i, i);
    SHARED(SCCC_PASSED, f, k, sizeof work, sizeof codeword, LENGTH(entries), i);
    SHARED(SCCC_SHORT_MEMORY, f, k, i, n, i - 1, i);
    fill_entries();
    SHARED(SCCC_BAD_LENGTH, f, k - 1, i, n, i, 0);
    SHARED(SCCC_SHORT_WORKSPACE, f, k, i - 1, n, i, other);
    SHARED(SCCC_SHORT_OUTPUT, f, k, i, n - 1, i, UINT64_MAX);
    SHARED(SCCC_SHORT_MEMORY, f, k, i, n, i - 1, other);
    SHARED(SCCC_SHORT_MEMORY, f, k, i, n, 0, 0);
}

/* One entry that is not its position's, at either end of the columns at either end and between;
 * then a call that builds mends it. */
static void spoilt_entry(uint64_t f)
{
    const sccc_format_info r = sccc_format(f);
    const size_t k = r.k, i = r.i, n = r.n;
    const size_t places[] = {0, r.w - 1, r.w, i / 2, i - r.w - 1, i - r.w, i - 1};
    size_t j;
    for (j = 0; j < LENGTH(places); j++) {
        SHARED(SCCC_PASSED, f, k, i, n, i, 0);
        entries[places[j]] ^= 1;
        SHARED(SCCC_BAD_ELEMENT, f, k, i, n, i, i);
    }
    SHARED(SCCC_PASSED, f, k, i, n, i, i + 1);
    entries[0] = (uint16_t)(entries[0] + i); /* the same modulo I, where 16 bits hold it */
    SHARED(SCCC_BAD_ELEMENT, f, k, i, n, LENGTH(entries), i);
    SHARED(SCCC_PASSED, f, k, i, n, i, 0);
    /* behind those that are read */
    entries[i] ^= 1;
    SHARED(SCCC_PASSED, f, k, i, n, LENGTH(entries), i);
}

/* Entries that are wrong together: two exchanged, so that all are there still; those of a row of
 * annex C one column on, so that each follows from the one a column before it; and those of another
 * size. */
static void spoilt_entries(uint64_t f)
{
    const sccc_format_info r = sccc_format(f);
    const size_t k = r.k, i = r.i, n = r.n;
    const uint64_t other = f % SCCC_FORMATS + 1;
    const uint16_t first = positions(f)[0];
    size_t j;
    SHARED(SCCC_PASSED, f, k, i, n, i, 0);
    entries[0] = entries[i - 1];
    entries[i - 1] = first;
    SHARED(SCCC_BAD_ELEMENT, f, k, i, n, i, i);
    SHARED(SCCC_PASSED, f, k, i, n, i, 0);
    for (j = 0; j < i; j += r.w)
        entries[j] = (uint16_t)((entries[j] + r.w) % i);
    SHARED(SCCC_BAD_ELEMENT, f, k, i, n, i, i);
    memcpy(entries, positions(other), sccc_format(other).i * sizeof *entries);
    SHARED(SCCC_BAD_ELEMENT, f, k, i, n, i, i);
}

/* Of several things that are wrong the first is answered: what comes after it fails too. */
static void shared_refused(void)
{
    size_t j;
    fill_entries();
    for (j = 0; j < LENGTH(not_formats); j++) {
        SHARED(SCCC_BAD_FORMAT, not_formats[j], 5758, 8640, 16200, 8640, 0);
        SHARED(SCCC_BAD_FORMAT, not_formats[j], 0, 0, 0, 0, 8640);
    }
    block[5757] = 2;
    SHARED(SCCC_BAD_LENGTH, 1, 0, 0, 0, 0, 8640);
    SHARED(SCCC_BAD_LENGTH, 1, 5759, 0, 0, 8639, 8640);
    SHARED(SCCC_BAD_ELEMENT, 1, 5758, 0, 0, 8639, 8640);
    SHARED(SCCC_BAD_ELEMENT, 1, 5758, 8640, 16200, 8640, 0);
    block[5757] = 1;
    SHARED(SCCC_SHORT_WORKSPACE, 1, 5758, 8639, 16199, 8639, 8640);
    SHARED(SCCC_SHORT_OUTPUT, 1, 5758, 8640, 16199, 8639, 8640);
    SHARED(SCCC_SHORT_MEMORY, 1, 5758, 8640, 16200, 8639, 8640);
    SHARED(SCCC_SHORT_MEMORY, 1, 5758, 8640, 16200, 0, 0);
    SHARED(SCCC_BAD_ELEMENT, 1, 5758, 8640, 16200, 8640, 8640);
    SHARED(SCCC_PASSED, 1, 5758, 8640, 16200, 8640, 8639);
}

/* Two channels with one memory, one going up the formats and the other down: whatever the other
 * asks for, each call gives what sccc_encode gives. */
static void two_channels(void)
{
    uint64_t a, held = 0;
    fill_entries();
    for (a = 1; a <= SCCC_FORMATS; a++) {
        const uint64_t b = SCCC_FORMATS + 1 - a;
        const sccc_format_info up = sccc_format(a), down = sccc_format(b);
        SHARED(SCCC_PASSED, a, up.k, up.i, up.n, LENGTH(entries), held);
        SHARED(SCCC_BAD_LENGTH, b, down.k - 1, down.i, down.n, LENGTH(entries), up.i);
        SHARED(SCCC_PASSED, b, down.k, down.i, down.n, LENGTH(entries), up.i);
        held = down.i;
    }
}

/* Where its size is held a call only reads the memory, so threads may share it: pages that cannot
 * be written show it, by a crash. */
static void memory_only_read(uint64_t f)
{
    const sccc_format_info r = sccc_format(f);
    const size_t page = (size_t)sysconf(_SC_PAGESIZE), length = r.i * sizeof(uint16_t);
    const size_t whole = (length + page - 1) / page * page;
    void *pages = NULL;
    sccc_shared_answer s;
    CHECK(posix_memalign(&pages, page, whole) == 0);
    memcpy(pages, positions(f), length);
    CHECK(mprotect(pages, whole, PROT_READ) == 0);
    s = sccc_encode_shared(f, block, r.k, work, r.i, codeword, r.n, pages, r.i, r.i);
    CHECK(s.number == SCCC_PASSED && s.held == r.i);
    CHECK(mprotect(pages, whole, PROT_READ | PROT_WRITE) == 0);
    free(pages);
}

static void encode_shared(void)
{
    uint64_t f;
    size_t j;
    CHECK(sizeof(sccc_shared_answer) == 2 * sizeof(uint64_t));
    for (j = 0; j < sizeof block; j++)
        block[j] = (uint8_t)(j * j / 7 % 2);
    for (f = 1; f <= SCCC_FORMATS; f++) {
        shared_of_format(f);
        spoilt_entry(f);
        spoilt_entries(f);
    }
    shared_refused();
    two_channels();
    memory_only_read(1);
    memory_only_read(27);
    /* formats 13 and 28 have one interleaver: what the one has built the other finds */
    CHECK(sccc_format(13).i == 28800 && sccc_format(28).i == 28800);
    SHARED(SCCC_PASSED, 13, 19198, 28800, 32400, 28800, 0);
    SHARED(SCCC_PASSED, 28, 43342, 28800, 56700, 28800, 28800);
}

/* A labels call on the codeword and on filled memory, to the front of `others`. */
static void labels_gives(int line, uint8_t number, uint64_t f, size_t codeword_len, size_t out_len)
{
    static uint8_t before[sizeof codeword];
    uint8_t answer;
    memcpy(before, codeword, sizeof codeword);
    fill(others, sizeof others);
    answer = sccc_labels(f, lent(codeword, codeword_len), codeword_len, lent_out(others, out_len),
                         out_len);
    check(line, answer == number, "the answer of sccc_labels");
    check(line, memcmp(codeword, before, sizeof codeword) == 0, "the codeword is unchanged");
    check(line, as_filled(others, number == SCCC_PASSED ? SCCC_SYMBOLS : 0, sizeof others),
          "out is unchanged where nothing is due");
}

#define LABELS(number, f, codeword_len, out_len)                                                   \
    labels_gives(__LINE__, number, f, codeword_len, out_len)

static void label_lists(void)
{
    uint64_t f;
    size_t j;
    for (f = 1; f <= SCCC_FORMATS; f++) {
        sccc_format_info r = sccc_format(f);
        memset(codeword, 1, sizeof codeword);
        LABELS(SCCC_PASSED, f, r.n, SCCC_SYMBOLS);
        CHECK(all(others, SCCC_SYMBOLS, (uint8_t)((1u << r.m) - 1)));
        LABELS(SCCC_PASSED, f, r.n, sizeof others);
        memset(codeword, 0, SCCC_SYMBOLS);
        LABELS(SCCC_PASSED, f, r.n, SCCC_SYMBOLS);
        CHECK(all(others, SCCC_SYMBOLS, (uint8_t)((1u << (r.m - 1)) - 1)));
        LABELS(SCCC_BAD_LENGTH, f, r.n - 1, SCCC_SYMBOLS);
        LABELS(SCCC_BAD_LENGTH, f, r.n + 1, SCCC_SYMBOLS);
        LABELS(SCCC_SHORT_OUTPUT, f, r.n, SCCC_SYMBOLS - 1);
        LABELS(SCCC_SHORT_OUTPUT, f, r.n, 0);
    }
    for (j = 0; j < LENGTH(not_formats); j++) {
        LABELS(SCCC_BAD_FORMAT, not_formats[j], 16200, SCCC_SYMBOLS);
        LABELS(SCCC_BAD_FORMAT, not_formats[j], 0, 0);
    }
    LABELS(SCCC_BAD_LENGTH, 1, 0, 0);
    LABELS(SCCC_BAD_LENGTH, 1, 0, SCCC_SYMBOLS);
    codeword[16199] = 2;
    LABELS(SCCC_BAD_LENGTH, 1, 16201, 0);
    LABELS(SCCC_BAD_ELEMENT, 1, 16200, 0);
    LABELS(SCCC_BAD_ELEMENT, 1, 16200, SCCC_SYMBOLS);
    codeword[16199] = 0;
    codeword[0] = 255;
    LABELS(SCCC_BAD_ELEMENT, 1, 16200, SCCC_SYMBOLS);
}

/* The slots of a frame with this choice of pilots. */
static size_t frame_length(uint64_t pilots)
{
    return pilots == SCCC_PILOTS_ON ? SCCC_PILOT_FRAME_SLOTS : SCCC_FRAME_SLOTS;
}

/* A frame call on the labels and on filled slots. */
static void frame_gives(int line, uint8_t number, uint64_t f, uint64_t pilots, size_t labels_len,
                        size_t out_len)
{
    static uint8_t before[sizeof labels];
    uint8_t answer;
    memcpy(before, labels, sizeof labels);
    fill_slots();
    answer = sccc_frame(f, pilots, lent(labels, labels_len), labels_len,
                        out_len == 0 ? NULL : slots, out_len);
    check(line, answer == number, "the answer of sccc_frame");
    check(line, memcmp(labels, before, sizeof labels) == 0, "the labels are unchanged");
    check(line, slots_as_filled(number == SCCC_PASSED ? frame_length(pilots) : 0),
          "out is unchanged where nothing is due");
}

#define FRAME(number, f, pilots, labels_len, out_len)                                              \
    frame_gives(__LINE__, number, f, pilots, labels_len, out_len)

/* Where a label stands. */
static size_t label_slot(uint64_t pilots, size_t i)
{
    return SCCC_HEADER_SLOTS + (pilots == SCCC_PILOTS_ON ? i / 540 * 556 + i % 540 : i);
}

/* Whether the header is bits that begin as the marker does, and each label stands in its slot. */
static int header_and_labels(uint64_t pilots)
{
    static const unsigned marker[] = {1, 1, 1, 1, 1, 0, 1, 1, 0, 1, 0, 0, 0, 1, 0, 0};
    size_t j;
    for (j = 0; j < SCCC_HEADER_SLOTS; j++)
        if (j < LENGTH(marker) ? slots[j] != 256 + marker[j] : slots[j] != 256 && slots[j] != 257)
            return 0;
    for (j = 0; j < SCCC_FRAME_LABELS; j++)
        if (slots[label_slot(pilots, j)] != labels[j])
            return 0;
    return 1;
}

/* Whether the pilots are where they are due, and nowhere else. */
static int pilots_placed(uint64_t pilots)
{
    size_t s;
    for (s = 0; s < frame_length(pilots); s++) {
        int due = pilots == SCCC_PILOTS_ON && s >= 320 && (s - 320) % 556 >= 540;
        if ((slots[s] == SCCC_PILOT) != due)
            return 0;
    }
    return 1;
}

/* Whether the slots but for the pilots are a frame without pilots, each of the descriptor's 64 bits
 * turned over: 256 and 257 for each other. */
static int turned_over(const uint16_t *bare)
{
    size_t s, n = 0;
    for (s = 0; s < SCCC_PILOT_FRAME_SLOTS; s++) {
        int descriptor = n >= 256 && n < 320;
        if (slots[s] == SCCC_PILOT)
            continue;
        if (n == SCCC_FRAME_SLOTS || slots[s] != (descriptor ? 513 - bare[n] : bare[n]))
            return 0;
        n++;
    }
    return n == SCCC_FRAME_SLOTS;
}

static void frame_of_format(uint64_t f, uint64_t pilots)
{
    static uint16_t bare[SCCC_FRAME_SLOTS];
    const size_t length = frame_length(pilots), last = SCCC_FRAME_LABELS - 1;
    const uint8_t top = (uint8_t)((1u << sccc_format(f).m) - 1);
    size_t j;
    for (j = 0; j < sizeof labels; j++)
        labels[j] = (uint8_t)(j * j / 7 % (top + 1u));
    FRAME(SCCC_PASSED, f, pilots, SCCC_FRAME_LABELS, length);
    CHECK(header_and_labels(pilots));
    CHECK(pilots_placed(pilots));
    if (pilots == SCCC_PILOTS_OFF)
        memcpy(bare, slots, sizeof bare);
    else /* the frame before was the same without */
        CHECK(turned_over(bare));
    labels[last] = top;
    FRAME(SCCC_PASSED, f, pilots, SCCC_FRAME_LABELS, length + 1);
    FRAME(SCCC_PASSED, f, pilots, SCCC_FRAME_LABELS, LENGTH(slots));
    CHECK(slots[label_slot(pilots, last)] == top);
    FRAME(SCCC_SHORT_OUTPUT, f, pilots, SCCC_FRAME_LABELS, length - 1);
    if (top < 255) { /* of eight bits every byte is a label */
        labels[last] = (uint8_t)(top + 1);
        FRAME(SCCC_BAD_ELEMENT, f, pilots, SCCC_FRAME_LABELS, length);
        FRAME(SCCC_BAD_ELEMENT, f, pilots, SCCC_FRAME_LABELS, 0);
    }
    FRAME(SCCC_BAD_LENGTH, f, pilots, SCCC_FRAME_LABELS - 1, length);
    FRAME(SCCC_BAD_LENGTH, f, pilots, SCCC_FRAME_LABELS + 1, length);
    FRAME(SCCC_BAD_LENGTH, f, pilots, SCCC_FRAME_LABELS + 1, 0);
}

/* Checks 1, 14, 2, 3 and 5 in turn, most of the time with those after it failing too. */
static void frame_refused(void)
{
    uint64_t pilots;
    size_t j;
    memset(labels, 0, sizeof labels);
    for (pilots = 0; pilots < 2; pilots++) {
        for (j = 0; j < LENGTH(not_formats); j++) {
            FRAME(SCCC_BAD_FORMAT, not_formats[j], pilots, SCCC_FRAME_LABELS, LENGTH(slots));
            FRAME(SCCC_BAD_FORMAT, not_formats[j], pilots, 0, 0);
        }
        FRAME(SCCC_BAD_LENGTH, 1, pilots, 0, 0);
        FRAME(SCCC_BAD_LENGTH, 1, pilots, 0, LENGTH(slots));
        FRAME(SCCC_SHORT_OUTPUT, 1, pilots, SCCC_FRAME_LABELS, 0);
    }
    FRAME(SCCC_SHORT_OUTPUT, 1, SCCC_PILOTS_ON, SCCC_FRAME_LABELS, SCCC_FRAME_SLOTS);
    FRAME(SCCC_SHORT_OUTPUT, 1, SCCC_PILOTS_ON, SCCC_FRAME_LABELS, SCCC_FRAME_SLOTS + 1);
    FRAME(SCCC_PASSED, 1, SCCC_PILOTS_OFF, SCCC_FRAME_LABELS, SCCC_PILOT_FRAME_SLOTS - 1);
    for (j = 0; j < LENGTH(not_pilots); j++) {
        FRAME(SCCC_BAD_PILOTS, 1, not_pilots[j], SCCC_FRAME_LABELS, SCCC_FRAME_SLOTS);
        FRAME(SCCC_BAD_PILOTS, 37, not_pilots[j], SCCC_FRAME_LABELS, LENGTH(slots));
        FRAME(SCCC_BAD_PILOTS, 1, not_pilots[j], 0, 0);
        labels[0] = 255;
        FRAME(SCCC_BAD_FORMAT, 0, not_pilots[j], SCCC_FRAME_LABELS - 1, 0);
        FRAME(SCCC_BAD_FORMAT, 38, not_pilots[j], SCCC_FRAME_LABELS, LENGTH(slots));
        FRAME(SCCC_BAD_PILOTS, 1, not_pilots[j], SCCC_FRAME_LABELS - 1, 0);
        FRAME(SCCC_BAD_PILOTS, 1, not_pilots[j], SCCC_FRAME_LABELS, 0);
        labels[0] = 0;
    }
}

static void frame(void)
{
    uint64_t f, pilots;
    CHECK(SCCC_FRAME_SLOTS == SCCC_HEADER_SLOTS + SCCC_FRAME_LABELS);
    CHECK(SCCC_PILOT_FRAME_SLOTS == SCCC_HEADER_SLOTS + 16 * 8340);
    CHECK(SCCC_SYMBOLS == 15 * SCCC_SUBSECTION_LABELS && 8340 == 15 * SCCC_SUBSECTION_SLOTS);
    for (f = 1; f <= SCCC_FORMATS; f++)
        for (pilots = 0; pilots < 2; pilots++)
            frame_of_format(f, pilots);
    frame_refused();
    for (pilots = 0; pilots < 2; pilots++) {
        memset(labels, 0, sizeof labels);
        labels[0] = 127;
        FRAME(SCCC_BAD_ELEMENT, 27, pilots, SCCC_FRAME_LABELS, LENGTH(slots));
        FRAME(SCCC_PASSED, 28, pilots, SCCC_FRAME_LABELS, LENGTH(slots));
        labels[0] = 128;
        FRAME(SCCC_BAD_ELEMENT, 28, pilots, SCCC_FRAME_LABELS, LENGTH(slots));
        FRAME(SCCC_PASSED, 37, pilots, SCCC_FRAME_LABELS, LENGTH(slots));
        CHECK(slots[SCCC_HEADER_SLOTS] == 128);
        memset(labels, 255, sizeof labels);
        FRAME(SCCC_BAD_ELEMENT, 27, pilots, SCCC_FRAME_LABELS, LENGTH(slots));
        FRAME(SCCC_BAD_ELEMENT, 28, pilots, SCCC_FRAME_LABELS, LENGTH(slots));
        FRAME(SCCC_PASSED, 37, pilots, SCCC_FRAME_LABELS, LENGTH(slots));
        CHECK(header_and_labels(pilots));
    }
}

static int section_refused(uint64_t number, size_t labels_len, uint64_t place)
{
    sccc_section_range r = sccc_section(lent(labels, labels_len), labels_len, place);
    return r.number == number && r.start == 0 && r.length == 0;
}

static void section(void)
{
    uint64_t place;
    size_t j;
    CHECK(sizeof(sccc_section_range) == 3 * sizeof(uint64_t));
    fill(labels, sizeof labels);
    for (place = 0; place < SCCC_SECTIONS; place++) {
        sccc_section_range r = sccc_section(labels, SCCC_FRAME_LABELS, place);
        CHECK(r.number == SCCC_PASSED);
        CHECK(r.start == place * SCCC_SYMBOLS && r.length == SCCC_SYMBOLS);
    }
    CHECK(section_refused(SCCC_BAD_PLACE, SCCC_FRAME_LABELS, 16));
    for (j = 0; j < LENGTH(not_small); j++)
        CHECK(section_refused(SCCC_BAD_PLACE, SCCC_FRAME_LABELS, not_small[j]));
    CHECK(section_refused(SCCC_BAD_LENGTH, SCCC_FRAME_LABELS - 1, 0));
    CHECK(section_refused(SCCC_BAD_LENGTH, SCCC_FRAME_LABELS + 1, 0));
    CHECK(section_refused(SCCC_BAD_LENGTH, 0, 0));
    CHECK(section_refused(SCCC_BAD_LENGTH, 0, 16));
    CHECK(as_filled(labels, 0, sizeof labels));
}

/* A comparison of the front of `labels` with that of `others`. */
static void compare_gives(int line, uint64_t f, size_t a_len, size_t b_len, uint64_t number,
                          uint64_t same, uint64_t count, uint64_t first)
{
    sccc_comparison r = sccc_compare(f, lent(labels, a_len), a_len, lent(others, b_len), b_len);
    check(line, r.number == number, "the number of sccc_compare");
    check(line, r.same == same, "whether the lists are the same");
    check(line, r.count == count, "the count of bits that differ");
    check(line, r.first == first, "the first place that differs");
}

#define COMPARE(f, number, same, count, first)                                                     \
    compare_gives(__LINE__, f, SCCC_SYMBOLS, SCCC_SYMBOLS, number, same, count, first)
#define COMPARE_REFUSED(f, a_len, b_len, number)                                                   \
    compare_gives(__LINE__, f, a_len, b_len, number, 0, 0, 0)

static void compare(void)
{
    uint64_t f;
    size_t j;
    CHECK(sizeof(sccc_comparison) == 4 * sizeof(uint64_t));
    memset(labels, 0, sizeof labels);
    memset(others, 0, sizeof others);
    for (f = 1; f <= SCCC_FORMATS; f++) {
        uint64_t m = sccc_format(f).m;
        uint8_t top = (uint8_t)((1u << m) - 1);
        COMPARE(f, SCCC_PASSED, 1, 0, 0);
        others[0] = top;
        COMPARE(f, SCCC_PASSED, 0, m, 0);
        others[0] = 0;
        labels[8099] = top;
        COMPARE(f, SCCC_PASSED, 0, m, 8099);
        others[8099] = (uint8_t)(top / 2);
        COMPARE(f, SCCC_PASSED, 0, 1, 8099);
        others[8099] = 0;
        others[4000] = 1;
        COMPARE(f, SCCC_PASSED, 0, m + 1, 4000);
        if (top < 255) { /* of eight bits every byte is a label */
            others[8099] = (uint8_t)(top + 1);
            COMPARE_REFUSED(f, SCCC_SYMBOLS, SCCC_SYMBOLS, SCCC_BAD_ELEMENT);
            labels[8099] = (uint8_t)(top + 1);
            COMPARE_REFUSED(f, SCCC_SYMBOLS, SCCC_SYMBOLS, SCCC_BAD_ELEMENT);
            others[8099] = 0;
            COMPARE_REFUSED(f, SCCC_SYMBOLS, SCCC_SYMBOLS, SCCC_BAD_ELEMENT);
        }
        COMPARE_REFUSED(f, SCCC_SYMBOLS - 1, SCCC_SYMBOLS, SCCC_BAD_LENGTH);
        COMPARE_REFUSED(f, SCCC_SYMBOLS, SCCC_SYMBOLS + 1, SCCC_BAD_LENGTH);
        others[4000] = labels[8099] = 0;
        memset(others, 1, SCCC_SYMBOLS);
        COMPARE(f, SCCC_PASSED, 0, SCCC_SYMBOLS, 0);
        memset(others, top, SCCC_SYMBOLS);
        COMPARE(f, SCCC_PASSED, 0, m * SCCC_SYMBOLS, 0);
        memset(others, 0, SCCC_SYMBOLS);
    }
    CHECK(sccc_compare(1, labels, SCCC_SYMBOLS, labels, SCCC_SYMBOLS).same == 1);
    memset(others, 127, SCCC_SYMBOLS);
    COMPARE(28, SCCC_PASSED, 0, 56700, 0);
    others[8099] = 128;
    COMPARE_REFUSED(28, SCCC_SYMBOLS, SCCC_SYMBOLS, SCCC_BAD_ELEMENT);
    COMPARE(37, SCCC_PASSED, 0, 56694, 0);
    memset(others, 255, SCCC_SYMBOLS);
    COMPARE(37, SCCC_PASSED, 0, 64800, 0);
    COMPARE_REFUSED(28, SCCC_SYMBOLS, SCCC_SYMBOLS, SCCC_BAD_ELEMENT);
    memset(others, 0, SCCC_SYMBOLS);
    for (j = 0; j < LENGTH(not_formats); j++) {
        COMPARE_REFUSED(not_formats[j], SCCC_SYMBOLS, SCCC_SYMBOLS, SCCC_BAD_FORMAT);
        COMPARE_REFUSED(not_formats[j], 0, 0, SCCC_BAD_FORMAT);
    }
    COMPARE_REFUSED(1, SCCC_SYMBOLS - 1, SCCC_SYMBOLS - 1, SCCC_BAD_LENGTH);
    COMPARE_REFUSED(1, SCCC_SYMBOLS + 1, SCCC_SYMBOLS, SCCC_BAD_LENGTH);
    COMPARE_REFUSED(1, SCCC_SYMBOLS, SCCC_SYMBOLS - 1, SCCC_BAD_LENGTH);
    COMPARE_REFUSED(1, 0, SCCC_SYMBOLS, SCCC_BAD_LENGTH);
    COMPARE_REFUSED(1, SCCC_SYMBOLS, 0, SCCC_BAD_LENGTH);
}

static sccc_slicer slicer(uint64_t f, uint64_t frame_length, uint64_t count)
{
    sccc_slicer s;
    s.format = f;
    s.frame_length = frame_length;
    s.waiting = count;
    return s;
}

/* More bits than may wait. */
static const uint64_t too_many[] = {600001, UINT64_C(4294967296), UINT64_C(1) << 40, UINT64_MAX};

static int same_slicer(sccc_slicer a, sccc_slicer b)
{
    return a.format == b.format && a.frame_length == b.frame_length && a.waiting == b.waiting;
}

static void slicer_new(void)
{
    uint64_t f;
    size_t j;
    CHECK(sizeof(sccc_slicer) == 3 * sizeof(uint64_t));
    for (f = 1; f <= SCCC_FORMATS; f++)
        CHECK(same_slicer(sccc_slicer_new(f), slicer(f, 0, 0)));
    for (j = 0; j < LENGTH(not_formats); j++)
        CHECK(same_slicer(sccc_slicer_new(not_formats[j]), slicer(not_formats[j], 0, 0)));
}

/* A slicer's memory: so many bits, and behind them filled. */
static void fill_waiting(size_t count)
{
    size_t i;
    fill(waiting, sizeof waiting);
    for (i = 0; i < count; i++)
        waiting[i] = (uint8_t)(i * i / 7 % 2);
}

static void fill_transfer(unsigned seed)
{
    size_t i;
    for (i = 0; i < sizeof transfer; i++)
        transfer[i] = (uint8_t)(seed + i * i / 3);
}

/* Whether a memory holds what it held before, but for some bytes. */
static int same_but_for(const uint8_t *memory, const uint8_t *before, size_t from, size_t length)
{
    const size_t to = from + length;
    return memcmp(memory, before, from) == 0 &&
           memcmp(memory + to, before + to, sizeof waiting - to) == 0;
}

/* Whether these are the marker's bits, then those of the transfer frame with the randomizer's
 * sequence added, of which 3.2 prints 40 bits and says that it repeats after 255. */
static int marked(const uint8_t *bits, size_t frame_len)
{
    static const char marker[] = "00011010110011111111110000011101";
    static const char printed[] = "1111111101001000000011101100000010011010";
    static uint8_t sequence[8 * SCCC_MOST_TRANSFER_FRAME];
    size_t i;
    for (i = 0; i < 32; i++)
        if (bits[i] != marker[i] - '0')
            return 0;
    for (i = 0; i < 8 * frame_len; i++) {
        sequence[i] = bits[32 + i] ^ (transfer[i / 8] >> (7 - i % 8) & 1);
        if (sequence[i] > 1 || (i < 40 && sequence[i] != printed[i] - '0') ||
            (i >= 255 && sequence[i] != sequence[i - 255]))
            return 0;
    }
    return 1;
}

/* A push on the memory as it is, and is again afterwards. */
static void push_gives(int line, uint64_t number, sccc_slicer s, size_t frame_len,
                       size_t waiting_len)
{
    static uint8_t before[sizeof waiting], frame_before[sizeof transfer];
    const int passes = number == SCCC_PASSED;
    const size_t from = passes ? s.waiting : 0, length = passes ? 32 + 8 * frame_len : 0;
    sccc_slicer_answer r;
    memcpy(before, waiting, sizeof waiting);
    memcpy(frame_before, transfer, sizeof transfer);
    r = sccc_slicer_push(s, lent(transfer, frame_len), frame_len, lent_out(waiting, waiting_len),
                         waiting_len);
    check(line, r.number == number, "the number of sccc_slicer_push");
    check(line, same_slicer(r.slicer, passes ? slicer(s.format, frame_len, s.waiting + length) : s),
          "the slicer of sccc_slicer_push");
    check(line, memcmp(transfer, frame_before, sizeof transfer) == 0, "the frame is unchanged");
    check(line, !passes || marked(waiting + from, frame_len), "the bits of the frame");
    check(line, same_but_for(waiting, before, from, length),
          "waiting is unchanged where nothing is due");
    memcpy(waiting, before, sizeof waiting);
}

#define PUSH(number, s, frame_len, waiting_len)                                                    \
    push_gives(__LINE__, number, s, frame_len, waiting_len)

static void slicer_push(void)
{
    static const size_t bad_lengths[] = {0, 1, 222, 65537};
    static const uint64_t not_223[] = {
        1, 222, 224, 479, UINT64_C(4294967519), UINT64_C(1) << 40, UINT64_MAX};
    static const uint64_t many[] = {600000, 600001, UINT64_C(1) << 40, UINT64_MAX};
    const size_t room = SCCC_WAITING_MEMORY;
    uint64_t f;
    size_t j;
    CHECK(sizeof(sccc_slicer_answer) == 4 * sizeof(uint64_t));
    fill_transfer(1);
    for (f = 1; f <= SCCC_FORMATS; f++) {
        uint64_t k = sccc_format(f).k;
        fill_waiting(k - 1);
        PUSH(SCCC_PASSED, slicer(f, 0, 0), 223, room);
        PUSH(SCCC_PASSED, slicer(f, 223, k - 1), 223, sizeof waiting);
        PUSH(SCCC_PASSED, slicer(f, 65536, k - 1), 65536, room);
        PUSH(SCCC_SHORT_WORKSPACE, slicer(f, 0, k - 1), 65536, room - 1);
        PUSH(SCCC_BLOCK_WAITS, slicer(f, 0, k), 223, room);
        waiting[k - 2] = 2;
        PUSH(SCCC_BAD_ELEMENT, slicer(f, 0, k - 1), 223, room);
        PUSH(SCCC_PASSED, slicer(f, 0, k - 2), 223, room);
    }
    for (j = 0; j < LENGTH(not_formats); j++) {
        PUSH(SCCC_BAD_FORMAT, slicer(not_formats[j], 0, 0), 223, room);
        PUSH(SCCC_BAD_FORMAT, slicer(not_formats[j], 1, UINT64_MAX), 0, 0);
    }
    /* everything behind the check fails too */
    fill_waiting(0);
    for (j = 0; j < LENGTH(bad_lengths); j++) {
        PUSH(SCCC_BAD_FRAME_LENGTH, slicer(1, 0, 0), bad_lengths[j], room);
        PUSH(SCCC_BAD_FRAME_LENGTH, slicer(1, bad_lengths[j] + 1, 5758), bad_lengths[j], 5758);
    }
    for (j = 0; j < LENGTH(not_223); j++) {
        PUSH(SCCC_OTHER_LENGTH, slicer(1, not_223[j], 0), 223, room);
        PUSH(SCCC_OTHER_LENGTH, slicer(1, not_223[j], 5758), 223, 5758);
    }
    for (j = 0; j < LENGTH(many); j++) {
        PUSH(SCCC_BLOCK_WAITS, slicer(1, 0, many[j]), 223, room);
        PUSH(SCCC_BLOCK_WAITS, slicer(1, 223, many[j]), 223, 5758);
    }
    PUSH(SCCC_BAD_ELEMENT, slicer(1, 0, 5757), 223, 1);
    PUSH(SCCC_SHORT_WORKSPACE, slicer(1, 0, 5757), 223, 0);
    PUSH(SCCC_SHORT_WORKSPACE, slicer(1, 0, 0), 223, room - 1);
}

/* A block asked for on the memory as it is, and is again afterwards; `taken` bits are due. */
static void block_gives(int line, uint64_t number, uint64_t wait, uint64_t taken, sccc_slicer s,
                        size_t waiting_len, size_t out_len)
{
    static uint8_t before[sizeof waiting];
    const size_t left = taken == 0 ? 0 : s.waiting - taken;
    sccc_block_answer r;
    memcpy(before, waiting, sizeof waiting);
    fill(block, sizeof block);
    r = sccc_slicer_block(s, lent_out(waiting, waiting_len), waiting_len, lent_out(block, out_len),
                          out_len);
    check(line, r.number == number, "the number of sccc_slicer_block");
    check(line, r.wait == wait, "whether one has to wait");
    check(line, same_slicer(r.slicer, slicer(s.format, s.frame_length, s.waiting - taken)),
          "the slicer of sccc_slicer_block");
    check(line, memcmp(block, before, taken) == 0, "the block");
    check(line, as_filled(block, taken, sizeof block), "out is unchanged where nothing is due");
    check(line, memcmp(waiting, before + taken, left) == 0, "the other bits have moved");
    check(line, same_but_for(waiting, before, 0, left),
          "waiting is unchanged where nothing is due");
    memcpy(waiting, before, sizeof waiting);
}

#define BLOCK(s, waiting_len, out_len)                                                             \
    block_gives(__LINE__, SCCC_PASSED, 0, sccc_format((s).format).k, s, waiting_len, out_len)
#define BLOCK_WAIT(s, waiting_len, out_len)                                                        \
    block_gives(__LINE__, SCCC_PASSED, 1, 0, s, waiting_len, out_len)
#define BLOCK_REFUSED(number, s, waiting_len, out_len)                                             \
    block_gives(__LINE__, number, 0, 0, s, waiting_len, out_len)

static void slicer_block(void)
{
    const size_t room = SCCC_WAITING_MEMORY;
    uint64_t f;
    size_t j;
    CHECK(sizeof(sccc_block_answer) == 5 * sizeof(uint64_t));
    for (f = 1; f <= SCCC_FORMATS; f++) {
        uint64_t k = sccc_format(f).k;
        fill_waiting(room);
        BLOCK(slicer(f, 223, k), room, k);
        BLOCK(slicer(f, 0, k + 1), sizeof waiting, sizeof block);
        BLOCK(slicer(f, UINT64_MAX, room), room, k);
        BLOCK_WAIT(slicer(f, 223, k - 1), room, k);
        BLOCK_WAIT(slicer(f, 0, 0), sizeof waiting, sizeof block);
        BLOCK_REFUSED(SCCC_SHORT_OUTPUT, slicer(f, 0, k), room, k - 1);
        BLOCK_REFUSED(SCCC_SHORT_OUTPUT, slicer(f, 0, k - 1), room, k - 1);
        BLOCK_REFUSED(SCCC_SHORT_WORKSPACE, slicer(f, 0, k), room - 1, k);
        waiting[k] = 2;
        BLOCK(slicer(f, 0, k), room, k);
        BLOCK_REFUSED(SCCC_BAD_ELEMENT, slicer(f, 0, k + 1), room, k);
        waiting[k] = 0;
        waiting[0] = 255;
        BLOCK_REFUSED(SCCC_BAD_ELEMENT, slicer(f, 0, 1), room, k);
    }
    for (j = 0; j < LENGTH(not_formats); j++) {
        BLOCK_REFUSED(SCCC_BAD_FORMAT, slicer(not_formats[j], 0, 0), room, SCCC_MAX_K);
        BLOCK_REFUSED(SCCC_BAD_FORMAT, slicer(not_formats[j], 0, UINT64_MAX), 0, 0);
    }
    /* everything behind the check fails too */
    fill_waiting(0);
    for (j = 0; j < LENGTH(too_many); j++) {
        BLOCK_REFUSED(SCCC_BAD_LENGTH, slicer(1, 0, too_many[j]), sizeof waiting, 5758);
        BLOCK_REFUSED(SCCC_BAD_LENGTH, slicer(1, 0, too_many[j]), 1, 0);
    }
    BLOCK_REFUSED(SCCC_BAD_ELEMENT, slicer(1, 0, 600000), 1, 0);
    BLOCK_REFUSED(SCCC_SHORT_WORKSPACE, slicer(1, 0, 600000), 0, 0);
    BLOCK_REFUSED(SCCC_SHORT_WORKSPACE, slicer(1, 0, 0), room - 1, 0);
    BLOCK_REFUSED(SCCC_SHORT_OUTPUT, slicer(1, 0, 0), room, 0);
    BLOCK_WAIT(slicer(1, 0, 0), room, 5758);
}

/* From a fresh slicer: the blocks taken, then the bits that wait, are the stream of the frames. */
static void slicer_run(void)
{
    enum { FRAMES = 9, OCTETS = 1115, BITS = 32 + 8 * OCTETS };
    static uint8_t joined[FRAMES * BITS];
    uint64_t f;
    unsigned n;
    for (f = 1; f <= SCCC_FORMATS; f++) {
        const size_t k = sccc_format(f).k;
        sccc_slicer s = sccc_slicer_new(f);
        size_t length = 0;
        fill_waiting(0);
        for (n = 0; n < FRAMES; n++) {
            sccc_slicer_answer pushed;
            sccc_block_answer taken;
            fill_transfer(n);
            pushed = sccc_slicer_push(s, transfer, OCTETS, waiting, sizeof waiting);
            CHECK(pushed.number == SCCC_PASSED);
            taken = sccc_slicer_block(pushed.slicer, waiting, sizeof waiting, block, k);
            while (taken.number == SCCC_PASSED && !taken.wait && length + k <= sizeof joined) {
                memcpy(joined + length, block, k);
                length += k;
                taken = sccc_slicer_block(taken.slicer, waiting, sizeof waiting, block, k);
            }
            CHECK(taken.number == SCCC_PASSED && taken.wait);
            s = taken.slicer;
        }
        CHECK(s.waiting < k && length + s.waiting == sizeof joined);
        memcpy(joined + length, waiting, sizeof joined - length);
        for (n = 0; n < FRAMES; n++) {
            fill_transfer(n);
            CHECK(marked(joined + (size_t)n * BITS, OCTETS));
        }
    }
}

/* A change and a look: both read the slicer alone, and give as many blocks and bits as are due. */
static void command_gives(int line, uint64_t number, sccc_slicer s, uint64_t f, uint64_t blocks,
                          uint64_t bits)
{
    const sccc_slicer_answer changed = sccc_slicer_change(s, f);
    const sccc_look_answer looked = sccc_slicer_look(s, f);
    const sccc_slicer due = slicer(f, s.frame_length, s.waiting);
    check(line, changed.number == number, "the number of sccc_slicer_change");
    check(line, same_slicer(changed.slicer, number == SCCC_PASSED ? due : s),
          "the slicer of sccc_slicer_change");
    check(line, looked.number == number, "the number of sccc_slicer_look");
    check(line, looked.blocks == blocks && looked.bits == bits, "the blocks and bits ahead");
}

#define COMMAND(s, f, blocks, bits) command_gives(__LINE__, SCCC_PASSED, s, f, blocks, bits)
#define COMMAND_REFUSED(number, s, f) command_gives(__LINE__, number, s, f, 0, 0)

static void slicer_change(void)
{
    uint64_t f, g;
    size_t j;
    CHECK(sizeof(sccc_look_answer) == 3 * sizeof(uint64_t));
    for (f = 1; f <= SCCC_FORMATS; f++) {
        for (g = 1; g <= SCCC_FORMATS; g++) {
            const uint64_t k = sccc_format(g).k;
            COMMAND(slicer(f, 223, 0), g, 0, 0);
            COMMAND(slicer(f, 0, k - 1), g, 0, k - 1);
            COMMAND(slicer(f, 65536, k), g, 1, 0);
            COMMAND(slicer(f, UINT64_MAX, 3 * k + 1), g, 3, 1);
        }
        for (j = 0; j < LENGTH(not_formats); j++) {
            COMMAND_REFUSED(SCCC_BAD_FORMAT, slicer(not_formats[j], 223, 6000), f);
            COMMAND_REFUSED(SCCC_BAD_FORMAT, slicer(f, 223, 6000), not_formats[j]);
            COMMAND_REFUSED(SCCC_BAD_FORMAT, slicer(not_formats[j], 223, 600001), f);
            COMMAND_REFUSED(SCCC_BAD_FORMAT, slicer(f, 223, UINT64_MAX), not_formats[j]);
            COMMAND_REFUSED(SCCC_BAD_FORMAT, slicer(not_formats[j], 0, 0), not_formats[j]);
        }
        for (j = 0; j < LENGTH(too_many); j++)
            COMMAND_REFUSED(SCCC_BAD_LENGTH, slicer(f, 223, too_many[j]), 1);
    }
    COMMAND(slicer(13, 223, 600000), 1, 104, 1168);
    COMMAND(slicer(1, 223, 600000), 27, 13, 32186);
    COMMAND(slicer(27, 223, 600000), 37, 9, 55410);
    COMMAND(slicer(37, 223, 60509), 28, 1, 17167);
}

/* The same bits under one format after another: what a look says is what comes of the command, the
 * frames go on from there by the new K, and the blocks, then the bits that wait, are the stream. */
static void slicer_changes(void)
{
    enum { FRAMES = SCCC_FORMATS, OCTETS = 8000, BITS = 32 + 8 * OCTETS };
    static uint8_t joined[FRAMES * BITS];
    sccc_slicer s = sccc_slicer_new(1);
    size_t length = 0;
    unsigned n;
    fill_waiting(0);
    for (n = 0; n < FRAMES; n++) {
        const uint64_t f = n % 2 == 0 ? SCCC_FORMATS - n / 2 : 1 + n / 2;
        const size_t k = sccc_format(f).k;
        sccc_look_answer ahead;
        sccc_block_answer taken;
        sccc_slicer_answer pushed;
        fill_transfer(n);
        pushed = sccc_slicer_push(s, transfer, OCTETS, waiting, sizeof waiting);
        CHECK(pushed.number == SCCC_PASSED);
        ahead = sccc_slicer_look(pushed.slicer, f);
        s = sccc_slicer_change(pushed.slicer, f).slicer;
        CHECK(ahead.number == SCCC_PASSED && ahead.blocks > 0 && ahead.bits < k);
        CHECK(sccc_slicer_push(s, transfer, OCTETS, waiting, sizeof waiting).number ==
              SCCC_BLOCK_WAITS);
        for (; ahead.blocks > 0 && length + k <= sizeof joined; ahead.blocks--) {
            taken = sccc_slicer_block(s, waiting, sizeof waiting, joined + length, k);
            CHECK(taken.number == SCCC_PASSED && !taken.wait);
            length += k;
            s = taken.slicer;
        }
        taken = sccc_slicer_block(s, waiting, sizeof waiting, block, k);
        CHECK(taken.number == SCCC_PASSED && taken.wait && s.waiting == ahead.bits);
    }
    CHECK(length + s.waiting == sizeof joined);
    memcpy(joined + length, waiting, sizeof joined - length);
    for (n = 0; n < FRAMES; n++) {
        fill_transfer(n);
        CHECK(marked(joined + (size_t)n * BITS, OCTETS));
    }
}

/* Three lists of transfer frames, one behind the other, and their exclusive or, octet by octet.
 * Each has sixteen blocks of the longest format, the rest of a frame, and one that is refused. */
enum { LIST = 2 * SCCC_MAX_K + 2 * SCCC_MOST_TRANSFER_FRAME };
static uint8_t lists[4][LIST];

static void fill_lists(uint64_t seed)
{
    size_t j, i;
    memset(lists[3], 0, LIST);
    for (j = 0; j < 3; j++)
        for (i = 0; i < LIST; i++) {
            seed = seed * UINT64_C(6364136223846793005) + 1;
            lists[j][i] = (uint8_t)(seed >> 56);
            lists[3][i] ^= lists[j][i];
        }
}

static void section_labels(uint64_t f, uint64_t place)
{
    const sccc_format_info r = sccc_format(f);
    uint8_t *list = labels + sccc_section(labels, SCCC_FRAME_LABELS, place).start;
    CHECK(sccc_encode(f, block, r.k, work, r.i, codeword, r.n) == SCCC_PASSED);
    CHECK(sccc_labels(f, codeword, r.n, list, SCCC_SYMBOLS) == SCCC_PASSED);
}

/* The labels of a list's first sixteen blocks, through a fresh slicer on the memory as it is.
 * Either frames are pushed until one is refused because a block is there, or a block is asked for
 * first, and a frame pushed where it has to wait. */
static void list_labels(uint64_t f, const uint8_t *list, size_t octets, int pushes_first)
{
    const size_t k = sccc_format(f).k;
    sccc_slicer s = sccc_slicer_new(f);
    size_t bits = 0;
    uint64_t place = 0;
    int pushing = pushes_first;
    while (place < SCCC_SECTIONS) {
        const int there = bits >= k;
        if (pushing) {
            sccc_slicer_answer p = sccc_slicer_push(s, list, octets, waiting, sizeof waiting);
            CHECK(p.number == (there ? SCCC_BLOCK_WAITS : SCCC_PASSED));
            s = p.slicer;
            list += there ? 0 : octets;
            bits += there ? 0 : 32 + 8 * octets;
            pushing = pushes_first && !there;
        } else {
            sccc_block_answer b = sccc_slicer_block(s, waiting, sizeof waiting, block, k);
            CHECK(b.number == SCCC_PASSED && b.wait == !there);
            s = b.slicer;
            pushing = pushes_first || !there;
            if (there) {
                bits -= k;
                section_labels(f, place++);
            }
        }
    }
}

/* All sixteen blocks in one transfer frame, to the bit, or the longest frame where that is too
 * short for them; the shortest; a usual one; or another one for each format. */
static size_t list_octets(uint64_t f)
{
    const size_t whole = (16 * sccc_format(f).k - 32) / 8;
    const size_t octets[] = {whole < SCCC_MOST_TRANSFER_FRAME ? whole : SCCC_MOST_TRANSFER_FRAME,
                             SCCC_LEAST_TRANSFER_FRAME, 1115, 223 + 997 * f};
    return octets[f % 4];
}

/* Document 02, L13: three lists' frames make the frame of the lists' exclusive or. Two make none,
 * since they have one header. */
static void three_frames_of_format(uint64_t f)
{
    static const size_t lengths[] = {SCCC_FRAME_SLOTS, SCCC_PILOT_FRAME_SLOTS};
    static uint16_t made[2][SCCC_PILOT_FRAME_SLOTS]; /* the exclusive or of j frames */
    uint64_t pilots;
    size_t j, i;
    memset(made, 0, sizeof made);
    fill_lists(f);
    for (j = 0; j < 4; j++) {
        list_labels(f, lists[j], list_octets(f), (f + j) % 2);
        for (pilots = 0; pilots < 2; pilots++) {
            uint16_t *m = made[pilots];
            const size_t length = lengths[pilots];
            CHECK(sccc_frame(f, pilots, labels, SCCC_FRAME_LABELS, slots, length) == SCCC_PASSED);
            CHECK(j != 2 || all((uint8_t *)m, 2 * SCCC_HEADER_SLOTS, 0));
            CHECK(j != 3 || memcmp(m, slots, 2 * length) == 0);
            for (i = 0; i < length; i++)
                m[i] ^= slots[i];
        }
    }
}

static void three_frames(void)
{
    uint64_t f;
    for (f = 1; f <= SCCC_FORMATS; f++)
        three_frames_of_format(f);
}

/* A job line's text, or one that is none, and what a move writes. */
static uint8_t text[256 + SPARE];
static uint8_t moved[SCCC_LONGEST_LINE + SPARE];

static void put_text(const char *bytes, size_t length)
{
    fill(text, sizeof text);
    memcpy(text, bytes, length);
}

static int text_unchanged(const char *bytes, size_t length)
{
    return memcmp(text, bytes, length) == 0 && as_filled(text, length, sizeof text);
}

/* What a text asks for: the answer, and that the text is left. */
static void job_gives(int line, uint64_t number, const char *bytes, size_t length, uint64_t f,
                      uint64_t pattern, uint64_t pilots, uint64_t code)
{
    sccc_job_answer r;
    put_text(bytes, length);
    r = sccc_job(lent(text, length), length);
    check(line, r.number == number, "the number of sccc_job");
    check(line, r.format == f && r.pattern == pattern, "format and pattern");
    check(line, r.pilots == pilots && r.code == code, "pilots and code number");
    check(line, text_unchanged(bytes, length), "the line is unchanged");
}

#define JOB(bytes, f, pattern, pilots, code)                                                       \
    job_gives(__LINE__, SCCC_PASSED, bytes, strlen(bytes), f, pattern, pilots, code)
#define JOB_REFUSED(number, bytes) job_gives(__LINE__, number, bytes, strlen(bytes), 0, 0, 0, 0)

typedef sccc_line_answer move(const uint8_t *line, size_t line_len, uint8_t *out, size_t out_len);

/* A move of a text to filled memory, of which so much is lent: its answer, and every byte that it
 * leaves. */
static void move_gives(int line, uint64_t number, move *call, const char *bytes, size_t length,
                       size_t out_len, const char *due)
{
    const size_t written = strlen(due);
    sccc_line_answer r;
    put_text(bytes, length);
    fill(moved, sizeof moved);
    r = call(lent(text, length), length, lent_out(moved, out_len), out_len);
    check(line, r.number == number, "the number of a move");
    check(line, r.length == written, "the length of the line that is written");
    check(line, memcmp(moved, due, written) == 0, "the line that is written");
    check(line, as_filled(moved, written, sizeof moved), "out is unchanged where nothing is due");
    check(line, text_unchanged(bytes, length), "the line that is read is unchanged");
}

/* A line that moves: with every room that is too short, with just enough and with more. */
static void moves(int line, move *call, const char *bytes, const char *due)
{
    const size_t length = strlen(bytes), enough = strlen(due);
    size_t room;
    for (room = 0; room < enough; room++)
        move_gives(line, SCCC_SHORT_OUTPUT, call, bytes, length, room, "");
    for (; room <= sizeof moved; room++)
        move_gives(line, SCCC_PASSED, call, bytes, length, room, due);
}

/* One that does not, with room and without. */
static void moves_not(int line, uint64_t number, move *call, const char *bytes, size_t length)
{
    move_gives(line, number, call, bytes, length, sizeof moved, "");
    move_gives(line, number, call, bytes, length, 0, "");
}

#define MOVES(call, bytes, due) moves(__LINE__, call, bytes, due)
#define MOVES_NOT(number, call, bytes) moves_not(__LINE__, number, call, bytes, strlen(bytes))

/* Of three digits, or of six. */
static const unsigned bad_formats[] = {0, 38, 99, 100, 256, 257, 293, 999};
static const unsigned bad_patterns[] = {3, 4, 10, 255, 256, 258, 999};
static const unsigned bad_pilots[] = {2, 3, 10, 255, 256, 257, 999};
static const unsigned bad_codes[] = {262143, 262144, 300000, 524288, 999999};

static const char *old_line(unsigned f, unsigned pattern)
{
    static char bytes[32];
    snprintf(bytes, sizeof bytes, "%u,%u\n", f, pattern);
    return bytes;
}

static const char *longer_line(unsigned f, unsigned pattern, unsigned pilots, const char *code)
{
    static char bytes[32];
    snprintf(bytes, sizeof bytes, "%u,%u,%u,%s\n", f, pattern, pilots, code);
    return bytes;
}

static const char *decimal(unsigned number)
{
    static char bytes[16];
    snprintf(bytes, sizeof bytes, "%u", number);
    return bytes;
}

static void job_lines(void)
{
    static const unsigned codes[] = {0, 1, 9, 10, 99999, 100000, 262141, SCCC_LAST_CODE};
    unsigned f, pattern, pilots;
    size_t j;
    CHECK(sizeof(sccc_job_answer) == 5 * sizeof(uint64_t));
    CHECK(SCCC_LAST_CODE == 262142 && SCCC_UNSCRAMBLED == UINT64_MAX);
    for (f = 1; f <= SCCC_FORMATS; f++)
        for (pattern = 0; pattern < 3; pattern++) {
            JOB(old_line(f, pattern), f, pattern, 0, SCCC_UNSCRAMBLED);
            for (pilots = 0; pilots < 2; pilots++) {
                JOB(longer_line(f, pattern, pilots, "-"), f, pattern, pilots, SCCC_UNSCRAMBLED);
                for (j = 0; j < LENGTH(codes); j++)
                    JOB(longer_line(f, pattern, pilots, decimal(codes[j])), f, pattern, pilots,
                        codes[j]);
            }
        }
    for (j = 0; j < LENGTH(bad_formats); j++) {
        JOB_REFUSED(SCCC_BAD_FORMAT, old_line(bad_formats[j], 0));
        JOB_REFUSED(SCCC_BAD_FORMAT, longer_line(bad_formats[j], 0, 1, "0"));
    }
    for (j = 0; j < LENGTH(bad_patterns); j++) {
        JOB_REFUSED(SCCC_BAD_PATTERN, old_line(13, bad_patterns[j]));
        JOB_REFUSED(SCCC_BAD_PATTERN, longer_line(13, bad_patterns[j], 1, "0"));
    }
    for (j = 0; j < LENGTH(bad_pilots); j++) {
        JOB_REFUSED(SCCC_BAD_PILOTS, longer_line(13, 0, bad_pilots[j], "-"));
        JOB_REFUSED(SCCC_BAD_PILOTS, longer_line(13, 0, bad_pilots[j], "0"));
    }
    for (j = 0; j < LENGTH(bad_codes); j++)
        JOB_REFUSED(SCCC_BAD_CODE, longer_line(13, 0, 1, decimal(bad_codes[j])));
    /* everything behind the check fails too */
    JOB_REFUSED(SCCC_BAD_FORMAT, "0,9\n");
    JOB_REFUSED(SCCC_BAD_FORMAT, "999,999\n");
    JOB_REFUSED(SCCC_BAD_LINE, "038,3,2,262143\n");
    JOB_REFUSED(SCCC_BAD_FORMAT, "38,3,2,262143\n");
    JOB_REFUSED(SCCC_BAD_PATTERN, "37,3,2,262143\n");
    JOB_REFUSED(SCCC_BAD_PILOTS, "37,2,2,262143\n");
    JOB_REFUSED(SCCC_BAD_CODE, "37,2,1,262143\n");
}

/* Each format: there, and back byte for byte; and no line moves that has the form already. */
static void moves_of_format(unsigned f)
{
    static const char *const codes[] = {"-", "0", "1", "262142"};
    char old[32], longer[32];
    unsigned pattern, pilots;
    size_t j;
    for (pattern = 0; pattern < 3; pattern++) {
        strcpy(old, old_line(f, pattern));
        strcpy(longer, longer_line(f, pattern, 0, "-"));
        MOVES(sccc_job_lengthen, old, longer);
        MOVES(sccc_job_shorten, longer, old);
        MOVES_NOT(SCCC_BAD_LINE, sccc_job_shorten, old);
        for (pilots = 0; pilots < 2; pilots++)
            for (j = 0; j < LENGTH(codes); j++) {
                const char *set = longer_line(f, pattern, pilots, codes[j]);
                MOVES_NOT(SCCC_BAD_LINE, sccc_job_lengthen, set);
                if (pilots > 0 || j > 0)
                    MOVES_NOT(SCCC_NO_WAY_BACK, sccc_job_shorten, set);
            }
    }
}

static void line_moves(void)
{
    unsigned f;
    size_t j;
    CHECK(sizeof(sccc_line_answer) == 2 * sizeof(uint64_t));
    for (f = 1; f <= SCCC_FORMATS; f++)
        moves_of_format(f);
    for (j = 0; j < LENGTH(bad_formats); j++) {
        MOVES_NOT(SCCC_BAD_FORMAT, sccc_job_lengthen, old_line(bad_formats[j], 0));
        MOVES_NOT(SCCC_BAD_FORMAT, sccc_job_shorten, longer_line(bad_formats[j], 0, 0, "-"));
    }
    for (j = 0; j < LENGTH(bad_patterns); j++) {
        MOVES_NOT(SCCC_BAD_PATTERN, sccc_job_lengthen, old_line(13, bad_patterns[j]));
        MOVES_NOT(SCCC_BAD_PATTERN, sccc_job_shorten, longer_line(13, bad_patterns[j], 0, "-"));
    }
    for (j = 0; j < LENGTH(bad_pilots); j++)
        MOVES_NOT(SCCC_BAD_PILOTS, sccc_job_shorten, longer_line(13, 0, bad_pilots[j], "-"));
    for (j = 0; j < LENGTH(bad_codes); j++)
        MOVES_NOT(SCCC_BAD_CODE, sccc_job_shorten, longer_line(13, 0, 0, decimal(bad_codes[j])));
    /* everything behind the check fails too */
    MOVES_NOT(SCCC_BAD_FORMAT, sccc_job_lengthen, "38,3\n");
    MOVES_NOT(SCCC_BAD_LINE, sccc_job_lengthen, "38,3,2,262143\n");
    MOVES_NOT(SCCC_BAD_LINE, sccc_job_shorten, "38,3\n");
    MOVES_NOT(SCCC_BAD_FORMAT, sccc_job_shorten, "38,3,2,262143\n");
    MOVES_NOT(SCCC_BAD_PATTERN, sccc_job_shorten, "37,3,2,262143\n");
    MOVES_NOT(SCCC_BAD_PILOTS, sccc_job_shorten, "37,2,2,262143\n");
    MOVES_NOT(SCCC_BAD_CODE, sccc_job_shorten, "37,2,1,262143\n");
    MOVES_NOT(SCCC_NO_WAY_BACK, sccc_job_shorten, "37,2,1,262142\n");
    MOVES_NOT(SCCC_BAD_FORMAT, sccc_job_lengthen, "999,999\n");
    MOVES_NOT(SCCC_BAD_FORMAT, sccc_job_shorten, "999,999,999,999999\n");
}

/* A text that is no line of either form, for all three calls. */
static void no_line(int line, const char *bytes, size_t length)
{
    job_gives(line, SCCC_BAD_LINE, bytes, length, 0, 0, 0, 0);
    moves_not(line, SCCC_BAD_LINE, sccc_job_lengthen, bytes, length);
    moves_not(line, SCCC_BAD_LINE, sccc_job_shorten, bytes, length);
}

#define NO_LINE(bytes, length) no_line(__LINE__, bytes, length)

/* A line's front, lent with what is missing behind it; a byte that no line has, at any place of the
 * line; and any byte behind it. */
static void spoilt_line(const char *bytes)
{
    static const char of_lines[] = "0123456789,-\n";
    const size_t whole = strlen(bytes);
    char spoilt[32];
    size_t n;
    int byte;
    put_text(bytes, whole);
    for (n = 0; n < whole; n++) {
        CHECK(sccc_job(lent(text, n), n).number == SCCC_BAD_LINE);
        CHECK(sccc_job_lengthen(lent(text, n), n, moved, sizeof moved).number == SCCC_BAD_LINE);
        CHECK(sccc_job_shorten(lent(text, n), n, moved, sizeof moved).number == SCCC_BAD_LINE);
    }
    for (byte = 0; byte < 256; byte++) {
        for (n = 0; n < whole && memchr(of_lines, byte, sizeof of_lines - 1) == NULL; n++) {
            memcpy(spoilt, bytes, whole);
            spoilt[n] = (char)byte;
            NO_LINE(spoilt, whole);
        }
        memcpy(spoilt, bytes, whole);
        spoilt[whole] = (char)byte;
        NO_LINE(spoilt, whole + 1);
    }
}

static void no_lines(void)
{
    static const char *const texts[] = {
        "", "\n", "13\n", "13,\n", ",0\n", ",\n", "-\n", "13,0", "13,0\n\n", "\n13,0\n", "13,0\r\n",
        "13,0\n13,0\n", "13\n,0\n", " 13,0\n", "13, 0\n", "13,0 \n", "13;0\n", "13,,0\n", "13,0,\n",
        "+13,0\n", "-13,0\n", "13,-0\n", "13,-\n", "13.0\n", "0x1,0\n", "\"13\",0\n", "13,/\n",
        "13,:\n", "07,0\n", "00,0\n", "013,0\n", "13,00\n", "13,02\n", "1000,0\n", "1,1000\n",
        "13,0,0\n", "13,0,-\n", "13,0,0,\n", "13,0,,-\n", "13,,0,-\n", ",0,0,-\n", ",,,\n",
        "13,0,0,-", "13,0,0,-\n\n", "13,0,0,-\r\n", "13,0,0,-\n13,0,0,-\n", "13,0,0,-,\n",
        "13,0,0,-,0\n", "13,0,0,0,0\n", "13,0,0, -\n", "13,0,0,- \n", "13,0,0,--\n", "13,0,0,-0\n",
        "13,0,0,0-\n", "13,0,0,-1\n", "13,0,0,+1\n", "13,0,-,-\n", "13,-,0,-\n", "-,0,0,-\n",
        "13,0,00,-\n", "13,0,01,-\n", "13,00,0,-\n", "013,0,0,-\n", "13,0,0,00\n", "13,0,0,01\n",
        "13,0,0,000000\n", "13,0,0,012345\n", "13,0,1000,-\n", "13,1000,0,-\n", "1000,0,0,-\n",
        "13,0,0,1000000\n", "13,0,0,9999999\n", "999,999,999,9999999\n", "999,999,9999,999999\n",
        "13,0,0,18446744073709551616\n", "13,0,18446744073709551617,-\n", "4294967309,0\n",
    };
    char many[200];
    size_t j;
    CHECK(strlen("999,999\n") == SCCC_LONGEST_OLD_LINE);
    CHECK(strlen("999,999,999,999999\n") == SCCC_LONGEST_LINE);
    for (j = 0; j < LENGTH(texts); j++)
        NO_LINE(texts[j], strlen(texts[j]));
    for (j = 0; j < sizeof many; j++)
        many[j] = "13,0\n"[j % 5];
    for (j = 10; j <= sizeof many; j++)
        NO_LINE(many, j);
    spoilt_line("13,0\n");
    spoilt_line("37,2,1,262142\n");
    spoilt_line("999,999,999,999999\n");
}

/* A coordinate's bits, which tell +0.0 from -0.0. */
static uint64_t bits_of(double coordinate)
{
    uint64_t bits;
    memcpy(&bits, &coordinate, sizeof bits);
    return bits;
}

static int point_is(sccc_point_answer r, double i, double q)
{
    return r.number == SCCC_PASSED && bits_of(r.i) == bits_of(i) && bits_of(r.q) == bits_of(q);
}

/* Document 004's table 5-2: of its first column and its last one, and the labels whose decimal
 * points our copy has lost. */
static const struct {
    uint8_t label;
    double i, q;
} table[] = {
    {0, -0.9412, -0.9412}, {1, -0.4770, -1.2426},   {15, 0.0627, 0.0627},
    {30, 0.9736, 0.0696},  {31, 0.2571, 0.0689},    {47, 0.6172, 0.0695},
    {63, 0.4382, 0.0694},  {95, 0.1882, 0.1882},    {96, -0.5968, -0.9872},
    {126, 1.1347, 0.2079}, {127, 0.3953, 0.2014},   {128, -1.1860, -0.6043},
    {159, 0.2052, 0.5863}, {224, -0.5850, -0.7814}, {229, -0.0689, -0.2571},
    {254, 1.1013, 0.3432}, {255, 0.3137, 0.3137},
};

/* Every format that has points gives these. */
static void points_of_table(void)
{
    static const uint64_t places[] = {0, 1, 131071, SCCC_POINT_PLACES - 1};
    uint64_t f;
    size_t j, n;
    for (f = SCCC_FIRST_POINT_FORMAT; f <= SCCC_FORMATS; f++)
        for (j = 0; j < LENGTH(table); j++)
            for (n = 0; n < LENGTH(places); n++)
                CHECK(point_is(sccc_point(f, table[j].label, SCCC_UNSCRAMBLED, places[n]),
                               table[j].i, table[j].q));
}

/* A coordinate as a whole number of ten-thousandths, if it is one. */
static int64_t ten_thousandths(double coordinate)
{
    const int64_t whole = (int64_t)(10000 * coordinate + (coordinate < 0 ? -0.5 : 0.5));
    CHECK(bits_of((double)whole / 10000) == bits_of(coordinate));
    return whole;
}

/* Whether document 02's ring k has a point. */
static int on_ring(int64_t k, int64_t i, int64_t q)
{
    const int64_t off = 127 * (i * i + q * q) - (2 * k - 1) * (2 * k - 1) * 100000000;
    return llabs(off) <= 127 * (llabs(i) + llabs(q) + 1);
}

/* Every point lies on a ring, and each ring is full. */
static void rings(void)
{
    int64_t k;
    uint64_t label, all = 0;
    for (k = 1; k <= 8; k++) {
        int64_t count = 0;
        for (label = 0; label < SCCC_POINTS; label++) {
            const sccc_point_answer r = sccc_point(37, label, SCCC_UNSCRAMBLED, 0);
            count += on_ring(k, ten_thousandths(r.i), ten_thousandths(r.q));
        }
        CHECK(count == 4 * (2 * k - 1));
        all += (uint64_t)count;
    }
    CHECK(all == SCCC_POINTS);
}

/* Annex E: the quarter turns that a code number has at a place. */
static unsigned quarter_turns(uint64_t code, uint64_t place)
{
    enum { PERIOD = 262143 };
    static uint8_t x[PERIOD] = {1}, y[PERIOD];
    const uint64_t ahead = (place + 131072) % PERIOD;
    size_t i;
    if (y[0] == 0) {
        memset(y, 1, 18);
        for (i = 0; i + 18 < PERIOD; i++) {
            x[i + 18] = x[i + 7] ^ x[i];
            y[i + 18] = y[i + 10] ^ y[i + 7] ^ y[i + 5] ^ y[i];
        }
    }
    return 2u * (x[(ahead + code) % PERIOD] ^ y[ahead]) + (x[(place + code) % PERIOD] ^ y[place]);
}

/* Whether a label's point at a place is the one without a code number, turned as annex E says. */
static int turned(uint64_t label, uint64_t code, uint64_t place)
{
    const sccc_point_answer plain = sccc_point(33, label, SCCC_UNSCRAMBLED, place);
    const sccc_point_answer r = sccc_point(33, label, code, place);
    switch (quarter_turns(code, place)) {
    case 0:
        return point_is(r, plain.i, plain.q);
    case 1:
        return point_is(r, -plain.q, plain.i);
    case 2:
        return point_is(r, -plain.i, -plain.q);
    default:
        return point_is(r, plain.q, -plain.i);
    }
}

/* All places by some code numbers, and all labels where the turns come from the sequences' ends. */
static void points_turned(void)
{
    static const uint64_t codes[] = {0, 1, 131071, 131072, SCCC_LAST_CODE - 1, SCCC_LAST_CODE};
    uint64_t label, place;
    size_t j;
    for (j = 0; j < LENGTH(codes); j++) {
        int as_due = 1;
        for (place = 0; place < SCCC_POINT_PLACES; place++)
            as_due = as_due && turned((place + j) % SCCC_POINTS, codes[j], place);
        CHECK(as_due);
        for (label = 0; label < SCCC_POINTS; label++) {
            CHECK(turned(label, codes[j], 0));
            CHECK(turned(label, codes[j], 131070));
            CHECK(turned(label, codes[j], 131071));
            CHECK(turned(label, codes[j], SCCC_POINT_PLACES - 1));
        }
    }
    /* by hand: x begins with a one and zeros, y with ones, and the heavier bits with zeros */
    CHECK(point_is(sccc_point(33, 47, 0, 0), 0.6172, 0.0695));
    CHECK(point_is(sccc_point(33, 47, 0, 1), -0.0695, 0.6172));
}

static int point_refused(uint64_t number, uint64_t f, uint64_t slot, uint64_t code, uint64_t place)
{
    const sccc_point_answer r = sccc_point(f, slot, code, place);
    return r.number == number && bits_of(r.i) == 0 && bits_of(r.q) == 0;
}

static const uint64_t not_point_formats[] = {
    0, 1, 13, 27, 28, 32, 38, 256, 289, UINT64_C(4294967329), UINT64_MAX};
static const uint64_t not_labels[] = {256, 258, 65535, 65536, UINT64_C(4294967296), UINT64_MAX};
static const uint64_t not_codes[] = {262143, 262144, 524288, UINT64_C(4294967296), UINT64_MAX - 1};
static const uint64_t not_places[] = {133760, 133761, 262143, UINT64_C(4294967296), UINT64_MAX};

/* Each check alone, and with everything behind it failing too. */
static void points_refused(void)
{
    size_t j;
    for (j = 0; j < LENGTH(not_point_formats); j++) {
        const uint64_t f = not_point_formats[j];
        CHECK(point_refused(SCCC_BAD_FORMAT, f, 0, 0, 0));
        CHECK(point_refused(SCCC_BAD_FORMAT, f, 0, SCCC_UNSCRAMBLED, 0));
        CHECK(point_refused(SCCC_BAD_FORMAT, f, 256, 262143, 133760));
    }
    for (j = 0; j < LENGTH(not_labels); j++) {
        CHECK(point_refused(SCCC_BAD_ELEMENT, 33, not_labels[j], 0, 0));
        CHECK(point_refused(SCCC_BAD_ELEMENT, 37, not_labels[j], SCCC_UNSCRAMBLED, 0));
        CHECK(point_refused(SCCC_BAD_ELEMENT, 35, not_labels[j], 262143, 133760));
    }
    for (j = 0; j < LENGTH(not_codes); j++) {
        CHECK(point_refused(SCCC_BAD_CODE, 33, 255, not_codes[j], 0));
        CHECK(point_refused(SCCC_BAD_CODE, 37, 0, not_codes[j], 133760));
    }
    for (j = 0; j < LENGTH(not_places); j++) {
        CHECK(point_refused(SCCC_BAD_PLACE, 33, 255, SCCC_LAST_CODE, not_places[j]));
        CHECK(point_refused(SCCC_BAD_PLACE, 37, 0, SCCC_UNSCRAMBLED, not_places[j]));
    }
}

static void point(void)
{
    CHECK(sizeof(sccc_point_answer) == 3 * sizeof(uint64_t));
    CHECK(SCCC_FIRST_POINT_FORMAT == 33 && SCCC_POINTS == 256 && SCCC_POINT_PLACES == 133760);
    points_of_table();
    rings();
    points_turned();
    points_refused();
}

/* What a coordinate holds before a call: none of a point. */
static double coordinate_filling(size_t i)
{
    return 2.0 + (double)filling(i) / 128;
}

/* A call for points in a row on the slots and on filled memory: its answer, and every number that
 * it leaves. */
static void points_give(int line, uint8_t number, uint64_t f, size_t slots_len, uint64_t code,
                        uint64_t place, size_t out_len)
{
    static uint16_t before[LENGTH(slots)];
    const size_t symbols = number == SCCC_PASSED ? slots_len : 0;
    uint8_t answer;
    int as_due = 1, unchanged = 1;
    size_t j;
    memcpy(before, slots, sizeof slots);
    for (j = 0; j < LENGTH(coordinates); j++)
        coordinates[j] = coordinate_filling(j);
    answer = sccc_points(f, slots_len == 0 ? NULL : slots, slots_len, code, place,
                         out_len == 0 ? NULL : coordinates, out_len);
    for (j = 0; j < symbols; j++)
        as_due = as_due && point_is(sccc_point(f, slots[j], code, place + j), coordinates[2 * j],
                                    coordinates[2 * j + 1]);
    for (j = 2 * symbols; j < LENGTH(coordinates); j++)
        unchanged = unchanged && bits_of(coordinates[j]) == bits_of(coordinate_filling(j));
    check(line, answer == number, "the answer of sccc_points");
    check(line, as_due, "the points are those of sccc_point");
    check(line, unchanged, "out is unchanged where nothing is due");
    check(line, memcmp(slots, before, sizeof slots) == 0, "the slots are unchanged");
}

#define ROW(number, f, slots_len, code, place, out_len)                                            \
    points_give(__LINE__, number, f, slots_len, code, place, out_len)

/* Each format: as many symbols as there are places, and some at either end and between; with just
 * enough room, with more and with less. */
static void rows_of_format(uint64_t f)
{
    static const uint64_t codes[] = {0, 1, SCCC_LAST_CODE, SCCC_UNSCRAMBLED};
    const size_t all = SCCC_POINT_PLACES;
    size_t j;
    for (j = 0; j < LENGTH(codes); j++) {
        const uint64_t code = codes[j];
        ROW(SCCC_PASSED, f, all, code, 0, 2 * all);
        ROW(SCCC_PASSED, f, all, code, 0, LENGTH(coordinates));
        ROW(SCCC_PASSED, f, 540, code, 1, 1081);
        ROW(SCCC_PASSED, f, 100, code, 131021, 200);
        ROW(SCCC_PASSED, f, 540, code, all - 540, 1080);
        ROW(SCCC_PASSED, f, 1, code, all - 1, 2);
        ROW(SCCC_PASSED, f, 0, code, 0, 0);
        ROW(SCCC_PASSED, f, 0, code, all, LENGTH(coordinates));
        ROW(SCCC_SHORT_OUTPUT, f, all, code, 0, 2 * all - 1);
        ROW(SCCC_SHORT_OUTPUT, f, 540, code, 1, 540);
        ROW(SCCC_SHORT_OUTPUT, f, 1, code, all - 1, 0);
    }
}

/* A row's end behind the last place, though the sum of place and length wraps around. */
static void rows_behind_the_end(void)
{
    const size_t all = SCCC_POINT_PLACES;
    size_t j;
    ROW(SCCC_BAD_PLACE, 33, all, 0, 1, 2 * all);
    ROW(SCCC_BAD_PLACE, 33, all + 1, SCCC_UNSCRAMBLED, 0, LENGTH(coordinates));
    ROW(SCCC_BAD_PLACE, 33, 540, 0, all - 539, 1080);
    for (j = 0; j < LENGTH(not_places); j++) {
        ROW(SCCC_BAD_PLACE, 33, 1, 0, not_places[j], 2);
        ROW(SCCC_BAD_PLACE, 37, 540, SCCC_UNSCRAMBLED, not_places[j], 0);
    }
    ROW(SCCC_BAD_PLACE, 33, 0, 0, all + 1, 0);
    ROW(SCCC_BAD_PLACE, 33, 0, SCCC_UNSCRAMBLED, UINT64_MAX, 0);
    ROW(SCCC_BAD_PLACE, 33, 540, 0, UINT64_MAX - 539, 1080);
    ROW(SCCC_BAD_PLACE, 33, 540, 0, UINT64_MAX - 100, 1080);
}

/* Each check alone, and with everything behind it failing too. */
static void rows_refused(void)
{
    static const uint16_t none[] = {256, 257, 258, 65535};
    static const size_t places[] = {0, 270, 539};
    size_t i, j;
    for (i = 0; i < LENGTH(none); i++)
        for (j = 0; j < LENGTH(places); j++) {
            const uint16_t label = slots[places[j]];
            slots[places[j]] = none[i];
            ROW(SCCC_BAD_ELEMENT, 33, 540, 0, 0, 1080);
            ROW(SCCC_BAD_ELEMENT, 37, 540, 262143, 133760, 0);
            ROW(SCCC_BAD_FORMAT, 32, 540, 262143, 133760, 0);
            /* behind those that are read */
            ROW(SCCC_PASSED, 33, places[j], 0, 0, 1080);
            slots[places[j]] = label;
        }
    for (j = 0; j < LENGTH(not_point_formats); j++) {
        ROW(SCCC_BAD_FORMAT, not_point_formats[j], 540, 0, 0, 1080);
        ROW(SCCC_BAD_FORMAT, not_point_formats[j], 0, 262143, 133761, 0);
    }
    for (j = 0; j < LENGTH(not_codes); j++) {
        ROW(SCCC_BAD_CODE, 33, 540, not_codes[j], 0, 1080);
        ROW(SCCC_BAD_CODE, 37, 540, not_codes[j], 133760, 0);
        ROW(SCCC_BAD_CODE, 35, 0, not_codes[j], 133761, 0);
    }
}

static void points(void)
{
    uint64_t f;
    size_t j;
    for (j = 0; j < LENGTH(slots); j++)
        slots[j] = (uint16_t)(j * j / 7 % SCCC_POINTS);
    for (f = SCCC_FIRST_POINT_FORMAT; f <= SCCC_FORMATS; f++)
        rows_of_format(f);
    rows_behind_the_end();
    rows_refused();
}

/* What a capture is written of: of each symbol that it is lost, or the bits of its coordinates. */
static struct {
    int lost;
    uint64_t i, q;
} samples[SCCC_SYMBOLS];

static void put_bits(size_t place, uint64_t i, uint64_t q)
{
    samples[place].lost = 0;
    samples[place].i = i;
    samples[place].q = q;
}

static void put_pair(size_t place, double i, double q)
{
    put_bits(place, bits_of(i), bits_of(q));
}

static void put_all(double i, double q)
{
    size_t j;
    for (j = 0; j < SCCC_SYMBOLS; j++)
        put_pair(j, i, q);
}

static void lose(size_t place)
{
    samples[place].lost = 1;
}

static void lose_all(void)
{
    size_t j;
    for (j = 0; j < SCCC_SYMBOLS; j++)
        lose(j);
}

/* Labels of the table in turn, and their points. */
static void put_points(void)
{
    size_t j;
    fill(labels, sizeof labels);
    for (j = 0; j < SCCC_SYMBOLS; j++) {
        labels[j] = table[j % LENGTH(table)].label;
        put_pair(j, table[j % LENGTH(table)].i, table[j % LENGTH(table)].q);
    }
}

static const char hexadecimal[] = "0123456789ABCDEF";

static uint8_t *digits(uint8_t *at, uint64_t bits)
{
    int shift;
    for (shift = 60; shift >= 0; shift -= 4)
        *at++ = (uint8_t)hexadecimal[bits >> shift & 15];
    return at;
}

static uint8_t *sample_line(uint8_t *at, size_t place)
{
    if (samples[place].lost) {
        memcpy(at, "LOST\n", 5);
        return at + 5;
    }
    at = digits(at, samples[place].i);
    *at++ = ',';
    at = digits(at, samples[place].q);
    *at++ = '\n';
    return at;
}

/* Writes the capture, with other bytes for the line of one place, and gives its length. */
static size_t capture_with(size_t other_place, const void *other, size_t length)
{
    uint8_t *at = capture;
    size_t j;
    fill(capture, sizeof capture);
    for (j = 0; j < SCCC_SYMBOLS; j++)
        if (j == other_place) {
            memcpy(at, other, length);
            at += length;
        } else {
            at = sample_line(at, j);
        }
    return (size_t)(at - capture);
}

static size_t write_capture(void)
{
    return capture_with(SCCC_SYMBOLS, "", 0);
}

/* A judgement of the capture by the labels: the answer, and every byte that was lent. */
static void judge_gives(int line, uint64_t f, size_t labels_len, size_t capture_len,
                        sccc_judgement due)
{
    static uint8_t labels_before[sizeof labels], capture_before[sizeof capture];
    sccc_judgement r;
    memcpy(labels_before, labels, sizeof labels);
    memcpy(capture_before, capture, sizeof capture);
    r = sccc_judge(f, lent(labels, labels_len), labels_len, lent(capture, capture_len),
                   capture_len);
    check(line, r.number == due.number, "the number of sccc_judge");
    check(line, r.agreeing == due.agreeing && r.differing == due.differing, "the labels counted");
    check(line, r.lost == due.lost, "the lost samples counted");
    check(line, r.none == due.none && r.first == due.first, "the first place that differs");
    check(line, memcmp(labels, labels_before, sizeof labels) == 0, "the labels are unchanged");
    check(line, memcmp(capture, capture_before, sizeof capture) == 0, "the capture is unchanged");
}

static void judged(int line, uint64_t f, uint64_t agreeing, uint64_t differing, uint64_t lost,
                   uint64_t none, uint64_t first)
{
    const sccc_judgement due = {SCCC_PASSED, agreeing, differing, lost, none, first};
    judge_gives(line, f, SCCC_SYMBOLS, write_capture(), due);
}

static void judge_refused(int line, uint64_t number, uint64_t f, size_t labels_len,
                          size_t capture_len)
{
    const sccc_judgement due = {number, 0, 0, 0, 0, 0};
    judge_gives(line, f, labels_len, capture_len, due);
}

#define JUDGED(f, agreeing, differing, lost, none, first)                                          \
    judged(__LINE__, f, agreeing, differing, lost, none, first)
#define JUDGE_REFUSED(number, f, labels_len, capture_len)                                          \
    judge_refused(__LINE__, number, f, labels_len, capture_len)

/* A capture of each label's own point, with one that is lost or has another label, at either end
 * and between; with two of these; and with all of them lost or all others. */
static void counts_of_format(uint64_t f)
{
    static const size_t places[] = {0, 1, 4095, 8098, 8099};
    size_t j, n;
    put_points();
    JUDGED(f, 8100, 0, 0, 1, 0);
    for (j = 0; j < LENGTH(places); j++) {
        const size_t place = places[j];
        labels[place] ^= 1;
        JUDGED(f, 8099, 1, 0, 0, place);
        /* what is lost does not differ */
        lose(place);
        JUDGED(f, 8099, 0, 1, 1, 0);
        labels[place] ^= 1;
        JUDGED(f, 8099, 0, 1, 1, 0);
        for (n = 0; n < LENGTH(places); n++)
            if (n != j) {
                labels[places[n]] ^= 1;
                JUDGED(f, 8098, 1, 1, 0, places[n]);
                labels[places[n]] ^= 1;
            }
        put_points();
        for (n = j + 1; n < LENGTH(places); n++) {
            labels[place] ^= 128;
            labels[places[n]] ^= 255;
            JUDGED(f, 8098, 2, 0, 0, place);
            put_points();
        }
    }
    for (j = 0; j < SCCC_SYMBOLS; j++)
        labels[j] ^= 16;
    JUDGED(f, 0, 8100, 0, 0, 0);
    lose(0);
    JUDGED(f, 0, 8099, 1, 0, 1);
    lose_all();
    JUDGED(f, 0, 0, 8100, 1, 0);
    put_pair(8099, 0.3137, 0.3137);
    JUDGED(f, 0, 1, 8099, 0, 8099);
    labels[8099] = 255;
    JUDGED(f, 1, 0, 8099, 1, 0);
}

/* The points that sccc_point gives, each for its own label. */
static void own_points(void)
{
    size_t j;
    for (j = 0; j < SCCC_SYMBOLS; j++) {
        const sccc_point_answer r = sccc_point(33, j % SCCC_POINTS, SCCC_UNSCRAMBLED, 0);
        labels[j] = (uint8_t)(j % SCCC_POINTS);
        put_pair(j, r.i, r.q);
    }
    JUDGED(33, 8100, 0, 0, 1, 0);
    JUDGED(37, 8100, 0, 0, 1, 0);
}

/* A pair at every place: the labels at even places are the one that it is read as, the others are
 * not. */
static void read_as(int line, double i, double q, uint8_t label)
{
    size_t j;
    put_all(i, q);
    for (j = 0; j < SCCC_SYMBOLS; j++)
        labels[j] = (uint8_t)(j % 2 == 0 ? label : label + 1 + j % 255);
    judged(line, 35, 4050, 4050, 0, 0, 1);
}

#define READ_AS(i, q, label) read_as(__LINE__, i, q, label)

/* On an axis two points of the table are as near as each other, and at the origin the four of ring
 * 1. So they are where of a coordinate nothing is left in a difference from 0.0627 or more. Of
 * their labels the lowest is read. */
static void equally_near(void)
{
    static const double none[] = {0.0, -0.0, 5e-324, -5e-324, 1e-300, -1e-300, 1e-18, -1e-18};
    static const struct {
        double at;
        uint8_t right, left, up, down;
    } axes[] = {
        {0.0627, 15, 45, 15, 135},
        {0.2571, 31, 61, 79, 199},
        {1.3292, 46, 12, 139, 3},
        {2, 46, 12, 139, 3},
    };
    size_t i, j;
    for (i = 0; i < LENGTH(none); i++) {
        for (j = 0; j < LENGTH(none); j++)
            READ_AS(none[i], none[j], 15);
        for (j = 0; j < LENGTH(axes); j++) {
            READ_AS(axes[j].at, none[i], axes[j].right);
            READ_AS(-axes[j].at, none[i], axes[j].left);
            READ_AS(none[i], axes[j].at, axes[j].up);
            READ_AS(none[i], -axes[j].at, axes[j].down);
        }
    }
}

/* The corners of what coordinates may be, and as near to them as floats come: nearest is the point
 * of ring 8 on the diagonal, 0.9412 and 0.9412 with their signs. */
static void corners(void)
{
    static const double ends[] = {2, 1.9999999999999998};
    size_t i, j;
    for (i = 0; i < LENGTH(ends); i++)
        for (j = 0; j < LENGTH(ends); j++) {
            READ_AS(ends[i], ends[j], 170);
            READ_AS(-ends[i], ends[j], 136);
            READ_AS(ends[i], -ends[j], 34);
            READ_AS(-ends[i], -ends[j], 0);
        }
}

/* The first floats beyond 2, larger ones, the infinite ones, and what is no number, quiet and
 * signalling; of either sign, in either coordinate. */
static void coordinates_refused(void)
{
    static const uint64_t bits[] = {
        UINT64_C(0x4000000000000001), UINT64_C(0x4000000000000002), UINT64_C(0x4008000000000000),
        UINT64_C(0x4330000000000000), UINT64_C(0x7FEFFFFFFFFFFFFF), UINT64_C(0x7FF0000000000000),
        UINT64_C(0x7FF0000000000001), UINT64_C(0x7FF7FFFFFFFFFFFF), UINT64_C(0x7FF8000000000000),
        UINT64_C(0x7FF8000000000001), UINT64_C(0x7FFFFFFFFFFFFFFF),
    };
    static const size_t places[] = {0, 4050, 8099};
    size_t i, j, n;
    for (i = 0; i < LENGTH(bits); i++)
        for (j = 0; j < LENGTH(places); j++)
            for (n = 0; n < 4; n++) {
                const uint64_t outside = bits[i] | (uint64_t)(n / 2) << 63;
                const uint64_t good = bits_of(0.3137);
                put_points();
                put_bits(places[j], n % 2 == 0 ? outside : good, n % 2 == 0 ? good : outside);
                JUDGE_REFUSED(SCCC_BAD_COORDINATE, 33, SCCC_SYMBOLS, write_capture());
                lose_all();
                put_bits(places[j], outside, outside);
                JUDGE_REFUSED(SCCC_BAD_COORDINATE, 37, SCCC_SYMBOLS, write_capture());
            }
}

#define NO_CAPTURE(length) JUDGE_REFUSED(SCCC_BAD_CAPTURE, 33, SCCC_SYMBOLS, length)

/* Lines that no capture has, for the first one, one between and the last. */
static void no_lines_of_captures(void)
{
    static const char *const lines[] = {
        "", "\n", "LOST", "LOST\n\n", "\nLOST\n", "LOST\nLOST\n", "LOST\r\n", "LOST\r", "LOST \n",
        " LOST\n", "lost\n", "Lost\n", "LOSt\n", "L0ST\n", "LOS\n", "LOSTT\n", "LOST,\n", ",LOST\n",
        "LOST,LOST\n", "LOST,3FF0000000000000\n", "3FF0000000000000,LOST\n", ",\n", "1.0,1.0\n",
        "3FF0000000000000\n", "3FF0000000000000,\n", ",3FF0000000000000\n",
        "3FF0000000000000,3FF0000000000000", "3FF0000000000000,3FF0000000000000\r\n",
        "3FF0000000000000,3FF0000000000000 \n", " 3FF0000000000000,3FF0000000000000\n",
        "3FF0000000000000, 3FF0000000000000\n", "3FF0000000000000 ,3FF0000000000000\n",
        "3FF0000000000000 3FF0000000000000\n", "3FF0000000000000;3FF0000000000000\n",
        "3FF0000000000000\n3FF0000000000000\n", "3FF0000000000000,,3FF0000000000000\n",
        "3FF0000000000000,3FF0000000000000,\n", "3FF00000000000003FF0000000000000\n",
        "3FF0000000000000,3FF0000000000000,3FF0000000000000\n", "3FF0000000000000,3FF000000000000\n",
        "3FF000000000000,3FF0000000000000\n", "3FF000000000000,3FF00000000000000\n",
        "3FF0000000000000,3FF00000000000000\n", "3FF00000000000000,3FF000000000000\n",
        "03FF0000000000000,3FF0000000000000\n", "3FF0000000000000,03FF0000000000000\n",
        "3ff0000000000000,3FF0000000000000\n", "3FF0000000000000,3fF0000000000000\n",
        "3FF0000000000000,3FF000000000000a\n", "+3FF000000000000,3FF0000000000000\n",
        "-3FF000000000000,3FF0000000000000\n", "0x3FF00000000000,3FF0000000000000\n",
        "\"3FF0000000000000\",3FF0000000000000\n", "3FF0000000000000\n,3FF0000000000000\n",
    };
    static const size_t places[] = {0, 4050, 8099};
    size_t i, j;
    for (i = 0; i < LENGTH(lines); i++)
        for (j = 0; j < LENGTH(places); j++) {
            put_points();
            lose(1);
            NO_CAPTURE(capture_with(places[j], lines[i], strlen(lines[i])));
            lose_all();
            NO_CAPTURE(capture_with(places[j], lines[i], strlen(lines[i])));
        }
}

/* Any byte that does not belong there, at each place of a line. */
static void spoilt_capture(size_t start, const char *line)
{
    const size_t length = write_capture();
    size_t n;
    int byte;
    CHECK(memcmp(capture + start, line, strlen(line)) == 0);
    for (n = 0; n < strlen(line); n++)
        for (byte = 0; byte < 256; byte++) {
            const int digit = strlen(line) > 5 && memchr(hexadecimal, line[n], 16) != NULL;
            if (byte == line[n] || (digit && memchr(hexadecimal, byte, 16) != NULL))
                continue;
            capture[start + n] = (uint8_t)byte;
            CHECK(sccc_judge(33, labels, SCCC_SYMBOLS, capture, length).number == SCCC_BAD_CAPTURE);
            capture[start + n] = (uint8_t)line[n];
        }
}

/* Too few lines and too many, an end without its line feed, and more behind it. */
static void ends_of_captures(void)
{
    static const char *const more[] = {
        "\n", "\r\n", " ", "L", "LOST", "LOST\n", "\x1A", "\xFF", "3FF0000000000000,3FF0000000000000\n",
    };
    int pass;
    size_t j;
    for (pass = 0; pass < 2; pass++) {
        size_t length, line;
        lose_all();
        if (pass == 1)
            put_points();
        length = write_capture();
        line = length / SCCC_SYMBOLS;
        CHECK(line == (pass == 0 ? 5 : 34));
        CHECK(pass == 0 || length == SCCC_LONGEST_CAPTURE);
        NO_CAPTURE(0);
        for (j = 1; j <= line; j++) {
            NO_CAPTURE(j);
            NO_CAPTURE(length - j);
            NO_CAPTURE(length / 2 - j);
        }
        for (j = 0; j < LENGTH(more); j++) {
            write_capture();
            memcpy(capture + length, more[j], strlen(more[j]));
            NO_CAPTURE(length + strlen(more[j]));
        }
        write_capture();
        capture[length] = 0;
        NO_CAPTURE(length + 1);
        capture[length - 1] = 0;
        NO_CAPTURE(length);
    }
}

static void captures_refused(void)
{
    no_lines_of_captures();
    lose_all();
    put_pair(4050, 1.0, -1.0);
    spoilt_capture(5 * (size_t)4050, "3FF0000000000000,BFF0000000000000\n");
    spoilt_capture(5 * (size_t)4049, "LOST\n");
    ends_of_captures();
}

/* Each check with everything behind it failing too; any byte is a label, so 3 never fails. */
static void checks_of_judge(void)
{
    static const size_t lengths[] = {0, 1, 8099, 8101, SCCC_FRAME_LABELS};
    const uint64_t infinite = UINT64_C(0x7FF0000000000000);
    size_t good, both, j;
    uint64_t f;
    put_points();
    good = write_capture();
    for (j = 0; j < LENGTH(not_point_formats); j++)
        JUDGE_REFUSED(SCCC_BAD_FORMAT, not_point_formats[j], SCCC_SYMBOLS, good);
    for (j = 0; j < LENGTH(lengths); j++)
        JUDGE_REFUSED(SCCC_BAD_LENGTH, 33, lengths[j], good);
    /* what is infinite stands before the line that is none */
    put_bits(0, infinite, infinite);
    both = capture_with(8099, "lost\n", 5);
    NO_CAPTURE(both);
    NO_CAPTURE(0);
    for (j = 0; j < LENGTH(lengths); j++) {
        JUDGE_REFUSED(SCCC_BAD_LENGTH, 37, lengths[j], both);
        JUDGE_REFUSED(SCCC_BAD_LENGTH, 37, lengths[j], 0);
    }
    for (j = 0; j < LENGTH(not_point_formats); j++) {
        JUDGE_REFUSED(SCCC_BAD_FORMAT, not_point_formats[j], 8099, both);
        JUDGE_REFUSED(SCCC_BAD_FORMAT, not_point_formats[j], 0, 0);
    }
    JUDGE_REFUSED(SCCC_BAD_COORDINATE, 33, SCCC_SYMBOLS, write_capture());
    lose_all();
    for (j = 0; j < SCCC_SYMBOLS; j++)
        labels[j] = (uint8_t)j;
    for (f = SCCC_FIRST_POINT_FORMAT; f <= SCCC_FORMATS; f++)
        JUDGED(f, 0, 0, 8100, 1, 0);
}

/* Neither list is written, so the labels may be the capture's own first bytes. */
static void one_list_twice(void)
{
    size_t length;
    sccc_judgement r;
    put_points();
    lose(8099);
    length = write_capture();
    r = sccc_judge(33, capture, SCCC_SYMBOLS, capture, length);
    CHECK(r.number == SCCC_PASSED && r.agreeing + r.differing == 8099 && r.lost == 1);
    lose_all();
    length = write_capture();
    r = sccc_judge(33, capture, SCCC_SYMBOLS, capture, length);
    CHECK(r.number == SCCC_PASSED && r.lost == 8100 && r.none == 1);
}

static void judge(void)
{
    uint64_t f;
    CHECK(sizeof(sccc_judgement) == 6 * sizeof(uint64_t));
    CHECK(offsetof(sccc_judgement, first) == 5 * sizeof(uint64_t));
    CHECK(SCCC_BAD_CAPTURE == 18 && SCCC_BAD_COORDINATE == 19);
    CHECK(SCCC_LONGEST_CAPTURE == 275400 && SCCC_LONGEST_CAPTURE == 34 * SCCC_SYMBOLS);
    for (f = SCCC_FIRST_POINT_FORMAT; f <= SCCC_FORMATS; f++)
        counts_of_format(f);
    own_points();
    equally_near();
    corners();
    coordinates_refused();
    captures_refused();
    checks_of_judge();
    one_list_twice();
}

/* A thread's own buffers: it encodes one block of its format a few times over. */
typedef struct {
    uint64_t f;
    uint8_t block[SCCC_MAX_K], work[SCCC_MAX_I], once[SCCC_MAX_N], again[SCCC_MAX_N];
    int same;
} job;

static void *encode_again(void *argument)
{
    job *j = argument;
    sccc_format_info r = sccc_format(j->f);
    int i;
    for (i = 0; i < 50; i++) {
        memset(j->again, 170, r.n);
        sccc_encode(j->f, j->block, r.k, j->work, r.i, j->again, r.n);
        j->same = j->same && memcmp(j->again, j->once, r.n) == 0;
    }
    return NULL;
}

static void threads(void)
{
    static job jobs[4];
    pthread_t thread[LENGTH(jobs)];
    size_t j, i;
    for (j = 0; j < LENGTH(jobs); j++) {
        sccc_format_info r = sccc_format(jobs[j].f = 10 * j + 7);
        for (i = 0; i < r.k; i++)
            jobs[j].block[i] = (uint8_t)(i * i / 7 % 2);
        CHECK(sccc_encode(jobs[j].f, jobs[j].block, r.k, jobs[j].work, r.i, jobs[j].once, r.n) ==
              SCCC_PASSED);
        jobs[j].same = 1;
    }
    for (j = 0; j < LENGTH(jobs); j++)
        CHECK(pthread_create(&thread[j], NULL, encode_again, &jobs[j]) == 0);
    for (j = 0; j < LENGTH(jobs); j++) {
        CHECK(pthread_join(thread[j], NULL) == 0);
        CHECK(jobs[j].same);
    }
}

/* Each call once, for the stack that it takes. */
static void *call_each(void *argument)
{
    static const uint16_t cuts[SCCC_SEGMENTS - 1] = {0};
    static const uint8_t old[] = "13,0\n", longer[] = "13,0,0,-\n";
    job *j = argument;
    sccc_format_info r = sccc_format(j->f);
    sccc_slicer s;
    sccc_step(0, 1);
    sccc_run(0, j->block, r.i / 2, j->work, r.i);
    sccc_interleave(j->f, 1);
    sccc_encode(j->f, j->block, r.k, j->work, r.i, j->once, r.n);
    sccc_encode_segments(j->f, j->block, r.k, j->work, r.i, j->once, r.n, cuts, LENGTH(cuts), cuts,
                         LENGTH(cuts));
    sccc_encode_shared(j->f, j->block, r.k, j->work, r.i, j->once, r.n, entries, r.i, 0);
    sccc_encode_shared(j->f, j->block, r.k, j->work, r.i, j->once, r.n, entries, r.i, r.i);
    sccc_labels(j->f, j->once, r.n, others, SCCC_SYMBOLS);
    sccc_frame(j->f, SCCC_PILOTS_OFF, labels, SCCC_FRAME_LABELS, slots, SCCC_FRAME_SLOTS);
    sccc_frame(j->f, SCCC_PILOTS_ON, labels, SCCC_FRAME_LABELS, slots, SCCC_PILOT_FRAME_SLOTS);
    sccc_section(labels, SCCC_FRAME_LABELS, 1);
    sccc_compare(j->f, others, SCCC_SYMBOLS, labels, SCCC_SYMBOLS);
    s = sccc_slicer_new(j->f);
    s = sccc_slicer_push(s, transfer, SCCC_MOST_TRANSFER_FRAME, waiting, sizeof waiting).slicer;
    sccc_slicer_block(s, waiting, sizeof waiting, j->block, r.k);
    sccc_slicer_look(s, j->f);
    sccc_slicer_change(s, j->f);
    sccc_job(longer, sizeof longer - 1);
    sccc_job_lengthen(old, sizeof old - 1, moved, sizeof moved);
    sccc_job_shorten(longer, sizeof longer - 1, moved, sizeof moved);
    sccc_point(j->f, 255, SCCC_LAST_CODE, 1);
    sccc_points(j->f, slots + SCCC_HEADER_SLOTS, 540, SCCC_LAST_CODE, 0, coordinates, 1080);
    sccc_judge(j->f, labels, SCCC_SYMBOLS, capture, SCCC_LONGEST_CAPTURE);
    return NULL;
}

/* A thread on a stack that was filled beforehand shows how deep the calls of a format went. */
static void stack_of_format(uint64_t f)
{
    static union {
        uint8_t bytes[256 * 1024];
        long double aligned;
    } memory;
    static job j;
    size_t untouched = 0;
    pthread_attr_t attributes;
    pthread_t thread;
    memset(&j, 0, sizeof j);
    j.f = f;
    memset(labels, 0, sizeof labels);
    put_all(0.3137, 0.3137);
    CHECK(write_capture() == SCCC_LONGEST_CAPTURE);
    fill(memory.bytes, sizeof memory.bytes);
    CHECK(pthread_attr_init(&attributes) == 0);
    CHECK(pthread_attr_setstack(&attributes, memory.bytes, sizeof memory.bytes) == 0);
    CHECK(pthread_create(&thread, &attributes, call_each, &j) == 0);
    CHECK(pthread_join(thread, NULL) == 0);
    CHECK(pthread_attr_destroy(&attributes) == 0);
    while (untouched < sizeof memory.bytes && memory.bytes[untouched] == filling(untouched))
        untouched++;
    CHECK(sizeof memory.bytes - untouched < 32 * 1024);
}

/* The longest interleaver, and the longest block. */
static void stack(void)
{
    stack_of_format(27);
    stack_of_format(37);
}

int main(void)
{
    static const struct {
        const char *name;
        void (*run)(void);
    } groups[] = {
        {"sccc_format", format},
        {"sccc_step", step},
        {"sccc_run", run},
        {"sccc_interleave", interleave},
        {"sccc_encode", encode},
        {"sccc_encode_segments", encode_segments},
        {"sccc_encode_shared", encode_shared},
        {"sccc_labels", label_lists},
        {"sccc_frame", frame},
        {"sccc_section", section},
        {"sccc_compare", compare},
        {"sccc_slicer_new", slicer_new},
        {"sccc_slicer_push", slicer_push},
        {"sccc_slicer_block", slicer_block},
        {"sccc_slicer_change and sccc_slicer_look", slicer_change},
        {"slicers' runs", slicer_run},
        {"slicers' changes of format", slicer_changes},
        {"three frames", three_frames},
        {"sccc_job", job_lines},
        {"sccc_job_lengthen and sccc_job_shorten", line_moves},
        {"texts that are no job line", no_lines},
        {"sccc_point", point},
        {"sccc_points", points},
        {"sccc_judge", judge},
        {"threads", threads},
        {"stack", stack},
    };
    size_t j;
    setvbuf(stdout, NULL, _IOLBF, BUFSIZ); /* a crash leaves what was printed before it */
    for (j = 0; j < LENGTH(groups); j++) {
        unsigned long checks_before = checks, failures_before = failures;
        groups[j].run();
        printf("%s: %lu checks, %lu failed\n", groups[j].name, checks - checks_before,
               failures - failures_before);
    }
    return failures == 0 ? 0 : 1;
}
