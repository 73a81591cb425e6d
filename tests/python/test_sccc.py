"""python/sccc.py over build/libsccc.so, with plain memory and with numpy's arrays. Run by a Python that has numpy."""
import csv
import ctypes
import math
import mmap
import os
import pickle
import re
import shutil
import struct
import subprocess
import sys
import tempfile
import unittest
from array import array
from concurrent.futures import ThreadPoolExecutor
from functools import lru_cache
from itertools import cycle, islice, permutations, product
from unittest import mock
from xml.etree import ElementTree

import numpy

ROOT = os.path.dirname(os.path.dirname(os.path.dirname(os.path.abspath(__file__))))
MODULE = os.path.join(ROOT, "python", "sccc.py")
LIBRARY = os.path.join(ROOT, "build", "libsccc.so")
CAPTURE = os.path.join(ROOT, "docs", "capture.svg")
sys.dont_write_bytecode = True
sys.path.insert(0, os.path.dirname(MODULE))

import sccc  # noqa: E402

NOT_FORMATS = (0, 38, 256, 257, 2**32 + 1, 2**64 - 1, 2**64, 2**64 + 1, 2**128 + 1, -1)
NOT_SMALL = (256, 2**32, 2**64 - 1, 2**64, -1, -(2**64))
NOT_PILOTS = (2, 3, 256, 257, 2**32, 2**32 + 1, 2**64 - 1, 2**64, 2**64 + 1, -1, -(2**64))


def seeded(seed, length):
    bits = bytearray(length)
    for i in range(length):
        seed = (seed * 1103515245 + 12345) % 2147483648
        bits[i] = seed // 65536 % 2
    return bytes(bits)


def digest(elements):
    d = 1
    for x in elements:
        d = (d * 1000003 + x + 1) % 4294967291
    return d


def octets(seed, length):
    return bytes((seed + i * i // 3) % 256 for i in range(length))


def marked(frame):
    """What a frame puts on the channel, by 3.2's polynomial: x^8 + x^7 + x^5 + x^3 + 1, from all ones."""
    sequence = [1] * 8
    while len(sequence) < 255:
        sequence.append(sequence[-1] ^ sequence[-3] ^ sequence[-5] ^ sequence[-8])
    bits = (byte >> place & 1 for byte in frame for place in range(7, -1, -1))
    return bytes(map(int, f"{0x1ACFFC1D:032b}")) + bytes(bit ^ sequence[i % 255] for i, bit in enumerate(bits))


def segment_states(bits, cuts):
    """By their definition: a run from zero over each segment, and the plain run up to it."""
    ends = [sccc.run(0, bits[start:end]).state for start, end in zip([0, *cuts], [*cuts, len(bits)])]
    return tuple(ends), tuple(sccc.run(0, bits[:start]).state for start in [0, *cuts])


def trellis_format(f):
    """Document 004, 4.2: the format that encodes the first K1 bits of formats 28 to 37 alike."""
    return 13 + (f - 28) % 5


def is_bch_codeword(bits):
    """Whether document 004's generator polynomial divides it. 4.3.1 prints its coefficients, that of x^0 first."""
    printed = "1 1010 1010 1100 0011 1010 1011 1000 0100 0001 1000 1001 0100 0101"
    generator, rest = int(printed.replace(" ", "")[::-1], 2), 0
    for bit in bits:
        rest = 2 * rest + bit
        if rest >> 52:
            rest ^= generator
    return rest == 0


PERIOD = 2**18 - 1


@lru_cache(maxsize=None)
def scrambling_sequences():
    """Annex E's x and y, a period of each."""
    x, y = [1] + [0] * 17, [1] * 18
    for i in range(PERIOD - 18):
        x.append(x[i + 7] ^ x[i])
        y.append(y[i + 10] ^ y[i + 7] ^ y[i + 5] ^ y[i])
    return x, y


def quarter_turns(code, place):
    """Annex E's R."""
    x, y = scrambling_sequences()
    first, second = (x[(i + code) % PERIOD] ^ y[i] for i in (place, (place + 131072) % PERIOD))
    return 2 * second + first


def turned(point, turns):
    """By annex E's table."""
    i, q = point
    return ((i, q), (-q, i), (-i, -q), (q, -i))[turns]


def sample_line(i, q):
    """Of a capture."""
    return "{:016X},{:016X}\n".format(*struct.unpack(">QQ", struct.pack(">dd", i, q)))


LOST_LINE = "LOST\n"
#: a label, and the line of its point
OTHER, OTHER_LINE = 47, sample_line(0.6172, 0.0695)
ZERO, NAN = "0000000000000000", "7FF8000000000000"


def filled(length):
    """Memory before a call: no bit, no label below 128 and not 255, so no element that a call would write there."""
    return bytearray(128 + i % 127 for i in range(length))


class Case(unittest.TestCase):
    def assertRefused(self, number, call, *arguments, **keywords):
        with self.assertRaises(sccc.ScccError) as caught:
            call(*arguments, **keywords)
        self.assertEqual(caught.exception.number, number)

    def assertUnchanged(self, number, keeper, call, *arguments, **keywords):
        """Refused, and the state of what keeps one is as it was. The difference would be long, and take minutes to show."""
        before = self.state(keeper)
        self.assertRefused(number, call, *arguments, **keywords)
        self.assertTrue(self.state(keeper) == before, "the state has changed")


class Numbers(Case):
    def test_formats_are_those_of_the_listing(self):
        with open(os.path.join(ROOT, "crates", "formats", "stdout"), newline="") as listing:
            rows = list(csv.DictReader(listing))
        self.assertEqual(len(rows), sccc.FORMATS)
        for row in rows:
            info = sccc.format_info(int(row["format"]))
            self.assertEqual(info[:5], tuple(int(row[name]) for name in ("m", "K", "I", "W", "N")))
            self.assertEqual((info.k1, info.k2, info.soft), info[6:])

    def test_soft_share(self):
        """Formats 1 to 27 send every bit through the trellises; of the others document 004's table 3-1 has K, K1 and K2."""
        for f in range(1, 28):
            info = sccc.format_info(f)
            self.assertEqual((info.k1, info.k2, info.soft), (info.k, 0, info.m))
        k1 = (19198, 21358, 23518, 25918, 28318)
        k = (43342, 45502, 47662, 50062, 52462, 51390, 53550, 55710, 58110, 60510)
        for f in range(28, sccc.FORMATS + 1):
            info, trellis = sccc.format_info(f), sccc.format_info(trellis_format(f))
            m = 7 if f <= 32 else 8
            self.assertEqual((info.m, info.k, info.n), (m, k[f - 28], 8100 * m))
            self.assertEqual((info.k1, info.k2, info.soft), (k1[(f - 28) % 5], 8048 * (m - 4), 4))
            self.assertEqual((info.k1, *info[2:4], info.provisional), (trellis.k, *trellis[2:4], trellis.provisional))

    def test_provisional_formats(self):
        with open(os.path.join(ROOT, "data", "annex-c.csv"), newline="") as table:
            sizes = {int(row["size"]) for row in csv.DictReader(table) if row["source"] == "stand-in"}
        for f in range(1, sccc.FORMATS + 1):
            info = sccc.format_info(f)
            self.assertEqual(info.provisional, info.i in sizes)

    def test_no_format(self):
        for f in NOT_FORMATS:
            self.assertRefused(1, sccc.format_info, f)
            self.assertRefused(1, sccc.interleave, f, 0)
            self.assertRefused(1, sccc.interleave, f, -1)
            self.assertRefused(1, sccc.encode, f, b"")
            self.assertRefused(1, sccc.encode_segments, f, b"", [1, 0], [0] * 16)
            self.assertRefused(1, sccc.SharedEncoder().encode, f, b"")
            self.assertRefused(1, sccc.labels, f, b"")
            self.assertRefused(1, sccc.frame, f, 0, b"")
            self.assertRefused(1, sccc.frame, f, 2, b"")
            self.assertRefused(1, sccc.compare, f, b"", b"")

    def test_step(self):
        for state in range(4):
            for bit in range(2):
                x0, x1 = divmod(state, 2)
                self.assertEqual(sccc.step(state, bit), (bit, bit ^ x1, 2 * x1 + (x0 ^ x1 ^ bit)))
        for state, bit in ((4, 0), (0, 2), (4, 2)):
            self.assertRefused(3, sccc.step, state, bit)
        for n in NOT_SMALL:
            self.assertRefused(3, sccc.step, n, 0)
            self.assertRefused(3, sccc.step, 0, n)

    def test_run_readings(self):
        """Document 01's: three bits from 00, and the closing steps from the other states."""
        for state, bits, written in ((0, "111", "111011"), (1, "11", "1011"), (3, "01", "0111"), (2, "10", "1100")):
            run = sccc.run(state, bytes(map(int, bits)))
            self.assertEqual(run, (bytes(map(int, written)), 0))

    def test_run(self):
        bits = seeded(3, 500)
        for state in range(4):
            expected = bytearray()
            x0, x1 = divmod(state, 2)
            for bit in bits:
                expected += bytes((bit, bit ^ x1))
                x0, x1 = x1, x0 ^ x1 ^ bit
            end = 2 * x0 + x1
            out = filled(1003)
            run = sccc.run(state, bits, out=out)
            self.assertEqual(run, (expected, end))
            self.assertEqual((type(run), run.state), (sccc.Run, end))
            self.assertIs(run.out.obj, out)
            self.assertEqual(out, expected + filled(1003)[1000:])
            self.assertEqual(sccc.run(state, bits), (expected, end))
            self.assertEqual(sccc.run(state, b""), (b"", state))
            first = sccc.run(state, bits[:123])
            second = sccc.run(first.state, bits[123:])
            self.assertEqual((bytes(first.out) + bytes(second.out), second.state), (expected, end))

    def test_run_refusals(self):
        good, bad = bytes(10), bytes(9) + b"\2"
        for number, state, bits, room in (
            (3, 4, good, 20),
            (3, 4, good, 19),
            (3, 4, b"", 0),
            (3, 0, bad, 20),
            (3, 3, bad, 0),
            (5, 3, good, 19),
            (5, 3, good, 10),
            (5, 0, good, 0),
            (5, 0, good[:1], 1),
        ):
            out = filled(room)
            self.assertRefused(number, sccc.run, state, bits, out=out)
            self.assertEqual(out, filled(room))
        for n in NOT_SMALL:
            self.assertRefused(3, sccc.run, n, good)
        self.assertRefused(3, sccc.run, 0, b"\377")
        memory = memoryview(bytearray(30))
        self.assertRaises(ValueError, sccc.run, 0, memory[:10], out=memory[9:])
        self.assertRaises(TypeError, sccc.run, 0, good, out=bytes(20))
        self.assertRaises(TypeError, sccc.run, 0, "01")
        self.assertRaises(TypeError, sccc.run, 1.0, good)
        self.assertEqual(sccc.run(0, memory[:10], out=memory[10:]).state, 0)

    def test_interleave_is_equation_a_1(self):
        rows = {}
        with open(os.path.join(ROOT, "data", "annex-c.csv"), newline="") as table:
            for row in csv.DictReader(table):
                rows.setdefault(int(row["W"]), []).append((int(row["alpha"]), int(row["beta"])))
        for f in range(1, sccc.FORMATS + 1):
            info = sccc.format_info(f)
            for i in [*range(0, info.i, 251), info.w - 1, info.w, info.i - 1]:
                alpha, beta = rows[info.w][i % info.w]
                self.assertEqual(sccc.interleave(f, i), info.w * ((i // info.w + beta) % 120) + alpha)
            for i in (info.i, *NOT_SMALL[1:]):
                self.assertRefused(8, sccc.interleave, f, i)

    def test_a_number_is_an_integer(self):
        self.assertRaises(TypeError, sccc.format_info, 13.0)
        self.assertRaises(TypeError, sccc.step, "1", 0)
        self.assertRaises(TypeError, sccc.section, bytes(sccc.FRAME_LABELS), None)
        for pilots in (None, 1.0, "1"):
            self.assertRaises(TypeError, sccc.frame, 13, pilots, bytes(sccc.FRAME_LABELS))


class Blocks(Case):
    def test_vectors(self):
        with open(os.path.join(ROOT, "crates", "vectors", "stdout"), newline="") as listing:
            rows = [row for row in csv.DictReader(listing) if row["block"] == "s1"]
        self.assertEqual(len(rows), sccc.FORMATS)
        for row in rows:
            f = int(row["format"])
            info = sccc.format_info(f)
            work = bytearray(info.i)
            codeword = sccc.encode(f, seeded(1000 + f, info.k), work=work)
            self.assertEqual(digest(work), int(row["work"]))
            self.assertEqual(digest(codeword), int(row["codeword"]))
            self.assertEqual(digest(sccc.labels(f, codeword)), int(row["labels"]))

    def test_two_stages(self):
        """The codeword of the first K1 bits, and behind it each piece of 8,048 bits with its 52 check bits."""
        for f in range(28, sccc.FORMATS + 1):
            info = sccc.format_info(f)
            block, work, trellis_work = seeded(f, info.k), bytearray(info.i), bytearray(info.i)
            codeword = bytes(sccc.encode(f, block, work=work))
            trellis_part = sccc.encode(trellis_format(f), block[: info.k1], work=trellis_work)
            self.assertEqual((codeword[:32400], work), (trellis_part, trellis_work))
            for j in range(info.m - 4):
                coded = codeword[32400 + 8100 * j :][:8100]
                self.assertEqual(coded[:8048], block[info.k1 + 8048 * j :][:8048])
                self.assertTrue(is_bch_codeword(coded))
            self.assertRefused(2, sccc.encode, f, block[: info.k1])
            self.assertRefused(3, sccc.encode, f, block[:-1] + b"\2")
            self.assertRefused(5, sccc.encode, f, block, out=bytearray(info.n - 1))

    def test_encode_writes_no_more_than_it_says(self):
        block = seeded(7, 5758)
        codeword, outer = sccc.encode(1, block), bytearray(8640)
        sccc.encode(1, block, work=outer)
        work, out = filled(8645), filled(16205)
        result = sccc.encode(1, block, work=work, out=out)
        self.assertEqual(result, codeword)
        self.assertEqual(work, outer + filled(8645)[8640:])
        self.assertEqual(out, bytes(codeword) + filled(16205)[16200:])
        self.assertIs(result.obj, out)

    def test_encode_refusals(self):
        good, bad = bytes(5758), bytes(5757) + b"\2"
        for number, block, work, out in (
            (2, b"", 0, 0),
            (2, bad[1:], 0, 0),
            (2, bad + b"\0", 0, 0),
            (2, good[1:], 8640, 16200),
            (2, good + b"\0", 8640, 16200),
            (3, bad, 0, 0),
            (3, bad, 8640, 16200),
            (4, good, 0, 0),
            (4, good, 8639, 16200),
            (5, good, 8640, 0),
            (5, good, 8640, 16199),
        ):
            w, o = filled(work), filled(out)
            self.assertRefused(number, sccc.encode, 1, block, work=w, out=o)
            self.assertEqual((w, o), (filled(work), filled(out)))
        self.assertRefused(2, sccc.encode, 1, b"")
        self.assertRefused(4, sccc.encode, 1, good, work=bytearray(8639))
        self.assertRefused(5, sccc.encode, 1, good, out=bytearray(16199))

    def test_segments(self):
        for f in (1, 13, 27, 28, 37):
            info = sccc.format_info(f)
            block, work = seeded(f, info.k), bytearray(info.i)
            soft = block[: info.k1]
            codeword = sccc.encode(f, block, work=work)
            read = bytes(work[sccc.interleave(f, i)] for i in range(info.i))
            for outer, inner in (
                ((), ()),
                ([info.k1 * j // 16 for j in range(1, 16)], [info.i * j // 12 for j in range(1, 12)]),
                ([0] * 15, [info.i] * 15),
                ([1, 1, info.k1 // 2, info.k1], range(15)),
            ):
                mine = bytearray(info.i)
                found = sccc.encode_segments(f, block, outer, inner, work=mine)
                self.assertEqual(found, (codeword, segment_states(soft, outer), segment_states(read, inner)))
                self.assertEqual(mine, work)
            self.assertRefused(13, sccc.encode_segments, f, block, [info.k1 + 1])
            self.assertRefused(13, sccc.encode_segments, f, block, [], [info.i + 1])

    def test_segments_of_a_one(self):
        """A one and then zeros: the powers of A, by equation 6-7."""
        found = sccc.encode_segments(1, b"\1" + bytes(5757), [1, 2, 3, 4, 5])
        self.assertEqual((type(found), type(found.outer)), (sccc.Segments, sccc.SegmentStates))
        self.assertEqual(found.outer, ((1, 0, 0, 0, 0, 0), (0, 1, 3, 2, 1, 3)))
        self.assertEqual((len(found.inner.ended), found.inner.started), (1, (0,)))

    def test_segments_write_no_more_than_encode(self):
        block = seeded(7, 5758)
        outer = bytearray(8640)
        codeword = sccc.encode(1, block, work=outer)
        work, out = filled(8645), filled(16205)
        found = sccc.encode_segments(1, block, [100], [100, 8640], work=work, out=out)
        self.assertEqual((found.codeword, len(found.outer.ended), len(found.inner.ended)), (codeword, 2, 3))
        self.assertEqual(work, outer + filled(8645)[8640:])
        self.assertEqual(out, bytes(codeword) + filled(16205)[16200:])
        self.assertIs(found.codeword.obj, out)

    def test_segments_refusals(self):
        good, bad = bytes(5758), bytes(5757) + b"\2"
        many, falls = [0] * 16, [2, 1]
        for number, block, work, out, outer, inner in (
            (2, bad[1:], 0, 0, many, falls),
            (3, bad, 0, 0, many, falls),
            (4, good, 8639, 0, many, falls),
            (5, good, 8640, 16199, many, falls),
            (5, good, 8640, 16199, (), [8641]),
            (12, good, 8640, 16200, many, falls),
            (12, good, 8640, 16200, falls, many),
            (12, good, 8640, 16200, (), range(16, 0, -1)),
            (12, good, 8640, 16200, [0] * 271, ()),
            (13, good, 8640, 16200, falls, ()),
            (13, good, 8640, 16200, (), falls),
            (13, good, 8640, 16200, [5759], ()),
            (13, good, 8640, 16200, (), [5759, 8641]),
            (13, good, 8640, 16200, (), [65535]),
        ):
            w, o = filled(work), filled(out)
            self.assertRefused(number, sccc.encode_segments, 1, block, outer, inner, work=w, out=o)
            self.assertEqual((w, o), (filled(work), filled(out)))
        for n in (-1, 65536, 65537, *NOT_SMALL[1:]):
            self.assertRefused(13, sccc.encode_segments, 1, good, [n])
            self.assertRefused(13, sccc.encode_segments, 1, good, [], [1, n])

    def test_cuts_are_integers_in_any_list(self):
        block = seeded(7, 5758)
        found = sccc.encode_segments(1, block, [1, 2], [256, 8640])
        for outer, inner in (
            ((1, 2), array("H", [256, 8640])),
            (iter([1, 2]), range(256, 8641, 8384)),
            (b"\1\2", numpy.array([256, 8640], dtype=numpy.uint16)),
            (numpy.array([1, 2]), numpy.array([[256, 0], [8640, 0]])[:, 0]),
        ):
            self.assertEqual(sccc.encode_segments(1, block, outer, inner), found)
        for cuts in ([1.0], ["1"], "1", [None], None, 1, numpy.array([1.0])):
            self.assertRaises(TypeError, sccc.encode_segments, 1, block, cuts)
            self.assertRaises(TypeError, sccc.encode_segments, 1, block, [], cuts)

    def test_labels(self):
        for f in range(1, sccc.FORMATS + 1):
            info = sccc.format_info(f)
            codeword = bytes(sccc.SYMBOLS) + b"\1" * (info.n - sccc.SYMBOLS)
            out = filled(sccc.SYMBOLS + 3)
            self.assertEqual(sccc.labels(f, codeword, out=out), bytes([2 ** (info.m - 1) - 1]) * sccc.SYMBOLS)
            self.assertEqual(out[sccc.SYMBOLS :], filled(len(out))[sccc.SYMBOLS :])
            out = filled(sccc.SYMBOLS)
            self.assertEqual(sccc.labels(f, b"\1" * info.n, out=out), bytes([2**info.m - 1]) * sccc.SYMBOLS)
            for number, given, room in (
                (2, codeword[1:], 0),
                (2, codeword + b"\0", 0),
                (3, codeword[1:] + b"\2", 0),
                (5, codeword, 8099),
                (5, codeword, 0),
            ):
                out = filled(room)
                self.assertRefused(number, sccc.labels, f, given, out=out)
                self.assertEqual(out, filled(room))

    def test_threads(self):
        def codeword(f):
            return bytes(sccc.encode(f, seeded(f, sccc.format_info(f).k)))

        formats = range(1, sccc.FORMATS + 1)
        with ThreadPoolExecutor(4) as pool:
            self.assertEqual(list(pool.map(codeword, formats)), list(map(codeword, formats)))


class Channels(Case):
    block = seeded(7, 5758)

    def state(self, encoder):
        return encoder.held, bytes(encoder.memory)

    def entries(self, f):
        return array("H", [sccc.interleave(f, i) for i in range(sccc.format_info(f).i)])

    def test_two_channels(self):
        """One goes up the formats and the other down: each gets what encode gives."""
        encoder = sccc.SharedEncoder()
        self.assertEqual((encoder.held, len(encoder.memory)), (0, sccc.MAX_I))
        for a in range(1, sccc.FORMATS + 1):
            for f in (a, sccc.FORMATS + 1 - a):
                info = sccc.format_info(f)
                block, work, mine = seeded(f, info.k), bytearray(info.i), bytearray(info.i)
                codeword = sccc.encode(f, block, work=work)
                self.assertEqual(encoder.encode(f, block, work=mine), codeword)
                self.assertEqual(mine, work)
                self.assertEqual(encoder.held, info.i)
                self.assertUnchanged(2, encoder, encoder.encode, 27, b"")

    def test_entries_are_interleaved_positions(self):
        memory = array("H", [65535]) * sccc.MAX_I
        encoder = sccc.SharedEncoder(memory)
        self.assertIs(encoder.memory.obj, memory)
        for f in (1, 13, 27, 28, 37):
            info, before = sccc.format_info(f), memory[:]
            encoder.encode(f, bytes(info.k))
            self.assertEqual(memory, self.entries(f) + before[info.i :])
            self.assertEqual(encoder.held, info.i)

    def test_encode_writes_no_more_than_it_says(self):
        outer = bytearray(8640)
        codeword = sccc.encode(1, self.block, work=outer)
        encoder = sccc.SharedEncoder(array("H", [65535]) * 8643)
        for _ in ("built", "held"):
            work, out = filled(8645), filled(16205)
            result = encoder.encode(1, self.block, work=work, out=out)
            self.assertEqual(result, codeword)
            self.assertIs(result.obj, out)
            self.assertEqual(work, outer + filled(8645)[8640:])
            self.assertEqual(out, bytes(codeword) + filled(16205)[16200:])
            self.assertEqual(encoder.memory[8640:].tolist(), [65535] * 3)

    def test_refusals(self):
        """The memory is wrong throughout. No call leaves a mark over memory that is too short, so it is set here."""
        good, bad = bytes(5758), bytes(5757) + b"\2"
        for number, block, work, out, entries, held in (
            (2, bad[1:], 0, 0, 8639, 8640),
            (2, bad + b"\0", 0, 0, 8639, 8640),
            (3, bad, 0, 0, 8639, 8640),
            (4, good, 8639, 0, 8639, 8640),
            (5, good, 8640, 16199, 8639, 8640),
            (15, good, 8640, 16200, 8639, 8640),
            (3, good, 8640, 16200, 8640, 8640),
            (2, good[1:], 8640, 16200, 8640, 0),
            (5, good, 8640, 16199, 8640, 10440),
            (15, good, 8640, 16200, 8639, 0),
            (15, good, 8640, 16200, 0, 0),
        ):
            encoder = sccc.SharedEncoder(array("H", [1]) * entries)
            encoder._held = held
            w, o = filled(work), filled(out)
            self.assertUnchanged(number, encoder, encoder.encode, 1, block, work=w, out=o)
            self.assertEqual((w, o), (filled(work), filled(out)))

    def test_memory_for_one_size(self):
        encoder = sccc.SharedEncoder(array("H", bytes(2 * 8640)))
        for _ in range(2):
            self.assertEqual(encoder.encode(1, self.block), sccc.encode(1, self.block))
            self.assertUnchanged(15, encoder, encoder.encode, 2, bytes(6958))

    def test_spoilt_entries(self):
        """An entry that is read has to be right; a call of another size between mends it."""
        encoder, right, codeword = sccc.SharedEncoder(), self.entries(1), sccc.encode(1, self.block)
        for place in (0, 71, 72, 4320, 8568, 8639):
            for value in (right[place] ^ 1, right[place - 1], 65535):
                self.assertEqual(encoder.encode(1, self.block), codeword)
                encoder.memory[place] = value
                self.assertUnchanged(3, encoder, encoder.encode, 1, self.block)
                encoder.encode(2, bytes(6958))
        self.assertEqual(encoder.encode(1, self.block), codeword)
        encoder.memory[8640] ^= 1
        self.assertEqual(encoder.encode(1, self.block), codeword)

    def test_formats_of_one_size(self):
        """What one has built the other finds: nothing is written."""
        encoder = sccc.SharedEncoder()
        encoder.encode(13, bytes(19198))
        before = self.state(encoder)
        encoder.encode(28, bytes(43342))
        self.assertTrue(self.state(encoder) == before)
        encoder.memory[28799] ^= 1
        self.assertUnchanged(3, encoder, encoder.encode, 28, bytes(43342))

    def test_held_is_read_only(self):
        self.assertRaises(AttributeError, setattr, sccc.SharedEncoder(), "held", 8640)

    def test_other_memory(self):
        entries = array("H", bytes(2 * 8640))
        for memory in (
            "0" * 8640,
            [0] * 8640,
            bytearray(2 * 8640),
            bytes(2 * 8640),
            memoryview(bytes(entries)).cast("H"),
            memoryview(entries)[::2],
            array("h", bytes(2 * 8640)),
            array("I", bytes(4 * 8640)),
            (ctypes.c_uint16.__ctype_be__ * 8640)(),
        ):
            self.assertRaises(TypeError, sccc.SharedEncoder, memory)
        encoder = sccc.SharedEncoder(entries)
        for call in (
            lambda: encoder.encode(1, "0" * 5758),
            lambda: encoder.encode(1, self.block, work=bytes(8640)),
            lambda: encoder.encode(1, self.block, out=array("H", bytes(32400))),
            lambda: encoder.encode(1.0, self.block),
        ):
            self.assertRaises(TypeError, call)
        self.assertEqual((encoder.held, any(entries)), (0, False))

    def test_overlapping_memory(self):
        memory = memoryview(bytearray(2 * 8640 + 40000))
        encoder = sccc.SharedEncoder(memory[: 2 * 8640].cast("H"))
        last, behind = memory[2 * 8640 - 1 :], memory[2 * 8640 :]
        for block, work, out in (
            (last[:5758], bytearray(8640), bytearray(16200)),
            (self.block, last, bytearray(16200)),
            (self.block, bytearray(8640), last),
            (self.block, behind[:8640], behind[8639:]),
        ):
            self.assertRaises(ValueError, encoder.encode, 1, block, work=work, out=out)
        self.assertEqual((encoder.held, any(memory)), (0, False))
        encoder.encode(1, self.block, work=behind[:8640], out=behind[8640:])
        self.assertEqual(encoder.memory, self.entries(1))

    def test_entries_are_aligned(self):
        encoder = sccc.SharedEncoder(memoryview(bytearray(2 * 8640 + 1))[1:].cast("H"))
        self.assertRaises(ValueError, encoder.encode, 1, self.block)
        self.assertEqual((encoder.held, any(encoder.memory)), (0, False))


class Frames(Case):
    #: the pilot choices, and the slots of a frame with each
    lengths = ((0, 129920), (1, 133760))

    def body(self, pilots, labels):
        """What follows the header: the labels, and with pilots sixteen 258s behind every 540 of them."""
        starts = range(0, len(labels), 540)
        return sum(([*labels[start : start + 540], *[258] * 16 * pilots] for start in starts), [])

    def test_frame(self):
        labels = bytes(i * i // 7 % 16 for i in range(sccc.FRAME_LABELS))
        for pilots, length in self.lengths:
            slots = sccc.frame(13, pilots, labels)
            self.assertEqual((slots.format, len(slots)), ("H", length))
            self.assertEqual(slots[320:], array("H", self.body(pilots, labels)))
            self.assertEqual(slots[:16].tolist(), [256 + int(bit) for bit in f"{0xFB44:016b}"])
            self.assertEqual(set(slots[:320].tolist()), {256, 257})
            for room in (length, length + 3, 140000):
                out = array("H", [999]) * room
                given = sccc.frame(13, pilots, labels, out=out)
                self.assertIs(given.obj, out)
                self.assertEqual(given, slots)
                self.assertEqual(out[length:], array("H", [999]) * (room - length))
            self.assertEqual(sccc.frame(13, bool(pilots), labels), slots)

    def test_pilots(self):
        """Where they are. Taken out, they leave the frame without pilots, with the descriptor's bits, 256 and 257, turned over."""
        due = bytes(s >= 320 and (s - 320) % 556 >= 540 for s in range(sccc.PILOT_FRAME_SLOTS))
        places = [320 + i // 540 * 556 + i % 540 for i in range(sccc.FRAME_LABELS)]
        for f in range(1, sccc.FORMATS + 1):
            m = sccc.format_info(f).m
            labels = bytes(i * i // 7 % 2**m for i in range(sccc.FRAME_LABELS))
            bare, slots = (sccc.frame(f, pilots, labels).tolist() for pilots in (0, 1))
            self.assertEqual(bytes(slot == sccc.PILOT for slot in slots), due)
            self.assertNotIn(sccc.PILOT, bare)
            self.assertEqual(bytes(slots[place] for place in places), labels)
            left = array("H", [slot for slot in slots if slot != sccc.PILOT])
            bare[256:320] = [513 - slot for slot in bare[256:320]]
            self.assertEqual(left, array("H", bare))

    def test_frame_refusals(self):
        good = bytes(sccc.FRAME_LABELS)
        bad = good[1:] + b"\20"
        cases = [
            (5, 1, good, sccc.FRAME_SLOTS),
            (5, 1, good, sccc.FRAME_SLOTS + 1),
        ]
        for pilots, length in self.lengths:
            cases += [
                (2, pilots, b"", 0),
                (2, pilots, bad[1:], 0),
                (2, pilots, bad + b"\0", length),
                (3, pilots, bad, 0),
                (3, pilots, bad, length),
                (5, pilots, good, 0),
                (5, pilots, good, length - 1),
            ]
            self.assertRefused(3, sccc.frame, 13, pilots, bad)
        for pilots in NOT_PILOTS:
            cases += [
                (14, pilots, b"", 0),
                (14, pilots, bad[1:], 0),
                (14, pilots, bad, 0),
                (14, pilots, good, 0),
                (14, pilots, good, sccc.FRAME_SLOTS),
                (14, pilots, good, sccc.PILOT_FRAME_SLOTS),
            ]
            self.assertRefused(14, sccc.frame, 13, pilots, good)
            self.assertRefused(1, sccc.frame, 0, pilots, bad[1:])
        for number, pilots, labels, room in cases:
            out = array("H", [999]) * room
            self.assertRefused(number, sccc.frame, 13, pilots, labels, out=out)
            self.assertEqual(out, array("H", [999]) * room)

    def test_frames_of_seven_and_eight_bits(self):
        """128 is no label of seven bits; of eight bits every byte is one."""
        labels = bytes(i % 256 for i in range(sccc.FRAME_LABELS))
        for pilots, _ in self.lengths:
            slots = sccc.frame(37, pilots, labels)
            self.assertEqual(slots[320:], array("H", self.body(pilots, labels)))
            self.assertEqual(set(slots[:320].tolist()), {256, 257})
            self.assertEqual(sccc.frame(28, pilots, b"\177" * sccc.FRAME_LABELS)[320], 127)
            self.assertEqual(sccc.frame(37, pilots, b"\377" * sccc.FRAME_LABELS)[320], 255)
            for label in (128, 255):
                self.assertRefused(3, sccc.frame, 28, pilots, bytes(sccc.FRAME_LABELS - 1) + bytes([label]))

    def test_descriptors_are_the_papers(self):
        """Document 004, 5.3.3: seven rows, each bit twice, scrambled. The row 0000FFFF is garbled in our copy."""
        rows = (0x90AC2DDD, 0x55555555, 0x33333333, 0x0F0F0F0F, 0x00FF00FF, 0x0000FFFF, 0xFFFFFFFF)
        for f in range(1, sccc.FORMATS + 1):
            for pilots in (0, 1):
                coded = 0
                for bit, row in zip(f"{f:06b}{pilots}", rows):
                    coded ^= row * int(bit)
                twice = int("".join(2 * bit for bit in f"{coded:032b}"), 2)
                descriptor = [256 + int(bit) for bit in f"{twice ^ 0x719D83C953422DFA:064b}"]
                self.assertEqual(sccc.frame(f, pilots, bytes(sccc.FRAME_LABELS))[256:320].tolist(), descriptor)

    def test_section_is_the_callers_own_memory(self):
        labels = bytearray(sccc.FRAME_LABELS)
        for place in range(sccc.SECTIONS):
            part = sccc.section(labels, place)
            self.assertEqual(len(part), sccc.SYMBOLS)
            part[0] = part[-1] = place + 1
        for place in range(sccc.SECTIONS):
            start = place * sccc.SYMBOLS
            self.assertEqual((labels[start], labels[start + sccc.SYMBOLS - 1]), (place + 1, place + 1))
        self.assertTrue(sccc.section(bytes(labels), 15).readonly)

    def test_section_refusals(self):
        labels = bytes(sccc.FRAME_LABELS)
        for place in (16, *NOT_SMALL):
            self.assertRefused(8, sccc.section, labels, place)
            self.assertRefused(2, sccc.section, labels[1:], place)
        self.assertRefused(2, sccc.section, labels + b"\0", 0)
        self.assertRefused(2, sccc.section, b"", 16)

    def test_compare(self):
        a = bytearray(sccc.SYMBOLS)
        b = bytearray(sccc.SYMBOLS)
        self.assertEqual(sccc.compare(13, a, b), (True, 0, 0))
        self.assertEqual(sccc.compare(13, a, a), (True, 0, 0))
        b[0] = 15
        self.assertEqual(sccc.compare(13, a, b), (False, 4, 0))
        b[0], a[8099] = 0, 9
        self.assertEqual(sccc.compare(13, a, b), (False, 2, 8099))
        self.assertEqual(sccc.compare(13, bytes(8100), b"\1" * 8100), (False, 8100, 0))
        self.assertEqual(sccc.compare(13, b"\5" * 8100, b"\12" * 8100), (False, 4 * 8100, 0))
        self.assertEqual(sccc.compare(27, b"\77" * 8100, bytes(8100)), (False, 6 * 8100, 0))
        self.assertEqual(sccc.compare(28, b"\177" * 8100, bytes(8100)), (False, 7 * 8100, 0))
        self.assertEqual(sccc.compare(37, b"\377" * 8100, bytes(8100)), (False, 64800, 0))
        self.assertRefused(3, sccc.compare, 28, b"\200" * 8100, bytes(8100))
        self.assertRefused(3, sccc.compare, 28, bytes(8100), b"\377" * 8100)
        b[8099] = 16
        self.assertRefused(3, sccc.compare, 13, a, b)
        self.assertRefused(3, sccc.compare, 13, b, a)
        self.assertRefused(2, sccc.compare, 13, a, b[1:])
        self.assertRefused(2, sccc.compare, 13, a + b"\0", b)
        self.assertRefused(2, sccc.compare, 13, b"", b"")


class Slicers(Case):
    frame = octets(7, 1115)

    def state(self, slicer):
        return slicer.format, slicer.frame_length, slicer.waiting, bytes(slicer._memory)

    def test_the_sequence_is_the_printed_one(self):
        self.assertEqual(marked(bytes(5))[32:], bytes(map(int, "1111111101001000000011101100000010011010")))

    def test_blocks_are_the_frames_stream(self):
        for f in range(1, sccc.FORMATS + 1):
            k = sccc.format_info(f).k
            slicer = sccc.Slicer(f)
            self.assertEqual(self.state(slicer)[:3], (f, 0, 0))
            frames = [octets(f + n, 1115) for n in range(7)]
            handed = []
            for frame in frames:
                slicer.push(frame)
                handed += islice(slicer, 9)
                self.assertEqual(slicer.frame_length, 1115)
                self.assertLess(slicer.waiting, k)
            self.assertEqual({len(block) for block in handed}, {k})
            self.assertEqual(b"".join([*handed, slicer._memory[: slicer.waiting]]), b"".join(map(marked, frames)))

    def test_block_writes_no_more_than_it_says(self):
        slicer = sccc.Slicer(1)
        slicer.push(self.frame)
        bits, memory = marked(self.frame), bytes(slicer._memory)
        out = filled(5763)
        result = slicer.block(out=out)
        self.assertEqual(result, bits[:5758])
        self.assertIs(result.obj, out)
        self.assertEqual(out[5758:], filled(5763)[5758:])
        self.assertEqual(slicer.waiting, len(bits) - 5758)
        self.assertEqual(slicer._memory, bits[5758:] + memory[len(bits) - 5758 :])
        before = self.state(slicer)
        out = filled(5763)
        self.assertIsNone(slicer.block(out=out))
        self.assertIsNone(slicer.block())
        self.assertEqual(list(slicer), [])
        self.assertEqual((out, self.state(slicer)), (filled(5763), before))

    def test_refusals(self):
        slicer = sccc.Slicer(1)
        for length in (0, 222, 65537):
            self.assertUnchanged(9, slicer, slicer.push, bytes(length))
        self.assertUnchanged(5, slicer, slicer.block, out=bytearray(5757))
        self.assertUnchanged(5, slicer, slicer.block, out=bytearray())
        slicer.push(self.frame)
        self.assertUnchanged(9, slicer, slicer.push, bytes(222))
        for length in (223, 1114, 1116, 65536):
            self.assertUnchanged(10, slicer, slicer.push, bytes(length))
        self.assertUnchanged(11, slicer, slicer.push, self.frame)
        self.assertUnchanged(5, slicer, slicer.block, out=bytearray(5757))

    def test_no_format(self):
        for f in NOT_FORMATS:
            slicer = sccc.Slicer(f)
            self.assertUnchanged(1, slicer, slicer.push, b"")
            self.assertUnchanged(1, slicer, slicer.push, self.frame)
            self.assertUnchanged(1, slicer, slicer.block)
            self.assertUnchanged(1, slicer, slicer.block, out=bytearray(sccc.WAITING_MEMORY))
            self.assertUnchanged(1, slicer, list, slicer)
            for call in (slicer.change, slicer.look):
                self.assertUnchanged(1, slicer, call, 13)
                self.assertUnchanged(1, slicer, call, f)
            slicer = sccc.Slicer(13)
            for call in (slicer.change, slicer.look):
                self.assertUnchanged(1, slicer, call, f)
                self.assertRaises(TypeError, call, 13.0)
        self.assertRaises(TypeError, sccc.Slicer, 13.0)

    def test_change_keeps_what_waits(self):
        slicer = sccc.Slicer(27)
        frames, handed = [], []
        for f in (*range(sccc.FORMATS, 0, -1), *range(1, sccc.FORMATS + 1)):
            k = sccc.format_info(f).k
            self.assertIsNone(slicer.change(f))
            while slicer.look(f).blocks == 0:
                frames.append(octets(f, 1115))
                slicer.push(frames[-1])
            ahead, before = slicer.look(f), self.state(slicer)
            self.assertEqual((type(ahead), before[0]), (sccc.Look, f))
            self.assertEqual(ahead, (slicer.waiting // k, slicer.waiting % k))
            self.assertEqual(self.state(slicer), before)
            self.assertUnchanged(11, slicer, slicer.push, self.frame)
            taken = list(islice(slicer, 99))
            self.assertEqual((len(taken), slicer.waiting, {len(block) for block in taken}), (*ahead, {k}))
            handed += taken
        self.assertEqual(b"".join([*handed, slicer._memory[: slicer.waiting]]), b"".join(map(marked, frames)))

    def test_look_by_hand(self):
        slicer = sccc.Slicer(27)
        slicer.push(bytes(65536))
        self.assertEqual(slicer.look(1), (91, 524320 - 91 * 5758))
        self.assertEqual(slicer.look(27), (12, 184))
        self.assertEqual(slicer.look(37), (8, 40240))
        self.assertEqual((slicer.look(27).blocks, slicer.look(27).bits), (12, 184))

    def test_lengths_of_frames(self):
        for length in (sccc.LEAST_TRANSFER_FRAME, sccc.MOST_TRANSFER_FRAME):
            slicer = sccc.Slicer(27)
            slicer.push(bytes(length))
            self.assertEqual((slicer.frame_length, slicer.waiting), (length, 32 + 8 * length))

    def test_the_state_is_read_only(self):
        slicer = sccc.Slicer(1)
        for name in ("format", "frame_length", "waiting"):
            self.assertRaises(AttributeError, setattr, slicer, name, 0)

    def test_memory(self):
        for frame in (
            bytearray(self.frame),
            memoryview(b"\0" + self.frame)[1:],
            array("b", self.frame),
            numpy.frombuffer(self.frame, dtype=numpy.uint8),
        ):
            slicer = sccc.Slicer(1)
            slicer.push(frame)
            self.assertEqual(slicer.block(), marked(self.frame)[:5758])
        slicer = sccc.Slicer(1)
        slicer.push(self.frame)
        before = self.state(slicer)
        for call in (
            lambda: slicer.push("0" * 1115),
            lambda: slicer.push(array("H", bytes(2230))),
            lambda: slicer.push(memoryview(bytes(2230))[::2]),
            lambda: slicer.block(out=bytes(5758)),
            lambda: slicer.block(out=array("H", bytes(5758))),
        ):
            self.assertRaises(TypeError, call)
        self.assertRaises(ValueError, slicer.push, slicer._memory[:1115])
        self.assertRaises(ValueError, slicer.block, out=slicer._memory[599999:])
        self.assertEqual(self.state(slicer), before)
        out = numpy.zeros(5758, dtype=numpy.uint8)
        self.assertTrue(numpy.shares_memory(numpy.asarray(slicer.block(out=out)), out))


class ThreeFrames(Case):
    """Document 02, L13, of format 32 from many transfer frames and of format 7 from one."""

    cases = ((32, 463, 223), (7, 1, 65536))

    def transfer_frames(self, seed, count, length):
        return numpy.random.RandomState(seed).randint(0, 256, (count, length)).astype(numpy.uint8)

    def frame(self, f, pilots, transfer_frames):
        """Of the first sixteen blocks."""
        slicer, blocks, labels = sccc.Slicer(f), [], bytearray(sccc.FRAME_LABELS)
        for transfer_frame in transfer_frames:
            slicer.push(transfer_frame)
            blocks += slicer
        for place in range(sccc.SECTIONS):
            sccc.labels(f, sccc.encode(f, blocks[place]), out=sccc.section(labels, place))
        return numpy.asarray(sccc.frame(f, pilots, labels))

    def test_three_frames_make_a_frame(self):
        for (f, count, length), pilots in product(self.cases, (0, 1)):
            lists = [self.transfer_frames(seed, count, length) for seed in range(3)]
            a, b, c = (self.frame(f, pilots, transfer_frames) for transfer_frames in lists)
            built = self.frame(f, pilots, lists[0] ^ lists[1] ^ lists[2])
            self.assertTrue((a ^ b ^ c == built).all())

    def test_two_frames_make_none(self):
        """Header and pilots are gone."""
        for (f, count, length), pilots in product(self.cases, (0, 1)):
            lists = [self.transfer_frames(seed, count, length) for seed in range(2)]
            a, b = (self.frame(f, pilots, transfer_frames) for transfer_frames in lists)
            self.assertFalse((a ^ b)[:320].any())
            self.assertFalse((a ^ b)[a == sccc.PILOT].any())
            self.assertTrue((a ^ b).any())


class JobLines(Case):
    def line(self, *fields):
        return ",".join(map(str, fields)).encode() + b"\n"

    def numbers(self):
        """Formats and patterns."""
        return product(range(1, sccc.FORMATS + 1), range(3))

    def test_job(self):
        for f, pattern in self.numbers():
            self.assertEqual(sccc.job(self.line(f, pattern)), (f, pattern, 0, None))
            for pilots in (0, 1):
                self.assertEqual(sccc.job(self.line(f, pattern, pilots, "-")), (f, pattern, pilots, None))
                for code in (0, 1, 9, 10, 99999, 100000, 262141, sccc.LAST_CODE):
                    self.assertEqual(sccc.job(self.line(f, pattern, pilots, code)), (f, pattern, pilots, code))
        job = sccc.job(b"13,2,1,262142\n")
        self.assertEqual((type(job), job.format, job.pattern, job.pilots, job.code), (sccc.Job, 13, 2, 1, 262142))
        self.assertIsNone(sccc.job(b"13,2\n").code)

    def test_there_and_back(self):
        """Byte for byte. A line that has the form already does not move, nor goes one back that says more."""
        for f, pattern in self.numbers():
            old, longer = self.line(f, pattern), self.line(f, pattern, 0, "-")
            self.assertEqual(sccc.lengthen(old), longer)
            self.assertEqual(sccc.shorten(longer), old)
            self.assertRefused(6, sccc.lengthen, longer)
            self.assertRefused(6, sccc.shorten, old)
            for pilots, code in ((0, 0), (0, 262142), (1, "-"), (1, 0)):
                self.assertRefused(6, sccc.lengthen, self.line(f, pattern, pilots, code))
                self.assertRefused(17, sccc.shorten, self.line(f, pattern, pilots, code))
        self.assertEqual((type(sccc.lengthen(b"13,0\n")), type(sccc.shorten(b"13,0,0,-\n"))), (bytes, bytes))

    def test_refused_numbers(self):
        for number, place, numbers in (
            (1, 0, (0, 38, 99, 100, 256, 257, 999)),
            (7, 1, (3, 4, 10, 255, 256, 999)),
            (14, 2, (2, 3, 10, 256, 257, 999)),
            (16, 3, (262143, 262144, 300000, 999999)),
        ):
            for n in numbers:
                fields = [13, 0, 0, "-"]
                fields[place] = n
                self.assertRefused(number, sccc.job, self.line(*fields))
                self.assertRefused(number, sccc.shorten, self.line(*fields))
                if place < 2:
                    self.assertRefused(number, sccc.job, self.line(*fields[:2]))
                    self.assertRefused(number, sccc.lengthen, self.line(*fields[:2]))

    def test_the_first_check_that_fails(self):
        """What comes after it fails too."""
        for number, line in (
            (6, b"038,3,2,262143\n"),
            (1, b"38,3,2,262143\n"),
            (1, b"999,999,999,999999\n"),
            (7, b"37,3,2,262143\n"),
            (14, b"37,2,2,262143\n"),
            (16, b"37,2,1,262143\n"),
        ):
            self.assertRefused(number, sccc.job, line)
            self.assertRefused(number, sccc.shorten, line)
            self.assertRefused(6, sccc.lengthen, line)
        self.assertRefused(17, sccc.shorten, b"37,2,1,262142\n")
        for number, line in ((6, b"038,3\n"), (1, b"38,3\n"), (1, b"0,9\n"), (1, b"999,999\n"), (7, b"37,3\n")):
            self.assertRefused(number, sccc.job, line)
            self.assertRefused(number, sccc.lengthen, line)
            self.assertRefused(6, sccc.shorten, line)

    def assertNoLine(self, text):
        for call in (sccc.job, sccc.lengthen, sccc.shorten):
            self.assertRefused(6, call, text)

    def test_no_lines(self):
        for text in (
            *("", "\n", "13\n", "13,\n", ",0\n", "13,0\n\n", "13,0\r\n", " 13,0\n", "13, 0\n", "+13,0\n", "13,-\n", "13;0\n"),
            *("07,0\n", "00,0\n", "13,00\n", "1000,0\n", "13,1000\n", "13,0,0\n", "13,0,-\n", "13,0,,-\n", "13,0,0,\n", ",,,\n"),
            *("13,0,0,-\n\n", "13,0,0,-\r\n", "13,0,0,-,\n", "13,0,0,-,0\n", "13,0,0,0,0\n", "13,0,0,--\n", "13,0,0,-0\n"),
            *("13,0,0,0-\n", "13,0,0, -\n", "13,0,-,-\n", "13,-,0,-\n", "-,0,0,-\n", "13,0,00,-\n", "13,0,0,00\n", "13,0,0,01\n"),
            *("013,0,0,-\n", "13,0,1000,-\n", "13,0,0,1000000\n", "999,999,999,9999999\n", "13,0\n13,0\n", "13,0\n" * 10000),
        ):
            self.assertNoLine(text.encode())
        for line in (b"13,0\n", b"13,0,0,-\n", b"37,2,1,262142\n"):
            for length in range(len(line)):
                self.assertNoLine(memoryview(line)[:length])
            for byte in range(256):
                self.assertNoLine(line + bytes([byte]))
                if byte not in b"0123456789,-\n":
                    for place in range(len(line)):
                        self.assertNoLine(line[:place] + bytes([byte]) + line[place + 1 :])

    def test_longest_lines(self):
        self.assertEqual((len(b"999,999\n"), len(b"999,999,999,999999\n")), (sccc.LONGEST_OLD_LINE, sccc.LONGEST_LINE))

    def test_memory(self):
        for line in (
            bytearray(b"13,2\n"),
            memoryview(b"+13,2\n\n")[1:-1],
            array("b", b"13,2\n"),
            numpy.frombuffer(b"13,2\n", dtype=numpy.uint8),
        ):
            before = bytes(line)
            self.assertEqual(sccc.job(line), (13, 2, 0, None))
            self.assertEqual(sccc.lengthen(line), b"13,2,0,-\n")
            self.assertEqual(bytes(line), before)
        self.assertEqual(sccc.shorten(bytearray(b"13,2,0,-\n")), b"13,2\n")
        for call in (sccc.job, sccc.lengthen, sccc.shorten):
            for line in ("13,2\n", [13, 2], None, 13, array("H", [13, 2]), memoryview(b"1133,,22\n\n")[::2]):
                self.assertRaises(TypeError, call, line)


class Points(Case):
    formats = range(33, sccc.FORMATS + 1)
    #: points of document 004's table 5-2; those of labels 31, 63, 95 and 127 are garbled in our copy
    table = {
        **{0: (-0.9412, -0.9412), 1: (-0.477, -1.2426), 15: (0.0627, 0.0627), 31: (0.2571, 0.0689), 37: (-0.0695, -0.6172)},
        **{47: (0.6172, 0.0695), 63: (0.4382, 0.0694), 64: (-1.0344, -0.8376), 95: (0.1882, 0.1882), 96: (-0.5968, -0.9872)},
        **{127: (0.3953, 0.2014), 128: (-1.186, -0.6043), 160: (-0.5647, -0.5647), 192: (-1.1163, -0.7249)},
        **{224: (-0.585, -0.7814), 229: (-0.0689, -0.2571), 255: (0.3137, 0.3137)},
    }

    def test_table(self):
        for label, due in self.table.items():
            for f in self.formats:
                for place in (0, 131072, 133759):
                    self.assertEqual(sccc.point(f, label, None, place), due)
        point = sccc.point(33, 47, None, 0)
        self.assertEqual((type(point), type(point.i), point.i, point.q), (sccc.Point, float, 0.6172, 0.0695))

    def test_rings(self):
        """Document 02's rule, in whole ten-thousandths: each point on one of eight rings, and the rings full."""
        rings = []
        for label in range(sccc.POINTS):
            point = sccc.point(37, label, None, 0)
            x, y = (round(10000 * coordinate) for coordinate in point)
            self.assertEqual(point, (x / 10000, y / 10000))
            off = {k: abs(127 * (x * x + y * y) - (2 * k - 1) ** 2 * 10**8) for k in range(1, 9)}
            rings += [k for k in off if off[k] <= 127 * (abs(x) + abs(y) + 1)]
        self.assertEqual(len(rings), sccc.POINTS)
        self.assertEqual([rings.count(k) for k in range(1, 9)], [4, 12, 20, 28, 36, 44, 52, 60])

    def test_turns(self):
        places = (0, 1, 17, 18, 131070, 131071, 131072, 133439, 133759)
        for code, place in product((0, 1, 9, 131071, 131072, 262141, sccc.LAST_CODE), places):
            turns = quarter_turns(code, place)
            for label, due in self.table.items():
                self.assertEqual(sccc.point(33, label, code, place), turned(due, turns))
        self.assertEqual({quarter_turns(0, place) for place in range(100)}, {0, 1, 2, 3})
        for place in range(100):
            self.assertEqual(sccc.point(35, 185, 0, place), turned((-0.2082, 1.3147), quarter_turns(0, place)))

    def test_a_jobs_code_number(self):
        for line in (b"37,2,1,262142\n", b"37,2,1,-\n"):
            job = sccc.job(line)
            turns = 0 if job.code is None else quarter_turns(job.code, 5)
            self.assertEqual(sccc.point(job.format, 47, job.code, 5), turned((0.6172, 0.0695), turns))

    def test_refusals(self):
        """What comes after the check that fails fails too, and then does not."""
        for f in (*NOT_FORMATS, 1, 13, 27, 28, 32):
            self.assertRefused(1, sccc.point, f, 256, 262143, 133760)
            self.assertRefused(1, sccc.point, f, 0, None, 0)
        for slot in (257, 258, 65535, 65536, *NOT_SMALL):
            self.assertRefused(3, sccc.point, 33, slot, 262143, 133760)
            self.assertRefused(3, sccc.point, 37, slot, None, 0)
        for code in (262143, 2**18, 2**18 + 1, 2**32, 2**64 - 2, 2**64 - 1, 2**64, -1, -(2**64)):
            self.assertRefused(16, sccc.point, 33, 255, code, 133760)
            self.assertRefused(16, sccc.point, 37, 0, code, 0)
        for place, code in product((133760, 133761, 262143, 2**32, 2**64 - 1, 2**64, -1), (None, 0, sccc.LAST_CODE)):
            self.assertRefused(8, sccc.point, 33, 255, code, place)

    def test_refused_coordinates(self):
        """Both are +0.0, of which Python sees nothing elsewhere."""
        for number, *arguments in ((1, 32, 0, 0, 0), (3, 33, 256, 0, 0), (16, 33, 0, 262143, 0), (8, 33, 0, 0, 133760)):
            r = sccc._loaded().sccc_point(*arguments)
            self.assertEqual((r.number, struct.pack("dd", r.i, r.q)), (number, bytes(16)))

    def test_a_number_is_an_integer(self):
        self.assertEqual(sccc.point(numpy.uint8(33), numpy.uint16(47), None, numpy.int64(0)), (0.6172, 0.0695))
        self.assertEqual(sccc.point(33, 47, numpy.uint32(0), True), sccc.point(33, 47, 0, 1))
        for arguments in ((33.0, 0, 0, 0), (33, "0", 0, 0), (33, None, 0, 0), (33, 0, "-", 0), (33, 0, 1.0, 0), (33, 0, 0, None)):
            self.assertRaises(TypeError, sccc.point, *arguments)


class PointsInARow(Case):
    slots = array("H", (i * i // 7 % 256 for i in range(540)))

    def one_by_one(self, slots, code, place):
        return array("d", (coordinate for p, slot in enumerate(slots, place) for coordinate in sccc.point(33, slot, code, p)))

    def test_they_are_the_points(self):
        for code, place in product((None, 0, sccc.LAST_CODE), (0, 556, 130900, 133220)):
            due = self.one_by_one(self.slots, code, place)
            for f in range(33, sccc.FORMATS + 1):
                points = sccc.points(f, self.slots, code, place)
                self.assertEqual((points.format, bytes(points)), ("d", bytes(due)))

    def test_frames(self):
        """Whole without pilots; with them the labels between."""
        labels = bytes(i * i // 7 % 256 for i in range(sccc.FRAME_LABELS))
        bare, slots = (sccc.frame(37, pilots, labels) for pilots in (0, 1))
        self.assertEqual(bytes(sccc.points(37, bare[320:], 5, 0)), bytes(self.one_by_one(labels, 5, 0)))
        for start in (320, 876, 133204):
            run = slots[start : start + 540]
            self.assertEqual(bytes(sccc.points(37, run, 5, start - 320)), bytes(self.one_by_one(run, 5, start - 320)))
        self.assertRefused(3, sccc.points, 37, slots[320:861], 5, 0)

    def test_they_write_no_more_than_they_say(self):
        before = array("d", range(1000, 2090))
        for count in (0, 1, 539, 540):
            slots, out = self.slots[:count], before[:]
            result = sccc.points(33, slots, 1, 17, out=out)
            self.assertIs(result.obj, out)
            self.assertEqual(result, self.one_by_one(slots, 1, 17))
            self.assertEqual(out, self.one_by_one(slots, 1, 17) + before[2 * count :])
            self.assertEqual(slots, self.slots[:count])

    def test_refusals(self):
        """What comes after the check that fails fails too, and then does not."""
        good, bad = self.slots, self.slots[:-1] + array("H", [256])
        for number, f, slots, code, place, room in (
            *((1, f, bad, 262143, 133760, 0) for f in (*NOT_FORMATS, 1, 28, 32)),
            (1, 32, good, None, 0, 1080),
            (3, 33, bad, 262143, 133760, 0),
            (3, 37, bad, None, 0, 1080),
            (3, 37, array("H", [65535]), None, 0, 2),
            (16, 33, good, 262143, 133760, 0),
            (16, 33, good, 2**64 - 1, 0, 1080),
            (16, 33, good, -1, 0, 1080),
            (16, 33, good[:0], 262143, 133761, 0),
            (8, 33, good, 0, 133760, 0),
            (8, 33, good, None, 133221, 1080),
            (8, 33, good, None, 133221, 0),
            *((8, 37, good, 0, place, 1080) for place in (2**32, 2**64 - 540, 2**64 - 1, 2**64, -1)),
            *((8, 37, good[:0], 0, place, 0) for place in (133761, 2**64 - 1, -1)),
            (5, 33, good, 0, 133220, 0),
            (5, 33, good, 0, 0, 1079),
            (5, 33, good, None, 0, 540),
            (5, 33, good[:1], 0, 0, 1),
        ):
            out = array("d", [7]) * room
            self.assertRefused(number, sccc.points, f, slots, code, place, out=out)
            self.assertEqual(out, array("d", [7]) * room)
        self.assertEqual(len(sccc.points(33, good[:0], 0, 133760)), 0)
        self.assertEqual(len(sccc.points(33, good, 0, 133220)), 1080)

    def test_memory(self):
        due = sccc.points(33, self.slots, 0, 0)
        out = numpy.zeros((540, 2))
        result = sccc.points(33, numpy.array(self.slots, dtype=numpy.uint16), 0, 0, out=out)
        self.assertTrue(numpy.shares_memory(numpy.asarray(result), out))
        self.assertTrue((out.ravel() == numpy.asarray(due)).all())
        self.assertEqual(sccc.points(33, memoryview(self.slots), 0, 0, out=(ctypes.c_double * 1080)()), due)
        read_only = numpy.zeros(1080)
        read_only.flags.writeable = False
        for slots, out in (
            (bytes(540), None),
            ([0] * 540, None),
            (array("h", [0]), None),
            (memoryview(self.slots)[::2], None),
            (self.slots, bytearray(8 * 1080)),
            (self.slots, [0.0] * 1080),
            (self.slots, array("f", [0] * 1080)),
            (self.slots, numpy.zeros(1080, dtype=">f8")),
            (self.slots, numpy.zeros(2160)[::2]),
            (self.slots, read_only),
        ):
            self.assertRaises(TypeError, sccc.points, 33, slots, 0, 0, out=out)
        for arguments in ((33.0, self.slots, 0, 0), (33, self.slots, "-", 0), (33, self.slots, 0, None)):
            self.assertRaises(TypeError, sccc.points, *arguments)

    def test_overlapping_and_unaligned_memory(self):
        memory = memoryview(bytearray(1088))
        self.assertRaises(ValueError, sccc.points, 33, memory[:34].cast("H"), 0, 0, out=memory[32:].cast("d"))
        for shift in (1, 2, 4):
            self.assertRaises(ValueError, sccc.points, 33, self.slots[:17], 0, 0, out=memory[shift : 1080 + shift].cast("d"))
        self.assertEqual(bytes(memory), bytes(1088))
        sccc.points(33, memory[:32].cast("H"), 0, 0, out=memory[32:].cast("d"))
        self.assertEqual(bytes(memory[:32]), bytes(32))


class Constellation(Case):
    @classmethod
    def setUpClass(cls):
        cls.text = sccc.constellation()
        cls.groups = {group.get("id"): list(group) for group in ElementTree.fromstring(cls.text).findall("{*}g")}

    def positions(self, name, across, down):
        """Of each part of a group, from the middle of the plot and in its unit."""
        return [((float(part.get(across)) - 730) / 420, (710 - float(part.get(down))) / 420) for part in self.groups[name]]

    def test_it_is_the_file(self):
        with open(os.path.join(ROOT, "docs", "constellation.svg"), encoding="utf8", newline="") as file:
            self.assertTrue(file.read() == self.text, "docs/constellation.svg is not what constellation() gives")

    def test_dots_are_the_points(self):
        dots = self.positions("dots", "cx", "cy")
        self.assertEqual(len(dots), sccc.POINTS)
        for label, dot in enumerate(dots):
            for drawn, due in zip(dot, sccc.point(33, label, None, 0)):
                self.assertAlmostEqual(drawn, due, places=9)

    def test_labels_are_beside_their_dots(self):
        self.assertEqual([text.text for text in self.groups["labels"]], [f"{label:02X}" for label in range(sccc.POINTS)])
        dots = self.positions("dots", "cx", "cy")
        for label, text in enumerate(self.positions("labels", "x", "y")):
            self.assertEqual(min(range(sccc.POINTS), key=lambda dot: math.dist(text, dots[dot])), label)

    def test_rings(self):
        """Through the dots, but for the table's rounding."""
        self.assertEqual({ring.tag for ring in self.groups["rings"]}, {"{http://www.w3.org/2000/svg}circle"})
        radii = [float(ring.get("r")) / 420 for ring in self.groups["rings"]]
        self.assertEqual(len(radii), 8)
        for dot in self.positions("dots", "cx", "cy"):
            self.assertLess(min(abs(radius - math.hypot(*dot)) for radius in radii), 0.0001)

    def test_axes_are_named(self):
        self.assertEqual([text.text for text in self.groups["numbers"]][:2], ["in-phase", "quadrature"])


class Judgements(Case):
    formats = range(33, sccc.FORMATS + 1)
    labels = bytes(37 * place % 256 for place in range(sccc.SYMBOLS))

    @classmethod
    def setUpClass(cls):
        cls.points = [sccc.point(33, label, None, 0) for label in range(sccc.POINTS)]
        cls.due = [sample_line(*cls.points[label]) for label in cls.labels]

    def nearest(self, samples):
        """By numpy, operation by operation; of equals argmin takes the first."""
        away = numpy.array(samples)[:, numpy.newaxis] - numpy.array(self.points)
        squares = away * away
        return bytes((squares[..., 0] + squares[..., 1]).argmin(axis=1).astype(numpy.uint8))

    def test_points_are_read_as_their_labels(self):
        text = "".join(self.due).encode()
        for f in self.formats:
            judgement = sccc.judge(f, self.labels, text)
            self.assertEqual((type(judgement), judgement), (sccc.Judgement, (8100, 0, 0, None)))
        for other in range(1, 256):
            self.assertEqual(sccc.judge(33, bytes((label + other) % 256 for label in self.labels), text), (0, 8100, 0, 0))
        self.assertEqual((judgement.agreeing, judgement.differing, judgement.lost, judgement.first), judgement)

    def test_counts(self):
        """Of each three samples one agrees, one differs and one is lost, in each order."""
        for order in permutations(range(3)):
            text = "".join((line, OTHER_LINE, LOST_LINE)[order[place % 3]] for place, line in enumerate(self.due)).encode()
            labels = bytes(label if label != OTHER else 0 for label in self.labels)
            agreeing = sum(order[place % 3] == 0 and label != OTHER for place, label in enumerate(self.labels))
            self.assertEqual(sccc.judge(35, labels, text), (agreeing, 5400 - agreeing, 2700, order.index(1)))

    def test_first_place(self):
        """Lost samples before it do not count, nor how many follow."""
        for place in (0, 1, 99, 4050, 8098, 8099):
            lines = [LOST_LINE, *self.due[1:]]
            lines[place] = sample_line(*self.points[self.labels[place] ^ 1])
            lost = 1 if place else 0
            self.assertEqual(sccc.judge(33, self.labels, "".join(lines).encode()), (8099 - lost, 1, lost, place))
            labels = self.labels[: place + 1] + bytes(label ^ 1 for label in self.labels[place + 1 :])
            judgement = sccc.judge(33, labels, "".join(lines).encode())
            self.assertEqual(judgement, (place - lost, 8100 - place, lost, place))

    def test_lost_samples(self):
        for f, label in product(self.formats, (0, 127, 255)):
            self.assertEqual(sccc.judge(f, bytes([label]) * 8100, LOST_LINE.encode() * 8100), (0, 0, 8100, None))

    def test_nearest(self):
        """All over the plane; on the axes, the diagonals and the border; and between any two neighbours, an ulp here or there."""
        random = numpy.random.RandomState(14)
        points = numpy.array(self.points)
        along = numpy.linspace(-2, 2, 1013)
        axes = [(x, 0.0) for x in along] + [(-0.0, x) for x in along] + [(x, x) for x in along] + [(x, -x) for x in along]
        border = [corner for x in along for corner in ((x, 2.0), (x, -2.0), (2.0, x), (-2.0, x))]
        between = [(points[a] + points[b]) / 2 for a in range(256) for b in range(a) if math.dist(points[a], points[b]) < 0.2]
        between = [numpy.nextafter(middle, middle + random.randint(-1, 2, 2)) for middle in between * 20]
        self.assertGreater(len(between), 8100)
        for samples in (random.uniform(-2, 2, (8100, 2)), random.uniform(-0.3, 0.3, (8100, 2)), axes, border, between):
            samples = numpy.resize(samples, (8100, 2))
            text = "".join(sample_line(*sample) for sample in samples.tolist()).encode()
            labels = self.nearest(samples)
            self.assertGreater(len(set(labels)), 20)
            self.assertEqual(sccc.judge(34, labels, text), (8100, 0, 0, None))
            for place in (0, 8099):
                wrong = bytearray(labels)
                wrong[place] ^= 1
                self.assertEqual(sccc.judge(34, wrong, text), (8099, 1, 0, place))

    def test_equally_near(self):
        """The points of the inner ring, 0.0627 off either axis, are of the labels 15, 45, 135 and 165, in the quadrants 1, 2, 4, 3.
        A subnormal number is lost in 0.0627, so the rounded distances are equal where those before rounding are not."""
        zeros = (0.0, -0.0, 5e-324, -5e-324)
        for lowest, others, samples in (
            (15, (45, 135, 165), product(zeros, zeros)),
            (15, (45, 135, 165), product(zeros, (0.0627,))),
            (15, (45, 135, 165), product((0.0627,), zeros)),
            (45, (15, 135, 165), product((-0.0627,), zeros)),
            (135, (15, 45, 165), product(zeros, (-0.0627,))),
        ):
            lines = [sample_line(*sample) for sample in samples]
            text = "".join(islice(cycle(lines), 8100)).encode()
            self.assertEqual(sccc.judge(33, bytes([lowest]) * 8100, text), (8100, 0, 0, None))
            for label in others:
                self.assertEqual(sccc.judge(33, bytes([label]) * 8100, text), (0, 8100, 0, 0))

    def test_a_codeword(self):
        """Of another codeword those samples differ whose labels do."""
        for f in self.formats:
            block = bytearray(seeded(f, sccc.format_info(f).k))
            labels = bytes(sccc.labels(f, sccc.encode(f, block)))
            points = sccc.points(f, array("H", list(labels)), None, 0)
            text = sccc.capture(zip(points[::2], points[1::2]))
            self.assertEqual(sccc.judge(f, labels, text), (8100, 0, 0, None))
            block[len(block) // 2] ^= 1
            other = sccc.labels(f, sccc.encode(f, block))
            differing = sum(a != b for a, b in zip(labels, other))
            self.assertEqual(sccc.judge(f, other, text), (8100 - differing, differing, 0, sccc.compare(f, labels, other).first))

    def test_a_scrambled_unit_is_turned_back(self):
        """By the turn of its place, which README tells from label 255."""
        code, start = 5, 16200
        sent = sccc.points(37, array("H", list(self.labels)), code, start)
        samples = list(zip(sent[::2], sent[1::2]))
        self.assertGreater(sccc.judge(37, self.labels, sccc.capture(samples)).differing, 4000)
        signs = [(1, 1), (-1, 1), (-1, -1), (1, -1)]
        for place, sample in enumerate(samples):
            of_255 = sccc.point(37, 255, code, start + place)
            turns = signs.index(tuple(int(math.copysign(1, x)) for x in of_255))
            self.assertEqual(turns, quarter_turns(code, start + place))
            samples[place] = turned(sample, (4 - turns) % 4)
        self.assertEqual(sccc.judge(37, self.labels, sccc.capture(samples)), (8100, 0, 0, None))

    def test_ends(self):
        """Of every sign and exponent the least two numbers and the largest, in either coordinate: those from -2 to 2 pass."""
        text = bytearray(LOST_LINE.encode() * 8099 + sample_line(1.0, 1.0).encode())
        passed = 0
        for top, rest in product(range(4096), ("0" * 13, "0" * 12 + "1", "F" * 13)):
            digits = f"{top:03X}{rest}"
            number = struct.unpack(">d", bytes.fromhex(digits))[0]
            for i, q in ((digits, "3FE" + "0" * 13), ("0" * 16, digits)):
                text[-34:] = f"{i},{q}\n".encode()
                if -2 <= number <= 2:
                    passed += 1
                    judgement = sccc.judge(33, self.labels, text)
                    self.assertEqual((judgement.agreeing + judgement.differing, judgement.lost), (1, 8099))
                else:
                    self.assertRefused(19, sccc.judge, 33, self.labels, text)
        self.assertEqual(passed, 2 * 2 * (3 * 1024 + 1))

    def test_refused_coordinates(self):
        """Wherever one stands."""
        for digits in (
            *("4000000000000001", "C000000000000001", "4008000000000000", "7FEFFFFFFFFFFFFF", "FFEFFFFFFFFFFFFF"),
            *("7FF0000000000000", "FFF0000000000000", "7FF0000000000001", "FFF0000000000001", "7FF8000000000000"),
            *("FFF8000000000000", "7FFFFFFFFFFFFFFF", "FFFFFFFFFFFFFFFF"),
        ):
            for place, line in product((0, 4050, 8099), (f"{digits},{ZERO}\n", f"{ZERO},{digits}\n", f"{digits},{digits}\n")):
                lines = self.due[:]
                lines[place] = line
                self.assertRefused(19, sccc.judge, 33, self.labels, "".join(lines).encode())

    def assertNoCapture(self, text):
        self.assertRefused(18, sccc.judge, 33, self.labels, text)

    def test_every_byte_of_a_line(self):
        """Of a lost sample each is the one that is due. Of a pair the digits may be others, and lower case is none."""
        for line, before in product((LOST_LINE, sample_line(0.6172, -0.0695)), (0, 8099)):
            text = bytearray("".join([LOST_LINE * before, line, LOST_LINE * (8099 - before)]).encode())
            start = 5 * before
            for place, due in enumerate(line.encode(), start):
                is_digit = len(line) == 34 and place - start not in (16, 33)
                for byte in range(256):
                    text[place] = byte
                    if byte != due and not (is_digit and byte in b"0123456789ABCDEF"):
                        self.assertNoCapture(text)
                        continue
                    pair = bytes(text[start : start + len(line)]).decode().strip().split(",")
                    inside = len(pair) == 1 or all(abs(struct.unpack(">d", bytes.fromhex(x))[0]) <= 2 for x in pair)
                    if inside:
                        self.assertEqual(sum(sccc.judge(33, self.labels, text)[:3]), 8100)
                    else:
                        self.assertRefused(19, sccc.judge, 33, self.labels, text)
                text[place] = due

    def test_lines_of_another_length(self):
        """A byte left out or one too many, at each place of a line."""
        for line, place in product((LOST_LINE, sample_line(0.6172, -0.0695)), (0, 8099)):
            lines = [LOST_LINE] * 8100
            for at in range(len(line)):
                lines[place] = line[:at] + line[at + 1 :]
                self.assertNoCapture("".join(lines).encode())
                for more in "0F,\n\0 T":
                    lines[place] = line[:at] + more + line[at:]
                    self.assertNoCapture("".join(lines).encode())

    def test_no_lines(self):
        a = sample_line(0.6172, -0.0695)[:16]
        for line in (
            *("", " ", "\0", "LOST ", " LOST", "lost", "Lost", "LOS", "LOSTT", "LOST,LOST", f"LOST,{a}", f"{a},LOST", "L,OST"),
            *(a, f"{a},", f",{a}", a + a, f"{a} {a}", f"{a};{a}", f"{a}, {a}", f"{a},,{a}", f"{a},{a},", f"{a},{a},{a}"),
            *(f"{a},{a} ", f" {a},{a}", f"{a},{a}\r", "LOST\r", f"{a.lower()},{a}", f"{a},{a.lower()}", f"{a[1:]},{a}0"),
            *(f"0{a},{a[1:]}", f"0x{a[2:]},{a}", f"+{a[1:]},{a}", "0.6172,-0.0695", f"{a[:15]}G,{a}", f"{a[:15]}/,{a}"),
            *(f"{a[:15]}:,{a}", f"{a[:15]}@,{a}", f"{a[:8]} {a[8:]},{a}", "\ufeffLOST", "LOST\nLOST", f"{a}\n{a}", f"{a},\n{a}"),
        ):
            for place in (0, 4050, 8099):
                lines = self.due[:]
                lines[place] = line + "\n"
                self.assertNoCapture("".join(lines).encode())

    def test_ends_of_the_text(self):
        lost, pairs = LOST_LINE.encode(), "".join(self.due).encode()
        self.assertEqual(len(pairs), sccc.LONGEST_CAPTURE)
        for text, line in ((lost * 8100, lost), (pairs, self.due[0].encode())):
            self.assertEqual(sum(sccc.judge(33, self.labels, text)[:3]), 8100)
            for other in (b"", b"\n", b"\n" * 8100, line, text[: -len(line)], text + line, text + text, b"\n" + text):
                self.assertNoCapture(other)
            for byte in range(256):
                self.assertNoCapture(text + bytes([byte]))
                self.assertNoCapture(bytes([byte]) + text)
            for length in range(1, 40):
                self.assertNoCapture(memoryview(text)[:-length])
                self.assertNoCapture(memoryview(text)[length:])
            self.assertNoCapture(text.replace(b"\n", b"\r\n"))
            self.assertNoCapture(text.replace(b"\n", b"\n\n"))
            self.assertNoCapture(text.replace(b"\n", b""))
            self.assertNoCapture(text[:-1] + b"\r")
        self.assertNoCapture(lost * 8099 + pairs[:33])
        self.assertEqual(sccc.judge(33, self.labels, lost * 8099 + pairs[:34]).lost, 8099)

    def test_the_first_check_that_fails(self):
        """What comes after it fails too."""
        outside = f"{NAN},{NAN}\n"
        good, bad = "".join(self.due).encode(), (outside * 8099 + "lost\n").encode()
        for f in (*NOT_FORMATS, 1, 13, 27, 28, 32, *(33 + 2**bits for bits in (8, 16, 32, 64))):
            for labels, text in ((self.labels[1:], bad), (b"", b""), (self.labels, bad), (self.labels, good)):
                self.assertRefused(1, sccc.judge, f, labels, text)
        for labels in (b"", self.labels[1:], self.labels + b"\0", bytes(sccc.FRAME_LABELS)):
            for text in (bad, b"", good):
                self.assertRefused(2, sccc.judge, 33, labels, text)
        for text in (bad, (outside * 8101).encode(), (outside * 8100)[:-1].encode(), (f"{ZERO}\n" + outside * 8099).encode()):
            self.assertRefused(18, sccc.judge, 33, self.labels, text)
        self.assertRefused(19, sccc.judge, 37, self.labels, (outside * 8100).encode())

    def test_refused_judgements(self):
        """Every field is 0, of which Python sees nothing elsewhere. Where nothing differs none is 1."""
        for f, labels, text, due in (
            (32, self.labels, LOST_LINE * 8100, (1, 0, 0, 0, 0, 0)),
            (33, self.labels[1:], LOST_LINE * 8100, (2, 0, 0, 0, 0, 0)),
            (33, self.labels, OTHER_LINE * 8099, (18, 0, 0, 0, 0, 0)),
            (33, self.labels, OTHER_LINE * 8099 + f"{ZERO},{NAN}\n", (19, 0, 0, 0, 0, 0)),
            (33, self.labels, LOST_LINE * 8100, (0, 0, 0, 8100, 1, 0)),
            (33, bytes([OTHER]) * 8100, OTHER_LINE * 8100, (0, 8100, 0, 0, 1, 0)),
            (33, bytes([OTHER]) * 8099 + b"\0", OTHER_LINE * 8100, (0, 8099, 1, 0, 0, 8099)),
            (33, bytes(8100), OTHER_LINE * 8100, (0, 0, 8100, 0, 0, 0)),
        ):
            views = sccc._view("labels", labels), sccc._view("capture", text.encode())
            r = sccc._loaded().sccc_judge(f, *sccc._lent(*views))
            self.assertEqual((r.number, r.agreeing, r.differing, r.lost, r.none, r.first), due)

    def test_capture(self):
        """What it writes is what is due, and any floats are written."""
        points = [None if place % 7 == 0 else self.points[label] for place, label in enumerate(self.labels)]
        lines = [LOST_LINE if place % 7 == 0 else line for place, line in enumerate(self.due)]
        self.assertEqual(sccc.capture(points), "".join(lines).encode())
        self.assertEqual(sccc.judge(33, self.labels, sccc.capture(points)), (8100 - 1158, 0, 1158, None))
        self.assertEqual(sccc.capture([]), b"")
        self.assertEqual(sccc.capture([(0.6172, -0.0695)]), b"3FE3C01A36E2EB1C,BFB1CAC083126E98\n")
        self.assertEqual(sccc.capture(iter([None, [2, -2]])), b"LOST\n4000000000000000,C000000000000000\n")
        self.assertEqual(sccc.capture([(-0.0, 5e-324)]), b"8000000000000000,0000000000000001\n")
        self.assertEqual(sccc.capture([(math.inf, -math.inf)]), b"7FF0000000000000,FFF0000000000000\n")
        self.assertEqual(sccc.capture(numpy.array([[1, 0.5]])), b"3FF0000000000000,3FE0000000000000\n")
        for sample in ((1.0,), (1.0, 1.0, 1.0), ("1", "1"), (None, None), (1j, 1j)):
            self.assertRaises(struct.error, sccc.capture, [sample])
        for sample in (1.0, 1j):
            self.assertRaises(TypeError, sccc.capture, [sample])

    def test_memory(self):
        text = "".join(self.due).encode()
        for labels, capture in (
            (bytearray(self.labels), bytearray(text)),
            (memoryview(b"\0" + self.labels)[1:], memoryview(b"\n" + text + b"\n")[1:-1]),
            (array("B", self.labels), array("b", text)),
            (numpy.frombuffer(self.labels, dtype=numpy.uint8), numpy.frombuffer(text, dtype=numpy.uint8)),
        ):
            self.assertEqual(sccc.judge(33, labels, capture), (8100, 0, 0, None))
            self.assertEqual((bytes(labels), bytes(capture)), (self.labels, text))
        lines = numpy.frombuffer(text, dtype="S34")
        for labels, capture in (
            (self.labels.decode("latin"), text),
            (list(self.labels), text),
            (None, text),
            (array("H", list(self.labels)), text),
            (memoryview(bytes(16200))[::2], text),
            (self.labels, text.decode()),
            (self.labels, self.due),
            (self.labels, None),
            (self.labels, array("d", bytes(8 * 16200))),
            (self.labels, numpy.array(self.points)),
            (self.labels, lines),
            (self.labels, memoryview(bytes(2 * len(text)))[::2]),
        ):
            self.assertRaises(TypeError, sccc.judge, 33, labels, capture)
        for f in (33.0, "33", None):
            self.assertRaises(TypeError, sccc.judge, f, self.labels, text)
        self.assertEqual(sccc.judge(numpy.uint8(33), self.labels, text), (8100, 0, 0, None))

    def test_readmes_three_lines(self):
        """Of files that have the names there."""
        with open(os.path.join(ROOT, "README.md"), encoding="utf8") as file:
            (code,) = re.findall(r"^    PYTHONPATH=python python3 -c '(import sccc\n.*?)'$", file.read(), re.M | re.S)
        self.assertEqual(code.count("\n"), 2)
        variables = {**os.environ, "PYTHONPATH": os.path.dirname(MODULE)}
        command = [sys.executable, "-B", "-c", code.replace("\n    ", "\n")]
        with tempfile.TemporaryDirectory() as folder:
            for name, contents in (("labels", self.labels), ("capture", "".join([LOST_LINE, *self.due[1:]]).encode())):
                with open(os.path.join(folder, name), "wb") as file:
                    file.write(contents)
            printed = subprocess.run(command, cwd=folder, env=variables, check=True, capture_output=True, text=True).stdout
        self.assertEqual(printed, "Judgement(agreeing=8099, differing=0, lost=1, first=None)\n")

    def test_overlapping_memory(self):
        """Nothing is written, so it may overlap."""
        text = LOST_LINE.encode() * 8100
        self.assertEqual(sccc.judge(33, memoryview(text)[:8100], text), (0, 0, 8100, None))


class Pictures(Case):
    labels = Judgements.labels

    @classmethod
    def setUpClass(cls):
        """Of each hundred samples one is lost, four lie beside another label's point, and the others beside their own."""
        cls.points = [sccc.point(33, label, None, 0) for label in range(sccc.POINTS)]
        cls.due = [cls.points[label] for label in cls.labels]
        random = numpy.random.RandomState(14)
        cls.samples = []
        for place, label in enumerate(cls.labels):
            i, q = cls.points[label ^ 128 if place % 25 == 7 else label]
            di, dq = random.uniform(-0.04, 0.04, 2)
            cls.samples.append(None if place % 100 == 99 else (i + di, q + dq))
        cls.picture = cls.drawn(33, cls.labels, cls.samples)
        cls.few = sccc.capture(cls.samples[:100] + [None] * 8000)

    @staticmethod
    def drawn(f, labels, samples):
        """The parts of a picture that have a name."""
        root = ElementTree.fromstring(sccc.picture(f, labels, sccc.capture(samples)))
        return {part.get("id"): part for part in root if part.get("id")}

    def dots(self, picture, kind, scale=420):
        """Of the samples of a kind, from the middle of the plot and in its unit."""
        marks = [re.fullmatch(r"(\d+\.\d) (\d+\.\d)h0 ?", mark).groups() for mark in picture[kind].get("d").split("M")[1:]]
        return [((float(across) - 730) / scale, (710 - float(down)) / scale) for across, down in marks]

    def assertDots(self, dots, due, apart=0.00025):
        self.assertEqual(len(dots), len(due))
        self.assertLess(max((math.dist(dot, point) for dot, point in zip(dots, due)), default=0), apart)

    def legend(self, picture):
        return [text.text for text in picture["legend"].findall("{*}text")]

    def test_every_sample_is_drawn(self):
        """Once: where it is, or if lost where its label's point is."""
        lost = [place for place, sample in enumerate(self.samples) if sample is None]
        differing = [place for place in range(7, 8100, 25)]
        agreeing = sorted({*range(8100)} - {*lost} - {*differing})
        judgement = sccc.judge(33, self.labels, sccc.capture(self.samples))
        self.assertEqual(judgement, (len(agreeing), len(differing), len(lost), 7))
        self.assertEqual(judgement, (7695, 324, 81, 7))
        self.assertDots(self.dots(self.picture, "agreeing"), [self.samples[place] for place in agreeing])
        self.assertDots(self.dots(self.picture, "differing"), [self.samples[place] for place in differing])
        self.assertDots(self.dots(self.picture, "lost"), [self.due[place] for place in lost])

    def test_lines_lead_to_the_points_that_were_due(self):
        pattern = r"(\d+\.\d) (\d+\.\d)L(\d+\.\d) (\d+\.\d) ?"
        lines = [re.fullmatch(pattern, line).groups() for line in self.picture["misses"].get("d").split("M")[1:]]
        ends = [[((float(a) - 730) / 420, (710 - float(d)) / 420) for a, d in (line[:2], line[2:])] for line in lines]
        self.assertDots([start for start, _ in ends], self.samples[7::25])
        self.assertDots([end for _, end in ends], self.due[7::25])

    def test_kinds_are_told_apart(self):
        """By three colours, which are the legend's too."""
        paths = [self.picture[kind] for kind in ("agreeing", "differing", "lost")]
        colours = [path.get("stroke") for path in paths]
        self.assertEqual(len(set(colours)), 3)
        self.assertEqual({path.get("stroke-linecap") for path in paths}, {"round"})
        self.assertEqual([circle.get("fill") for circle in self.picture["legend"].findall("{*}circle")], colours)
        self.assertEqual(self.picture["misses"].get("stroke"), colours[1])
        agreeing, differing, lost = self.legend(self.picture)
        self.assertEqual(agreeing, "7695 agreeing")
        self.assertRegex(differing, "^324 differing, the first at place 7:")
        self.assertRegex(lost, "^81 lost")

    def test_points_are_drawn(self):
        dots = [(float(dot.get("cx")), float(dot.get("cy"))) for dot in self.picture["dots"]]
        self.assertDots([((across - 730) / 420, (710 - down) / 420) for across, down in dots], self.points, apart=1e-5)
        self.assertEqual(len(self.picture["rings"]), 8)
        self.assertEqual([text.text for text in self.picture["numbers"]][:2], ["in-phase", "quadrature"])

    def test_one_kind_alone(self):
        for samples, kind, label, line in (
            (self.due, "agreeing", 0, "8100 agreeing"),
            ([self.points[label ^ 128] for label in self.labels], "differing", 1, "8100 differing, the first at place 0:"),
            ([None] * 8100, "lost", 2, "8100 lost"),
        ):
            picture = self.drawn(36, self.labels, samples)
            for other in ("agreeing", "differing", "lost"):
                drawn = [due if sample is None else sample for sample, due in zip(samples, self.due)] if other == kind else []
                self.assertDots(self.dots(picture, other), drawn)
            legend = self.legend(picture)
            self.assertRegex(legend.pop(label), f"^{line}")
            for text in legend:
                self.assertRegex(text, "^0 [a-z]+(,|$)")
                self.assertNotIn("first", text)

    def test_reach(self):
        """To 1.5, and to 2 where a coordinate is larger."""
        beyond = 1.5 + 2**-52
        for sample, reach in (
            *(((1.5, -1.5), 1.5), ((-1.5, 1.5), 1.5), ((beyond, 0.0), 2), ((-beyond, 0.0), 2)),
            *(((0.0, beyond), 2), ((0.0, -beyond), 2), ((2.0, -2.0), 2)),
        ):
            picture = self.drawn(33, self.labels, self.due[:99] + [None] * 8000 + [sample])
            scale = 630 / reach
            self.assertDots(self.dots(picture, "differing", scale), [sample])
            self.assertDots(self.dots(picture, "agreeing", scale), self.due[:99])
            self.assertDots(self.dots(picture, "lost", scale), self.due[99:-1])
            border = picture["axes"].find("{*}rect")
            self.assertEqual([border.get(name) for name in ("x", "y", "width", "height")], ["100", "80", "1260", "1260"])
            radii = [float(ring.get("r")) / scale for ring in picture["rings"]]
            self.assertAlmostEqual(radii[7], 15 / math.sqrt(127), places=5)
            numbers = {text.text: float(text.get("x")) for text in picture["numbers"] if text.get("y") == "1368"}
            self.assertEqual(len(numbers), 15 if reach == 1.5 else 21)
            for number, across in numbers.items():
                self.assertAlmostEqual(float(number.replace("\N{MINUS SIGN}", "-")), (across - 730) / scale, places=2)

    def test_formats(self):
        """The points are the same; the picture says which format it is of."""
        pictures = [sccc.picture(f, self.labels, self.few) for f in Judgements.formats]
        for f, picture in zip(Judgements.formats, pictures):
            self.assertIn(f"<title>A capture of format {f} over the constellation</title>", picture)
            self.assertEqual(picture.replace(f"format {f}", "format 33"), pictures[0])

    def test_refusals(self):
        text = sccc.capture(self.samples)
        for number, f, labels, capture in (
            (1, 32, self.labels[1:], text[1:]),
            (1, 2**64 + 33, self.labels, text),
            (2, 33, self.labels[1:], text[1:]),
            (18, 33, self.labels, text[1:]),
            (18, 33, self.labels, sccc.capture([(math.nan, 0.0)]) * 8101),
            (19, 33, self.labels, sccc.capture([(math.nan, 0.0)]) * 8100),
        ):
            self.assertRefused(number, sccc.picture, f, labels, capture)
        for arguments in ((33.0, self.labels, text), (33, list(self.labels), text), (33, self.labels, text.decode())):
            self.assertRaises(TypeError, sccc.picture, *arguments)

    def test_another_judgement_is_not_drawn(self):
        judgement = sccc.judge(33, self.labels, self.few)
        self.assertEqual(judgement, (95, 4, 8001, 7))
        for other in (
            judgement._replace(agreeing=judgement.agreeing - 1, differing=judgement.differing + 1),
            judgement._replace(agreeing=judgement.agreeing - 1, lost=judgement.lost + 1),
            judgement._replace(differing=judgement.differing - 1, lost=judgement.lost + 1),
            judgement._replace(first=judgement.first + 1),
            judgement._replace(first=None),
        ):
            with mock.patch.object(sccc, "judge", return_value=other):
                self.assertRaisesRegex(RuntimeError, re.escape(str(other)), sccc.picture, 33, self.labels, self.few)
        with mock.patch.object(sccc, "judge", return_value=judgement):
            self.assertIn(">95 agreeing<", sccc.picture(33, self.labels, self.few))

    def test_it_is_the_file(self):
        """Of the example's capture, of which the example says what it prints."""
        with tempfile.TemporaryDirectory() as folder:
            path = os.path.join(folder, "capture.svg")
            variables = {**os.environ, "PYTHONPATH": os.path.dirname(MODULE)}
            example = [sys.executable, "-B", os.path.join(ROOT, "examples", "judge.py"), "33", path]
            printed = subprocess.run(example, env=variables, check=True, capture_output=True, text=True).stdout
            with open(path, encoding="utf8", newline="") as drawn, open(CAPTURE, encoding="utf8", newline="") as kept:
                text = kept.read()
                self.assertTrue(text == drawn.read(), "docs/capture.svg is not what picture() gives for the example's capture")
        picture = {part.get("id"): part for part in ElementTree.fromstring(text)}
        counts = [len(self.dots(picture, kind)) for kind in ("agreeing", "differing", "lost")]
        self.assertEqual(sum(counts), 8100)
        self.assertIn("agreeing {}, differing {}, lost {},".format(*counts), printed)
        for count, line in zip(counts, self.legend(picture)):
            self.assertRegex(line, f"^{count} ")


class Memory(Case):
    block = seeded(5, 5758)

    def test_kinds(self):
        codeword = sccc.encode(1, self.block)
        pages = mmap.mmap(-1, len(self.block))
        pages[:] = self.block
        rows = (ctypes.c_uint8 * 2879 * 2).from_buffer_copy(self.block)
        for block in (
            bytearray(self.block),
            memoryview(self.block),
            memoryview(b"\0" + self.block + b"\0")[1:-1],
            memoryview(self.block).cast("?"),
            memoryview(self.block).cast("c"),
            array("B", self.block),
            array("b", self.block),
            (ctypes.c_uint8 * 5758).from_buffer_copy(self.block),
            rows,
            pages,
        ):
            self.assertEqual(sccc.encode(1, block), codeword)

    def test_nothing_is_copied(self):
        address = ctypes.cast(ctypes.c_char_p(self.block), ctypes.c_void_p).value
        self.assertEqual(sccc._address(sccc._view("block", self.block)), address)
        self.assertEqual(sccc._address(sccc._view("block", memoryview(self.block)[3:])), address + 3)
        owned = array("H", [0] * 10)
        self.assertEqual(sccc._address(sccc._view("out", owned, kind="H")), owned.buffer_info()[0])

    def test_other_memory(self):
        out = array("H", bytes(2 * sccc.FRAME_SLOTS))
        labels = bytes(sccc.FRAME_LABELS)
        for call in (
            lambda: sccc.encode(1, "0" * 5758),
            lambda: sccc.encode(1, [0] * 5758),
            lambda: sccc.encode(1, None),
            lambda: sccc.encode(1, array("H", bytes(5758))),
            lambda: sccc.encode(1, memoryview(bytes(2 * 5758))[::2]),
            lambda: sccc.encode(1, self.block, work=bytes(8640)),
            lambda: sccc.encode(1, self.block, out=bytes(16200)),
            lambda: sccc.encode(1, self.block, out=array("H", bytes(32400))),
            lambda: sccc.encode_segments(1, "0" * 5758),
            lambda: sccc.encode_segments(1, self.block, work=bytes(8640)),
            lambda: sccc.labels(1, bytes(16200), out=memoryview(bytearray(16200))[::2]),
            lambda: sccc.frame(1, 0, out),
            lambda: sccc.frame(1, 0, labels, out=bytearray(2 * sccc.FRAME_SLOTS)),
            lambda: sccc.frame(1, 0, labels, out=memoryview(bytes(out)).cast("H")),
            lambda: sccc.frame(1, 0, labels, out=(ctypes.c_uint16.__ctype_be__ * sccc.FRAME_SLOTS)()),
            lambda: sccc.frame(1, 0, labels, out=array("h", bytes(out))),
        ):
            self.assertRaises(TypeError, call)

    def test_overlapping_memory(self):
        memory = memoryview(bytearray(100000))
        for block, work, out in (
            (memory[:5758], memory[5757:20000], memory[50000:]),
            (memory[:5758], memory[50000:], memory[5757:30000]),
            (memory[:5758], memory[10000:20000], memory[19999:50000]),
        ):
            self.assertRaises(ValueError, sccc.encode, 1, block, work=work, out=out)
            self.assertRaises(ValueError, sccc.encode_segments, 1, block, work=work, out=out)
        self.assertEqual(bytes(memory), bytes(100000))
        sccc.encode(1, memory[:5758], work=memory[5758:14398], out=memory[14398:30598])

    def test_slots_are_aligned(self):
        memory = memoryview(bytearray(2 * sccc.FRAME_SLOTS + 1))
        self.assertRaises(ValueError, sccc.frame, 1, 0, bytes(sccc.FRAME_LABELS), out=memory[1:].cast("H"))


class Library(Case):
    def test_error(self):
        with self.assertRaises(sccc.ScccError) as caught:
            sccc.step(4, 0)
        error = pickle.loads(pickle.dumps(caught.exception))
        self.assertEqual((error.number, error.meaning), (3, sccc.MEANINGS[3]))
        self.assertEqual(str(error), "check 3: " + sccc.MEANINGS[3])
        self.assertIsInstance(error, ValueError)

    def test_constants_are_the_headers(self):
        with open(os.path.join(ROOT, "include", "sccc.h")) as header:
            defined = dict(re.findall(r"^#define SCCC_(\w+) (\d+)", header.read(), re.M))
        names = [name for name in sccc.__all__ if isinstance(getattr(sccc, name), int)]
        self.assertIn("PILOT_FRAME_SLOTS", names)
        for name in names:
            self.assertEqual(getattr(sccc, name), int(defined[name]), name)
        self.assertIn("MAX_I", names)
        self.assertIn("LAST_CODE", names)
        self.assertIn("POINT_PLACES", names)
        self.assertIn("LONGEST_CAPTURE", names)
        for name in ("BAD_LINE", "BAD_PATTERN", "BAD_PILOTS", "SHORT_MEMORY", "BAD_CODE", "NO_WAY_BACK"):
            self.assertIn(int(defined[name]), sccc.MEANINGS)
        for name in ("BAD_CAPTURE", "BAD_COORDINATE"):
            self.assertIn(int(defined[name]), sccc.MEANINGS)

    def elsewhere(self, code, **environment):
        """A Python of its own, with a copy of the module that has no build/ beside it."""
        with tempfile.TemporaryDirectory() as folder:
            os.mkdir(os.path.join(folder, "python"))
            shutil.copy(MODULE, os.path.join(folder, "python"))
            variables = {**os.environ, "PYTHONPATH": os.path.join(folder, "python"), **environment}
            if "SCCC_LIBRARY" not in environment:
                variables.pop("SCCC_LIBRARY", None)
            return subprocess.run([sys.executable, "-B", "-c", code], env=variables, capture_output=True, text=True)

    def test_the_library_is_found(self):
        call = "print(sccc.format_info(1).k)"
        self.assertEqual(self.elsewhere(f"import sccc; {call}", SCCC_LIBRARY=LIBRARY).stdout, "5758\n")
        self.assertEqual(self.elsewhere(f"import sccc; sccc.load({LIBRARY!r}); {call}").stdout, "5758\n")
        self.assertEqual(
            self.elsewhere(f"import pathlib, sccc; sccc.load(pathlib.Path({LIBRARY!r})); {call}", SCCC_LIBRARY="/none").stdout,
            "5758\n",
        )
        self.assertIn("OSError", self.elsewhere(f"import sccc; {call}").stderr)
        self.assertIn("OSError", self.elsewhere(f"import sccc; {call}", SCCC_LIBRARY="/none").stderr)


class Numpy(Case):
    def test_arrays(self):
        block = numpy.frombuffer(seeded(5, 5758), dtype=numpy.uint8)
        codeword = sccc.encode(1, bytes(block))
        out = numpy.zeros(16200, dtype=numpy.uint8)
        self.assertTrue(numpy.shares_memory(numpy.asarray(sccc.encode(1, block, out=out)), out))
        self.assertEqual(bytes(out), bytes(codeword))
        self.assertEqual(sccc.encode(numpy.uint8(1), block.astype(bool)), codeword)
        self.assertEqual(sccc.encode(1, block.astype(numpy.int8)), codeword)
        self.assertEqual(sccc._address(sccc._view("block", block)), block.ctypes.data)

    def test_frame(self):
        labels = numpy.arange(sccc.FRAME_LABELS, dtype=numpy.uint32).reshape(16, 8100) % 16
        labels = labels.astype(numpy.uint8)
        slots = numpy.asarray(sccc.frame(13, 0, labels))
        self.assertEqual(slots.dtype, numpy.uint16)
        self.assertTrue((slots[320:] == labels.ravel()).all())
        self.assertTrue((numpy.asarray(sccc.section(labels, 3)) == labels[3]).all())
        out = numpy.zeros(sccc.FRAME_SLOTS, dtype=numpy.uint16)
        sccc.frame(13, 0, labels, out=out)
        self.assertTrue((out == slots).all())
        body = numpy.asarray(sccc.frame(13, numpy.uint8(1), labels))[320:].reshape(-1, 556)
        self.assertTrue((body[:, :540].ravel() == labels.ravel()).all())
        self.assertTrue((body[:, 540:] == sccc.PILOT).all())

    def test_shared_memory(self):
        block = numpy.frombuffer(seeded(5, 5758), dtype=numpy.uint8)
        memory = numpy.full((73, 120), 65535, dtype=numpy.uint16)
        encoder = sccc.SharedEncoder(memory)
        self.assertEqual(encoder.encode(1, block), sccc.encode(1, block))
        self.assertTrue(numpy.shares_memory(numpy.asarray(encoder.memory), memory))
        self.assertTrue((memory[:72].ravel() == [sccc.interleave(1, i) for i in range(8640)]).all())
        self.assertTrue((memory[72] == 65535).all())
        memory[0, 0] ^= 1
        self.assertRefused(3, encoder.encode, 1, block)

    def test_other_arrays(self):
        bits = numpy.zeros(2 * 5758, dtype=numpy.uint8)
        labels = bytes(sccc.FRAME_LABELS)
        read_only = numpy.zeros(16200, dtype=numpy.uint8)
        read_only.flags.writeable = False
        for call in (
            lambda: sccc.encode(1, bits[::2]),
            lambda: sccc.encode(1, numpy.zeros(5758)),
            lambda: sccc.encode(1, numpy.zeros(5758, dtype=numpy.int64)),
            lambda: sccc.encode(1, bits[:5758], out=read_only),
            lambda: sccc.section(numpy.asfortranarray(numpy.zeros((16, 8100), dtype=numpy.uint8)), 0),
            lambda: sccc.frame(1, 0, labels, out=numpy.zeros(sccc.FRAME_SLOTS, dtype=">u2")),
            lambda: sccc.frame(1, 0, labels, out=numpy.zeros(sccc.FRAME_SLOTS, dtype=numpy.float16)),
            lambda: sccc.SharedEncoder(numpy.zeros(8640, dtype=numpy.int16)),
            lambda: sccc.SharedEncoder(numpy.zeros(8640, dtype=">u2")),
            lambda: sccc.SharedEncoder(numpy.zeros(2 * 8640, dtype=numpy.uint16)[::2]),
        ):
            self.assertRaises(TypeError, call)
        self.assertRefused(2, sccc.encode, 1, numpy.zeros((16, 0), dtype=numpy.uint8))


if __name__ == "__main__":
    unittest.main()
