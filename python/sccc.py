"""The SCCC encoder of CCSDS 131.2-O-1 and of CCSDS 131.21-O-1 (SCCC-X, formats 28 to 37), over the shared object libsccc.so.

    import sccc

    block = bytes(sccc.format_info(13).k)
    labels = sccc.labels(13, sccc.encode(13, block))

Data. A bit is a byte, 0 or 1, a label a byte below 2^m, an octet of a transfer frame a byte. They are lent as any object with
the buffer protocol whose elements are one byte and lie in one piece: bytes, bytearray, memoryview, array.array, a numpy array of
uint8 or bool. Nothing is copied. A call that writes takes the memory for it as out= (and work=), or allocates it, and returns a
memoryview of what it wrote, which numpy.asarray takes as it is. Cuts are integers, in a list or anything else that yields them. Job
lines and captures are lent as bytes are, and come back as bytes. Coordinates of points are floats.

Refusals. A call makes the checks that include/sccc.h lists with it, in that order, and raises ScccError with the number of the
first one that fails; memory lent to it is then as it was. Numbers of any size may be given: 257 is not format 1, nor is
2^64 + 1, and 2^16 and -1 are no cuts. Memory of the wrong kind (of other elements, not in one piece, read-only where it is to be
written) raises TypeError, and memory that overlaps ValueError, before any check.

Formats 12, 14, 29 and 34 are provisional: their interleaver has rows that stand in for published ones, so their codewords are not
the standard's. format_info says so.

Calls may run in several threads at once, and do so without Python's global lock, as long as nothing else writes the memory of
one before it returns.

CPython 3.9 or newer, and nothing but its standard library.
"""

from __future__ import annotations

import ctypes
import math
import operator
import os
import struct
import sys
from array import array
from typing import Any, Iterable, Iterator, List, NamedTuple, Optional, SupportsIndex, Tuple, Union

if sys.version_info >= (3, 12):
    from collections.abc import Buffer
else:
    Buffer = Any

__all__ = [
    "FORMATS", "SYMBOLS", "SECTIONS", "FRAME_LABELS", "FRAME_SLOTS", "PILOT_FRAME_SLOTS", "HEADER_SLOTS", "SUBSECTION_LABELS",
    "SUBSECTION_SLOTS", "PILOT", "SEGMENTS", "LEAST_TRANSFER_FRAME", "MOST_TRANSFER_FRAME", "WAITING_MEMORY", "MAX_I",
    "LONGEST_OLD_LINE", "LONGEST_LINE", "LAST_CODE", "FIRST_POINT_FORMAT", "POINTS", "POINT_PLACES", "LONGEST_CAPTURE",
    "MEANINGS", "ScccError", "FormatInfo", "Step", "Run", "SegmentStates", "Segments", "Comparison", "Look", "Job", "Point",
    "Judgement", "SharedEncoder", "Slicer", "load", "format_info", "step", "run", "interleave", "encode", "encode_segments",
    "labels", "frame", "section", "compare", "job", "lengthen", "shorten", "point", "points", "constellation", "capture", "judge",
    "picture",
]

#: The formats are 1 to 37.
FORMATS = 37
#: Labels of a codeword.
SYMBOLS = 8100
#: Codewords of a frame.
SECTIONS = 16
#: Labels of a frame.
FRAME_LABELS = 129600
#: Slots of a frame without pilots, and of one with them.
FRAME_SLOTS = 129920
PILOT_FRAME_SLOTS = 133760
#: Slots of marker and descriptor, before the first label.
HEADER_SLOTS = 320
#: Labels that the pilots follow, and these labels with their sixteen pilots.
SUBSECTION_LABELS = 540
SUBSECTION_SLOTS = 556
#: What a pilot's slot holds.
PILOT = 258
#: Segments of a trellis' input, at most.
SEGMENTS = 16
#: Octets of a transfer frame, at least and at most.
LEAST_TRANSFER_FRAME = 223
MOST_TRANSFER_FRAME = 65536
#: Bytes of the memory in which a slicer's bits wait.
WAITING_MEMORY = 600000
#: The largest I: entries of an interleaver's memory that serves every format.
MAX_I = 65520
#: Bytes of a job line of the old form and of the longer one, at most.
LONGEST_OLD_LINE = 8
LONGEST_LINE = 19
#: Code numbers are 0 to 262,142.
LAST_CODE = 262142
#: Points, one for each label, and captures are of formats 33 to 37.
FIRST_POINT_FORMAT = 33
POINTS = 256
#: Places of symbols are below this.
POINT_PLACES = 133760
#: Bytes of a capture, at most: 8,100 lines of 34.
LONGEST_CAPTURE = 275400

#: What it means that the check of a number failed.
MEANINGS = {
    1: "the format is not 1 to 37, or for a point or a capture not 33 to 37",
    2: "an input list is not exactly as long as the call takes, or more than 600,000 bits are said to wait",
    3: "a bit is not 0 or 1, a label not below 2^m, a state not 0 to 3, an entry of a memory not its position's, "
    "or a point's slot not 0 to 255",
    4: "the workspace or a slicer's memory is too short",
    5: "the output is too short",
    6: "the job line is not well formed, or of the other form",
    7: "the pattern is not 0, 1 or 2",
    8: "the place or position is not inside",
    9: "the transfer frame does not have 223 to 65,536 octets",
    10: "the transfer frame is not as long as the channel's first",
    11: "K or more bits still wait",
    12: "a list has more than fifteen cuts",
    13: "a cut falls below the one before it, or lies beyond the input",
    14: "the pilot choice is not 0 or 1",
    15: "the interleaver's memory is too short",
    16: "the code number is above 262,142",
    17: "the job line has pilots or a code number, and cannot go back",
    18: "the capture is not 8,100 well-formed lines",
    19: "a coordinate of the capture is not a number from -2 to 2",
}


class ScccError(ValueError):
    """A refused call: the number of the first check that failed, and what that means."""

    def __init__(self, number: int) -> None:
        super().__init__(number)
        self.number = number
        self.meaning = MEANINGS.get(number, "a check that this module does not know")

    def __str__(self) -> str:
        return f"check {self.number}: {self.meaning}"


class FormatInfo(NamedTuple):
    """The parameters of an ACM format."""

    #: bits of a label
    m: int
    #: bits of a block
    k: int
    #: length of the interleaver, and bytes of the workspace
    i: int
    #: i / 120
    w: int
    #: bits of a codeword
    n: int
    #: whether the interleaver has rows that stand in for published ones
    provisional: bool
    #: bits of a block that go through the trellises, its first
    k1: int
    #: bits of a block that the BCH code covers: k is k1 + k2
    k2: int
    #: bits of a label that come from the trellises
    soft: int


class Step(NamedTuple):
    """A trellis step: its two output bits, and the state that follows."""

    systematic: int
    parity: int
    state: int


class Run(NamedTuple):
    """A trellis run: each bit and its parity in turn, and the state that it ends in."""

    out: memoryview
    state: int


class SegmentStates(NamedTuple):
    """Of each segment of a trellis' input: the state in which its run from zero ends, and its true starting state."""

    ended: Tuple[int, ...]
    started: Tuple[int, ...]


class Segments(NamedTuple):
    """A codeword that was encoded by segments, and the states of each trellis' segments, as many as there are."""

    codeword: memoryview
    outer: SegmentStates
    inner: SegmentStates


class Comparison(NamedTuple):
    """Whether two label lists are the same; if not, in how many bits they differ, and at which place first. Else both are 0."""

    same: bool
    count: int
    first: int


class Look(NamedTuple):
    """What a change of format would bring: blocks that the waiting bits would yield, and bits that would stay."""

    blocks: int
    bits: int


class Job(NamedTuple):
    """What a job line asks for. One of the old form has pilots 0 and is unscrambled."""

    format: int
    #: 0 all zeros, 1 all ones, 2 a single one at place 0
    pattern: int
    #: 0 for none, or 1
    pilots: int
    #: the code number, None where the job is unscrambled
    code: Optional[int]


class Point(NamedTuple):
    """The coordinates of a point: in-phase and quadrature."""

    i: float
    q: float


class Judgement(NamedTuple):
    """How many samples of a capture agree with their labels, differ from them and are lost, 8,100 in all."""

    agreeing: int
    differing: int
    lost: int
    #: the first place at which a sample differs, None where none does
    first: Optional[int]


def load(path: Union[str, "os.PathLike[str]", None] = None) -> None:
    """Loads the shared object: the one named, else that of the environment variable SCCC_LIBRARY, else build/libsccc.so beside
    this module's directory. The first call does it where this was not called before."""
    global _library
    name = path or os.environ.get("SCCC_LIBRARY") or _BUILT
    library = ctypes.CDLL(os.fspath(name))
    for call, (answer, arguments) in _PROTOTYPES.items():
        function = getattr(library, call)
        function.restype, function.argtypes = answer, arguments
    _library = library


def format_info(format: SupportsIndex) -> FormatInfo:
    """The parameters of an ACM format. Checks: 1."""
    r = _loaded().sccc_format(_number(format))
    _pass(r.number)
    return FormatInfo(r.m, r.k, r.i, r.w, r.n, r.provisional != 0, r.k1, r.k2, r.soft)


def step(state: SupportsIndex, bit: SupportsIndex) -> Step:
    """One trellis step from the state 2 * x0 + x1 on a bit. Checks: 3, of the state and of the bit."""
    r = _loaded().sccc_step(_number(state), _number(bit))
    _pass(r.number)
    return Step(r.systematic, r.parity, r.state)


def run(state: SupportsIndex, bits: Buffer, *, out: Optional[Buffer] = None) -> Run:
    """A trellis run from the state 2 * x0 + x1 over bits, not terminated. What it writes are the first two bytes of out for each bit.

    Checks: 3, the state is 0 to 3 and each bit 0 or 1; 5, out has at least two bytes for each bit.
    """
    given = _view("bits", bits)
    result = _view("out", bytearray(2 * len(given)) if out is None else out, writable=True)
    r = _loaded().sccc_run(_number(state), *_lent(given, result, written=1))
    _pass(r.number)
    return Run(result[: 2 * len(given)], r.state)


def interleave(format: SupportsIndex, position: SupportsIndex) -> int:
    """The interleaved position of a position in the upper register. Checks: 1; 8, the position is below I."""
    r = _loaded().sccc_interleave(_number(format), _number(position))
    _pass(r.number)
    return r.position


def encode(format: SupportsIndex, block: Buffer, *, work: Optional[Buffer] = None, out: Optional[Buffer] = None) -> memoryview:
    """The codeword of an information block: the first N bytes of out.

    Checks: 1; 2, the block has K bits; 3, each is 0 or 1; 4, work has at least I bytes; 5, out has at least N.
    Afterwards the first I bytes of work are the outer kept bits before interleaving; what lies behind, there and in out, is as it was.
    """
    sizes = _loaded().sccc_format(_number(format))
    given, workspace, codeword = _encode_views(sizes, block, work, out)
    _pass(_loaded().sccc_encode(_number(format), *_lent(given, workspace, codeword, written=2)))
    return codeword[: sizes.n]


def encode_segments(
    format: SupportsIndex,
    block: Buffer,
    outer_cuts: Iterable[SupportsIndex] = (),
    inner_cuts: Iterable[SupportsIndex] = (),
    *,
    work: Optional[Buffer] = None,
    out: Optional[Buffer] = None,
) -> Segments:
    """The codeword of an information block, encoded by segments (section 6), and their states: the outer cuts part the first K1 bits
    of the block, the inner ones the interleaved bits. n cuts make n + 1 segments, and equal cuts an empty one; each tuple has n + 1
    states.

    Checks: 1 to 5, as encode; 12, each list has at most fifteen cuts; 13, no cut is below the one before it, none of the outer ones
    above K1, and none of the inner ones above I. What out and work hold afterwards is what encode leaves there.
    """
    sizes = _loaded().sccc_format(_number(format))
    given, workspace, codeword = _encode_views(sizes, block, work, out)
    outer, inner = _cuts(outer_cuts), _cuts(inner_cuts)
    lent = _lent(given, workspace, codeword, written=2) + _lent(outer, inner)
    r = _loaded().sccc_encode_segments(_number(format), *lent)
    _pass(r.number)
    return Segments(codeword[: sizes.n], _states(r.outer, len(outer) + 1), _states(r.inner, len(inner) + 1))


def labels(format: SupportsIndex, codeword: Buffer, *, out: Optional[Buffer] = None) -> memoryview:
    """The labels of a codeword: the first 8,100 bytes of out.

    Checks: 1; 2, the codeword has N bits; 3, each is 0 or 1; 5, out has at least 8,100 bytes.
    """
    given = _view("codeword", codeword)
    result = _view("out", bytearray(SYMBOLS) if out is None else out, writable=True)
    _pass(_loaded().sccc_labels(_number(format), *_lent(given, result, written=1)))
    return result[:SYMBOLS]


def frame(format: SupportsIndex, pilots: SupportsIndex, labels: Buffer, *, out: Optional[Buffer] = None) -> memoryview:
    """The frame of sixteen codewords' labels, without pilots (0) or with them (1): the first 129,920 slots of out, with pilots the
    first 133,760. The elements of out are unsigned and of 16 bits (array.array of type H, numpy's uint16).

    With pilots, slot s is a pilot's exactly if s >= 320 and (s - 320) % 556 >= 540.

    Checks: 1; 14, pilots is 0 or 1; 2, there are 129,600 labels; 3, each is below 2^m; 5, out has at least so many slots.
    """
    given = _view("labels", labels)
    choice = _number(pilots)
    length = PILOT_FRAME_SLOTS if choice == 1 else FRAME_SLOTS
    slots = _view("out", array("H", bytes(2 * length)) if out is None else out, kind="H", writable=True)
    _pass(_loaded().sccc_frame(_number(format), choice, *_lent(given, slots, written=1)))
    return slots[:length]


def section(labels: Buffer, place: SupportsIndex) -> memoryview:
    """The codeword section at a place from 0 to 15: 8,100 of the caller's own labels, to read, or to write if they can be.

    Checks: 2, there are 129,600 labels; 8, the place is 0 to 15.
    """
    given = _view("labels", labels)
    r = _loaded().sccc_section(*_lent(given), _number(place))
    _pass(r.number)
    return given[r.start : r.start + r.length]


def compare(format: SupportsIndex, a: Buffer, b: Buffer) -> Comparison:
    """Two lists of 8,100 labels held against each other. The bits in which two labels differ are counted, and added over all places.

    Checks: 1; 2, each has 8,100 labels; 3, each label of either is below 2^m.
    """
    r = _loaded().sccc_compare(_number(format), *_lent(_view("a", a), _view("b", b)))
    _pass(r.number)
    return Comparison(r.same != 0, r.count, r.first)


def job(line: Buffer) -> Job:
    """What a job line asks for, b"13,0\\n" or in the longer form b"13,0,0,-\\n".

    Checks: 6, it is a job line; 1; 7, the pattern is 0, 1 or 2; 14, pilots is 0 or 1; 16, the code number is at most 262,142.
    """
    r = _loaded().sccc_job(*_lent(_view("line", line)))
    _pass(r.number)
    return Job(r.format, r.pattern, r.pilots, None if r.code == _UNSCRAMBLED else r.code)


def lengthen(line: Buffer) -> bytes:
    """A job line of the old form in the longer one, with pilots 0 and - for the code number. There is room for it, so 5 never fails.

    Checks: 6, it is a job line of the old form; 1; 7.
    """
    return _moved(_loaded().sccc_job_lengthen, line, LONGEST_LINE)


def shorten(line: Buffer) -> bytes:
    """A job line of the longer form back in the old one. There is room for it, so 5 never fails.

    Checks: 6, it is a job line of the longer form; 1; 7; 14; 16; 17, pilots is 0 and the job unscrambled.
    """
    return _moved(_loaded().sccc_job_shorten, line, LONGEST_OLD_LINE)


def point(format: SupportsIndex, slot: SupportsIndex, code: Optional[SupportsIndex], place: SupportsIndex) -> Point:
    """The point of a symbol of formats 33 to 37 (004, table 5-2), turned as the physical-layer randomizer turns the symbol at the
    place (annex E), or not turned where code is None. A place counts the symbols behind a frame's header, pilots among them: slot s
    has place s - 320.

    Checks: 1, the format is 33 to 37; 3, the slot is at most 255; 16, the code number is at most 262,142; 8, the place is below
    133,760.
    """
    r = _loaded().sccc_point(_number(format), _number(slot), _code(code), _number(place))
    _pass(r.number)
    return Point(r.i, r.q)


def points(
    format: SupportsIndex, slots: Buffer, code: Optional[SupportsIndex], place: SupportsIndex, *, out: Optional[Buffer] = None
) -> memoryview:
    """The points of symbols in a row, the first at the place: of out the first two numbers for each slot, in-phase and quadrature.
    The slots are of 16 bits, as a frame's, and the elements of out doubles (array.array of type d, numpy's float64).

    Of a frame without pilots slots[320:] may go into one call, at place 0. A pilot has no point, so with pilots a call takes at most
    the 540 labels between two lots of them.

    Checks: 1, the format is 33 to 37; 3, each slot is at most 255; 16, the code number is at most 262,142; 8, place and number of
    slots add up to at most 133,760; 5, out has at least two numbers for each slot.
    """
    given = _view("slots", slots, kind="H")
    result = _view("out", array("d", bytes(16 * len(given))) if out is None else out, kind="d", writable=True)
    lent = _lent(given, result, written=1)
    _pass(_loaded().sccc_points(_number(format), *lent[:2], _code(code), _number(place), *lent[2:]))
    return result[: 2 * len(given)]


def constellation() -> str:
    """A drawing of table 5-2 to scale, as the text of an SVG file: the points that are not turned, each with its label, on their
    eight rings. It is kept as docs/constellation.svg."""
    points = _points()
    title = "256APSK, the constellation of formats 33 to 37"
    plot = _Plot(_EXTENT)
    parts = [_drawn_paper(title, f"{title}: points and their labels, hexadecimal", 1440), *_drawn_grid(plot)]
    parts += [_drawn_dots(plot, points, 'fill="#1f4e9c"'), _drawn_labels(plot, points)]
    return "\n".join([*parts, "</svg>", ""])


def capture(samples: Iterable[Optional[Tuple[float, float]]]) -> bytes:
    """The text of a capture, which judge takes: a line for each sample, which is a pair of coordinates, in-phase first, or None where
    it is lost. Any pairs of floats are written, any number of them: what is no capture is refused by judge."""
    return "".join(map(_line, samples)).encode()


def judge(format: SupportsIndex, labels: Buffer, capture: Buffer) -> Judgement:
    """What a modulator sent, held against the 8,100 labels of one codeword of formats 33 to 37. A capture is a text of 8,100 lines, one
    for each label, each ended by a line feed: LOST, or the two coordinates of a sample, in-phase first, with a comma between, each the
    16 hexadecimal digits of the float's bits, heaviest first, as in b"3FE3C01A36E2EB1C,BFB1CAC083126E98\\n".

    A sample is read as the label whose point is nearest, and of labels that are equally near as the lowest. Points are as
    point(format, label, None, 0) gives them, so the samples of a scrambled unit have to be turned back before.

    Checks: 1, the format is 33 to 37; 2, there are 8,100 labels; 18, capture is 8,100 such lines and nothing else; 19, each coordinate
    is a number from -2 to 2. Every byte is a label of these formats, so 3 never fails.
    """
    given, text = _view("labels", labels), _view("capture", capture)
    r = _loaded().sccc_judge(_number(format), *_lent(given, text))
    _pass(r.number)
    return Judgement(r.agreeing, r.differing, r.lost, None if r.none else r.first)


def picture(format: SupportsIndex, labels: Buffer, capture: Buffer) -> str:
    """A drawing of a capture over the constellation, as the text of an SVG file: a dot for each sample, whose colour says whether it
    agrees with its label, differs or is lost, and how many do. A sample that differs has a line to the point that was due, and one
    that is lost, since it has no coordinates, its dot on the point of its label.

    Which label a sample is read as is worked out here once more, by Python's own floats. Where this comes to another judgement than
    judge, RuntimeError is raised, and nothing is drawn.

    Checks: those of judge.
    """
    judgement = judge(format, labels, capture)
    points, given = _points(), bytes(_view("labels", labels))
    samples = [_sample(line) for line in bytes(_view("capture", capture)).decode().splitlines()]
    read = [None if sample is None else _nearest(points, sample) for sample in samples]
    places = {
        "agreeing": [place for place, label in enumerate(given) if read[place] == label],
        "differing": [place for place, label in enumerate(given) if read[place] not in (label, None)],
        "lost": [place for place, label in enumerate(read) if label is None],
    }
    found = Judgement(*map(len, places.values()), first=min(places["differing"], default=None))
    if found != judgement:
        raise RuntimeError(f"the library gives {judgement}, and by Python's floats it is {found}: nothing is drawn")

    due = [points[label] for label in given]
    dots = [due[place] if sample is None else sample for place, sample in enumerate(samples)]
    plot = _Plot(_EXTENT if all(abs(x) <= _EXTENT for dot in dots for x in dot) else _LARGEST)
    title = f"A capture of format {operator.index(format)} over the constellation"
    parts = [_drawn_paper(title, title, 1540), *_drawn_grid(plot)]
    parts.append(_drawn_misses(plot, [(dots[place], due[place]) for place in places["differing"]]))
    parts += [_drawn_samples(plot, kind, [dots[place] for place in places[kind]]) for kind in places]
    parts += [_drawn_dots(plot, points, 'fill="none" stroke="#222"'), _drawn_legend(judgement)]
    return "\n".join([*parts, "</svg>", ""])


class SharedEncoder:
    """An encoder for channels that share the memory of one expanded interleaver.

        encoder = sccc.SharedEncoder()
        codeword_a = encoder.encode(13, block_a)
        codeword_b = encoder.encode(27, block_b)

    Whatever the channels ask for, in whatever order, a call gives the codeword and workspace that encode gives, and is refused as if
    the others were not there. memory, of 16-bit entries, may be lent; else it is made, long enough for every format. One thread uses
    an encoder at a time.
    """

    def __init__(self, memory: Optional[Buffer] = None) -> None:
        self._memory = _view("memory", array("H", bytes(2 * MAX_I)) if memory is None else memory, kind="H", writable=True)
        self._held = 0

    @property
    def held(self) -> int:
        """The size I that the memory holds, 0 for none."""
        return self._held

    @property
    def memory(self) -> memoryview:
        """The memory: of the first held entries, entry i is the interleaved position of i."""
        return self._memory

    def encode(
        self, format: SupportsIndex, block: Buffer, *, work: Optional[Buffer] = None, out: Optional[Buffer] = None
    ) -> memoryview:
        """The codeword of an information block: the first N bytes of out. Where the memory holds another size, or none, the
        interleaver of the format is first expanded there.

        Checks: 1 to 5, as encode; 15, the memory has at least I entries; 3, where it holds the format's I, each of its first I
        entries is still its position's. What out and work hold afterwards is what encode leaves there.
        """
        sizes = _loaded().sccc_format(_number(format))
        given, workspace, codeword = _encode_views(sizes, block, work, out)
        lent = _lent(given, workspace, codeword, self._memory, written=3)
        r = _loaded().sccc_encode_shared(_number(format), *lent, self._held)
        _pass(r.number)
        self._held = r.held
        return codeword[: sizes.n]


class Slicer:
    """A channel's slicer: takes transfer frames, and yields information blocks of a format, which may change between blocks.

        slicer = sccc.Slicer(13)
        for frame in frames:
            slicer.push(frame)
            for block in slicer:
                codeword = sccc.encode(slicer.format, block)

    The blocks, and behind them the bits that wait, are the stream of the frames: of each the marker 1ACFFC1D, then the frame,
    randomized. A refused call changes nothing. A format that is none is refused by the calls, not when the slicer is made. The
    memory in which bits wait is the slicer's own, so 2, 3 and 4 never fail. One thread uses a slicer at a time.
    """

    def __init__(self, format: SupportsIndex) -> None:
        self._slicer = _loaded().sccc_slicer_new(_number(format))
        self._memory = _view("memory", bytearray(WAITING_MEMORY), writable=True)

    @property
    def format(self) -> int:
        """The ACM format."""
        return self._slicer.format

    @property
    def frame_length(self) -> int:
        """Octets of the channel's frames, 0 before the first."""
        return self._slicer.frame_length

    @property
    def waiting(self) -> int:
        """Bits that wait."""
        return self._slicer.waiting

    def push(self, frame: Buffer) -> None:
        """Takes a transfer frame.

        Checks: 1; 9, the frame has 223 to 65,536 octets; 10, as many as the channel's first; 11, fewer than K bits wait.
        """
        given = _view("frame", frame)
        r = _loaded().sccc_slicer_push(self._slicer, *_lent(given, self._memory, written=1))
        _pass(r.number)
        self._slicer = r.slicer

    def block(self, *, out: Optional[Buffer] = None) -> Optional[memoryview]:
        """The next block, the first K bytes of out; None, and nothing is changed, where fewer than K bits wait.

        Checks: 1; 5, out has at least K bytes.
        """
        k = _loaded().sccc_format(self.format).k
        result = _view("out", bytearray(k) if out is None else out, writable=True)
        r = _loaded().sccc_slicer_block(self._slicer, *_lent(self._memory, result, written=2))
        _pass(r.number)
        self._slicer = r.slicer
        return None if r.wait else result[:k]

    def change(self, format: SupportsIndex) -> None:
        """Commands a format: the blocks from now on have its K, and the bits that wait are kept for them, in order.

        Checks: 1, of the slicer's format and of the commanded one.
        """
        r = _loaded().sccc_slicer_change(self._slicer, _number(format))
        _pass(r.number)
        self._slicer = r.slicer

    def look(self, format: SupportsIndex) -> Look:
        """What commanding a format would bring: how many blocks the waiting bits would yield, and how many bits would stay.
        Nothing is altered.

        Checks: 1, of the slicer's format and of the one asked about.
        """
        r = _loaded().sccc_slicer_look(self._slicer, _number(format))
        _pass(r.number)
        return Look(r.blocks, r.bits)

    def __iter__(self) -> Iterator[memoryview]:
        """Blocks, until one would have to wait."""
        return iter(self.block, None)


# The C interface, as include/sccc.h declares it.


class _FormatInfo(ctypes.Structure):
    _fields_ = [(name, ctypes.c_uint64) for name in ("number", "m", "k", "i", "w", "n", "provisional", "k1", "k2", "soft")]


class _Stepped(ctypes.Structure):
    _fields_ = [(name, ctypes.c_uint64) for name in ("number", "systematic", "parity", "state")]


class _RunAnswer(ctypes.Structure):
    _fields_ = [(name, ctypes.c_uint64) for name in ("number", "state")]


class _Interleaved(ctypes.Structure):
    _fields_ = [(name, ctypes.c_uint64) for name in ("number", "position")]


class _SegmentStates(ctypes.Structure):
    _fields_ = [(name, ctypes.c_uint8 * SEGMENTS) for name in ("ended", "started")]


class _SegmentsAnswer(ctypes.Structure):
    _fields_ = [("number", ctypes.c_uint64), ("outer", _SegmentStates), ("inner", _SegmentStates)]


class _SharedAnswer(ctypes.Structure):
    _fields_ = [(name, ctypes.c_uint64) for name in ("number", "held")]


class _SectionRange(ctypes.Structure):
    _fields_ = [(name, ctypes.c_uint64) for name in ("number", "start", "length")]


class _Comparison(ctypes.Structure):
    _fields_ = [(name, ctypes.c_uint64) for name in ("number", "same", "count", "first")]


class _Slicer(ctypes.Structure):
    _fields_ = [(name, ctypes.c_uint64) for name in ("format", "frame_length", "waiting")]


class _SlicerAnswer(ctypes.Structure):
    _fields_ = [("number", ctypes.c_uint64), ("slicer", _Slicer)]


class _BlockAnswer(ctypes.Structure):
    _fields_ = [("number", ctypes.c_uint64), ("wait", ctypes.c_uint64), ("slicer", _Slicer)]


class _LookAnswer(ctypes.Structure):
    _fields_ = [(name, ctypes.c_uint64) for name in ("number", "blocks", "bits")]


class _JobAnswer(ctypes.Structure):
    _fields_ = [(name, ctypes.c_uint64) for name in ("number", "format", "pattern", "pilots", "code")]


class _LineAnswer(ctypes.Structure):
    _fields_ = [(name, ctypes.c_uint64) for name in ("number", "length")]


class _PointAnswer(ctypes.Structure):
    _fields_ = [("number", ctypes.c_uint64), ("i", ctypes.c_double), ("q", ctypes.c_double)]


class _Judgement(ctypes.Structure):
    _fields_ = [(name, ctypes.c_uint64) for name in ("number", "agreeing", "differing", "lost", "none", "first")]


# The code number of what is unscrambled.
_UNSCRAMBLED = 2**64 - 1

_NUMBER = [ctypes.c_uint64]
_SLICE = [ctypes.c_void_p, ctypes.c_size_t]
_PROTOTYPES = {
    "sccc_format": (_FormatInfo, _NUMBER),
    "sccc_step": (_Stepped, _NUMBER + _NUMBER),
    "sccc_run": (_RunAnswer, _NUMBER + _SLICE + _SLICE),
    "sccc_interleave": (_Interleaved, _NUMBER + _NUMBER),
    "sccc_encode": (ctypes.c_uint8, _NUMBER + _SLICE + _SLICE + _SLICE),
    "sccc_encode_segments": (_SegmentsAnswer, _NUMBER + _SLICE + _SLICE + _SLICE + _SLICE + _SLICE),
    "sccc_encode_shared": (_SharedAnswer, _NUMBER + _SLICE + _SLICE + _SLICE + _SLICE + _NUMBER),
    "sccc_labels": (ctypes.c_uint8, _NUMBER + _SLICE + _SLICE),
    "sccc_frame": (ctypes.c_uint8, _NUMBER + _NUMBER + _SLICE + _SLICE),
    "sccc_section": (_SectionRange, _SLICE + _NUMBER),
    "sccc_compare": (_Comparison, _NUMBER + _SLICE + _SLICE),
    "sccc_slicer_new": (_Slicer, _NUMBER),
    "sccc_slicer_push": (_SlicerAnswer, [_Slicer] + _SLICE + _SLICE),
    "sccc_slicer_block": (_BlockAnswer, [_Slicer] + _SLICE + _SLICE),
    "sccc_slicer_change": (_SlicerAnswer, [_Slicer] + _NUMBER),
    "sccc_slicer_look": (_LookAnswer, [_Slicer] + _NUMBER),
    "sccc_job": (_JobAnswer, _SLICE),
    "sccc_job_lengthen": (_LineAnswer, _SLICE + _SLICE),
    "sccc_job_shorten": (_LineAnswer, _SLICE + _SLICE),
    "sccc_point": (_PointAnswer, _NUMBER + _NUMBER + _NUMBER + _NUMBER),
    "sccc_points": (ctypes.c_uint8, _NUMBER + _SLICE + _NUMBER + _NUMBER + _SLICE),
    "sccc_judge": (_Judgement, _NUMBER + _SLICE + _SLICE),
}
_BUILT = os.path.join(os.path.dirname(os.path.dirname(os.path.abspath(__file__))), "build", "libsccc.so")
_library: Optional[ctypes.CDLL] = None


def _loaded() -> ctypes.CDLL:
    if _library is None:
        load()
    assert _library is not None
    return _library


def _pass(number: int) -> None:
    if number != 0:
        raise ScccError(number)


def _number(value: SupportsIndex) -> int:
    """A number as 64 bits. One that has no place there becomes the largest that has, which every check refuses as it would the
    number itself; ctypes would cut it to another."""
    number = operator.index(value)
    return number if 0 <= number < 2**64 else 2**64 - 1


def _code(code: Optional[SupportsIndex]) -> int:
    """A code number, or the one that stands for none. A number that is that one by chance becomes another that is too large."""
    return _UNSCRAMBLED if code is None else min(_number(code), _UNSCRAMBLED - 1)


def _encode_views(sizes: _FormatInfo, block: Buffer, work: Optional[Buffer], out: Optional[Buffer]) -> List[memoryview]:
    """The block, the workspace and the output of a call that encodes."""
    return [
        _view("block", block),
        _view("work", bytearray(sizes.i) if work is None else work, writable=True),
        _view("out", bytearray(sizes.n) if out is None else out, writable=True),
    ]


def _cuts(values: Iterable[SupportsIndex]) -> memoryview:
    """Cuts as numbers of 16 bits. One that has no place there becomes the largest that has, which is no cut of any input either."""
    numbers = [operator.index(value) for value in values]
    return _view("cuts", array("H", [number if 0 <= number < 2**16 else 2**16 - 1 for number in numbers]), kind="H")


def _states(states: _SegmentStates, segments: int) -> SegmentStates:
    return SegmentStates(tuple(states.ended[:segments]), tuple(states.started[:segments]))


def _moved(move: Any, line: Buffer, longest: int) -> bytes:
    """The line that a move writes, of so many bytes at most."""
    given = _view("line", line)
    result = _view("out", bytearray(longest), writable=True)
    r = move(*_lent(given, result, written=1))
    _pass(r.number)
    return bytes(result[: r.length])


def _line(sample: Optional[Tuple[float, float]]) -> str:
    """A sample's line in a capture."""
    if sample is None:
        return "LOST\n"
    digits = struct.pack(">dd", *sample).hex().upper()
    return f"{digits[:16]},{digits[16:]}\n"


def _sample(line: str) -> Optional[Point]:
    """The sample of a line in a capture."""
    return None if line == "LOST" else Point(*struct.unpack(">dd", bytes.fromhex(line.replace(",", ""))))


def _points() -> List[Point]:
    """The points of all labels, not turned."""
    return [point(FIRST_POINT_FORMAT, label, None, 0) for label in range(POINTS)]


def _nearest(points: List[Point], sample: Point) -> int:
    """The label whose point is nearest, the lowest of those that are equally near. Each operation rounds to a double."""
    distances = [(sample.i - i) * (sample.i - i) + (sample.q - q) * (sample.q - q) for i, q in points]
    return distances.index(min(distances))


_KINDS = {"B": ("B", "b", "c", "?"), "H": ("H",), "d": ("d",)}
_DUE = {"B": "bytes", "H": "16-bit slots (H)", "d": "doubles (d)"}


def _view(name: str, owner: Buffer, kind: str = "B", writable: bool = False) -> memoryview:
    """The memory of an object as a list of bytes (B), slots (H) or doubles (d), not copied."""
    try:
        view = memoryview(owner)
    except TypeError:
        raise TypeError(f"{name}: {type(owner).__name__} lends no memory; bytes, bytearray or an array do") from None
    if view.format.lstrip("@=<") not in _KINDS[kind]:
        raise TypeError(f"{name}: elements of type {view.format!r}, and {_DUE[kind]} are due")
    if not view.c_contiguous:
        raise TypeError(f"{name}: the elements do not lie in one piece")
    if writable and view.readonly:
        raise TypeError(f"{name}: the memory is read-only")
    if view.nbytes == 0:
        return memoryview(bytearray()).cast(kind)
    return view.cast("B").cast(kind)


def _lent(*views: memoryview, written: int = 0) -> List[int]:
    """The address and the length of each view, for a call that writes the last so many of them. The views hold the memory in place."""
    starts = [_address(view) for view in views]
    arguments = []
    for i, (start, view) in enumerate(zip(starts, views)):
        if start % view.itemsize != 0:
            raise ValueError(f"elements of {view.itemsize} bytes are not aligned to as many")
        for j in range(len(views) - written, len(views)):
            if i != j and start < starts[j] + views[j].nbytes and starts[j] < start + view.nbytes:
                raise ValueError("memory that the call writes overlaps other memory lent to it")
        arguments += [start, len(view)]
    return arguments


class _PyBuffer(ctypes.Structure):
    """Python's own account of a buffer, Py_buffer; only the address is read."""

    _fields_ = [
        ("buf", ctypes.c_void_p),
        ("obj", ctypes.c_void_p),
        ("len", ctypes.c_ssize_t),
        ("itemsize", ctypes.c_ssize_t),
        ("readonly", ctypes.c_int),
        ("ndim", ctypes.c_int),
        ("format", ctypes.c_void_p),
        ("shape", ctypes.c_void_p),
        ("strides", ctypes.c_void_p),
        ("suboffsets", ctypes.c_void_p),
        ("internal", ctypes.c_void_p),
    ]


_get_buffer = ctypes.PYFUNCTYPE(ctypes.c_int, ctypes.py_object, ctypes.POINTER(_PyBuffer), ctypes.c_int)(
    ("PyObject_GetBuffer", ctypes.pythonapi)
)
_release_buffer = ctypes.PYFUNCTYPE(None, ctypes.POINTER(_PyBuffer))(("PyBuffer_Release", ctypes.pythonapi))


def _address(view: memoryview) -> int:
    """Where the memory of a view begins, null if there is none. ctypes has this only for memory that can be written."""
    if view.nbytes == 0:
        return 0
    buffer = _PyBuffer()
    _get_buffer(view, buffer, 0)
    address = buffer.buf
    _release_buffer(buffer)
    return address


# The drawings. A plot begins here on its sheet, and is so wide and so high.
_LEFT, _TOP = 100, 80
_SIDE = 1260
# What it reaches to along either axis: for the constellation, and for the largest coordinates of a capture.
_EXTENT = 1.5
_LARGEST = 2.0
_RINGS = 8
# The dots of a capture's samples: their colour, from a palette for the colour-blind too, and their width.
_SAMPLES = {"agreeing": ("#56b4e9", 4), "differing": ("#d55e00", 8), "lost": ("#000", 10)}


class _Plot(NamedTuple):
    """A plot that reaches so far along either axis, and where it has its coordinates on the sheet."""

    extent: float

    @property
    def scale(self) -> float:
        return _SIDE / (2 * self.extent)

    @property
    def numbered(self) -> List[float]:
        """The fifths along an axis."""
        last = int(5 * self.extent)
        return [fifths / 5 for fifths in range(-last, last + 1)]

    def across(self, i: float) -> float:
        return _LEFT + self.scale * (self.extent + i)

    def down(self, q: float) -> float:
        return _TOP + self.scale * (self.extent - q)


def _group(attributes: str, parts: List[str]) -> str:
    return "\n".join([f"<g {attributes}>", *parts, "</g>"])


def _drawn_paper(title: str, heading: str, height: int) -> str:
    """The beginning of the file, the sheet and what stands over the plot."""
    return f"""\
<svg xmlns="http://www.w3.org/2000/svg" width="1400" height="{height}" viewBox="0 0 1400 {height}" font-family="sans-serif" fill="#222">
<title>{title}</title>
<rect width="1400" height="{height}" fill="#fff"/>
<text x="{_LEFT + _SIDE / 2:.0f}" y="48" font-size="28" text-anchor="middle">{heading}</text>"""


def _drawn_grid(plot: _Plot) -> List[str]:
    """What the points stand on."""
    return [_drawn_axes(plot), _drawn_numbers(plot), _drawn_rings(plot)]


def _drawn_axes(plot: _Plot) -> str:
    """The plot's border, the axes through its middle, and marks along the border where the numbers stand."""
    bottom = _TOP + _SIDE
    marks = " ".join(f"M {plot.across(x):.0f} {bottom} v -8 M {_LEFT} {plot.down(x):.0f} h 8" for x in plot.numbered)
    parts = [
        f'<rect x="{_LEFT}" y="{_TOP}" width="{_SIDE}" height="{_SIDE}"/>',
        f'<path d="M {_LEFT} {plot.down(0):.0f} h {_SIDE} M {plot.across(0):.0f} {_TOP} v {_SIDE}"/>',
        f'<path d="{marks}"/>',
    ]
    return _group('id="axes" fill="none" stroke="#bbb"', parts)


def _drawn_numbers(plot: _Plot) -> str:
    """The axes' names, and the numbers along the border."""
    bottom = _TOP + _SIDE
    parts = [
        f'<text x="{plot.across(0):.0f}" y="{bottom + 66}" font-size="24">in-phase</text>',
        f'<text transform="translate(36 {plot.down(0):.0f}) rotate(-90)" font-size="24">quadrature</text>',
    ]
    for x in plot.numbered:
        number = f"{x:.1f}".replace("-", "\N{MINUS SIGN}")
        parts.append(f'<text x="{plot.across(x):.0f}" y="{bottom + 28}">{number}</text>')
        parts.append(f'<text x="{_LEFT - 12}" y="{plot.down(x) + 6:.0f}" text-anchor="end">{number}</text>')
    return _group('id="numbers" font-size="18" text-anchor="middle"', parts)


def _drawn_rings(plot: _Plot) -> str:
    """Circles whose radii are as 1 to 3, 5 and so on to 15, for a mean energy of 1 (004, 5.2.3)."""
    circles = [f'<circle r="{plot.scale * (2 * k - 1) / math.sqrt(127):.3f}"/>' for k in range(1, _RINGS + 1)]
    middle = f"translate({plot.across(0):.0f} {plot.down(0):.0f})"
    return _group(f'id="rings" fill="none" stroke="#bbb" transform="{middle}"', circles)


def _drawn_dots(plot: _Plot, points: List[Point], style: str) -> str:
    dots = [f'<circle cx="{plot.across(p.i):.3f}" cy="{plot.down(p.q):.3f}" r="5"/>' for p in points]
    return _group(f'id="dots" {style}', dots)


def _drawn_labels(plot: _Plot, points: List[Point]) -> str:
    """Each label outside its dot, between the rings."""
    texts = []
    for label, p in enumerate(points):
        away = 1 + 0.062 / math.hypot(p.i, p.q)
        texts.append(f'<text x="{plot.across(away * p.i):.1f}" y="{plot.down(away * p.q) + 7:.1f}">{label:02X}</text>')
    return _group('id="labels" font-family="monospace" font-size="20" text-anchor="middle"', texts)


def _drawn_samples(plot: _Plot, kind: str, dots: List[Point]) -> str:
    """The samples of a kind, in one path: a line of no length with round ends is a dot."""
    colour, width = _SAMPLES[kind]
    marks = "\n".join(f"M{plot.across(p.i):.1f} {plot.down(p.q):.1f}h0" for p in dots)
    return f'<path id="{kind}" fill="none" stroke="{colour}" stroke-width="{width}" stroke-linecap="round" d="{marks}"/>'


def _drawn_misses(plot: _Plot, misses: List[Tuple[Point, Point]]) -> str:
    """Thin lines from samples that differ to the points that were due."""
    marks = "\n".join(
        f"M{plot.across(dot.i):.1f} {plot.down(dot.q):.1f}L{plot.across(due.i):.1f} {plot.down(due.q):.1f}" for dot, due in misses
    )
    return f'<path id="misses" fill="none" stroke="{_SAMPLES["differing"][0]}" d="{marks}"/>'


def _drawn_legend(judgement: Judgement) -> str:
    """What the dots' colours say, and how many there are of each."""
    first = "" if judgement.first is None else f", the first at place {judgement.first}: lines lead to the points that were due"
    lines = (
        f"{judgement.agreeing} agreeing",
        f"{judgement.differing} differing{first}",
        f"{judgement.lost} lost, on the points of their labels",
    )
    parts = []
    for y, (colour, width), line in zip((1450, 1480, 1510), _SAMPLES.values(), lines):
        parts.append(f'<circle cx="{_LEFT + 8}" cy="{y - 7}" r="{width}" fill="{colour}"/>')
        parts.append(f'<text x="{_LEFT + 28}" y="{y}">{line}</text>')
    return _group('id="legend" font-size="22"', parts)
