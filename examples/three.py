"""A frame from three stored ones, which are the frames of three lists of transfer frames of 1,115 test octets, of format 13 without
pilots or of the format and the choice of pilots that are given: their exclusive or, slot by slot. Prints its digest, and in how many
slots it differs from the frame of the list that is the exclusive or of the three, octet by octet.
    PYTHONPATH=python python3 examples/three.py
    PYTHONPATH=python python3 examples/three.py 37 1"""
import sys

import sccc


def transfer_frame(seed, length):
    octets = bytearray(length)
    for i in range(length):
        seed = (seed * 1103515245 + 12345) % 2147483648
        octets[i] = seed // 65536 % 256
    return octets


def digest(slots):
    d = 1
    for slot in slots:
        d = (d * 1000003 + slot + 1) % 4294967291
    return d


FORMAT = int(sys.argv[1]) if len(sys.argv) > 1 else 13
PILOTS = int(sys.argv[2]) if len(sys.argv) > 2 else 0


def make_frame(transfer_frames):
    """The frame of a list's first sixteen blocks, through a fresh slicer."""
    slicer, rest = sccc.Slicer(FORMAT), iter(transfer_frames)
    labels = bytearray(sccc.FRAME_LABELS)
    for place in range(sccc.SECTIONS):
        while (block := slicer.block()) is None:
            slicer.push(next(rest))
        sccc.labels(FORMAT, sccc.encode(FORMAT, block), out=sccc.section(labels, place))
    return sccc.frame(FORMAT, PILOTS, labels)


# so many transfer frames fill a frame of any format
lists = [[transfer_frame(first + n, 1115) for n in range(109)] for first in (4000, 5000, 6000)]
stored = [make_frame(transfer_frames) for transfer_frames in lists]
made = [a ^ b ^ c for a, b, c in zip(*stored)]

built = make_frame(bytes(a ^ b ^ c for a, b, c in zip(*three)) for three in zip(*lists))
differ = sum(a != b for a, b in zip(made, built))
print(
    f"format {FORMAT}, pilots {PILOTS}: three frames' exclusive or has digest {digest(made)}; "
    f"slots that differ from the frame of the lists' exclusive or: {differ}"
)
sys.exit(differ != 0)
