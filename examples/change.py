"""A change of format during a pass: a frame of format 13 from transfer frames of 1,115 test octets, then a look ahead, the command,
and a frame of format 1. Prints what the look says, and the digest of the second frame's slots.
    PYTHONPATH=python python3 examples/change.py"""
import itertools

import sccc


def transfer_frame(seed, length):
    octets = bytearray(length)
    for i in range(length):
        seed = (seed * 1103515245 + 12345) % 2147483648
        octets[i] = seed // 65536 % 256
    return octets


def digest(slots):
    d = 1
    for slot in slots:
        d = (d * 1000003 + slot + 1) % 4294967291
    return d


seeds = itertools.count(4000)


def take(slicer):
    """The next block; transfer frames are pushed until it is there."""
    while (block := slicer.block()) is None:
        slicer.push(transfer_frame(next(seeds), 1115))
    return block


def make_frame(slicer):
    """A frame of the next sixteen blocks, in the slicer's format."""
    labels = bytearray(sccc.FRAME_LABELS)
    for place in range(sccc.SECTIONS):
        codeword = sccc.encode(slicer.format, take(slicer))
        sccc.labels(slicer.format, codeword, out=sccc.section(labels, place))
    return sccc.frame(slicer.format, 0, labels)


slicer = sccc.Slicer(13)
make_frame(slicer)

ahead = slicer.look(1)
slicer.change(1)
slots = make_frame(slicer)

print(f"from format 13 to {slicer.format}: blocks ahead {ahead.blocks}, bits that stay {ahead.bits}, frame digest {digest(slots)}")
