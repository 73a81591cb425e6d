"""A frame of format 13 from transfer frames of 1,115 test octets; prints the digest of its slots.
    PYTHONPATH=python python3 examples/stream.py"""
import itertools

import sccc


def transfer_frame(seed, length):
    octets = bytearray(length)
    for i in range(length):
        seed = (seed * 1103515245 + 12345) % 2147483648
        octets[i] = seed // 65536 % 256
    return octets


def digest(slots):
    d = 1
    for slot in slots:
        d = (d * 1000003 + slot + 1) % 4294967291
    return d


FORMAT = 13
LENGTH = 1115


def blocks():
    slicer = sccc.Slicer(FORMAT)
    for seed in itertools.count(4000):
        slicer.push(transfer_frame(seed, LENGTH))
        yield from slicer


labels = bytearray(sccc.FRAME_LABELS)
for place, block in zip(range(sccc.SECTIONS), blocks()):
    codeword = sccc.encode(FORMAT, block)
    sccc.labels(FORMAT, codeword, out=sccc.section(labels, place))
slots = sccc.frame(FORMAT, 0, labels)
print(f"format {FORMAT}, transfer frames of {LENGTH} octets, frame digest {digest(slots)}")
