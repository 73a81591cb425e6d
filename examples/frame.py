"""A frame from sixteen blocks of test bits, of format 13 without pilots or of the format and the choice of pilots that are given;
prints the digests of its slots and of the labels found in them.
    PYTHONPATH=python python3 examples/frame.py
    PYTHONPATH=python python3 examples/frame.py 37 1"""
import sys

import sccc


def block(seed, length):
    bits = bytearray(length)
    for i in range(length):
        seed = (seed * 1103515245 + 12345) % 2147483648
        bits[i] = seed // 65536 % 2
    return bits


def digest(slots):
    d = 1
    for slot in slots:
        d = (d * 1000003 + slot + 1) % 4294967291
    return d


def receive(pilots, slots):
    """What a receiver finds behind the header: the labels, and no pilots."""
    body = slots[sccc.HEADER_SLOTS :]
    return [slot for s, slot in enumerate(body) if not pilots or s % sccc.SUBSECTION_SLOTS < sccc.SUBSECTION_LABELS]


FORMAT = int(sys.argv[1]) if len(sys.argv) > 1 else 13
PILOTS = int(sys.argv[2]) if len(sys.argv) > 2 else 0
info = sccc.format_info(FORMAT)
labels = bytearray(sccc.FRAME_LABELS)
for place in range(sccc.SECTIONS):
    codeword = sccc.encode(FORMAT, block(2000 + 16 * FORMAT + place, info.k))
    sccc.labels(FORMAT, codeword, out=sccc.section(labels, place))
slots = sccc.frame(FORMAT, PILOTS, labels)
print(f"format {FORMAT}, pilots {PILOTS}, frame digest {digest(slots)}, labels digest {digest(receive(PILOTS, slots))}")
