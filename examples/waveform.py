"""Eight symbols in a row as a signal generator sends them, of format 33 with the code number 0 from place 0 on, or of the format, the
code number (- for unscrambled) and the place that are given. Prints of each its place, its label and the bits of its two coordinates.
    PYTHONPATH=python python3 examples/waveform.py
    PYTHONPATH=python python3 examples/waveform.py 37 262142 131072
    PYTHONPATH=python python3 examples/waveform.py 33 - 0"""
import struct
import sys

import sccc

LABELS = [0, 37, 74, 111, 148, 185, 222, 255]


def code_number(text):
    return None if text == "-" else int(text)


def bits(coordinate):
    return struct.pack(">d", coordinate).hex().upper()


FORMAT = int(sys.argv[1]) if len(sys.argv) > 1 else 33
CODE = code_number(sys.argv[2]) if len(sys.argv) > 2 else 0
PLACE = int(sys.argv[3]) if len(sys.argv) > 3 else 0
for place, label in enumerate(LABELS, PLACE):
    i, q = sccc.point(FORMAT, label, CODE, place)
    print(f"place {place}, label {label}: i {bits(i)}, q {bits(q)}")
