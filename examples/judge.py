"""A captured unit judged: the labels of a codeword of test bits, of format 33 or of the format that is given, held against a capture
of their points, each moved by test noise, every hundredth lost. Prints how many samples agree, differ and are lost, and the first
place at which one differs; draws the capture into a file where one is given.
    PYTHONPATH=python python3 examples/judge.py
    PYTHONPATH=python python3 examples/judge.py 37 build/capture.svg"""
import sys

import sccc


def filled(seed, values, length):
    """Bits where there are 2 values, octets where there are 256."""
    elements = bytearray(length)
    for i in range(length):
        seed = (seed * 1103515245 + 12345) % 2147483648
        elements[i] = seed // 65536 % values
    return elements


FORMAT = int(sys.argv[1]) if len(sys.argv) > 1 else 33
labels = sccc.labels(FORMAT, sccc.encode(FORMAT, filled(5000 + FORMAT, 2, sccc.format_info(FORMAT).k)))
noise = [(octet - 128) * 0.0005 for octet in filled(6000 + FORMAT, 256, 2 * sccc.SYMBOLS)]


def sample(place, label):
    i, q = sccc.point(FORMAT, label, None, place)
    return None if place % 100 == 99 else (i + noise[2 * place], q + noise[2 * place + 1])


capture = sccc.capture(sample(place, label) for place, label in enumerate(labels))
found = sccc.judge(FORMAT, labels, capture)
first = "none differs" if found.first is None else f"first that differs at place {found.first}"
print(f"format {FORMAT}, {sccc.SYMBOLS} samples: agreeing {found.agreeing}, differing {found.differing}, lost {found.lost}, {first}")
if len(sys.argv) > 2:
    with open(sys.argv[2], "w", encoding="utf8") as file:
        file.write(sccc.picture(FORMAT, labels, capture))
