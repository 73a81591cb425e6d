"""A modulator with twelve encoders in parallel (section 6): a test block of format 13, and the interleaved bits that come of it, in
twelve equal segments. Prints where each begins, the state in which its run from zero ended and the state in which it is started
again, outer and inner.
    PYTHONPATH=python python3 examples/segments.py"""
import sccc


def bits(seed, length):
    bits = bytearray(length)
    for i in range(length):
        seed = (seed * 1103515245 + 12345) % 2147483648
        bits[i] = seed // 65536 % 2
    return bits


FORMAT, ENCODERS = 13, 12
info = sccc.format_info(FORMAT)
block = bits(2000 + 16 * FORMAT, info.k)

# where the segments begin; all but the first are cuts
outer = [info.k1 * j // ENCODERS for j in range(ENCODERS)]
inner = [info.i * j // ENCODERS for j in range(ENCODERS)]
s = sccc.encode_segments(FORMAT, block, outer[1:], inner[1:])

for j in range(ENCODERS):
    print(
        f"format {FORMAT}, segment {j}: outer from {outer[j]}, ended {s.outer.ended[j]}, started {s.outer.started[j]}; "
        f"inner from {inner[j]}, ended {s.inner.ended[j]}, started {s.inner.started[j]}"
    )
