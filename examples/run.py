"""A unit that is stopped halfway: the outer trellis' run over a test block of format 13, in two parts, the second from the state in
which the first ended. Prints where it was stopped, and the digest of all bits and parities.
    PYTHONPATH=python python3 examples/run.py"""
import sccc


def bits(seed, length):
    bits = bytearray(length)
    for i in range(length):
        seed = (seed * 1103515245 + 12345) % 2147483648
        bits[i] = seed // 65536 % 2
    return bits


def digest(elements):
    d = 1
    for x in elements:
        d = (d * 1000003 + x + 1) % 4294967291
    return d


FORMAT = 13
block = bits(2000 + 16 * FORMAT, sccc.format_info(FORMAT).k)
half = len(block) // 2

stopped = sccc.run(0, block[:half])
ended = sccc.run(stopped.state, block[half:])

whole = bytes(stopped.out) + bytes(ended.out)
print(f"format {FORMAT}, stopped after {half} bits in state {stopped.state}, run digest {digest(whole)}")
