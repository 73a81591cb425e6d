"""A bench with two channels and memory for one expanded interleaver: test blocks of A in format 13, of B in formats 28 and 27, in
turn. Prints of each call the size that the memory holds afterwards, and the digests of the codeword and of the entries held.
    PYTHONPATH=python python3 examples/shared.py"""
import sccc


def block(seed, length):
    bits = bytearray(length)
    for i in range(length):
        seed = (seed * 1103515245 + 12345) % 2147483648
        bits[i] = seed // 65536 % 2
    return bits


def digest(elements):
    d = 1
    for x in elements:
        d = (d * 1000003 + x + 1) % 4294967291
    return d


# formats 13 and 28 have one size, so the second call builds nothing; the last two do
CALLS = [("A", 13), ("B", 28), ("A", 13), ("B", 27), ("A", 13)]

encoder = sccc.SharedEncoder()
for j, (channel, format) in enumerate(CALLS):
    codeword = encoder.encode(format, block(2000 + 16 * format + j, sccc.format_info(format).k))
    entries = encoder.memory[: encoder.held]
    print(
        f"channel {channel}, format {format}: held {encoder.held}, "
        f"codeword digest {digest(codeword)}, entries digest {digest(entries)}"
    )
