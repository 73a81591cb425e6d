"""Annex C as data/annex-c.csv has it, and annex D's rule."""
import os
import sys

ROOT = os.path.dirname(os.path.dirname(os.path.abspath(__file__)))
DATA = 'data/annex-c.csv'

HEADER = 'size,W,row,alpha,beta,source'
SOURCES = ('copy', 'repaired', 'stand-in')
SIZES = 19
BANKS = 120
# S of each size, as the heads of tables C-1 and C-2 print it.
SPREADS = {
    8640: 84, 10440: 90, 12600: 102, 14760: 110, 16920: 109, 19800: 127, 22320: 135, 25560: 144, 28800: 153, 32040: 161,
    35280: 158, 38880: 166, 42480: 174, 46440: 193, 50040: 189, 54000: 208, 57960: 215, 61560: 222, 65520: 216,
}


class Size:
    def __init__(self, length, width):
        self.length, self.width = length, width
        self.alpha, self.beta, self.sources = [], [], []

    def stand_ins(self):
        return [row for row, source in enumerate(self.sources) if source == 'stand-in']

    def permuted(self, i):
        """Equation A-1."""
        quotient, row = divmod(i, self.width)
        return self.width * ((quotient + self.beta[row]) % BANKS) + self.alpha[row]

    def too_close(self, row):
        """Yields the rows with which this one breaks annex D's rule, each with the sum. The rule is taken in the form that every
        size keeps: |i - j| + |π(i) - π(j)| > S for all i and j. From |i - j| = S on it holds."""
        spread = SPREADS[self.length]
        for i in range(row, self.length, self.width):
            at = self.permuted(i)
            for j in range(max(0, i - spread), min(self.length, i + spread)):
                total = abs(i - j) + abs(at - self.permuted(j))
                if i != j and total <= spread:
                    yield j % self.width, total


def fail(line, text):
    sys.exit(f'{DATA}:{line}: {text}')


def number(line, text, limit):
    if not text.isdecimal() or not text.isascii() or int(text) >= limit:
        fail(line, f'{text!r} is not a number below {limit}')
    return int(text)


def read():
    """The sizes of the data file, in its order; their rows must stand together and in order."""
    with open(os.path.join(ROOT, DATA), encoding='ascii') as data:
        lines = data.read().splitlines()
    if not lines or lines[0] != HEADER:
        fail(1, f'the header is not {HEADER}')
    sizes = []
    for at, text in enumerate(lines[1:], start=2):
        fields = text.split(',')
        if len(fields) != 6:
            fail(at, 'a row has six fields')
        length, width, row = (number(at, field, 1 << 16) for field in fields[:3])
        if row == 0:
            if sizes and len(sizes[-1].alpha) != sizes[-1].width:
                fail(at, f'the size before has {len(sizes[-1].alpha)} rows and not {sizes[-1].width}')
            if length != BANKS * width or (sizes and width <= sizes[-1].width):
                fail(at, f'a size is {BANKS} x W, and larger than the one before')
            sizes.append(Size(length, width))
        size = sizes[-1] if sizes else None
        if not size or (length, width, row) != (size.length, size.width, len(size.alpha)) or row >= width:
            fail(at, 'not the next row of its size')
        size.alpha.append(number(at, fields[3], 1 << 16))
        size.beta.append(number(at, fields[4], 1 << 8))
        if fields[5] not in SOURCES:
            fail(at, f'the source is none of {", ".join(SOURCES)}')
        size.sources.append(fields[5])
    if len(sizes) != SIZES or len(sizes[-1].alpha) != sizes[-1].width:
        fail(len(lines), f'there are not {SIZES} whole sizes')
    return sizes


def write(sizes):
    with open(os.path.join(ROOT, DATA), 'w', encoding='ascii') as data:
        data.write(f'{HEADER}\n')
        for size in sizes:
            for row, fields in enumerate(zip(size.alpha, size.beta, size.sources)):
                data.write(','.join(map(str, (size.length, size.width, row, *fields))) + '\n')
