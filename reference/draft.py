#!/usr/bin/env python3
"""Drafts a plain PGM as the program draft does: a second implementation to compare with, written from docs/RULES.md.

It goes another way than the library: it splits the whole file into words at once, sorts the squares by rank, and pushes each square's
error on to its neighbours. Where there is no draft it writes nothing and ends with status 1.

usage: draft.py < picture.pgm > draft.pbm
"""
import re
import sys

MOST_BYTES = 65536
MOST_SQUARES = 4096
THRESHOLD = 128

KNUTH = [[34, 48, 40, 32, 29, 15, 23, 31], [42, 58, 56, 53, 21, 5, 7, 10], [50, 62, 61, 45, 13, 1, 2, 18],
         [38, 46, 54, 37, 25, 17, 9, 26], [28, 14, 22, 30, 35, 49, 41, 33], [20, 4, 6, 11, 43, 59, 57, 52],
         [12, 0, 3, 19, 51, 63, 60, 44], [24, 16, 8, 27, 39, 47, 55, 36]]

# N, NE, E, SE, S, SW, W, NW: rows down, columns to the right, and the weight
AROUND = [(-1, 0, 2), (-1, 1, 1), (0, 1, 2), (1, 1, 1), (1, 0, 2), (1, -1, 1), (0, -1, 2), (-1, -1, 1)]


class NoDraft(Exception):
    """Why there is no draft: a refusal's number and an offset, or 0 for an input that is too long."""


def wrapped(value):
    """A whole number at 32 bits with a sign."""
    return (value + 2 ** 31) % 2 ** 32 - 2 ** 31


def share(error, weight, total):
    """error × weight ÷ total, cut toward zero."""
    if not 1 <= weight < total <= 12:
        return 0
    part = abs(error) * weight // total
    return part if error >= 0 else -part


def codes_of(rows, columns, tones):
    """The codes of a drawing's squares in reading order: 1 is net, 0 is clothed."""
    amounts = list(tones)
    codes = [None] * (rows * columns)

    def rank(place):
        return KNUTH[place // columns % 8][place % columns % 8]

    for place in sorted(range(rows * columns), key=rank):
        row, column = divmod(place, columns)
        codes[place] = 1 if amounts[place] >= THRESHOLD else 0
        error = wrapped(amounts[place] - 255 * codes[place])
        higher = []
        for down, right, weight in AROUND:
            r, c = row + down, column + right
            if 0 <= r < rows and 0 <= c < columns and rank(r * columns + c) > rank(place):
                higher.append((r * columns + c, weight))
        total = sum(weight for _, weight in higher)
        left = error
        for other, weight in higher[:-1]:
            part = share(error, weight, total)
            left = wrapped(left - part)
            amounts[other] = wrapped(amounts[other] + part)
        if higher:
            other = higher[-1][0]
            amounts[other] = wrapped(amounts[other] + left)
    return codes


def read_pgm(data):
    """Rows, columns and tones of a plain PGM; the first fault is raised."""
    if data[:2] != b'P2' or data[2:3] not in (b' ', b'\t', b'\r', b'\n'):
        raise NoDraft(12, 0)
    words = re.finditer(rb'[^ \t\r\n]+', data[2:])

    def number():
        word = next(words, None)
        if word is None:
            raise NoDraft(13, len(data))
        offset = 2 + word.start()
        digits = word.group()
        if not re.fullmatch(rb'[0-9]+', digits):
            raise NoDraft(13, offset)
        significant = digits.lstrip(b'0') or b'0'
        if len(significant) > 5 or int(significant) > 65535:
            raise NoDraft(13, offset)
        return int(significant), offset

    (columns, _), (rows, _), (greatest, offset) = number(), number(), number()
    if not (1 <= rows <= 4096 and 1 <= columns <= 4096 and rows * columns <= 1048576):
        raise NoDraft(1, 0)
    if not 1 <= greatest <= 255:
        raise NoDraft(14, offset)
    if rows * columns > MOST_SQUARES:
        raise NoDraft(6, 0)
    tones = []
    for _ in range(rows * columns):
        sample, offset = number()
        if sample > greatest:
            raise NoDraft(14, offset)
        tones.append(sample)
    return rows, columns, tones


def pbm(rows, columns, codes):
    """A raw PBM: one bit to a square, 1 for code 0, each row in bytes of its own."""
    wide = (columns + 7) // 8
    raster = bytearray()
    for row in range(rows):
        bits = ''.join('1' if code == 0 else '0' for code in codes[row * columns:(row + 1) * columns])
        raster += int(bits.ljust(8 * wide, '0'), 2).to_bytes(wide, 'big')
    return b'P4\n%d %d\n' % (columns, rows) + bytes(raster)


def draft(data):
    """The PBM of the draft of a plain PGM."""
    if len(data) > MOST_BYTES:
        raise NoDraft(0, 0)
    rows, columns, tones = read_pgm(data)
    return pbm(rows, columns, codes_of(rows, columns, tones))


def main():
    try:
        out = draft(sys.stdin.buffer.read(MOST_BYTES + 1))
    except NoDraft:
        return 1
    sys.stdout.buffer.write(out)
    return 0


if __name__ == '__main__':
    sys.exit(main())
