#!/usr/bin/env python3
"""Runs the program draft and reference/draft.py on the same inputs and compares every byte and the status.

The inputs are pictures of many sizes, plain, shaded and random from a fixed seed; files that are laid out oddly; and files that are refused,
where the program must write nothing to standard output or standard error and end with status 1.

usage: compare_draft.py [PROGRAM]        (crates/draft/out/draft where none is named)
"""
import random
import subprocess
import sys

from draft import NoDraft, draft

SIZES = [(1, 1), (1, 2), (2, 1), (2, 2), (3, 3), (8, 8), (9, 9), (1, 9), (7, 9), (16, 16), (17, 31), (31, 17), (64, 64), (63, 65), (65, 63),
         (1, 8), (8, 1), (1, 64), (64, 1), (1, 1000), (1000, 1), (1, 4096), (4096, 1), (2, 2048), (2048, 2), (455, 9), (9, 455), (512, 8)]


def pgm(rows, columns, greatest, tones, gap=b' '):
    """A plain PGM with the same gap before each of its numbers."""
    return b'P2' + b''.join(gap + b'%d' % n for n in [columns, rows, greatest, *tones])


def shaded(rows, columns):
    """Brighter to the right and downward."""
    return [255 * (r + c) // max(1, rows + columns - 2) for r in range(rows) for c in range(columns)]


def pictures(chance):
    """Pictures of each size, and pictures of random size."""
    for rows, columns in SIZES:
        squares = rows * columns
        for tone in (0, 100, 127, 128, 255):
            yield pgm(rows, columns, 255, [tone] * squares)
        yield pgm(rows, columns, 255, shaded(rows, columns))
        for greatest in (255, 128, 1):
            yield pgm(rows, columns, greatest, [chance.randint(0, greatest) for _ in range(squares)])
    for _ in range(60):
        rows = chance.randint(1, 80)
        columns = chance.randint(1, 4096 // rows if chance.random() < 0.1 else min(51, 4096 // rows))
        yield pgm(rows, columns, 255, [chance.choice((0, 1, 127, 128, 254, 255, chance.randint(0, 255))) for _ in range(rows * columns)])


def laid_out(chance):
    """Files that are lawful and laid out oddly, and the longest input."""
    tones = [chance.randint(0, 255) for _ in range(63)]
    for gap in (b'\n', b'\t', b'\r\n', b' \t\r\n ', b' 000', b' ' + b'0' * 30):
        yield pgm(7, 9, 255, tones, gap)
    for behind in (b'\n', b' garbage', b' 1 2 3', b'\n# end\n', b'\r'):
        yield pgm(7, 9, 255, tones) + behind
    whole = pgm(7, 9, 255, tones)
    yield whole + b' ' * (65536 - len(whole))
    yield whole + b' ' * (65537 - len(whole))
    yield whole + b' ' * 200000


def refused():
    """Files with a fault."""
    yield from (b'', b'P', b'P2', b'P2\x0c1 1 255 0', b'P2x1 1 255 0', b'P5 1 1 255 0', b'P1 1 1 0', b' P2 1 1 255 0', b'p2 1 1 255 0')
    yield from (b'P2 ', b'P2 1', b'P2 0 0', b'P2 0 5 0', b'P2 1 1', b'P2 1 1 255', b'P2 2 2 255 1 2 3', b'P2 70000 1 255 0', b'P2 5000 1 255 0')
    yield from (b'P2 1 1 0 0', b'P2 1 1 256 0', b'P2 1 1 65536 0', b'P2 1 1 255 256', b'P2 1 1 255 300', b'P2 1 1 255 65536', b'P2 1 1 100 101')
    yield from (b'P2 1 1 255 1x', b'P2 1 1 255 +1', b'P2 1 1 255 -1', b'P2 # 1 1 255 1', b'P2 1 1 255 1.0', b'P2\xa01 1 255 0', b'P2 1\x001 255 0')
    yield b'P2 1 1 255 ' + b'9' * 30
    yield pgm(2, 2, 200, [1, 2, 3, 201])
    yield pgm(64, 65, 255, [0] * (64 * 65))
    yield pgm(4097, 1, 255, [0] * 4097)
    yield pgm(1, 4097, 255, [0] * 4097)


def expected(data):
    """Standard output, standard error and status."""
    try:
        return draft(data), b'', 0
    except NoDraft:
        return b'', b'', 1


def main():
    program = sys.argv[1] if len(sys.argv) > 1 else 'crates/draft/out/draft'
    chance = random.Random(1987)
    drafted = turned_away = 0
    for data in [*pictures(chance), *laid_out(chance), *refused()]:
        run = subprocess.run([program], input=data, capture_output=True, check=False)
        due = expected(data)
        if (run.stdout, run.stderr, run.returncode) != due:
            print('differs on', data[:60], '.. of', len(data), 'bytes: status', run.returncode, 'for', due[2])
            return 1
        if due[2] == 0:
            drafted += 1
        else:
            turned_away += 1
    print(drafted, 'drafts and', turned_away, 'refusals are the same')
    return 0


if __name__ == '__main__':
    sys.exit(main())
