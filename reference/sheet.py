#!/usr/bin/env python3
"""Prints the sheet of a plan, as the program plansheet does: a second implementation to compare with, written from docs/RULES.md.

usage: sheet.py knuth turn mirror shift 3 200
"""
import sys

KNUTH = [[34, 48, 40, 32, 29, 15, 23, 31], [42, 58, 56, 53, 21, 5, 7, 10], [50, 62, 61, 45, 13, 1, 2, 18],
         [38, 46, 54, 37, 25, 17, 9, 26], [28, 14, 22, 30, 35, 49, 41, 33], [20, 4, 6, 11, 43, 59, 57, 52],
         [12, 0, 3, 19, 51, 63, 60, 44], [24, 16, 8, 27, 39, 47, 55, 36]]


def doubled(order):
    """The table of an order, grown outward from order 1 by laying four copies side by side."""
    table = [[0, 2], [3, 1]]
    for _ in range(order - 1):
        size = len(table)
        table = [[4 * table[r % size][c % size] + [[0, 2], [3, 1]][r // size][c // size] for c in range(2 * size)]
                 for r in range(2 * size)]
    return table


def sheet(words):
    """The table of ranks over one period and the top, as plain lists that each layer rewrites whole."""
    words = list(words)
    name = words.pop(0)
    if name == 'knuth':
        table, top = KNUTH, 63
    elif name == 'doubling':
        order = int(words.pop(0))
        table, top = doubled(order), 4 ** order - 1
    else:
        rows, columns = int(words.pop(0)), int(words.pop(0))
        ranks = [int(words.pop(0)) for _ in range(rows * columns)]
        table, top = [ranks[r * columns:(r + 1) * columns] for r in range(rows)], 255
    while words:
        layer = words.pop(0)
        if layer == 'mirror':
            table = [row[::-1] for row in table]
        elif layer == 'turn':
            table = [list(column) for column in zip(*table)]
        elif layer == 'reverse':
            table = [[top - rank for rank in row] for row in table]
        else:
            down, right = int(words.pop(0)) % len(table), int(words.pop(0)) % len(table[0])
            table = [row[right:] + row[:right] for row in table[down:] + table[:down]]
    return table, top


if __name__ == '__main__':
    table, top = sheet(sys.argv[1:])
    print('plan:', ' '.join(sys.argv[1:]))
    print(f'row period {len(table)}, column period {len(table[0])}, top {top}\n')
    for row in table:
        print(''.join(f'{rank:>4}' for rank in row))
