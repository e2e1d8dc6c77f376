#!/usr/bin/env python3
"""Makes samples/flower.pgm: a daisy with a stem and two leaves, 64 by 64 squares, shaded by the formulas below. No picture is read.

usage: make.py > flower.pgm
"""
import math
import sys

SIDE = 64
# each square is the mean of so many points each way
FINE = 4


def background(x, y):
    """A wall, lit from the upper left."""
    return 164 - 62 * math.hypot(x - 12, y - 8) / SIDE


def petals(x, y):
    """Nine petals about a round centre; None outside."""
    dx, dy = x - 33, y - 24
    radius, angle = math.hypot(dx, dy), math.atan2(dy, dx)
    if radius < 6:
        # the centre is a dome with a rough surface
        light = 96 - 9 * (dx + dy) - 1.4 * radius * radius
        return light + 18 * math.sin(3 * x) * math.cos(3 * y)
    turn = 9 * (angle + 0.25) / 2
    reach = 11 + 9 * abs(math.cos(turn)) ** 0.6
    if radius > reach:
        return None
    # dark at the centre and between the petals, with a fold along each
    between = abs(math.cos(turn)) ** 0.5
    fold = math.exp(-((math.sin(turn) * 7) ** 2))
    outward = (radius - 6) / (reach - 6)
    return 142 + 128 * between * outward ** 0.4 - 60 * fold * (1 - outward) - 14 * math.sin(angle - 0.8)


def leaf(x, y, root, tip, width):
    """A leaf from its root to its tip, with a light midrib and veins; None outside."""
    ax, ay = tip[0] - root[0], tip[1] - root[1]
    long = math.hypot(ax, ay)
    along = ((x - root[0]) * ax + (y - root[1]) * ay) / long
    across = ((x - root[0]) * ay - (y - root[1]) * ax) / long
    if not 0 <= along <= long:
        return None
    half = width * math.sin(math.pi * along / long) ** 0.8
    if abs(across) > half:
        return None
    rib = math.exp(-(across * 2) ** 2)
    veins = 12 * math.sin(1.9 * (along - abs(across)))
    return 22 + 92 * rib + veins + (26 if across > 0 else 0)


def stem(x, y):
    """A stem that bends, round in section; None outside."""
    if y < 28:
        return None
    middle = 33 - 3.5 * math.sin((y - 24) / 14)
    off = x - middle
    return None if abs(off) > 1.3 else 58 - 34 * off


def tone(x, y):
    """What is seen at a point: the nearest of the parts."""
    parts = [petals(x, y), leaf(x, y, (32, 52), (10, 36), 5.5), leaf(x, y, (31, 58), (55, 44), 6), stem(x, y), background(x, y)]
    return next(part for part in parts if part is not None)


def square(row, column):
    """The tone of a square, 0 to 255."""
    steps = [(i + 0.5) / FINE for i in range(FINE)]
    mean = sum(tone(column + dx, row + dy) for dx in steps for dy in steps) / FINE ** 2
    return min(255, max(0, round(mean)))


def main():
    print('P2')
    print(SIDE, SIDE)
    print(255)
    for row in range(SIDE):
        samples = [square(row, column) for column in range(SIDE)]
        for start in range(0, SIDE, 16):
            print(' '.join(str(sample) for sample in samples[start:start + 16]))
    return 0


if __name__ == '__main__':
    sys.exit(main())
