#!/usr/bin/env python3
"""Draws docs/benchmarks.svg from docs/benchmarks.txt, which holds what one run of the benchmark printed: for each task a bar for the proved library and
one for the plain version, in nanoseconds a square.

usage: bench/plot.py, from the root of the repository
"""
import re

LINE = re.compile(r"(\w+)\s+(\d+ x \d+)\s+([\d.]+) times\s+([\d.]+) ns a square proved\s+([\d.]+) ns a square plain")


def tasks(text):
    """Task and size, ratio, proved, plain; each task once."""
    found = {}
    for name, size, ratio, proved, plain in LINE.findall(text):
        found.setdefault(f"{name} {size}", (float(ratio), float(proved), float(plain)))
    return found


def svg(found):
    """The bars as an SVG, in which a longer bar is a slower task."""
    row, left, width = 40, 160, 460
    scale = width / max(max(proved, plain) for _, proved, plain in found.values())
    parts = []
    for i, (name, (ratio, proved, plain)) in enumerate(found.items()):
        top = 50 + i * row
        parts.append(f'<text x="{left - 8}" y="{top + 19}" text-anchor="end">{name}</text>')
        for value, colour, down in ((proved, "#2b5d8a", 0), (plain, "#b9b9b9", 14)):
            parts.append(f'<rect x="{left}" y="{top + down}" width="{max(value * scale, 1):.1f}" height="12" fill="{colour}"/>')
            parts.append(f'<text x="{left + value * scale + 5:.1f}" y="{top + down + 10}" font-size="10">{value:.2f}</text>')
        parts.append(f'<text x="{left + width + 50}" y="{top + 19}">{ratio:.2f} times</text>')
    height = 60 + len(found) * row
    head = (f'<svg xmlns="http://www.w3.org/2000/svg" width="760" height="{height}" font-family="sans-serif" font-size="12">'
            f'<rect width="760" height="{height}" fill="white"/>'
            '<text x="160" y="24">nanoseconds a square: proved (blue) and plain (grey)</text>')
    return head + "\n" + "\n".join(parts) + "\n</svg>\n"


if __name__ == "__main__":
    with open("docs/benchmarks.txt") as text:
        found = tasks(text.read())
    with open("docs/benchmarks.svg", "w") as out:
        out.write(svg(found))
