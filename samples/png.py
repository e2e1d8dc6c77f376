#!/usr/bin/env python3
"""Turns a plain PGM or a raw PBM into a grey PNG, each square enlarged to so many pixels each way.

usage: png.py picture.pgm picture.png [PIXELS]
"""
import struct
import sys
import zlib


def pixels_of(data):
    """Columns, rows and the grey bytes of each row."""
    if data[:2] == b'P2':
        columns, rows, _, *tones = [int(word) for word in data[2:].split()]
        return columns, rows, [bytes(tones[r * columns:(r + 1) * columns]) for r in range(rows)]
    columns, rows = [int(word) for word in data[2:].split(maxsplit=2)[:2]]
    wide = (columns + 7) // 8
    raster = data[len(data) - rows * wide:]
    lines = [raster[r * wide:(r + 1) * wide] for r in range(rows)]
    return columns, rows, [bytes(0 if line[c // 8] >> (7 - c % 8) & 1 else 255 for c in range(columns)) for line in lines]


def chunk(name, body):
    """A part of a PNG: its length, name, body and check sum."""
    return struct.pack('>I', len(body)) + name + body + struct.pack('>I', zlib.crc32(name + body))


def png(columns, rows, lines, times):
    """A PNG of 8 bits a pixel, with no filter in front of each line."""
    head = struct.pack('>IIBBBBB', columns * times, rows * times, 8, 0, 0, 0, 0)
    body = b''.join((b'\0' + b''.join(bytes([grey]) * times for grey in line)) * times for line in lines)
    return b'\x89PNG\r\n\x1a\n' + chunk(b'IHDR', head) + chunk(b'IDAT', zlib.compress(body, 9)) + chunk(b'IEND', b'')


def main():
    source, target = sys.argv[1:3]
    times = int(sys.argv[3]) if len(sys.argv) > 3 else 5
    with open(source, 'rb') as file:
        columns, rows, lines = pixels_of(file.read())
    with open(target, 'wb') as file:
        file.write(png(columns, rows, lines, times))
    return 0


if __name__ == '__main__':
    sys.exit(main())
