#!/bin/sh
# Makes every file of this folder again: the drawing by make.py, its draft by the program, compared with the reference, and both as PNG.
# usage: samples/again.sh, from the root of the repository, after `rt run` in crates/draft
set -e
samples/make.py > samples/flower.pgm
crates/draft/out/draft < samples/flower.pgm > samples/flower.pbm
reference/draft.py < samples/flower.pgm | cmp - samples/flower.pbm
samples/png.py samples/flower.pgm samples/flower.png
samples/png.py samples/flower.pbm samples/flower-draft.png
