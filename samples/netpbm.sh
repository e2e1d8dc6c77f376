#!/bin/sh
# Tries the program draft against Netpbm's own tools: files that they write are read by draft, and they read what draft wrote.
# usage: samples/netpbm.sh, from the root of the repository, after `rt run` in crates/draft. Not part of the gate.
set -e
for tool in pnmtoplainpnm pgmramp pamscale pamfile pbmtoascii pnmtopng pngtopnm; do
    if ! command -v $tool > /dev/null; then
        echo "Netpbm's $tool is not installed, so nothing was tried: install Netpbm's tools (package netpbm) and try again"
        exit 0
    fi
done
work=$(mktemp -d)
trap 'rm -r "$work"' EXIT

# Drafts the plain PGM at $1 and compares with the reference; the draft stands at $work/draft.pbm.
drafted() {
    crates/draft/out/draft < "$1" > "$work/draft.pbm"
    reference/draft.py < "$1" | cmp - "$work/draft.pbm"
}

# Says what pamfile tells of the draft, and sees to it that it is a raw PBM of $1 by $2.
told() {
    said=$(pamfile "$work/draft.pbm")
    echo "$said" | sed 's/.*:[[:space:]]*/  pamfile: /'
    case "$said" in
        *"PBM raw, $1 by $2"*) ;;
        *) echo "pamfile tells another format or size than $1 by $2"; exit 1 ;;
    esac
}

echo "ramps that pgmramp made, written by pnmtoplainpnm with its folded lines:"
for size in "64 64" "9 7" "1 300" "300 1" "63 65"; do
    set -- $size
    pgmramp -diagonal "$1" "$2" | pnmtoplainpnm > "$work/ramp.pgm"
    drafted "$work/ramp.pgm"
    echo "  columns $1, rows $2: $(wc -l < "$work/ramp.pgm") lines read"
    told "$1" "$2"
done

echo "the sample, read by Netpbm, scaled down and written by pnmtoplainpnm:"
pamscale -width 40 samples/flower.pgm | pnmtoplainpnm > "$work/small.pgm"
drafted "$work/small.pgm"
told 40 40

echo "the sample's draft, in the readers of pbmtoascii and pnmtopng:"
drafted samples/flower.pgm
cmp "$work/draft.pbm" samples/flower.pbm
told 64 64
pbmtoascii "$work/draft.pbm" > "$work/draft.txt"
echo "  pbmtoascii: $(wc -l < "$work/draft.txt") lines, of which the first:"
head -n 1 "$work/draft.txt" | sed 's/^/    /'
pnmtopng "$work/draft.pbm" > "$work/draft.png" 2> /dev/null
pngtopnm "$work/draft.png" | cmp - "$work/draft.pbm"
echo "  pnmtopng: a PNG that pngtopnm turns back into the same bytes"
echo "all agree"
