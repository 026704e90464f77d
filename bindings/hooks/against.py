#!/usr/bin/env python3
"""Tells with which crate HarfBuzz agrees where the two differ.

    against.py LIST HB_SHAPE..

LIST is what `compare --list` wrote. Each of its texts is shaped by each HB_SHAPE (bindings/harfbuzz/build makes 6.0.0's and,
with --unstable, the newest), but for those without dotted circles, which hb-shape can't be told. A table goes to standard
output: of each set of reasons, and of each kind of difference, how many outputs HarfBuzz gives as the crate as it is, as the
crate with the hooks, and as neither; and of those as the crate as it is the shortest text.
"""

import collections
import os
import re
import subprocess
import sys

GLYPH = re.compile(r"(\d+)=(\d+)[^|#\]]*(?:#([0-9A-F]+))?")
FLAGS = {0x1: "--bot", 0x2: "--eot", 0x40: "--unsafe-to-concat", 0x80: "--safe-to-insert-tatweel"}
NO_DOTTED_CIRCLE = 0x10
FEATURES = "--features=liga[3:10]=1,half[0:6]=0,init=1"
KINDS = ["glyphs", "clusters", "flags"]


def glyphs(told):
    """Number, cluster and flags of each glyph."""
    return [(int(number), int(cluster), int(flags or "0", 16)) for number, cluster, flags in GLYPH.findall(told)]


def fields(told, kind):
    """What a difference of this kind is in: numbers, clusters too, or flags too."""
    return [glyph[: 1 + KINDS.index(kind)] for glyph in glyphs(told)]


def command(line):
    """A line of `hb-shape --batch` for a line of the list."""
    font, level, flags, contexts, features, text = line[:6]
    flags, characters = int(flags, 16), text.split()
    third = len(characters) // 3 if contexts == "true" else 0
    inside = characters[third : len(characters) - third]
    options = ["--shaper=ot", "--no-glyph-names", "--show-flags", "--utf8-clusters", f"--cluster-level={level}"]
    options += [option for bit, option in FLAGS.items() if flags & bit]
    if third:
        options += ["--unicodes-before=" + ",".join(characters[:third]), "--unicodes-after=" + ",".join(characters[-third:])]
    if features == "true":
        options.append(FEATURES)
    return ";".join([font, *options, "--unicodes=" + ",".join(inside)])


def shaped(program, lines):
    """What HarfBuzz gives for each line."""
    commands = "".join(command(line) + "\n" for line in lines)
    done = subprocess.run([program, "--batch"], input=commands.encode(), stdout=subprocess.PIPE, check=True, env={**os.environ, "LC_ALL": "C"})
    return done.stdout.decode().splitlines()


def kind_of(stock, sengadlit):
    """The greatest kind of difference of two outputs."""
    return next((kind for kind in KINDS if fields(stock, kind) != fields(sengadlit, kind)), "positions")


def compare(program, lines):
    counts, shortest = collections.defaultdict(collections.Counter), {}
    for line, told in zip(lines, shaped(program, lines), strict=True):
        reasons, stock, sengadlit = line[6:]
        kind = kind_of(stock, sengadlit)
        if kind == "positions" or stock.startswith("panic"):
            continue
        ours, theirs, here = (fields(one, kind) for one in (sengadlit, stock, told))
        side = "hooks" if here == ours else "stock" if here == theirs else "neither"
        counts[reasons, kind][side] += 1
        if side == "stock":
            shortest[reasons, kind] = min(shortest.get((reasons, kind), line), line, key=lambda one: len(one[5]))
    return counts, shortest


def main():
    if len(sys.argv) < 3:
        raise SystemExit(__doc__)
    with open(sys.argv[1], encoding="utf-8") as file:
        lines = [line.rstrip("\n").split("\t") for line in file]
    lines = [line for line in lines if not int(line[2], 16) & NO_DOTTED_CIRCLE]
    for program in sys.argv[2:]:
        version = subprocess.run([program, "--version"], stdout=subprocess.PIPE, check=True).stdout.decode().splitlines()[0]
        known = [line for line in lines if int(line[1]) < (3 if " 6." in version else 4)]  # 6.0.0 has no level Graphemes
        counts, shortest = compare(program, known)
        print(f"{version}, {len(known)} outputs\n\n| reasons | differ in | as the crate as it is | as with the hooks | neither |\n|---|---|---|---|---|")
        for (reasons, kind), sides in sorted(counts.items()):
            print(f"| {reasons} | {kind} | {sides['stock']} | {sides['hooks']} | {sides['neither']} |")
        print()
        for (reasons, kind), line in sorted(shortest.items()):
            print(f"- {reasons}, {kind}: {os.path.basename(line[0])}, level {line[1]}, flags {line[2]}, contexts {line[3]}, features {line[4]}: {line[5][:80]}")
        print()


main()
