#!/usr/bin/env python3
"""Compares what `sengadlit-shape` and hb-shape make of the same texts: glyphs, clusters, positions and the flag `unsafe to break`.

    compare.py [--first N] [--only SCRIPT].. [--concat] ROOT TEXTS SHAPE HB-SHAPE..

With --first it takes so many texts of each kind alone, with --only those of the scripts named; with --concat both programs
also flag what is unsafe to concat. ROOT has Debian's packages of fonts, TEXTS what bindings/hooks/texts wrote; HB-SHAPE is a
command of several words. For each script and font a line tells how many texts of each kind are equal; then there is a line
for each reason of a difference. A text that differs for no known reason fails. The last line is 'N passed, M failed'.
"""

import argparse
import collections
import concurrent.futures
import os
import pathlib
import re
import subprocess
import sys
import tempfile
import unicodedata

# The scripts of bindings/hooks/texts by ISO 15924, those that run from right to left, and those of the universal shaper.
CODES = {
    "Arabic": "Arab", "Syriac": "Syrc", "Hebrew": "Hebr", "Thai": "Thai", "Lao": "Laoo", "Hangul": "Hang",
    "Hangul, composed": "Hang", "Devanagari": "Deva", "Bengali": "Beng", "Gurmukhi": "Guru", "Gujarati": "Gujr",
    "Oriya": "Orya", "Tamil": "Taml", "Telugu": "Telu", "Kannada": "Knda", "Malayalam": "Mlym", "Sinhala": "Sinh",
    "Khmer": "Khmr", "Myanmar": "Mymr", "Tibetan": "Tibt", "Mongolian": "Mong", "N'Ko": "Nkoo", "Adlam": "Adlm",
    "Chakma": "Cakm", "Meetei Mayek": "Mtei", "Hanifi Rohingya": "Rohg", "Javanese": "Java", "Balinese": "Bali",
    "Tai Tham": "Lana", "Phags-pa": "Phag", "Mandaic": "Mand", "Brahmi": "Brah", "Grantha": "Gran", "Latin": "Latn",
    "Latin, decomposed": "Latn", "Arabic, pointed": "Arab",
}  # fmt: skip
FROM_RIGHT = {"Arab", "Syrc", "Hebr", "Nkoo", "Adlm", "Rohg", "Mand"}
UNIVERSAL = {"Sinh", "Tibt", "Mong", "Nkoo", "Adlm", "Cakm", "Mtei", "Rohg", "Java", "Bali", "Lana", "Phag", "Mand", "Brah", "Gran"}

# Fonts beside those of the texts: for Oriya, a question to this font about rules with context decides which consonant is the
# base.
FREE_SERIF = "usr/share/fonts/truetype/freefont/FreeSerif.ttf"
MORE_FONTS = {"Oriya": [FREE_SERIF], "Latin": [FREE_SERIF]}

KINDS = ["real", "torn", "random", "long"]

REASONS = {
    "fvs4": "180F is default ignorable in Unicode, and HarfBuzz draws it as a missing glyph",
    "telugu-length-marks": "0C55 and 0C56 have class 0 here, and HarfBuzz sorts them",
    "symbol-clusters": "the universal shaper leaves symbols with signs in place, and HarfBuzz reorders them",
    "dotted-circles": "each broken syllable opens a circle here, and HarfBuzz skips the fifteenth",
    "long-stretch": "HarfBuzz flags no stretch of more than 255 glyphs",
}

# hb-shape's advances are X,Y where one of them is of the other direction.
ITEM = re.compile(r"(\d+)=(\d+)(?:@(-?\d+),(-?\d+))?\+(-?\d+)(?:,0)?(?:#(\w+))?")


def items(line):
    """The glyphs of a line of output: number, cluster, offsets, advance, flag."""
    found = [match.groups() for match in ITEM.finditer(line)]
    return [(int(glyph), int(cluster), x or "0", y or "0", advance, flag or "") for glyph, cluster, x, y, advance, flag in found]


class Font:
    def __init__(self, root, path, shape, hb_shape, code, concat):
        self.path, self.code = f"{root}/{path}", code
        direction = "rtl" if code in FROM_RIGHT else "ltr"
        options = ["--shapers=ot", "--utf8-clusters", "--no-glyph-names", "--show-flags", "--language=und",
                   f"--script={code}", f"--direction={direction}", *(["--unsafe-to-concat"] if concat else []), self.path]  # fmt: skip
        self.mine, self.theirs = [*shape, *options], [*hb_shape, *options]
        circle = items(subprocess.run([*self.theirs, "\u25cc"], capture_output=True, text=True, check=True).stdout)
        self.circle = circle[0][0]

    def shape(self, path):
        """Both outputs for the lines of a file."""
        commands = [[*command, f"--text-file={path}"] for command in (self.mine, self.theirs)]
        outputs = [subprocess.run(command, capture_output=True, text=True, check=True).stdout for command in commands]
        return [list(map(items, output.splitlines())) for output in outputs]

    def reason(self, text, mine, theirs):
        """Why the glyphs of a text differ, or None."""
        if [glyph[:5] for glyph in mine] == [glyph[:5] for glyph in theirs]:
            return "long-stretch" if len(text) > 255 else None
        if "\u180f" in text:
            return "fvs4"
        if has_unsorted_length_mark(text):
            return "telugu-length-marks"
        circles = [sum(glyph[0] == self.circle for glyph in glyphs) for glyphs in (mine, theirs)]
        if circles[0] > circles[1] and len(text) > 14:
            return "dotted-circles"
        orders = [[glyph[:2] for glyph in glyphs] for glyphs in (mine, theirs)]
        is_moved = orders[0] != orders[1] and sorted(orders[0]) == sorted(orders[1])
        is_symbol = self.code in UNIVERSAL and (is_moved or has_symbol_with_sign(text))
        return "symbol-clusters" if is_symbol else None


def has_unsorted_length_mark(text):
    """Whether HarfBuzz's order of Telugu's marks, in which the length marks come first, isn't the text's."""
    classes = {"\u0c55": 4, "\u0c56": 5, "\u0c3c": 7, "\u0c4d": 9}
    order = [classes.get(letter, 0) for letter in text.replace("\u0c48", "\u0c46\u0c56")]
    return any(before > behind in (4, 5) for before, behind in zip(order, order[1:]))


def has_symbol_with_sign(text):
    kinds = [unicodedata.category(letter)[0] for letter in text if letter not in "\u200c\u200d\u034f"]
    return any(kind not in "LM" and behind == "M" for kind, behind in zip(kinds, kinds[1:]))


def compare(font, path, first):
    """How many texts of a file are equal, the reasons of the others, and those without a reason."""
    texts = pathlib.Path(path).read_text(encoding="utf-8").split("\n")[:-1][:first]
    with tempfile.NamedTemporaryFile("w", encoding="utf-8", suffix=".txt") as file:
        file.write("".join(f"{text}\n" for text in texts))
        file.flush()
        mine, theirs = font.shape(file.name)
    if not len(mine) == len(theirs) == len(texts):
        raise SystemExit(f"compare.py: {path} has {len(texts)} lines, and the outputs {len(mine)} and {len(theirs)}")
    reasons, unknown = collections.Counter(), []
    for text, own, other in zip(texts, mine, theirs):
        if own != other:
            reason = font.reason(text, own, other)
            reasons[reason] += 1
            if reason is None:
                unknown.append((text, own, other))
    return len(texts) - sum(reasons.values()), reasons, unknown


def parsed_arguments():
    parser = argparse.ArgumentParser(usage=__doc__)
    parser.add_argument("--first", type=int)
    parser.add_argument("--only", action="append", default=[])
    parser.add_argument("--concat", action="store_true")
    parser.add_argument("root")
    parser.add_argument("texts")
    parser.add_argument("shape")
    parser.add_argument("hb_shape", nargs=argparse.REMAINDER)
    return parser.parse_args()


def fonts_of_scripts(folder):
    """Each script of the texts with the paths of its fonts; those whose texts are there for normalization come last."""
    for name in "scripts", "normalized":
        for line in pathlib.Path(folder, name).read_text(encoding="utf-8").splitlines():
            script, *fonts = line.split("\t")
            if script in CODES:
                yield script, fonts + MORE_FONTS.get(script, [])


def main():
    given = parsed_arguments()
    work = []
    for script, fonts in fonts_of_scripts(given.texts):
        if not given.only or script in given.only:
            shapers = [given.shape], given.hb_shape
            work += [(script, Font(given.root, font, *shapers, CODES[script], given.concat)) for font in fonts]
    paths = [(script, font, kind, f"{given.texts}/{script}.{kind}") for script, font in work for kind in KINDS]
    paths = [row for row in paths if os.path.getsize(row[3])]
    with concurrent.futures.ThreadPoolExecutor(2) as pool:
        results = list(pool.map(lambda row: compare(row[1], row[3], given.first), paths))
    equal, reasons, all_unknown, lines = 0, collections.Counter(), [], collections.defaultdict(list)
    for (script, font, kind, _), (same, why, unknown) in zip(paths, results):
        lines[script, os.path.basename(font.path)].append(f"{kind} {same} of {same + sum(why.values())}")
        equal += same
        reasons += why
        all_unknown += unknown
    for (script, font), counts in lines.items():
        print(f"{script}, {font}: {', '.join(counts)}")
    for text, own, other in all_unknown[:10]:
        print("no known reason:", " ".join(f"{ord(letter):04X}" for letter in text), own, other, sep="\n    ")
    print(f"equal: {equal}")
    for reason, meaning in REASONS.items():
        print(f"{reason}: {reasons[reason]} ({meaning})")
    failed = reasons.pop(None, 0)
    print(f"{equal + sum(reasons.values())} passed, {failed} failed")
    sys.exit(failed != 0)


main()
