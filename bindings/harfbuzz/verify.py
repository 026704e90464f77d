#!/usr/bin/env python3
"""Breaks words where no flag forbids it, by `hb-shape --verify`, with HarfBuzz as it is, with the hooks and with
their sound flags.

    verify.py OUT ROOT

OUT is the folder that `build --sound` made, and ROOT that of unpacked fonts; fonts of a few glyphs are made here. A table
goes to standard output: what broken text is shaped otherwise, though no flag says so. It fails where that isn't what
docs/PROOF.md tells. The last line is 'N passed, M failed'.
"""

import struct
import subprocess
import sys
import tempfile

NOTO = "usr/share/fonts/truetype/noto"


# ---- Fonts ----


def of_table(fmt, *values):
    return struct.pack(">" + fmt, *values)


def joined(tables):
    """A font of these tables."""
    count = len(tables)
    at = 12 + 16 * count
    directory = of_table("IHHHH", 0x00010000, count, 0, 0, 0)
    body = b""
    for tag, table in sorted(tables.items()):
        padded = table + bytes(-len(table) % 4)
        directory += of_table("4sIII", tag.encode(), 0, at + len(body), len(table))
        body += padded
    return directory + body


def single_substitutions(script, features):
    """The table GSUB of a script, with one substitution for each feature."""
    count = len(features)
    scripts = of_table("H4sHHHHHH", 1, script, 8, 4, 0, 0, 0xFFFF, count) + of_table(f"{count}H", *range(count))
    records = b"".join(of_table("4sH", tag.encode(), 2 + 6 * count + 6 * i) for i, tag in enumerate(sorted(features)))
    feature_list = of_table("H", count) + records + b"".join(of_table("HHH", 0, 1, i) for i in range(count))
    lookups = of_table("H", count) + of_table(f"{count}H", *(2 + 2 * count + 22 * i for i in range(count)))
    for _, (glyph, other) in sorted(features.items()):
        lookups += of_table("HHHHHHHHHHH", 1, 0, 1, 8, 2, 8, 1, other, 1, 1, glyph)
    at = 10 + len(scripts)
    return of_table("HHHHH", 1, 0, 10, at, at + len(feature_list)) + scripts + feature_list + lookups


def font(characters, more=0, features=None):
    """A font whose glyphs are these characters', from 1 on, and so many more; with substitutions by feature, for Balinese."""
    glyphs = 1 + len(characters) + more
    groups = b"".join(of_table("III", c, c, 1 + i) for i, c in enumerate(characters))
    tables = {
        "head": of_table("IIIIHHqqhhhhHHhhh", 0x10000, 0, 0, 0x5F0F3CF5, 0, 1000, 0, 0, 0, 0, 0, 0, 0, 8, 2, 0, 0),
        "hhea": of_table("I3hH3h3h4hhH", 0x10000, 800, -200, 0, 500, 0, 0, 0, 1, 0, 0, 0, 0, 0, 0, 0, glyphs),
        "maxp": of_table("IH", 0x5000, glyphs),
        "hmtx": of_table("Hh", 500, 0) * glyphs,
        "cmap": of_table("HHHHIHHIII", 0, 1, 3, 10, 12, 12, 0, 16 + len(groups), 0, len(characters)) + groups,
    }
    if features:
        tables["GSUB"] = single_substitutions(b"bali", features)
    return joined(tables)


THAI = font([0x0E1B, 0x0E32, 0x0E4D, 0xF711])
HANGUL = font([0x1100, 0x1161, 0x11C3, 0xAC00])
BALINESE = font([0x1B13], 2, {"init": (1, 2), "fina": (1, 3)})

# The words: of a font that is made here or Noto's, at a cluster level, and whether the broken text differs with HarfBuzz as
# it is, with the hooks, and with their sound flags.
WORDS = [
    ("Syriac", "Syriac", "0715 0730 0730 0730 0730 0730 0710", 0, (True, True, False)),
    ("Devanagari, circles", "Devanagari", "093E " + "002E " * 14 + "093E", 0, (True, False, False)),
    ("Devanagari, ZWNJ", "Devanagari", "0915 093F 0902 200C 093E", 0, (True, True, False)),
    ("Thai", THAI, "0E1B 0E33", 1, (True, True, False)),
    ("Hangul", HANGUL, "AC00 11C3", 1, (True, True, False)),
    ("Balinese", BALINESE, "1B13 1B13", 0, (True, True, False)),
    ("Balinese, three", BALINESE, "1B13 1B13 1B13", 0, (True, True, False)),
]
BUILDS = ("stock", "sengadlit", "sound")


def differs(out, which, path, word, level):
    """Whether hb-shape of a build finds that the broken text differs."""
    unicodes = ",".join(word.split())
    done = subprocess.run([f"{out}/{which}/hb-shape", path, f"--unicodes={unicodes}", f"--cluster-level={level}", "--verify",
                           "--font-funcs=ot", "--no-glyph-names"], stdout=subprocess.PIPE, stderr=subprocess.PIPE, check=False)
    if done.returncode == 0:
        return False
    if b"unsafe-to-break" not in done.stderr:
        sys.exit(f"{which}: {done.stderr.decode()}")
    return True


def main():
    _, out, root = sys.argv
    passed = failed = 0
    print("| word | level | as it is | the hooks | with sound flags |\n|---|---|---|---|---|")
    with tempfile.TemporaryDirectory() as folder:
        for name, source, word, level, known in WORDS:
            path = f"{root}/{NOTO}/NotoSans{source}-Regular.ttf"
            if isinstance(source, bytes):
                path = f"{folder}/font.ttf"
                with open(path, "wb") as file:
                    file.write(source)
            found = tuple(differs(out, which, path, word, level) for which in BUILDS)
            told = " | ".join("differs" if one else "same" for one in found)
            print(f"| {name}: {word} | {level} | {told} |{'' if found == known else ' not as it was'}")
            passed += found == known
            failed += found != known
    print(f"{passed} passed, {failed} failed")
    return failed > 0


if __name__ == "__main__":
    sys.exit(main())
