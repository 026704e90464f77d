#!/usr/bin/env python3
"""Makes of a font others that Debian has none of, for checks/fonts: `fonts_made.py FONT FOLDER` writes into the folder fonts with
the glyphs of this one and other tables: each format of `cmap` that old or rare fonts have, symbols and the encodings before
Unicode, names of `post` of format 1, and the lengths of tables by which HarfBuzz knows a GDEF that it ignores.
"""

import pathlib
import struct
import sys


def words(*numbers):
    return struct.pack(f">{len(numbers)}H", *numbers)


def longs(*numbers):
    return struct.pack(f">{len(numbers)}I", *numbers)


def tables_of(data):
    """Returns the tables of a font by their tags."""
    count = struct.unpack_from(">H", data, 4)[0]
    records = [struct.unpack_from(">4sIII", data, 12 + 16 * i) for i in range(count)]
    return {tag: data[offset : offset + length] for tag, _, offset, length in records}


def font_of(tables):
    """Returns a font of these tables, in order of their tags."""
    directory, body, start = b"", b"", 12 + 16 * len(tables)
    for tag, table in sorted(tables.items()):
        directory += tag + longs(0, start + len(body), len(table))
        body += table + bytes(-len(table) % 4)
    return longs(0x10000) + words(len(tables), 0, 0, 0) + directory + body


def cmap(*subtables):
    """Returns `cmap` with these subtables: each with its platform and its encoding."""
    records, body, start = b"", b"", 4 + 8 * len(subtables)
    for platform, encoding, subtable in subtables:
        records += words(platform, encoding) + longs(start + len(body))
        body += subtable + bytes(-len(subtable) % 4)
    return words(0, len(subtables)) + records + body


def format0(first):
    """Each code has the glyph that is so much greater."""
    return words(0, 262, 0) + bytes((first + code) % 256 for code in range(256))


def format2(first):
    """One row of codes of one byte. (HarfBuzz reads no such subtable.)"""
    return words(2, 6 + 512 + 8 + 512, 0) + bytes(512) + words(0, 256, 0, 2) + words(*range(first, first + 256))


def format4(segments):
    """Segments of a first and a last character, and the first one's glyph."""
    segments = [*segments, (0xFFFF, 0xFFFF, 0)]
    count = len(segments)
    lasts = words(*(last for _, last, _ in segments))
    firsts = words(*(first for first, _, _ in segments))
    deltas = words(*((glyph - first) % 0x10000 for first, _, glyph in segments))
    body = words(2 * count, 0, 0, 0) + lasts + words(0) + firsts + deltas + words(*[0] * count)
    return words(4, 6 + len(body), 0) + body


def format6(first, glyphs):
    return words(6, 10 + 2 * len(glyphs), 0, first, len(glyphs)) + words(*glyphs)


def format10(first, glyphs):
    return words(10, 0) + longs(20 + 2 * len(glyphs), 0, first, len(glyphs)) + words(*glyphs)


def format13(groups):
    """Groups of a first and a last character, and the glyph of all."""
    return words(13, 0) + longs(16 + 12 * len(groups), 0, len(groups)) + b"".join(longs(*group) for group in groups)


def format14(selector, defaults, mappings):
    """One selector: characters and how many behind them are as without it, and characters with their glyphs."""
    ranges = longs(len(defaults)) + b"".join(longs(first * 256 + more) for first, more in defaults)
    others = longs(len(mappings)) + b"".join(longs(c)[1:] + words(glyph) for c, glyph in mappings)
    head = longs(selector)[1:] + longs(21, 21 + len(ranges))
    return words(14) + longs(10 + len(head + ranges + others), 1) + head + ranges + others


def page(os2, number):
    """Returns OS/2 of version 0, with a page of an old font of one script in fsSelection."""
    return words(0) + os2[2:62] + words(number * 256) + os2[64:]


def padded(table, length):
    return table + bytes(length - len(table))


def ignored(tables, length):
    """Returns tables in which glyphs 1 to 50 are marks, of the lengths of a font whose GDEF HarfBuzz ignores, if that is 442."""
    gdef = padded(words(1, 0, 12, 0, 0, 0) + words(2, 1, 1, 50, 3), length)
    lists = words(1, 0, 10, 12, 14) + words(0, 0, 0)
    return {**tables, b"GDEF": gdef, b"GSUB": padded(lists, 2874), b"GPOS": padded(lists, 42038)}


def all_fonts(tables):
    """Yields the name and the tables of each font."""
    letters = [(0x20, 0x7E, 3), (0x600, 0x6FF, 500)]
    legacy = [(0x20, 0x7E, 3), (0xF001, 0xF2FF, 400)]
    with_cmap = {
        "format0_mac": cmap((1, 0, format0(3))),
        "format0_unicode": cmap((0, 3, format0(7))),
        "format2": cmap((3, 1, format2(5))),
        "format4_of_0_0": cmap((0, 0, format4(letters))),
        "format6": cmap((3, 1, format6(0x391, [*range(900, 920), 0, *range(30, 40)]))),
        "format6_mac": cmap((1, 0, format6(0x20, range(3, 220)))),
        "format6_cyrillic_mac": cmap((1, 7, format6(0x20, range(3, 220)))),
        "format10": cmap((3, 10, format10(0xFFF0, [*range(100, 120), 0, *range(200, 220)]))),
        "format13": cmap((0, 6, format13([(0x41, 0x5A, 7), (0x10000, 0x10FFFF, 9)]))),
        "format14": cmap(
            (0, 5, format14(0xE0100, [(0x41, 3), (0x600, 255)], [(0x61, 77), (0x62, 0), (0x20000, 78)])),
            (3, 1, format4(letters)),
        ),
        "symbols": cmap((3, 0, format4([(0xF020, 0xF07E, 3)]))),
        "symbols_and_others": cmap((1, 0, format0(3)), (3, 0, format4([(0xF020, 0xF07E, 3)])), (3, 1, format4(letters))),
    }
    for name, table in with_cmap.items():
        yield name, {**tables, b"cmap": table}
    for name, number in {"simplified": 0xB2, "traditional": 0xB3, "other_page": 0xB4}.items():
        yield name, {**tables, b"cmap": cmap((3, 0, format4(legacy))), b"OS/2": page(tables[b"OS/2"], number)}
    yield "post1", {**tables, b"post": longs(0x10000) + tables[b"post"][4:32]}
    yield "ignored_gdef", ignored(tables, 442)
    yield "read_gdef", ignored(tables, 444)


def main(source, folder):
    tables = tables_of(pathlib.Path(source).read_bytes())
    for name, made in all_fonts(tables):
        pathlib.Path(folder, f"{name}.ttf").write_bytes(font_of(made))


if __name__ == "__main__":
    main(*sys.argv[1:])
