"""The fonts of the tests: a few glyphs without outlines, each with an advance, and one script's lookups.

A fault's part '== font' describes its font, one line each:

    characters C..           each has a glyph: 1, 2 and so on
    zero C..                 these have no advance
    script TAG               GSUB has this script
    single FEATURE A NEW     a lookup of the feature replaces glyph A
    ligature FEATURE A B NEW..  ... the glyphs A and B; more of A follow as B NEW
    behind FEATURE Z A B NEW    ... A and B behind the glyph Z
    reverse FEATURE Z A NEW     ... A behind the glyph Z, from the end of the text on

Characters are hexadecimal, glyphs are numbers; a glyph without a character may be named.
"""

import struct


def words(*numbers):
    return struct.pack(f">{len(numbers)}H", *numbers)


def longs(*numbers):
    return struct.pack(f">{len(numbers)}I", *numbers)


def table_of_parts(head, parts):
    """A table that begins with some words, then has an offset to each part, and the parts."""
    start, offsets = len(head) + 2 * len(parts), []
    for part in parts:
        offsets.append(start)
        start += len(part)
    return head + words(*offsets) + b"".join(parts)


def coverage(glyph):
    return words(1, 1, glyph)


def single(glyph, new):
    return 1, [table_of_parts(words(2), [])[:2] + words(8, 1, new) + coverage(glyph)]


def ligature(first, *rest):
    ligatures = [words(new, 2, second) for second, new in zip(rest[::2], rest[1::2])]
    return 4, [words(1, 8, 1, 14) + coverage(first) + table_of_parts(words(len(ligatures)), ligatures)]


def behind(before, first, second, lookup):
    """A chained context of three coverages that calls a lookup at its first glyph."""
    start = 2 + 2 * 2 + 3 * 2 + 2 + 2 + 4
    offsets = [start + 6 * i for i in range(3)]
    body = words(3, 1, offsets[0], 2, offsets[1], offsets[2], 0, 1, 0, lookup)
    return 6, [body + b"".join(coverage(glyph) for glyph in (before, first, second))]


def reverse(before, glyph, new):
    return 8, [words(1, 14, 1, 20, 0, 1, new) + coverage(glyph) + coverage(before)]


def gsub(script, lines):
    """The table of a script's features, each with one lookup."""
    lookups, features = [], []
    for kind, feature, *glyphs in lines:
        glyphs = [int(glyph) for glyph in glyphs]
        if kind == "behind":
            before, first, second, new = glyphs
            lookups.append(ligature(first, second, new))
            lookups.append(behind(before, first, second, len(lookups) - 1))
        else:
            lookups.append({"single": single, "ligature": ligature, "reverse": reverse}[kind](*glyphs))
        features.append((feature.encode(), len(lookups) - 1))
    features.sort()
    language = words(0, 0xFFFF, len(features), *range(len(features)))
    scripts = words(1) + script.encode() + words(8) + words(4, 0) + language
    start, records, bodies = 2 + 6 * len(features), b"", b""
    for tag, lookup in features:
        records += tag + words(start + len(bodies))
        bodies += words(0, 1, lookup)
    feature_list = words(len(features)) + records + bodies
    tables = [table_of_parts(words(kind, 0, len(parts)), parts) for kind, parts in lookups]
    lookup_list = table_of_parts(words(len(tables)), tables)
    at = [10, 10 + len(scripts), 10 + len(scripts) + len(feature_list)]
    return words(1, 0, *at) + scripts + feature_list + lookup_list


def cmap(characters):
    """The table of characters, in format 12."""
    groups = b"".join(longs(c, c, glyph) for c, glyph in sorted(characters.items()))
    subtable = words(12, 0) + longs(16 + len(groups), 0, len(characters)) + groups
    return words(0, 1, 3, 10) + longs(12) + subtable


def font(lines):
    """The font that these lines describe."""
    characters, zero, script, lookups, glyphs = {}, set(), None, [], 0
    for line in lines:
        kind, *rest = line.split()
        if kind == "characters":
            characters = {int(c, 16): number for number, c in enumerate(rest, 1)}
        elif kind == "zero":
            zero = {characters[int(c, 16)] for c in rest}
        elif kind == "script":
            script = rest[0]
        else:
            lookups.append((kind, *rest))
            glyphs = max([glyphs, *map(int, rest[1:])])
    count = max(glyphs, len(characters)) + 1
    advances = [0 if glyph in zero else 500 + glyph for glyph in range(count)]
    head = longs(0x10000, 0x10000, 0, 0x5F0F3CF5) + words(0, 1000) + bytes(16) + words(0, 0, 1000, 1000, 0, 8, 2, 0, 0)
    tables = {
        b"head": head,
        b"hhea": longs(0x10000) + words(800, 65336, 0, max(advances)) + bytes(22) + words(count),
        b"hmtx": b"".join(words(advance, 0) for advance in advances),
        b"maxp": longs(0x5000) + words(count),
        b"cmap": cmap(characters),
        b"post": longs(0x30000) + bytes(28),
    }
    if script:
        tables[b"GSUB"] = gsub(script, lookups)
    directory, body, start = b"", b"", 12 + 16 * len(tables)
    for tag, table in sorted(tables.items()):
        directory += tag + longs(0, start + len(body), len(table))
        body += table + bytes(-len(table) % 4)
    return longs(0x10000) + words(len(tables), 0, 0, 0) + directory + body
