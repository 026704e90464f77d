#!/usr/bin/env python3
"""Draws what `show --numbers` printed: outlines.py FONT NAME reads its lines, and writes NAME-stock.svg and NAME-sengadlit.svg.

Both pictures have one size and one baseline. Glyphs that only one of them has are coloured. FONT has outlines of TrueType.
"""

import collections
import re
import struct
import sys

GLYPH = re.compile(r"(\d+)=\d+(?:@(-?\d+),(-?\d+))?\+(\d+)(?:#\w+)?")
COLOURS = {"stock": "#d55e00", "sengadlit": "#0072b2"}
MARGIN, HEIGHT = 60, 90


class Font:
    """The tables of a font that outlines need."""

    def __init__(self, path):
        with open(path, "rb") as file:
            self.bytes = file.read()
        count = struct.unpack(">H", self.bytes[4:6])[0]
        records = (struct.unpack(">4s3L", self.bytes[12 + 16 * i : 28 + 16 * i]) for i in range(count))
        self.tables = {tag: self.bytes[start : start + length] for tag, _, start, length in records}
        head = self.tables[b"head"]
        self.kind = ">H" if struct.unpack(">h", head[50:52])[0] == 0 else ">L"

    def outline(self, number):
        """The contours of a glyph: lists of points, each with whether it is on the curve."""
        size = struct.calcsize(self.kind)
        loca = self.tables[b"loca"][size * number : size * (number + 2)]
        scale = 2 if size == 2 else 1
        start, end = (scale * struct.unpack_from(self.kind, loca, size * i)[0] for i in (0, 1))
        glyph = self.tables[b"glyf"][start:end]
        if not glyph:
            return []
        contours = struct.unpack(">h", glyph[:2])[0]
        return self.simple(glyph, contours) if contours >= 0 else list(self.parts(glyph))

    def parts(self, glyph):
        """The contours of a glyph that is made of others."""
        place, more = 10, True
        while more:
            flags, number = struct.unpack_from(">HH", glyph, place)
            dx, dy = struct.unpack_from(">hh" if flags & 1 else ">bb", glyph, place + 4)
            place += 8 if flags & 1 else 6
            if not flags & 2 or flags & 0xC8:
                raise SystemExit(f"outlines.py: glyph {number} is turned or scaled, which isn't drawn")
            more = flags & 0x20
            for contour in self.outline(number):
                yield [(x + dx, y + dy, on) for x, y, on in contour]

    def simple(self, glyph, contours):
        ends = struct.unpack_from(f">{contours}H", glyph, 10)
        place = 10 + 2 * contours
        place += 2 + struct.unpack_from(">H", glyph, place)[0]
        count, flags = ends[-1] + 1, []
        while len(flags) < count:
            flag, place = glyph[place], place + 1
            times = 1
            if flag & 8:
                times, place = 1 + glyph[place], place + 1
            flags += [flag] * times
        axes = []
        for short, same in ((2, 16), (4, 32)):
            value, axis = 0, []
            for flag in flags[:count]:
                if flag & short:
                    value, place = value + (glyph[place] if flag & same else -glyph[place]), place + 1
                elif not flag & same:
                    value, place = value + struct.unpack_from(">h", glyph, place)[0], place + 2
                axis.append(value)
            axes.append(axis)
        points = [(x, y, flag & 1) for x, y, flag in zip(*axes, flags)]
        starts = [0] + [end + 1 for end in ends[:-1]]
        return [points[start : end + 1] for start, end in zip(starts, ends)]


def middle(a, b):
    return (a[0] + b[0]) / 2, (a[1] + b[1]) / 2, 1


def path_of(contour, dx, dy):
    """A contour as a path of SVG: between two points off the curve there is one on it."""
    points = []
    for before, point in zip(contour[-1:] + contour[:-1], contour):
        if not before[2] and not point[2]:
            points.append(middle(before, point))
        points.append(point)
    first = next(i for i, point in enumerate(points) if point[2])
    points = points[first:] + points[: first + 1]
    words = []
    for i, (x, y, on) in enumerate(points):
        letter = "M" if i == 0 else "Q" if not on else "" if not points[i - 1][2] else "L"
        words.append(f"{letter}{x + dx:g} {-y - dy:g}")
    return " ".join(words) + "Z"


def placed(line):
    """The glyphs of a line of `show`, as numbers with the places where they are drawn, and where the line ends."""
    glyphs, x = [], 0
    for number, right, up, advance in GLYPH.findall(line):
        glyphs.append((int(number), x + int(right or 0), int(up or 0)))
        x += int(advance)
    return glyphs, x


def extent(font, glyphs):
    points = [(x + dx, y + dy) for number, dx, dy in glyphs for contour in font.outline(number) for x, y, _ in contour]
    xs, ys = zip(*points)
    return min(xs), max(xs), min(ys), max(ys)


def draw(font, which, glyphs, others, box):
    left, top, width, height = box
    left_over = collections.Counter(glyphs) - collections.Counter(others)
    yield (
        f'<svg xmlns="http://www.w3.org/2000/svg" width="{HEIGHT * width / height:.0f}" height="{HEIGHT}" '
        f'viewBox="{left:g} {top:g} {width:g} {height:g}">'
    )
    yield f'<rect x="{left:g}" y="{top:g}" width="{width:g}" height="{height:g}" fill="#fff"/>'
    for glyph in glyphs:
        number, dx, dy = glyph
        path = " ".join(path_of(contour, dx, dy) for contour in font.outline(number))
        colour = COLOURS[which] if left_over[glyph] else "#1a1a1a"
        left_over[glyph] -= 1
        if path:
            yield f'<path fill="{colour}" d="{path}"/>'
    yield "</svg>"


def main(font, name):
    font = Font(font)
    lines = {which: placed(rest) for which, rest in (line.split(maxsplit=1) for line in sys.stdin)}
    # (glyph 0, of what a font lacks, is left out)
    glyphs = {which: [glyph for glyph in line[0] if glyph[0]] for which, line in lines.items()}
    extents = [extent(font, some) for some in glyphs.values()]
    left, right = min(it[0] for it in extents) - MARGIN, max(it[1] for it in extents) + MARGIN
    foot, top = min(it[2] for it in extents) - MARGIN, max(it[3] for it in extents) + MARGIN
    box = left, -top, right - left, top - foot
    for which, other in (("stock", "sengadlit"), ("sengadlit", "stock")):
        with open(f"{name}-{which}.svg", "w", encoding="ascii") as file:
            for line in draw(font, which, glyphs[which], glyphs[other], box):
                print(line, file=file)


if __name__ == "__main__":
    if len(sys.argv) != 3:
        sys.exit(__doc__.strip())
    main(*sys.argv[1:])
