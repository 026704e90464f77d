"""The glyphs of letters.txt, and their outlines: the contours that a pen of one width leaves, of points (x, y, on the curve)."""

import math
import pathlib

HALF_PEN = 40
# How far a joint of lines may stand out, in halves of the pen: what is sharper is cut off.
MITER = 2.4
# The curves of an arc: each spans at most so many degrees.
SPAN = 45


class Glyph:
    """A line of letters.txt; `code` is None where no character is drawn by it."""

    def __init__(self, script, name, code, advance, anchors, strokes):
        self.script, self.name, self.code, self.advance = script, name, code, advance
        self.anchors, self.strokes = anchors, strokes
        self.contours = []

    @property
    def is_mark(self):
        return any(name.startswith("_") for name in self.anchors)


def read_glyphs(path):
    """The glyphs of the font, in the file's order."""
    parts, script = {}, None
    for line in pathlib.Path(path).read_text(encoding="utf8").splitlines():
        if line.startswith("["):
            script = line.strip("[]")
        elif line and not line.startswith("#"):
            glyph = read_glyph(line, script)
            glyph.contours = draw(glyph.strokes, parts)
            parts[glyph.name] = glyph
    return [glyph for glyph in parts.values() if glyph.code != "part"]


def read_glyph(line, script):
    (name, code, advance), anchors, *strokes = (field.split() for field in line.split("|"))
    places = {anchors[i]: (int(anchors[i + 1]), int(anchors[i + 2])) for i in range(0, len(anchors), 3)}
    if code not in ("-", "part"):
        code = int(code, 16)
    return Glyph(script, name, None if code == "-" else code, int(advance), places, strokes)


def draw(strokes, parts):
    contours = []
    for stroke in filter(None, strokes):
        kind, *words = stroke
        if kind == "use":
            contours += moved(parts[words[0]].contours, *map(float, words[1:]))
        else:
            contours += {"line": line, "arc": arc, "ring": ring, "dot": dot}[kind](*map(float, words))
    return contours


def moved(contours, right, up, scale=1):
    return [[(scale * x + right, scale * y + up, on) for x, y, on in contour] for contour in contours]


# ---- Strokes: an outer contour runs clockwise, as TrueType fills it, an inner one the other way ----


def dot(x, y, size=62):
    return [[(x - size, y, True), (x, y + size, True), (x + size, y, True), (x, y - size, True)]]


def ring(x, y, across, up):
    outer = ellipse(x, y, across + HALF_PEN, up + HALF_PEN, 0, 360)[:-1]
    return [outer[::-1], ellipse(x, y, across - HALF_PEN, up - HALF_PEN, 0, 360)[:-1]]


def arc(x, y, across, up, first, last):
    outer = ellipse(x, y, across + HALF_PEN, up + HALF_PEN, first, last)
    return [outer[::-1] + ellipse(x, y, across - HALF_PEN, up - HALF_PEN, first, last)]


def ellipse(x, y, across, up, first, last):
    """Quadratic curves from one angle to another; between two of their middle points lies one on the curve, unwritten."""
    count = math.ceil((last - first) / SPAN)
    step = math.radians(last - first) / count
    start = math.radians(first)

    def at(angle, far, on):
        return (x + across * far * math.cos(angle), y + up * far * math.sin(angle), on)

    middles = [at(start + (i + 0.5) * step, 1 / math.cos(step / 2), False) for i in range(count)]
    return [at(start, 1, True), *middles, at(start + count * step, 1, True)]


def line(*numbers):
    points = list(zip(numbers[::2], numbers[1::2]))
    is_closed = points[0] == points[-1]
    left, right = side(points, is_closed), side(points[::-1], is_closed)
    return [left, right] if is_closed else [left + right]


def side(points, is_closed):
    """The edge on the left of a line through points, in its direction."""
    normals = [normal(*pair) for pair in zip(points, points[1:])]
    if is_closed:
        return [point for i in range(len(normals)) for point in joint(points[i], normals[i - 1], normals[i])]
    inner = [point for i in range(1, len(normals)) for point in joint(points[i], normals[i - 1], normals[i])]
    return [beside(points[0], normals[0]), *inner, beside(points[-1], normals[-1])]


def normal(start, end):
    across, up = end[0] - start[0], end[1] - start[1]
    length = math.hypot(across, up)
    return (-up / length, across / length)


def beside(point, normal):
    return (point[0] + HALF_PEN * normal[0], point[1] + HALF_PEN * normal[1], True)


def joint(point, before, after):
    sum_x, sum_y = before[0] + after[0], before[1] + after[1]
    square = sum_x * sum_x + sum_y * sum_y
    # the joint's point lies 2 / |sum| halves of the pen away, on the sum
    if square * MITER * MITER >= 4:
        return [beside(point, (2 * sum_x / square, 2 * sum_y / square))]
    return [beside(point, before), beside(point, after)]


def whole(contour):
    """A contour in whole units. (A half is rounded up, however the last bit of a sine fell out.)"""
    return [(math.floor(x + 0.5 + 1e-6), math.floor(y + 0.5 + 1e-6), on) for x, y, on in contour]
