"""GDEF, GSUB and GPOS of sample.ttf, as bytes; what they are made of has OpenType's names."""

import struct

IGNORE_MARKS, USE_MARK_FILTERING_SET = 8, 16
BASE, LIGATURE, MARK = 1, 2, 3
# The sets of marks that GDEF has, by where their marks attach.
MARK_SETS = ["top", "bottom"]

# Pairs of letters that come closer, then classes of them.
KERN_PAIRS = {("T", "o"): -90, ("T", "e"): -90, ("T", "a"): -80, ("f", "o"): -10, ("L", "T"): -90, ("L", "Y"): -90}
KERN_FIRST = [["A"], ["V", "W", "Y"], ["P", "F"]]
KERN_SECOND = [["V", "W", "Y", "T"], ["a", "c", "e", "o", "eacute"], ["A"]]
KERN_VALUES = [[-80, 0, 0], [0, -50, -80], [0, -20, -70]]

HALF_FORMS = ["ka", "ga", "ta", "na", "pa", "ba", "ma", "ya", "la", "va", "ssa", "sa", "k_ssa"]
RA_FORMS = {"ka": "k_ra", "ga": "g_ra", "ta": "t_ra", "pa": "p_ra", "da": "d_ra"}
# Before these letters the vowel sign I is a wide one.
WIDE = ["ka", "k_ra", "sa", "sa.half", "la", "la.half"]
COENG_FORMS = ["ka", "kho", "ngo", "ta", "no", "mo", "vo"]


def shorts(*values):
    return b"".join(struct.pack(">h" if value < 0 else ">H", value) for value in values)


def table(*fields):
    """A table of 16 bits a field: numbers, and offsets to parts (bytes; None is the offset 0), which stand behind them."""
    head, parts, at = b"", b"", 2 * len(fields)
    for field in fields:
        if isinstance(field, bytes):
            head += shorts(at + len(parts))
            parts += field
        else:
            head += shorts(field or 0)
    return head + parts


def tagged(records):
    """A list of tables by tags, in alphabetic order."""
    at = 2 + 6 * len(records)
    head, parts = shorts(len(records)), b""
    for tag, part in sorted(records, key=lambda record: record[0]):
        head += tag.encode() + shorts(at + len(parts))
        parts += part
    return head + parts


class Layout:
    """Builds the tables over the font's glyphs, whose numbers it knows by name."""

    def __init__(self, glyphs):
        self.glyphs = {glyph.name: glyph for glyph in glyphs}
        self.numbers = {glyph.name: number for number, glyph in enumerate(glyphs)}

    def gdef(self):
        classes = {name: MARK if glyph.is_mark else BASE for name, glyph in self.glyphs.items()}
        del classes[".notdef"]
        ligatures = self.sorted(["fi", "fl", "lam_alef-ar", "lam_alef-ar.fina"])
        classes.update(dict.fromkeys(ligatures, LIGATURE))
        carets = [table(1, table(1, self.glyphs[name].advance // 2)) for name in ligatures]
        sets = [self.coverage(self.marks([name])) for name in MARK_SETS]
        places = [4 + 4 * len(sets) + sum(map(len, sets[:index])) for index in range(len(sets))]
        mark_sets = shorts(1, len(sets)) + struct.pack(f">{len(sets)}I", *places) + b"".join(sets)
        # (none of the tables of attachment points and of classes of marks)
        caret_list = table(self.coverage(ligatures), len(carets), *carets)
        return table(1, 2, self.classes(classes), None, caret_list, None, mark_sets)

    # ---- What all tables have ----

    def sorted(self, names):
        return sorted(names, key=self.numbers.__getitem__)

    def coverage(self, names):
        numbers = sorted(self.numbers[name] for name in names)
        ranges = []
        for index, number in enumerate(numbers):
            if ranges and ranges[-1][1] == number - 1:
                ranges[-1][1] = number
            else:
                ranges.append([number, number, index])
        if len(ranges) * 3 < len(numbers):
            return shorts(2, len(ranges), *(value for one in ranges for value in one))
        return shorts(1, len(numbers), *numbers)

    def classes(self, class_of):
        """A definition of classes, from a dictionary by name."""
        ranges = []
        for name in self.sorted(class_of):
            number, value = self.numbers[name], class_of[name]
            if ranges and ranges[-1][1:] == [number - 1, value]:
                ranges[-1][1] = number
            else:
                ranges.append([number, number, value])
        return shorts(2, len(ranges), *(value for one in ranges for value in one))

    def marks(self, places, scripts=None):
        """The marks that attach to one of these places."""
        return [name for name in self.glyphs if any(self.has(name, "_" + place, scripts) for place in places)]

    def has(self, name, anchor, scripts):
        glyph = self.glyphs[name]
        return anchor in glyph.anchors and (scripts is None or glyph.script in scripts)

    # ---- GSUB ----

    def single(self, pairs):
        first = self.sorted(pairs)
        return 1, table(2, self.coverage(first), len(first), *(self.numbers[pairs[name]] for name in first))

    def ligature(self, ligatures):
        """From a dictionary of the ligatures by the names of their parts."""
        first = self.sorted({parts[0] for parts in ligatures})
        sets = []
        for name in first:
            rules = [
                shorts(self.numbers[ligature], len(parts), *(self.numbers[part] for part in parts[1:]))
                for parts, ligature in ligatures.items()
                if parts[0] == name
            ]
            sets.append(table(len(rules), *rules))
        return 4, table(1, self.coverage(first), len(sets), *sets)

    def before(self, names, followers, lookup):
        """A lookup for the glyphs that stand before others."""
        return 6, table(3, 0, 1, self.coverage(names), 1, self.coverage(followers), 1, 0, lookup)

    def gsub(self):
        forms = {
            form: {base: f"{base}.{form}" for base in self.numbers if f"{base}.{form}" in self.numbers}
            for form in ["init", "medi", "fina"]
        }
        del forms["fina"]["lam_alef-ar"]
        lookups = [
            (0, [self.before(["i"], self.marks(["top"], ["latn"]), 1)]),
            (0, [self.single({"i": "dotlessi"})]),
            (0, [self.ligature({("f", "i"): "fi", ("f", "l"): "fl"})]),
            *((0, [self.single(pairs)]) for pairs in forms.values()),
            (IGNORE_MARKS, [self.ligature(LAM_ALEF)]),
            (0, [self.ligature({named("deva", "ka", "virama", "ssa"): "k_ssa-deva"})]),
            (0, [self.ligature({named("deva", "ra", "virama"): "reph-deva"})]),
            (0, [self.ligature({named("deva", base, "virama", "ra"): f"{form}-deva" for base, form in RA_FORMS.items()})]),
            (0, [self.ligature({named("deva", base, "virama"): f"{base}-deva.half" for base in HALF_FORMS})]),
            (0, [self.before(["iMatra-deva"], [wide(name) for name in WIDE], 12)]),
            (0, [self.single({"iMatra-deva": "iMatra-deva.wide"})]),
            (0, [self.ligature({named("khmer", "coeng", "ro"): "ro-khmer.coeng"})]),
            (0, [self.ligature({named("khmer", "coeng", base): f"{base}-khmer.coeng" for base in COENG_FORMS})]),
            (0, [self.ligature({named("khmer", "coeng", "yo"): "yo-khmer.coeng"})]),
        ]
        latin = {"ccmp": [0], "liga": [2]}
        arabic = {"init": [3], "medi": [4], "fina": [5], "rlig": [6]}
        devanagari = {"akhn": [7], "rphf": [8], "rkrf": [9], "half": [10], "pres": [11]}
        khmer = {"pref": [13], "blwf": [14], "pstf": [15]}
        return self.lookups_of(
            {"DFLT": latin, "latn": latin, "arab": arabic, "dev2": devanagari, "khmr": khmer, "thai": {}}, lookups
        )

    # ---- GPOS ----

    def pairs(self, values):
        first = self.sorted({one for one, _ in values})
        sets = []
        for name in first:
            seconds = self.sorted(two for one, two in values if one == name)
            records = [value for two in seconds for value in (self.numbers[two], values[name, two])]
            sets.append(shorts(len(seconds), *records))
        return 2, table(1, self.coverage(first), 4, 0, len(sets), *sets)

    def class_pairs(self):
        first = {name: index for index, names in enumerate(KERN_FIRST) for name in names}
        second = {name: index + 1 for index, names in enumerate(KERN_SECOND) for name in names}
        values = [value for row in KERN_VALUES for value in (0, *row)]
        classes = [self.classes({name: index for name, index in first.items() if index}), self.classes(second)]
        return 2, table(2, self.coverage(first), 4, 0, *classes, len(KERN_FIRST), len(KERN_SECOND) + 1, *values)

    def anchor(self, name, place):
        return shorts(1, *self.glyphs[name].anchors[place]) if place in self.glyphs[name].anchors else None

    def mark_array(self, marks, places):
        records = []
        for mark in marks:
            place = next(place for place in places if "_" + place in self.glyphs[mark].anchors)
            records += [places.index(place), self.anchor(mark, "_" + place)]
        return table(len(marks), *records)

    def to_bases(self, scripts, places, type=4):
        """Marks to bases, or of type 6 to other marks."""
        marks = self.sorted(self.marks(places, scripts))
        bases = [
            name
            for name, glyph in self.glyphs.items()
            if glyph.is_mark == (type == 6) and any(self.has(name, place, [*scripts, "zyyy"]) for place in places)
        ]
        anchors = [self.anchor(name, place) for name in bases for place in places]
        sub_tables = [self.mark_array(marks, places), table(len(bases), *anchors)]
        return type, table(1, self.coverage(marks), self.coverage(bases), len(places), *sub_tables)

    def to_ligatures(self, scripts, places):
        marks = self.sorted(self.marks(places, scripts))
        ligatures = [name for name in self.glyphs if self.has(name, places[0] + "1", scripts)]
        attaches = [
            table(2, *(self.anchor(name, f"{place}{part}") for part in (1, 2) for place in places)) for name in ligatures
        ]
        sub_tables = [self.mark_array(marks, places), table(len(ligatures), *attaches)]
        return 5, table(1, self.coverage(marks), self.coverage(ligatures), len(places), *sub_tables)

    def to_marks(self, scripts):
        """Marks to marks of the same place, past those of the other."""
        return [
            (USE_MARK_FILTERING_SET, [self.to_bases(scripts, [place], 6)], index) for index, place in enumerate(MARK_SETS)
        ]

    def gpos(self):
        both = MARK_SETS
        lookups = [(0, [self.pairs(KERN_PAIRS), self.class_pairs()])]
        for script in ["latn", "arab", "thai"]:
            lookups += [(0, [self.to_bases([script], both)]), *self.to_marks([script])]
        for script in ["dev2", "khmr"]:
            lookups += [(0, [self.to_bases([script], [place])]) for place in both] + self.to_marks([script])
        lookups.append((0, [self.to_ligatures(["arab"], both)]))
        latin = {"kern": [0], "mark": [1], "mkmk": [2, 3]}
        arabic = {"mark": [4, len(lookups) - 1], "mkmk": [5, 6]}
        thai = {"mark": [7], "mkmk": [8, 9]}
        devanagari = {"abvm": [10, 12], "blwm": [11, 13]}
        khmer = {"abvm": [14, 16], "blwm": [15, 17]}
        return self.lookups_of(
            {"DFLT": latin, "latn": latin, "arab": arabic, "thai": thai, "dev2": devanagari, "khmr": khmer}, lookups
        )

    # ---- Scripts, features and lookups ----

    def lookups_of(self, scripts, lookups):
        """GSUB or GPOS: the lookups of features by script, and the lookups: flags, sub-tables of one type, a set of marks."""
        features = sorted({(tag, tuple(indices)) for of in scripts.values() for tag, indices in of.items()})
        script_list = tagged(
            [
                (script, table(table(0, 0xFFFF, len(of), *sorted(features.index((tag, tuple(of[tag]))) for tag in of)), 0))
                for script, of in scripts.items()
            ]
        )
        feature_list = tagged([(tag, table(0, len(indices), *indices)) for tag, indices in features])
        lookup_list = table(len(lookups), *(self.lookup(*lookup) for lookup in lookups))
        return table(1, 0, script_list, feature_list, lookup_list)

    def lookup(self, flags, sub_tables, mark_set=None):
        # (the set's number stands between the offsets and what they lead to)
        last = [] if mark_set is None else [mark_set]
        return table(sub_tables[0][0], flags, len(sub_tables), *(part for _, part in sub_tables), *last)


LAM_ALEF = {
    ("lam-ar.init", "alef-ar.fina"): "lam_alef-ar",
    ("lam-ar.medi", "alef-ar.fina"): "lam_alef-ar.fina",
}


def named(script, *letters):
    return tuple(f"{letter}-{script}" for letter in letters)


def wide(name):
    return "-deva.".join(name.split(".")) if "." in name else f"{name}-deva"
