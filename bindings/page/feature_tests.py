"""Tests of what the page says of features that a text asks for and a font lacks (features.js).

The fonts are Debian's with the tags of some features renamed. Which characters ask for which
feature, and what it makes of them, is what OpenType's specification of each script says.
"""

import struct
import unicodedata

BELOW = "keeps its whole form instead of one below the letter before it."
BESIDE = "keeps its whole form instead of one beside the letter before it."
BEFORE = "keeps its whole form instead of one before the letter that it follows in the text."
REPH = "isn't drawn as a reph, the sign that it has before another letter."
JOINED = "isn't joined with the letter before it into the sign that is usual for both."
WHOLE = "keeps its whole form, with the virama after it."
SUBSCRIPT = "isn't drawn as a subscript."
AT_LEFT = "keeps its whole form instead of its subscript, which stands at the left of the letter"
AT_LEFT += " before it."
TWICE = "keeps its whole form behind its left part, which may then be drawn twice."
KINZI = "isn't drawn as a kinzi, the sign that it has above the letter after it."
STARTS = "starts a word in the form for the middle of one, which may have a line at its left."
FINAL = "which joins the letter before it, keeps the form that it has alone."
MEDIAL = "which joins the letters on both sides, keeps the form that it has alone."
INITIAL = "which joins the letter after it, keeps the form that it has alone."
ENDS = "which ends a word, keeps the form that it has alone."

# Of a font, the features that it is robbed of and those that are told: words, each with the
# character that is told, which one of the word it is and what is seen; or with None, where no fault
# is told.
WORDS = [
    ("Devanagari", "half", "half", [
        ("\u0938\u094d\u0924\u0947", "\u0938", 1, WHOLE),
        ("\u0936\u0915\u094d\u0924\u093f", "\u0915", 2, WHOLE),
        ("\u091c\u093c\u094d\u0924", "\u091c", 1, WHOLE),
        ("\u0938\u094d\u200d\u0924", "\u0938", 1, WHOLE),
        # what other features do: KSSA, DDHA, RA above and below; and a virama that is asked for
        ("\u0915\u094d\u0937", None), ("\u0926\u094d\u0927", None),
        ("\u0938\u0942\u0930\u094d\u092f", None),
        ("\u0915\u094d\u0930", None), ("\u0938\u094d\u200c\u0924", None),
        ("\u0938\u0924\u094d", None),
        # DA has no half form in the whole font either
        ("\u0926\u094d\u0917", None)]),
    ("Devanagari", "rphf", "rphf", [
        ("\u0938\u0942\u0930\u094d\u092f", "\u0930", 3, REPH),
        ("\u092a\u094d\u0930", None), ("\u0930\u094d\u200d\u092f", None), ("\u0930\u092e", None)]),
    ("Devanagari", "rkrf", "rkrf blwf vatu", [("\u0915\u094d\u0930", None)]),
    ("Devanagari", "rkrf blwf", "rkrf blwf vatu", [
        ("\u0915\u094d\u0930", "\u0930", 3, BELOW), ("\u091f\u094d\u0930", "\u0930", 3, BELOW),
        ("\u0930\u094d\u0930", None), ("\u0915\u094d\u200d\u0930", None)]),
    ("Devanagari", "akhn", "akhn", [
        ("\u0915\u094d\u0937", "\u0937", 3, JOINED), ("\u091c\u094d\u091e", "\u091e", 3, JOINED),
        ("\u0938\u094d\u0924", None)]),
    ("Bengali", "init", "init", [
        ("\u0995\u09c7", "\u09c7", 2, STARTS), ("\u0995\u09cb", "\u09cb", 2, STARTS),
        ("\u09b8\u09cd\u09a4\u09c8", "\u09c8", 4, STARTS),
        ("\u0986\u09ae\u09be\u0995\u09c7 \u09b8\u09c7", "\u09c7", 8, STARTS),
        ("\u09ac\u09be\u0995\u09c7", None), ("\u0995\u09be", None)]),
    ("Bengali", "rphf", "rphf", [
        ("\u09b0\u09cd\u0995", "\u09b0", 1, REPH), ("\u09b0\u200d\u09cd\u09af", None)]),
    ("Bengali", "blwf", "blwf rkrf vatu", [("\u0995\u09cd\u09b0", "\u09b0", 3, BELOW)]),
    ("Bengali", "blwf", "blwf", [
        ("\u09b8\u09cd\u09ac", "\u09ac", 3, BELOW), ("\u09b0\u09cd\u09ac", None)]),
    ("Bengali", "pstf", "pstf", [
        ("\u0995\u09cd\u09af", "\u09af", 3, BESIDE), ("\u09b0\u09cd\u09af", None)]),
    ("Bengali", "half", "half", [
        ("\u0995\u09cd\u09a4", "\u0995", 1, WHOLE), ("\u0995\u09cd\u09b7", None)]),
    ("Bengali", "akhn", "akhn", [
        ("\u0995\u09cd\u09b7", "\u09b7", 3, JOINED), ("\u09b8\u09cd\u09a4", None)]),
    ("Gujarati", "half", "half", [
        ("\u0ab8\u0acd\u0aa4", "\u0ab8", 1, WHOLE), ("\u0ab8\u0aa4", None)]),
    # (the feature half makes another sign of that RA)
    ("Gujarati", "rphf", "rphf", [
        ("\u0ab0\u0acd\u0a95", "\u0ab0", 1, REPH), ("\u0a95\u0acd\u0ab0", None)]),
    ("Gujarati", "rkrf", "rkrf blwf vatu", [("\u0a95\u0acd\u0ab0", None)]),
    ("Gujarati", "rkrf blwf", "rkrf blwf vatu", [("\u0a95\u0acd\u0ab0", "\u0ab0", 3, BELOW)]),
    ("Gujarati", "akhn", "akhn", [("\u0a95\u0acd\u0ab7", "\u0ab7", 3, JOINED)]),
    ("Gurmukhi", "blwf", "blwf rkrf vatu", [
        ("\u0a2a\u0a4d\u0a30", "\u0a30", 3, BELOW), ("\u0a2a\u0a4d\u0a39", "\u0a39", 3, BELOW),
        ("\u0a2a\u0a30", None)]),
    ("Gurmukhi", "pstf", "pstf", [("\u0a2a\u0a4d\u0a2f", "\u0a2f", 3, BESIDE)]),
    ("Oriya", "rphf", "rphf", [("\u0b30\u0b4d\u0b15", "\u0b30", 1, REPH)]),
    ("Oriya", "blwf", "blwf", [
        ("\u0b15\u0b4d\u0b30", "\u0b30", 3, BELOW), ("\u0b30\u0b4d\u0b15", None)]),
    ("Oriya", "pstf", "pstf", [("\u0b15\u0b4d\u0b5f", "\u0b5f", 3, BESIDE)]),
    ("Tamil", "akhn", "akhn", [
        ("\u0b95\u0bcd\u0bb7", "\u0bb7", 3, JOINED), ("\u0b95\u0bcd\u0b95", None)]),
    ("Telugu", "blwf", "blwf", [
        ("\u0c15\u0c4d\u0c15", "\u0c15", 3, BELOW), ("\u0c15\u0c4d\u200c\u0c15", None)]),
    ("Kannada", "blwf", "blwf", [
        ("\u0c95\u0ccd\u0c95", "\u0c95", 3, BELOW), ("\u0cb0\u0ccd\u0c95", None)]),
    ("Kannada", "rphf", "rphf", [("\u0cb0\u0ccd\u0c95", "\u0cb0", 1, REPH)]),
    ("Malayalam", "pref", "pref", [
        ("\u0d15\u0d4d\u0d30", "\u0d30", 3, BEFORE), ("\u0d15\u0d4d\u0d15", None)]),
    ("Malayalam", "pstf", "pstf", [
        ("\u0d15\u0d4d\u0d2f", "\u0d2f", 3, BESIDE), ("\u0d38\u0d4d\u0d35", "\u0d35", 3, BESIDE),
        ("\u0d2f\u0d4d\u0d2f", None)]),
    ("Sinhala", "rphf", "rphf", [
        ("\u0db0\u0dbb\u0dca\u200d\u0db8", "\u0dbb", 2, REPH), ("\u0db0\u0dbb\u0dca\u0db8", None)]),
    ("Khmer", "blwf", "blwf", [
        ("\u1781\u17d2\u1798\u17c2\u179a", "\u1798", 3, SUBSCRIPT),
        ("\u1781\u17d2\u1799", None), ("\u1781\u17d2\u179a", None)]),
    ("Khmer", "pref", "pref", [
        ("\u1781\u17d2\u179a", "\u179a", 3, AT_LEFT),
        ("\u179f\u17d2\u178f\u17d2\u179a\u17b8", "\u179a", 5, AT_LEFT),
        ("\u1781\u17d2\u1798", None)]),
    # (in that font other features give the vowel sign OO its right part)
    ("Khmer", "pstf", "pstf", [
        ("\u1781\u17d2\u1799", "\u1799", 3, SUBSCRIPT), ("\u1781\u17d2\u1798", None),
        ("\u1780\u17c4", None)]),
    ("Khmer", "pstf psts", "pstf", [("\u1780\u17c0", "\u17c0", 2, TWICE)]),
    ("Khmer", "abvf", "abvf", [("\u1780\u17be", "\u17be", 2, TWICE), ("\u1780\u17b8", None)]),
    ("Myanmar", "blwf", "blwf", [
        ("\u1000\u1039\u1000", "\u1000", 3, SUBSCRIPT),
        ("\u1021\u1004\u103a\u1039\u1000", None)]),
    ("Myanmar", "abvs blwf blws", "rphf", [("\u1021\u1004\u103a\u1039\u1000", "\u1004", 2, KINZI)]),
    ("Javanese", "blwf", "blwf", [
        ("\ua98f\ua9c0\ua98f", "\ua98f", 3, SUBSCRIPT), ("\ua98f\ua9c0", None)]),
    ("Balinese", "blwf", "blwf", [
        ("\u1b13\u1b44\u1b13", "\u1b13", 3, SUBSCRIPT), ("\u1b13\u1b44", None)]),
    ("Arabic", "init", "init", [
        ("\u0628\u064e\u064a\u062a", "\u0628", 1, INITIAL), ("\u062f\u0627\u0631", None),
        ("\u0640\u0628", None)]),
    ("Arabic", "medi", "medi", [
        ("\u0628\u064a\u062a", "\u064a", 2, MEDIAL), ("\u0628\u0627", None)]),
    ("Arabic", "fina", "fina", [
        ("\u0628\u064a\u062a", "\u062a", 3, FINAL), ("\u062f\u0627\u0631", None)]),
    ("Syriac", "fin2", "fin2", [
        ("\u0717\u0718\u0710", "\u0710", 3, ENDS), ("\u0721\u0720\u071f\u0710", None)]),
    ("Syriac", "fin3", "fin3", [("\u0715\u0710", "\u0710", 2, ENDS), ("\u0720\u0710", None)]),
    ("Syriac", "med2", "med2", [("\u0712\u0710\u0712", "\u0710", 2, FINAL)]),
    ("Adlam", "init", "init", [("\U0001e906\U0001e935", "\U0001e906", 1, INITIAL)]),
    ("NKo", "medi", "medi", [("\u07de\u07de\u07de", "\u07de", 2, MEDIAL), ("\u07de\u07de", None)]),
    ("Mongolian", "fina", "fina", [("\u182e\u1823\u182f", "\u182f", 3, FINAL)]),
    ("Mandaic", "init", "init", [("\u084c\u0840", "\u084c", 1, INITIAL)]),
]
# The names of scripts that aren't those of the fonts.
NAMES = {"Oriya": "Odia", "NKo": "N\u2019Ko", "Mandaic": "Mandaean"}


def lack(features, script):
    """That a font has none of these features, in words."""
    *first, last = [f"\u201c{feature}\u201d" for feature in features.split()]
    if not first:
        return f"The font: It has no feature {last} for {script}"
    tags = f"{', '.join(first)} and {last}"
    return f"The font: It has none of the features {tags} for {script}, any one of which would do"


def sentence(script, features, character, nth, seen):
    """What is told of a character."""
    shown = ("" if unicodedata.category(character).startswith("L") else "\u25cc") + character
    which = f"{nth}{ {1: 'st', 2: 'nd', 3: 'rd'}.get(nth, 'th') }"
    code = f"U+{ord(character):04X}"
    return f"{lack(features, script)}, so {shown} ({code}), the {which} character, {seen}"


class FeatureTests:
    """Its `cases`, `noto`, `spoilt` and `page` are those of tests.py."""

    def robbed(self, name, features, table=b"GSUB"):
        """A font of Debian's without features."""
        tags = features.split()
        return self.spoilt(name, *((table, tag.encode(), b"zzzz") for tag in tags))

    def test_features_that_a_word_asks_for(self):
        """Each sentence is told of the first character that shows it, and none of a word that
        doesn't ask for the feature or in which another one does it. In the whole font no word has a
        fault."""
        robbed, whole = [], []
        for name, features, missed, words in WORDS:
            font = self.robbed(name, features)
            for word, *told in words:
                wanted = None if told == [None] else sentence(NAMES.get(name, name), missed, *told)
                robbed.append((font, word, "font", wanted))
                whole.append((self.noto(name), word, "font", None))
        # (the text is shaped as far as it is shown, which is up to the virama of a KSSA)
        robbed.append((self.robbed("Devanagari", "half"), "\u0915\u094d\u0937" * 1000, "font", None))
        return self.cases(robbed) + ", and " + self.cases(sorted(whole, key=str))

    def test_what_moves_and_has_no_fault(self):
        """That a character is drawn before what it follows excuses none of which a fault is told. A sign
        that only tells of a subscript isn't drawn, so it isn't told."""
        stri = "\u179f\u17d2\u178f\u17d2\u179a\u17b8"
        ke = "\u1780\u17c1"
        robbed, own = self.robbed("Khmer", "pref"), "that is how the script is written."
        one = "The script: %s (U+%04X) is drawn before the letters that it follows in the text; " + own
        two = "The script: \u25cc\u17c1 (U+17C1) and \u179a (U+179A) are drawn before the letters that "
        return self.cases([
            (self.noto("Khmer"), stri, "script", one % ("\u179a", 0x179A)),
            (self.noto("Khmer"), ke + stri, "script", two + "they follow in the text; " + own),
            (robbed, ke + stri, "font", sentence("Khmer", "pref", "\u179a", 7, AT_LEFT)),
            (robbed, ke + stri, "script", one % ("\u25cc\u17c1", 0x17C1)),
        ]) + self.without(robbed, stri, "script")

    def test_a_feature_of_some_languages(self):
        """A font that has a feature for some languages alone isn't said to have none."""
        def told(usual, others=()):
            """Where these features are those of the usual language, and those of others."""
            usual, any_language = list(usual), [*usual, *others]
            lookups = f"{{ usual: new Set({usual}), any: new Set({any_language}) }}"
            return self.page.run(f"lackInWords({lookups}, ['init', 'medi'], 'Arab')")

        assert told(["medi"]) is None
        some = "It has the feature \u201cinit\u201d for some languages of Arabic alone"
        assert told(["fina"], ["init"]) == some, told(["fina"], ["init"])
        none = "It has none of the features \u201cinit\u201d and \u201cmedi\u201d for Arabic"
        none += ", any one of which would do"
        assert told(["fina"]) == none, told(["fina"])
        assert self.page.run("lackInWords(null, ['init', 'medi'], 'Arab')") == none

    def test_a_required_feature(self):
        """The feature that a language requires is among those that the font has: here init."""
        font = struct.pack(">IH6x4s3I", 0x10000, 1, b"GSUB", 0, 28, 70)
        font += struct.pack(">5H", 1, 0, 10, 44, 64) + struct.pack(">H4sH", 1, b"arab", 8)
        font += struct.pack(">2H4sH", 10, 1, b"URD ", 18)
        # of a language: the number of the required feature, how many others there are, and theirs
        font += struct.pack(">4H", 0, 1, 1, 0) + struct.pack(">4H", 0, 0xFFFF, 1, 2)
        font += struct.pack(">H4sH4sH4sH", 3, b"fina", 0, b"init", 0, b"medi", 0)
        found = f"lookupsOf(Uint8Array.from({list(font)}), 'GSUB', 'Arab')"
        features = {kind: self.page.run(f"[...{found}.{kind}].sort()") for kind in ("usual", "any")}
        assert features == {"usual": ["fina", "init"], "any": ["fina", "init", "medi"]}, features

    def test_features_that_marks_ask_for(self):
        """A mark without a width is drawn over its letter by its outline, which is no fault. Two
        marks are told where they are drawn over each other, as the font places both on the letter, or
        as its mkmk is a feature that moves neither (here its kerning)."""
        thai = "\u0e17\u0e35\u0e48"
        # (the sign II is as wide as 512 units, and begins where it did)
        wide = (b"hmtx", b"\0\0\xfd\xfe", b"\2\0\xfd\xfe")
        no_mark = (b"GPOS", b"mark", b"zzzz")
        mark = lambda seen: sentence("Thai", "mark abvm blwm", "\u0e35", 2, seen)  # noqa: E731
        over = "\u25cc%s (U+%04X) and \u25cc%s (U+%04X), the 3rd character, are drawn over each other"
        two = lambda script, one, other: (  # noqa: E731
            f"{lack('mkmk', script)}, which places one mark on another, so "
            + over % (one, ord(one), other, ord(other)) + ".")
        swapped = (b"GPOS", b"mkmk", b"zzzz"), (b"GPOS", b"kern", b"mkmk")
        unmoved = f"The font: {over % (chr(0xE35), 0xE35, chr(0xE48), 0xE48)}; the font has the feature "
        unmoved += "\u201cmkmk\u201d, which doesn't move these two."
        no_mkmk = {name: self.robbed(name, "mkmk", b"GPOS") for name in ("Thai", "Lao", "Myanmar")}
        distant = mark("stands at the same distance from the end of every letter.")
        return self.cases([
            (self.spoilt("Thai", no_mark), thai[:2], "font", distant),
            (self.spoilt("Thai", no_mark), thai[:2], "font", None),
            (self.spoilt("Thai", no_mark, wide), thai[:2], "font",
                mark("may not stand where its letter needs it.")),
            (self.spoilt("Thai", wide), thai[:2], "font", None),
            (self.noto("Thai"), thai, "font", None),
            (no_mkmk["Thai"], thai, "font", two("Thai", "\u0e35", "\u0e48")),
            (no_mkmk["Thai"], thai[:2], "font", None),
            (self.spoilt("Thai", *swapped), thai, "font", unmoved),
            (self.spoilt("Thai", *swapped), thai[:2], "font", None),
            # (a font of Debian's whose tones lie on the vowel signs)
            (self.fonts / "NotoLoopedThai-Regular.ttf", thai, "font", unmoved),
            # one above the letter, and one below
            (no_mkmk["Thai"], "\u0e17\u0e38\u0e48", "font", None),
            (no_mkmk["Lao"], "\u0e97\u0eb5\u0ec8", "font", two("Lao", "\u0eb5", "\u0ec8")),
            (no_mkmk["Myanmar"], "\u1000\u102d\u102f", "font", None),
        ])
