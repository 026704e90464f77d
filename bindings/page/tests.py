#!/usr/bin/env python3
"""Tests of the page in headless Chromium: tests.py FOLDER PROGRAM ROOT. PROGRAM answers as the module of fonts does, and ROOT
has Debian's fonts and word lists, unpacked. The last line is 'N passed, M failed'."""

import json
import pathlib
import re
import subprocess
import sys
import tempfile
import time
import traceback
import urllib.parse

sys.dont_write_bytecode = True
sys.path.insert(1, str(pathlib.Path(__file__).resolve().parent.parent))
from chromium import Failed, Page  # noqa: E402
from feature_tests import FeatureTests  # noqa: E402
from words import hunspell, is_in, spread  # noqa: E402

TOP = pathlib.Path(__file__).resolve().parent.parent.parent
ROWS = ["arabic", "hangul", "hebrew", "indic", "indic_initial", "indic_final", "khmer", "myanmar", "stretch", "thai", "universal"]

TYPE = "(id, text) => { by(id).value = text; by(id).dispatchEvent(new Event('input', { bubbles: true })); }"
LINES = "(text) => { by('by-lines').open = true; (%s)('lines', text); }" % TYPE
# What the last step's table has, in the lines of the program, behind what hooks answered.
TABLE = """(() => {
  const steps = [...document.querySelectorAll('.step')];
  const answers = steps.flatMap((step) => [...step.querySelectorAll('.answer code')]);
  const details = steps.at(-1)?.querySelector('details:has(table)');
  if (!details) return answers.map((code) => code.textContent);
  details.open = true;
  details.dispatchEvent(new Event('toggle'));
  const rows = [...details.querySelectorAll('tbody tr')];
  const cells = (row) => [...row.cells].map((cell) => cell.textContent).join(' ');
  return [...answers.map((code) => code.textContent), ...rows.map(cells)];
})()"""


def js(text):
    """A text as an expression of JavaScript; a lone surrogate stays one."""
    return '"' + "".join(f"\\u{unit:04x}" for unit in units(text)) + '"'


def units(text):
    encoded = text.encode("utf-16-le", "surrogatepass")
    return [int.from_bytes(encoded[i : i + 2], "little") for i in range(0, len(encoded), 2)]


def rows_of(path):
    """The worked rows of a file: lines, and what they print; rows that end in a fault apart."""
    for block in path.read_text("utf-8").split("\n\n"):
        lines = [line for line in block.split("\n") if line and not line.startswith("#")]
        script = [line[1:].removeprefix(" ") for line in lines if line.startswith(">")]
        if script and not any(line.startswith("!") for line in lines):
            yield "\n".join(script), [line for line in lines if not line.startswith(">")]


class Tests(FeatureTests):
    def __init__(self, folder, program, root, scratch):
        self.program, self.root = program, root
        self.fonts = pathlib.Path(root) / "usr/share/fonts/truetype/noto"
        self.url = (pathlib.Path(folder).resolve() / "index.html").as_uri()
        self.scratch = scratch
        self.page = Page("chromium", scratch / "profile", self.url)

    def type(self, text):
        self.page.run(f"({TYPE})('text', {js(text)})")

    def note(self):
        return self.page.run("by('note').textContent")

    def told(self):
        return self.page.run("[...document.querySelectorAll('.step .told')].map((told) => told.textContent)")

    def choose_font(self, path):
        # (a file that is chosen again is no change to the browser)
        self.page.run("by('font').value = by('font-note').textContent = ''")
        self.page.set_files("#font", [str(path)])
        self.page.wait("by('font-note').textContent !== ''")

    # ---- What the tests are ----

    def test_worked_rows(self):
        """Each worked row of a script's hook, typed as lines, leaves the glyphs of the row."""
        count = 0
        for name in ROWS:
            for lines, printed in rows_of(TOP / f"crates/hbhook_rows/data/{name}.rows"):
                shown = self.page.run(f"(({LINES})({js(lines)}), {TABLE})")
                if any(line.startswith("run ") for line in lines.split("\n")):
                    assert shown == printed, f"{name}:\n{lines}\nshown {shown}\nnot {printed}"
                    count += 1
        assert count > 300, count
        return f"{count} rows"

    def test_a_word_is_answered_within_a_tenth_of_a_second(self):
        """The least of some tries: on a busy machine some of them wait."""
        slowest = 0
        for line in (TOP / "bindings/page/examples.txt").read_text("utf-8").splitlines():
            name, _, text = line.split("\t")
            if len(name) == 4:
                self.type(text)
                assert re.search(rf"Script: (.*\()?{name}\)?\.", self.note()), (name, self.note())
                tries = [float(self.page.run("document.body.dataset.took"))]
                while min(tries) >= 100 and len(tries) < 20:
                    self.type(text)
                    tries.append(float(self.page.run("document.body.dataset.took")))
                slowest = max(slowest, min(tries))
        assert slowest < 100, f"{slowest} ms"
        return f"the slowest of a word of each script took {slowest:.0f} ms"

    def test_the_faults_of_the_readme(self):
        """Each example is one of the table's texts, and is shown; but for Oriya's, whose fault is of a font's lookups."""
        table = [line for line in (TOP / "README.md").read_text("utf-8").splitlines() if "`bindings/fault " in line]
        table = [line for line in table if "`bindings/fault oriya`" not in line]
        options = self.page.run("[...by('example').options].filter((it) => it.parentNode.label?.startsWith('Faults')).map((it) => it.value)")
        assert len(options) == len(table) == 6, (options, table)
        for value, row in zip(options, table):
            self.page.run(f"by('example').value = {js(value)}; by('example').dispatchEvent(new Event('change'))")
            text = self.page.run("by('text').value")
            assert {chr(int(number, 16)) for number in re.findall(r"\b[0-9A-F]{4}\b", row)} <= set(text), (row, text)
            assert self.page.run("document.querySelectorAll('.step .drawn').length") > 1

    def test_the_address_holds_the_text(self):
        self.type("\u0d9a\u0dd9 #&=+%")
        self.page.run("by('sound').click()")
        self.page.wait("location.hash.includes('sound') && new URLSearchParams(location.hash.slice(1)).get('text') === by('text').value")
        address = self.page.run("location.hash")
        before = self.page.run("by('steps').textContent")
        self.page.call("Page.navigate", url=self.url + "#text=x")
        self.page.wait("by('text').value === 'x' && by('steps').textContent === ''")
        self.page.call("Page.navigate", url=self.url + address)
        text = js("\u0d9a\u0dd9 #&=+%")
        self.page.wait(f"by('text').value === {text} && by('sound').checked && by('steps').textContent === {js(before)}")

    def test_keys_alone(self):
        """Tab reaches the font, the text, each choice, a box and a table; Enter shows the glyph, arrows walk along the row."""
        self.page.open(self.url + "?keys#text=")
        seen = []
        for _ in range(120):
            self.page.key("Tab")
            seen.append(self.page.run("document.activeElement.id || document.activeElement.getAttribute('role') || document.activeElement.tagName"))
            if seen[-1] == "text":
                self.page.type("\u0d9a\u0dd9")
            if seen[-1] == "SUMMARY" and self.page.run("document.activeElement.parentNode.id") in ("choices", "programmers"):
                self.page.key("Enter")
            if seen[-1] == "button" and self.page.run("document.activeElement.closest('.step') === by('steps').lastChild"):
                break
        ids = self.page.run("[...by('form').querySelectorAll('input, select, textarea')].map((it) => it.id)")
        assert {*ids, "font"} <= set(seen), {*ids, "font"} - set(seen)
        self.page.key("Enter")
        assert "0DD9" in self.page.run("document.querySelector('.glyph').textContent")
        self.page.key("ArrowRight")
        self.page.key(" ")
        assert "0D9A" in self.page.run("document.querySelector('.glyph').textContent")
        self.page.key("Tab")
        self.page.key("Enter")
        assert self.page.run("document.activeElement.closest('details')?.open === true")

    def test_a_glyph_tells_what_moved_it(self):
        self.type("\u0d9a\u0dd9")
        self.page.run("by('steps').lastChild.querySelector('.row g').dispatchEvent(new MouseEvent('click', { bubbles: true }))")
        glyph = self.page.run("document.querySelector('.glyph').textContent")
        definition = (TOP / "bindings/page/definitions.md").read_text("utf-8").split("## `shapers_universal`")[1]
        definition = re.split(r":\s+", definition.split("\n**Universal** ")[1], maxsplit=1)[1].split("\n\n")[0]
        assert "order in which they are drawn (run pause reorder_use): this moved it from place 1 to place 0." in glyph, glyph
        assert definition.replace("\n", " ") in glyph.replace("\n", " "), glyph

    def test_definitions_are_sentences(self):
        """No step shows marks of definitions.md in its definition, whichever script a word is of."""
        for line in (TOP / "bindings/page/examples.txt").read_text("utf-8").splitlines():
            if len(line.split("\t")[0]) == 4:
                self.type(line.split("\t")[2])
                texts = self.page.run("[...document.querySelectorAll('.definition')].map((it) => it.lastChild.textContent)")
                assert texts and all(re.match("[A-Z`]", text) and "**" not in text for text in texts), (line, texts)

    def test_360_pixels(self):
        """No bar at the width of a small telephone, with anything open."""
        self.page.resize(360, 700)
        for text in ("\u1797\u17b6\u179f\u17b6\u1781\u17d2\u1798\u17c2\u179a", "\u0e19\u0e49\u0e33" * 30, "\u0915" + "\u0951" * 256):
            self.type(text)
            self.page.run("document.querySelectorAll('details').forEach((it) => { it.open = true; })")
            time.sleep(0.1)
            self.page.run("by('steps').lastChild.querySelector('g')?.dispatchEvent(new MouseEvent('click', { bubbles: true }))")
            width = self.page.run("document.documentElement.scrollWidth")
            assert width <= 360, f"{text[:8]}: {width}"
        self.page.call("Emulation.clearDeviceMetricsOverride")

    def test_no_markup(self):
        """Markup in a text or in lines stays text."""
        for text in ("\u0e01<img src=x onerror=window.hit=1><script>window.hit=1</script>", "\u0e01\"><svg onload=window.hit=1>&lt;b&gt;"):
            elements = "document.querySelectorAll('main img, main script, main b, main [onload], main [onerror]').length"
            self.type(text)
            before = self.page.run("document.querySelectorAll('main b').length")
            assert self.page.run(elements) == before
            self.page.run(f"({LINES})({js('text ' + text + chr(10) + 'run ' + text)})")
            assert self.page.run("document.querySelectorAll('main img, main script, main [onload], main [onerror]').length") == 0
        self.page.open(self.url + "#" + urllib.parse.urlencode({"text": "<img src=x onerror=window.hit=1>", "script": "\"><img src=x>"}))
        assert self.page.run("document.querySelectorAll('main img').length") == 0
        assert self.page.run("window.hit === undefined")

    def test_more_than_are_drawn(self):
        self.type("\u0e01" * 2001)
        assert "Of 2001 characters no more than the first 2000 are drawn." in self.note(), self.note()
        self.page.run("by('steps').firstChild.scrollIntoView()")
        self.page.wait("by('steps').firstChild.querySelectorAll('.row g').length === 2000")
        self.type("\u0e01" * 2000)
        assert "no more than" not in self.note(), self.note()

    def test_hostile_texts(self):
        """Each is answered, or told too long, within sixty seconds of the browser's processor time, and the page takes input
        afterwards. (A million characters took 26 on a loaded machine.)"""
        slowest = 0
        texts = {
            "a million letters": "\u0628" * 1_000_000, "a million marks": "\u0915" + "\u0951" * 999_999,
            "a million joiners": "\u200d" * 1_000_000, "a million pairs of surrogates": "\U0001e900" * 1_000_000,
            "unpaired surrogates": "\u0628\ud800\udc00\udc00\ud800", "only unpaired": "\ud800" * 2000, "only joiners": "\u200d\u200c" * 500,
            "controls": "".join(map(chr, range(0x20))) + "\u0e01", "noncharacters": "\u0628\ufffe\uffff\ufdd0\U0010ffff",
            "2,000 marks": "\u0915" + "\u0951" * 1999, "2,000 left vowels": "\u1780" + "\u17c1" * 1999,
            "2,000 jamo": "\u1112\u1161\u11ab" * 666,
        }
        for name, text in texts.items():
            began = self.page.processor_seconds()
            repeat = len(text) >= 1_000_000
            unit = text[-1] if repeat else text
            value = f"{js(text[0])} + {js(unit)}.repeat({len(text) - 1})" if repeat else js(text)
            try:
                self.page.run(f"({TYPE})('text', {value})")
                # (a frame that is drawn tells that the page is laid out)
                self.page.run("new Promise((done) => requestAnimationFrame(() => setTimeout(done)))")
            except Failed as fault:
                raise Failed(f"{name}: {fault}") from fault
            took = self.page.processor_seconds() - began
            slowest = max(slowest, took)
            assert took < 60, (name, took)
            assert self.note() != "", name
            if repeat:
                assert "Too long" in self.note(), (name, self.note())
            assert "ended:" not in self.note(), (name, self.note())
            self.type("\u0e14\u0e33")
            assert "0E33 became 0E4D" in " ".join(self.told()), (name, self.told())
        began = self.page.processor_seconds()
        self.page.run(f"({LINES})({js('set shaper khmer' + chr(10) + 'text ' + chr(0x1780) * 2000)} + '\\nrun masks'.repeat(1500))")
        assert "more than 50000 glyphs together" in self.note() and self.page.processor_seconds() - began < 10, self.note()
        self.type("\u0e14\u0e33")
        assert "0E33 became 0E4D" in " ".join(self.told()), self.told()
        return f"the slowest took {slowest:.1f} s"

    def test_lines_end_where_one_is_rejected(self):
        self.page.run(f"({LINES})({js('set shaper thai' + chr(10) + 'text 0E14 0E33' + chr(10) + 'run nothing')})")
        assert "Ended at line 3: field 2, `nothing`: expected" in self.note(), self.note()

    def test_a_text_is_shaped_in_the_font_of_the_page(self):
        """Words end with the glyphs that hb-shape has for the sample font, drawn with their outlines."""
        count = 0
        for line in (TOP / "fonts/words.txt").read_text("utf-8").splitlines():
            word, found, glyphs = line.partition(";")
            if not found or line.startswith("#"):
                continue
            self.type(word)
            names = [glyph.partition("=")[0] for glyph in glyphs.strip("[]").split("|")]
            shown = self.page.run("[...document.querySelectorAll('.shaped:last-child .row:first-of-type .number')].map((it) => it.textContent)")
            assert shown[: len(names)] == names, (word, shown, names)
            count += 1
        self.type("Tofi")
        assert self.page.run("document.querySelectorAll('.shaped .outline').length") >= 3
        assert self.page.run("by('shaped-font').textContent") == "of this page"
        return f"{count} words"

    def test_a_font_that_is_dropped_shapes_the_steps(self):
        self.type("\u1780\u17c4")
        self.choose_font(self.fonts / "NotoSansKhmer-Regular.ttf")
        self.page.wait("by('shaped-font').textContent === 'NotoSansKhmer-Regular.ttf'")
        heads = self.page.run("[...document.querySelectorAll('.shaped')].map((it) => it.dataset.head)")
        assert heads[0] == "before lookups" and heads[-1] == "shape", heads
        assert self.page.run("by('font-name').textContent") == "NotoSansKhmer-Regular.ttf"

    def test_fonts_shape_as_natively(self):
        """Two fonts are dropped: 1,000 words have the numbers of glyphs that the native programs give."""
        count = 0
        for name, block, font in (("hi_IN", (0x900, 0x97F), "NotoSansDevanagari-Regular.ttf"), ("fa", (0x620, 0x6FF), "NotoNaskhArabic-Regular.ttf")):
            words = spread(sorted({word for word in hunspell(self.root, name) if is_in(word, [block])}), 500)
            self.page.set_files("#font", [str(self.fonts / font)])
            drop = "(() => { const moved = new DataTransfer(); moved.items.add(by('font').files[0]); by('font-note').textContent = '';"
            self.page.run(drop + "window.dispatchEvent(new DragEvent('drop', { dataTransfer: moved, bubbles: true, cancelable: true })); })()")
            self.page.wait("by('font-note').textContent !== ''")
            assert font in self.page.run("by('font-note').textContent")
            for which in ("stock", "sengadlit"):
                request = f"words\n{which}\n" + "\n".join(words)
                native = subprocess.run([self.program, str(self.fonts / font)], input=request, capture_output=True, text=True, check=True)
                assert self.page.run(f"fonts.ask({js(request)})") == json.loads(native.stdout), (font, which)
            count += len(words)
        assert count == 1000, count

    def test_a_fault_is_seen(self):
        """Behind a TAB the sign has another form without the hooks: both lines, and one over the other, are drawn."""
        self.choose_font(self.fonts / "NotoSansBengali-Regular.ttf")
        self.type("\t\u0995\u09c7")
        assert self.page.run("by('differ').textContent") == "Glyphs that differ: 1. One line over the other:"
        assert self.page.run("document.querySelectorAll('#outlines svg').length") == 3
        for which in ("stock", "sengadlit"):
            assert self.page.run(f"document.querySelectorAll('#outlines .{which}').length") == 2, which  # alone, and one over the other
        self.type("\u0995\u09c7")
        assert self.page.run("by('differ').textContent") == "Both have the same glyphs at the same places."

    def test_pieces_of_a_broken_line(self):
        """At whatever width, a piece that no flag forbids is drawn alone as it is in the whole."""
        for font, text in (("NotoSansSyriac-Regular.ttf", "\u0715\u0710\u0712 \u0715\u0710"), ("NotoNaskhArabic-Regular.ttf", "\u0627\u0644\u0639\u0631\u0628\u064a\u0629 \u0628\u0628")):
            self.choose_font(self.fonts / font)
            self.type(text)
            most, counts = int(self.page.run("by('width').max")), set()
            for width in range(1, most + 1, max(1, most // 20)):
                self.page.run(f"by('width').value = {width}; by('width').dispatchEvent(new Event('input'))")
                told = self.page.run("[...document.querySelectorAll('.piece p')].map((it) => it.textContent)")
                assert told and all("the same" in line for line in told), (font, width, told)
                counts.add(len(told))
            assert len(counts) > 1, (font, counts)

    def findings(self):
        """The sentences of the answer, each with whose it is; where fonts are compared, behind that."""
        self.page.wait("document.body.dataset.compared === 'yes' || by('font-note').textContent !== ''")
        return self.page.run("[...by('findings').children].map((it) => [it.dataset.whose ?? '', it.className, it.textContent])")

    def test_the_page_opens_with_a_word(self):
        """It is drawn in the sample font, with the answer that nothing is wrong, and the font stands above the text."""
        self.page.open(self.url + "?opened")
        self.page.wait("document.body.dataset.compared === 'yes'")
        assert self.page.run("by('text').value") == "\u1781\u17d2\u1798\u17c2\u179a"
        assert self.page.run("document.querySelectorAll('#word svg path').length") >= 4
        found = self.findings()
        assert [whose for whose, *_ in found] == ["", "script", "font", "shapers"] and all(kind == "fine" for _, kind, _ in found), found
        assert "(U+17C2) is drawn before" in found[1][2], found
        assert self.page.run("by('drop').getBoundingClientRect().bottom <= by('text').getBoundingClientRect().top")

    def test_whose_a_difference_is(self):
        """Of each kind a text: what is the text's, the font's and a shaper's is told as such."""
        noto = lambda name: self.fonts / f"NotoSans{name}-Regular.ttf"  # noqa: E731
        cases = [
            (noto("Bengali"), "\u0995\u09c7", None, None),
            (noto("Bengali"), "\t\u0995\u09c7", "text", "control character"),
            (noto("Bengali"), "\t\u0995\u09c7", "shapers", "middle of a word"),
            (noto("Bengali"), "\u0995\u093f", "font", "no glyph for \u25cc\u093f (U+093F)"),
            (noto("Devanagari"), "\u093e\u0915", "text", "begins with a mark that has no letter"),
            (noto("Devanagari"), "\u0915\u093f", "script", "(U+093F) is drawn before"),
            (noto("Devanagari"), "\u0915\u093f", "font", "it has the features abvs, "),
            (noto("Thai"), "\u0e14\u0e34", "font", "it has the features aalt, ccmp and liga, which can substitute glyphs; and kern, mark and mkmk, which can move glyphs."),
            (noto("Thai"), "\u0e14\u0e34\u0e48\u0e33", "shapers", "loses another"),
            (noto("Thai"), "\u0e14\u0e34\u0e48\u0e33", "shapers", "differently from its copy with this project's fixes"),
            (noto("Thai"), "\u0e14\u0e34", "shapers", "its copy with this project's fixes draw the word alike. Both descend from HarfBuzz"),
            (noto("Devanagari"), "\u0915\u094d\u093c", "text", "unusual order"),
            (noto("Hebrew"), "\u05d9\u05bc\u05b7", None, None),
            (noto("Khmer"), "\u0633\u0644\u0627\u0645", "font", "no glyph for \u0633 (U+0633)"),
            (self.fonts.parent / "dejavu/DejaVuSansMono-Oblique.ttf", "\u0628\u0628", "font", "no glyph"),
        ]
        chosen = None
        for font, text, whose, words in cases:
            if not font.exists():
                continue
            # (a file that is chosen again is no change to the browser)
            if font != chosen:
                self.choose_font(font)
                chosen = font
            self.type(text)
            found = self.findings()
            faults = [(of, told) for of, kind, told in found if kind == "fault" or of == whose]
            if whose is None:
                assert not faults, (font.name, text, found)
            else:
                assert any(of == whose and words in told for of, told in faults), (font.name, text, words, found)
        return f"{len(cases)} texts"

    def cases(self, cases):
        """Of each font, text and party: the answer has these words, or no sentence of a fault where they are None."""
        chosen = None
        for font, text, whose, words in cases:
            if font != chosen:
                self.choose_font(font)
                chosen = font
            self.type(text)
            found = self.findings()
            told = [sentence for of, _, sentence in found if of == whose]
            if words is None:
                assert not [kind for of, kind, _ in found if of == whose and kind == "fault"], (font.name, text, found)
            else:
                assert any(words in sentence for sentence in told), (font.name, text, words, found)
        return f"{len(cases)} texts"

    def noto(self, name):
        return self.fonts / f"NotoSans{name}-Regular.ttf"

    def test_which_character_breaks_a_syllable(self):
        """It is the one before which HarfBuzz puts the circle: where a syllable of a script's grammar ends, or a vowel looks
        like another (the tables \"Vowel letters\" of the Unicode Standard's chapter 12), and never the letter before it."""
        breaks = "It has a broken syllable: \u25cc%s (U+%04X), the %s character, can't follow what stands before it, so a dotted circle is drawn for it."
        first = "It begins with a mark that has no letter: \u25cc%s (U+%04X), so a dotted circle is drawn for it."
        of = lambda mark, nth: breaks % (mark, ord(mark), nth)  # noqa: E731
        told = self.cases([
            (self.noto("Devanagari"), "\u0915\u0902\u093f" * 4, "text", "It has 4 broken syllables in all."),
            (self.noto("Khmer"), "\u1793\u17b9\u17c9", "text", of("\u17c9", "3rd")),
            (self.noto("Khmer"), "\u17c2\u1781\u17d2\u1798\u179a", "text", first % ("\u17c2", 0x17C2)),
            (self.noto("Devanagari"), "\u0905\u093e", "text", of("\u093e", "2nd")),
            (self.noto("Devanagari"), "\u0915\u0902\u093f", "text", of("\u093f", "3rd")),
            (self.noto("Devanagari"), "\u25cc\u093f", "text", None),
            (self.noto("Bengali"), "\u09a6\u09cd\u09ac\u0982\u09bf", "text", of("\u09bf", "5th")),
        ])
        # (a glyph's fields are still those of the steps that are shown)
        self.page.run("by('steps').lastChild.querySelector('.row g').dispatchEvent(new MouseEvent('click', { bubbles: true }))")
        assert "09A6" in self.page.run("document.querySelector('.glyph').textContent")
        return told

    def test_the_browser_draws_the_word_too(self):
        """In the chosen font: its width is the sum of the advances in the font, which is 60 pixels high, and none is drawn
        where the browser refuses the file."""
        width = "(() => { const range = document.createRange(); range.selectNodeContents(by('browsers-word')); return range.getBoundingClientRect().width; })()"
        for font, text in (("Devanagari", "\u0939\u093f\u0928\u094d\u0926\u0940"), ("Thai", "\u0e17\u0e35\u0e48")):
            self.choose_font(self.noto(font))
            self.type(text)
            assert self.page.run("by('browsers-word').textContent") == text
            advances = self.page.run(f"widthOf(ask('shape', 'sengadlit', {js(text)})) / metrics.units * 60")
            self.page.wait(f"Math.abs({width} - {advances}) < 1 && !by('browsers').hidden", 20)
        assert self.page.run("by('browsers').querySelector('figcaption').textContent").startswith("The same word as this browser draws it")
        self.choose_font(self.spoilt("Thai", (b"head", b"\x5f\x0f\x3c\xf5", b"\0\0\0\0")))
        self.page.wait("by('browsers').hidden", 20)

    def test_characters_are_drawn_in_the_chosen_font(self):
        """In a sentence and in the text box; the words of a sentence are the system's."""
        self.choose_font(self.noto("Thai"))
        self.type("\u0e17\u0e48\u0e35")
        fonts = "[...by('findings').querySelectorAll('.character')].map((it) => [it.textContent, getComputedStyle(it).fontFamily])"
        assert self.page.run(fonts) == [[mark, "chosen, system-ui"] for mark in ("\u25cc\u0e48", "\u25cc\u0e35")], self.page.run(fonts)
        assert self.page.run("getComputedStyle(by('text')).fontFamily") == "chosen, system-ui"
        assert self.page.run("getComputedStyle(by('findings')).fontFamily").startswith("system-ui")
        # (a mark and its dotted circle are one syllable, so that no other circle is drawn between words of another script)
        self.choose_font(self.noto("Khmer"))
        self.type("\u1781\u17c2")
        shown = "(() => { const it = document.querySelector('#findings .character'); return it.getBoundingClientRect().width / parseFloat(getComputedStyle(it).fontSize); })()"
        self.page.wait(f"Math.abs({shown} - widthOf(ask('shape', 'sengadlit', {js(chr(0x25CC) + chr(0x17C2))})) / metrics.units) < 0.05", 20)
        note = "The box is drawn by your system\u2019s fonts where the chosen font lacks a character; the picture below by the chosen font."
        assert self.page.run("by('text').getAttribute('aria-describedby') === 'box-note' && by('box-note').textContent") == note

    def test_what_programmers_need_is_folded(self):
        """A typographer sees four choices; the others, and where a line may break, are folded, and each has its label. Where
        the address has lines of the program, they are open."""
        self.page.open(self.url + "?folded#text=%E0%BD%96")
        inside = "[...by('%s').querySelectorAll('input, select')].map((it) => it.id)"
        assert self.page.run(inside % "choices") == ["script", "direction", "f20", "beginning"]
        assert self.page.run(inside % "programmers") == ["level", "sound", "f40", "f80", "always", "gposmark"]
        assert self.page.run("by('programmers').querySelector('summary').textContent") == "For programmers"
        assert self.page.run("!by('choices').open && !by('programmers').open && by('programmers').contains(by('breaks'))")
        assert self.page.run("['f20', 'beginning'].map((id) => by(id).labels[0].textContent.trim())") == ["Draw no dotted circles", "The text begins a paragraph"]
        labels = "[...document.querySelectorAll('input, select, textarea')].map((it) => it.labels[0]?.textContent.trim() ?? '')"
        assert all(re.match("[A-Z]", label) for label in self.page.run(labels)), self.page.run(labels)
        last = "(id) => by('steps').compareDocumentPosition(by(id)) & Node.DOCUMENT_POSITION_FOLLOWING"
        assert all(self.page.run(f"['width', 'lines'].map({last})"))
        self.page.open(self.url + "?lines#lines=text%200E01")
        assert self.page.run("by('by-lines').open")

    def test_what_is_unusual_in_a_text(self):
        """The Unicode Standard's chapters 12 (a nukta follows its letter, and so does a virama), 16 (a tone follows the vowel above or
        below; SARA AE is one character; a subscript precedes the vowel sign) and 23 (joiners and other characters that aren't drawn)."""
        arabic = self.fonts / "NotoNaskhArabic-Regular.ttf"
        unmeasured = "It doesn't look at whether a mark is drawn over a vowel sign beside its letter, or over a reph. If"
        return self.cases([
            (self.noto("Thai"), "\u0e17\u0e48\u0e35", "text", "The text: \u25cc\u0e48 (U+0E48), the 2nd character, stands before \u25cc\u0e35 (U+0E35): a tone is typed after"),
            (self.noto("Thai"), "\u0e17\u0e35\u0e48", "text", None),
            (self.noto("Thai"), "\u0e01\u0e48\u0e38", "text", "unusual order"),
            (self.noto("Thai"), "\u0e40\u0e40\u0e21\u0e48", "text", "The text: \u0e40 (U+0E40), the 1st character, stands twice: SARA AE (\u0e41, U+0E41)"),
            (self.noto("Thai"), "\u0e41\u0e21\u0e48", "text", None),
            (self.noto("Thai"), "\u0e48\u0e21", "text", "It begins with a mark that has no letter: \u25cc\u0e48 (U+0E48)."),
            (self.noto("Lao"), "\u0e97\u0ec8\u0eb5", "text", "\u25cc\u0ec8 (U+0EC8), the 2nd character, stands before \u25cc\u0eb5 (U+0EB5)"),
            (self.noto("Lao"), "\u0ec0\u0ec0\u0ea1", "text", "the vowel sign EI"),
            (self.noto("Devanagari"), "\u091c\u0940\u093c", "text", "The text: \u25cc\u093c (U+093C), the 3rd character, stands after \u25cc\u0940 (U+0940): a nukta is typed right after its letter"),
            (self.noto("Devanagari"), "\u091c\u093c\u0940", "text", None),
            (self.noto("Bengali"), "\u09a1\u09be\u09bc", "text", "The text: \u25cc\u09bc (U+09BC), the 3rd character, stands after \u25cc\u09be (U+09BE)"),
            (self.noto("Bengali"), "\u09a1\u09bc\u09be", "text", None),
            (self.noto("Devanagari"), "\u0939\u0928\u093f\u094d\u0926\u0940", "text", "The text: \u25cc\u094d (U+094D), the 4th character, stands after \u25cc\u093f (U+093F): a virama is typed right after its letter"),
            (self.noto("Devanagari"), "\u0939\u093f\u0928\u094d\u0926\u0940", "text", None),
            (self.noto("Khmer"), "\u1781\u17c2\u17d2\u1798", "text", "The text: \u25cc\u17d2 (U+17D2), the 3rd character, stands after \u25cc\u17c2 (U+17C2): a subscript is typed before the vowel sign."),
            (self.noto("Khmer"), "\u1781\u17d2\u1798\u17c2", "text", None),
            (self.noto("Devanagari"), "\u0915\u094d\u200d\u0937", "text", "It has a ZERO WIDTH JOINER (U+200D) after \u25cc\u094d, which asks"),
            (arabic, "\u0639\u200c\u0631\u0628", "text", "It has a ZERO WIDTH NON-JOINER (U+200C) after \u0639, which keeps apart letters that would join."),
            (arabic, "\u0639\u200c\u0631\u0628", "", "This page found none of the faults that it knows."),
            (arabic, "\u0639\u200c\u0631\u0628", "", "the font's lookups should do. If the word still looks wrong"),
            (self.noto("Devanagari"), "\u0928\u0939\u0940\u0902", "", unmeasured),
            (self.noto("Devanagari"), "\u0915\u0930\u094d\u092e", "", unmeasured),
            (self.noto("Devanagari"), "\u0915\u094d\u0930\u0902", "", "should do. If the word still looks wrong"),
            (arabic, "\u061c\u0639", "text", "It has an ARABIC LETTER MARK (U+061C) at the start, which"),
            (arabic, "\u0639\ufe00", "text", "It has a character that isn't drawn (U+FE00) after \u0639."),
        ])

    def spoilt(self, name, *changes):
        """A font of Debian's in which bytes are others: tags of scripts, or a character in the table of characters."""
        data = self.noto(name).read_bytes()
        for table, old, new in changes:
            count = int.from_bytes(data[4:6], "big")
            record = next(at for at in range(12, 12 + 16 * count, 16) if data[at : at + 4] == table)
            start, length = (int.from_bytes(data[record + at : record + at + 4], "big") for at in (8, 12))
            assert old in data[start : start + length], (name, table, old)
            data = data[:start] + data[start : start + length].replace(old, new) + data[start + length :]
        path = self.scratch / f"{name}{len(list(self.scratch.iterdir()))}.ttf"
        path.write_bytes(data)
        return path

    def test_what_the_fonts_own_run_shows(self):
        """HarfBuzz inserts no circle where the font has no U+25CC, and has the default shaper take a script whose tags the
        font lacks, but for Khmer, Thai and others, whose shapers take any font. (hb_ot_shaper_categorize)"""
        no_circle = self.spoilt("Khmer", (b"cmap", b"\x25\xcc", b"\x25\xcd"))
        tags = lambda *pairs: [(table, old, new) for table in (b"GSUB", b"GPOS") for old, new in pairs]  # noqa: E731
        bengali = self.spoilt("Bengali", *tags((b"beng", b"DFLT"), (b"bng2", b"zzzz")))
        khmer = self.spoilt("Khmer", *tags((b"khmr", b"DFLT")))
        lacks = "It has lookups, but not for Bengali (tags bng3, bng2, beng). So vowels aren't moved and the script's forms aren't made."
        return self.cases([
            (no_circle, "\u1793\u17b9\u17c9", "text", "can't follow what stands before it; a dotted circle belongs there, which this font doesn't have."),
            (no_circle, "\u1781\u17c2", "script", "(U+17C2) is drawn before"),
            (bengali, "\u0995\u09c7", "font", lacks),
            (bengali, "\u0995\u0982\u09c7", "text", None),
            (khmer, "\u1781\u17c2", "font", None),
            (khmer, "\u1781\u17c2", "script", "(U+17C2) is drawn before"),
        ]) + self.without(bengali, "\u0995\u09c7", "script")

    def without(self, font, text, whose):
        """Of this party, there is no sentence at all."""
        self.choose_font(font)
        self.type(text)
        found = self.findings()
        assert not [of for of, *_ in found if of == whose], (font.name, text, found)
        return f", and one without {whose}"

    def test_headings_are_words(self):
        """No step's heading is a line of the program, whichever script a word is of."""
        for line in (TOP / "bindings/page/examples.txt").read_text("utf-8").splitlines():
            if len(line.split("\t")[0]) == 4:
                self.type(line.split("\t")[2])
                unknown = "[...document.querySelectorAll('.step, .shaped')].filter((it) => it.querySelector('h3').textContent === 'Lines of the program')"
                assert self.page.run(unknown + ".map((it) => it.dataset.head)") == [], line
        assert self.page.run("[...document.querySelectorAll('h1, h2, h3')].every((it) => !it.querySelector('code'))")

    def test_what_is_no_font(self):
        self.choose_font(TOP / "README.md")
        assert self.page.run("by('font-note').textContent") == "README.md can't be read as a font."
        assert self.page.run("by('findings').childElementCount") == 0
        self.type("\u0628")
        assert self.page.run("by('outlines').textContent") == ""

    def test_nothing_is_fetched(self):
        """Whatever the tests before did, the browser loaded the folder's files alone, and reported no fault."""
        asked = {event["params"]["request"]["url"] for event in self.page.events if event.get("method") == "Network.requestWillBeSent"}
        strange = [url for url in asked if not url.startswith((self.url.rsplit("/", 1)[0] + "/", "data:", "blob:"))]
        assert not strange, strange
        assert not list(self.page.faults()), list(self.page.faults())


def main(folder, program, root):
    passed = failed = 0
    with tempfile.TemporaryDirectory() as scratch:
        tests = Tests(folder, program, root, pathlib.Path(scratch))
        try:
            for name in [name for name in (*vars(FeatureTests), *vars(Tests)) if name.startswith("test_")]:
                try:
                    told = getattr(tests, name)()
                    passed += 1
                    print(f"ok: {name[5:].replace('_', ' ')}{': ' + told if told else ''}", flush=True)
                except (AssertionError, Failed, StopIteration) as fault:
                    failed += 1
                    print(f"FAILED: {name}: {fault}", flush=True)
                    traceback.print_exc(limit=-2)
        finally:
            tests.page.close()
    print(f"{passed} passed, {failed} failed")
    return 1 if failed else 0


if __name__ == "__main__":
    if len(sys.argv) != 4:
        sys.exit(__doc__)
    sys.exit(main(*sys.argv[1:]))
