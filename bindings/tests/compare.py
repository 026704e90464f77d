#!/usr/bin/env python3
"""Runs HarfBuzz's own shaping tests with sengadlit-shape, and tells why lines don't pass.

  compare.py [--write] TESTS PROGRAM HB_SHAPE..

TESTS is the folder test/shape/data of HarfBuzz's source, HB_SHAPE.. the command of its program. A line of the tests has a
font, options, characters, and what hb-shape prints. Those that HarfBuzz's runner skips (another shaper, fonts of macOS) are
skipped. Glyphs may be compared by their numbers: names of CFF's are not read here.

A line that doesn't pass gets the first of the reasons below that holds. Most of them are proved by hb-shape itself: it prints
what the program prints as soon as a table is taken out of the font, a feature is off, or positions are left out.
results.txt has the counts by file and reason; --write writes it. A line without a reason is printed, and fails, and so does
a file of which fewer lines than there are as expected or as hb-shape prints them. The last line is 'N passed, M failed'.
"""

import collections
import concurrent.futures
import os
import pathlib
import shlex
import struct
import subprocess
import sys
import tempfile
import threading

RESULTS = pathlib.Path(__file__).resolve().parent / "results.txt"
FOLDERS = ["aots", "in-house", "text-rendering-tests"]
# Options that the program refuses.
REFUSED = ["--font-slant", "--font-bold"]
AAT = ["morx", "mort", "kerx", "trak", "ankr"]
ARABIC_FORMS = "--features=-init,-medi,-fina,-isol,-rlig"


class Case:
    """A line of a file of tests."""

    def __init__(self, path, line, shapers):
        font, options, self.unicodes, self.expected = line.split(";")
        self.path, self.line, self.shapers = path, line, shapers
        self.is_of_system = font.startswith(("/", '"/'))
        self.font = font if self.is_of_system else os.path.normpath(path.parent / font)
        # (the program reads fonts in one way)
        self.options = [option for option in shlex.split(options) if not option.startswith("--font-funcs")]

    @property
    def is_skipped(self):
        return "ot" not in self.shapers or self.is_of_system and not os.path.exists(self.font)

    def has(self, *options):
        return any(option.split("=")[0] in options for option in self.options)

    def arguments(self, *more, font=None, without=()):
        options = [option for option in self.options if option.split("=")[0] not in without]
        return [font or self.font, "--unicodes", self.unicodes, *options, *more]


def read_cases(folder):
    for part in FOLDERS:
        for path in sorted((folder / part / "tests").glob("*.tests")):
            shapers = ["ot"]
            for line in map(str.strip, path.read_text(encoding="utf8").splitlines()):
                if line.startswith(("@shaper=", "@shapers=")):
                    shapers = line.split("#")[0].strip().split("=")[1].split(",")
                elif line and not line.startswith(("#", "@")):
                    yield Case(path, line, shapers)


# ---- The two programs ----


class Peer:
    """hb-shape, which reads lines of arguments."""

    def __init__(self, command):
        self.command, self.lock, self.process = [*command, "--batch"], threading.Lock(), None

    def shape(self, arguments):
        with self.lock:
            if self.process is None or self.process.poll() is not None:
                self.process = subprocess.Popen(
                    self.command,
                    stdin=subprocess.PIPE,
                    stdout=subprocess.PIPE,
                    stderr=subprocess.DEVNULL,
                    encoding="utf8",
                    bufsize=1,
                )
            self.process.stdin.write(";".join(arguments) + "\n")
            self.process.stdin.flush()
            return self.process.stdout.readline().strip()

    def numbers(self, font, glyphs):
        """Glyphs as they are printed, with numbers in place of names."""
        return self.shape([font, "--glyphs", "--no-glyph-names", glyphs])


class Program:
    def __init__(self, path):
        self.path = path

    def shape(self, arguments):
        """What is printed, or None, and the error."""
        done = subprocess.run([self.path, *arguments], capture_output=True, encoding="utf8", stdin=subprocess.DEVNULL)
        return (done.stdout.strip() if done.returncode == 0 else None), done.stderr.strip()


# ---- Fonts ----


def read_directory(data):
    """The tables of a font that is no collection: the place of the record, the table's place and length, by tag."""
    if data[:4] == b"ttcf" or len(data) < 12:
        return {}
    records = [(12 + 16 * index) for index in range(struct.unpack_from(">H", data, 4)[0])]
    return {data[at : at + 4].decode("latin1"): (at, *struct.unpack_from(">II", data, at + 8)) for at in records}


def without_tables(font, tags):
    """The bytes of the font without these tables; None where it has none of them."""
    data = bytearray(pathlib.Path(font).read_bytes())
    directory = read_directory(data)
    if not any(tag in directory for tag in tags):
        return None
    kept = b"".join(data[at : at + 16] for tag, (at, _, _) in directory.items() if tag not in tags)
    data[4:6] = struct.pack(">H", len(kept) // 16)
    data[12 : 12 + len(kept)] = kept
    return data


# ---- Why a line doesn't pass ----


class Reasons:
    def __init__(self, program, peer):
        self.program, self.peer = program, peer
        # what is refused or left out; what differs in positions alone; what differs in glyphs
        self.named = {
            "as-hb-shape": self.agree,
            "variations": lambda case: case.has("--variations"),
            "options": lambda case: case.has(*REFUSED) and self.is_refused(case),
            "dfont": lambda case: case.font.endswith(".dfont") and self.is_refused(case),
            "aat": lambda case: self.is_by_tables(case, AAT),
            "kern": lambda case: self.is_by_tables(case, ["kern"]),
            "other-shaper": lambda case: case.has("--shaper") and self.agree(case, without=["--shaper"]),
            "arabic-fallback": self.is_by_arabic_forms,
            "overlapping": lambda case: os.path.basename(case.font) == "HarfBust.ttf",
        }

    def of(self, case):
        return next((name for name, holds in self.named.items() if holds(case)), None)

    def is_refused(self, case):
        return self.program.shape(case.arguments())[0] is None

    def agree(self, case, *more, without=(), font=None):
        """Whether the program and hb-shape print the same glyphs with these options (or hb-shape with another font)."""
        numbered = [*more, "--no-glyph-names"]
        ours, _ = self.program.shape(case.arguments(*[one for one in numbered if one != ARABIC_FORMS], without=without))
        return ours == self.peer.shape(case.arguments(*numbered, "--shaper=ot", font=font, without=without))

    def is_by_tables(self, case, tags):
        data = without_tables(case.font, tags)
        if data is None:
            return False
        with tempfile.NamedTemporaryFile(suffix=".ttf") as copy:
            copy.write(data)
            copy.flush()
            return self.agree(case, font=copy.name)

    def is_by_arabic_forms(self, case):
        are_equal = self.agree(case, "--no-positions")
        return not are_equal and self.lacks(case, "GSUB") and self.agree(case, ARABIC_FORMS, "--no-positions")

    def lacks(self, case, tag):
        return tag not in read_directory(pathlib.Path(case.font).read_bytes())


def outcome(case, program, peer, reasons):
    """'skipped', 'passed', a reason, or a text that says what was found."""
    if case.is_skipped:
        return "skipped"
    found, error = program.shape(case.arguments())
    if found is not None and case.expected in ("*", found):
        return "passed"
    if found is not None and peer.numbers(case.font, found) == peer.numbers(case.font, case.expected) != "":
        return "passed"
    reason = reasons.of(case)
    if reason:
        return reason
    command = shlex.join(case.arguments())
    return f"{case.path.name}: {command}\n    expected {case.expected}\n    found    {found or error}"


# ---- What is told ----


def table(counts):
    """The counts by reason, then by file."""
    total = collections.Counter()
    for of_file in counts.values():
        total.update(of_file)
    tried = sum(total.values()) - total["skipped"] - total["variations"] - total["aat"]
    lines = [
        "# Lines of HarfBuzz's shaping tests by what became of them (bindings/tests/README.md), all and by file.",
        f"# Of {tried} that need neither variations nor AAT, {good(total)} are as expected or as hb-shape: {100 * good(total) / tried:.1f} %.",
    ]
    lines += [f"{name:16} {number}" for name, number in sorted(total.items(), key=lambda one: (-one[1], one[0]))]
    for name, of_file in sorted(counts.items()):
        words = [f"{reason} {number}" for reason, number in sorted(of_file.items(), key=lambda one: (-one[1], one[0]))]
        lines.append(f"{name:60} {', '.join(words)}")
    return "\n".join(lines) + "\n"


def good(of_file):
    return of_file["passed"] + of_file["as-hb-shape"]


def read_results(text):
    """The counts by file that results.txt has."""
    counts = collections.defaultdict(collections.Counter)
    for line in text.splitlines():
        name, _, words = line.partition(".tests ")
        for word in filter(None, words.split(",")):
            reason, number = word.split()
            counts[name + ".tests"][reason] = int(number)
    return counts


def main(arguments):
    is_writing = arguments[:1] == ["--write"]
    if len(arguments) < 3 + is_writing:
        sys.exit(__doc__)
    folder, path, *command = arguments[is_writing:]
    program, peer = Program(path), Peer(command)
    counts, failed = collections.defaultdict(collections.Counter), 0
    cases = list(read_cases(pathlib.Path(folder)))
    reasons = Reasons(program, peer)
    with concurrent.futures.ThreadPoolExecutor(2) as pool:
        for case, told in zip(cases, pool.map(lambda case: outcome(case, program, peer, reasons), cases)):
            if "\n" in told:
                print(told)
                failed += 1
                told = "unexplained"
            counts[f"{case.path.parent.parent.name}/{case.path.name}"][told] += 1
    found = table(counts)
    if is_writing:
        RESULTS.write_text(found)
    elif found != RESULTS.read_text():
        recorded = read_results(RESULTS.read_text())
        worse = [name for name in {*recorded, *counts} if good(counts[name]) < good(recorded[name])]
        for name in sorted(worse):
            print(f"FAILED: {name}: {good(counts[name])} lines are as expected or as hb-shape, and were {good(recorded[name])}")
        failed += len(worse)
        print("bindings/tests/results.txt has other counts; bindings/tests/test --write writes these")
    passed = sum(of_file["passed"] for of_file in counts.values())
    print(f"{passed} passed, {failed} failed")
    return 1 if failed or not passed else 0


if __name__ == "__main__":
    sys.exit(main(sys.argv[1:]))
