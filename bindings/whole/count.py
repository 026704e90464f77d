#!/usr/bin/env python3
"""Counts whole shaping, from a text to positioned glyphs, with callgrind.

  count.py texts TEXTS FOLDER ROOT        writes the words and lines of each script into a folder, of the texts and fonts that
                                          bindings/hooks/texts fetched, and those of the second set
  count.py count FOLDER LOADER [SCRIPT..] counts the programs of that folder on them, and prints a table
  count.py count FOLDER LOADER --second [SCRIPT..]
                                          counts the second set: other fonts, other words and other scripts
  count.py count FOLDER LOADER --lengths [SCRIPT..]
                                          counts a short and a long text of each script, by character
  count.py count FOLDER LOADER --times [SCRIPT..]
                                          times the words and lines, with nothing else on the machine

Each program shapes a file once and three times; half of the difference is what one time takes, so that starting, reading the
font and what is made once don't count. What all three print, the sum of the glyphs' numbers, must be the same.
"""

import concurrent.futures
import math
import operator
import pathlib
import re
import statistics
import subprocess
import sys
import time
import unicodedata

NOTO = "usr/share/fonts/truetype/noto/Noto"
# Each script's texts, with its code, its direction and its font.
SCRIPTS = {
    "Latin": ("Latn", "ltr", f"{NOTO}Sans-Regular.ttf"),
    "Arabic": ("Arab", "rtl", f"{NOTO}NaskhArabic-Regular.ttf"),
    "Hebrew": ("Hebr", "rtl", f"{NOTO}SansHebrew-Regular.ttf"),
    "Devanagari": ("Deva", "ltr", f"{NOTO}SansDevanagari-Regular.ttf"),
    "Bengali": ("Beng", "ltr", f"{NOTO}SansBengali-Regular.ttf"),
    "Tamil": ("Taml", "ltr", f"{NOTO}SansTamil-Regular.ttf"),
    "Malayalam": ("Mlym", "ltr", f"{NOTO}SansMalayalam-Regular.ttf"),
    "Sinhala": ("Sinh", "ltr", f"{NOTO}SansSinhala-Regular.ttf"),
    "Khmer": ("Khmr", "ltr", f"{NOTO}SansKhmer-Regular.ttf"),
    "Myanmar": ("Mymr", "ltr", f"{NOTO}SansMyanmar-Regular.ttf"),
    "Thai": ("Thai", "ltr", f"{NOTO}SansThai-Regular.ttf"),
    "Hangul, composed": ("Hang", "ltr", "usr/share/fonts/truetype/nanum/NanumGothic.ttf"),
    "Tibetan": ("Tibt", "ltr", f"{NOTO}SerifTibetan-Regular.ttf"),
}
# The second set, which nobody looks at to find what takes long: other fonts, other words of the same scripts, and other
# scripts. Each row has the texts of a script, with its code, its direction and its font.
TRUETYPE = "usr/share/fonts/truetype"
SECOND = {
    "Latin, DejaVu": ("Latin", "Latn", "ltr", f"{TRUETYPE}/dejavu/DejaVuSans.ttf"),
    "Latin, decomposed": ("Latin, decomposed", "Latn", "ltr", f"{TRUETYPE}/dejavu/DejaVuSerif.ttf"),
    "Hebrew, David": ("Hebrew", "Hebr", "rtl", f"{TRUETYPE}/culmus/DavidCLM-Medium.otf"),
    "Arabic, Amiri": ("Arabic", "Arab", "rtl", "usr/share/fonts/opentype/fonts-hosny-amiri/Amiri-Regular.ttf"),
    "Devanagari, Lohit": ("Devanagari", "Deva", "ltr", f"{TRUETYPE}/lohit-devanagari/Lohit-Devanagari.ttf"),
    "Gujarati": ("Gujarati", "Gujr", "ltr", f"{NOTO}SansGujarati-Regular.ttf"),
    "Gurmukhi": ("Gurmukhi", "Guru", "ltr", f"{NOTO}SansGurmukhi-Regular.ttf"),
    "Kannada": ("Kannada", "Knda", "ltr", f"{NOTO}SansKannada-Regular.ttf"),
    "Telugu": ("Telugu", "Telu", "ltr", f"{NOTO}SansTelugu-Regular.ttf"),
    "Khmer, Khmer OS": ("Khmer", "Khmr", "ltr", f"{TRUETYPE}/khmeros/KhmerOS.ttf"),
    "Myanmar, Padauk": ("Myanmar", "Mymr", "ltr", f"{TRUETYPE}/padauk/Padauk-Regular.ttf"),
    "Thai, Garuda": ("Thai", "Thai", "ltr", f"{TRUETYPE}/tlwg/Garuda.ttf"),
    "Lao": ("Lao", "Laoo", "ltr", f"{NOTO}SansLao-Regular.ttf"),
    "Hangul, Myeongjo": ("Hangul, composed", "Hang", "ltr", f"{TRUETYPE}/nanum/NanumMyeongjo.ttf"),
}
# The file of each set's rows, and at which of the words its texts begin.
SETS = {"scripts": ({name: (name, *row) for name, row in SCRIPTS.items()}, 0), "second": (SECOND, 3)}
# How many words and lines are counted, and how long a line is at least.
WORDS, LINES, LENGTH = 60, 6, 130
# How many characters a short text has about, and a long one.
LENGTHS = [100, 100_000]
# How much more a character of the long text may take: it has glyphs of more lookups.
MOST_MORE = 1.25
# How many seconds a run that is timed takes about, and how many rounds there are, in which the programs take turns.
SECONDS, ROUNDS = 0.2, 9
PROGRAMS = ["sengadlit", "harfrust", "harfbuzz"]
WAYS = ["kept", "cache", "prepared", "anew", "parsed"]
# The two others have one face, which isn't prepared.
PEERS_WAYS = {"parsed": "kept", "prepared": "anew"}
KINDS = ["words", "lines"]
# What is counted once a font: its bytes are read and ten words shaped; it is read and prepared.
FIRST, PREPARE = "first", "prepare"


def spread(items, count, start):
    """So many of the items, from one of the first to the last."""
    step = max(1, len(items) // count)
    return items[min(start, step - 1)::step][:count]


def lines_of(words, length=LENGTH):
    """Words joined to lines of a length."""
    line = ""
    for word in words:
        line = f"{line} {word}".strip()
        if len(line) >= length:
            yield line
            line = ""


def has_doubled_sign(word):
    """Whether a sign stands twice: a broken syllable, whose dotted circle the peers leave out where it has the number of the last."""
    return any(a == b and unicodedata.category(a).startswith("M") for a, b in zip(word, word[1:]))


def texts_of(words, length):
    """Words of a script as texts of about so many characters, or again and again as one."""
    words = [word for word in words if not has_doubled_sign(word)]
    texts = list(lines_of(words, length))
    line = " ".join(words)
    return texts or [f"{line} " * (length // len(line))]


def write_texts(texts, folder, root):
    folder.mkdir(parents=True, exist_ok=True)
    for file, (rows, start) in SETS.items():
        written = [name for name, row in rows.items() if write_text(texts / f"{row[0]}.real", folder, name, start)]
        lines = ["\t".join([name, *rows[name][1:3], f"{root}/{rows[name][3]}"]) for name in written]
        (folder / file).write_text("\n".join(lines) + "\n", "utf-8")


def write_text(path, folder, name, start):
    """Writes the words and lines of a row, if its script's words were fetched."""
    if not path.exists():
        print(f"there are no words of {name}")
        return False
    real = [word for word in path.read_text("utf-8").split("\n") if word]
    words = spread([word for word in real if 3 <= len(word) <= 20], WORDS, start)
    (folder / f"{name}.words").write_text("".join(f"{word}\n" for word in words), "utf-8")
    for length in LENGTHS:
        (folder / f"{name}.{length}").write_text("".join(f"{text}\n" for text in texts_of(words, length)), "utf-8")
    lines = list(lines_of(real[7 + start::11]))[:LINES]
    (folder / f"{name}.lines").write_text("".join(f"{line}\n" for line in lines), "utf-8")
    return True


def collected(command):
    """How many instructions a command takes, and what it prints."""
    ran = subprocess.run(["valgrind", "--tool=callgrind", "--callgrind-out-file=/dev/null", *command], capture_output=True, text=True, check=True)
    return int(re.search(r"Collected : (\d+)", ran.stderr).group(1)), ran.stdout.strip()


def seconds(command):
    """How long a command takes."""
    start = time.perf_counter()
    subprocess.run(command, capture_output=True, check=True)
    return time.perf_counter() - start


class Count:
    def __init__(self, folder, loader):
        self.folder = folder
        self.commands = {
            "sengadlit": [f"{folder}/sengadlit/target/release/sengadlit"],
            "harfrust": [f"{folder}/harfrust/target/release/harfrust"],
            "harfbuzz": [*loader.split(), f"{folder}/harfbuzz"],
        }

    def command(self, job, times):
        """The command that shapes a file so many times."""
        program, way, (script, code, direction, font), kind = job
        return [*self.commands[program], font, str(self.folder / "texts" / f"{script}.{kind}"), str(times), way, code, direction]

    def texts(self, job):
        """How many texts the file has, where what is counted is a text."""
        _, way, (script, *_), kind = job
        return 1 if way in (FIRST, PREPARE) else len((self.folder / "texts" / f"{script}.{kind}").read_text("utf-8").splitlines())

    def text(self, job):
        """Instructions of a text, the mean over a file, and the sum that the program prints."""
        one, three = (collected(self.command(job, times)) for times in (1, 3))
        return (three[0] - one[0]) / 2 / self.texts(job), one[1]

    def time(self, job, times):
        """Nanoseconds of a text, where the file is shaped so many times more than once."""
        once, more = (seconds(self.command(job, count)) for count in (1, times + 1))
        return (more - once) / times / self.texts(job) * 1e9


def jobs_of(rows):
    """What is counted: program, way, script and kind of text."""
    jobs = [(program, way, row, kind) for row in rows for kind in KINDS for way in WAYS for program in PROGRAMS]
    jobs = [job for job in jobs if job[0] == PROGRAMS[0] or job[1] not in PEERS_WAYS]
    jobs += [(program, FIRST, row, "words") for row in rows for program in PROGRAMS]
    return jobs + [(PROGRAMS[0], PREPARE, row, "words") for row in rows]


def instructions(counts, program, way, row, kind):
    """What a text takes in a program, by a way or by that which stands for it."""
    way = way if program == PROGRAMS[0] else PEERS_WAYS.get(way, way)
    return counts[program, way, row, kind][0]


def mean(numbers):
    numbers = list(numbers)
    return math.exp(sum(map(math.log, numbers)) / len(numbers))


def cells_of(counts, way, row, kind):
    """Instructions of a text here, and ratios beside the peers."""
    own, *peers = [instructions(counts, program, way, row, kind) for program in PROGRAMS]
    return [f"{own:.0f}", *(f"{own / peer:.2f}" for peer in peers)]


def word_that_pays(counts, row):
    """The first word by which a face has gained what preparing it takes, if there is one."""
    kept, parsed = (instructions(counts, PROGRAMS[0], way, row, "words") for way in ("kept", "parsed"))
    if kept >= parsed:
        return ""
    return str(math.ceil(counts[PROGRAMS[0], PREPARE, row, "words"][0] / (parsed - kept)))


def rows_of(rows, counts):
    """The rows of the table: by kind and way, and with the words what is counted once a font."""
    for row in rows:
        for kind in KINDS:
            cells = [cell for way in WAYS for cell in cells_of(counts, way, row, kind)]
            if kind == "words":
                cells += [*cells_of(counts, FIRST, row, kind), word_that_pays(counts, row)]
            yield [row[0], kind, *cells]


def means_of(rows, counts, kind):
    """The row of means."""
    for way in [*WAYS, *([FIRST] if kind == "words" else [])]:
        own, *peers = [[instructions(counts, program, way, row, kind) for row in rows] for program in PROGRAMS]
        yield from ("", *(f"{mean(map(operator.truediv, own, peer)):.2f}" for peer in peers))


def print_table(rows, counts):
    ways = [f"{way}: {what}" for way in [*WAYS, FIRST] for what in ("here", "HarfRust", "HarfBuzz")]
    print("\t".join(["script", "texts", *ways, "pays from word"]))
    for cells in rows_of(rows, counts):
        print("\t".join(cells))
    for kind in KINDS:
        print("\t".join(["mean", kind, *means_of(rows, counts, kind)]))


def count_lengths(folder, loader, rows):
    """Prints what a character takes in short texts and in a long one of the same words, where it may take a quarter more."""
    jobs = [(program, "kept", row, str(length)) for row in rows for length in LENGTHS for program in PROGRAMS]
    with concurrent.futures.ThreadPoolExecutor(2) as pool:
        counts = dict(zip(jobs, pool.map(Count(folder, loader).text, jobs)))
    print("\t".join(["script", *(f"{length}: {what}" for length in LENGTHS for what in ("here", "HarfRust", "HarfBuzz"))]))
    failed = 0
    for row in rows:
        cells, takes = [], []
        for length in LENGTHS:
            own, *peers = [counts[program, "kept", row, str(length)] for program in PROGRAMS]
            texts = (folder / "texts" / f"{row[0]}.{length}").read_text("utf-8").splitlines()
            characters = sum(map(len, texts)) / len(texts)
            takes.append(own[0] / characters)
            cells += [f"{takes[-1]:.0f}", *(f"{own[0] / peer[0]:.2f}" for peer in peers)]
            failed += len({own[1], *(peer[1] for peer in peers)}) > 1
        failed += takes[1] > MOST_MORE * takes[0]
        print("\t".join([row[0], *cells]))
    print(f"{3 * len(rows) - failed} passed, {failed} failed")
    return 1 if failed else 0


def count_times(count, rows):
    """Prints the nanoseconds of a text, the median of rounds in which the programs take turns, and the means of the ratios."""
    print("\t".join(["script", "texts", "here", "HarfRust", "HarfBuzz"]))
    ratios = {kind: [] for kind in KINDS}
    for row in rows:
        for kind in KINDS:
            jobs = [(program, "kept", row, kind) for program in PROGRAMS]
            times = 100
            while seconds(count.command(jobs[0], times)) < SECONDS:
                times *= 2
            rounds = [[count.time(job, times) for job in jobs] for _ in range(ROUNDS)]
            own, *peers = map(statistics.median, zip(*rounds))
            ratios[kind].append([own / peer for peer in peers])
            print("\t".join([row[0], kind, f"{own:.0f}", *(f"{own / peer:.2f}" for peer in peers)]))
    for kind, of_kind in ratios.items():
        print("\t".join(["mean", kind, "", *(f"{mean(of_peer):.2f}" for of_peer in zip(*of_kind))]))
    return 0


def count(folder, loader, wanted):
    lengths, times = "--lengths" in wanted, "--times" in wanted
    wanted = [word for word in wanted if word not in ("--lengths", "--times")]
    file = "second" if wanted[:1] == ["--second"] else "scripts"
    wanted = [word for word in wanted if word != "--second"]
    rows = [tuple(line.split("\t")) for line in (folder / "texts" / file).read_text("utf-8").splitlines()]
    rows = [row for row in rows if not wanted or row[0] in wanted]
    if lengths:
        return count_lengths(folder, loader, rows)
    if times:
        return count_times(Count(folder, loader), rows)
    jobs = jobs_of(rows)
    with concurrent.futures.ThreadPoolExecutor(2) as pool:
        counts = dict(zip(jobs, pool.map(Count(folder, loader).text, jobs)))
    print_table(rows, counts)
    sums = {}
    for _, way, row, kind in jobs:
        if way != PREPARE:
            # (the first ten words have a sum of their own)
            alike = [job for job in jobs if job[2:] == (row, kind) and (job[1] == FIRST) == (way == FIRST) and job[1] != PREPARE]
            sums[row[0], kind, way == FIRST] = {counts[job][1] for job in alike}
    differ = sorted(which for which, found in sums.items() if len(found) > 1)
    for script, kind, _ in differ:
        print(f"the glyphs of {script}, {kind}, aren't the same")
    print(f"{len(jobs)} passed, {len(differ)} failed")
    return 1 if differ else 0


def main(words):
    if words[:1] == ["texts"] and len(words) == 4:
        return write_texts(*map(pathlib.Path, words[1:3]), words[3])
    if words[:1] == ["count"] and len(words) >= 3:
        return count(pathlib.Path(words[1]), words[2], words[3:])
    print(__doc__.strip())
    return 2


if __name__ == "__main__":
    sys.exit(main(sys.argv[1:]))
