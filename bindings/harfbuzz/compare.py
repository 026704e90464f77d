#!/usr/bin/env python3
"""Shapes the same texts with HarfBuzz as it is, with the hooks, and with both hooks on each call.

    compare.py OUT cases SOURCE    HarfBuzz's own shaping cases, one process each
    compare.py OUT words ROOT      words of Debian's packages, unpacked in ROOT
    compare.py OUT speed ROOT JOBS [SCRIPT..]      the instructions of each build over such words, and lines of them
    compare.py OUT functions ROOT JOBS [SCRIPT..]  by hook and function, of every tenth word

OUT is the folder that `build` made. A table goes to standard output, by shaper. A case or a word whose output differs
has a reason that the shadow saw, or it fails, as does a call whose fields differ without a known reason. The last line
is 'N passed, M failed'.
"""

import collections
import concurrent.futures
import glob
import os
import re
import shlex
import subprocess
import sys
import tempfile

sys.dont_write_bytecode = True
sys.path.insert(0, os.path.dirname(os.path.dirname(os.path.abspath(__file__))))
from words import hunspell, is_in, random_words, spread, torn, translations  # noqa: E402

SHAPERS = ["arabic", "hangul", "hebrew", "indic", "khmer", "myanmar", "zawgyi", "thai", "universal"]

# How many texts are compared at a time.
JOBS = os.cpu_count() or 1

# A list that differs in what has no effect is no difference of a case or word.
WITHOUT_EFFECT = {"same", "another-list"}


def run(out, which, arguments, tally=None):
    """Runs hb-shape of a build; returns what it printed."""
    environment = dict(os.environ)
    environment.pop("SENGADLIT_SHADOW", None)
    if tally:
        environment["SENGADLIT_SHADOW"] = tally
    done = subprocess.run([f"{out}/{which}/hb-shape", *arguments], env=environment, stdout=subprocess.PIPE,
                          stderr=subprocess.PIPE, check=False)
    if done.returncode < 0:
        return b"ended by a signal\n"
    return done.stdout


class Tally:
    """What the shadow counted: calls by shaper, hook and reason, and its notes."""

    def __init__(self):
        self.calls = collections.Counter()
        self.notes = []

    def read(self, path):
        if not os.path.exists(path):
            return
        with open(path, encoding="utf-8") as file:
            for line in file:
                if line.startswith("count "):
                    _, shaper, hook, reason, number = line.split()
                    self.calls[shaper, hook, reason] += int(number)
                else:
                    self.notes.append(line.rstrip("\n"))

    def add(self, other):
        self.calls.update(other.calls)
        self.notes.extend(other.notes)

    def shapers(self):
        return {shaper for shaper, _, _ in self.calls}

    def reasons(self, shaper=None):
        """How many calls differ, by reason."""
        found = collections.Counter()
        for (of, _, reason), number in self.calls.items():
            if reason not in WITHOUT_EFFECT and shaper in (None, of):
                found[reason] += number
        return found

    def number(self, shaper):
        return sum(number for (of, _, _), number in self.calls.items() if of == shaper)


def shadowed(out, arguments):
    """Runs the shadow; returns what it printed and what it counted."""
    with tempfile.TemporaryDirectory() as folder:
        path = f"{folder}/tally"
        printed = run(out, "shadow", arguments, path)
        tally = Tally()
        tally.read(path)
        return printed, tally


def told(reasons):
    return ", ".join(f"{reason} {number}" for reason, number in sorted(reasons.items())) or "none"


# ---- HarfBuzz's own cases ----


def takes_ours(line):
    """Whether a line '@NAME=VALUE,..', which says what shapes the cases below it, leaves them to what is built here."""
    name, values = line[1:].split("#")[0].split("=")
    return name.endswith("-") or "ot" in values.strip().split(",")


def cases(source):
    """HarfBuzz's own shaping cases: the arguments of hb-shape, and what is expected."""
    for path in sorted(glob.glob(f"{source}/test/shape/data/*/tests/*.tests")):
        is_ours = True
        with open(path, encoding="utf-8") as file:
            for line in file:
                line = line.strip()
                if not line or line.startswith("#"):
                    continue
                if line.startswith("@"):
                    is_ours = is_ours and takes_ours(line)
                    continue
                if not is_ours:
                    continue
                font, options, unicodes, expected = line.split(";")
                if font.startswith(("/", '"')):
                    continue  # a font of another system
                font = os.path.normpath(os.path.join(os.path.dirname(path), font))
                options = [option for option in shlex.split(options) if not option.startswith("--font-funcs=")]
                if any(option.startswith("--shaper=") and option != "--shaper=ot" for option in options):
                    continue
                arguments = [font, "--font-funcs=ot", "--shaper=ot", "--unicodes", unicodes, *options]
                if expected != "*":
                    arguments += ["--verify", "--unsafe-to-concat"]
                yield arguments, expected


def run_case(out, case):
    arguments, expected = case
    printed, tally = shadowed(out, arguments)
    stock, sengadlit = (run(out, which, arguments).decode().strip() for which in ("stock", "sengadlit"))
    return {
        "arguments": arguments,
        "same": stock == sengadlit == printed.decode().strip(),
        "expected": {which: expected in ("*", made) for which, made in (("stock", stock), ("sengadlit", sengadlit))},
        "tally": tally,
    }


def compare_cases(out, source):
    with concurrent.futures.ThreadPoolExecutor(JOBS) as pool:
        results = list(pool.map(lambda case: run_case(out, case), cases(source)))
    failed = []
    rows = {shaper: {"cases": 0, "same": 0, "tally": Tally()} for shaper in SHAPERS}
    through = 0
    for result in results:
        tally = result["tally"]
        through += bool(tally.shapers())
        if tally.reasons()["UNKNOWN"] or not (result["same"] or tally.reasons()):
            failed.append(result["arguments"])
        for shaper in tally.shapers():
            row = rows[shaper]
            row["cases"] += 1
            row["same"] += result["same"]
            row["tally"].add(tally)
    print("| shaper | cases through its hooks | same output | calls of its hooks | calls that differ |")
    print("|---|---|---|---|---|")
    for shaper, row in rows.items():
        tally = row["tally"]
        print(f"| {shaper} | {row['cases']} | {row['same']} | {tally.number(shaper)} | {told(tally.reasons(shaper))} |")
    wanted = {which: sum(result["expected"][which] for result in results) for which in ("stock", "sengadlit")}
    print()
    print(f"{len(results)} cases, {through} of them through at least one hook; the output is the expected one in "
          f"{wanted['stock']} as it is, in {wanted['sengadlit']} with the hooks")
    for arguments in failed:
        print("FAILED: hb-shape " + shlex.join(arguments))
    passed = len(results) - len(failed)
    print(f"{passed} passed, {len(failed)} failed")
    return not failed and passed > 0


# ---- Words ----

# By script: fonts, word lists of hunspell, languages of iso-codes, and the characters of random words.
FONTS = "usr/share/fonts"
NOTO = f"{FONTS}/truetype/noto"
SCRIPTS = {
    "Arabic": (["opentype/fonts-hosny-amiri/Amiri-Regular.ttf", "truetype/dejavu/DejaVuSans.ttf"], ["ar", "fa"], ["ug", "ur"],
               [(0x620, 0x6FF), (0x8A0, 0x8FF)]),
    "Syriac": (["NotoSansSyriac-Regular.ttf"], [], [], [(0x700, 0x74F)]),
    "Hebrew": (["truetype/culmus/FrankRuehlCLM-Medium.ttf", "truetype/dejavu/DejaVuSans.ttf"], ["he_IL"], ["he"], [(0x5B0, 0x5F2)]),
    "Thai": (["truetype/tlwg/Garuda.ttf", "NotoSansThai-Regular.ttf", "truetype/dejavu/DejaVuSans.ttf"], ["th_TH"], ["th"], [(0xE01, 0xE5B)]),
    "Lao": (["truetype/lao/Phetsarath_OT.ttf", "NotoSansLao-Regular.ttf"], ["lo_LA"], ["lo"], [(0xE81, 0xEDF)]),
    "Hangul": (["truetype/nanum/NanumGothic.ttf", "truetype/nanum/NanumBarunGothic.ttf"], ["ko"], ["ko"],
               [(0x1100, 0x11FF), (0xAC00, 0xAC40), (0x302E, 0x302F)]),
    "Devanagari": (["truetype/lohit-devanagari/Lohit-Devanagari.ttf", "NotoSansDevanagari-Regular.ttf",
                    "truetype/freefont/FreeSerif.ttf"], ["hi_IN", "ne_NP"], ["mr"], [(0x900, 0x97F)]),
    "Bengali": (["NotoSansBengali-Regular.ttf", "truetype/freefont/FreeSerif.ttf"], ["bn_BD"], ["bn", "as"], [(0x980, 0x9FE)]),
    "Gujarati": (["NotoSansGujarati-Regular.ttf", "truetype/freefont/FreeSerif.ttf"], ["gu_IN"], [], [(0xA81, 0xAFF)]),
    "Gurmukhi": (["NotoSansGurmukhi-Regular.ttf", "truetype/freefont/FreeSerif.ttf"], [], ["pa"], [(0xA01, 0xA76)]),
    "Oriya": (["NotoSansOriya-Regular.ttf", "truetype/freefont/FreeSerif.ttf"], [], ["or"], [(0xB01, 0xB77)]),
    "Tamil": (["NotoSansTamil-Regular.ttf", "truetype/freefont/FreeSerif.ttf"], [], ["ta"], [(0xB82, 0xBFA)]),
    "Telugu": (["NotoSansTelugu-Regular.ttf", "truetype/freefont/FreeSerif.ttf"], ["te_IN"], ["te"], [(0xC00, 0xC7F)]),
    "Kannada": (["NotoSansKannada-Regular.ttf", "truetype/freefont/FreeSerif.ttf"], [], ["kn"], [(0xC80, 0xCF2)]),
    "Malayalam": (["NotoSansMalayalam-Regular.ttf", "truetype/freefont/FreeSerif.ttf"], ["ml_IN"], [], [(0xD00, 0xD7F)]),
    "Khmer": (["truetype/khmeros/KhmerOS.ttf", "NotoSansKhmer-Regular.ttf"], [], ["km"], [(0x1780, 0x17DD)]),
    "Myanmar": (["truetype/padauk/Padauk-Regular.ttf", "NotoSansMyanmar-Regular.ttf"], [], ["my"], [(0x1000, 0x109F)]),
    "Sinhala": (["NotoSansSinhala-Regular.ttf"], ["si_LK"], ["si"], [(0xD81, 0xDF4)]),
    "Tibetan": (["NotoSerifTibetan-Regular.ttf"], ["bo", "dz"], ["dz"], [(0xF00, 0xFBC)]),
    "Mongolian": (["NotoSansMongolian-Regular.ttf"], [], [], [(0x1800, 0x1878)]),
    "N'Ko": (["NotoSansNKo-Regular.ttf"], [], [], [(0x7C0, 0x7FA)]),
    "Phags-pa": (["NotoSansPhagsPa-Regular.ttf"], [], [], [(0xA840, 0xA877)]),
    "Javanese": (["NotoSansJavanese-Regular.ttf"], [], [], [(0xA980, 0xA9DF)]),
    "Balinese": (["NotoSansBalinese-Regular.ttf"], [], [], [(0x1B00, 0x1B7C)]),
    "Chakma": (["NotoSansChakma-Regular.ttf"], [], [], [(0x11100, 0x11147)]),
    "Adlam": (["NotoSansAdlam-Regular.ttf"], [], [], [(0x1E900, 0x1E95F)]),
}

# Cluster levels, with the flags and contexts that are tried with each.
SETTINGS = [
    ["--cluster-level=0", "--unsafe-to-concat"],
    ["--cluster-level=1", "--safe-to-insert-tatweel", "--unsafe-to-concat"],
    ["--cluster-level=2"],
]
MOST_WORDS = 6000
RANDOM_WORDS = 2000


def path_of_font(root, font):
    return f"{root}/{FONTS}/{font}" if "/" in font else f"{root}/{NOTO}/{font}"


def words_of(root, lists, languages, blocks):
    """Real words with a character of the script, at most so many, spread over the lists."""
    found = [word for name in lists for word in hunspell(root, name)]
    found += [word for language in languages for word in translations(root, language)]
    return spread(sorted({word for word in found if is_in(word, blocks) and "\n" not in word}), MOST_WORDS)


def without_flags(line):
    return re.sub(rb"#[0-9]+", b"", line)


def compare_lines(out, arguments, words, stock, sengadlit):
    """The words whose output differs: each with its place, its reasons, and whether it is flags alone that differ."""
    stock, sengadlit = stock.splitlines(), sengadlit.splitlines()
    if len(stock) != len(words) or len(sengadlit) != len(words):
        return [(0, collections.Counter(), False)]
    differ = []
    for place, (one, other) in enumerate(zip(stock, sengadlit)):
        if one != other:
            unicodes = ",".join(f"{ord(character):04X}" for character in words[place])
            _, tally = shadowed(out, [*arguments, "--unicodes", unicodes])
            differ.append((place, tally.reasons(), without_flags(one) == without_flags(other)))
    return differ


def run_words(out, root, fonts, real, others):
    """Shapes words with each font and setting; returns the tally, and the words whose output differs."""
    tally, differ, shaped = Tally(), [], 0
    words = real + others
    with tempfile.TemporaryDirectory() as folder:
        path = f"{folder}/words"
        with open(path, "w", encoding="utf-8") as file:
            file.writelines(word + "\n" for word in words)
        for font in fonts:
            font = path_of_font(root, font)
            for place, settings in enumerate(SETTINGS):
                arguments = [font, "--show-flags", *settings]
                if place == 1:
                    arguments += [f"--text-before={real[0] if real else others[0]}", f"--text-after={words[-1]}"]
                _, counted = shadowed(out, [*arguments, "--text-file", path])
                stock, sengadlit = (run(out, which, [*arguments, "--text-file", path]) for which in ("stock", "sengadlit"))
                for number, reasons, is_of_flags in compare_lines(out, arguments, words, stock, sengadlit):
                    differ.append((os.path.basename(font), words[number], reasons, is_of_flags, number < len(real)))
                tally.add(counted)
                shaped += len(words)
    return tally, differ, shaped


def of_real(differ, is_of_flags):
    """How many outputs differ so, and how many of them are of real words."""
    real = [is_real for _, _, _, of_flags, is_real in differ if of_flags == is_of_flags]
    return f"{len(real)}, of real words {sum(real)}" if real else "0"


def compare_script(out, root, script):
    """Shapes real words, torn ones and random ones of a script: how many of each, and what `run_words` returns."""
    fonts, lists, languages, blocks = SCRIPTS[script]
    real = words_of(root, lists, languages, blocks)
    others = list(torn(real)) + list(random_words(blocks, RANDOM_WORDS))
    return len(real), len(others), *run_words(out, root, fonts, real, others)


def compare_words(out, root):
    print("| script | real words | torn and random | shaped | through | calls | calls that differ | other flags | other glyphs |")
    print("|---|---|---|---|---|---|---|---|---|")
    total, failed, passed = Tally(), [], 0
    with concurrent.futures.ThreadPoolExecutor(JOBS) as pool:
        results = pool.map(lambda script: (script, *compare_script(out, root, script)), SCRIPTS)
        for script, real, others, tally, differ, shaped in results:
            unexplained = [place for place in differ if not place[2] or place[2]["UNKNOWN"]]
            if tally.reasons()["UNKNOWN"] or unexplained:
                failed.append((script, tally, unexplained))
            passed += shaped - len(unexplained)
            shapers = ", ".join(sorted(tally.shapers(), key=lambda shaper: -tally.number(shaper)))
            calls = sum(tally.calls.values())
            flags, glyphs = of_real(differ, True), of_real(differ, False)
            print(f"| {script} | {real} | {others} | {shaped} | {shapers} | {calls} | {told(tally.reasons())} | {flags} | {glyphs} |",
                  flush=True)
            total.add(tally)
    print()
    for shaper in SHAPERS:
        hooks = {hook for of, hook, _ in total.calls if of == shaper}
        if hooks:
            print(f"- {shaper}: {total.number(shaper)} calls of {len(hooks)} hooks and pauses; differ: {told(total.reasons(shaper))}")
    for script, tally, unexplained in failed:
        print(f"FAILED: {script}: {told(tally.reasons())}; outputs without a reason: {len(unexplained)}")
        for font, word, *_ in unexplained[:3]:
            print(f"    {font} {' '.join(f'{ord(c):04X}' for c in word)}")
        for note in tally.notes[:8]:
            print("    " + note[:600])
    print(f"{passed} passed, {sum(len(u) + t.reasons()['UNKNOWN'] for _, t, u in failed)} failed")
    return not failed and passed > 0


# ---- Speed ----

SPEED_SCRIPTS = ["Devanagari", "Tamil", "Hangul", "Sinhala", "Khmer", "Myanmar", "Thai", "Arabic", "Hebrew", "Tibetan"]
BUILDS = ["stock", "sengadlit", "remembered"]


def counted(out, which, font, path, iterations, into="/dev/null"):
    """The instructions of shaping each line so many times, as valgrind counts them."""
    arguments = ["valgrind", "--tool=callgrind", f"--callgrind-out-file={into}", f"{out}/{which}/hb-shape", font,
                 "--num-iterations", str(iterations), "--text-file", path]
    told = subprocess.run(arguments, stdout=subprocess.DEVNULL, stderr=subprocess.PIPE, check=True).stderr
    return int(re.search(rb"Collected : ([0-9]+)", told).group(1))


def lines_of(words, number):
    """Lines of ten words."""
    return [" ".join(words[place : place + 10]) for place in range(0, len(words), 10)][:number]


def texts_of(root, script):
    """The file name of a font, and words and lines of a script."""
    fonts, lists, languages, blocks = SCRIPTS[script]
    words = words_of(root, lists, languages, blocks)
    return path_of_font(root, fonts[0]), {"a word": words[:1000], "ten words": lines_of(words, 100)}


def written(folder, name, texts):
    """A file of these texts, a line each."""
    path = f"{folder}/{name}"
    with open(path, "w", encoding="utf-8") as file:
        file.writelines(text + "\n" for text in texts)
    return path


def compare_speed(out, root, jobs, scripts):
    """A row of the table: the instructions of each build over the same texts."""
    print("| script | font | a text is | texts | characters | instructions per text, as it is | sengadlit | results remembered |")
    print("|---|---|---|---|---|---|---|---|", flush=True)
    with tempfile.TemporaryDirectory() as folder, concurrent.futures.ThreadPoolExecutor(jobs) as pool:
        rows = []
        for script in scripts:
            font, texts = texts_of(root, script)
            for kind, some in texts.items():
                path = written(folder, f"{script} {kind}", some)
                counts = [[pool.submit(counted, out, which, font, path, n) for n in (3, 1)] for which in BUILDS]
                rows.append((script, os.path.basename(font), kind, some, counts))
        for script, font, kind, texts, counts in rows:
            stock, sengadlit, remembered = ((three.result() - one.result()) / 2 for three, one in counts)
            characters = sum(map(len, texts))
            print(f"| {script} | {font} | {kind} | {len(texts)} | {characters} | {stock / len(texts):.0f} | "
                  f"{sengadlit / stock:.3f} | {remembered / stock:.3f} |", flush=True)
    return True


# The hooks, and the functions that run them: HarfBuzz's own, and those of sengadlit.cc.
OURS = r"proved_hooks_t<\d+u>::"
THEIRS = r"_(arabic|hangul|hebrew|indic|khmer|myanmar|thai|use)"
HOOKS = {hook: re.compile(rf"(bool |void )?({OURS}{name}|{name}{THEIRS}|{pauses})\(.*") for hook, name, pauses in (
    ("preprocessing", "preprocess_text", "-"),
    ("decomposition", "decompose", "-"),
    ("composition", "compose", "-"),
    ("masks", "setup_masks", "-"),
    ("set-up", "setup_syllables", "proved_pause<[0-3]u>"),
    ("initial reordering", "initial_reordering", "proved_pause<4u>"),
    ("reordering", "reorder", "reorder_(khmer|myanmar|use)|proved_pause<[567]u>"),
    ("final reordering", "final_reordering", "proved_pause<8u>"),
    ("other pauses", "record_(rphf|pref)", "record_stch|proved_pause<(9|1[0-4])u>"),
    ("marks", "reorder_marks", "-"),
    ("stretching", "postprocess_glyphs", "-"),
)}


def costs(path):
    """What callgrind counted of each function: its own instructions, and with all that it calls."""
    names, own, whole = {}, collections.Counter(), collections.Counter()
    function, is_call = None, False
    with open(path, encoding="utf-8", errors="replace") as file:
        for line in file:
            named = re.match(r"(c?fn)=\((\d+)\)(?: (.*))?", line)
            if named:
                kind, number, name = named.groups()
                if name:
                    names[number] = name
                if kind == "fn":
                    function = names[number]
            elif line.startswith("calls="):
                is_call = True
            elif line[0] in "+-*0123456789":
                cost = int(line.split()[1])
                whole[function] += cost
                if not is_call:
                    own[function] += cost
                is_call = False
    return own, whole


def costs_per_text(out, which, font, path, texts, folder):
    """The same of shaping one text, without what comes once."""
    told = []
    for iterations in (3, 1):
        into = f"{folder}/{os.path.basename(path)} {which} {iterations}"
        counted(out, which, font, path, iterations, into)
        told.append(costs(into))
    return [{name: (many[name] - once[name]) / 2 / texts for name in many} for many, once in zip(*told)]


def print_functions(script, texts, stock, sengadlit):
    """The hooks, with all that they call, and the functions whose own instructions are most."""
    characters = sum(map(len, texts)) / len(texts)
    print(f"\n{script}: {len(texts)} words of {characters:.1f} characters\n\n| hook, with all that it calls | as it is | sengadlit |\n|---|---|---|")
    left = [sum(own.values()) for own, _ in (stock, sengadlit)]
    print(f"| all of shaping | {left[0]:.0f} | {left[1]:.0f} |")
    for hook, names in HOOKS.items():
        sums = [sum(cost for name, cost in whole.items() if names.fullmatch(name)) for _, whole in (stock, sengadlit)]
        left = [rest - found for rest, found in zip(left, sums)]
        if any(sums):
            print(f"| {hook} | {sums[0]:.0f} | {sums[1]:.0f} |")
    print(f"| the rest | {left[0]:.0f} | {left[1]:.0f} |\n\n| function, alone | as it is | sengadlit |\n|---|---|---|")
    functions = {name: (stock[0].get(name, 0), sengadlit[0].get(name, 0)) for name in {**stock[0], **sengadlit[0]}}
    for name, (one, other) in sorted(functions.items(), key=lambda item: -abs(item[1][0] - item[1][1])):
        if abs(one - other) >= 10:
            short = re.sub(r"sengadlit_lending::(generated::)?|\(.*", "", name)
            print(f"| `{short}` | {one:.0f} | {other:.0f} |", flush=True)


def compare_functions(out, root, jobs, scripts):
    """Where a word's instructions are: every tenth of the words that `speed` counts."""
    with tempfile.TemporaryDirectory() as folder, concurrent.futures.ThreadPoolExecutor(jobs) as pool:
        rows = []
        for script in scripts:
            font, texts = texts_of(root, script)
            words = texts["a word"][::10]
            path = written(folder, script, words)
            found = [pool.submit(costs_per_text, out, which, font, path, len(words), folder) for which in ("stock", "sengadlit")]
            rows.append((script, words, found))
        for script, words, found in rows:
            print_functions(script, words, *(costs.result() for costs in found))
    return True


def main():
    compare = {"cases": compare_cases, "words": compare_words}
    count = {"speed": compare_speed, "functions": compare_functions}
    arguments = sys.argv[1:]
    if len(arguments) == 3 and arguments[1] in compare:
        done = compare[arguments[1]](arguments[0], arguments[2])
    elif len(arguments) > 3 and arguments[1] in count and arguments[3].isdecimal() and set(arguments[4:]) <= SCRIPTS.keys():
        done = count[arguments[1]](arguments[0], arguments[2], int(arguments[3]), arguments[4:] or SPEED_SCRIPTS)
    else:
        raise SystemExit(__doc__)
    sys.exit(0 if done else 1)


if __name__ == "__main__":
    main()
