#!/usr/bin/env python3
"""Counts the instructions of shaping, by callgrind, and prints a table.

    speed.py TEXTS ROOT RELEASE LTO [SCRIPT]..
    speed.py --functions words|lines kept|anew TEXTS ROOT RELEASE SCRIPT..

RELEASE and LTO are folders with shape_stock and shape_sengadlit, built with cargo's release profile, and with fat lto and one
unit. Of each script its 300 words and their lines of ten are shaped with its first font, once and three times: the half of
the difference is the cost of one time, without set-up. The last two columns are of a new buffer and plan for each text, as
usvg calls, with the release profile. JOBS processes run at once (by default 2).

--functions tells which functions take the instructions of a text, as it is and with the hooks: those whose own differ by a
thousandth of the text or more, each with its own and behind them with those of all that it calls.
"""

import collections
import concurrent.futures
import os
import pathlib
import re
import subprocess
import sys
import tempfile

SCRIPTS = ["Devanagari", "Tamil", "Khmer", "Myanmar", "Arabic", "Hangul", "Hangul, composed", "Thai", "Hebrew", "Sinhala", "Tibetan", "Latin",
           "Latin, decomposed", "Arabic, pointed"]


def callgrind(program, font, texts, times, how, out="/dev/null"):
    """Shapes the texts so many times, with a buffer and plan that are kept, or anew. Returns how many instructions that takes."""
    arguments = ["valgrind", "--tool=callgrind", f"--callgrind-out-file={out}", program, font, texts, str(times), how]
    told = subprocess.run(arguments, stdout=subprocess.DEVNULL, stderr=subprocess.PIPE, check=True).stderr
    return int(re.search(rb"Collected : ([0-9]+)", told).group(1))


def instructions(program, font, texts, how):
    return (callgrind(program, font, texts, 3, how) - callgrind(program, font, texts, 1, how)) / 2


def row(folders, root, texts, script, font, kind):
    """A row of the table: instructions of a text as it is, and the ratios of the two builds."""
    path = f"{texts}/{script}.{kind}"
    with open(path, encoding="utf-8") as file:
        lines = file.read().splitlines()
    calls = [(folders[0], "kept"), (folders[1], "kept"), (folders[0], "anew")]
    counts = [
        [instructions(f"{folder}/shape_{which}", f"{root}/{font}", path, how) for which in ("stock", "sengadlit")] for folder, how in calls
    ]
    cells = [script, os.path.basename(font), {"words": "a word", "lines": "ten words"}[kind], str(sum(map(len, lines)))]
    for stock, sengadlit in counts:
        cells += [f"{stock / len(lines):.0f}", f"{sengadlit / stock:.3f}"]
    return "| " + " | ".join(cells) + " |"


def by_function(dump):
    """The instructions of each function, its own and those of what it calls. (A name stands once in a dump, and then its number.)"""
    names, own, called = {}, collections.Counter(), collections.Counter()
    function = callee = None
    for line in dump.splitlines():
        if found := re.match(r"(c?)fn=(\(\d+\))(?: (.*))?$", line):
            name = names.setdefault(found.group(2), found.group(3))
            if found.group(1):
                callee = name
            else:
                function = name
        elif re.match(r"[-+*\d]", line):
            (called if callee else own)[function] += int(line.split()[-1]) if callee != function else 0
            callee = None
    return own, called


def functions_of(program, font, path, how, texts):
    """The instructions of a text by function: the function's own, and with all that it calls."""
    counts = []
    with tempfile.TemporaryDirectory() as folder:
        for times in 3, 1:
            callgrind(program, font, path, times, how, f"{folder}/out")
            counts.append(by_function(pathlib.Path(f"{folder}/out").read_text(encoding="utf-8", errors="replace")))
    (own, called), (own_once, called_once) = counts
    own.subtract(own_once)
    called.subtract(called_once)
    return {name: (own[name] / 2 / texts, (own[name] + called[name]) / 2 / texts) for name in own}


def functions(folder, root, texts, script, font, kind, how):
    """The lines that tell the functions of a script's texts."""
    path = f"{texts}/{script}.{kind}"
    count = len(pathlib.Path(path).read_text(encoding="utf-8").splitlines())
    stock, sengadlit = (functions_of(f"{folder}/shape_{which}", f"{root}/{font}", path, how, count) for which in ("stock", "sengadlit"))
    sums = [sum(own for own, _ in side.values()) for side in (stock, sengadlit)]
    yield f"{script}, {kind}, {how}: {sums[0]:.0f} as it is, {sums[1]:.0f} with the hooks, {sums[1] / sums[0]:.3f}"
    yield "   more   as it is  with hooks      with all that it calls"
    sides = [(name, stock.get(name, (0, 0)), sengadlit.get(name, (0, 0))) for name in stock | sengadlit]
    for name, (own, all_of_it), (own_here, all_here) in sorted(sides, key=lambda side: side[1][0] - side[2][0]):
        if abs(own_here - own) * 1000 >= sums[0]:
            yield f"{own_here - own:+7.0f} {own:10.0f} {own_here:11.0f} {all_of_it:10.0f} {all_here:10.0f}  {name}"


def fonts_of(texts):
    """The first font of each script."""
    fonts = {}
    for name in ("scripts", "normalized"):
        with open(f"{texts}/{name}", encoding="utf-8") as file:
            fonts.update({fields[0]: fields[1] for fields in (line.rstrip("\n").split("\t") for line in file)})
    return fonts


def main():
    if len(sys.argv) > 7 and sys.argv[1] == "--functions":
        kind, how, texts, root, folder, *scripts = sys.argv[2:]
        for script in scripts:
            print("\n".join(functions(folder, root, texts, script, fonts_of(texts)[script], kind, how)))
        return
    if len(sys.argv) < 5:
        raise SystemExit(__doc__)
    texts, root, *folders = sys.argv[1:5]
    fonts = fonts_of(texts)
    print("| script | font | a text is | characters | as it is, release | with the hooks | as it is, lto | with the hooks | anew | with the hooks |")
    print("|---|---|---|---|---|---|---|---|---|---|")
    with concurrent.futures.ThreadPoolExecutor(int(os.environ.get("JOBS", "2"))) as pool:
        wanted = [(script, kind) for script in sys.argv[5:] or SCRIPTS for kind in ("words", "lines")]
        for line in pool.map(lambda one: row(folders, root, texts, one[0], fonts[one[0]], one[1]), wanted):
            print(line, flush=True)


main()
