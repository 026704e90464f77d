#!/usr/bin/env python3
"""Prints languages for checks/languages, one a line: all of one to three letters, those of the table and of its conditions with
subtags behind them, and 100,000 made of subtags by chance, the same in each run."""

import itertools
import pathlib
import random
import string

TABLE = pathlib.Path(__file__).resolve().parent.parent / "unicode/data/harfbuzz/LanguageTags.txt"
BEHIND = """-x -x-hbot -x-hbotabc -x-hbscdev2 -a-foo -fonipa -hk -hant -hans-hk -Hant_MO -1996 -u-nu-latn x -cyrl-fonnapa -tw-polyton
    -geok -syre-x-hbot-41424344 -aao -yue -abc-def -001 --hk - -x-hbotdflt-hbscdflt""".split()
SUBTAGS = """en zh hk mo tw hant hans x a u fonipa fonipax geok hbot hbotabc hbsc hbscdeva hbot-41424344 hbsc-64657632 hbot-414 1 12
    123 ro md yue gan ga latg art lojban min nan i hak lux no bok dflt hbotdflt hbscDFLT HBOT sgn be fr cel gaulish abcd abcdefg hbot_x
    -""".split()
LONGEST = 63


def languages():
    for length in 1, 2, 3:
        yield from map("".join, itertools.product(string.ascii_lowercase, repeat=length))
    lines = TABLE.read_text(encoding="utf-8").splitlines()
    for parts in (line.split(" ;")[0].split() for line in lines if not line.startswith("#")):
        if len(parts) == 1:
            starts = parts
        else:
            starts = ["-".join(parts[1:]), "und-" + "-".join(parts[1:]), "-".join([parts[1], "cyrl", *parts[2:]])]
        yield from (start + behind for start in starts for behind in ["", *BEHIND])
    chance = random.Random(1)
    for _ in range(100_000):
        yield "-".join(chance.choices(SUBTAGS, k=chance.randint(1, 7)))


print("\n".join(dict.fromkeys(text for text in languages() if len(text) <= LONGEST)))
