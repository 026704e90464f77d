"""Real words of Debian's packages (hunspell's lists, the translations of iso-codes, Unicode's CLDR), and random ones."""

import gettext
import glob
import html
import os
import random
import re
import unicodedata


def encoding_of(path):
    with open(path[:-4] + ".aff", encoding="latin-1") as file:
        for line in file:
            if line.startswith("SET "):
                return line.split()[1]
    return "latin-1"


def hunspell(root, name):
    """The words of a list of hunspell's."""
    for folder in ("hunspell", "myspell/dicts"):
        path = f"{root}/usr/share/{folder}/{name}.dic"
        if os.path.exists(path):
            with open(path, encoding=encoding_of(path), errors="replace") as file:
                return [line.split("/")[0].split("\t")[0].strip() for line in file][1:]
    raise SystemExit(f"words.py: there is no word list {name}")


def translations(root, language):
    """The words of the names of countries, languages and scripts in a language."""
    found = []
    for path in sorted(glob.glob(f"{root}/usr/share/locale/{language}/LC_MESSAGES/iso_*.mo")):
        with open(path, "rb") as file:
            catalog = gettext.GNUTranslations(file)._catalog
        for text in catalog.values():
            found += text.split() if isinstance(text, str) else []
    return found


def cldr(root, locale):
    """The words of what CLDR says in a locale: names, and descriptions of signs."""
    found = []
    for folder in ("main", "annotations", "annotationsDerived"):
        path = f"{root}/usr/share/unicode/cldr/common/{folder}/{locale}.xml"
        if os.path.exists(path):
            with open(path, encoding="utf-8") as file:
                for text in re.findall(r">([^<>]+)</", file.read()):
                    found += re.split(r"[\s|]+", html.unescape(text))
    return found


def is_in(word, blocks):
    return any(first <= ord(character) <= last for character in word for first, last in blocks)


def spread(words, most):
    """At most so many of the words, spread over them."""
    return words[:: max(1, len(words) // most)][:most]


def torn(words):
    """The words from their first mark on."""
    for word in words:
        for place, character in enumerate(word):
            if unicodedata.category(character).startswith("M"):
                if place:
                    yield word[place:]
                break


def characters_of(blocks):
    """The assigned characters of blocks, and those of them that are marks."""
    letters = [chr(code) for first, last in blocks for code in range(first, last + 1) if unicodedata.category(chr(code)) != "Cn"]
    return letters, [letter for letter in letters if unicodedata.category(letter).startswith("M")] or letters


def random_words(blocks, number, seed=36):
    """Random strings of a script's characters, half of them marks, with joiners among them; one in 20 has 60."""
    chosen = random.Random(seed)
    letters, marks = characters_of(blocks)
    joiners = ["\u200c", "\u200d", "\u034f", "\u25cc"]
    for _ in range(number):
        length = chosen.randint(1, 8) if chosen.random() < 0.95 else 60
        yield "".join(chosen.choice(chosen.choice([letters, letters, marks, marks + joiners])) for _ in range(length))
