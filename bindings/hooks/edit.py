#!/usr/bin/env python3
"""edit.py EDITS FOLDER: edits the files of a crate's folder as the table EDITS says.

A table has parts, which blank lines separate. The first line of a part names its file:

    @ FILE          a hunk follows, as in a diff: lines that stay (' '), that go ('-'), that come ('+')
    ~ FILE          lines 'COUNT OLD -> NEW' follow: OLD is replaced where it occurs, so many times
    - FILE          the file goes

A line with '#' in front says in words what the parts below it do. The lines that a hunk finds have to stand in the file
once, one after the other, and OLD exactly COUNT times. Otherwise nothing at all is written, each part that doesn't fit is
told, and the status is 1.
"""

import pathlib
import sys


def parts(table):
    """The parts of a table: what each does in words, its first line, and the others."""
    words = ""
    for part in table.split("\n\n"):
        lines = part.strip("\n").split("\n")
        comment = [line[1:].strip() for line in lines if line.startswith("#")]
        rest = [line for line in lines if line and not line.startswith("#")]
        words = " ".join(comment) or words
        if rest:
            yield words, rest[0], rest[1:]


def hunk(text, lines):
    """The text with a hunk applied."""
    old = "".join(line[1:] + "\n" for line in lines if line[0] in " -")
    new = "".join(line[1:] + "\n" for line in lines if line[0] in " +")
    places = [0] if text.startswith(old) else []
    places += [i + 1 for i in range(len(text)) if text.startswith("\n" + old, i)]
    if len(places) != 1:
        raise ValueError(f"its lines stand there {len(places)} times, not once")
    return text[: places[0]] + new + text[places[0] + len(old) :]


def replacements(text, lines):
    """The text with OLD replaced by NEW, for each line."""
    for line in lines:
        count, _, rule = line.partition(" ")
        old, _, new = rule.partition(" -> ")
        if text.count(old) != int(count):
            raise ValueError(f"{old!r} stands there {text.count(old)} times, not {count}")
        text = text.replace(old, new)
    return text


def main():
    table, folder = pathlib.Path(sys.argv[1]), pathlib.Path(sys.argv[2])
    texts, faults = {}, 0
    for words, head, lines in parts(table.read_text()):
        kind, _, name = head.partition(" ")
        path = folder / name
        try:
            text = texts.get(path) or path.read_text()
            texts[path] = None if kind == "-" else {"@": hunk, "~": replacements}[kind](text, lines)
        except (OSError, ValueError) as fault:
            print(f"{table}: {name}: {words} {fault}", file=sys.stderr)
            faults += 1
    if faults:
        return 1
    for path, text in texts.items():
        path.unlink() if text is None else path.write_text(text)
    return 0


if __name__ == "__main__":
    sys.exit(main())
