#!/usr/bin/env python3
"""patches.py PROJECT SOURCE FOLDER: writes into the folder a patch for each fault of faults/ that a project has, with its test.

The project is harfbuzz, harfrust or rustybuzz, and SOURCE the folder of its source, which stays as it is. A file of faults/
has a subject, a text, and parts that begin with '== ':

    == font             the lines of fonts.py
    == tests [FILE]     lines 'OPTIONS;CHARACTERS;[GLYPHS]', and the file of HarfBuzz's tests that gets them, if it has the
                        fault, or `apart`, if its script can't run them; '2=0*256' stands for as many, one after the other
    == tests-of PROJECT the same for one project whose glyphs are others
    == long CHARACTERS  a text that takes long with these, many times
    == edit PROJECT..   an edit of these projects, in the form of bindings/hooks/edit.py

A patch is what `git format-patch` writes. In the folder tests are also by themselves: for HarfBuzz NAME.tests of each fault, also
of those that it hasn't, and their fonts; for the crates modules.rs, which names the files of the tests.
"""

import hashlib
import os
import pathlib
import re
import shutil
import subprocess
import sys

# (nothing is left beside the sources)
sys.dont_write_bytecode = True
import fonts

HERE = pathlib.Path(__file__).resolve().parent
EDIT = HERE.parent / "hooks" / "edit.py"
AUTHOR = {"NAME": "Sengadlit maintainers", "EMAIL": "maintainers@users.noreply.sengadlit.example", "DATE": "2026-01-01T00:00:00Z"}
HARFBUZZ_TESTS = "test/shape/data/in-house"


def lines_of_tests(body):
    """The options, the characters and the glyphs of each test."""
    return [line.split(";") for line in body.strip().split("\n")]


class Fault:
    """A file of faults/."""

    def __init__(self, path):
        self.name = path.name
        self.text, *parts = re.split(r"^== ", path.read_text(encoding="utf-8"), flags=re.M)
        self.edits, self.own_tests, self.long = {}, {}, None
        for part in parts:
            head, _, body = part.partition("\n")
            kind, *rest = head.split()
            if kind == "font":
                self.font = fonts.font(body.split("\n\n")[0].strip().split("\n"))
            elif kind == "tests":
                self.tests = lines_of_tests(body)
                self.file = rest[0] if rest else None
            elif kind == "tests-of":
                self.own_tests[rest[0]] = lines_of_tests(body)
            elif kind == "long":
                self.long = rest[0]
            else:
                self.edits.update({project: body for project in rest})


def repeated(text, separator):
    """The items of a list, those with a number behind a star so many times."""
    items = []
    for item in text.split(separator):
        item, _, number = item.partition("*")
        items += [item] * int(number or 1)
    return items


def git(folder, *words):
    """What git prints in a folder."""
    environment = {f"GIT_{who}_{what}": value for who in ("AUTHOR", "COMMITTER") for what, value in AUTHOR.items()}
    command = ["git", "-c", "core.autocrlf=false", "-c", "commit.gpgsign=false", *words]
    return subprocess.run(
        command, cwd=folder, env={**os.environ, **environment}, check=True, stdout=subprocess.PIPE
    ).stdout


def harfbuzz_tests(fault):
    """The lines of a fault's tests as HarfBuzz has them, and the name of the font."""
    font = hashlib.sha1(fault.font).hexdigest() + ".ttf"
    lines = []
    for options, characters, glyphs in fault.tests:
        glyphs = "|".join(repeated(glyphs.strip("[]"), "|"))
        lines.append(f"../fonts/{font};{options};{','.join(repeated(characters, ','))};[{glyphs}]\n")
    return lines, font


def add_to_harfbuzz(fault, folder):
    """Adds a fault's tests to HarfBuzz's file of the same subject."""
    lines, font = harfbuzz_tests(fault)
    (folder / HARFBUZZ_TESTS / "fonts").mkdir(parents=True, exist_ok=True)
    (folder / HARFBUZZ_TESTS / "fonts" / font).write_bytes(fault.font)
    with open(folder / HARFBUZZ_TESTS / "tests" / f"{fault.file}.tests", "a", encoding="utf-8") as file:
        file.writelines(lines)


def write_tests(fault, out):
    """Writes a fault's tests, and its font, as HarfBuzz has them, by themselves."""
    lines, font = harfbuzz_tests(fault)
    (out / "fonts").mkdir(exist_ok=True)
    (out / "fonts" / font).write_bytes(fault.font)
    (out / f"{fault.name}.tests").write_text("".join(lines), encoding="utf-8")


def add_to_crate(fault, project, folder, out):
    """Adds a fault's tests as a file of the form that the crates' script makes of HarfBuzz's tests."""
    font = f"tests/fonts/custom/{fault.name}.ttf"
    tests = "use crate::shape;\n"
    for number, (options, characters, glyphs) in enumerate(fault.own_tests.get(project, fault.tests), 1):
        text = "".join(f"\\u{{{c[2:]}}}" for c in repeated(characters, ","))
        glyphs = "|\\\n             ".join(repeated(glyphs.strip("[]"), "|"))
        tests += f"""
#[test]
fn {fault.name}_{number:03}() {{
    assert_eq!(
        shape(
            "{font}",
            "{text}",
            "{options}",
        ),
        "{glyphs}"
    );
}}
"""
    for name, data in ((font, fault.font), (f"tests/shaping/{fault.name}.rs", tests.encode())):
        (folder / name).parent.mkdir(parents=True, exist_ok=True)
        (folder / name).write_bytes(data)
    with open(out / "modules.rs", "a", encoding="utf-8") as file:
        file.write(f"mod {fault.name};\n")


def files_of(fault, project):
    """The files of the source that a fault's patch changes."""
    edited = re.findall(r"^[@~] (.*)$", fault.edits[project], re.M)
    return edited + ([f"{HARFBUZZ_TESTS}/tests/{fault.file}.tests"] if project == "harfbuzz" else [])


def write_patch(fault, number, project, folder, out):
    """Edits the sources, adds the tests, and writes what has changed as a patch."""
    table = folder / ".git" / "edits"
    table.write_text(fault.edits[project], encoding="utf-8")
    subprocess.run([sys.executable, EDIT, table, folder], check=True)
    if project == "harfbuzz":
        add_to_harfbuzz(fault, folder)
    else:
        add_to_crate(fault, project, folder, out)
    git(folder, "add", "--all", "--force")
    git(folder, "commit", "-q", "-m", fault.text.strip())
    patch = git(folder, "format-patch", "-1", "--binary", "--stdout", "--zero-commit", "--no-signature")
    (out / f"{number:02}-{fault.name}.patch").write_bytes(patch)
    git(folder, "reset", "-q", "--hard", "source")
    if fault.long:
        (out / f"{fault.name}.ttf").write_bytes(fault.font)
        (out / f"{fault.name}.long").write_text(fault.long + "\n", encoding="utf-8")


def main():
    project, source, out = sys.argv[1], pathlib.Path(sys.argv[2]), pathlib.Path(sys.argv[3])
    known = [Fault(path) for path in sorted((HERE / "faults").iterdir())]
    faults = [fault for fault in known if project in fault.edits]
    shutil.rmtree(out, ignore_errors=True)
    folder = out / "source"
    folder.mkdir(parents=True)
    if project == "harfbuzz":
        for fault in known:
            if fault.file != "apart":
                write_tests(fault, out)
    for name in {name for fault in faults for name in files_of(fault, project)}:
        (folder / name).parent.mkdir(parents=True, exist_ok=True)
        (folder / name).write_bytes((source / name).read_bytes())
    git(folder, "init", "-q")
    git(folder, "add", "--all", "--force")
    git(folder, "commit", "-q", "-m", "the source")
    git(folder, "tag", "source")
    for number, fault in enumerate(faults, 1):
        write_patch(fault, number, project, folder, out)
    shutil.rmtree(folder)
    print(f"{out}: {len(faults)} patches for {project}")


if __name__ == "__main__":
    main()
