"""Writes checks/last_run.txt: what a run of ./check that ended without a failure counted, and what README.md says of it."""

import re
import shutil
import subprocess
import time

LAST_RUN, README = "checks/last_run.txt", "README.md"
# Where a crate's row there has its name, the commit that was proved, functions without and with tests, and edits.
COLUMNS = [(0, 26), (26, 40), (40, 50), (50, 62), (62, 77)]
# How README.md says what the last run proved: the commit, the functions and the edits.
PROVED = re.compile(r"At \w{12} `rt` proved [\d,]+ functions and refused [\d,]+ wrong bodies")


def crate_counts(lines):
    """Returns of each crate, from what rt ci printed, how many functions it proved in this run, without the crate's tests
    and with them, and how many edits were refused. None stands for a proof that this run didn't make."""
    counts, name, column = {}, None, 0
    for line in lines:
        if found := re.match(r"== (\w+)(: its tests)?$", line):
            name, column = found.group(1), 1 if found.group(2) else 0
        elif found := re.match(r"rt: (\w+) is kept", line):
            counts.setdefault(found.group(1), [None, None, 0])
        elif (found := re.match(r"logic=proved functions=(\d+)", line)) and name:
            counts.setdefault(name, [None, None, 0])[column] = int(found.group(1))
        elif found := re.match(r"rt: must-fail (\w+)/\S+: refused", line):
            counts.setdefault(found.group(1), [None, None, 0])[2] += 1
    return counts


def earlier_rows(text):
    """Returns of each crate that a last_run.txt has counts of: the commit that was proved, and how many functions, without
    and with its tests."""
    rows = {}
    for line in text.splitlines():
        name, *cells = (line[first:last].strip() for first, last in COLUMNS)
        if re.fullmatch(r"[0-9a-f]{12}", cells[0]) and cells[1].isdigit():
            rows[name] = cells[0], int(cells[1]), int(cells[2]) if cells[2] else None
    return rows


def sources_of(name, lines):
    """Returns the folders of a crate and of those below it, by the lines of crates.txt."""
    below = {crate: names.split() for crate, _, names in (line.partition(":") for line in lines if not line.startswith("#"))}
    # (a static library's line has a word behind the name)
    below = {crate.split()[0]: names for crate, names in below.items() if crate.strip()}
    found, left = set(), [name]
    while left:
        crate = left.pop()
        if crate in below and crate not in found:
            found.add(crate)
            left += below[crate]
    return sorted(f"crates/{crate}/{part}" for crate in found for part in ("src", "specs", "proofs"))


def is_unchanged(name, commit):
    """Whether a crate and those below it have the same sources now as at a commit; no where that isn't known."""
    with open("crates.txt", encoding="utf-8") as file:
        folders = sources_of(name, file.read().splitlines())
    differ = subprocess.run(["git", "diff", "--quiet", commit, "HEAD", "--", *folders, "HANDLES"], capture_output=True, check=False)
    return differ.returncode == 0


def proved_rows(counts, earlier, commit, is_same):
    """Returns a row of each crate: the name, the commit that was proved, functions without and with tests, edits refused.
    Where this run kept a proof, its earlier row stands if the sources are the same, and else nothing."""
    for name, (functions, tests, edits) in sorted(counts.items()):
        if functions is not None:
            yield name, commit[:12], functions, tests, edits
        elif name in earlier and is_same(name, earlier[name][0]):
            yield name, *earlier[name], edits
        else:
            yield name, None, None, None, edits


def in_columns(name, commit, functions, tests, edits):
    """Returns a row as last_run.txt has it: what isn't known is left out."""
    cells = ["" if cell is None else cell for cell in (commit, functions, tests)]
    return f"{name:26}{cells[0]:14}{cells[1]:>10}{cells[2]:>12}{edits:15}"


def output(*command):
    """Returns what a command prints, in one line; nothing where there is no such command."""
    if not shutil.which(command[0]):
        return ""
    return " ".join(subprocess.run(command, capture_output=True, text=True, check=False).stdout.split())


def last_run(counts, proofs, commit, earlier, is_same):
    """Returns what a run without a failure leaves of itself. What one check makes up is no sum: each has its own line."""
    yield "# The last run of ./check that ended with 0 failed, by ./check --write. A crate's row has the commit that was proved."
    yield f"commit  {commit}"
    yield f"ended   {time.strftime('%Y-%m-%d %H:%M UTC', time.gmtime())}"
    yield f"kit     {output('rt', 'version')}"
    yield f"\n{'crate':26}{'proved':14}{'functions':>10}{'with tests':>12}{'edits refused':>15}"
    rows = list(proved_rows(crate_counts(proofs), earlier, commit, is_same))
    for row in rows:
        yield in_columns(*row)
    if rows and all(functions is not None for _, _, functions, _, _ in rows):
        yield in_columns("all", None, sum(row[2] for row in rows), None, sum(row[4] for row in rows))
    yield f"\n{'check':26}{'passed':>10}"
    for name, passed in sorted(counts.items()):
        yield f"{name:26}{passed:10}"


def proved_sentence(text):
    """Returns how README.md says what a last_run.txt counted, if that has a count of each crate."""
    total = re.search(r"^all +(\d+) +(\d+)$", text, re.M)
    commit = re.search(r"^commit +(\w{12})", text, re.M)
    if not total or not commit:
        return None
    functions, edits = (f"{int(number):,}" for number in total.groups())
    return f"At {commit.group(1)} `rt` proved {functions} functions and refused {edits} wrong bodies"


def write(counts, proofs, commit):
    """Writes last_run.txt, from how many of each check passed and the lines that rt ci printed, and README.md's sentence."""
    with open(LAST_RUN, encoding="utf-8") as file:
        earlier = earlier_rows(file.read())
    text = "".join(f"{line}\n" for line in last_run(counts, proofs, commit, earlier, is_unchanged))
    with open(LAST_RUN, "w", encoding="utf-8") as file:
        file.write(text)
    if sentence := proved_sentence(text):
        with open(README, encoding="utf-8") as file:
            page = file.read()
        with open(README, "w", encoding="utf-8") as file:
            file.write(PROVED.sub(sentence, page))
