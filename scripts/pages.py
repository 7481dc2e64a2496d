#!/usr/bin/env python3
"""Checks the pages, for scripts/checks/pages.sh: README.md, the other pages beside it, and docs/.

    scripts/pages.py            prints each fault with its page and line; the exit status is then 1
    scripts/pages.py --write    writes the counts into docs/TESTING.md

A link leads to a file, and to a heading of it. A page has at most its words, and a line of prose 120 columns. Dates are
in docs/HISTORY.md and at the head of docs/SPEED.md. What a script can count is written by this one. A word that only
this repository uses is in italics where a page has it first, and is explained there or by a link.
"""

import glob
import os
import re
import subprocess
import sys

# The pages, and how many words each may have.
WORDS = {
    "README.md": 800,
    "CHANGES.md": 1500,
    "CONTRIBUTING.md": 1200,
    "SECURITY.md": 350,
    "docs/ARCHITECTURE.md": 1910,
    "docs/CODERS.md": 2500,
    "docs/COMMAND.md": 600,
    "docs/DECISIONS.md": 4170,
    "docs/DIFFERENCES.md": 1530,
    "docs/EXAMPLES.md": 1200,
    "docs/FORMAT.md": 3640,
    "docs/GUIDE.md": 3600,
    "docs/PROMISES.md": 4650,
    "docs/PROVING.md": 1050,
    "docs/SCHEMAS.md": 470,
    "docs/SEALED.md": 1050,
    "docs/SPEED.md": 920,
    "docs/TESTING.md": 1330,
    "docs/TOOLCHAIN.md": 1650,
}
WORDS_IN_ALL = 31800
COLUMNS = 120
HISTORY = "docs/HISTORY.md"
COUNTED = "docs/TESTING.md"
BEGIN, END = "<!-- scripts/pages.py --write -->\n", "<!-- end -->\n"
BY_SCRIPT = re.compile(r"^<!-- scripts/.*?^<!-- end -->$", re.M | re.S)
# What else is in docs/, which scripts/speed/picture.py reads and writes, and a picture that the command writes.
NO_PAGES = ["docs/speed.svg", "docs/speed.tsv", "docs/columns.svg"]
DATE = re.compile(r"\b20\d\d-\d\d-\d\d\b")
BY_HAND = re.compile(r"\b\d[\d,]* (?:tests|edits|must-fail edits|functions|crates)\b")
TEST = r"^#\[test\]"
STILTED = re.compile(
    r"\b(one's own|in turn|as (it|they) stands?|stands? (in|for|at|with|after|beside)|by itself|what is (more|left))\b",
    re.I,
)


def read(path):
    with open(path) as file:
        return file.read()


def rows(path):
    """How many lines each of the tables of a folder of scripts/vectors has."""
    return sum(len(read(file).splitlines()) for file in glob.glob(path) if ("/serde/" in file) == ("/serde/" in path))


def count(pattern, paths):
    return sum(len(re.findall(pattern, read(path), re.M)) for path in glob.glob(paths, recursive=True))


def first_cells(paths):
    return {row.split("\t")[0] for path in paths for row in read(path).splitlines()}


def counts():
    """The tables of what is counted."""
    crates = [line.split(":")[0] for line in read("crates.txt").splitlines() if line and not line.startswith("#")]
    lines = ["| Crate | Functions | Edits that CI tries | All edits in `scripts/mutants` |", "|---|---|---|---|"]
    total = [0] * 3
    for crate in crates:
        numbers = [
            count(r"^\s*(?:pub(?:\(\w+\))? )?(?:(?:const|unsafe) )*fn \w", f"crates/{crate}/src/**/*.rt"),
            count(r"^mutant: ", f"scripts/mutants/{crate}/each_run.edit"),
            count(r"^mutant: ", f"scripts/mutants/{crate}/*.edit"),
        ]
        total = [a + b for a, b in zip(total, numbers)]
        lines.append(f"| `{crate}` | " + " | ".join(str(number or "") for number in numbers) + " |")
    lines.append("| all | " + " | ".join(map(str, total)) + " |")
    tables = glob.glob("scripts/vectors/*/*.tsv")
    types = first_cells(path for path in tables if "/serde/" not in path and "/columns/" not in path)
    shapes = first_cells(path for path in tables if path.endswith(("/serde/read.tsv", "/serde/written.tsv")))
    integers = rows("scripts/vectors/columns/packed.tsv") + rows("scripts/vectors/columns/unpacked.tsv")
    read_rows, read_serde = rows("scripts/vectors/*/read.tsv"), rows("scripts/vectors/serde/read.tsv")
    tests, own_tests = count(TEST, "tests/library/**/*.rs"), count(TEST, "tests/own_types/**/*.rs")
    accepted = count("^pub (?:struct|enum) ", "scripts/own_types/tried.txt")
    lines += [
        "",
        "| From the Rust crate | First format | Second format |",
        "|---|---|---|",
        f"| types, or shapes | {len(types)} | {len(shapes)} |",
        f"| encoded values | {rows('scripts/vectors/*/written.tsv')} | {rows('scripts/vectors/serde/written.tsv')} |",
        f"| decoded or rejected inputs | {read_rows} | {read_serde} |",
        f"| integer columns | {integers} | |",
        "",
        f"`tests/` has {tests} tests of the library and {own_tests} of user-defined types.",
        "",
        f"The tests run `scripts/new_type` on {accepted} declarations that it accepts, and on "
        f"{count(' => ', 'scripts/own_types/refused.txt')} that it rejects.",
    ]
    return "\n".join(lines) + "\n"


def by_hand(path):
    """The page without what scripts write, whose lines are empty."""
    return BY_SCRIPT.sub(lambda block: "\n" * block[0].count("\n"), read(path))


def slug(heading):
    """The anchor of a heading, as GitHub makes it."""
    plain = re.sub(r"\[([^]]*)\]\([^)]*\)", r"\1", heading).replace("`", "").strip().lower()
    return re.sub(r"[^\w\- ]", "", plain).replace(" ", "-")


def prose_of(text):
    """The lines of a page, each with its number and whether it is prose: no block, no table."""
    is_block = False
    for number, line in enumerate(text.split("\n"), 1):
        if re.match(r" *```", line):
            is_block = not is_block
            yield number, line, False
        else:
            yield number, line, not is_block and not line.startswith("|") and not line.startswith("    ")


def headings(path):
    return [line.lstrip("# ") for _number, line, is_prose in prose_of(read(path)) if is_prose and line.startswith("#")]


def check_links(path, text, faults):
    for number, line, _is_prose in prose_of(text):
        for target in re.findall(r"\]\(([^)\s]+)\)", re.sub(r"`[^`]*`", "", line) if "](" not in line else line):
            if re.match(r"https?:", target):
                continue
            file, _, anchor = target.partition("#")
            file = os.path.normpath(os.path.join(os.path.dirname(path), file)) if file else path
            if not os.path.exists(file):
                faults.append(f"{path}:{number}: {target} is a link to a missing file")
            elif anchor and anchor not in [slug(heading) for heading in headings(file)]:
                faults.append(f"{path}:{number}: {target} is a link to a missing heading")


def check_mentions(faults):
    """What scripts and sources say of the pages: the path of one, or that and the name of a heading."""
    for path in sorted(glob.glob("scripts/**/*", recursive=True) + glob.glob("crates/*/[sp]*/**/*", recursive=True)):
        if not os.path.isfile(path) or path.endswith((".tsv", ".pyc")):
            continue
        for page, heading in re.findall(r"\b(docs/[A-Z_]+\.md)(?:, \"([^\"]+)\")?", " ".join(read(path).split())):
            if not os.path.exists(page):
                faults.append(f"{path}: there is no {page}")
            elif heading and heading not in headings(page):
                faults.append(f"{path}: {page} has no heading {heading!r}")


def check_page(path, faults):
    text = read(path)
    check_links(path, text, faults)
    if path == COUNTED and text[text.index(BEGIN) + len(BEGIN):text.index(END)] != counts():
        faults.append(f"{path}: the counts are out of date: run scripts/pages.py --write")
    for number, line, is_prose in prose_of(by_hand(path)):
        where = f"{path}:{number}"
        if is_prose and len(line) > COLUMNS:
            faults.append(f"{where}: {len(line)} columns")
        if DATE.search(line) and path != HISTORY and not (path == "docs/SPEED.md" and number <= 5):
            faults.append(f"{where}: a date, which belongs to {HISTORY}")
        if is_prose and BY_HAND.search(line) and path != HISTORY:
            faults.append(f"{where}: `{BY_HAND.search(line)[0]}` is for scripts/pages.py to count")
        if is_prose and STILTED.search(line):
            faults.append(f"{where}: would you say `{STILTED.search(line)[0]}`?")
    lines = [line for _number, line, is_prose in prose_of(text) if is_prose or line.startswith("|")]
    prose = "\n".join(re.sub(r"`[^`]*`|\([^)]*\)", "", line) for line in lines)
    for word in ("lawful", "spell", "listing"):
        first = re.search(rf"\b{word}(s|ed)?\b", prose)
        if first and path != HISTORY and not re.match(r"[*]", prose[first.start() - 1:first.start()]):
            faults.append(f"{path}: `{word}` is not explained where it comes first")


def main():
    pages = sorted([*WORDS, HISTORY])
    if sys.argv[1:] == ["--write"]:
        text = read(COUNTED)
        text = text[:text.index(BEGIN) + len(BEGIN)] + counts() + text[text.index(END):]
        with open(COUNTED, "w") as file:
            file.write(text)
        return 0
    unknown = [path for path in glob.glob("docs/*") if path not in pages + NO_PAGES]
    faults = [f"{path} is not in the plan of scripts/pages.py" for path in unknown]
    words = {path: len(by_hand(path).split()) for path in pages if os.path.exists(path)}
    for path in pages:
        if path not in words:
            faults.append(f"there is no {path}")
            continue
        check_page(path, faults)
        if words[path] > WORDS.get(path, words[path]):
            faults.append(f"{path}: {words[path]} words, and at most {WORDS[path]}")
    in_all = sum(len(read(path).split()) for path in words if path.startswith(("README", "docs/")) and path != HISTORY)
    if in_all > WORDS_IN_ALL:
        faults.append(f"README.md and docs/ have {in_all} words, and at most {WORDS_IN_ALL}")
    check_mentions(faults)
    drawn = subprocess.run(["scripts/speed/picture.py", "--check"], capture_output=True, text=True)
    faults += drawn.stdout.splitlines()
    print("\n".join(faults), end="\n" if faults else "")
    return 1 if faults else 0


sys.exit(main())
