#!/usr/bin/env python3
"""Breaks the clauses of .rt files into lines of at most 100 columns.

    scripts/clauses.py [--write] [FILE..]

Without files it takes all .rt files of the repository. Without `--write` it names each line that is
longer (imports and comments may have 120), and exits with status 1 if there are any.
"""

import os
import re
import subprocess
import sys
import textwrap

WIDEST = 100
WIDEST_COMMENT = 120
STEP = 4
# a line of prose in a comment
PROSE = re.compile(r" *//[/!]? ?(?=[A-Za-z`(\[])(?!```)")
OPENING, CLOSING = "({[", ")}]"
CONNECTIVES = ["→", "↔", "×", "⊎", "in", "then", "else"]
OPERATORS = ["≡", "≢", "≤", "<", "++", "∷", "+", "-", "*", "%", "^"]


def gaps(text):
    """The places inside the clause's braces where a line may break, each with the number of open brackets and whether a
    connective follows."""
    found, depth, in_code = [], 0, 0
    for at, char in enumerate(text):
        depth += (char in OPENING) - (char in CLOSING)
        in_code += (char == "⟦") - (char == "⟧")
        word = re.match(r"[^ ]+", text[at + 1:])
        if char != " " or in_code or not word or word[0][0] in "}{" and depth < 1 or word[0].startswith("}"):
            continue
        before = text[:at].rsplit(" ", 1)[-1]
        # an operator keeps what follows it, and a λ its parameters
        if before in CONNECTIVES + OPERATORS + ["=", ":", "{", "if", "let"] or re.search(r"λ [^.]*$", text[:at]):
            continue
        found.append((at, depth, word[0] in CONNECTIVES))
    return found


def fields_in(text):
    """The fields of a record, which semicolons part."""
    parts, depth, start = [], 0, 0
    for at, char in enumerate(text):
        depth += (char in OPENING) - (char in CLOSING)
        if char == ";" and depth == 0:
            parts.append(text[start:at].strip())
            start = at + 1
    return [part for part in [*parts, text[start:].strip()] if part]


def broken(line):
    """The line, broken where as few brackets as possible are open. The fields of a record have lines of their own."""
    record = re.match(r"( *)(ghost \w+ = \{ record \{) (.*) (\} \};)$", line)
    if record:
        margin, head, text, tail = record.groups()
        fields = [f"{margin}  {field};" for field in fields_in(text)]
        return [margin + head, *(part for field in fields for part in broken(field)), margin + tail]
    indent = len(line) - len(line.lstrip())
    rest, lines = line, []
    while len(rest) > WIDEST:
        margin = len(rest) - len(rest.lstrip())
        room = WIDEST - margin
        is_first = not lines and is_clause(rest)
        fits = [gap for gap in gaps(rest) if margin + room // 8 < gap[0] <= WIDEST and (gap[1] > 0 or not is_first)]
        if not fits:
            # no place within the columns: the first one behind them
            fits = [gap for gap in gaps(rest) if gap[0] > WIDEST and (gap[1] > 0 or not is_first)][:1]
        if not fits:
            break
        depth = min(gap[1] for gap in fits)
        fits = [gap for gap in fits if gap[1] == depth]
        connected = [gap for gap in fits if gap[2] and gap[0] > margin + room // 3]
        at = (connected or fits)[-1][0]
        lines.append(rest[:at])
        rest = " " * (indent + STEP) + rest[at + 1:]
    return [*lines, rest]


def imported(line):
    """An import, as several imports of the same module."""
    head, names = re.match(r"( *ghost use [^{]*\{)(.*)\};$", line).groups()
    lines, now = [], head
    for name in names.split(", "):
        if now != head and len(now) + len(name) + 4 > WIDEST_COMMENT:
            lines.append(now + "};")
            now = head
        now += name if now == head else f", {name}"
    return [*lines, now + "};"]


def commented(lines):
    """The lines of a paragraph of a comment, filled anew."""
    prefix = re.match(r" *//[/!]? ?", lines[0])[0]
    text = " ".join(line[len(prefix):].strip() for line in lines)
    return textwrap.wrap(
        text, WIDEST_COMMENT, initial_indent=prefix, subsequent_indent=prefix,
        break_long_words=False, break_on_hyphens=False,
    )


def paragraph(lines, at):
    """How many lines, from this one on, are the rest of a paragraph of a comment."""
    prefix = re.match(r" *//[/!]? ?", lines[at])[0]
    end = at + 1
    while end < len(lines) and lines[end].startswith(prefix) and PROSE.match(lines[end]):
        end += 1
    return end - at


def is_clause(line):
    return re.match(r" *(requires\b|ensures\b|ghost (?!use))", line) is not None and "{" in line


def is_long_import(line):
    return len(line) > WIDEST_COMMENT and re.match(r" *ghost use [^{]*\{[^{}]*, [^{}]*\};$", line) is not None


class Reader:
    """Tells, line by line, whether the line belongs to a clause, and whether it is code in a comment."""

    def __init__(self):
        self.open, self.is_code = 0, False

    def reads(self, line):
        is_comment = line.lstrip().startswith("//")
        self.in_clause = not is_comment and (self.open > 0 or is_clause(line))
        if re.match(r" *//[/!]? *```", line):
            self.is_code = not self.is_code
        if self.in_clause:
            term = re.sub(r"b?'.'|\"[^\"]*\"|//.*", "", line)
            self.open = max(0, self.open + term.count("{") - term.count("}"))

    def is_long_clause(self, line):
        """Whether the line is too long. A string or a comment behind a term stays on its line."""
        return self.in_clause and len(line) > WIDEST and '"' not in line and "//" not in line

    def is_long_comment(self, line):
        """Whether the line is too long, and prose: a table, an item of a list or a heading stays as it is."""
        return not self.is_code and len(line) > WIDEST_COMMENT and PROSE.match(line) is not None


def wrapped(text):
    """The text of a file, with its long clauses, imports and comments broken."""
    lines, new, reader, at = text.split("\n"), [], Reader(), 0
    while at < len(lines):
        line, taken = lines[at], 1
        reader.reads(line)
        if is_long_import(line):
            new += imported(line)
        elif reader.is_long_clause(line):
            new += broken(line)
        elif reader.is_long_comment(line):
            taken = paragraph(lines, at)
            new += commented(lines[at:at + taken])
        else:
            new.append(line)
        at += taken
    return "\n".join(new)


def long_lines(text):
    reader = Reader()
    for number, line in enumerate(text.split("\n"), 1):
        reader.reads(line)
        # a name in brackets stays on its line
        is_breakable = reader.is_long_clause(line) and len(broken(line)) > 1
        if is_breakable or reader.is_long_comment(line) or is_long_import(line):
            yield number, line


def fits_on(line, following):
    """Whether what follows a line of a clause may stand on it too: neither is laid out by brackets."""
    rest = following.lstrip()
    is_apart = line.endswith((*OPENING, ",", ";")) or rest.startswith((*CLOSING, "|"))
    return not is_apart and len(line) + 1 + len(rest) <= WIDEST


def joined(text):
    """The text of a file, without the breaks of clauses that are not needed: `rt fmt` keeps each break that it finds."""
    new, reader = [], Reader()
    for line in text.split("\n"):
        is_open = reader.open > 0
        reader.reads(line)
        if is_open and reader.in_clause and fits_on(new[-1], line):
            new[-1] += " " + line.lstrip()
        else:
            new.append(line)
    return "\n".join(new)


def lays_out(folder, joins=False):
    """Lays out the crate in the folder as `rt fmt` does, with long clauses broken, and where `joins` is given without
    breaks that are not needed. If `rt fmt` fails, it returns what that says."""
    for _ in range(5):
        ran = subprocess.run(["rt", "fmt"], cwd=folder, stdout=subprocess.PIPE, stderr=subprocess.STDOUT, text=True)
        if ran.returncode != 0:
            return ran.stdout
        found = os.walk(f"{folder}/src")
        paths = [f"{root}/{name}" for root, _, names in found for name in names if name.endswith(".rt")]
        if not any([changes(path, wrapped) for path in paths]):
            if not joins or not any([changes(path, joined) for path in paths]):
                break
    return None


def changes(path, laid_out):
    """Lays out a file by a function of its text. Returns whether this changes it."""
    with open(path) as file:
        text = file.read()
    new = laid_out(text)
    if new != text:
        with open(path, "w") as file:
            file.write(new)
    return new != text


def main():
    words = sys.argv[1:]
    top = os.path.dirname(os.path.dirname(os.path.abspath(__file__)))
    paths = [word for word in words if word != "--write"]
    if not paths:
        os.chdir(top)
        listed = subprocess.run(["git", "ls-files", "*.rt"], stdout=subprocess.PIPE, text=True, check=True)
        paths = listed.stdout.split()
    status = 0
    for path in paths:
        if "--write" in words:
            changes(path, wrapped)
            continue
        with open(path) as file:
            for number, line in long_lines(file.read()):
                print(f"{path}:{number}: {len(line)} columns")
                status = 1
    sys.exit(status)


if __name__ == "__main__":
    main()
