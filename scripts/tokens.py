"""The words of a file of declarations, and what is wrong with it: what scripts/new_type reads and says."""

import re
from collections import namedtuple
from contextlib import contextmanager

Token = namedtuple("Token", "kind text line")


class Refused(Exception):
    """What cannot be done: the line, why, and what to write instead. There may be more of that in one."""

    def __init__(self, line, why, *more):
        self.faults = [(line, why), *more]
        super().__init__("\n".join(f"line {line}: {why}" for line, why in self.faults))


class Passed(Exception):
    """The rest of an item cannot be read; why is said already."""


class Told:
    """What is said of a file: its faults, and what the script takes off or writes otherwise."""

    def __init__(self):
        self.faults, self.notes = [], []
        # The names of types of which a fault is said already, with their lines.
        self.blamed = set()

    def note(self, line, what):
        self.notes.append((line, what))

    def fault(self, line, why):
        self.faults.append((line, why))

    @contextmanager
    def going_on(self):
        """Keeps what is refused inside, and goes on behind it."""
        try:
            yield
        except Refused as refused:
            self.faults += refused.faults

    def stop(self):
        """Stops here, with all faults in the order of their lines, if there are any."""
        if self.faults:
            first, *more = sorted(dict.fromkeys(self.faults), key=lambda fault: fault[0])
            raise Refused(*first, *more)


def behind_comment(text, start):
    """Where a comment ends that begins there, with the comments inside it."""
    depth = 0
    for mark in re.compile(r"/\*|\*/").finditer(text, start):
        depth += 1 if mark.group() == "/*" else -1
        if depth == 0:
            return mark.end()
    raise Refused(1 + text.count("\n", 0, start), "`*/` is missing: the comment does not end")


def documented(text):
    """The lines of a comment of documentation between `/**` and `*/`."""
    lines = [re.sub(r"^\s*\* ?", "", line).strip() for line in text.strip().split("\n")]
    return [line for place, line in enumerate(lines) if line or 0 < place < len(lines) - 1]


def tokens(text):
    """The tokens of the text. Comments are dropped, but for those of documentation and of the whole file."""
    found, line, place = [], 1, 0
    forms = [
        ("doc", r"///(?!/)[^\n]*"), ("file", r"//![^\n]*"), ("none", r"//[^\n]*|\s+"), ("comment", r"/\*"),
        ("raw", r"r#[A-Za-z_]\w*"), ("lifetime", r"'[A-Za-z_]\w*(?!')"), ("name", r"[A-Za-z_]\w*"),
        ("number", r"[0-9]\w*"), ("text", r'"(?:\\.|[^"\\])*"'), ("mark", r"::|->|."),
    ]
    form = re.compile("|".join(f"(?P<{kind}>{pattern})" for kind, pattern in forms), re.S | re.A)
    while place < len(text):
        match = form.match(text, place)
        end = behind_comment(text, place) if match.lastgroup == "comment" else match.end()
        if match.lastgroup == "comment" and re.match(r"/\*\*(?![*/])", text[place:end]):
            found += [Token("doc", f"/// {words}".rstrip(), line) for words in documented(text[place + 3 : end - 2])]
        elif match.lastgroup == "comment" and text[place:end].startswith("/*!"):
            found.append(Token("file", "/*!", line))
        elif match.lastgroup not in ("none", "comment"):
            found.append(Token(match.lastgroup, match.group(), line))
        line += text.count("\n", place, end)
        place = end
    return found + [Token("end", "the end", line)]
