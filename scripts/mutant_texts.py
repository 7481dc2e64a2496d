"""The mutants of scripts/mutants as texts: what each replaces, and what is wrong with it before it is tried.

A text that is replaced must occur once in its file. If it is in a function, that is the function that the mutant names.
And a mutant takes away no call that a proof of this function cites: the checker would refuse it for the citation, and
not for the contract.
"""

import collections
import glob
import os
import re

from rattle_source import functions_in, masked

CALL = re.compile(r"\b([a-z_]\w*)!?(?:::<[^()]*>)?\(")
NO_CALLS = {"if", "match", "while", "for", "return", "fn", "in", "let", "as", "move", "mut", "ref"}
# What the checker says of a function, or of an `impl`, that itself has to show what was not proved.
REFUSED = {
    "function": re.compile(r"no proof.*did not prove|not proved(?!.*it (calls|waits))"),
    "impl": re.compile(r"not proved; antt refuses `"),
}
CITED = re.compile(r"\b(?:c|goal)\.([\w\-]+)")


class Mutant:
    """A function or an `impl` that an edit breaks: its name, and the texts that are replaced in files of the crate."""

    def __init__(self, edit, text):
        self.edit, self.crate = edit, re.search(r"mutants/(\w+)/", edit)[1]
        self.name = re.match(r"mutant: (.*)", text)[1]
        self.kind, self.broken = re.search(r"^(function|impl): (.*)$", text, re.M).groups()
        self.pairs, path, old = [], None, None
        for line in text.split("\n"):
            if line.startswith("file: "):
                path = line[6:]
            elif line.startswith("old: "):
                old = line[5:].replace("\\n", "\n")
            elif line.startswith("new: "):
                self.pairs.append((path, old, line[5:].replace("\\n", "\n")))

    def makes(self, folder):
        """Breaks what the mutant names in the crate in this folder, if each of its texts stands there once."""
        texts = {}
        for path, old, new in self.pairs:
            if path not in texts:
                with open(f"{folder}/{path}") as file:
                    texts[path] = file.read()
            if texts[path].count(old) != 1:
                return False
            texts[path] = texts[path].replace(old, new)
        for path, text in texts.items():
            with open(f"{folder}/{path}", "w") as file:
                file.write(text)
        return True

    def is_refused(self, said):
        """Whether the function or the `impl` itself has to show what was not proved: it may call another one too."""
        return bool(REFUSED[self.kind].match(said.get(self.broken, "")))


def mutants_of(edit):
    """The mutants of an edit, if it names what they break."""
    with open(edit) as file:
        texts = re.split(r"^(?=mutant: )", file.read(), flags=re.M)
    return [Mutant(edit, text) for text in texts if text.startswith("mutant: ")]


def missing(mutant):
    """A text that does not stand in its file once, also behind those before it."""
    texts = {}
    for path, old, new in mutant.pairs:
        if path not in texts:
            with open(f"crates/{mutant.crate}/{path}") as file:
                texts[path] = file.read()
        if texts[path].count(old) != 1:
            return f"`{old}` occurs {texts[path].count(old)} times in {path}, and must occur once"
        texts[path] = texts[path].replace(old, new)
    return None


def is_named(function, path):
    """Whether the function is the one that this path names: the name of its `impl` is that of the type, followed by
    that of the trait and its arguments."""
    *_, around, name = path.split("::")
    if function.name != name:
        return False
    owner = function.owner
    if owner is None or owner.trait is None:
        return owner is None or owner.of is None or around == owner.of
    return owner.trait in around


def misplaced(mutant):
    """That each text is in a function, or holds one, and the mutant names none of these."""
    near = []
    for path, old, _new in mutant.pairs if mutant.kind == "function" else []:
        with open(f"crates/{mutant.crate}/{path}") as file:
            text = file.read()
        start, end = text.find(old) + len(old) - len(old.lstrip()), text.find(old) + len(old)
        near.append([function for function in functions_in(text) if function.start < end and start < function.end])
    named = [function for functions in near for function in functions if is_named(function, mutant.broken)]
    if named or not all(near) or not near:
        return None
    broken = sorted({function.name for functions in near for function in functions})
    return f"it names {mutant.broken}, and breaks {', '.join(broken)}"


def calls(text):
    return collections.Counter(name for name in CALL.findall(masked(text)) if name not in NO_CALLS)


def cited(mutant):
    """The steps of the function, and the goals, that its proofs cite."""
    *modules, name = mutant.broken.split("::")[1:]
    folder = f"crates/{mutant.crate}/proofs/" + "/".join(modules)
    steps = set()
    for path in glob.glob(f"{folder}/{name}/*.antt") + glob.glob(f"{folder}/+{name}/*.antt"):
        with open(path) as file:
            steps |= set(CITED.findall(file.read()))
    return steps


def uncalled(mutant):
    """A call that the mutant takes away although a proof of its function cites it."""
    before, after = collections.Counter(), collections.Counter()
    for _path, old, new in mutant.pairs:
        before += calls(old)
        after += calls(new)
    lost = {name for name in before if before[name] > after[name]}
    found = sorted({name for step in cited(mutant) for name in step.split("-") if name in lost}) if lost else []
    if not found:
        return None
    return f"it takes away {', '.join(found)}, which the proof cites: keep the call, and change a value"


def told(mutant, fault):
    return [f"{mutant.edit}: {mutant.name}: {fault}"] if fault else []


def faults_of_texts(mutant):
    """What is wrong with the mutant before it is tried."""
    return told(mutant, missing(mutant) or misplaced(mutant))


def notes_on_texts(mutant):
    """What is to be mended of the mutant, although the checker may refuse it."""
    return told(mutant, None if missing(mutant) else uncalled(mutant))


def every_edit():
    return sorted(glob.glob("scripts/mutants/*/*.edit"))
