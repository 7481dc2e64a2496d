#!/usr/bin/env python3
"""The checker must reject every function that a line `function:` of an edit of scripts/mutants names, for what the
function itself has to show, and not because of a function that it calls. It must reject every `impl` that a line
`impl:` names, for a fact that the `impl` itself has to show. All mutants together take longer than proving the crates,
so the tests try only those of the files each_run.edit (scripts/checks/edits.sh). Run this script over the edits that
you change, and over those that break what you change. It needs what `rt ci` or `rt check` proved of the crates below
(out/rlib).

    scripts/reject_mutants.py [EDIT..]
    scripts/reject_mutants.py --texts      only what scripts/mutant_texts.py says of the texts
"""

import os
import re
import shutil
import subprocess
import sys
import tempfile
from concurrent.futures import ThreadPoolExecutor

from mutant_texts import every_edit, faults_of_texts, mutants_of, notes_on_texts

os.chdir(os.path.dirname(os.path.dirname(os.path.abspath(__file__))))
PARTS = ["src", "specs", "proofs"]
KIT = os.path.dirname(subprocess.run(["rt", "doc"], stdout=subprocess.PIPE, text=True, check=True).stdout.strip())


def stands_on():
    """The crates that each crate stands on, by the lines of crates.txt."""
    with open("crates.txt") as file:
        lines = [line.split(":") for line in file if not line.startswith("#")]
    return {name: rest.split() for name, rest in lines}


def below(crate):
    """The crates that the crate names, and all that these stand on."""
    names = list(crates.get(crate, []))
    for name in names:
        names += [other for other in crates.get(name, []) if other not in names]
    return names


def root_of(crate):
    """The first file of the crate, which is a program or a library."""
    return "src/main.rt" if os.path.isfile(f"crates/{crate}/src/main.rt") else "src/lib.rt"


def words_of(crate, root="src/lib.rt"):
    """What the checker is told of the crate: what was proved of those below, by the gate, and of the toolchain's."""
    words = ["--crate-name", crate, root, "--extern", f"std={KIT}/rlibs/std.rlib"]
    words += ["-L", f"dependency={KIT}/rlibs"]
    for name in below(crate):
        rlibs = os.path.abspath(f"crates/{name}/out/rlib") if name in crates else f"{KIT}/rlibs"
        words += ["--extern", f"{name}={rlibs}/{name}.rlib"] if name in crates[crate] else []
        words += ["-L", f"dependency={rlibs}"]
    words += ["--antt-project", f"{KIT}/rattle/logic/antt-project.json", "--logic-built", f"{KIT}/logic_built"]
    return [*words, "--links", f"{crate}=", "--jobs", "1"]


def verdicts(mutants, kept):
    """Which of the mutants stood beside those before them, and what the checker says of each function and `impl` then.
    What it proves stays in the folder for the next check."""
    crate = mutants[0].crate
    with tempfile.TemporaryDirectory(prefix="mutants-") as work:
        for part in PARTS:
            if os.path.isdir(f"crates/{crate}/{part}"):
                shutil.copytree(f"crates/{crate}/{part}", f"{work}/{part}")
        stood, broken = [], set()
        for mutant in mutants:
            # what is said of a function or an `impl` says nothing of two mutants of it
            if mutant.broken not in broken and mutant.makes(work):
                stood.append(mutant)
                broken.add(mutant.broken)
        # --only names functions, so the whole crate is checked for an `impl`
        has_impl = any(mutant.kind == "impl" for mutant in stood)
        words = [] if has_impl else [word for mutant in stood for word in ("--only", mutant.broken)]
        ran = subprocess.run(
            [f"{KIT}/bin/rattle", "check", *words_of(crate, root_of(crate)), "--incremental", kept, *words],
            cwd=work, stdin=subprocess.DEVNULL,
            stdout=subprocess.PIPE, stderr=subprocess.STDOUT, text=True, errors="replace",
        )
    ended = re.search(r"^(only=\d+ proved=\d+|logic=not-proved)$", ran.stdout, re.M)
    said = dict(re.findall(r"^(?:fn|impl) (\S+): (.*)$", ran.stdout, re.M)) if ended else {}
    return stood, said, ran.stdout


def alone(mutant, kept):
    """What is wrong with a mutant that is made by itself, if something is."""
    stood, said, printed = verdicts([mutant], kept)
    if not stood:
        return [f"{mutant.edit}: {mutant.name}: a text that it replaces does not occur exactly once"]
    if not said:
        return [f"{mutant.edit}: {mutant.name}: {line}" for line in printed.strip().split("\n")[-3:]]
    if mutant.is_refused(said):
        return []
    return [f"{mutant.edit}: {mutant.name}: {said.get(mutant.broken, 'not told of')[:120]}"]


def looked_at(mutants):
    """What is wrong with the mutants of a crate. They are made all at once, and then those that this left unclear,
    since one does not stand beside another or waits for the proof of another one; what stays unclear is made by
    itself."""
    with tempfile.TemporaryDirectory(prefix="mutants-kept-") as kept:
        left = mutants
        while len(left) > 1:
            stood, said, _ = verdicts(left, kept)
            unclear = [mutant for mutant in left if mutant not in stood or not mutant.is_refused(said)]
            if len(unclear) == len(left):
                break
            left = unclear
        return [line for mutant in left for line in alone(mutant, kept)]


crates = stands_on()
mutants = {}
only_texts = sys.argv[1:2] == ["--texts"]
for edit in sys.argv[1 + only_texts:] or every_edit():
    for mutant in mutants_of(edit):
        mutants.setdefault(mutant.crate, []).append(mutant)
if only_texts:
    found = [line for crate in mutants for mutant in mutants[crate] for line in faults_of_texts(mutant)]
    noted = [line for crate in mutants for mutant in mutants[crate] for line in notes_on_texts(mutant)]
    print("".join([f"reject_mutants: {line}\n" for line in found] + [f"note: {line}\n" for line in noted]), end="")
    sys.exit(1 if found or not mutants else 0)
with ThreadPoolExecutor(os.cpu_count()) as pool:
    most_first = sorted(mutants, key=lambda crate: -len(mutants[crate]))
    tasks = [pool.submit(looked_at, mutants[crate]) for crate in most_first]
    found = [line for task in tasks for line in task.result()]
print("\n".join(f"reject_mutants: {line}" for line in sorted(found)), end="\n" if found else "")
sys.exit(1 if found or not mutants else 0)
