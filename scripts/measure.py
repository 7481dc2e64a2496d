#!/usr/bin/env python3
"""Runs the tests from nothing, and measures what they cost, crate by crate and script by script.

    scripts/measure.py [--write] [COMMAND ..]

Without a command it runs `rt ci --anew` and then each script of scripts/checks, one after the other, on an idle
machine, and with `--write` it writes a run that passed into docs/TESTING.md. With a command it runs that, and writes it
if the command is that of the gate. It prints a table of processor and wall minutes, and exits with the worst status
that it met. Processor time of a crate is that of the checker's processes, looked at twice a second, so the total has a
little more than the rows.
"""

import datetime
import glob
import os
import re
import resource
import subprocess
import sys
import textwrap
import threading
import time

MARK = "MEASURED_BY"
GATE = ["rt", "ci", "--anew"]
TICKS = os.sysconf("SC_CLK_TCK")


def read(path):
    with open(path, "rb") as file:
        return file.read().decode(errors="replace")


def checker_words(folder):
    """The words of the command of a process that checks a crate, or none."""
    words = read(f"{folder}/cmdline").split("\0")
    return words if os.path.basename(words[0]) == "rattle" and "--crate-name" in words else []


def row_of(words):
    """The row of the table for a process of the checker: a crate, and whether its proof or its tests are at work."""
    name = words[words.index("--crate-name") + 1]
    return name, "tests" if "--test" in words else "proof"


class Sampler(threading.Thread):
    """Keeps the processor seconds of each check that it has seen below this process, which it knows by a variable.

    A check with several jobs starts processes of the checker in turn. Their seconds count as those of the check."""

    def __init__(self):
        super().__init__(daemon=True)
        self.seconds = {}

    def run(self):
        while True:
            for folder in glob.glob("/proc/[0-9]*"):
                try:
                    words = checker_words(folder)
                    ours = words and f"{MARK}={os.getpid()}" in read(f"{folder}/environ").split("\0")
                    fields = read(f"{folder}/stat").rsplit(")", 1)[1].split()
                    if ours and not checker_words(f"/proc/{fields[1]}"):
                        self.seconds[folder[6:], row_of(words)] = sum(map(int, fields[11:15])) / TICKS
                except (OSError, ValueError, IndexError):
                    continue
            time.sleep(0.5)

    def rows(self):
        sums = {}
        for (_, row), seconds in self.seconds.items():
            sums[row] = sums.get(row, 0) + seconds
        return sums


def processor_seconds():
    used = resource.getrusage(resource.RUSAGE_CHILDREN)
    return used.ru_utime + used.ru_stime


def timed(words):
    """The status, wall seconds and processor seconds of a command."""
    wall, processor = time.monotonic(), processor_seconds()
    status = subprocess.run(words).returncode
    return status, time.monotonic() - wall, processor_seconds() - processor


def minutes(seconds):
    return f"{seconds / 60:.1f}"


def crates_table(rows):
    print("| Crate | Proof | Tests |\n|---|---|---|")
    for name in sorted({name for name, _ in rows}, key=lambda name: -sum(s for (n, _), s in rows.items() if n == name)):
        cells = (minutes(rows[name, kind]) if (name, kind) in rows else "" for kind in ("proof", "tests"))
        print(f"| `{name}` | " + " | ".join(cells) + " |")


def last_run(rows, results):
    """The lines of docs/TESTING.md on a run, with the crates that took at least three minutes."""
    sums = {}
    for (name, _), seconds in rows.items():
        sums[name] = sums.get(name, 0) + seconds
    dearest = [name for name in sorted(sums, key=sums.get, reverse=True) if sums[name] >= 180]
    crates = ", ".join(f"`{name}` {minutes(sums[name])}" for name in dearest)
    _, _, wall, processor = results[0]
    text = (f"In the last run from scratch ({cores()}, {model()}), `rt ci` took {minutes(processor)} processor minutes "
            f"and {minutes(wall)} wall minutes")
    if results[1:]:
        in_scripts = [minutes(sum(result[at] for result in results[1:])) for at in (3, 2)]
        text += f", the scripts {in_scripts[0]} and {in_scripts[1]}"
    text += f". Processor minutes by crate, from three on: {crates}."
    return "\n".join(textwrap.wrap(text, 120, break_long_words=False, break_on_hyphens=False)) + "\n"


def cores():
    usable, all_cores = len(os.sched_getaffinity(0)), os.cpu_count()
    return f"{all_cores} cores" if usable == all_cores else f"{usable} of {all_cores} cores"


def model():
    found = re.search(r"^model name\s*: (.*)$", read("/proc/cpuinfo"), re.M)
    return found[1] if found else "unknown processor"


def write(text, results):
    """Writes the lines into the page, between their marks, and the processor seconds of each script into its row."""
    begin, end = "<!-- scripts/measure.py --write -->\n", "<!-- end -->\n"
    page = read("docs/TESTING.md")
    start = page.index(begin) + len(begin)
    page = page[:start] + text + page[page.index(end, start):]
    for words, _, _, processor in results[1:]:
        row = rf"^(\| `{words.split('/')[-1]}` \|.*\| )\d+ \|$"
        page, count = re.subn(row, lambda found: f"{found[1]}{max(1, round(processor))} |", page, flags=re.M)
        if count != 1:
            print(f"docs/TESTING.md has {count} rows for `{words}`", file=sys.stderr)
    with open("docs/TESTING.md", "w") as file:
        file.write(page)


def main():
    os.chdir(os.path.join(os.path.dirname(os.path.abspath(__file__)), ".."))
    words = [word for word in sys.argv[1:] if word != "--write"]
    scripts = [["bash", f"scripts/checks/{name}"] for name in sorted(os.listdir("scripts/checks"))]
    commands = [words] if words else [GATE, *scripts]
    os.environ[MARK] = str(os.getpid())
    sampler = Sampler()
    sampler.start()
    results = [(" ".join(commands[0]), *timed(commands[0]))]
    # scripts/checks/edits.sh and static_texts start the checker, too
    rows = sampler.rows()
    results += [(" ".join(command), *timed(command)) for command in commands[1:]]
    wall, processor = (minutes(sum(result[at] for result in results)) for at in (2, 3))
    print(f"\n{datetime.date.today()}, {cores()}: {processor} processor minutes, {wall} of wall\n")
    crates_table(rows)
    print("\n| Command | Status | Wall | Processor |\n|---|---|---|---|")
    for command, status, wall, processor in results:
        print(f"| `{command}` | {status} | {minutes(wall)} | {minutes(processor)} |")
    worst = max(status for _, status, _, _ in results)
    if "--write" in sys.argv and words in ([], GATE) and worst == 0:
        write(last_run(rows, results), results)
    sys.exit(worst)


main()
