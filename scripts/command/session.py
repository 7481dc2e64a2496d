#!/usr/bin/env python3
"""Runs the sessions of docs/COMMAND.md and README.md, for scripts/checks/command.sh.

    session.py PROGRAM [--write]    prints each command that writes something else than a page says; the status is then 1

A block of a page that begins with `$ ` is a session: each such line is a command, and what it writes stands below it,
on standard output or standard error. All blocks run in one folder, which has the files of scripts/command/session, and
the README's monster in `orc`. `--write` puts what the commands write into the pages.
"""
import os
import re
import shutil
import subprocess
import sys
import tempfile

FOLDER = os.path.dirname(os.path.realpath(__file__))
TOP = os.path.realpath(f"{FOLDER}/../..")
PAGES = [f"{TOP}/docs/COMMAND.md", f"{TOP}/README.md"]
ORC = "bitcode encode orc.json --schema monster.json -o orc"
BLOCK = re.compile(r"(?<=^```text\n)(\$ .*?)(?=^```$)", re.M | re.S)


def run(command, folder, paths):
    """What a command writes."""
    how = {"cwd": folder, "env": {**os.environ, "PATH": f"{paths}:{os.environ['PATH']}"}}
    ran = subprocess.run(["bash", "-c", command], stdout=subprocess.PIPE, stderr=subprocess.STDOUT, **how)
    return ran.stdout.decode()


def main():
    program, *words = sys.argv[1:]
    wrong = 0
    with tempfile.TemporaryDirectory() as work:
        os.makedirs(f"{work}/bin")
        os.symlink(os.path.realpath(program), f"{work}/bin/bitcode")
        folder = f"{work}/session"
        shutil.copytree(f"{FOLDER}/session", folder)
        os.symlink(f"{TOP}/scripts", f"{folder}/scripts")

        def block(found):
            nonlocal wrong
            text = ""
            for part in re.findall(r"^\$ .*\n(?:(?!\$ ).*\n)*", found[1], re.M):
                command, said = part.split("\n", 1)
                writes = run(command[2:], folder, f"{work}/bin")
                if writes != said:
                    wrong += 1
                    print(f"command: `{command[2:]}` writes\n{writes}")
                text += f"{command}\n{writes}"
            return text

        for path in PAGES:
            with open(path) as file:
                page = file.read()
            written = BLOCK.sub(block, page)
            if not BLOCK.search(page):
                wrong += 1
                print(f"command: {path} has no session")
            if "--write" in words:
                with open(path, "w") as file:
                    file.write(written)
            run(ORC, folder, f"{work}/bin")
        if "--write" in words:
            shutil.copy(f"{folder}/monsters.svg", f"{TOP}/docs/columns.svg")
        elif run(f"cmp monsters.svg {TOP}/docs/columns.svg", folder, f"{work}/bin"):
            wrong += 1
            print("command: docs/columns.svg is not the picture that the page's session writes")
    sys.exit(1 if wrong and "--write" not in words else 0)


main()
