#!/usr/bin/env python3
"""Runs the command over the rows of scripts/vectors, for scripts/checks/command.sh.

    rows.py PROGRAM WORK    the status is 1 if a row is wrong, and each such row is printed

The bytes of a row of written.tsv are accepted, with `--strict` too, and those of a row of read.tsv are refused for the
row's reason, or accepted. Where bytes are accepted, their columns fill them, and they are decoded to JSON, of which
`encode` makes bytes that are decoded to the same JSON: for a row of written.tsv, the row's bytes. Else `columns` and
`decode` have the same reason. Rows of types that a schema does not have are left out, and counted.
"""
import glob
import json
import os
import re
import subprocess
import sys
from concurrent.futures import ThreadPoolExecutor

NOT_IN_SCHEMAS = {"Vec<U8Char>"}
# what `decode` refuses of bytes that encode a value
BEYOND_JSON = ("too many nodes", "nests")
FOLDER = os.path.dirname(os.path.realpath(__file__))


def reasons():
    """The texts of the errors, by their names."""
    with open(f"{FOLDER}/../../crates/bitcode_memory/src/error.rt") as file:
        return dict(re.findall(r'Reason::(\w+) => "([^"]+)"', file.read()))


def schema_of(kind, work, known={}):
    """The schema file of a type, made once; nothing where schemas do not have the type."""
    if kind not in known:
        path = f"{work}/schema{len(known)}.json"
        made = subprocess.run([f"{FOLDER}/../new_type", "--type", kind, f"{FOLDER}/types.txt"], capture_output=True)
        with open(path, "wb") as file:
            file.write(made.stdout)
        known[kind] = path if made.returncode == 0 else None
        if made.returncode and kind not in NOT_IN_SCHEMAS:
            print(f"command: `--type` does not know {kind}: {made.stderr.decode().strip()}")
    return known[kind]


class Rows:
    """The rows, each with the program that they try."""

    def __init__(self, program):
        self.program, self.reasons = program, reasons()

    def call(self, words, schema, given):
        ran = subprocess.run([self.program, *words, "--schema", schema], input=given, capture_output=True)
        return ran.returncode, ran.stdout, ran.stderr.decode()

    def accepted(self, words, schema, given):
        """What is wrong where bytes are to be accepted."""
        status, _, said = self.call(["check", *words], schema, given)
        if status:
            return f"refused: {said}"
        status, out, said = self.call(["columns", "--json"], schema, given)
        if status:
            return f"no columns: {said}"
        end = 0
        for column in json.loads(out):
            if column["offset"] != end:
                return f"a column at {column['offset']} behind the end at {end}"
            end += column["bytes"]
        return f"columns of {end} bytes" if end != len(given) else self.decoded(schema, given, bool(words))

    def decoded(self, schema, given, is_written):
        """What is wrong with the JSON of bytes that are accepted."""
        status, out, said = self.call(["decode"], schema, given)
        if status:
            return "" if any(reason in said for reason in BEYOND_JSON) else f"not decoded: {said}"
        status, again, said = self.call(["encode"], schema, out)
        if status:
            return f"JSON is not encoded: {said}"
        if is_written and again != given:
            return f"JSON is encoded otherwise: {list(again)}"
        status, third, said = self.call(["decode"], schema, again)
        return "" if third == out else f"other JSON: {said or third.decode()[:100]}"

    def read(self, schema, given, answer):
        """What is wrong with the answer to bytes of read.tsv."""
        if answer not in self.reasons:
            return self.accepted([], schema, given)
        text = self.reasons[answer]
        for words in (["check"], ["columns"], ["decode"]):
            status, out, said = self.call(words, schema, given)
            if status != 1 or not said.startswith(f"bitcode: {text}"):
                return f"{words[0]}: status {status}: {said or out.decode()}"
        return ""


def tried(rows, path, line, schema):
    """The line for a row that is wrong."""
    kind, one, other = line.split("\t")
    if path.endswith("written.tsv"):
        wrong = rows.accepted(["--strict"], schema, bytes(map(int, other.split())))
    else:
        wrong = rows.read(schema, bytes(map(int, one.split())), other)
    return f"command: {path}: {line[:120]}: {wrong[:300].strip()}" if wrong else ""


def main():
    rows, work, found, left_out = Rows(sys.argv[1]), sys.argv[2], [], 0
    for path in sorted(glob.glob(f"{FOLDER}/../vectors/*/*.tsv")):
        if "/serde/" in path or "/columns/" in path:
            continue
        with open(path) as file:
            for line in file.read().splitlines():
                schema = schema_of(line.split("\t")[0], work)
                if schema:
                    found.append((rows, os.path.relpath(path, f"{FOLDER}/../.."), line, schema))
                else:
                    left_out += 1
    with ThreadPoolExecutor(os.cpu_count()) as pool:
        wrong = list(filter(None, pool.map(lambda row: tried(*row), found)))
    print("".join(f"{line}\n" for line in wrong[:40]), end="")
    print(f"{len(found)} rows, {len(wrong)} wrong, {left_out} left out")
    sys.exit(1 if wrong or not found else 0)


main()
