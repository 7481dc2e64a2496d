#!/usr/bin/env bash
# Values and inputs of the Rust crate, at types that nest in many ways: each row of scripts/vectors was computed by it,
# none by this library. They are run here and not proved.
#
# A row of written.tsv is TYPE, VALUE, BYTES: the value is written as these bytes. A row of read.tsv is TYPE, BYTES,
# ANSWER: the bytes are read as that value, or refused for that reason. (Those of scripts/vectors/serde have no types.)
# A row of packed.tsv is TYPE, NUMBERS, BYTES: the numbers are packed as these bytes. A row of unpacked.tsv is TYPE,
# BYTES, COUNT and either NUMBERS and how many bytes are left behind them, or the reason for which so many numbers are
# refused.
#
# What is read of types without maps, sets and heaps is read strictly exactly where it is written so.
cd "$(dirname "$0")/../.." || exit 2
work=$(mktemp -d)
trap 'rm -rf "$work"' EXIT

# A repository of its own, that has the libraries of this one, and in the place of the program with the stored rows one
# with these.
. scripts/libraries.sh
copy_libraries "$work" || exit 2
program=$work/crates/bitcode_vectors
rm -r "$program"/src/* || exit 2

# Each folder has a table of each kind: of values and of inputs, or of numbers that are packed and unpacked.
tables=()
for folder in scripts/vectors/*/; do
  case $folder in
    */serde/) continue ;;
    */columns/) kinds="packed unpacked" ;;
    *) kinds="read written" ;;
  esac
  for kind in $kinds; do
    tables+=("$folder$kind.tsv")
  done
done
no_program() { echo "vectors: no program is made of the tables"; exit 2; }
python3 - "${tables[@]}" >"$program/src/main.rt" <<'PYTHON' || no_program
import itertools
import re
import sys


def array(text):
    return "&[" + ", ".join(text.split()) + "]"


def written(row, kind, value, text):
    return f"check.writes::<{kind}>({row}, &{value}, {array(text)})?;"


def read(row, kind, text, answer):
    if answer in reasons:
        return f"check.refuses::<{kind}>({row}, {array(text)}, Reason::{answer})?;"
    reads = f"check.reads::<{kind}>({row}, {array(text)}, &{answer})?;"
    return reads if re.search("Map|Set|Heap", kind) else reads + f" check.judges::<{kind}>({row}, {array(text)})?;"


def packed(row, kind, numbers, text):
    return f"check.packs::<{kind}>({row}, &mut {array(numbers)[1:]}, {array(text)})?;"


def unpacked(row, kind, text, count, answer, rest=None):
    if answer in reasons:
        return f"check.unpack_refuses::<{kind}>({row}, {array(text)}, {count}, Reason::{answer})?;"
    return f"check.unpacks::<{kind}>({row}, {array(text)}, {array(answer)}, {rest})?;"


STATEMENTS = {"written": written, "read": read, "packed": packed, "unpacked": unpacked}
with open("crates/bitcode_memory/src/error.rt") as file:
    reasons = set(re.findall(r"Reason::(\w+) =>", file.read()))
with open("scripts/vectors/head.rt.txt") as file:
    print(file.read())

names = "ABCDEFGHIJKLMNOP"
for n in range(1, 17):
    bounds = "".join(f"{name}: Same, " for name in names[:n])
    fields = "".join(f"{name}, " for name in names[:n])
    same = " && ".join(f"self.{i}.same(&other.{i})" for i in range(n))
    print(f"impl<{bounds}> Same for ({fields}) {{ fn same(&self, other: &Self) -> bool {{ {same} }} }}")

def pieces(rows):
    """The rows of each type, with at most 32 `?` in a piece, or one row: a function with many is compiled slowly."""
    for _, group in itertools.groupby(rows, lambda row: row[1]):
        piece, marks = [], 0
        for row in group:
            here = sum(cell.count("?") for cell in row[2:])
            if piece and marks + here > 32:
                yield piece
                piece, marks = [], 0
            piece, marks = piece + [row], marks + here
        yield piece


# A function for each piece of each table.
calls = []
for table in sys.argv[1:]:
    statement = STATEMENTS[table.split("/")[-1].removesuffix(".tsv")]
    with open(table) as file:
        rows = [(row, *line.rstrip("\n").split("\t")) for row, line in enumerate(file, 1)]
    if not rows:
        sys.exit(f"{table} has no rows")
    for group in pieces(rows):
        print(f"fn rows_{len(calls)}(alloc: Global, check: &mut Check) -> Result<(), Error> {{")
        print(f'check.table = "{table}";')
        print("\n".join(statement(*row) for row in group) + "Ok(()) }")
        calls.append(f"rows_{len(calls)}(alloc, check)?;")
print("fn all_rows(alloc: Global, check: &mut Check) -> Result<(), Error> {")
print("\n".join(calls) + "Ok(()) }")
PYTHON

# The interpreter would not get through the rows, so it is stopped early: they are run as a compiled program.
(cd "$program" && "$try" --steps 1000 --seconds 7200 >"$work/log" 2>&1)
grep -q 'run=ended status=0' "$work/log" && exit 0
grep -m 20 -E '^wrong|error|status=' "$work/log" | sed 's/^/vectors: /'
exit 1
