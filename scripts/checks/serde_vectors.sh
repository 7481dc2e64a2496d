#!/usr/bin/env bash
# Values and inputs of the Rust crate in the second format, under shapes that nest in many ways and hold themselves:
# each row of scripts/vectors/serde was computed by it, none by this library, but that `NestedTooDeep` stands where it
# has no limit. They are run here and not proved.
#
# A row of lengths.tsv is as one of read.tsv, and its answer is what docs/FORMAT.md says of the sums of lengths. A row
# of written.tsv is SHAPE, VALUE, BYTES: the value is written as these bytes, and they are read as it. A row of read.tsv
# is SHAPE, BYTES, ANSWER: the bytes are read as that value, or refused for that reason. What is read of some bytes is
# read of no front of them, and not of them and a 0.
#
# Three tables are for the refusals that only this library has, or that the Rust crate does not tell apart. A row of
# variants.tsv is as one of written.tsv. A row of strict.tsv is SHAPE, BYTES, ANSWER of strict reading. A row of
# within.tsv is SHAPE, LIMIT, BYTES, ANSWER of reading within so many nodes. The answers are what docs/GUIDE.md says.
cd "$(dirname "$0")/../.." || exit 2
work=$(mktemp -d)
trap 'rm -rf "$work"' EXIT

# A repository of its own, that has the libraries of this one and one program, which is handed all rows.
. scripts/libraries.sh
copy_libraries "$work" || exit 2
program=$work/crates/serde_vectors
add_program "$work" serde_vectors scripts/vectors/serde/main.rt.txt bitcode || exit 2
cp scripts/vectors/serde/texts.rt.txt "$program/src/texts.rt" || exit 2
for table in written read lengths variants strict within; do
  [ -s "scripts/vectors/serde/$table.tsv" ] || { echo "serde_vectors: $table.tsv has no rows" >&2; exit 2; }
  sed "=" "scripts/vectors/serde/$table.tsv" | sed "N; s/\n/\t/; s/^/$table\t/" || exit 2
done >"$work/rows"

# The interpreter would not get through the rows, so it is stopped early: they are run as a compiled program. It prints
# how many there were.
(cd "$program" && "$try" --optimized --steps 1000 --seconds 7200 <"$work/rows" >"$work/log" 2>&1)
grep -q 'run=ended status=0' "$work/log" && grep -qx "$(wc -l <"$work/rows") rows" "$work/log" && exit 0
grep -m 20 -E '^wrong|error|status=|rows$' "$work/log" | sed 's/^/serde_vectors: /'
exit 1
