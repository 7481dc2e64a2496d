#!/usr/bin/env bash
# The files that the scripts of scripts/tables write: written again they are as they stand, and no other file says that
# it was written so.
cd "$(dirname "$0")/../.." || exit 2
work=$(mktemp -d)
trap 'rm -rf "$work"' EXIT
wrong=0
for script in checksums integers serde_nonzero serde_tuples tuples variants; do
  "scripts/tables/$script" "$work" || exit 2
done

while read -r file; do
  cmp -s "$file" "$work/$file" || { echo "tables: $file is out of date: run its script"; wrong=1; }
done < <(cd "$work" && find crates scripts -type f | sort)

while read -r file; do
  [ -f "$work/$file" ] || { echo "tables: $file claims to be written by a script, but none writes it"; wrong=1; }
done < <(find crates scripts/mutants -path 'crates/*/out' -prune -o -type f \
  -exec grep -lE '^(//|--|#) Written by scripts/tables/' {} +)
exit "$wrong"
