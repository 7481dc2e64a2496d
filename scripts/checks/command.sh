#!/usr/bin/env bash
# The command `bitcode`, built without a proof: it writes what the sessions of docs/COMMAND.md say; the rows of
# scripts/vectors are accepted, or refused for the row's reason; schemas and
# JSON that are none are refused with the place, and no damage of a file makes it end otherwise than with a status.
cd "$(dirname "$0")/../.." || exit 2
work=$(mktemp -d)
trap 'rm -rf "$work"' EXIT
wrong=0

# With PROGRAM it tries that one.
program=${PROGRAM:-$work/bitcode}
if [ -z "${PROGRAM:-}" ]; then
  scripts/command/build --unproved "$program" >"$work/log" 2>&1 ||
    { echo "command: the program does not compile"; tail -n 20 "$work/log"; exit 2; }
fi
scripts/command/session.py "$program" || wrong=1
scripts/command/rows.py "$program" "$work" >"$work/rows" || { cat "$work/rows"; wrong=1; }
scripts/command/refused.py "$program" "$work" || wrong=1
exit $wrong
