#!/usr/bin/env bash
# How the time of `serialize` and `deserialize` grows with the value and with the shape, as ratios within one run. It
# prints a table; its status is 1 where a ratio is over its bound. Other work on the machine makes the ratios uneven:
# run it alone.
cd "$(dirname "$0")/../.." || exit 2
work=$(mktemp -d)
trap 'rm -rf "$work"' EXIT

# A repository of its own, that has the libraries of this one and one program.
. scripts/libraries.sh
copy_libraries "$work" || exit 2
add_program "$work" serde_speed scripts/speed/serde.rt.txt "bitcode anyhow" || exit 2

# The interpreter would not get through it, so it is stopped early: it is run as a compiled program.
(cd "$work/crates/serde_speed" && "$try" --steps 1000 --seconds 600 >"$work/log" 2>&1)
grep -vE '^(interpreter|checked|run=)' "$work/log"
grep -q 'run=ended status=0' "$work/log"
