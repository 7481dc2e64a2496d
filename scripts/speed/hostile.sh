#!/usr/bin/env bash
# How long `decode` looks at hostile bytes: 100,000 inputs of 1 to 64 bytes at each of 40 types. For each type it prints
# the nanoseconds for each byte of the slowest input, the least of three times. Other work on the machine makes them
# uneven: run it alone.
cd "$(dirname "$0")/../.." || exit 2
work=$(mktemp -d)
trap 'rm -rf "$work"' EXIT

. scripts/libraries.sh
copy_libraries "$work" || exit 2
add_program "$work" hostile scripts/speed/hostile.rt.txt "bitcode bitcode_test_support anyhow arrayvec uuid" || exit 2

# The interpreter would not get through it, so it is stopped early: it is run as a compiled program.
(cd "$work/crates/hostile" && "$try" --steps 1000 --seconds 600 >"$work/log" 2>&1)
grep -vE '^(interpreter|checked|run=|allocations)' "$work/log"
grep -q "run=ended status=0" "$work/log" && exit 0
tail -n 1 "$work/log"
exit 1
