#!/usr/bin/env bash
# Values of each shape in turn, of tables of one to nine entries, lists of many lengths, long ones, and one value of
# each type, written and read by every whole call with ample memory: a call that answers `out of memory`, always or on
# some of them, fails it. (scripts/mutants_of_tests/out_of_memory.sh shows that it does.)
cd "$(dirname "$0")/../.." || exit 2
work=$(mktemp -d)
trap 'rm -rf "$work"' EXIT

. scripts/libraries.sh
copy_libraries "$work" || exit 2
libraries="bitcode bitcode_test_support bitcode_own_types arrayvec uuid"
add_program "$work" breadth scripts/breadth/main.rt.txt "$libraries" || exit 2
scripts/new_type scripts/breadth/structs.txt "$work/crates/breadth" >/dev/null || exit 2
for module in lists tables; do
  cp "scripts/breadth/$module.rt.txt" "$work/crates/breadth/src/$module.rt" || exit 2
done

# The interpreter would not get through it, so it is stopped early: it is run as a compiled program.
(cd "$work/crates/breadth" && "$try" --optimized --steps 1000 --seconds 7200 >"$work/log" 2>&1)
grep -q 'run=ended status=0' "$work/log" && exit 0
grep -m 5 -E 'error|unreachable|status=|run=' "$work/log" | sed 's/^/breadth: /'
exit 1
