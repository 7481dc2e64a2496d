#!/usr/bin/env bash
# The tests in tests/, run without a proof. `rt ci` took 38 minutes of a processor to prove them, and a proof says
# nothing of what they show. They are called .rs, since `rt ci` refuses .rt files that it does not prove.
cd "$(dirname "$0")/../.." || exit 2
work=$(mktemp -d)
trap 'rm -rf "$work"' EXIT

. scripts/libraries.sh
copy_libraries "$work" || exit 2
mkdir -p "$work/crates/tests" && cp -r tests "$work/crates/tests/src" || exit 2
find "$work/crates/tests/src" -name '*.rs' -exec bash -c 'mv "$1" "${1%.rs}.rt"' _ {} \; || exit 2
uses="bitcode_schema bitcode_own_types bitcode_large_types bitcode_changed_types bitcode_recursive_types"
echo "tests: bitcode bitcode_test_support $uses arrayvec uuid" >>"$work/crates.txt"
(cd "$work/crates/tests" && "$try" --test --steps 1000 --seconds 7200 >"$work/log" 2>&1)
count=$(cat tests/*.rs tests/*/*.rs tests/*/*/*.rs | grep -c '^#\[test\]$')
grep -q "test result: ok. $count passed; 0 failed" "$work/log" && grep -q 'run=ended status=0' "$work/log" && exit 0
grep -m 5 -E 'error|FAILED|failed|unreachable|status=|run=' "$work/log" | sed 's/^/tests: /'
exit 1
