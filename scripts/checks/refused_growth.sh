#!/usr/bin/env bash
# Each request for memory is refused, one at a time: stored rows are written and read by each whole call, by the coders
# and by the packers. Each answer is the row's own or `out of memory`; what has to stand afterwards is asked each time;
# and behind the refusal every call answers as if nothing had been. The calls that take no memory answer as always: they
# are run one behind the other, and make no request, so that each of them makes none.
#
#     bash scripts/checks/refused_growth.sh [EDIT [MUTANT]]
#
# With an edit, or a mutant of a file of scripts/mutants, it looks at a library with that edit made, and has to fail, as
# with the mutant `leaves_tag_after_refusal` of scripts/mutants/bitcode_columns/each_run.edit.
cd "$(dirname "$0")/../.." || exit 2
work=$(mktemp -d)
trap 'rm -rf "$work"' EXIT
wrong() { echo "refused_growth: $1"; exit 1; }

# A repository of its own, that has the libraries of this one and a program.
. scripts/libraries.sh
copy_libraries "$work" || exit 2
libraries="bitcode bitcode_test_support arrayvec"
add_program "$work" refused_growth scripts/refused_growth/refused_growth.rt.txt "$libraries" || exit 2
cp scripts/refused_growth/no_memory.rt.txt "$work/crates/refused_growth/src/no_memory.rt" || exit 2
cp scripts/vectors/serde/texts.rt.txt "$work/crates/refused_growth/src/texts.rt" || exit 2
[ -z "${1:-}" ] || make_edit "$work" "$@" || exit 2

# A test for each request: the 1600th of each is refused, and it makes as many before that this is the one. It stops at
# the first thing that is wrong, and behind the rows at hand where a request of theirs was refused. The row of 48
# references is run by itself, and what it writes is made before. The refusal behind the last request of either is not
# met. The calls that take no memory make no request, and pushes and lengths in reserved room but the one that makes the
# room: the next one is refused.
tests=$work/crates/refused_growth/src/tests.rt
{
  echo "use crate::no_memory::{answer, lengths_in_room, push_in_room};"
  echo "use crate::{must, prepare, references, rows, take};"
  for group in rows:890 references:580; do
    name=${group%:*}
    last=${group#*:}
    for place in $(seq 1 "$last"); do
      printf '\n#[test]\nfn %s_%s(rt: HostRuntime) {\n' "$name" "$place"
      printf '    let _refused = %s(rt.alloc(), %s);\n}\n' "$name" "$place"
    done
    printf '\n#[test]\nfn %s_end(rt: HostRuntime) {\n' "$name"
    printf '    must(!%s(rt.alloc(), %s));\n}\n' "$name" "$((last + 1))"
  done
  for calls in prepare:52 answer:0 push_in_room:1 lengths_in_room:1; do
    printf '\n#[test]\nfn %s_alone(rt: HostRuntime) {\n' "${calls%:*}"
    printf '    take(rt.alloc(), %s, %s);\n}\n' "${calls#*:}" "${calls%:*}"
  done
} >"$tests"
(cd "$work/crates/refused_growth" && "$try" --test --seconds 7200 --fail-alloc 1600 >"$work/log" 2>&1)
grep -q "^test result: ok. $(grep -c '^#.test.$' "$tests") passed; 0 failed;" "$work/log" ||
  wrong "$(grep -m 5 -A 1 -E 'error|FAILED' "$work/log" || tail -n 3 "$work/log")"
exit 0
