#!/usr/bin/env bash
# The examples of README.md, CONTRIBUTING.md, docs/ and of the doc comments: they compile, and those that say what comes
# out are run. scripts/examples/extract.py says which blocks are examples. They are one program over the library, which
# is built without a proof.
#
#     bash scripts/checks/examples.sh [FILE..]
#
# With files it looks at the examples of these alone. KEEP=FOLDER leaves the program and what was said of it there.
cd "$(dirname "$0")/../.." || exit 2
work=$(mktemp -d)
trap 'rm -rf "$work"' EXIT

. scripts/libraries.sh
copy_libraries "$work" || exit 2
program=$work/crates/examples
mkdir -p "$program/src" && scripts/examples/extract.py "$program" "$@" >"$work/modules" || exit 1
cat scripts/examples/types.txt "$program/declared.txt" >"$work/types.txt"
scripts/new_type "$work/types.txt" "$program" >"$work/lines" || exit 1
{
  printf '%s\n' '//! The types that examples speak of, and a test, so that there is one.'
  printf '%s\n' '#[test]' 'fn compiles(_rt: HostRuntime) {}' ''
  sed -nE 's/^pub mod (.*);/\1/p' "$work/lines" | while read -r name; do
    sed -nE "s/^pub (struct|enum) ([A-Za-z0-9]+).*/pub use crate::$name::\2;/p" "$program/src/$name.rt"
  done
} >"$program/src/samples.rt"
{
  printf '%s\n' '//! The examples.' '#![tactic(auto)]' ''
  { echo samples; sed -nE 's/^pub mod (.*);/\1/p' "$work/lines"; cat "$work/modules"; } |
    sed 's/.*/#[cfg(test)]\nmod &;/'
  printf '%s\n' '' 'fn main(_rt: HostRuntime) {}'
} >"$work/main.rt"
add_program "$work" examples "$work/main.rt" "$(library_crates | tr '\n' ' ') arrayvec uuid" || exit 2
(cd "$program" && "$try" --test --steps 1000 >"$work/log" 2>&1)
grep -q "^test result: ok. $(cat "$program"/src/*.rt | grep -c '^#.test.$') passed; 0 failed;" "$work/log" && exit 0
[ -z "${KEEP:-}" ] || cp -r "$program" "$work/log" "$KEEP"

# What is wrong, each with the page or file and the line that its block begins in.
{ grep -m 40 -A 2 -E 'error\[|FAILED|^error' "$work/log" || tail -n 5 "$work/log"; } | while IFS= read -r line; do
  if [[ $line =~ ^(src/[a-z_0-9]+\.rt):([0-9]+): ]]; then
    where=$(head -n "${BASH_REMATCH[2]}" "$program/${BASH_REMATCH[1]}" | grep -oE '^// [^ ]+:[0-9]+$' | tail -n 1)
    line="examples: ${where#// }: ${line#*: }"
  fi
  echo "$line"
done
exit 1
