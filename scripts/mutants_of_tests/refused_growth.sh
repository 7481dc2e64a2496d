#!/usr/bin/env bash
# Wrong libraries, in turn: a `Buffer` that keeps the entries of a refused call, a packer that leaves its tag behind,
# and an encoder that `clear` does not empty. scripts/checks/refused_growth.sh must fail for each of them, and for what
# it finds there. It takes some six minutes for each, so it stands outside the tests: run it where that script changes.
cd "$(dirname "$0")/../.." || exit 2
work=$(mktemp -d)
trap 'rm -rf "$work"' EXIT
passed=0

# must_fail NAME EDIT [TURN]: a test has to fail; a library that does not compile would fail none.
must_fail() {
  bash scripts/checks/refused_growth.sh "${@:2}" >"$work/log" 2>&1
  local status=$?
  echo "$1: $(tail -n 1 "$work/log" | cut -c1-150)"
  if [ "$status" -ne 1 ] || ! grep -qE '^(refused_growth: )?test tests::[a-z_0-9]+ [.]+ FAILED' "$work/log"; then
    echo "refused_growth: $1 is not found"
    passed=1
  fi
}

must_fail "a buffer keeps the entries of a refused call" \
  scripts/mutants/bitcode_derive/each_run.edit keeps_earlier_entries
must_fail "a packer leaves its tag behind" scripts/mutants/bitcode_columns/each_run.edit leaves_tag_after_refusal
printf '%s\n' 'file: bitcode_ints/src/int.rt' 'old: fn clear(&mut self) {' \
  'new: fn clear(&mut self) { if self.values.len() > 0 { return; }' >"$work/keeps_entries.edit"
must_fail "an encoder keeps entries" "$work/keeps_entries.edit"
exit "$passed"
