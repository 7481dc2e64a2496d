#!/usr/bin/env bash
# What scripts/second_format writes: the types of bitcode_recursive_types are up to date. For 10,000 random values of
# recursive ones, 10,000 maps of them, 500 polygons, and 500 values of types with fields of all kinds that CI does not
# prove, `serialize_as` writes the bytes of `serialize` for the same content under the type's shape, and
# `deserialize_as`, `deserialize_as_within` and `deserialize` read the same content of them.
cd "$(dirname "$0")/../.." || exit 2
work=$(mktemp -d)
trap 'rm -rf "$work"' EXIT
wrong=0
for file in scripts/recursive_types/*.rs; do
  scripts/second_format "$file" "$work/kept/bitcode_recursive_types" >/dev/null || exit 2
done
while IFS= read -r file; do
  cmp -s "$work/kept/$file" "crates/$file" || {
    echo "second_format: crates/$file is out of date: run scripts/second_format again"
    wrong=1
  }
done < <(cd "$work/kept" && find . -type f)

. scripts/libraries.sh
copy_libraries "$work" || exit 2
below=$(sed -n 's/^bitcode_recursive_types: //p' crates.txt)
unproved=crates/unproved_types
for file in scripts/recursive_types/unproved/*.rs; do
  scripts/second_format "$file" "$work/$unproved" >>"$work/lines" || exit 2
done
rm -r "$work/$unproved/specs" "$work/$unproved/proofs"
grep '^pub mod .*;$' "$work/lines" >"$work/$unproved/src/lib.rt"
echo "unproved_types: $below" >>"$work/crates.txt"
uses="$below bitcode_recursive_types unproved_types anyhow"
add_program "$work" random_values scripts/recursive_types/values.txt "$uses" || exit 2
(cd "$work/crates/random_values" && "$try" --optimized --steps 1000 --seconds 7200 >"$work/log" 2>&1)
grep -q '^21000 values came back$' "$work/log" && grep -q 'checked: ended status=0' "$work/log" || {
  grep -m 5 -E 'error|status=|run=' "$work/log" | sed 's/^/second_format: /'
  wrong=1
}
exit "$wrong"
