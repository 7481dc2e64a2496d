#!/usr/bin/env bash
# No code outside its crate makes a struct with private fields, except by decoding: each of these lines is refused for its
# reason, and the last one compiles.
cd "$(dirname "$0")/../.." || exit 2
work=$(mktemp -d)
trap 'rm -rf "$work"' EXIT
wrong=0

. scripts/libraries.sh
copy_libraries "$work" || exit 2
while IFS='|' read -r reason line; do
  cat >"$work/main.rt" <<PROGRAM
//! A stranger.
#![tactic(auto)]
use bitcode::own::{Decoded, FromDecoded};
use bitcode::{ConvertFrom, Error, decode};
use bitcode_changed_types::percent::Percent;

fn main(rt: HostRuntime) -> Result<(), Error> {
    let alloc = rt.alloc();
    $line
    Ok(())
}
PROGRAM
  rm -rf "$work/crates/stranger" && sed -i '/^stranger: /d' "$work/crates.txt"
  add_program "$work" stranger "$work/main.rt" "bitcode bitcode_changed_types" || exit 2
  (cd "$work/crates/stranger" && "$try" --steps 1000 --seconds 7200 >"$work/log" 2>&1)
  grep -qF "$reason" "$work/log" || { echo "private_fields: $line: $(grep -m 1 -E 'error|run=' "$work/log")"; wrong=1; }
done <<'LINES'
field `fields` of struct `Decoded` is private|let _p: Percent = FromDecoded::from_decoded(Decoded { fields: 200u8 });
the trait bound `Percent: ConvertFrom<u8>` is not satisfied|let _p: Percent = ConvertFrom::convert_from(alloc, 200u8)?;
field `hundredths` of struct `Percent` is private|let _p = Percent { hundredths: 200 };
run=ended status=0|let _p: Percent = decode(alloc, &[200])?;
LINES
exit "$wrong"
