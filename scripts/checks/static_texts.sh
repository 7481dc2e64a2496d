#!/usr/bin/env bash
# A `&'static str` cannot be decoded from a buffer that lives shorter: neither alone nor in a pair, and neither can a
# `CowStr<'static>`. The functions that do so are refused for the lifetime's sake, and the same with a `&str` in its
# place are not. It needs the libraries
# that `rt ci` built, and runs after it.
cd "$(dirname "$0")/../.." || exit 2
work=$(mktemp -d)
trap 'rm -rf "$work"' EXIT
wrong() { echo "static_texts: $1"; exit 1; }

mkdir "$work/src" && cat >"$work/src/main.rt" <<'PROGRAM'
#![tactic(auto)]

use bitcode::{Error, decode, encode};
use std::alloc::Global;
use std::borrow::CowStr;

fn alone(alloc: Global) -> Result<(), Error> {
    let bytes = encode(alloc, &"a")?;
    let _value: &str = decode(alloc, bytes.as_slice())?;
    Ok(())
}

fn in_a_pair(alloc: Global) -> Result<(), Error> {
    let pair = encode(alloc, &("a", 7u8))?;
    let _value: (&str, u8) = decode(alloc, pair.as_slice())?;
    Ok(())
}

fn alone_for_ever(alloc: Global) -> Result<(), Error> {
    let short_bytes = encode(alloc, &"a")?;
    let _value: &'static str = decode(alloc, short_bytes.as_slice())?;
    Ok(())
}

fn in_a_pair_for_ever(alloc: Global) -> Result<(), Error> {
    let short_pair = encode(alloc, &("a", 7u8))?;
    let _value: (&'static str, u8) = decode(alloc, short_pair.as_slice())?;
    Ok(())
}

fn in_a_cow(alloc: Global) -> Result<(), Error> {
    let cow = encode(alloc, &"a")?;
    let _value: CowStr<'_> = decode(alloc, cow.as_slice())?;
    Ok(())
}

fn in_a_cow_for_ever(alloc: Global) -> Result<(), Error> {
    let short_cow = encode(alloc, &"a")?;
    let _value: CowStr<'static> = decode(alloc, short_cow.as_slice())?;
    Ok(())
}

fn main(rt: HostRuntime) {
    let _alone = alone(rt.alloc());
    let _pair = in_a_pair(rt.alloc());
    let _cow = in_a_cow(rt.alloc());
    let _alone_for_ever = alone_for_ever(rt.alloc());
    let _pair_for_ever = in_a_pair_for_ever(rt.alloc());
    let _cow_for_ever = in_a_cow_for_ever(rt.alloc());
}
PROGRAM
[ -d crates/bitcode/out/rlib ] || wrong "no library was built: the gate does it, and so does rt check"
kit=$(dirname "$(rt doc)")
words=(--extern "std=$kit/rlibs/std.rlib" --extern "bitcode=$PWD/crates/bitcode/out/rlib/bitcode.rlib")
words+=(-L "dependency=$kit/rlibs")
for built in crates/*/out/rlib; do
  words+=(-L "dependency=$PWD/$built")
done
words+=(--antt-project "$kit/rattle/logic/antt-project.json" --logic-built "$kit/logic_built" --jobs 1)
"$kit/bin/rattle" check --crate-name static_texts "$work/src/main.rt" "${words[@]}" >"$work/log" 2>&1 &&
  wrong "a \`&'static str\` is decoded from a buffer with a shorter lifetime"
for name in short_bytes short_pair short_cow; do
  grep -q "borrow-e0597.*\`$name\` does not live long enough" "$work/log" ||
    wrong "\`$name\` is not rejected for the buffer's lifetime: $(grep -m 1 error "$work/log")"
done
[ "$(grep -c 'error\[' "$work/log")" -eq 3 ] || wrong "something else is refused: $(grep 'error\[' "$work/log")"
exit 0
