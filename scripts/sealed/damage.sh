#!/usr/bin/env bash
# Each flipped bit of 1,300 sealed bytes is refused, and so are 100,000 changes of up to four bytes in a row; and the
# checksums of 1,000 texts are zlib's. What it runs is not proved, and it takes a minute or two.
cd "$(dirname "$0")/../.." || exit 2
work=$(mktemp -d)
trap 'rm -rf "$work"' EXIT
wrong() { echo "sealed/damage: $1"; exit 1; }

# A repository of its own, that has the libraries of this one and one program.
. scripts/libraries.sh
copy_libraries "$work" || exit 2
add_program "$work" sealed_damage scripts/sealed/damage.rt.txt "bitcode_sealed anyhow" || exit 2

python3 - "$work/texts" >"$work/checksums" <<'PYTHON' || exit 2
import random
import sys
import zlib

random.seed(43)
with open(sys.argv[1], "wb") as file:
    for count in range(1000):
        text = random.randbytes(count % 50 if count < 500 else random.randrange(3000))
        file.write(len(text).to_bytes(4, "little") + text)
        print(f"{zlib.crc32(text):08x}")
PYTHON

# The interpreter would not get through it, so it is stopped early: it is run as a compiled program.
cp "$work/texts" "$work/crates/sealed_damage/stdin"
(cd "$work/crates/sealed_damage" && "$try" --steps 1000 --seconds 600 <"$work/texts" >"$work/log" 2>&1)
grep -q 'run=ended status=0' "$work/log" || { tail "$work/log"; wrong "it does not run"; }
grep -xE '[0-9a-f]{8}' "$work/log" | cmp -s - "$work/checksums" || wrong "a checksum is not zlib's"
grep -E 'taken|whole|megabyte' "$work/log"
[ "$(grep -c '^whole: true$' "$work/log")" = 2 ] || wrong "the sealed bytes are not taken"
[ "$(grep -c 'taken: 0 of' "$work/log")" = 2 ] || wrong "damage is not seen"
