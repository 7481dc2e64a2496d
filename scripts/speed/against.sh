#!/usr/bin/env bash
# Compares the speed of this library with that of an earlier commit, in one process, each compiled without a proof. Run
# it after a change of a body. It prints each call of a workload that takes over a tenth longer than before, and its
# status is 1 if there is one. Such a call was slower in two runs.
#
#     bash scripts/speed/against.sh COMMIT FOLDER        or BITCODE=FOLDER bash scripts/speed/against.sh COMMIT
#
# FOLDER has the Rust crate's sources, which make the values: scripts/speed/beside.sh says more of it, and of CPU, OUT,
# ONLY, SIZES and REGISTRY. It needs `objcopy` of binutils. Workloads that the earlier commit lacks are left out. It
# takes some ten minutes, and only an idle machine gives times that can be trusted. The status is 2 where something is
# missing.
cd "$(dirname "$0")/../.." || exit 2
script=against
. scripts/libraries.sh
. scripts/speed/comparison/build.sh
commit=$(git rev-parse --verify --quiet "${1:-}^{commit}") || { echo "against: which commit?" >&2; exit 2; }
set_crate "${2:-${BITCODE:-}}"
cpu=${CPU:-x86-64-v2}
if [ -n "${OUT:-}" ]; then
  mkdir -p "$OUT" && work=$(cd "$OUT" && pwd) || exit 2
else
  work=$(mktemp -d) || exit 2
  trap 'rm -rf "$work"' EXIT
fi

# The earlier library, and the workloads that both have.
rm -rf "$work/earlier" "$work/before" && mkdir -p "$work/before" || exit 2
git clone -q . "$work/earlier" && git -C "$work/earlier" checkout -q "$commit" || exit 2
table=scripts/speed/comparison/workloads.tsv
export WORKLOADS=$work/workloads.tsv
python3 - "$table" "$work/earlier/$table" >"$WORKLOADS" <<'PYTHON' || exit 2
import sys
now, earlier = (open(path).read().split("\n") for path in sys.argv[1:])
print("\n".join(line for line in now if line and line in earlier))
PYTHON
unproved_ours "$work"
(cd "$work/earlier" && unproved_ours "$work/before") || exit 2

# Its calls get other names, and no other name of it is seen.
"$here/exports.py" names | sed 's/.*/call_& before_&/' >"$work/before/renamed"
sed 's/.* //' "$work/before/renamed" >"$work/before/kept"
tools=$(dirname "$(rt doc)")/toolchain/bin
objcopy --redefine-syms="$work/before/renamed" "$work/before/ours.o" "$work/before/renamed.o" &&
  objcopy --keep-global-symbols="$work/before/kept" "$work/before/renamed.o" &&
  rm -f "$work/libbefore.a" && "$tools/llvm-ar" rcs "$work/libbefore.a" "$work/before/renamed.o" ||
  fail "the earlier library has other calls"
build_driver ours before

export MALLOC_MMAP_THRESHOLD_=33554432 MALLOC_TRIM_THRESHOLD_=8589934592 MALLOC_TOP_PAD_=268435456
for run in 1 2; do
  "$work/driver/target/release/driver" "${ONLY:-}" "${SIZES:-10,1000,1000000}" >"$work/run$run.tsv" ||
    fail "the driver stopped"
done
python3 - "$work/run1.tsv" "$work/run2.tsv" <<'PYTHON'
import sys

CALLS = ("encode", "Buffer", "decode")


def ratios(path):
    """By workload, number of elements and call: the time of ours over that of the earlier library."""
    rows = [line.rstrip("\n").split("\t") for line in open(path)]
    times = {(row[1], row[2], row[3]): row[5:] for row in rows if row[0] != "other"}
    return {(name, count, call): float(now) / float(times[name, count, "before"][at])
            for (name, count, library), row in times.items() if library == "ours"
            for at, (call, now) in enumerate(zip(CALLS, row)) if now != "-"}


first, second = (ratios(path) for path in sys.argv[1:])
slower = [(key, first[key], second[key]) for key in first if min(first[key], second[key]) > 1.1]
for (name, count, call), a, b in slower:
    print(f"slower: {name}, {count} elements, {call}: {a:.2f} and {b:.2f} times as long")
print(f"{len(first) - len(slower)} calls as fast as before, {len(slower)} slower by over a tenth")
sys.exit(1 if slower else 0)
PYTHON
