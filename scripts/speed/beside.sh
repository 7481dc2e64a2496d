#!/usr/bin/env bash
# Compares this library with the Rust crate bitcode 0.6.9 and with bincode 1.3, all in one process: bytes, and the times
# of encoding and decoding. You bring the Rust crate's sources; they are no part of this repository.
#
#     bash scripts/speed/beside.sh [--proved] FOLDER        or BITCODE=FOLDER bash scripts/speed/beside.sh ..
#
# FOLDER has the crate's Cargo.toml, or its sources as texts, src--src--lib.rs.txt for src/lib.rs. It prints a table,
# which scripts/speed/picture.py turns into docs/speed.svg and the table of docs/SPEED.md. The rows `set` are whole data
# sets (scripts/speed/comparison/sets.rs), where tuples stand for the crate's derive. It builds everything first,
# then says `ready` and, if READY names a file, waits until that is there: so the machine can be idle by then. The times
# take three minutes.
#
# The library is compiled without a proof, in two minutes, as optimized as a proved one. With --proved it is proved and
# built as a static library, without the players, the updates and the borrowed lines. That takes half an hour, and over
# an hour more where `rt ci` has not yet proved the library on this machine.
#
# CPU=x86-64-v3 compiles all for that processor (x86-64-v2 otherwise), OUT=FOLDER keeps what was built, ONLY=WORD takes
# the workloads that have the word in their name, SIZES=1000 takes lists of these lengths, and RUNS=5 measures five
# times and prints the median of each time.
#
# REGISTRY=FOLDER has the sources of bincode and serde, if cargo is not to fetch them: Debian's librust-bincode-dev,
# librust-serde-dev, librust-serde-derive-dev, librust-arrayvec-dev and librust-uuid-dev put them into
# /usr/share/cargo/registry, which is where texts of the crate take them from. The status is 2 where something is
# missing.
cd "$(dirname "$0")/../.." || exit 2
script=beside
. scripts/libraries.sh
. scripts/speed/comparison/build.sh
is_proved=
[ "${1:-}" != --proved ] || { is_proved=1; shift; }
set_crate "${1:-${BITCODE:-}}"
cpu=${CPU:-x86-64-v2}
if [ -n "${OUT:-}" ]; then
  mkdir -p "$OUT" && work=$(cd "$OUT" && pwd) || exit 2
else
  work=$(mktemp -d) || exit 2
  trap 'rm -rf "$work"' EXIT
fi
if [ -n "$is_proved" ]; then
  # The checker stops at its step limit where a list of players is decoded, and does not cover calls for a struct that
  # holds a list of structs with a lifetime. The proof of the calls for updates was never run to its end.
  grep -v 'Players\|Borrowed\|Updates' scripts/speed/comparison/workloads.tsv >"$work/workloads.tsv" || exit 2
  export WORKLOADS=$work/workloads.tsv
fi
if [ -n "$is_proved" ]; then proved_ours "$work"; else unproved_ours "$work"; fi
build_driver ours

echo "beside: ready" >&2
while [ -n "${READY:-}" ] && [ ! -e "$READY" ]; do sleep 0.2; done
model=$(sed -n 's/^model name[^:]*: //p' /proc/cpuinfo | head -n 1)
how=$([ -n "$is_proved" ] && echo "proved" || echo "compiled without a proof")
median=$([ "${RUNS:-1}" = 1 ] || echo "median of $RUNS runs, ")
echo "# $(date +%F), $model, $(nproc) cores, $cpu, ${median}ours $how, $(rt version)"
printf 'format\tworkload\telements\tlibrary\tbytes\tencode\tbuffer\tdecode\n'
# Memory that is freed is kept, as in a program that goes on: neither library pays for the system's.
export MALLOC_MMAP_THRESHOLD_=33554432 MALLOC_TRIM_THRESHOLD_=8589934592 MALLOC_TOP_PAD_=268435456
for run in $(seq "${RUNS:-1}"); do
  "$work/driver/target/release/driver" "${ONLY:-}" "${SIZES:-10,1000,1000000}" >"$work/run$run.tsv" || fail "the driver stopped"
done
python3 - "$work"/run*.tsv <<'PYTHON'
# Of each row, the median of each time over the runs.
import statistics, sys
runs = [[line.rstrip("\n").split("\t") for line in open(path)] for path in sys.argv[1:]]
for rows in zip(*runs):
    times = [[row[column] for row in rows] for column in (5, 6, 7)]
    print(*rows[0][:5], *(it[0] if it[0] == "-" else f"{statistics.median(map(float, it)):.3f}" for it in times), sep="\t")
PYTHON
python3 - <<'PYTHON'
import random, timeit, zlib
megabyte = random.Random(7).randbytes(1_000_000)
least = min(timeit.repeat(lambda: zlib.crc32(megabyte), number=1, repeat=50))
print(f"other\tCRC-32 of a megabyte\t1000000\tzlib\t4\t{least * 1e9 / 1e6:.3f}\t-\t-")
PYTHON
