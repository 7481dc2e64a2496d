#!/usr/bin/env bash
# The program: its rows, the columns that it reads, the usage line for all other words and inputs, status 2 where
# standard output cannot be written, and status 1 where memory is refused.
cd "$(dirname "$0")/../../crates/bitcode_vectors" || exit 2
work=$(mktemp -d)
trap 'rm -rf "$work"' EXIT
wrong() { echo "bitcode_vectors: $1"; exit 1; }
built() { find "$PWD/out" -type f -name bitcode_vectors -perm -u+x 2>/dev/null | head -n 1; }

# The gate leaves the program that it ran. (It is not built here: another script may read what that would write again.)
program=$(built)
[ -n "$program" ] || wrong "no program was built: the gate does it, and so does rt run"

# ends STATUS OUTPUT ERRORS INPUT WORD..: what the program writes with this input and these words, and its status.
ends() {
  local status=$1 output=$2 errors=$3 input=$4
  shift 4
  printf '%b' "$input" | "$program" "$@" >"$work/out" 2>"$work/err"
  [ "${PIPESTATUS[1]}" -eq "$status" ] || wrong "another status than $status for the words: $*"
  [ "$(cat "$work/out")" = "$(printf '%b' "$output")" ] || wrong "prints something else for the words: $*"
  [ "$(cat "$work/err")" = "$errors" ] || wrong "prints something else on standard error for the words: $*"
}
reads() { ends 0 "entries: $1\nrest: $2" "" "${@:3}"; }
refuses() { ends 1 "refused: $1" "" "${@:2}"; }
misused() { ends 2 "" "usage: bitcode_vectors [column KIND COUNT]" "$@"; }

ends 0 "$(cat stdout)" "" ""

# The words and inputs of the stored rows, one column of each other kind, and words and ends of lines as they may stand.
reads '[255]' '[9]' '3 1 0 0 0 254 9' column u32 1
refuses 'invalid packing' '5 0' column u32 1
misused '' column u8
reads '[1, 255, 2]' '[]' '0 1 255 2 6 255' column length 3
reads '[[226, 152, 186], [97]]' '[5]' '3 1 226 152 186 97 5' column text 2
refuses 'invalid utf8' '1 2 226 152 186' column text 2
reads '[0, 0, 0, 0, 0]' '[7]' '243 7' column variant3 5
reads '[-1, -128]' '[]' '255 128' column i8 2
reads '[]' '[]' '' column u8 0
refuses 'EOF' '255' column bool 18446744073709551615
misused '256' column u16 1
reads '[1, 0, 1]' '[9]' '5 9' column bool 3
reads '[1, 2]' '[3]' '1 2 3' column u8 2
reads '[513]' '[]' '1 2' column u16 1
reads '[4294967296]' '[]' '0 0 0 0 0 1 0 0 0' column u64 1
reads '[7]' '[]' '8 7' column u128 1
reads '[-2]' '[]' '254 255' column i16 1
reads '[-1]' '[]' '0 255 255 255 255' column i32 1
reads '[5]' '[]' '6 5' column i64 1
reads '[5]' '[]' '8 5' column i128 1
reads '[1, 1, 0]' '[]' '3' column variant2 3
reads '[2, 1]' '[]' '8' column variant5 2
reads '[5]' '[]' '5' column variant6 1
refuses 'invalid packing' '5' column variant5 1
reads '[16, 3]' '[]' '16 3' column variant17 2
reads '[1, 2]' '[3, 0]' '\t001\r\n 2\n\n3  000\n' column u8 00000000000000000002
refuses 'EOF' '' column u8 18446744073709551615
misused '' column u8 18446744073709551616
misused '' column u8 000000000000000000002
misused '' column u8 +2
misused '' column u8 ''
misused '' column u7 1
misused '' column bool_ 1
misused '' columns u8 1
misused '' column u8 1 1
misused '' x
misused '' ''
misused '' --help
misused '' column u8 11111111111111111111111111111111111111111111
misused '1 0002' column u8 2
misused '1 -2' column u8 2
misused '1,2' column u8 2
misused '1 x' column u8 1
misused '1 \0377' column u8 1

# What cannot be read or written.
"$program" column u8 1 <&- >"$work/out" 2>"$work/err"
status=$?
[ "$status" -eq 2 ] || wrong "status $status where standard input cannot be read"
[ "$(cat "$work/err")" = "usage: bitcode_vectors [column KIND COUNT]" ] ||
  wrong "no usage line if standard input cannot be read"
"$program" $'\377' >"$work/out" 2>"$work/err"
[ "$?" -eq 2 ] || wrong "another status than 2 for a word that is no text"
[ "$(cat "$work/err")" = "usage: bitcode_vectors [column KIND COUNT]" ] ||
  wrong "no usage line for a word that is not UTF-8"
for words in "" "column u8 0"; do
  "$program" $words >/dev/full 2>/dev/null </dev/null
  status=$?
  [ "$status" -eq 2 ] || wrong "status $status where standard output cannot be written, with the words: $words"
done

# With so little memory that it is not enough for all rows, the program refuses one. It also refuses a column whose
# input needs more.
for limit in $(seq 40000 -1000 3000); do
  (ulimit -v "$limit" && exec "$program" </dev/null >"$work/out" 2>"$work/err") 2>/dev/null
  status=$?
  ! grep -qE '^row [0-9]+ wrong: got out of memory$' "$work/out" || break
done
grep -qE '^row [0-9]+ wrong: got out of memory$' "$work/out" || wrong "no row tells of its refusal"
[ "$status" -eq 1 ] && [ ! -s "$work/err" ] || wrong "status $status where a row is refused memory: $(cat "$work/err")"
yes 1 | head -c 80000000 | (ulimit -v "$limit" && exec "$program" column u8 1 >"$work/out" 2>"$work/err")
status=${PIPESTATUS[2]}
[ "$(cat "$work/out")" = "refused: out of memory" ] || wrong "no column tells of its refusal"
[ "$status" -eq 1 ] && [ ! -s "$work/err" ] ||
  wrong "status $status if memory for a column is refused: $(cat "$work/err")"
exit 0
