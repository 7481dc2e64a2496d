#!/usr/bin/env bash
# What scripts/new_type writes: the types of bitcode_own_types, bitcode_large_types and the programs stand as it writes
# them; the types of scripts/own_types/tried.txt compile, the structs are read and written as the tuples of their
# fields, and the enums as the bytes that docs/FORMAT.md says or at least as they were written; the types of
# scripts/own_types/sets, as programs have them, compile; what it cannot do is refused as scripts/own_types/refused.txt
# says; and it writes over no file but those that it wrote, and all files or none. It proves nothing: the types of the
# crate are proved with it, and `rt check` proved sixteen more structs as they were written once, of no, one, two,
# three, eight, nine and sixteen fields, of each type of field, nested, in a list, with type parameters and with a
# lifetime. Of enums it proved what six say of their variants, of 2, 3, 6, 17 and 256 variants without fields, with
# numbers and with names that clauses reserve, and what four of one variant and one of none stand for; of the enums
# with fields those of the crate, and those that docs/HISTORY.md names.
cd "$(dirname "$0")/../.." || exit 2
work=$(mktemp -d)
trap 'rm -rf "$work"' EXIT
wrong=0

# The types of a crate, whose declarations a file has.
kept() {
  mkdir -p "$work/kept/$1/src" && scripts/new_type "$2" "$work/kept/$1" >/dev/null || exit 2
  while IFS= read -r file; do
    cmp -s "$work/kept/$1/$file" "crates/$1/$file" || { echo "new_type: crates/$1/$file is out of date: run scripts/new_type again"; wrong=1; }
  done < <(cd "$work/kept/$1" && find src -type f)
}
kept bitcode_own_types scripts/own_types/kept.txt
kept bitcode_large_types scripts/own_types/large.txt
kept bitcode_changed_types scripts/own_types/changed.txt
kept bitcode_changed_types scripts/own_types/private.txt
for program in frames snapshots record_cache column_report; do
  kept "$program" "scripts/own_types/$program.txt"
done

. scripts/libraries.sh
copy_libraries "$work" || exit 2

# What programs have: every declaration is accepted. Each set is a crate, on which the program below depends, so that
# its files have to compile.
sets=
for set in scripts/own_types/sets/*.txt; do
  name=set_$(basename "$set" .txt)
  mkdir -p "$work/crates/$name/src" || exit 2
  scripts/new_type "$set" "$work/crates/$name" >"$work/set" 2>"$work/notes" || { echo "new_type: $set"; cat "$work/notes"; wrong=1; }
  { echo "//! A set."; sed -n '/^pub mod .*;$/p' "$work/set"; } >"$work/crates/$name/src/lib.rt"
  sed -n "/^$name: /p" "$work/set" >>"$work/crates.txt"
  sets="$sets $name"
done

mkdir -p "$work/crates/own_types/src" || exit 2
scripts/new_type scripts/own_types/tried.txt "$work/crates/own_types" >"$work/lines" 2>"$work/notes" || { cat "$work/notes"; exit 2; }
scripts/new_type scripts/own_types/later.txt "$work/crates/own_types" >"$work/later" || exit 2
sed -E 's/^new_type: line [0-9]+: //' "$work/notes" | cmp - scripts/own_types/notes.txt || { echo "new_type: what it takes off or writes otherwise"; wrong=1; }
{
  sed '/^\$modules$/,$d' scripts/own_types/main.rt.txt
  sed -n 's/^pub \(mod .*\)/\1/p' "$work/lines" "$work/later"
  sed '1,/^\$modules$/d' scripts/own_types/main.rt.txt
} >"$work/main.txt"
add_program "$work" own_types "$work/main.txt" "$(sed -n 's/^own_types: //p' "$work/lines")$sets" || exit 2
(cd "$work/crates/own_types" && "$try" --steps 1000 --seconds 7200 >"$work/log" 2>&1)
grep -q 'run=ended status=0' "$work/log" || {
  grep -m 5 -E 'error|unreachable|status=|run=' "$work/log" | sed 's/^/new_type: /'
  wrong=1
}

# A line has a declaration, and what is said of it after ` => `, where `\n` parts lines. The crate that it is for has a
# file of its own, and stays as it is.
mkdir -p "$work/given/own/src" && echo "//! By hand." >"$work/given/own/src/a.rt" || exit 2
python3 - "$work/given/own" <<'PYTHON' || wrong=1
import contextlib
import importlib.machinery
import importlib.util
import io
import sys

sys.dont_write_bytecode = True
sys.path.insert(0, "scripts")
loader = importlib.machinery.SourceFileLoader("new_type", "scripts/new_type")
new_type = importlib.util.module_from_spec(importlib.util.spec_from_loader("new_type", loader))
loader.exec_module(new_type)


def answer(declaration, folder):
    """The status of the script, and what it prints on both streams."""
    sys.argv, sys.stdin = ["scripts/new_type", "-", folder], io.TextIOWrapper(io.BytesIO(f"{declaration}\n".encode()))
    with contextlib.redirect_stdout(io.StringIO()) as printed, contextlib.redirect_stderr(io.StringIO()) as said:
        try:
            status = new_type.main()
        except SystemExit as ended:
            status = ended.code
        except Exception as why:
            status = f"none, {why!r}"
    return status, printed.getvalue(), said.getvalue()


with open("scripts/own_types/refused.txt") as file:
    rows = [line.replace("\\n", "\n").split(" => ") for line in file.read().splitlines() if line]
folder, wrong = sys.argv[1], not rows
for declaration, expected in rows:
    status, printed, said = answer(declaration, folder)
    if (status, printed, said) != (2, "", "".join(f"new_type: {fault}\n" for fault in expected.split("\n"))):
        print(f"new_type: {declaration}: status {status}, {said or printed}")
        wrong = True
sys.exit(wrong)
PYTHON

# A file that it did not write stays, and so do those beside it; unless `--force` is given. It writes again what it
# wrote.
two='enum B { Left, Moved(u32, i16), Said(String) } struct A { x: u8 }'
refuses() {
  said=$(scripts/new_type - "$work/given/own" 2>&1 >"$work/printed" <<<"$2")
  status=$?
  [ "$status" = 2 ] && [[ $said == *"$1"* ]] && [ ! -s "$work/printed" ] || { echo "new_type: $2: status $status, $said"; wrong=1; }
}
stands() {
  [ "$(cd "$work/given" && find . -type f | sort | tr '\n' ' ')" = "$1" ] || { echo "new_type: $2: $(cd "$work/given" && find . -type f)"; wrong=1; }
}
refuses "src/a.rt is another file, and stays as it is: choose another name, move the file away, or give \`--force\`" "$two"
stands "./own/src/a.rt " "a file that is refused, or one beside it, was written"
[ "$(cat "$work/given/own/src/a.rt")" = "//! By hand." ] || { echo "new_type: a file by hand is written over"; wrong=1; }
scripts/new_type - --force "$work/given/own" >/dev/null <<<"$two" && scripts/new_type - "$work/given/own" >/dev/null <<<"$two" || { echo "new_type: its own files are refused"; wrong=1; }
stands "./own/src/a.rt ./own/src/b.rt " "two types are not written"
sed -i '1s/`A`/`C`/' "$work/given/own/src/a.rt"
refuses "src/a.rt is another file" "$two"
mkdir "$work/given/Own-types" || exit 2
scripts/new_type - "$work/given/Own-types" >/dev/null 2>&1 <<<"$two"
[ "$?" = 2 ] || { echo "new_type: a folder that no crate can have is taken"; wrong=1; }
printf 'struct A { \377: u8 }' | scripts/new_type - >/dev/null 2>"$work/said"
[ "$?" = 2 ] && grep -q "^new_type: .*utf-8" "$work/said" || { echo "new_type: a file that is not UTF-8 is accepted"; wrong=1; }

# The words of the program.
scripts/new_type --help >"$work/printed" 2>"$work/said"
[ "$?" = 0 ] && grep -q 'scripts/new_type \[--force\] \[--also FILE\] FILE \[FOLDER\]' "$work/printed" && [ ! -s "$work/said" ] || { echo "new_type: --help"; wrong=1; }
for words in "" "--no" "a b c" "$work/absent"; do
  scripts/new_type $words >"$work/printed" 2>"$work/said"
  [ "$?" = 2 ] && [ ! -s "$work/printed" ] && [ -s "$work/said" ] && ! grep -q Traceback "$work/said" || { echo "new_type: the words '$words'"; wrong=1; }
done
exit "$wrong"
