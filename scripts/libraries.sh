# For scripts that run a program of their own over this repository's libraries: to be sourced at the top of the
# repository.

# `rt try` without its hints.
try=$PWD/scripts/try.py

# The crates of the library, lowest first.
library_crates() {
  sed -n 's/^bitcode: //p' crates.txt
  echo bitcode
}

# copy_libraries FOLDER: a repository there, with the crates of this one, but for what proves them: a try proves
# nothing.
copy_libraries() {
  local crate
  mkdir -p "$1/crates" && git -C "$1" init -q && cp crates.txt "$1" || return 2
  for crate in crates/*/; do
    mkdir "$1/$crate" && cp -r "$crate/src" "$1/$crate" || return 2
  done
}

# add_program FOLDER NAME TEXT LIBRARIES: a program of its own there, whose text is that file, over these crates.
add_program() {
  mkdir -p "$1/crates/$2/src" && cp "$3" "$1/crates/$2/src/main.rt" && echo "$2: $4" >>"$1/crates.txt"
}

# make_edit FOLDER EDIT [MUTANT]: the edit, of the form of the must-fail edits, made in the crates there, or the mutant
# of that name in a file of scripts/mutants. A line `file:` names a file of the crate that the edit is of, or, in an
# edit that is of none, one below crates/.
make_edit() {
  python3 - "$@" <<'PYTHON'
import re
import sys

folder, edit, *mutant = sys.argv[1:]
crate = next(iter(re.findall(r"mutants/(\w+)/", edit)), ".")
text = open(edit).read()
if mutant:
    text = re.search(rf"^mutant: {mutant[0]}\n(.*?)(?=^mutant: |\Z)", text, re.M | re.S)[1]
path = old = None
for line in text.split("\n"):
    if line.startswith("file: "):
        path = f"{folder}/crates/{crate}/{line[6:]}"
    elif line.startswith("old: "):
        old = line[5:].replace("\\n", "\n")
    elif line.startswith("new: "):
        text = open(path).read()
        if text.count(old) != 1:
            sys.exit(f"{edit}: {path} must contain {old!r} exactly once")
        with open(path, "w") as file:
            file.write(text.replace(old, line[5:].replace("\\n", "\n")))
PYTHON
}
