#!/usr/bin/env bash
# Wrong libraries: each public call that may take memory answers `out of memory` always, and each whole call does so on
# one rare shape or type, on more than a megabyte, on a list of 300 elements, and in the second format on tables of
# seven entries. The breadth of shapes and types, scripts/breadth, must fail for each of them.
#
# All of them are one program, in which each wrong answer has a number: the length of standard input tells which of them
# is given, and with none the program must end well. It takes some minutes, so it stands outside the tests: run it where
# the breadth changes or a call is new, whole or for some names.
#
#     bash scripts/mutants_of_tests/out_of_memory.sh [NAME..]
cd "$(dirname "$0")/../.." || exit 2
work=$(mktemp -d)
trap 'rm -rf "$work"' EXIT

. scripts/libraries.sh
copy_libraries "$work" || exit 2
libraries="bitcode bitcode_test_support bitcode_own_types arrayvec uuid"
add_program "$work" breadth scripts/breadth/main.rt.txt "$libraries" || exit 2
scripts/new_type scripts/breadth/structs.txt "$work/crates/breadth" >/dev/null || exit 2
for module in lists tables; do
  cp "scripts/breadth/$module.rt.txt" "$work/crates/breadth/src/$module.rt" || exit 2
done
sed -i 's/^bitcode_memory:/& libc/' "$work/crates.txt" || exit 2
cat >>"$work/crates/bitcode_memory/src/error.rt" <<'SWITCH' || exit 2

/// Whether the wrong answer of this number is given: standard input, a file, has so many bytes.
pub fn is_mutant(number: i64) -> bool {
    libc::lseek(0, 0, 2) == number
}
SWITCH

mkdir "$work/cases" || exit 2
python3 - "$work" "$@" <<'PYTHON' || exit 2
import glob
import re
import sys

work, *words = sys.argv[1:]

# The public calls of these crates and files, and the calls and impls among them that take no memory.
PLACES = [
    "bitcode_memory/src/fast/vec.rt", "bitcode_columns/src/pack*", "bitcode_int_columns/src/column_int*", "bitcode_int_columns/src/pack_ints*",
    "bitcode_memory/src/ints*",
    "bitcode_coder/src", "bitcode_ints/src/int*", "bitcode_ints/src/checked*", "bitcode_ints/src/u8_char.rt", "bitcode_tuples/src", "bitcode_parts/src",
    "bitcode_serde/src/serde", "bitcode_derive/src",
]
TAKES_NONE = {"err", "invalid_enum_variant", "short_text", "consume_unaligned", "read"}

# Each whole call: its file, a line of its body that stands once there, and conditions: on one rare shape or type, on
# more than a megabyte, and on a length or a table that nothing else has.
THREE_HUNDRED = "[255u8, 4, 44, 1].as_slice()"
WRITTEN = "{{ let mut once = T::Encoder::new(alloc); let mut copy = Vec::new(alloc); write_one(&mut once, t, &mut copy)?; {} }}"
WHOLE = {
    "encode": ("bitcode_derive/src/whole.rt", "    Ok(bytes)", {
        "on a rare shape": "bytes.as_slice() == [1, 7, 7].as_slice()", "on over a megabyte": "bytes.len() > 1000000",
        "of a list of 300": f"bytes.as_slice().starts_with({THREE_HUNDRED})",
    }),
    "encode_into": ("bitcode_derive/src/whole.rt", "    write_one(&mut encoder, t, out)", {
        "on a rare shape": WRITTEN.format("copy.len() == 17"), "on over a megabyte": WRITTEN.format("copy.len() > 1000000"),
        "of a list of 300": WRITTEN.format(f"copy.as_slice().starts_with({THREE_HUNDRED})"),
    }),
    "decode": ("bitcode_derive/src/whole.rt", "    expect_eof(input)?;\n    // Nothing else", {
        "on a rare shape": "bytes.len() == 17", "on over a megabyte": "bytes.len() > 1000000", "of a list of 300": f"bytes.starts_with({THREE_HUNDRED})",
    }),
    "decode_front": ("bitcode_derive/src/whole.rt", "    decoder.populate(input, 1)?;", {
        "on a rare shape": "input.len() == 17", "on over a megabyte": "input.len() > 1000000", "of a list of 300": f"input.starts_with({THREE_HUNDRED})",
    }),
    "Buffer::encode": ("bitcode_derive/src/buffer.rt", "        Ok(self.bytes.as_slice())", {
        "on a rare shape": "self.bytes.len() == 16", "on over a megabyte": "self.bytes.len() > 1000000",
        "of a list of 300": f"self.bytes.as_slice().starts_with({THREE_HUNDRED})",
    }),
    "Buffer::decode": ("bitcode_derive/src/buffer.rt", "        whole::decode(self.alloc, bytes)", {
        "on a rare shape": "bytes.len() == 17", "on over a megabyte": "bytes.len() > 1000000", "of a list of 300": f"bytes.starts_with({THREE_HUNDRED})",
    }),
    "serialize": ("bitcode_serde/src/serialize.rt", "    writer.collect()", {
        "on a rare shape": "matches!(table[0], bitcode_untyped::shape::ShapeNode::Map(..))",
        "on over a megabyte": "matches!(value, Value::Str(text) if text.len() == 1000000)", "of a table of seven entries": "table.len() == 7",
        "of a list of 300": "matches!(value, Value::Seq(elements) if elements.len() == 300)",
    }),
    "deserialize": ("bitcode_serde/src/deserialize.rt", "    let read = read_whole(alloc, shape, bytes, &mut budget, false)?;\n    Ok(read.0)", {
        "on a rare shape": "matches!(shape.table()[0], bitcode_untyped::shape::ShapeNode::Enum(_))", "on over a megabyte": "bytes.len() > 1000000",
        "of a table of seven entries": "shape.table().len() == 7", "of a list of 300": f"bytes.starts_with({THREE_HUNDRED})",
    }),
}


def functions(lines):
    """Each function with a body that gives a `Result`: its name, its impl, and the line on which its body begins."""
    around = ""
    for start, line in enumerate(lines):
        if re.match(r"(impl|pub trait|trait)\b", line):
            end = next(place for place in range(start, len(lines)) if re.search(r"\{\}?$", lines[place]))
            around = " ".join(text.strip() for text in lines[start : end + 1]).split(" where")[0]
        found = re.match(r"( *)(pub (?:final )?|final )?fn (\w+)", line)
        if not found:
            continue
        head = []
        for place in range(start, len(lines)):
            text = lines[place]
            if text.rstrip().endswith(";") or place > start and re.match(r" *(pub )?fn ", text):
                break
            head.append(text)
            if text == found[1] + "{" or text.endswith(" {") and not re.match(r" *(ensures|requires)", text):
                signature = re.split(r"\n *(?:ensures|requires|where)", "\n".join(head))[0]
                public = found[2] and found[2].startswith("pub ") or found[1] and re.search(r"\bfor\b|^pub trait", around)
                if public and re.search(r"-> Result<.*Error>", signature, re.S):
                    yield found[3], around if found[1] else "", place + 1
                break


def calls(path, lines):
    """Each public call of a file that may take memory: its name, and the line behind which it refuses."""
    for name, around, line in functions(lines):
        if name not in TAKES_NONE and "EmptyCoder" not in around and not (name == "decode" and "IntDecoder" in around):
            yield f"{path}:{line} {name}", line


class Mutants:
    """The wrong answers, numbered from 1 on, and the files that have them."""

    def __init__(self):
        self.count = 0

    def mutant(self, path, name, condition):
        """A statement that fails if that mutant is asked for and the condition holds; none if its name was not chosen."""
        if words and not any(word in name for word in words):
            return ""
        self.count += 1
        error = "crate::error" if path.startswith("bitcode_memory/") else "bitcode_memory::error"
        with open(f"{work}/cases/{self.count:03}", "w") as file:
            file.write("." * self.count)
        print(f"{self.count:03}\t{name}", file=names)
        refusal = f"return Err({error}::Error {{ reason: {error}::Reason::OutOfMemory }});"
        return f"if {error}::is_mutant({self.count}) && ({condition}) {{ {refusal} }} "

    def whole_calls(self):
        for name, (path, line, conditions) in WHOLE.items():
            file = f"{work}/crates/{path}"
            text = open(file).read()
            if text.count(line) != 1:
                sys.exit(f"{path}: it must contain the line {line!r} exactly once")
            added = "".join(
                self.mutant(path, f"{name} {when}", condition)
                for when, condition in {"always": "true", **conditions}.items()
            )
            with open(file, "w") as out:
                out.write(text.replace(line, added + line.lstrip()))

    def all_calls(self):
        for place in PLACES:
            found = [path for pattern in (place, place + "/**/*.rt") for path in glob.glob("crates/" + pattern, recursive=True)]
            for path in sorted({path.removeprefix("crates/") for path in found if path.endswith(".rt")}):
                # The names tell the lines of the file as it stands; the whole calls moved none of them.
                lines = open(f"{work}/crates/{path}").read().split("\n")
                for name, line in reversed(list(calls(path, lines))):
                    lines[line:line] = [text for text in [self.mutant(path, name, "true")] if text]
                with open(f"{work}/crates/{path}", "w") as out:
                    out.write("\n".join(lines))


with open(f"{work}/names", "w") as names:
    mutants = Mutants()
    mutants.whole_calls()
    mutants.all_calls()
if mutants.count == 0:
    sys.exit("no call has such a name")
open(f"{work}/cases/000", "w").close()
PYTHON

# The interpreter would not get through it, so it is stopped early: it is run as a compiled program.
(cd "$work/crates/breadth" && "$try" --steps 1000 --seconds 600 --cases "$work/cases" >"$work/log" 2>&1)
if ! grep -qE '^case=000 run=ended status=0 ' "$work/log"; then
  grep -m 5 -E 'error|unreachable|status=|run=' "$work/log" | sed 's/^/out_of_memory: no mutant is asked for, and yet: /'
  exit 2
fi
missed=0
while IFS=$'\t' read -r number name; do
  grep -qE "^case=$number run=(fault|ended status=[1-9])" "$work/log" && continue
  echo "NOT FOUND: $name: $(grep "^case=$number " "$work/log")"
  missed=$((missed + 1))
done <"$work/names"
count=$(wc -l <"$work/names")
echo "$((count - missed)) of $count wrong libraries are found"
[ "$missed" -eq 0 ]
