#!/usr/bin/env python3
"""Inputs that the command refuses, for scripts/checks/command.sh.

    refused.py PROGRAM WORK    prints each that it does not refuse as it should; the status is then 1

A row has the type, JSON, and what the command says of it. A few bytes that encode a large or a deep value are refused.
Then bytes of a list of monsters are cut off and changed, one after the other: the command ends with the status 0 or 1,
with one line on standard error in the second case, in at most 512 MB.
"""
import json
import os
import resource
import subprocess
import sys

FOLDER = os.path.dirname(os.path.realpath(__file__))
ROWS = [
    ("u8", "256", "JSON: expected a u8, found 256"),
    ("u8", "-1", "JSON: expected a u8, found -1"),
    ("u8", "1.5", "JSON: expected a u8, found 1.5"),
    ("u8", "{", "JSON: EOF while parsing at line 1 column 1"),
    ("(u8, Vec<i16>)", "[1, [2, 32768]]", "JSON: at [1][1]: expected an i16, found 32768"),
    ("(u8, u8)", "[1]", "JSON: expected a list of 2 fields, found a list"),
    ("[u8; 2]", "[1, 2, 3]", "JSON: expected a list of 2 elements, found a list"),
    ("ArrayString<3>", '"abcd"', 'JSON: expected a text of at most 3 bytes, found "abcd"'),
    ("ArrayVec<u8, 2>", "[1, 2, 3]", "JSON: expected at most 2 elements"),
    ("NonZeroU8", "0", "JSON: expected an integer except 0, found 0"),
    ("char", '"ab"', 'JSON: expected a text of one character, found "ab"'),
    ("f32", "1e39", "JSON: expected a number of an f32, found 1e39"),
    ("bool", "null", "JSON: expected true or false, found null"),
    ("Result<u8, u8>", "3", "JSON: expected an object with `Ok` or `Err`, found 3"),
    ("Ordering", '"Same"', "JSON: the type has no variant `Same`"),
    ("Range<u8>", '{"start": 1}', "JSON: at .end: the field is missing"),
    ("Range<u8>", '{"start": 1, "end": 2, "step": 3}', "JSON: at .step: the type has no such field"),
    ("Range<u8>", '{"start": 1, "start": 1, "end": 2}', "JSON: a field comes twice"),
    ("BTreeMap<String, u8>", '{"a": 1, "a": 2}', "JSON: a key comes twice: write a list of pairs"),
    ("BTreeMap<u8, u8>", '{"1": 1}', "JSON: expected a list of pairs, found an object"),
    ("Uuid", '"1"', 'JSON: expected the text of a UUID, found "1"'),
]
SCHEMAS = [
    ("", "schema: EOF while parsing at line 1 column 0"),
    ("{}", "schema: expected `root`"),
    ('{"root": "u7"}', "schema: at .root: `u7` is neither a type of the format nor one of `types`"),
    ('{"root": {"Vec": {"tuple": ["u8", 3]}}}', "schema: at .root.Vec.tuple[1]: expected a type, found 3"),
    ('{"root": "A", "types": {"A": {"Vec": "A"}}}', "schema: the type is nested too deep, or recursive without an end"),
    ('{"root": "A", "types": {"A": "A"}}', "schema: the type contains only itself"),
    ('{"root": "u8", "root": "u16"}', "schema: at .root: declared twice"),
    ('{"root": "u8", "kind": 1}', "schema: at .kind: a schema has only `root` and `types`"),
    ('{"root": "A", "types": {"A": "u8", "A": "u16"}}', "schema: at .types.A: declared twice"),
    ('{"root": "u8", "types": {"u8": "u16"}}', "schema: at .types.u8: the format has a type of this name"),
    ('{"root": {"struct": {"a": "u8", "a": "u16"}}}', "schema: at .root.struct.a: declared twice"),
    ('{"root": {"enum": {"A": "()", "A": "u8"}}}', "schema: at .root.enum.A: declared twice"),
]


def call(program, words, given):
    limit = (1 << 29, 1 << 29)
    ran = subprocess.run([program, *words], input=given, capture_output=True, timeout=60,
                         preexec_fn=lambda: resource.setrlimit(resource.RLIMIT_AS, limit))
    return ran.returncode, ran.stdout, ran.stderr.decode()


def schema(kind, work):
    path = f"{work}/refused.json"
    with open(path, "wb") as file:
        file.write(subprocess.run([f"{FOLDER}/../new_type", "--type", kind, f"{FOLDER}/session/monster.rs"],
                                  stdout=subprocess.PIPE, check=True).stdout)
    return path


def texts(program, work):
    """What is wrong with rows and schemas."""
    for kind, json, said in ROWS:
        found = call(program, ["encode", "--schema", schema(kind, work)], json.encode())
        if found != (1, b"", f"bitcode: {said}\n"):
            yield f"{kind}: {json}: {found}"
    path = f"{work}/none.json"
    for text, said in SCHEMAS:
        with open(path, "w") as file:
            file.write(text)
        found = call(program, ["encode", "--schema", path], b"1")
        if found != (3, b"", f"bitcode: {said.replace('schema:', f'schema {path}:')}\n"):
            yield f"{text}: {found}"


def large(program, work):
    """What is wrong with the answers to a few bytes that encode 2^40 or 2,000 units, and 130 lists in one another."""
    units, deep = f"{work}/units.json", f"{work}/deep.json"
    with open(units, "w") as file:
        file.write('{"root": {"Vec": "()"}}')
    with open(deep, "w") as file:
        types = {f"A{i}": {"Vec": f"A{i + 1}"} for i in range(129)} | {"A129": {"Vec": "u8"}}
        json.dump({"root": "A0", "types": types}, file)
    many, fewer = (bytes([255, 0]) + count.to_bytes(8, "little") for count in (2**40, 2000))
    rows = [
        (["check", "--schema", units], many, 0, ""),
        (["columns", "--schema", units], many, 0, ""),
        (["decode", "--schema", units], many, 1, "bitcode: too many nodes\n"),
        (["decode", "--schema", units, "--second", "--limit", "1000"], fewer, 1, "bitcode: too many nodes\n"),
        (["decode", "--schema", deep, "--second"], b"\x01" * 129 + b"\x00", 1,
         f"bitcode: JSON: at {'[0]' * 127}: nested deeper than 127 lists and objects\n"),
        (["encode", "--schema", deep, "--second"], b"[" * 128 + b"]" * 128, 1,
         f"bitcode: JSON: at {'[0]' * 127}: nested deeper than 127 lists and objects\n"),
        (["encode", "--schema", deep, "--second"], b'[[], ["]\\"[", "", ' + b'{"a\\\\": ' * 1000, 1,
         "bitcode: JSON: at [1][2]" + '.a\\\\' * 125 + ": nested deeper than 127 lists and objects\n"),
    ]
    for words, given, status, said in rows:
        found = call(program, words, given)
        if (found[0], found[2]) != (status, said):
            yield f"{words}: {found}"


def not_texts(program, work):
    """What is wrong with the answers to JSON and to a schema that are not UTF-8."""
    path, number = f"{work}/bytes.json", f"{work}/number.json"
    with open(path, "wb") as file:
        file.write(b'{"root": "\xff"}')
    with open(number, "w") as file:
        file.write('{"root": "u8"}')
    rows = [
        (path, b"1", 3, f"bitcode: schema {path}: the text is not UTF-8\n"),
        (number, b"\xff", 1, "bitcode: JSON: the text is not UTF-8\n"),
    ]
    for schema_file, given, status, said in rows:
        found = call(program, ["encode", "--schema", schema_file], given)
        if found != (status, b"", said):
            yield f"{schema_file}: {found}"


def damages(whole):
    """The bytes cut off at each place, and with each byte changed."""
    for place in range(len(whole)):
        yield whole[:place]
        for change in (1, 128, 255):
            yield whole[:place] + bytes([whole[place] ^ change]) + whole[place + 1:]


def damaged(program, work):
    """What is wrong with the answers to damaged bytes."""
    path = schema("Vec<Monster>", work)
    with open(f"{FOLDER}/session/monsters.json", "rb") as file:
        whole = call(program, ["encode", "--schema", path], file.read())[1]
    for words in (["columns"], ["check"], ["check", "--strict"]):
        for given in damages(whole):
            status, _, said = call(program, [*words, "--schema", path], given)
            if status not in (0, 1) or said.count("\n") != status:
                yield f"{words}: {list(given)}: {status} {said}"


def main():
    wrong = [line for part in (texts, large, not_texts, damaged) for line in part(*sys.argv[1:3])]
    for line in wrong[:20]:
        print(f"command: {line}")
    sys.exit(1 if wrong else 0)


main()
