#!/usr/bin/env python3
"""Puts the Rust blocks of the pages and of the doc comments into the sources of one program, for
scripts/checks/examples.sh.

    scripts/examples/extract.py FOLDER [FILE..]

FOLDER is the program's. Each page or source file becomes a module of its src/, which begins with the lines of
scripts/examples/head.rt.txt; the names of the modules are printed. Without FILE these are README.md, CONTRIBUTING.md,
docs/*.md and the library's crates.

    ```rust              an example: items go into the module, statements into a test, which is run
    ```rust,fragment     statements that are compiled and not run, with the names of scripts/examples/fragment.rt.txt
    ```rust,new_type     declarations for scripts/new_type: they go to FOLDER/declared.txt
    ```rust,from:FILE    a quotation, as is any language with that word: each piece between lines `// ..` is in the file
    ```                  in a doc comment: a fragment
    ```text              and any other word is no example
"""

import glob
import os
import re
import sys

ITEM = re.compile(r"(pub |fn |struct |enum |impl\b|type |const |trait |mod |#\[|ghost use |///)")
# Crates whose doc comments show parts of what scripts/new_type writes, which scripts/checks/new_type.sh compiles as a
# whole.
LEFT = set()
HERE = os.path.dirname(os.path.abspath(__file__))


def blocks_of(path):
    """Each block of a page, or of a file's doc comments: the line that it begins in, its words, and its lines."""
    is_page = path.endswith(".md")
    found, block = [], None
    with open(path) as file:
        for number, line in enumerate(file.read().split("\n"), 1):
            if not is_page:
                comment = re.match(r"\s*//[/!] ?(.*)$", line)
                if not comment:
                    block = None
                    continue
                line = comment[1]
            fence = re.match(r"( *)```(.*)$", line)
            if not fence:
                if block is not None:
                    block[3].append(line[block[2]:] if line[:block[2]].strip() == "" else line)
            elif block is None:
                block = (number, fence[2].strip(), len(fence[1]), [])
            else:
                found.append((block[0], block[1] or ("" if is_page else "rust,fragment"), block[3]))
                block = None
    return found


def single_uses(line):
    """The imports of a line, each on its own, so that a name which two blocks import comes once."""
    group = re.fullmatch(r"use (.*)::\{(.*)\};", line.strip())
    return [f"use {group[1]}::{name.strip()};" for name in group[2].split(",") if name.strip()] if group else [line]


def statements(lines):
    """The lines, with an expression whose value a comment tells, as `counts[3] // 2`, made a statement."""
    ended = []
    for line, after in zip(lines, [*lines[1:], ""]):
        code, mark, comment = line.partition(" //")
        is_whole = code.strip() and code.rstrip()[-1] not in ";{}(,[=" and not re.match(r"\s*[.)}\]?]", after)
        ended.append(re.sub(r"^( *)(.*)$", r"\1let _ = \2;", code.rstrip()) + mark + comment if is_whole else line)
    return ended


def check_quotation(where, path, lines):
    """Each piece of a quotation is in its file, however either is laid out."""
    def plain(text):
        return " ".join(["", *text.split(), ""])
    with open(path) as file:
        text = plain(file.read())
    for piece in re.split(r"\n *(?://|--) \.\.\n", "\n" + "\n".join(lines) + "\n"):
        if plain(piece) not in text:
            sys.exit(f"{where}: {path} has no `{piece.strip().splitlines()[0]}` as it is quoted")


def names_beside(path):
    """The import of all that the module of a source file has, or that the nearest module above it which is public
    has."""
    _crates, crate, _src, *parts = os.path.splitext(path)[0].split("/")
    modules, file = [crate], f"crates/{crate}/src/lib.rt"
    for part in parts if parts != ["lib"] else []:
        with open(file) as opened:
            if not re.search(rf"^pub mod {part};", opened.read(), re.M):
                break
        modules.append(part)
        file = f"crates/{crate}/src/{'/'.join(modules[1:])}.rt"
    return f"use {'::'.join(modules)}::*;"


def module_of(path, heads, declared):
    """The text of the module of a file: its items, and a function for each block of statements."""
    uses, items, functions = dict.fromkeys(heads["head"]), [], []
    if path.startswith("crates/"):
        uses[names_beside(path)] = None
    for number, words, lines in blocks_of(path):
        if words == "rust,new_type":
            declared.append("\n".join(lines))
        if ",from:" in words:
            check_quotation(f"{path}:{number}", words.split(",from:")[1], lines)
        if words not in ("rust", "rust,fragment"):
            continue
        while lines and (not lines[0].strip() or re.match(r"use |(pub )?mod \w+;|//! |#!\[", lines[0])):
            line = lines.pop(0)
            while line.startswith("use ") and not line.rstrip().endswith(";"):
                line += " " + lines.pop(0).strip()
            if line.startswith("use "):
                uses |= dict.fromkeys(single_uses(line))
        if not lines:
            continue
        if ITEM.match(lines[0]):
            items += [f"// {path}:{number}", *lines, ""]
            if any(line.startswith("fn main(rt: HostRuntime)") for line in lines):
                items += ["#[test]", f"fn line_{number}(rt: HostRuntime) -> Result<(), Error> {{"]
                items += ["    let _status = main(rt)?;", "    Ok(())", "}", ""]
            continue
        is_run = words == "rust"
        head = ["#[test]", f"fn line_{number}(rt: HostRuntime) -> Result<(), Fail> {{", "    let alloc = rt.alloc();"]
        if not is_run:
            head = [line.replace("$number", str(number)) for line in heads["fragment"]]
        functions += [f"// {path}:{number}", *head, *("    " + line for line in statements(lines))]
        functions += ["    Ok(())", "}", ""]
    if not items and not functions:
        return None
    return "\n".join([f"//! The examples of {path}.", *uses, "", *items, *functions])


def main():
    folder, *paths = sys.argv[1:]
    if not paths:
        with open("crates.txt") as file:
            library = ["bitcode", *re.search(r"^bitcode: (.*)$", file.read(), re.M)[1].split()]
        sources = [
            path for crate in library if crate not in LEFT
            for path in glob.glob(f"crates/{crate}/src/**/*.rt", recursive=True)
        ]
        paths = ["README.md", "CONTRIBUTING.md", *sorted(glob.glob("docs/*.md")), *sorted(sources)]
    heads, declared = {}, []
    for name in ("head", "fragment"):
        with open(f"{HERE}/{name}.rt.txt") as file:
            heads[name] = file.read().rstrip("\n").split("\n")
    for path in paths:
        text = module_of(path, heads, declared)
        if text is None:
            continue
        module = re.sub(r"\W+", "_", os.path.splitext(path)[0].replace("crates/", "").replace("/src/", "/")).lower()
        with open(f"{folder}/src/{module}.rt", "w") as file:
            file.write(text)
        print(module)
    with open(f"{folder}/declared.txt", "w") as file:
        file.write("\n\n".join(declared) + "\n")


main()
