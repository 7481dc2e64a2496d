"""What the scripts of this folder share: rows that are put into templates, and files that are written of them."""

import os
import re
import shutil
import sys
import tempfile
from string import Template

TOP = os.path.dirname(os.path.dirname(os.path.dirname(os.path.abspath(__file__))))
sys.path.append(f"{TOP}/scripts")
from clauses import lays_out


def filled(template, rows):
    """The template with each of the rows put into it, one after the other."""
    return "".join(Template(template).substitute(row) for row in rows)


def in_its_crate(script, path, text):
    """The text as a file of its crate or of edits, which says in the first line where it is from, and calls its own crate by `crate`."""
    crate = path.split("/")[1]
    comment = {".antt": "--", ".edit": "#"}.get(os.path.splitext(path)[1], "//")
    own = re.sub(rf"^use {crate}::", "use crate::", text.lstrip("\n"), flags=re.M)
    head = re.match("(//( .*)?\n)*", own).group()
    own = re.sub("^// ?", "//! ", head, flags=re.M) + own[len(head):]
    return f"{comment} Written by scripts/tables/{script}.\n{own}"


def laid_out(folder):
    """Lays out what stands in the crates of the folder, as `rt fmt` does, with long clauses broken."""
    for crate in os.listdir(f"{folder}/crates"):
        said = lays_out(f"{folder}/crates/{crate}")
        if said:
            sys.exit(said)


def write(script, texts):
    """Writes the files, given by their paths, into the folder that the command names, and else into the repository."""
    target = sys.argv[1] if len(sys.argv) > 1 else TOP
    with tempfile.TemporaryDirectory() as work:
        for path, text in texts.items():
            os.makedirs(os.path.dirname(f"{work}/{path}"), exist_ok=True)
            with open(f"{work}/{path}", "w") as file:
                file.write(in_its_crate(script, path, text))
        laid_out(work)
        for path in texts:
            os.makedirs(os.path.dirname(f"{target}/{path}"), exist_ok=True)
            shutil.copyfile(f"{work}/{path}", f"{target}/{path}")
