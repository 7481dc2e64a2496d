#!/usr/bin/env python3
"""`rt try`, with its words and in the folder of a crate, without the check that it runs beside the program for hints.
These are for crates that will be proved, and the check takes a third of the processor time. With `--optimized` as the
first word, clang compiles the program with `-O1` and not `-O0`. The address sanitizer stays on, but an access that
clang removes is not checked. A program that runs for minutes then takes less time in all. If the kit has no such parts,
this is `rt try`."""
import contextlib
import importlib.machinery
import importlib.util
import os
import subprocess
import sys
import tempfile

sys.dont_write_bytecode = True

CLANG = """#!/bin/bash
exec "{}" "${{@/#-O0/-O1}}"
"""


def link_all(folder, to, but):
    """Links to all that is in a folder, but for one name."""
    os.mkdir(to)
    for name in os.listdir(folder):
        if name != but:
            os.symlink(f"{folder}/{name}", f"{to}/{name}")


@contextlib.contextmanager
def optimizing(kit):
    """A folder that has all of the kit, but another clang."""
    with tempfile.TemporaryDirectory(prefix="try-") as work:
        top, clang = f"{work}/kit", "toolchain/bin/clang"
        link_all(kit, top, "toolchain")
        link_all(f"{kit}/toolchain", f"{top}/toolchain", "bin")
        link_all(f"{kit}/toolchain/bin", f"{top}/toolchain/bin", "clang")
        with open(f"{top}/{clang}", "w") as file:
            file.write(CLANG.format(f"{kit}/{clang}"))
        os.chmod(f"{top}/{clang}", 0o755)
        yield top


def main(words):
    optimized = words[:1] == ["--optimized"]
    words = words[optimized:]
    kit = os.path.dirname(subprocess.run(["rt", "doc"], capture_output=True, text=True, check=True).stdout.strip())
    try:
        loader = importlib.machinery.SourceFileLoader("rtlib", f"{kit}/bin/rtlib.py")
        rtlib = importlib.util.module_from_spec(importlib.util.spec_from_loader("rtlib", loader))
        sys.modules["rtlib"] = rtlib
        loader.exec_module(rtlib)
        rtlib.RATTLE = "true"  # The program that would check.
        run, usual = rtlib.main, rtlib.KIT
        os.stat(f"{kit}/toolchain/bin/clang")
    except (OSError, AttributeError):
        os.execvp("rt", ["rt", "try", *words])
    with optimizing(kit) if optimized else contextlib.nullcontext(usual) as rtlib.KIT:
        sys.exit(run("try", *words))


main(sys.argv[1:])
