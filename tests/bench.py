#!/usr/bin/env python3
"""Builds `test_bench`, which plays the transcripts, unless it is built of these sources.

    tests/bench.py          prints where it is: out/try/test_bench
    tests/bench.py --fmt    lays its files out as `rt fmt` does those of a crate

Its sources are in tests/bench. It is no part of the product, and it is not proved: it is built as
`tools/try` builds the program, with a check wherever an index might be out of range or a sum not
fit its type, or the like. If such a check fails it ends by `Illegal instruction`, and so the
transcript fails. A call that breaks what a contract asks for isn't seen, so a bench asks before it
calls.
"""
import glob
import os
import re
import shutil
import subprocess
import sys
import tempfile

from lib.paths import TESTS, TOP

import programs
import toolchain
from toolchain import Unbuilt

tools_try = programs.tool("try")

# Not optimised, it takes minutes for the transcripts of a million frames and of a file of 4 GiB.
KIND = tools_try.Kind("test_bench", None, None, "-O2", 1)

# What it uses of the toolchain's libraries.
OF_KIT = ("std", "hex")


def written(folder, files):
    """Writes these texts into a folder, under the names that the toolchain looks for. Returns their
    paths."""
    for name, text in files.items():
        with open(f"{folder}/{name}.rt", "w", encoding="utf-8") as it:
            it.write(text)
    return [f"{folder}/{name}.rt" for name in files]


def texts():
    """The text of each of its files, by the file's name without the suffix."""
    found = {}
    for path in sorted(glob.glob(f"{TESTS}/bench/*.rs")):
        with open(path, encoding="utf-8") as it:
            found[os.path.basename(path)[:-3]] = it.read()
    return found


def crate_of(rtlib, whole):
    """The bench as a crate, which uses each crate that its text names."""
    names = [it for it in sorted(os.listdir(f"{TOP}/crates")) if re.search(rf"\b{it}::", whole)]
    folders = [f"{TOP}/crates/{it}" for it in names]
    return toolchain.unlisted_crate(rtlib, KIND.name, OF_KIT, folders, TOP)


class Bench(tools_try.Built):
    """The program that plays transcripts."""

    def __init__(self, kit, rtlib):
        self.texts = texts()
        crate = crate_of(rtlib, "".join(self.texts.values()))
        used = crate.below()
        super().__init__(KIND, kit, rtlib, crate, used)
        folders = [it.folder for it in used]
        self.sum = tools_try.sum_of_sources(kit, (KIND, self.texts), self.libraries, folders)

    def root_in(self, folder):
        written(folder, self.texts)
        return f"{folder}/main.rt"


def built():
    """Where the program is; it is built if it isn't there, or isn't of these sources."""
    kit, _, rtlib = toolchain.modules_or_end("tests/bench.py")
    bench = Bench(kit, rtlib)
    with tools_try.alone():
        if not bench.is_built():
            bench.make()
    return bench.path


def layout(flag, folder):
    """What `rattle fmt` says of its files, which are copied into this folder."""
    words = [f"{toolchain.folder()}/bin/rattle", "fmt", flag, *written(folder, texts())]
    ran = subprocess.run(words, capture_output=True, text=True, check=False)
    return f"{ran.stdout}{ran.stderr}" if ran.returncode else ""


def layout_mistakes():
    """What is laid out otherwise than `rt fmt` would."""
    with tempfile.TemporaryDirectory() as folder:
        if said := layout("--check", folder):
            yield f"{said[:500]}: tests/bench.py --fmt lays it out"


def lay_out():
    """Replaces its files by what `rattle fmt` makes of them."""
    with tempfile.TemporaryDirectory() as folder:
        if said := layout("--write", folder):
            sys.exit(f"tests/bench.py: {said}")
        for name in texts():
            shutil.copyfile(f"{folder}/{name}.rt", f"{TESTS}/bench/{name}.rs")


def main(words):
    if words == ["--fmt"]:
        return lay_out()
    try:
        return print(built())
    except Unbuilt as error:
        sys.exit(f"tests/bench.py: {error}")


if __name__ == "__main__":
    main(sys.argv[1:])
