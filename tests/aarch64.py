#!/usr/bin/env python3
"""Runs the programs in C on aarch64, over its own archive, in qemu's emulator.

    tests/aarch64.py                 .. out/aarch64-unknown-linux-gnu/libcfdp_c.a (`.ci/archive`)
    tests/aarch64.py --tools         looks for compiler and emulator: status 0 where they are there
    tests/aarch64.py --after 'A passed, B failed'    counts these in the last line

Compiler and emulator are Debian's gcc-aarch64-linux-gnu and qemu-user. Where they lack, --tools
asks apt-get for them, if it is there and may install. Where they can't be had a line says so. What
a program prints is compared with what it prints here, over the archive of x86-64, but for what
stack.c measures. The last line is 'N passed, M failed'.
"""
import os
import shutil
import subprocess
import sys
import tempfile

from lib.counting import Count, taken
from lib.paths import TESTS, TOP

C, OUT = f"{TOP}/bindings/c", f"{TOP}/crates/cfdp_c/out"
TARGET = "aarch64-unknown-linux-gnu"
SECONDS = 1200

TOOLS = ("aarch64-linux-gnu-gcc", "qemu-aarch64")
PACKAGES = ("gcc-aarch64-linux-gnu", "libc6-dev-arm64-cross", "qemu-user")
STRICT = ["-std=c99", "-O2", "-Wall", "-Wextra", "-Wpedantic", "-Werror", f"-I{C}"]

# What is built of which sources, and run with which words, of which FOLDER is an empty folder.
FOLDER = "an empty folder"
TRANSFER = [f"{TOP}/examples/c/transfer.c", f"{C}/heap.c"]
PROGRAMS = [(TRANSFER, [octets]) for octets in ("0", "1", "100000")]
PROGRAMS += [([f"{TESTS}/c/calls.c"], []), ([f"{C}/tests/forgetting.c"], ["20"])]
PROGRAMS += [([f"{C}/tests/in_a_pool.c", f"{C}/pool.c"], ["1000"])]
PROGRAMS += [([f"{C}/tests/{it}.c", f"{C}/heap.c"], [FOLDER]) for it in ("folders", "stack")]


def has_tools():
    return all(map(shutil.which, TOOLS))


def look_for_tools():
    """Whether the machine has them, after apt-get was asked for them."""
    if not has_tools() and shutil.which("apt-get") and os.geteuid() == 0:
        install = ["apt-get", "install", "-y", "--no-install-recommends", *PACKAGES]
        try:
            subprocess.run(["apt-get", "update"], capture_output=True, timeout=60, check=True)
            subprocess.run(install, capture_output=True, timeout=SECONDS, check=True)
        except (OSError, subprocess.SubprocessError):
            pass
    return has_tools()


def told_by(words):
    """How a command ended, and what it printed."""
    ran = subprocess.run(words, capture_output=True, text=True, timeout=SECONDS, check=False)
    return ran.returncode, ran.stdout + ran.stderr


def run(compiler, archive, sources, room, front, words):
    """How a program ended that is built so, and what it printed."""
    made = f"{room}/made"
    built = told_by([*compiler, *STRICT, *sources, f"{C}/errno.c", archive, "-o", made])
    words = [tempfile.mkdtemp(dir=room) if it == FOLDER else it for it in words]
    return built if built[0] else told_by([*front, made, *words])


def mistakes_of(sources, words, room):
    """Where a program fails there, or prints something else than here."""
    compiler, archive = [TOOLS[0], "-static"], f"{OUT}/{TARGET}/libcfdp_c.a"
    there = run(compiler, archive, sources, room, TOOLS[1:], words)
    if there[0]:
        yield f"status {there[0]}, {there[1][-2000:]}"
    measures = sources[0].endswith("stack.c")
    if not measures and shutil.which("cc") and os.path.isfile(f"{OUT}/libcfdp_c.a"):
        here = run(["cc"], f"{OUT}/libcfdp_c.a", sources, room, [], words)
        if here != there:
            yield f"there {there}, here {here}"


def main(words):
    if "--tools" in words:
        return 0 if look_for_tools() else 1
    count = Count("tests/aarch64.py", taken(words, "--after"))
    archive = f"{OUT}/{TARGET}/libcfdp_c.a"
    if not has_tools():
        print(f"no {' or '.join(TOOLS)}: nothing is run on aarch64")
    elif not os.path.isfile(archive):
        lacks = f"there is no {archive}: `.ci/archive --target {TARGET}` makes it"
        count.add("the archive", [lacks])
    else:
        with tempfile.TemporaryDirectory() as room:
            for sources, arguments in PROGRAMS:
                what = f"{os.path.basename(sources[0])} on aarch64"
                count.add(what, mistakes_of(sources, arguments, room))
    return count.end()


if __name__ == "__main__":
    sys.exit(main(sys.argv[1:]))
