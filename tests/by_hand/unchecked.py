#!/usr/bin/env python3
"""Builds cfdp_node without proof, and without the checks that one makes needless, to be measured.

    tests/by_hand/unchecked.py FILE

`tools/try` keeps a check wherever an index might be out of range or a sum not fit its type; what it
builds is up to three times as slow. The proved program has none of them. This takes each call that
ends the program at such a check out of the module, so that the compiler takes it that none is ever
reached. So the program is near to the proved one, and nothing else is to be done with it than to
measure it: where a check would have ended it, it may do anything.
"""
import os
import sys
import tempfile

sys.path.insert(0, os.path.dirname(os.path.dirname(os.path.abspath(__file__))))
from lib.paths import TOP

import programs
import toolchain


def build(path):
    """Builds the program into this file."""
    tools_try = programs.tool("try")
    kit, _, rtlib = toolchain.modules_or_end("tests/by_hand/unchecked.py")
    crate = rtlib.Crate(f"{TOP}/crates/cfdp_node", TOP, {})
    with tempfile.TemporaryDirectory() as folder:
        whole = tools_try.Program(tools_try.WHOLE, kit, rtlib, crate)
        words = toolchain.translated(kit, whole.words(whole.own_root), folder)
        toolchain.without_checks(kit, folder)
        words = [{"module.bc": "module.ll"}.get(it, it) for it in words]
        toolchain.linked(kit, folder, words, path, "-O2")


if __name__ == "__main__":
    build(os.path.abspath(sys.argv[1]))
