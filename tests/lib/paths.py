"""Where things are: this repository, its tests, and what the gate builds."""
import os
import sys

TESTS = os.path.dirname(os.path.dirname(os.path.abspath(__file__)))
TOP = os.path.dirname(TESTS)

# Tests import modules of tools/ and .ci/ after this one.
sys.path += [f"{TOP}/tools", f"{TOP}/.ci"]

# Programs and preloaded libraries in C.
C = f"{TESTS}/c"

# The program and the static library, as `rt ci` and `.ci/archive` leave them.
PROGRAM = f"{TOP}/crates/cfdp_node/out/cfdp_node"
ARCHIVE = f"{TOP}/crates/cfdp_c/out/libcfdp_c.a"
