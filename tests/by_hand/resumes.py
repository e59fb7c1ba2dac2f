#!/usr/bin/env python3
"""Stations with a journal that are killed 500 times, or so many times as is said, and once more so
often with power cuts.

    tests/by_hand/resumes.py                   by crates/cfdp_node/out/cfdp_node
    tests/by_hand/resumes.py PROGRAM           by another program
    tests/by_hand/resumes.py PROGRAM KILLS

It takes some four minutes for each of both. SEED=N makes other choices.
"""
import os
import sys

sys.path.insert(0, os.path.dirname(os.path.dirname(os.path.abspath(__file__))))
sys.dont_write_bytecode = True
import resumes
from lib.counting import print_all
from lib.program import program_of

KILLS = 500


def main(words):
    kills = int(words[1]) if len(words) > 1 else KILLS
    with program_of(words) as program:
        return print_all(resumes.lone_mistakes(program, kills))


if __name__ == "__main__":
    sys.exit(main(sys.argv[1:]))
