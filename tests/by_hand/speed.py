#!/usr/bin/env python3
"""How fast stations send a file, beside a plain program that sends as many datagrams as long.

    tests/by_hand/speed.py                by the program that `rt ci` leaves
    tests/by_hand/speed.py PROGRAM [MB]   by another program, and a file of so many MB, or 100
    tests/by_hand/speed.py --page [PROGRAM]   prints the tables of docs/SPEED.md, in ten minutes

The stations send at any rate, by the values of each of CASES. All files lie in memory if the
machine has such a folder. lib/speeds.py says what is measured.

The tables are of runs that take turns, and of the least processor time of many: so they may be made
on a machine that does other work beside it. Instructions are those that `valgrind --tool=callgrind`
counts, which no other work changes.
"""
import collections
import os
import re
import subprocess
import sys
import tempfile
import types

sys.path.insert(0, os.path.dirname(os.path.dirname(os.path.abspath(__file__))))
from by_hand import turns
from lib import forging
from lib.choices import chance_of
from lib.links import Link, rests
from lib.paths import C, PROGRAM
from lib.processes import PATIENT
from lib.speeds import CASES, UNCHECKED, by_plain, by_stations, compared, datagrams

# How often each is run: the middle one of them counts.
RUNS = 3

# The rows of the page's first table: what is set, the octets of a zone and of a segment, words of
# the sender, and keys of both. Where frames are lost, times are in milliseconds.
LOSSY = {"eof_time": 20, "nak_time": 20, "finished_time": 20, "inactivity_time": 100_000}
ROWS = (
    ("zone 2,040, segment 4,096", 2040, 4096, (), {}),
    ("the same, each 100th frame lost", 2040, 4096, ("--drop", "100"), LOSSY),
    ("zone 256, segment 1,024", 256, 1024, (), {}),
)

# The rows of the table of keys: what is set, the octets of a zone and of a segment.
KEYED_ROWS = (("zone 2,040, segment 4,096", 2040, 4096), ("zone 256, segment 1,024", 256, 1024))

# How often each program of a row is run for the page: the best counts. And its file's octets.
PAGE_RUNS, PAGE_SIZE = 9, 100_000_000

# Of the page's table of instructions: the octets of a zone, of a segment and of the file. All its
# frames fit into a socket, since a receiver is slow whose instructions are counted.
COUNTED = ((2040, 4096, 1_638_400), (256, 1024, 1_024_000), (256, 1, 20_000))

# So many functions are told of each.
MOST_TOLD = 6


def secured(link, own):
    """The words by which a station of a link has keys."""
    path = f"{link.folder}/{own}.keys"
    forging.write_keys(path, own, forging.KEYS)
    return ["--keys", path]


def table(titles, rows):
    """Prints a table in the form of the page."""
    print(f"| {' | '.join(titles)} |\n|{'---|' * len(titles)}")
    for cells in rows:
        print(f"| {' | '.join(cells)} |")
    print(flush=True)


def best(results):
    """The best speed and the least processor time of some results."""
    found = [it for it in results if it is not None]
    return max(it.speed for it in found), min(sum(it.seconds) for it in found)


def tell_rows(program):
    """The table of stations over UDP."""
    octets, rows = chance_of(44).randbytes(PAGE_SIZE), []
    for title, zone, segment, more, keys in ROWS:
        own, plain = [], []
        for _ in range(PAGE_RUNS):
            plain.append(by_plain(program, octets, zone, segment))
            own.append(by_stations(program, octets, zone, segment, more, keys))
        (speed, spent), (plain_speed, plain_spent) = best(own), best(plain)
        row = [title, f"{1000 * spent:.0f} ms", f"{1000 * plain_spent:.0f} ms"]
        row += [f"{spent / plain_spent:.2f}", f"{speed:.0f} MB/s", f"{plain_speed:.0f} MB/s"]
        rows.append([*row, f"{speed / plain_speed:.2f}"])
    table(["Setting", "Processor", "plain", "Ratio", "Speed", "plain", "Ratio"], rows)


def tell_keyed(program):
    """The table of stations with keys, beside the same without."""
    octets, rows = chance_of(44).randbytes(PAGE_SIZE), []
    for title, zone, segment in KEYED_ROWS:
        plain, keyed = [], []
        for _ in range(PAGE_RUNS):
            plain.append(by_stations(program, octets, zone, segment))
            keyed.append(by_stations(program, octets, zone, segment, words_of=secured))
        (speed, spent), (plain_speed, plain_spent) = best(keyed), best(plain)
        row = [title, f"{1000 * spent:,.0f} ms", f"{1000 * plain_spent:,.0f} ms"]
        rows.append([*row, f"{speed:.0f} MB/s", f"{plain_speed:.0f} MB/s"])
    table(["Setting", "Processor", "without keys", "Speed", "without keys"], rows)


def counted(path):
    """The instructions of a run by function, which stand in a file of callgrind."""
    words = ["callgrind_annotate", "--threshold=100", path]
    text = subprocess.run(words, capture_output=True, check=True).stdout.decode()
    line = re.compile(r"^ *([\d,]+) \([^)]*\)  [^:\n]*:(.*?) \[[^\]\n]*\]$", re.M)
    found = collections.Counter()
    for count, name in line.findall(text):
        found[re.sub("::<.*", "", name).removeprefix("__")] += int(count.replace(",", ""))
    return found


def watched(folder, end, path):
    """A program that runs the other one under callgrind, and the file with what that counts."""
    program, file = f"{folder}/{end}.sh", f"{folder}/{end}.out"
    with open(program, "w", encoding="ascii") as it:
        tool = f"valgrind --tool=callgrind --callgrind-out-file={file}"
        it.write(f'#!/bin/sh\nexec {tool} {path} "$@" 2>/dev/null\n')
    os.chmod(program, 0o755)
    return program, file


def under_callgrind(program, octets, zone, segment, end):
    """The instructions by function of the station at this end of a transfer. The other one runs as
    it does otherwise, so that either waits for as little as it can."""
    settings = {**PATIENT, **UNCHECKED, "zone": zone, "segment": segment}
    with Link(program) as link:
        slow, file = watched(link.folder, end, program.path)
        paths = {end: slow, 3 - end: program.path}
        words, started = [*link.puts(1, {"a": octets}), "--idle", "2", "--rate", "0"], []
        for own, those in ((2, ["--inbox", "to", "--idle", "4", "--rate", "0"]), (1, words)):
            link.program = types.SimpleNamespace(path=paths[own])
            started.append(link.starts(own, those, settings))
        for it in started:
            it.ended()
        link.program = program
        return counted(file)


def by_plain_stack(program, zone, segment, size):
    """How many instructions plain_stack.c needs for a file, both ends together."""
    with tempfile.TemporaryDirectory(dir=program.room) as folder:
        plain = f"{folder}/plain_stack"
        words = [os.environ.get("CC", "cc"), "-O3", "-march=x86-64-v2", "-o", plain]
        subprocess.run([*words, f"{C}/plain_stack.c"], check=True)
        slow, file = watched(folder, 0, plain)
        subprocess.run([slow, str(zone), str(segment), str(size)], check=True, capture_output=True)
        return sum(counted(file).values())


def short(name):
    """The crate of a function, its type and its own name; of the C library the name alone."""
    words = name.split("::")
    return f"{words[0]} `{'::'.join(words[1:][-2:])}`" if words[1:] else f"`{name}`"


def greatest(found, pdus):
    """The functions that most instructions are of, with how many for a PDU."""
    most = found.most_common(MOST_TOLD)
    return ", ".join(f"{short(it)} {count / pdus:,.0f}" for it, count in most)


def tell_instructions(program):
    """The tables of instructions for a PDU, with the functions that most of them are of."""
    rows, parts = [], []
    for zone, segment, size in COUNTED:
        octets, pdus = chance_of(45).randbytes(size), -(-size // segment)
        ends = [
            under_callgrind(program, octets, zone, segment, end)
            - under_callgrind(program, octets[:segment], zone, segment, end)
            for end in (1, 2)
        ]
        plain = by_plain_stack(program, zone, segment, size)
        plain -= by_plain_stack(program, zone, segment, segment)
        own, pdus = [sum(it.values()) for it in ends], pdus - 1
        row = [f"{zone:,}", f"{segment:,}", *(f"{it / pdus:,.0f}" for it in (*own, plain))]
        rows.append([*row, f"{sum(own) / plain:.2f}"])
        for title, found in zip(("sender", "receiver"), ends):
            parts.append([f"{zone:,}, {segment:,}, {title}", greatest(found, pdus)])
    table(["Zone", "Segment", "Sender", "Receiver", "`plain_stack.c`", "Ratio"], rows)
    table(["Zone, segment, station", "Instructions of a PDU"], parts)


def tell_turns(program):
    """The table of turns."""
    turns.preload(program)
    rows = [*turns.both_ways(program), *turns.asked_for(program)]
    table(["Load", "Longest turn", "over 1 ms", "over 5 ms", "over 10 ms"], rows)


def tell_page(program):
    """Prints the tables of docs/SPEED.md."""
    tell_rows(program)
    tell_keyed(program)
    tell_instructions(program)
    tell_turns(program)


def main(words):
    is_page = words[:1] == ["--page"]
    words = words[1:] if is_page else words
    path = os.path.abspath(words[0] if words else PROGRAM)
    size = int(float(words[1]) * 1e6) if words[1:] else 100_000_000
    octets = chance_of(43).randbytes(size)
    is_well, memory = True, "/dev/shm" if os.path.isdir("/dev/shm") else None
    with tempfile.TemporaryDirectory(dir=memory) as room:
        program = types.SimpleNamespace(path=path, room=room)
        if is_page:
            tell_page(program)
            return 0
        for title, zone, segment, wanted in CASES:
            own, plain, ratio = compared(program, octets, zone, segment, RUNS)
            print(f"{title}, {datagrams(len(octets), zone, segment)[0]} datagrams")
            print(f"    stations {own or 'not in time'}\n    plain    {plain}")
            print(f"    ratio {ratio:.2f}, and {wanted} is wanted", flush=True)
            is_well &= ratio >= wanted
        for wakes, spent, whose in rests(program):
            print(f"{whose} wakes {wakes:.1f} times a second, processor {spent:.2f} of 5 s")
            is_well &= wakes < 20 and spent <= 0.5
    return 0 if is_well else 1


if __name__ == "__main__":
    sys.exit(main(sys.argv[1:]))
