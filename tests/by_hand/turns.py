#!/usr/bin/env python3
"""How long the turns of a station take that has as many transactions as it can have.

    tests/by_hand/turns.py             by crates/cfdp_node/out/cfdp_node, which `rt ci` leaves
    tests/by_hand/turns.py PROGRAM     by another program

It takes some two minutes. `c/turns.c` says how a turn is measured, by
the time for which the station had a processor, so that it may run on a busy machine.

1. Two stations send each other 2,048 files of 1 MiB at a time, at any rate: each has 4,096
   transactions. What comes isn't kept.
2. The peer asks a station that sends 3,072 files at a time for every second octet of each, in as
   many pairs as a NAK has room for, and answers nothing else.
"""
import os
import re
import struct
import subprocess
import sys
import tempfile
import time
import types

sys.path.insert(0, os.path.dirname(os.path.dirname(os.path.abspath(__file__))))
from lib.frames import frame_of
from lib.links import Link, Relay
from lib.paths import C, PROGRAM
from lib.processes import PATIENT, put

# Files each way of the first load, their octets, and for how many seconds it may run.
EACH_WAY, SIZE, SECONDS = 2048, 1 << 20, 300

# Files of the second load, pairs of a NAK (its packet has 65,536 octets at most: 16 of the header,
# 9 in front of the pairs, 8 a pair), and for how many seconds it is answered.
ASKED, PAIRS, ANSWERS = 3072, 8188, 30

# The octets of a zone and of a segment.
ZONE, SEGMENT = 2040, 4096

# The channel and the APID of what comes to station 1, and the pointer where no packet begins.
CHANNEL, APID, NO_START = 6, 101, 2047


def preload(program):
    """Makes the library that measures turns."""
    program.preload = f"{program.room}/turns.so"
    words = [os.environ.get("CC", "cc"), "-O2", "-Wall", "-Werror", "-shared", "-fPIC"]
    subprocess.run([*words, "-o", program.preload, f"{C}/turns.c", "-ldl"], check=True)


def measured(folder, own, title):
    """What was measured of a station's turns, as a row of a table."""
    with open(f"{folder}/{own}/turns", encoding="ascii") as it:
        longest, calls, *longer = (int(word) for word in it.read().split())
    return [title, f"{longest / 1000:.2f} ms", *(f"{it:,} of {calls:,}" for it in longer)]


def files(folder, own, count, octets):
    """Puts so many files into a station's folder, which are links to one; gives the words."""
    put(folder, own, "f0", octets)
    for number in range(1, count):
        os.link(f"{folder}/{own}/from/f0", f"{folder}/{own}/from/f{number}")
    names = (f"f{number}" for number in range(count))
    return ["--outbox", "from", *(word for name in names for word in ("--put", name, name))]


def both_ways(program):
    """Two stations send each other files: a row for each."""
    settings = {**PATIENT, "zone": ZONE, "segment": SEGMENT}
    with Link(program) as link:
        env = {"PATH": "/usr/bin:/bin", "LD_PRELOAD": program.preload, "SWALLOW": "1"}
        octets, start, those = os.urandom(SIZE), time.time(), []
        for own in (1, 2):
            words = files(link.folder, own, EACH_WAY, octets)
            words += ["--inbox", "to", "--rate", "0", "--at-once", str(EACH_WAY), "--idle", "4"]
            those.append(link.starts(own, words, settings, waits=False, env=env))
        for it in those:
            try:
                it.process.wait(max(1.0, start + SECONDS - time.time()))
            except subprocess.TimeoutExpired:
                print(f"turns: station {it.own} isn't done in {SECONDS} s", file=sys.stderr)
        for it in those:
            done = it.text("stdout").count(" 0 complete retained")
            title = f"{EACH_WAY:,} files of 1 MiB each way, station {it.own}, {done:,} complete"
            yield measured(link.folder, it.own, title)


def nak(number):
    """A NAK of a transaction of station 1, for each second octet."""
    pairs = b"".join(struct.pack(">II", 2 * it, 2 * it + 1) for it in range(PAIRS))
    data = struct.pack(">BII", 8, 0, 2 * PAIRS) + pairs
    return struct.pack(">BHBHQH", 0x28, len(data), 0x17, 1, number, 2) + data


def frames_of(pdus):
    """The frames with these PDUs, each in a packet, the packets end to end."""
    stream, starts, taken = b"", [], 0
    for count, pdu in enumerate(pdus):
        starts.append(taken + len(stream))
        stream += struct.pack(">HHH", APID, 0xC000 | count % 16384, len(pdu) - 1) + pdu
        while len(stream) >= ZONE:
            first = [it - taken for it in starts if taken <= it < taken + ZONE]
            starts = [it for it in starts if it >= taken + ZONE]
            pointer = first[0] if first else NO_START
            head = frame_of(CHANNEL, taken // ZONE, b"")
            yield head[:6] + struct.pack(">H", pointer) + stream[:ZONE]
            stream, taken = stream[ZONE:], taken + ZONE


def asked_for(program):
    """A station is asked for every second octet of each file that it sends: a row."""
    slow = {"eof_time": 60, "inactivity_time": 1000, "zone": ZONE, "segment": SEGMENT}
    with Link(program, Relay(lambda own, frame: False)) as link:
        env = {"PATH": "/usr/bin:/bin", "LD_PRELOAD": program.preload}
        words = files(link.folder, 1, ASKED, bytes(2 * PAIRS))
        words += ["--rate", "0", "--at-once", str(ASKED)]
        station = link.starts(1, words, slow, env=env)
        end = time.time() + 60
        while station.text("stdout").count("eof-sent") < ASKED and time.time() < end:
            time.sleep(0.2)
        numbers = re.findall(r" transaction 1:(\d+)", station.text("stdout"))
        count = 0
        for count, frame in enumerate(frames_of(nak(int(it)) for it in numbers), 1):
            link.relay.give(1, frame)
            time.sleep(0.002 if count % 33 == 0 else 0)
            link.relay.came.clear()
        for _ in range(ANSWERS):
            time.sleep(1)
            link.relay.came.clear()
        title = f"{len(numbers):,} NAKs of {PAIRS:,} pairs in {count:,} frames"
        yield measured(link.folder, 1, title)


def main(words):
    path = os.path.abspath(words[0] if words else PROGRAM)
    memory = "/dev/shm" if os.path.isdir("/dev/shm") else None
    with tempfile.TemporaryDirectory(dir=memory) as room:
        program = types.SimpleNamespace(path=path, room=room)
        preload(program)
        print("load | longest turn | over 1 ms | over 5 ms | over 10 ms")
        for load in (both_ways, asked_for):
            for row in load(program):
                print(" | ".join(row), flush=True)


if __name__ == "__main__":
    main(sys.argv[1:])
