"""How fast two stations send a file, and a plain program that sends as many datagrams as long.

The stations send at any rate. A time goes from the start of the sender's process until the file is
published, and for plain.c until its receiver ends; plain.c says what both have in common.
"""
import os
import subprocess
import tempfile
import time

from lib.links import Link
from lib.paths import C
from lib.ports import free_ports, is_bound
from lib.processes import PATIENT, files_at, processor_seconds
from lib.waiting import SECONDS, waits_for

# What is set, the octets of a zone and of a segment, and the ratio that is wanted.
CASES = (
    ("zone 2040, segment 4096", 2040, 4096, 0.5),
    ("the defaults", 256, 1024, 0.3),
)

# No station's PDUs have a CRC here, since the plain program checks nothing either.
UNCHECKED = {"pdu_crc": 0}

# How many datagrams are on their way at most, where the plain sender has to be paced.
WINDOW = 32

# Octets of a PDU beside those of the file (4 of the header, ids of 2, a number of 8, an offset of
# 4), of a packet, and of a frame beside its zone.
PDU_HEADER, PACKET_HEADER, FRAME_HEADER = 20, 6, 8


class Result:
    """How fast a file came, for how long both processes had a processor, and how many datagrams
    were on their way at most, where that was limited."""

    def __init__(self, size, seconds, sender, receiver, window=0):
        self.speed, self.seconds, self.window = size / 1e6 / seconds, (sender, receiver), window

    def __str__(self):
        paced = f", {self.window} on their way" if self.window else ""
        spent = f"{self.seconds[0]:.2f} and {self.seconds[1]:.2f} s"
        return f"{self.speed:7.1f} MB/s, processor {spent}{paced}"


def datagrams(size, zone, segment):
    """How many frames carry the data of a file, and how long they are."""
    pdus = -(-size // segment)
    octets = size + pdus * (PDU_HEADER + PACKET_HEADER)
    return -(-octets // zone), zone + FRAME_HEADER


def by_stations(program, octets, zone, segment, more=(), keys=None, seconds=SECONDS,
                words_of=lambda link, own: []):
    """How two stations send these octets, with more words for the sender, more keys of `--set`, and
    words for each; None where they don't in time."""
    settings = {**PATIENT, **UNCHECKED, **(keys or {}), "zone": zone, "segment": segment}
    both = ["--rate", "0", *(("--unit", "ms") if keys else ())]
    with Link(program) as link:
        words = [*link.puts(1, {"a": octets}), *words_of(link, 1)]
        receiver = link.starts(2, ["--inbox", "to", *both, *words_of(link, 2)], settings)
        start = time.time()
        sender = link.starts(1, [*words, *both, *more], settings, waits=False)
        ended = receiver.comes_to("finished .* 0 complete retained", seconds)
        if ended is None or files_at(link.folder, 2) != {"a": octets}:
            return None
        sender.comes_to("finished", seconds)
        time.sleep(0.05)
        spent = [processor_seconds(it) for it in (sender, receiver)]
    return Result(len(octets), ended - start, *spent)


def run_plain(plain, folder, count, length, window):
    """How the plain program sends a file, and how many datagrams came."""
    number = free_ports(1)[0]
    port = str(number)
    pipes = {"stdout": subprocess.PIPE, "cwd": folder}
    receiver = subprocess.Popen([plain, "receive", port, "b"], **pipes)
    waits_for(lambda: is_bound(number))
    start = time.time()
    words = [plain, "send", port, "a", str(count), str(length), str(window)]
    sender = subprocess.Popen(words, **pipes)
    came, spent = receiver.communicate()[0].split()
    ended = time.time()
    sent = sender.communicate()[0].split()
    return ended - start, float(sent[1]), float(spent), int(came)


def by_plain(program, octets, zone, segment):
    """The same of the plain program; it is paced where it loses data otherwise."""
    count, length = datagrams(len(octets), zone, segment)
    with tempfile.TemporaryDirectory(dir=program.room) as folder:
        plain = f"{folder}/plain"
        words = [os.environ.get("CC", "cc"), "-O2", "-Wall", "-Werror", "-o", plain]
        subprocess.run([*words, f"{C}/plain.c"], check=True)
        with open(f"{folder}/a", "wb") as it:
            it.write(octets)
        for window in (0, WINDOW):
            seconds, sender, receiver, came = run_plain(plain, folder, count, length, window)
            if came == count:
                break
        with open(f"{folder}/b", "rb") as it:
            if it.read() != octets:
                raise OSError("the plain program lost data")
    return Result(len(octets), seconds, sender, receiver, window)


def middle(results):
    """The one of some results that has the middle speed."""
    return sorted(results, key=lambda it: it.speed)[len(results) // 2]


def compared(program, octets, zone, segment, runs=1):
    """Both, of so many runs each, and the ratio of the stations' speed to the plain program's."""
    plain = [by_plain(program, octets, zone, segment) for _ in range(runs)]
    own = [by_stations(program, octets, zone, segment) for _ in range(runs)]
    if None in own:
        return None, middle(plain), 0.0
    return middle(own), middle(plain), middle(own).speed / middle(plain).speed
