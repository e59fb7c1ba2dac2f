"""A station that stays up: it sends far more files than can be open at once, and its memory and
that of its peer follow what is open, not what was."""
import os
import re
import select
import tempfile
import time
import types

from lib.links import Link
from lib.ports import free_ports
from lib.processes import PATIENT, Station, many_words, put, unheard

# So many puts of one small file each, under a few names; memory is looked at once so many are over.
PUTS, NAMES, EARLY = 100_000, 100, 5_000

# What memory may grow by after that, in octets, and what all may take, in seconds: on a busy
# machine many times what it takes alone.
GROWTH, SECONDS = 2 << 20, 3600


class Counted(Station):
    """A station of which each line that tells that a transaction is over is counted."""

    def __init__(self, *those, **ways):
        super().__init__(*those, **ways)
        self.over, self.rest, self.tail = 0, b"", b""

    def reads(self):
        """Reads what there is of its output; answers whether it still has one."""
        octets = os.read(self.process.stdout.fileno(), 1 << 16)
        *lines, self.rest = (self.rest + octets).split(b"\n")
        ends = b" 0 complete retained"
        self.over += sum(b" finished " in it and it.endswith(ends) for it in lines)
        self.tail = (self.tail + octets)[-1000:]
        return bool(octets)

    def killed(self):
        """Kills it, if it still runs."""
        self.process.kill()
        self.process.wait()

    def begins_anew(self):
        """The most octets of its memory that are in use are counted from now on."""
        with open(f"/proc/{self.process.pid}/clear_refs", "w", encoding="ascii") as it:
            it.write("5")

    def memory(self):
        """The most octets of its memory that were in use."""
        with open(f"/proc/{self.process.pid}/status", encoding="ascii") as it:
            return int(re.search(r"VmHWM:\s+(\d+) kB", it.read())[1]) << 10


def lasting_mistakes(program, puts=PUTS):
    """What is wrong where a station sends so many files, one after another: all are complete, and
    the memory of both stations stays what it was after the first ones. Their files are in memory:
    it isn't the speed of a disk that is tried."""
    memory = "/dev/shm" if os.path.isdir("/dev/shm") else None
    with (
        tempfile.TemporaryDirectory(dir=memory) as room,
        Link(types.SimpleNamespace(path=program.path, room=room)) as link,
    ):
        ends = started(program, link, puts)
        early, stop = None, time.monotonic() + SECONDS
        while ends[0].over < puts and time.monotonic() < stop and drained(ends):
            if early is None and ends[0].over >= EARLY:
                for it in ends:
                    it.begins_anew()
                early = [it.memory() for it in ends]
        late = [it.memory() for it in ends] if early else []
        yield from end_mistakes(ends, puts, stop)
    for own, before, most in zip((1, 2), early or [], late):
        if most > before + GROWTH:
            yield f"station {own} grew from {before} octets of memory to {most}"
    if not early:
        yield f"fewer than {EARLY} files were complete"


def started(program, link, puts):
    """A sender with so many puts, and a receiver."""
    put(link.folder, 1, "f", b"hello\n")
    ports, how = dict(zip((1, 2), free_ports(2))), {"preexec_fn": many_words}
    words = [it for number in range(puts) for it in ("--put", "f", f"d{number % NAMES}")]
    receiver = Counted(program, link.folder, 2, 1, ports, ["--inbox", "to", "--idle", "15"], {})
    receiver.comes_up()
    words = ["--outbox", "from", "--idle", "2", *words]
    sender = Counted(program, link.folder, 1, 2, ports, words, PATIENT, **how)
    link.started += [sender, receiver]
    return sender, receiver


def drained(ends):
    """Reads what the stations tell; answers whether both still do."""
    outputs = {it.process.stdout: it for it in ends}
    return all(outputs[it].reads() for it in select.select(list(outputs), [], [], 1)[0])


def end_mistakes(ends, puts, stop):
    """What is wrong with how the stations end."""
    while time.monotonic() < stop and drained(ends):
        pass
    status, _, err = ends[0].ended()
    wanted = f"complete {puts} of {puts}\n".encode()
    if status or unheard(err) or not ends[0].tail.endswith(wanted):
        yield f"the sender: status {status}, {ends[0].tail[-200:]!r}, {err[-300:]!r}"


def lone_mistakes(program):
    """What tests/run tries with nothing beside it, and what is wrong in it."""
    yield f"{PUTS} files, one after another", lasting_mistakes(program)
