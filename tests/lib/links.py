"""Links between two stations: a relay that holds, loses and notes frames, and what floods one."""
import re
import select
import socket
import struct
import subprocess
import sys
import tempfile
import threading
import time

from lib.paths import TESTS
from lib.ports import ALONE, free_ports
from lib.processes import PATIENT, Watched, processor_seconds, put, wakes_of
from lib.waiting import waits_for

# What a relay is sent to see what came before.
MARK = b"what came before?"

# The option of a socket by which the kernel tells when each datagram came.
SO_TIMESTAMPNS = 35


class Relay:
    """A link between stations 1 and 2: each has one of its sockets for its peer. What comes from a
    station goes on to the other one where `passes`, a function of that station and the frame, says
    so; while it `holds`, all waits. `came` has when each frame came, from whom, and the frame."""

    def __init__(self, passes=lambda own, frame: True):
        ports = free_ports(4)
        self.listens = dict(zip((1, 2), ports[:2]))
        self.faces = dict(zip((1, 2), ports[2:]))
        self.passes, self.holds, self.is_over = passes, False, False
        self.came, self.held, self.lock, self.marked = [], [], threading.Lock(), []
        self.sockets = {own: bound(self.faces[own]) for own in (1, 2)}
        self.thread = threading.Thread(target=self.run, daemon=True)
        self.thread.start()

    def ports_of(self, own):
        """The ports that a station is told: its own, and that of its peer."""
        return {own: self.listens[own], 3 - own: self.faces[own]}

    def run(self):
        owns = {it: own for own, it in self.sockets.items()}
        while not self.is_over:
            for it in select.select(list(owns), [], [], 0.1)[0]:
                self.take(owns[it])

    def take(self, own):
        """Takes all that came from a station."""
        while not self.is_over:
            try:
                frame, more, _, _ = self.sockets[own].recvmsg(65536, 64)
            except BlockingIOError:
                return
            if frame == MARK:
                self.marked.append(own)
                continue
            self.came.append((time_of(more), own, frame))
            with self.lock:
                if self.holds:
                    self.held.append((own, frame))
                elif self.passes(own, frame):
                    self.give(3 - own, frame)

    def give(self, own, frame):
        """Gives a station a frame, as from its peer."""
        self.sockets[own].sendto(frame, ("127.0.0.1", self.listens[own]))

    def release(self):
        """Gives on what was held back, and holds no more."""
        with self.lock:
            self.holds = False
            self.give_first(len(self.held))

    def release_first(self, count):
        """Gives on the first frames that were held back, so many, and goes on to hold."""
        with self.lock:
            self.give_first(count)

    def give_first(self, count):
        for own, frame in self.held[:count]:
            self.give(3 - own, frame)
        del self.held[:count]

    def catches_up(self):
        """Waits until it has noted all that was sent to it so far."""
        seen = len(self.marked)
        for own, it in self.sockets.items():
            it.sendto(MARK, ("127.0.0.1", self.faces[own]))
        waits_for(lambda: len(self.marked) >= seen + 2)

    def first(self, since=0.0):
        """When the first frame came since then, or None."""
        return next((when for when, _, _ in list(self.came) if when >= since), None)

    def close(self):
        self.is_over = True
        self.thread.join()
        for it in self.sockets.values():
            it.close()


def bound(port):
    """A socket at this port that doesn't wait, holds much, and tells when each datagram came."""
    it = socket.socket(socket.AF_INET, socket.SOCK_DGRAM)
    it.setsockopt(socket.SOL_SOCKET, socket.SO_RCVBUF, 4 << 20)
    it.setsockopt(socket.SOL_SOCKET, SO_TIMESTAMPNS, 1)
    it.setblocking(False)
    it.bind(("127.0.0.1", port))
    return it


def time_of(messages):
    """When a datagram came, as the kernel tells it."""
    for level, kind, octets in messages:
        if (level, kind) == (socket.SOL_SOCKET, SO_TIMESTAMPNS):
            seconds, parts = struct.unpack("qq", octets[:16])
            return seconds + parts / 1e9
    return time.time()


class Link:
    """A folder in which stations run, one at each end of a relay, or without one with sockets of
    their own alone. At the end all of them are killed."""

    def __init__(self, program, relay=None):
        self.program, self.relay, self.started = program, relay, []
        self.ports = None if relay else dict(zip((1, 2), free_ports(2)))

    def __enter__(self):
        self.room = tempfile.TemporaryDirectory(dir=self.program.room)
        self.folder = self.room.name
        return self

    def __exit__(self, *_):
        for it in self.started:
            it.killed()
        if self.relay:
            self.relay.close()
        self.room.cleanup()

    def starts(self, end, words, settings=None, ids=None, waits=True, faults="", **ways):
        """Starts a station at an end of the link, 1 or 2, which is its id if no other is said; and
        waits until it has its socket."""
        ports = self.ports or self.relay.ports_of(end)
        own, peer = ids or (end, 3 - end)
        named = {own: ports[end], peer: ports[3 - end]}
        if faults:
            ways["env"] = {"PATH": "/usr/bin:/bin", **self.program.faulty(faults)}
        it = Watched(self.program, self.folder, own, peer, named, words, settings or {}, **ways)
        self.started.append(it)
        if waits:
            it.comes_up()
        return it

    def puts(self, end, files):
        """Puts files to send into a station's folder; gives the words for them."""
        for name, octets in files.items():
            put(self.folder, end, name, octets)
        return ["--outbox", "from", *(it for name in files for it in ("--put", name, name))]


class Flood:
    """A datagram that is sent so many times a second while a block runs, by a process of its own:
    from each of these sockets to the port beside it."""

    def __init__(self, octets, rate, ways):
        self.fds = [it.fileno() for it, _ in ways]
        pairs = [f"{fd}:{port}" for fd, (_, port) in zip(self.fds, ways)]
        self.words = [sys.executable, f"{TESTS}/lib/flood.py", str(rate), octets.hex(), *pairs]

    def __enter__(self):
        with ALONE:
            self.process = subprocess.Popen(self.words, pass_fds=self.fds)

    def __exit__(self, *_):
        self.process.kill()
        self.process.wait()


def internet_checksum(octets):
    """The checksum of the Internet's protocols, of an even number of octets."""
    total = sum(struct.unpack(f">{len(octets) // 2}H", octets))
    while total >> 16:
        total = (total & 0xFFFF) + (total >> 16)
    return ~total & 0xFFFF


def report_of(port, peer):
    """What the network says if nobody listens at the peer's port: an ICMP message (port
    unreachable), with the headers of a datagram that was sent from this port."""
    here = socket.inet_aton("127.0.0.1")
    ip = struct.pack(">BBHHHBBH4s4s", 0x45, 0, 44, 1, 0, 64, socket.IPPROTO_UDP, 0, here, here)
    rest = bytes(4) + ip + struct.pack(">HHHH", port, peer, 24, 0)
    return struct.pack(">BBH", 3, 3, internet_checksum(struct.pack(">BBH", 3, 3, 0) + rest)) + rest


class Reports:
    """Forged reports, from an address of neither station, that a station's peer can't be reached:
    so many a second while a block runs. Only a privileged user can send them."""

    def __init__(self, port, peer, rate):
        self.octets, self.pause, self.is_over = report_of(port, peer), 1 / rate, threading.Event()
        self.thread = threading.Thread(target=self.run, daemon=True)

    def run(self):
        with socket.socket(socket.AF_INET, socket.SOCK_RAW, socket.IPPROTO_ICMP) as it:
            it.bind(("127.0.0.9", 0))
            while not self.is_over.wait(self.pause):
                it.sendto(self.octets, ("127.0.0.1", 0))

    def __enter__(self):
        self.thread.start()

    def __exit__(self, *_):
        self.is_over.set()
        self.thread.join()


def answered(relay, width=4):
    """The transactions of whose Finisheds station 1 sent an ACK, whose numbers have this width."""
    octets = b"".join(frame[8:] for _, own, frame in list(relay.came) if own == 1)
    ids = b"%c\x00\x01(%b)\x00\x02\x06\x51" % (0x0F + width, b"." * width)
    found = re.findall(b"(?s)" + ids, octets)
    return {int.from_bytes(it, "big") for it in found}


def rests(program):
    """How often stations wake in a second that have nothing to do, or a put whose peer isn't there,
    for how long they have a processor in 5 s, and which station it is."""
    with Link(program) as link, Link(program) as other:
        three = [link.starts(own, ["--inbox", "to"]) for own in (1, 2)]
        three += [other.starts(1, other.puts(1, {"a": b"hello"}), PATIENT)]
        time.sleep(2)
        before = [(wakes_of(it), processor_seconds(it)) for it in three]
        time.sleep(5)
        now = [(wakes_of(it), processor_seconds(it)) for it in three]
        names = ("station 1 at rest", "station 2 at rest", "a station whose peer isn't there")
        return [((b[0] - a[0]) / 5, b[1] - a[1], it) for a, b, it in zip(before, now, names)]


def deaf_to_answers(own, frame):
    """A link on which nothing comes from station 2."""
    return own == 1
