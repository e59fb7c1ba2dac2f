"""What becomes of a station, and of the files of its peer, if PDUs that the peer never sent take
its memory or its table of transactions, or ask for a file again and again."""
import itertools
import resource
import struct
import time

from lib.control import asked, controlled
from lib.forging import Forger, Form, file_data, frames_of, metadata, nak, room_of
from lib.links import Link
from lib.pdus import WHOLE
from lib.peers import Peer, octets_of
from lib.processes import PATIENT, put
from lib.scenes import Scene
from lib.waiting import SECONDS, waits_for

# A station that is given PDUs, one in a datagram.
PDUS = ["--carrier", "pdus", "--inbox", "to"]

# The memory that a station may have, in octets.
MEMORY = 12 << 20

# The most gaps of a file, if no other limit is set, and how many records a table has.
MOST_GAPS, RECORDS = 65_536, 4_096

# The numbers of a file that the peer sends, and of the first one that somebody else sends.
OWN, OTHER = 7, 1_000

# Files are never given up for their silence; and, with the second, a Finished soon is that nobody
# acknowledges.
QUIET = PATIENT | {"inactivity_time": 1_000_000}
HASTY = QUIET | {"finished_limit": 1}


def limited():
    """Limits the memory of the process that is started."""
    resource.setrlimit(resource.RLIMIT_AS, (MEMORY, MEMORY))


class Sender(Peer):
    """A peer that sends one file, while somebody else sends PDUs in its name. What a station
    answers to these is heard by nobody."""

    def __init__(self, link):
        super().__init__("pdus", 1, link.ports)
        self.is_published = False

    def take(self, pdu):
        if struct.unpack_from(">Q", pdu, 6)[0] == OWN:
            self.is_published |= pdu[16:18] == WHOLE
            super().take(pdu)

    def publishes(self, octets):
        """Sends the file, again as long as it isn't published; says whether it was."""
        stop = time.monotonic() + SECONDS
        while not self.is_published and time.monotonic() < stop:
            self.send_file(OWN, b"a", octets)
            self.serve(1, lambda: self.is_published)
        return self.is_published

    def forges(self, pdus):
        """Sends these PDUs, so slowly that none finds the station's socket full."""
        room = 0
        for pdu in pdus:
            while room <= 0:
                room = room_of(self.to[1])
                time.sleep(0.001 * (room <= 0))
            room -= 1
            self.give(pdu)

    def forges_until(self, first, is_so):
        """Sends more and more gaps of a file, from this one on, until this is so."""
        stop = time.monotonic() + SECONDS
        while not is_so() and time.monotonic() < stop:
            self.forges(gaps(10_000, first))
            first += 10_000


def gaps(count, first=0):
    """The PDUs of a file with single octets, each after a gap of one octet."""
    return (file_data(OTHER, b"x", 2 * at + 1) for at in range(first, first + count))


# ---- memory


def memory_mistakes(program):
    """What is wrong if one file takes all memory of a station, by its gaps: that file is given up,
    which is told, and the station goes on."""
    with Link(program) as link:
        words = [*PDUS, "--set", "most_gaps", "0"]
        receiver = link.starts(2, words, QUIET, preexec_fn=limited)
        peer = Sender(link)
        ended = lambda: f"finished 1:{OTHER} 15 incomplete" in receiver.text("stdout")
        peer.forges_until(0, lambda: ended() or receiver.process.poll() is not None)
        if not ended():
            yield f"it isn't given up: {receiver.text('stdout')!r}"
        told = f"note: 1:{OTHER} refused: memory is short, "
        if not waits_for(lambda: told in receiver.text("stderr")):
            yield f"it told {receiver.text('stderr')!r}"
        if not peer.publishes(octets_of(1000)):
            yield f"no further file comes: {receiver.text('stdout')!r}"
        if receiver.process.poll() is not None:
            yield f"it ended: {receiver.ended()}"
        peer.close()


def gaps_mistakes(program):
    """What is wrong if nothing is said of gaps: a file has so many at most, and what would make one
    more is dropped."""
    with Link(program) as link:
        receiver, port = controlled(link, 2, PDUS, QUIET)
        peer = Sender(link)
        dropped = lambda: " NoMemory " in asked(program, port, "counters")[1]
        peer.forges(gaps(MOST_GAPS - 100))
        if dropped():
            yield f"fewer than {MOST_GAPS} gaps are too many"
        peer.forges_until(MOST_GAPS, dropped)
        if not dropped():
            yield f"it has more than {MOST_GAPS} gaps"
        if not peer.publishes(octets_of(1000)):
            yield f"no further file comes: {receiver.text('stdout')!r}"
        if "finished 1:1000" in receiver.text("stdout"):
            yield f"the file ended: {receiver.text('stdout')!r}"
        peer.close()


# ---- the table of transactions


def table_mistakes(program, made, what):
    """What is wrong if somebody begins more files than a table has records: those that are silent
    the longest are given up, and files that begin afterwards are sent and received."""
    with Link(program) as link:
        put(link.folder, 2, "b", b"hello")
        receiver, port = controlled(link, 2, [*PDUS, "--outbox", "from"], HASTY)
        peer = Sender(link)
        told = lambda: "was silent the longest" in receiver.text("stderr")
        numbers, stop = itertools.count(OTHER), time.monotonic() + SECONDS
        peer.forges(made(next(numbers)) for _ in range(RECORDS + 1_000))
        # What was lost on its way comes once more.
        while not told() and time.monotonic() < stop:
            peer.forges(made(next(numbers)) for _ in range(1_000))
            time.sleep(1)
        if not peer.publishes(octets_of(1000)):
            yield f"{what}: no further file comes: {receiver.text('stdout')[-300:]!r}"
        if not told():
            yield f"{what}: it told {receiver.text('stderr')[-300:]!r}"
        asked(program, port, "put", "b", "b")
        if receiver.comes_to("transaction 2:") is None:
            yield f"{what}: it sends no file: {receiver.text('stdout')[-300:]!r}"
        peer.close()


def open_mistakes(program):
    """What is wrong if somebody begins so many files while one of the peer comes: that goes on."""
    octets = octets_of(1000)
    with Link(program) as link:
        receiver = link.starts(2, PDUS, HASTY)
        peer = Sender(link)
        peer.give(metadata(OWN, len(octets), b"a"))
        receiver.comes_to(f"metadata 1:{OWN}")
        for turn in range(20):
            peer.forges(file_data(OTHER + 250 * turn + it, b"x") for it in range(250))
            peer.give(file_data(OWN, octets[turn : turn + 1], turn))
        if not peer.publishes(octets):
            yield f"it isn't published: {receiver.text('stdout')[-300:]!r}"
        if "refused: a was" in receiver.text("stderr"):
            yield f"it told {receiver.text('stderr')[-300:]!r}"
        peer.close()


# ---- requests


def nak_mistakes(program):
    """What is wrong if a whole file is requested by 100 NAKs before any of it is sent: all of it is
    sent once. If all was sent and it is requested again, it is sent again."""
    content = octets_of(10_240)
    with Link(program, Forger()) as link:
        it = Scene(program, link, Form(), QUIET)
        it.starts(2, ["--inbox", "to"])
        link.relay.holds = True
        it.sends(content)
        for turn in (1, 2):
            asked(program, it.ports[1], "suspend", f"1:{it.number}")
            # One more that is dropped, since it is of no file: so all before it were heard.
            naks = [nak(it.number, len(content))] * 100 + [nak(it.number + 1, 1)]
            it.relay.forge(1, frames_of(2, naks))
            yield from it.counts(1, {"Unknown": turn, "file_data_sent_again": 10 * (turn - 1)})
            asked(program, it.ports[1], "resume", f"1:{it.number}")
            yield from it.counts(1, {"file_data_sent": 10, "file_data_sent_again": 10 * turn})


def all_mistakes(program):
    """What is tried, with what is wrong in it."""
    yield "a file that takes all memory", memory_mistakes(program)
    yield "the most gaps of a file, if nothing is said of them", gaps_mistakes(program)
    data = lambda number: file_data(number, b"x")
    named = lambda number: metadata(number, 1, b"b")
    yield "more files than records, by file data", table_mistakes(program, data, "data")
    yield "more files than records, by Metadata", table_mistakes(program, named, "Metadata")
    yield "a file that comes while so many begin", open_mistakes(program)
    yield "100 NAKs of a whole file", nak_mistakes(program)
