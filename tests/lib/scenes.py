"""Two stations with somebody between them who holds all frames, and what is forged there."""
import contextlib
import os
import re
import typing

from lib import forging
from lib.control import asked, controlled, counted
from lib.forging import eof, file_data, finished, metadata, whole_file
from lib.frames import DIRECTIVES, FILE_DATA
from lib.links import Link
from lib.processes import PATIENT, files_at
from lib.waiting import waits_for

# The file that station 1 sends, and one that it never sent, under a number that it never used.
NAME, FILE, EVIL, OTHER = "a", b"hello", b"evil", 7

# After so many seconds of silence a transaction ends: never in a test, or soon if a test waits for
# it.
NEVER, SOON = 100_000, 5

# What a sender tells of a file that is whole at its peer, and a receiver of the same file.
BEGUN = ("transaction ID", "eof-sent ID")
WHOLE = "finished ID 0 complete retained"
UNHEARD = (*BEGUN, "fault ID 8", "finished ID 8 incomplete unreported")
SENT, TAKEN = (*BEGUN, WHOLE), (f"metadata ID {NAME} {NAME} 5", "eof-recv ID", WHOLE)


class Outcome(typing.NamedTuple):
    """What both stations told, without the number of the transaction, and what the inbox has."""

    sender: tuple
    receiver: tuple
    inbox: dict


class Scene:
    """Two stations, of which station 1 has a file to send. Between them somebody holds all frames
    back, for as long as it takes to forge others."""

    def __init__(self, program, link, form, settings=None):
        self.program, self.link, self.form, self.relay = program, link, form, link.relay
        self.settings = settings or PATIENT | {"inactivity_time": NEVER}
        self.stations, self.ports, self.number = {}, {}, None

    def starts(self, own, words):
        """Starts a station, with its keys if frames have a MAC."""
        if self.form.mac:
            path = f"{self.link.folder}/{own}.keys"
            if not os.path.exists(path):
                forging.write_keys(path, own, forging.KEYS)
            words = [*words, "--keys", path]
        settings = self.settings | self.form.settings()
        self.stations[own], self.ports[own] = controlled(self.link, own, words, settings)

    def sends(self, octets=FILE):
        """Starts station 1 with the file, and waits until all of its frames are held back."""
        self.starts(1, self.link.puts(1, {NAME: octets}))
        self.stations[1].comes_to("eof-sent")
        self.relay.catches_up()
        told = re.search(r"eof-sent 1:(\d+)", self.stations[1].text("stdout"))
        self.number = int(told[1])

    def lines(self, own):
        """What a station told, with ID for the transaction."""
        text = self.stations[own].text("stdout").replace(f"1:{self.number}", "ID")
        return tuple(line[2:] for line in text.splitlines())

    def outcome(self):
        return Outcome(self.lines(1), self.lines(2), files_at(self.link.folder, 2))

    def differs(self, wanted):
        """What is wrong where this is to come out."""
        if not waits_for(lambda: self.outcome() == wanted):
            yield f"it came out as {self.outcome()}"

    def counters(self, own):
        """The counters of a station, and by their names what it dropped."""
        text = asked(self.program, self.ports[own], "counters")[1]
        dropped = re.findall(r"(?m)^dropped \S+ \d+ (\S+) (\d+)$", text)
        return counted(text) | {name: int(count) for name, count in dropped}

    def counts(self, own, wanted):
        """What is wrong where a station is to count this."""
        are_so = lambda: {it: self.counters(own).get(it, 0) for it in wanted} == wanted
        if not waits_for(are_so):
            yield f"station {own} is to count {wanted}, and counts {self.counters(own)}"


@contextlib.contextmanager
def scene(program, form=forging.Form(), octets=FILE, silence=NEVER):
    """A scene in which station 1 sent all frames of its file, and none has reached station 2. After
    so many seconds of silence a transaction ends."""
    with Link(program, forging.Forger()) as link:
        it = Scene(program, link, form, PATIENT | {"inactivity_time": silence})
        it.starts(2, ["--inbox", "to"])
        link.relay.holds = True
        it.sends(octets)
        yield it


class Forgery(typing.NamedTuple):
    """PDUs that are forged, by the number of the file; the station that is given them; whether the
    link goes on then; and what comes out."""

    title: str
    pdus: typing.Callable
    own: int
    goes_on: bool
    outcome: Outcome


FORGERIES = (
    Forgery(
        "a Finished: the sender believes it",
        lambda number: [finished(number)], 1, False,
        Outcome((*BEGUN, WHOLE), (), {}),
    ),
    Forgery(
        "a Finished that cancels: the file is given up",
        lambda number: [finished(number, 15)], 1, False,
        Outcome((*BEGUN, "finished ID 15 incomplete discarded"), (), {}),
    ),
    Forgery(
        "a whole file: it is published",
        lambda number: whole_file(OTHER, b"evil", EVIL), 2, False,
        Outcome(BEGUN, (f"metadata 1:{OTHER} evil evil 4", f"eof-recv 1:{OTHER}",
                        f"finished 1:{OTHER} 0 complete retained"), {"evil": EVIL}),
    ),
    Forgery(
        "Metadata ahead of the peer's: the file gets their name",
        lambda number: [metadata(number, len(FILE), b"b")], 2, True,
        Outcome(SENT, ("metadata ID b b 5", *TAKEN[1:]), {"b": FILE}),
    ),
    Forgery(
        "an EOF that cancels: the receiver gives the file up, and the sender isn't told",
        lambda number: [metadata(number, len(FILE), b"a"), eof(number, b"", 15)], 2, True,
        Outcome(UNHEARD, (TAKEN[0], "finished ID 15 incomplete discarded"), {}),
    ),
    Forgery(
        "an EOF that cancels, ahead of the file: it is refused, and a note says so",
        lambda number: [eof(number, b"", 15)], 2, True,
        Outcome(UNHEARD, (), {}),
    ),
    Forgery(
        "data without Metadata: a part file lies there",
        lambda number: [file_data(OTHER, b"x", 1_000_000)], 2, False,
        Outcome(BEGUN, (), {f".part-1-{OTHER}": bytes(1_000_000) + b"x"}),
    ),
)


def swapped(frame):
    """A frame of station 1 on its other channel."""
    lanes = {DIRECTIVES: FILE_DATA, FILE_DATA: DIRECTIVES}
    return forging.on_channel(frame, lanes[frame[1] & 63])


def sent_whole(it, octets):
    """Has station 1 send this content, and stop; gives all frames that it sent."""
    seen = len(it.relay.came)
    it.starts(1, it.link.puts(1, {NAME: octets}))
    if it.stations[1].comes_to("finished .* 0 complete retained") is None:
        raise RuntimeError(f"{octets} didn't come: {it.counters(1)}")
    asked(it.program, it.ports[1], "stop", "now")
    it.stations[1].ended()
    it.relay.catches_up()
    return [frame for _, own, frame in it.relay.came[seen:] if own == 1]
