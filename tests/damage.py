"""Frames with the fields that links have, over a link that turns bits on the way."""
import binascii
import time

from lib.choices import chance_of
from lib.links import Link, Relay
from lib.processes import PATIENT, files_at, note_mistakes

# How often a bit is turned.
RATE = 1e-5

# Octets of a bare frame's headers, of an operational control field, and of a check.
HEADERS, CONTROL, CHECK = 8, 4, 2

# Which fields the frames of each station have, where both directions differ in all of them: octets
# of an insert zone, an operational control field, error control.
FIELDS = {1: (5, 1, 1), 2: (0, 0, 1)}

KEYS = ("insert_zone", "control_field", "error_control")


def settings_of(own, fields):
    """What a station is told of the fields of the frames that it sends, and of its peer's."""
    ours = {key: value for key, value in zip(KEYS, fields[own])}
    theirs = {f"peer_{key}": value for key, value in zip(KEYS, fields[3 - own])}
    return {**PATIENT, **ours, **theirs}


def frame_mistakes(own, frame, fields, zone):
    """What is wrong with a frame that a station sent, by these words alone."""
    insert, control, check = fields[own]
    bare = HEADERS + zone
    if len(frame) != bare + insert + CONTROL * control + CHECK * check:
        yield f"a frame of station {own} has {len(frame)} octets"
    if any(frame[6 : 6 + insert]):
        yield f"an insert zone of station {own} is {frame[6:6 + insert].hex()}"
    if control and any(frame[bare + insert : bare + insert + CONTROL]):
        yield f"a control field of station {own} is no zeros: {frame[bare + insert:].hex()}"
    if check and binascii.crc_hqx(frame[:-CHECK], 0xFFFF) != int.from_bytes(frame[-CHECK:], "big"):
        yield f"a frame of station {own} has the check {frame[-CHECK:].hex()}"


class Damaging(Relay):
    """A relay that turns bits at this rate; `damaged` has how many frames it changed."""

    def __init__(self, rate, seed):
        self.chance, self.rate, self.damaged = chance_of(seed), rate, 0
        super().__init__()

    def give(self, own, frame):
        turned = int.from_bytes(frame, "big")
        place = -1
        while True:
            place += 1 + int(self.chance.expovariate(self.rate))
            if place >= 8 * len(frame):
                break
            turned ^= 1 << place
        came = turned.to_bytes(len(frame), "big")
        self.damaged += came != frame
        super().give(own, came)


class Renaming(Relay):
    """A relay that turns a bit of the destination's name in the first frame that has the name
    twice, as Metadata have it. `turned` says whether that frame came."""

    def __init__(self, name):
        self.names, self.turned = 2 * (bytes([len(name)]) + name), False
        super().__init__()

    def give(self, own, frame):
        end = frame.find(self.names) + len(self.names)
        if not self.turned and end >= len(self.names):
            frame = frame[: end - 1] + bytes([frame[end - 1] ^ 1]) + frame[end:]
            self.turned = True
        super().give(own, frame)


def renamed_mistakes(program):
    """What is wrong where a bit of a file's name is turned and frames have no error control: the
    file has to come under its own name alone."""
    files = {"config": b"hello" * 1000}
    with Link(program, Renaming(b"config")) as link:
        receiver = link.starts(2, ["--inbox", "to"], PATIENT)
        sender = link.starts(1, [*link.puts(1, files), "--idle", "5"], PATIENT)
        status, out, err = sender.ended()
        if status or not out.endswith("complete 1 of 1\n"):
            yield f"the sender: status {status}, {out!r}, {err!r}"
        if files_at(link.folder, 2) != files:
            yield f"what came is {sorted(files_at(link.folder, 2))}"
        if not link.relay.turned:
            yield "no frame with the names came"
        receiver.killed()


def damage_mistakes(program, rate, zone, count):
    """What is wrong where so many files go each way over a link that turns bits."""
    chance = chance_of(64)
    with Link(program, Damaging(rate, 64)) as link:
        files = {own: {f"{own}{number}": chance.randbytes(chance.randrange(1, 40_000))
                       for number in range(count)} for own in (1, 2)}
        words = {own: link.puts(own, files[own]) + ["--inbox", "to", "--idle", "20"]
                 for own in (1, 2)}
        sets = {own: {**settings_of(own, FIELDS), "zone": zone} for own in (1, 2)}
        both = [link.starts(own, words[own], sets[own]) for own in (1, 2)]
        for it in both:
            status, out, err = it.ended()
            if status or not out.endswith(f"complete {count} of {count}\n"):
                yield f"station {it.own}: status {status}, {out[-300:]!r}, {err[-300:]!r}"
            if "dropped: the frame was damaged on the way" not in err:
                yield f"station {it.own} tells of no damage, but {err[-300:]!r}"
        for own in (1, 2):
            if files_at(link.folder, own) != files[3 - own]:
                yield f"what came to station {own} isn't what was sent"
        for _, own, frame in list(link.relay.came):
            yield from frame_mistakes(own, frame, FIELDS, zone)
        if not link.relay.damaged:
            yield "no frame was damaged"


def misfit_mistakes(program):
    """What is wrong where only one end has error control: nothing that comes is taken, and both
    ends say so."""
    differs = ("error control {} the peer differs: 0 at the peer, 1 here",
               "error control {} the peer differs: 1 at the peer, 0 here")
    yield from untaken_mistakes(program, (0, 0, 0), (0, 0, 1), None, differs)
    # Frames of one length: the last two octets of the zone aren't its check.
    yield from untaken_mistakes(program, (2, 0, 0), (0, 0, 1), "the frame was damaged", ())


def untaken_mistakes(program, sent, taken, why, differs):
    """What is wrong where station 1 sends frames with other fields than station 2 takes: it says
    why it drops them, unless beacons say in what the stations differ."""
    none = (0, 0, 0)
    with Link(program, Relay()) as link:
        sets = {1: settings_of(1, {1: sent, 2: none}), 2: settings_of(2, {1: taken, 2: none})}
        receiver = link.starts(2, ["--inbox", "to"], {**sets[2], "zone": 256})
        sender = link.starts(1, link.puts(1, {"a": b"hello"}), {**sets[1], "zone": 256})
        since = time.time()
        if why:
            yield from note_mistakes(receiver, rf"\d+ dropped: {why}", since, 5)
        for it, way, told in zip((receiver, sender), ("from", "to"), differs):
            yield from note_mistakes(it, told.format(way), since, 10)
        if files_at(link.folder, 2):
            yield "a file came"


def all_mistakes(program):
    """What is tried, with what is wrong in it."""
    yield "bits turned at 1e-5, zones of 256", damage_mistakes(program, RATE, 256, 10)
    yield "bits turned at 1e-5, zones of 2040", damage_mistakes(program, RATE, 2040, 10)
    yield "bits turned at 1e-4, zones of 256", damage_mistakes(program, 1e-4, 256, 5)
    yield "error control at one end", misfit_mistakes(program)
    yield "a bit turned in a file's name", renamed_mistakes(program)
