"""Somebody who holds the link between two stations with keys, and has none of their keys. What he
sends is refused, and each refusal counted under its name; docs/SECURITY.md says what he can do."""
import collections
import os
import re
import shutil
import struct
import subprocess
import time

from lib import forging, scenes
from lib.choices import chance_of
from lib.control import asked
from lib.forging import KEYS, Form, Key, file_data, finished, frames_of, nak, sealed
from lib.frames import ONLY_IDLE, frame_of
from lib.links import Link
from lib.paths import TOP
from lib.processes import files_at, note_mistakes, put, read
from lib.scenes import (
    BEGUN,
    EVIL,
    FILE,
    FORGERIES,
    NAME,
    OTHER,
    SENT,
    TAKEN,
    Outcome,
    Scene,
    scene,
    sent_whole,
    swapped,
)
from lib.waiting import waits_for

# Frames with keys; and the same with all fields of frames, and longer ones of these.
KEYED, FIELDS = Form(mac=16), Form(mac=32, insert_zone=3, control_field=1, error_control=1)
LONG = FIELDS._replace(zone=1024)

# A sequence number that is greater than all that a station may have used, and an SPI of no key.
FRESH, UNKNOWN = 1 << 60, 99

# How many files are sent while frames are forged. `FILES=1000 tests/run --titled storm` takes a
# minute.
FILES = int(os.environ.get("FILES", "100"))

# Why a frame is refused.
CAUSES = ("Short", "Damaged", "UnknownSpi", "NotAuthentic", "Replayed")

# What is there while nothing was heard, and once the file is whole.
QUIET, WHOLE = Outcome(BEGUN, (), {}), Outcome(SENT, TAKEN, {NAME: FILE})


def plain(bare, form):
    """A frame without a security header, of a whole zone."""
    return forging.closed(bare[:6] + bytes(form.insert_zone) + bare[6:], form)


def attempts(own, pdus, form):
    """Frames with these PDUs to a station, by somebody who has none of its keys, each with the
    cause of its refusal."""
    right, other = KEYS[own], KEYS[3 - own]
    yield from (("UnknownSpi", plain(it, form)) for it in frames_of(3 - own, pdus, form.zone))
    for it in frames_of(3 - own, pdus, form.bare_zone):
        whole = sealed(it, right, FRESH, form)
        end = len(whole) - len(forging.closed(b"", form))
        yield "NotAuthentic", sealed(it, Key(right.spi, bytes(32)), FRESH, form)
        yield "NotAuthentic", sealed(it, Key(right.spi, other.octets), FRESH, form)
        yield "UnknownSpi", sealed(it, other, FRESH, form)
        yield "UnknownSpi", sealed(it, Key(UNKNOWN, right.octets), FRESH, form)
        # The right MAC, of which half is zeros, or isn't there.
        half = end - form.mac // 2
        yield "NotAuthentic", forging.closed(whole[:half] + bytes(form.mac // 2), form)
        yield "NotAuthentic", forging.closed(whole[:half], form)
        yield "Short", forging.closed(whole[:20], form)


def refused(it, own, frames):
    """What is wrong where a station is given these frames, each with the cause of its refusal, and
    has counted none before."""
    frames = list(frames)
    it.relay.forge(own, [frame for _, frame in frames])
    counts = collections.Counter(cause for cause, _ in frames)
    yield from it.counts(own, {cause: counts[cause] for cause in CAUSES})


def goes_on(it):
    """What is wrong where nothing was heard so far, and the file is to come now."""
    if it.outcome() != QUIET:
        yield f"something was heard: {it.outcome()}"
    it.relay.release()
    yield from it.differs(WHOLE)


# ---- forged frames


def forged_mistakes(program, pdus, own, form):
    """What is wrong where PDUs are forged by all means but the right key."""
    with scene(program, form) as it:
        yield from refused(it, own, attempts(own, pdus(it.number), form))
        yield from goes_on(it)


def holder_mistakes(program, form):
    """What is wrong where somebody has the right key: he is heard."""
    with scene(program, form) as it:
        for frame in frames_of(2, [finished(it.number)], form.bare_zone):
            it.relay.forge(1, [sealed(frame, KEYS[1], FRESH, form)])
        yield from it.differs(Outcome((*BEGUN, scenes.WHOLE), (), {}))


def layout_mistakes(program, form):
    """What is wrong with the frames of stations themselves, by these words alone: their length, the
    numbers, which go up by one, and the MAC."""
    with scene(program, form) as it:
        it.relay.release()
        yield from it.differs(WHOLE)
        for own in (1, 2):
            frames = it.relay.sent_by(own)
            numbers = [forging.security_of(frame, form) for frame in frames]
            wanted = [(KEYS[3 - own].spi, numbers[0][1] + at) for at in range(len(frames))]
            if numbers != wanted:
                yield f"station {own} sends the numbers {numbers}"
            for frame, (_, number) in zip(frames, numbers):
                if sealed(forging.bare_in(frame, form), KEYS[3 - own], number, form) != frame:
                    yield f"station {own} sends {frame.hex()}"


def returned_mistakes(program):
    """What is wrong where a station is given its own frames."""
    with scene(program, KEYED) as it:
        yield from refused(it, 1, (("UnknownSpi", frame) for frame in it.relay.sent_by(1)))
        yield from goes_on(it)


def lane_mistakes(program):
    """What is wrong where frames come on the other channel of their direction."""
    with scene(program, KEYED) as it:
        frames = map(swapped, it.relay.sent_by(1))
        yield from refused(it, 2, (("NotAuthentic", frame) for frame in frames))
        yield from goes_on(it)


def content_mistakes(program):
    """What is wrong where the content of a file is changed on its way."""
    with scene(program, FIELDS) as it:
        frame = next(frame for frame in it.relay.sent_by(1) if FILE in frame)
        changed = forging.mended(frame.replace(FILE, EVIL + b"!"), FIELDS)
        yield from refused(it, 2, [("NotAuthentic", changed)])
        yield from goes_on(it)


# Which octets of a frame nobody's key covers, and which have the SPI.
OPEN = {*range(6, 9), *range(-6, 0)}
SPI = {9, 10}


def turned(frame, form):
    """A frame with each of its bits turned, with the cause of its refusal: as the link would turn
    it, and with the error control of somebody who means it, but where nothing refuses that."""
    for place in range(8 * len(frame)):
        changed = forging.with_bit(frame, place)
        yield "Damaged", changed
        if not {place // 8, place // 8 - len(frame)} & OPEN:
            cause = "UnknownSpi" if place // 8 in SPI else "NotAuthentic"
            yield cause, forging.mended(changed, form)


def bit_mistakes(program):
    """What is wrong where each bit of a frame is turned: all are refused, but those of the insert
    zone and of the control field, which no MAC covers."""
    with scene(program, FIELDS) as it:
        frame = it.relay.sent_by(1)[0]
        yield from refused(it, 2, turned(frame, FIELDS))
        if it.outcome() != QUIET:
            yield f"something was heard: {it.outcome()}"
        it.relay.forge(2, [forging.mended(forging.with_bit(frame, 50), FIELDS)])
        if it.stations[2].comes_to(f"metadata 1:{it.number} ") is None:
            yield "a frame with another insert zone isn't heard"
        it.relay.release()
        yield from it.counts(2, {"Replayed": 1})
        yield from it.differs(WHOLE)


def between_mistakes(program):
    """What is wrong where frames are forged between two of which each has a part of one PDU: that
    isn't lost."""
    content = bytes(1000)
    with scene(program, KEYED, content) as it:
        frames = it.relay.sent_by(1)
        forged = list(attempts(2, [file_data(OTHER, b"x")], KEYED))
        for frame in frames:
            it.relay.forge(2, [*(octets for _, octets in forged), frame])
        it.relay.held.clear()
        it.relay.release()
        if not waits_for(lambda: files_at(it.link.folder, 2) == {NAME: content}):
            yield f"the file didn't come: {it.counters(2)}"
        yield from it.counts(2, {"Resync": 0, "NotAuthentic": 4 * len(frames)})


# ---- what isn't authenticated


def beacon(own, zone):
    """The beacon of a station whose zone this is, with keys or without."""
    peer = 3 - own
    sends = struct.pack(">HBBH", zone, 4 + own, 6 + own, 99 + own)
    receives = struct.pack(">BBH", 4 + peer, 6 + peer, 99 + peer)
    octets = struct.pack(">QQ", own, peer) + sends + receives + bytes(4)
    return frame_of(ONLY_IDLE, 0, b"")[:6] + bytes.fromhex("07FE434644506201") + octets


def beacon_mistakes(program):
    """What is wrong where a beacon is forged: a note of it, and nothing else."""
    with scene(program, KEYED) as it:
        since = time.time()
        it.relay.forge(2, [beacon(1, 512)])
        told = "zone differs: 512 at the peer, 256 here"
        yield from note_mistakes(it.stations[2], told, since, 10)
        yield from refused(it, 2, [])
        yield from goes_on(it)


def page_mistakes(program):
    """What is wrong with keys that are made by the lines of docs/SECURITY.md."""
    with open(f"{TOP}/docs/SECURITY.md", encoding="utf-8") as page:
        lines = re.search(r"(?ms)^```sh\n(.*?)^```$", page.read())[1]
    with Link(program, forging.Forger()) as link:
        how = {"cwd": link.folder, "env": {"PATH": f"{link.folder}:/usr/bin:/bin"}, "check": True}
        if not shutil.which("openssl"):
            with open(f"{link.folder}/openssl", "w", encoding="ascii") as it:
                it.write("head -c 32 /dev/urandom | od -An -tx1 | tr -d ' \\n'\n")
            os.chmod(it.name, 0o700)
        subprocess.run(["/bin/sh", "-ec", lines], **how)
        for name, own in (("one", 1), ("two", 2)):
            os.rename(f"{link.folder}/{name}.keys", f"{link.folder}/{own}.keys")
        it = Scene(program, link, KEYED)
        it.starts(2, ["--inbox", "to"])
        sent_whole(it, FILE)
        if came(it) != {NAME: FILE}:
            yield f"there lies {came(it)}"


# ---- frames of before


def replay_mistakes(program):
    """What is wrong where the frames of an older file are sent once more, to stations that were
    killed and started anew since."""
    with Link(program, forging.Forger()) as link:
        it = Scene(program, link, KEYED)
        it.starts(2, ["--inbox", "to"])
        older = sent_whole(it, b"older")
        answers = it.relay.sent_by(2)
        sent_whole(it, b"newer")
        it.stations[2].killed()
        it.starts(2, ["--inbox", "to"])
        it.starts(1, ["--outbox", "from"])
        yield from refused(it, 2, (("Replayed", frame) for frame in older))
        yield from refused(it, 1, (("Replayed", frame) for frame in answers))
        if files_at(link.folder, 2) != {NAME: b"newer"}:
            yield f"there lies {files_at(link.folder, 2)}"
        it.stations[1].killed()
        sent_whole(it, b"newest")
        if files_at(link.folder, 2) != {NAME: b"newest"}:
            yield f"after it there lies {files_at(link.folder, 2)}"


def lost_mistakes(program, is_old):
    """What is wrong where the state file of a receiver without a journal is lost, or replaced by an
    old copy: what came since is heard once more, until it has another key."""
    with Link(program, forging.Forger()) as link:
        it, state = Scene(program, link, KEYED), f"{link.folder}/2/to.state"
        it.starts(2, ["--inbox", "to", "--no-journal"])
        shutil.copy(state, f"{state}.old")
        older = sent_whole(it, b"older")
        sent_whole(it, b"newer")
        it.stations[2].killed()
        os.remove(state)
        if is_old:
            shutil.copy(f"{state}.old", state)
        it.starts(2, ["--inbox", "to", "--no-journal"])
        it.relay.forge(2, older)
        if not waits_for(lambda: files_at(link.folder, 2) == {NAME: b"older"}):
            yield f"the older file isn't heard: {it.counters(2)}"
        forging.write_keys(f"{link.folder}/2.keys", 2, {**KEYS, 2: forging.key_of(19)})
        yield from rekeyed(it, 2)
        yield from refused(it, 2, (("UnknownSpi", frame) for frame in older))


def sender_mistakes(program):
    """What is wrong where a sender's state file is lost: its numbers begin at the clock, and so
    beyond all that it used."""
    with Link(program, forging.Forger()) as link:
        it = Scene(program, link, KEYED)
        it.starts(2, ["--inbox", "to"])
        sent_whole(it, b"older")
        os.remove(f"{link.folder}/1/from.state")
        sent_whole(it, b"newer")
        if files_at(link.folder, 2) != {NAME: b"newer"}:
            yield f"there lies {files_at(link.folder, 2)}"
        yield from it.counts(2, {cause: 0 for cause in CAUSES})


# ---- many files


# Times in milliseconds, of a link that loses much, longer than a busy machine takes to answer.
SWIFT = {"eof_time": 1000, "nak_time": 1000, "finished_time": 1000, "inactivity_time": 600_000}
SWIFT |= {"eof_limit": 255, "nak_limit": 255, "finished_limit": 255}


def spooled(it, files):
    """Puts files into the spool of station 1."""
    for name, octets in files.items():
        put(it.link.folder, 1, f".{name}", octets)
        os.rename(f"{it.link.folder}/1/from/.{name}", f"{it.link.folder}/1/from/{name}")


def many_files(number, count, size):
    """So many files of at most so many octets."""
    chance = chance_of(number)
    return {f"f{at:04}": chance.randbytes(chance.randrange(size)) for at in range(count)}


def came(it):
    """The files that station 2 has whole."""
    folder = f"{it.link.folder}/2/to"
    names = [name for name in os.listdir(folder) if name[0] != "."]
    return {name: read(f"{folder}/{name}") for name in names}


class Storm:
    """What a relay is to call of each frame: it loses each tenth one of a station, and forges one
    beside each. `counts` has by station how many it was given that must be refused, by cause."""

    def __init__(self, form):
        self.form, self.relay, self.chance = form, None, chance_of(82)
        self.seen, self.first, self.last = collections.Counter(), {}, {}
        self.counts = {own: collections.Counter() for own in (1, 2)}

    def __call__(self, own, frame):
        if frame[1] & 63 == ONLY_IDLE:
            return True  # a beacon
        self.seen[own] += 1
        if self.seen[own] % 10:
            self.relay.forge(3 - own, [frame])
            self.first.setdefault(own, frame)
            self.last[own] = frame
        kinds = (self.changed, self.replayed, self.attempted, self.returned, self.cut)
        for to, cause, octets in kinds[self.seen[own] % len(kinds)](own, frame):
            self.relay.forge(to, [octets])
            self.counts[to][cause] += 1
        return False

    def changed(self, own, frame):
        """The frame with a bit of its M_PDU turned, and with its error control mended."""
        start = 8 * (6 + self.form.insert_zone + 10)
        place = self.chance.randrange(start, start + 8 * self.form.bare_zone)
        octets = forging.with_bit(frame, place)
        yield 3 - own, "Damaged", octets
        yield 3 - own, "NotAuthentic", forging.mended(octets, self.form)
        yield 3 - own, "NotAuthentic", forging.mended(forging.on_channel(frame, 1), self.form)

    def replayed(self, own, _):
        """The first frame and the last one that weren't lost."""
        yield 3 - own, "Replayed", self.first[own]
        yield 3 - own, "Replayed", self.last[own]

    def attempted(self, own, _):
        """A file that nobody sent, and a Finished of one."""
        pdus = {1: forging.whole_file(OTHER, b"evil", EVIL), 2: [finished(OTHER)]}
        for cause, octets in attempts(3 - own, pdus[own], self.form):
            yield 3 - own, cause, octets

    def returned(self, own, frame):
        yield own, "UnknownSpi", frame

    def cut(self, own, frame):
        yield 3 - own, "Short", frame[:14]


def storm_mistakes(program, count):
    """What is wrong where so many files are sent over a link that loses each tenth frame, while
    frames are forged both ways: all arrive whole, and each forged frame is counted."""
    passes = Storm(LONG)
    passes.relay = forging.Forger(passes)
    with Link(program, passes.relay) as link:
        it, files = Scene(program, link, LONG, SWIFT), many_files(83, count, 1500)
        words = ["--unit", "ms", "--rate", "400"]
        it.starts(2, ["--inbox", "to", *words])
        spooled(it, files)
        it.starts(1, ["--spool", "from", "--at-once", "1000", *words])
        if not waits_for(lambda: len(os.listdir(f"{link.folder}/1/from/.sent")) == count):
            yield f"{len(came(it))} files came"
        if came(it) != files:
            yield f"what came isn't what was sent: {sorted(came(it).keys() ^ files.keys())[:3]}"
        passes.relay.holds = True
        passes.relay.catches_up()
        for own in (1, 2):
            yield from it.counts(own, dict(passes.counts[own]))
            if min(passes.counts[own][cause] for cause in CAUSES) == 0:
                yield f"station {own} was given {passes.counts[own]}"


# ---- other keys


def rekeyed(it, own, answer="ok\n"):
    """What is wrong where a station is to read its keys once more."""
    told = asked(it.program, it.ports[own], "rekey")
    if not told[1].startswith(answer):
        yield f"station {own} answers {told}"
    it.counters(own)  # A turn is over once this is answered, and so the keys are the new ones.


def roll_steps():
    """The steps of a change of both keys: the station, the keys of frames to each, and the former
    key of those to it."""
    fresh = {1: forging.key_of(20), 2: forging.key_of(19)}
    yield 2, {1: KEYS[1], 2: fresh[2]}, KEYS[2]
    yield 1, {1: fresh[1], 2: fresh[2]}, KEYS[1]
    yield 2, fresh, KEYS[2]
    yield 1, fresh, None
    yield 2, fresh, None


def roll_mistakes(program):
    """What is wrong where both keys are changed while files are on their way: none is refused or
    sent again, and then nobody hears frames with the former keys."""
    with Link(program, forging.Forger()) as link:
        it, files = Scene(program, link, KEYED, SWIFT), many_files(84, 120, 3000)
        it.starts(2, ["--inbox", "to", "--unit", "ms"])
        spooled(it, files)
        it.starts(1, ["--spool", "from", "--unit", "ms", "--rate", "300"])
        for count, (own, keys, former) in zip(range(15, 120, 15), roll_steps()):
            waits_for(lambda: len(came(it)) >= count)
            path = f"{link.folder}/{own}.keys"
            forging.write_keys(path, own, keys, former, 0o640)
            yield from rekeyed(it, own, f"error: {path}: other users have access to it")
            forging.write_keys(path, own, keys, former)
            yield from rekeyed(it, own)
        if len(came(it)) == len(files):
            yield "all files were there before the last step"
        is_whole = lambda: it.stations[1].text("stdout").count("0 complete retained") == len(files)
        if not waits_for(is_whole) or came(it) != files:
            yield f"{len(came(it))} files came: {it.stations[1].text('stdout')[-300:]!r}"
        for own in (1, 2):
            yield from it.counts(own, {cause: 0 for cause in CAUSES})
            former = [sealed(frame, KEYS[own], FRESH, KEYED)
                      for frame in frames_of(3 - own, [finished(OTHER)], KEYED.bare_zone)]
            yield from refused(it, own, (("UnknownSpi", frame) for frame in former))


# ---- stations that are killed


def number_mistakes(it, own):
    """What is wrong with the sequence numbers that a station used in all its lives."""
    numbers = [forging.security_of(frame, KEYED)[1] for frame in it.relay.sent_by(own)
               if frame[1] & 63 != ONLY_IDLE]
    if any(a >= b for a, b in zip(numbers, numbers[1:])):
        yield f"the numbers of station {own} don't go up"


def kill_mistakes(program):
    """What is wrong where each station is killed and started anew while files are on their way: all
    come, no sequence number comes twice, and no frame of before is heard."""
    hasty = SWIFT | {"eof_limit": 3, "inactivity_time": 5000}
    with Link(program, forging.Forger()) as link:
        it, files = Scene(program, link, KEYED, hasty), many_files(85, 40, 40_000)
        words = {1: ["--spool", "from", "--rate", "1000"], 2: ["--inbox", "to"]}
        spooled(it, files)
        for own in (2, 1):
            it.starts(own, [*words[own], "--unit", "ms"])
        for count, own in ((5, 2), (12, 1), (20, 2)):
            waits_for(lambda: len(came(it)) >= count)
            it.stations[own].killed()
            it.starts(own, [*words[own], "--unit", "ms"])
        if not waits_for(lambda: came(it) == files):
            yield f"{len(came(it))} files came: {it.stations[1].text('stdout')[-300:]!r}"
        spool = f"{link.folder}/1/from"
        waits_for(lambda: not [name for name in os.listdir(spool) if name[0] != "."])
        it.relay.catches_up()
        for own in (1, 2):
            yield from number_mistakes(it, own)
            before = it.counters(own)
            if before.get("Replayed", 0) > 1024:
                yield f"station {own} refused {before['Replayed']} frames after it was killed"
            frames = it.relay.sent_by(3 - own)[:500]
            it.relay.forge(own, frames)
            replayed = before.get("Replayed", 0) + len(frames)
            yield from it.counts(own, {"Replayed": replayed})
        if came(it) != files:
            yield "an older file came back"


def forged_tries(program):
    """What is tried with single forged frames."""
    more = (("NAKs", lambda number: [nak(number, 5)], 1),
            ("Finisheds of files that nobody sent", lambda _: [finished(OTHER)], 1))
    for title, pdus, own in (*((it.title, it.pdus, it.own) for it in FORGERIES), *more):
        what = f"with keys, forged: {title.split(':')[0]}"
        yield what, forged_mistakes(program, pdus, own, KEYED)
    whole = lambda number: forging.whole_file(number, b"evil", EVIL)
    yield "with keys and fields, forged: a file", forged_mistakes(program, whole, 2, FIELDS)
    for what, form in (("16 octets", KEYED), ("32 octets, with fields", FIELDS)):
        yield f"a MAC of {what}, by the right key", holder_mistakes(program, form)
        yield f"the frames of stations with a MAC of {what}", layout_mistakes(program, form)


def all_mistakes(program):
    """What is tried, with what is wrong in it."""
    yield from forged_tries(program)
    yield "with keys, frames that are given back", returned_mistakes(program)
    yield "with keys, frames on the other channel", lane_mistakes(program)
    yield "with keys, a content that is changed", content_mistakes(program)
    yield "with keys, each bit of a frame turned", bit_mistakes(program)
    yield "with keys, forged frames between two of one PDU", between_mistakes(program)
    yield "with keys, a forged beacon", beacon_mistakes(program)
    yield "with keys that are made as the page on security says", page_mistakes(program)
    yield "with keys, frames of an older file", replay_mistakes(program)
    yield "with keys, a lost state file of a receiver", lost_mistakes(program, False)
    yield "with keys, an old state file of a receiver", lost_mistakes(program, True)
    yield "with keys, a lost state file of a sender", sender_mistakes(program)
    yield f"with keys, {FILES} files in a storm of forged frames", storm_mistakes(program, FILES)
    yield "other keys while files are on their way", roll_mistakes(program)
    yield "with keys, stations that are killed", kill_mistakes(program)
