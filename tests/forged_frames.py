"""Somebody who holds the link between two stations, and sends what the peer never sent. What each
forgery does is the table of docs/SECURITY.md."""
from lib import forging
from lib.choices import chance_of
from lib.forging import eof, finished, frames_of, metadata, nak
from lib.frames import FILE_DATA, filled, frame_of
from lib.links import Link, answered
from lib.processes import files_at
from lib.scenes import (
    BEGUN,
    EVIL,
    FILE,
    FORGERIES,
    NAME,
    NEVER,
    OTHER,
    SENT,
    SOON,
    TAKEN,
    UNHEARD,
    Outcome,
    Scene,
    scene,
    sent_whole,
    swapped,
)
from lib.waiting import waits_for


# ---- without keys: what single PDUs do


def forged_mistakes(program, forgery):
    """What is wrong with what comes out of a forgery."""
    silence = SOON if forgery.outcome.sender == UNHEARD else NEVER
    with scene(program, silence=silence) as it:
        it.relay.forge(forgery.own, frames_of(3 - forgery.own, forgery.pdus(it.number)))
        if forgery.goes_on:
            it.relay.release()
        yield from it.differs(forgery.outcome)


# ---- without keys: what else can be done to frames


def nak_mistakes(program):
    """What is wrong where NAKs of a whole file are forged: each has all of it sent again."""
    content = chance_of(81).randbytes(10_240)
    with scene(program, octets=content) as it:
        for turn in range(1, 6):
            it.relay.forge(1, frames_of(2, [nak(it.number, len(content))]))
            yield from it.counts(1, {"file_data_sent": 10, "file_data_sent_again": 10 * turn})


def answer_mistakes(program):
    """What is wrong where Finisheds of 60 files are forged that nobody sent: all are answered."""
    with scene(program) as it:
        before = it.counters(1)["pdus_sent"]
        ended = [finished(number) for number in range(OTHER, OTHER + 60)]
        it.relay.forge(1, frames_of(2, ended))
        acknowledged = lambda: len(answered(it.relay, 8))
        if not waits_for(lambda: acknowledged() == 60):
            yield f"{acknowledged()} are acknowledged, after {before} PDUs"


def content_mistakes(program):
    """What is wrong where the content of a file is changed on its way, with all checksums: another
    content is published, and the sender told that its own is."""
    with scene(program) as it:
        for frame in it.relay.sent_by(1):
            it.relay.forge(2, [forging.with_content(frame, FILE, EVIL + b"!")])
        it.relay.held.clear()
        it.relay.release()
        yield from it.differs(Outcome(SENT, TAKEN, {NAME: EVIL + b"!"}))


def returned_mistakes(program):
    """What is wrong where a station is given its own frames: they are of a channel of which it
    takes none."""
    with scene(program) as it:
        count = it.relay.forge(1, it.relay.sent_by(1))
        yield from it.counts(1, {"OtherChannel": count})
        it.relay.release()
        yield from it.differs(Outcome(SENT, TAKEN, {NAME: FILE}))


def lane_mistakes(program):
    """What is wrong where each frame comes on the other channel of its direction: it is heard."""
    with scene(program) as it:
        it.relay.forge(2, map(swapped, it.relay.sent_by(1)))
        yield from it.differs(Outcome(BEGUN, TAKEN, {NAME: FILE}))


def bit_mistakes(program):
    """What is wrong where a frame comes with each of its bits turned, one after another: those of
    its header and its idle packet matter to nobody, so the Metadata in it are heard. The CRC of a
    PDU finds one turned bit, and nobody who means it."""
    with scene(program) as it:
        frame = it.relay.sent_by(1)[0]
        it.relay.forge(2, (forging.with_bit(frame, place) for place in range(8 * len(frame))))
        if it.stations[2].comes_to(f"metadata 1:{it.number} a a 5") is None:
            yield f"none was heard: {it.counters(2)}"
        if it.counters(2).get("BadCrc", 0) == 0:
            yield f"no CRC was wrong: {it.counters(2)}"
        it.relay.release()
        yield from it.differs(Outcome(SENT, TAKEN, {NAME: FILE}))


def between_mistakes(program):
    """What is wrong where a frame is forged between two of which each has a part of one PDU: that
    is lost, and sent again."""
    content = bytes(1000)
    with scene(program, octets=content) as it:
        forged = frame_of(FILE_DATA, 7, filled(b""))
        frames = it.relay.sent_by(1)
        places = [at for at, it in enumerate(frames) if it[1] & 63 == FILE_DATA]
        it.relay.forge(2, [*frames[: places[1]], forged, *frames[places[1] :]])
        yield from it.counts(2, {"Resync": 1})
        it.relay.held.clear()
        it.relay.release()
        yield from it.counts(1, {"file_data_sent": 1, "file_data_sent_again": 1})
        sizes = tuple(line.replace("5", "1000") for line in TAKEN[:1])
        yield from it.differs(Outcome(SENT, sizes + TAKEN[1:], {NAME: content}))


def cancel_mistakes(program):
    """What is wrong where EOFs cancel transactions of which nothing came: each is counted once,
    however often its EOF comes, and a note says so. One that cancels a known file isn't counted."""
    with scene(program) as it:
        unknown = [eof(number, b"", 15) for number in range(OTHER, OTHER + 3)]
        for _ in range(2):
            it.relay.forge(2, frames_of(1, unknown))
        yield from it.counts(2, {"unknown_cancels": 3})
        said = r"note: [1-3] cancelled by the peer before anything of them arrived, 1:\d+ last"
        if it.stations[2].comes_to(said) is None:
            yield f"no note says so: {it.stations[2].text('stderr')!r}"
        known = [metadata(it.number, len(FILE), b"a"), eof(it.number, b"", 15)]
        it.relay.forge(2, frames_of(1, known))
        if it.stations[2].comes_to(f"finished 1:{it.number} 15") is None:
            yield f"the file isn't given up: {it.stations[2].text('stdout')!r}"
        it.relay.forge(2, frames_of(1, [eof(OTHER + 3, b"", 15)]))
        yield from it.counts(2, {"unknown_cancels": 4})


def replay_mistakes(program):
    """What is wrong where the frames of an older file are sent once more to a receiver that was
    started anew, without a journal: the older file replaces the newer one."""
    with Link(program, forging.Forger()) as link:
        it = Scene(program, link, forging.Form())
        it.starts(2, ["--inbox", "to", "--no-journal"])
        older = sent_whole(it, b"older")
        sent_whole(it, b"newer")
        it.stations[2].killed()
        it.starts(2, ["--inbox", "to", "--no-journal"])
        it.relay.forge(2, older)
        there = lambda: files_at(link.folder, 2)
        if not waits_for(lambda: there() == {NAME: b"older"}):
            yield f"there lies {there()}"


# ---- tries


def all_mistakes(program):
    """What is tried, with what is wrong in it."""
    for it in FORGERIES:
        yield f"forged: {it.title}", forged_mistakes(program, it)
    yield "forged NAKs", nak_mistakes(program)
    yield "forged Finisheds of files that nobody sent", answer_mistakes(program)
    yield "a content that is changed on its way", content_mistakes(program)
    yield "frames that are given back", returned_mistakes(program)
    yield "frames on the other channel", lane_mistakes(program)
    yield "each bit of a frame turned", bit_mistakes(program)
    yield "a forged frame between two of one PDU", between_mistakes(program)
    yield "EOFs that cancel what is unknown", cancel_mistakes(program)
    yield "frames of an older file, once more", replay_mistakes(program)
