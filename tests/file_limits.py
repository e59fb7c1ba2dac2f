"""What a station does with its files: how many at a time, how often, how long, in what order, and
what may lie in the folder of a spool."""
import contextlib
import os
import re
import struct
import time

from lib.control import asked, controlled
from lib.frames import FILE_DATA
from lib.links import Link, Relay, deaf_to_answers
from lib.pdus import ACK, FINISHED, WHOLE
from lib.peers import Peer
from lib.processes import PATIENT, read, refused_mistakes, unheard
from lib.spools import INBOX, SPOOL, Spool, drop, names_in, spool_of
from lib.waiting import SECONDS, TRIALS, Timed, in_one_of, waits_for

# A sender gives up within two seconds of its EOF.
HASTY = {"eof_time": 1, "eof_limit": 0}

# For so many seconds a file waits that is sent once more.
AGAIN = 5


def begun(station):
    """When each transaction of a station began, as its log tells."""
    return [when for when, _, line in list(station.lines) if " transaction " in line]


# ---- how many, and how often


def retries_mistakes(program):
    """What is wrong where nobody is there: a file is sent once more as often as is said, five
    seconds later each time, and then lies in `.failed`."""
    with spool_of(program) as (link, spool):
        spool.drops({"a": b"hello"})
        sender = link.starts(1, [*SPOOL, "--retries", "2"], HASTY)
        if not waits_for(lambda: spool.in_folder(".failed") == {"a": b"hello"}):
            yield f"it isn't in .failed: {sender.text('stdout')!r}"
        times = begun(sender)
        if len(times) != 3:
            yield f"it was sent {len(times)} times, and not 3"
        if any(after - before < AGAIN for before, after in zip(times, times[1:])):
            yield Timed(f"it was sent again too soon: {times}")


class Refusing(Peer):
    """A peer that ends the first files that come with these conditions, and takes the others."""

    def __init__(self, conditions, own, ports):
        super().__init__("pdus", own, ports)
        self.conditions, self.refused = list(conditions), set()

    def publish(self, number):
        if number in self.refused or number not in self.ends:
            return
        if not self.conditions:
            super().publish(number)
            return
        self.refused.add(number)
        # Incomplete, and discarded; the fault's location is this entity (CCSDS 727.0-B-5, 5.2.3).
        ends = bytes([FINISHED, self.conditions.pop(0) << 4 | 4])
        self.answer(number, ends + struct.pack(">BBH", 6, 2, self.own))

    def hear_as_receiver(self, number, body):
        if number in self.refused and body[0] == ACK:
            self.closed.add(number)
        else:
            super().hear_as_receiver(number, body)


def damaged_mistakes(program):
    """What is wrong where the peer ends a file by its size, and then by its checksum type, which
    damage may change: it is sent again each time, and leaves the spool as sent."""
    with spool_of(program) as (link, spool):
        spool.drops({"a": b"hello"})
        peer = Refusing((6, 11), 2, link.ports)
        sender = link.starts(1, [*SPOOL, "--carrier", "pdus"], PATIENT)
        if not peer.serve(SECONDS, lambda: spool.in_folder(".sent") == {"a": b"hello"}):
            yield f"it isn't in .sent: {sender.text('stdout')!r}, {sender.text('stderr')!r}"
        peer.close()
    if len(peer.closed & peer.refused) != 2 or list(peer.files.values()) != [b"hello"]:
        yield f"{len(peer.refused)} were refused, and {len(peer.files)} came"
    yield from peer.faults


class Silent(Peer):
    """A peer that takes a file whole, and leaves its status unreported (CCSDS 727.0-B-5, 5.2.3)."""

    def answer(self, number, body):
        super().answer(number, bytes([FINISHED, 3]) if body == WHOLE else body)

    def hear_as_receiver(self, number, body):
        if body[0] == ACK:
            self.closed.add(number)
        else:
            super().hear_as_receiver(number, body)


def unreported_mistakes(program):
    """What is wrong where the peer has a file whole and doesn't report that it keeps it: the file
    isn't taken for sent, and the log says why."""
    with spool_of(program) as (link, spool):
        spool.drops({"a": b"hello"})
        peer = Silent("pdus", 2, link.ports)
        sender = link.starts(1, ["--spool", "from", "--json", "--carrier", "pdus"], PATIENT)
        if not peer.serve(SECONDS, lambda: spool.in_folder(".failed") == {"a": b"hello"}):
            yield f"it isn't in .failed: {sender.text('stdout')!r}, {sender.text('stderr')!r}"
        if sender.comes_to('"meaning":"no error, but the peer did not report') is None:
            yield f"the log doesn't say why: {sender.text('stdout')!r}"
        peer.close()
    yield from peer.faults


def once_mistakes(program):
    """What is wrong where the sending of a file is cancelled, or its name is refused: it isn't sent
    again."""
    with Link(program, Relay(deaf_to_answers)) as link:
        spool = Spool(link)
        spool.drops({"a": b"hello"})
        sender, port = controlled(link, 1, SPOOL, PATIENT)
        sender.comes_to("eof-sent")
        found = re.search(r"transaction (\S+)", sender.text("stdout"))
        answer = asked(program, port, "cancel", found[1] if found else "1:1")
        link.relay.passes = lambda own, frame: True
        link.starts(2, INBOX, PATIENT)
        if answer[:2] != (0, "ok\n"):
            yield f"cancel is answered {answer}"
        if not waits_for(lambda: spool.in_folder(".failed") == {"a": b"hello"}):
            yield f"it isn't in .failed: {sender.text('stdout')!r}"
        time.sleep(AGAIN + 1)
        if len(begun(sender)) != 1:
            yield f"it was sent {len(begun(sender))} times"


def at_once_mistakes(program):
    """What is wrong where no put is ever over: so many are open as are said, and no more."""
    with Link(program, Relay(deaf_to_answers)) as link:
        spool = Spool(link)
        spool.drops({f"f{number}": b"hello" for number in range(6)})
        sender = link.starts(1, [*SPOOL, "--at-once", "2"], PATIENT)
        waits_for(lambda: len(begun(sender)) >= 2)
        time.sleep(3)
        if len(begun(sender)) != 2:
            yield f"{len(begun(sender))} puts are open, and not 2"


def size_mistakes(program):
    """What is wrong where a file has the most octets that are taken, and one has one more. Its
    Metadata have to come in a turn before its last octets."""
    files = {"most": bytes(1000), "more": bytes(1001)}
    with spool_of(program) as (link, spool):
        spool.drops(files)
        receiver = link.starts(2, [*INBOX, "--most-size", "1000"], PATIENT)
        link.starts(1, ["--spool", "from", "--no-time", "--rate", "10"], PATIENT)
        over = lambda: names_in(spool.folder) == set()
        if not waits_for(over):
            yield f"there stay {names_in(spool.folder)}: {receiver.text('stdout')!r}"
        if spool.came() != {"most": files["most"]}:
            yield f"there came {sorted(spool.came())}"
        if spool.in_folder(".failed") != {"more": files["more"]}:
            yield f"in .failed lie {sorted(spool.in_folder('.failed'))}"


def quick_size_mistakes(program):
    """What is wrong where such files come whole in one turn: the longer one isn't published."""
    files = {"most": bytes(1000), "more": bytes(1001)}
    with spool_of(program) as (link, spool):
        spool.drops(files)
        words = ["--no-time", "--rate", "0"]
        receiver = link.starts(2, ["--inbox", "to", "--most-size", "1000", *words], PATIENT)
        words += ["--spool", "from", "--retries", "0"]
        link.starts(1, words, PATIENT)
        if not waits_for(lambda: names_in(spool.folder) == set()):
            yield f"there stay {names_in(spool.folder)}: {receiver.text('stdout')!r}"
        if spool.came() != {"most": files["most"]}:
            yield f"there came {sorted(spool.came())}"
        if spool.in_folder(".failed") != {"more": files["more"]}:
            yield f"in .failed lie {sorted(spool.in_folder('.failed'))}"


def most_open_mistakes(program):
    """What is wrong where more files come at a time than are taken, two, and again once they are
    over: the third is refused, and the fourth is taken."""
    relay = Relay(lambda own, frame: frame[1] & 63 != FILE_DATA)
    with Link(program, relay) as link:
        spool = Spool(link)
        receiver = link.starts(2, [*INBOX, "--most-open", "2"], PATIENT)
        sender = link.starts(1, SPOOL, PATIENT)
        for name in ("a", "b", "c"):
            drop(spool.folder, name, b"hello")
            if name != "c":
                receiver.comes_to(f"metadata .* {name} ")
        if not waits_for(lambda: spool.in_folder(".failed") == {"c": b"hello"}):
            yield f"in .failed lie {spool.in_folder('.failed')}: {receiver.text('stdout')!r}"
        relay.passes = lambda own, frame: True
        waits_for(lambda: spool.in_folder(".sent").keys() == {"a", "b"})
        sender.killed()
        link.starts(1, ["--spool", "from", "--no-time", "--rate", "10"], PATIENT)
        for name in ("d", "e"):
            drop(spool.folder, name, bytes(1000))
            waits_for(lambda: re.search(f" {name} 1000\n", receiver.text("stdout")))
        waits_for(lambda: receiver.text("stdout").count("retained") == 4)
        if spool.came().keys() != {"a", "b", "d", "e"}:
            yield f"there came {sorted(spool.came())}: {receiver.text('stdout')!r}"


def unnamed(number, octets):
    """A file data PDU of station 1, of a transaction that no Metadata began."""
    return struct.pack(">BHBHIHI", 0x30, 4 + len(octets), 0x13, 1, number, 2, 0) + octets


def octets_in(folder):
    """How many octets lie in the files of a folder, hidden ones too."""
    lengths = []
    for it in os.scandir(folder):
        with contextlib.suppress(FileNotFoundError):
            lengths.append(it.stat().st_size)
    return sum(lengths), len(lengths)


def unnamed_mistakes(program):
    """What is wrong if a peer sends data without Metadata: two files of 500 octets stay, further
    ones are too many, and those of 2,000 octets are too long as well."""
    with Link(program) as link:
        words = ["--carrier", "pdus", "--inbox", "to", "--most-size", "1000", "--most-open", "2"]
        receiver = link.starts(2, words, PATIENT)
        peer, folder = Peer("pdus", 1, link.ports), f"{link.folder}/2/to"
        ends = lambda: set(re.findall(r"finished 1:(\d+) 15 ", receiver.text("stdout")))
        others = {str(it) for it in range(1, 201)} - {"2", "4"}
        try:
            for number in (2, 4):
                peer.give(unnamed(number, bytes(500)))
            if not waits_for(lambda: octets_in(folder) == (1000, 2)):
                yield f"of two files there lie {octets_in(folder)}: {receiver.text('stdout')!r}"
            stop = time.monotonic() + SECONDS
            while ends() != others and time.monotonic() < stop:
                # What was lost on its way comes once more.
                for number in sorted(map(int, others - ends())):
                    peer.give(unnamed(number, bytes(2000 if number % 2 else 500)))
                    time.sleep(0.002)
            if ends() != others or not waits_for(lambda: octets_in(folder) == (1000, 2)):
                yield f"there were cancelled {sorted(ends())}, and lie {octets_in(folder)}"
        finally:
            peer.close()


# ---- in what order, and to what end


def first_mistakes(program):
    """What is wrong where a put is asked for ahead of others that wait."""
    with Link(program, Relay(deaf_to_answers)) as link:
        files = {it: it.encode() for it in ("a", "b", "c")}
        words = [*link.puts(1, files)[:2], "--at-once", "1"]
        sender, port = controlled(link, 1, words, PATIENT)
        receiver = link.starts(2, INBOX, PATIENT)
        for said in (["a", "a"], ["b", "b"], ["--first", "c", "c"]):
            answer = asked(program, port, "put", *said)
            if answer[:2] != (0, "ok\n"):
                yield f"put {said} is answered {answer}"
            sender.comes_to("transaction")
        link.relay.passes = lambda own, frame: True
        waits_for(lambda: receiver.text("stdout").count("finished") == 3)
        order = re.findall(r"metadata \S+ (\S+)", receiver.text("stdout"))
        if order != ["a", "c", "b"]:
            yield f"they came in the order {order}"


def stop_mistakes(program):
    """What is wrong where a station is told to stop that has more files: those that are open are
    sent, and the others stay; its last answers leave, so that nothing is open at its peer."""
    with Link(program, Relay(deaf_to_answers)) as link:
        spool = Spool(link)
        files = {it: bytes(300) for it in ("a", "b", "c", "d")}
        spool.drops(files)
        receiver, there = controlled(link, 2, INBOX, PATIENT)
        sender, here = controlled(link, 1, [*SPOOL, "--at-once", "2"], PATIENT)
        waits_for(lambda: len(begun(sender)) == 2)
        asked(program, here, "stop")
        time.sleep(1.2)
        link.relay.passes = lambda own, frame: True
        status, out, err = sender.ended()
        if status or not out.endswith("complete 2 of 2\n"):
            yield f"status {status}, {out!r}, {err!r}"
        if len(spool.in_folder(".sent")) != 2 or len(names_in(spool.folder)) != 2:
            yield f"{names_in(spool.folder)} stay"
        waits_for(lambda: asked(program, there, "list")[1].startswith("open 0 "))
        told = asked(program, there, "list")
        if not told[1].startswith("open 0 "):
            yield f"at the receiver it is {told[1]!r}: {receiver.text('stdout')!r}"


# ---- the folder of a spool


def leaving_mistakes(program):
    """What is wrong where a station was killed as a file left its spool: the file is given back."""
    with spool_of(program) as (link, spool):
        os.makedirs(f"{spool.folder}/.leaving")
        for name, text in (("a", b"older"), ("b", b"hello")):
            with open(f"{spool.folder}/.leaving/{name}", "wb") as it:
                it.write(text)
        spool.drops({"a": b"newer"})
        link.starts(2, INBOX, PATIENT)
        link.starts(1, SPOOL, PATIENT)
        yield from spool.mistakes({"a": b"newer", "b": b"hello"})
        if os.listdir(f"{spool.folder}/.leaving"):
            yield "something is left in .leaving"


def moves_mistakes(program):
    """What is wrong where nothing can be moved to `.sent` or `.failed`: it is refused at the start,
    before a file is sent. Without `.sent`, as files are removed, that may be what it is."""
    for folder, words in ((".sent", []), (".failed", []), (".failed", ["--remove-sent"])):
        with spool_of(program) as (link, spool):
            with open(f"{spool.folder}/{folder}", "wb"):
                pass
            station = link.starts(1, [*SPOOL, *words])
            wrong = refused_mistakes(station, "from: ")
            yield from (f"where {folder} is a file, {it}" for it in wrong)
    with spool_of(program) as (link, spool):
        with open(f"{spool.folder}/.sent", "wb"):
            pass
        status, out, err = link.starts(1, [*SPOOL, "--remove-sent", "--idle", "1"]).ended()
        if status or not out.endswith("complete 0 of 0\n"):
            yield f"where .sent isn't wanted: status {status}, {out!r}, {err!r}"


def kept_mistakes(program):
    """What is wrong where files are removed once sent, and one can't be sent: it is kept."""
    with spool_of(program) as (link, spool):
        spool.drops({"a": b"hello"})
        link.starts(1, [*SPOOL, "--remove-sent", "--retries", "0"], HASTY)
        if not waits_for(lambda: spool.in_folder(".failed") == {"a": b"hello"}):
            yield f"it lies in none of {sorted(os.listdir(spool.folder))}"


def replaced_mistakes(program):
    """What is wrong where a file is replaced that has been sent, and isn't told complete yet: the
    new one stays, and is sent too."""
    with Link(program, Relay(deaf_to_answers)) as link:
        spool = Spool(link)
        spool.drops({"a": b"older"})
        receiver = link.starts(2, INBOX, PATIENT)
        link.starts(1, SPOOL, PATIENT)
        receiver.comes_to("finished")
        spool.drops({"a": b"newer"})
        link.relay.passes = lambda own, frame: True
        waits_for(lambda: receiver.text("stdout").count("finished") == 2)
        yield from spool.mistakes({"a": b"newer"})


def points_mistakes(program):
    """What is wrong where files lie in a spool whose names begin with a point: nothing is told of
    them, and they stay."""
    with spool_of(program) as (link, spool):
        for name in (".a", ".part-1-1"):
            with open(f"{spool.folder}/{name}", "wb") as it:
                it.write(b"hello")
        sender = link.starts(1, SPOOL, PATIENT)
        time.sleep(3)
        if sender.text("stdout") or unheard(sender.text("stderr")):
            yield f"it told {sender.text('stdout')!r}, {sender.text('stderr')!r}"
        if not {".a", ".part-1-1"} <= set(os.listdir(spool.folder)):
            yield f"there lie {os.listdir(spool.folder)}"


# The calls by which a file leaves its spool.
LEAVES = (
    r"rename from/a from/\.leaving/a\n"
    r"rename from/\.leaving/a from/\.sent/a\n"
    r"fsync \S*/from/\.sent\n"
    r"fsync \S*/from\n"
)


def order_mistakes(program):
    """What is wrong with the order in which a file leaves its spool: by a folder of its own, and
    then both folders are flushed; and in which numbers are written: flushed, given their name, and
    then their folder is flushed."""
    with spool_of(program) as (link, spool):
        link.starts(2, INBOX, PATIENT)
        link.starts(1, SPOOL, PATIENT, faults="order")
        spool.drops({"a": b"hello"})
        yield from spool.mistakes({"a": b"hello"})
        calls = lambda: read(f"{link.folder}/1/order").decode()
        waits_for(lambda: re.search(LEAVES, calls()))
        calls = calls()
    if not re.search(LEAVES, calls):
        yield f"the calls were {calls!r}"
    numbers = r"fsync (\S*)/from\.state\.new\nrename \1/from\.state\.new \1/from\.state\nfsync \1\n"
    if not re.search(numbers, calls):
        yield f"of numbers the calls were {calls!r}"


def numbers_mistakes(program, width):
    """What is wrong where a station with a spool is killed, and started anew with its clock set
    back: no number of a transaction comes again. Where numbers have few octets, one at a time is
    reserved."""
    settings = {**PATIENT, "number_width": width}
    with spool_of(program) as (link, spool):
        receiver = link.starts(2, INBOX, settings)
        told = ""
        for run, clock in enumerate((0, -86_400, -172_800)):
            spool.drops({f"f{run}{number}": b"hello" for number in range(4)})
            sender = link.starts(1, SPOOL, settings, faults=f"clock={clock}")
            if not waits_for(lambda: sender.text("stdout").count("finished") >= 4):
                yield f"not all was sent: {sender.text('stdout')!r}, {receiver.text('stdout')!r}"
            told += sender.killed()
    # A file that was told complete may lie in the spool still where its station is killed.
    numbers = [int(it) for it in re.findall(r"transaction 1:(\d+)", told)]
    if len(numbers) < 12 or numbers != sorted(set(numbers)):
        yield f"the numbers were {numbers}"


def eldest_mistakes(program):
    """What is wrong where more files lie in a spool than are kept of one look: the eldest are the
    first to be sent all the same."""
    names = [f"f{number:04}" for number in range(1100)]
    with spool_of(program) as (link, spool):
        for number, name in enumerate(names):
            drop(spool.folder, name, b"")
            os.utime(f"{spool.folder}/{name}", (9000 - number, 9000 - number))
        receiver = link.starts(2, INBOX, PATIENT)
        link.starts(1, [*SPOOL, "--at-once", "1"], PATIENT)
        waits_for(lambda: receiver.text("stdout").count("metadata") >= 3)
        order = re.findall(r"metadata \S+ (\S+)", receiver.text("stdout"))[:3]
    if order != ["f1099", "f1098", "f1097"]:
        yield f"the first that came are {order}"


def replaces_mistakes(program):
    """What is wrong where files that are there are kept: nothing else is left of one that came."""
    with spool_of(program) as (link, spool):
        spool.drops({"a": b"hello"})
        link.starts(2, [*INBOX, "--no-overwrite"], PATIENT)
        link.starts(1, SPOOL, PATIENT)
        yield from spool.mistakes({"a": b"hello"})
        if set(os.listdir(spool.inbox)) != {"a"}:
            yield f"in the inbox lie {os.listdir(spool.inbox)}"


def all_mistakes(program):
    """What is tried, with what is wrong in it; first what takes longest."""
    retries = in_one_of(TRIALS, lambda: retries_mistakes(program))
    yield "how often a file is sent again", retries
    yield "a file whose size or checksum type was damaged", damaged_mistakes(program)
    yield "a file of which the peer reports no status", unreported_mistakes(program)
    yield "a file whose sending is cancelled", once_mistakes(program)
    yield "how many puts are open at once", at_once_mistakes(program)
    yield "the most octets that are taken", size_mistakes(program)
    yield "files as long as are taken, and one octet more, at once", quick_size_mistakes(program)
    yield "the most files that are taken at once", most_open_mistakes(program)
    yield "data without Metadata, beyond both limits", unnamed_mistakes(program)
    yield "a put ahead of others", first_mistakes(program)
    yield "a station that is told to stop amid its files", stop_mistakes(program)
    yield "a spool whose station was killed as a file left", leaving_mistakes(program)
    yield "a spool whose files cannot be moved", moves_mistakes(program)
    yield "a spool: a failed file where sent ones are removed", kept_mistakes(program)
    yield "a spool: a file replaced once it was sent", replaced_mistakes(program)
    yield "a spool: names that begin with a point", points_mistakes(program)
    yield "a spool: the order in which a file leaves", order_mistakes(program)
    for width in (2, 8):
        numbers = numbers_mistakes(program, width)
        yield f"a spool: numbers of {width} octets with the clock set back", numbers
    yield "a spool: the eldest of 1,100 files", eldest_mistakes(program)
    yield "an inbox that keeps files: what is left of one", replaces_mistakes(program)
