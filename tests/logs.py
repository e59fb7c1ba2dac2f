"""What a station says of its files and of itself: in its log, its counters and its lists."""
import calendar
import json
import os
import re
import select
import subprocess
import threading
import time

from lib import journal
from lib.control import Client, asked, controlled, counted
from lib.frames import DIRECTIVES, FILE_DATA, filled, frame_of, zones_of
from lib.links import Link, Relay, deaf_to_answers
from lib.pdus import eof, piece
from lib.ports import ALONE
from lib.processes import PATIENT, processor_seconds, put, unheard, wakes_of
from lib.waiting import SECONDS, SLACK, waits_for


def causes_mistakes(program):
    """What is wrong where two files can't be published, each for a cause of its own: each is told,
    and once."""
    with Link(program) as link:
        words = link.puts(1, {"a": b"hello", "b": b"hello"})
        words[4:5], words[7:8] = ["there"], ["no/name"]
        receiver = link.starts(2, ["--inbox", "to"], PATIENT)
        os.makedirs(f"{link.folder}/2/to/there/in the way")
        sender = link.starts(1, [*words, "--idle", "1"], PATIENT)
        status, out, err = sender.ended()
        receiver.killed()
        told = re.sub(r"\d{6,}", "N", receiver.text("stderr"))
    wanted = [
        "error: to/no/name: a file cannot have that name here (transaction 1:N)",
        "error: to/there: is a folder (transaction 1:N)",
    ]
    if sorted(unheard(told).splitlines()) != wanted:
        yield f"the receiver told {told!r}"
    if status != 1 or not out.endswith("complete 0 of 2\n"):
        yield f"the sender: status {status}, {out!r}, {err!r}"


def no_inbox_mistakes(program):
    """What is wrong where two files come to a station that takes none: that is told once."""
    with Link(program) as link:
        receiver = link.starts(2, [], PATIENT)
        words = [*link.puts(1, {"a": b"hello", "b": b"hello"}), "--idle", "1"]
        status, out, err = link.starts(1, words, PATIENT).ended()
        receiver.killed()
        told = unheard(receiver.text("stderr"))
    wanted = r"error: a file arrived, but there is no --inbox \(transaction 1:\d+\)\n"
    if not re.fullmatch(wanted, told):
        yield f"the receiver told {told!r}"
    if status != 1 or not out.endswith("complete 0 of 2\n"):
        yield f"the sender: status {status}, {out!r}, {err!r}"


# A name that means something in JSON and in markup, and how a log of objects has it.
ODD = 'x"\\<y>&\'z'


def json_mistakes(program):
    """What is wrong with the logs of two stations that write objects, of a file that the receiver
    refuses for its name, and of one that comes."""
    with Link(program) as link:
        words = [*link.puts(1, {"a": b"hello", "b": bytes(3000)}), "--idle", "2", "--json"]
        words[4:5], words[-1:] = [ODD], ["--json", "--no-time"]
        receiver = link.starts(2, ["--inbox", "to", "--idle", "20", "--json"], PATIENT)
        sender = link.starts(1, words, PATIENT)
        for it in (sender, receiver):
            status, out, _ = it.ended()
            if status not in (1, 3):
                yield f"station {it.own} ended with status {status}"
            yield from journal.object_mistakes(out, it.own, it.own == 2)
            names = {json.loads(line).get("destination") for line in out.splitlines()}
            if not {ODD, "b"} <= names:
                yield f"station {it.own} tells of {names}"


def stamps_mistakes(program):
    """What is wrong with the times in the logs of two stations, one for people and one of objects:
    they are those of the clock."""
    with Link(program) as link:
        words = [*link.puts(1, {"a": b"hello"}), "--idle", "2"]
        began = time.time()
        receiver = link.starts(2, ["--inbox", "to", "--idle", "20", "--json"], PATIENT)
        command = [program.path, "station", "--id", "1", "--peer", "2", *words]
        command += ["--listen", f"127.0.0.1:{link.ports[1]}", "--to", f"127.0.0.1:{link.ports[2]}"]
        with ALONE:
            how = {"cwd": f"{link.folder}/1", "env": {"PATH": "/usr/bin:/bin"}}
            pipes = {"stdout": subprocess.PIPE, "stderr": subprocess.PIPE}
            sender = subprocess.Popen(command, **how, **pipes)
        out = sender.communicate(timeout=SECONDS)[0].decode()
        told = receiver.ended()[1]
        over = time.time()
    if journal.unstamped(out):
        yield f"these lines have no time: {journal.unstamped(out)}"
    stamps = [line.split(" ")[0] for line in out.splitlines()]
    stamps += [json.loads(line)["time"] for line in told.splitlines()]
    for it in stamps:
        when = calendar.timegm(time.strptime(it[:19], "%Y-%m-%dT%H:%M:%S")) + float(it[19:23])
        if not began - 0.01 < when < over + 0.01:
            yield f"{it} is {when - began:.3f} s after the start, and the end {over - began:.3f} s"


def counters_mistakes(program):
    """What is wrong with the counters of two stations between which some frames were lost, by what
    the link has seen of them."""
    lock, lost = threading.Lock(), []

    def passes(own, frame):
        # of the frames with file data the third and the fourth, and the seventh
        with lock:
            if own == 1 and frame[1] & 63 == FILE_DATA:
                lost.append(len(lost) + 1)
                return lost[-1] not in (3, 4, 7)
        return True

    with Link(program, Relay(passes)) as link:
        files = {"a": bytes(3000), "b": bytes(1), "c": bytes(0)}
        receiver, there = controlled(link, 2, ["--inbox", "to"], PATIENT)
        sender, here = controlled(link, 1, link.puts(1, files), PATIENT)
        waits_for(lambda: sender.text("stdout").count("finished") == 3)
        time.sleep(0.5)
        sent, received = (counted(asked(program, it, "counters")[1]) for it in (here, there))
    for name, wanted in (("files_sent", 3), ("octets_sent", 3001), ("puts_made", 3)):
        if sent.get(name) != wanted:
            yield f"the sender counts {name} {sent.get(name)}, and not {wanted}"
    wanted = {"files_received": 3, "octets_received": 3001, "frame_gaps": 2, "frames_missing": 3}
    for name, count in {**wanted, "files_failed": 0, "octets_sent": 0}.items():
        if received.get(name) != count:
            yield f"the receiver counts {name} {received.get(name)}, and not {count}"
    if not sent.get("file_data_sent_again"):
        yield f"nothing was sent again: {sent}"


def late_mistakes(program):
    """What is wrong with the counters where four frames are missing, and then one of them comes
    late: it isn't taken for one that leaves nearly all counts out."""
    with Link(program, Relay(deaf_to_answers)) as link:
        receiver, port = controlled(link, 2, ["--inbox", "to"])
        for count in (0, 5, 3):
            link.relay.give(2, frame_of(DIRECTIVES, count, filled(b"")))
        is_so = lambda told: (told.get("frame_gaps"), told.get("frames_missing")) == (1, 4)
        waits_for(lambda: is_so(counted(asked(program, port, "counters")[1])))
        time.sleep(1)
        told = counted(asked(program, port, "counters")[1])
    if not is_so(told):
        yield f"it counts {told}"


def meanings_mistakes(program):
    """What is wrong with what a log of objects says of a condition: nothing was heard."""
    with Link(program, Relay(deaf_to_answers)) as link:
        receiver = link.starts(2, ["--inbox", "to", "--json"], {"inactivity_time": 1})
        link.relay.give(2, frame_of(FILE_DATA, 0, packet_of_piece(7)))
        receiver.comes_to('"event":"fault"')
        time.sleep(0.3)
        found = [json.loads(line) for line in receiver.text("stdout").splitlines()]
    told = {(it.get("condition"), it.get("meaning")) for it in found if it["event"] == "fault"}
    if told != {(8, "inactivity: no PDU of the transaction arrived in time")}:
        yield f"it told {told}"


def packet_of_piece(number):
    """A packet zone with file data of a transaction that nobody began."""
    return next(iter(zones_of([piece(number)])))


def stopped_mistakes(program, is_json=False):
    """What is wrong with the list of a station that can reserve no number for a file that waits in
    its spool, since the folder of its state file is gone: it tells that, and why. Once the folder
    is back, the file is sent."""
    cause = "no further file is sent: cannot write the state file: no such file or folder"
    wanted = f"open 0 waiting 1 timeout -\n{cause}\nok\n"
    if is_json:
        told = f'"stopped":"{cause}"'
        wanted = f'{{"open":0,"waiting":1,"timeout":null,{told},"transactions":[]}}\nok\n'
    with Link(program) as link:
        link.starts(2, ["--inbox", "to"], PATIENT)
        for it in ("kept", "out"):
            os.makedirs(f"{link.folder}/1/{it}")
        words = ["--spool", "out", "--state", "kept/state", *(["--json"] if is_json else [])]
        station, port = controlled(link, 1, words, PATIENT)
        listed = lambda: asked(program, port, "list")[1]
        if cause in (before := listed()):
            yield f"before anything is wrong it is listed {before!r}"
        os.rename(f"{link.folder}/1/kept", f"{link.folder}/1/away")
        put(link.folder, 1, "../out/a", b"hello")
        if not waits_for(lambda: listed() == wanted):
            yield f"of what waits it is listed {listed()!r}"
        os.rename(f"{link.folder}/1/away", f"{link.folder}/1/kept")
        if station.comes_to("complete") is None:
            yield f"the file didn't come: {station.text('stdout')!r}"
        if not waits_for(lambda: cause not in listed()):
            yield f"once the file has left it is listed {listed()!r}"


def timers_mistakes(program):
    """What is wrong with the note of a station whose peer may be silent for less long than its
    requests wait; and where it may be for as long, or that is ignored: then it tells none."""
    note = "inactivity_time is 100 ms, but requests are repeated after up to 7000 ms"
    for settings, is_told in (
        ({"eof_time": 7000}, True),
        ({"nak_time": 7000}, True),
        ({"finished_time": 7000}, True),
        ({"eof_time": 7000, "inactivity_time": 7000}, False),
        ({"eof_time": 7000, "on_inactivity": 2}, False),
        ({"eof_time": 100}, False),
    ):
        with Link(program) as link:
            it = link.starts(2, ["--inbox", "to", "--unit", "ms", "--idle", "1"], settings)
            status, _, err = it.ended()
        if status or err.count(f"note: {note}: ") != is_told or err.count("\n") != is_told:
            yield f"{settings}: status {status}, {err!r}"


def ended_input_mistakes(program):
    """What is wrong where the standard input of a station has ended that takes commands there: it
    needs no processor for that."""
    with Link(program) as link:
        words = ["--inbox", "to", "--commands"]
        it = link.starts(2, words, stdin=subprocess.DEVNULL)
        time.sleep(1)
        wakes, before = wakes_of(it), processor_seconds(it)
        time.sleep(4)
        wakes, spent = wakes_of(it) - wakes, processor_seconds(it) - before
    if wakes > 80 or spent > 0.3:
        yield f"in 4 s it wakes {wakes} times, and runs for {spent:.2f} s"


def list_mistakes(program):
    """What is wrong with the list of a station's transactions: they stand in the order of their
    ids, and the time is what is left until the next timer."""
    with Link(program, Relay(deaf_to_answers)) as link:
        words = [*link.puts(2, {"a": bytes(5000)}), "--inbox", "to", "--at-once", "9"]
        station, port = controlled(link, 2, words, {**PATIENT, "eof_time": 30})
        station.comes_to("eof-sent")
        time.sleep(2)
        for number in (9, 7):
            zone = next(iter(zones_of([eof(number)])))
            link.relay.give(2, frame_of(DIRECTIVES, number - 7, zone))
            station.comes_to(f"eof-recv 1:{number}")
        status, out, _ = asked(program, port, "list")
    ids = re.findall(r"(?m)^(\d+:\d+) ", out)
    if status or ids[:2] != ["1:7", "1:9"] or len(ids) != 3 or not ids[2].startswith("2:"):
        yield f"it lists {out!r}"
    # That of a NAK, which is asked for once more each second.
    left = re.search(r"timeout (\d+)", out)
    if not left or int(left[1]) > 1:
        yield f"the time that is left is {out!r}"


def answers_mistakes(program):
    """What is wrong where of two clients one asks for what is refused: it hears that, and the other
    nothing."""
    with Link(program) as link:
        _, port = controlled(link, 2, ["--inbox", "to"])
        with Client(port) as one, Client(port) as other:
            other.asks("counters")
            told = one.asks("cancel 9:9")
            if not told or not told.startswith("error: "):
                yield f"a transaction that isn't known is cancelled so: {told!r}"
            other.socket.settimeout(0.5)
            more = other.hears()
            if more is not None:
                yield f"the other client heard {more!r}"
            status = asked(program, port, "cancel", "9:9")[0]
            if status != 1:
                yield f"ask ends with status {status} where it is refused"


def frozen_mistakes(program):
    """What is wrong where a link is down by plan for longer than answers are waited for: nothing is
    told of that."""
    with Link(program, Relay(deaf_to_answers)) as link:
        sender, port = controlled(link, 1, link.puts(1, {"a": b"hello"}), {"eof_time": 100})
        sender.comes_to("eof-sent")
        time.sleep(0.5)
        asked(program, port, "freeze")
        time.sleep(13)
        told = [line for line in sender.text("stderr").splitlines() if "waits for" in line]
        if told:
            yield f"it told {told}"


def stuck_mistakes(program):
    """What is wrong where a client reads no answer for half a minute: its connection is dropped."""
    with Link(program) as link:
        _, port = controlled(link, 2, ["--inbox", "to"])
        with Client(port, is_deaf=True) as client:
            client.babbles(2)
            ends, most = select.poll(), 33 + SLACK
            ends.register(client.socket, select.POLLRDHUP)
            if not ends.poll(most * 1000):
                yield f"after {most} s such a client's connection is there"
                return
            client.socket.settimeout(2)
            try:
                client.says(b"help\n" * 100_000)
                yield "after that it takes more of such a client"
            except TimeoutError:
                yield "such a client's connection has ended, and is there"
            except ConnectionError:
                pass


def all_mistakes(program):
    """What is tried, with what is wrong in it; first what takes longest."""
    yield "a client that reads nothing for half a minute", stuck_mistakes(program)
    yield "a link that is down by plan for long", frozen_mistakes(program)
    yield "two files that can't be published", causes_mistakes(program)
    yield "two files for which there is no folder", no_inbox_mistakes(program)
    yield "logs of objects", json_mistakes(program)
    yield "the times in logs", stamps_mistakes(program)
    yield "the counters of two stations", counters_mistakes(program)
    yield "the counters where a frame comes late", late_mistakes(program)
    yield "what a condition means", meanings_mistakes(program)
    yield "a list where no number can be reserved", stopped_mistakes(program)
    objects = stopped_mistakes(program, is_json=True)
    yield "a list of objects where no number can be reserved", objects
    yield "a note of timers at the start", timers_mistakes(program)
    yield "a standard input that has ended", ended_input_mistakes(program)
    yield "a list of transactions", list_mistakes(program)
    yield "answers for two clients", answers_mistakes(program)
