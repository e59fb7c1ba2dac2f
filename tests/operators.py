"""What the operator of a station is told of failures: in its log, its counters and its console, and
what is refused at once."""
import json
import os
import re
import stat
import subprocess
import time

from lib.console import Console
from lib.control import asked, controlled
from lib.links import Link
from lib.processes import unheard
from lib.seen import packets_in, pdus_of
from lib.waiting import SECONDS, waits_for

# Times that let a put to a peer that isn't there fail within a second.
HASTY = {"eof_time": 100, "eof_limit": 0, "nak_time": 100, "inactivity_time": 5000}

# The condition by which such a put fails.
ACK_LIMIT = "POSITIVE_ACK_LIMIT_REACHED"

# What a visitor of the console shows.
TOKEN = "0123456789abcdef-proxy"

# After so many seconds what follows from other ids would have been told, too.
LATER = 5


def asks(program, address, *words):
    """What `ask` answers at this address: its status, and both outputs."""
    it = subprocess.run([program.path, "ask", *address, *words], capture_output=True, check=False,
                        timeout=SECONDS)
    return it.returncode, it.stdout.decode(), it.stderr.decode()


def objects(text):
    """The objects of a log."""
    return [json.loads(line) for line in text.splitlines()]


def failed_mistakes(program):
    """What is wrong where two puts fail: the counters, the console and its metrics say so, by the
    condition."""
    with Link(program) as link:
        words = [*link.puts(1, {"a": b"a", "b": b"b"}), "--unit", "ms"]
        it = Console(link, 1, words, HASTY)
        are_closed = lambda all_of_it: len(all_of_it["closed"]) == 2
        closed = it.awaits("/transactions", are_closed)["closed"]
        if {one["condition"] for one in closed} != {ACK_LIMIT}:
            yield f"closed: {closed}"
        status = it.gets("/status")
        wanted = {"way": "sends", "code": 1, "condition": ACK_LIMIT, "count": 2}
        if status["failed"] != [wanted] or status["counters"]["sends_failed"] != 2:
            yield f"the console: {status}"
        line = f'cfdp_failed_transactions_total{{way="sends",condition="{ACK_LIMIT}"}} 2'
        text = it.asks("GET", "/metrics", it.shown())[2]
        if line not in text.splitlines() or "cfdp_failed_sends_total 2" not in text.splitlines():
            yield f"the metrics: {text}"


def counted_mistakes(program):
    """What is wrong with the counters where a put failed, in lines and as an object, and with the
    name of the condition in the log."""
    with Link(program) as link:
        words = [*link.puts(1, {"a": b"a"}), "--unit", "ms"]
        it, port = controlled(link, 1, [*words, "--json"], HASTY)
        is_over = lambda: '"sends_failed":1' in asked(program, port, "counters")[1]
        if not waits_for(is_over):
            yield f"the counters: {asked(program, port, 'counters')}"
        asked(program, port, "stop", "now")
        log = objects(it.ended()[1])
        counters = next(one for one in log if one["event"] == "counters")
        if counters["failed_sends"] != {ACK_LIMIT: 1}:
            yield f"the log's counters: {counters}"
        names = {one.get("condition_name") for one in log if one["event"] == "fault"}
        if names != {ACK_LIMIT}:
            yield f"the log names {names}"
    with Link(program) as link:
        words = [*link.puts(1, {"a": b"a"}), "--unit", "ms", "--idle", "1"]
        ports, own = link.ports, ["--id", "1", "--peer", "2"]
        addresses = ["--listen", f"127.0.0.1:{ports[1]}", "--to", f"127.0.0.1:{ports[2]}"]
        sets = [word for key, n in HASTY.items() for word in ("--set", key, str(n))]
        call = [program.path, "station", *own, *addresses, *sets, *words]
        ran = subprocess.run(call, cwd=f"{link.folder}/1", capture_output=True, text=True,
                             timeout=SECONDS, check=False)
        for wanted in (rf"fault 1:\d+ 1 a a \({ACK_LIMIT}\)\n",
                       rf" failed send 1 {ACK_LIMIT} 1\n", r" sends_failed 1\n"):
            if not re.search(wanted, ran.stdout):
                yield f"the log doesn't have {wanted}: {ran.stdout}"


def noted_mistakes(program):
    """What is wrong with a note where nothing listens at the peer: standard error, the log and the
    console have it, and it is counted."""
    with Link(program) as link:
        words = [*link.puts(1, {"a": b"a"}), "--json"]
        it = Console(link, 1, words)
        has_it = lambda status: any(one["topic"] == "socket" for one in status["notes"])
        status = it.awaits("/status", has_it)
        notes = [one for one in status["notes"] if one["topic"] == "socket"]
        text = f"nothing listens at 127.0.0.1:{link.ports[2]}"
        if [(one["text"], one["holds"], one["error"]) for one in notes] != [(text, True, False)]:
            yield f"the console has {status['notes']}"
        if status["told"]["notes"] < 2 or status["told"]["errors"] != 0:
            yield f"counted: {status['told']}"
        lines = [json.loads(one["text"]) for one in it.gets("/log")["lines"]]
        told = [one for one in lines if one["event"] == "note" and one["topic"] == "socket"]
        if [one["text"] for one in told] != [text] or "time" not in told[0]:
            yield f"the log has {lines}"
        metrics = it.asks("GET", "/metrics", it.shown())[2]
        if 'cfdp_notes_total{kind="note",topic="socket"} 1\n' not in metrics:
            yield f"the metrics: {metrics}"
        it.station.killed()
        if f"note: {text}\n" not in it.station.text("stderr"):
            yield f"standard error: {it.station.text('stderr')}"


def error_mistakes(program):
    """What is wrong with an error of a file: the log says which file it is about."""
    with Link(program) as link:
        receiver = link.starts(2, ["--json"])
        words = [*link.puts(1, {"a": b"a"}), "--idle", "1"]
        link.starts(1, words).ended()
        has_it = lambda: '"event":"error"' in receiver.text("stdout")
        if not waits_for(has_it):
            yield f"the log: {receiver.text('stdout')}"
        found = [one for one in objects(receiver.text("stdout")) if one["event"] == "error"]
        if not found or found[0]["topic"] != "no-inbox" or "transaction" not in found[0]:
            yield f"the errors: {found}"


def refused_mistakes(program):
    """What is wrong with puts that can't work: each is refused at once, and none is made."""
    with Link(program) as link:
        os.makedirs(f"{link.folder}/1/from/folder")
        os.symlink("/etc/hostname", f"{link.folder}/1/from/link")
        _, port = controlled(link, 1, ["--outbox", "from"])
        for said, why in ((("gone", "x"), "from/gone: no such file"),
                          (("folder", "x"), "from/folder: is a folder"),
                          (("link", "x"), "from/link: is a symbolic link"),
                          ((".a", "x"), "a file name must be 1 to 64 of"),
                          (("a" * 65, "x"), "a file name must be 1 to 64 of")):
            status, out, _ = asked(program, port, "put", *said)
            if status != 1 or not out.startswith(f"error: {why}"):
                yield f"put {said}: {status} {out!r}"
        _, other = controlled(link, 2, ["--inbox", "to"])
        status, out, _ = asked(program, other, "put", "a", "b")
        if status != 1 or "--outbox" not in out:
            yield f"without an outbox: {status} {out!r}"
        for it in (port, other):
            if "puts_made 0\n" not in asked(program, it, "counters")[1]:
                yield "a put was made"


def suspended_mistakes(program):
    """What is wrong where a transaction is suspended: it is said when the peer gives it up."""
    with Link(program) as link:
        words = [*link.puts(1, {"a": bytes(200_000)}), "--rate", "50"]
        link.starts(2, ["--inbox", "to"])
        it, port = controlled(link, 1, words, {"inactivity_time": 60})
        it.comes_to("transaction")
        found = re.search(r"\n(1:\d+) sending", asked(program, port, "list")[1])
        status, out, _ = asked(program, port, "suspend", found[1])
        if status or not re.match("the peer gives the transaction up after 60 s, .*\nok\n", out):
            yield f"suspend: {status} {out!r}"
        listed = asked(program, port, "list")[1]
        if not re.search(r" suspended peer-gives-up (60|5\d)\n", listed):
            yield f"list: {listed!r}"


def cause_mistakes(program):
    """What is wrong where one end has another id for its peer than that has: each end says which
    ids differ, first, and nothing that follows from it."""
    with Link(program) as link:
        receiver = link.starts(2, ["--inbox", "to"], ids=(2, 3))
        sender = link.starts(1, link.puts(1, {"a": b"hello"}))
        for it in (sender, receiver):
            is_told = lambda it=it: " differs: " in it.text("stderr")
            if not waits_for(is_told):
                yield f"station {it.own} tells {it.text('stderr')!r}"
        time.sleep(LATER)
        for it in (sender, receiver):
            told = unheard(it.text("stderr"))
            if not re.fullmatch(r"(note: id of (the peer|this station) differs: .*\n)+", told):
                yield f"station {it.own} tells {told!r}"


def limited_mistakes(program):
    """What is wrong where a file is longer than the receiver takes: it says which, and why."""
    with Link(program) as link:
        receiver = link.starts(2, ["--inbox", "to", "--most-size", "1000"])
        words = [*link.puts(1, {"long": bytes(50_000)}), "--rate", "100", "--idle", "2"]
        status, out, _ = link.starts(1, words).ended()
        if status != 1 or not re.search(r"1 finished 1:\d+ 15 ", out):
            yield f"the sender: {status} {out!r}"
        told = r"note: 1:\d+ refused: long has 50000 octets, and --most-size is 1000\n"
        if receiver.comes_to(told) is None:
            yield f"the receiver tells {receiver.text('stderr')!r}"


def socket_mistakes(program):
    """What is wrong with a Unix socket as control address: its owner alone may connect, a dead one
    is replaced, a live one and a file are not, and the end removes it."""
    with Link(program) as link:
        folder = f"{link.folder}/1"
        os.makedirs(folder)
        path, address = f"{folder}/control", [f"unix:{folder}/control"]
        it = link.starts(1, ["--control", "unix:control"])
        if stat.S_IMODE(os.stat(path).st_mode) != 0o600 or os.path.exists(f"{path}.new"):
            yield f"its mode is {os.stat(path).st_mode:o}, beside {os.listdir(folder)}"
        answer = asks(program, address, "list")[:2]
        if answer != (0, "open 0 waiting 0 timeout -\nok\n"):
            yield f"list: {answer}"
        other = link.starts(2, ["--control", address[0]], waits=False)
        if other.ended()[0] != 3 or "in use" not in other.text("stderr"):
            yield f"another station: {other.text('stderr')!r}"
        it.killed()
        it = link.starts(1, ["--control", "unix:control"])
        if asks(program, address, "stop", "now")[0] or it.ended()[0] or os.path.exists(path):
            yield f"after the end there is {os.listdir(folder)}"
        with open(path, "w", encoding="ascii"):
            pass
        it = link.starts(1, ["--control", "unix:control"], waits=False)
        if it.ended()[0] != 3 or not os.path.isfile(path):
            yield f"a file in its place: {it.text('stderr')!r}"


def object_mistakes(program):
    """What is wrong with answers as objects, of a station with lines."""
    with Link(program) as link:
        _, port = controlled(link, 1, ["--inbox", "to"])
        address = ["--json", f"127.0.0.1:{port}"]
        listed = {"open", "waiting", "timeout", "transactions"}
        for words, status, members in ((["list"], 0, listed), (["freeze"], 0, {"ok"}),
                                       (["help"], 0, {"ok", "text"}),
                                       (["cancel", "1:7"], 1, {"ok", "error"}),
                                       (["nothing"], 1, {"ok", "error"})):
            found = asks(program, address, *words)
            if found[0] != status or set(json.loads(found[1])) != members:
                yield f"{words}: {found}"
        behind = asks(program, [address[1], "--json"], "counters")
        if json.loads(behind[1])["sends_failed"] != 0:
            yield f"counters: {behind}"


def proxy_mistakes(program):
    """What is wrong where a proxy asks the console by its name: only that name, only pages of it,
    and only with the token."""
    with Link(program) as link:
        it = Console(link, 1, ["--console-host", "cfdp.example"], token=TOKEN)
        shown, name = it.shown(), {"Host": "cfdp.example"}
        for fields, wanted in ((name | shown, 200), (name, 401), ({"Host": "cfdp"} | shown, 403),
                               (name | shown | {"Origin": "https://cfdp.example"}, 200),
                               (name | shown | {"Origin": "https://other.example"}, 403)):
            if (status := it.asks("GET", "/status", fields)[0]) != wanted:
                yield f"{fields}: {status}, and not {wanted}"
        words = ["--console", "127.0.0.1:0", "--console-host", "cfdp.example"]
        other = link.starts(2, words, waits=False)
        if other.ended()[0] != 2 or "--console-token" not in other.text("stderr"):
            yield f"without a token: {other.text('stderr')!r}"


def earlier_mistakes(program):
    """What is wrong where a station with a capture runs three times: each capture stays."""
    with Link(program) as link:
        folder, kept = f"{link.folder}/1", []
        for _ in range(3):
            link.starts(1, ["--pcap", "seen", "--idle", "1"]).ended()
            with open(f"{folder}/seen", "rb") as it:
                kept.append(it.read())
        found = []
        for name in ("seen.1", "seen.2", "seen"):
            if os.path.isfile(f"{folder}/{name}"):
                with open(f"{folder}/{name}", "rb") as it:
                    found.append(it.read())
        if found != kept or os.path.exists(f"{folder}/seen.3"):
            yield f"there is {os.listdir(folder)}"


def captured_mistakes(program):
    """What is wrong with the captures of two stations that send each other a file: each has the
    PDUs of both directions in their order, by their type and at the time of the clock, and `dump`
    reads it."""
    with Link(program) as link:
        words, began = ["--pcap", "seen", "--trace", "--idle", "1"], time.time_ns() // 1000
        files = {1: {"a": bytes(3000)}, 2: {"b": b"b"}}
        both = [link.starts(own, [*words, *link.puts(own, files[own])]) for own in (1, 2)]
        traces, ends = [it.ended()[2] for it in both], time.time_ns() // 1000
        for own, trace in zip((1, 2), traces):
            path = f"{link.folder}/{own}/seen"
            with open(path, "rb") as it:
                octets = it.read()
            packets = packets_in(octets)
            if octets[36:38] != b"\0\xfc" or octets[68:70] != b"\0\xfc":
                yield f"station {own}: not of link type 252: {octets[:92].hex()}"
            times = [micros for _, micros, _, _ in packets]
            if times != sorted(times) or not times or not began <= times[0] <= times[-1] <= ends:
                yield f"station {own}: times {times[:3]} to {times[-3:]}, in {began} to {ends}"
            if any(place != pdu[0] // 16 % 2 for place, _, _, pdu in packets):
                yield f"station {own}: a PDU is at the other interface"
            run = subprocess.run([program.path, "dump", "pdus", path], capture_output=True,
                                 check=False, timeout=SECONDS)
            lines = run.stdout.decode().splitlines()
            for way, verb in (("out", "sends"), ("in", "hears")):
                found = [line for line, it in zip(lines, packets) if it[2] == way]
                wanted = [line for _, line in pdus_of(trace, verb)]
                if run.returncode or not found or found != wanted:
                    yield f"station {own} {verb}: {found[:3]}, and not {wanted[:3]}"


def disk_mistakes(program):
    """What is wrong where the disk of a receiver is full: the log names the file and the
    condition."""
    with Link(program) as link:
        words = ["--inbox", "to", "--json", "--first-number", "1"]
        full = link.starts(2, words, faults="disk=30000")
        link.starts(1, [*link.puts(1, {"a": bytes(90_000)}), "--idle", "2"]).ended()
        # Each turn writes what it has, and so one may be there before the other.
        for event in ("fault", "error"):
            if full.comes_to(f'"event":"{event}"') is None:
                yield f"the log: {full.text('stdout')}"
        log = objects(full.text("stdout"))
        found = [it for it in log if it["event"] == "error"]
        named = [(it.get("source"), it.get("destination")) for it in found]
        if not found or set(named) != {("a", "a")}:
            yield f"the errors: {found}"
        names = {it["condition_name"] for it in log if "condition" in it}
        if names != {"FILESTORE_REJECTION"}:
            yield f"the conditions: {names}"


def all_mistakes(program):
    """What is tried, with what is wrong in it."""
    yield "an operator: sends that failed, by condition", failed_mistakes(program)
    yield "an operator: the counters and the log of a failed send", counted_mistakes(program)
    yield "an operator: a note in the log and the console", noted_mistakes(program)
    yield "an operator: an error in the log", error_mistakes(program)
    yield "an operator: puts that can't work", refused_mistakes(program)
    yield "an operator: a suspended transaction", suspended_mistakes(program)
    yield "an operator: another id at one end", cause_mistakes(program)
    yield "an operator: a file beyond the limit", limited_mistakes(program)
    yield "an operator: a Unix socket for commands", socket_mistakes(program)
    yield "an operator: answers as objects", object_mistakes(program)
    yield "an operator: a proxy before the console", proxy_mistakes(program)
    yield "an operator: captures of earlier runs", earlier_mistakes(program)
    yield "an operator: captures of both directions", captured_mistakes(program)
    yield "an operator: the log of a full disk", disk_mistakes(program)
