"""Two stations, each a process of its own, over the loop-back interface."""
import itertools
import os
import pty
import re
import signal
import socket
import tempfile
import time

from lib.choices import chance_of
from lib.ports import free_ports
from lib.processes import (
    PATIENT,
    Station,
    files_at,
    peak_of,
    put,
    read,
    shown_on,
    unheard,
)
from lib.seen import packets_in, pdus_of
from lib.waiting import waits_for

# How often a station may ask for memory in a transfer of ten times as many frames.
MOST_GROWTHS = 420

# What a station with one put writes, and what it tells on standard error, where there is no memory
# for the start, the put, a look at its file, or a read of it.
MEMORY_ENDS = {
    "the start": (r"", r"(error: .*out of memory.*\n)?"),
    "the put": (r"line 1 NoMemory\ncomplete 0 of 1\n", r"error: out of memory\n"),
    "a look": (r"line 1 SourceFault\ncomplete 0 of 1\n", r"error: from/a: out of memory\n"),
    "a read": (
        r"1 transaction (1:\d+)\n1 fault \1 4\n(1 .*\n)*complete 0 of 1\n",
        r"error: from/a: out of memory\n",
    ),
}


def exchange_mistakes(program):
    """What is wrong with 20 files that go each way, of up to 1 MiB, each fifth frame lost."""
    chance, sent = chance_of(37), {1: {}, 2: {}}
    sizes = [0, 1, 1023, 1 << 20, *(chance.randrange(1, 200_000) for _ in range(16))]
    with tempfile.TemporaryDirectory(dir=program.room) as folder:
        ports, stations = dict(zip((1, 2), free_ports(2))), []
        for own in (1, 2):
            words = ["--inbox", "to", "--outbox", "from", "--drop", "5", "--idle", "20"]
            words += ["--rate", "8000", "--pcap", "pdus.pcap"]
            for number, size in enumerate(sizes):
                octets = chance.randbytes(size)
                put(folder, own, f"f{number}", octets)
                sent[own][f"of{own}.{number}"] = octets
                words += ["--put", f"f{number}", f"of{own}.{number}"]
            settings = {**PATIENT, "zone": 1024}
            stations.append(Station(program, folder, own, 3 - own, ports, words, settings))
        for station in stations:
            status, out, err = station.ended()
            if status or unheard(err) or not out.endswith("complete 20 of 20\n"):
                yield f"station {station.own}: status {status}, {out[-300:]!r}, {err[-300:]!r}"
        for own in (1, 2):
            came = files_at(folder, own)
            if came != sent[3 - own]:
                yield f"what came to station {own} isn't what was sent: {sorted(came)}"
            with open(f"{folder}/{own}/pdus.pcap", "rb") as it:
                if it.read(4) != bytes.fromhex("0A0D0D0A"):
                    yield f"station {own} wrote no capture"


def restart_mistakes(program):
    """What is wrong where a station without a journal is killed as it sends, and one is started in
    its place."""
    chance = chance_of(38)
    first, second = chance.randbytes(1 << 20), chance.randbytes(30_000)
    settings = {**PATIENT, "inactivity_time": 10, "finished_limit": 10}
    with tempfile.TemporaryDirectory(dir=program.room) as folder:
        ports = dict(zip((1, 2), free_ports(2)))
        put(folder, 1, "first", first)
        put(folder, 1, "second", second)
        words = ["--inbox", "to", "--idle", "15"]
        receiver = Station(program, folder, 2, 1, ports, words, settings)
        receiver.comes_up()
        words = ["--outbox", "from", "--no-journal", "--rate", "100", "--put", "first", "first"]
        sender = Station(program, folder, 1, 2, ports, words, settings)
        if not receiver.comes_to(b"metadata"):
            yield "the first file never began to come"
        sender.process.send_signal(signal.SIGKILL)
        sender.process.communicate()
        words = ["--outbox", "from", "--no-journal", "--put", "second", "second", "--idle", "3"]
        status, out, err = Station(program, folder, 1, 2, ports, words, settings).ended()
        if status or unheard(err) or not out.endswith("complete 1 of 1\n"):
            yield f"the new station: status {status}, {out[-300:]!r}, {err[-300:]!r}"
        status, out, err = receiver.ended()
        begun = re.search(r"2 metadata (1:\d+) first first 1048576\n", out)
        # The first file didn't come whole, which shows in the status.
        if status != 1 or unheard(err) or not begun or not out.endswith("complete 0 of 0\n"):
            yield f"the receiver: status {status}, {out[-300:]!r}, {err[-300:]!r}"
        elif not re.search(rf"2 (fault|abandoned) {begun[1]} ", out):
            yield f"the receiver told no fault of the first file: {out!r}"
        if files_at(folder, 2) != {"second": second}:
            yield f"what came isn't the second file: {sorted(files_at(folder, 2))}"


def stranger_mistakes(program):
    """What is wrong where datagrams come from another address than the peer's: the system drops
    them, and nobody hears of them."""
    with tempfile.TemporaryDirectory(dir=program.room) as folder:
        ports = dict(zip((1, 2, 3), free_ports(3)))
        station = Station(program, folder, 2, 1, ports, ["--inbox", "to", "--idle", "3"], {})
        with socket.socket(socket.AF_INET, socket.SOCK_DGRAM) as stranger:
            stranger.bind(("127.0.0.1", ports[3]))
            station.comes_up()
            for _ in range(7):
                stranger.sendto(bytes(264), ("127.0.0.1", ports[2]))
            status, out, err = station.ended()
        if (status, out, err) != (0, "complete 0 of 0\n", ""):
            yield f"with status {status} it wrote {out!r} and {err!r}"


def address_mistakes(program):
    """What is wrong where the address of a station is in use."""
    with tempfile.TemporaryDirectory(dir=program.room) as folder:
        with socket.socket(socket.AF_INET, socket.SOCK_DGRAM) as other:
            other.bind(("127.0.0.1", 0))
            ports = {1: free_ports(1)[0], 2: other.getsockname()[1]}
            status, out, err = Station(program, folder, 2, 1, ports, [], {}).ended()
        if (status, out, err) != (3, "", f"error: --listen 127.0.0.1:{ports[2]}: address in use\n"):
            yield f"with status {status} it wrote {out!r} and {err!r}"


def refused_mistakes(program, inbox, name, wanted):
    """What is wrong where a file comes under this name to a station with these words for its inbox,
    which can't take it, and is to tell that on standard error, in a line of this pattern."""
    with tempfile.TemporaryDirectory(dir=program.room) as folder:
        ports = dict(zip((1, 2), free_ports(2)))
        put(folder, 1, "a", b"hello")
        settings = {"eof_time": 1, "nak_time": 1, "finished_time": 1}
        receiver = Station(program, folder, 2, 1, ports, [*inbox, "--idle", "15"], settings)
        words = ["--outbox", "from", "--put", "a", name, "--idle", "3"]
        status, out, err = Station(program, folder, 1, 2, ports, words, settings).ended()
        if status != 1 or unheard(err) or not out.endswith("complete 0 of 1\n"):
            yield f"the sender: status {status}, {out!r}, {err!r}"
        status, out, err = receiver.ended()
        is_told = re.fullmatch(wanted, unheard(err))
        if status != 3 or not is_told or not re.search(r"2 fault 1:\d+ 4\n", out):
            yield f"the receiver: status {status}, {out!r}, {err!r}"
        if files_at(folder, 2):
            yield f"it left {sorted(files_at(folder, 2))}"


def terminal_mistakes(program):
    """What is wrong where both outputs of a station are one terminal: the line that says how far a
    transfer is gives way to the report."""
    with tempfile.TemporaryDirectory(dir=program.room) as folder:
        ports = dict(zip((1, 2), free_ports(2)))
        put(folder, 1, "a", bytes(150_000))
        receiver = Station(program, folder, 2, 1, ports, ["--inbox", "to", "--idle", "15"], {})
        receiver.comes_up()
        words = ["--outbox", "from", "--put", "a", "b", "--idle", "2", "--rate", "200"]
        reading, terminal = pty.openpty()
        ways = {"stdout": terminal, "stderr": terminal}
        sender = Station(program, folder, 1, 2, ports, words, {"first_number": 7}, **ways)
        os.close(terminal)
        told = shown_on(reading)
        sender.process.wait()
        receiver.ended()
    line = r"\r *\d+ octets received, *\d+ gaps, *\d+ PDUs sent"
    sends = r"\r\x1b\[Ka: (\d+) % of 150000 octets sent(, \d+ octets/s, \d+ s left)?"
    report = unheard(re.sub(rf"{sends}|{line}|\r\x1b\[K", "", told))
    answers = ("transaction 1:7", "eof-sent 1:7", "finished 1:7 0 complete retained")
    lines = "".join(f"1 {it}\r\n" for it in answers)
    if sender.process.returncode or report != f"{lines}\r\ncomplete 1 of 1\r\n":
        yield f"with status {sender.process.returncode} it wrote {told!r} to a terminal"
    shares = [(int(share), rate) for share, rate in re.findall(sends, told)]
    # However slow the machine is, some 160 turns send the frames, since few leave at once.
    is_in_order = shares == sorted(shares, key=lambda it: it[0])
    if not is_in_order or len({share for share, rate in shares if rate}) < 3:
        yield f"it didn't say how far the transfer is: {told!r}"
    if not re.search(rf"{line}\r\ncomplete", told):
        yield f"it didn't say how far the transfer was: {told!r}"


def memory_mistakes(program):
    """What is wrong where a station finds no memory: the first growth of it is refused, the second,
    .., as long as there is one. Its one put is refused, or ends with fault 4."""
    settings, refused, is_met = {"eof_time": 1, "eof_limit": 1}, set(), True
    for growth in itertools.takewhile(lambda _: is_met, itertools.count(1)):
        with tempfile.TemporaryDirectory(dir=program.room) as folder:
            ports = dict(zip((1, 2), free_ports(2)))
            put(folder, 1, "a", b"hello")
            words = ["--outbox", "from", "--put", "a", "b", "--idle", "1"]
            env = {"PATH": "/usr/bin:/bin", **program.faulty(f"memory={growth},mark")}
            station = Station(program, folder, 1, 2, ports, words, settings, env=env)
            if station.comes_to(b"eof-sent"):
                station.process.kill()
            status, out, err = station.ended()
            is_met, err = os.path.exists(f"{folder}/1/refused"), unheard(err)
        if "eof-sent" not in out:
            found = [
                kind
                for kind, (text, told) in MEMORY_ENDS.items()
                if re.fullmatch(text, out) and re.fullmatch(told, err)
            ]
            refused.update(found)
            if status != 3 or not found:
                yield f"with status {status} it wrote {out!r} and {err!r}"
    if refused != MEMORY_ENDS.keys():
        yield f"of {growth} growths of memory were {sorted(refused)}, and not {list(MEMORY_ENDS)}"


def steady_mistakes(program, words):
    """What is wrong with the memory of a long transfer without journals: no frame takes any, whether
    it leaves or comes. Of 4,200 frames fewer than a tenth may ask for memory: a start needs some hundreds, and a
    list that grows to twice its length few."""
    octets, settings = chance_of(47).randbytes(200_000), {"segment": 64, "zone": 64}
    with tempfile.TemporaryDirectory(dir=program.room) as folder:
        ports, started = dict(zip((1, 2), free_ports(2))), []
        put(folder, 1, "a", octets)
        env = {"PATH": "/usr/bin:/bin", **program.faulty(f"memory={MOST_GROWTHS},mark")}
        sends = ["--outbox", "from", "--put", "a", "b", "--idle", "2"]
        for own, those in ((2, ["--inbox", "to", "--idle", "15"]), (1, sends)):
            those += ["--no-journal", "--rate", "2000", *words]
            started.append(Station(program, folder, own, 3 - own, ports, those, settings, env=env))
            started[-1].comes_up()
        yield from (f"{it.own}: {ran}" for it in started if (ran := it.ended())[0])
        yield from (f"{own} asked for memory {MOST_GROWTHS} times"
                    for own in (1, 2) if os.path.exists(f"{folder}/{own}/refused"))
        if files_at(folder, 2) != {"b": octets}:
            yield "the file didn't come"


def events_of(trace, pattern):
    """The event of each line of a trace that has this pattern behind its station."""
    return [int(it) for it in re.findall(rf"(?m)^\d+\.(\d+) [12] {pattern}", trace)]


def dumped(program, capture):
    """The lines that a dump prints of the PDUs in a capture."""
    return program.run(["dump", "pdus", "it"], "", there={"it": capture})[1].splitlines()


def watched_as_killed(program, folder):
    """Kills a station as it sends and then its peer, both of which show what passes. Returns the
    traces of both, and the capture and the chart of the first."""
    ports = dict(zip((1, 2), free_ports(2)))
    put(folder, 1, "a", chance_of(41).randbytes(300_000))
    started = []
    for own, words in ((2, ["--inbox", "to"]), (1, ["--outbox", "from", "--put", "a", "b"])):
        os.makedirs(f"{folder}/{own}", exist_ok=True)
        words += ["--rate", "400", "--trace", "--pcap", "p.pcap", "--chart", "c.mmd", "--explain"]
        with open(f"{folder}/{own}/trace", "wb") as trace:
            station = Station(program, folder, own, 3 - own, ports, words, PATIENT, stderr=trace)
        station.comes_up()
        started.append(station)
    waits_for(lambda: len(read(f"{folder}/1/p.pcap")) >= 60_000)
    waits_for(lambda: read(f"{folder}/2/trace").count(b" hears data ") >= 60)
    for station in reversed(started):
        station.process.kill()
        station.process.communicate()
        time.sleep(0.3)
    left = [read(f"{folder}/{it}") for it in ("1/trace", "2/trace", "1/p.pcap", "1/c.mmd")]
    return left[0].decode(), left[1].decode(), left[2], left[3].decode()


def killed_watched_mistakes(program):
    """What is wrong with what a station leaves that is killed as it sends: its trace has each PDU
    that its peer heard, but for what its last frame had; its capture has those of the trace, and
    its chart the first lines, but for those of the last event."""
    with tempfile.TemporaryDirectory(dir=program.room) as folder:
        sent, heard, capture, chart = watched_as_killed(program, folder)
    told = lambda text, verb: re.findall(rf"(?m) {verb} (data \d+:\d+ \d+ \d+)$", text)
    missing = set(told(heard, "hears")) - set(told(sent, "sends"))
    if len(missing) > 1 or len(told(heard, "hears")) < 40:
        yield f"its trace lacks {sorted(missing)} of {len(told(heard, 'hears'))} that were heard"
    traced, packets = pdus_of(sent), packets_in(capture)
    captured = dumped(program, capture)[: len(packets)]
    late = {event for event, _ in traced[len(captured) :]}
    if captured != [line for _, line in traced[: len(captured)]] or len(late) > 1:
        yield f"its capture has the PDUs {captured}, and its trace {traced}"
    # A PDU whose first octet has the bit of value 2 ends in a CRC of two octets.
    whole = (it[3][: len(it[3]) - (it[3][0] & 2)] for it in packets if it[3][0] & 0x10)
    data = b"".join(pdu[-1024:] for pdu in whole)
    if data != chance_of(41).randbytes(300_000)[: len(data)] or len(data) < 40_000:
        yield f"the {len(data)} octets of file data in its capture aren't those of the file"
    events = events_of(sent, "")
    lines = chart.split("\n")[3:-1]
    charted = [int(re.search(r"\d+\.(\d+) ", it)[1]) for it in lines]
    if charted != events[: len(charted)] or len(charted) < min(400, len(set(events)) - 1):
        yield f"its chart has {len(charted)} lines, and its trace {len(events)}"


def watched_peak(program, more):
    """The most memory of a station that sends a file of 8 MB, with these words too."""
    with tempfile.TemporaryDirectory(dir=program.room) as folder:
        ports = dict(zip((1, 2), free_ports(2)))
        put(folder, 1, "a", bytes(8_000_000))
        words = ["--inbox", "to", "--rate", "0"]
        receiver = Station(program, folder, 2, 1, ports, words, PATIENT)
        receiver.comes_up()
        words = ["--outbox", "from", "--put", "a", "b", "--rate", "0", *more]
        with open(os.devnull, "wb") as nothing:
            sender = Station(program, folder, 1, 2, ports, words, PATIENT, stderr=nothing)
        came = sender.comes_to(b"0 complete retained")
        peak = peak_of(sender.process)
        for station in (sender, receiver):
            station.process.kill()
            station.process.communicate()
        return peak if came else None


def watched_memory_mistakes(program):
    """What is wrong where it costs memory for long to look on: what was seen is let go."""
    peaks = watched_peak(program, []), watched_peak(program, ["--trace", "--pcap", "p.pcap"])
    if None in peaks or peaks[1] > peaks[0] + 2_000_000:
        yield f"a station that sends 8 MB has {peaks[0]} octets, and {peaks[1]} where one looks on"


def all_mistakes(program):
    """What is tried, with what is wrong in it."""
    yield "20 files each way between two processes", exchange_mistakes(program)
    yield "a station killed and started anew", restart_mistakes(program)
    yield "datagrams of a stranger", stranger_mistakes(program)
    yield "an address in use", address_mistakes(program)
    no_inbox = r"error: a file arrived, but there is no --inbox \(transaction 1:\d+\)\n"
    yield "a file for which there is no folder", refused_mistakes(program, [], "b", no_inbox)
    no_name = r"error: to/a/b: a file cannot have that name here \(transaction 1:\d+\)\n"
    inbox = ["--inbox", "to"]
    yield "a name that no folder takes", refused_mistakes(program, inbox, "a/b", no_name)
    yield "a report and a line on one terminal", terminal_mistakes(program)
    yield "a put that finds no memory", memory_mistakes(program)
    for words in [], ["--carrier", "pdus"]:
        what = "a long transfer that takes no memory"
        yield " ".join([what, *words]), steady_mistakes(program, words)
    yield "a station killed while one looks on", killed_watched_mistakes(program)
    yield "the memory of one who looks on", watched_memory_mistakes(program)
