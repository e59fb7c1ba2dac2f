"""Stations over a link that does what links do: it holds frames back, loses them, and brings some
that nobody sent. Stations are killed and started anew, flooded, misfit, and left at rest."""
import contextlib
import itertools
import os
import re
import signal
import subprocess
import time

from lib.choices import chance_of
from lib.frames import DIRECTIVES, FILE_DATA, PEER_DIRECTIVES, frame_of, idle_frame, zones_of
from lib.links import Flood, Link, Relay, Reports, answered, bound, rests
from lib.pdus import eof, finished, piece
from lib.ports import free_ports
from lib.processes import (
    PATIENT,
    damages,
    files_at,
    many_words,
    note_mistakes,
    numbers_of,
    processor_seconds,
    put,
    refused_mistakes,
    unheard,
)
from lib.rates import crowd_mistakes, silence_mistakes
from lib.waiting import SECONDS, SLACK, TRIALS, Timed, in_one_of, waits_for


# ---- numbers


def content_of(name):
    """What is sent under this name: it tells the name, and is as long as that of each other."""
    return f"{name}\n".encode() * 270


def named_files(run, count):
    """So many files, by the names under which they are sent."""
    names = (f"r{run:03}.f{number:02}" for number in range(count))
    return {name: content_of(name) for name in names}


def numbers_mistakes(program, kills):
    """What is wrong where senders are killed soon after they began, and started anew with the clock
    set back, while the receiver stays: a number that comes back shows as a file of another. Each
    second one finds the clock as it was when the one before began. The first is killed once it has
    begun all of its files and one is complete."""
    chance, ids = chance_of(39), []
    puts, began = min(30, 4000 // (kills + 1)), 1_700_000_000
    last = named_files(kills, puts)
    with Link(program) as link:
        slow = {"inactivity_time": 100, "nak_time": 2, "nak_limit": 255, "finished_time": 2}
        receiver = link.starts(2, ["--inbox", "to", "--rate", "0"], slow)
        for run in range(kills):
            words = [*link.puts(1, named_files(run, puts)), "--no-journal", "--rate", "1000"]
            clock = f"clock=at:{began - run // 2 * 3600}"
            sender = link.starts(1, words, PATIENT, waits=False, faults=clock)
            if run == 0:
                sender.comes_to("finished .* 0 complete")
                waits_for(lambda: sender.text("stdout").count("transaction") >= puts)
            time.sleep(chance.uniform(0, 0.6))
            ids += re.findall(r"transaction (\S+)", sender.killed())
        words = [*link.puts(1, last), "--no-journal", "--idle", "3"]
        status, out, err = link.starts(1, words, PATIENT, faults=f"clock=at:{began}").ended()
        ids += re.findall(r"transaction (\S+)", out)
        if status or unheard(err) or not out.endswith(f"complete {puts} of {puts}\n"):
            yield f"the last sender: status {status}, {out[-300:]!r}, {err[-300:]!r}"
        receiver.killed()
        came = files_at(link.folder, 2)
    yield from named_mistakes(came, last)
    twice = {it for it in ids if ids.count(it) > 1}
    if twice:
        yield f"{len(twice)} numbers came again, of {len(set(ids))}: {sorted(twice)[:3]}"
    if len(ids) < 2 * puts:
        yield f"the senders told of {len(ids)} transactions only"


def named_mistakes(came, last):
    """What is wrong with the files that came: each is to have its own content; those of the last
    sender are to be there, and some of those that were killed."""
    whole = {name: octets for name, octets in came.items() if not name.startswith(".")}
    wrong = [it for it in whole if whole[it] != content_of(it)]
    for it in sorted(wrong)[:3]:
        yield f"{it}, of {len(wrong)} wrong ones, has {whole[it][:20]!r}.. of {len(whole[it])}"
    if not last.keys() <= whole.keys():
        yield f"of the last sender's files {sorted(last.keys() - whole.keys())[:3]}.. didn't come"
    if whole.keys() <= last.keys():
        yield "no file of a killed sender came"


def state_mistakes(program):
    """What is wrong with a file of numbers that can't be had: nothing is sent then."""
    with Link(program) as link:
        path, once = f"{link.folder}/1/from.state", {"eof_time": 1, "eof_limit": 0}
        words = link.puts(1, {"a": b"hello"}) + ["--idle", "1"]
        missing = ["--state", "nowhere/numbers", *words]
        yield from refused_mistakes(link.starts(1, missing, once), "nowhere/numbers")
        for fault in ("disk=0", "no-sync", "denied=from.state.new"):
            station = link.starts(1, words, once, faults=fault)
            yield from (f"{fault}: {it}" for it in refused_mistakes(station, "from.state"))
        station = link.starts(1, words, once)
        if station.comes_to("transaction") is None or not os.path.exists(path):
            yield f"it keeps no numbers: {station.ended()}"
            return
        station.killed()
        denied = link.starts(1, words, once, faults="denied=from.state")
        yield from refused_mistakes(denied, "from.state: permission denied")
        with open(path, "rb") as it:
            whole = it.read()
        for octets in damages(whole):
            put(link.folder, 1, "../from.state", octets)
            yield from refused_mistakes(link.starts(1, words, once), "from.state")
            with open(path, "rb") as it:
                if it.read() != octets:
                    yield f"the damaged file {octets!r} isn't as it was"


def idle_mistakes(station):
    """What is wrong with a station without puts that hears nothing, and is to end so."""
    status, out, err = station.ended()
    if (status, out, err) != (0, "complete 0 of 0\n", ""):
        yield f"without a put: status {status}, {out!r}, {err!r}"


def place_mistakes(program):
    """What is wrong with where numbers are kept, if nothing is said, and if it can't be there."""
    with Link(program) as link:
        folder, once = f"{link.folder}/1", {"eof_time": 1, "eof_limit": 0}
        words = link.puts(1, {"a": b"hello"}) + ["--idle", "1"]
        left = lambda: sorted(set(os.listdir(folder)) - {"from", "to"})
        link.starts(1, ["--first-number", "7", *words], once).ended()
        if left():
            yield f"with --first-number 7 it left {left()}"
        ended = link.starts(1, ["--inbox", "to", *words], once).ended()
        kept = ["from.state", "from.state.1-2.journal"]
        if ended[0] != 1 or unheard(ended[2]) or left() != kept:
            yield f"it left {left()} beside the folders, {ended}"
        plain = ["--inbox", "to", "--idle", "1"]
        yield from idle_mistakes(link.starts(1, plain, faults="denied=to.state.new"))
        full = link.starts(1, plain, faults="disk=0")
        yield from refused_mistakes(full, "to: no space left on the device")
        with contextlib.suppress(FileNotFoundError):
            os.remove(f"{folder}/to.state")
        os.mkdir(f"{folder}/to.state")
        yield from idle_mistakes(link.starts(1, plain))


def clock_mistakes(program):
    """What is wrong with the numbers of a station's lives, wherever its clock goes: each is greater
    than all before; and with those of new stations, which begin apart with one clock."""
    with Link(program) as link:
        words = [*link.puts(1, {"a": b"hello"}), "--no-journal"]
        numbers = []
        for clock in (1_700_000_000, 1_700_000_000, 1_600_000_000, 1_800_000_000, 1_700_000_000):
            numbers += numbers_of(link.starts(1, words, faults=f"clock=at:{clock}"))
        if len(numbers) != 5 or numbers != sorted(set(numbers)):
            yield f"the numbers of its lives were {numbers}"
    begun = []
    for clock in (5, 5, 1_700_000_000, 1_700_000_000):
        with Link(program) as link:
            words = link.puts(1, {"a": b"hello"})
            begun += numbers_of(link.starts(1, words, faults=f"clock=at:{clock}"))
    gaps = [after - before for before, after in zip(sorted(begun), sorted(begun)[1:])]
    if len(begun) != 4 or min(gaps) < 1 << 20 or not all(it < 1 << 63 for it in begun):
        yield f"new stations begin with {begun}"


def many_mistakes(program):
    """What is wrong with how many numbers are reserved, which is as many as there are puts; and
    with short ones, which last for as many puts as there are numbers."""
    for count in (1, 4096, 4097):
        with Link(program) as link:
            words = link.puts(1, {"a": b"hello"}) + ["--put", "a", "a"] * (count - 1)
            begun = numbers_of(link.starts(1, words, preexec_fn=many_words))
            with open(f"{link.folder}/1/from.state", encoding="ascii") as it:
                behind = int(re.search(r"(?m)^numbers (\d+)$", it.read())[1])
            if not begun or behind - begun[0] != count:
                yield f"{count} puts from number {begun[:1]} on, reserved below {behind}"
    with Link(program) as link:
        once = {"number_width": 1, "eof_time": 1, "eof_limit": 0}
        words = link.puts(1, {"a": b"hello"}) + ["--put", "a", "a"] * 84
        words += ["--idle", "1", "--at-once", "3072"]
        texts = [link.starts(1, words, once).ended()[1] for _ in range(4)]
        used = [int(it) for it in re.findall(r"transaction 1:(\d+)", "".join(texts))]
        if used != list(range(1, 256)) or texts[3].count(" NumbersSpent\n") != 85:
            yield f"with numbers of an octet: {len(used)} of {used[-1:]}, {texts[3][:200]!r}"


def shared_mistakes(program):
    """What is wrong where two stations have one file of numbers: the second is refused, until the
    first is gone; and its numbers begin behind those of the first."""
    with Link(program) as first, Link(program) as second:
        files, state = {"a": b"hello"}, ["--state", f"{first.folder}/numbers"]
        words = [*state, *first.puts(1, files), "--no-journal"]
        second.puts(1, files)
        begun = first.starts(1, words)
        if begun.comes_to("transaction") is None:
            yield f"the first never began: {begun.text('stderr')!r}"
        yield from refused_mistakes(second.starts(1, words), "in use by another station")
        before = numbers_of(begun)
        after = numbers_of(second.starts(1, words, faults="clock=-86400"))
        if not before or not after or min(after) <= max(before):
            yield f"behind the numbers {before} came {after}"


def inbox_mistakes(program):
    """What is wrong where two processes have one folder for what they receive: the second is
    refused, and lets all stay as it is, until the first is gone, however it ended."""
    with Link(program) as first, Link(program) as second:
        inbox, part = f"{first.folder}/2/to", f"{first.folder}/2/to/.part-1-7"
        begun = first.starts(2, ["--inbox", "to"])
        for path in (part, f"{first.folder}/2/from/a"):
            with open(path, "wb") as it:
                it.write(b"hello")
        words = ["--inbox", inbox, "--idle", "1"]
        in_use = "another station or loop is receiving into this folder"
        yield from refused_mistakes(second.starts(2, words), in_use)
        how = {"cwd": f"{first.folder}/2", "capture_output": True, "timeout": SECONDS}
        ran = subprocess.run([program.path, "loop", "from", "to", "a", "b"], **how)
        if (ran.returncode, ran.stderr) != (3, f"error: to: {in_use}\n".encode()):
            yield f"a loop: status {ran.returncode}, {ran.stdout!r}, {ran.stderr!r}"
        if os.listdir(inbox) != [".part-1-7"]:
            yield f"in the folder lies {os.listdir(inbox)}"
        begun.killed()
        yield from idle_mistakes(second.starts(2, words))
        if os.listdir(inbox):
            yield f"in the folder is left {os.listdir(inbox)}"


def behind_mistakes(program):
    """What is wrong where a station is killed and started anew: the peer may await the count behind
    the last one that was reserved, so the first frame of the new one is to have a later one."""
    with Link(program, Relay()) as link:
        words, came = link.puts(1, {"a": b"hello"}), link.relay.came
        link.starts(1, words).comes_to("eof-sent")
        time.sleep(0.3)
        waits_for(lambda: came)
        link.started[0].killed()
        with open(f"{link.folder}/1/from.state", encoding="ascii") as it:
            reserved = int(re.search(r"frames (\d+)\n", it.read())[1]) % (1 << 24)
        link.relay.catches_up()
        before = len(came)
        link.starts(1, words)
        waits_for(lambda: len(came) > before)
        first = {int.from_bytes(frame[2:5], "big") for _, _, frame in came[before : before + 1]}
        if not before or first != {(reserved + 1) % (1 << 24)}:
            yield f"behind {before} frames, and {reserved} as reserved, came the count {first}"


def stop_mistakes(program):
    """What is wrong where no more counts of frames can be reserved: none may leave then."""
    with Link(program, Relay()) as link:
        text = f"cfdp_node station 1\nnumbers 1\nframes {(1 << 64) - 2}\n"
        words = link.puts(1, {"a": b"hello"})
        put(link.folder, 1, "../from.state", text.encode())
        # There is room for what is written at the start alone.
        station = link.starts(1, words, faults="disk=100")
        yield from note_mistakes(station, "nothing is sent", time.time(), 2)
        if link.relay.came:
            yield f"{len(link.relay.came)} frames left whose counts aren't reserved"


def unwritable_mistakes(program):
    """What is wrong where transaction numbers can't be reserved while a station runs, since the
    folder of its state file is gone: it says so with the cause, and rests meanwhile. Once the
    folder is back, the file that waits is sent."""
    with Link(program) as link:
        link.starts(2, ["--inbox", "to"], PATIENT)
        os.makedirs(f"{link.folder}/1/kept")
        words = ["--spool", "out", "--state", "kept/state"]
        os.makedirs(f"{link.folder}/1/out", exist_ok=True)
        station = link.starts(1, words, PATIENT)
        os.rename(f"{link.folder}/1/kept", f"{link.folder}/1/away")
        put(link.folder, 1, "../out/a", b"hello")
        cause = "no further file is sent: cannot write the state file: no such file or folder"
        cause += r" \(kept/state\)$"
        yield from note_mistakes(station, cause, time.time(), 5)
        before = processor_seconds(station)
        time.sleep(3)
        if (took := processor_seconds(station) - before) > 1.5:
            yield f"it took {took:.1f} s of a processor in 3 s in which nothing could be sent"
        os.rename(f"{link.folder}/1/away", f"{link.folder}/1/kept")
        if station.comes_to("finished .* 0 complete retained") is None:
            yield f"the file didn't come: {station.text('stdout')!r}"


# ---- frames that don't come in order


class Swaps:
    """Has this share of the frames that a relay is given change places with the next one of their
    station. It is what the relay is to call of each frame."""

    def __init__(self, share, chance):
        self.share, self.chance, self.held, self.relay = share, chance, {}, None

    def __call__(self, own, frame):
        held = self.held.pop(own, None)
        if held is None and self.chance.random() < self.share:
            self.held[own] = frame
        else:
            for it in (frame, held or frame)[: 2 if held else 1]:
                self.relay.give(3 - own, it)
        return False


class Doubles:
    """Has each frame that a relay is given come twice. It is what the relay is to call of each."""

    def __init__(self):
        self.relay = None

    def __call__(self, own, frame):
        self.relay.give(3 - own, frame)
        return True


# A part of the note of frames that don't come in order.
OUT_OF_ORDER = "frames arrived out of order, or twice"


def disordered(program, link_of, words, settings):
    """Whether a file arrives over such a link, or a note is told of it, and what both ends tell."""
    passes = link_of()
    passes.relay = Relay(passes)
    with Link(program, passes.relay) as link:
        content = chance_of(48).randbytes(100_000)
        receiver = link.starts(2, ["--inbox", "to", *words], PATIENT | settings)
        puts = link.puts(1, {"a": content})
        sender = link.starts(1, [*puts, "--rate", "400", *words], PATIENT | settings)
        is_there = lambda: files_at(link.folder, 2).get("a") == content
        is_told = lambda: OUT_OF_ORDER in receiver.text("stderr")
        is_over = lambda: sender.process.poll() is not None
        if words or settings:
            waits_for(lambda: is_there() or is_over())
        else:
            waits_for(lambda: is_told() or is_over())
        return is_there(), is_told(), [it.text("stdout") for it in (sender, receiver)]


def order_mistakes(program):
    """What is wrong where most frames change places, or all come twice: a file of which no PDU fits
    in a frame doesn't arrive, and a note tells why; each of the two things that it says helps."""
    swaps = lambda: Swaps(0.7, chance_of(47))
    for what, link_of in (("swaps", swaps), ("doubles", Doubles)):
        is_there, is_told, told = disordered(program, link_of, [], {})
        if is_there or not is_told:
            yield f"on a link that {what}: {is_there}, {is_told}, {told}"
        for how, words, settings in (
            ("PDUs as datagrams", ["--carrier", "pdus"], {}),
            ("larger zones", [], {"zone": 2040, "segment": 512}),
        ):
            found = disordered(program, link_of, words, settings)
            if not found[0]:
                yield f"on a link that {what}, with {how}: {found}"


def loss_mistakes(program):
    """What is wrong where each tenth frame is lost: nothing is told of their order."""
    passes = lambda own, frame: len(link.relay.came) % 10 > 0
    with Link(program, Relay(passes)) as link:
        receiver = link.starts(2, ["--inbox", "to"], PATIENT)
        content = chance_of(49).randbytes(100_000)
        sender = link.starts(1, [*link.puts(1, {"a": content}), "--rate", "400"], PATIENT)
        if sender.comes_to("finished .* 0 complete retained") is None:
            yield f"the file didn't come: {sender.text('stdout')!r}"
        told = [it.text("stderr") for it in (sender, receiver)]
        if any(OUT_OF_ORDER in it for it in told):
            yield f"they told {told}"


# ---- floods


def flooded(program, flood, seconds):
    """How long a file of 1 MB takes, at any rate, while a flood reaches both stations; None if it
    isn't complete in so many seconds; and what both told."""
    with Link(program, Relay()) as link, bound(free_ports(1)[0]) as stranger:
        listens, sockets = link.relay.listens.values(), link.relay.sockets.values()
        floods = {
            "idle": lambda: Flood(idle_frame(0), 1000, list(zip(sockets, listens))),
            "strange": lambda: Flood(b"x", 1000, [(stranger, port) for port in listens]),
            "no": contextlib.nullcontext,
        }
        words = link.puts(1, {"a": chance_of(40).randbytes(1_000_000)})
        receiver = link.starts(2, ["--inbox", "to", "--rate", "0"], PATIENT)
        with floods[flood]():
            time.sleep(0.2)
            start = time.time()
            sender = link.starts(1, [*words, "--rate", "0"], PATIENT)
            ended = sender.comes_to("finished .* 0 complete retained", seconds)
        took = None if ended is None else ended - start
        return took, [it.text("stdout") for it in (sender, receiver)]


def flood_mistakes(program):
    """What is wrong where 1,000 datagrams a second come that carry nothing."""
    plain, told = flooded(program, "no", SECONDS)
    if plain is None:
        yield f"without a flood the file doesn't come: {told}"
        return
    most = 2 * plain + 2
    for flood in ("idle", "strange"):
        took, told = flooded(program, flood, most)
        if took is None:
            text = f"in a flood ({flood}) no file in {most:.1f} s, and {plain:.1f} without: {told}"
            yield Timed(text)


def burst_mistakes(program):
    """What is wrong where 256 EOFs wait at once: a station takes at most 64 datagrams before it
    sends, so that its ACKs (code 6) leave by 64 at most, with NAKs (code 8) between."""
    with Link(program, Relay()) as link:
        receiver = link.starts(2, ["--inbox", "to", "--rate", "0"])
        receiver.process.send_signal(signal.SIGSTOP)
        for count in range(256):
            zone = next(zones_of([eof(count)]))
            link.relay.give(2, frame_of(DIRECTIVES, count, zone))
        receiver.process.send_signal(signal.SIGCONT)
        runs, stop = [], time.monotonic() + SECONDS
        while sum(runs) < 256 and time.monotonic() < stop:
            time.sleep(0.2)
            zones = b"".join(frame[8:] for _, _, frame in list(link.relay.came))
            codes = re.findall(rb"(?s)\x13\x00\x01....\x00\x02([\x06\x08])", zones)
            runs = [len(it) for it in re.findall(b"\x06+", b"".join(codes))]
    if sum(runs) < 256 or max(runs, default=0) > 64:
        yield f"of 256 EOFs {runs} were acknowledged at once"


# ---- what nobody sent


def full_mistakes(program):
    """What is wrong where so many transactions are forged that a receiver's table is full."""
    is_full = "table is full|no room"
    with Link(program, Relay()) as link:
        receiver = link.starts(2, ["--inbox", "to"])
        ends = [eof(number) for number in range(1, 5001)]
        rest = [piece(number) for number in range(5001, 6001)]
        counts = {DIRECTIVES: 0, FILE_DATA: 0}

        def forge(channel, pdus):
            for zone in zones_of(pdus):
                link.relay.give(2, frame_of(channel, counts[channel], zone))
                counts[channel] += 1
                time.sleep(0.005)

        begun = lambda: len(re.findall("eof-recv", receiver.text("stdout")))
        stop = time.monotonic() + SECONDS
        while begun() < 4096 and time.monotonic() < stop:
            forge(DIRECTIVES, ends)
            time.sleep(1)
        if begun() != 4096:
            yield f"it has {begun()} transactions, and not 4096"
            return
        since = time.time()
        forge(FILE_DATA, rest)
        yield from note_mistakes(receiver, f".*({is_full})", since, 2)
        forge(DIRECTIVES, ends[4096:])
        time.sleep(3)
        count = len(re.findall(f"note: .*({is_full})", receiver.text("stderr")))
        if count > 1:
            yield f"it told {count} times that its table is full: {receiver.text('stderr')!r}"


def strange_mistakes(program):
    """What is wrong where 100 Finisheds wait at once of transactions that a sender doesn't know, as
    those of its life before: it has at most 64 answers wait, and drops the rest, which its peer
    sends once more. But its table has room, so that it tells of no full one."""
    with Link(program, Relay()) as link:
        sender = link.starts(1, link.puts(1, {"a": b"hello"}), PATIENT)
        if sender.comes_to("eof-sent") is None:
            yield f"it sent no file: {sender.text('stderr')!r}"
        sender.process.send_signal(signal.SIGSTOP)
        counts = itertools.count()
        for numbers, count in ((range(1, 101), 64), (range(65, 101), 100)):
            for zone in zones_of([finished(number) for number in numbers], 101):
                link.relay.give(1, frame_of(PEER_DIRECTIVES, next(counts), zone))
            sender.process.send_signal(signal.SIGCONT)
            waits_for(lambda: len(answered(link.relay)) >= count)
        missing = set(range(1, 101)) - answered(link.relay)
        if missing:
            yield f"it never answered to the Finisheds of {sorted(missing)}"
        if "full" in sender.text("stderr"):
            yield f"it told {sender.text('stderr')!r}"


def misfit_mistakes(program, key, values, word):
    """What is wrong where a value of one end is not that of the other: both have to tell of it."""
    ids, settings = {}, {}
    if key == "id":
        ids = {"ids": (values[1], 1)}
    elif key == "zone":
        settings = {1: {"zone": values[0]}, 2: {"zone": values[1]}}
    else:
        settings = {1: {}, 2: {key: values[1]}}
    with Link(program, Relay()) as link:
        words = link.puts(1, {"a": bytes(3000)})
        receiver = link.starts(2, ["--inbox", "to"], settings.get(2), **ids)
        since = time.time()
        sender = link.starts(1, words, settings.get(1))
        waits_for(lambda: link.relay.first(since) is not None)
        first = link.relay.first(since) or since
        wanted = rf"(?=.*\b{word}\b)" + "".join(rf"(?=.*\b{it}\b)" for it in values)
        for it in (sender, receiver):
            yield from note_mistakes(it, wanted, first, 2)


# A key, its value at one end and at the other, and the word by which both tell of it.
MISFITS = (
    ("zone", (256, 512), "zone"),
    ("spacecraft", (42, 43), "spacecraft"),
    ("peer_virtual_channel", (5, 9), "channel"),
    ("peer_data_virtual_channel", (7, 11), "channel"),
    ("peer_apid", (100, 77), "APID"),
    ("virtual_channel", (6, 10), "channel"),
    ("apid", (101, 66), "APID"),
    ("id", (2, 3), "id"),
)


# ---- paces


def rate_mistakes(program, rate):
    """What is wrong at this rate, in one of some trials."""
    yield from in_one_of(TRIALS, lambda: rate_trial_mistakes(program, rate))


def rate_trial_mistakes(program, rate):
    """What is wrong where both stations send at most so many frames a second, for some 5 s."""
    sizes = [2500] if rate == 1 else [rate * 250] * 5
    files = {f"f{it}": chance_of(it).randbytes(size) for it, size in enumerate(sizes)}
    with Link(program, Relay()) as link:
        both = ["--idle", "20", "--rate", str(rate)]
        receiver = link.starts(2, ["--inbox", "to", *both])
        sender = link.starts(1, link.puts(1, files) + both)
        ends = {1: sender.ended(), 2: receiver.ended()}
        whole = {1: f"complete {len(files)} of {len(files)}\n", 2: "complete 0 of 0\n"}
        for own, (status, out, err) in ends.items():
            is_whole = out.endswith(whole[own]) and not re.search("abandoned|fault", out)
            if status or unheard(err) or not is_whole:
                yield f"station {own}: status {status}, {out[-300:]!r}, {err[-300:]!r}"
        most = 5 / rate + 1 + SLACK
        begun = receiver.comes_to("metadata", 0)
        if begun is None or begun > link.relay.first() + most:
            yield f"no Metadata came within {most:.1f} s of the first frame"
        done = len(re.findall(r"finished \S+ 0 complete retained", ends[2][1]))
        if done != len(files) or files_at(link.folder, 2) != files:
            yield f"the receiver told of {done} complete files of {len(files)}"
        sent = [(when, frame) for when, own, frame in link.relay.came if own == 1]
    times = sorted(when for when, _ in sent)
    yield from crowd_mistakes(times, rate)
    data = [when for when, frame in sent if frame[1] & 63 == FILE_DATA]
    yield from silence_mistakes([it for it in times if it <= max(data, default=0)], rate)


def held_mistakes(program):
    """What is wrong where nothing comes for 8 s in the middle of a file, at a station that may end
    after 4 s: it has to stay. Its first frames wait for it, so that it isn't silent before."""
    with Link(program, Relay()) as link:
        octets = chance_of(41).randbytes(20_000)
        link.relay.holds = True
        sender = link.starts(1, link.puts(1, {"a": octets}) + ["--rate", "30", "--idle", "8"])
        waits_for(lambda: len(link.relay.held) >= 20)
        receiver = link.starts(2, ["--inbox", "to", "--idle", "4"])
        link.relay.release_first(20)
        if receiver.comes_to("metadata") is None:
            yield f"the file never began to come: {receiver.text('stderr')!r}"
        time.sleep(8)
        link.relay.release()
        status, out, err = receiver.ended()
        if status or unheard(err) or not re.search(r"finished \S+ 0 complete retained", out):
            yield f"the receiver: status {status}, {out!r}, {err!r}"
        if files_at(link.folder, 2) != {"a": octets}:
            yield "the file didn't come"
        status, out, err = sender.ended()
        if status or unheard(err) or not out.endswith("complete 1 of 1\n"):
            yield f"the sender: status {status}, {out!r}, {err!r}"


def unended_mistakes(program):
    """What is wrong where idle frames alone come to a station that may end after 2 s."""
    with Link(program, Relay()) as link:
        station = link.starts(2, ["--inbox", "to", "--idle", "2"])
        with Flood(idle_frame(0), 10, [(link.relay.sockets[2], link.relay.listens[2])]):
            status, out, err = station.ended()
        if (status, out, err) != (0, "complete 0 of 0\n", ""):
            yield f"status {status}, {out!r}, {err!r}"


def linger_mistakes(program):
    """What is wrong where a put is given up, after 1 s: its station has to stay for 2 s from then
    on. How long it stays is counted from its start, as a line that it told may be read late."""
    with Link(program) as link:
        words, began = link.puts(1, {"a": b"hello"}) + ["--idle", "2"], time.time()
        station = link.starts(1, words, {"eof_time": 1, "eof_limit": 0})
        given_up = station.comes_to("abandoned") or 0
        status, out, err = station.ended()
        whole, stayed = time.time() - began, time.time() - given_up
        if status != 1 or whole < 1 + 1.5 or stayed > 3 + SLACK:
            yield f"it stayed for {stayed:.2f} s: status {status}, {out!r}, {err!r}"


def late_mistakes(program):
    """What is wrong where a sender stands still while its answer waits behind idle frames: it came
    in time, so that no timer may expire for want of it."""
    answers = []
    with Link(program, Relay(lambda own, frame: own == 1 or answers.append(frame))) as link:
        link.starts(2, ["--inbox", "to"], PATIENT)
        once = {"eof_time": 10, "eof_limit": 0}
        sender = link.starts(1, link.puts(1, {"a": b"hello"}), once, waits=False)
        waits_for(lambda: answers)
        time.sleep(0.5)
        sender.process.send_signal(signal.SIGSTOP)
        for frame in [*(idle_frame(count) for count in range(150)), *answers]:
            link.relay.give(1, frame)
        link.relay.passes = lambda own, frame: True
        time.sleep(10)
        sender.process.send_signal(signal.SIGCONT)
        is_there = sender.comes_to("finished .* 0 complete retained")
        if is_there is None or "fault" in sender.text("stdout"):
            yield f"{len(answers)} answers waited, and it told {sender.text('stdout')!r}"


def kept_mistakes(program):
    """What is wrong where the system refuses to send a frame: it has to leave once more."""
    with Link(program, Relay()) as link:
        link.starts(2, ["--inbox", "to"])
        sender = link.starts(1, link.puts(1, {"a": bytes(3000)}), faults="send=4")
        if sender.comes_to("finished") is None:
            yield f"the file didn't come in time: {sender.text('stdout')!r}"
        frames = [frame for _, own, frame in list(link.relay.came) if own == 1]
        for channel in (DIRECTIVES, FILE_DATA):
            counts = [int.from_bytes(it[2:5], "big") for it in frames if it[1] & 63 == channel]
            if any((after - it) % (1 << 24) != 1 for it, after in zip(counts, counts[1:])):
                yield f"a frame of channel {channel} never left: the counts were {counts}"


def rest_mistakes(program):
    """What is wrong where stations that have nothing to do wake often, or need a processor."""
    for wakes, spent, whose in rests(program):
        if wakes >= 20 or spent > 0.5:
            yield f"{whose} wakes {wakes} times a second, and runs for {spent:.2f} of 5 s"


# ---- ends of transfers


def waiting_mistakes(program):
    """What is wrong where a receiver without a journal is killed that has acknowledged the EOF and
    lacks data: the sender waits for an answer that the new one doesn't have, and says so."""
    is_lossy = lambda own, frame: own == 2 or frame[1] & 63 != FILE_DATA
    with Link(program, Relay(is_lossy)) as link:
        receiver = link.starts(2, ["--inbox", "to", "--no-journal"])
        sender = link.starts(1, link.puts(1, {"a": bytes(5000)}))
        if receiver.comes_to("eof-recv") is None:
            yield f"the receiver got no EOF: {receiver.text('stdout')!r}"
            return
        time.sleep(1)
        receiver.killed()
        since = time.time()
        time.sleep(1)
        link.starts(2, ["--inbox", "to", "--no-journal"])
        link.relay.passes = lambda own, frame: True
        name = re.search(r"transaction (\S+)", sender.text("stdout"))
        yield from note_mistakes(sender, rf"(?=.*\bFinished\b)(?=.*\b{name[1]}\b)", since, 15)


def report_mistakes(program):
    """What is wrong where somebody sends a station forged reports that its peer can't be reached,
    20 a second: a file of 400 kB still comes, in no more than so many seconds."""
    if os.geteuid():
        return
    with Link(program) as link:
        receiver = link.starts(2, ["--inbox", "to"], PATIENT)
        octets = bytes(range(250)) * 1600
        with Reports(link.ports[1], link.ports[2], 20), Reports(link.ports[2], link.ports[1], 20):
            link.starts(1, link.puts(1, {"a": octets}), PATIENT)
            if receiver.comes_to("finished .* 0 complete retained") is None:
                yield f"the file didn't come: {receiver.text('stdout')!r}"
        if files_at(link.folder, 2) != {"a": octets}:
            yield "what came isn't what was sent"


def publish_mistakes(program):
    """What is wrong with the order in which a file that came is made to last: it is flushed, it
    gets its name, and then the folder is flushed."""
    with Link(program) as link:
        receiver = link.starts(2, ["--inbox", "to"], faults="order")
        link.starts(1, link.puts(1, {"a": b"hello"}))
        if receiver.comes_to("finished") is None:
            yield f"the file didn't come: {receiver.text('stdout')!r}"
        receiver.killed()
        with open(f"{link.folder}/2/order", encoding="ascii") as it:
            order = it.read()
        calls = ("fsync .*/[.]part-.*", "rename .*/[.]part-.* .*/a", "fsync .*/to")
        if not re.search("(?m)^" + r"\n(.*\n)*".join(calls) + "$", order):
            yield f"the calls were {order!r}"


def large_mistakes(program):
    """What is wrong with a file of 64 MiB: what comes of it is written at once, so that its
    receiver has less than 16 MB of memory at any time."""
    with Link(program) as link:
        settings, octets = {**PATIENT, "zone": 2040, "segment": 4096}, bytes(range(256)) * (1 << 18)
        receiver = link.starts(2, ["--inbox", "to", "--rate", "0"], settings)
        link.starts(1, [*link.puts(1, {"a": octets}), "--rate", "0"], settings)
        if receiver.comes_to("finished .* 0 complete retained") is None:
            yield f"it didn't come: {receiver.text('stdout')!r}"
        with open(f"/proc/{receiver.process.pid}/status", encoding="ascii") as it:
            most = int(re.search(r"(?m)^VmHWM:\s*(\d+) kB", it.read())[1])
        if most >= 16_000:
            yield f"the receiver had {most} kB of memory"
        if files_at(link.folder, 2) != {"a": octets}:
            yield "what came isn't what was sent"


def lone_mistakes(program):
    """What is tried with nothing beside it, since what it shows depends on milliseconds, or since
    it leaves no processor to others."""
    floods = in_one_of(TRIALS, lambda: flood_mistakes(program))
    yield "floods of what carries nothing", floods
    yield "a file of 64 MiB", large_mistakes(program)


def all_mistakes(program, kills):
    """What is tried, with what is wrong in it."""
    for rate in (1, 10, 100, 1000):
        yield f"a rate of {rate} frames a second", rate_mistakes(program, rate)
    yield f"senders killed {kills} times, their clock set back", numbers_mistakes(program, kills)
    yield "a receiver killed behind the EOF", waiting_mistakes(program)
    yield "a table filled with what nobody sent", full_mistakes(program)
    yield "nothing comes for 8 s", held_mistakes(program)
    yield "idle frames alone", unended_mistakes(program)
    yield "stations at rest", rest_mistakes(program)
    yield "100 Finisheds of unknown transactions at once", strange_mistakes(program)
    for key, values, word in MISFITS:
        title = f"{key} {values[0]} at one end and {values[1]} at the other"
        yield title, misfit_mistakes(program, key, values, word)
    yield "a file of numbers that can't be had", state_mistakes(program)
    yield "where numbers are kept", place_mistakes(program)
    yield "numbers by the clock", clock_mistakes(program)
    yield "as many numbers as there are puts", many_mistakes(program)
    yield "two stations with one file of numbers", shared_mistakes(program)
    yield "two processes with one inbox", inbox_mistakes(program)
    yield "the count of a new station's first frame", behind_mistakes(program)
    yield "counts of frames that can't be reserved", stop_mistakes(program)
    yield "numbers that can't be reserved for a time", unwritable_mistakes(program)
    yield "frames that change places, or come twice", order_mistakes(program)
    yield "frames of which a tenth is lost", loss_mistakes(program)
    yield "256 EOFs at once", burst_mistakes(program)
    yield "a put that is given up", linger_mistakes(program)
    yield "an answer that waits behind idle frames", late_mistakes(program)
    yield "a frame that the system refuses to send", kept_mistakes(program)
    yield "the folder of a file that came", publish_mistakes(program)
    yield "forged reports that the peer can't be reached", report_mistakes(program)
