"""Stations with a journal: they are killed, and go on with what was open."""
import contextlib
import itertools
import os
import re
import shutil
import struct

from kills import Disk
from lib.choices import chance_of
from lib.control import asked, controlled
from lib.links import Link, Relay
from lib.pdus import METADATA, large_eof, piece
from lib.processes import files_at
from lib.spools import Spool, drop, names_in, octets_of
from lib.waiting import TRIALS, Timed, in_one_of, waits_for

# How many kills there are in all, of either station, if nothing else is said.
KILLS = 40

# Of the PDUs so many are lost, in both directions.
LOST = 0.1

# How many PDUs a station sends in a second, with how many octets of a file; after how many
# milliseconds it notes how far files are, and repeats what isn't answered.
RATE, SEGMENT, EVERY, AGAIN = 150, 200, 100, 300

# Times are in milliseconds. What isn't answered is repeated for as long as it takes.
TIMES = {"eof_time": AGAIN, "nak_time": AGAIN, "finished_time": AGAIN, "inactivity_time": 60_000}
LIMITS = {"eof_limit": 255, "nak_limit": 255, "finished_limit": 255}
STEADY = {**TIMES, **LIMITS, "segment": SEGMENT}
WORDS = ["--unit", "ms", "--journal", "journal", "--state", "state", "--inbox", "to"]

# Kinds of records in a journal.
OPENED, HEARD_EOF = 5, 7

# Lengths of files, some of which need no file data, one PDU or two.
SIZES = (0, 1, SEGMENT - 1, SEGMENT, SEGMENT + 1, 3_000, 20_000, 60_000)


class Counting(Relay):
    """A link that loses datagrams by chance. If each has one PDU, `numbers` has for each file that
    a station sends the numbers of its Metadata, `octets` how many octets of files each station
    sent, and `lost` how many of them were lost. Once a station has sent more octets than `most`
    says, the link stands still until it is released, so that no file is over before a kill."""

    def __init__(self, seed, lost=LOST, carrier="pdus", most=None):
        self.chance, self.share, self.carrier = chance_of(seed), lost, carrier
        self.most = most or {}
        self.numbers, self.count = {}, 0
        self.octets, self.lost = {1: 0, 2: 0}, {1: 0, 2: 0}
        super().__init__(self.lets)

    def lets(self, own, pdu):
        """Whether a datagram from this station goes on. It is counted."""
        is_lost = self.chance.random() < self.share
        if self.carrier == "pdus":
            self.counts(own, pdu, is_lost)
        self.count += 1
        return not is_lost

    def counts(self, own, pdu, is_lost):
        """Counts a PDU."""
        first, length, number = struct.unpack_from(">BHxxxQ", pdu)
        body = pdu[16 : 4 + 12 + length - (2 if first & 2 else 0)]
        if first & 16:
            self.octets[own] += len(body) - 4
            self.lost[own] += (len(body) - 4) * is_lost
            if own in self.most and self.octets[own] > self.most[own]:
                self.holds = True
                del self.most[own]
        elif body[0] == METADATA:
            name = body[7 : 7 + body[6]].decode()
            self.numbers.setdefault((own, name), set()).add(number)

    def waits(self, count, seconds):
        """Waits until so many more datagrams came, but no longer than so many seconds."""
        wanted = self.count + count
        waits_for(lambda: self.count >= wanted, seconds)


class Log:
    """What all runs of a station reported, a text for each run."""

    def __init__(self):
        self.runs = []

    def ends(self):
        """All ends that were reported: the run, the place of the line, the transaction, and how."""
        for run, text in enumerate(self.runs):
            for place, line in enumerate(text.splitlines()):
                if found := re.fullmatch(r"\d finished (\S+) (.*)", line):
                    yield run, place, found[1], found[2]

    def completed(self, own):
        """The puts of a station that were reported complete."""
        whole = "0 complete retained"
        return {it for _, _, it, how in self.ends() if how == whole and it.startswith(f"{own}:")}

    def mistakes(self, own):
        """What is wrong with the ends. An end may be reported again right after a start: before all
        else, and once."""
        seen, first = {}, {}
        for run, place, it, how in self.ends():
            before = seen.setdefault(it, {})
            if how != "0 complete retained":
                yield f"station {own}: {it} finished {how}"
            first.setdefault(run, place)
            is_first = place == first[run] and self.is_fresh(run, place)
            first[run] += is_first
            if before and not (is_first and run not in before):
                yield f"station {own}: {it} finished twice: in runs {[*before, run]}"
            before[run] = place

    def is_fresh(self, run, place):
        """Whether only ends stand in a run up to this line."""
        lines = self.runs[run].splitlines()[: place + 1]
        return all(re.match(r"\d finished ", it) for it in lines)


class Pair:
    """Both stations. Station 1 sends what is dropped into its spool, station 2 what it is told at
    its first start. With `cuts` half of the kills take away what wasn't flushed to the disk."""

    def __init__(self, link, puts=(), rate=RATE, every=EVERY, carrier="pdus", cuts=False):
        self.link, self.running, self.odd = link, {}, []
        self.words = [*WORDS, "--journal-every", str(every), "--rate", str(rate)]
        self.words += ["--carrier", carrier]
        self.logs, self.notes = {1: Log(), 2: Log()}, {1: [], 2: []}
        self.more = {1: ["--spool", "from"], 2: ["--outbox", "from", "--at-once", "500", *puts]}
        for own in (1, 2):
            for it in ("from", "to"):
                os.makedirs(f"{link.folder}/{own}/{it}", exist_ok=True)
        disk = lambda own: Disk(f"{link.folder}/{own}", f"{link.folder}/kept{own}")
        self.disks = {own: disk(own) for own in (1, 2)} if cuts else {}

    def starts(self, own, faults="", words=()):
        """Starts a station."""
        if own in self.disks:
            faults = f"kept={self.disks[own].kept} {faults}"
        whole = [*self.words, *self.more[own], *words]
        self.running[own] = self.link.starts(own, whole, STEADY, faults=faults)
        # What it was told to put goes on: it isn't told again.
        self.more[own] = self.more[own][:4]
        return self.running[own]

    def kills(self, own, cut_by=None):
        """Kills a station. With `cut_by`, which makes choices, its power may be cut."""
        it = self.running[own]
        status = it.process.poll()
        if status is not None:
            self.odd.append(f"station {own} ended with {status}: {it.text('stderr')[-300:]}")
        self.ended(own, it.killed())
        if self.disks and cut_by and cut_by.random() < 0.5:
            self.cuts_power(own, cut_by)

    def cuts_power(self, own, chance):
        """Takes away what a station that was killed hadn't flushed to the disk."""
        self.disks[own].cut(chance)
        # All files are other ones now, and the journal isn't older than the others.
        with contextlib.suppress(FileNotFoundError):
            os.utime(f"{self.link.folder}/{own}/journal")

    def ended(self, own, text):
        """Keeps what a run reported."""
        self.logs[own].runs.append(text)
        self.notes[own].append(self.running[own].text("stderr"))
        # What it told was read by threads of its own, which have ended.
        self.link.started = [it for it in self.link.started if it.process.poll() is None]

    def drops(self, files):
        """Drops files into the spool of station 1. If power may be cut, it mustn't run."""
        for name, octets in files.items():
            drop(f"{self.link.folder}/1/from", name, octets)
        if self.disks:
            self.disks[1].begins()

    def mistakes(self):
        """What is wrong with what both stations reported."""
        yield from self.odd[:5]
        for own in (1, 2):
            yield from list(self.logs[own].mistakes(own))[:5]
            told = "".join(self.notes[own])
            if found := re.findall(r".*(?:doesn't go on|damaged|journal: ).*", told):
                yield f"station {own} noted {found[:5]}"


# ---- kills at random moments


def files_of(chance, name, count):
    """Files of mixed lengths, of each length one at least if there are enough."""
    sizes = [*SIZES, *(chance.choice(SIZES) for _ in range(count))][:count]
    chance.shuffle(sizes)
    return {f"{name}{at:03}": chance.randbytes(size) for at, size in enumerate(sizes)}


def count_mistakes(relay, kills, files):
    """What is wrong with what passed on the link: each put has one number for all its time, and
    what a kill costs has a limit: what was sent since it was noted how far files are, and a round
    of NAKs."""
    for (own, name), numbers in sorted(relay.numbers.items()):
        if len(numbers) > 1:
            yield f"{name} of station {own} was sent as {sorted(numbers)}"
    for own in (1, 2):
        whole = sum(len(octets) for octets in files[own].values())
        a_kill = SEGMENT * RATE * (EVERY + 2 * AGAIN) // 1000
        most = whole + relay.lost[own] + kills * a_kill
        if relay.octets[own] > most:
            yield f"station {own} sent {relay.octets[own]} octets of {whole}, at most {most} wanted"


def whole_mistakes(pair, spool, files):
    """What is wrong where all files must have come, and nothing else."""
    link = pair.link
    is_over = lambda: not names_in(spool.folder) and files_at(link.folder, 1) == files[2]
    if not waits_for(is_over):
        yield f"in the spool stay {sorted(names_in(spool.folder))[:9]}"
    for own in (1, 2):
        came = files_at(link.folder, 3 - own)
        if came != files[own]:
            odd = sorted(it for it in {*came, *files[own]} if came.get(it) != files[own].get(it))
            yield f"of station {own} {len(files[own])} files, {len(came)} came, other ones: {odd}"


def end_mistakes(pair, files):
    """What is wrong where all puts must have been reported complete."""
    for own in (1, 2):
        wanted, log = len(files[own]), pair.logs[own]
        complete = log.completed(own)
        if len(complete) != wanted:
            yield f"station {own}: of {wanted} puts {len(complete)} are complete: {complete}"


def end_all(pair, files):
    """Waits until all puts were reported complete, and kills both stations."""
    for own in (1, 2):
        before = pair.logs[own].completed(own)
        now = Log()

        def is_over(own=own, before=before, now=now):
            now.runs = [pair.running[own].text("stdout")]
            return len(before | now.completed(own)) >= len(files[own])

        waits_for(is_over)
    for own in (1, 2):
        pair.kills(own)


def kill_often(pair, relay, chance, kills, files):
    """Kills either station so many times, or both, by what passes on the link. Station 1 is killed
    last, and all files lie in its spool then."""
    waiting = sorted(files)
    for number in range(1, kills + 1):
        relay.waits(chance.choice((1, 3, 10, 30, 60)), 1)
        those = chance.choice(((1,), (1,), (2,), (2,), (1, 2))) if number < kills else (1,)
        for own in those:
            pair.kills(own, chance)
        if 1 in those:
            due = len(files) * number // kills - (len(files) - len(waiting))
            pair.drops({name: files[name] for name in waiting[:due]})
            waiting = waiting[due:]
        for own in those:
            pair.starts(own)


def kill_mistakes(program, kills, seed=91, carrier="pdus", cuts=False):
    """What is wrong where files go both ways over a link that loses datagrams, and either station
    is killed at random moments, or its power is cut, so many times in all."""
    chance = chance_of(seed)
    files = {1: files_of(chance, "s", max(8, kills // 2)), 2: files_of(chance, "p", kills // 4)}
    relay = Counting(seed, carrier=carrier)
    with Link(program, relay) as link:
        puts = link.puts(2, files[2])[2:]
        pair, spool = Pair(link, puts, carrier=carrier, cuts=cuts), Spool(link)
        for own in (1, 2):
            pair.starts(own)
        are_made = lambda: pair.running[2].text("stdout").count("transaction 2:") == len(files[2])
        if not waits_for(are_made):
            yield "station 2 didn't make its puts"
        kill_often(pair, relay, chance, kills, files[1])
        yield from whole_mistakes(pair, spool, files)
        end_all(pair, files)
        yield from end_mistakes(pair, files)
        yield from count_mistakes(relay, kills, files)
        yield from pair.mistakes()


# ---- kills at certain moments

# What a station is killed at: which of its stations, the calls of which kind, and a word of their
# paths.
MOMENTS = {
    "the receiver's sync of its journal": (2, "sync", "journal"),
    "the receiver's sync of a part": (2, "sync", ".part-"),
    "the receiver's renaming of a part": (2, "rename", ".part-"),
    "the receiver's sync of its inbox": (2, "sync", "/to"),
    "the receiver's renaming of its journal": (2, "rename", "journal"),
    "the sender's sync of its journal": (1, "sync", "journal"),
    "the sender's renaming of its journal": (1, "rename", "journal"),
    "the sender's renaming of a sent file": (1, "rename", "a"),
}
NOT_REPLACED = {
    "the receiver's second name of a part": (2, "link", ".part-"),
    "the receiver's removal of a part's name": (2, "unlink", ".part-"),
}

# More calls of a kind than a transfer of a file makes.
MOST_CALLS = 40


def moment_mistakes(program, when, moment, words=()):
    """What is wrong where a station is killed right before or after each of these calls, while it
    sends or receives a file; also if its power is cut by that."""
    for cuts in (False, True):
        for turn in range(1, MOST_CALLS):
            own, call, word = moment
            faults = f"order {when}={call}:{turn}:{word}"
            wrong = list(one_mistakes(program, own, faults, words, cuts, turn))
            if wrong == [NOT_KILLED]:
                break
            yield from (f"call {turn}{', power' if cuts else ''}: {it}" for it in wrong)
        else:
            yield f"{MOST_CALLS} calls were made"


NOT_KILLED = "it wasn't killed"


def one_mistakes(program, own, faults, words, cuts, seed):
    """The same of one kill."""
    octets = chance_of(seed).randbytes(2 * SEGMENT + 1)
    relay = Counting(seed, lost=0)
    with Link(program, relay) as link:
        pair, spool = Pair(link, rate=1000, cuts=cuts), Spool(link)
        pair.drops({"a": octets})
        # The receiver first: its journal is begun in its first turn, in which nothing may come yet.
        for end in (2, 1):
            pair.starts(end, faults=faults if end == own else "", words=words)
        it = pair.running[own]
        is_killed = lambda: it.process.poll() is not None
        is_over = lambda: "finished" in pair.running[1].text("stdout") and files_at(link.folder, 2)
        waits_for(lambda: is_killed() or is_over())
        if not waits_for(is_killed, 0.5):
            yield NOT_KILLED
            return
        pair.ended(own, it.ended()[1])
        if cuts:
            pair.cuts_power(own, chance_of(seed))
        pair.starts(own, faults="order", words=words)
        if not waits_for(lambda: not names_in(spool.folder)):
            yield "it stays in the spool"
        end_all(pair, {1: {"a": octets}, 2: {}})
        if files_at(link.folder, 2) != {"a": octets}:
            yield f"in the inbox lie {sorted(names_in(spool.inbox))}"
        renamed = (octets_of(f"{link.folder}/2/order") or b"").count(b" to/a\n")
        if renamed > 1:
            yield f"it was published {renamed} times"
        yield from end_mistakes(pair, {1: {"a": octets}, 2: {}})
        yield from count_mistakes(relay, 1, {1: {"a": octets}, 2: {}})
        yield from pair.mistakes()


# ---- what a kill costs


def sent_of(journal):
    """How far a journal says that its last file was sent, by its last batch that says only that."""
    found = re.findall(b"(?s)" + bytes(7) + b"!....%b\x01\x02.{16}(.{8})" % bytes(7), journal)
    return int.from_bytes(found[-1], "big") if found else 0


def cost_mistakes(program):
    """What is wrong with what a kill costs, in one of some trials."""
    yield from in_one_of(TRIALS, lambda: cost_trial_mistakes(program))


def cost_trial_mistakes(program):
    """What is wrong where a sender is killed in the middle of a file: it begins again where its
    journal says. That may be a little behind or ahead of what left, and some may be asked for again
    at the end, since an EOF overtakes file data."""
    octets = chance_of(92).randbytes(60_000)
    relay = Counting(92, lost=0)
    with Link(program, relay) as link:
        pair, spool = Pair(link), Spool(link)
        path = f"{link.folder}/1/journal"
        pair.drops({"a": octets})
        pair.starts(2)
        pair.starts(1)
        if not waits_for(lambda: sent_of(octets_of(path) or b"") > 10_000):
            yield "the journal doesn't say how far the file is"
        pair.kills(1)
        relay.catches_up()
        sent, noted = relay.octets[1], sent_of(octets_of(path))
        pair.starts(1)
        waits_for(lambda: not names_in(spool.folder))
        again = relay.octets[1] - len(octets)
        most = max(0, sent - noted) + 10 * SEGMENT
        if noted <= 10_000 or not 0 <= again <= most:
            yield Timed(f"{sent} octets were sent, {noted} noted, and {again} were sent again")
        told = pair.running[1].text("stderr")
        if f" a at {noted} of {len(octets)} octets\n" not in told:
            yield Timed(f"it noted {told!r}")


# ---- files that change while a station is down


def changed_mistakes(program, moment):
    """What is wrong where another file gets the name of one that was sent, or is being sent, while
    the station is down: that file is sent too."""
    chance = chance_of(93)
    old, new = chance.randbytes(40_000), chance.randbytes(40_000)
    with Link(program) as link:
        pair, spool = Pair(link), Spool(link)
        pair.starts(2)
        pair.drops({"a": old})
        it = pair.starts(1, faults=moment)
        if moment:
            pair.ended(1, it.ended()[1])
        else:
            path = f"{link.folder}/1/journal"
            waits_for(lambda: sent_of(octets_of(path) or b"") > 5_000)
            pair.kills(1)
        pair.drops({"a": new})
        pair.starts(1)
        is_sent = lambda: not names_in(spool.folder) and spool.in_folder(".sent") == {"a": new}
        if not waits_for(is_sent):
            yield f"in the spool stays {sorted(names_in(spool.folder))}"
        if octets_of(f"{spool.inbox}/a") != new:
            yield "it left the spool, and isn't in the inbox"
        for own in (1, 2):
            pair.kills(own)


def put_mistakes(program):
    """What is wrong where a station that was killed is told the same puts again: those that go on
    aren't made twice."""
    files = {"a": chance_of(94).randbytes(40_000), "b": b"hello"}
    relay = Counting(94, lost=0, most={2: 20_000})
    with Link(program, relay) as link:
        words = link.puts(2, files)[2:]
        pair = Pair(link, words)
        pair.starts(1)
        pair.starts(2)
        waits_for(lambda: relay.holds)
        pair.kills(2)
        over = pair.logs[2].completed(2)
        relay.release()
        pair.starts(2, words=words)
        waits_for(lambda: len(names_in(f"{link.folder}/1/to")) == 2)
        end_all(pair, {1: {}, 2: {"a": 0}})
        if len(relay.numbers[2, "a"]) != 1 or files_at(link.folder, 1) != files:
            yield f"a was sent as {relay.numbers}, and {sorted(files_at(link.folder, 1))} came"
        if len(over) > 1:
            yield "it was killed too late"


# ---- journals that were cut, or damaged


class Stopped:
    """A link whose stations were killed in the middle of a file, to go on from there many times."""

    def __init__(self, program, own):
        self.program, self.own, self.octets = program, own, chance_of(95).randbytes(12_000)
        self.room = f"{program.room}/stopped{own}"
        with Link(program, Counting(95, lost=0, most={1: 6_000})) as link:
            pair = Pair(link)
            pair.drops({"a": self.octets, "b": b"hello"})
            pair.starts(2)
            pair.starts(1)
            waits_for(lambda: link.relay.holds)
            pair.kills(2)
            pair.kills(1)
            for it in (1, 2):
                shutil.copytree(f"{link.folder}/{it}", f"{self.room}/{it}")
        self.journal = octets_of(f"{self.room}/{own}/journal")

    def ends(self):
        """Where the batches of the journal end."""
        ends, at = [], 0
        while at < len(self.journal):
            at += 12 + int.from_bytes(self.journal[at : at + 8], "big")
            ends.append(at)
        return ends

    def mistakes(self, journal, is_damaged):
        """What is wrong where the stations go on, one of them with this journal."""
        with Link(self.program) as link:
            for it in (1, 2):
                shutil.copytree(f"{self.room}/{it}", f"{link.folder}/{it}")
            path = f"{link.folder}/{self.own}/journal"
            with open(path, "wb") as it:
                it.write(journal)
            # Files have other times than before.
            for own in (1, 2):
                os.utime(f"{link.folder}/{own}/journal")
            pair, spool = Pair(link, rate=1000), Spool(link)
            for own in (1, 2):
                pair.starts(own)
            if not waits_for(lambda: not names_in(spool.folder)):
                yield f"{sorted(names_in(spool.folder))} stay in the spool"
            came = spool.came()
            if came != {"a": self.octets, "b": b"hello"}:
                yield f"{sorted(came)} came, with {[len(it or b'') for it in came.values()]} octets"
            for own in (1, 2):
                pair.kills(own)
            told = pair.notes[self.own][0]
            note = "note: journal: damaged: it is kept as journal.damaged, and no transfer goes on"
            kept = octets_of(f"{path}.damaged")
            if is_damaged != (note in told) or kept != (journal if is_damaged else None):
                yield f"it noted {told!r}, and kept {len(kept or b'')} octets"
            yield from pair.odd


def journal_mistakes(program, own):
    """What is wrong where the journal of a station is cut at many lengths, or an octet of it is
    another one."""
    chance = chance_of(96 + own)
    stopped = Stopped(program, own)
    ends = stopped.ends()
    whole = stopped.journal
    if len(ends) < 3 or ends[-1] != len(whole):
        yield f"its batches end at {ends}, and it has {len(whole)} octets"
    near = {it + by for it in (ends[0], ends[-2], ends[-1]) for by in (-1, 0, 1)}
    cuts = {0, 1, 7, 12, *near, *chance.sample(range(len(whole)), 6)} & {*range(len(whole) + 1)}
    for at in sorted(cuts):
        # Without its first batch it is nobody's.
        is_damaged = at < ends[0]
        for it in stopped.mistakes(whole[:at], is_damaged):
            yield f"cut at {at} of {len(whole)}, with batches to {ends}: {it}"
    for at in sorted({0, 7, 8, 12, *chance.sample(range(len(whole)), 6), len(whole) - 1}):
        bent = bytearray(whole)
        bent[at] ^= 1 << chance.randrange(8)
        is_damaged = at < ends[-2]
        for it in stopped.mistakes(bytes(bent), is_damaged):
            yield f"octet {at} of {len(whole)} is another one, with batches to {ends}: {it}"


# ---- disks that are full

UNWRITTEN = "transfers don't go on after a restart until it can be written"


def full_mistakes(program):
    """What is wrong where a journal can't grow, since the system lets no file have more than 4,096
    octets: it is removed, a note says so, and all files arrive."""
    files = {f"f{at:02}": chance_of(at).randbytes(100) for at in range(60)}
    with Link(program) as link:
        pair, spool = Pair(link, rate=1000, every=3_600_000), Spool(link)
        for own in (1, 2):
            pair.starts(own, faults="file-size=4096")
        pair.drops(files)
        yield from spool.mistakes(files)
        there = [os.path.exists(f"{link.folder}/{own}/journal") for own in (1, 2)]
        end_all(pair, {1: files, 2: {}})
        for own in (1, 2):
            told = pair.notes[own][0]
            if any(there) or told.count(f"note: journal: file too large: {UNWRITTEN}\n") != 1:
                yield f"station {own} noted {told!r}"
        yield from end_mistakes(pair, {1: files, 2: {}})


def stuck_mistakes(program):
    """What is wrong where a journal can't grow and can't be removed: the station stops."""
    files = {f"f{at:02}": bytes(100) for at in range(60)}
    with Link(program) as link:
        pair = Pair(link, rate=1000, every=3_600_000)
        pair.starts(2)
        it = pair.starts(1, faults="file-size=4096 stays=journal")
        pair.drops(files)
        status, _, err = it.ended()
        told = "note: journal: file too large, and it can't be removed: the station stops\n"
        if status != 3 or not err.endswith(told):
            yield f"it ended with status {status}, {err!r}"


def cancel_mistakes(program):
    """What is wrong where a station is killed right before its journal has that a put is cancelled:
    the operator must not have heard then that it is."""
    for turn in range(1, MOST_CALLS):
        with Link(program, Counting(turn, lost=0, most={1: 2_000})) as link:
            pair = Pair(link, every=3_600_000)
            pair.drops({"a": bytes(3_000_000)})
            words = [*pair.words, "--spool", "from"]
            it, port = controlled(link, 1, words, STEADY, faults=f"before=sync:{turn}:journal")
            waits_for(lambda: link.relay.holds or it.process.poll() is not None)
            if it.process.poll() is None:
                (number,) = link.relay.numbers[1, "a"]
                status, out, _ = asked(program, port, "cancel", f"1:{number}")
                if status == 0:
                    yield f"it answered {out!r}"
                if not waits_for(lambda: it.process.poll() is not None):
                    yield "it wasn't killed"
                return
    yield "it was killed before each cancellation"


def flag_mistakes(program):
    """What is wrong where a receiver is killed after the EOF of a file of more than 2^32 octets,
    and the PDU that opened it had no large file flag: the transaction goes on."""
    with Link(program, Relay()) as link:
        pair, path = Pair(link, every=3_600_000, carrier="pdus"), f"{link.folder}/2/journal"
        notes = lambda kind: bytes([kind]) + struct.pack(">QQ", 1, 7) in (octets_of(path) or b"")
        pair.starts(2)
        link.relay.give(2, piece(7))
        if not waits_for(lambda: notes(OPENED)):
            yield "it noted no receiver"
        link.relay.give(2, large_eof(7, (1 << 32) + 1))
        if not waits_for(lambda: notes(HEARD_EOF)):
            yield "it noted no EOF"
        pair.kills(2)
        it = pair.starts(2)
        if it.comes_to("note: resumed 1:7 ") is None:
            yield f"it noted {it.text('stderr')!r}"
        pair.kills(2)
        yield from pair.mistakes()


def rejected_mistakes(program):
    """What is wrong where a file can't be published, since a folder has its name, and the receiver
    is killed before it notes that: neither station may report that it lies there."""
    with Link(program, Relay()) as link:
        pair, spool = Pair(link), Spool(link)
        os.mkdir(f"{spool.inbox}/a")
        pair.drops({"a": bytes(2 * SEGMENT)})
        it = pair.starts(2, faults="order after=unlink:1:.part-")
        pair.starts(1)
        if not waits_for(lambda: it.process.poll() is not None):
            yield "it wasn't killed"
            return
        pair.ended(2, it.ended()[1])
        pair.starts(2)
        if not waits_for(lambda: "finished" in pair.running[1].text("stdout")):
            yield "the sender isn't told how it ended"
        for own in (1, 2):
            told = pair.running[own].text("stdout")
            if "retained" in told:
                yield f"station {own} reported {told!r}"


def stale_mistakes(program):
    """What is wrong where a start can write no journal: the one of the run before is removed, since
    it says what isn't so any more, and what went on goes on."""
    files = {"a": chance_of(97).randbytes(20_000)}
    with Link(program, Counting(97, lost=0, most={1: 10_000})) as link:
        pair, spool = Pair(link), Spool(link)
        path = f"{link.folder}/1/journal"
        pair.drops(files)
        pair.starts(2)
        pair.starts(1)
        waits_for(lambda: link.relay.holds and sent_of(octets_of(path) or b"") > 2_000)
        pair.kills(1)
        link.relay.release()
        pair.starts(1, faults="denied=journal.new")
        is_told = pair.running[1].comes_to(UNWRITTEN) is not None
        if not is_told or not waits_for(lambda: not os.path.exists(path)):
            yield f"the journal stays, and it noted {pair.running[1].text('stderr')!r}"
        if pair.running[1].comes_to("note: resumed 1:") is None:
            yield "nothing went on"
        yield from spool.mistakes(files)
        pair.kills(1)
        pair.starts(1)
        if "resumed" in pair.running[1].text("stderr"):
            yield "what is over goes on"


# ---- journals that nobody names

# What a station keeps whose journal isn't named.
UNNAMED = [it for it in WORDS if it not in ("--journal", "journal")] + ["--carrier", "pdus"]


def unnamed_mistakes(program):
    """What is wrong where a station that names no journal is killed while it sends: it goes on by
    one beside its state file, and with --no-journal by none."""
    octets = chance_of(99).randbytes(20_000)
    for more, is_kept in (([], True), (["--no-journal"], False)):
        with Link(program, Counting(99, lost=0, most={1: 10_000})) as link:
            words = [*UNNAMED, "--journal-every", str(EVERY), *more]
            path = f"{link.folder}/1/state.1-2.journal"
            link.starts(2, words, STEADY)
            it = link.starts(1, [*words, "--rate", str(RATE), "--spool", "from"], STEADY)
            drop(f"{link.folder}/1/from", "a", octets)
            waits_for(lambda: link.relay.holds)
            if is_kept and not waits_for(lambda: sent_of(octets_of(path) or b"") > 2_000):
                yield f"there is {os.listdir(f'{link.folder}/1')}"
            it.killed()
            link.relay.release()
            it = link.starts(1, [*words, "--spool", "from"], STEADY)
            if it.comes_to("1 finished") is None or files_at(link.folder, 2)["a"] != octets:
                yield f"the file didn't come: {it.text('stdout')!r}"
            told = "note: resumed 1:" in it.text("stderr")
            if told != is_kept or os.path.exists(path) != is_kept:
                yield f"{more}: {it.text('stderr')!r} and {os.listdir(f'{link.folder}/1')}"


def late_mistakes(program):
    """What is wrong where a receiver is restarted, and frames of an older file come then, late: it
    must not come in place of the newer one."""
    with Link(program, Relay()) as link:
        sender = link.starts(1, ["--unit", "ms", "--spool", "from"], STEADY)
        receiver = link.starts(2, ["--unit", "ms", "--inbox", "to"], STEADY)
        complete = lambda: sender.text("stdout").count(" 0 complete retained")
        late = []
        for count, (name, text) in enumerate((("a", b"older"), ("a", b"newer"), ("b", b""))):
            if count == 1:
                late = [frame for _, own, frame in list(link.relay.came) if own == 1]
            if count == 2:
                receiver.killed()
                link.starts(2, ["--unit", "ms", "--inbox", "to"], STEADY)
                for frame in late:
                    link.relay.give(2, frame)
            drop(f"{link.folder}/1/from", name, text)
            if not waits_for(lambda: complete() == count + 1):
                yield f"{name} wasn't sent: {sender.text('stdout')!r}"
        if files_at(link.folder, 2) != {"a": b"newer", "b": b""}:
            yield f"there is {files_at(link.folder, 2)}"


# ---- journals that can't be used


def refusal_mistakes(program):
    """What is wrong where the journal is of another entity, or lies where the peer can replace it,
    or is sent, or is the file of numbers."""
    with Link(program) as link:
        it = link.starts(1, ["--spool", "from", "--journal", "journal"])
        waits_for(lambda: octets_of(f"{link.folder}/1/journal"))
        it.killed()
        text = octets_of(f"{link.folder}/1/journal")
        os.rename(f"{link.folder}/1", f"{link.folder}/3")
        others = "error: journal: the journal of entity 1 with peer 2: "
        inside = "error: to/journal: lies in the inbox to, where the peer can replace it: "
        sent = "error: from/journal: lies in the spool from, whose files are sent: "
        state = "error: state: the state file of this station: "
        cases = {
            others: ["--spool", "from", "--journal", "journal"],
            inside: ["--inbox", "to", "--journal", "to/journal"],
            sent: ["--spool", "from", "--journal", "from/journal"],
            state: ["--inbox", "to", "--state", "state", "--journal", "state"],
        }
        for wanted, words in cases.items():
            it = link.starts(1, words, ids=(3, 2), waits=False)
            status, out, err = it.ended()
            wanted += "choose another file with --journal\n"
            if (status, out, err) != (2, "", wanted):
                yield f"it ended with {status}, {out!r}, {err!r}, and not with {wanted!r}"
        if octets_of(f"{link.folder}/3/journal") != text:
            yield "the other one's journal is changed"


def lone_mistakes(program, kills=KILLS):
    """What is tried with nothing beside it, since it leaves no processor to others."""
    yield f"stations with a journal that are killed {kills} times", kill_mistakes(program, kills)
    cuts = kill_mistakes(program, kills, 98, "frames", cuts=True)
    yield f"stations with a journal that are killed {kills} times, half by power cuts", cuts


def all_mistakes(program):
    """What is tried, with what is wrong in it."""
    yield "a journal that nobody names", unnamed_mistakes(program)
    yield "a journal, and late frames of an older file", late_mistakes(program)
    yield "a journal that a station must not use", refusal_mistakes(program)
    yield "a journal, and what a kill costs", cost_mistakes(program)
    yield "a journal, and puts that are told again", put_mistakes(program)
    for own, who in ((1, "sender"), (2, "receiver")):
        yield f"a journal of a {who} that was cut or damaged", journal_mistakes(program, own)
    yield "journals that can't grow", full_mistakes(program)
    yield "a journal that can't grow and can't be removed", stuck_mistakes(program)
    yield "a journal that a start can't write", stale_mistakes(program)
    yield "a journal, and a large file flag that comes late", flag_mistakes(program)
    yield "a journal, and a file that can't be published", rejected_mistakes(program)
    yield "a cancellation that the journal doesn't have yet", cancel_mistakes(program)
    left = "after=rename:1:.leaving/a"
    yield "a journal, and a file that changes before it goes on", changed_mistakes(program, "")
    yield "a journal, and a file that comes after it was sent", changed_mistakes(program, left)
    for when, (what, moment) in itertools.product(("before", "after"), MOMENTS.items()):
        yield f"a kill {when} {what}", moment_mistakes(program, when, moment)
    words = ["--no-overwrite"]
    for when, (what, moment) in itertools.product(("before", "after"), NOT_REPLACED.items()):
        yield f"a kill {when} {what}", moment_mistakes(program, when, moment, words)
