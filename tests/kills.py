"""Two stations that are killed at random moments, over a link that loses frames, brings some twice
and some late; and a disk that loses what wasn't flushed to it."""
import contextlib
import heapq
import os
import re
import threading
import time

from lib.choices import chance_of
from lib.links import Link, Relay
from lib.spools import HASTY, Spool, names_in, octets_of

# How many kills there are in all, of either station, and how many files go meanwhile.
KILLS, CUTS, FILES = 500, 200, 120

# Of the frames so many are lost, come twice, and come late, each by up to so many seconds.
LOST, TWICE, LATE, DELAY = 0.05, 0.05, 0.1, 0.05

# How long all of it may take, in seconds, once nothing is killed any more.
LONGEST = 600

WORDS = {1: ["--spool", "from", "--at-once", "8", "--retries", "1000"], 2: ["--inbox", "to"]}


class Shuffling(Relay):
    """A link that loses frames, gives some twice, and some late: behind frames sent after them."""

    def __init__(self, seed):
        self.chance, self.late, self.number = chance_of(seed), [], 0
        self.done = {"lost": 0, "twice": 0, "late": 0}
        super().__init__()

    def run(self):
        timer = threading.Thread(target=self.give_late, daemon=True)
        timer.start()
        super().run()
        timer.join()

    def give(self, own, frame):
        if self.chance.random() < LOST:
            self.done["lost"] += 1
            return
        times = 1 + (self.chance.random() < TWICE)
        self.done["twice"] += times - 1
        for _ in range(times):
            if self.chance.random() < LATE:
                self.done["late"] += 1
                self.number += 1
                due = time.monotonic() + self.chance.uniform(0, DELAY)
                heapq.heappush(self.late, (due, self.number, own, frame))
            else:
                super().give(own, frame)

    def give_late(self):
        """Gives what comes late, as long as the link is there."""
        while not self.is_over:
            with self.lock:
                while self.late and self.late[0][0] <= time.monotonic():
                    _, _, own, frame = heapq.heappop(self.late)
                    super().give(own, frame)
            time.sleep(0.002)


class Disk:
    """The disk of a station, which loses what wasn't flushed to it: `kept` is the folder in which
    tests/c/faults.c keeps what was."""

    def __init__(self, folder, kept):
        self.folder, self.kept = folder, kept
        os.makedirs(kept)
        self.begins()

    def names_of(self, folder):
        """The file that says which files a folder had when it was flushed last."""
        return f"{self.kept}/{os.stat(folder).st_ino}.names"

    def folders(self):
        return [path for path, _, _ in os.walk(self.folder)]

    def begins(self):
        """All that is there has been flushed."""
        for name in os.listdir(self.kept):
            os.remove(f"{self.kept}/{name}")
        for folder in self.folders():
            there = plain_in(folder)
            with open(self.names_of(folder), "w", encoding="utf-8") as it:
                it.writelines(f"{inode} {name}\n" for name, inode in there.items())
            for name, inode in there.items():
                with open(f"{self.kept}/{inode}", "wb") as it:
                    it.write(octets_of(f"{folder}/{name}"))

    def lasting(self, folder):
        """Which files lasted in a folder, by their names: those of its last flush."""
        text = octets_of(self.names_of(folder)) or b""
        lines = [line.split(" ", 1) for line in text.decode().splitlines()]
        return {name: int(inode) for inode, name in lines}

    def cut(self, chance):
        """The power is cut: of each file lasts what was flushed, and of each folder the names that
        were, or by chance those that it has."""
        left = {}
        for folder in self.folders():
            names = plain_in(folder) if chance.random() < 0.5 else self.lasting(folder)
            left |= {f"{folder}/{name}": inode for name, inode in names.items()}
        for folder in self.folders():
            for name in plain_in(folder):
                os.remove(f"{folder}/{name}")
        paths = {}
        for path, inode in left.items():
            # A file may have several names.
            if inode in paths:
                os.link(paths[inode], path)
                continue
            paths[inode] = path
            with open(path, "wb") as it:
                it.write(octets_of(f"{self.kept}/{inode}") or b"")
        self.begins()


def plain_in(folder):
    """The plain files of a folder, with the inode of each."""
    found = {}
    with contextlib.suppress(FileNotFoundError), os.scandir(folder) as entries:
        for it in entries:
            if it.is_file(follow_symlinks=False):
                found[it.name] = it.inode()
    return found


class Ends:
    """Both stations, without journals. Whichever has ended is started anew. With `cuts` their power is cut, where
    else they are killed alone."""

    def __init__(self, link, cuts):
        self.link, self.running, self.odd, self.ids = link, {}, [], []
        # Of whom all numbers have been noted.
        self.noted = None
        disk = lambda own: Disk(f"{link.folder}/{own}", f"{link.folder}/kept{own}")
        self.disks = {own: disk(own) for own in (1, 2)} if cuts else {}

    def starts(self, own):
        """Starts a station, unless it runs."""
        it = self.running.get(own)
        if it is not None and it.process.poll() is None:
            return
        if it is not None:
            self.notes(own)
        if it is not None and it.process.returncode not in (-9, 3):
            self.odd.append(f"{own} ended with {it.process.returncode}: {it.text('stderr')[-200:]}")
        words = [*WORDS[own], "--state", "state", "--no-journal", "--rate", "3000", "--no-time"]
        faults = f"kept={self.disks[own].kept}" if self.disks else ""
        self.running[own] = self.link.starts(own, words, HASTY, waits=False, faults=faults)
        # What it told is read by threads of its own, which end with it.
        self.link.started = list(self.running.values())

    def kill(self, own, chance):
        self.running[own].killed()
        self.notes(own)
        if self.disks:
            self.disks[own].cut(chance)

    def notes(self, own):
        """Notes the numbers of the puts of a station that has ended, if it is the first one."""
        it = self.running[own]
        if own == 1 and it is not self.noted:
            self.ids += re.findall(r"\btransaction (\S+)", it.ended()[1])
            self.noted = it

    def drop(self, spool, files):
        """Drops files into the spool of station 1, which doesn't run."""
        spool.drops(files)
        if self.disks:
            self.disks[1].begins()

    def tends(self, seconds):
        """Starts anew what has ended, for some seconds."""
        end = time.monotonic() + seconds
        while time.monotonic() < end:
            for own in (1, 2):
                self.starts(own)
            time.sleep(min(0.02, max(0.0, end - time.monotonic())))


def many_files(chance):
    """Files of mixed sizes, from none to 100,000 octets, by their names."""
    sizes = [0, 1, 1023, 1024, 1025, 100_000]
    sizes += [chance.randrange(chance.choice((100, 5_000, 40_000))) for _ in range(FILES - 6)]
    return {f"f{number:03}.bin": chance.randbytes(size) for number, size in enumerate(sizes)}


def place_mistakes(folder, inbox, files):
    """What is wrong with where the files lie, at any moment: each has to lie whole in the spool or
    in the inbox, and what left the spool in the inbox."""
    before = {name: octets_of(f"{folder}/{name}") for name in files}
    sent = names_in(f"{folder}/.sent")
    for name, octets in files.items():
        there = octets_of(f"{inbox}/{name}")
        if there is not None and there != octets:
            yield f"in the inbox {name} has {len(there)} octets, and not what was dropped"
        if name in sent and there is None:
            yield f"{name} left the spool, and isn't in the inbox"
        if before[name] != octets and there is None and octets_of(f"{folder}/{name}") != octets:
            yield f"{name} is nowhere"


def left_mistakes(spool, files, cuts):
    """What is wrong with what lies in the folders in the end. A power cut between the renaming into
    `.sent` and its flush may lose that copy, not the file: this is in the inbox."""
    if not cuts:
        yield from spool.mistakes(files)
        return
    if names_in(spool.folder):
        yield f"{sorted(names_in(spool.folder))[:9]} stay in the spool"
    came = spool.came()
    if came != files:
        yield f"of {len(files)} files {len(came)} came, as {sorted(came)[:9]}"
    for name, octets in spool.in_folder(".sent").items():
        if octets != files.get(name):
            yield f".sent/{name} isn't what was sent"


def kill_mistakes(program, kills, cuts=False, seed=66):
    """What is wrong where files go from a spool to an inbox over such a link, and either station is
    killed at random moments, so many times in all, or its power is cut."""
    chance = chance_of(seed)
    files = many_files(chance)
    with Link(program, Shuffling(seed)) as link:
        spool = Spool(link)
        ends = Ends(link, cuts)
        waiting = sorted(files)
        for number in range(kills):
            ends.tends(chance.uniform(0, 0.24))
            own = chance.choice((1, 2))
            ends.starts(own)
            ends.kill(own, chance)
            # A file is dropped while nobody has the spool, so that it is there whole for sure.
            due = number * FILES / (kills * 0.8) - (FILES - len(waiting))
            dropped = waiting[: int(due) + 1] if own == 1 and due > 0 else []
            if dropped:
                ends.drop(spool, {name: files[name] for name in dropped})
            waiting = waiting[len(dropped) :]
            if number % 20 == 0:
                there = {name: files[name] for name in files if name not in waiting}
                yield from place_mistakes(spool.folder, spool.inbox, there)
        ends.kill(1, chance)
        ends.drop(spool, {name: files[name] for name in waiting})
        end = time.monotonic() + LONGEST
        while names_in(spool.folder) and time.monotonic() < end:
            ends.tends(0.2)
        yield from left_mistakes(spool, files, cuts)
        yield from ends.odd[:5]
        ends.kill(1, chance)
        twice = sorted({it for it in ends.ids if ends.ids.count(it) > 1})
        if len(ends.ids) < FILES or twice:
            yield f"of {len(ends.ids)} numbers these came again: {twice[:9]}"
        if not all(link.relay.done.values()):
            yield f"the link did no harm: {link.relay.done}"


def lone_mistakes(program):
    """What is tried with nothing beside it, since it leaves no processor to others."""
    yield f"two stations that are killed {KILLS} times", kill_mistakes(program, KILLS)
    wrong = kill_mistakes(program, CUTS, cuts=True)
    yield f"two stations whose power is cut {CUTS} times", wrong
