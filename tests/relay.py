"""Files that are dropped into a spool: one station hands them on to the next, while all are killed
and started anew, links lose frames, and a disk is full; and what becomes of single files."""
import contextlib
import os
import re
import signal
import subprocess
import tempfile
import threading
import time

from lib import processes
from lib.choices import chance_of
from lib.disks import fill, limited, small_disk
from lib.links import Link
from lib.ports import free_ports
from lib.processes import PATIENT, Station, put
from lib.spools import HASTY, INBOX, SPOOL, drop, names_in, octets_of, spool_of
from lib.waiting import waits_for

# A relay has these stations, each with its peer, and what it does with a folder: the inbox of the
# second is the spool of the third.
STATIONS = {1: (2, "--spool", "A"), 2: (1, "--inbox", "B")}
STATIONS |= {3: (4, "--spool", "B"), 4: (3, "--inbox", "C")}

FILES, KILLS = 200, 20

# How long a relay may take, in seconds, from the first file on.
LONGEST = 600


# ---- a relay


class Watch:
    """Looks at folders as long as a block runs: each file in them whose name begins with no point
    has to be whole at any time. `wrong` has those that weren't."""

    def __init__(self, folders, files):
        self.folders, self.files, self.wrong, self.seen = folders, files, [], {}
        self.is_over, self.thread = False, threading.Thread(target=self.run, daemon=True)

    def __enter__(self):
        self.thread.start()
        return self

    def __exit__(self, *_):
        self.is_over = True
        self.thread.join()

    def run(self):
        while not self.is_over:
            for folder in self.folders:
                for name in names_in(folder):
                    self.look(f"{folder}/{name}", name)
            time.sleep(0.002)

    def look(self, path, name):
        """Looks at a file that is new there, or is another than before."""
        with contextlib.suppress(FileNotFoundError):
            it = os.lstat(path)
            stamp = (it.st_ino, it.st_size, it.st_ctime_ns)
            octets = octets_of(path) if self.seen.get(path) != stamp else None
            if octets is not None and octets != self.files.get(name):
                self.wrong.append(f"{path} had {len(octets)} octets, and not what was sent")
            self.seen[path] = stamp


class Relay:
    """Four stations in a row. Whichever has ended is started anew; `limits` has those whose disk is
    full from their next start on."""

    def __init__(self, program, room):
        self.program, self.room, self.running, self.limits = program, room, {}, set()
        ports, self.ends = free_ports(4), {}
        self.ports, self.lock = dict(zip(STATIONS, ports)), threading.Lock()
        for folder in "ABC":
            os.mkdir(f"{room}/{folder}")

    def starts(self, own):
        """Starts a station, unless it runs."""
        with self.lock:
            if own in self.running and self.running[own].process.poll() is None:
                return
            if own in self.running:
                self.ends.setdefault(own, []).append(self.running[own].process.returncode)
            peer, kind, folder = STATIONS[own]
            words = [kind, f"{self.room}/{folder}", "--state", "state", "--drop", "5"]
            words += ["--rate", "6000", "--no-time"]
            words += ["--at-once", "16", "--retries", "1000"] if kind == "--spool" else []
            ways = {"stdout": subprocess.DEVNULL, "stderr": self.log(own)}
            if own in self.limits:
                ways |= {"preexec_fn": limited, "restore_signals": False}
            ends = (self.program, self.room, own, peer, self.ports)
            self.running[own] = Station(*ends, words, HASTY, **ways)
            ways["stderr"].close()

    def log(self, own):
        return open(f"{self.room}/{own}.log", "ab")

    def kill(self, own):
        """Kills a station at once."""
        process = self.running[own].process
        process.send_signal(signal.SIGKILL)
        process.wait()

    def tends(self, seconds):
        """Starts anew what has ended, for some seconds."""
        end = time.monotonic() + seconds
        while time.monotonic() < end:
            for own in STATIONS:
                self.starts(own)
            time.sleep(min(0.05, max(0.0, end - time.monotonic())))

    def end(self):
        for own in self.running:
            self.kill(own)

    def has_handed_on(self, files):
        """Whether all files lie in the last inbox, and nothing waits in a spool any more."""
        room = self.room
        is_there = names_in(f"{room}/C") == files.keys()
        return is_there and not names_in(f"{room}/A") and not names_in(f"{room}/B")

    def mistakes(self, files):
        """What is wrong with what lies in the folders at the end."""
        for folder in ("C", "A/.sent", "B/.sent"):
            there = names_in(f"{self.room}/{folder}")
            lacking, more = files.keys() - there, there - files.keys()
            for what, names in (("lacks", lacking), ("has also", more)):
                if names:
                    yield f"{folder} {what} {len(names)} files, such as {sorted(names)[:3]}"
            for name in sorted(there & files.keys()):
                if octets_of(f"{self.room}/{folder}/{name}") != files[name]:
                    yield f"{folder}/{name} isn't what was sent"
        for folder in ("A", "B"):
            left = names_in(f"{self.room}/{folder}") | names_in(f"{self.room}/{folder}/.failed")
            if left:
                yield f"in {folder} or its .failed {len(left)} files are left: {sorted(left)[:3]}"
        odd = {own: set(those) - {-9, 3} for own, those in self.ends.items()}
        if any(odd.values()):
            yield f"stations ended by themselves: {odd}; {self.told()!r}"

    def told(self):
        """The last that each station told on standard error."""
        return {own: (octets_of(f"{self.room}/{own}.log") or b"")[-300:] for own in STATIONS}


def many_files(chance):
    """Files of mixed sizes, from none to 200,000 octets, by their names."""
    sizes = [0, 1, 1023, 1024, 1025, 200_000]
    rest = range(FILES - len(sizes))
    sizes += [chance.randrange(chance.choice((100, 5_000, 60_000))) for _ in rest]
    return {f"f{number:03}.bin": chance.randbytes(size) for number, size in enumerate(sizes)}


def kill_often(relay, chance, end):
    """Kills each station so many times, in turn and at random moments, up to about this time."""
    order = [own for own in STATIONS for _ in range(KILLS)]
    chance.shuffle(order)
    for left, own in zip(range(len(order), 0, -1), order):
        relay.tends(chance.uniform(0, 2 * max(0.05, (end - time.monotonic()) / left)))
        relay.starts(own)
        relay.kill(own)


def fill_disk(relay, is_mounted, begins):
    """From this time on, for ten seconds, the disk of the last inbox is full."""
    time.sleep(max(0.0, begins - time.monotonic()))
    path = f"{relay.room}/C/.filler"
    if is_mounted:
        fill(path)
    else:
        relay.limits.add(4)
        relay.kill(4)
    time.sleep(10)
    if is_mounted:
        os.remove(path)
    else:
        relay.limits.discard(4)
        relay.kill(4)


def relay_mistakes(program, is_full=False):
    """What is wrong where 200 files go over three stations to a fourth, a fifth of all frames is
    lost, and each station is killed 20 times; the disk at the end may be full for 10 s meanwhile.
    Nothing may be lost, and nothing partial be seen."""
    chance = chance_of(43 + is_full)
    files = many_files(chance)
    with contextlib.ExitStack() as stack:
        room = stack.enter_context(tempfile.TemporaryDirectory(dir=program.room))
        relay = Relay(program, room)
        is_mounted = stack.enter_context(small_disk(f"{room}/C")) if is_full else False
        stack.callback(relay.end)
        watch = stack.enter_context(Watch([f"{room}/B", f"{room}/C"], files))
        began = time.monotonic()
        dropper = threading.Thread(target=drop_all, args=(f"{room}/A", files), daemon=True)
        dropper.start()
        if is_full:
            filler = threading.Thread(target=fill_disk, args=(relay, is_mounted, began + 6))
            stack.callback(filler.join)
            filler.start()
        kill_often(relay, chance, began + 24)
        while time.monotonic() < began + LONGEST and not relay.has_handed_on(files):
            relay.tends(0.2)
        dropper.join()
        yield from sorted(set(watch.wrong))[:5]
        wrong = list(relay.mistakes(files))
        yield from wrong
        if wrong:
            yield f"the stations told {relay.told()!r}"


def drop_all(folder, files):
    """Drops files into a spool, over some seconds."""
    for name, octets in files.items():
        drop(folder, name, octets)
        time.sleep(0.05)


# ---- single files


def unfinished_mistakes(program):
    """What is wrong where a file is still written, under a name that begins with a point: it may
    not be sent before it has its name, and then has to be whole."""
    with spool_of(program) as (link, spool):
        link.starts(2, INBOX, PATIENT)
        link.starts(1, SPOOL, PATIENT)
        with open(f"{spool.folder}/.a", "wb") as it:
            for _ in range(5):
                it.write(bytes(1000))
                it.flush()
                time.sleep(0.5)
                if names_in(spool.inbox):
                    yield "it came before it was whole"
        os.rename(f"{spool.folder}/.a", f"{spool.folder}/a")
        yield from spool.mistakes({"a": bytes(5000)})


def unsendable_mistakes(program):
    """What is wrong where files lie in a spool that can't be sent: they stay, each is told once,
    and the others go. What is no plain file stays too."""
    with spool_of(program) as (link, spool):
        link.starts(2, INBOX, PATIENT)
        spool.drops({"bad name": b"x", "a": b"hello"})
        os.mkdir(f"{spool.folder}/folder")
        os.symlink("a", f"{spool.folder}/link")
        station = link.starts(1, SPOOL, PATIENT)
        yield from spool.mistakes({"a": b"hello"})
        station.comes_to("bad")
        time.sleep(3)
        told = [it for it in station.text("stderr").splitlines() if "bad" in it]
        if len(told) != 1 or "A-Z a-z 0-9" not in told[0]:
            yield f"of the bad name it told {told}"
        if names_in(spool.folder) != {"bad name", "folder", "link"}:
            yield f"there lie {names_in(spool.folder)}"


def replaced_mistakes(program):
    """What is wrong where a new file is moved over one that is being sent: the new one has to come,
    and to leave the spool in the end."""
    chance = chance_of(44)
    old, new = chance.randbytes(300_000), chance.randbytes(50_000)
    with spool_of(program) as (link, spool):
        receiver = link.starts(2, INBOX, PATIENT)
        spool.drops({"a": old})
        link.starts(1, ["--spool", "from", "--no-time", "--rate", "400", "--retries", "9"], PATIENT)
        if receiver.comes_to("metadata") is None:
            yield "the old one never began to come"
        drop(spool.folder, "a", new)
        is_new = lambda: spool.came() == {"a": new} and not names_in(spool.folder)
        if not waits_for(is_new):
            came = {name: octets == old for name, octets in spool.came().items()}
            yield f"the new one didn't come: {came}, {names_in(spool.folder)} stays"
        if spool.in_folder(".sent") != {"a": new} or spool.in_folder(".failed"):
            yield "the new one isn't in .sent, or another lies in .failed"


def resent_mistakes(program):
    """What is wrong where a file comes again under a name that was sent before: it is sent too, and
    takes the place of the first one in `.sent`."""
    with spool_of(program) as (link, spool):
        link.starts(2, INBOX, PATIENT)
        link.starts(1, SPOOL, PATIENT)
        for octets in (b"first", b"second", b""):
            spool.drops({"a": octets})
            yield from spool.mistakes({"a": octets})


def removed_mistakes(program):
    """What is wrong where files are to be removed once they were sent."""
    files = {"a": b"hello", "b": bytes(3000)}
    with spool_of(program) as (link, spool):
        link.starts(2, INBOX, PATIENT)
        spool.drops(files)
        link.starts(1, [*SPOOL, "--remove-sent"], PATIENT)
        yield from spool.mistakes(files, removes=True)


def order_mistakes(program):
    """What is wrong with the order in which files are sent, one after another: that in which they
    were written, and then that of their names."""
    names = ["late", "early", "b", "a"]
    with spool_of(program) as (link, spool):
        spool.drops({it: it.encode() for it in names})
        for it, when in zip(names, (4000, 1000, 2000, 2000)):
            os.utime(f"{spool.folder}/{it}", (when, when))
        receiver = link.starts(2, INBOX, PATIENT)
        link.starts(1, [*SPOOL, "--at-once", "1"], PATIENT)
        yield from spool.mistakes({it: it.encode() for it in names})
        waits_for(lambda: receiver.text("stdout").count("metadata") >= len(names))
        order = re.findall(r"metadata \S+ (\S+)", receiver.text("stdout"))
        if order != ["early", "a", "b", "late"]:
            yield f"they came in the order {order}"


def many_mistakes(program):
    """What is wrong with more files than are kept of one look through a folder."""
    files = {f"n{number:05}": b"" for number in range(1500)}
    with spool_of(program) as (link, spool):
        spool.drops(files)
        words = ["--no-time", "--rate", "0"]
        link.starts(2, ["--inbox", "to", *words], PATIENT)
        link.starts(1, ["--spool", "from", "--remove-sent", "--at-once", "100", *words], PATIENT)
        if not waits_for(lambda: len(names_in(spool.inbox)) == len(files)):
            yield f"{len(names_in(spool.inbox))} of {len(files)} came"
        yield from spool.mistakes(files, removes=True)


def away_mistakes(program):
    """What is wrong where the peer comes late: what is over the limits by then is tried again."""
    once = {"eof_time": 1, "eof_limit": 1, "inactivity_time": 3}
    with spool_of(program) as (link, spool):
        spool.drops({"a": b"hello"})
        sender = link.starts(1, [*SPOOL, "--retries", "20"], once)
        if sender.comes_to("fault|abandoned") is None:
            yield f"it never gave up: {sender.text('stdout')!r}"
        if names_in(spool.folder) != {"a"} or spool.in_folder(".failed"):
            yield "the file left the spool"
        link.starts(2, INBOX, PATIENT)
        yield from spool.mistakes({"a": b"hello"})


def failed_mistakes(program):
    """What is wrong where the peer refuses a file, as it has one of that name and is to keep it, or
    where it is away for good: then the file goes to `.failed`, with a line that names it, and the
    file at the peer stays."""
    once = {"eof_time": 1, "eof_limit": 1, "inactivity_time": 3}
    for words in ([*INBOX, "--no-overwrite"], None):
        with spool_of(program) as (link, spool):
            put(link.folder, 2, "../to/a", b"it was here")
            spool.drops({"a": b"hello"})
            if words:
                link.starts(2, words, PATIENT)
            json = [it if it != "--no-time" else "--json" for it in SPOOL]
            sender = link.starts(1, [*json, "--retries", "1"], once)
            is_over = lambda: spool.in_folder(".failed") == {"a": b"hello"}
            if not waits_for(is_over):
                yield f"with a peer {words} it isn't in .failed: {sender.text('stderr')!r}"
            if names_in(spool.folder) or spool.in_folder(".sent"):
                yield f"with a peer {words} it lies elsewhere too"
            if not waits_for(lambda: '"name":"a","outcome":"failed"' in sender.text("stdout")):
                yield f"with a peer {words} no line names it: {sender.text('stdout')!r}"
            if spool.came() != {"a": b"it was here"}:
                yield f"with a peer {words} the file at the peer is {spool.came()}"


def restarted_mistakes(program):
    """What is wrong where a station is killed in the middle of its spool: what it sent isn't sent
    again, and the rest comes."""
    files = {f"f{number:02}": bytes([number]) * 20_000 for number in range(30)}
    with spool_of(program) as (link, spool):
        receiver = link.starts(2, INBOX, PATIENT)
        spool.drops(files)
        slow = ["--spool", "from", "--no-time", "--rate", "400", "--at-once", "2"]
        sender = link.starts(1, slow, PATIENT)
        if not waits_for(lambda: len(spool.in_folder(".sent")) >= 5):
            yield f"it sent {sorted(spool.in_folder('.sent'))}"
        sender.killed()
        sent = spool.in_folder(".sent").keys()
        link.starts(1, SPOOL, PATIENT)
        yield from spool.mistakes(files)
        names = re.findall(r"metadata \S+ (\S+)", receiver.text("stdout"))
        again = [it for it in sorted(sent) if names.count(it) > 1]
        if again:
            yield f"{again} were sent again"


def set_back_mistakes(program):
    """What is wrong where the clock is set back at each start of a spool's station, which is killed
    in between: no number comes back, and each file comes with what it has."""
    files = {f"f{number:02}": bytes([number]) * 20_000 for number in range(40)}
    whole = [*SPOOL, "--no-journal"]
    slow = [*whole, "--rate", "400", "--at-once", "4"]
    began, ids = 1_700_000_000, []
    with spool_of(program) as (link, spool):
        receiver = link.starts(2, INBOX, PATIENT | {"inactivity_time": 4})
        spool.drops(files)
        for run in range(8):
            sender = link.starts(1, slow, PATIENT, faults=f"clock=at:{began - run * 3600}")
            sender.comes_to("finished")
            ids += re.findall(r"transaction (\S+)", sender.killed())
        link.starts(1, whole, PATIENT, faults=f"clock=at:{began - 86400}")
        yield from spool.mistakes(files)
        ids += re.findall(r"transaction (\S+)", link.started[-1].killed())
        if len(ids) < len(files) or len(set(ids)) < len(ids):
            yield f"of {len(ids)} numbers {len(set(ids))} were others: {sorted(ids)[:9]}"
        heard = re.findall(r"metadata (\S+) \S+ (\S+)", receiver.text("stdout"))
        if len(set(heard)) < len({it for it, _ in heard}):
            yield f"a number came with two names: {heard[:9]}"


def refused_mistakes(program):
    """What is wrong where another station has the spool, or where it can't be used: a station has
    to end at once, and say why."""
    with spool_of(program) as (link, spool), Link(program) as other:
        link.starts(1, SPOOL)
        folder = os.path.abspath(spool.folder)
        words = ["--spool", folder, "--state", "numbers", "--no-time"]
        yield from processes.refused_mistakes(other.starts(1, words), "another station")
        # The inbox of another station may be the same folder: this is how a relay is made.
        inbox = ["--inbox", folder, "--state", "numbers", "--idle", "1", "--no-time"]
        status, out, err = other.starts(2, inbox).ended()
        if status or err:
            yield f"an inbox there is refused: {status}, {out!r}, {err!r}"
    with Link(program) as link:
        station = link.starts(1, ["--spool", "nowhere", "--no-time"])
        yield from processes.refused_mistakes(station, "nowhere: no such file or folder")


def stays_mistakes(program):
    """What is wrong where a file that was sent can't be moved away: that is told once, the file is
    not sent again, and it leaves once it can."""
    with spool_of(program) as (link, spool):
        receiver = link.starts(2, INBOX, PATIENT)
        os.makedirs(f"{spool.folder}/.sent/a/in the way")
        spool.drops({"a": b"hello"})
        sender = link.starts(1, SPOOL, PATIENT)
        if not waits_for(lambda: spool.came() == {"a": b"hello"}):
            yield "it didn't come"
        sender.comes_to("cannot move")
        time.sleep(4)
        told = [it for it in sender.text("stderr").splitlines() if "cannot move" in it]
        if len(told) != 1:
            yield f"it told {told} of it"
        os.rmdir(f"{spool.folder}/.sent/a/in the way")
        os.rmdir(f"{spool.folder}/.sent/a")
        yield from spool.mistakes({"a": b"hello"})
        if receiver.text("stdout").count("metadata") != 1:
            yield f"it was sent again: {receiver.text('stdout')!r}"


def lone_mistakes(program):
    """What is tried with nothing beside it, since it leaves no processor to others."""
    yield "a relay whose stations are killed 20 times each", relay_mistakes(program)
    yield "a relay with a full disk", relay_mistakes(program, is_full=True)


def all_mistakes(program):
    """What is tried, with what is wrong in it."""
    yield "a spool: a file that is still written", unfinished_mistakes(program)
    yield "a spool: names that can't be sent", unsendable_mistakes(program)
    yield "a spool: a file replaced as it is sent", replaced_mistakes(program)
    yield "a spool: a name that comes again", resent_mistakes(program)
    yield "a spool: what was sent is removed", removed_mistakes(program)
    yield "a spool: the order of files", order_mistakes(program)
    yield "a spool: 1,500 files", many_mistakes(program)
    yield "a spool: a peer that comes late", away_mistakes(program)
    yield "a spool: files that can't be sent", failed_mistakes(program)
    yield "a spool: a start in the middle", restarted_mistakes(program)
    yield "a spool: a clock set back at each start", set_back_mistakes(program)
    yield "a spool that can't be had", refused_mistakes(program)
    yield "a spool: a file that can't be moved away", stays_mistakes(program)
