"""Files that two stations send from a folder: of any length, and such as change while they go."""
import contextlib
import itertools
import os
import resource
import shutil
import signal
import subprocess
import tempfile
import time

from lib import processes
from lib.choices import chance_of
from lib.frames import PEER_DIRECTIVES, frame_of, zones_of
from lib.lengths import SIZES
from lib.links import Link, Relay
from lib.pdus import finished
from lib.ports import ALONE
from lib.processes import PATIENT, files_at, many_words, peak_of, unheard
from lib.waiting import SECONDS

# How long the file is that changes, and how many frames of 1,024 octets leave in a second: it takes
# five seconds, of which the first is over when it changes. That of `loop` has 20 MB.
CHANGED, RATE = 4_000_000, 200

# What is told of a file that changed.
TOLD = "error: from/a: the file changed while it was sent\n"

# How many files are sent by a station that can't have so many open, but a few beside 16.
FILES, MOST_OPEN = 200, 40

# How long a long file is, and where the disk has no room for three; what it may take, and what
# memory a station may have.
LONG, LESS_LONG, LONG_SECONDS, MOST_MEMORY = (4 << 30) + 1, (1 << 30) + 1, 3600, 16 << 20

# The settings of a station that sends much.
WIDE = {**PATIENT, "zone": 2040, "segment": 4096}


def octets_of(size):
    """Octets of which no two blocks are alike."""
    return chance_of(60).randbytes(size)


def sizes_mistakes(program):
    """What is wrong where files of these lengths go from one station to another: none is cut."""
    sent = {f"f{size}": octets_of(size) for size in SIZES}
    with Link(program) as link:
        receiver = link.starts(2, ["--inbox", "to", "--idle", "20"], WIDE)
        words = [*link.puts(1, sent), "--idle", "3", "--rate", "20000"]
        status, out, err = link.starts(1, words, WIDE, waits=False).ended()
        if status or unheard(err) or not out.endswith("complete 8 of 8\n"):
            yield f"the sender: status {status}, {out[-300:]!r}, {err[-300:]!r}"
        status, out, err = receiver.ended()
        if status or unheard(err):
            yield f"the receiver: status {status}, {out[-300:]!r}, {err[-300:]!r}"
        came = files_at(link.folder, 2)
    if came != sent:
        lengths = {name: len(octets) for name, octets in came.items()}
        yield f"what came isn't what was sent: {lengths}"


# ---- files that change


def overwrite(path):
    """Other octets in the place of the last ones, and the time at which it was written is as it
    was."""
    was = os.stat(path)
    with open(path, "r+b") as it:
        it.seek(-1000, os.SEEK_END)
        it.write(bytes(1000))
    os.utime(path, ns=(was.st_atime_ns, was.st_mtime_ns))


def extend(path):
    with open(path, "ab") as it:
        it.write(b"more")


def replace(path):
    """Another file of the same length has its name."""
    with open(f"{path}.new", "wb") as it:
        it.write(octets_of(os.path.getsize(path))[::-1])
    os.rename(f"{path}.new", path)


def link_there(path):
    """A link has its name, to a file with the same octets."""
    os.rename(path, f"{path}.old")
    os.symlink("a.old", path)


CHANGES = {
    "cut": lambda path: os.truncate(path, os.path.getsize(path) - 1),
    "emptied": lambda path: os.truncate(path, 0),
    "made longer": extend,
    "overwritten": overwrite,
    "replaced": replace,
    "removed": os.remove,
    "replaced by a link": link_there,
}


def change_mistakes(program, change):
    """What is wrong where a file changes while it is sent: its put ends with fault 4, the sender
    says why, nothing is published, and the next put is complete."""
    settings = {**PATIENT, "zone": 1024}
    with Link(program) as link:
        receiver = link.starts(2, ["--inbox", "to", "--idle", "20"], settings)
        words = link.puts(1, {"a": octets_of(CHANGED), "b": b"hello"})
        words += ["--rate", str(RATE), "--idle", "3", "--first-number", "7"]
        sender = link.starts(1, words, settings, waits=False)
        if receiver.comes_to("metadata 1:7 a a ") is None:
            yield f"the file never began to come: {sender.text('stderr')!r}"
        time.sleep(0.7)
        change(f"{link.folder}/1/from/a")
        status, out, err = sender.ended()
        if status != 3 or unheard(err) != TOLD or not out.endswith("complete 1 of 2\n"):
            yield f"the sender: status {status}, {out!r}, {err!r}"
        if "1 fault 1:7 4\n1 finished 1:7 4 incomplete" not in out:
            yield f"the sender tells no fault of the first file: {out!r}"
        if "1 finished 1:8 0 complete retained\n" not in out:
            yield f"the second file isn't complete: {out!r}"
        status, out, err = receiver.ended()
        # A file that didn't come whole shows in its status.
        is_told = "2 finished 1:7 4 incomplete discarded\n" in out
        if status != 1 or unheard(err) or not is_told:
            yield f"the receiver: status {status}, {out!r}, {err!r}"
        if files_at(link.folder, 2) != {"b": b"hello"}:
            yield f"in its folder lies {files_at(link.folder, 2).keys()}"


def part_of(folder):
    """How many octets a file has that comes to this folder; 0 before it began, and behind its
    end."""
    for name in os.listdir(folder):
        if name.startswith(".part-"):
            with contextlib.suppress(FileNotFoundError):
                return os.path.getsize(f"{folder}/{name}")
    return 0


def stopped_loop(program, folder):
    """A `loop` that sends a file to a folder that has a file of that name, and stands still once
    some of the file came, but not half of it; or None where it was too fast for that."""
    put(folder, "from", octets_of(SIZES[-1]))
    put(folder, "to", b"before")
    words = [program.path, "loop", "from", "to", "a", "a"]
    pipes = {"stdout": subprocess.PIPE, "stderr": subprocess.PIPE, "cwd": folder}
    with ALONE:
        process = subprocess.Popen(words, env={"PATH": "/usr/bin:/bin"}, **pipes)
    while process.poll() is None and not part_of(f"{folder}/to"):
        pass
    process.send_signal(signal.SIGSTOP)
    if process.poll() is None:
        os.waitid(os.P_PID, process.pid, os.WSTOPPED | os.WEXITED | os.WNOWAIT)
    if process.poll() is None and 0 < part_of(f"{folder}/to") < SIZES[-1] // 2:
        return process
    process.kill()
    process.communicate()
    return None


def put(folder, name, octets):
    """Makes a folder with a file."""
    os.makedirs(f"{folder}/{name}", exist_ok=True)
    with open(f"{folder}/{name}/a", "wb") as it:
        it.write(octets)


def loop_mistakes(program, change):
    """The same of a `loop`: what was published before stays."""
    for _ in range(20):
        with tempfile.TemporaryDirectory(dir=program.room) as folder:
            process = stopped_loop(program, folder)
            if process is None:
                continue
            change(f"{folder}/from/a")
            process.send_signal(signal.SIGCONT)
            out, err = process.communicate(timeout=SECONDS)
            with open(f"{folder}/to/a", "rb") as it:
                stays = os.listdir(f"{folder}/to") == ["a"] and it.read() == b"before"
        if process.returncode != 3 or err.decode() != TOLD or b"\n1 fault 1:1 4\n" not in out:
            yield f"status {process.returncode}, {out!r}, {err!r}"
        if not stays:
            yield "what lay in the second folder isn't there, or something else is"
        return
    yield "it was always too fast to be stopped"


def open_mistakes(program):
    """What is wrong where a station sends more files than it can have open: at most 16 are."""
    sent = {f"f{number}": f"{number}\n".encode() * 50 for number in range(FILES)}
    few = lambda: resource.setrlimit(resource.RLIMIT_NOFILE, (MOST_OPEN, MOST_OPEN))
    with Link(program) as link:
        receiver = link.starts(2, ["--inbox", "to"], PATIENT)
        words = [*link.puts(1, sent), "--idle", "2"]
        sender = link.starts(1, words, PATIENT, waits=False, preexec_fn=few)
        status, out, err = sender.ended()
        if status or unheard(err) or not out.endswith(f"complete {FILES} of {FILES}\n"):
            yield f"the sender: status {status}, {out[-300:]!r}, {err[-300:]!r}"
        receiver.killed()
        came = files_at(link.folder, 2)
    if came != sent:
        yield f"{len(came)} files came of {len(sent)}"


def again_mistakes(program):
    """What is wrong where a file is sent twice in a run and changes between both puts, and where
    one is there only once its put is made. So many puts of another lie in front of the last two
    that these have to wait for room; and what the receiver answers is kept from the sender, so that
    it has room just when the test gives it an answer."""
    settings = {**PATIENT, "number_width": 4, "first_number": 1}
    counts = itertools.count()
    with Link(program, Relay(lambda own, frame: own == 1)) as link:
        receiver = link.starts(2, ["--inbox", "to", "--rate", "0"], settings)
        files = link.puts(1, {"a": b"before", "x": b""})
        words = [*files[:2], "--put", "a", "first", *["--put", "x", "x"] * 3071]
        words += ["--put", "a", "second", "--put", "late", "late"]
        words += ["--rate", "0", "--at-once", "3072"]
        how = {"preexec_fn": many_words}
        sender = link.starts(1, words, settings, waits=False, **how)
        for number in (1, 2):
            if receiver.comes_to(f"finished 1:{number} 0 complete") is None:
                yield f"file {number} didn't come: {receiver.text('stderr')!r}"
        processes.put(link.folder, 1, "a", b"what it is now")
        processes.put(link.folder, 1, "late", b"here")
        for number in (1, 2):
            zone = next(zones_of([finished(number)], 101))
            link.relay.give(1, frame_of(PEER_DIRECTIVES, next(counts), zone))
            if receiver.comes_to(f"finished 1:{3072 + number} 0 complete") is None:
                yield f"put {3072 + number} isn't complete: {sender.text('stdout')[-300:]!r}"
        came = files_at(link.folder, 2)
        # It notes that one file isn't there yet.
        if unheard(sender.text("stderr")).replace("note: from/late: no such file\n", ""):
            yield f"the sender told {sender.text('stderr')!r}"
    wanted = {"first": b"before", "x": b"", "second": b"what it is now", "late": b"here"}
    if came != wanted:
        yield f"what came is {came}"


# ---- a long file


def parts_of(path):
    """The octets of a file, in parts."""
    with open(path, "rb") as it:
        yield from iter(lambda: it.read(1 << 20), b"")


def long_file(path, size):
    """Makes a file of this length that is nearly all holes, with some octets of its own at its
    begin, its end, and where an offset needs more than 32 bits."""
    with open(path, "wb") as it:
        it.truncate(size)
        for at in (0, 1 << 32, size - 1):
            if at < size:
                it.seek(at)
                it.write(f"{at}."[: size - at].encode())


def are_alike(one, other):
    """Whether two files have the same octets."""
    if os.path.getsize(one) != os.path.getsize(other):
        return False
    return all(a == b for a, b in zip(parts_of(one), parts_of(other)))


def long_run(program, size):
    """Sends a file so long from one station to another. Gives the seconds that it took, and the
    most memory of the sender and of the receiver; or what is wrong."""
    with Link(program) as link:
        os.makedirs(f"{link.folder}/1/from")
        long_file(f"{link.folder}/1/from/a", size)
        receiver = link.starts(2, ["--inbox", "to", "--rate", "0"], WIDE)
        start = time.time()
        words = ["--outbox", "from", "--put", "a", "a", "--rate", "0"]
        sender = link.starts(1, words, WIDE)
        ended = receiver.comes_to("finished .* 0 complete retained", LONG_SECONDS)
        if ended is None:
            return f"it didn't come: {receiver.text('stdout')!r}, {sender.text('stderr')!r}"
        peaks = [peak_of(it.process) for it in (sender, receiver)]
        for it in (sender, receiver):
            it.killed()
        if not are_alike(f"{link.folder}/1/from/a", f"{link.folder}/2/to/a"):
            return "what came isn't what was sent"
        return ended - start, *peaks


def long_mistakes(program):
    """What is wrong with a long file: neither station may have much memory at any time."""
    has_room = shutil.disk_usage(program.room).free > 3 * LONG
    ran = long_run(program, LONG if has_room else LESS_LONG)
    if isinstance(ran, str):
        yield ran
    elif max(ran[1:]) >= MOST_MEMORY:
        yield f"the sender had {ran[1]} octets of memory, and the receiver {ran[2]}"


def lone_mistakes(program):
    """What is tried with nothing beside it, since it leaves no processor to others."""
    yield "a file of 4 GiB and an octet", long_mistakes(program)


def all_mistakes(program):
    """What is tried, with what is wrong in it."""
    yield "files of many lengths", sizes_mistakes(program)
    for name, change in CHANGES.items():
        yield f"a file that is {name} while it is sent", change_mistakes(program, change)
        yield f"a file that is {name} while it is sent by loop", loop_mistakes(program, change)
    yield "a file sent twice, which changes in between", again_mistakes(program)
    yield f"{FILES} files of a station that can't open so many", open_mistakes(program)
