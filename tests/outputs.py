"""Stations whose log can't be written: it waits, and is lost, while the station goes on."""
import contextlib
import json
import os
import pty
import re
import select
import subprocess
import tempfile
import threading
import time

from lib.control import Client, asked, controlled
from lib.disks import fill, small_disk
from lib.links import Link
from lib.waiting import SECONDS, SLACK, waits_for

# So many puts of a file that is too large are asked for: each is a line of the log, and together
# they are more than what a pipe, a terminal and the station have room for.
PUTS = 14_000

# A station ends so many seconds after it was told to, at most, with an output that takes nothing.
MOST_END = 3 + SLACK

# The octets that a log may have before its disk is full.
SOME_ROOM = 8192


# Folders in memory, which are removed at the end.
MADE = []


def makes_outbox(link):
    """Makes the outbox of station 1, with a file that is longer than any that can be sent. It is in
    memory, since a file system of a disk takes no file of this length."""
    MADE.append(tempfile.TemporaryDirectory(dir="/dev/shm"))
    outbox = f"{MADE[-1].name}/from"
    os.makedirs(outbox)
    with open(f"{outbox}/no", "wb") as it:
        it.truncate((1 << 48) + 1)
    os.makedirs(f"{link.folder}/1", exist_ok=True)
    os.symlink(outbox, f"{link.folder}/1/from")


def line(number, is_json):
    """The line of a put that is refused, as it is compared."""
    answer = {"station": 1, "event": "put", "line": number, "answer": "TooLarge"}
    return answer if is_json else f"line {number} TooLarge"


def lost(count, is_json):
    """The line that tells how many are lost."""
    told = {"station": 1, "event": "lost", "lines": count}
    return told if is_json else f"{count} lines of the log were lost"


def read(text, is_json):
    """The lines of a log, as they are compared."""
    if not is_json:
        return text.splitlines()
    objects = [json.loads(it) for it in text.splitlines()]
    objects = [it for it in objects if it["event"] != "note"]
    keys = ("station", "event", "line", "answer", "lines", "complete", "asked")
    return [{key: it[key] for key in keys if key in it} for it in objects]


def puts(port, count):
    """Asks for so many puts of a file that is too large; the answers that are others than ok."""
    with Client(port) as client:
        asking = threading.Thread(target=client.says, args=(b"put no no\n" * count,))
        asking.start()
        answers = [client.hears() for _ in range(count)]
        asking.join()
    return [it for it in answers if it != "ok\n"]


def refused(program, port):
    """How many puts a station has refused; None where it doesn't answer."""
    counters = asked(program, port, "counters")[1]
    found = re.search(r'(?m)^puts_refused (\d+)$|"puts_refused":(\d+)', counters)
    return int(found[1] or found[2]) if found else None


def reads(output, is_whole, seconds=SECONDS):
    """What comes from an output until this is so of it, or it is at its end."""
    told, stop = b"", time.monotonic() + seconds
    while not is_whole(told) and time.monotonic() < stop:
        if select.select([output], [], [], 0.2)[0]:
            try:
                octets = os.read(output, 65536)
            except OSError:
                break
            if not octets:
                break
            told += octets
    return told


def unread_mistakes(program, is_terminal=False, is_json=False):
    """What is wrong where nobody reads the log for a time: commands are done and answered all the
    while. Once it is read, whole lines come in order, then how many were lost, then all others."""
    outer, inner = pty.openpty() if is_terminal else os.pipe()
    with Link(program) as link:
        makes_outbox(link)
        words = ["--outbox", "from", "--json", "--no-time"]
        words = words if is_json else words[:2]
        it, port = controlled(link, 1, words, stdout=inner, reads=("stderr",))
        os.close(inner)
        if wrong := puts(port, PUTS):
            yield f"of {PUTS} puts {len(wrong)} were answered {wrong[:2]}"
        if not waits_for(lambda: refused(program, port) == PUTS):
            yield f"it refused {refused(program, port)} puts, and was asked for {PUTS}"
        ends = b'"lost"' if is_json else b" were lost"
        told = reads(outer, lambda told: re.search(ends + b"[^\n]*\n", told))
        puts(port, 1)
        last = str(PUTS + 1).encode()
        told += reads(outer, lambda told: last in told and told.endswith(b"\n"))
        asked(program, port, "stop", "now")
        told += reads(outer, lambda told: False)
        status, _, err = it.ended()
        os.close(outer)
    found = read(told.decode().replace("\r\n", "\n"), is_json)
    kept = next((at for at, it in enumerate(found) if it != line(at + 1, is_json)), 0)
    wanted = [line(at + 1, is_json) for at in range(kept)]
    wanted += [lost(PUTS - kept, is_json), line(PUTS + 1, is_json)]
    if not 500 < kept < PUTS or found[: kept + 2] != wanted:
        yield f"behind {kept} lines it told {found[kept : kept + 3]}"
    if status != 1 or err or f"{PUTS + 1}" not in str(found[-1]) or "0" not in str(found[-1]):
        yield f"it ended with status {status}, {err!r} and {found[-1:]}"


def stuck_mistakes(program, is_broken=False):
    """What is wrong where nobody ever reads the log, or it is a pipe that nobody can read any more:
    the station ends soon when it is told to, and says why its last lines are missing."""
    outer, inner = os.pipe()
    with Link(program) as link:
        makes_outbox(link)
        it, port = controlled(link, 1, ["--outbox", "from"], stdout=inner, reads=("stderr",))
        os.close(inner)
        if is_broken:
            os.close(outer)
        if wrong := puts(port, PUTS):
            yield f"of {PUTS} puts {len(wrong)} were answered {wrong[:2]}"
        if not waits_for(lambda: refused(program, port) == PUTS):
            yield f"it refused {refused(program, port)} puts, and was asked for {PUTS}"
        began = time.monotonic()
        asked(program, port, "stop", "now")
        status, _, err = it.ended()
        took = time.monotonic() - began
        if not is_broken:
            os.close(outer)
    if status != 3 or err != "error: cannot write standard output\n" or took > MOST_END:
        yield f"it ended with status {status} after {took:.1f} s, and told {err!r}"


def full_mistakes(program):
    """What is wrong where the log is on a full disk: the station goes on, and says at its end that
    its last lines are missing."""
    with Link(program) as link, open("/dev/full", "wb") as full:
        makes_outbox(link)
        it, port = controlled(link, 1, ["--outbox", "from"], stdout=full, reads=("stderr",))
        if wrong := puts(port, PUTS):
            yield f"of {PUTS} puts {len(wrong)} were answered {wrong[:2]}"
        if refused(program, port) is None:
            yield "it doesn't answer any more"
        asked(program, port, "stop", "now")
        status, _, err = it.ended()
    if status != 3 or err != "error: cannot write standard output\n":
        yield f"it ended with status {status}, and told {err!r}"


def freed_mistakes(program):
    """What is wrong where the disk of the log is full for a time, where a small one may be mounted:
    once there is room, the log goes on where it broke off, and tells how many lines are lost."""
    with Link(program) as link:
        folder = f"{link.folder}/1"
        makes_outbox(link)
        os.makedirs(f"{folder}/disk")
        with small_disk(f"{folder}/disk") as is_mounted:
            if is_mounted:
                yield from freed_on_mistakes(program, link, f"{folder}/disk")


def freed_on_mistakes(program, link, disk):
    """The same, with the log on this disk."""
    with open(f"{disk}/log", "ab") as log:
        it, port = controlled(link, 1, ["--outbox", "from"], stdout=log, reads=("stderr",))
    fill(f"{disk}/filler")
    os.truncate(f"{disk}/filler", os.stat(f"{disk}/filler").st_size - SOME_ROOM)
    if wrong := puts(port, PUTS):
        yield f"of {PUTS} puts {len(wrong)} were answered {wrong[:2]}"
    if not waits_for(lambda: refused(program, port) == PUTS):
        yield f"it refused {refused(program, port)} puts, and was asked for {PUTS}"
    os.remove(f"{disk}/filler")
    is_told = lambda: " were lost\n" in text_of(f"{disk}/log")
    if not waits_for(is_told):
        yield "it doesn't tell how many lines were lost"
    puts(port, 1)
    asked(program, port, "stop", "now")
    status, _, err = it.ended()
    found = text_of(f"{disk}/log").splitlines()
    kept = next((at for at, it in enumerate(found) if it != line(at + 1, False)), 0)
    wanted = [lost(PUTS - kept, False), line(PUTS + 1, False), f"complete 0 of {PUTS + 1}"]
    if kept < 1000 or found[kept:] != wanted:
        yield f"behind {kept} lines it told {found[kept : kept + 3]}"
    if status != 1 or err:
        yield f"it ended with status {status}, and told {err!r}"


def text_of(path):
    """What a file has."""
    with open(path, encoding="ascii") as it:
        return it.read()


def whole_mistakes(program):
    """What is wrong with the log in a file, of as many lines as are lost where nobody reads: all of
    them are there, in order."""
    with Link(program) as link:
        makes_outbox(link)
        with open(f"{link.folder}/1/log", "wb") as log:
            it, port = controlled(link, 1, ["--outbox", "from"], stdout=log, reads=("stderr",))
        puts(port, PUTS)
        if not waits_for(lambda: refused(program, port) == PUTS):
            yield f"it refused {refused(program, port)} puts, and was asked for {PUTS}"
        asked(program, port, "stop", "now")
        status, _, err = it.ended()
        found = text_of(f"{link.folder}/1/log").splitlines()
    wanted = [line(at + 1, False) for at in range(PUTS)] + [f"complete 0 of {PUTS}"]
    if status != 1 or err or found != wanted:
        wrong = [both for both in zip(found, wanted) if both[0] != both[1]]
        yield f"status {status}, {err!r}, {len(found)} lines, {wrong[:2]}"


def once_mistakes(program):
    """What is wrong where the first write finds the disk full, and later ones don't: nothing is
    missing."""
    with Link(program) as link, contextlib.ExitStack() as stack:
        log = stack.enter_context(open(f"{link.folder}/log", "wb"))
        makes_outbox(link)
        words = ["--outbox", "from"]
        ways = {"stdout": log, "reads": ("stderr",), "faults": "full-once"}
        it, port = controlled(link, 1, words, **ways)
        puts(port, 3)
        is_told = lambda: text_of(f"{link.folder}/log").count("\n") == 3
        if not waits_for(is_told):
            yield f"it told {text_of(f'{link.folder}/log')!r}"
        asked(program, port, "stop", "now")
        status, _, err = it.ended()
        told = text_of(f"{link.folder}/log")
    if status != 1 or err or told != "".join(f"line {n} TooLarge\n" for n in (1, 2, 3)) + (
        "complete 0 of 3\n"
    ):
        yield f"status {status}, {err!r}, {told!r}"


def input_mistakes(program):
    """What is wrong with answers to standard input that nobody reads for a time: all that have room
    come, whole and in order, and then how many lines were lost."""
    outer, inner = os.pipe()
    with Link(program) as link:
        makes_outbox(link)
        ways = {"stdin": subprocess.PIPE, "stdout": inner, "reads": ("stderr",)}
        it, port = controlled(link, 1, ["--outbox", "from", "--commands"], **ways)
        os.close(inner)
        it.process.stdin.write(b"lst\n" * 10_000 + b"put no no\n")
        it.process.stdin.flush()
        if not waits_for(lambda: refused(program, port) == 1):
            yield "it doesn't take all that is asked of it"
        told = reads(outer, lambda told: b" were lost\n" in told)
        asked(program, port, "stop", "now")
        told += reads(outer, lambda told: False)
        status, _, err = it.ended()
        os.close(outer)
    answers = "error: unknown command; did you mean: list\n"
    count = told.decode().count(answers)
    # The answer to the put, and the line that tells that it was refused, are lost too.
    wanted = answers * count + f"{10_002 - count} lines of the log were lost\ncomplete 0 of 1\n"
    if not 1000 < count < 10_000 or told.decode() != wanted or status != 1 or err:
        yield f"{count} answers, status {status}, {err!r}, at last {told[-100:]!r}"


def all_mistakes(program):
    """What is tried, with what is wrong in it."""
    yield "a log that nobody reads for a time", unread_mistakes(program)
    yield "a log of objects that nobody reads for a time", unread_mistakes(program, is_json=True)
    unread = unread_mistakes(program, is_terminal=True)
    yield "a log on a terminal that nobody reads for a time", unread
    yield "a log that nobody ever reads", stuck_mistakes(program)
    yield "a log that nobody can read any more", stuck_mistakes(program, is_broken=True)
    yield "a log on a full disk", full_mistakes(program)
    yield "a log on a disk that is full for a time", freed_mistakes(program)
    yield "a log in a file, of many lines at once", whole_mistakes(program)
    yield "a log whose first write fails", once_mistakes(program)
    yield "answers to standard input that nobody reads for a time", input_mistakes(program)
