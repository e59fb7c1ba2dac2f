"""Stations as processes: how they are started, what they print, and what they took."""
import contextlib
import os
import re
import resource
import select
import signal
import subprocess
import threading
import time

from lib.ports import ALONE, is_bound
from lib.waiting import SECONDS, SLACK, waits_for

# Answers are waited for a second, and what is lost is sent again as often as it takes.
PATIENT = {"eof_time": 1, "nak_time": 1, "finished_time": 1}
PATIENT |= {"eof_limit": 255, "nak_limit": 255, "finished_limit": 255}


class Station:
    """A station that runs in a folder, with one folder for files to send and one for others."""

    def __init__(self, program, folder, own, peer, ports, words, settings, **ways):
        self.own, self.port, self.told = own, ports[own], b""
        for it in ("from", "to"):
            os.makedirs(f"{folder}/{own}/{it}", exist_ok=True)
        addresses = ["--listen", f"127.0.0.1:{ports[own]}", "--to", f"127.0.0.1:{ports[peer]}"]
        sets = [word for key, value in settings.items() for word in ("--set", key, str(value))]
        ids = ["--id", str(own), "--peer", str(peer)]
        plain = [] if {"--no-time", "--json"} & {*words} else ["--no-time"]
        whole = [program.path, "station", *ids, *addresses, *sets, *words, *plain]
        how = {"cwd": f"{folder}/{own}", "env": {"PATH": "/usr/bin:/bin"}}
        pipes = {"stdout": subprocess.PIPE, "stderr": subprocess.PIPE}
        with ALONE:
            self.process = subprocess.Popen(whole, **{**how, **pipes, **ways})

    def comes_up(self):
        """Waits until it has its port, or has ended."""
        waits_for(lambda: is_bound(self.port) or self.process.poll() is not None)

    def comes_to(self, word):
        """Reads what it tells, as it happens, until a line has this word."""
        end = time.monotonic() + SECONDS
        while word not in self.told and time.monotonic() < end:
            if select.select([self.process.stdout], [], [], 1)[0]:
                octets = os.read(self.process.stdout.fileno(), 4096)
                if not octets:
                    break
                self.told += octets
        return word in self.told

    def ended(self):
        """Its exit status, and both outputs, once it has ended by itself; it is given some time."""
        try:
            rest, err = self.process.communicate(timeout=SECONDS)
        except subprocess.TimeoutExpired:
            self.process.kill()
            rest, err = self.process.communicate()
        return self.process.returncode, (self.told + rest).decode(), without_keys(err.decode())


def without_keys(text):
    """What a station without keys told, but that it has none, as each of them does at its start."""
    return re.sub(r"note: (frames|datagrams) are not authenticated: [^\r\n]*\r?\n", "", text)


def many_words():
    """Room for a command line of as many words as a station may be given."""
    resource.setrlimit(resource.RLIMIT_STACK, (64 << 20, 64 << 20))


def put(folder, own, name, octets):
    """Puts a file to send into a station's folder."""
    os.makedirs(f"{folder}/{own}/from", exist_ok=True)
    with open(f"{folder}/{own}/from/{name}", "wb") as it:
        it.write(octets)


def unheard(text):
    """What a station told on standard error, but that its peer wasn't there yet, or any more, or is
    silent, as one may be on a slow machine; and whether frames are authenticated."""
    notes = r"nothing listens at \S+|\d+:\d+ waits for the peer's Finished; [^\r\n]*"
    notes += "|(frames|datagrams) are (not )?authenticated: [^\r\n]*"
    return re.sub(rf"note: ({notes})\r?\n", "", text)


def files_at(folder, own):
    """The files that a station received, but those it renamed or removed during the look."""
    found = {}
    for name in os.listdir(f"{folder}/{own}/to"):
        with contextlib.suppress(FileNotFoundError), open(f"{folder}/{own}/to/{name}", "rb") as it:
            found[name] = it.read()
    return found


def shown_on(reading):
    """All that is written to the terminal whose other end this is, until nobody has it any more."""
    told, end = b"", time.monotonic() + SECONDS
    while time.monotonic() < end:
        try:
            if select.select([reading], [], [], 1)[0]:
                told += os.read(reading, 4096)
        except OSError:
            break
    os.close(reading)
    return told.decode()


def read(path):
    """What a file holds; nothing where there is none."""
    if not os.path.exists(path):
        return b""
    with open(path, "rb") as it:
        return it.read()


def peak_of(process):
    """The most memory that a process has had so far, in octets."""
    with open(f"/proc/{process.pid}/status", encoding="ascii") as it:
        return 1024 * int(re.search(r"VmHWM:\s+(\d+) kB", it.read())[1])


class Watched(Station):
    """A station of which it is noted when each line of both outputs came, or of one of them."""

    def __init__(self, *those, reads=("stdout", "stderr"), **ways):
        super().__init__(*those, **ways)
        self.lines, self.news = [], threading.Condition()
        reads = [threading.Thread(target=self.read, args=(it,)) for it in reads]
        self.readers = reads
        for it in reads:
            it.daemon = True
            it.start()

    def read(self, output):
        for line in getattr(self.process, output):
            with self.news:
                self.lines.append((time.time(), output, line.decode()))
                self.news.notify_all()

    def comes_to(self, pattern, seconds=SECONDS):
        """When the first line came that has this pattern, or None if none comes in time."""
        end, seen = time.monotonic() + seconds, 0
        with self.news:
            while True:
                is_over = not any(it.is_alive() for it in self.readers)
                for when, _, line in self.lines[seen:]:
                    if re.search(pattern, line):
                        return when
                seen, left = len(self.lines), end - time.monotonic()
                if left <= 0 or is_over:
                    return None
                self.news.wait(min(left, 0.2))

    def text(self, output):
        """All that it told on this output, but that it has no keys."""
        told = "".join(line for _, it, line in list(self.lines) if it == output)
        return without_keys(told)

    def ended(self, seconds=SECONDS):
        """Its exit status, and both outputs, once it has ended; it is killed after a time."""
        try:
            self.process.wait(seconds)
        except subprocess.TimeoutExpired:
            self.process.kill()
        self.process.wait()
        for it in self.readers:
            it.join()
        return self.process.returncode, self.text("stdout"), self.text("stderr")

    def killed(self):
        """Kills it at once; gives what it told."""
        self.process.send_signal(signal.SIGKILL)
        return self.ended()[1]


def note_mistakes(station, pattern, since, seconds):
    """What is wrong where a station is to tell of something within some seconds of a time."""
    end = since + seconds + SLACK
    when = station.comes_to(f"^note: {pattern}", max(0.0, end - time.time()))
    if when is None or when > end:
        told = station.text("stderr")
        yield f"station {station.own} tells no note of {pattern} within {seconds} s, but {told!r}"


def refused_mistakes(station, pattern):
    """What is wrong with a station that is to end at once, with an error of this pattern."""
    status, out, err = station.ended()
    if status != 3 or not re.fullmatch(rf"error: [^\n]*({pattern})[^\n]*\n", err):
        yield f"it ended with status {status} and not with 3, {out!r}, {err!r}"
    if "transaction" in out:
        yield f"it made a put: {out!r}"


def numbers_of(station):
    """The number of the one transaction of a station, which is killed then."""
    station.comes_to("transaction")
    return [int(it) for it in re.findall(r"transaction \d+:(\d+)", station.killed())]


def wakes_of(station):
    """How often a station has waited."""
    with open(f"/proc/{station.process.pid}/status", encoding="ascii") as it:
        return int(re.search(r"(?m)^voluntary_ctxt_switches:\s*(\d+)", it.read())[1])


def processor_seconds(station):
    """How long a station, which has one thread, has had a processor."""
    with open(f"/proc/{station.process.pid}/schedstat", encoding="ascii") as it:
        return int(it.read().split()[0]) / 1e9


def damages(octets):
    """What is no file that a station wrote, though it is near one."""
    cut = (octets[:-1], octets[: len(octets) // 2], octets[1:])
    return (b"garbage\n", bytes(100), *cut, octets + octets, b" " + octets)
