"""The operator's guide, docs/OPERATING.md: its command lines are run as they stand, its table of
timers keeps its own rule, and the program has the messages that it quotes.

A block that begins with ```sh is run, line by line, by a shell in an empty folder. A line that
begins with `cfdp_node station` starts a station, which goes on while the next lines run; every
other line must end with status 0. Of a line nothing is changed but its ports of 127.0.0.1: each is
another one, which the system chose, so that no two tests meet.
"""
import contextlib
import glob
import os
import re
import subprocess
import tempfile
import time

from lib.paths import TOP
from lib.ports import ALONE, free_port, free_ports, is_bound
from lib.waiting import SECONDS, waits_for

PAGE = f"{TOP}/docs/OPERATING.md"

# Sections whose blocks are run one after another in the same folder, with the same stations.
SESSIONS = [
    ("Two machines",),
    ("A station that stays up", "Commands", "Outages", "Housekeeping"),
    ("A relay",),
    ("Timers",),
    ("Restarts",),
    ("Troubleshooting",),
]

OLD = 40 * 24 * 3600


def page():
    with open(PAGE, encoding="utf-8") as it:
        return it.read()


def sections():
    """The text of each section, by its heading."""
    parts = re.split(r"(?m)^## (.*)$", page())
    return dict(zip(parts[1::2], parts[2::2]))


def lines_of(text):
    """The command lines of a section. One that ends with a backslash goes on in the next."""
    for block in re.findall(r"(?ms)^```sh\n(.*?)^```$", text):
        for line in re.sub(r"\\\n +", "", block).splitlines():
            yield line


def octets_of(path):
    """What a file has, or None if there is none."""
    with contextlib.suppress(FileNotFoundError), open(path, "rb") as it:
        return it.read()
    return None


class Session:
    """A folder in which lines are run, and the stations that run there."""

    def __init__(self, program, folder):
        self.folder, self.running, self.ports = folder, [], {}
        self.of_udp = set(re.findall(r"--(?:listen|to) 127\.0\.0\.1:(\d+)", page()))
        os.mkdir(f"{folder}/.bin")
        os.symlink(program.path, f"{folder}/.bin/cfdp_node")
        self.how = {"cwd": folder, "env": {"PATH": f"{folder}/.bin:/usr/bin:/bin"}}

    def __enter__(self):
        return self

    def __exit__(self, *_):
        for it in self.running:
            it.kill()
            it.wait()

    def path(self, name):
        return f"{self.folder}/{name}"

    def port_of(self, port):
        """The port that stands for one of the page."""
        if port not in self.ports:
            is_of_udp = port in self.of_udp
            self.ports[port] = free_ports(1)[0] if is_of_udp else free_port()
        return self.ports[port]

    def placed(self, line):
        ports = lambda it: f"127.0.0.1:{self.port_of(it[1])}"
        return re.sub(r"127\.0\.0\.1:(\d+)", ports, line)

    def mistakes(self, line):
        """Runs a line; what is wrong with it."""
        words = ["/bin/sh", "-c", self.placed(line)]
        if line.startswith("cfdp_node station") and "--print-config" not in line:
            yield from self.start_mistakes(line)
            return
        how = {"capture_output": True, "text": True, "timeout": SECONDS}
        ran = subprocess.run(words, stdin=subprocess.DEVNULL, **how, **self.how)
        if ran.returncode:
            yield f"{line}: status {ran.returncode}, {ran.stdout[-300:]!r}, {ran.stderr[-300:]!r}"

    def start_mistakes(self, line):
        """Starts a station, and waits until it has its port; what is wrong with it."""
        log = self.path(f".log{len(self.running)}")
        words = ["/bin/sh", "-c", f"exec {self.placed(line)}"]
        with open(log, "wb") as it, ALONE:
            how = {"stdin": subprocess.DEVNULL, "stdout": it, "stderr": it, **self.how}
            process = subprocess.Popen(words, **how)
        self.running.append(process)
        port = self.port_of(re.search(r"--listen 127\.0\.0\.1:(\d+)", line)[1])
        if not waits_for(lambda: is_bound(port) or process.poll() is not None) or process.poll():
            yield f"{line}: it doesn't start: {octets_of(log)!r}"

    def ends(self):
        """The exit statuses of all stations, once they have ended by themselves; None of one that
        hasn't."""
        waits_for(lambda: all(it.poll() is not None for it in self.running))
        return [it.poll() for it in self.running]

    def told(self):
        """What the stations told last."""
        logs = (self.path(f".log{it}") for it in range(len(self.running)))
        return [(octets_of(it) or b"")[-300:] for it in logs]


# ---- what must be there before a section, and come of it


def before_housekeeping(session):
    """A file that was sent long ago, and one that couldn't be sent."""
    with open(session.path("OUT/.sent/old"), "wb"):
        pass
    when = time.time() - OLD
    os.utime(session.path("OUT/.sent/old"), (when, when))
    os.makedirs(session.path("OUT/.failed"), exist_ok=True)
    with open(session.path("OUT/.failed/log.bin"), "wb") as it:
        it.write(b"it failed once")


def is_sent(session, name):
    """Whether a file came whole, and left the spool."""
    sent = octets_of(session.path(f"OUT/.sent/{name}"))
    return sent is not None and octets_of(session.path(f"RECEIVED/{name}")) == sent


def after_two(session):
    """Two files, and two stations that end by themselves."""
    if session.ends() != [0, 0]:
        yield f"the stations ended with {session.ends()}: {session.told()}"
    for sent, came in (("a.bin", "b.bin"), ("log.txt", "log.txt")):
        octets = octets_of(session.path(f"FILES/{sent}"))
        if octets is None or octets_of(session.path(f"RECEIVED/{came}")) != octets:
            yield f"{came} isn't what was sent"


def after_spool(session):
    if not waits_for(lambda: is_sent(session, "log.bin")):
        yield f"log.bin didn't come: {session.told()}"


def after_housekeeping(session):
    if os.path.exists(session.path("OUT/.sent/old")):
        yield "the old file is still there"
    again = lambda: octets_of(session.path("RECEIVED/log.bin")) == b"it failed once"
    if not waits_for(lambda: again() and is_sent(session, "log.bin")):
        yield f"the file that failed wasn't sent again: {session.told()}"


def after_relay(session):
    came = lambda: octets_of(session.path("RECEIVED/log.txt"))
    if not waits_for(lambda: came() and came() == octets_of(session.path("RELAY/.sent/log.txt"))):
        yield f"log.txt wasn't handed on: {session.told()}"


def after_loop(session):
    if octets_of(session.path("b/y")) != octets_of(session.path("a/x")):
        yield "what came isn't what was sent"


BEFORE = {"Housekeeping": before_housekeeping}
AFTER = {
    "Two machines": after_two,
    "A station that stays up": after_spool,
    "A relay": after_relay,
    "Restarts": after_spool,
    "Housekeeping": after_housekeeping,
    "Troubleshooting": after_loop,
}


def session_mistakes(program, headings):
    """What is wrong with the lines of these sections."""
    texts = sections()
    with tempfile.TemporaryDirectory(dir=program.room) as folder:
        with Session(program, folder) as session:
            for heading in headings:
                BEFORE.get(heading, lambda _: None)(session)
                lines = list(lines_of(texts.get(heading, "")))
                if not lines:
                    yield f"docs/OPERATING.md has no line below {heading!r}"
                for line in lines:
                    yield from session.mistakes(line)
                yield from AFTER.get(heading, lambda _: ())(session)


def covered_mistakes():
    """The sections with lines that nobody runs."""
    run = {heading for headings in SESSIONS for heading in headings}
    for heading, text in sections().items():
        if heading not in run and list(lines_of(text)):
            yield f"the lines below {heading!r} are in no session"


# ---- the table of timers


def seconds_of(text):
    """A time such as `40 min`, in seconds."""
    number, unit = re.match(r"([\d,]+) (s|min|h)\b", text).groups()
    return int(number.replace(",", "")) * {"s": 1, "min": 60, "h": 3600}[unit]


def timer_mistakes():
    """The rows of the table of timers that don't keep the rule above it."""
    row = r"(?m)^\| (\d+ (?:s|min)) \| (\d+)[^|]*\| (\d+)[^|]*\| (\d+ (?:s|min|h)) \|$"
    rows = re.findall(row, sections()["Timers"])
    if len(rows) < 3:
        yield f"the table has only {rows}"
    for trip, answer, silence, end in rows:
        wanted = seconds_of(trip) * 1.1 + 5
        if int(answer) < wanted or int(silence) < 5 * int(answer):
            yield f"for {trip} it has {answer} and {silence}"
        if seconds_of(end) != 8 * int(answer):
            yield f"for {trip} a put ends after {8 * int(answer)} s, and not after {end}"


# ---- messages


def strings_of_code():
    """All texts in the code, with one space for a line that goes on."""
    found = []
    for path in glob.glob(f"{TOP}/crates/*/src/**/*.rt", recursive=True):
        with open(path, encoding="utf-8") as it:
            found += re.findall(r'"((?:[^"\\]|\\.)*)"', it.read(), re.S)
    return "\n".join(re.sub(r"\\\n\s*", "", it) for it in found)


def quoted_mistakes():
    """The notes that the page quotes and that the program hasn't. Words in capitals, and `..`,
    stand for what differs."""
    texts = strings_of_code()
    rows = re.findall(r"(?m)^\| (`[^|]*) \|", sections()["Read the log"].partition("| Note |")[2])
    if len(rows) < 10:
        yield f"the table of notes has only {rows}"
    for quoted in re.findall(r"`([^`]*)`", " ".join(rows)):
        for part in re.split(r"\s*(?:\b[A-Z]+\b|\.\.)[:/]?\s*", quoted):
            if part.strip(":/ ") and part.strip() not in texts:
                yield f"{quoted!r} is quoted, and no text of the program has {part!r}"


def all_mistakes(program):
    """Titles with what is wrong."""
    for headings in SESSIONS:
        yield f"the operator's guide: {', '.join(headings)}", session_mistakes(program, headings)
    yield "the operator's guide: all lines are run", covered_mistakes()
    yield "the operator's guide: timers", timer_mistakes()
    yield "the operator's guide: notes", quoted_mistakes()
