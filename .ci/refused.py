"""Says which edits stand: the prover refused them before, over the same contents.

A line of .ci/refused-edits is `CRATE/NAME.edit SUM`. It says that `.ci/edits` tried this edit, and
that the prover refused it over contents with this checksum. The checksum is of the edit's own file;
of the sources, specs, proofs and line of crates.txt of its crate and of each crate below that; and
of what the verdicts on all edits rest on, which `.ci/edits` passes (the kit's logic, and how it
judges). A checksum doesn't depend on lines that are comments, on the folder's path, on the files'
times, or on which kit of this logic is there.
"""
import datetime
import glob
import hashlib
import os
import re
import threading

LINES = ".ci/refused-edits"
PARTS = ("src", "specs", "proofs")

# Each edit that stands is tried again once in so many days, so that a false line is found.
DAYS = 20


def today():
    """The day's number, which is the same everywhere."""
    return datetime.datetime.now(datetime.timezone.utc).date().toordinal()


def is_due(edit, day):
    """Whether an edit is tried on this day even if it stands."""
    return int.from_bytes(hashlib.sha256(edit.encode()).digest()[:8], "big") % DAYS == day % DAYS


def to_try(sums, lines, day):
    """The edits that must be tried: those whose line is missing or differs, and the day's part of
    those that stand."""
    return {it for it in sums if lines.get(it) != sums[it] or is_due(it, day)}


def lines_after(lines, sums, tried, refused):
    """The lines after these edits were tried, and some of them refused. An edit that was removed
    has no line, nor has one that was tried and not refused."""
    left = {it: lines[it] for it in lines if it in sums and it not in tried}
    return left | {it: sums[it] for it in refused}


def octets_of(path):
    with open(path, "rb") as it:
        return it.read()


def sum_of(*what):
    """A checksum of texts, octets, and lists of them."""
    return hashlib.sha256(repr(what).encode()).hexdigest()


def listed(top):
    """By the name of each crate its line of crates.txt, and the names of what it uses."""
    found = {}
    for line in octets_of(f"{top}/crates.txt").decode().split("\n"):
        line = line.partition("#")[0].strip()
        if line:
            head, _, uses = line.partition(":")
            found[head.split()[0]] = line, uses.split()
    return found


def with_below(crate, crates):
    """This crate and those of these crates that lie below it, by name."""
    found, waiting = set(), [crate]
    while waiting:
        it = waiting.pop()
        if it in crates and it not in found:
            found.add(it)
            waiting += crates[it][1]
    return sorted(found)


def without_comments(path):
    """What a file says to the prover: all its lines but those that are comments."""
    mark = b"--" if path.endswith(".antt") else b"//"
    return [it for it in octets_of(path).split(b"\n") if not it.lstrip().startswith(mark)]


def sum_of_files(folder):
    """A checksum of what a crate's verdicts rest on in its own folder."""
    found = []
    for part in PARTS:
        for at, folders, names in os.walk(f"{folder}/{part}"):
            folders.sort()
            paths = [f"{at}/{it}" for it in sorted(names)]
            found += [(os.path.relpath(it, folder), sum_of(without_comments(it))) for it in paths]
    return sum_of(found)


def sums_of(top, of_all):
    """The checksum of what the verdict on each edit of a repository rests on, by CRATE/NAME.edit.
    Each file is read once."""
    crates, sums = listed(top), {}
    own = {it: (it, crates[it][0], sum_of_files(f"{top}/crates/{it}")) for it in crates}
    for crate in crates:
        below = sum_of(of_all, [own[it] for it in with_below(crate, crates)])
        for path in sorted(glob.glob(f"{top}/crates/{crate}/edits/*.edit")):
            edit = f"{crate}/{os.path.basename(path)}"
            sums[edit] = sum_of(edit, below, octets_of(path))
    return sums


def read(top):
    """The lines of a repository: the checksum of each edit. A line of another form is ignored."""
    path = f"{top}/{LINES}"
    text = octets_of(path).decode(errors="replace") if os.path.isfile(path) else ""
    return dict(re.findall(r"(?m)^(\S+/\S+\.edit) ([0-9a-f]{64})$", text))


def write(top, lines):
    """Writes these lines, sorted, in the place of those that are there."""
    path = f"{top}/{LINES}"
    new = f"{path}.{os.getpid()}"
    with open(new, "w", encoding="utf-8", newline="\n") as it:
        it.writelines(f"{edit} {lines[edit]}\n" for edit in sorted(lines))
    os.replace(new, path)


class Book:
    """The lines of a repository, as a run finds them and notes what came of its tries."""

    def __init__(self, top, of_all):
        self.top, self.of_all, self.lock = top, of_all, threading.Lock()
        self.sums = sums_of(top, of_all)

    def to_try(self, day):
        """The edits that must be tried on this day."""
        return to_try(self.sums, read(self.top), day)

    def note(self, tried, refused):
        """Writes the lines after these edits were tried, and some of them refused. An edit whose
        contents changed meanwhile gets no line."""
        with self.lock:
            sums, lines = sums_of(self.top, self.of_all), read(self.top)
            same = {it for it in refused if sums.get(it) == self.sums.get(it)}
            after = lines_after(lines, sums, set(tried), same)
            if after != lines:
                write(self.top, after)
