"""Rows: runs of the program as text, how they are read, and what is wrong with a run."""
import os
import re
import sys

from lib.paths import TOP
from lib.program import unescaped


class Row:
    """One run of the program, and what it must do."""

    def __init__(self, file, number, title, words, faults):
        self.place, self.title, self.words, self.faults = f"{file}:{number}", title, words, faults
        self.given, self.out, self.err, self.files, self.status = [], [], [], {}, 0
        self.there, self.before, self.is_swept = {}, [], False

    @property
    def is_plain(self):
        """Whether `rt try --cases` can run it: no faults, files or socket, and a whole output."""
        has_files = self.files or self.there or self.before or self.words[:1] == ["station"]
        return not (self.faults or has_files or "..." in self.out)


def input_of(line):
    """The octets that a line of input stands for."""
    if line.startswith(">* "):
        count, _, text = line[3:].partition(" ")
        return f"{text}\n" * int(count)
    if line.startswith(">\\ "):
        # \c at the end: no line feed
        ends = line.endswith("\\c")
        return unescaped(line[3 : -2 if ends else None]) + ("" if ends else "\n")
    return line[2:] + "\n"


def rows_of(path):
    """The rows of a file."""
    name = os.path.basename(path)
    with open(path, encoding="utf-8", newline="\n") as it:
        lines = it.read().split("\n")
    words, title, row = None, "", None
    for number, line in enumerate(lines, 1):
        if row is None:
            if line.startswith("$"):
                words = line[2:].split()
                continue
            if not line:
                continue
            if line.startswith("#"):
                title = line[2:]
                continue
            if words is None:
                sys.exit(f"tests/run: {name}:{number}: no arguments before the first row")
            row = Row(name, number, title, words, "")
        if line.startswith("="):
            row.status = int(line[2:])
            yield row
            row = None
        else:
            read_line(row, line)
    if row is not None:
        sys.exit(f"tests/run: {row.place}: the row has no end, '= STATUS'")


def read_line(row, line):
    """Adds a line to the row."""
    if line.startswith(">"):
        row.given.append(input_of(line))
    elif line.startswith("< "):
        with open(f"{TOP}/{line[2:]}", encoding="utf-8", newline="\n") as it:
            row.given.append(it.read())
    elif line.startswith("& "):
        row.faults = line[2:]
    elif line == "% memory":
        row.is_swept = True
    elif line.startswith("! "):
        row.err.append(line[2:])
    elif line.startswith(("@< ", "@> ")):
        file, _, text = line[3:].partition(" ")
        files = row.there if line[1] == "<" else row.files
        files[file] = files.get(file, b"") + f"{text}\n".encode()
    elif line.startswith("* "):
        row.before.append(line[2:])
    elif line.startswith("@ "):
        file, _, digits = line[2:].partition(" ")
        is_gone = digits == "gone"
        row.files[file] = None if is_gone else row.files.get(file, b"") + bytes.fromhex(digits)
    else:
        row.out.append(line)


def text_of(lines):
    r"""Lines with a line feed behind each, but for one that ends with \c."""
    return "".join(it[:-2] if it.endswith("\\c") else f"{it}\n" for it in lines)


def is_told(wanted, told):
    """Whether a text has these lines, of which '...' stands for any, also none."""
    parts = text_of(wanted).split("...\n")
    if len(parts) == 1:
        return told == parts[0]
    at = len(parts[0])
    if not told.startswith(parts[0]):
        return False
    for part in parts[1:-1]:
        at = told.find(part, at)
        if at < 0:
            return False
        at += len(part)
    return told.endswith(parts[-1]) and len(told) - len(parts[-1]) >= at


def are_left(wanted, left):
    """Whether these files were left, in whose text a line '...' stands for any lines."""
    text = lambda octets: octets.decode("utf-8", errors="backslashreplace")
    fits = lambda a, b: a == b or a and b and is_told(text(a).split("\n")[:-1], text(b))
    return wanted.keys() == left.keys() and all(fits(wanted[it], left[it]) for it in wanted)


def row_mistakes(program, row):
    """What is wrong with a run of this row, in words."""
    given = "".join(row.given)
    status, out, err, left = program.run(row.words, given, row.faults, row.there, row.before)
    if status != row.status:
        yield f"it ended with status {status}, and not {row.status}: {err[-300:]}"
    if not is_told(row.out, out):
        yield f"it wrote\n{out[:2000]}and not\n{text_of(row.out)[:2000]}"
    if not is_told(row.err, err):
        yield f"on standard error it wrote\n{err[:2000]}and not\n{text_of(row.err)[:2000]}"
    if not are_left(row.files, left):
        shown = {it: left[it] if left[it] is None else left[it].hex().upper()[:2000] for it in left}
        yield f"it left {shown}"


def outcomes(lines, words):
    """What PDUs told: Metadata, and Finisheds of complete files at their senders."""
    found = set()
    for line in lines:
        it = line.split(" ")
        if it[1:2] == ["metadata"]:
            found.add(" ".join([it[0], *words(it)]))
        elif it[1:2] == ["finished"] and it[4:] == ["complete", "retained"]:
            if it[2].split(":")[0] == it[0]:
                found.add(line)
    return found


def uncarried(report, heard):
    """The complete files of a report that the PDUs in the frames that arrived don't carry whole."""
    for done in (it.split(" ") for it in report if it.endswith(" 0 complete retained")):
        station, name = done[0], done[2]
        if name.split(":")[0] == station:
            continue
        of_put = [it.split(" ") for it in heard if it.split(" ")[:3:2] == [station, name]]
        sizes = [int(it[5]) for it in of_put if it[1] == "eof" and it[3] == "0"]
        end = 0
        for first, length in sorted((int(it[3]), int(it[4])) for it in of_put if it[1] == "data"):
            end = max(end, first + length) if first <= end else end
        if not sizes or end < sizes[0] or not any(it[1] == "metadata" for it in of_put):
            yield f"the frames that arrived at {station} don't carry {name}"


def watched_mistakes(program, row):
    """What is wrong where a script is watched: what arrives must be what the same report tells."""
    given = "".join(row.given)
    plain = program.run(row.words, given)
    seen = program.run([*row.words, "--trace"], given)
    if plain[:2] != seen[:2]:
        yield "its report is another where it is watched"
    lines = [it for it in seen[2].split("\n") if " hears " in it]
    heard = [re.sub(r"^[\d.]+ (\d) hears ", r"\1 ", it) for it in lines]
    # a dump tells ID CHECKSUM-TYPE SIZE SOURCE DESTINATION, a report ID SOURCE DESTINATION SIZE
    told = outcomes(plain[1].split("\n"), lambda it: [it[2], it[5], it[3], it[4]])
    saw = outcomes(heard, lambda it: [it[2], it[4], it[5], it[6]])
    if told != saw:
        yield f"only the report tells {sorted(told - saw)}, only the trace {sorted(saw - told)}"
    yield from uncarried(plain[1].split("\n"), heard)
