"""What lies where files of a station lie, and isn't what the station put there: pipes, links, other
files, folders that are one, and what a run left that died."""
import contextlib
import os
import re

from lib.choices import chance_of
from lib.links import Link, Relay
from lib.processes import PATIENT, damages, numbers_of, read, refused_mistakes, unheard
from lib.waiting import waits_for

# A put without an answer is over after two seconds.
HASTY = {"eof_time": 1, "eof_limit": 0}

# So many files come at a time, more than may be open, each of so many octets.
FILES, SIZE = 20, 20_000

# What is told where something else lies in the place of what had come so far.
REPLACED = "its part file was removed or replaced"


def ended_mistakes(station, status, pattern):
    """What is wrong with a station that is to end at once, with this status and an error of this
    pattern, and without a put."""
    ended = station.ended()
    if ended[0] != status or not re.fullmatch(rf"error: [^\n]*({pattern})[^\n]*\n", ended[2]):
        yield f"it is to end with {status} and {pattern!r}, and ended so: {ended}"
    if "transaction" in ended[1]:
        yield f"it made a put: {ended[1]!r}"


@contextlib.contextmanager
def with_puts(program):
    """A link, the path of the file of numbers of station 1, and what starts this with a put."""
    with Link(program) as link:
        words = link.puts(1, {"a": b"hello"}) + ["--idle", "1"]
        yield link, f"{link.folder}/1/from.state", lambda: link.starts(1, words, HASTY, waits=False)


def whole_state(program):
    """What a file of numbers has once a station has begun."""
    with with_puts(program) as (_, path, starts):
        starts().ended()
        return read(path)


# ---- the file of numbers


def odd_kinds():
    """What isn't a plain file, by its name: what puts it at a path, and what is told of it."""
    return {
        "a pipe": (os.mkfifo, "not a plain file"),
        "a folder": (os.mkdir, "is a folder"),
        "a link to a device": (lambda path: os.symlink("/dev/zero", path), "not a plain file"),
        "a link to nothing": (lambda path: os.symlink("nothing", path), "no such file or folder"),
    }


def kind_mistakes(program):
    """What is wrong where something else lies in the place of the file of numbers, or of the file
    that is written before it gets that name."""
    for name, (makes, told) in odd_kinds().items():
        with with_puts(program) as (_, path, starts):
            makes(path)
            yield from (f"{name}: {it}" for it in refused_mistakes(starts(), f"from.state: {told}"))
    for name, (makes, told) in odd_kinds().items():
        with with_puts(program) as (_, path, starts):
            makes(f"{path}.new")
            told = "not a plain file" if "link" in name else told
            wrong = refused_mistakes(starts(), f"from.state: {told}")
            yield from (f"beside it {name}: {it}" for it in wrong)
            if os.path.lexists(path):
                yield f"beside it {name}: it made the file"


def changed(octets):
    """These octets with one of them changed: of each line the last one."""
    for at in (it.start() - 1 for it in re.finditer(b"\n", octets)):
        yield octets[:at] + bytes([octets[at] ^ 1]) + octets[at + 1 :]


def damage_mistakes(program):
    """What is wrong where the file of numbers is empty, cut or changed: nothing is sent, and it
    stays as it is."""
    whole = whole_state(program)
    for octets in (b"", *damages(whole), *changed(whole)):
        with with_puts(program) as (_, path, starts):
            with open(path, "wb") as it:
                it.write(octets)
            yield from refused_mistakes(starts(), "from.state: not a state file")
            if read(path) != octets:
                yield f"the damaged file {octets!r} isn't as it was"


def numbers_in(octets):
    """The numbers in a file of numbers."""
    return [int(it) for it in re.findall(rb"(?m)^(?:numbers|frames) (\d+)$", octets)]


def older_mistakes(program):
    """What is wrong with a file of numbers that has no check, as older versions wrote it: its
    numbers go on, and then it has a check."""
    with with_puts(program) as (_, path, starts):
        with open(path, "wb") as it:
            it.write(b"cfdp_node station 1\nnumbers 9999999999999999\nframes 7\n")
        numbers = numbers_of(starts())
        text = read(path)
        if numbers != [9999999999999999] or numbers_in(text) != [10**16, 8 + (1 << 20)]:
            yield f"the numbers were {numbers}, and the file has {text!r}"
        if not re.fullmatch(rb"(?s).*\nsum [0-9A-F]{8}\n", text):
            yield f"it has no check: {text!r}"


def left_mistakes(program):
    """What is wrong where a run died as it wrote the file of numbers: the next one goes on, and
    nothing is left of it. It had begun the file, or given it its name and not taken the other."""
    whole = whole_state(program)
    for left in (b"", whole[:30], whole):
        with with_puts(program) as (_, path, starts):
            with open(f"{path}.new", "wb") as it:
                it.write(left)
            yield from (f"{left!r}: {it}" for it in begun_mistakes(starts(), path))
    for others in (0, 7):
        with with_puts(program) as (_, path, starts):
            with open(path, "wb") as it:
                it.write(whole)
            if others:
                with open(f"{path}.new", "wb") as it:
                    it.write(whole[:others])
            else:
                os.link(path, f"{path}.new")
            wrong = begun_mistakes(starts(), path)
            yield from (f"with {others} octets beside it: {it}" for it in wrong)


def begun_mistakes(station, path):
    """What is wrong with a station that is to make its put, and to leave a file of numbers."""
    ended = station.ended()
    if "transaction" not in ended[1] or unheard(ended[2]):
        yield f"it ended so: {ended}"
    elif os.path.lexists(f"{path}.new") or not numbers_in(read(path)):
        yield f"it left {sorted(os.listdir(os.path.dirname(path)))}"


def rivals_mistakes(program, faults):
    """What is wrong where stations with one file of numbers, which isn't there yet, begin at one
    time: one of them runs at most, and no number comes twice. Where no file has two names, one may
    see the file before it says anything, or find that the other one has removed it."""
    refused = "in use by another station"
    refused += "|not a state file|no such file or folder" if faults else ""
    ids = []
    with Link(program) as link:
        words = [*link.puts(1, {"a": b"hello"}), "--idle", "1"]
        link.puts(2, {"a": b"hello"})
        for turn in range(8):
            state = ["--state", f"{link.folder}/numbers{turn}"]
            how = {"waits": False, "faults": faults}
            both = [link.starts(it, [*state, *words], HASTY, **how) for it in (1, 2)]
            told = [it.ended() for it in both]
            for status, out, err in told:
                ids += [(turn, it) for it in re.findall(r"transaction \d+:(\d+)", out)]
                if status not in (1, 3) or status == 3 and not re.search(refused, err):
                    yield f"one of them ended so: {(status, out, err)}"
            if all(status == 3 for status, _, _ in told):
                yield f"neither began: {told}"
    if len(ids) != len(set(ids)):
        yield f"numbers came twice: {ids}"


def inbox_mistakes(program):
    """What is wrong where the file of numbers lies in the inbox, by whatever name: the peer could
    replace it there."""
    for state in ("to/numbers", "./from/../to/numbers", "also/numbers", "linked", "to/.numbers"):
        with Link(program) as link:
            words = [*link.puts(1, {"a": b"hello"}), "--inbox", "to", "--idle", "1"]
            os.makedirs(f"{link.folder}/1/to")
            os.symlink("to", f"{link.folder}/1/also")
            if state == "linked":
                with open(f"{link.folder}/1/to/numbers", "wb") as it:
                    it.write(b"cfdp_node station 1\nnumbers 1\nframes 0\n")
                os.symlink("to/numbers", f"{link.folder}/1/linked")
            station = link.starts(1, ["--state", state, *words], HASTY, waits=False)
            yield from ended_mistakes(station, 2, f"{state}: lies in the inbox to, ")


# ---- folders


def circle_mistakes(program):
    """What is wrong where the inbox of a station is its spool, by whatever name."""
    for spool in ("to", "./from/../to/", "also"):
        with Link(program) as link:
            for it in ("from", "to"):
                os.makedirs(f"{link.folder}/1/{it}")
            os.symlink("to", f"{link.folder}/1/also")
            words = ["--inbox", "to", "--spool", spool, "--idle", "1"]
            station = link.starts(1, words, HASTY, waits=False)
            yield from ended_mistakes(station, 2, "--inbox and --spool must differ")


def leaving_mistakes(program):
    """What is wrong where a pipe lies in a spool in the place of a folder that this needs."""
    with Link(program) as link:
        os.makedirs(f"{link.folder}/1/from")
        os.mkfifo(f"{link.folder}/1/from/.leaving")
        station = link.starts(1, ["--spool", "from", "--idle", "1"], HASTY, waits=False)
        yield from ended_mistakes(station, 3, "from: part of the path is not a folder")


# ---- what comes


def put_over(path, makes):
    """Puts something in the place of what is at a path, at once."""
    makes(f"{path}.other")
    os.rename(f"{path}.other", path)


def parts_in(folder):
    """The paths of what has come in part, by their transactions."""
    found = [re.fullmatch(r"\.part-(1)-(\d+)", it) for it in os.listdir(folder)]
    return {f"{it[1]}:{it[2]}": f"{folder}/{it[0]}" for it in found if it}


def plain_files(folder):
    """What the plain files in a folder have, by their names."""
    paths = {it: f"{folder}/{it}" for it in os.listdir(folder)}
    plain = lambda path: os.path.isfile(path) and not os.path.islink(path)
    return {name: read(path) for name, path in paths.items() if plain(path)}


class Holding(Relay):
    """A relay that holds all back once so many frames came from station 1, until it is released."""

    def __init__(self, most):
        self.left = most
        super().__init__()

    def give(self, own, frame):
        super().give(own, frame)
        if own == 2:
            self.left -= 1
            self.holds |= self.left == 0


def part_mistakes(program):
    """What is wrong where a stranger puts a link, a pipe, a link to one, or another file in the
    place of what has come in part of some files, more than may be open: nothing is written to
    these, none of them gets a name, it is told, and all other files come. The link stands still
    once each file has begun to come, until all is replaced."""
    sent = {f"f{it}": chance_of(it).randbytes(SIZE) for it in range(FILES)}
    with Link(program, Holding(20 * FILES)) as link:
        victim, pipe, inbox = f"{link.folder}/victim", f"{link.folder}/pipe", f"{link.folder}/2/to"
        with open(victim, "wb") as it:
            it.write(b"keep me")
        os.mkfifo(pipe)
        receiver = link.starts(2, ["--inbox", "to"], PATIENT)
        words = [*link.puts(1, sent), "--rate", "150", "--at-once", str(FILES), "--idle", "3"]
        sender = link.starts(1, words, PATIENT, waits=False)
        if not waits_for(lambda: link.relay.holds and len(parts_in(inbox)) == FILES):
            yield f"there came {len(parts_in(inbox))} files only: {sender.text('stderr')!r}"
            return
        changes = [
            lambda path: os.symlink(victim, path),
            os.mkfifo,
            lambda path: os.symlink(pipe, path),
            lambda path: os.link(victim, path),
        ]
        begun = sorted(parts_in(inbox).items())[: len(changes)]
        for (_, path), makes in zip(begun, changes):
            put_over(path, makes)
        link.relay.release()
        for ident, _ in begun:
            if receiver.comes_to(rf"{REPLACED} \(transaction {ident}\)") is None:
                yield f"it didn't tell of {ident}: {receiver.text('stderr')!r}"
        status, out, err = sender.ended()
        whole = FILES - len(changes)
        if status != 1 or not out.endswith(f"complete {whole} of {FILES}\n"):
            yield f"the sender: status {status}, {out[-300:]!r}, {err[-300:]!r}"
        came = plain_files(inbox)
        if len(came) != whole or any(sent.get(name) != it for name, it in came.items()):
            yield f"there came {sorted(came)}"
        if read(victim) != b"keep me" or os.stat(victim).st_nlink != 1:
            yield f"the file of another has {read(victim)!r}"


def published_mistakes(program, words):
    """What is wrong where another file lies in the place of what has come so far when the last
    octet comes: it isn't published. The link stands still until it lies there."""
    with Link(program, Holding(20)) as link:
        inbox = f"{link.folder}/2/to"
        receiver = link.starts(2, ["--inbox", "to", *words], PATIENT)
        puts = [*link.puts(1, {"a": bytes(SIZE)}), "--rate", "150", "--idle", "3"]
        sender = link.starts(1, puts, PATIENT, waits=False)
        if not waits_for(lambda: link.relay.holds and parts_in(inbox)):
            yield f"nothing came: {sender.text('stderr')!r}"
            return
        put_over(*parts_in(inbox).values(), lambda path: put_octets(path, b"evil"))
        link.relay.release()
        status, out, err = sender.ended()
        if status != 1 or not out.endswith("complete 0 of 1\n"):
            yield f"the sender: status {status}, {out!r}, {err!r}"
        if receiver.comes_to(rf"error: to/a: {REPLACED} ") is None:
            yield f"the receiver told {receiver.text('stderr')!r}"
        if plain_files(inbox):
            yield f"there lies {plain_files(inbox)}"


def put_octets(path, octets):
    with open(path, "wb") as it:
        it.write(octets)


def all_mistakes(program):
    """What is tried, with what is wrong in it."""
    yield "no plain file in the place of the file of numbers", kind_mistakes(program)
    yield "an empty, cut or changed file of numbers", damage_mistakes(program)
    yield "a file of numbers of an older version", older_mistakes(program)
    yield "a run that died as it wrote its numbers", left_mistakes(program)
    yield "stations that make one file of numbers", rivals_mistakes(program, "")
    what = "stations that make one file of numbers where no file has two names"
    yield what, rivals_mistakes(program, "no-link")
    yield "a file of numbers in the inbox", inbox_mistakes(program)
    yield "one folder as inbox and as spool of a station", circle_mistakes(program)
    yield "a pipe in a spool", leaving_mistakes(program)
    yield "links, pipes and files in the place of what comes", part_mistakes(program)
    for words in ([], ["--no-overwrite"]):
        what = f"another file in the place of one that is whole {' '.join(words)}".strip()
        yield what, published_mistakes(program, words)
