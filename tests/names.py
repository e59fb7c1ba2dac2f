"""Names of files at stations with `--names any`: spaces, quotes, UTF-8, 255 octets, and what is
refused."""
import json
import os

from lib.console import Console
from lib.control import asked, controlled
from lib.links import Link
from lib.processes import unheard
from lib.spools import INBOX, Spool
from lib.waiting import waits_for

# Words by which a station has files of any names, and of one that sends what lies in its spool.
ANY, SPOOL = ["--names", "any"], ["--spool", "from", "--json", "--rate", "4000"]

# Names that the default refuses.
NAMES = ("a b", " ", "it's \"it\"", "100%", "%41", "größe.dat", "日本", "$(x) `y` ; z", "back\\slash",
         "<b>&amp;", "p" * 65, "n" * 255, "é" * 127 + "x", "trailing ", "~", "*?", "a:b")

# Names that both take.
PLAIN = ("plain.txt", "-x", "--first")

# Words of a put whose names no rule allows, as they are printed.
REFUSED = (".a", "a%2Fb", "a%0Ab", "%1B%5B2J", "%7F", "%00", "%FF", "%C3", "n" * 256, "..")


def printed(name):
    """A name as it is printed."""
    octets = name.encode()
    return "".join(chr(it) if 33 <= it <= 126 and it != 37 else f"%{it:02X}" for it in octets)


def lies(folder, name, octets):
    """Writes a file beside a folder, and moves it into that when it is whole."""
    os.makedirs(folder, exist_ok=True)
    with open(f"{folder}.new", "wb") as it:
        it.write(octets)
    os.rename(f"{folder}.new", f"{folder}/{name}")


def outcomes(log):
    """What became of files of a spool, by their names as a log of objects has them."""
    events = [json.loads(line) for line in log.splitlines()]
    return {it["name"]: it["outcome"] for it in events if it["event"] == "file"}


def spooled_mistakes(program):
    """What is wrong where a spool has such names: each file comes under its own, and is moved; the
    log has its name as it is printed."""
    with Link(program) as link:
        spool = Spool(link)
        files = {name: name.encode() + b"!" for name in NAMES + PLAIN}
        for name, octets in files.items():
            lies(spool.folder, name, octets)
        receiver = link.starts(2, [*INBOX, *ANY, "--idle", "20"])
        status, out, err = link.starts(1, [*SPOOL, *ANY, "--idle", "3"]).ended()
        if status or unheard(err):
            yield f"the sender: status {status}, {err!r}"
        if spool.came() != files:
            yield f"there came {sorted(spool.came())}"
        if spool.in_folder(".sent") != files:
            yield f"there is in .sent {sorted(spool.in_folder('.sent'))}"
        if outcomes(out) != {printed(name): "sent" for name in files}:
            yield f"the log has {outcomes(out)}"
        if receiver.ended()[0]:
            yield f"the receiver: {receiver.text('stderr')!r}"


def refusing_mistakes(program):
    """What is wrong where the receiver has the default names: such a file fails at both ends, and
    the receiver says why."""
    with Link(program) as link:
        spool = Spool(link)
        lies(spool.folder, "a b", b"hello")
        receiver = link.starts(2, INBOX)
        sender = link.starts(1, [*SPOOL, *ANY, "--retries", "0"])
        if not waits_for(lambda: spool.in_folder(".failed") == {"a b": b"hello"}):
            yield f"the sender: {sender.text('stdout')!r}"
        told = "error: to/a%20b: a file cannot have that name here (transaction 1:"
        if not waits_for(lambda: told in receiver.text("stderr")) or spool.came():
            yield f"the receiver: {receiver.text('stderr')!r}, {spool.came()}"
        if not waits_for(lambda: '"event":"file"' in sender.text("stdout")):
            yield f"the log: {sender.text('stdout')!r}"
        if outcomes(sender.text("stdout")) != {"a%20b": "failed"}:
            yield f"the log: {sender.text('stdout')!r}"


def default_mistakes(program):
    """What is wrong where a spool with the default names has such a file: it is noted once."""
    with Link(program) as link:
        spool = Spool(link)
        lies(spool.folder, "a b", b"hello")
        sender = link.starts(1, SPOOL)
        told = "from/a%20b: not sent: a name must be 1 to 64 of A-Z a-z 0-9 . _ -\n"
        if not waits_for(lambda: told in sender.text("stderr")):
            yield f"the default: {sender.text('stderr')!r}"
        sender.killed()
        lies(spool.folder, "a\nb", b"hello")
        sender = link.starts(1, [*SPOOL, *ANY])
        told = ("from/a%0Ab: not sent: a name must be 1 to 255 octets of UTF-8 without / and "
                "control characters\n")
        if not waits_for(lambda: told in sender.text("stderr")):
            yield f"any names: {sender.text('stderr')!r}"


def command_mistakes(program):
    """What is wrong with commands: they have names as they are printed, and so has a list."""
    with Link(program) as link:
        outbox = f"{link.folder}/1/from"
        for name in ("a b", "100%", "größe.dat", "--first"):
            lies(outbox, name, bytes(5000))
        receiver = link.starts(2, [*INBOX, *ANY])
        _, port = controlled(link, 1, ["--outbox", "from", *ANY, "--rate", "100"])
        inbox = f"{link.folder}/2/to"
        asked(program, port, "freeze")
        puts = ("a%20b", "c%20%25d"), ("100%", "e"), ("größe.dat", "f"), ("%2D-first", "g")
        for source, destination in puts:
            status, out, _ = asked(program, port, "put", source, destination)
            if status:
                yield f"put {source}: {status} {out!r}"
        listed = asked(program, port, "list")[1]
        if not waits_for(lambda: " sending a%20b c%20%25d " in asked(program, port, "list")[1]):
            yield f"list: {listed!r}"
        asked(program, port, "thaw")
        wanted = {"c %d", "e", "f", "g"}
        if not waits_for(lambda: set(os.listdir(inbox)) == wanted):
            yield f"there came {os.listdir(inbox)}: {receiver.text('stderr')!r}"
        for word in REFUSED:
            status, out, _ = asked(program, port, "put", word, "x")
            why = "error: a file name must be 1 to 255 octets of UTF-8 without / and control "
            if status != 1 or not out.startswith(why):
                yield f"put {word}: {status} {out!r}"
        status, out, _ = asked(program, port, "put", "a%20b", "d" * 256)
        if status != 1 or "at most 255 octets (got 256)" not in out:
            yield f"a long name at the peer: {status} {out!r}"


def peer_mistakes(program):
    """What is wrong where a peer gives a file a name that no rule allows: it isn't published, and
    the receiver says why."""
    with Link(program) as link:
        lies(f"{link.folder}/1/from", "a", b"hello")
        receiver = link.starts(2, [*INBOX, *ANY])
        _, port = controlled(link, 1, ["--outbox", "from", *ANY])
        for word in (".part-1-1", "..", "a%2Fb", "..%2Fa", "%0A", "%7F", "%FF"):
            asked(program, port, "put", "a", word)
            shown = word.replace("%2F", "/")
            told = f"error: to/{shown}: a file cannot have that name here (transaction 1:"
            if not waits_for(lambda told=told: told in receiver.text("stderr")):
                yield f"{word}: {receiver.text('stderr')!r}"
        inbox = f"{link.folder}/2/to"
        if not waits_for(lambda: not os.listdir(inbox)):
            yield f"there came {os.listdir(inbox)}"


def plain_mistakes(program):
    """What is wrong with commands of a station with the default names: a `%` stands for itself."""
    with Link(program) as link:
        lies(f"{link.folder}/1/from", "a", b"hello")
        link.starts(2, [*INBOX, *ANY])
        _, port = controlled(link, 1, ["--outbox", "from"])
        if asked(program, port, "put", "a", "%41")[0]:
            yield "put a %41"
        inbox = f"{link.folder}/2/to"
        if not waits_for(lambda: os.listdir(inbox) == ["%41"]):
            yield f"there came {os.listdir(inbox)}"


def settings_mistakes(program):
    """What is wrong where a settings file has the rule and the names, and the command line too."""
    with Link(program) as link:
        for name in ("a b", "c d"):
            lies(f"{link.folder}/1/from", name, name.encode())
        with open(f"{link.folder}/1/station.toml", "w", encoding="utf-8") as it:
            it.write('names = "any"\nput = [["a b", "größe \\"1\\""]]\n')
        link.starts(2, [*INBOX, *ANY])
        words = ["--config", "station.toml", "--outbox", "from", "--put", "c d", "%20"]
        status, _, err = link.starts(1, [*words, "--idle", "3"]).ended()
        inbox = f"{link.folder}/2/to"
        if status or set(os.listdir(inbox)) != {"größe \"1\"", "%20"}:
            yield f"status {status}, {err!r}, {os.listdir(inbox)}"


def console_mistakes(program):
    """What is wrong with the console: it lists names as they are printed, and puts them so."""
    with Link(program) as link:
        for name in ("a b", "<b>", ".hidden", "a\nb", "größe"):
            lies(f"{link.folder}/1/from", name, b"hello")
        link.starts(2, [*INBOX, *ANY])
        it = Console(link, 1, ["--outbox", "from", "--json", *ANY])
        files = it.gets("/files")["files"]
        if files != sorted(printed(name) for name in ("a b", "<b>", "größe")):
            yield f"the files: {files}"
        for name in files:
            if (found := it.does("/puts", {"source": name}))[0] >= 300:
                yield f"put {name}: {found}"
        inbox = f"{link.folder}/2/to"
        if not waits_for(lambda: set(os.listdir(inbox)) == {"a b", "<b>", "größe"}):
            yield f"there came {os.listdir(inbox)}"
        for line in it.gets("/log")["lines"]:
            json.loads(line["text"])


def all_mistakes(program):
    """What is tried, with what is wrong in it."""
    yield "names: a spool of any names", spooled_mistakes(program)
    yield "names: a receiver with the default", refusing_mistakes(program)
    yield "names: a spool with the default", default_mistakes(program)
    yield "names: commands", command_mistakes(program)
    yield "names: a peer that gives no good names", peer_mistakes(program)
    yield "names: commands with the default", plain_mistakes(program)
    yield "names: a settings file", settings_mistakes(program)
    yield "names: the console", console_mistakes(program)
