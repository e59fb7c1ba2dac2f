"""Files of keys: which a station takes, and what it says of the others. No message has a key."""
import os
import subprocess
import tempfile

ONE, TWO, THREE = "5f" * 32, "9a" * 32, "77" * 32
SEND, RECEIVE, FORMER = f"17 send {ONE}\n", f"18 receive {TWO}\n", f"16 receive {THREE}\n"

GOOD = (
    SEND + RECEIVE,
    RECEIVE + FORMER + SEND,
    f"# keys\n\n\t 17\tsend  {ONE.upper()} # now\r\n{RECEIVE}#{FORMER}",
    f"1 send {ONE}\n65534 receive {TWO}",
)

WORDS = "expected an SPI, send or receive, and a key"
SPI = "the SPI must be 1 to 65534"
KEY = "the key must be 64 hexadecimal digits"
SAME = "another line has the same key: each direction needs a key of its own"

BAD = (
    ("", "no key to send with"),
    (RECEIVE, "no key to send with"),
    (SEND, "no key to receive with"),
    (SEND + "18 receive\n", f"line 2: {WORDS}"),
    (SEND + f"18 receive {TWO} {THREE}\n", f"line 2: {WORDS}"),
    (SEND + "\n#\n" + f"0 receive {TWO}\n", f"line 4: {SPI}"),
    (SEND + f"65535 receive {TWO}\n", f"line 2: {SPI}"),
    (SEND + f"65554 receive {TWO}\n", f"line 2: {SPI}"),
    (SEND + f"+18 receive {TWO}\n", f"line 2: {SPI}"),
    (SEND + f"18 receives {TWO}\n", "line 2: the direction must be send or receive"),
    (SEND + f"18 receive {TWO[2:]}\n", f"line 2: {KEY}"),
    (SEND + f"18 receive {TWO}00\n", f"line 2: {KEY}"),
    (SEND + f"18 receive {TWO[1:]}g\n", f"line 2: {KEY}"),
    (SEND + f"17 receive {TWO}\n", "line 2: another key has the SPI 17"),
    (SEND + f"18 receive {ONE}\n", f"line 2: {SAME}"),
    (SEND + RECEIVE + f"16 receive {TWO.upper()}\n", f"line 3: {SAME}"),
    (SEND + RECEIVE + f"19 send {THREE}\n", "line 3: a second key to send with"),
    (SEND + RECEIVE + FORMER + f"15 receive {'11' * 32}\n", "line 4: a third key to receive with"),
    (SEND + RECEIVE + "#" * 4096, "has more than 4096 octets"),
)


def started(program, folder):
    """What a station says that is started with the file `keys` of a folder, and its status."""
    words = [program.path, "station", "--id", "1", "--peer", "2", "--listen", "127.0.0.1:0"]
    words += ["--to", "127.0.0.1:9", "--inbox", "to", "--idle", "1", "--keys", "keys"]
    ran = subprocess.run(words, cwd=folder, capture_output=True, text=True, timeout=60)
    return ran.returncode, ran.stderr


def kept(folder, octets, mode=0o600):
    with open(f"{folder}/keys", "wb") as it:
        it.write(octets)
    os.chmod(f"{folder}/keys", mode)


def refused_mistakes(program, folder, why, status):
    found, told = started(program, folder)
    if (found, told) != (status, f"error: keys: {why}\n"):
        yield f"{why!r} is to be told, with status {status}: {told!r}, {found}"


def text_mistakes(program, folder):
    """What is wrong where files of keys are read."""
    for text in GOOD:
        kept(folder, text.encode())
        found, told = started(program, folder)
        if found or "error" in told:
            yield f"{text!r}: {told!r}, status {found}"
    for text, why in BAD:
        kept(folder, text.encode())
        yield from refused_mistakes(program, folder, why, 2)


def file_mistakes(program, folder):
    """What is wrong where it isn't a file that its owner alone may read."""
    good = (SEND + RECEIVE).encode()
    for mode in (0o640, 0o604, 0o620, 0o601):
        kept(folder, good, mode)
        why = f"other users have access to it (mode {mode:04o}): run chmod 600 on it"
        yield from refused_mistakes(program, folder, why, 2)
    kept(folder, good + b"\xff")
    yield from refused_mistakes(program, folder, "not valid UTF-8", 3)
    for made, why in (
        (lambda at: None, "no such file or folder"),
        (os.mkfifo, "not a plain file"),
        (os.mkdir, "is a folder"),
        (lambda at: os.symlink("/dev/zero", at), "not a plain file"),
    ):
        os.path.lexists(f"{folder}/keys") and os.remove(f"{folder}/keys")
        made(f"{folder}/keys")
        yield from refused_mistakes(program, folder, why, 3)
        if os.path.isdir(f"{folder}/keys"):
            os.rmdir(f"{folder}/keys")


def in_folder(program, part):
    """What is wrong in a part, which is tried in a folder of its own."""
    with tempfile.TemporaryDirectory(dir=program.room) as folder:
        os.mkdir(f"{folder}/to")
        yield from part(program, folder)


def all_mistakes(program):
    """A title for each part, and what is wrong there."""
    for title, part in (("texts", text_mistakes), ("files", file_mistakes)):
        yield f"files of keys: {title}", in_folder(program, part)
