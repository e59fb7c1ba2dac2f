"""The built program: how a run of it is started in a folder of its own, and what it leaves."""
import contextlib
import os
import re
import stat
import subprocess
import tempfile
import threading

from lib.paths import C, PROGRAM

# For how many seconds a run may last.
LONGEST = 600


def unescaped(text):
    r"""A line of input in which \r, \t, \\, \xNN and \(N TEXT), TEXT N times, stand for octets."""

    def meant(found):
        if found[1]:
            return found[2] * int(found[1])
        if found[3]:
            return chr(int(found[3], 16))
        return {"r": "\r", "t": "\t", "\\": "\\"}[found[4]]

    return re.sub(r"\\(?:\((\d+) ([^)]*)\)|x([0-9a-f]{2})|([rt\\]))", meant, text)


def make(folder, line):
    """Makes what lies in a folder before the program runs, as a row says it."""
    path, _, text = line.partition(" ")
    path = f"{folder}/{path}"
    if path.endswith("/"):
        os.makedirs(path, exist_ok=True)
    elif text.startswith("-> "):
        os.symlink(text[3:], path)
    elif text == "<>":
        os.mkfifo(path)
    else:
        with open(path, "wb") as it:
            it.write(unescaped(text).encode("latin-1"))


def files_in(folder):
    """The octets of each file below a folder, by its path. Links and pipes are not looked at."""
    found = {}
    for top, _, names in os.walk(folder):
        for path in (f"{top}/{name}" for name in names):
            if stat.S_ISREG(os.lstat(path).st_mode):
                with open(path, "rb") as it:
                    found[os.path.relpath(path, folder)] = it.read()
    return found


class Program:
    """The program to be run, and the library of faults where rows ask for one."""

    def __init__(self, path, room):
        self.path, self.room, self.library = path, room, f"{room}/faults.so"
        self.lock = threading.Lock()

    def faulty(self, faults):
        with self.lock:
            if not os.path.exists(self.library):
                words = [os.environ.get("CC", "cc"), "-shared", "-fPIC", "-O1", "-Wall", "-Werror"]
                subprocess.run([*words, "-o", self.library, f"{C}/faults.c", "-ldl"], check=True)
        return {"LD_PRELOAD": self.library, "FAULTS": faults}

    def run(self, words, given, faults="", there=(), before=()):
        """Runs it in a folder that holds these files and this before; gives its status, both
        outputs and the files that it made or changed, with None for those that it removed."""
        with tempfile.TemporaryDirectory(dir=self.room) as folder:
            for name in there:
                with open(f"{folder}/{name}", "wb") as it:
                    it.write(there[name])
                if name.endswith(".keys"):
                    os.chmod(f"{folder}/{name}", 0o600)
            for line in before:
                make(folder, line)
            were = files_in(folder)
            how = {"cwd": folder, "capture_output": True, "timeout": LONGEST}
            how["env"] = {"PATH": "/usr/bin:/bin", **(self.faulty(faults) if faults else {})}
            ran = subprocess.run([self.path, *words], input=given.encode(), **how)
            now = files_in(folder)
            left = {it: now.get(it) for it in {**were, **now} if were.get(it) != now.get(it)}
        text = lambda octets: octets.decode("utf-8", errors="backslashreplace")
        return ran.returncode, text(ran.stdout), text(ran.stderr), left


@contextlib.contextmanager
def program_of(words):
    """The program that a command line's first word names, or that `rt ci` leaves, in a block."""
    with tempfile.TemporaryDirectory() as room:
        yield Program(os.path.abspath(words[0] if words else PROGRAM), room)
