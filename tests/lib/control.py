"""Commands to a station that runs: a client of its control address, and `ask`."""
import re
import socket
import subprocess

from lib.ports import ALONE, free_port, is_answered
from lib.waiting import SECONDS, waits_for


class Client:
    """A connection to a control address; with little room for what comes if it `is_deaf`."""

    def __init__(self, port, is_deaf=False):
        self.socket, self.rest = socket.socket(), b""
        if is_deaf:
            self.socket.setsockopt(socket.SOL_SOCKET, socket.SO_RCVBUF, 4096)
        self.socket.settimeout(SECONDS)
        self.socket.connect(("127.0.0.1", port))

    def __enter__(self):
        return self

    def __exit__(self, *_):
        self.socket.close()

    def says(self, octets):
        self.socket.sendall(octets)

    def babbles(self, seconds):
        """Asks for help, and reads no answer, until for so long it can't any more."""
        self.socket.settimeout(seconds)
        try:
            while True:
                self.socket.sendall(b"help\n" * 2000)
        except TimeoutError:
            pass

    def breaks_off(self):
        """Resets the connection."""
        self.socket.setsockopt(socket.SOL_SOCKET, socket.SO_LINGER, b"\x01" + bytes(7))
        self.socket.close()

    def hears(self):
        """The next answer, without the empty line at its end; None where none comes."""
        while b"\n\n" not in self.rest:
            try:
                octets = self.socket.recv(65536)
            except (ConnectionError, TimeoutError):
                return None
            if not octets:
                return None
            self.rest += octets
        answer, self.rest = self.rest.split(b"\n\n", 1)
        return answer.decode() + "\n"

    def asks(self, line):
        self.says(line.encode() + b"\n")
        return self.hears()

    def is_left(self):
        """Whether the station has ended the connection, with nothing more said."""
        try:
            return self.socket.recv(1) == b""
        except ConnectionError:
            return True
        except TimeoutError:
            return False


def controlled(link, end, words, settings=None, **ways):
    """A station that takes commands at an address, and the port of that."""
    port = free_port()
    it = link.starts(end, [*words, "--control", f"127.0.0.1:{port}"], settings, **ways)
    waits_for(lambda: is_answered(port) or it.process.poll() is not None)
    return it, port


def asked(program, port, *words):
    """What `ask` answers: its status, and both outputs."""
    whole = [program.path, "ask", f"127.0.0.1:{port}", *words]
    with ALONE:
        it = subprocess.Popen(whole, stdout=subprocess.PIPE, stderr=subprocess.PIPE)
    out, err = it.communicate(timeout=SECONDS)
    return it.returncode, out.decode(), err.decode()


def fits(answer, begins):
    """Whether an answer begins so, is done ("ok|"), or isn't there (None)."""
    if answer is None or begins is None:
        return answer is begins
    return answer.endswith("ok\n") if begins == "ok|" else answer.startswith(begins)


def counted(text):
    """The counters of an answer, by their names."""
    return {name: int(count) for name, count in re.findall(r"(?m)^([a-z_]+) (\d+)$", text)}
