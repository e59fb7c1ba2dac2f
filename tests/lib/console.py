"""A station with a console, and a client of the console."""
import contextlib
import http.client
import json
import os
import socket
import time

from lib.ports import free_port, is_answered
from lib.waiting import SECONDS, SLACK, waits_for

# For how many seconds a slow request stays.
PATIENCE = 10


def keep_token(folder, text, mode=0o600):
    """Writes a token into a file `token` in a folder, with this mode."""
    os.makedirs(folder, exist_ok=True)
    with open(f"{folder}/token", "w", encoding="ascii") as it:
        it.write(text)
    os.chmod(f"{folder}/token", mode)


class Console:
    """A station with a console, its port, and the token that a client shows where there is one."""

    def __init__(self, link, end, words, settings=None, token=None, **ways):
        self.port, self.token = free_port(), token
        words = [*words, "--console", f"127.0.0.1:{self.port}"]
        if token:
            keep_token(f"{link.folder}/{end}", token + "\n")
            words += ["--console-token", "token"]
        self.station = link.starts(end, words, settings, **ways)
        ended = lambda: self.station.process.poll() is not None
        waits_for(lambda: is_answered(self.port) or ended())

    def asks(self, method, path, headers=(), body=None):
        """The status of an answer, its fields and its body."""
        it = http.client.HTTPConnection("127.0.0.1", self.port, timeout=SECONDS)
        with contextlib.closing(it):
            it.request(method, path, body=body, headers=dict(headers))
            answer = it.getresponse()
            return answer.status, answer.headers, answer.read().decode()

    def gets(self, path):
        """An object that is shown."""
        status, _, body = self.asks("GET", path, self.shown())
        if status != 200:
            raise OSError(f"GET {path}: {status} {body}")
        return json.loads(body)

    def shown(self):
        """The field with the token that it wants, or that the page is told."""
        token = self.token or json.loads(self.asks("GET", "/token")[2])["token"]
        return {"Authorization": f"Bearer {token}"}

    def does(self, path, body=None):
        """Has it do something: the status of the answer, and the answer."""
        octets = None if body is None else json.dumps(body)
        status, _, text = self.asks("POST", path, self.shown(), octets)
        return status, json.loads(text)

    def says(self, octets, seconds=PATIENCE + 5 + SLACK):
        """What comes for these octets, until the connection is closed."""
        with socket.create_connection(("127.0.0.1", self.port), timeout=seconds) as it:
            with contextlib.suppress(ConnectionError):
                it.sendall(octets)
            return all_of(it)

    def awaits(self, path, is_so, seconds=SECONDS):
        """Asks for an object until this is so of it; what it is at last."""
        stop = time.monotonic() + seconds
        while True:
            found = self.gets(path)
            if is_so(found) or time.monotonic() > stop:
                return found
            time.sleep(0.05)


def all_of(it):
    """All octets that come over a socket until it is closed; None where it isn't."""
    octets = b""
    try:
        while True:
            more = it.recv(65536)
            if not more:
                return octets
            octets += more
    except ConnectionError:
        return octets
    except TimeoutError:
        return None
