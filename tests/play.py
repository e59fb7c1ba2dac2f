#!/usr/bin/env python3
"""The page of `cfdp_node play`: what its server answers, and what the page shows and does.

    tests/play.py [PROGRAM]    all of it, by this program or by that of `rt ci`

The page is tried in a browser, Debian's chromium; where there is none that is said, and not tried.
"""
import base64
import contextlib
import glob
import hashlib
import http.client
import json
import os
import re
import socket
import struct
import subprocess
import sys
import time
import urllib.parse

from lib.browser import FAINT, NAMED, Browser, path_of_browser
from lib.counting import print_all
from lib.paths import TESTS, TOP
from lib.program import program_of
from lib.rows import is_told, rows_of
from lib.scripts import is_of_any_order
from lib.waiting import SLACK

# For how many seconds an answer is waited for, and something that the page is to show.
PATIENCE, SOON = 600, 60

# From where clients connect: so their ports, of which there are hundreds, are none of those that
# other tests need.
OTHER = ("127.0.0.9", 0)

# The most connections, and the most octets of a request's body.
MOST_OPEN, MOST_BODY = 16, 65536

# After so many seconds one is left that asks for nothing whole; the most memory, in kB.
LEFT_AFTER, MOST_MEMORY = 10, 65536

# The width and the height of a desk's window, of a telephone's, and of a narrow one.
DESK, TELEPHONE, NARROW = (1280, 1000), (390, 844), (320, 640)

PUT = "file 1 a.txt hello\nput 1 a.txt b.txt\n"


class Served:
    """The program as it serves its page, and its port."""

    def __init__(self, program):
        call = [program.path, "play", "--listen", "127.0.0.1:0"]
        self.process = subprocess.Popen(call, stdin=subprocess.DEVNULL, stdout=subprocess.PIPE,
                                        stderr=subprocess.PIPE)
        self.told = self.process.stdout.readline().decode()
        self.own = self.told.strip().removesuffix("/")
        self.port = int(self.own.rpartition(":")[2])

    def __enter__(self):
        return self

    def __exit__(self, *_):
        self.process.kill()
        self.process.communicate()

    def asks(self, method, path, headers=None, body=None):
        """The status of an answer, its fields and its body."""
        it = http.client.HTTPConnection("127.0.0.1", self.port, PATIENCE, OTHER)
        with contextlib.closing(it):
            it.request(method, path, body=body, headers=headers or {})
            answer = it.getresponse()
            return answer.status, answer.headers, answer.read().decode()

    def posts(self, path, text):
        """What is answered to what the page posts."""
        return self.asks("POST", path, {"Origin": self.own}, text.encode("latin-1"))

    def runs(self, script):
        """The run of a script; None where it asks for too much to be run here."""
        status, _, text = self.posts("/run", script)
        if status == 413:
            return None
        if status != 200:
            raise OSError(f"/run: {status} {text}")
        return json.loads(text)


def simulated(program, script, *words):
    """What `sim` writes for a script: its status and both outputs."""
    ran = subprocess.run([program.path, "sim", *words], input=script.encode("latin-1"),
                         capture_output=True, timeout=PATIENCE, check=False)
    return ran.returncode, ran.stdout.decode(), ran.stderr.decode()


def scripts():
    """The scripts of the rows that have no files, no faults and no lack of memory, which the page
    says in other words, and those of the examples."""
    for path in sorted(glob.glob(f"{TESTS}/rows/*.rows")):
        for row in rows_of(path):
            is_plain = not (row.faults or row.files or row.there or row.before or row.is_swept)
            is_plain = is_plain and row.status != 3
            if is_plain and row.words == ["sim"] and is_shown("".join(row.given)):
                yield row.place, "".join(row.given), row
    for path in sorted(glob.glob(f"{TOP}/examples/*.script")):
        with open(path, encoding="ascii") as it:
            script = it.read()
        if is_shown(script):
            yield os.path.basename(path), script, None


def is_shown(script):
    """Whether the page's world has all that a script asks for."""
    return not is_of_any_order(script)


def same_mistakes(program):
    """What is wrong where the page's run of a script isn't that of `sim`: the report, the status
    and the mistake of each row, and the trace, octet for octet."""
    count, refused = 0, 0
    with Served(program) as it:
        for place, script, row in scripts():
            if len(script.encode("latin-1")) > MOST_BODY:
                continue
            found = it.runs(script)
            if found is None:
                refused += 1
                continue
            count += 1
            status, out, err = simulated(program, script)
            if (found["report"], found["status"]) != (out, status):
                yield f"{place}: {found['status']} {found['report'][:300]} and not {out[:300]}"
            # The page says why a line is bad, as `sim --explain` does in a line of its own.
            if status == 2:
                err = simulated(program, script, "--explain")[2].replace("\nhelp: ", ": ")
            if (found["error"] or "") != err.rstrip("\n"):
                yield f"{place}: it tells {found['error']}, and not {err}"
            if row and not is_told(row.out, found["report"]):
                yield f"{place}: {found['report'][:300]}"
            trace = simulated(program, script, "--trace")[2]
            seen = found["seen"]
            if seen and not seen["cut"] and seen["trace"] != trace:
                yield f"{place}: its trace is another"
            if seen and len(seen["octets"]) != seen["trace"].count("\n"):
                yield f"{place}: {len(seen['octets'])} octets"
    if count < 100 or refused > 20:
        yield f"{count} scripts ran, {refused} were refused"


def bound_mistakes(program):
    """What is wrong where a script asks for too much, or for much."""
    with Served(program) as it:
        for words, script in (("2000 lines", "# \n" * 2001),
                              ("262144 octets", "fill 1 a 262145 00\n"),
                              ("64 puts", "file 1 a x\n" + "put 1 a b\n" * 65),
                              ("1048576", "fill 1 a 20000 00\n" + "put 1 a b\n" * 60)):
            status, _, told = it.posts("/run", script)
            if status != 413 or words not in told or told.count("\n"):
                yield f"{words}: {status} {told[:300]}"
        for settings in ("", "set segment 1\nset zone 16\n", "set zone 16\nset id_width 8\n"):
            begun = time.monotonic()
            script = settings + "fill 1 a 16384 41\n" + "put 1 a b\n" * 64 + "recover\n"
            found = it.runs(script)
            if time.monotonic() - begun > 120 * SLACK:
                yield f"{settings}: it took {time.monotonic() - begun:.0f} s"
            if found["report"] != simulated(program, script)[1]:
                yield f"{settings}: {found['report'][-300:]}"
        for length in (MOST_BODY + 1, 2_000_000):
            status, _, _ = it.posts("/run", "#" * length)
            if status != 413:
                yield f"a script of {length} octets is answered {status}"
        longest = "#" * MOST_BODY
        if it.runs(longest)["status"] != simulated(program, longest)[0]:
            yield "the longest script isn't run as by sim"


def asked_mistakes(program):
    """What is wrong with who may ask for what."""
    own = {"Origin": None}
    with Served(program) as it:
        if not re.fullmatch(r"http://127\.0\.0\.1:[1-9]\d*/\n", it.told):
            yield f"it tells {it.told}"
        own = {"Origin": it.own}
        there = f"127.0.0.1:{it.port}"
        for wanted, method, path, headers in (
                (200, "GET", "/", {}), (200, "HEAD", "/", {}), (200, "POST", "/run", own),
                (200, "GET", "/", {"Host": f"localhost:{it.port}"}),
                (400, "POST", "/fields", own), (403, "POST", "/run", {}),
                (403, "POST", "/run", {"Origin": "http://elsewhere.example"}),
                (403, "POST", "/run", {"Origin": "null"}),
                (403, "POST", "/run", {"Host": "elsewhere.example", "Origin": it.own}),
                (403, "GET", "/", {"Host": "elsewhere.example"}),
                (403, "GET", "/", {"Host": there, "Origin": "https://" + there}),
                (405, "GET", "/run", {}), (404, "POST", "/other", own), (404, "GET", "/x", {}),
                (405, "POST", "/", own), (405, "PUT", "/", own)):
            status = it.asks(method, path, headers, b"" if method == "POST" else None)[0]
            if status != wanted:
                yield f"{method} {path} {headers}: {status}, and not {wanted}"
        yield from head_mistakes(it)
        yield from crowd_mistakes(it)


def head_mistakes(it):
    """What is wrong with the head of the page, and with what it lets run."""
    _, fields, page = it.asks("GET", "/")
    policy = fields["Content-Security-Policy"]
    for tag in ("style", "script"):
        text = re.search(f"<{tag}>(.*?)</{tag}>", page, re.S)[1]
        sum_of = base64.b64encode(hashlib.sha256(text.encode()).digest()).decode()
        if f"{tag}-src 'sha256-{sum_of}'" not in policy:
            yield f"the {tag} of the page has the checksum sha256-{sum_of}, and {policy} another"
    if "default-src 'none'" not in policy or "frame-ancestors 'none'" not in policy:
        yield f"the policy is {policy}"
    for name, value in (("Cache-Control", "no-store"), ("X-Content-Type-Options", "nosniff")):
        if fields[name] != value:
            yield f"{name}: {fields[name]}"
    if re.search(r"innerHTML|outerHTML|insertAdjacentHTML|document\.write|eval\(", page):
        yield "the page makes markup of texts"
    for path in glob.glob(f"{TOP}/examples/*.script"):
        with open(path, encoding="ascii") as it:
            script = it.read()
        if is_shown(script) and script.replace("`", "\\`") not in page:
            yield f"the page hasn't {os.path.basename(path)} as it is"


def crowd_mistakes(it):
    """What is wrong where more connections come than it takes: one goes, and the next is served."""
    held = [socket.create_connection(("127.0.0.1", it.port), None, OTHER)
            for _ in range(MOST_OPEN)]
    time.sleep(0.5)
    with socket.create_connection(("127.0.0.1", it.port), 1, OTHER) as late:
        late.sendall(f"GET / HTTP/1.1\r\nHost: {it.own[7:]}\r\n\r\n".encode())
        with contextlib.suppress(TimeoutError):
            yield f"one more than {MOST_OPEN} is answered {late.recv(20)}"
        held.pop().close()
        late.settimeout(PATIENCE)
        if not late.recv(20).startswith(b"HTTP/1.1 200"):
            yield "nobody is served where there is room again"
    for one in held:
        one.close()


def slow_mistakes(program):
    """What is wrong where all connections are taken by such as ask for nothing, ask for half of
    something, or go on asking slowly: these are left, and the next one is served."""
    with Served(program) as it:
        held = [socket.create_connection(("127.0.0.1", it.port), None, OTHER)
            for _ in range(MOST_OPEN)]
        for one in held[4:]:
            one.sendall(b"POST /run HTTP/1.1\r\nHost: 127.0.0.1\r\nContent-Length: 60000\r\n\r\n")
        begun = time.monotonic()
        with socket.create_connection(("127.0.0.1", it.port), 0.4, OTHER) as late:
            late.sendall(f"GET / HTTP/1.1\r\nHost: {it.own[7:]}\r\n\r\n".encode())
            found = b""
            while not found and time.monotonic() < begun + 3 * LEFT_AFTER + SLACK:
                for one in held[8:]:
                    with contextlib.suppress(OSError):
                        one.sendall(b"#")
                with contextlib.suppress(TimeoutError):
                    found = late.recv(20)
        took = time.monotonic() - begun
        if not found.startswith(b"HTTP/1.1 200") or took > LEFT_AFTER + 10 + SLACK:
            yield f"after {took:.0f} s one is answered {found}"
        for one in held:
            one.close()
        yield from gone_mistakes(it)


def gone_mistakes(it):
    """What is wrong where many come and go, without a word, with half a request, with one whose
    answer they don't wait for, or with what is no request."""
    head = f"POST /run HTTP/1.1\r\nHost: {it.own[7:]}\r\nOrigin: {it.own}\r\n"
    long = "fill 1 a 16384 41\n" + "put 1 a b\n" * 4 + "settle\n"
    whole = f"{head}Content-Length: {len(long)}\r\n\r\n{long}".encode()
    words = (b"", whole[:40], b"\0" * 9000, b"GET / HTTP/9\r\n\r\n", whole)
    stop, count = time.monotonic() + 3, 0
    while time.monotonic() < stop:
        with contextlib.suppress(OSError):
            with socket.create_connection(("127.0.0.1", it.port), 1, OTHER) as one:
                one.setsockopt(socket.SOL_SOCKET, socket.SO_LINGER, struct.pack("ii", 1, 0))
                one.sendall(words[count % len(words)])
        count += 1
    begun = time.monotonic()
    if it.asks("GET", "/")[0] != 200 or time.monotonic() - begun > 20 + SLACK:
        yield f"behind {count} that went away one waits {time.monotonic() - begun:.0f} s"
    with open(f"/proc/{it.process.pid}/status", encoding="ascii") as status:
        most = int(re.search(r"VmHWM:\s+(\d+) kB", status.read())[1])
    if most > MOST_MEMORY:
        yield f"it had {most} kB of memory behind {count} that went away"


def address_mistakes(program):
    """What is wrong with addresses that can't be had."""
    with socket.socket() as taken:
        taken.bind(("127.0.0.1", 0))
        taken.listen()
        port = taken.getsockname()[1]
        for address, status, words in ((f"0.0.0.0:{port}", 2, "this machine alone"),
                                       (f"[::]:{port}", 2, "this machine alone"),
                                       (f"127.0.0.1:{port}", 3, "in use"),
                                       ("127.0.0.1", 3, "HOST:PORT"),
                                       ("127.0.0.1:99999", 3, "HOST:PORT")):
            ran = subprocess.run([program.path, "play", "--listen", address], check=False,
                                 capture_output=True, timeout=PATIENCE)
            told = ran.stderr.decode()
            if ran.returncode != status or words not in told or told.count("\n") != 1:
                yield f"{address}: {ran.returncode} {told}"


def field_mistakes(program):
    """What is wrong with the fields of frames and PDUs: they are those of `dump --fields`."""
    settings = "set insert_zone 4\nset control_field 1\nset error_control 1\nset zone 100\n"
    with Served(program) as it:
        for script, kind in (("", "frames 256 0 0 0"), (settings, "frames 100 4 1 1")):
            seen = it.runs(script + PUT + "burst 1\nsettle\n")["seen"]
            lines = seen["trace"].split("\n")
            frames, pdus = r" (dir|data) frame ", r" (sends|hears) \w+ 1:1"
            for asked, of_kind in ((kind, frames), ("pdus", pdus)):
                octets = [hexed for hexed, line in zip(seen["octets"], lines)
                          if re.search(of_kind, line)]
                given = "".join(f"{one}\n" for one in octets)
                words = ["dump", asked.split()[0], "--fields"]
                if script and asked == kind:
                    words += ["--zone", "100", "--insert-zone", "4", "--control-field",
                              "--error-control"]
                wanted = subprocess.run([program.path, *words], input=given.encode(),
                                        capture_output=True, timeout=PATIENCE, check=False)
                status, _, told = it.posts("/fields", f"{asked}\n{given}")
                if status != 200 or told != wanted.stdout.decode() or not octets:
                    yield f"{asked}: {status} {told[:300]}"
        for asked in ("", "pdus x", "frames", "frames 15 0 0 0", "frames 256 65 0 0",
                      "frames 256 0 2 0", "frames 256 0 0", "frames 99999999999999999999 0 0 0"):
            if it.posts("/fields", asked + "\n00\n")[0] != 400:
                yield f"'{asked}' isn't refused"


# ---- the page

TEXT_OF = "document.getElementById('{}').textContent"
SCRIPT = "document.getElementById('text').value"
FRAMES = "document.querySelectorAll('.frame').length"


@contextlib.contextmanager
def opened(program, script=None):
    """The page in a browser, with this script in its address."""
    with Served(program) as it, Browser() as page:
        page.has_size(*DESK)
        part = "" if script is None else "#" + urllib.parse.quote(script)
        page.shows(f"{it.own}/{part}")
        page.awaits(f"{TEXT_OF.format('ran')}.includes('have run')", SOON)
        yield it, page


def status_is(page, text):
    """Whether the page tells this status soon."""
    return page.awaits(f"{TEXT_OF.format('status')} === {json.dumps(text)}", SOON)


def shown_is_simulated(program, page):
    """What is wrong where the report that is shown isn't what `sim` writes for the script."""
    status, out, _ = simulated(program, page.finds(SCRIPT))
    shown = page.finds(TEXT_OF.format("report"))
    if shown != f"{out}exit status {status}":
        yield f"the page shows {shown}, and sim writes {out}"


def transfer_mistakes(program):
    """What is wrong where a file is put, a frame of it lost, and the file recovered."""
    with opened(program) as (it, page):
        page.clicks("document.querySelector('#station-1 form button')")
        if not page.awaits(f"{FRAMES} === 3", SOON):
            yield f"a put: {page.finds(FRAMES)} frames wait"
        page.clicks("document.querySelector('.frame.data')")
        if not page.awaits(f"{TEXT_OF.format('opened-body')}.includes('AOS')", SOON):
            yield f"its fields: {page.finds(TEXT_OF.format('opened-body'))}"
        page.clicks("[...document.querySelectorAll('#opened button')]"
                    ".find((it) => it.textContent === 'Lose')")
        if not page.awaits(f"{TEXT_OF.format('chart')}.includes('lost: data 1:1 0 5')", SOON):
            yield f"a lost frame: {page.finds(TEXT_OF.format('chart'))}"
        page.clicks("document.getElementById('recover')")
        if not status_is(page, "complete 1 of 1"):
            yield f"recovered: {page.finds(TEXT_OF.format('status'))}"
        page.awaits(f"{TEXT_OF.format('chart')}.includes('ack 1:1 5')", SOON)
        rows = page.finds("[...document.querySelectorAll('#open tr')].map((it) => it.textContent)")
        if not any("received 5 of 5" in it for it in rows) or any("0 of 5" in it for it in rows):
            yield f"a receiver that has the whole file: {rows}"
        wanted = "file 1 a.txt hello\nput 1 a.txt a.txt\nspread 1\nstrike 1 data\nrecover\n"
        if page.finds(SCRIPT) != wanted:
            yield f"the script is {page.finds(SCRIPT)}"
        yield from shown_is_simulated(program, page)
        address = page.finds("decodeURIComponent(location.hash.slice(1))")
        if address != wanted:
            yield f"the address carries {address}"
        if "a.txt" not in page.finds(TEXT_OF.format("in-2")):
            yield f"station 2 received {page.finds(TEXT_OF.format('in-2'))}"
        yield from back_mistakes(program, page)
        yield from loaded_mistakes(it, page)


def back_mistakes(program, page):
    """What is wrong with steps back and forward of that transfer."""
    for count in (4, 3, 2):
        page.clicks("document.getElementById('back')")
        if not page.awaits(f"{TEXT_OF.format('ran')} === '{count} of 5 lines run'", SOON):
            yield f"back: {page.finds(TEXT_OF.format('ran'))}"
    if page.finds(FRAMES) != 0:
        yield f"{page.finds(FRAMES)} frames wait behind a put"
    for count in (3, 4, 5):
        page.clicks("document.getElementById('forth')")
        if not page.awaits(f"{TEXT_OF.format('ran')} === '{count} of 5 lines run'", SOON):
            yield f"forward: {page.finds(TEXT_OF.format('ran'))}"
    if not status_is(page, "complete 1 of 1"):
        yield f"forward: {page.finds(TEXT_OF.format('status'))}"
    yield from shown_is_simulated(program, page)


def loaded_mistakes(it, page):
    """What is wrong with what the page loaded, or with its script."""
    yield from (f"the page asked for {url}" for url in set(page.loaded())
                if not url.startswith((f"{it.own}/", "data:", "about:")))
    yield from (f"the page: {what}" for what in page.mistakes())


def travel_mistakes(program):
    """What is wrong where frames travel by themselves, and where a transaction is cancelled."""
    with opened(program, PUT + "spread 1\n") as (it, page):
        page.finds("(document.getElementById('speed').value = '3', 0)")
        page.clicks("document.getElementById('go')")
        if not status_is(page, "complete 1 of 1"):
            yield f"they travel: {page.finds(TEXT_OF.format('status'))}"
        yield from shown_is_simulated(program, page)
        page.finds("(location.hash = encodeURIComponent('%s'), 0)" % PUT.replace("\n", "\\n"))
        page.awaits("document.querySelectorAll('#open tr').length === 1", SOON)
        page.clicks("document.querySelector('#open .harm')")
        if not page.awaits(f"{SCRIPT}.includes('cancel 1 1:1')", SOON):
            yield f"cancelled: {page.finds(SCRIPT)}"
        page.clicks("document.getElementById('settle')")
        if not page.awaits(f"{TEXT_OF.format('report')}.includes('finished 1:1 15')", SOON):
            yield f"cancelled: {page.finds(TEXT_OF.format('report'))}"
        page.clicks("document.getElementById('anew')")
        page.awaits(f"{SCRIPT} === ''", SOON)
        name = "<img/src=x/onerror=alert(1)>"
        page.finds("(document.querySelector('#station-2 input').value = '%s', 0)" % name)
        page.clicks("document.querySelector('#station-2 form button')")
        page.clicks("document.getElementById('settle')")
        if not status_is(page, "complete 1 of 1"):
            yield f"a name of markup: {page.finds(TEXT_OF.format('report'))}"
        if page.finds("document.querySelectorAll('main img').length"):
            yield "a name is markup in the page"
        yield from shown_is_simulated(program, page)
        yield from loaded_mistakes(it, page)


def dropped_mistakes(program):
    """What is wrong where files are dropped on a station: a text, and octets that are none."""
    drop = """(() => { const data = new DataTransfer();
      data.items.add(new File([%s], %s));
      document.getElementById('station-1').dispatchEvent(
        new DragEvent('drop', {bubbles: true, cancelable: true, dataTransfer: data})); })()"""
    with opened(program) as (it, page):
        page.finds("(document.getElementById('speed').value = '0', 0)")
        page.finds(drop % ("'a plain text\\n'", "'some name.txt'"))
        if not page.awaits(f"{SCRIPT}.includes('file 1 some_name.txt a plain text\\n')", SOON):
            yield f"a text: {page.finds(SCRIPT)}"
        page.finds(drop % ("new Uint8Array(3000)", "'some name.txt'"))
        if not page.awaits(f"{SCRIPT}.includes('fill 1 2-some_name.txt 3000 00\\n')", SOON):
            yield f"octets: {page.finds(SCRIPT)}"
        page.awaits("document.querySelectorAll('#open tr').length === 2", SOON)
        page.clicks("document.getElementById('settle')")
        if not status_is(page, "complete 2 of 2"):
            yield f"dropped: {page.finds(TEXT_OF.format('report'))}"
        yield from shown_is_simulated(program, page)
        yield from loaded_mistakes(it, page)


def damage_mistakes(program):
    """What is wrong where a frame is damaged."""
    with opened(program, PUT + "spread 1\n") as (it, page):
        page.awaits(f"{FRAMES} === 3", SOON)
        page.finds("document.querySelector('.frame.data').focus()")
        page.presses("x", "KeyX", "x")
        if not page.awaits(f"{TEXT_OF.format('chart')}.includes('Damaged')", SOON):
            yield f"the key x: {page.finds(TEXT_OF.format('chart'))} {page.finds(SCRIPT)}"
        page.clicks("document.getElementById('recover')")
        if not status_is(page, "complete 1 of 1"):
            yield f"recovered: {page.finds(TEXT_OF.format('report'))}"
        yield from shown_is_simulated(program, page)
        yield from loaded_mistakes(it, page)


# Which frame has the focus: its lane and what is told of it; the element's id where it is none.
FOCUSED = """(() => { const it = document.activeElement;
  return it.dataset?.place ? it.getAttribute("aria-label") : it.id || it.tagName; })()"""


def focus_mistakes(program):
    """What is wrong with what has the focus after a key has lost or delivered the frame that had
    it: the next frame of its lane, or else another one, or the link; with motion and without."""
    script = "set segment 100\nfill 1 a.bin 300 00\nput 1 a.bin a.bin\nspread 1\n"
    for motion in ("no-preference", "reduce"):
        with opened(program, script) as (_, page):
            page.asks("Page.bringToFront")
            page.asks("Emulation.setEmulatedMedia",
                      features=[{"name": "prefers-reduced-motion", "value": motion}])
            page.awaits(f"{FRAMES} === 5", SOON)
            page.finds("document.querySelector('.frame.data').focus()")
            for key, wanted in (("l", "data 1:1 100"), ("d", "data 1:1 200"), ("l", "metadata")):
                page.presses(key, f"Key{key.upper()}", key)
                if not page.awaits(f"{FOCUSED}.includes({json.dumps(wanted)})", SOON):
                    yield f"{motion}, {key}: {page.finds(FOCUSED)} has the focus, not {wanted}"
            for key in "ll":
                page.presses(key, "KeyL", key)
                page.awaits(f"!{FOCUSED}.includes('metadata')", SOON)
            if not page.awaits(f"{FRAMES} === 0 && {FOCUSED} === 'scene'", SOON):
                yield f"{motion}: {page.finds(FRAMES)} frames, {page.finds(FOCUSED)} has the focus"


def key_mistakes(program):
    """What is wrong where all is done by keys, and nothing moves."""
    with opened(program) as (it, page):
        page.asks("Page.bringToFront")
        page.asks("Emulation.setEmulatedMedia",
                  features=[{"name": "prefers-reduced-motion", "value": "reduce"}])
        page.finds("document.querySelector('#station-1 input').focus()")
        page.presses("Enter", "Enter", "\r")
        if not page.awaits(f"{FRAMES} === 3", SOON):
            yield f"a put by Enter: {page.finds(SCRIPT)}"
        page.finds("document.querySelector('.frame.data').focus()")
        page.presses("l", "KeyL", "l")
        if not page.awaits(f"{SCRIPT}.includes('strike 1 data')", SOON):
            yield f"the key l: {page.finds(SCRIPT)}"
        page.finds("document.querySelector('.frame.dir').focus()")
        page.presses("d", "KeyD", "d")
        if not page.awaits(f"{SCRIPT}.includes('deliver 1 dir')", SOON):
            yield f"the key d: {page.finds(SCRIPT)}"
        page.finds("document.activeElement.blur()")
        page.presses(",", "Comma", ",")
        if not page.awaits(f"{TEXT_OF.format('ran')}.startsWith('4 of 5')", SOON):
            yield f"the key ',': {page.finds(TEXT_OF.format('ran'))}"
        page.presses(".", "Period", ".")
        page.finds("document.getElementById('recover').focus()")
        page.presses("Enter", "Enter", "\r")
        if not status_is(page, "complete 1 of 1"):
            yield f"recover by Enter: {page.finds(TEXT_OF.format('report'))}"
        if not page.awaits(f"{TEXT_OF.format('said')}.includes('finished 1:1')", SOON):
            yield f"who can't see it hears {page.finds(TEXT_OF.format('said'))}"
        yield from shown_is_simulated(program, page)


def form_mistakes(program):
    """What is wrong with names of elements, contrast, and the page's width on a telephone."""
    with opened(program, PUT + "spread 1\nstrike 1 data\ndeliver 1 2\nspread 2\n") as (_, page):
        page.awaits(f"{FRAMES} === 2", SOON)
        page.clicks("document.querySelector('.frame')")
        page.awaits(f"{TEXT_OF.format('opened-body')}.includes('AOS')", SOON)
        for node in page.asks("Accessibility.getFullAXTree")["nodes"]:
            role = node.get("role", {}).get("value")
            if role in NAMED - {"table"} and not node["ignored"] and \
                    not node["name"]["value"].strip():
                yield f"a {role} has no name"
        for is_dark in (False, True):
            page.is_dark(is_dark)
            form = "dark" if is_dark else "light"
            yield from (f"in the {form} form: {text}" for text in page.finds(FAINT))
        for size in (DESK, TELEPHONE, NARROW):
            page.has_size(*size, 2, size != DESK)
            time.sleep(0.3)
            wide = page.finds("document.scrollingElement.scrollWidth")
            if wide > size[0]:
                yield f"in a window of {size[0]} the page is {wide} wide"
            small = page.finds("[...document.querySelectorAll('button')].filter((it) => "
                               "it.checkVisibility() && it.getBoundingClientRect().height < 24"
                               " && !it.closest('#chart')).map((it) => it.textContent)")
            if small:
                yield f"in a window of {size[0]} these are too small to be met: {small}"


def all_mistakes(program):
    """What is tried, with what is wrong in it."""
    tried = [("the page's run of a script is that of sim", same_mistakes),
             ("what a script may ask for in a page", bound_mistakes),
             ("who may ask the page's server for what", asked_mistakes),
             ("who asks the page's server slowly, or goes away", slow_mistakes),
             ("addresses of the page that can't be had", address_mistakes),
             ("fields of frames and PDUs in the page", field_mistakes)]
    in_browser = [("a file is put in the page, a frame lost, and the file recovered",
                   transfer_mistakes),
                  ("frames travel in the page; a cancel; a name of markup", travel_mistakes),
                  ("files that are dropped on a station of the page", dropped_mistakes),
                  ("a frame that is damaged in the page", damage_mistakes),
                  ("the page by keys alone, without motion", key_mistakes),
                  ("what has the focus after a key in the page", focus_mistakes),
                  ("the page's names, contrast and width", form_mistakes)]
    if path_of_browser():
        tried += in_browser
    else:
        print("skipped: the page of play in a browser, as no Chromium is here", flush=True)
    for what, mistakes in tried:
        yield what, mistakes(program)


def main(words):
    with program_of(words) as program:
        return print_all(all_mistakes(program))


if __name__ == "__main__":
    sys.exit(main(sys.argv[1:]))
