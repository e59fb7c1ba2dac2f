#!/usr/bin/env python3
"""The console of a station that runs: what it shows a web client, and what it lets that do.

    tests/console.py [PROGRAM]    all of it, by this program or by that which `rt ci` leaves
    tests/console.py --tools      looks for a browser: status 0 where there is one

Its page is tried in a browser (`console_page.py`), Debian's chromium; where there is none that is
said, and not tried. Where it lacks, --tools has it installed, if it may and can.
"""
import base64
import contextlib
import hashlib
import html.parser
import http.client
import json
import os
import re
import socket
import subprocess
import sys
import time

import console_details
import console_page
from lib import browser
from lib.console import PATIENCE, Console, all_of, keep_token
from lib.counting import print_all
from lib.links import Link, Relay
from lib.processes import PATIENT
from lib.program import program_of
from lib.waiting import SECONDS, SLACK, TRIALS, Timed, in_one_of

# The most connections, and the most octets of a request.
MOST_OPEN, MOST_OCTETS = 16, 65536

TOKEN = "0123456789abcdef-token"

# The most by which frames may be late for a console, in seconds, and the share of them that counts:
# the rest are late for what else runs on the machine. With SLACK=1 it is a millisecond.
LATE, SHARE = 0.001 * SLACK, 0.95

# A client that asks for all that there is, again and again, for five seconds, or on a slow machine
# until it had seven answers, and tells how many it had.
CLIENT = """
import http.client, sys, time
port, began, is_kept = int(sys.argv[1]), time.monotonic(), "one" in sys.argv[2]
paths = ("/transactions", "/log", "/history", "/metrics", "/")
it, count = None, 0
while time.monotonic() < began + 5 or count < 7 and time.monotonic() < began + 60:
    try:
        it = it or http.client.HTTPConnection("127.0.0.1", port, timeout=15)
        it.request("GET", paths[count % 5])
        it.getresponse().read()
        count += 1
    except (OSError, http.client.HTTPException):
        it = None
    it = it if is_kept else None
print(count)
"""


# ---- what is shown


# Paths with no station's state that has to be there, and the members that each object has.
SHOWN = (
    ("/status", {"closed", "counters", "dropped", "failed", "lines", "link", "notes", "open",
                 "peer", "phases", "seconds", "station", "time", "timeout", "told", "version",
                 "waiting"}),
    ("/history", {"lost", "received", "seconds", "sent"}),
    ("/transactions", {"closed", "open"}),
    ("/transactions?after=0", {"closed", "open"}),
    ("/log", {"lines"}),
    ("/log?after=3", {"lines"}),
    ("/token", {"token"}),
    ("/files", {"files"}),
)

# Paths at which nothing is.
NOTHING = ("/index.html", "/log?after=x", "/log?before=3", "/transactions/1:99", "/puts", "/../",
           "/transactions/1:1/cancel", "/transactions/1:99/details", "/transactions//details")


def shown_mistakes(program):
    """What is wrong with the answers to all that may be looked at."""
    with Link(program) as link:
        it = Console(link, 2, ["--inbox", "to"])
        for path, members in SHOWN:
            status, headers, body = it.asks("GET", path)
            if status != 200 or set(json.loads(body)) != members:
                yield f"GET {path}: {status} {body}"
            kinds = (headers["Cache-Control"], headers["Content-Type"])
            if kinds != ("no-store", "application/json"):
                yield f"GET {path}: {headers}"
            status, _, body = it.asks("HEAD", path)
            if status != 200 or body:
                yield f"HEAD {path}: {status} {body}"
        for path in NOTHING:
            if it.asks("GET", path)[0] != 404:
                yield f"GET {path}: {it.asks('GET', path)}"
        for method in ("PUT", "DELETE", "PATCH", "OPTIONS"):
            if it.asks(method, "/status")[0] != 405:
                yield f"{method} /status: {it.asks(method, '/status')}"
        yield from page_mistakes(it)
        yield from metrics_mistakes(it)


class Page(html.parser.HTMLParser):
    """What a page would load from elsewhere, and what is put in its script as markup."""

    def __init__(self):
        super().__init__()
        self.loads = []

    def handle_starttag(self, tag, attrs):
        for name, value in attrs:
            if name in ("src", "href", "action") and not re.match(r"#|data:,$", value or ""):
                self.loads.append((tag, name, value))
            if name.startswith("on") or name == "style":
                self.loads.append((tag, name, value))


def page_mistakes(it):
    """What is wrong with the page: it stands for itself, and puts nothing in as markup."""
    status, headers, body = it.asks("GET", "/")
    if status != 200 or headers["Content-Type"] != "text/html; charset=utf-8":
        yield f"GET /: {status} {headers}"
    page = Page()
    page.feed(body)
    if page.loads:
        yield f"the page loads {page.loads}"
    for word in ("innerHTML", "outerHTML", "insertAdjacentHTML", "document.write", "eval("):
        if word in body:
            yield f"the page has {word}"
    policy = headers["Content-Security-Policy"]
    if "default-src 'none'" not in policy:
        yield f"GET /: {headers}"
    for tag in ("style", "script"):
        text = re.search(rf"<{tag}>(.*?)</{tag}>", body, re.DOTALL)[1]
        checksum = base64.b64encode(hashlib.sha256(text.encode()).digest()).decode()
        if f"{tag}-src 'sha256-{checksum}'" not in policy:
            yield f"GET /: the checksum of its {tag} is {checksum}, and not as in {policy}"


def metrics_mistakes(it):
    """What is wrong with the numbers for Prometheus."""
    status, headers, body = it.asks("GET", "/metrics")
    if status != 200 or headers["Content-Type"] != "text/plain; version=0.0.4":
        yield f"GET /metrics: {status} {headers}"
    name, label = r"(cfdp_\w+|process_start_time_seconds)", r"\w+=\"[\w .-]+\""
    form = rf"# (HELP|TYPE) {name} .+|{name}(\{{{label}(,{label})*\}})? \d+"
    for line in body.splitlines():
        if not re.fullmatch(form, line):
            yield f"GET /metrics: {line}"
    names = re.findall(r"(?m)^# TYPE (\w+)", body)
    if len(names) != len(set(names)) or "cfdp_sent_frames_total" not in names:
        yield f"GET /metrics: {names}"


# ---- what is done


def deed_mistakes(program):
    """What is wrong where files are put, suspended, resumed and cancelled by requests. No frame
    comes anywhere before that is done, so that no file is over before."""
    with Link(program, Relay()) as link:
        link.relay.holds = True
        link.puts(1, {"a.bin": bytes(200_000), "b.bin": bytes(300_000), "c.bin": b"c"})
        link.starts(2, ["--inbox", "to"], PATIENT)
        it = Console(link, 1, ["--outbox", "from", "--rate", "100"], PATIENT)
        if it.gets("/files") != {"files": ["a.bin", "b.bin", "c.bin"]}:
            yield f"files that may be sent: {it.gets('/files')}"
        yield from put_mistakes(it)
        yield from change_mistakes(it)
        link.relay.release()
        yield from freeze_mistakes(it)
        wanted = {"source": "c.bin", "destination": "d.bin", "first": True}
        status, answer = it.does("/puts", wanted)
        if status != 200:
            yield f"a put of c.bin: {status} {answer}"
        found = it.awaits("/transactions", lambda all_of_it: len(all_of_it["closed"]) >= 3)
        ends = {one["destination"]: (one["complete"], one["source"]) for one in found["closed"]}
        wanted = {"x.bin": (True, "a.bin"), "b.bin": (False, "b.bin"), "d.bin": (True, "c.bin")}
        if ends != wanted:
            yield f"closed: {found}"
        if not all(0 < one["began"] <= one["time"] for one in found["closed"]):
            yield f"when closed ones began and ended: {found}"
        last = found["closed"][-1]
        if it.gets(f"/transactions/{last['id']}") != last:
            yield f"/transactions/{last['id']}: another one"
        after = it.gets(f"/transactions?after={last['number']}")
        if after["closed"]:
            yield f"closed behind the last one: {after}"
        lines = it.gets("/log")["lines"]
        if not lines or [one["number"] for one in lines] != list(range(1, len(lines) + 1)):
            yield f"the log: {lines}"
        if it.gets("/status")["counters"]["files_sent"] != 2:
            yield f"counted: {it.gets('/status')}"


def put_mistakes(it):
    """What is wrong with puts, and with such that say nothing that may be put."""
    status, answer = it.does("/puts", {"source": "a.bin", "destination": "x.bin"})
    if status != 200 or answer != {"ok": True}:
        yield f"a put: {status} {answer}"
    bodies = (None, {}, {"source": 3}, {"source": "a b"}, {"source": ""}, {"source": "--first"},
              {"source": "a\nstop"}, {"source": "a.bin", "destination": "x y"}, ["a.bin"])
    for body in bodies:
        status, answer = it.does("/puts", body)
        if status != 400 or "error" not in answer:
            yield f"a put of {body}: {status} {answer}"
    found = it.awaits("/transactions", lambda all_of_it: all_of_it["open"])
    one = found["open"][0]
    wanted = {"source": "a.bin", "destination": "x.bin", "size": 200_000, "way": "sends"}
    if any(one[key] != value for key, value in wanted.items()) or len(found["open"]) != 1:
        yield f"open: {found}"
    if it.gets(f"/transactions/{one['id']}")["id"] != one["id"]:
        yield f"/transactions/{one['id']}: another one"


def change_mistakes(it):
    """What is wrong where transactions are suspended, resumed and cancelled."""
    it.does("/puts", {"source": "b.bin"})
    found = it.awaits("/transactions", lambda all_of_it: len(all_of_it["open"]) == 2)
    ids = {one["source"]: one["id"] for one in found["open"]}
    for word, is_suspended in (("suspend", True), ("resume", False)):
        status, answer = it.does(f"/transactions/{ids['a.bin']}/{word}")
        is_so = lambda one, wanted=is_suspended: one["suspended"] == wanted
        one = it.awaits(f"/transactions/{ids['a.bin']}", is_so, 5)
        if status != 200 or one["suspended"] != is_suspended:
            yield f"{word}: {status} {answer} {one}"
    if it.does(f"/transactions/{ids['b.bin']}/cancel")[0] != 200:
        yield "cancel wasn't done"
    for path, wanted in (("/transactions/1:999/cancel", 409), ("/transactions/x/cancel", 409),
                         ("/transactions/1:1/nothing", 404), ("/transactions//cancel", 404),
                         ("/stop", 404), ("/transactions/1:1%20now/cancel", 409)):
        status, answer = it.does(path)
        if status != wanted or "error" not in answer:
            yield f"POST {path}: {status} {answer}"


def freeze_mistakes(it):
    """What is wrong where the link is taken down by plan, and up again."""
    for word, state in (("freeze", "frozen"), ("thaw", "up")):
        status, answer = it.does(f"/{word}")
        if status != 200 or it.gets("/status")["link"]["state"] != state:
            yield f"{word}: {status} {answer} {it.gets('/status')['link']}"


# ---- who may ask


def guard_mistakes(program):
    """What is wrong with the answers to those who may not ask, and those who may."""
    with Link(program) as link:
        it = Console(link, 2, ["--inbox", "to"])
        own = f"127.0.0.1:{it.port}"
        rows = (
            ("GET", "/status", {"Host": "evil.example"}, 403),
            ("GET", "/", {"Host": f"evil.example:{it.port}"}, 403),
            ("GET", "/token", {"Host": "127.0.0.1.evil.example"}, 403),
            ("GET", "/status", {"Host": f"localhost:{it.port}"}, 200),
            ("GET", "/status", {"Origin": "http://evil.example"}, 403),
            ("GET", "/status", {"Origin": "null"}, 403),
            ("GET", "/status", {"Origin": f"http://{own}"}, 200),
            ("POST", "/freeze", {}, 401),
            ("POST", "/freeze", {"Authorization": "Bearer x"}, 401),
            ("POST", "/freeze", {"Origin": f"http://{own}"}, 401),
            ("POST", "/freeze", {**it.shown(), "Origin": "http://evil.example"}, 403),
            ("POST", "/freeze", {**it.shown(), "Host": "evil.example"}, 403),
            ("POST", "/nothing", {}, 401),
        )
        yield from row_mistakes(it, rows)
        if it.gets("/status")["link"]["state"] != "up":
            yield "one who may not ask took the link down"
    yield from token_mistakes(program)
    yield from address_mistakes(program)


def row_mistakes(it, rows):
    """What is wrong with the status of these requests."""
    for method, path, headers, wanted in rows:
        status, _, body = it.asks(method, path, headers)
        if status != wanted:
            yield f"{method} {path} with {headers}: {status} {body}"


def token_mistakes(program):
    """What is wrong where a token is wanted of all, and where the token or the address won't do."""
    with Link(program) as link:
        it = Console(link, 2, ["--inbox", "to"], token=TOKEN)
        good, bad = {"Authorization": f"Bearer {TOKEN}"}, {"Authorization": f"Bearer {TOKEN}x"}
        rows = [("GET", "/", {}, 200), ("GET", "/token", good, 404), ("POST", "/freeze", {}, 401)]
        for path in ("/status", "/token", "/log", "/metrics", "/transactions", "/history"):
            rows += [("GET", path, {}, 401), ("GET", path, bad, 401)]
        rows += [("GET", "/status", good, 200), ("POST", "/thaw", good, 200)]
        rows += [("POST", "/thaw", bad, 401), ("POST", "/thaw", {**good, "Host": "a.b"}, 403)]
        yield from row_mistakes(it, rows)
    refused = (
        (["--console", "0.0.0.0:0"], ""),
        (["--console", "[::]:0"], ""),
        (["--console", "nonsense"], ""),
        (["--console-token", "token"], TOKEN),
        (["--console", "127.0.0.1:0", "--console-token", "none"], TOKEN),
        (["--console", "127.0.0.1:0", "--console-token", "token"], "short"),
        (["--console", "127.0.0.1:0", "--console-token", "token"], "with a space in it ....."),
    )
    for words, token in refused:
        with Link(program) as link:
            keep_token(f"{link.folder}/2", token)
            it = link.starts(2, ["--inbox", "to", *words], waits=False)
            status, out, err = it.ended()
        if status not in (2, 3) or out or not err.startswith("error: --console"):
            yield f"{words}: status {status}, {out!r}, {err!r}"


def token_file_mistakes(program):
    """What is wrong where the file of the token can be read or written by other users, is none, or
    is too long; white space around the token doesn't count."""
    several = "a token must be 16 to 256 visible ASCII characters"
    rows = [
        (
            lambda at, mode=mode: keep_token(at, TOKEN, mode),
            2,
            rf"other users have access to it \(mode {mode:04o}\): run chmod 600 token",
        )
        for mode in (0o644, 0o640, 0o602)
    ]
    rows += [
        (lambda at: os.mkfifo(f"{at}/token"), 3, "not a plain file"),
        (lambda at: os.symlink("/dev/zero", f"{at}/token"), 3, "not a plain file"),
        (lambda at: os.mkdir(f"{at}/token"), 3, "is a folder"),
        (lambda at: keep_token(at, TOKEN + " " * 100_000), 2, several),
        (lambda at: keep_token(at, " " * 4096 + TOKEN), 2, several),
    ]
    for makes, wanted, told in rows:
        with Link(program) as link:
            os.makedirs(f"{link.folder}/2")
            makes(f"{link.folder}/2")
            words = ["--inbox", "to", "--console", "127.0.0.1:0", "--console-token", "token"]
            status, out, err = link.starts(2, words, waits=False).ended()
        is_told = re.fullmatch(rf"error: --console-token token: {told}\n", err)
        if status != wanted or out or not is_told:
            yield f"{told!r} is to end with {wanted}: status {status}, {out!r}, {err!r}"
    with Link(program) as link:
        it = Console(link, 2, ["--inbox", "to"], token=f"\n \t{TOKEN}{' ' * 4000}")
        it.token = TOKEN
        if it.asks("GET", "/status", it.shown())[0] != 200:
            yield f"white space counts: {it.station.text('stderr')!r}"


def address_mistakes(program):
    """What is wrong where the console's address is in use."""
    with Link(program) as link, socket.create_server(("127.0.0.1", 0)) as taken:
        words = ["--inbox", "to", "--console", f"127.0.0.1:{taken.getsockname()[1]}"]
        status, out, err = link.starts(2, words, waits=False).ended()
        if status != 3 or out or not re.fullmatch("error: --console [0-9.:]+: .* in use.*\n", err):
            yield f"{words}: status {status}, {out!r}, {err!r}"


# ---- requests that are none, or too much


def request_mistakes(program):
    """What is wrong with what comes for octets that are no request, or a long one."""
    with Link(program) as link:
        it = Console(link, 2, ["--inbox", "to"])
        head = f"Host: 127.0.0.1:{it.port}\r\nAuthorization: {it.shown()['Authorization']}\r\n"
        put = f"POST /puts HTTP/1.1\r\n{head}"
        long = MOST_OCTETS + 1
        rows = (
            ("no request", "\0\1\2\r\n\r\n", 400),
            ("no Host", "GET /status HTTP/1.1\r\n\r\n", 400),
            ("two Hosts", f"GET /status HTTP/1.1\r\n{head}Host: x\r\n\r\n", 400),
            ("a long target", f"GET /{'x' * long} HTTP/1.1\r\n{head}\r\n", 414),
            ("a long field", f"GET / HTTP/1.1\r\n{head}X: {'x' * long}\r\n\r\n", 431),
            ("a long body", f"{put}Content-Length: {long}\r\n\r\n" + "x" * long, 413),
            ("an endless body", f"{put}Content-Length: 99999999\r\n\r\n", 413),
            ("a coding", f"{put}Transfer-Encoding: gzip, chunked\r\n\r\n0\r\n\r\n", 501),
            ("chunks", f"{put}Transfer-Encoding: chunked\r\n\r\n2\r\n{{}}\r\n0\r\n\r\n", 400),
        )
        for what, text, wanted in rows:
            found = it.says(text.encode("latin-1"))
            if not re.match(rb"HTTP/1\.1 %d " % wanted, found or b""):
                yield f"{what}: {(found or b'nothing')[:200]}"
        chunk = b"8000\r\n" + bytes(32768) + b"\r\n"
        found = it.says(put.encode() + b"Transfer-Encoding: chunked\r\n\r\n" + chunk * 4)
        if found is None or b" 200 " in found:
            yield f"too much in chunks: {found}"
        for cut in (1, 7, 40):
            text = f"GET /status HTTP/1.1\r\n{head}Connection: close\r\n\r\n".encode()
            if b" 200 " not in (in_parts(it, text, cut) or b""):
                yield f"a request in parts of {cut}"
        if it.gets("/status")["station"] != 2:
            yield "it shows nothing any more"


def in_parts(it, octets, cut):
    """What comes for octets that are sent in parts of this length."""
    with socket.create_connection(("127.0.0.1", it.port), timeout=PATIENCE + SLACK) as end:
        end.setsockopt(socket.IPPROTO_TCP, socket.TCP_NODELAY, 1)
        for place in range(0, len(octets), cut):
            end.sendall(octets[place : place + cut])
            time.sleep(0.002)
        return all_of(end)


def kept_mistakes(program):
    """What is wrong where several requests come over one connection."""
    with Link(program) as link:
        it = Console(link, 2, ["--inbox", "to"])
        head, own = f"Host: 127.0.0.1:{it.port}\r\n", it.shown()
        kept = http.client.HTTPConnection("127.0.0.1", it.port, timeout=PATIENCE + SLACK)
        with contextlib.closing(kept):
            ends = set()
            for path in ("/status", "/nothing", "/transactions", "/", "/freeze", "/status"):
                kept.request("POST" if path == "/freeze" else "GET", path, headers=own)
                answer = kept.getresponse()
                if answer.status != (404 if path == "/nothing" else 200) or not answer.read():
                    yield f"{path} over a connection that is kept: {answer.status}"
                ends.add(kept.sock and kept.sock.getsockname())
            if len(ends) != 1 or None in ends:
                yield "a connection wasn't kept"
        one = f"GET /status HTTP/1.1\r\n{head}"
        rows = (
            ("three at once", f"{one}\r\n{one}\r\n{one}Connection: close\r\n\r\n", 3),
            ("one that is the last", f"{one}Connection: close\r\n\r\n{one}\r\n", 1),
            ("HTTP/1.0", f"GET /status HTTP/1.0\r\n{head}Connection: keep-alive\r\n\r\n", 1),
        )
        for what, text, wanted in rows:
            found = it.says(text.encode())
            if found is None or found.count(b"HTTP/1.1 200 ") != wanted:
                yield f"{what}: {found}"


def slow_mistakes(program):
    """What is wrong with slow clients: they are left after a while; and where there are 16, the one
    that came first gives way to a seventeenth, which is answered at once."""
    with Link(program) as link:
        it = Console(link, 2, ["--inbox", "to"])
        with contextlib.ExitStack() as stack:
            slow = []
            for _ in range(MOST_OPEN):
                most = PATIENCE + 5 + SLACK
                one = socket.create_connection(("127.0.0.1", it.port), timeout=most)
                slow.append(stack.enter_context(one))
                one.sendall(b"GET /status HTTP/1.1\r\n")
            began = time.monotonic()
            status = it.asks("GET", "/status", {})[0]
            took = time.monotonic() - began
            if took > 2 + SLACK:
                yield f"the seventeenth was answered {status} after {took:.1f} s"
            ended = []
            for one in slow:
                if all_of(one) != b"":
                    yield "a slow one was answered"
                ended.append(time.monotonic() - began)
        if not ended[0] < 2 + SLACK or not PATIENCE - 2 < ended[-1] < PATIENCE + 3 + SLACK:
            yield f"slow ones were left after {ended[0]:.1f} to {ended[-1]:.1f} s"


def crowd_mistakes(program):
    """What is wrong where 64 slow clients come one after another: another one is answered soon."""
    with Link(program) as link, contextlib.ExitStack() as stack:
        it = Console(link, 2, ["--inbox", "to"])
        for _ in range(64):
            one = socket.create_connection(("127.0.0.1", it.port), timeout=SECONDS)
            stack.enter_context(one).sendall(b"GET /status HTTP/1.1\r\n")
        began = time.monotonic()
        found = it.gets("/status")
        took = time.monotonic() - began
    if found.get("station") != 2 or took > 5 + SLACK:
        yield f"behind 64 slow ones it is answered {found} after {took:.1f} s"


# ---- the link


def control_mistakes(program):
    """What is wrong with what is shown of the control field of frames that come."""
    for has_one, wanted in ((1, 0), (0, None)):
        with Link(program) as link:
            sets = {**PATIENT, "peer_control_field": has_one}
            it = Console(link, 2, ["--inbox", "to"], sets)
            if it.gets("/status")["link"]["control_field"] is not None:
                yield "a control field is shown before one came"
            link.starts(1, link.puts(1, {"a": b"x"}), {**PATIENT, "control_field": has_one})
            it.awaits("/status", lambda status: status["counters"]["files_received"] == 1)
            found = it.gets("/status")["link"]
            if found["control_field"] != wanted:
                yield f"a control field: {found}"


# ---- the station's own work


def late_mistakes(program):
    """What is wrong with the times of frames, in one of some trials."""
    yield from in_one_of(TRIALS, lambda: late_trial_mistakes(program))


def late_trial_mistakes(program):
    """What is wrong with the times at which frames leave a station while 16 clients ask its console
    all that they can, beside those where they ask its peer's."""
    for how in ("over new connections", "over one connection each"):
        try:
            beside, own = (lateness(program, end, how) for end in (2, 1))
        except OSError as error:
            yield Timed(f"{how}: {error}")
            continue
        if own - beside > LATE:
            apart = f"{own * 1e3:.2f} ms apart, and {beside * 1e3:.2f} ms where the peer is asked"
            yield Timed(f"{how}: frames are {apart}")


def lateness(program, end, how):
    """How far apart frames of station 1 are, at most, but for the few that are late for another
    cause, while clients ask the console of the station at this end."""
    relay = Relay()
    with Link(program, relay) as link:
        link.puts(1, {"long": bytes(20_000_000)})
        words = {1: ["--outbox", "from", "--put", "long", "long", "--rate", "1000"],
                 2: ["--inbox", "to"]}
        ports = {own: Console(link, own, words[own], PATIENT).port for own in (2, 1)}
        call = [sys.executable, "-c", CLIENT, str(ports[end]), how]
        clients = [subprocess.Popen(call, stdout=subprocess.PIPE) for _ in range(MOST_OPEN)]
        time.sleep(1)
        since = time.time()
        answers = sum(int(it.communicate()[0]) for it in clients)
        times = [when for when, own, _ in list(relay.came) if own == 1 and when >= since]
    if answers < 100 or len(times) < 1000:
        raise OSError(f"{answers} answers, and {len(times)} frames")
    gaps = sorted(after - before for before, after in zip(times, times[1:]))
    return gaps[int(len(gaps) * SHARE)]


def lone_mistakes(program):
    """What is tried with nothing beside it, since it tells times."""
    yield "the console: frames of a station that 16 clients ask", late_mistakes(program)


def all_mistakes(program):
    """What is tried, with what is wrong in it."""
    yield "the console: what is shown", shown_mistakes(program)
    yield "the console: what is done", deed_mistakes(program)
    yield "the console: who may ask", guard_mistakes(program)
    yield "the console: the file of its token", token_file_mistakes(program)
    yield "the console: what is no request", request_mistakes(program)
    yield "the console: connections that are kept", kept_mistakes(program)
    yield "the console: the control field of frames", control_mistakes(program)
    yield "the console: slow clients and a seventeenth", slow_mistakes(program)
    yield "the console: 64 slow clients", crowd_mistakes(program)
    yield from console_details.all_mistakes(program)
    yield from console_page.all_mistakes(program)


def main(words):
    if words[:1] == ["--tools"]:
        return 0 if browser.look_for_browser() else 1
    with program_of(words) as program:
        return print_all([*lone_mistakes(program), *all_mistakes(program)])


if __name__ == "__main__":
    sys.exit(main(sys.argv[1:]))
