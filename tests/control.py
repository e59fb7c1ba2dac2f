"""Commands to a station that runs: on its standard input, and on a control address."""
import fcntl
import os
import pty
import re
import select
import signal
import socket
import subprocess
import termios
import threading
import time

from lib.choices import chance_of
from lib.control import Client, asked, controlled, fits
from lib.frames import idle_frame
from lib.links import Link, Relay
from lib.ports import ALONE, free_ports, is_bound
from lib.processes import PATIENT, files_at, peak_of, put
from lib.rates import silence_mistakes
from lib.waiting import SECONDS, SLACK, TRIALS, in_one_of, waits_for

# A station at rest wakes less often than so many times a second.
MOST_WAKES = 20

# So long, in seconds, an answer may take.
SOON = 0.3 + SLACK


def apart(clients):
    """These clients, each so much later than the one before that a clock of milliseconds has
    another time for it."""
    for it in clients:
        yield it
        time.sleep(0.01)


def let_in(port):
    """A client that a station has taken on, and its first answer: so it has left those before."""
    stop = time.monotonic() + SECONDS
    while True:
        client = Client(port)
        answer = client.asks("counters")
        if fits(answer, "ok|") or time.monotonic() > stop:
            return client, answer
        client.socket.close()
        time.sleep(0.05)


# ---- what is asked, and the answer


# Words, the status of `ask`, and what the answer is to have.
ASKED = (
    (("help",), 0, r"(?m)^put .*\n(.*\n)*^ok\n\Z"),
    (("counters",), 0, r"ok\n\Z"),
    (("list",), 0, r"ok\n\Z"),
    (("lst",), 1, r"\Aerror: .*\blist\b.*\n\Z"),
    (("nothing",), 1, r"\Aerror: .*put, .*help\n\Z"),
    (("put", "a"), 1, r"\Aerror: .*put .*SRC DST\n\Z"),
    (("put", "--first", "a"), 1, r"\Aerror: .*put .*SRC DST\n\Z"),
    (("put", "a", "b", "c"), 1, r"\Aerror: .*put .*SRC DST\n\Z"),
    (("put", "a b", "c"), 1, r"\Aerror: .*put .*SRC DST\n\Z"),
    (("cancel", "7"), 1, r"\Aerror: .*cancel ID\n\Z"),
    (("cancel", "1:x"), 1, r"\Aerror: .*cancel ID\n\Z"),
    (("prompt", "1:7", "both"), 1, r"\Aerror: .*nak.*keep.*\n\Z"),
    (("stop", "later"), 1, r"\Aerror: .*stop .*\n\Z"),
    (("freeze", "now"), 1, r"\Aerror: .*freeze\n\Z"),
    ((), 2, r"\A\Z"),
    (("list\nlist",), 2, r"\A\Z"),
)


def ask_mistakes(program):
    """What is wrong with the answers to `ask`, its status, and that where no station is."""
    with Link(program) as link:
        _, port = controlled(link, 2, ["--inbox", "to"])
        for words, status, wanted in ASKED:
            began = time.monotonic()
            found = asked(program, port, *words)
            if found[0] != status or not re.search(wanted, found[1]) or (status < 2 and found[2]):
                yield f"{words}: {found}"
            if time.monotonic() - began > SOON + 1:
                yield f"{words}: an answer after {time.monotonic() - began:.1f} s"
    status, out, err = asked(program, port, "list")
    if status != 3 or out or not err.startswith("error: "):
        yield f"where no station is: {(status, out, err)}"
    with socket.socket() as silent:
        silent.bind(("127.0.0.1", 0))
        silent.listen()
        began = time.monotonic()
        status, out, err = asked(program, silent.getsockname()[1], "list")
        took = time.monotonic() - began
    if status != 3 or out or not err or not 8 < took < 11 + SLACK:
        yield f"where nobody answers: {(status, out, err)} after {took:.1f} s"


def help_mistakes(program):
    """What is wrong where the help of `ask` lists other commands than a station does."""
    with Link(program) as link:
        _, port = controlled(link, 2, ["--inbox", "to"])
        answer = asked(program, port, "help")[1]
    how = {"capture_output": True, "text": True, "timeout": SECONDS, "check": True}
    listed = subprocess.run([program.path, "ask", "--help"], **how).stdout
    _, _, listed = listed.partition("Commands of a station:\n")
    listed = [" ".join(it.split()) for it in listed.partition("\n\n")[0].splitlines()]
    told = [it.replace(": ", " ", 1) for it in answer.splitlines() if it != "ok"]
    if listed != told:
        yield f"the help of ask lists {listed}, and a station {told}"


def address_mistakes(program):
    """What is wrong where a control address could be reached from other machines, or is in use."""
    for address in ("0.0.0.0:0", "[::]:0", "192.0.2.1:5000", "nonsense"):
        with Link(program) as link:
            it = link.starts(2, ["--inbox", "to", "--control", address], waits=False)
            status, out, err = it.ended()
        if status not in (2, 3) or out or not err.startswith("error: --control"):
            yield f"{address}: status {status}, {out!r}, {err!r}"
    with Link(program) as link, socket.socket() as other:
        other.bind(("127.0.0.1", 0))
        other.listen()
        address = f"127.0.0.1:{other.getsockname()[1]}"
        it = link.starts(2, ["--inbox", "to", "--control", address], waits=False)
        status, out, err = it.ended()
    if status not in (2, 3) or out or not err.startswith("error: --control"):
        yield f"one in use: status {status}, {out!r}, {err!r}"


# ---- lines


# What is written at once, with pauses at `|`, and how each answer begins that comes.
WRITTEN = (
    (b"counters\n", ["ok|"]),
    (b"counters  \t \r\n", ["ok|"]),
    (b"cou|nte|rs\n", ["ok|"]),
    (b"counters\nlst\ncounters\n", ["ok|", "error: ", "ok|"]),
    (b"counters\ncoun|ters\n", ["ok|", "ok|"]),
    (b"\n", ["error: "]),
    (b" counters\n", ["error: "]),
    (b"\xff\xfe\x00\x80\ncounters\n", ["error: the line is not valid UTF-8", "ok|"]),
    (b"\x00\ncounters\n", ["error: ", "ok|"]),
    (b"put \xc3\xa4 b c\ncounters\n", ["error: ", "ok|"]),
    (b"x" * 4096 + b"\ncounters\n", ["error: unknown command", "ok|"]),
    (b"x" * 4096 + b"\r\ncounters\n", ["error: the line has more than 4,096 octets", None]),
    (b"x" * 5000 + b"\ncounters\n", ["error: the line has more than 4,096 octets", None]),
    (b"POST / HTTP/1.1\r\nHost: a\r\n\r\nfreeze\n", ["error: this is not a web server", None]),
    (b"x" * 300_000, ["error: the line has more than 4,096 octets", None]),
)


def line_mistakes(program):
    """What is wrong with the answers to lines that come in parts, many at once, or as no lines."""
    with Link(program) as link:
        it, port = controlled(link, 2, ["--inbox", "to"])
        for octets, answers in WRITTEN:
            with Client(port) as client:
                for part in octets.split(b"|"):
                    client.says(part)
                    time.sleep(0.05)
                for begins in answers:
                    answer = client.hears()
                    if not fits(answer, begins):
                        yield f"{octets[:40]!r}: {answer!r}, and not {begins!r}"
        with Client(port) as client:
            client.says(b"counters\nstop n")
            client.socket.shutdown(socket.SHUT_WR)
            told = client.hears(), client.hears()
            if not fits(told[0], "ok|") or not fits(told[1], "error: the last line has no"):
                yield f"a line without an end: {told}"
            if not client.is_left():
                yield "a connection is not left whose client has ended"
        if it.process.poll() is not None:
            yield f"the station ended: {it.ended()}"


def input_mistakes(program):
    """What is wrong with commands on standard input: their answers come on standard output, and its
    end is no command."""
    with Link(program) as link:
        words = ["--inbox", "to", "--commands"]
        it = link.starts(2, words, stdin=subprocess.PIPE)
        for octets in (b"coun", b"ters\nlst\n", b"\xff\n" + b"x" * 5000, b"\ncounters\nstop"):
            it.process.stdin.write(octets)
            it.process.stdin.flush()
            time.sleep(0.2)
        it.process.stdin.close()
        answers = lambda: re.findall(r"(?m)^(?:ok$|error: .*)", it.text("stdout"))
        waits_for(lambda: len(answers()) >= 5)
        time.sleep(1)
        found = answers()
        wanted = ["ok", "error: ", "error: the line is not", "error: the line has more", "ok"]
        if len(found) != 5 or not all(it.startswith(to) for it, to in zip(found, wanted)):
            yield f"its answers: {found}"
        if it.process.poll() is not None:
            yield f"it ended with its input: {it.ended()}"
    for text in ("counters\n", ""):
        with Link(program) as link, open(f"{link.program.room}/lines", "w+") as lines:
            lines.write(text)
            lines.seek(0)
            it = link.starts(2, words, stdin=lines)
            waits_for(lambda: it.text("stdout").count("ok\n") >= text.count("\n"))
            time.sleep(0.5)
            found = it.text("stdout").count("ok\n")
            if found != text.count("\n") or it.process.poll() is not None:
                yield f"a file of commands: {found} answers, {it.process.poll()}"


# A shell that has a station in the background of its terminal until there is a file `go`, and then
# in front of it.
BACKGROUND = "set -m; {} & until [ -e go ]; do sleep 0.1; done; fg"


def takes_terminal():
    """Makes standard input the terminal of this session, which an interrupt ends, also where who
    runs all this ignores one."""
    signal.signal(signal.SIGINT, signal.SIG_DFL)
    fcntl.ioctl(0, termios.TIOCSCTTY, 0)


def told_until(output, word):
    """What comes from an output until it has this word."""
    told, stop = b"", time.monotonic() + SECONDS
    while word not in told and time.monotonic() < stop:
        if select.select([output], [], [], 1)[0]:
            octets = os.read(output.fileno(), 4096)
            told += octets
            if not octets:
                break
    return told


def interrupted(process, terminal):
    """What a process writes that is in front of a terminal, or comes there in time, and is
    interrupted from it."""
    for _ in range(12):
        os.write(terminal, b"\x03")
        try:
            return process.communicate(timeout=5)[0]
        except subprocess.TimeoutExpired:
            pass
    # Each process of that session, so that nobody has the output any more.
    subprocess.run(["pkill", "-KILL", "-s", str(process.pid)], check=False)
    return process.communicate()[0]


def terminal_mistakes(program):
    """What is wrong where the commands come from a terminal, in whose background the station is at
    first: it isn't stopped for reading there, and what is typed is taken once it is before it."""
    with Link(program) as link:
        words = [program.path, "station", "--id", "2", "--peer", "1", "--inbox", ".", "--commands"]
        for option, port in zip(("--to", "--listen"), free_ports(2)):
            words += [option, f"127.0.0.1:{port}"]
        outer, inner = pty.openpty()
        ways = {"stdin": inner, "stderr": inner, "stdout": subprocess.PIPE}
        ways["preexec_fn"] = takes_terminal
        with ALONE:
            shell = ["bash", "-c", BACKGROUND.format(" ".join(words))]
            it = subprocess.Popen(shell, cwd=link.folder, start_new_session=True, **ways)
        waits_for(lambda: is_bound(int(words[-1].rpartition(":")[2])))
        os.write(outer, b"counters\n")
        time.sleep(1)
        if select.select([it.stdout], [], [], 0)[0]:
            written = os.read(it.stdout.fileno(), 4096).splitlines()
            if any(b" note " not in line for line in written):
                yield f"in the background it writes {written!r}"
        with open(f"{link.folder}/go", "wb"):
            out = told_until(it.stdout, b"ok\n")
        out += interrupted(it, outer)
        if not out.decode().endswith("ok\n") or b"topped" in out:
            yield f"in front it writes {out!r}"
        for fd in (outer, inner):
            os.close(fd)


# ---- many and bad clients


def crowd_mistakes(program):
    """What is wrong where a ninth connection comes: of eight that send nothing the one that was
    answered first gives way, and is told so. Where all eight are at work, the ninth is told."""
    with Link(program) as link:
        _, port = controlled(link, 2, ["--inbox", "to"])
        clients, told = zip(*apart(let_in(port) for _ in range(8)))
        if not all(fits(it, "ok|") for it in told):
            yield f"eight connections are told {told}"
        answers = list(apart(it.asks("counters") for it in clients[:2]))
        for closed in (*clients[2:], *clients[:2]):
            more, answer = let_in(port)
            if not fits(answer, "ok|"):
                yield f"the ninth is told {answer!r}"
            left = closed.hears(), closed.is_left()
            if not fits(left[0], "error: closed: ") or not left[1]:
                yield f"the one that is idle the longest is told {left}"
            answers.append(answer)
            closed.socket.close()
            clients = (*clients, more)
        told = [it.asks("counters") for it in clients[8:]]
        if not all(fits(it, "ok|") for it in (*answers, *told)):
            yield f"those that are left are told {told}"
        for it in clients:
            it.socket.close()


def busy_mistakes(program):
    """What is wrong where eight connections send no whole line, or read nothing: others are
    answered within seconds all the same."""
    with Link(program) as link:
        _, port = controlled(link, 2, ["--inbox", "to"])
        clients = [let_in(port)[0] for _ in range(4)]
        clients += [Client(port, is_deaf=True) for _ in range(4)]
        for client in clients[4:]:
            client.babbles(1)
        stop = threading.Event()

        def trickles():
            while not stop.wait(0.1):
                for client in clients[:4]:
                    client.says(b"x")

        thread = threading.Thread(target=suppressed, args=(trickles,))
        thread.start()
        for _ in range(4):
            began = time.monotonic()
            more, answer = let_in(port)
            took = time.monotonic() - began
            more.socket.close()
            if not fits(answer, "ok|") or took > 3 + SLACK:
                yield f"beside them it is answered {answer!r} after {took:.1f} s"
        stop.set()
        thread.join()
        for it in clients:
            it.socket.close()


def suppressed(work):
    """Works until its connection is closed at the other end."""
    try:
        work()
    except OSError:
        pass


# What answers in place of a station, and what `ask` may show of it.
FALSE = (
    (b"\x1b]0;title\x07\x1b[31mred\n\xc2\x9b1m\t\x7f\r\nok\n\n",
     "%1B]0;title%07%1B[31mred\n%C2%9B1m%09%7F%0D\nok\n"),
    (b"100% of a%20b\nok\n\n", "100% of a%20b\nok\n"),
)


def false_mistakes(program):
    """What is wrong with what `ask` shows of one who answers in place of a station: it does nothing
    to a terminal, and one who never ends is left soon."""
    for sent, wanted in FALSE:
        found = asked_of(program, lambda it: it.sendall(sent))
        if found[:2] != (0, wanted) or found[2]:
            yield f"{sent!r} is shown as {found}"
    for what in (b"x" * 65536, b"line\n" * 13_107):
        began = time.monotonic()
        status, out, err = asked_of(program, lambda it: babbles(it, what))
        took = time.monotonic() - began
        if status != 3 or out or not re.search(r"^error: .*octets", err) or took > 5 + SLACK:
            yield f"one who never ends: {status}, {out[:40]!r}, {err!r}, after {took:.1f} s"


def babbles(connection, octets):
    """Sends these octets again and again, as long as they are taken."""
    suppressed(lambda: [connection.sendall(octets) for _ in range(2000)])


def asked_of(program, answers):
    """What `ask` tells where a connection is answered so: its status, and both outputs."""
    with socket.socket() as listener:
        listener.bind(("127.0.0.1", 0))
        listener.listen()

        def serves():
            connection, _ = listener.accept()
            with connection:
                connection.settimeout(SECONDS)
                connection.recv(4096)
                answers(connection)

        thread = threading.Thread(target=suppressed, args=(serves,))
        thread.start()
        found = asked(program, listener.getsockname()[1], "list")
        thread.join()
    return found


def deaf_mistakes(program):
    """What is wrong where clients never read, close in the midst of an answer, or are reset: others
    are answered all the same, and little memory is taken."""
    chance = chance_of(46)
    with Link(program) as link:
        it, port = controlled(link, 2, ["--inbox", "to"])
        deaf = [Client(port, is_deaf=True) for _ in range(4)]
        before = peak_of(it.process)
        babblers = [threading.Thread(target=client.babbles, args=(8,)) for client in deaf]
        for thread in babblers:
            thread.start()
        for _ in range(300):
            with Client(port) as client:
                began = time.monotonic()
                answer = client.asks("counters")
                took = time.monotonic() - began
                if not fits(answer, "ok|") or took > SOON:
                    yield f"beside clients that don't read: {answer!r} after {took:.2f} s"
                client.says(b"help\n" * 100)
                if chance.random() < 0.5:
                    client.breaks_off()
        for thread in babblers:
            thread.join()
        grown = peak_of(it.process) - before
        if grown > 16 << 20:
            yield f"it has taken {grown} octets for clients that don't read"
        for client in deaf:
            client.socket.close()
        with Client(port) as client:
            if not fits(client.asks("counters"), "ok|"):
                yield "once they have gone it doesn't answer"
        if it.process.poll() is not None:
            yield f"the station ended: {it.ended()}"


def burst_mistakes(program):
    """What is wrong in a burst of commands, in one of some trials."""
    yield from in_one_of(TRIALS, lambda: burst_trial_mistakes(program))


def burst_trial_mistakes(program):
    """What is wrong where 10,000 lines come in a burst as a file is sent: each is answered, in
    order, and frames leave all the while."""
    octets = chance_of(43).randbytes(1_000_000)
    with Link(program, Relay()) as link:
        receiver = link.starts(2, ["--inbox", "to"], PATIENT)
        words = link.puts(1, {"a": octets}) + ["--rate", "1000"]
        _, port = controlled(link, 1, words, PATIENT)
        with Client(port) as client:
            client.says(b"list\nlst\n" * 5000)
            answers = []
            while len(answers) < 10_000 and (not answers or answers[-1] is not None):
                answers.append(client.hears())
        wrong = [it for at, it in enumerate(answers) if not fits(it, ("ok|", "error: ")[at % 2])]
        if wrong or len(answers) != 10_000:
            yield f"{len(answers)} answers, of which {len(wrong)} are others: {wrong[:2]}"
        if receiver.comes_to("finished .* 0 complete retained") is None:
            yield "the file didn't come"
        times = sorted(when for when, own, _ in list(link.relay.came) if own == 1)
        yield from silence_mistakes(times[:4000], 1000)


# ---- at rest


def wakes(process, seconds):
    """How often a process woke in a second, and what part of it it ran."""
    before, began = counts_of(process), time.monotonic()
    time.sleep(seconds)
    after, took = counts_of(process), time.monotonic() - began
    return tuple((late - early) / took for early, late in zip(before, after))


def counts_of(process):
    """How often a process has waited so far, and how many seconds it ran."""
    with open(f"/proc/{process.pid}/status", encoding="ascii") as it:
        waits = int(re.search(r"(?m)^voluntary_ctxt_switches:\s+(\d+)", it.read())[1])
    with open(f"/proc/{process.pid}/stat", encoding="ascii") as it:
        parts = it.read().rsplit(") ", 1)[1].split()
    return waits, (int(parts[11]) + int(parts[12])) / os.sysconf("SC_CLK_TCK")


def rest_mistakes(program):
    """What is wrong where a station has nothing to do, and its standard input is at its end, or
    connections lie idle, are full of answers, or were reset: it has to rest."""
    with Link(program) as link:
        with open(os.devnull, "rb") as nothing:
            words = ["--inbox", "to", "--commands"]
            it, port = controlled(link, 2, words, stdin=nothing)
        clients = [Client(port, is_deaf=at == 7) for at in range(8)]
        for client in clients[:4]:
            client.asks("counters")
        clients[4].says(b"half a li")
        clients[5].breaks_off()
        clients[6].socket.shutdown(socket.SHUT_WR)
        clients[7].babbles(2)
        # What was asked so far is answered as far as there is room for that.
        stop = time.monotonic() + SECONDS
        while wakes(it.process, 0.5)[1] > 0.05 and time.monotonic() < stop:
            pass
        for what in ("as it is", "while it is frozen"):
            often, part = wakes(it.process, 3)
            if often >= MOST_WAKES or part > 0.1:
                yield f"{what} it wakes {often:.1f} times a second, and runs {part:.2f} of it"
            answer = clients[0].asks("freeze")
            if not fits(answer, "ok|"):
                yield f"freeze is answered {answer!r}"
        began = time.monotonic()
        for _ in range(20):
            clients[1].asks("counters")
        took = time.monotonic() - began
        if took > 1 + SLACK:
            yield f"20 answers at rest take {took:.1f} s"


# ---- a link that is down by plan


def stopped(program, station, port):
    """How a station ends that is told to stop once nothing is open there."""
    waits_for(lambda: asked(program, port, "list")[1].startswith("open 0 "))
    asked(program, port, "stop")
    return station.ended()


def freeze_mistakes(program):
    """What is wrong where a link is down by plan for longer than all timers: no frame leaves, no
    timer runs, what comes is thrown away, and once it is up again all goes on."""
    octets = chance_of(44).randbytes(60_000)
    soon = {"eof_time": 5, "eof_limit": 2, "nak_time": 5, "nak_limit": 2, "finished_time": 5}
    soon |= {"finished_limit": 2, "inactivity_time": 15}
    with Link(program, Relay()) as link:
        receiver, there = controlled(link, 2, ["--inbox", "to"], soon)
        words = link.puts(1, {"a": octets}) + ["--rate", "100"]
        sender, here = controlled(link, 1, words, soon)
        while len(link.relay.came) < 60 and sender.process.poll() is None:
            time.sleep(0.01)
        for port in (here, there):
            answer = asked(program, port, "freeze")
            if answer[:2] != (0, "ok\n"):
                yield f"freeze is answered {answer}"
        time.sleep(0.2)
        began = time.time()
        for count in range(50):
            link.relay.give(1, idle_frame(count))
        time.sleep(20)
        link.relay.catches_up()
        late = link.relay.first(began)
        if late is not None:
            yield f"a frame left {late - began:.2f} s after the link was down"
        for it in (sender, receiver):
            if it.process.poll() is not None or re.search("fault|suspended", it.text("stdout")):
                yield f"station {it.own}: {it.process.poll()}, {it.text('stdout')!r}"
        counters = asked(program, here, "counters")
        if not re.search(r"(?m)^datagrams_thrown_away 5\d$", counters[1]):
            yield f"50 frames were thrown away, and it counted {counters[1]!r}"
        for port in (there, here):
            if asked(program, port, "thaw")[:2] != (0, "ok\n"):
                yield "thaw isn't answered ok"
        if receiver.comes_to("finished .* 0 complete retained") is None:
            yield f"the file didn't come: {receiver.text('stdout')!r}"
        ends = [stopped(program, it, port) for it, port in ((sender, here), (receiver, there))]
        if any(status or "fault" in out for status, out, _ in ends):
            yield f"they ended so: {ends}"
        if files_at(link.folder, 2) != {"a": octets}:
            yield "another file came"


def list_mistakes(program):
    """What is wrong with what `list` tells of a file on its way: how far both ends are, of which a
    frame is lost, and for what each waits; and with what a Keep Alive adds."""
    lost = lambda own, frame: own != 1 or len(link.relay.came) != 40
    line = r"open 1 waiting 0 timeout \S+\n(1:\d+) (\w+) a b 2000000 (\d+) (\S+) (\S+)\nok\n"
    with Link(program, Relay(lost)) as link:
        _, there = controlled(link, 2, ["--inbox", "to"], PATIENT)
        put(link.folder, 1, "a", chance_of(45).randbytes(2_000_000))
        words = ["--outbox", "from", "--put", "a", "b", "--rate", "100"]
        _, here = controlled(link, 1, words, PATIENT)
        waits_for(lambda: len(link.relay.came) >= 100)
        told = [asked(program, port, "list")[1] for port in (here, there)]
        found = [re.fullmatch(line, it) for it in told]
        if not all(found):
            yield f"it is told {told}"
            return
        # A sender waits for nothing before its EOF.
        for it, phase, timer in zip(found, ("sending", "receiving"), ("-", "inactivity")):
            if it[2] != phase or it[5] != timer or not 5_000 < int(it[3]) < 2_000_000:
                yield f"of a file on its way it is told {it[0]!r}"
        if found[0][4] != "-" or not 90 < int(found[1][4]) <= 100:
            yield f"the next time-outs are in {[it[4] for it in found]}"
        asked(program, here, "prompt", found[0][1], "keep")
        is_held = lambda: " held " in asked(program, here, "list")[1]
        if not waits_for(is_held):
            yield "a Keep Alive isn't told"


def stop_mistakes(program):
    """What is wrong where a station is told to stop: it ends once what it has is over, or now."""
    with Link(program, Relay()) as link:
        link.starts(2, ["--inbox", "to"], PATIENT)
        words = link.puts(1, {"a": bytes(50_000)}) + ["--rate", "100"]
        sender, port = controlled(link, 1, words, PATIENT)
        if asked(program, port, "stop")[0] != 0:
            yield "stop isn't answered ok"
        status, out, err = sender.ended()
        if status or not out.endswith("complete 1 of 1\n"):
            yield f"stop: status {status}, {out!r}, {err!r}"
        slow = link.puts(1, {"b": bytes(500_000)}) + ["--rate", "10"]
        sender, port = controlled(link, 1, slow, PATIENT)
        began = time.monotonic()
        asked(program, port, "stop", "now")
        status, out, err = sender.ended()
        if time.monotonic() - began > 2 + SLACK or not out.endswith("complete 0 of 1\n"):
            yield f"stop now: status {status}, {out!r}, {err!r}"


def all_mistakes(program):
    """What is tried, with what is wrong in it."""
    yield "the answers to ask", ask_mistakes(program)
    yield "the help of ask, beside that of a station", help_mistakes(program)
    yield "a control address that won't do", address_mistakes(program)
    yield "lines of commands", line_mistakes(program)
    yield "commands on standard input", input_mistakes(program)
    yield "commands from a terminal", terminal_mistakes(program)
    yield "nine connections", crowd_mistakes(program)
    yield "eight connections that keep others out", busy_mistakes(program)
    yield "one who answers in place of a station", false_mistakes(program)
    yield "clients that don't read", deaf_mistakes(program)
    yield "10,000 commands in a burst", burst_mistakes(program)
    yield "a station at rest with clients", rest_mistakes(program)
    yield "a link that is down by plan", freeze_mistakes(program)
    yield "the list of what is open", list_mistakes(program)
    yield "a station that is told to stop", stop_mistakes(program)
