"""Files that `loop` sends from one folder into another: of many lengths, with losses, if sends and
receives fail; and what it shows on a terminal."""
import os
import pty
import re
import subprocess
import tempfile

import sweeps
from lib.choices import chance_of
from lib.lengths import BLOCK, SIZES
from lib.processes import shown_on
from lib.program import LONGEST, files_in, make


def transfer_mistakes(program, octets, words):
    """What is wrong with the transfer of a file of these octets from one folder into another."""
    return transferred(program, octets, words)[0]


def transferred(program, octets, words, faults=""):
    """The same, and whether the faults, of which a mark was asked, have shown."""
    with tempfile.TemporaryDirectory(dir=program.room) as folder:
        for name in ("from", "to"):
            os.mkdir(f"{folder}/{name}")
        with open(f"{folder}/from/a.bin", "wb") as it:
            it.write(octets)
        whole = [program.path, "loop", "from", "to", "a.bin", "b.bin", *words]
        how = {"cwd": folder, "capture_output": True, "timeout": LONGEST}
        how["env"] = {"PATH": "/usr/bin:/bin", **(program.faulty(faults) if faults else {})}
        ran = subprocess.run(whole, **how)
        came = {it: text for it, text in files_in(folder).items() if it != "from/a.bin"}
    shows, wrong = came.pop("refused", None) is not None, []
    if ran.returncode or not ran.stdout.endswith(b"complete 1 of 1\n") or ran.stderr:
        outputs = f"{ran.stdout[-300:]}, {ran.stderr[-300:]}"
        wrong.append(f"with status {ran.returncode} it wrote {outputs}")
    if came != {"to/b.bin": octets}:
        lengths = {it: len(text) for it, text in came.items()}
        wrong.append(f"what came isn't what was sent: {lengths}")
    return wrong, shows


def traced(program, faults):
    """What a transfer shows with these faults, of which a mark was asked: status, report, trace but
    for what is told of the frame that is lost, and what came; and whether the faults have shown."""
    there = {"from/a.bin": bytes(range(256)) * 12, "to/": b""}
    with tempfile.TemporaryDirectory(dir=program.room) as folder:
        for path, octets in there.items():
            os.makedirs(f"{folder}/{os.path.dirname(path)}", exist_ok=True)
            if octets:
                with open(f"{folder}/{path}", "wb") as it:
                    it.write(octets)
        whole = [program.path, "loop", "from", "to", "a.bin", "b.bin", "--trace"]
        env = {"PATH": "/usr/bin:/bin", **program.faulty(faults)}
        ran = subprocess.run(whole, cwd=folder, capture_output=True, timeout=LONGEST, env=env)
        came = files_in(folder)
    shows = came.pop("refused", None) is not None
    trace = [it for it in ran.stderr.decode().split("\n") if " loses " not in it]
    return (ran.returncode, ran.stdout, trace, came), shows


def shown(program, folder, words):
    """The status of a run in a folder, and what it writes to a terminal as its standard error."""
    reading, terminal = pty.openpty()
    how = {"cwd": folder, "stdout": subprocess.PIPE, "stderr": terminal, "timeout": LONGEST}
    ran = subprocess.run([program.path, *words], **how)
    os.close(terminal)
    return ran.returncode, shown_on(reading)


def gaps_mistakes(program):
    """What is wrong with the gaps that are told on a terminal of a file that didn't come whole."""
    words = ["loop", "from", "to", "a.bin", "b.bin", "--drop", "7", "--turns", "1"]
    given = ("from/", "from/a.bin \\(16000 a)", "to/")
    with tempfile.TemporaryDirectory(dir=program.room) as folder:
        for line in given:
            make(folder, line)
        _, told = shown(program, folder, words)
    with tempfile.TemporaryDirectory(dir=program.room) as folder:
        for line in given:
            make(folder, line)
        how = {"cwd": folder, "capture_output": True, "timeout": LONGEST}
        trace = subprocess.run([program.path, *words, "--trace"], **how).stderr.decode()
    pieces = re.findall(r" 2 hears data 1:1 (\d+) (\d+)", trace)
    ranges = sorted((int(first), int(first) + int(length)) for first, length in pieces)
    octets = sum(end - first for first, end in ranges)
    gaps = sum(1 for end, (first, _) in zip([0, *(it[1] for it in ranges)], ranges) if end < first)
    if gaps < 3 or f"\r{octets:7} octets received, {gaps:3} gaps, " not in told:
        yield f"it wrote {told!r} to a terminal, and of {ranges} had come {octets} with {gaps}"


def terminal_mistakes(program):
    """What is wrong with the line that says on a terminal how far a transfer is."""
    with tempfile.TemporaryDirectory(dir=program.room) as folder:
        for line in ("from/", "from/a.txt hello", "to/"):
            make(folder, line)
        status, told = shown(program, folder, ["loop", "from", "to", "a.txt", "b.txt"])
    line = r"\r *\d+ octets received, *\d+ gaps, *\d+ PDUs sent"
    last = "\r      5 octets received,   0 gaps,     6 PDUs sent\r\n"
    if status or not re.fullmatch(f"({line})+\r\n", told) or not told.endswith(last):
        yield f"with status {status} it wrote {told!r} to a terminal"


def reason_mistakes(program):
    """What is wrong with the reason of a bad script, which a terminal shows unasked."""
    with tempfile.TemporaryDirectory(dir=program.room) as folder:
        make(folder, "bad.script stop")
        status, told = shown(program, folder, ["sim", "bad.script"])
    wanted = 'line 1: bad script\r\nhelp: "stop": unknown command; '
    wanted += "'cfdp_node sim --help' lists all commands\r\n"
    if (status, told) != (2, wanted):
        yield f"with status {status} it wrote {told!r} to a terminal"


def shown_mistakes(program):
    """What is wrong with a trace on a terminal, where the line gives way to it."""
    words = ["loop", "from", "to", "a.txt", "b.txt", "--trace"]
    with tempfile.TemporaryDirectory(dir=program.room) as folder:
        for line in ("from/", "from/a.txt hello", "to/"):
            make(folder, line)
        _, told = shown(program, folder, words)
        os.remove(f"{folder}/to/b.txt")
        how = {"cwd": folder, "capture_output": True, "timeout": LONGEST}
        trace = subprocess.run([program.path, *words], **how).stderr.decode()
    line = r"\r *\d+ octets received, *\d+ gaps, *\d+ PDUs sent"
    lines = re.sub(rf"(({line})*\r\x1b\[K)+", "", told)
    if re.sub(rf"({line})+\r\n$", "", lines) != trace.replace("\n", "\r\n"):
        yield f"it wrote {told!r} to a terminal, and {trace!r} to a pipe"


def transfers():
    """Files that go from one folder into another, with the words behind the command."""
    octets = chance_of(7).randbytes(SIZES[-1])
    lost = {1: 3, 1025: 9, BLOCK + 1: 7}
    whole = [(size, lost.get(size, 0)) for size in (*SIZES, 1025)]
    for size, every in (*whole, (1 << 20, 7), (1 << 20, 100), (5_000_000, 1000)):
        yield f"a file of {size} octets, each {every}th frame lost", octets[:size], every


def failing_mistakes(program):
    """What is tried with sends and receives that fail, and what is wrong in it."""
    octets = bytes(range(256)) * 12
    for call in ("send", "receive"):
        run = lambda faults: transferred(program, octets, [], faults)
        yield f"a transfer in which a {call} fails", sweeps.wire_mistakes(run, call)
    for call, lost in (("send", "lose"), ("receive", "swallow")):
        wrong = sweeps.twin_mistakes(lambda it: traced(program, it), call, lost)
        yield f"a transfer in which a {call} fails, beside one that loses that frame", wrong
    wrong = sweeps.folder_mistakes(lambda it: traced(program, it), octets)
    yield "a file between folders, memory refused", wrong


def all_mistakes(program):
    """What is tried, with what is wrong in it."""
    for name, octets, every in transfers():
        # What is lost in step with what is sent again passes only after many NAKs.
        words = ["--drop", str(every), "--set", "nak_limit", "255"]
        yield name, transfer_mistakes(program, octets, words)
    yield from failing_mistakes(program)
    yield "a line on a terminal", terminal_mistakes(program)
    yield "the gaps on a terminal", gaps_mistakes(program)
    yield "the reason of a bad script on a terminal", reason_mistakes(program)
    yield "a trace on a terminal", shown_mistakes(program)
