"""Scripts by chance over a link that keeps no order, whose stations restart or resume: always the
same ones. What each reports is judged by what its puts and its indications ask for, life by life. A
life goes on through all times that its station resumes, and no record may keep it from that.

A report has no mark where a station restarted. So the script is cut before each `restart`, and run
up to there: as many lines as a station reported then are those of its lives before.
"""
import random
import subprocess

from lib.choices import seeds
from lib.pdus import checksum_of
from lib.scripts import files_of

SCRIPTS, SECONDS = 120, 600

SETUPS = [
    "set segment 4\nset on_inactivity 2\n",
    "set segment 4\nset error_control 1\nset zone 40\n",
    "set segment 8\nset error_control 1\nset pdu_crc 1\nset eof_limit 1\nset nak_limit 1\n",
]
FILES = """\
file 1 a hello, world
fill 1 long 90 41
file 1 none x
file 2 a other
fill 2 long 61 7E
"""
LANES = ["", " dir", " data"]


def commands(chance):
    """A command, by chance. Those that move frames come most often."""
    side, other = chance.choice([(1, 2), (2, 1)])
    lane = chance.choice(LANES)
    few = chance.randint(1, 4)
    name = f"{side}:{chance.randint(1, 4)}"
    kinds = [
        (6, f"put {side} {chance.choice(['a', 'long', 'gone'])} {chance.choice('bcd')}"),
        (8, f"spread {side}"),
        (4, f"burst {side}"),
        (4, f"poll {side}\nflush {side}"),
        (12, f"deliver {side}{lane} {few}"),
        (12, f"overtake {side}{lane} {few}"),
        (12, f"repeat {side}{lane} {chance.randint(1, 9)}"),
        (5, f"strike {side}{lane}"),
        (4, f"damage {side}{lane} {chance.randint(0, 30)} {chance.randint(0, 255):02X}"),
        (3, f"restart {side}"),
        (3, f"restart {side} resume"),
        (3, f"tick {side} {chance.randint(0, 400)}"),
        (1, f"cancel {other} {name}"),
        (1, f"suspend {side} {name}\nresume {side} {name}"),
        (1, f"prompt {side} {name} {chance.choice(['nak', 'keep'])}"),
        (2, "settle"),
        (1, "recover"),
    ]
    weights = [it[0] for it in kinds]
    return chance.choices(kinds, weights)[0][1]


def script_of(seed):
    """A script of some 60 lines."""
    chance = random.Random(seed)
    lines = [commands(chance) for _ in range(60)]
    return SETUPS[seed % 3] + FILES + "\n".join([*lines, "restart 2", "recover"]) + "\n"


def report_of(program, script):
    """The lines of a script's report."""
    how = {"capture_output": True, "text": True, "timeout": SECONDS}
    ran = subprocess.run([program, "sim"], input=script, **how)
    if ran.returncode > 1 or ran.stderr:
        raise ValueError(f"status {ran.returncode}, {ran.stderr!r}")
    return ran.stdout.splitlines()


def told_in(report):
    """What each station told, in order."""
    return {side: [it for it in report if it.startswith(f"{side} ")] for side in "12"}


def puts_of(script, report):
    """The names of each accepted put, by its transaction; None where they can't be matched."""
    refused = {int(it.split(" ")[1]) for it in report if it.startswith("line ")}
    asked = {"1": [], "2": []}
    for number, line in enumerate(script.split("\n"), 1):
        it = line.split(" ")
        if it[0] == "put" and number not in refused:
            asked[it[1]].append((it[2], it[3]))
    puts = {}
    for side, told in told_in(report).items():
        ids = [it.split(" ")[2] for it in told if it.split(" ")[1] == "transaction"]
        numbers = [int(it.split(":")[1]) for it in ids]
        if len(ids) != len(asked[side]) or numbers != sorted(set(numbers)):
            return None
        puts.update(zip(ids, asked[side]))
    return puts


def is_complete(line):
    """Whether a line tells that a transaction was complete."""
    return line.split(" ")[1] == "finished" and line.endswith(" 0 complete retained")


def expected(script, report, puts):
    """The lines that must end the report."""
    files, inboxes, complete = files_of(script), {}, 0
    for side, told in told_in(report).items():
        for line in filter(is_complete, told):
            name = line.split(" ")[2]
            if name.split(":")[0] == side:
                complete += 1
            else:
                source, destination = puts[name]
                inboxes[side, destination] = files[name.split(":")[0], source]
    asked = sum(1 for line in script.split("\n") if line.startswith("put "))
    for (side, name), octets in sorted(inboxes.items()):
        yield f"inbox {side} {name} {len(octets)} {checksum_of(octets):08X}"
    yield f"complete {complete} of {asked}"


def lives_of(program, script, report):
    """What each station told in each of its lives."""
    lines, now = script.split("\n"), told_in(report)
    cuts = {"1": [0], "2": [0]}
    for place, line in enumerate(lines):
        if line.startswith("restart "):
            # What keeps no order is told in this form; so many frames never arrived.
            before = "\n".join([*lines[:place], "repeat 1 1000000", ""])
            before = told_in(report_of(program, before))
            for side in "12":
                if now[side][: len(before[side])] != before[side]:
                    raise ValueError(f"what station {side} told before line {place + 1} is gone")
            side, *resumes = line.split(" ")[1:]
            if not resumes:
                cuts[side].append(len(before[side]))
    for side, places in cuts.items():
        for first, end in zip(places, [*places[1:], len(now[side])]):
            yield side, now[side][first:end]


def faults_of(program, script):
    """What is wrong with a script's report; and how many complete files it tells of."""
    report = report_of(program, script)
    puts = puts_of(script, report)
    if puts is None:
        return ["the accepted puts have other numbers than they should"], 0
    wrong = []
    ends = [it for it in report if it.startswith(("inbox ", "complete "))]
    if ends != list(expected(script, report, puts)):
        wrong.append("the inboxes or the count aren't what the completions ask for")
    for side, told in lives_of(program, script, report):
        finished = [it.split(" ")[2] for it in told if it.split(" ")[1] == "finished"]
        if len(finished) != len(set(finished)):
            wrong.append(f"station {side} told a transaction finished twice in a life")
    if any(it.endswith(" NotRestored") for it in report):
        wrong.append("a record kept a station from resuming")
    told = told_in(report)
    complete = {side: {it.split(" ")[2] for it in filter(is_complete, told[side])} for side in "12"}
    for side, other in ("1", "2"), ("2", "1"):
        own = {it for it in complete[side] if it.split(":")[0] == side}
        if not own <= complete[other]:
            wrong.append(f"station {side} was told complete what the other hasn't completed")
        for it in (line.split(" ") for line in told[other] if line.split(" ")[1] == "metadata"):
            if puts.get(it[2]) != (it[3], it[4]):
                wrong.append(f"station {other} heard Metadata of no put: {it}")
    return wrong, sum(len(it) for it in complete.values())


def trials(program):
    """All scripts: a name, and what is wrong with it."""
    complete = 0
    for seed in seeds(SCRIPTS):
        try:
            wrong, count = faults_of(program, script_of(seed))
        except Exception as error:  # pylint: disable=broad-except
            wrong, count = [f"it broke off: {error!r}"], 0
        complete += count
        yield f"script {seed} over a link that keeps no order", wrong
    enough = [] if complete > SCRIPTS else [f"only {complete} files were complete"]
    yield "scripts over a link that keeps no order complete files", enough
