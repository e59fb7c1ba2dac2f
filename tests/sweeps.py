"""Sweeps: a run of the program again and again, with another thing going wrong in each."""
import itertools
import re

from lib.pdus import checksum_of
from lib.scripts import files_of

# Commands of many events, which end at the first in which something was short.
SETTLING = ("settle", "recover")
# What a run says of a refused growth of memory, apart from its report.
AT_START = ("", "")
UNSHOWN = "error: out of memory for --explain, --trace, --pcap or --chart\n"
DROPPED = re.compile(r"station [12] dropped: (link 11|pdu 16) NoMemory, \d+")
# The answers of commands that runs showed of which a growth of memory was refused.
SHOWN = set()


def folded(script, report):
    """The lines that must end a report: the file of each completed put over those before it, and
    how many puts were completed."""
    files, puts, inboxes, complete = files_of(script), {}, {}, 0
    for it in (line.split(" ") for line in report.split("\n")):
        if it[1:2] == ["metadata"]:
            puts[it[0], it[2]] = it[3], it[4]
        elif it[1:2] == ["finished"] and it[3:] == ["0", "complete", "retained"]:
            sender = it[2].split(":")[0]
            if sender == it[0]:
                complete += 1
            else:
                source, destination = puts[it[0], it[2]]
                inboxes[it[0], destination] = files[sender, source]
    asked = sum(1 for line in script.split("\n") if line.startswith("put "))
    return [
        *(
            f"inbox {station} {name} {len(octets)} {checksum_of(octets):08X}"
            for (station, name), octets in sorted(inboxes.items())
        ),
        f"complete {complete} of {asked}",
    ]


def is_folded(script, report):
    """Whether a report ends as what it tells asks for."""
    ends = ("inbox ", "complete ")
    return [it for it in report.split("\n") if it.startswith(ends)] == folded(script, report)


def parted(report):
    """A report in two: the answers of commands, by line, and what the stations told, by station and
    in order."""
    answers, told = {}, {"1": [], "2": []}
    for it in (line.split(" ") for line in report.split("\n")):
        if it[0] == "line":
            answers[int(it[1])] = it[2]
        elif it[0] in told:
            told[it[0]].append(it[1:])
    return answers, told


def is_part(part, whole):
    """Whether a list is another one without some of its items."""
    left = iter(whole)
    return all(it in left for it in part)


def is_turned(part, whole, turn, is_needed):
    """Whether a list is the front of another, then `turn`, and then a part of the rest; without
    `turn`, if that isn't needed, a front alone."""
    for at in range(len(part)):
        if part[at : at + len(turn)] == turn:
            behind = part[at + len(turn) :]
            return part[:at] == whole[:at] and is_part(behind, whole[at:])
    return not is_needed and part == whole[: len(part)]


class Refusals:
    """What runs of a script may report of which one growth of memory was refused, by the reports of
    runs that had all their memory. `run` gives the report of a script."""

    def __init__(self, run, script):
        self.run, self.lines, self.own = run, script.split("\n"), parted(run(script))
        self.cuts, self.strikes = {}, []

    def allow(self, report, explained):
        """Whether this may be such a report: of which command says NoMemory, or which fault it
        tells, or whether a drop is explained."""
        answers, told = parted(report)
        wanting = [number for number, name in answers.items() if name == "NoMemory"]
        fault = re.search(r"(?m)^([12]) fault ([0-9:]+) 4$", report)
        if wanting and self.lines[wanting[0] - 1] in SETTLING:
            return self.is_ended(wanting[0], answers, told)
        if wanting:
            return (answers, told) in self.cut(wanting[0])
        if fault:
            return self.is_given_up(*fault.groups(), answers, told)
        return bool(DROPPED.search(explained)) and (answers, told) in self.struck()

    def cut(self, number):
        """The reports where this command made only its first events, or none, and said NoMemory."""
        if number not in self.cuts:
            self.cuts[number] = list(self.cuts_of(number))
        return self.cuts[number]

    def cuts_of(self, number):
        verb, station = self.lines[number - 1].split(" ")[:2]
        if verb == "put":
            yield self.with_others(number, [f"put {station} no-such-file x"])[0]
            return
        yield self.with_others(number, ["#"])[0]
        events = {"spread": ["poll", "flush"], "burst": ["poll"]}.get(verb, [])
        for count in itertools.count(1) if events else ():
            made = itertools.islice(itertools.cycle(events), count)
            report, inner = self.with_others(number, [f"{it} {station}" for it in made])
            if inner:
                return
            yield report

    def with_others(self, number, commands):
        """The report where other commands stand in the place of one that says NoMemory, and what
        they answered themselves."""
        lines, more = list(self.lines), len(commands) - 1
        lines[number - 1 : number] = commands
        answers, told = parted(self.run("\n".join(lines)))
        inner = [answers.pop(it, None) for it in range(number, number + more + 1)]
        shifted = {it if it < number else it - more: name for it, name in answers.items()}
        return ({**shifted, number: "NoMemory"}, told), [it for it in inner if it]

    def struck(self):
        """The reports where one of the frames that commands deliver is struck."""
        if not self.strikes:
            self.strikes = list(self.strikes_of())
        return self.strikes

    def strikes_of(self):
        for number, line in enumerate(self.lines, 1):
            found = re.fullmatch(r"deliver (\d+(?: dir| data)?)(?: (\d+))?", line)
            count = int(found[2] or 1) if found else 0
            for before in range(count):
                parts = [("deliver", before), ("strike", 1), ("deliver", count - before - 1)]
                others = [f"{it} {found[1]} {most}" for it, most in parts if most]
                (answers, told), _ = self.with_others(number, others)
                del answers[number]
                yield answers, told

    def is_ended(self, number, answers, told):
        """Whether settling or recovering, with which a script ends, was broken off: what was told
        is a part of what the whole run tells. At which event it was no report says."""
        own_answers, own = self.own
        is_last = not any(self.lines[number:])
        parts = all(is_part(told[it], own[it]) for it in own)
        return is_last and answers == {**own_answers, number: "NoMemory"} and parts

    def is_given_up(self, station, name, answers, told):
        """Whether one call of the inbox failed: that transaction ended with fault 4, and all else
        is as in the whole run, or a part of it where that broke off settling."""
        own_answers, own = self.own
        failed = [it for it in answers if answers[it] == "StoreFailed"]
        ends = [["finished", name, "4", "incomplete", "rejected"]]
        of_it = lambda lines: [line for line in lines if line[1] == name]
        others = lambda lines: [line for line in lines if line[1] != name]
        for it in own:
            is_here = it == station
            last = [["fault", name, "4"], *ends] if is_here else ends
            if not is_turned(of_it(told[it]), of_it(own[it]), last, is_here):
                return False
            rest, whole = others(told[it]), others(own[it])
            if not (is_part(rest, whole) if failed else rest == whole):
                return False
        return all(self.lines[it - 1] in SETTLING for it in failed) and answers == {
            **own_answers,
            **{it: "StoreFailed" for it in failed},
        }


def memory_mistakes(program, row, most=20000):
    """What is wrong where each growth of memory is refused in turn. A refusal shows, and no other
    answer stands in its place; what was published is what was told complete."""
    script, words = "".join(row.given), [*row.words, "--explain"]
    own = program.run(words, script)
    refusals = Refusals(lambda it: program.run(row.words, it)[1], script)
    unseen = []
    for turn in range(1, most):
        status, report, explained, left = program.run(words, script, f"memory={turn} mark")
        SHOWN.update(parted(report)[0].values())
        if "refused" not in left:
            if (status, report, explained) != own[:3]:
                yield f"refusing none of {turn - 1} growths, it wrote {report} and {explained}"
            row.swept = turn - 1, unseen
            return
        if (status, report, explained) == own[:3]:
            unseen.append(turn)
        elif status == 3 and (report, explained) == AT_START:
            pass
        elif explained == UNSHOWN:
            if report != own[1] or status != 3:
                yield f"with growth {turn} refused, only showing it failed, but it wrote {report}"
        elif not is_folded(script, report):
            yield f"with growth {turn} refused, it published what it didn't tell: {report}"
        elif not refusals.allow(report, explained):
            yield f"with growth {turn} refused, it ended with {status}: {report}, {explained}"
    yield f"it asks for more than {most} growths of memory"


def unshown_mistakes():
    """What no run showed of which a growth of memory was refused, and no script shows otherwise."""
    for answer in {"NoMemory", "StoreFailed"} - SHOWN:
        yield f"no command answered {answer}"


def wire_mistakes(transfer, call, most=2000):
    """What is wrong where each call of a wire fails in turn: a frame is lost then, and the file
    arrives all the same. `transfer` runs one with this fault, and tells whether it showed."""
    for turn in range(1, most):
        wrong, shows = transfer(f"{call}={turn} mark")
        yield from (f"where call {turn} fails, {it}" for it in wrong)
        if not shows:
            return
    yield f"it makes more than {most} such calls"


def twin_mistakes(shown, call, lost, most=2000):
    """What is wrong where the run in which a call of a wire fails isn't the one in which that frame
    was lost, for each call in turn. `shown` runs a transfer with a fault, and gives all that it
    shows of it, and whether the fault showed."""
    for turn in range(1, most):
        (failed, shows), (other, is_lost) = (shown(f"{it}={turn} mark") for it in (call, lost))
        if failed != other or shows != is_lost:
            yield f"where call {turn} fails it shows {failed}, and where that frame is lost {other}"
        if not shows:
            return
    yield f"it makes more than {most} such calls"


def folder_mistakes(shown, octets, most=2000):
    """What is wrong where each growth of memory is refused in turn as a file goes from a folder
    into another: it is there if it was told complete, and else nothing is; the status tells."""
    for turn in range(1, most):
        (status, report, _, came), shows = shown(f"memory={turn} mark")
        told = b"\n2 finished 1:1 0 complete retained\n" in report
        there = {path: it for path, it in came.items() if path.startswith("to/")}
        if there != ({"to/b.bin": octets} if told else {}):
            lengths = {path: len(it) for path, it in there.items()}
            yield f"refusing growth {turn}, it told {report[-300:]}, and there lies {lengths}"
        if status == 0 and not told or shows is False and status:
            yield f"refusing growth {turn}, it ended with status {status}: {report[-300:]}"
        if not shows:
            return
    yield f"it asks for memory more than {most} times"


# A script in which a frame is lost, and what is told where its trace breaks off.
TRACED = """set zone 36
file 1 a.txt hello
put 1 a.txt b.txt
burst 1
strike 1
tick 1 3
recover
"""
SHORT = "error: out of memory for --explain, --trace, --pcap or --chart\n"


def trace_mistakes(program, most=5000):
    """What is wrong where each growth of memory is refused in turn as a trace is written: where
    the run is as ever, the trace is whole, or breaks off, and that is told."""
    words = ["sim", "--trace"]
    status, report, trace, _ = program.run(words, TRACED)
    for turn in range(1, most):
        now, told, shown, left = program.run(words, TRACED, f"memory={turn} mark")
        is_cut = now == 3 and shown.endswith(SHORT) and trace.startswith(shown[: -len(SHORT)])
        if told == report and (now, shown) != (status, trace) and not is_cut:
            yield f"refusing growth {turn}, it ended with status {now} and wrote {shown!r}"
        if "refused" not in left:
            return
    yield f"it asks for memory more than {most} times"
