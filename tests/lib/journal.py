"""What a station logs: lines with the time, and objects of JSON."""
import json
import re

# The time in front of a line for people.
STAMP = re.compile(r"\d{4}-\d\d-\d\dT\d\d:\d\d:\d\d\.\d{3}Z ")

# What a line of a report says, and the names of the file that may stand behind it.
BODY = {
    "transaction": 1, "eof-sent": 1, "metadata": 4, "eof-recv": 1, "finished": 4, "suspended": 2,
    "resumed": 1, "fault": 2, "abandoned": 2, "progress": 2,
}

# The members of the object of an event, besides the time and the names of the file.
MEMBERS = {
    "transaction": ["transaction"],
    "eof-sent": ["transaction"],
    "metadata": ["transaction", "size"],
    "eof-recv": ["transaction"],
    "finished": [
        "transaction", "condition", "condition_name", "meaning", "delivery", "status",
    ],
    "suspended": ["transaction", "condition", "condition_name", "meaning"],
    "resumed": ["transaction"],
    "fault": ["transaction", "condition", "condition_name", "meaning"],
    "abandoned": ["transaction", "condition", "condition_name", "meaning"],
    "progress": ["transaction", "octets"],
    "put": ["line", "answer", "meaning"],
    "change": ["answer", "meaning"],
    "file": ["name", "outcome"],
    "note": ["topic", "text"],
    "error": ["topic", "text"],
    "complete": ["complete", "asked"],
}

NAMES = ("source", "destination")


def octets_of(name):
    """The octets of a file's name as a report spells it."""
    return re.sub(rb"%([0-9A-F]{2})", lambda it: bytes([int(it[1], 16)]), name.encode("ascii"))


def plain(text):
    """A log for people as it is in the plain style: the lines of the report alone."""
    lines = []
    for line in text.splitlines():
        words = STAMP.sub("", line, count=1).split(" ")
        if len(words) > 1 and words[1] in BODY:
            lines.append(" ".join(words[:2 + BODY[words[1]]]))
        elif words[0] == "line":
            lines.append(" ".join(words[:3]))
        elif words[0] == "complete":
            lines.append(" ".join(words))
    return "".join(f"{line}\n" for line in lines)


def unstamped(text):
    """The lines of a log for people that don't begin with a time."""
    return [line for line in text.splitlines() if not STAMP.match(line)]


def object_mistakes(text, own, has_time):
    """What is wrong with the lines of a log of objects, of this station."""
    for line in text.splitlines():
        try:
            it = json.loads(line)
        except json.JSONDecodeError as error:
            yield f"no JSON: {line}: {error}"
            continue
        event = it.get("event")
        if it.get("station") != own or ("time" in it) != has_time:
            yield f"another station, or the time: {line}"
        if has_time and not STAMP.fullmatch(it["time"] + " "):
            yield f"the time: {line}"
        if event != "counters":
            known = {"time", "station", "event", *MEMBERS.get(event, ["none"]), *NAMES}
            known |= {"transaction"} if event == "error" else set()
            if not known >= set(it) - {"meaning"} or not set(MEMBERS.get(event, [])) <= set(it):
                yield f"its members: {line}"
        if not line.isascii() or re.search("[<>&']", line):
            yield f"a sign that means something in markup: {line}"
