"""The details of one transaction that the console shows: what of its file is held and missing, the
rounds of its NAKs, its timers, and what was sent again; at its sender and at its receiver, while it
is open and after it was closed.
"""
from lib.console import Console
from lib.frames import FILE_DATA, PEER_DIRECTIVES
from lib.links import Link, Relay
from lib.processes import PATIENT, files_at
from lib.waiting import waits_for

# A file of so many PDUs of file data, each of so many octets.
PDUS, SEGMENT = 400, 100
SIZE = PDUS * SEGMENT

# The most ranges that are shown of what is held or missing, and of a round; the most rounds.
MOST_RANGES, MOST_ASKED, MOST_ROUNDS = 64, 8, 16

MEMBERS = {"held", "lacks_metadata", "missing", "rounds", "sent_again", "timers", "transaction"}


class Gaps:
    """Loses each second frame of file data of station 1, and all of them once station 2 has
    answered, until it is `open`: so a receiver has more gaps than are shown, and nothing that it
    requests comes."""

    def __init__(self):
        self.count, self.is_answered, self.is_open = 0, False, False

    def __call__(self, own, frame):
        channel = frame[1] & 63
        self.is_answered |= own == 2 and channel == PEER_DIRECTIVES
        if own == 2 or channel != FILE_DATA or self.is_open:
            return True
        self.count += 1
        return self.count % 2 == 0 and not self.is_answered


def opened(link):
    """The consoles of a receiver and of a sender that sends a file over a link with gaps."""
    settings = {**PATIENT, "segment": SEGMENT}
    link.puts(1, {"gaps.bin": bytes(range(256)) * (SIZE // 256) + bytes(SIZE % 256)})
    receiver = Console(link, 2, ["--inbox", "to"], settings)
    words = ["--outbox", "from", "--put", "gaps.bin", "gaps.bin"]
    return receiver, Console(link, 1, words, settings)


def open_id(it):
    """The id of the one open transaction."""
    found = it.awaits("/transactions", lambda all_of_it: all_of_it["open"])
    return found["open"][0]["id"]


def range_mistakes(what, ranges, most):
    """What is wrong with ranges: in order, apart, and the first of all of them."""
    first = ranges["ranges"]
    if len(first) != min(most, ranges["count"]):
        yield f"{what}: {len(first)} of {ranges['count']} are shown"
    ends = [0, *(end for _, end in first)]
    if any(not end <= start < stop for end, (start, stop) in zip(ends, first)):
        yield f"{what}: {first}"
    shown = sum(end - start for start, end in first)
    is_all = ranges["count"] == len(first)
    if shown > ranges["octets"] or is_all and shown != ranges["octets"]:
        yield f"{what}: {shown} octets are shown of {ranges['octets']}"


def receiver_mistakes(it, ident):
    """What is wrong with the details at a receiver, to which nothing more of the file comes."""
    is_so = lambda one: one["rounds"] and one["rounds"]["count"] >= 4
    one = it.awaits(f"/transactions/{ident}/details", is_so)
    if set(one) != MEMBERS or one["transaction"]["id"] != ident or one["lacks_metadata"]:
        yield f"members: {one}"
    for name in ("held", "missing"):
        yield from range_mistakes(name, one[name], MOST_RANGES)
        if one[name]["count"] <= MOST_RANGES:
            yield f"{name}: too few ranges for this test: {one[name]['count']}"
    if one["held"]["octets"] + one["missing"]["octets"] != SIZE:
        yield f"held and missing: {one['held']['octets']} and {one['missing']['octets']}"
    rounds = one["rounds"]["last"]
    for each in rounds[1:]:
        if each["asked"]["octets"] != one["missing"]["octets"] or each["metadata"]:
            yield f"a round requests {each}, and {one['missing']['octets']} octets are missing"
        yield from range_mistakes("a round", each["asked"], MOST_ASKED)
        if each["asked"]["ranges"] != one["missing"]["ranges"][:MOST_ASKED]:
            yield f"a round requests {each['asked']['ranges']}"
        if each["start"] != 0 or each["naks"] != -(-one["missing"]["count"] // 32):
            yield f"a round: {each}"
    yield from order_mistakes(one["rounds"])
    nak, inactivity = one["timers"]
    most = one["rounds"]["count"]
    if (nak["timer"], nak["limit"]) != ("nak", 255) or not 2 <= nak["sent"] <= most:
        yield f"the timer of NAKs: {nak}"
    if (inactivity["timer"], inactivity["sent"], inactivity["limit"]) != ("inactivity", None, None):
        yield f"the timer of inactivity: {inactivity}"


def order_mistakes(rounds):
    """What is wrong with the numbers and the times of rounds."""
    last = rounds["last"]
    numbers = [each["number"] for each in last]
    if numbers != list(range(rounds["count"] - len(last) + 1, rounds["count"] + 1)):
        yield f"rounds: {numbers} of {rounds['count']}"
    times = [each["time"] for each in last]
    if times != sorted(times) or times[0] <= 0 or len(last) > MOST_ROUNDS:
        yield f"the times of rounds: {times}"
    if rounds["naks"] < sum(each["naks"] for each in last):
        yield f"NAKs: {rounds}"


def sender_mistakes(it, ident, missing):
    """What is wrong with the details at the sender."""
    is_so = lambda one: (one["rounds"]["count"] >= 3
                         and one["sent_again"]["octets"] >= missing["octets"])
    one = it.awaits(f"/transactions/{ident}/details", is_so)
    if set(one) != MEMBERS or one["held"] is not None or one["missing"] is not None:
        yield f"members at the sender: {one}"
    asked = one["rounds"]["last"][1]["asked"]
    if (asked["count"], asked["octets"]) != (missing["count"], missing["octets"]):
        yield f"the sender was asked for {asked}, and {missing} is missing"
    yield from order_mistakes(one["rounds"])
    again = one["sent_again"]
    if not missing["octets"] <= again["octets"] <= again["pdus"] * SEGMENT:
        yield f"sent again: {again}"
    eof, inactivity = one["timers"]
    if (eof["timer"], eof["limit"], eof["left"]) != ("eof-ack", 255, None) or eof["sent"] < 1:
        yield f"the timer of the EOF: {eof}"
    if inactivity["left"] is None:
        yield f"the timer of inactivity at the sender: {inactivity}"


def details_mistakes(program):
    """What is wrong with details where a file has many gaps, and after they were closed."""
    gaps = Gaps()
    with Link(program, Relay(gaps)) as link:
        receiver, sender = opened(link)
        ident = open_id(receiver)
        yield from receiver_mistakes(receiver, ident)
        missing = receiver.gets(f"/transactions/{ident}/details")["missing"]
        yield from sender_mistakes(sender, ident, missing)
        if sender.asks("GET", "/transactions/1:99999/details", sender.shown())[0] != 404:
            yield "an unknown transaction has details"
        gaps.is_open = True
        if not waits_for(lambda: "gaps.bin" in files_at(link.folder, 2)):
            yield "the file doesn't arrive"
        for it in (receiver, sender):
            is_over = lambda one: "complete" in one["transaction"] and not one["timers"]
            one = it.awaits(f"/transactions/{ident}/details", is_over)
            if not one["transaction"]["complete"] or one["held"] or one["timers"]:
                yield f"closed: {one}"
            if one["rounds"]["count"] < 3 or len(one["rounds"]["last"]) > MOST_ROUNDS:
                yield f"rounds of a closed one: {one['rounds']}"
        yield from again_mistakes(sender, ident)


def again_mistakes(it, ident):
    """What is wrong with how much of the one transaction was sent again. The station counts PDUs
    before they leave, and those that leave after the end of the transaction aren't shown."""
    again = it.gets(f"/transactions/{ident}/details")["sent_again"]
    counted = it.gets("/status")["counters"]["file_data_sent_again"]
    if again["pdus"] > counted:
        yield f"sent again: {again}, and {counted} PDUs were counted"


def whole_mistakes(program):
    """What is wrong with details where nothing is lost, and where a transaction is cancelled."""
    with Link(program, Relay()) as link:
        link.puts(1, {"a.bin": bytes(2000), "long.bin": bytes(900_000)})
        link.starts(2, ["--inbox", "to"], PATIENT)
        it = Console(link, 1, ["--outbox", "from", "--rate", "100"], PATIENT)
        it.does("/puts", {"source": "a.bin"})
        ident = it.awaits("/transactions", lambda found: found["closed"])["closed"][0]["id"]
        one = it.gets(f"/transactions/{ident}/details")
        # The EOF may overtake file data, so that the receiver requests them.
        if one["rounds"]["naks"] < one["rounds"]["count"] or one["timers"]:
            yield f"nothing was lost: {one}"
        yield from again_mistakes(it, ident)
        it.does("/puts", {"source": "long.bin"})
        ident = open_id(it)
        it.does(f"/transactions/{ident}/cancel")
        is_closed = lambda one: "complete" in one["transaction"]
        one = it.awaits(f"/transactions/{ident}/details", is_closed)
        if one["transaction"]["condition"] != "CANCEL_REQUEST_RECEIVED":
            yield f"cancelled: {one}"


def all_mistakes(program):
    """What is tried, with what is wrong in it."""
    yield "the console: details of a transaction with many gaps", details_mistakes(program)
    yield "the console: details of whole and of cancelled ones", whole_mistakes(program)
