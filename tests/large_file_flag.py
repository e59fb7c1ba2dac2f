"""PDUs of small files, some with the large file flag and some without, always the same ones.

A receiver hears them in any order, some twice, and is asked for what is due behind each. The file
has to come out, and an answer has to have the flag once any PDU that came had it.
"""
import random

from lib.choices import seeds
from lib.pdus import checksum_of

HEADER = bytes.fromhex("130001000000010002")


def pdu(first, large, content):
    """A PDU of transaction 1:1, from entity 1 to entity 2."""
    return bytes([first | large]) + len(content).to_bytes(2, "big") + HEADER + content


def number(large, value):
    """A file-size field."""
    return value.to_bytes(8 if large else 4, "big")


def pdus(chance, octets):
    """Metadata, EOF and file data, in any order, some of them twice; with the flag of each."""
    names = b"\5a.txt\5b.txt"
    checksum = checksum_of(octets).to_bytes(4, "big")
    kinds = [
        (0x20, lambda it: b"\7\0" + number(it, len(octets)) + names),
        (0x20, lambda it: b"\4\0" + checksum + number(it, len(octets))),
    ]
    at = 0
    while at < len(octets):
        end = min(len(octets), at + chance.randint(1, 9))
        part = octets[at:end]
        kinds.append((0x30, lambda it, at=at, part=part: number(it, at) + part))
        at = end
    kinds += [it for it in kinds if chance.random() < 0.3]
    chance.shuffle(kinds)
    share = chance.choice((0, 0.1, 0.5, 1))
    for first, content in kinds:
        large = chance.random() < share
        yield large, pdu(first, large, content(large))


def scripts():
    """All of them: a name, the file's octets, and the PDUs with their flags."""
    for seed in seeds(20):
        chance = random.Random(seed)
        octets = bytes(chance.choices(b"abcdefgh", k=chance.randint(1, 60)))
        yield f"PDUs of both widths, {seed}", octets, list(pdus(chance, octets))


def mistakes(bench, octets, heard):
    """What is wrong with a receiver that hears these PDUs."""
    asked = "".join(f"hear {it.hex()}\npoll\npoll\npoll\n" for _, it in heard) + "inbox\n"
    status, out, _, _ = bench.run(["receiver"], asked)
    lines = [it for it in out.split("\n") if it.startswith(" ")]
    if status or len(lines) != 4 * len(heard) + 1:
        yield f"it ended with status {status} and wrote {out!r}"
        return
    flag = False
    for place, (large, _) in enumerate(heard):
        flag = flag or large
        taken, *polled = lines[4 * place : 4 * place + 4]
        if taken != " taken":
            yield f"PDU {place} was dropped: {taken}"
        for it in polled:
            first = it.removeprefix(" directive ")[:2]
            if it != " nothing" and int(first, 16) % 2 != flag:
                yield f"behind PDU {place} an answer has the other flag: {it}"
    if lines[-1] != f" b.txt {octets.decode()}":
        yield f"the file didn't come out: {lines[-1]!r}"


def all_mistakes(bench):
    """What is tried by what plays transcripts, with what is wrong in it."""
    for name, octets, heard in scripts():
        yield name, mistakes(bench, octets, heard)
