"""What a datagram carries: stations that send each other Space Packets or PDUs, and a plain peer
that speaks CFDP by itself."""
import struct
import tempfile
import time

from lib.choices import chance_of
from lib.forging import socket_of
from lib.links import Link, Relay
from lib.pdus import EOF_CAME, METADATA, WHOLE, header_of
from lib.peers import CARRIERS, Peer, octets_of, pair_mistakes
from lib.ports import free_ports
from lib.processes import Station, files_at, put, unheard
from lib.waiting import SECONDS, TRIALS, Timed, in_one_of, waits_for

# Files that go from a station to another one.
FILES = {"none": 0, "one": 1, "much": 1 << 20}


def pace_mistakes(program, *those):
    """What is wrong with the pace of a station, in one of some trials."""
    yield from in_one_of(TRIALS, lambda: pace_trial_mistakes(program, *those))


def pace_trial_mistakes(program, carrier, zone, segment, size, rate):
    """What is wrong where a station sends a file at a rate: each datagram counts, however many PDUs
    end in a frame, or frames belong to a PDU."""
    relay = Relay()
    with Link(program, relay) as link:
        settings = {"zone": zone, "segment": segment}
        words = ["--carrier", carrier, "--inbox", "to", "--idle", "20"]
        receiver = link.starts(2, words, settings)
        words = ["--carrier", carrier, "--rate", str(rate), "--idle", "2"]
        sender = link.starts(1, [*words, *link.puts(1, {"a": octets_of(size)})], settings)
        for it, count in ((sender, 1), (receiver, 0)):
            status, out, err = it.ended()
            if status or not out.endswith(f"complete {count} of {count}\n"):
                yield f"status {status}, {out[-300:]!r}, {err[-300:]!r}"
        if files_at(link.folder, 2) != {"a": octets_of(size)}:
            yield "what came isn't what was sent"
        times = [when for when, own, _ in relay.came if own == 1]
    # The EOF overtakes the last frame, and so what is in that is asked for once more.
    pdus, more = 3 + (size + segment - 1) // segment, 1 + zone // segment
    if not pdus <= len(times) <= pdus + more:
        yield f"{len(times)} datagrams left, and not {pdus}"
    crowd = max(sum(1 for it in times if when <= it < when + 1) for when in times)
    if crowd > rate + 9:
        yield Timed(f"{crowd} datagrams left in a second")
    longest = max(after - before for before, after in zip(times, times[1:-1]))
    if longest > 3 / rate + 0.6:
        yield Timed(f"for {longest:.2f} s none left")


def plain_mistakes(program, carrier, own, form=None):
    """What is wrong between a station and a plain peer: the station sends files, the peer one."""
    sizes, pieces = (0, 1, 100_000), {"small": b"hello, station"}
    with tempfile.TemporaryDirectory(dir=program.room) as folder:
        ports = dict(zip((1, 2), free_ports(2)))
        peer = Peer(carrier, 3 - own, ports, form)
        words = ["--carrier", carrier, "--inbox", "to", "--outbox", "from", "--idle", "2"]
        for size in sizes:
            put(folder, own, f"f{size}", octets_of(size))
            words += ["--put", f"f{size}", f"of{size}"]
        settings = {"first_number": 7, "segment": 1000, **(form or {})}
        station = Station(program, folder, own, 3 - own, ports, words, settings)
        station.comes_up()
        peer.send_file(3, b"small", pieces["small"])
        peer.serve(SECONDS, lambda: station.process.poll() is not None)
        status, out, err = station.ended()
        peer.close()
        if status or unheard(err) or not out.endswith("complete 3 of 3\n"):
            yield f"the station: status {status}, {out!r}, {err!r}"
        if files_at(folder, own) != pieces:
            yield f"the station has {files_at(folder, own)}"
    yield from peer.faults
    if peer.files != {7 + place: octets_of(size) for place, size in enumerate(sizes)}:
        yield f"the peer has files of {[(it, len(octets)) for it, octets in peer.files.items()]}"
    for place, size in enumerate(sizes):
        source, named = f"f{size}".encode(), f"of{size}".encode()
        names = bytes([len(source)]) + source + bytes([len(named)]) + named
        wanted = struct.pack(">BBI", METADATA, 0, size) + names
        if peer.named.get(7 + place) != wanted:
            yield f"the Metadata are {peer.named.get(7 + place)!r}, and not {wanted!r}"
    if peer.closed != {7, 8, 9}:
        yield f"of {sorted(peer.closed)} came the last word"
    if peer.told != [EOF_CAME, WHOLE]:
        yield f"the peer was told {[it.hex() for it in peer.told]}"


# What no station takes for packets, by what it tells of them; the last one has a PDU of one octet.
MISFITS = {
    "a datagram ends before its packet": ["", "0065C0000", "0065C0000001", "0065C000FFFF41"],
    "a datagram continues after its packet": ["0065C00000004141"],
    "packet version number must be 0": ["2065C000000041", "E065C000000041"],
    "a packet has another APID": ["0064C000000041", "07FFC000000041"],
    "a packet is a segment": ["00650000000041", "00654000000041", "00658000000041"],
    "a packet has a secondary header and none is set, or the other way round": ["0865C000000041"],
}

# What packets are between a station and flight software with the headers of cFS; at the greatest
# length of these; and with headers one way only.
FORMS = [
    {"packet_type": 1, "secondary_header": 2, "peer_secondary_header": 10},
    {"packet_type": 0, "secondary_header": 63, "peer_secondary_header": 63},
    {"packet_type": 0, "secondary_header": 0, "peer_secondary_header": 1},
]


def foreign_datagrams(carrier):
    """What isn't a datagram of the link, with how often each note is to count: none publishes."""
    chance, told = chance_of(51), {}
    if carrier == "packets":
        for note, those in MISFITS.items():
            for digits in those:
                told[note] = told.get(note, 0) + 1
                yield bytes.fromhex(digits[: len(digits) // 2 * 2])
    else:
        yield b""
    whole = header_of(0, 0, 2, 9, 1, 12) + struct.pack(">BBI", METADATA, 0, 0) + b"\1a\1b" + b"\0\0"
    packet = struct.pack(">HHH", 101, 0xC000, len(whole) - 1) + whole
    for cut in range(len(packet)):
        yield packet[:cut] if carrier == "packets" else whole[: min(cut, len(whole) - 1)]
    for _ in range(1000):
        yield chance.randbytes(chance.randrange(0, 200))
    yield chance.randbytes(65_507)


def chance_mistakes(program, carrier):
    """What is wrong where octets by chance come to a station, and packets that end too soon: it
    publishes nothing of them, and then takes a file."""
    with tempfile.TemporaryDirectory(dir=program.room) as folder:
        ports = dict(zip((1, 2), free_ports(2)))
        peer = Peer(carrier, 2, ports)
        words = ["--carrier", carrier, "--inbox", "to", "--idle", "15"]
        station = Station(program, folder, 1, 2, ports, words, {})
        station.comes_up()
        is_taken = lambda: socket_of(ports[1]) == 0 or station.process.poll() is not None
        for place, octets in enumerate(foreign_datagrams(carrier)):
            peer.socket.sendto(octets, peer.to)
            if place % 20 == 0:
                waits_for(is_taken)
        waits_for(is_taken)
        time.sleep(0.5)
        if station.process.poll() is not None or files_at(folder, 1):
            yield f"after that its status is {station.process.poll()}, and it published" \
                f" {sorted(files_at(folder, 1))}"
        peer.send_file(3, b"small", b"hello, station")
        peer.serve(SECONDS, lambda: station.process.poll() is not None)
        status, out, err = station.ended()
        peer.close()
        if status or not out.endswith("complete 0 of 0\n"):
            yield f"the station: status {status}, {out!r}, {err[-2000:]!r}"
        if files_at(folder, 1) != {"small": b"hello, station"}:
            yield f"the station has {files_at(folder, 1)}"
        notes = list(MISFITS) if carrier == "packets" else ["a datagram is empty"]
        for note in notes:
            if f"dropped: {note}\n" not in err:
                yield f"it doesn't tell that {note}: {err[-2000:]!r}"


def all_mistakes(program):
    """What is tried, with what is wrong in it."""
    few, some = {"one": 1, "some": 20_000}, {"some": 200_000}
    for it in CARRIERS:
        whole = pair_mistakes(program, it, ["--rate", "2000"], {}, FILES)
        yield f"files that go both ways by {it}", whole
        fast = pair_mistakes(program, it, ["--rate", "0"], {"zone": 2040, "segment": 4096}, some)
        yield f"files that go both ways by {it}, as fast as they can", fast
        lossy = pair_mistakes(program, it, ["--drop", "7"], {"zone": 1024}, {**few, **some})
        yield f"files that go both ways by {it}, of which each seventh is lost", lossy
        slow = pair_mistakes(program, it, ["--rate", "10"], {"segment": 2000}, few)
        yield f"files that go both ways by {it}, ten datagrams a second", slow
        paced = pace_mistakes(program, it, 256, 1024, 30_000, 10)
        yield f"a rate of 10 {it} a second, each of several frames", paced
        paced = pace_mistakes(program, it, 16, 4096, 80_000, 10)
        yield f"a rate of 10 {it} a second, each of more frames than leave in a turn", paced
        paced = pace_mistakes(program, it, 2040, 100, 3_000, 10)
        yield f"a rate of 10 {it} a second, several of a frame", paced
        for own in (1, 2):
            yield f"station {own} and a plain peer, by {it}", plain_mistakes(program, it, own)
        yield f"octets by chance, for a station that takes {it}", chance_mistakes(program, it)
    for form in FORMS:
        headed = plain_mistakes(program, "packets", 1, form)
        yield f"a plain peer by packets with secondary headers: {form}", headed
