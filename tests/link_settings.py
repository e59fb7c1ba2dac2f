"""What is set of a station's link, as its frames show it, and which of them --drop and --loss
lose."""
import re
import struct
import time

from lib.frames import DIRECTIVES, ONLY_IDLE, ZONE, filled, frame_of, idle_frame
from lib.links import Flood, Link, Relay
from lib.pdus import eof
from lib.peers import pair_mistakes
from lib.processes import PATIENT, note_mistakes
from lib.waiting import SLACK, waits_for

# What is set of the link of station 2, each value unlike each other and unlike what else holds.
OWN = {"virtual_channel": 10, "data_virtual_channel": 11, "apid": 200}
PEER = {"peer_virtual_channel": 20, "peer_data_virtual_channel": 21, "peer_apid": 300}
SPACECRAFT = {"spacecraft": 43}

# A file of so many octets goes in so many frames: those of its 20 PDUs, each with 28 octets of
# headers and check, and two of directives.
SOME = 20_000
FRAMES = -(-(SOME + 20 * 28) // ZONE) + 2

# Spacecraft, channel and APID of frames that come, of which only the first two are of that link.
COMING = ((43, 20, 300), (43, 21, 300), (42, 20, 300), (43, 10, 300), (43, 11, 300), (43, 20, 200))


def fields(frame):
    """The spacecraft, the channel and the count of a frame, and the APID of its first packet."""
    first, count, pointer = struct.unpack(">HIxH", frame[:2] + b"\0" + frame[2:5] + frame[5:8])
    packet = 8 + (pointer & 2047)
    apid = int.from_bytes(frame[packet : packet + 2], "big") & 2047
    return first >> 6 & 255, first & 63, count, apid


def packet_of(pdu, apid):
    """A packet zone with this PDU in a packet of that APID."""
    return filled(struct.pack(">HHH", apid, 0xC000, len(pdu) - 1) + pdu)


def keys_mistakes(program):
    """What is wrong where each key of the link is set: what leaves has these values, and of what
    comes only what has them is taken."""
    with Link(program, Relay(lambda own, frame: False)) as link:
        words = [*link.puts(2, {"a": bytes(3000)}), "--inbox", "to"]
        station = link.starts(2, words, {**OWN, **PEER, **SPACECRAFT})
        for number, (spacecraft, channel, apid) in enumerate(COMING, 7):
            zone = packet_of(eof(number), apid)
            link.relay.give(2, frame_of(channel, 0, zone, spacecraft))
        if station.comes_to("eof-recv 1:8") is None or station.comes_to("eof-sent") is None:
            yield f"it told {station.text('stdout')!r}"
        seen = lambda: {fields(frame)[:2] for _, own, frame in list(link.relay.came)}
        waits_for(lambda: {(43, 10), (43, 11)} <= seen())
        time.sleep(0.5)
        left = seen()
        # a frame that tells how the station is set up
        left -= {(43, ONLY_IDLE)}
        apids = {fields(frame)[3] for _, own, frame in list(link.relay.came)[:2]}
        if left != {(43, 10), (43, 11)} or apids != {200}:
            yield f"frames left of spacecraft and channel {left}, with packets of APID {apids}"
        taken = re.findall(r"eof-recv 1:(\d+)", station.text("stdout"))
        if sorted(taken) != ["7", "8"]:
            yield f"the PDUs of frames {sorted(taken)} were taken"


def sent_and_lost(station):
    """The frames that a station sends by its trace, and those of them that it loses."""
    sent, lost, trace = [], [], station.text("stderr")
    frames = re.findall(r" (sends|loses) (?:dir|data) frame 42 (\d+) (\d+) ", trace)
    for deed, channel, count in frames:
        (sent if deed == "sends" else lost).append((int(channel), int(count) % (1 << 24)))
    return sent, lost


def left_of(station):
    """How many frames left a station by its trace."""
    sent, lost = sent_and_lost(station)
    return len(sent) - len(lost)


def thrown(seed):
    """The random numbers that a seed gives: PCG32, by its author's description."""
    increment, most = 1442695040888963407, 1 << 64
    step = lambda state: (state * 6364136223846793005 + increment) % most
    state = step((seed + increment) % most)
    while True:
        mixed, turn = ((state >> 18) ^ state) >> 27 & 0xFFFFFFFF, state >> 59
        yield (mixed >> turn | mixed << (32 - turn)) & 0xFFFFFFFF
        state = step(state)


def lost_mistakes(program, every=0, percent=0, seed=1):
    """What is wrong with the frames that are lost: each of that number is, and each whose random
    number is in the share, and no other."""
    with Link(program, Relay(lambda own, frame: False)) as link:
        words = ["--drop", str(every), "--loss", str(percent), "--seed", str(seed), "--trace"]
        words += link.puts(1, {"a": bytes(SOME)})
        station = link.starts(1, words, {"eof_time": 1000})
        has_all = lambda: len(sent_and_lost(station)[0]) >= FRAMES
        waits_for(lambda: has_all() and len(link.relay.came) == left_of(station))
        sent, lost = sent_and_lost(station)
        left = [fields(frame)[1:3] for _, _, frame in list(link.relay.came)]
    numbers = zip(range(1, len(sent) + 1), sent, thrown(seed))
    is_lost = lambda turn, it: every and turn % every == 0 or it * 100 < percent << 32
    wanted = [frame for turn, frame, it in numbers if is_lost(turn, it)]
    if len(sent) != FRAMES or lost != wanted:
        yield f"of {len(sent)} frames {lost} were lost, and not {wanted}"
    if sorted(left) != sorted(set(sent) - set(lost)):
        yield f"of {len(sent)} frames {len(left)} left, though {len(lost)} were lost"


def heard_mistakes(program):
    """What is wrong where frames of the link come to a station that may end after 8 s, though they
    begin nothing: it has to stay as long as they come, and for 8 s."""
    with Link(program, Relay()) as link:
        station = link.starts(2, ["--inbox", "to", "--idle", "8"])
        for count in range(12):
            zone, last = filled(b""), time.time()
            link.relay.give(2, frame_of(DIRECTIVES, count, zone))
            time.sleep(1)
        status, out, err = station.ended()
        stayed = time.time() - last
    if status or out != "complete 0 of 0\n" or not 7.5 < stayed < 10 + SLACK:
        yield f"it ended {stayed:.1f} s after the last one: status {status}, {out!r}, {err!r}"


def junk_mistakes(program):
    """What is wrong where nothing but packets of another APID come to a station of packets that may
    end after 2 s: it has to end all the same, and says what came."""
    with Link(program, Relay()) as link:
        station = link.starts(2, ["--inbox", "to", "--carrier", "packets", "--idle", "2"])
        packet = struct.pack(">HHH", 77, 0xC000, 0) + b"A"
        with Flood(packet, 10, [(link.relay.sockets[2], link.relay.listens[2])]):
            status, out, err = station.ended()
    if status or out != "complete 0 of 0\n" or "another APID" not in err:
        yield f"status {status}, {out!r}, {err!r}"


def foreign_mistakes(program):
    """What is wrong where a station of PDUs hears one of other ids: it tells its operator, and
    sends nothing, as whatever it sends is a PDU."""
    with Link(program, Relay()) as link:
        station = link.starts(2, ["--inbox", "to", "--carrier", "pdus"])
        pdu = struct.pack(">BHBHIHBBII", 0x20, 10, 0x13, 1, 7, 9, 4, 0, 7, 4)
        link.relay.give(2, pdu)
        yield from note_mistakes(station, ".*other ids", time.time(), 2)
        time.sleep(2)
        if link.relay.came:
            yield f"it sent {[frame.hex() for _, _, frame in link.relay.came]}"


def offsets_in(relay):
    """The offsets of the PDUs with file data that left station 1."""
    left = [frame for _, own, frame in list(relay.came) if own == 1]
    return sorted(int.from_bytes(it[16:20], "big") for it in left if it[0] & 16)


def kept_mistakes(program, turn):
    """What is wrong where the system has no room for a PDU that is longer than a frame: it leaves
    all the same, and none is missing though nothing is asked for again."""
    with Link(program, Relay(lambda own, frame: own == 1)) as link:
        words = [*link.puts(1, {"a": bytes(5000)}), "--carrier", "pdus"]
        sender = link.starts(1, words, {"eof_time": 100}, faults=f"send={turn}")
        sender.comes_to("eof-sent")
        waits_for(lambda: len(offsets_in(link.relay)) >= 5)
        time.sleep(2)
        offsets = offsets_in(link.relay)
    if offsets != [0, 1024, 2048, 3072, 4096]:
        yield f"file data left from the offsets {offsets}"


def beacon_mistakes(program):
    """What is wrong if frames are lost between stations of one setup: neither tells the
    other how it is set up."""
    seen = []

    def passes(own, frame):
        seen.append(frame)
        return len(seen) % 11 != 0

    with Link(program, Relay(passes)) as link:
        receiver = link.starts(2, ["--inbox", "to"], PATIENT)
        link.starts(1, link.puts(1, {"a": bytes(30_000)}), PATIENT)
        if receiver.comes_to("finished .* 0 complete retained") is None:
            yield f"the file didn't come: {receiver.text('stdout')!r}"
        told = [frame.hex() for frame in seen if fields(frame)[1] == ONLY_IDLE]
    if told:
        yield f"it sent {told}"


def timer_mistakes(program):
    """What is wrong where a timer of 8 s runs while 100 idle frames a second come: it expires in
    its time, however many turns are taken."""
    with Link(program, Relay()) as link:
        words = link.puts(1, {"a": b"hello"})
        sender = link.starts(1, words, {"eof_time": 8, "eof_limit": 0})
        ways = [(link.relay.sockets[1], link.relay.listens[1])]
        with Flood(idle_frame(0), 100, ways):
            sender.comes_to("eof-sent")
            expired = sender.comes_to("fault")
            began = link.relay.first()
    took = (expired or 0) - (began or 0)
    if not 6.5 < took < 10 + SLACK:
        yield f"it expired after {took:.1f} s"


def all_mistakes(program):
    """What is tried, with what is wrong in it."""
    yield "all that is set of a link", keys_mistakes(program)
    yield "frames of the link that begin nothing", heard_mistakes(program)
    yield "a timer in a flood of idle frames", timer_mistakes(program)
    yield "packets of another APID alone", junk_mistakes(program)
    yield "a PDU of other ids, for a station of PDUs", foreign_mistakes(program)
    yield "lost frames between stations of one setup", beacon_mistakes(program)
    for turn in (3, 4):
        kept = kept_mistakes(program, turn)
        yield f"a datagram of a PDU that the system refuses, number {turn}", kept
    for every in (1, 3):
        yield f"a station that loses each frame of number {every}", lost_mistakes(program, every)
    for percent, seed in ((25, 1), (60, 12345), (100, 7)):
        wrong = lost_mistakes(program, 0, percent, seed)
        yield f"a station that loses {percent} percent of its frames, seed {seed}", wrong
    both = lost_mistakes(program, 4, 20, (1 << 64) - 1)
    yield "a station that loses each fourth frame, and 20 percent at random", both
    for zone in (16, 2040):
        settings = {"zone": zone, "segment": 4096}
        both = pair_mistakes(program, "frames", [], settings, {"one": 1, "some": 100_000})
        yield f"files that go both ways in frames of {zone} octets", both
