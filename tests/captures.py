"""Captures, pcap and pcapng, as other programs write them: made here by the documents of the
formats alone, and read by `dump`."""
import ipaddress
import struct

# PDUs, and the lines that `dump pdus` writes of them.
EOF = bytes.fromhex("20000A1300010000000100020400D7656C6C00000005")
PDUS = [(EOF, "eof 1:1 0 D7656C6C 5"), (b"\x20", "error 1 Short")]

# The magic numbers of pcap: of times in microseconds, and in nanoseconds.
MICRO, NANO = 0xA1B2C3D4, 0xA1B23C4D

ETHERNET, NULL, LOOP, RAW, SLL, SLL2, USER, UPPER = 1, 0, 108, 101, 113, 276, 147, 252


# ---- what packets are made of
def udp(payload, length=None):
    length = 8 + len(payload) if length is None else length
    return struct.pack(">HHHH", 40000, 5605, length, 0) + payload


def four(datagram, protocol=17, options=b"", flags=0, offset=0, total=None, words=None):
    header = 20 + len(options)
    words = header // 4 if words is None else words
    total = header + len(datagram) if total is None else total
    parts = 0x40 | words, 0, total, 7, flags << 13 | offset, 64, protocol, 0
    front = struct.pack(">BBHHHBBH", *parts)
    ends = ipaddress.ip_address("127.0.0.1").packed * 2
    return front + ends + options + datagram


def six(datagram, following=17, length=None):
    length = len(datagram) if length is None else length
    ends = ipaddress.ip_address("::1").packed * 2
    return struct.pack(">IHBB", 6 << 28, length, following, 64) + ends + datagram


def ethernet(network, kind=0x0800, behind=b""):
    return bytes(12) + struct.pack(">H", kind) + network + behind


def cooked(network, kind=0x0800):
    return struct.pack(">HHH8sH", 0, 1, 6, bytes(8), kind) + network


def cooked2(network, kind=0x0800):
    return struct.pack(">HHIHBB8s", kind, 0, 1, 1, 0, 6, bytes(8)) + network


def upper(pdu, name=b"cfdp", ends=True):
    """An upper PDU of Wireshark: the name of its dissector, the end of tags, and the PDU."""
    tag = struct.pack(">HH", 12, len(name)) + name
    return tag + bytes(4 * ends) + pdu


# ---- what files are made of
def pcap(packets, link=ETHERNET, order="<", magic=MICRO, snap=65535, version=(2, 4)):
    """A pcap file with these packets, of which no more is captured than the snap length says."""
    text = struct.pack(order + "IHHiIII", magic, *version, 0, 0, snap, link)
    for number, packet in enumerate(packets):
        part = packet[:snap]
        text += struct.pack(order + "IIII", 1_700_000_000, number, len(part), len(packet)) + part
    return text


def block(order, kind, body):
    body += bytes(-len(body) % 4)
    whole = struct.pack(order + "I", 12 + len(body))
    return struct.pack(order + "I", kind) + whole + body + whole


def section(order="<", version=(1, 0), magic=0x1A2B3C4D):
    return block(order, 0x0A0D0D0A, struct.pack(order + "IHHq", magic, *version, -1))


def interface(order="<", link=ETHERNET, snap=0, options=b""):
    return block(order, 1, struct.pack(order + "HHI", link, 0, snap) + options)


def enhanced(packet, order="<", place=0, snap=None, options=b""):
    part = packet if snap is None else packet[:snap]
    front = struct.pack(order + "IIIII", place, 1, 2, len(part), len(packet))
    return block(order, 6, front + part + bytes(-len(part) % 4) + options)


def simple(packet, order="<", snap=0):
    part = packet[:snap] if snap else packet
    return block(order, 3, struct.pack(order + "I", len(packet)) + part)


# ---- what is tried
def told(program, words, file):
    """The status of a dump of this file, and its lines."""
    status, out, err, _ = program.run(["dump", *words, "capture"], "", there={"capture": file})
    return status, out.splitlines(), err


def differs(program, what, file, lines, words=("pdus",)):
    """What is wrong where a dump of this file doesn't write these lines alone."""
    status, out, err = told(program, words, file)
    if status or err or out != lines:
        yield f"{what}: status {status}, {out[:5]}, and not {lines[:5]}; {err!r}"


LINES = [line for _, line in PDUS]


def over(carrier):
    """The packets that carry the PDUs so."""
    return [carrier(udp(pdu)) for pdu, _ in PDUS]


# Each link type with what it carries.
CARRIERS = (
    (ETHERNET, "Ethernet", lambda it: ethernet(four(it))),
    (ETHERNET, "Ethernet, padded", lambda it: ethernet(four(it), behind=bytes(18))),
    (ETHERNET, "Ethernet, IPv6", lambda it: ethernet(six(it), 0x86DD)),
    (ETHERNET, "options of IPv4", lambda it: ethernet(four(it, options=bytes(40)))),
    (NULL, "loopback", lambda it: struct.pack("<I", 2) + four(it)),
    (NULL, "loopback, the other order", lambda it: struct.pack(">I", 30) + six(it)),
    (LOOP, "loopback of OpenBSD", lambda it: struct.pack(">I", 2) + four(it)),
    (RAW, "bare IPv4", four),
    (RAW, "bare IPv6", six),
    (12, "bare IP by 12", four),
    (14, "bare IP by 14", six),
    (SLL, "Linux cooked", lambda it: cooked(four(it))),
    (SLL2, "Linux cooked, the second", lambda it: cooked2(six(it), 0x86DD)),
)


def carrier_mistakes(program):
    """What is wrong where PDUs lie in UDP datagrams over each link, in each format."""
    for link, what, carrier in CARRIERS:
        packets = over(carrier)
        for order in "<>":
            for magic in (MICRO, NANO):
                file = pcap(packets, link, order, magic)
                yield from differs(program, f"{what} {order}", file, LINES)
            blocks = section(order) + interface(order, link)
            blocks += b"".join(enhanced(packet, order) for packet in packets)
            yield from differs(program, f"{what}, blocks {order}", blocks, LINES)
    for link in (USER, 162):
        yield from differs(program, f"user {link}", pcap([EOF], link), LINES[:1])


def passed_mistakes(program):
    """What is wrong where a packet has no unit: it is named, and the next one is read."""
    good = ethernet(four(udp(EOF)))
    cases = (
        ("ARP", ethernet(bytes(28), 0x0806), "error 27 NotIp"),
        ("version 5", ethernet(b"\x55" + bytes(30)), "error 27 NotIp"),
        ("nothing behind the link header", ethernet(b""), "error 27 NotIp"),
        ("a short link header", bytes(13), "error 30 Malformed"),
        ("TCP", ethernet(four(udp(EOF), protocol=6)), "error 29 NotUdp 6"),
        ("more fragments", ethernet(four(udp(EOF), flags=1)), "error 28 Fragment"),
        ("a later fragment", ethernet(four(udp(EOF), offset=185)), "error 28 Fragment"),
        ("not to be fragmented", ethernet(four(udp(EOF), flags=2)), LINES[0]),
        ("IPv4 of 19 octets", ethernet(four(b"")[:19]), "error 30 Malformed"),
        ("IPv4 with four words", ethernet(four(udp(EOF), words=4)), "error 30 Malformed"),
        ("less than its header", ethernet(four(udp(EOF), total=19)), "error 30 Malformed"),
        ("one octet more than there is", ethernet(four(udp(EOF), total=51)), "error 30 Malformed"),
        ("IPv6 of 39 octets", ethernet(six(b"")[:39], 0x86DD), "error 30 Malformed"),
        ("IPv6, one octet more", ethernet(six(udp(EOF), length=31), 0x86DD), "error 30 Malformed"),
        ("IPv6, a fragment", ethernet(six(udp(EOF), following=44), 0x86DD), "error 28 Fragment"),
        ("IPv6, hop by hop", ethernet(six(udp(EOF), following=0), 0x86DD), "error 29 NotUdp 0"),
        ("UDP of 7 octets", ethernet(four(udp(b"")[:7])), "error 30 Malformed"),
        ("UDP that says 7", ethernet(four(udp(EOF, length=7))), "error 30 Malformed"),
        ("UDP, one octet more", ethernet(four(udp(EOF, length=31))), "error 30 Malformed"),
        ("UDP, one octet less", ethernet(four(udp(EOF, length=29))), "error 4 Length"),
        ("UDP without a payload", ethernet(four(udp(b""))), "error 1 Short"),
    )
    for what, packet, line in cases:
        yield from differs(program, what, pcap([packet, good]), [line, LINES[0]])
    yield from differs(program, "link type 105", pcap([good], 105), ["error 26 OtherLink 105"])
    yield from differs(program, "146 and 163", section() + interface(link=146) + interface(link=163)
                       + enhanced(good) + enhanced(good, place=1),
                       ["error 26 OtherLink 146", "error 26 OtherLink 163"])
    whole = len(good)
    short = f"error 25 SnapLength {whole - 1} octets of {whole}"
    for snap, line in ((whole, LINES[0]), (whole - 1, short)):
        yield from differs(program, f"snap {snap}", pcap([good], snap=snap), [line])
        blocks = section() + interface(snap=snap)
        blocks += enhanced(good, snap=snap) + simple(good, snap=snap)
        yield from differs(program, f"snap {snap}, blocks", blocks, [line, line])


def block_mistakes(program):
    """What is wrong with blocks that are passed over, sections and interfaces."""
    good = ethernet(four(udp(EOF)))
    for order in "<>":
        other = "<>".replace(order, "")
        text = section(order) + block(order, 5, bytes(12)) + interface(order, RAW)
        text += interface(order, options=struct.pack(order + "HH4s", 2, 3, b"eth"))
        text += block(order, 0x0BAD, b"secret") + enhanced(good, order, 1, options=bytes(4))
        text += enhanced(four(udp(EOF)), order) + simple(six(udp(EOF)), order)
        text += block(order, 4, b"") + section(other, (1, 2)) + interface(other)
        text += enhanced(good, other) + simple(good, other)
        yield from differs(program, f"sections {order}", text, LINES[:1] * 5)


def fault_mistakes(program):
    """What is wrong where a file can't be read to its end: what stands before is told, and the
    place of the fault named."""
    good = ethernet(four(udp(EOF)))
    for order in "<>":
        file = pcap([good, good], order=order)
        size, record = len(file), 16 + len(good)
        for end in range(4, size + 1):
            count, rest = divmod(max(end - 24, 0), record)
            lines = LINES[:1] * count
            if end < 24:
                lines = ["error 20 CutOff at octet 0"]
            elif rest:
                lines += [f"error 20 CutOff at octet {24 + record * count}"]
            yield from differs(program, f"cut at {end}", file[:end], lines)
    front = section() + interface()
    places = [0, len(section()), len(front), len(front + enhanced(good))]
    file = front + enhanced(good) + enhanced(good)
    for end in range(4, len(file) + 1):
        starts = [place for place in places if place < end]
        whole = end in (*places, len(file))
        lines = LINES[:1] * (sum(place >= len(front) for place in starts) - (
            not whole and starts[-1] >= len(front)))
        lines += [] if whole else [f"error 20 CutOff at octet {starts[-1]}"]
        yield from differs(program, f"blocks cut at {end}", file[:end], lines)
    at, first = len(front), len(section())
    turned = lambda text, place, octets: text[:place] + octets + text[place + len(octets):]
    cases = (
        ("version 2.3", pcap([good], version=(2, 3)), "23 BadVersion at octet 0"),
        ("version 3.4", pcap([good], version=(3, 4)), "23 BadVersion at octet 0"),
        ("pcapng 2", section(version=(2, 0)), "23 BadVersion at octet 0"),
        ("no order", section(magic=0x1A2B3C4E), "22 BadOrder at octet 0"),
        ("a length of 8", front + struct.pack("<III", 9, 8, 8), f"21 BadLength at octet {at}"),
        ("a length of 14", front + struct.pack("<II6xI", 9, 18, 18), f"21 BadLength at octet {at}"),
        ("two lengths", front + struct.pack("<II4xI", 9, 16, 20), f"21 BadLength at octet {at}"),
        ("a short section", block("<", 0x0A0D0D0A, struct.pack("<I8x", 0x1A2B3C4D)),
         "21 BadLength at octet 0"),
        ("a short interface", section() + block("<", 1, bytes(4)),
         f"21 BadLength at octet {first}"),
        ("no interface", section() + enhanced(good), f"24 BadInterface at octet {first}"),
        ("no first interface", section() + simple(good), f"24 BadInterface at octet {first}"),
        ("interface 1", front + enhanced(good, place=1), f"24 BadInterface at octet {at}"),
        ("a short packet block", front + block("<", 6, bytes(16)), f"21 BadLength at octet {at}"),
        ("more captured than there is",
         front + turned(enhanced(bytes(8)), 20, struct.pack("<I", 9)),
         f"21 BadLength at octet {at}"),
        ("a simple one that is longer",
         front + turned(simple(bytes(8)), 8, struct.pack("<I", 9)), f"21 BadLength at octet {at}"),
    )
    for what, file, fault in cases:
        yield from differs(program, what, file, [f"error {fault}"])


def upper_mistakes(program):
    """What is wrong with upper PDUs: those of CFDP are read, and no others."""
    for order in "<>":
        packets = [upper(pdu) for pdu, _ in PDUS]
        yield from differs(program, f"upper {order}", pcap(packets, UPPER, order), LINES)
        blocks = section(order) + interface(order, UPPER)
        blocks += b"".join(enhanced(it, order) for it in packets)
        yield from differs(program, f"upper, blocks {order}", blocks, LINES)
    other = "error 26 OtherLink 252"
    cases = (
        ("another dissector", upper(EOF, b"cfdq"), other),
        ("a longer name", upper(EOF, b"cfdp.pdu"), other),
        ("no end of tags", upper(EOF, ends=False), other),
        ("half of the tags", upper(b"")[:11], other),
        ("nothing", b"", other),
        ("tags alone", upper(b""), "error 1 Short"),
    )
    for what, packet, line in cases:
        file = pcap([packet, upper(EOF)], UPPER)
        yield from differs(program, what, file, [line, LINES[0]])


def own_mistakes(program):
    """What is wrong where `dump` reads a capture that the program wrote: it has to tell the PDUs
    that the trace of the same run says were sent."""
    script = "fill 1 a.txt 3000 41\nput 1 a.txt b.txt\nsettle\n"
    words = ["sim", "--pcap", "capture", "--trace"]
    status, _, err, left = program.run(words, script)
    words = [line.split(" ", 3) for line in err.splitlines()]
    frames = ("dir frame", "data frame")
    sent = [it[3] for it in words if it[2] == "sends" and not it[3].startswith(frames)]
    if status or "capture" not in left:
        yield f"status {status}, {err[:300]!r}"
        return
    ran, out, said = told(program, ["pdus"], left["capture"])
    if ran or said or not sent or out != sent:
        yield f"status {ran}, {out[:3]}, and not {sent[:3]}; {said!r}"


def deep_mistakes(program):
    """What is wrong where a capture has frames, and what these carry is told."""
    frames = [bytes.fromhex(it) for it in (
        "4A850000004000000064C000001520000A13000100000001",
        "4A8500000140000C00020400D7656C6C0000000507FFC000")]
    file = pcap([ethernet(four(udp(frame))) for frame in frames])
    lines = ["frame 42 5 0 0", "frame 42 5 1 12", "packet 100 0 28", LINES[0]]
    yield from differs(program, "frames", file, lines, ["frames", "--zone", "16", "--deep"])


def limit_mistakes(program):
    """What is wrong with a file of 64 MiB, and of one octet more."""
    most, filler = 67_108_864, 65_535
    packet = bytes(filler)
    file = section() + interface(link=USER)
    one = block("<", 0x0BAD, packet)
    file += one * ((most - len(file) - 200) // len(one)) + enhanced(EOF)
    rest = most - len(file)
    file += block("<", 0x0BAD, bytes(rest - 12))
    yield from differs(program, "64 MiB", file, LINES[:1])
    status, out, err = told(program, ["pdus"], file + b"\0")
    if status != 3 or out or "a capture, or lines with --text, may have 67,108,864" not in err:
        yield f"one octet more: status {status}, {out[:3]}, {err!r}"


def all_mistakes(program):
    """What is tried, with what is wrong in it."""
    yield "captures over each link, in each format", carrier_mistakes(program)
    yield "captures of what is no PDU in UDP", passed_mistakes(program)
    yield "captures with all kinds of blocks", block_mistakes(program)
    yield "captures that end too soon, or can't be read", fault_mistakes(program)
    yield "captures of upper PDUs", upper_mistakes(program)
    yield "captures that the program wrote", own_mistakes(program)
    yield "captures of frames, and what they carry", deep_mistakes(program)
    yield "captures at the limit", limit_mistakes(program)
