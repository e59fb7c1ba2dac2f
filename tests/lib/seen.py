"""What was seen of stations: the packets of a station's capture, and the PDUs in a trace."""
import re
import struct

# What stands before a PDU in each packet, and after it: its direction.
TAGS = bytes.fromhex("000C0004") + b"cfdp" + bytes(4)
WAYS = {
    bytes.fromhex("000200040000000100000000"): "in",
    bytes.fromhex("000200040000000200000000"): "out",
}


def packets_in(octets):
    """The packets of a capture of a station: interface, microseconds, direction, and the PDU. The
    last may be cut short."""
    at, packets = 0, []
    while at + 8 <= len(octets):
        kind, length = struct.unpack_from(">II", octets, at)
        if length < 12 or at + length > len(octets):
            break
        end = at + length
        if octets[end - 4 : end] != octets[at + 4 : at + 8]:
            raise ValueError(f"a block of {length} octets has another length at its end")
        if kind == 6:
            place, micros, size, original = struct.unpack_from(">IQII", octets, at + 8)
            packet = octets[at + 28 : at + 28 + size]
            if packet[:12] != TAGS or size != original or length != 44 + size + -size % 4:
                raise ValueError(f"a packet {octets[at : end].hex()}")
            packets.append((place, micros, WAYS[octets[end - 16 : end - 4]], packet[12:]))
        at = end
    return packets


def pdus_of(trace, verbs="sends|hears"):
    """The PDUs of a trace that a station sent or received: the event of each, and its line as a
    dump prints it."""
    found = rf"(?m)^\d+\.(\d+) [12] (?:{verbs}) (?!dir frame|data frame)(.*)$"
    return [(int(event), line) for event, line in re.findall(found, trace)]
