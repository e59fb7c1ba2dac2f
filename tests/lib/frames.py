"""Frames and packet zones, as stations send them if nothing is set."""
import struct

# The channels of what station 1 sends, and how long a packet zone is, if nothing else is set.
DIRECTIVES, FILE_DATA, ONLY_IDLE, ZONE = 5, 7, 63, 256

# The channel of the directives that station 2 sends.
PEER_DIRECTIVES = 6


def frame_of(channel, count, zone, spacecraft=42):
    """An AOS frame with this packet zone, in which a packet begins at its first octet."""
    first = 1 << 14 | spacecraft << 6 | channel
    return struct.pack(">HIBH", first, count << 8, 0, 0)[:5] + b"\x40\x00\x00" + zone


def idle_frame(count):
    """A frame of nothing but idle data."""
    return frame_of(ONLY_IDLE, count, bytes(ZONE))


def zones_of(pdus, apid=100, length=ZONE):
    """Packet zones of this length with these PDUs of at most 200 octets, in packets of which none
    is cut."""
    zone = b""
    for number, pdu in enumerate(pdus):
        packet = struct.pack(">HHH", apid, 0xC000 | number % 16384, len(pdu) - 1) + pdu
        if len(zone) + len(packet) + 7 > length:
            yield filled(zone, length)
            zone = b""
        zone += packet
    yield filled(zone, length)


def filled(zone, length=ZONE):
    """A packet zone filled up with an idle packet."""
    spare = length - len(zone)
    return zone + struct.pack(">HHH", 2047, 0xC000, spare - 7) + bytes(spare - 6)
