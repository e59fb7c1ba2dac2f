"""What somebody sends who forges: PDUs, frames, and frames with a MAC, made by the books alone
(CCSDS 727.0-B-5, 732.0-B-4 and 355.0-B-2, RFC 2104); and a link that such a one holds."""
import binascii
import hashlib
import hmac
import os
import struct
import time
import typing

from lib.frames import ZONE, frame_of, zones_of
from lib.links import Relay
from lib.pdus import EOF, FINISHED, METADATA, NAK, WHOLE, checksum_of, header_of

# Octets of the header of a frame, of the security header, of a control field, and of a check.
HEADER, SECURITY, CONTROL, CHECK = 6, 10, 4, 2

# The first octets of a PDU with a number of 8 octets whose source is station 1, behind its length.
IDS = rb"(?s)\x17\x00\x01(.{8})\x00\x02"

# So many octets may wait in the socket of a station while a forger sends it more, of which the
# system counts at most so many for a datagram.
MOST_WAITING, A_DATAGRAM = 120_000, 1300


class Form(typing.NamedTuple):
    """How long what a frame has is: its packet zone, as it is set; the MAC, 0 without keys; the
    insert zone; and, 0 or 1, whether it has a control field and error control."""

    zone: int = ZONE
    mac: int = 0
    insert_zone: int = 0
    control_field: int = 0
    error_control: int = 0

    @property
    def bare_zone(self):
        """The octets of a packet zone between a security header and a MAC."""
        return self.zone - (SECURITY + self.mac if self.mac else 0)

    def settings(self):
        """What `--set` says of a station with such frames both ways."""
        fields = self._asdict()
        fields.pop("mac")
        both = {**fields, **{f"peer_{it}": fields[it] for it in list(fields)[1:]}}
        return {**both, **({"mac": self.mac} if self.mac else {})}


class Key(typing.NamedTuple):
    """A key, and the SPI by which frames name it."""

    spi: int
    octets: bytes


def key_of(spi):
    """The key with this SPI."""
    return Key(spi, hashlib.sha256(b"a key %d" % spi).digest())


# The keys of frames to each station.
KEYS = {1: key_of(18), 2: key_of(17)}


def write_keys(path, own, keys, former=None, mode=0o600):
    """Writes the keys of a station, by those of frames to each; `former` is one more of its own."""
    lines = [("send", keys[3 - own]), ("receive", keys[own]), *[("receive", former)] * bool(former)]
    text = "# SPI  direction  key\n"
    text += "".join(f"{it.spi} {way} {it.octets.hex()}\n" for way, it in lines)
    with open(f"{path}.new", "w", encoding="ascii") as it:
        it.write(text)
    os.chmod(f"{path}.new", mode)
    os.rename(f"{path}.new", path)


# ---- PDUs


def to_receiver(number, body, kind=0):
    """A PDU of a file of station 1 to station 2."""
    return header_of(kind, 0, 1, number, 2, len(body)) + body


def to_sender(number, body):
    """A directive of station 2 on a file of station 1."""
    return header_of(0, 1, 1, number, 2, len(body)) + body


def metadata(number, size, name):
    named = 2 * (bytes([len(name)]) + name)
    return to_receiver(number, struct.pack(">BBI", METADATA, 0, size) + named)


def file_data(number, octets, offset=0):
    return to_receiver(number, struct.pack(">I", offset) + octets, 1)


def eof(number, octets, condition=0):
    ends = struct.pack(">BBII", EOF, condition << 4, checksum_of(octets), len(octets))
    return to_receiver(number, ends)


def whole_file(number, name, octets):
    """All PDUs of a file of at most 100 octets, in their order."""
    return [metadata(number, len(octets), name), file_data(number, octets), eof(number, octets)]


def finished(number, condition=0):
    """A Finished: the file is published, or, with a condition, discarded and not whole."""
    return to_sender(number, bytes([FINISHED, condition << 4 | 4]) if condition else WHOLE)


def nak(number, end):
    """A NAK of all octets of a file before this offset."""
    return to_sender(number, struct.pack(">BIIII", NAK, 0, end, 0, end))


# ---- frames


def frames_of(own, pdus, zone=ZONE):
    """Bare frames with these PDUs, on the channel of directives that station `own` sends on."""
    for count, it in enumerate(zones_of(pdus, 99 + own, zone)):
        yield frame_of(4 + own, count, it)


def closed(octets, form):
    """These octets of a frame with the fields that stand at its end."""
    octets += bytes(CONTROL * form.control_field)
    if form.error_control:
        octets += struct.pack(">H", binascii.crc_hqx(octets, 0xFFFF))
    return octets


def sealed(bare, key, number, form):
    """The frame of a link for a bare frame, under this key and sequence number."""
    header, insert_zone = bare[:HEADER], bytes(form.insert_zone)
    text = header + insert_zone + struct.pack(">HQ", key.spi, number) + bare[HEADER:]
    return closed(text + hmac.digest(key.octets, text, "sha256")[: form.mac], form)


def security_of(frame, form):
    """The SPI and the sequence number of a frame with a security header."""
    return struct.unpack_from(">HQ", frame, HEADER + form.insert_zone)


def mended(frame, form):
    """A frame that was changed, with the error control that is right for it."""
    return closed(frame[: len(frame) - CHECK], form._replace(control_field=0))


def bare_in(frame, form):
    """The bare frame in one with a security header."""
    start = HEADER + form.insert_zone + SECURITY
    return frame[:HEADER] + frame[start : start + 2 + form.bare_zone]


def with_bit(frame, place):
    """A frame with one bit turned."""
    at, bit = divmod(place, 8)
    return frame[:at] + bytes([frame[at] ^ 0x80 >> bit]) + frame[at + 1 :]


def on_channel(frame, channel):
    """A frame with the number of another virtual channel."""
    return frame[:1] + bytes([frame[1] & 0xC0 | channel]) + frame[2:]


def packets_in(zone):
    """Where the packets of a packet zone begin and end, of which none is cut."""
    at = 0
    while at + 7 <= len(zone):
        end = at + 7 + struct.unpack_from(">H", zone, at + 4)[0]
        yield at, end
        at = end


def with_content(frame, old, new):
    """A frame in which file data, and the checksum of the EOF, are those of another content of the
    same length, with the CRCs of PDUs that belong to that."""
    zone = bytearray(frame[8:])
    for at, end in packets_in(zone):
        pdu = bytes(zone[at + 6 : end - CHECK])
        sums = (struct.pack(">I", checksum_of(it)) for it in (old, new))
        changed = pdu.replace(old, new).replace(*sums)
        if changed != pdu:
            zone[at + 6 : end] = changed + struct.pack(">H", binascii.crc_hqx(changed, 0xFFFF))
    return frame[:8] + bytes(zone)


# ---- the link


def socket_of(port):
    """How many octets wait in the socket at this port, as the system counts them."""
    with open("/proc/net/udp", encoding="ascii") as it:
        for words in (line.split() for line in it.readlines()[1:]):
            if words[1].endswith(f":{port:04X}"):
                return int(words[4].split(":")[1], 16)
    return 0


def room_of(port):
    """How many datagrams more the socket at this port takes for sure."""
    return (MOST_WAITING - socket_of(port)) // A_DATAGRAM


class Forger(Relay):
    """A relay that gives stations frames of its own, so slowly that none finds a socket full."""

    def __init__(self, *those):
        self.room = {1: 0, 2: 0}
        super().__init__(*those)

    def forge(self, own, frames):
        """Gives a station these frames, as from its peer; says how many."""
        count = 0
        for count, frame in enumerate(frames, 1):
            while self.room[own] <= 0:
                self.room[own] = room_of(self.listens[own])
                time.sleep(0.001 * (self.room[own] <= 0))
            self.room[own] -= 1
            self.give(own, frame)
        return count

    def sent_by(self, own):
        """The frames that came from a station, in their order."""
        return [frame for _, it, frame in list(self.came) if it == own]
