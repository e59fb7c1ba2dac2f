"""Who speaks CFDP with a station: a plain peer written apart, and another station."""
import binascii
import select
import struct
import tempfile
import time

from lib.choices import chance_of
from lib.links import bound
from lib.pdus import EOF, EOF_CAME, FINISHED, METADATA, WHOLE, WHOLE_HEARD, checksum_of, header_of
from lib.ports import free_ports
from lib.processes import PATIENT, Station, files_at, put, unheard

CARRIERS = ("packets", "pdus")

# The ids of both entities, and the APIDs of what each of them sends.
APIDS = {1: 100, 2: 101}


def octets_of(size):
    """Octets of which no two blocks are alike."""
    return chance_of(size).randbytes(size)


class Peer:
    """An entity that sends one file to a station and takes others from it, over a socket, with one
    PDU in each datagram. Nothing is lost on its way. `faults` has what is wrong with what came.
    `form` has what `--set` says of the station's packets."""

    def __init__(self, carrier, own, ports, form=None):
        self.carrier, self.own, self.station = carrier, own, 3 - own
        self.form = {"packet_type": 0, "secondary_header": 0, "peer_secondary_header": 0}
        self.form |= form or {}
        self.socket = bound(ports[own])
        self.to = ("127.0.0.1", ports[3 - own])
        self.sent, self.awaited = 0, None
        # By number: what came of files, their Metadata, and what is told of those that it sends.
        self.parts, self.named, self.ends, self.files = {}, {}, {}, {}
        self.told, self.faults, self.closed = [], [], set()

    def close(self):
        self.socket.close()

    # ---- datagrams
    def give(self, pdu):
        """Sends a PDU."""
        if self.carrier == "packets":
            count, header = 0xC000 | self.sent % 16384, self.form["peer_secondary_header"]
            first = APIDS[self.own] | 0x1000 * (self.sent % 2) | (0x0800 if header else 0)
            body = chance_of(self.sent).randbytes(header) + pdu
            pdu = struct.pack(">HHH", first, count, len(body) - 1) + body
        self.sent += 1
        self.socket.sendto(pdu, self.to)

    def pdu_of(self, datagram):
        """The PDU of a datagram, whose packet has to be the next one."""
        if self.carrier == "pdus":
            return datagram
        first, control, length = struct.unpack_from(">HHH", datagram)
        header = self.form["secondary_header"]
        whole = APIDS[self.station] | self.form["packet_type"] << 12 | (0x0800 if header else 0)
        wanted = (whole, len(datagram) - 7)
        if (first, length) != wanted or any(datagram[6 : 6 + header]):
            self.faults.append(f"a packet begins with {datagram[:6].hex()}, its length is {length}")
        if self.awaited not in (None, control):
            self.faults.append(f"a packet has the control {control:04X}, not {self.awaited:04X}")
        self.awaited = 0xC000 | (control + 1) % 16384
        return datagram[6 + header :]

    def serve(self, seconds, is_over):
        """Takes what comes until this is so, or the time is over."""
        end = time.monotonic() + seconds
        while not is_over() and time.monotonic() < end:
            if select.select([self.socket], [], [], 0.1)[0]:
                self.take(self.pdu_of(self.socket.recv(65536)))
        return is_over()

    # ---- PDUs
    def take(self, pdu):
        first, length, widths, source, number, destination = struct.unpack_from(">BHBHQH", pdu)
        body = pdu[16:]
        if first & 2:
            body, check, length = body[:-2], int.from_bytes(body[-2:], "big"), length - 2
            if binascii.crc_hqx(pdu[:-2], 0xFFFF) != check:
                self.faults.append(f"a PDU has the CRC {check:04X}")
        sender = self.station if not first & 8 else self.own
        ids = (widths, source, destination)
        if first & 0xE5 != 0x20 or length != len(body) or ids != (0x17, sender, 3 - sender):
            self.faults.append(f"a PDU begins with {pdu[:16].hex()}, its body is {len(body)} long")
        elif first & 16:
            at = struct.unpack_from(">I", body)[0]
            self.parts.setdefault(number, {})[at] = body[4:]
            self.publish(number)
        elif first & 8:
            self.hear_as_sender(number, body)
        else:
            self.hear_as_receiver(number, body)

    def hear_as_receiver(self, number, body):
        """A directive of a file that comes."""
        if body[0] == METADATA:
            self.named[number] = body
        elif body[0] == EOF:
            self.ends[number] = struct.unpack(">BII", body[1:])
            self.answer(number, EOF_CAME)
            self.publish(number)
        elif body == WHOLE_HEARD:
            self.closed.add(number)
        else:
            self.faults.append(f"a sender's directive is {body.hex()}")

    def answer(self, number, body):
        """Sends a directive to the sender of a file."""
        self.give(header_of(0, 1, self.station, number, self.own, len(body)) + body)

    def publish(self, number):
        """Looks whether a file is all there, and takes it then: file data may come behind EOF."""
        condition, checksum, size = self.ends.get(number, (0, 0, None))
        parts = self.parts.get(number, {})
        if number in self.files or size is None or sum(map(len, parts.values())) < size:
            return
        octets = bytearray(size)
        for at, part in parts.items():
            octets[at : at + len(part)] = part
        self.files[number] = bytes(octets)
        if condition or checksum_of(self.files[number]) != checksum:
            self.faults.append(f"an EOF has condition {condition}, checksum {checksum:08X}")
        self.answer(number, WHOLE)

    def hear_as_sender(self, number, body):
        """A directive of the file that it sends."""
        if body[0] == FINISHED:
            ends = header_of(0, 0, self.own, number, self.station, len(WHOLE_HEARD))
            self.give(ends + WHOLE_HEARD)
        self.told.append(body)

    def send_file(self, number, name, octets):
        """Sends a file, as one of this name."""
        named = b"".join(bytes([len(it)]) + it for it in (name, name))
        pieces = [(at, octets[at : at + 100]) for at in range(0, len(octets), 100)]
        bodies = [(0, struct.pack(">BBI", METADATA, 0, len(octets)) + named)]
        bodies += [(1, struct.pack(">I", at) + piece) for at, piece in pieces]
        bodies += [(0, struct.pack(">BBII", EOF, 0, checksum_of(octets), len(octets)))]
        for kind, body in bodies:
            self.give(header_of(kind, 0, self.own, number, self.station, len(body)) + body)


def pair_mistakes(program, carrier, words, settings, sizes):
    """What is wrong where two stations send each other files of these lengths at once."""
    sent, begun = {1: {}, 2: {}}, []
    with tempfile.TemporaryDirectory(dir=program.room) as folder:
        ports = dict(zip((1, 2), free_ports(2)))
        for own in (1, 2):
            said = ["--carrier", carrier, "--inbox", "to", "--outbox", "from", "--idle", "20"]
            for name, size in sizes.items():
                sent[own][f"{name}{own}"] = octets_of(size + own if size > 1 else size)
                put(folder, own, name, sent[own][f"{name}{own}"])
                said += ["--put", name, f"{name}{own}"]
            both = {**PATIENT, **settings}
            ends = (own, 3 - own, ports)
            begun.append(Station(program, folder, *ends, [*said, *words], both))
        for it in begun:
            status, out, err = it.ended()
            wanted = f"complete {len(sizes)} of {len(sizes)}\n"
            if status or unheard(err) or not out.endswith(wanted):
                yield f"station {it.own}: status {status}, {out[-300:]!r}, {err[-300:]!r}"
        for own in (1, 2):
            came = files_at(folder, own)
            if came != sent[3 - own]:
                yield f"what came to station {own} isn't what was sent: {sorted(came)}"
