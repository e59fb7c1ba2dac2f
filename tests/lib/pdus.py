"""PDUs, by the book alone (CCSDS 727.0-B-5)."""
import struct

# Codes of directives (CCSDS 727.0-B-5, table 5-4).
EOF, FINISHED, ACK, METADATA, NAK = 4, 5, 6, 7, 8

# What is told of a whole file: that its EOF came, that it is published, and that this was heard
# (CCSDS 727.0-B-5, 5.2.4).
EOF_CAME = bytes([ACK, EOF << 4, 1])
WHOLE = bytes([FINISHED, 2])
WHOLE_HEARD = bytes([ACK, FINISHED << 4 | 1, 2])


def header_of(kind, from_receiver, source, number, destination, length):
    """The header of a PDU with ids of two octets and a number of eight: `kind` is 1 of file data,
    and 0 of a directive."""
    first = 0x20 | kind << 4 | from_receiver << 3
    return struct.pack(">BHBHQH", first, length, 0x17, source, number, destination)


def checksum_of(octets):
    """The modular checksum of a file: the sum of its words, the last one filled up with zeros."""
    padded = octets + bytes(-len(octets) % 4)
    return sum(struct.unpack(f">{len(padded) // 4}I", padded)) % (1 << 32)


def eof(number):
    """The EOF of a transaction of station 1, with a file of four octets."""
    return struct.pack(">BHBHIHBBII", 0x20, 10, 0x13, 1, number, 2, 4, 0, 7, 4)


def large_eof(number, size):
    """The EOF of a transaction of station 1, with a file of so many octets, by the large file
    flag."""
    return struct.pack(">BHBHIHBBIQ", 0x21, 14, 0x13, 1, number, 2, EOF, 0, 7, size)


def piece(number):
    """An octet of that file."""
    return struct.pack(">BHBHIHIB", 0x30, 5, 0x13, 1, number, 2, 0, 65)


def finished(number):
    """What station 2 answers to the EOF of a transaction of station 1 that it has whole."""
    return struct.pack(">BHBHIHBB", 0x28, 2, 0x13, 1, number, 2, 5, 2)
