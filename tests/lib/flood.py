#!/usr/bin/env python3
"""Sends a datagram again and again, as long as it runs, from sockets that were opened by another.

    tests/lib/flood.py RATE DIGITS SOCKET:PORT ..

RATE times a second each open socket of these numbers sends to a port of 127.0.0.1 the octets that
DIGITS tell in hexadecimal. Where they are as many as a frame has at least, the frame count of the
header is counted up.
"""
import socket
import sys
import time


def main(rate, digits, *ways):
    octets, count, start = bytearray.fromhex(digits), 0, time.monotonic()
    pairs = [it.split(":") for it in ways]
    sends = [(socket.socket(fileno=int(it)), ("127.0.0.1", int(port))) for it, port in pairs]
    while True:
        while count <= (time.monotonic() - start) * int(rate):
            if len(octets) > 8:
                octets[2:5] = (count % (1 << 24)).to_bytes(3, "big")
            for it, address in sends:
                it.sendto(octets, address)
            count += 1
        time.sleep(max(0.0, start + count / int(rate) - time.monotonic()))


if __name__ == "__main__":
    main(*sys.argv[1:])
