#!/usr/bin/env python3
"""readers.py PORT ZONE COUNT OCTETS BURSTS: so many connections ask for a zone at once and only read, until each has so
many octets; that again and again. A line for each burst: when it began and ended, by the monotonic clock.

measure.py runs it as a process of its own, so that what reads doesn't delay what asks beside it."""
import selectors
import socket
import sys
import time

import wire

PAUSE = 0.5  # seconds between bursts


def burst(port, zone, count, octets):
    """The moments at which all asked, and at which the last had all octets."""
    streams = [socket.create_connection(("127.0.0.1", port), timeout=30) for _ in range(count)]
    room, left = memoryview(bytearray(1 << 20)), dict.fromkeys(streams, octets)
    with selectors.DefaultSelector() as selector:
        for stream in streams:
            selector.register(stream, selectors.EVENT_READ)
        begun = time.monotonic()
        for stream in streams:
            stream.sendall(wire.frame(wire.query(1, zone, wire.AXFR)))
        while selector.get_map():
            for key, _ in selector.select():
                got = key.fileobj.recv_into(room)
                left[key.fileobj] -= got
                if not got:
                    sys.exit("the server closed a connection")
                if left[key.fileobj] <= 0:
                    selector.unregister(key.fileobj)
        ended = time.monotonic()
    for stream in streams:
        stream.close()
    return begun, ended


def main():
    port, count, octets, bursts = int(sys.argv[1]), *(int(word) for word in sys.argv[3:])
    for _ in range(bursts):
        time.sleep(PAUSE)
        print(*burst(port, sys.argv[2], count, octets), flush=True)
    time.sleep(PAUSE)


if __name__ == "__main__":
    main()
