#!/usr/bin/env python3
"""Sends frames with random and mutated messages over TCP, cut anywhere, and judges each reply.

    streams.py [COUNT] [--seed N] [--catzd PROGRAM]

It makes 20,000 connections, where COUNT doesn't say another number. Each sends some frames in pieces; then it asks an
ordinary query, which must be answered right behind the replies before it, or it ends within a frame, or resets.
"""
import pathlib
import socket
import struct
import sys
import time

sys.path.insert(0, str(pathlib.Path(__file__).resolve().parents[2] / "bench"))
import ask
import datagrams
import wire
import zones

LIMITS = (65_535, 65_535)
QUERY, CUT, RESET = "query", "cut", "reset"
LAST = 0xFFFF  # the ID of the ordinary query


class Stream:
    """One connection."""

    def __init__(self, maker):
        self.maker, self.random = maker, maker.random
        self.ending = self.random.choice((QUERY, QUERY, QUERY, CUT, RESET))
        self.requests = [self.message(number) for number in range(self.random.randrange(20))]
        if self.ending == QUERY:
            self.requests.append(wire.query(LAST, f"www.{datagrams.APEX}", wire.A))
        self.octets = b"".join(wire.frame(one) for one in self.requests)
        if self.ending != QUERY:
            self.octets += self.random.randbytes(self.random.randrange(300))

    def message(self, number):
        """A message with an ID of its own; now and then one with as many octets as a frame can have."""
        made = self.maker.make()
        if self.random.random() < 0.01:
            made += self.random.randbytes(65_535 - len(made))
        return made if len(made) < 2 else struct.pack(">H", number) + made[2:]

    def run(self):
        """Sends and hears; the faults."""
        with socket.create_connection(("127.0.0.1", datagrams.PORT), timeout=5) as stream:
            stream.setsockopt(socket.IPPROTO_TCP, socket.TCP_NODELAY, 1)
            at = 0
            while at < len(self.octets):
                size = self.random.choice((1, 2, 3, 7, 40, 500, 70_000))
                stream.sendall(self.octets[at:at + size])
                at += size
            if self.ending == RESET:
                stream.setsockopt(socket.SOL_SOCKET, socket.SO_LINGER, struct.pack("ii", 1, 0))
            return self.hear(stream) if self.ending == QUERY else []

    def hear(self, stream):
        """Reads the replies up to the one of the ordinary query; they come in the order of the requests."""
        held, faults, left = b"", [], list(self.requests)
        while True:
            while len(held) < 2 or len(held) < 2 + int.from_bytes(held[:2], "big"):
                octets = stream.recv(65_537)
                if not octets:
                    return faults + ["the server closed the connection"]
                held += octets
            length = int.from_bytes(held[:2], "big")
            reply, held = held[2:2 + length], held[2 + length:]
            while left and left[0][:2] != reply[:2]:
                left.pop(0)
            fault = datagrams.judge(left.pop(0), reply, LIMITS) if left else "a reply to no request"
            if fault:
                faults.append(f"{fault}: {reply.hex()[:400]}")
            if not left:
                right = ask.is_address(wire.read_message(reply), zones.address(1))
                return faults + ([] if right else [f"an ordinary query got {reply.hex()[:400]}"])


def run(count, seed, folder):
    """Makes the connections; the faults."""
    _primary, server = datagrams.attacked(folder)
    maker, faults, asked = datagrams.Maker(seed), [], 0
    try:
        begun, before = time.monotonic(), server.memory()[1]
        for _ in range(count):
            stream = Stream(maker)
            asked += len(stream.requests)
            try:
                faults += stream.run()
            except OSError as error:
                faults.append(f"a stream that ends with {stream.ending}: {error!r}")
            if len(faults) > 9 or not server.is_running():
                break
        print(f"{count} connections with {asked} messages in {time.monotonic() - begun:.0f} s, seed {seed}; VmRSS "
              f"{before:.1f} MB before, {server.memory()[1] if server.is_running() else 0:.1f} MB after")
    finally:
        seconds, status = server.stop()
    print(f"catzd ended {seconds:.1f} s after SIGTERM with status {status}")
    return faults + ([] if status == 0 else [f"catzd ended with status {status}"])


if __name__ == "__main__":
    datagrams.main(__doc__, 20_000, run)
