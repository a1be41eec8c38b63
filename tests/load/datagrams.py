#!/usr/bin/env python3
"""Sends random and mutated datagrams at a running catzd, and judges each reply.

    datagrams.py [COUNT] [--seed N] [--catzd PROGRAM]

It starts catzd with a primary of its own on ports above 5300 of 127.0.0.1, and sends a million datagrams, where COUNT
doesn't say another number. Each reply is read to its last octet and compared with its request; after each batch an
ordinary query must be answered right. The seed makes a run again.
"""
import argparse
import pathlib
import random
import socket
import struct
import sys
import tempfile
import time

sys.path.insert(0, str(pathlib.Path(__file__).resolve().parents[2] / "bench"))
import ask
import servers
import wire
import zones
from primary import Primary

PRIMARY_PORT, PORT = 5370, 5371
BATCH = 64
APEX = "a.test."
NAMES = ("www", "", "ns", "x.wild", "nothing", "x.www", "alias", "host.sub", "sub", "long", "deep.empty", "empty")
TYPES = (wire.A, wire.NS, wire.CNAME, wire.SOA, wire.MX, wire.TXT, wire.AAAA, 255, wire.AXFR, wire.IXFR, wire.OPT, 0)
CODES = {wire.NOERROR, wire.FORMERR, wire.SERVFAIL, wire.NXDOMAIN, wire.NOTIMP, wire.REFUSED, wire.NOTAUTH, 16}
COPIED = 0x7900  # opcode and RD
NEVER = 0x00F0  # RA, Z, AD and CD


def zone():
    """A zone with an answer of each kind, one of which is too long for UDP."""
    made = zones.member(APEX)
    made.put("sub", wire.NS, wire.name(f"ns.sub.{APEX}"))
    made.put("ns.sub", wire.A, zones.address(7))
    made.put("deep.empty", wire.A, zones.address(8))
    for number in range(40):
        made.put("long", wire.TXT, wire.txt(f"{number:02}" + "x" * 60))
    return made


class Maker:
    """Makes datagrams: queries, queries that were changed, and octets."""

    def __init__(self, seed):
        self.random = random.Random(seed)
        self.ways = (self.noise, self.flipped, self.cut, self.inserted, self.recounted, self.pointed, self.spliced,
                     self.padded, self.valid)

    def make(self):
        return self.random.choice(self.ways)()

    def valid(self):
        """A query, or a NOTIFY."""
        owner = self.random.choice(NAMES)
        owner = f"{owner}.{APEX}" if owner else self.random.choice((APEX, "other.test.", "."))
        flags = self.random.choice((0, 0x0100, 0x0110, wire.NOTIFY_FLAGS))
        edns = self.random.choice((None, None, 0, 512, 1232, 4096, 65_535))
        return wire.query(0, owner, self.random.choice(TYPES), flags, edns)

    def noise(self):
        return self.random.randbytes(self.random.choice((0, 1, 2, 11, 12, 13, 17, 30, 100, 512, 1400)))

    def flipped(self):
        """Some bits are turned."""
        octets = bytearray(self.valid())
        for _ in range(self.random.randrange(1, 6)):
            octets[self.random.randrange(len(octets))] ^= 1 << self.random.randrange(8)
        return bytes(octets)

    def cut(self):
        octets = self.valid()
        return octets[:self.random.randrange(len(octets))]

    def inserted(self):
        octets = self.valid()
        at = self.random.randrange(len(octets))
        return octets[:at] + self.random.randbytes(self.random.randrange(1, 40)) + octets[at:]

    def recounted(self):
        """The counts of the header are others."""
        octets = bytearray(self.valid())
        struct.pack_into(">H", octets, self.random.choice((4, 6, 8, 10)), self.random.choice((0, 1, 2, 3, 255, 65_535)))
        return bytes(octets)

    def pointed(self):
        """A pointer somewhere in the question, or in a record after it."""
        octets = bytearray(self.valid())
        struct.pack_into(">H", octets, self.random.randrange(12, len(octets) - 1),
                         0xC000 | self.random.randrange(len(octets) + 4))
        return bytes(octets)

    def spliced(self):
        """The front of one and the end of another."""
        one, two = self.valid(), self.valid()
        return one[:self.random.randrange(len(one))] + two[self.random.randrange(len(two)):]

    def padded(self):
        """An OPT record with options, or two of them, or records in other sections."""
        base, opt = self.valid(), self.random.randbytes(self.random.randrange(30))
        record = b"\0" + struct.pack(">HHIH", wire.OPT, 1232, self.random.choice((0, 0x8000, 0x10000)), len(opt)) + opt
        count = self.random.randrange(1, 3)
        return base[:4] + struct.pack(">4H", 1, 0, 0, count) + base[12:] + record * count


def judge(request, reply, limits=(512, 1232)):
    """What is wrong with a reply, or None. The limits are those of its octets, without OPT and with it."""
    if len(request) < 12 or request[2] & 0x80:
        return "a reply to what is no request"
    try:
        message = wire.read_message(reply)
    except wire.Malformed as error:
        return f"the reply can't be read: {error}"
    asked = struct.unpack_from(">H", request, 2)[0]
    if not message.flags & wire.RESPONSE or (message.flags ^ asked) & COPIED or message.flags & NEVER:
        return f"flags {message.flags:04x}"
    if message.code not in CODES:
        return f"code {message.code}"
    has_opt = any(record.kind == wire.OPT for record in message.additional)
    if len(reply) > limits[has_opt]:
        return f"{len(reply)} octets"
    if message.question is None:
        return None if len(reply) == 12 and message.code in (wire.FORMERR, wire.NOTIMP) else "no question"
    end = wire.read_name(reply, 12)[1] + 4
    return None if request[12:end] == reply[12:end] else "another question"


def is_notify(octets):
    """Whether the opcode of a message is that of a NOTIFY (RFC 1996)."""
    return len(octets) > 2 and octets[2] >> 3 & 15 == 4


class Attack:
    """The sockets, and what came so far."""

    def __init__(self, seed):
        self.maker, self.asker = Maker(seed), ask.Asker(PORT)
        self.socket = socket.socket(socket.AF_INET, socket.SOCK_DGRAM)
        self.socket.connect(("127.0.0.1", PORT))
        self.sent = self.replies = 0
        self.requests = {}  # the last one with each ID
        self.held = {}  # those with each ID that may be NOTIFYs, which may be held back and answered late
        self.faults = []

    def batch(self):
        """Sends some datagrams, each with an ID of its own, and judges what comes before the next query's reply."""
        batch = []
        for number in range(self.sent, self.sent + BATCH):
            made, identity = self.maker.make(), number & 0xFFFF
            batch.append(made if len(made) < 2 else struct.pack(">H", identity) + made[2:])
            self.requests[identity] = batch[-1]
            if is_notify(batch[-1]):
                self.held.setdefault(identity, []).append(batch[-1])
        for request in batch:
            self.socket.send(request)
        self.sent += BATCH
        message = self.asker.ask(f"www.{APEX}", limit=5)
        if message is None or not ask.is_address(message, zones.address(1)):
            self.faults.append(f"an ordinary query got {message}")
        self.hear()

    def hear(self):
        """Judges the replies that have come, to this batch or one before."""
        self.socket.setblocking(False)
        while True:
            try:
                reply = self.socket.recv(65_535)
            except BlockingIOError:
                return
            self.replies += 1
            identity = int.from_bytes(reply[:2], "big")
            request = self.requests.get(identity, b"")
            late = self.held.get(identity, []) if is_notify(reply) else []
            fault = judge(request, reply)
            if fault and all(judge(one, reply) for one in late):
                self.faults.append(f"{fault}: {request.hex()} got {reply.hex()}")


def attacked(folder):
    """A primary, and a catzd that transfers from it and answers."""
    primary = Primary(PRIMARY_PORT)
    primary.hold(zones.catalog("catalog.test.", [APEX]), zone())
    server = servers.Catzd(servers.Plan("catalog.test.", PRIMARY_PORT), folder, PORT).start()
    ask.Asker(PORT).wait(f"www.{APEX}", limit=20)
    return primary, server


def run(count, seed, folder):
    """Sends the datagrams; the faults."""
    _primary, server = attacked(folder)
    try:
        attack, begun, before = Attack(seed), time.monotonic(), server.memory()[1]
        while attack.sent < count and server.is_running() and len(attack.faults) < 10:
            attack.batch()
        print(f"{attack.sent} datagrams in {time.monotonic() - begun:.0f} s, seed {seed}: {attack.replies} replies; "
              f"VmRSS {before:.1f} MB before, {server.memory()[1] if server.is_running() else 0:.1f} MB after")
    finally:
        seconds, status = server.stop()
    print(f"catzd ended {seconds:.1f} s after SIGTERM with status {status}")
    return attack.faults + ([] if status == 0 else [f"catzd ended with status {status}"])


def main(text, count, work):
    """The command line of an attack: runs `work` and prints its faults."""
    words = argparse.ArgumentParser(description=text, formatter_class=argparse.RawDescriptionHelpFormatter)
    words.add_argument("count", type=int, nargs="?", default=count)
    words.add_argument("--seed", type=int, default=random.randrange(1 << 32))
    words.add_argument("--catzd", default=servers.Catzd.program)
    chosen = words.parse_args()
    servers.Catzd.choose(chosen.catzd)
    with tempfile.TemporaryDirectory(prefix="catzd-load-") as folder:
        faults = work(chosen.count, chosen.seed, folder)
    for fault in faults:
        print(f"FAULT: {fault}")
    print(f"{len(faults)} faults")
    sys.exit(1 if faults else 0)


if __name__ == "__main__":
    main(__doc__, 1_000_000, run)
