#!/usr/bin/env python3
"""hostile.py [--catzd PROGRAM] [PART ..]: how much memory the transfers of a hostile primary make a server take, on loopback.

The parts are distinct, repeated, filled, plain, largest and differences; all of them without one. Each starts a server with one
member, whose transfer is up to 64 MiB long, waits for what the log says of it, at most two minutes, and looks at the most
memory that the server had. It prints what it saw, and each fault, and ends with status 1 where there was one."""
import argparse
import functools
import itertools
import pathlib
import struct
import sys
import tempfile
import time

sys.path.insert(0, str(pathlib.Path(__file__).resolve().parent.parent.parent / "bench"))

import servers
import wire
import zones
from primary import Primary

CATALOG, MEMBER = "catalog.test.", "member.test."
PRIMARY_PORT, PORT = 5833, 5834
RP, STREAM, MESSAGE = 17, 67_108_864, 65_535
MOST = 400  # megabytes that a server may have at any time
TIMES = (3600, 600, 86_400, 60)
FAULTS = []


def judge(is_right, text):
    """Prints what was seen, and notes a fault where it isn't as it has to be."""
    print(f"  {'as it should be' if is_right else 'FAULT'}: {text}", flush=True)
    if not is_right:
        FAULTS.append(text)


class Hostile(Primary):
    """A primary whose member is sent in messages that are made beforehand."""
    heads, streams = {}, {}

    def _reply(self, request, is_stream):
        identity = struct.unpack_from(">H", request)[0]
        asked, at = wire.read_name(request, 12)
        kind = struct.unpack_from(">H", request, at)[0]
        stream = self.streams.get(kind) if asked.lower() == wire.name(MEMBER) else None
        if not is_stream or stream is None:
            return super()._reply(request, is_stream)
        self.transfers += 1
        return b"".join(wire.frame(struct.pack(">H", identity) + message) for message in stream)


def message(kind, pieces):
    """A message without its ID."""
    question = wire.name(MEMBER) + struct.pack(">HH", kind, 1)
    return struct.pack(">5H", 0x8400, 1, len(pieces), 0, 0) + question + b"".join(pieces)


def pointer(place):
    return struct.pack(">H", 0xC000 | place)


def long_names(number, count):
    """Records that spell names of 255 octets, and the places of these in the message."""
    head = 12 + len(wire.name(MEMBER)) + 4
    apex, pieces, places = wire.name(MEMBER), [], []
    for name in range(count):
        labels = [f"n{number}-{name}".ljust(63, "x").encode(), b"y" * 63, b"y" * 63]
        labels.append(b"z" * (255 - 3 * 64 - len(apex) - 1))
        owner = b"".join(bytes([len(one)]) + one for one in labels) + zones.TO_APEX
        places.append(head)
        pieces.append(owner + struct.pack(">HHIH", wire.A, 1, 60, 4) + bytes(4))
        head += len(pieces[-1])
    return pieces, places


def rp(owner, mailbox, text):
    """An RP record of 16 octets, of which 775 are kept."""
    return pointer(owner) + struct.pack(">HHIH", RP, 1, 60, 4) + pointer(mailbox) + pointer(text)


@functools.cache
def rps(places):
    """The RP records of these names, which are at the same places in each message."""
    return [rp(*triple) for triple in itertools.islice(itertools.product(places, repeat=3), MESSAGE // 16)]


def with_rps(number, wanted):
    """The records of a message: long names, and RP records with each triple of these until they are as many as wanted."""
    pieces, places = long_names(number, 40)
    most = min(wanted - len(pieces), (MESSAGE - 2000 - sum(map(len, pieces))) // 16)
    return pieces + rps(tuple(places))[:most]


def distinct(kind, front, after):
    """Messages of distinct RP records, up to the length of a stream."""
    sent, size = [message(kind, front)], 0
    while size < STREAM - 2 * MESSAGE:
        sent.append(message(kind, with_rps(len(sent), MESSAGE)))
        size += len(sent[-1]) + 4
    return [*sent, message(kind, after)]


def repeated(front, after):
    """Messages of one RP record again and again."""
    pieces, places = long_names(0, 3)
    pieces += [rp(*places)] * ((MESSAGE - 2000 - sum(map(len, pieces))) // 16)
    again = message(wire.AXFR, pieces)
    return [message(wire.AXFR, front), *[again] * (STREAM // (len(again) + 4) - 1), message(wire.AXFR, after)]


def filled(front, after):
    """As many distinct RP records as are kept, and one of them again and again."""
    sent, left, size = [message(wire.AXFR, front)], 318_000, 0
    while left:
        pieces = with_rps(len(sent), left)
        sent.append(message(wire.AXFR, pieces))
        left -= len(pieces)
        size += len(sent[-1]) + 4
    names = with_rps(1, 41)
    again = message(wire.AXFR, names + names[-1:] * ((MESSAGE - 2000 - sum(map(len, names))) // 16))
    return [*sent, *[again] * ((STREAM - size) // (len(again) + 4) - 1), message(wire.AXFR, after)]


def plain(front, after):
    """250,000 records, SOA and NS among them."""
    pieces = [zones.piece(f"h{number}", wire.A, 3600, zones.address(number)) for number in range(249_998)]
    batches = [message(wire.AXFR, pieces[at:at + 2000]) for at in range(0, len(pieces), 2000)]
    return [message(wire.AXFR, front), *batches, message(wire.AXFR, after)]


def largest(front, after):
    """250,000 records, SOA and NS among them, whose names take as many octets as they can."""
    sent, left = [message(wire.AXFR, front)], 249_998
    while left:
        pieces = with_rps(len(sent), left)
        sent.append(message(wire.AXFR, pieces))
        left -= len(pieces)
    return [*sent, message(wire.AXFR, after)]


class Fed(servers.Catzd):
    """A catzd with one catalog."""

    def __init__(self, folder):
        super().__init__(None, folder, PORT)

    def input(self):
        return open(self.write("catzd.toml", f"""listen = "127.0.0.1:{PORT}"
[[catalog]]
name = "{CATALOG}"
policy = "off"
primaries = ["127.0.0.1:{PRIMARY_PORT}"]
"""))

    def told(self, words, limit=120):
        """The first line of the log of the member with one of these words; none within the limit in seconds."""
        begun = time.monotonic()
        while time.monotonic() < begun + limit and self.is_running():
            lines = (self.folder / "log").read_text(errors="replace").splitlines()
            for line in lines:
                if f" {MEMBER}" in line + " " and line.split()[0] in words:
                    return line
            time.sleep(0.05)
        return None


def run(name, word, streams, before=None):
    """Starts a server whose member is sent so. The log has to say this of it, and memory has to stay below the most."""
    primary, catalog, member = Hostile(PRIMARY_PORT), zones.catalog(CATALOG, [MEMBER]), zones.member(MEMBER)
    for zone in (catalog, member):
        zone.times = TIMES
    primary.hold(catalog, member)
    primary.streams = streams
    with tempfile.TemporaryDirectory() as folder:
        server = Fed(folder).start()
        if before:
            before(server, primary)
        begun = time.monotonic()
        line = server.told((word,) if before else (word, "published", "nomemory", "refused", "failed"))
        seconds, (most, _) = time.monotonic() - begun, server.memory()
        judge(line is not None and line.split()[0] == word, f"{name}: the log says {line!r} after {seconds:.1f} s")
        judge(most < MOST, f"{name}: {most:.0f} MB at the most")
        _, status = server.stop()
        judge(status == 0, f"{name}: a stop ends with status {status}")
    primary.close()


def main():
    words = argparse.ArgumentParser(description=__doc__)
    words.add_argument("--catzd", default=servers.Catzd.program)
    words.add_argument("parts", nargs="*", metavar="PART")
    chosen = words.parse_args()
    servers.Catzd.choose(chosen.catzd)
    member = zones.member(MEMBER)
    soa = zones.piece("", wire.SOA, 3600, wire.soa(9, TIMES))
    old = zones.piece("", wire.SOA, 3600, wire.soa(member.serial, TIMES))
    ns = zones.piece("", wire.NS, 3600, wire.name(f"ns.{MEMBER}"))

    def notified(server, primary):
        """The member's first version is there, and then its primary has another."""
        server.told(("published",))
        primary.zones[wire.name(MEMBER)].serial = 9
        primary.notify(MEMBER, PORT)

    parts = {
        "distinct": lambda: run("distinct", "failed", {wire.AXFR: distinct(wire.AXFR, [soa, ns], [soa])}),
        "repeated": lambda: run("repeated", "published", {wire.AXFR: repeated([soa, ns], [soa])}),
        "filled": lambda: run("filled", "refused", {wire.AXFR: filled([soa, ns], [soa])}),
        "plain": lambda: run("plain", "published", {wire.AXFR: plain([soa, ns], [soa])}),
        "largest": lambda: run("largest", "published", {wire.AXFR: largest([soa, ns], [soa])}),
        "differences": lambda: run("differences", "failed", {wire.IXFR: distinct(wire.IXFR, [soa, old, soa], [soa])}, notified),
    }
    for name in chosen.parts or parts:
        print(name, flush=True)
        parts[name]()
    sys.exit(1 if FAULTS else 0)


if __name__ == "__main__":
    main()
