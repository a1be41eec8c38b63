#!/usr/bin/env python3
"""Scripts for `catzd replay`. usage: gen.py listing N | members N ROUNDS MOST | update N TIMES [CATALOGS] | due N TIMES | zone N | jobs N"""
import struct
import sys

CATALOG = "cat.example."


def name(text):
    return b"".join(bytes([len(label)]) + label for label in text.encode().split(b".") if label) + b"\0"


def record(owner, kind, rdata):
    return name(owner) + struct.pack(">HHIH", kind, 1, 3600, len(rdata)) + rdata


def soa(owner, serial, refresh):
    return record(owner, 6, name("ns.invalid.") + name("host.invalid.") + struct.pack(">5I", serial, refresh, 60, 600000, 30))


def stream(zone, ticket, kind, records):
    """The frames of a transfer in hex: messages of at most 60,000 octets of records, with the job's ID."""
    frames, part, size = [], [], 0
    for last, r in [(False, r) for r in records] + [(True, b"")]:
        if last or 60000 < size + len(r):
            first = not frames
            body = struct.pack(">6H", ticket % 65536, 0x8400, int(first), len(part), 0, 0)
            body += name(zone) + struct.pack(">2H", kind, 1) if first else b""
            body += b"".join(part)
            frames.append(struct.pack(">H", len(body)) + body)
            part, size = [], 0
        part.append(r)
        size += len(r)
    return b"".join(frames).hex()


def member(number):
    return f"m{number:06}.example."


def pointer(label, number):
    return record(f"{label}.zones.{CATALOG}", 12, name(member(number)))


def listing(count):
    head = soa(CATALOG, 1, 1000000000)
    version = record(f"version.{CATALOG}", 16, b"\x012")
    return [head, record(CATALOG, 2, name("invalid.")), version] + [pointer(f"n{i}", i) for i in range(count)] + [head]


def other(catalog, count):
    """Another catalog, which lists as many zones of its own."""
    head = soa(catalog, 1, 1000000000)
    nodes = [record(f"n{i}.zones.{catalog}", 12, name(f"m{i:06}.{catalog}")) for i in range(count)]
    return [head, record(catalog, 2, name("invalid.")), record(f"version.{catalog}", 16, b"\x012")] + nodes + [head]


def version(zone, serial):
    return [soa(zone, serial, 3600), record(zone, 2, name("ns.invalid.")), soa(zone, serial, 3600)]


def main(kind, count, times=0, most=0):
    print(f"catalog {CATALOG} off 192.0.2.1")
    others = [f"cat{i}.example." for i in range(1, most)] if kind == "update" else []
    for catalog in others:
        print(f"catalog {catalog} off 192.0.2.1")
    tickets = 0
    if kind in ("listing", "members", "update", "due"):
        tickets = 1
        print(f"1000 job\n1000 take 1 {stream(CATALOG, 1, 252, listing(count))}")
    for catalog in others:
        tickets += 1
        print(f"1000 job\n1000 take {tickets} {stream(catalog, tickets, 252, other(catalog, count))}")
    if kind == "members":  # so many transfers of each member, up to most of them
        for turn in range(times):
            for i in range(min(count, most)):
                tickets += 1
                moment = 1000 + 3600 * turn
                asked = 251 if turn else 252
                print(f"{moment} job\n{moment} take {tickets} {stream(member(i), tickets, asked, version(member(i), 1 + turn))}")
    if kind == "update":  # the first member stands under another label each time
        notify = (struct.pack(">6H", 7, 0x2400, 1, 0, 0, 0) + name(CATALOG) + struct.pack(">2H", 6, 1)).hex()
        for turn in range(times):
            tickets += 1
            old, new = soa(CATALOG, 1 + turn, 1000000000), soa(CATALOG, 2 + turn, 1000000000)
            before = f"x{turn - 1}" if turn else "n0"
            records = [new, old, pointer(before, 0), new, pointer(f"x{turn}", 0), new]
            print(f"2000 udp 192.0.2.1 {notify}\n2000 job\n2000 take {tickets} {stream(CATALOG, tickets, 251, records)}")
    if kind == "due":  # jobs that fail
        for turn in range(times):
            tickets += 1
            print(f"1000 job\n1000 fail {tickets}")
    if kind == "zone":  # so many transfers of one zone
        for turn in range(count):
            tickets += 1
            moment = 1000 + 3600 * turn
            records = version(CATALOG, 1 + turn)
            print(f"{moment} job\n{moment} take {tickets} {stream(CATALOG, tickets, 251 if turn else 252, records)}")
    if kind == "jobs":
        for _ in range(count):
            print("1000 job")


main(sys.argv[1], *map(int, sys.argv[2:]))
