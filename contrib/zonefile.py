#!/usr/bin/env python3
"""Writes the master file of a catalog that `catzd produce` makes.

    catzd produce < catalog.txt | contrib/zonefile.py > catalog.example.zone

It reads the lines `axfr <hex>` and `ixfr <hex>`, applies each change to the version before it, and writes the last
version (RFC 1035 section 5). Where a line isn't one of these, or a change doesn't fit, it writes nothing and ends with
status 1. Knot, NSD, BIND and PowerDNS load the file as that of a primary zone.
"""
import struct
import sys

SOA, NS, PTR, TXT, ZONEMD = 6, 2, 12, 16, 63


class Fault(Exception):
    """What is wrong with the input."""


def messages(octets):
    """The messages of a stream, each after its length in two octets."""
    at = 0
    while at < len(octets):
        (size,) = struct.unpack_from(">H", octets, at)
        yield octets[at + 2:at + 2 + size]
        at += 2 + size


def read_name(message, at):
    """The labels of a name at an offset, and the offset after it. catzd compresses no name of a transfer."""
    labels = []
    while message[at]:
        if message[at] > 63:
            raise Fault("a compressed name")
        labels.append(message[at + 1:at + 1 + message[at]])
        at += 1 + message[at]
    return tuple(labels), at + 1


def records(octets):
    """The answer records of a stream: owner, type, TTL, RDATA."""
    for message in messages(octets):
        questions, answers = struct.unpack_from(">HH", message, 4)
        at = 12
        for _ in range(questions):
            at = read_name(message, at)[1] + 4
        for _ in range(answers):
            owner, at = read_name(message, at)
            kind, _, ttl, size = struct.unpack_from(">HHIH", message, at)
            yield owner, kind, ttl, message[at + 10:at + 10 + size]
            at += 10 + size


def whole(octets):
    """The records of an AXFR, without the SOA that ends it."""
    found = list(records(octets))
    if len(found) < 2 or found[0] != found[-1] or found[0][1] != SOA:
        raise Fault("not a whole zone")
    return found[:-1]


def changed(zone, octets):
    """The records after the one difference of an IXFR (RFC 1995 section 4)."""
    found = list(records(octets))
    soas = [number for number, record in enumerate(found) if record[1] == SOA]
    if len(soas) != 4 or soas[:2] != [0, 1] or found[1] != zone[0] or soas[3] != len(found) - 1:
        raise Fault("not a difference from the version before it")
    after = dict.fromkeys(zone[1:])
    for record in found[2:soas[2]]:
        if record not in after:
            raise Fault("a deleted record isn't there")
        del after[record]
    for record in found[soas[2] + 1:-1]:
        if record in after:
            raise Fault("an added record is there")
        after[record] = None
    return [found[0], *after]


def text_of(octets, special):
    """Octets as a master file has them: escaped where they are special or no visible ASCII."""
    return "".join(f"\\{octet:03d}" if not 33 <= octet <= 126 or chr(octet) in special else chr(octet)
                   for octet in octets)


def name_text(labels):
    return "".join(text_of(label, '."();\\@$') + "." for label in labels) or "."


def strings(rdata):
    at = 0
    while at < len(rdata):
        yield '"' + text_of(rdata[at + 1:at + 1 + rdata[at]], '"\\') + '"'
        at += 1 + rdata[at]


def rdata_text(kind, rdata):
    if kind in (NS, PTR):
        return name_text(read_name(rdata, 0)[0])
    if kind == TXT:
        return " ".join(strings(rdata))
    if kind == ZONEMD:
        serial, scheme, algorithm = struct.unpack_from(">IBB", rdata)
        return f"{serial} {scheme} {algorithm} {rdata[6:].hex()}"
    first, at = read_name(rdata, 0)
    second, at = read_name(rdata, at)
    return " ".join([name_text(first), name_text(second), *map(str, struct.unpack_from(">5I", rdata, at))])


TYPES = {SOA: "SOA", NS: "NS", PTR: "PTR", TXT: "TXT", ZONEMD: "ZONEMD"}


def main():
    zone = []
    for line in sys.stdin:
        word, _, text = line.rstrip("\n").partition(" ")
        if word == "axfr":
            zone = whole(bytes.fromhex(text))
        elif word == "ixfr" and zone:
            zone = changed(zone, bytes.fromhex(text))
        else:
            raise Fault(f"`{line[:40].strip()}`")
    if not zone:
        raise Fault("no catalog")
    for owner, kind, ttl, rdata in zone:
        print(name_text(owner), ttl, "IN", TYPES[kind], rdata_text(kind, rdata))


if __name__ == "__main__":
    try:
        main()
    except (Fault, ValueError, struct.error, IndexError, KeyError) as fault:
        sys.exit(f"zonefile.py: {fault}")
