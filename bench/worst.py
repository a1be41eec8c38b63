#!/usr/bin/env python3
"""Counts the instructions that catzd takes for the dearest queries of zones that are made for it, by valgrind's callgrind.

    worst.py [--catzd PROGRAM] [--before PROGRAM] [--queries 20] [--small]

A zone has 240,000 addresses of one name, another a delegation to 120,000 name servers with an address each, a third a name
with 60,000 types, and a fourth a chain of 16 aliases and a delegation to 40 servers without addresses. They are taken and
asked through `replay`, with an OPT record of 1,232 octets. Of what the process takes for so many queries that for as many
REFUSED ones of the same length is taken away. Writing the hex of a longer reply is left. Over TCP the octets of the reply are
told as well. It takes some ten minutes, with --small, a hundredth of the records, one. It prints a table of Markdown.
"""
import argparse
import re
import struct
import subprocess

import servers
import wire

ZONE, OTHER = "worst.test.", "wurst.test."
CATALOG, PRIMARY = "catalog.test.", "192.0.2.1"
ANY = 255
SIZE = 1232
TYPES = 60_000
MANY = 240_000
POINTED = b"\xc0\x0c"  # the question's name
APART = 16_000  # octets of records in a message, so that pointers to the question reach


def record(owner, kind, rdata, ttl=3600):
    return owner + struct.pack(">HHIH", kind, 1, ttl, len(rdata)) + rdata


def below(label):
    """A name directly below the zone asked for, by a pointer."""
    return bytes([len(label)]) + label.encode() + POINTED


def messages(zone, serial, records):
    """The answer to an AXFR query in messages."""
    soa = record(POINTED, wire.SOA, wire.soa(serial))
    rows = [soa, record(POINTED, wire.NS, wire.name("ns.invalid."))] + records + [soa]
    begin = 0
    while begin < len(rows):
        end, size = begin, 0
        while end < len(rows) and size < APART * 3:
            size += len(rows[end])
            end += 1
        head = struct.pack(">6H", 0, 0x8400, 1, end - begin, 0, 0)
        yield head + wire.name(zone) + struct.pack(">HH", wire.AXFR, 1) + b"".join(rows[begin:end])
        begin = end


def addresses(many):
    return [record(below("a"), wire.A, struct.pack(">I", k)) for k in range(many)]


def cut(many):
    rows = [record(below("cut"), wire.NS, wire.name(f"n{k}.{ZONE}")) for k in range(many // 2)]
    return rows + [record(below(f"n{k}"), wire.A, struct.pack(">I", k)) for k in range(many // 2)]


def types(many):
    rare = [kind for kind in range(256, 65_535) if kind not in (ANY, 65_534)]
    return [record(below("t"), kind, b"") for kind in rare[:many * TYPES // MANY]]


def chains(many):
    rows = [record(below(f"c{k}"), wire.CNAME, wire.name(f"c{k + 1}.{ZONE}")) for k in range(17)]
    rows += [record(below("cut"), wire.NS, wire.name(f"n{k}.{ZONE}")) for k in range(40)]
    return rows + [record(below("*"), wire.A, bytes(4))]


# What is asked, the records, the name and the type.
KINDS = (
    ("240,000 addresses of a name", addresses, "a.", wire.A),
    ("a delegation to 120,000 servers", cut, "x.cut.", wire.A),
    ("ANY of a name of 60,000 types", types, "t.", ANY),
    ("a chain of 16 aliases", chains, "c0.", wire.A),
    ("a delegation to 40 servers without addresses", chains, "x.cut.", wire.A),
    ("NXDOMAIN of 120 labels", addresses, "x." + "a." * 116 + "b.", wire.A),
)


def catalog():
    node = b"\x01m\x05zones" + POINTED
    rows = [record(b"\x07version" + POINTED, wire.TXT, b"\x012"), record(node, wire.PTR, wire.name(ZONE))]
    return next(messages(CATALOG, 1, rows))


def script(records, asked):
    """A script of a catalog with the zone, and queries."""
    lines = [f"catalog {CATALOG} off {PRIMARY}", "1000 job", f"1000 take 1 {identified(catalog(), 1)}", "1000 job"]
    lines += ["1000 take 2 " + "".join(identified(each, 2) for each in messages(ZONE, 1, records))]
    return "\n".join(lines + asked) + "\n"


def identified(message, number):
    return wire.frame(struct.pack(">H", number) + message[2:]).hex()


def count(program, text):
    """The instructions that the program takes for a script, and its last reply in octets."""
    done = subprocess.run(["valgrind", "--tool=callgrind", "--callgrind-out-file=/dev/null", program, "replay"],
                          input=text, capture_output=True, text=True, check=True)
    lines = done.stdout.splitlines()
    assert any(line.startswith("published") and ZONE in line for line in lines), done.stdout[:2000]
    return int(re.search(r"Collected : (\d+)", done.stderr).group(1)), len(lines[-1].split()[-1]) // 2


def taken(program, queries, many):
    """For each kind the instructions of a query over UDP and over TCP, and the octets of the reply over TCP."""
    for _, make, form, kind in KINDS:
        records, row = make(many), []
        for transport, apex in (("udp", ZONE), ("tcp", ZONE), ("udp", OTHER)):
            asked = [f"1001 {transport} 198.51.100.1 {wire.query(k, form + apex, kind, 0, SIZE).hex()}"
                     for k in range(queries)]
            row.append(count(program, script(records, asked)))
        (udp, _), (tcp, octets), (refused, _) = row
        yield (udp - refused) / queries, (tcp - refused) / queries, octets


def main():
    words = argparse.ArgumentParser(description=__doc__, formatter_class=argparse.RawDescriptionHelpFormatter)
    words.add_argument("--catzd", default=servers.Catzd.program)
    words.add_argument("--before", help="another program, to compare with")
    words.add_argument("--queries", type=int, default=20)
    words.add_argument("--small", action="store_true", help="a hundredth of the records")
    chosen = words.parse_args()
    many = MANY // 100 if chosen.small else MANY
    print("| | " + " | ".join(label for label, *_ in KINDS) + " |\n|" + "---|" * (len(KINDS) + 1))
    for label, program in (("before", chosen.before), ("now", chosen.catzd)):
        if program:
            rows = list(taken(program, chosen.queries, many))
            print(f"| {label}, UDP | " + " | ".join(f"{row[0]:,.0f}" for row in rows) + " |")
            print(f"| {label}, TCP | " + " | ".join(f"{row[1]:,.0f} for {row[2]:,} octets" for row in rows) + " |", flush=True)


if __name__ == "__main__":
    main()
