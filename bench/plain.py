#!/usr/bin/env python3
"""Counts the instructions that catzd takes for a query of an unsigned zone, by valgrind's callgrind, through `answer`.

    plain.py [--catzd PROGRAM] [--before PROGRAM] [--queries 2000]

The zone has 1,800 addresses, a wildcard one label below the apex, and a delegation to two name servers with three
addresses. Of what the process takes for so many queries with an OPT record that for as many REFUSED ones of the same
length is taken away. Writing the hex of a longer reply is left. The same program gives the same counts on any machine.
It prints a table of Markdown, with a second row for another program.
"""
import argparse
import re
import struct
import subprocess

import servers
import wire

ZONE, OTHER = "example.", "exomple."
ADDRESSES = 1800
SIZE = 1232  # the payload size that a query's OPT record tells

# What is asked, the name, how many numbers its names have, and the type.
KINDS = (
    ("an address", "h{:06}.", ADDRESSES, wire.A),
    ("NXDOMAIN", "x{:06}.", ADDRESSES, wire.A),
    ("an address from a wildcard", "x{:04}.w.", 1000, wire.A),
    ("a referral with glue", "x{:02}.sub.", 100, wire.A),
    ("NODATA", "h{:06}.", ADDRESSES, wire.TXT),
    ("NXDOMAIN, of 3 labels", "x{:04}.y.", 1000, wire.A),
    ("of 120 labels", "x{:04}." + "a." * 117 + "y.", 1000, wire.A),
)


def record(owner, kind, rdata):
    """A record as a message has it, without pointers."""
    return wire.name(owner) + struct.pack(">HHIH", kind, 1, 3600, len(rdata)) + rdata


def message():
    """The answer to an AXFR query for the zone, in one message."""
    soa = record(ZONE, wire.SOA, wire.soa(1))
    records = [soa] + [record(ZONE, wire.NS, wire.name(f"ns{k}.{ZONE}")) for k in (1, 2)]
    records += [record(f"ns{k}.{ZONE}", wire.A, bytes([192, 0, 2, k])) for k in (1, 2)]
    records.append(record(f"*.w.{ZONE}", wire.A, bytes([192, 0, 2, 9])))
    records += [record(f"sub.{ZONE}", wire.NS, wire.name(f"ns{k}.sub.{ZONE}")) for k in (1, 2)]
    records += [record(f"ns{k}.sub.{ZONE}", wire.A, bytes([192, 0, 2, 4 + k])) for k in (1, 2)]
    records.append(record(f"ns2.sub.{ZONE}", wire.AAAA, bytes(16)))
    records += [record(f"h{k:06}.{ZONE}", wire.A, struct.pack(">I", 0xC0000000 + k)) for k in range(ADDRESSES)]
    records.append(soa)
    head = struct.pack(">6H", 1, 0x8400, 1, len(records), 0, 0)
    return head + wire.name(ZONE) + struct.pack(">HH", wire.AXFR, 1) + b"".join(records)


def count(program, lines):
    """The instructions that the program takes for these lines."""
    done = subprocess.run(["valgrind", "--tool=callgrind", "--callgrind-out-file=/dev/null", program, "answer"],
                          input="\n".join(lines) + "\n", capture_output=True, text=True, check=True)
    assert done.stdout.startswith("taken "), done.stdout[:100]
    return int(re.search(r"Collected : (\d+)", done.stderr).group(1))


def taken(program, queries):
    """The instructions of a query of each kind."""
    zone = f"zone {ZONE} {message().hex()}"
    for _, form, numbers, kind in KINDS:
        both = []
        for apex in (ZONE, OTHER):
            names = (form.format(k * 7919 % numbers) + apex for k in range(queries))
            both.append(count(program, [zone] + [wire.query(k & 0xFFFF, name, kind, 0, SIZE).hex()
                                                 for k, name in enumerate(names)]))
        yield (both[0] - both[1]) / queries


def main():
    words = argparse.ArgumentParser(description=__doc__, formatter_class=argparse.RawDescriptionHelpFormatter)
    words.add_argument("--catzd", default=servers.Catzd.program)
    words.add_argument("--before", help="another program, to compare with")
    words.add_argument("--queries", type=int, default=2000)
    chosen = words.parse_args()
    print("| | " + " | ".join(label for label, *_ in KINDS) + " |\n|" + "---|" * (len(KINDS) + 1))
    for label, program in (("before", chosen.before), ("now", chosen.catzd)):
        if program:
            print(f"| {label} | " + " | ".join(f"{n:,.0f}" for n in taken(program, chosen.queries)) + " |", flush=True)


if __name__ == "__main__":
    main()
