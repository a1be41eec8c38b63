#!/usr/bin/env python3
"""Counts the instructions that catzd takes for a query of a signed zone, by valgrind's callgrind, through `replay`.

    instructions.py [--catzd PROGRAM] [--addresses 10000] [--queries 1000]

It makes the zone itself (`signed` of zones.py). Of what the process takes for so many queries that for as many REFUSED
ones of the same length is taken away: the transfers with it, and what reading a query and writing a short reply takes.
Writing the hex of a longer reply is left. The same program gives the same counts on any machine. It prints a table of
Markdown.
"""
import argparse
import re
import subprocess
import sys

import servers
import wire
import zones

CATALOG, SIGNED, OTHER = "catalog.test.", "signed.test.", "signex.test."
SIZE = 4096  # the payload size that a query's OPT record tells

# What is asked, the type, and the name in front of the zone's, seven octets each.
KINDS = (
    ("an address", wire.A, "h{:06}"),
    ("no data", wire.TXT, "h{:06}"),
    ("no name (NXDOMAIN)", wire.A, "x{:06}"),
    ("an address from a wildcard", wire.A, "x{:04}.w"),
    ("a referral with DS", wire.A, "x{:04}.s"),
    ("a referral without DS", wire.A, "x{:04}.o"),
    ("DS of a delegation", wire.DS, "s"),
)


def requests(form, kind, zone, numbers, count, dnssec):
    """So many queries; the numbers in their names go round by a stride."""
    for number in range(count):
        name = f"{form.format(number * 7919 % numbers)}.{zone}"
        yield wire.query(number & 0xFFFF, name, kind, 0, SIZE, dnssec)


def script(zone, asked):
    """The lines of `replay`: a catalog with the zone, both transfers, and the queries."""
    catalog = zones.catalog(CATALOG, [SIGNED])
    lines = [f"catalog {CATALOG} off 127.0.0.1", "1 job", f"1 take 1 {catalog.whole(1).hex()}", "1 job",
             f"1 take 2 {zone.whole(2).hex()}"]
    return "\n".join(lines + [f"1 udp 127.0.0.1 {one.hex()}" for one in asked]) + "\n"


def count(program, text):
    """The instructions that the program takes for a script, and the last line that it writes."""
    done = subprocess.run(["valgrind", "--tool=callgrind", "--callgrind-out-file=/dev/null", program, "replay"],
                          input=text, capture_output=True, text=True, check=True)
    return int(re.search(r"Collected : (\d+)", done.stderr).group(1)), done.stdout.splitlines()[-1]


def main():
    words = argparse.ArgumentParser(description=__doc__, formatter_class=argparse.RawDescriptionHelpFormatter)
    words.add_argument("--catzd", default=servers.Catzd.program)
    words.add_argument("--addresses", type=int, default=10_000)
    words.add_argument("--queries", type=int, default=1000)
    chosen = words.parse_args()
    servers.Catzd.choose(chosen.catzd)
    zone = zones.signed(SIGNED, chosen.addresses)

    numbers = min(chosen.addresses, 10_000)  # so that names have one length

    def run(kind, form, name, dnssec):
        asked = requests(form, kind, name, numbers, chosen.queries, dnssec)
        return count(servers.Catzd.program, script(zone, asked))

    refused = {dnssec: run(wire.A, "h{:06}", OTHER, dnssec)[0] for dnssec in (False, True)}
    print("| Query | without DO | octets of the reply | with DO | octets |\n|---|---|---|---|---|")
    for label, kind, form in KINDS:
        cells = []
        for dnssec in (False, True):
            taken, last = run(kind, form, SIGNED, dnssec)
            cells += [f"{(taken - refused[dnssec]) / chosen.queries:,.0f}", str(len(last.removeprefix("reply ")) // 2)]
        print(f"| {label} | {' | '.join(cells)} |", flush=True)
        print(f"  {label}: {last}", file=sys.stderr)


if __name__ == "__main__":
    main()
