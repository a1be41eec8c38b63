#!/usr/bin/env python3
"""Counts the instructions that `catzd serve` takes for a query without figures and with them (CATZD_STATS), by valgrind's callgrind.

    figures.py [--catzd PROGRAM] [--queries 5000]

The server has a catalog whose primary isn't there, so each reply is REFUSED. What it takes for no query beyond those that wait
for its start is taken away. A busy machine changes the counts by some 1 %. It prints a table of Markdown."""
import argparse
import os
import re
import socket
import sys
import tempfile
import time

import ask
import servers
import wire

PORT, NOBODY = 5871, 5872
ASKED = "host.test."


class Counted(servers.Catzd):
    """A catzd under callgrind."""

    def words(self):
        words = super().words()
        tool = ["valgrind", "--tool=callgrind", "--callgrind-out-file=/dev/null"]
        return words[:2] + tool + words[2:]

    def taken(self):
        """The instructions that it took until its end."""
        found = re.search(r"Collected : (\d+)", (self.folder / "log").read_text(errors="replace"))
        return int(found.group(1)) if found else sys.exit(f"no count in {self.folder}/log")


def over_udp(count):
    """Asks one after the other; a reply that is lost within a second is asked for once more."""
    with socket.socket(socket.AF_INET, socket.SOCK_DGRAM) as port:
        port.settimeout(1)
        port.connect(("127.0.0.1", PORT))
        for number in range(count):
            request = wire.query(number & 0xFFFF, ASKED, wire.A)
            while True:
                port.send(request)
                try:
                    if port.recv(4096)[:2] == request[:2]:
                        break
                except OSError:
                    time.sleep(0.1)  # it hasn't started yet


def over_tcp(count):
    """Asks one after the other over one connection."""
    with socket.create_connection(("127.0.0.1", PORT), timeout=20) as stream:
        for number in range(count):
            stream.sendall(wire.frame(wire.query(number & 0xFFFF, ASKED, wire.A)))
            ask.read_frame(stream)


def taken(way, count, has_figures):
    """The instructions of a server that is asked so many times in a way, once over UDP before."""
    os.environ.pop("CATZD_STATS", None)
    if has_figures:
        os.environ["CATZD_STATS"] = "3600"
    with tempfile.TemporaryDirectory() as folder:
        server = Counted(servers.Plan("catalog.test.", NOBODY), folder, PORT).start()
        over_udp(1)
        way(count)
        server.stop()
        return server.taken()


def main():
    words = argparse.ArgumentParser(description=__doc__, formatter_class=argparse.RawDescriptionHelpFormatter)
    words.add_argument("--catzd", default=servers.Catzd.program)
    words.add_argument("--queries", type=int, default=5000)
    chosen = words.parse_args()
    servers.Catzd.choose(chosen.catzd)
    print("| Instructions a query | without figures | with figures |\n|---|---|---|")
    for label, way in (("UDP", over_udp), ("TCP", over_tcp)):
        cells = []
        for has_figures in (False, True):
            none, all_of_them = (taken(way, count, has_figures) for count in (0, chosen.queries))
            cells.append(f"{(all_of_them - none) / chosen.queries:,.0f}")
        print(f"| {label} | {' | '.join(cells)} |", flush=True)


if __name__ == "__main__":
    main()
