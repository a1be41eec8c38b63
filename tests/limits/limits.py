#!/usr/bin/env python3
"""Brings catzd to its limits, through `replay` and `rehearse`, and compares all that it writes.

    limits.py [CASE..] [--catzd PROGRAM] [--seconds N]

Cases, all where none is named:

records      a zone of 250,000 records, whole and as the sum of a version and a difference; of one record more the
             refusal `zone too-many`, on both ways (catzd's own limit)
members      a catalog of 65,536 members that are added, reset and removed, and one of a member more, which is broken
stream       a transfer of 67,108,864 octets, and of one message more: `too-long`
differences  10,000 differences in one transfer
jobs         16 transfers under way, and no more
rehearse     the summaries of 999 and of 1,000 zones

What is expected is written from the rules; the octets of scripts and messages are put together here. It prints the time
and the greatest memory of each run, and ends with status 1 where one isn't as expected, or takes a twentieth more memory
than it did when this was written.
"""
import argparse
import pathlib
import re
import struct
import subprocess
import sys
import tempfile
import time

ROOT = pathlib.Path(__file__).resolve().parents[2]
SOA, NS, A, PTR, TXT, AXFR, IXFR = 6, 2, 1, 12, 16, 252, 251
CATALOG, ZONE = "cat1.example.", "example."
APEX = b"\xc0\x0c"  # the owner of a record at the apex: a pointer to the question
RECORDS, MEMBERS, STREAM = 250_000, 65_536, 67_108_864


def wire(name):
    """A name of plain labels in wire form."""
    return b"".join(bytes([len(label)]) + label.encode() for label in name.split(".") if label) + b"\0"


def record(owner, kind, ttl, rdata):
    """A record; the owner is in wire form."""
    return owner + struct.pack(">HHIH", kind, 1, ttl, len(rdata)) + rdata


def soa(serial):
    """The SOA record of the question's zone, whose REFRESH is longer than any script."""
    times = struct.pack(">5I", serial, 1_000_000, 60, 1_000_000, 30)
    return record(APEX, SOA, 3600, wire("ns.invalid.") + wire("host.invalid.") + times)


def stream(number, zone, ask, records):
    """These records as messages with this ID, each after its length."""
    question = wire(zone) + struct.pack(">HH", ask, 1)
    frames, body, count = [], [], 0
    size = 12 + len(question)
    for one in [*records, None]:
        if one is None or size + len(one) > 65_535:
            head = struct.pack(">6H", number % 65_536, 0x8400, 1, count, 0, 0)
            message = head + question + b"".join(body)
            frames.append(struct.pack(">H", len(message)) + message)
            body, count, size = [], 0, 12 + len(question)
        if one is not None:
            body.append(one)
            count += 1
            size += len(one)
    return b"".join(frames)


def address(number):
    """An A record of the apex, another for each number."""
    return record(APEX, A, 60, struct.pack(">I", number))


class Story:
    """A script of `replay` and what it writes."""

    def __init__(self):
        self.lines, self.wanted = [f"catalog {CATALOG} off 192.0.2.1"], []
        self.tickets = self.entries = self.serial = 0
        self.moment = 1000

    def event(self, words):
        self.lines.append(f"{self.moment} {words}")

    def job(self, zone, held=None):
        self.tickets += 1
        self.event("job")
        how = "axfr" if held is None else f"ixfr {held}"
        self.wanted.append(f"job {self.tickets} {zone} {how} id {self.tickets % 65_536} at 192.0.2.1:53")

    def take(self, octets, *wanted):
        self.event(f"take {self.tickets} {octets.hex()}")
        self.wanted += wanted

    def published(self, zone, serial):
        self.entries += 1
        return f"published {self.entries} {zone} {serial}"

    def notify(self, zone):
        head, question = struct.pack(">4H", 1, 0, 0, 0), wire(zone) + struct.pack(">HH", SOA, 1)
        self.event(f"udp 192.0.2.1 {(bytes([0, 0x50, 0x24, 0]) + head + question).hex()}")
        self.wanted += [f"notify {zone} taken", f"reply {(bytes([0, 0x50, 0xa0, 0]) + head + question).hex()}"]

    def whole(self, zone, serial, records, *wanted, held=None):
        """A transfer of a whole zone."""
        if held is not None:
            self.notify(zone)
        self.job(zone, held)
        ask = AXFR if held is None else IXFR
        octets = stream(self.tickets, zone, ask, [soa(serial), record(APEX, NS, 60, wire("ns.invalid.")), *records, soa(serial)])
        self.take(octets, *(wanted or [self.published(zone, serial)]))

    def listing(self, nodes, *changes):
        """The catalog comes with these nodes, a label and a zone each."""
        held, self.serial = self.serial or None, self.serial + 1
        records = [record(wire("version")[:-1] + APEX, TXT, 0, b"\x012")]
        for label, zone in nodes:
            records.append(record(wire(f"{label}.zones")[:-1] + APEX, PTR, 0, wire(zone)))
        self.whole(CATALOG, self.serial, records, self.published(CATALOG, self.serial), *changes, held=held)


def listed():
    """A story whose catalog lists `example.`."""
    story = Story()
    story.listing([("m1", ZONE)], f"added {ZONE} {CATALOG}")
    return story


def whole_records():
    story = listed()
    story.whole(ZONE, 1, map(address, range(RECORDS - 1)), f"refused {ZONE} zone too-many")
    story.moment += 60
    story.whole(ZONE, 2, map(address, range(RECORDS - 2)))
    return story


def added_records():
    story = listed()
    story.whole(ZONE, 1, [])
    story.notify(ZONE)
    story.job(ZONE, 1)
    added = [soa(2), soa(1), soa(2), *map(address, range(RECORDS - 2)), soa(2)]
    story.take(stream(story.tickets, ZONE, IXFR, added), story.published(ZONE, 2))
    story.notify(ZONE)
    story.job(ZONE, 2)
    one_more = [soa(3), soa(2), soa(3), address(RECORDS), soa(3)]
    story.take(stream(story.tickets, ZONE, IXFR, one_more), f"refused {ZONE} zone too-many")
    return story


def members():
    zones = [f"m{number:05}.test." for number in range(MEMBERS + 1)]
    nodes = [(f"a{number:05}", zone) for number, zone in enumerate(zones[:-1])]
    story = Story()
    story.listing(nodes, *[f"added {zone} {CATALOG}" for zone in zones[:-1]])
    others = [(f"b{number:05}", zone) for number, zone in enumerate(zones)]
    story.listing(others, f"broken {CATALOG} too-many-members")
    story.listing(others[:-1], *[f"reset {zone} {CATALOG}" for zone in zones[:-1]])
    story.listing([], *[f"removed {zone} {CATALOG}" for zone in zones[:-1]])
    return story


def long_stream(story, fits):
    """A first message of an SOA record, 1,023 messages of 65,535 octets, and a last one that fills the stream, or one more."""
    head = struct.pack(">6H", story.tickets, 0x8400, 0, 1, 0, 0)
    frame = lambda message: struct.pack(">H", len(message)) + message
    question = wire(ZONE) + struct.pack(">HH", AXFR, 1)
    start = frame(struct.pack(">6H", story.tickets, 0x8400, 1, 1, 0, 0) + question + soa(1))
    frames = [start]
    length = len(start)
    for number in range(1023):
        frames.append(frame(head + record(b"\0", 65_280, 0, struct.pack(">H", number) + bytes(65_510))))
        length += 65_537
    room = STREAM - length - 2
    rest = bytes(room - 12 - 11) if fits else bytes(room - 12 - 11 + 1)
    return b"".join(frames) + frame(head + record(b"\0", 65_280, 0, rest))


def too_long():
    story = listed()
    story.job(ZONE)
    story.take(long_stream(story, False), f"refused {ZONE} too-long")
    return story


def long_enough():
    story = listed()
    story.job(ZONE)
    story.take(long_stream(story, True), f"refused {ZONE} incomplete")
    return story


def differences():
    story = listed()
    story.whole(ZONE, 5, [address(1)])
    story.notify(ZONE)
    story.job(ZONE, 5)
    rows = [soa(10_005)]
    for serial in range(5, 10_005):
        rows += [soa(serial), record(APEX, A, 0, struct.pack(">I", 1)), soa(serial + 1), record(APEX, A, serial, struct.pack(">I", 1))]
    story.take(stream(story.tickets, ZONE, IXFR, [*rows, soa(10_005)]), story.published(ZONE, 10_005))
    return story


def jobs():
    zones = [f"z{number:02}.test." for number in range(1, 18)]
    story = Story()
    story.listing([(f"m{number}", zone) for number, zone in enumerate(zones)], *[f"added {zone} {CATALOG}" for zone in zones])
    for zone in zones[:16]:
        story.job(zone)
    story.event("job")
    story.wanted.append("job full")
    return story


def summary(number):
    """What `rehearse` writes for so many zones, without the digest."""
    late = number // 10
    return (f"jobs {2 * number + 2}\npublished {2 * number + 2 - late}\nrefused {late}\nadded {number}\nreset 1\n"
            f"noerror {number}\nservfail {number}\nrefused-replies 1\ndigest ")


# Runs a program, and then writes its greatest memory. It is a process of its own, since a program begins with the memory
# of what it was forked from.
MEASURED = """
import os, subprocess, sys
process = subprocess.Popen(sys.argv[1:])
_, status, used = os.wait4(process.pid, 0)
print(used.ru_maxrss, file=sys.stderr)
sys.exit(os.waitstatus_to_exitcode(status))
"""


def run(program, words, text, seconds):
    """What the program writes, its status, its seconds, and its greatest memory in MB."""
    with tempfile.TemporaryFile() as given:
        given.write(text)
        given.seek(0)
        began = time.monotonic()
        done = subprocess.run([sys.executable, "-c", MEASURED, program, *words], stdin=given, capture_output=True, timeout=seconds)
        took = time.monotonic() - began
    return done.stdout.decode(), done.returncode, took, int(done.stderr.split()[-1]) / 1024


def difference(found, wanted):
    """The first line that differs."""
    ones, others = found.splitlines(), wanted.splitlines()
    for number, (one, other) in enumerate(zip(ones, others), 1):
        if one != other:
            return f"line {number} is {one[:100]!r}, and not {other[:100]!r}"
    return f"{len(ones)} lines, and not {len(others)}"


def play(program, name, story, seconds):
    text = ("\n".join(story.lines) + "\n").encode()
    found, status, took, most = run(program, ["replay"], text, seconds)
    wanted = "\n".join(story.wanted) + "\n"
    fault = None if (found, status) == (wanted, 0) else f"status {status}, {difference(found, wanted)}"
    if fault is None and most > MEGABYTES.get(name, most) * 1.05:
        fault = f"more than {MEGABYTES[name]} MB and a twentieth"
    print(f"{name}: {len(text):,} octets, {took:.1f} s, {most:,.1f} MB at the most: {fault or 'as expected'}", flush=True)
    return fault is None


def rehearse(program, number, seconds):
    found, status, took, most = run(program, ["rehearse", str(number)], b"", seconds)
    is_good = status == 0 and re.fullmatch(re.escape(summary(number)) + "[0-9a-f]{96}\n", found) is not None
    print(f"rehearse {number}: {took:.1f} s, {most:,.1f} MB at the most: {'as expected' if is_good else found}", flush=True)
    return is_good


# The greatest memory of a run as it was seen, in MB; a twentieth more is a fault.
MEGABYTES = {
    "250,000 records, whole": 40.2,
    "250,000 records, by a difference": 51.3,
    "65,536 members": 179.9,
    "a stream of 67,108,864 octets": 322.2,
    "a longer stream": 322.2,
}

CASES = {
    "jobs": {"16 jobs": jobs},
    "differences": {"10,000 differences": differences},
    "records": {"250,000 records, whole": whole_records, "250,000 records, by a difference": added_records},
    "members": {"65,536 members": members},
    "stream": {"a stream of 67,108,864 octets": long_enough, "a longer stream": too_long},
    "rehearse": {999: None, 1000: None},
}


def main():
    words = argparse.ArgumentParser(description=__doc__, formatter_class=argparse.RawDescriptionHelpFormatter)
    words.add_argument("cases", nargs="*", metavar="CASE", help=", ".join(CASES))
    words.add_argument("--catzd", default=str(ROOT / "crates/catzd/out/catzd"), metavar="PROGRAM")
    words.add_argument("--seconds", type=int, default=600, help="the most seconds of a run (default 600)")
    chosen = words.parse_args()
    if unknown := [case for case in chosen.cases if case not in CASES]:
        words.error(f"no case {unknown[0]}")
    all_good = True
    for case in chosen.cases or CASES:
        for name, story in CASES[case].items():
            if story is None:
                all_good = rehearse(chosen.catzd, name, chosen.seconds) and all_good
            else:
                all_good = play(chosen.catzd, name, story(), chosen.seconds) and all_good
    sys.exit(0 if all_good else 1)


if __name__ == "__main__":
    main()
