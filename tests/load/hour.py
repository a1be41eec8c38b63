#!/usr/bin/env python3
"""Loads catzd for an hour while its primaries change, break off, reset, stall and send garbage.

    hour.py [SECONDS] [--clients N] [--seed N] [--catzd PROGRAM]

Two primaries serve two catalogs and their members, on ports above 5300 of 127.0.0.1. Members get new versions, whose
TXT records hold their serial, and are removed, added and reset; each primary now and then misbehaves for some seconds.
300 TCP clients, most of them slow or idle, and one over UDP hold each reply against what the primaries gave in their
order (story.py): the replies of a connection never go back. At the end, with primaries that behave, the last versions
must be answered within 90 seconds, no worker may have ended, and memory must be flat.
"""
import argparse
import pathlib
import random
import statistics
import sys
import tempfile
import threading
import time

sys.path.insert(0, str(pathlib.Path(__file__).resolve().parents[2] / "bench"))
import ask
import primary
import servers
import story
import wire
import zones
from clients import Crowd

PRIMARY_PORTS, PORT = (5380, 5381), 5382
CATALOGS = {"one.test.": 40, "two.test.": 20}  # and how many members each begins with
TIMES = (3, 1, 1_000_000, 5)  # REFRESH, RETRY, EXPIRE and MINIMUM in seconds


class Loaded(servers.Catzd):
    """catzd with two catalogs that have two primaries each."""

    def input(self):
        peers = ", ".join(f'"127.0.0.1:{port}"' for port in PRIMARY_PORTS)
        return open(self.write("catzd.toml", f'listen = "127.0.0.1:{self.port}"\n' + "".join(
            f'[[catalog]]\nname = "{apex}"\npolicy = "off"\nprimaries = [{peers}]\n' for apex in CATALOGS)))


class World:
    """The primaries, their zones, and how they change."""

    def __init__(self, seed):
        self.random, self.lock, self.labels = random.Random(seed), threading.Lock(), 0
        self.primaries = [primary.Primary(port, lock=self.lock) for port in PRIMARY_PORTS]
        self.spoiled = {one: 0.0 for one in self.primaries}  # until when each misbehaves
        self.events, self.members = dict.fromkeys(("touched", "removed", "added", "reset", "spoiled"), 0), []
        for apex, count in CATALOGS.items():
            catalog = zones.catalog(apex, [])
            catalog.times = TIMES
            self.hold(catalog)
            for number in range(count):
                self.members.append(story.Member(made(f"m{number}.{apex[:3]}.example."), catalog))
                self.hold(self.members[-1].zone)
                self.enter(self.members[-1])

    def hold(self, zone):
        for one in self.primaries:
            one.hold(zone)

    def change(self):
        """Something happens."""
        member, kind = self.random.choice(self.members), self.random.random()
        if kind < 0.85:
            self.touch(member)
        elif member.stays[-1] is None:
            self.enter(member)
        elif kind < 0.95:
            self.leave(member)
        else:
            self.enter(member, True)
        if self.random.random() < 0.02:
            self.spoil()

    def touch(self, member):
        with self.lock:
            serial = member.zone.serial
            member.zone.change(texts(serial), texts(serial + 1))
        self.events["touched"] += 1
        self.tell(member.zone)

    def enter(self, member, is_reset=False):
        """Adds a member under a new label, or resets it by another one."""
        self.labels += 1
        before = pointer(member) if is_reset else []
        with self.lock:
            member.label = f"n{self.labels}"
            member.stays.append(self.labels)
            member.catalog.change(before, pointer(member))
        self.events["reset" if is_reset else "added"] += 1
        self.tell(member.catalog)

    def leave(self, member):
        with self.lock:
            member.stays.append(None)
            member.catalog.change(pointer(member), [])
        self.events["removed"] += 1
        self.tell(member.catalog)

    def tell(self, zone):
        """Sends NOTIFY, mostly."""
        if self.random.random() < 0.8:
            self.random.choice(self.primaries).notify(zone.apex, PORT)

    def spoil(self):
        """One primary misbehaves for a while."""
        one = self.random.choice(self.primaries)
        one.mode = self.random.choice(primary.MODES[1:])
        self.spoiled[one] = time.monotonic() + self.random.uniform(0.5, 5)
        self.events["spoiled"] += 1

    def mend(self, at_once=False):
        for one in self.primaries:
            if at_once or time.monotonic() > self.spoiled[one]:
                one.mode = primary.GOOD


def texts(serial):
    """The records that hold a serial."""
    return [(labels, wire.TXT, wire.txt(str(serial))) for labels in ("h0", "h1", "h2", "h3", "*.wild")]


def pointer(member):
    return [(f"{member.label}.zones", wire.PTR, wire.name(member.zone.apex))]


def made(apex):
    zone = zones.Zone(apex, times=TIMES)
    zone.put("", wire.NS, wire.name("ns.invalid."))
    for labels, kind, rdata in texts(1):
        zone.put(labels, kind, rdata)
    return zone


class Health:
    """Looks at the process every few seconds."""

    def __init__(self, server, seconds):
        self.server, self.pause, self.next = server, max(1.0, seconds / 360), 0.0
        self.resident, self.tasks, self.files = [], [], []

    def look(self):
        if time.monotonic() < self.next or not self.server.is_running():
            return
        self.next = time.monotonic() + self.pause
        folder = pathlib.Path(f"/proc/{self.server.process.pid}")
        self.resident.append(self.server.memory()[1])
        self.tasks.append(len(list((folder / "task").iterdir())))
        self.files.append(len(list((folder / "fd").iterdir())))

    def faults(self):
        """A worker that ended, or memory whose median grew from the second quarter of the time to the last."""
        quarter = len(self.resident) // 4
        early = statistics.median(self.resident[quarter:2 * quarter] or self.resident)
        late = statistics.median(self.resident[-quarter:])
        print(f"VmRSS {early:.1f} MB in the second quarter, {late:.1f} MB in the last; {min(self.tasks)} to "
              f"{max(self.tasks)} threads, at most {max(self.files)} descriptors")
        return ([f"memory grew from {early:.1f} to {late:.1f} MB"] if late > 1.1 * early + 1 else []) + \
               (["a worker ended"] if len(set(self.tasks)) > 1 else [])


def last_states(world, limit=90):
    """The members whose last state isn't answered in time, though all primaries behave. A member that has no version
    is asked for again a minute after a failure."""
    world.mend(at_once=True)
    asker, end, left = ask.Asker(PORT), time.monotonic() + limit, list(world.members)
    while left and time.monotonic() < end:
        member = left[0]
        wanted = story.REFUSED if member.stays[-1] is None else member.zone.serial
        message = asker.ask(f"h0.{member.zone.apex}", wire.TXT)
        if message is not None and story.said_by(message) == wanted:
            left.pop(0)
        else:
            time.sleep(0.05)
    print(f"all last versions were answered {limit - (end - time.monotonic()):.1f} s after the last change")
    return [f"{member.zone.apex} isn't answered as it stands" for member in left]


def report(crowd, world, seconds):
    waits = sorted(crowd.waits) or [0.0]
    print(f"{seconds} s, {world.events}, {sum(one.transfers for one in world.primaries)} transfers")
    print(f"{crowd.replies} replies over {crowd.connections} TCP connections, {crowd.datagrams} over UDP, "
          f"{crowd.lost} queries over UDP lost; connections that the server closed: {crowd.closed}")
    print(f"a fast client's reply took {waits[len(waits) // 2] * 1000:.1f} ms in the median, "
          f"{waits[len(waits) * 999 // 1000] * 1000:.0f} ms at 99.9 %, {waits[-1] * 1000:.0f} ms at the most")


def load(server, world, crowd, health, seconds):
    """Runs all of them side by side."""
    end, next_change = time.monotonic() + seconds, 0.0
    while time.monotonic() < end and server.is_running() and len(crowd.faults) < 10:
        crowd.turn()
        health.look()
        world.mend()
        if time.monotonic() > next_change:
            world.change()
            next_change = time.monotonic() + world.random.uniform(0.02, 0.3)


def run(seconds, count, seed, folder):
    """Loads a server; the faults."""
    world = World(seed)
    server = Loaded(servers.Plan("", 0), folder, PORT).start()
    try:
        first = f"h0.{world.members[0].zone.apex}"
        ask.Asker(PORT).wait(first, lambda message: message.code == wire.NOERROR, limit=20)
        crowd, health = Crowd(PORT, world.members, count, seed), Health(server, seconds)
        load(server, world, crowd, health, seconds)
        report(crowd, world, seconds)
        faults = crowd.faults
        if server.is_running():
            faults = faults + health.faults() + last_states(world)
        crowd.close()
    finally:
        took, status = server.stop()
    print(f"catzd ended {took:.1f} s after SIGTERM with status {status}")
    return faults + ([] if status == 0 else [f"catzd ended with status {status}"])


def main():
    words = argparse.ArgumentParser(description=__doc__, formatter_class=argparse.RawDescriptionHelpFormatter)
    words.add_argument("seconds", type=int, nargs="?", default=3600)
    words.add_argument("--clients", type=int, default=300)
    words.add_argument("--seed", type=int, default=random.randrange(1 << 32))
    words.add_argument("--catzd", default=servers.Catzd.program)
    chosen = words.parse_args()
    servers.Catzd.choose(chosen.catzd)
    sys.setswitchinterval(0.001)
    print(f"seed {chosen.seed}")
    with tempfile.TemporaryDirectory(prefix="catzd-hour-") as folder:
        faults = run(chosen.seconds, chosen.clients, chosen.seed, folder)
    for fault in faults:
        print(f"FAULT: {fault}")
    print(f"{len(faults)} faults")
    sys.exit(1 if faults else 0)


if __name__ == "__main__":
    main()
