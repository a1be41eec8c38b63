#!/usr/bin/env python3
"""Measures catzd beside Knot, NSD and BIND as secondaries of one primary. README.md says what each table has."""
import argparse
import os
import pathlib
import random
import statistics
import subprocess
import sys
import tempfile
import time

import ask
import servers
import wire
import zones
from primary import Primary

PRIMARY_PORT, FIRST_PORT = 5300, 5310
CATALOG, LARGE, SIGNED = "catalog.test.", "large.test.", "signed.test."
BURSTS, STARTS = 4, 3  # how often a load and a start are measured; the least is told
TRANSFERS, BURSTS_OF_READERS = 5, 5


def members(count):
    return [f"z{number:05}.test." for number in range(count)]


class Bench:
    """A primary with some zones, and the secondaries that are measured behind it, one by one."""

    def __init__(self, kinds, folder, seconds):
        self.kinds, self.folder, self.seconds, self.runs = kinds, pathlib.Path(folder), seconds, 0
        self.stolen, self.ticks = servers.stolen()

    def each(self, held, plan, measure):
        """Serves the zones, and gives what `measure` says of each kind of server, by its label."""
        said = {}
        for kind in self.kinds:
            primary = Primary(PRIMARY_PORT)
            fresh = held()
            primary.hold(*fresh)
            self.runs += 1
            server = kind(plan, self.folder / f"{self.runs}-{kind.label}", FIRST_PORT + self.runs)
            try:
                said[kind.label] = measure(server.start(), primary, {zone.apex: zone for zone in fresh})
            except (ask.TooLate, OSError) as error:
                said[kind.label] = f"failed: {error!r}"
            finally:
                if server.is_running():
                    server.stop()
                primary.close()
            print(f"  {kind.label}: {said[kind.label]}", file=sys.stderr)
        return said


    def say_stolen(self):
        """Prints which part of the processors' time the host of a virtual machine took meanwhile."""
        stolen, ticks = servers.stolen()
        share = (stolen - self.stolen) / (ticks - self.ticks)
        self.stolen, self.ticks = stolen, ticks
        print(f"\nThe host of this machine took {100 * share:.0f} % of its processors' time meanwhile.")


def catalog_of(names):
    return lambda: [zones.catalog(CATALOG, names), *[zones.member(one) for one in names]]


def large_catalog(count, has_digest):
    """A catalog with one member of so many addresses, in the group `checked`."""
    def held():
        catalog = zones.catalog(CATALOG, [LARGE])
        catalog.put("group.m1.zones", wire.TXT, wire.txt("checked"))
        zone = zones.large(LARGE, count, has_digest)
        zone.whole(0)
        return [catalog, zone]
    return held


def signed_catalog(count):
    """A catalog with one signed member of so many addresses."""
    return lambda: [zones.catalog(CATALOG, [SIGNED]), zones.signed(SIGNED, count)]


def signed_query_file(folder, count):
    """Queries for dnsperf: of ten, six addresses, one from a wildcard, one of no name, one without data, and one below
    a signed delegation."""
    lines, numbers = [], random.Random(1)
    for _ in range(50_000):
        number = numbers.randrange(count)
        lines.append(numbers.choice([f"h{number:06}.{SIGNED} A"] * 6 + [
            f"x{number:06}.w.{SIGNED} A", f"x{number:06}.{SIGNED} A", f"h{number:06}.{SIGNED} AAAA",
            f"x{number:06}.s.{SIGNED} A"]))
    path = pathlib.Path(folder) / "signed-queries"
    path.write_text("\n".join(lines) + "\n")
    return str(path)


def query_file(folder, names):
    """Queries for dnsperf: of ten, seven addresses, one from a wildcard, one of no name, one without data."""
    lines, numbers = [], random.Random(1)
    for _ in range(50_000):
        zone = numbers.choice(names)
        lines.append(numbers.choice([f"www.{zone} A"] * 7 + [f"x{numbers.randrange(99)}.wild.{zone} A",
                                                             f"none.{zone} A", f"www.{zone} AAAA"]))
    path = pathlib.Path(folder) / "queries"
    path.write_text("\n".join(lines) + "\n")
    return str(path)


def table(title, columns, rows):
    """Prints a table of Markdown: a row for each server."""
    print(f"\n### {title}\n\n| Server | {' | '.join(columns)} |\n|{'---|' * (len(columns) + 1)}")
    for label, cells in rows.items():
        cells = [cells] + [""] * (len(columns) - 1) if isinstance(cells, str) else cells
        print(f"| {label} | {' | '.join(cells)} |", flush=True)


def settle(server, names):
    """Waits until all members are answered; the seconds since the start."""
    asker = ask.Asker(server.port)
    asker.wait("www." + names[0], limit=60, pause=0.005)
    moment = asker.wait_all(["www." + one for one in names])
    asker.close()
    return moment - server.begun


def milliseconds(times):
    return f"{statistics.median(times) * 1000:.2f} (most {max(times) * 1000:.1f})"


def megabytes(server):
    most, now = server.memory()
    return f"{most:.1f} / {now:.1f}"


def cpu(bench):
    names = members(1000)
    queries = query_file(bench.folder, names)

    def measure(server, _primary, _held):
        settle(server, names)
        cells = []
        for connections in (0, 2, 20, 80):
            bursts = [ask.dnsperf(server, queries, bench.seconds, connections) for _ in range(BURSTS)]
            rate, cost = min(bursts, key=lambda burst: burst[1])
            cells.append(f"{cost:.2f} ({rate / 1000:.0f})")
        return cells + [megabytes(server)]

    plan = servers.Plan(CATALOG, PRIMARY_PORT, names)
    table("CPU a query, microseconds (thousand queries a second)",
          ["UDP", "TCP, 2 connections", "20", "80", "MB at most / then"], bench.each(catalog_of(names), plan, measure))


def steady(port, owner):
    """Waits until twenty sockets in a row got an address, since NSD's processes of before still answer for a while."""
    end, right = time.monotonic() + 60, 0
    while right < 20:
        asker = ask.Asker(port)
        message = asker.ask(owner, limit=1)
        asker.close()
        right = right + 1 if message is not None and ask.is_address(message) else 0
        time.sleep(0.005)
        if time.monotonic() > end:
            raise ask.TooLate(owner)


def signed(bench):
    count = 10_000
    queries = signed_query_file(bench.folder, count)

    def measure(server, _primary, _held):
        steady(server.port, f"h{count - 1:06}.{SIGNED}")
        cells = []
        for connections, dnssec in ((0, False), (0, True), (20, False), (20, True)):
            bursts = [ask.dnsperf(server, queries, bench.seconds, connections, dnssec) for _ in range(BURSTS)]
            rate, cost = min(bursts, key=lambda burst: burst[1])
            cells.append(f"{cost:.2f} ({rate / 1000:.0f})")
        return cells + [megabytes(server)]

    able = Bench([kind for kind in bench.kinds if kind is not servers.Bind], bench.folder, bench.seconds)
    able.runs = 300
    plan = servers.Plan(CATALOG, PRIMARY_PORT, [SIGNED])
    table(f"CPU a query of a signed zone of {count:,} addresses, microseconds (thousand queries a second)",
          ["UDP without DO", "UDP with DO", "20 TCP connections without DO", "with DO", "MB at most / then"],
          able.each(signed_catalog(count), plan, measure))


def latency(bench):
    names = members(10)

    def measure(server, _primary, _held):
        settle(server, names)
        cells, owner = [], "www." + names[0]
        for count in (0, 2, 100, 300):
            idle = ask.idle_clients(server.port, owner, count)
            cells.append(milliseconds(ask.tcp_times(server.port, owner, 200)))
            memory = megabytes(server)
            for stream in idle:
                stream.close()
        return cells + [memory]

    plan = servers.Plan(CATALOG, PRIMARY_PORT, names)
    table("A query over a new TCP connection, milliseconds in the median, beside idle clients",
          ["alone", "2 idle", "100 idle", "300 idle", "MB at most / beside 300"],
          bench.each(catalog_of(names), plan, measure))


def start(bench):
    rows = {}
    for count in (1000, 5000):
        names = members(count)

        def measure(server, _primary, _held):
            seconds = settle(server, names)
            return [f"{seconds:.2f}", f"{server.cpu():.2f}", megabytes(server), f"{server.stop()[0]:.2f}"]

        plan = servers.Plan(CATALOG, PRIMARY_PORT, names)
        rounds = [bench.each(catalog_of(names), plan, measure) for _ in range(STARTS)]
        for label in rounds[0]:
            rows[f"{label}, {count} members"] = min((one[label] for one in rounds), key=seconds_of)
    table("Start to all members answered", ["seconds", "CPU seconds", "MB at most / then", "stop, seconds"], rows)


def seconds_of(cells):
    """The first number of a row; none is less than that of a run that failed."""
    return float("inf") if isinstance(cells, str) else float(cells[0])


def new_member(bench):
    names, rounds = members(100), 20

    def measure(server, primary, held):
        settle(server, names)
        asker, times = ask.Asker(server.port), []
        for number in range(rounds):
            time.sleep(random.uniform(1.1, 2.1))  # a server may act on one NOTIFY a second
            added = zones.member(f"new{number}.test.")
            primary.hold(added)
            with primary.lock:
                held[CATALOG].change([], [(f"n{number}.zones", wire.PTR, wire.name(added.apex))])
            begun = time.monotonic()
            primary.notify(CATALOG, server.port)
            times.append(asker.wait(f"www.{added.apex}", limit=20) - begun)
        return [milliseconds(times)]

    readers = Bench([kind for kind in bench.kinds if kind.reads_catalogs], bench.folder, bench.seconds)
    readers.runs = 100
    plan = servers.Plan(CATALOG, PRIMARY_PORT, names)
    table("NOTIFY of a new member to its first answer, milliseconds in the median", ["of 20, 100 members before"],
          readers.each(catalog_of(names), plan, measure))


def large(bench):
    rows, count = {}, 200_000
    for verifies in (False, True):
        plan = servers.Plan(CATALOG, PRIMARY_PORT, [LARGE], verifies)

        def measure(server, primary, held):
            asker = ask.Asker(server.port)
            seconds = asker.wait(f"h{count - 1:06}.{LARGE}", pause=0.002) - server.begun
            memory = megabytes(server)
            times = [change(server, primary, held[LARGE], asker, number) for number in range(10)]
            time.sleep(1)
            return [f"{seconds:.2f}", memory, milliseconds(times), megabytes(server), f"{server.stop()[0]:.2f}"]

        able = Bench([kind for kind in bench.kinds if kind.verifies or not verifies], bench.folder, bench.seconds)
        able.runs = 200 + 50 * verifies
        for label, cells in able.each(large_catalog(count, verifies), plan, measure).items():
            rows[label + (", ZONEMD verified" if verifies else "")] = cells
    table(f"A zone of {count:,} addresses",
          ["start to answered, seconds", "MB at most / then", "NOTIFY of 50 changed records to answered, ms",
           "MB a second after ten changes", "stop, seconds"], rows)


def change(server, primary, zone, asker, number):
    """Changes fifty addresses, and waits until the last one is answered; the seconds from the NOTIFY on."""
    def records(offset):
        return [(f"h{4000 * one:06}", wire.A, zones.address(4000 * one + offset)) for one in range(50)]

    time.sleep(random.uniform(1.1, 2.1))  # a server may act on one NOTIFY a second
    with primary.lock:
        zone.change(records(1_000_000 * number), records(1_000_000 * (number + 1)))
    last = zones.address(4000 * 49 + 1_000_000 * (number + 1))
    begun = time.monotonic()
    primary.notify(LARGE, server.port)
    return asker.wait(f"h{4000 * 49:06}.{LARGE}", lambda message: ask.is_address(message, last), limit=60) - begun


def outward(bench):
    """A large zone is handed on: to one reader, and to sixteen at once beside queries."""
    count, readers = 200_000, 16
    plan = servers.Plan(CATALOG, PRIMARY_PORT, [LARGE], downstream=["127.0.0.1"])

    def measure(server, _primary, _held):
        steady(server.port, f"h{count - 1:06}.{LARGE}")
        messages, octets = ask.transfer(server.port, LARGE)
        if sum(len(message.answer) for message in messages) != count + 4:
            raise ask.TooLate(f"{count} records")
        runs = []
        for _ in range(TRANSFERS):
            time.sleep(0.2)
            before = server.cpu_of_threads()
            seconds = ask.read_all(server.port, LARGE, octets)
            time.sleep(0.05)
            runs.append((seconds, server.cpu_of_threads() - before))
        times, costs = zip(*runs)
        cells = [best_and_median(times), best_and_median(costs), f"{octets / 1e6:.2f}", str(len(messages)), megabytes(server)]
        return cells, beside(server, f"h{count // 2:06}.{LARGE}", readers, octets)

    able = Bench([kind for kind in bench.kinds if kind is not servers.Bind], bench.folder, bench.seconds)
    able.runs = 400
    said = {label: (one, one) if isinstance(one, str) else one
            for label, one in able.each(large_catalog(count, False), plan, measure).items()}
    table(f"A zone of {count:,} addresses handed on by AXFR, the best of {TRANSFERS} (the median)",
          ["ms", "CPU of the server, ms", "million octets", "messages", "MB at most / then"],
          {label: one for label, (one, _) in said.items()})
    table(f"{readers} such transfers at once, {BURSTS_OF_READERS} times, and queries beside them: median, 99 %, worst, ms",
          ["all have it after, s", "UDP", "TCP", "UDP, no transfer under way", "TCP, none", "without a reply",
           "MB at most / then"], {label: other for label, (_, other) in said.items()})


def best_and_median(times):
    return f"{min(times) * 1000:.1f} ({statistics.median(times) * 1000:.1f})"


def beside(server, owner, readers, octets):
    """What queries wait while so many readers take a zone of so many octets, and while none does."""
    words = [sys.executable, str(pathlib.Path(__file__).with_name("readers.py"))]
    words += [str(one) for one in (server.port, LARGE, readers, octets, BURSTS_OF_READERS)]
    asker = ask.Steady(server.port, owner)
    with subprocess.Popen(words, stdout=subprocess.PIPE, text=True) as process:
        lost = asker.run(process)
        spans = [tuple(map(float, line.split())) for line in process.stdout]
    if len(spans) < BURSTS_OF_READERS:
        raise ask.TooLate("a reader")

    def is_within(moment):
        return any(begun <= moment <= ended for begun, ended in spans)

    def is_apart(moment):
        return not any(begun - 0.1 <= moment <= ended + 0.1 for begun, ended in spans)

    def cell(transport, test):
        times = [1000 * one for one in asker.times(transport, test)]
        return f"{times[len(times) // 2]:.2f}, {times[len(times) * 99 // 100]:.1f}, {times[-1]:.1f}"

    lengths = [ended - begun for begun, ended in spans]
    return [f"{min(lengths):.2f} to {max(lengths):.2f}", cell("UDP", is_within), cell("TCP", is_within),
            cell("UDP", is_apart), cell("TCP", is_apart), str(lost), megabytes(server)]


MEASURES = {"cpu": cpu, "signed": signed, "latency": latency, "start": start, "new": new_member, "large": large,
            "outward": outward}


def main():
    words = argparse.ArgumentParser(description=__doc__)
    words.add_argument("--only", default=",".join(MEASURES), help="the measures, by commas: %(default)s")
    words.add_argument("--servers", default=",".join(servers.KINDS), help="the servers, by commas: %(default)s")
    words.add_argument("--catzd", default=servers.Catzd.program, help="the program (default: %(default)s)")
    words.add_argument("--seconds", type=int, default=5,
                       help="how long each load of `cpu` and `signed` lasts (default: %(default)s)")
    chosen = words.parse_args()
    kinds = [servers.KINDS[one] for one in chosen.servers.split(",")]
    if servers.Catzd in kinds:
        servers.Catzd.choose(chosen.catzd)
    for kind in kinds:
        if not kind.is_installed():
            print(f"{kind.label} isn't installed.")
    servers.pin(servers.LOAD_PROCESSORS)
    sys.setswitchinterval(0.0002)
    with tempfile.TemporaryDirectory(prefix="catzd-bench-") as folder:
        bench = Bench([kind for kind in kinds if kind.is_installed()], folder, chosen.seconds)
        for one in chosen.only.split(","):
            MEASURES[one](bench)
            bench.say_stolen()
    print(f"\nLoad of the machine at the end: {os.getloadavg()[0]:.1f}; the bench itself makes 2 to 4.")


if __name__ == "__main__":
    main()
