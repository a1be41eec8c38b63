"""Measures what a store costs: starts, queries beside a slow disk, and a catalog that drops its members."""
import os
import pathlib
import random
import shutil
import socket
import statistics
import subprocess
import threading
import time

import ask
import kept
import wire
import zones
from primary import Primary

PRIMARY_PORT, PORT, RELAY_PORT = 5730, 5731, 5732
SOURCE = pathlib.Path(__file__).with_name("disk.c")
SLEEP = 50_000  # microseconds of each sync of a slow disk
SAMPLE = 200  # members that are asked for where there are many
DROPPED = 1_000
OTHER = "other.test."  # a member that stays


def disk_library(folder):
    """The library of disk.c, or None where there is no compiler."""
    compiler = next(filter(None, map(shutil.which, ("cc", "gcc", "clang"))), None)
    if compiler is None:
        return None
    library = folder / "disk.so"
    subprocess.run([compiler, "-O2", "-shared", "-fPIC", "-o", library, SOURCE, "-ldl"], check=True)
    return library


def names_of(count):
    return [f"m{number}.example." for number in range(count)]


def primary_of(names, times=wire.SOA_TIMES):
    """A primary of a catalog with these members, each of three to five records."""
    primary, catalog = Primary(PRIMARY_PORT), zones.catalog(kept.CATALOG, names)
    members = [zones.member(one) for one in names]
    for zone in (catalog, *members):
        zone.times = times
    primary.hold(catalog, *members)
    return primary, catalog, members


def sample_of(names):
    """All of them, or the last in canonical order and some others."""
    if len(names) <= SAMPLE:
        return names
    last = max(names, key=lambda one: wire.canonical(wire.name(one)))
    return [last, *random.Random(0).sample(names, SAMPLE)]


def start(folder, primary, names, environment=()):
    """Starts a server, and waits until these members are answered: the server, and the seconds from its start to then."""
    server = kept.Keeper(folder, PORT, primary, environment=environment).start()
    asker = ask.Asker(PORT)
    try:
        return server, asker.wait_all([f"www.{one}" for one in names], limit=900) - server.begun
    finally:
        asker.close()


def is_settled(store, count):
    """Whether a store has as many records, the last one whole."""
    return store.is_file() and len(kept.records(store.read_bytes())) >= count


def wait_settled(store, count, limit=60):
    end = time.monotonic() + limit
    while not is_settled(store, count):
        if time.monotonic() > end:
            raise ask.TooLate(store)
        time.sleep(0.05)


def spread(seconds):
    return f"{min(seconds):.3f} s, median {statistics.median(seconds):.3f}, most {max(seconds):.3f}"


# -- The disk, and starts ---------------------------------------------------------------------------------------------

def syncs(folder):
    """What fdatasync costs after a piece of 400 octets."""
    with open(folder / "syncs", "wb", buffering=0) as file:
        times = []
        for _ in range(200):
            file.write(bytes(400))
            begun = time.monotonic()
            os.fdatasync(file.fileno())
            times.append(time.monotonic() - begun)
    times.sort()
    print(f"fdatasync after 400 octets: {times[100] * 1000:.2f} ms in the median, {times[197] * 1000:.2f} ms at 99 %")


def restarts(folder, count, library):
    """A start with the primary away, with the file in memory and not."""
    folder.mkdir()
    names, store = names_of(count), folder / kept.STORE
    primary, _, _ = primary_of(names)
    quick = [f"LD_PRELOAD={library}", "DISK_SLEEP=-1"] if library else []
    try:
        server, seconds = start(folder, PRIMARY_PORT, names, quick)
        wait_settled(store, count + 1)
        server.stop()
    finally:
        primary.close()
    print(f"{count} members: a first start{' without syncs' if library else ''} took {seconds:.2f} s, "
          f"the file has {store.stat().st_size / 1e6:.1f} MB")
    for is_cold in (False, True):
        times, costs = [], []
        for _ in range(5 if count < 20_000 else 3):
            if is_cold:
                with open(store, "rb") as file:
                    os.fsync(file.fileno())
                    os.posix_fadvise(file.fileno(), 0, 0, os.POSIX_FADV_DONTNEED)
            server, seconds = start(folder, kept.AWAY, sample_of(names))
            times.append(seconds)
            costs.append(server.cpu_of_threads())
            memory = server.memory()
            server.kill()
        print(f"{count} members, the primary away, the file {'on the disk' if is_cold else 'in memory'}: answered after "
              f"{spread(times)}; CPU {spread(costs)}; {memory[0]:.1f} MB at most", flush=True)


class Relay:
    """Passes connections on to the primary, and what they carry this many seconds later, as from a host further away."""

    def __init__(self, delay):
        self.delay = delay
        self.listener = socket.create_server(("127.0.0.1", RELAY_PORT))
        threading.Thread(target=self.work, daemon=True).start()

    def work(self):
        while True:
            try:
                client, _ = self.listener.accept()
            except OSError:
                return
            primary = socket.create_connection(("127.0.0.1", PRIMARY_PORT))
            for source, sink in ((client, primary), (primary, client)):
                sink.setsockopt(socket.IPPROTO_TCP, socket.TCP_NODELAY, 1)
                threading.Thread(target=self.carry, args=(source, sink), daemon=True).start()

    def carry(self, source, sink):
        try:
            while octets := source.recv(65_536):
                time.sleep(self.delay)
                sink.sendall(octets)
            sink.shutdown(socket.SHUT_WR)
        except OSError:
            pass

    def close(self):
        self.listener.close()


def first_starts(folder, count, delay=0.0):
    """First starts with a store and without, in turn; with a delay, of what a primary sends and is sent."""
    names, times = names_of(count), {"with": [], "without": []}
    primary, _, _ = primary_of(names)
    relay = Relay(delay) if delay else None
    try:
        for turn in range(3 if count < 2_000 and not delay else 1):
            for way in times:
                place = folder / f"first-{count}-{delay}-{turn}-{way}"
                place.mkdir(parents=True)
                if way == "without":
                    (place / kept.STORE).mkdir()
                server, seconds = start(place, RELAY_PORT if relay else PRIMARY_PORT, names)
                times[way].append(seconds)
                server.kill()
    finally:
        if relay:
            relay.close()
        primary.close()
    away = f", the primary {delay * 1000:.0f} ms away" if delay else ""
    for way, found in times.items():
        print(f"{count} members{away}, a first start {way} a store: answered after {spread(found)}", flush=True)


# -- Queries beside a disk --------------------------------------------------------------------------------------------

class Span:
    """So many seconds, or until it is ended, as a process that can be asked whether it has ended."""

    def __init__(self, seconds):
        self.end = time.monotonic() + seconds

    def poll(self):
        return None if time.monotonic() < self.end else 0


class Changes:
    """Changes a member each few milliseconds, in a thread of its own, until `close`."""

    def __init__(self, primary, members, is_told):
        self.primary, self.members, self.is_told, self.count, self.stopped = primary, members, is_told, 0, False
        self.thread = threading.Thread(target=self.work, daemon=True)
        self.thread.start()

    def work(self):
        while not self.stopped:
            zone = self.members[self.count % len(self.members)]
            with self.primary.lock:
                zone.change([], [])
            if self.is_told:
                self.primary.notify(zone.apex, PORT)
            self.count += 1
            time.sleep(0.01)

    def close(self):
        self.stopped = True
        self.thread.join()


def waits(steady, lost, begun=0.0, end=float("inf")):
    """What the replies of a steady asker took, over UDP and TCP."""
    said = []
    for transport in ("UDP", "TCP"):
        times = steady.times(transport, lambda due: begun <= due <= end)
        if times:
            said.append(f"{transport} {times[len(times) // 2] * 1000:.2f} ms in the median, "
                        f"{times[len(times) * 99 // 100] * 1000:.1f} at 99 %, {times[-1] * 1000:.0f} at the most")
    return f"{'; '.join(said)}; {lost} without a reply"


def beside(folder, library, sleep, is_changing, is_told, seconds=10):
    """Queries each millisecond while members change and a disk is slow."""
    folder.mkdir()
    names = names_of(20)
    primary, _, members = primary_of(names, (1, 1, 1_000_000, 5))
    changes = None
    try:
        server, _ = start(folder, PRIMARY_PORT, names, [f"LD_PRELOAD={library}", f"DISK_SLEEP={sleep}"])
        wait_settled(folder / kept.STORE, 21)
        changes = Changes(primary, members, is_told) if is_changing else None
        steady = ask.Steady(PORT, f"www.{names[0]}")
        before = server.count("published")
        lost = steady.run(Span(seconds), grace=5)
        taken = server.count("published") - before
        print(f"{f'syncs of {sleep // 1000} ms' if sleep else 'the disk as it is'}, "
              f"{('changes with NOTIFY' if is_told else 'changes without NOTIFY') if is_changing else 'no changes'}: "
              f"{waits(steady, lost)}; {taken} versions taken", flush=True)
    finally:
        if changes:
            changes.close()
        server.kill()
        primary.close()


def tell_twice():
    """Sends two NOTIFYs at once from the primary's address, and waits for no reply."""
    with socket.socket(socket.AF_INET, socket.SOCK_DGRAM) as one:
        for number in range(2):
            one.sendto(wire.query(number + 1, kept.CATALOG, wire.SOA, wire.NOTIFY_FLAGS), ("127.0.0.1", PORT))


def dropped(folder, is_told):
    """A catalog drops all its members but one: how long the lock is held, and how long queries take meanwhile."""
    folder.mkdir()
    names, store = [OTHER, *names_of(DROPPED)], folder / kept.STORE
    primary, catalog, _ = primary_of(names)
    try:
        server, _ = start(folder, PRIMARY_PORT, names)
        wait_settled(store, len(names) + 1)
        steady, span = ask.Steady(PORT, f"www.{OTHER}"), Span(600)
        found = {}

        def watch():
            with primary.lock:
                catalog.change([(f"m{number}.zones", wire.PTR, wire.name(one)) for number, one in enumerate(names, 1)
                                if one != OTHER], [])
            size = store.stat().st_size
            primary.notify(kept.CATALOG, PORT)
            while store.stat().st_size == size:
                time.sleep(0.005)
            found["begun"] = time.monotonic()
            if is_told:
                tell_twice()
            while time.monotonic() < found.get("end", found["begun"]) + 1:  # a second without growth
                if store.stat().st_size != size:
                    size, found["end"] = store.stat().st_size, time.monotonic()
                time.sleep(0.005)
            span.end = found["end"]

        watcher = threading.Thread(target=watch, daemon=True)
        watcher.start()
        lost = steady.run(span, grace=20)
        watcher.join()
        left = kept.kept_in(store.read_bytes())
        if set(left) != {kept.CATALOG, OTHER} or left[kept.CATALOG] != catalog.serial:
            raise ask.TooLate(store)
        held = found["end"] - found["begun"]
        print(f"a catalog drops {DROPPED} members{', and two NOTIFYs come' if is_told else ''}: the lock is held for "
              f"{held:.2f} s, so for some {held / DROPPED * 60_000:.0f} s where it drops 60,000; meanwhile "
              f"{waits(steady, lost, found['begun'], found['end'])}", flush=True)
    finally:
        server.kill()
        primary.close()


def run(folder, counts):
    folder.mkdir()
    library = disk_library(folder)
    syncs(folder)
    for count in counts:
        restarts(folder / f"restarts-{count}", count, library)
    for count in counts:
        if count <= 5_000:
            first_starts(folder, count)
        if count <= 1_000:
            first_starts(folder, count, 0.010)
            first_starts(folder, count, 0.005)
    if library:
        beside(folder / "quiet", library, 0, False, False)
        beside(folder / "alone", library, 0, True, True)
        beside(folder / "refreshed", library, SLEEP, True, False)
        beside(folder / "told", library, SLEEP, True, True)
    else:
        print("slow disks are left out, since there is no C compiler")
    dropped(folder / "dropped", False)
    dropped(folder / "dropped-told", True)
