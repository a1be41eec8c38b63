"""Kills a catzd that takes changes, again and again, and looks what its store gives back."""
import random
import shutil
import threading
import time

import ask
import kept
import wire
import zones
from primary import Primary

PRIMARY_PORT, PORT = 5700, 5701
SMALL, LARGE = 10, 4  # members of a few records, and of some 60,000 octets
RENEWED = 1 << 24  # from this size on a store's file may be written anew
AGAIN = 10  # how many kills such a file is left for
LONGEST = 0.2  # seconds from the first reply of a server to its kill, at the most
EARLY = 0.2  # the share of kills that come before
TIMES = (1, 1, 1_000_000, 5)  # REFRESH, RETRY, EXPIRE and MINIMUM in seconds


class World:
    """A primary whose zones change all the time, in a thread of its own, and which tells catzd of it by NOTIFY."""

    def __init__(self, seed):
        self.random, self.lock, self.stopped = random.Random(seed), threading.Lock(), False
        self.primary = Primary(PRIMARY_PORT, lock=self.lock)
        self.catalog, self.labels, self.changes = zones.catalog(kept.CATALOG, []), {}, 0
        self.catalog.times = TIMES
        self.members = [made(f"{kind}{number}.example.", kind == "large")
                        for kind, count in (("small", SMALL), ("large", LARGE)) for number in range(count)]
        self.primary.hold(self.catalog, *self.members)
        for zone in self.members:
            self.name(zone)
        self.thread = threading.Thread(target=self.change, daemon=True)
        self.thread.start()

    def change(self):
        while not self.stopped:
            zone = self.random.choice(self.members)
            with self.lock:
                if self.random.random() < 0.95:
                    zone.change([serial_text(zone.serial)], [serial_text(zone.serial + 1)])
                else:
                    zone = self.catalog
                    self.name(self.random.choice(self.members))
            self.changes += 1
            self.primary.notify(zone.apex, PORT)
            time.sleep(self.random.uniform(0, 0.006))

    def name(self, zone):
        """Adds a member under a new label, resets it by another one, or removes it."""
        before = self.labels.pop(zone.apex, None)
        if before is None or self.random.random() < 0.5:
            self.labels[zone.apex] = f"n{self.changes}-{zone.apex.split('.')[0]}"
        self.catalog.change(pointer(before, zone), pointer(self.labels.get(zone.apex), zone))

    def close(self):
        self.stopped = True
        self.thread.join()
        self.primary.close()


def serial_text(serial):
    return "serial", wire.TXT, wire.txt(str(serial))


def pointer(label, zone):
    return [(f"{label}.zones", wire.PTR, wire.name(zone.apex))] if label else []


def made(apex, is_large):
    zone = zones.member(apex)
    zone.times = TIMES
    zone.put(*serial_text(1))
    for number in range(250 if is_large else 0):
        zone.put(f"t{number}", wire.TXT, wire.txt(f"{number:03}" * 70))
    return zone


def killed(folder, wait, is_early):
    """A run of a server that is killed so many seconds after its start, or after its first reply; its lines."""
    server, asker = kept.Keeper(folder, PORT, PRIMARY_PORT).start(), ask.Asker(PORT)
    try:
        if not is_early:
            asker.wait_reply(kept.CATALOG, wire.SOA)
        time.sleep(wait)
    finally:
        server.kill()
        asker.close()
    return server.lines()


def judged(folder, account, names):
    """A run with the primary away: what is wrong with what it answers and with its log, and the seconds to its first
    reply."""
    server = kept.Keeper(folder, PORT, kept.AWAY).start()
    try:
        kept.states(PORT, [kept.CATALOG])
        took = time.monotonic() - server.begun
        faults = account.faults(kept.states(PORT, names))
    finally:
        server.kill()
    return faults + account.read(server.lines()), took


def size(file):
    return file.stat().st_size if file.exists() else 0


def copy_of(folder):
    """A folder with the same files of a store."""
    copy = folder / "copy"
    shutil.rmtree(copy, ignore_errors=True)
    copy.mkdir()
    for name in (kept.STORE, kept.NEW_STORE):
        if (folder / name).exists():
            shutil.copy(folder / name, copy)
    return copy


def run(folder, count, seed):
    """Kills so many servers; the faults."""
    folder.mkdir()
    world, account, faults, begun = World(seed), kept.Account(), [], time.monotonic()
    store, fresh, chance, took, again = folder / kept.STORE, folder / kept.NEW_STORE, random.Random(seed), 0.1, 0
    tally = dict.fromkeys(("restoring", "renewing", "renewed", "taken"), 0)
    try:
        for number in range(count):
            before = size(store)
            is_early = before >= RENEWED or chance.random() < EARLY
            wait = chance.uniform(0, took * 1.2 if is_early else LONGEST)
            lines = killed(folder, wait, is_early)
            tally["renewing"] += fresh.exists()
            found = account.read(lines)
            tally["restoring"] += account.is_restoring
            tally["taken"] += account.taken
            # a start writes a large file anew, so a copy is judged where the next kill is to come while that is done
            again = again + 1 if RENEWED <= size(store) and again < AGAIN else 0
            wrong, took = judged(copy_of(folder) if again else folder, account, [zone.apex for zone in world.members])
            tally["renewed"] += size(store) < before
            faults += [f"kill {number + 1}, {wait:.3f} s after the {'start' if is_early else 'first reply'}: {fault}"
                       for fault in found + wrong]
            if len(faults) > 9:
                break
    finally:
        world.close()
    print(f"kills: {number + 1} in {time.monotonic() - begun:.0f} s, seed {seed}; {tally['restoring']} before all zones "
          f"were given back, {tally['renewing']} of them while the file was written anew, which was done {tally['renewed']} "
          f"times; {world.changes} changes at the primary, {tally['taken']} versions taken; {len(faults)} faults", flush=True)
    return faults
