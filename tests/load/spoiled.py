"""Gives catzd stores that are cut, or none, and folders and disks that don't take one."""
import concurrent.futures
import itertools
import os
import queue
import random
import shutil
import socket
import sqlite3
import subprocess
import time

import ask
import delays
import kept
import zones
from primary import Primary

PRIMARY_PORT, PORT = 5705, 5706
SIDES = 4  # servers at a time
MEMBERS = [f"m{number}.example." for number in range(12)]
ALL = {zone: 1 for zone in MEMBERS}
NO_STORE = [[".", "disk"]]


class Place:
    """A folder with a store or something else in its place, and the faults that were found there."""

    def __init__(self, folder, name):
        self.folder, self.name, self.faults = folder / name, name, []
        self.folder.mkdir()
        self.store = self.folder / kept.STORE

    def expect(self, what, is_so):
        if not is_so:
            self.faults.append(f"{self.name}: {what}")

    def ended(self, server, wanted):
        """Waits until a server that was started answers so, and ends it; the words of its lines `unkept`."""
        try:
            wait_states(server, PORT, wanted)
            time.sleep(0.1)
        except ask.TooLate as error:
            self.faults.append(f"{self.name}: answered otherwise: {error}")
        status = server.stop()[1]
        self.expect(f"it ended with status {status}", status == 0)
        return [line.split()[1:] for line in server.lines() if line.startswith("unkept ")]

    def serve(self, primary, wanted, unkept=(), **words):
        """Starts a server, and looks whether it answers so, says that of what isn't kept, and ends well."""
        said = self.ended(kept.Keeper(self.folder, PORT, primary, **words).start(), wanted)
        self.expect(f"it said {said}", said == list(unkept))

    def is_kept(self, wanted=None):
        """Looks whether a start with the primary away gives all zones back."""
        self.serve(kept.AWAY, wanted or ALL)


def members_in(octets):
    """The serials that a store's file keeps of members."""
    return {zone: serial for zone, serial in kept.kept_in(octets).items() if zone in MEMBERS}


def wait_states(server, port, wanted, limit=20):
    """Waits until zones are answered so."""
    end = time.monotonic() + limit
    while True:
        found = kept.states(port, wanted)
        if found == wanted:
            return
        if time.monotonic() > end or not server.is_running():
            raise ask.TooLate({zone: was for zone, was in found.items() if was != wanted[zone]})
        time.sleep(0.01)


def store_of(folder, serials):
    """The octets of a store that took so many versions of each member, one after the other."""
    place, members = Place(folder, f"made-{serials}"), {zone: zones.member(zone) for zone in MEMBERS}
    primary = Primary(PRIMARY_PORT)
    primary.hold(zones.catalog(kept.CATALOG, MEMBERS), *members.values())
    server = kept.Keeper(place.folder, PORT, PRIMARY_PORT).start()
    try:
        wait_states(server, PORT, ALL)
        for serial in range(2, serials + 1):
            for zone in members.values():
                zone.change([], [])
                primary.notify(zone.apex, PORT)
                wait_states(server, PORT, {zone.apex: serial})
    finally:
        server.stop()
        primary.close()
    return place.store.read_bytes()


# -- Cut files --------------------------------------------------------------------------------------------------------

def cut(folder, port, octets):
    """Starts a server with this store, with the primary away; what is wrong."""
    (folder / kept.STORE).write_bytes(octets)
    server = kept.Keeper(folder, port, kept.AWAY).start()
    wanted = kept.kept_in(octets)
    try:
        found = kept.states(port, MEMBERS)
    except ask.TooLate:
        found = None
    server.kill()
    faults = [f"{len(octets)} octets: {line}" for line in server.lines() if line.startswith("unkept")]
    if found != {zone: wanted.get(zone, kept.WAITING) for zone in MEMBERS}:
        faults.append(f"{len(octets)} octets: answered {found}, and {wanted} is kept")
    return faults


def cuts(folder, count, every, whole):
    """Cuts a store at one of each `every` of its last octets; the faults."""
    begun, free, faults = time.monotonic(), queue.Queue(), []
    for side in range(SIDES):
        free.put((Place(folder, f"side-{side}").folder, PORT + 1 + side))

    def work(length):
        side = free.get()
        try:
            return cut(*side, whole[:length])
        finally:
            free.put(side)

    lengths = range(len(whole) - count, len(whole), every)
    with concurrent.futures.ThreadPoolExecutor(SIDES) as pool:
        for found in pool.map(work, lengths):
            faults += found
    print(f"files: {len(lengths)} files that were cut within their last {count} octets of {len(whole)}, in "
          f"{time.monotonic() - begun:.0f} s: {len(faults)} faults", flush=True)
    return faults


# -- What is no store, and what takes none ----------------------------------------------------------------------------

def strange(folder, chance, whole):
    """Files that are no store, or more than one."""
    def database(place):
        with sqlite3.connect(place.store) as opened:
            opened.execute("create table zones (name text)")
        opened.close()

    def link(place):
        (place.folder / "elsewhere").write_bytes(whole)
        place.store.symlink_to("elsewhere")

    def listening(place):
        with socket.socket(socket.AF_UNIX) as one:
            one.bind(os.path.relpath(place.store))

    made = {
        "a database": database,
        "a text": lambda place: place.store.write_text("catzd\n" * 1000),
        "random octets": lambda place: place.store.write_bytes(b"\xa7" + chance.randbytes(100_000)),
        "a folder": lambda place: place.store.mkdir(),
        "a link": link,
        "a link to nothing": lambda place: place.store.symlink_to("elsewhere"),
        "a pipe": lambda place: os.mkfifo(place.store),
        "a socket": listening,
    }
    for name, make in made.items():
        place = Place(folder, name.replace(" ", "-"))
        make(place)
        before = seen(place)
        place.serve(PRIMARY_PORT, ALL, NO_STORE)
        place.expect("it was changed", seen(place) == before)
        yield place
    noise = chance.randbytes(100_000)
    files = {
        "no octets": b"",
        "zeros": bytes(1000),
        "random octets after a closed gate": b"\0" + noise,
        "random octets after an open gate": b"\1" + noise,
        "a store and random octets": records_of(whole) + b"\0" + noise,
    }
    for name, octets in files.items():
        place = Place(folder, name.replace(" ", "-"))
        place.store.write_bytes(octets)
        wanted = members_in(octets) or ALL
        place.serve(PRIMARY_PORT, wanted)
        place.is_kept(wanted)
        yield place


def seen(place):
    """What is in the place of a store, and in the folder."""
    names = sorted(one.name for one in place.folder.iterdir() if one.name not in ("log", "catzd.toml"))
    octets = place.store.read_bytes() if place.store.is_file() else None
    return names, place.store.lstat().st_mode, octets


def second(folder):
    """A second server in the folder of the first."""
    place = Place(folder, "a-second-server")
    first = kept.Keeper(place.folder, PORT + 1, PRIMARY_PORT).start()
    try:
        wait_states(first, PORT + 1, ALL)
        before = place.store.read_bytes()
        place.serve(PRIMARY_PORT, ALL, NO_STORE)
        place.expect("the second server wrote into it", place.store.read_bytes() == before)
    finally:
        first.stop()
    place.is_kept()
    return place


def barred(folder):
    """A folder and files that another user has."""
    if os.getuid() != 0:
        print("files: folders of another user are left out, since this isn't root")
        return
    for name, make in {"a folder that can't be written": lambda store: None,
                       "a file that can't be written": lambda store: (store.write_bytes(b"\0"), store.chmod(0o644)),
                       "a file that can't be read": lambda store: (store.write_bytes(b"\0"), store.chmod(0o600))}.items():
        place = Place(folder, name.replace(" ", "-").replace("'", ""))
        make(place.store)
        place.folder.chmod(0o755)
        place.serve(PRIMARY_PORT, ALL, NO_STORE, is_nobody=True)
        yield place


# -- Disks that fail --------------------------------------------------------------------------------------------------

def refused(place, server):
    """After the first fault nothing is kept, and each taken transfer says so; the zones that aren't kept."""
    said = place.ended(server, ALL)
    zones_said = [zone for zone, _ in said]
    is_right = 0 < len(set(zones_said)) == len(said) <= 1 + len(MEMBERS) and "." not in zones_said
    place.expect(f"it said {said}", is_right and {word for _, word in said} == {"disk"})
    return zones_said


def given_back(place, lost):
    """Another start gives back what was kept before the fault, and with the primary there all is kept again."""
    place.serve(kept.AWAY, {zone: kept.WAITING if zone in lost else 1 for zone in MEMBERS})
    place.serve(PRIMARY_PORT, ALL)
    place.is_kept()


def full(folder):
    """Files that may have so many octets alone."""
    for octets in (1_000, 1_500, 2_000, 3_000):
        place = Place(folder, f"{octets}-octets")
        lost = refused(place, kept.Keeper(place.folder, PORT, PRIMARY_PORT, octets=octets).start())
        place.expect(f"its file has {place.store.stat().st_size} octets", place.store.stat().st_size <= octets)
        given_back(place, lost)
        yield place


def small_disk(folder):
    """A disk of one page for the store, mounted for the server alone."""
    if subprocess.run(["unshare", "-m", "true"], capture_output=True).returncode:
        print("files: the full disk is left out, since this may not mount one")
        return
    place = Place(folder, "a-full-disk")

    class Mounted(kept.Keeper):
        def words(self):
            (self.folder / "disk").mkdir(exist_ok=True)
            script = "mount -t tmpfs -o size=4k none disk && cd disk && exec "
            return ["unshare", "-m", "sh", "-c", script + " ".join(super().words())]

    refused(place, Mounted(place.folder, PORT, PRIMARY_PORT).start())
    yield place


def faulty(folder):
    """Disks that fail from one call on."""
    library = delays.disk_library(folder)
    if library is None:
        print("files: disks that fail are left out, since there is no C compiler")
        return
    # to open a new file takes three calls, and a record four
    for first in (1, 2, 3, 4, 5, 6, 7, 8, 9, 20, 21, 22, 23):
        place = Place(folder, f"fault-{first}")
        environment = [f"LD_PRELOAD={library}", f"DISK_FAULT={first}"]
        server = kept.Keeper(place.folder, PORT, PRIMARY_PORT, environment=environment).start()
        if first <= 3:
            said = place.ended(server, ALL)
            place.expect(f"it said {said}", said == NO_STORE)
        else:
            lost = refused(place, server)
            # a record whose last sync failed may be kept, and no other
            both = set(lost) & set(kept.kept_in(place.store.read_bytes()))
            place.expect(f"{both} were kept and not", both <= {lost[0]})
        place.serve(PRIMARY_PORT, ALL)
        place.is_kept()
        yield place


# -- A file that is to be written anew ---------------------------------------------------------------------------------

def renewals(folder, whole):
    """Files of which most is dead: they are written anew, but where that can't be done."""
    big = b"".join(itertools.repeat(records_of(whole), 1 + (17 << 20) // len(whole))) + b"\0"
    wanted = members_in(whole)

    def foreign(place):
        (place.folder / kept.NEW_STORE).mkdir()

    def left(place):
        (place.folder / kept.NEW_STORE).write_bytes(big[:1 << 20])

    for name, make, is_renewed in (("mostly dead", lambda place: None, True), ("a folder beside it", foreign, False),
                                   ("a rest beside it", left, True)):
        place = Place(folder, name.replace(" ", "-"))
        place.store.write_bytes(big)
        make(place)
        place.serve(kept.AWAY, wanted)
        size = place.store.stat().st_size
        place.expect(f"it has {size} octets", (size < len(big) // 2) == is_renewed)
        place.expect("a rest is there", is_renewed != (place.folder / kept.NEW_STORE).exists())
        place.expect("its mode", not is_renewed or place.store.stat().st_mode & 0o777 == 0o600)
        place.is_kept(wanted)
        yield place


def records_of(octets):
    """The records of a store without the gate after the last."""
    return octets[:kept.records(octets)[-1][0]]


def run(folder, count, every, seed):
    folder.mkdir()
    chance, serials = random.Random(seed), 2 + count // (len(MEMBERS) * 250)
    whole = store_of(folder, serials)
    faults = cuts(folder, min(count, len(whole)), every, whole)
    primary = Primary(PRIMARY_PORT)
    primary.hold(zones.catalog(kept.CATALOG, MEMBERS), *(zones.member(zone) for zone in MEMBERS))
    tried, begun = 0, time.monotonic()
    try:
        for place in itertools.chain(strange(folder, chance, whole), [second(folder)], barred(folder), full(folder),
                                     small_disk(folder), faulty(folder), renewals(folder, whole)):
            tried += 1
            faults += place.faults
            if not place.faults:
                shutil.rmtree(place.folder)
    finally:
        primary.close()
    print(f"files: {tried} others in {time.monotonic() - begun:.0f} s, seed {seed}: {len(faults)} faults", flush=True)
    return faults
