"""A catzd that keeps zones: its folder, its store's file, what its log says is kept, and what it answers."""
import os
import pathlib
import resource
import signal
import struct
import subprocess
import sys

sys.path.insert(0, str(pathlib.Path(__file__).resolve().parents[2] / "bench"))
import ask
import servers
import wire

CATALOG = "catalog.test."
STORE, NEW_STORE = "catzd.store", "catzd.store.new"
AWAY = 5699  # a port at which no primary listens
WAITING = "waiting"  # a member without a version
CHANGES = {"added", "removed", "reset", "moved", "moved-reset", "clash", "regrouped", "broken"}
ENDS = {"published", "confirmed", "failed", "refused", "policy", "stale", "nomemory"}
NOBODY = 65534


class Keeper(servers.Catzd):
    """catzd in a folder that is there before it and after it. `octets` limits the files that it writes, `environment` are
    variables, and where `is_nobody` it runs as another user than the folder's."""

    def __init__(self, folder, port, primary, octets=None, environment=(), is_nobody=False):
        super().__init__(servers.Plan(CATALOG, primary), folder, port)
        self.octets, self.environment, self.is_nobody = octets, list(environment), is_nobody
        if octets is not None:  # the log isn't to be limited
            with self.log as log:
                copier = subprocess.Popen(["cat"], stdin=subprocess.PIPE, stdout=log)
            self.log = copier.stdin

    def words(self):
        return ["env", "--block-signal=TERM,INT,HUP", *self.environment, self.program, "serve"]

    def prepare(self):
        super().prepare()
        if self.octets is not None:
            signal.signal(signal.SIGXFSZ, signal.SIG_IGN)
            resource.setrlimit(resource.RLIMIT_FSIZE, (self.octets, self.octets))
        if self.is_nobody:
            os.setgroups([])
            os.setgid(NOBODY)
            os.setuid(NOBODY)

    def lines(self):
        """The whole lines of its log so far."""
        return (self.folder / "log").read_text().rpartition("\n")[0].splitlines()

    def count(self, *words):
        """How many lines of its log begin with these words."""
        return sum(line.split()[:len(words)] == list(words) for line in self.lines())

    def kill(self):
        self.process.send_signal(signal.SIGKILL)
        self.process.wait()
        self.log.close()


def state(asker, zone, limit=20):
    """What is answered of a zone: its serial, WAITING, or None where it is no member."""
    message = asker.wait_reply(zone, wire.SOA, limit)
    if message.code == wire.REFUSED:
        return None
    if message.code == wire.SERVFAIL:
        return WAITING
    return serial_in(message)


def serial_in(message):
    return struct.unpack(">I", message.answer[0].rdata[-20:-16])[0]


def states(port, zones):
    """What is answered of each of these zones."""
    asker = ask.Asker(port)
    try:
        return {zone: state(asker, zone) for zone in zones}
    finally:
        asker.close()


# -- The file of a store ----------------------------------------------------------------------------------------------

def records(octets):
    """The records of a store's file: for each where it ends, its zone, and the serial that it keeps or None."""
    found, at = [], 0
    while at + 9 <= len(octets) and octets[at] == 1:
        end = at + 9 + int.from_bytes(octets[at + 1:at + 9], "big")
        if end > len(octets):
            break
        found.append((end, *said_by(octets[at + 9:end])))
        at = end
    return found


def said_by(payload):
    """The zone of a record's payload, and the serial that it keeps or None."""
    zone, at = wire.read_name(payload, 1)
    if payload[0] == 2:
        return wire.text_of(zone), None
    _, at = wire.read_name(payload, at)
    at += 1 + payload[at] + 8
    first = payload[at + 2:at + 2 + int.from_bytes(payload[at:at + 2], "big")]
    return wire.text_of(zone), serial_in(wire.read_message(first))


def kept_in(octets):
    """The serial that a store's file keeps of each zone."""
    kept = {}
    for _, zone, serial in records(octets):
        kept.pop(zone, None)
        if serial is not None:
            kept[zone] = serial
    return kept


# -- What a log says --------------------------------------------------------------------------------------------------

def calls(lines):
    """The lines of a log, those of one verdict together: a catalog's version and the changes by it."""
    found = []
    for line in lines:
        if line.split()[0] in CHANGES and found:
            found[-1].append(line.split())
        else:
            found.append([line.split()])
    return found


class Account:
    """What the store of a server with one catalog must give back, by the lines of its logs. A line is written, and its
    zone is saved, under one lock, and so is each other line. So what a line tells is kept once a line of another call
    comes after it; what the last line tells may be kept, in part too."""

    def __init__(self):
        self.sure, self.maybe = {}, {}  # a member -> its serial or WAITING; further states that a member may have
        self.is_restoring, self.taken = True, 0  # of the last log: whether a turn was left, and versions taken after that

    def allowed(self, zone):
        return {self.sure.get(zone)} | self.maybe.get(zone, set())

    def faults(self, found):
        """What is wrong with the states of all zones that were ever named."""
        return [f"{zone} is {was}, where the log allows {self.allowed(zone)}"
                for zone, was in found.items() if was not in self.allowed(zone)]

    def read(self, lines):
        """Goes on by the log of one run; what is wrong with it. A run begins with a turn for the catalog and each of its
        members, by which they get back what is kept. By these nothing is saved."""
        groups, restored, turns, faults = calls(lines), {}, 1, []
        self.taken = 0
        for place, group in enumerate(groups):
            head = group[0]
            if head[0] == "unkept":
                faults.append(" ".join(head))
            elif turns and head[0] in ENDS:
                turns -= 1
                step(restored, group)
                turns += sum(change[0] == "added" for change in group[1:])
                if not turns:
                    faults += self.faults({**dict.fromkeys(self.sure), **restored})
                    self.sure, self.maybe = restored, {}
            elif head[0] == "published":
                self.taken += 1
                if place + 1 < len(groups):
                    step(self.sure, group)
                else:
                    self.doubt(group)
        self.is_restoring = turns > 0
        return faults

    def doubt(self, group):
        """The last call of a log may be kept as a whole, not at all, or the zones that went are forgotten alone."""
        after = dict(self.sure)
        step(after, group)
        for zone in set(after) | set(self.sure):
            if after.get(zone) != self.sure.get(zone):
                self.maybe[zone] = {after.get(zone)} | ({WAITING} if len(group) > 1 else set())


def step(members, group):
    """The members after a verdict."""
    for word, *rest in group:
        if word == "published" and rest[1] != CATALOG:
            members[rest[1]] = int(rest[2])
        elif word in ("added", "reset"):
            members[rest[0]] = WAITING
        elif word == "removed":
            members.pop(rest[0], None)
