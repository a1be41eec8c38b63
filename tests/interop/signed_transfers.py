#!/usr/bin/env python3
"""Has catzd take zones by transfers that Knot, NSD, BIND and PowerDNS sign, and refuse those that aren't signed right.

    signed_transfers.py [--catzd PROGRAM] [--peers own,knot,nsd,bind,powerdns] [--records 200000] [--verbose]
                        [--parts servers,keys,clocks,notify,moved,config,cpu]

Each peer, and a primary of the script's own, has a catalog with a zone of one message and one of many, and gives them
only to who signs with its key (RFC 8945, hmac-sha256). A relay between the peer and catzd, on ports above 5300 of
127.0.0.1, reads each signature with code of its own, and changes answers in the ways that alter.py lists: catzd must say
why it refuses such a transfer, and go on answering what it had. What the parts are is in README.md. A peer that isn't
installed is left out, and that is said.
"""
import argparse
import base64
import os
import pathlib
import re
import shutil
import statistics
import subprocess
import sys
import tempfile
import threading
import time
from dataclasses import replace

sys.path.insert(0, str(pathlib.Path(__file__).resolve().parents[2] / "bench"))
import alter
import ask
import peers
import primary
import servers
import tap
import tsig
import wire
import zones

PEER_PORT, RELAY_PORT, CATZD_PORT, TAP_PORT = 5390, 5391, 5392, 5393
CATALOG, ONE, MANY, LARGE = "catalog.test", alter.ONE, alter.MANY, "large.test"
KEY = tsig.Key("transfer.key.", bytes(range(0xA1, 0xC1)))
TIMES = (3600, 1, 86400, 300)  # RETRY is a second, so that what was refused is asked for again soon
NOTIFY_SECONDS = 40
TEXTS = 9_000  # TXT records of the zone of many messages
SHORT = 2_000  # octets of a message of the script's own primary
PARTS = ("servers", "keys", "clocks", "notify", "moved", "config", "cpu")

HEAD = """$ORIGIN {zone}.
$TTL 3600
@ SOA ns hostmaster {version} 3600 1 86400 300
@ NS ns
ns A 192.0.2.53
www A 192.0.2.{version}
"""
CATALOG_TEXT = """$ORIGIN {zone}.
$TTL 3600
@ SOA invalid. invalid. {version} 3600 1 86400 0
@ NS invalid.
version TXT "2"
"""


def text_of(zone, version, members=(ONE, MANY)):
    """A version of a zone as a master file; its number is the serial, the address of www, and part of each TXT."""
    if zone == CATALOG:
        return CATALOG_TEXT.format(zone=zone, version=version) + "".join(
            f"m{number}.zones PTR {one}.\n" for number, one in enumerate(members))
    texts = range(TEXTS) if zone == MANY else ()
    return HEAD.format(zone=zone, version=version) + "".join(f't{n:05} TXT "{"x" * 200} {version}"\n' for n in texts)


def address(version):
    return bytes([192, 0, 2, version])


def records_of(zone, version):
    """What differs between versions: (labels, type, RDATA)."""
    texts = range(TEXTS) if zone == MANY else ()
    return [("www", wire.A, address(version)),
            *((f"t{n:05}", wire.TXT, wire.txt("x" * 200 + f" {version}")) for n in texts)]


def notify(zone, port=CATZD_PORT):
    asker = ask.Asker(port)
    asker.socket.send(wire.query(0, zone, wire.SOA, wire.NOTIFY_FLAGS))
    asker.close()


class Own:
    """The script's own primary, which a relay signs for."""
    label, has_differences, signs_alone = "own", True, False

    def __init__(self, folder, port, secondary, key):
        self.port, self.secondary = port, secondary
        zones.MESSAGE = SHORT
        self.zones = {zone: zones.Zone(zone, times=TIMES) for zone in (ONE, MANY)}
        self.zones[CATALOG] = zones.catalog(CATALOG, (ONE, MANY))
        self.zones[CATALOG].times = TIMES
        for zone in (ONE, MANY):
            self.zones[zone].put("", wire.NS, wire.name(f"ns.{zone}"))
            for one in records_of(zone, 1):
                self.zones[zone].put(*one)

    def start(self):
        self.primary = primary.Primary(self.port)
        self.primary.hold(*self.zones.values())

    def change(self, zone, version):
        with self.primary.lock:
            if zone == CATALOG:
                self.zones[zone].change([], [("version.more", wire.TXT, wire.txt(f"{version}"))])
            else:
                self.zones[zone].change(records_of(zone, version - 1), records_of(zone, version))
        self.primary.notify(zone, self.secondary)

    def stop(self):
        self.primary.close()


class Real:
    """Another server with a key."""
    signs_alone = True

    def __init__(self, kind, folder, port, secondary, key, texts=None, **how):
        self.label, self.has_differences = kind.label, kind.has_differences
        texts = texts or {zone: text_of(zone, 1) for zone in (CATALOG, ONE, MANY)}
        self.peer = kind(folder, port, secondary, texts, key=key, **how)

    def start(self):
        self.peer.start()
        for zone in self.peer.zones:
            if zone != CATALOG:
                ask.Asker(self.peer.port).wait(f"www.{zone}.", pause=0.05, limit=30)

    def change(self, zone, version):
        self.peer.change(zone, text_of(zone, version))

    def stop(self):
        self.peer.stop()


def table(name, port, key, more=""):
    """A catalog of catzd's configuration."""
    signed = f'key = "{key.name}"\nsecret = "{key.hex}"\n' if key else ""
    return f'[[catalog]]\nname = "{name}."\npolicy = "off"\nprimaries = ["127.0.0.1:{port}"]\n{signed}{more}'


class Secondary(servers.Catzd):
    """catzd with catalogs in its configuration, and what its log says."""

    def __init__(self, folder, tables, keys, environment=None):
        super().__init__(None, folder, CATZD_PORT)
        self.tables, self.keys, self.environment = tables, keys, environment or {}

    def words(self):
        return ["env", "--block-signal=TERM,INT,HUP", *(f"{word}={value}" for word, value in self.environment.items()),
                self.program, "serve"]

    def input(self):
        return open(self.write("catzd.toml", f'listen = "127.0.0.1:{self.port}"\n{"".join(self.tables)}'))

    def lines(self):
        return (self.folder / "log").read_text(errors="replace").splitlines()

    def count(self, line):
        """How many lines are this one; a number in the pattern may be any."""
        return sum(re.fullmatch(line, one) is not None for one in self.lines())

    def wait(self, line, count=1, limit=20):
        """Whether so many such lines come within the limit."""
        end = time.monotonic() + limit
        while self.count(line) < count:
            if time.monotonic() > end:
                return False
            time.sleep(0.02)
        return True

    def end(self):
        """Stops it, and gives what was wrong with the end and with the log."""
        status = self.stop()[1] if self.is_running() else f"{self.process.returncode} by itself"
        faults = [] if status == 0 else [f"catzd ended with status {status}"]
        return faults + shown_secrets((self.folder / "log").read_bytes(), self.keys)


def shown_secrets(octets, keys):
    """Whether a text has a secret, or six octets of one, as hex, as base64 or as they are."""
    faults, text = [], octets.lower()
    for key in filter(None, keys):
        parts = [key.secret[at:at + 6] for at in range(len(key.secret) - 5)] or [key.secret]
        forms = [form.lower() for part in parts if len(part) == 6
                 for form in (part.hex().encode(), base64.b64encode(part), part)]
        if any(form in text for form in (*forms, key.base64.lower().encode())):
            faults.append(f"the secret of {key.name} is shown")
    return faults


def has_version(version):
    return lambda message: ask.is_address(message, address(version))


def answered(zone, version, limit=30):
    return ask.Asker(CATZD_PORT).wait(f"www.{zone}.", has_version(version), limit=limit, pause=0.01)


def code_of(zone):
    message = ask.Asker(CATZD_PORT).ask(f"www.{zone}.", limit=2)
    return None if message is None else message.code


class Run:
    """One peer, the relay and catzd behind it."""

    def __init__(self, make, folder, is_verbose):
        self.peer, self.folder, self.is_verbose = make(folder / "peer", PEER_PORT, CATZD_PORT, KEY), folder, is_verbose
        self.label, self.versions = self.peer.label, dict.fromkeys((CATALOG, ONE, MANY), 1)
        self.counts, self.faults, self.catzd, self.relay = {}, [], None, None

    def go(self):
        self.peer.start()
        self.relay = alter.Relay(RELAY_PORT, PEER_PORT, [KEY], signs=not self.peer.signs_alone)
        self.catzd = Secondary(self.folder / "catzd", [table(CATALOG, RELAY_PORT, KEY)], [KEY])
        try:
            self.begin()
            self.differences()
            for one in alter.ALTERATIONS:
                if one[3] or not self.peer.signs_alone:
                    self.try_alteration(one)
            self.sum()
        except ask.TooLate as error:
            self.faults.append(f"nothing came of {error}")
        finally:
            if self.catzd.process is not None:
                self.faults += self.catzd.end()
            self.peer.stop()
            self.relay.close()
        return self.faults + self.relay.faults

    def say(self, text):
        print(f"{self.label}: {text}", flush=True)

    def expect(self, is_so, text):
        if not is_so:
            self.faults.append(text)

    def begin(self):
        """Nothing is held: a catalog and zones that come with wrong signatures aren't served."""
        self.relay.change(CATALOG, lambda a: a.bare())
        self.catzd.start()
        self.expect(self.catzd.wait("refused catalog.test. tsig 1"), "the catalog without a TSIG wasn't refused")
        self.expect(code_of(ONE) == wire.REFUSED, "a member of a refused catalog isn't REFUSED")
        self.relay.change(ONE, lambda a: alter.with_mac(a, 0, lambda mac: alter.flipped(mac, 3)))
        self.relay.change(MANY, lambda a: alter.without(a, -1))
        self.relay.change(CATALOG)
        notify(CATALOG)
        self.expect(self.catzd.wait("refused one.test. tsig 4"), "one.test with another MAC wasn't refused")
        self.expect(self.catzd.wait("refused many.test. tsig 1"), "many.test without its last TSIG wasn't refused")
        self.expect({code_of(ONE), code_of(MANY)} == {wire.SERVFAIL}, "a refused member isn't answered with SERVFAIL")
        self.say("with nothing held: refused catalog.test. tsig 1, one.test. tsig 4 and many.test. tsig 1; not served")
        for zone in (ONE, MANY):
            self.relay.change(zone)
            notify(zone)
            answered(zone, 1)
        for zone in (CATALOG, ONE, MANY):
            self.show(zone, wire.AXFR, "the whole zone")

    def show(self, zone, kind, form):
        """What the last such answer was."""
        seen = self.relay.of(zone, kind)[-1:]
        self.say(f"{zone} by {tap.KINDS[kind]}: {seen[0] if seen else 'nothing'}")
        self.expect(seen and getattr(seen[0], "form", "") == form, f"{zone} by {tap.KINDS[kind]} should be {form}")

    def differences(self):
        """A version of each zone by IXFR, and an IXFR to which nothing is new."""
        for zone in (ONE, MANY, CATALOG):
            self.next_version(zone)
            self.expect(self.catzd.wait(rf"published \d+ {zone}\. {self.versions[zone]}"), f"{zone} has no new version")
            if zone != CATALOG:
                answered(zone, self.versions[zone])
            self.show(zone, wire.IXFR, "differences" if self.peer.has_differences else "the whole zone")
        before = self.catzd.count(r"confirmed \d+ one\.test\. 2")
        notify(ONE)
        self.expect(self.catzd.wait(r"confirmed \d+ one\.test\. 2", before + 1), "an IXFR without news wasn't confirmed")
        self.show(ONE, wire.IXFR, "nothing new")

    def next_version(self, zone):
        self.versions[zone] += 1
        self.relay.version = self.versions[zone]
        self.peer.change(zone, self.versions[zone])

    def try_alteration(self, alteration):
        what, number, of, _, change = alteration
        for zone in of:
            self.relay.change(zone, change)
            line = f"refused {re.escape(zone)}\\. tsig {number}" if number else rf"refused {re.escape(zone)}\. .*"
            before, held = self.catzd.count(line), self.versions[zone]
            self.next_version(zone)
            if number:
                # The differences are refused, and a second later the whole zone.
                is_refused = self.catzd.wait(line, before + 2)
                is_held = has_version(held)(ask.Asker(CATZD_PORT).ask(f"www.{zone}.", limit=2))
                self.expect(is_held, f"{zone} isn't what it was: {what}")
            else:
                answered(zone, held + 1)
                is_refused = self.catzd.count(line) > before
            self.expect(is_refused == bool(number), f"{zone}, {what}: the log ends with {self.catzd.lines()[-4:]}")
            self.counts[number] = self.counts.get(number, 0) + 1
            if self.is_verbose:
                self.say(f"  {zone}, {what}: {f'tsig {number}' if number else 'taken'}")
            self.relay.change(zone)
            answered(zone, held + 1)

    def sum(self):
        taken = self.counts.pop(None, 0)
        numbers = ", ".join(f"tsig {number} of {count}" for number, count in sorted(self.counts.items()))
        self.say(f"changed answers: {sum(self.counts.values())} refused, by IXFR and again by AXFR: {numbers}; {taken} taken")


# -- Keys, clocks, NOTIFY ---------------------------------------------------------------------------------------------

def first_line(folder, key, wanted, faults, label, what, environment=None):
    """What catzd says of the catalog with a key of its own."""
    catzd = Secondary(folder, [table(CATALOG, PEER_PORT, key)], [key, KEY], environment)
    catzd.start()
    is_seen = catzd.wait(wanted)
    # the first job fails, since nothing is kept
    lines = [line for line in catzd.lines() if line.startswith(("refused", "published", "failed"))][1:]
    faults += [f"{label}: {fault}" for fault in catzd.end()]
    print(f"{label}: {what}: {lines[0] if lines else 'nothing'}", flush=True)
    if not is_seen:
        faults.append(f"{label}: {what}: {wanted!r} was expected, and {lines} came")


TAKEN, REFUSED = r"published 1 catalog\.test\. 1", r"refused catalog\.test\. rcode {}"


def small():
    return {CATALOG: text_of(CATALOG, 1, (ONE,)), ONE: text_of(ONE, 1)}


def with_peer(kind, folder, key, work, environment=None, secondary=CATZD_PORT, **how):
    peer = Real(kind, folder, PEER_PORT, secondary, key, small(), **how)
    peer.peer.environment = environment or {}
    try:
        peer.start()
        work(peer)
    finally:
        peer.stop()


def try_keys(kind, folder, faults):
    """Keys that aren't the peer's, or have another algorithm there."""
    def first(name, key, wanted, what):
        first_line(folder / name, key, wanted, faults, kind.label, what)

    def same(_):
        first("right", KEY, TAKEN, "the key of the peer")
        first("case", replace(KEY, name="Transfer.KEY."), TAKEN, "its name in other case")
        first("secret", replace(KEY, secret=bytes(range(32))), REFUSED.format(9), "another secret")
        first("name", replace(KEY, name="other.key."), REFUSED.format(9), "another name")
        first("none", None, REFUSED.format("[59]"), "no key")

    with_peer(kind, folder / "p", KEY, same)
    with_peer(kind, folder / "p512", replace(KEY, algorithm="hmac-sha512"),
              lambda _: first("sha512", KEY, REFUSED.format("[59]"), "the key with hmac-sha512 at the peer"))
    if kind is peers.Bind:  # BIND 9.18 answers with a MAC as long as the query's; to BIND 9.20 the query's is BADSIG
        with_peer(kind, folder / "p128", replace(KEY, algorithm="hmac-sha256-128"), lambda _: first(
            "half", KEY, f"{TAKEN}|{REFUSED.format(9)}", "the key with hmac-sha256-128 at the peer"))
    for size in (1, 64):
        key = replace(KEY, secret=bytes(range(0x80, 0x80 + size)))
        with_peer(kind, folder / f"p{size}", key,
                  lambda _, key=key, size=size: first(f"of{size}", key, TAKEN, f"a secret of {size} octet(s)"))


def clock_library():
    """The library that has a program see another time, where it is installed."""
    found = sorted(pathlib.Path("/usr/lib").glob("*/faketime/libfaketimeMT.so.1"))
    return str(found[0]) if found else None


def shifted(seconds):
    """The environment of a program whose clock is wrong by so many seconds."""
    return {"LD_PRELOAD": clock_library(), "FAKETIME": f"{seconds:+}s", "FAKETIME_DONT_FAKE_MONOTONIC": "1",
            "DONT_FAKE_MONOTONIC": "1"}


def try_clocks(kind, folder, faults):
    """The peer's clock is wrong, and then catzd's."""
    def first(seconds, whose, wanted, environment=None):
        first_line(folder / f"{whose}{seconds}", KEY, wanted, faults, kind.label,
                   f"{whose} clock is {abs(seconds)} s {'ahead' if seconds > 0 else 'behind'}", environment)

    for seconds, wanted in ((400, REFUSED.format(9)), (-400, REFUSED.format(9)), (200, TAKEN), (-200, TAKEN)):
        if kind is not peers.Bind:  # whose allocator doesn't work with libfaketime
            with_peer(kind, folder / f"p{seconds}", KEY, lambda _, seconds=seconds, wanted=wanted:
                      first(seconds, "its", wanted), shifted(seconds))
        with_peer(kind, folder / f"p{seconds}c", KEY, lambda _, seconds=seconds, wanted=wanted:
                  first(seconds, "catzd's", wanted, shifted(seconds)))


def try_notify(kind, folder, relay, faults):
    """How often a change is told, by NOTIFY that is signed, which catzd answers unsigned, and by NOTIFY that isn't."""
    for is_signed in ((True,) if kind.signs_always else (False, True)):
        def work(peer, is_signed=is_signed):
            catzd = Secondary(folder / f"c{is_signed}", [table(CATALOG, PEER_PORT, KEY)], [KEY])
            catzd.start()
            try:
                answered(ONE, 1)
                relay.of(ONE)
                peer.change(ONE, 2)
                answered(ONE, 2)
                time.sleep(NOTIFY_SECONDS)
                notes = relay.of(ONE)
                print(f"{kind.label}: a change, RETRY {TIMES[1]} s, {NOTIFY_SECONDS} s long: {tap.shown(notes)}", flush=True)
                if not notes or any(note.startswith("signed") != is_signed for note in notes):
                    faults.append(f"{kind.label}: {'signed' if is_signed else 'unsigned'} NOTIFY was expected, not {notes}")
            except ask.TooLate as error:
                faults.append(f"{kind.label}: nothing came of {error}")
            finally:
                faults.extend(f"{kind.label}: {fault}" for fault in catzd.end())

        with_peer(kind, folder / f"p{is_signed}", KEY, work, secondary=TAP_PORT, signs_notify=is_signed)


# -- A member that moves between catalogs -----------------------------------------------------------------------------

FIRST, SECOND, MOVED = "first.test", "second.test", "moved.test"


def catalog_of(apex, members):
    """A catalog with these (label, zone, coo or None)."""
    zone = zones.catalog(apex, ())
    zone.times = TIMES
    for label, one, coo in members:
        zone.put(f"{label}.zones", wire.PTR, wire.name(one))
        if coo:
            zone.put(f"coo.{label}.zones", wire.PTR, wire.name(coo))
    return zone


def try_move(folder, before, after, wanted, what, faults):
    """A member moves while the transfer of its new version runs, which was asked for with the key of the old catalog."""
    own = primary.Primary(PEER_PORT)
    zone = zones.Zone(MOVED, times=TIMES)
    zone.put("", wire.NS, wire.name(f"ns.{MOVED}"))
    zone.put("www", wire.A, address(1))
    second = catalog_of(SECOND, ())
    own.hold(zone, second, catalog_of(FIRST, [("m1", MOVED, SECOND)]))
    keys = [key for key in (before, after) if key]
    relay, free = alter.Relay(RELAY_PORT, PEER_PORT, keys, signs=True), threading.Event()
    catzd = Secondary(folder, [table(FIRST, RELAY_PORT, before), table(SECOND, RELAY_PORT, after)], keys)
    catzd.start()
    try:
        answered(MOVED, 1)
        is_seen = catzd.wait(r"published \d+ second\.test\. 1")
        with own.lock:
            zone.change([("www", wire.A, address(1))], [("www", wire.A, address(2))])
        relay.hold(MOVED, free)
        own.notify(MOVED, CATZD_PORT)
        is_seen &= catzd.wait(r"job \d+ moved\.test\. ixfr .*")
        time.sleep(0.3)
        with own.lock:
            second.change([], [("m1.zones", wire.PTR, wire.name(MOVED))])
        own.notify(SECOND, CATZD_PORT)
        is_seen &= catzd.wait(r"moved moved\.test\. first\.test\. second\.test\.")
        relay.holds.clear()
        free.set()
        is_seen &= catzd.wait(wanted)
        answered(MOVED, 2)
        lines = [line for line in catzd.lines() if MOVED in line and not line.startswith("added")]
        print(f"moved: {what}: {'; '.join(lines)}", flush=True)
        if not is_seen:
            faults.append(f"moved: {what}: the log is {catzd.lines()}")
    except ask.TooLate as error:
        faults.append(f"moved: {what}: nothing came of {error}, the log is {catzd.lines()}")
    finally:
        free.set()
        faults += catzd.end() + relay.faults
        relay.close()
        own.close()


def try_moves(folder, faults):
    """A move between catalogs of two keys, and of a key and none, both ways."""
    other = tsig.Key("other.key.", bytes(range(0xC1, 0xE1)))
    anew = r"refused moved\.test\. tsig {}"
    try_move(folder / "keys", KEY, other, anew.format(3), "to a catalog with another key", faults)
    same = replace(other, name=KEY.name)
    try_move(folder / "name", KEY, same, anew.format(4), "to one with another key of the same name", faults)
    try_move(folder / "none", None, KEY, anew.format(1), "from a catalog without a key to one with a key", faults)
    try_move(folder / "open", KEY, None, r"published \d+ moved\.test\. 2", "from one with a key to one without", faults)


# -- The configuration ------------------------------------------------------------------------------------------------

HEX, BASE64 = KEY.hex, KEY.base64
# What stands in the table of a catalog, and the fault that it is.
CONFIGURATIONS = (
    ("a key without a secret", f'key = "{KEY.name}"\n', 3),
    ("a secret without a key", f'secret = "{HEX}"\n', 3),
    ("a secret in base64", f'key = "{KEY.name}"\nsecret = "{BASE64}"\n', 9),
    ("an odd number of digits", f'key = "{KEY.name}"\nsecret = "{HEX[1:]}"\n', 9),
    ("a letter that is no digit", f'key = "{KEY.name}"\nsecret = "{HEX[:-1]}g"\n', 9),
    ("an empty secret", f'key = "{KEY.name}"\nsecret = ""\n', 9),
    ("a secret of 65 octets", f'key = "{KEY.name}"\nsecret = "{"41" * 33}{HEX}"\n', 9),
    ("a secret that is no text", f'key = "{KEY.name}"\nsecret = 0x{HEX[:14]}\n', 3),
    ("secrets in a list", f'key = "{KEY.name}"\nsecret = ["{HEX}"]\n', 3),
    ("a key that is no name", f'key = "a..b"\nsecret = "{HEX}"\n', 4),
    ("the secret as the key", f'key = "{HEX}{HEX}"\nsecret = "{HEX}"\n', 4),
    ("another word for the secret", f'key = "{KEY.name}"\nsecrets = "{HEX}"\n', 2),
    ("a quote that isn't closed", f'key = "{KEY.name}"\nsecret = "{HEX}\n', 1),
    ("a secret without quotes", f'key = "{KEY.name}"\nsecret = {HEX}\n', 1),
    ("a secret behind a quote", f'key = "{KEY.name}"\nsecret = "" {HEX}\n', 1),
    ("a secret twice", f'key = "{KEY.name}"\nsecret = "{HEX}"\nsecret = "{HEX}"\n', 1),
    ("a key of a group", f'[[catalog.group]]\nword = "w"\npolicy = "off"\nprimaries = ["127.0.0.1"]\nkey = "{KEY.name}"\n'
                         f'secret = "{HEX}"\n', 2),
    ("an unknown policy behind the secret", f'key = "{KEY.name}"\nsecret = "{HEX}"\n[[catalog]]\nname = "b.test"\n'
                                            'policy = "none"\nprimaries = ["127.0.0.1"]\n', 5),
)


def try_configurations(folder, faults):
    """What is said of a configuration with a fault, and that it has no secret."""
    folder.mkdir()
    for what, text, number in CONFIGURATIONS:
        whole = f'listen = "127.0.0.1:{CATZD_PORT}"\n' + table(CATALOG, PEER_PORT, None, text)
        try:
            done = subprocess.run([servers.Catzd.program, "serve"], input=whole, capture_output=True, text=True, timeout=5,
                                  check=False, cwd=folder)
        except subprocess.TimeoutExpired:
            faults.append(f"configuration: {what} was taken")
            continue
        said = (done.stdout.strip(), done.returncode)
        print(f"configuration: {what}: {said[0]}, status {said[1]}: {done.stderr.strip()}", flush=True)
        if said != (f"bad config {number}", 3):
            faults.append(f"configuration: {what} should be bad config {number}")
        faults += [f"configuration: {what}: {fault}"
                   for fault in shown_secrets((done.stdout + done.stderr).encode(), [KEY])]


# -- CPU --------------------------------------------------------------------------------------------------------------

def large_text(count):
    return HEAD.format(zone=LARGE, version=1) + "".join(
        f"h{n:06} A 10.{n >> 16}.{n >> 8 & 255}.{n & 255}\n" for n in range(count))


def spent(folder, key):
    """Seconds of CPU of catzd from its start to the answer of the large zone."""
    catzd = Secondary(folder, [table(CATALOG, PEER_PORT, key)], [key])
    catzd.start()
    answered(LARGE, 1, limit=60)
    time.sleep(0.2)
    seconds = catzd.cpu_of_threads()
    return seconds, catzd.end()


def measure(kind, folder, count, rounds, faults):
    """The same zone without a key, and then with one."""
    texts, times = {CATALOG: text_of(CATALOG, 1, (LARGE,)), LARGE: large_text(count)}, []
    for key, what in ((None, "without a key"), (KEY, "with a key")):
        peer, seconds = Real(kind, folder / f"p{bool(key)}", PEER_PORT, CATZD_PORT, key, texts), []
        try:
            peer.start()
            for number in range(rounds):
                one, found = spent(folder / f"c{bool(key)}{number}", key)
                seconds.append(one)
                faults += found
        finally:
            peer.stop()
        times.append((min(seconds), statistics.median(seconds)))
        print(f"CPU: {kind.label}, {count} records, {what}: least {times[-1][0]:.3f} s, median {times[-1][1]:.3f} s of "
              f"{rounds}", flush=True)
    least, median = (signed / plain for plain, signed in zip(*times))
    print(f"CPU: {kind.label}: {least:.2f} times by the least, {median:.2f} by the median; load {os.getloadavg()[0]:.1f}",
          flush=True)


def makers(labels):
    """How each chosen peer is made; one that isn't installed is named."""
    found = []
    for label in labels:
        kind = peers.PEERS.get(label)
        if kind is None:
            found.append((None, Own))
        elif not kind.is_installed() or kind is peers.PowerDns and not shutil.which("pdnsutil"):
            print(f"{kind.label} isn't installed, and is left out.")
        else:
            found.append((kind, lambda *words, kind=kind: Real(kind, *words)))
    return found


def tried(faults, what, work):
    """Does a piece of work; that a server doesn't answer in time is a fault of it."""
    try:
        work()
    except (ask.TooLate, OSError) as error:
        faults.append(f"{what}: nothing came of {error!r}")


def go(parts, chosen, given):
    """All that was chosen; what was wrong with it."""
    faults, others = [], [kind for kind, _ in chosen if kind is not None]
    with tempfile.TemporaryDirectory(prefix="catzd-signed-") as name:
        folder = pathlib.Path(name)
        for kind, make in chosen:
            label = kind.label if kind else Own.label
            if "servers" in parts:
                tried(faults, label, lambda: faults.extend(
                    f"{label}: {fault}" for fault in Run(make, folder / f"servers-{label}", given.verbose).go()))
            for part, work in (("keys", try_keys), ("clocks", try_clocks)):
                if kind is not None and part in parts:
                    tried(faults, label, lambda: work(kind, folder / f"{part}-{label}", faults))
        if "notify" in parts:
            relay = tap.Tap(TAP_PORT, CATZD_PORT)
            for kind in others:
                tried(faults, kind.label, lambda: try_notify(kind, folder / f"notify-{kind.label}", relay, faults))
            relay.close()
        if "moved" in parts:
            tried(faults, "moved", lambda: try_moves(folder / "moved", faults))
        if "config" in parts:
            try_configurations(folder / "configurations", faults)
        if "cpu" in parts and others:
            tried(faults, "CPU", lambda: measure(others[0], folder / "cpu", given.records, given.rounds, faults))
    return faults


def main():
    words = argparse.ArgumentParser(description=__doc__, formatter_class=argparse.RawDescriptionHelpFormatter)
    words.add_argument("--catzd", default=servers.Catzd.program)
    words.add_argument("--peers", default=",".join(("own", *peers.PEERS)))
    words.add_argument("--parts", default=",".join(PARTS))
    words.add_argument("--records", type=int, default=200_000, help="how many the large zone has (default: %(default)s)")
    words.add_argument("--rounds", type=int, default=9, help="how often CPU is measured (default: %(default)s)")
    words.add_argument("--verbose", action="store_true", help="names each changed answer")
    given = words.parse_args()
    servers.Catzd.choose(given.catzd)
    parts, chosen = given.parts.split(","), makers(given.peers.split(","))
    if "clocks" in parts and clock_library() is None:
        parts.remove("clocks")
        print("libfaketime isn't installed, and no clock is wrong.")
    faults = go(parts, chosen, given)
    for fault in faults:
        print(f"FAULT: {fault}")
    print(f"{len(faults)} faults")
    sys.exit(1 if faults else 0)


if __name__ == "__main__":
    main()
