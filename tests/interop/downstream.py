#!/usr/bin/env python3
"""Has Knot, NSD, BIND and PowerDNS take zones from catzd, and compares what they have with the primary's, record by record.

    downstream.py [--catzd PROGRAM] [--peers knot,nsd,bind,powerdns] [--records 200000]

Knot is the primary of a catalog with three members: one of 1,000 records, one that ldns-signzone signed, and a large one.
catzd is its secondary, with 127.0.0.1 in `downstream`, and the peers, one after the other, are secondaries of catzd, on
ports above 5300 of 127.0.0.1. A relay between catzd and the peer notes what is asked. A zone that isn't the primary's,
another order of queries than the known one, or another code than the defined one fails the run. A peer that isn't
installed is left out, and that is said.
"""
import argparse
import collections
import pathlib
import shutil
import socket
import sys
import tempfile
import time

sys.path.insert(0, str(pathlib.Path(__file__).resolve().parents[2] / "bench"))
import ask
import peers
import secondaries
import servers
import signed
import tap
import wire

PRIMARY_PORT, CATZD_PORT, TAP_PORT, PEER_PORT = 5370, 5371, 5372, 5380
PLAIN, SIGNED, LARGE = "a.test", "s.test", "large.test"
ZONES = (PLAIN, SIGNED, LARGE)
PIECE, EXPIRE = 16_384, 15  # octets of a message with several records; seconds for which a.test is good
UNLISTED = "127.0.0.2"

# REFRESH of a.test is two seconds, so that a change comes by itself; of the others it is an hour.
HEAD = """$ORIGIN {zone}.
$TTL 3600
@ SOA ns hostmaster {serial} {times}
@ NS ns
ns A 192.0.2.53
www A 192.0.2.{version}
"""
TIMES = {PLAIN: f"2 1 {EXPIRE} 300", SIGNED: "3600 600 604800 300", LARGE: "3600 600 604800 300"}

# What the members of a.test are, in turn.
KINDS = ("h{n} A 10.0.{high}.{low}", "h{n} AAAA 2001:db8::{n:x}", "h{n} MX 10 h{n}", 'h{n} TXT "text {n}" "{long}"',
         "_s._tcp.h{n} SRV 1 2 {n} h{n}", "alias{n} CNAME h{n}", "*.w{n} A 192.0.2.9", "cut{n} NS ns.cut{n}",
         "ns.cut{n} A 192.0.2.61", "h{n} CAA 0 issue \"ca.test\"", "h{n} TYPE65280 \\# 4 01020304")


def plain_records(count):
    return [KINDS[n % len(KINDS)].format(n=n // len(KINDS), high=n // 256, low=n % 256, long="x" * (n % 200))
            for n in range(count)]


class Texts:
    """The versions of each zone, as texts. A version has its number as `www`, and as ten of its serial, since Knot raises
    the serial where it makes a ZONEMD record."""

    def __init__(self, folder, large, versions):
        self.folder, self.large = folder, large
        self.signed = {version: self.sign(version) for version in range(1, versions + 1)}

    def sign(self, version):
        folder = self.folder / f"sign{version}"
        folder.mkdir()
        return signed.sign(folder, SIGNED, self.head(SIGNED, version) + signed.PARENT_TEXT, False)[0]

    @staticmethod
    def head(zone, version):
        return HEAD.format(zone=zone, serial=10 * version, times=TIMES[zone], version=version)

    def of(self, zone, version):
        if zone == SIGNED:
            return self.signed[version]
        if zone == PLAIN:
            return self.head(zone, version) + "\n".join(plain_records(995)) + "\n"
        return self.head(zone, version) + "".join(
            f"h{n:06} A 10.{n >> 16}.{n >> 8 & 255}.{n & 255}\n" for n in range(self.large - 4))

    def all_of(self, version):
        return {zone: self.of(zone, version) for zone in ZONES}


def catalog():
    return peers.CATALOG_TEXT.format(serial=1, members="\n".join(
        f"m{number}.zones PTR {zone}." for number, zone in enumerate(ZONES)))


def records_of(messages):
    """The records of a transfer, sorted; a record twice stands there twice."""
    return sorted((record.owner.lower(), record.kind, record.of_class, record.ttl, record.rdata)
                  for message in messages for record in message.answer)


def has_version(version):
    rdata = bytes([192, 0, 2, version])
    return lambda message: ask.is_address(message, rdata)


def wait(port, zone, version, limit=90):
    """The moment at which this version is answered."""
    return ask.Asker(port).wait(f"www.{zone}.", has_version(version), limit=limit, pause=0.01)


class Run:
    """The primary, catzd, and the peers after it."""

    def __init__(self, folder, large, versions):
        self.folder, self.faults, self.version = folder, [], 1
        self.texts = Texts(folder, large, versions)
        held = {peers.CATALOG: catalog(), **self.texts.all_of(1)}
        self.primary = peers.Knot(folder / "primary", PRIMARY_PORT, CATZD_PORT, held)
        plan = servers.Plan(peers.CATALOG + ".", PRIMARY_PORT, downstream=["127.0.0.1"])
        self.catzd = servers.Catzd(plan, folder / "catzd", CATZD_PORT)
        self.tap, self.wanted = tap.Tap(TAP_PORT, CATZD_PORT), {}

    def go(self, chosen):
        try:
            self.primary.start()
            for zone in ZONES:
                wait(PRIMARY_PORT, zone, 1)
            self.catzd.start()
            for zone in ZONES:
                wait(CATZD_PORT, zone, 1)
            self.read_primary()
            self.show_catzd()
            self.judge_codes()
            for number, peer in enumerate(chosen):
                self.serve(peer, PEER_PORT + number)
            self.expire()
        except (ask.TooLate, OSError, wire.Malformed) as error:
            self.fault("catzd", f"nothing came of {error!r}")
        finally:
            self.stop()
        return self.faults

    @staticmethod
    def say(label, text):
        print(f"{label}: {text}", flush=True)

    def fault(self, label, text):
        self.faults.append(f"{label}: {text}")

    def read_primary(self):
        self.wanted = {zone: records_of(ask.transfer(PRIMARY_PORT, zone)[0]) for zone in ZONES}

    def differs(self, label, zone, port):
        """Says whether a server has the zone as the primary has it, and gives the messages."""
        messages, octets = ask.transfer(port, zone)
        found, wanted = records_of(messages), self.wanted[zone]
        if found != wanted:
            extra = collections.Counter(found) - collections.Counter(wanted)
            less = collections.Counter(wanted) - collections.Counter(found)
            self.fault(label, f"{zone} has {sum(less.values())} records too few and {sum(extra.values())} too many, as "
                              f"{list(less)[:2]} and {list(extra)[:2]}")
        return messages, octets, "equal to the primary's" if found == wanted else "NOT the primary's"

    def show_catzd(self):
        """What catzd sends, and the form of its messages (RFC 5936 section 2.2)."""
        for zone in ZONES:
            begun = time.monotonic()
            messages, octets, equal = self.differs("catzd", zone, CATZD_PORT)
            seconds = time.monotonic() - begun
            self.say("catzd", f"{zone}: {len(self.wanted[zone]) - 1} records in {len(messages)} messages and {octets} octets, "
                              f"{equal}, read and compared in {seconds:.2f} s")
            first, later = messages[0], messages[1:]
            if first.question != (wire.name(zone), wire.AXFR, 1) or any(one.question for one in later):
                self.fault("catzd", f"the question of {zone} isn't in the first message alone")
            if any((one.identity, one.flags) != (4711, wire.RESPONSE | wire.AUTHORITATIVE) for one in messages):
                self.fault("catzd", f"a message of {zone} has another ID or other flags")
            if first.answer[0].kind != wire.SOA or messages[-1].answer[-1] != first.answer[0]:
                self.fault("catzd", f"{zone} doesn't begin and end with its SOA record")
            if any(one.authority or one.additional for one in messages):
                self.fault("catzd", f"a message of {zone} has records in another section")

    def judge_codes(self):
        """What isn't a transfer, and its code."""
        rows = (
            ("AXFR from an address that isn't listed", PLAIN, wire.AXFR, UNLISTED, wire.NOTIMP),
            ("IXFR from one that is", PLAIN, wire.IXFR, "127.0.0.1", wire.NOTIMP),
            ("AXFR of a name that is no member", "other.test", wire.AXFR, "127.0.0.1", wire.NOTAUTH),
            ("AXFR of a name below a member", f"www.{PLAIN}", wire.AXFR, "127.0.0.1", wire.NOTAUTH),
            ("AXFR of the catalog", peers.CATALOG, wire.AXFR, "127.0.0.1", wire.NOTAUTH),
        )
        for what, zone, kind, source, code in rows:
            self.judge_code(what, ask.transfer(CATZD_PORT, zone, kind, source)[0][0], code)
        self.judge_code("AXFR over UDP", ask.Asker(CATZD_PORT).ask(PLAIN, wire.AXFR, limit=2), wire.NOTIMP)

    def judge_code(self, what, message, code):
        seen = message.code if message is not None else None
        self.say("catzd", f"{what}: {tap.CODES.get(seen, seen)}")
        if seen != code or message.answer:
            self.fault("catzd", f"{what} should be {tap.CODES[code]}")

    def serve(self, kind, port):
        """One peer: it takes each zone, and a change of each."""
        peer = kind(self.folder / kind.label, port, TAP_PORT, ZONES)
        for zone in ZONES:
            self.tap.of(zone)
        begun = time.monotonic()
        peer.start()
        try:
            moments = {zone: wait(port, zone, self.version) for zone in ZONES}
            for zone, moment in moments.items():
                _, _, equal = self.differs(kind.label, zone, port)
                self.say(kind.label, f"{zone}: had it {moment - begun:.2f} s after its start, {equal}; "
                                     f"asked: {tap.shown(self.tap.of(zone))}")
            self.change(peer, port)
        except ask.TooLate as error:
            self.fault(kind.label, f"nothing came of {error}")
        finally:
            peer.stop()

    def change(self, peer, port):
        """The next version: it reaches catzd by NOTIFY, and the peer by its REFRESH or by a NOTIFY from here."""
        self.version += 1
        for zone in ZONES:
            self.primary.change(zone, self.texts.of(zone, self.version))
            moment = wait(CATZD_PORT, zone, self.version)
            if zone != PLAIN:
                self.tap.of(zone)
                with socket.socket(socket.AF_INET, socket.SOCK_DGRAM) as sender:
                    sender.sendto(wire.query(1, zone, wire.SOA, wire.NOTIFY_FLAGS), ("127.0.0.1", port))
            if zone == peer.special and peer.needs_unset:
                self.see_refused(peer, zone)
                moment = time.monotonic()
            arrived = wait(port, zone, self.version)
            time.sleep(0.1)
            notes = self.tap.of(zone)
            self.wanted[zone] = records_of(ask.transfer(PRIMARY_PORT, zone)[0])
            _, _, equal = self.differs(peer.label, zone, port)
            way = "its REFRESH" if zone == PLAIN else "NOTIFY"
            is_set = zone == peer.special and peer.setting is not None
            has = f" with{'out' if peer.needs_unset else ''} `{peer.setting}`" if is_set else ""
            since = "that" if is_set and peer.needs_unset else "catzd"
            self.say(peer.label, f"{zone}{has}: had a change by {way} {arrived - moment:.2f} s after {since}, {equal}; "
                                 f"asked: {tap.shown(notes)}")
            self.judge_queries(peer, zone, notes)

    def see_refused(self, peer, zone):
        """A peer that asks by IXFR alone gets no zone: three refreshes are looked at, and the setting is taken back."""
        notes, end = [], time.monotonic() + 30
        while notes.count("IXFR over TCP NOTIMP") < 3 and time.monotonic() < end:
            time.sleep(0.1)
            notes += self.tap.of(zone)
        self.say(peer.label, f"{zone} with `{peer.setting}`: stays at the version before; asked: {tap.shown(sorted(notes))}")
        if notes.count("IXFR over TCP NOTIMP") < 3 or any(note.startswith("AXFR") for note in notes):
            self.fault(peer.label, f"{zone} was expected to be asked for by IXFR alone")
        peer.unset()

    def judge_queries(self, peer, zone, notes):
        """Asks by IXFR come where they are expected, get NOTIMP, and are followed by AXFR."""
        ixfr = [place for place, note in enumerate(notes) if note.startswith("IXFR")]
        axfr = [place for place, note in enumerate(notes) if note == "AXFR over TCP NOERROR"]
        is_set = zone == peer.special and peer.setting is not None
        if not (is_set and peer.needs_unset) and bool(ixfr) != (peer.asks_ixfr != is_set):
            self.fault(peer.label, f"{zone} was {'' if ixfr else 'not '}asked for by IXFR")
        if any(not notes[place].endswith("NOTIMP") for place in ixfr) or not axfr or ixfr and ixfr[-1] > axfr[-1]:
            self.fault(peer.label, f"IXFR and then AXFR were expected of {zone}")

    def expire(self):
        """Without a primary a.test expires."""
        self.primary.stop()
        ask.Asker(CATZD_PORT).wait(f"www.{PLAIN}.", lambda message: message.code == wire.SERVFAIL,
                                   limit=EXPIRE + 10, pause=0.1)
        self.judge_code("AXFR of a member that has expired", ask.transfer(CATZD_PORT, PLAIN)[0][0], wire.SERVFAIL)

    def stop(self):
        if self.primary.is_running():
            self.primary.stop()
        if self.catzd.process is not None and self.catzd.is_running():
            most, _ = self.catzd.memory()
            seconds, status = self.catzd.stop()
            self.say("catzd", f"had {most:.0f} MB at the most, and ended {seconds:.1f} s after SIGTERM with status {status}")
            if status != 0:
                self.fault("catzd", f"ended with status {status}")
        elif self.catzd.process is not None:
            self.fault("catzd", f"had ended with status {self.catzd.process.returncode}")
        self.tap.close()


def main():
    words = argparse.ArgumentParser(description=__doc__, formatter_class=argparse.RawDescriptionHelpFormatter)
    words.add_argument("--catzd", default=servers.Catzd.program)
    words.add_argument("--peers", default=",".join(secondaries.SECONDARIES))
    words.add_argument("--records", type=int, default=200_000, help="how many the large zone has (default: %(default)s)")
    given = words.parse_args()
    servers.Catzd.choose(given.catzd)
    for program in (*peers.Knot.programs, "ldns-keygen", "ldns-signzone"):
        if not shutil.which(program):
            print(f"{program} isn't installed, and without it nothing is tried.")
            return
    chosen = []
    for label in given.peers.split(","):
        peer = secondaries.SECONDARIES[label]
        if peer.is_installed():
            chosen.append(peer)
        else:
            print(f"{peer.label} isn't installed, and is left out.")
    with tempfile.TemporaryDirectory(prefix="catzd-downstream-") as folder:
        faults = Run(pathlib.Path(folder), given.records, len(chosen) + 1).go(chosen)
    for fault in faults:
        print(f"FAULT: {fault}")
    print(f"{len(faults)} faults")
    sys.exit(1 if faults else 0)


if __name__ == "__main__":
    main()
