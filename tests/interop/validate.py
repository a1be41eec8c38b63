#!/usr/bin/env python3
"""Has unbound and delv validate what catzd answers for signed zones, and compares with what they say of its primary.

    validate.py [--catzd PROGRAM] [--peers knot,bind] [--forms nsec,nsec3] [--verbose]

It runs in a network of its own (`unshare --net`), so that port 53 of its loopback addresses is free. The zones of
signed.py are signed by ldns-signzone and served by the peer at port 53, and all questions are asked of unbound, which
has the key of the zone at the top, and of delv; then catzd is at port 53, as the peer's secondary, and they are asked
again. An answer that is secure from the peer and not from catzd is a fault, but for denials of a zone with NSEC3. Each
question is a line.
"""
import argparse
import fcntl
import os
import pathlib
import re
import shutil
import socket
import struct
import subprocess
import sys
import tempfile
import time

sys.path.insert(0, str(pathlib.Path(__file__).resolve().parents[2] / "bench"))
import ask
import peers
import questions
import servers
import signed
import wire

SERVED_PORT, PEER_PORT, RESOLVER_PORT = 53, 5300, 5301
LIMIT, PATIENCE = 1232, 5  # octets of a reply over UDP; seconds for an answer
WORDS = {"SERVFAIL": "refused", "none": "silent"}  # what unbound says by a code, where it isn't `insecure`
PROGRAMS = ("unshare", "unbound", "unbound-control", "dig", "ldns-keygen", "ldns-signzone")

# (peers, questions): why validators say something else of catzd.
JUDGED = {
    (("Knot",), ("ANY", "wildcard, ANY", "RRSIG")): "it answers ANY and RRSIG with one RRset",
    (("Knot",), ("below a DNAME, ANY",)): "it follows a DNAME for ANY",
    (("Knot",), ("DNAME to a name too long",)): "it answers NXDOMAIN in place of YXDOMAIN",
}

# (peers, questions, parts): why a reply with DO differs, record by record.
DIFFERENCES = {
    ("*", ("apex NS", "signed child here, apex NS"), ("additional",)): "catzd adds addresses to a referral alone",
    (("Knot",), ("ANY", "wildcard, ANY", "RRSIG"), ("answer",)): "it answers ANY and RRSIG with one RRset",
    (("Knot",), ("below a DNAME, ANY",), ("answer",)): "it follows a DNAME for ANY",
    (("Knot",), ("DNAME to a name too long",), ("status", "authority")): "it answers NXDOMAIN in place of YXDOMAIN",
}

RESOLVER = """server:
    interface: 127.0.0.1
    port: {port}
    username: ""
    chroot: ""
    directory: "{folder}"
    pidfile: "{folder}/unbound.pid"
    use-syslog: no
    do-ip6: no
    do-not-query-localhost: no
    trust-anchor-file: "{folder}/anchor"
    local-zone: "test." nodefault
    module-config: "validator iterator"
    aggressive-nsec: yes
    qname-minimisation: yes
    ede: yes
    val-log-level: 2
remote-control:
    control-enable: yes
    control-interface: "{folder}/control"
    control-use-cert: no
stub-zone:
    name: "{apex}."
    stub-addr: 127.0.0.1@{served}
"""


class Resolver:
    """Unbound with the key of the zone at the top, whose servers are at port 53."""

    def __init__(self, folder, key):
        self.folder = folder
        folder.mkdir()
        (folder / "anchor").write_text(key)
        (folder / "unbound.conf").write_text(RESOLVER.format(
            port=RESOLVER_PORT, folder=folder, apex=signed.APEX, served=SERVED_PORT))
        digits = re.search(r"DNSKEY\s+(\d+ \d+ \d+) (\S+)", key)
        (folder / "anchor.delv").write_text(
            f'trust-anchors {{ "{signed.APEX}." static-key {digits.group(1)} "{digits.group(2)}"; }};\n')
        self.log = open(folder / "log", "wb")
        self.process = subprocess.Popen(["unbound", "-d", "-c", folder / "unbound.conf"], stdin=subprocess.DEVNULL,
                                        stdout=self.log, stderr=self.log)
        self.wait()

    def wait(self):
        ask.Asker(RESOLVER_PORT).wait("localhost.", lambda message: message.code == wire.NOERROR, limit=20, pause=0.02)

    def forget(self):
        """Empties the cache."""
        subprocess.run(["unbound-control", "-c", self.folder / "unbound.conf", "reload"], capture_output=True,
                       check=True)
        self.wait()

    def judge(self, name, kind):
        """What it says of an answer, and the answer."""
        done = subprocess.run(["dig", "@127.0.0.1", "-p", str(RESOLVER_PORT), "+dnssec", "+tries=1",
                               f"+time={PATIENCE}", name, kind], capture_output=True, text=True, check=False)
        reply = questions.read_reply(done.stdout)
        is_secure = re.search(r"^;; flags:[a-z ]* ad[ ;]", done.stdout, re.M) is not None
        word = "secure" if is_secure else WORDS.get(reply.status, "insecure")
        error = re.search(r"EDE: ([^\n]*)", done.stdout)
        return word, (reply.status, without_times(reply.answer)), error.group(1) if error else ""

    def stop(self):
        self.process.terminate()
        self.process.wait(10)
        self.log.close()


def with_one_time(records):
    """Records, without the TTL of those that sign an SOA record."""
    return tuple(sorted(one.replace(f" {one.split()[1]} ", " ", 1) if " RRSIG SOA " in one else one for one in records))


def without_times(records):
    """Records without their TTLs."""
    return tuple(sorted(" ".join(field for at, field in enumerate(one.split()) if at != 1) for one in records))


def delv(folder, name, kind):
    """What delv says of the answer of the server at port 53; some answers keep it from ending."""
    try:
        done = subprocess.run(["delv", "@127.0.0.1", "-p", str(SERVED_PORT), "-a", folder / "anchor.delv",
                               f"+root={signed.APEX}", name, kind], capture_output=True, text=True, timeout=PATIENCE,
                              check=False)
    except subprocess.TimeoutExpired:
        return "without end"
    if "fully validated" in done.stdout:
        return "secure"
    return "insecure" if "unsigned answer" in done.stdout else "refused"


def is_elsewhere(name):
    """Whether another server has the zone of a name, so that delv can't ask this one."""
    return any(name.endswith(f"{zone}.") for zone in signed.ELSEWHERE)


class Judged:
    """What the validators say of each question, asked of the server that is at port 53."""

    def __init__(self, resolver):
        self.fresh, self.kept, self.stub = {}, {}, {}
        for what, name, kind, _ in signed.QUESTIONS:
            resolver.forget()
            self.fresh[what] = resolver.judge(name, kind)
            if shutil.which("delv") and not is_elsewhere(name):
                self.stub[what] = delv(resolver.folder, name, kind)
        resolver.forget()
        for what, name, kind, _ in signed.QUESTIONS:
            self.kept[what] = resolver.judge(name, kind)


class Run:
    """One peer and one form of zones."""

    def __init__(self, kind, form, folder, verbose):
        self.kind, self.form, self.folder, self.verbose = kind, form, folder, verbose
        self.faults, self.started = [], []
        keys = folder / "keys"
        keys.mkdir()
        zones, self.key = signed.zones(keys, form == "nsec3")
        self.served = {signed.CATALOG: signed.catalog_text(), **{one: zones[one] for one in signed.SERVED}}
        self.elsewhere = {one: zones[one] for one in signed.ELSEWHERE}

    def say(self, text):
        print(f"{self.kind.label}, {self.form.upper()}: {text}", flush=True)

    def start(self, server):
        self.started.append(server)
        return server.start()

    def go(self):
        try:
            self.start(self.kind(self.folder / "elsewhere", SERVED_PORT, PEER_PORT + 9, self.elsewhere,
                                 signed.ADDRESS_ELSEWHERE))
            ask.Asker(SERVED_PORT, signed.ADDRESS_ELSEWHERE).wait_all(
                [f"www.{one}." for one in signed.ELSEWHERE], limit=20)
            first = self.start(self.kind(self.folder / "first", SERVED_PORT, PEER_PORT + 9, self.served))
            self.settle(SERVED_PORT)
            theirs = self.judged()
            first.stop()
            self.started.remove(first)
            self.start(self.kind(self.folder / "peer", PEER_PORT, SERVED_PORT, self.served))
            self.settle(PEER_PORT)
            plan = servers.Plan(signed.CATALOG + ".", PEER_PORT)
            self.start(servers.Catzd(plan, self.folder / "catzd", SERVED_PORT))
            self.settle(SERVED_PORT)
            ours = self.judged()
            self.compare(ours, theirs)
            self.compare_records()
            self.measure()
        except ask.TooLate as error:
            self.faults.append(f"nothing came of {error}")
        finally:
            for server in reversed(self.started):
                server.stop()
        return self.faults

    def settle(self, port):
        ask.Asker(port).wait_all([f"www.{one}." for one in signed.SERVED], limit=20)

    def judged(self):
        resolver = Resolver(self.folder / f"resolver{len(self.started)}", self.key)
        try:
            return Judged(resolver)
        finally:
            resolver.stop()

    def compare(self, ours, theirs):
        """A line for each question, and a sum."""
        counts = {}
        for what, name, kind, needs_proof in signed.QUESTIONS:
            word, answer, error = ours.fresh[what]
            wanted, wanted_answer, _ = theirs.fresh[what]
            stub, wanted_stub = ours.stub.get(what, "-"), theirs.stub.get(what, "-")
            is_same = (word, answer, stub) == (wanted, wanted_answer, wanted_stub)
            reason = "" if is_same else self.judged_reason(what, word, needs_proof)
            text = f"{what}: {name} {kind}: unbound {word}, delv {stub}"
            text += "" if is_same else f"; of {self.kind.label} {wanted}, {wanted_stub}: {reason}"
            self.say(text + (f" [{error}]" if error and self.verbose else ""))
            if not is_same and not reason:
                self.faults.append(f"{what}: {answer}, {word}, {stub}; {wanted_answer}, {wanted}, {wanted_stub}")
            if ours.kept[what][:2] != theirs.kept[what][:2] and not reason:
                self.faults.append(f"{what} with a full cache: {ours.kept[what]}; {theirs.kept[what]}")
            key = f"as of {self.kind.label}" if is_same else reason or "without a reason"
            counts.setdefault(key, []).append(word)
        for key, found in counts.items():
            words = ", ".join(f"{found.count(word)} {word}" for word in sorted(set(found)))
            self.say(f"sum: {key}: {len(found)} questions, {words}")

    def judged_reason(self, what, word, needs_proof):
        """Why validators say something else of catzd, or nothing where that isn't known."""
        if self.form == "nsec3" and needs_proof and word == "refused":
            return "for want of NSEC3 records"
        found = [reason for (whose, which), reason in JUDGED.items()
                 if (whose == "*" or self.kind.label in whose) and what in which]
        return found[0] if found else ""

    def compare_records(self):
        """The replies of catzd and of the peer with DO, record by record with their TTLs."""
        same, explained, ways = 0, {}, questions.ways(has_do=True)
        for what, name, kind, needs_proof in signed.QUESTIONS + signed.DIRECT:
            faults = {}
            for way in ways:
                theirs, ours = questions.ask(way, PEER_PORT, name, kind), questions.ask(way, SERVED_PORT, name, kind)
                parts = theirs.differs_from(ours)
                same += not parts
                for part in parts:
                    reason = self.reason_of(what, part, getattr(ours, part), getattr(theirs, part), needs_proof)
                    if reason:
                        explained.setdefault(reason, {})[what] = True
                    else:
                        faults.setdefault(f"{part} is {getattr(ours, part)}, and {getattr(theirs, part)} of "
                                          f"{self.kind.label}", []).append(str(way))
            self.faults += [f"{what} by {'; '.join(way)}: {fault}" for fault, way in faults.items()]
        self.say(f"{same} of {len(ways) * len(signed.QUESTIONS + signed.DIRECT)} replies with DO are the same record "
                 "by record")
        for reason, found in explained.items():
            self.say(f"  since {reason}: {'; '.join(found)}")

    def reason_of(self, what, part, ours, theirs, needs_proof):
        """Why a part of a reply with DO differs, or None where that isn't known."""
        if part == "authority" and with_one_time(ours) == with_one_time(theirs):
            return "the RRSIG record of a negative answer's SOA keeps its own TTL in catzd"
        if self.form == "nsec3" and needs_proof and part == "authority":
            return "catzd puts no NSEC3 records beside answers"
        for (whose, which, parts), reason in DIFFERENCES.items():
            if part in parts and (whose == "*" or self.kind.label in whose) and what in which:
                return reason
        return None

    def measure(self):
        """Each reply over UDP has at most 1,232 octets, or is truncated and whole over TCP."""
        sizes, cut = [], []
        for what, name, kind, _ in signed.QUESTIONS + signed.DIRECT:
            code = KINDS[kind]
            short, whole = over_udp(name, code), over_tcp(name, code)
            sizes.append(len(short))
            is_cut = bool(struct.unpack_from(">H", short, 2)[0] & wire.TRUNCATED)
            cut += [f"{what} ({len(whole)} octets)"] * is_cut
            if len(short) > LIMIT or is_cut != (len(whole) > LIMIT) or not (is_cut or short == whole):
                self.faults.append(f"{what}: {len(short)} octets over UDP, {len(whole)} over TCP")
        self.say(f"replies over UDP have at most {max(sizes)} octets; truncated, and whole over TCP: {', '.join(cut)}")


KINDS = {"A": 1, "NS": 2, "CNAME": 5, "SOA": 6, "TXT": 16, "AAAA": 28, "DNAME": 39, "DS": 43, "RRSIG": 46, "NSEC": 47,
         "DNSKEY": 48, "ANY": 255}


def over_udp(name, kind):
    with socket.socket(socket.AF_INET, socket.SOCK_DGRAM) as datagrams:
        datagrams.settimeout(5)
        datagrams.sendto(wire.query(7, name, kind, edns=4096, dnssec=True), ("127.0.0.1", SERVED_PORT))
        return datagrams.recv(65_535)


def over_tcp(name, kind):
    with socket.create_connection(("127.0.0.1", SERVED_PORT), timeout=5) as stream:
        stream.sendall(wire.frame(wire.query(7, name, kind, edns=4096, dnssec=True)))
        return ask.read_octets(stream)


def raise_loopback():
    """Lets the loopback device of a new network carry packets, and gives it the address of the server elsewhere, at
    which BIND listens only so (SIOCGIFFLAGS, SIOCSIFFLAGS, SIOCSIFADDR)."""
    with socket.socket(socket.AF_INET, socket.SOCK_DGRAM) as device:
        name, flags = struct.unpack("16sh", fcntl.ioctl(device, 0x8913, struct.pack("16sh", b"lo", 0)))
        fcntl.ioctl(device, 0x8914, struct.pack("16sh", name, flags | 1))
        address = socket.inet_aton(signed.ADDRESS_ELSEWHERE)
        fcntl.ioctl(device, 0x8916, struct.pack("16sHH4s8x", b"lo:1", socket.AF_INET, 0, address))


def enter(words):
    """Runs this script in a network of its own, whose processes end with it."""
    own = ["unshare", "--user", "--map-root-user", "--net", "--pid", "--fork", "--kill-child"]
    os.execvp("unshare", [*own, sys.executable, os.path.abspath(__file__), "--inside", *words])


def main():
    words = argparse.ArgumentParser(description=__doc__, formatter_class=argparse.RawDescriptionHelpFormatter)
    words.add_argument("--catzd", default=servers.Catzd.program)
    words.add_argument("--peers", default="knot,bind")
    words.add_argument("--forms", default="nsec,nsec3")
    words.add_argument("--verbose", action="store_true", help="shows unbound's reasons too")
    words.add_argument("--inside", action="store_true", help=argparse.SUPPRESS)
    chosen = words.parse_args()
    missing = [program for program in PROGRAMS if not shutil.which(program)]
    if missing:
        print(f"{', '.join(missing)} isn't installed: nothing is validated.")
        return
    if not chosen.inside:
        enter(sys.argv[1:])
    raise_loopback()
    servers.Catzd.choose(chosen.catzd)
    begun, faults = time.monotonic(), 0
    for label in chosen.peers.split(","):
        peer = peers.PEERS[label]
        if not peer.is_installed():
            print(f"{peer.label} isn't installed, and is left out.")
            continue
        for form in chosen.forms.split(","):
            with tempfile.TemporaryDirectory(prefix="catzd-validate-") as folder:
                found = Run(peer, form, pathlib.Path(folder), chosen.verbose).go()
            for fault in found:
                print(f"{peer.label}, {form.upper()}: FAULT: {fault}")
            faults += len(found)
    print(f"{faults} faults, {time.monotonic() - begun:.0f} s")
    sys.exit(1 if faults else 0)


if __name__ == "__main__":
    main()
