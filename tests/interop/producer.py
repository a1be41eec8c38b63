#!/usr/bin/env python3
"""Has other servers serve a catalog that `catzd produce` made, and secondaries read it.

    producer.py [--catzd PROGRAM] [--peers knot,nsd,bind,powerdns]

`catzd produce` makes a catalog with three members, and contrib/zonefile.py a master file of it. Each peer serves it and
the members as their primary, on ports above 5300 of 127.0.0.1. catzd, which wants a good ZONEMD record of the catalog,
Knot and BIND are secondaries that read catalogs, and NSD one that is told of the zones. Then one member is dropped and
one added by a `change`, whose difference contrib/zonefile.py applies. A peer or a secondary that isn't installed is left
out, and that is said.
"""
import argparse
import pathlib
import subprocess
import sys
import tempfile
import time

ROOT = pathlib.Path(__file__).resolve().parents[2]
sys.path.insert(0, str(ROOT / "bench"))
import ask
import peers
import servers
import wire

PEER_PORT, FIRST_PORT = 5370, 5380
CATALOG, AT_FIRST, DROPPED, ADDED = "catalog.test.", ("a.test", "b.test", "c.test"), "c.test", "d.test"
SCRIPT = """# a catalog with three members, one of which another catalog may take over
catalog catalog.test. 1
member ma a.test. - plain
member mb b.test. other.test. plain
member mc c.test. - plain
"""
CHANGE = """change 2
drop mc
member md d.test. - plain
"""


class Secondary(servers.Catzd):
    """catzd, which takes no catalog without a good digest; the members, which have none, are of a group."""

    def input(self):
        return open(self.write("catzd.toml", f"""listen = "127.0.0.1:{self.port}"
[[catalog]]
name = "{CATALOG}"
policy = "require"
primaries = ["127.0.0.1:{self.plan.primary}"]
[[catalog.group]]
word = "plain"
policy = "off"
primaries = ["127.0.0.1:{self.plan.primary}"]
"""))


KINDS = (Secondary, servers.Knot, servers.Bind, servers.Nsd)


def made(program, script):
    """The master file of the catalog that a script makes."""
    lines = subprocess.run([program, "produce"], input=script, capture_output=True, text=True, check=True).stdout
    zone = subprocess.run([sys.executable, str(ROOT / "contrib/zonefile.py")], input=lines, capture_output=True, text=True,
                          check=True)
    return lines, zone.stdout


class Run:
    """One peer as the primary, and the secondaries that are installed."""

    def __init__(self, peer, folder, program):
        self.program, self.faults = program, []
        _, catalog = made(program, SCRIPT)
        texts = {"catalog.test": catalog, **{one: peers.MEMBER_TEXT.format(apex=one, serial=1)
                                             for one in (*AT_FIRST, ADDED)}}
        self.peer = peer(folder / "peer", PEER_PORT, FIRST_PORT, texts)
        plan = servers.Plan(CATALOG, PEER_PORT, members=[CATALOG, *(f"{one}." for one in (*AT_FIRST, ADDED))])
        kinds = [kind for kind in KINDS if kind.is_installed()]
        self.secondaries = [kind(plan, folder / kind.label, FIRST_PORT + number) for number, kind in enumerate(kinds)]

    def go(self):
        try:
            self.peer.start()
            ask.Asker(self.peer.port).wait("www.a.test.", pause=0.05, limit=20)
            for one in self.secondaries:
                one.start()
            for one in self.secondaries:
                asker = ask.Asker(one.port)
                asker.wait_all([f"www.{member}." for member in AT_FIRST], limit=30)
                self.say(f"{one.label} answers for the members")
            self.change()
        except ask.TooLate as error:
            self.faults.append(f"nothing came of {error}")
        finally:
            self.stop()
        return self.faults

    def say(self, text):
        print(f"{self.peer.label}: {text}", flush=True)

    def change(self):
        lines, catalog = made(self.program, SCRIPT + CHANGE)
        self.say(f"the change is {len(lines.splitlines()[1]) // 2} octets of an IXFR")
        self.peer.change("catalog.test", catalog)
        time.sleep(0.5)
        for one in self.secondaries:
            asker = ask.Asker(one.port)
            asker.socket.send(wire.query(0, CATALOG, wire.SOA, wire.NOTIFY_FLAGS))
            if one.reads_catalogs:
                asker.wait(f"www.{ADDED}.", limit=30, pause=0.05)
                asker.wait(f"www.{DROPPED}.", lambda message: message.code == wire.REFUSED, limit=30, pause=0.05)
                self.say(f"{one.label} answers for the member that was added, and not for the one that was dropped")

    def stop(self):
        for one in self.secondaries:
            if one.process is None:
                continue
            status = one.stop()[1] if one.is_running() else one.process.returncode
            if status != 0 and one is self.secondaries[0]:
                self.faults.append(f"catzd ended with status {status}")
        log = (self.secondaries[0].folder / "log").read_text()
        for line in ("published 1 catalog.test. 1", "added a.test. catalog.test.", "removed c.test. catalog.test.",
                     "added d.test. catalog.test."):
            if line not in log:
                self.faults.append(f"catzd's log has no line {line!r}")
        self.peer.stop()


def main():
    words = argparse.ArgumentParser(description=__doc__, formatter_class=argparse.RawDescriptionHelpFormatter)
    words.add_argument("--catzd", default=servers.Catzd.program)
    words.add_argument("--peers", default=",".join(peers.PEERS))
    chosen = words.parse_args()
    servers.Catzd.choose(chosen.catzd)
    faults = 0
    for kind in KINDS:
        if not kind.is_installed():
            print(f"{kind.label} isn't installed as a secondary, and is left out.")
    for label in chosen.peers.split(","):
        peer = peers.PEERS[label]
        if not peer.is_installed():
            print(f"{peer.label} isn't installed, and is left out.")
            continue
        with tempfile.TemporaryDirectory(prefix="catzd-interop-") as folder:
            found = Run(peer, pathlib.Path(folder), servers.Catzd.program).go()
        for fault in found:
            print(f"{peer.label}: FAULT: {fault}")
        faults += len(found)
    print(f"{faults} faults")
    sys.exit(1 if faults else 0)


if __name__ == "__main__":
    main()
