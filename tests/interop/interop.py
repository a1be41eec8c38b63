#!/usr/bin/env python3
"""Runs catzd after Knot, NSD, BIND and PowerDNS and compares its replies with theirs, record by record.

    interop.py [--catzd PROGRAM] [--peers knot,nsd,bind,powerdns] [--verbose]

Each peer is started in a temporary folder as the primary of a catalog with six members, catzd after it, on ports above
5300 of 127.0.0.1. The same questions go to both, also those about DNAME records; then two zones change, and a member is
removed. A difference that DIFFERENCES doesn't explain fails the run. A peer or a tool that isn't installed is left
out, and that is said.
"""
import argparse
import pathlib
import shutil
import subprocess
import sys
import tempfile
import time

sys.path.insert(0, str(pathlib.Path(__file__).resolve().parents[2] / "bench"))
import ask
import peers
import servers
import questions
import wire

PEER_PORT, CATZD_PORT = 5350, 5360

# (peers, questions, parts): why a reply of catzd differs there. "*" stands for any.
SEVERAL = ("a DNAME's owner with an address, ANY", "apex with a DNAME, ANY")
DIFFERENCES = {
    ("*", ("apex NS", "apex MX"), ("additional",)): "catzd adds addresses to a referral alone",
    ("*", ("the catalog",), ("status", "flags", "answer")):
        "catzd takes orders from a catalog, and doesn't answer for it",
    ("*", ("DNAME that grows",), ("status", "answer")): "catzd follows sixteen aliases",
    ("*", ("DNAME that grows", "DNAME to the longest name"), ("status", "flags", "answer", "authority")):
        "catzd puts no records into a truncated reply",
    (("Knot",), ("DNAME to a name too long", "DNAME to a name too long, CNAME"), ("status", "authority")):
        "it answers NXDOMAIN in place of YXDOMAIN",
    (("BIND", "PowerDNS"), ("DNAME round",), ("status", "answer")): "it calls a round of DNAME records an error",
    (("Knot",), ("DNAME round",), ("answer",)): "it goes round twice",
    (("Knot", "NSD", "PowerDNS"), ("below a DNAME, ANY", "below a DNAME, ANY, no name"),
     ("status", "answer", "authority")): "catzd doesn't follow a DNAME for ANY",
    (("PowerDNS",), ("below a DNAME, CNAME",), ("authority",)): "catzd doesn't follow a DNAME for CNAME",
    (("Knot", "NSD"), SEVERAL, ("answer",)): "it answers ANY with one RRset",
    (("PowerDNS",), (*SEVERAL, "a DNAME's owner, ANY", "below a DNAME, ANY", "below a DNAME, ANY, no name"),
     ("flags", "answer")): "it answers ANY over TCP alone",
    (("NSD", "PowerDNS"), ("DNAME to another member", "below an apex with a DNAME"), ("answer",)):
        "catzd follows a DNAME within its zone alone",
    # Knot 3.4 shows it under its owner, as catzd does.
    (("Knot",), ("below a wildcard's DNAME",), ("answer",)): "it shows the DNAME under the name that was asked for",
    (("PowerDNS",), ("an address below a DNAME", "a cut below a DNAME", "below a cut below a DNAME"), "*"):
        "it looks for a name's own records before it looks for a DNAME above it",
}


def reason_of(peer, question, part):
    """Why a part of a reply differs, or None where that isn't known."""
    for (whose, which, what), reason in DIFFERENCES.items():
        if (what == "*" or part in what) and (whose == "*" or peer in whose) and question in which:
            return reason
    return None


class Run:
    """One peer with catzd after it."""

    def __init__(self, peer, folder, ports, verbose):
        peer_port, port = ports
        self.peer = peer(folder / "peer", peer_port, port)
        plan = servers.Plan(peers.CATALOG + ".", peer_port, verifies=peer.has_digests)
        self.catzd, self.verbose, self.faults = servers.Catzd(plan, folder / "catzd", port), verbose, []

    def go(self):
        try:
            self.peer.start()
            ask.Asker(self.peer.port).wait("www.a.test.", pause=0.05, limit=20)
            self.catzd.start()
            ask.Asker(self.catzd.port).wait_all([f"www.{one}." for one in peers.MEMBERS[:4]], limit=20)
            ask.Asker(self.catzd.port).wait("e.test.", lambda message: message.code == wire.NOERROR, limit=20)
            self.compare("at first", questions.QUESTIONS)
            self.compare("DNAME", questions.RENAMED)
            self.change()
            self.compare("after the change", questions.QUESTIONS)
            self.remove()
        except ask.TooLate as error:
            self.faults.append(f"nothing came of {error}")
        finally:
            self.stop()
        return self.faults

    def say(self, text):
        print(f"{self.peer.label}: {text}", flush=True)

    def compare(self, when, asked):
        """Asks both these questions in all ways."""
        same, explained, unexplained = 0, {}, {}
        for what, name, kind in asked:
            owner = questions.owner_of(name)
            for way in questions.ways():
                theirs = questions.ask(way, self.peer.port, owner, kind)
                ours = questions.ask(way, self.catzd.port, owner, kind)
                parts = theirs.differs_from(ours)
                same += not parts
                for part in parts:
                    reason = reason_of(self.peer.label, what, part)
                    if reason is not None:
                        explained.setdefault((what, reason), set()).add(part)
                    if reason is None or self.verbose:
                        seen = (what, part, getattr(theirs, part), getattr(ours, part), reason)
                        unexplained.setdefault(seen, []).append(str(way))
        total = len(asked) * len(questions.ways())
        self.say(f"{when}: {same} of {total} replies are the same record by record")
        for (what, reason), parts in explained.items():
            self.say(f"  {what}: another {', '.join(sorted(parts))}, since {reason}")
        self.judge(unexplained)

    def judge(self, seen):
        """Notes the differences that have no reason, and shows the others."""
        for (what, part, theirs, ours, reason), asked in seen.items():
            text = f"{what} ({len(asked)} ways, first {asked[0]}): {part} is {ours}, and {theirs} of {self.peer.label}"
            if reason is None:
                self.faults.append(text)
            else:
                print(f"    {text}")

    def change(self):
        """New versions of a.test and b.test, which come by NOTIFY."""
        for zone in peers.MEMBERS[:2]:
            begun = time.monotonic()
            self.peer.change(zone, peers.member_text(zone, 2))
            wanted = bytes([192, 0, 2, 2])
            moment = ask.Asker(self.catzd.port).wait(
                f"www.{zone}.", lambda message: ask.is_address(message, wanted), limit=30, pause=0.01)
            self.say(f"a change of {zone} was answered {moment - begun:.2f} s after it was written")
            self.expect(f"notify {zone}. taken", f" {zone}. ixfr ")
        form = "differences" if self.has_differences("b.test") else "the whole zone"
        self.say(f"IXFR is answered with {form}")
        if self.peer.has_digests:
            self.say("each version of a.test had a good ZONEMD record, as the policy `require` wants")
        self.refusals()
        if self.peer.has_differences and form != "differences":
            self.faults.append("IXFR was expected to be answered with differences")

    def refusals(self):
        """Each refusal of a transfer is one that is known of this peer. By the first two lines nothing was kept."""
        for line in (self.catzd.folder / "log").read_text().splitlines()[2:]:
            if line.startswith(("refused", "failed", "policy", "broken")):
                self.say(f"  catzd's log has: {line}")
                if line not in self.peer.refusals:
                    self.faults.append(line)

    def has_differences(self, zone):
        """Whether the peer answers IXFR with differences, which have four SOA records."""
        if not shutil.which("dig"):
            return self.peer.has_differences
        done = subprocess.run(["dig", "@127.0.0.1", "-p", str(self.peer.port), zone, "IXFR=1", "+tcp", "+noall",
                               "+answer"], capture_output=True, text=True, check=False)
        return sum(line.split()[3:4] == ["SOA"] for line in done.stdout.splitlines()) == 4

    def remove(self):
        """A new version of the catalog without c.test."""
        begun = time.monotonic()
        self.peer.change(peers.CATALOG, peers.catalog_text(2, [one for one in peers.MEMBERS if one != "c.test"]))
        moment = ask.Asker(self.catzd.port).wait(
            "www.c.test.", lambda message: message.code == wire.REFUSED, limit=30, pause=0.01)
        self.say(f"a removed member was refused {moment - begun:.2f} s after it was written")
        self.expect("notify catalog.test. taken", "removed c.test. catalog.test.")

    def expect(self, *lines):
        """Notes each of the texts that the log of catzd doesn't have."""
        log = (self.catzd.folder / "log").read_text()
        self.faults += [f"the log has no line with {line!r}" for line in lines if line not in log]

    def stop(self):
        if self.catzd.process is not None and self.catzd.is_running():
            seconds, status = self.catzd.stop()
            self.say(f"catzd ended {seconds:.1f} s after SIGTERM with status {status}")
            if status != 0:
                self.faults.append(f"catzd ended with status {status}")
        elif self.catzd.process is not None:
            self.faults.append(f"catzd had ended with status {self.catzd.process.returncode}")
        self.peer.stop()


def main():
    words = argparse.ArgumentParser(description=__doc__, formatter_class=argparse.RawDescriptionHelpFormatter)
    words.add_argument("--catzd", default=servers.Catzd.program)
    words.add_argument("--peers", default=",".join(peers.PEERS))
    words.add_argument("--verbose", action="store_true", help="shows the explained differences too")
    chosen = words.parse_args()
    servers.Catzd.choose(chosen.catzd)
    for tool in questions.TOOLS:
        if not shutil.which(tool):
            print(f"{tool} isn't installed, and asks nothing.")
    faults = 0
    for number, label in enumerate(chosen.peers.split(",")):
        peer = peers.PEERS[label]
        if not peer.is_installed():
            print(f"{peer.label} isn't installed, and is left out.")
            continue
        with tempfile.TemporaryDirectory(prefix="catzd-interop-") as folder:
            found = Run(peer, pathlib.Path(folder), (PEER_PORT + number, CATZD_PORT + number), chosen.verbose).go()
        for fault in found:
            print(f"{peer.label}: FAULT: {fault}")
        faults += len(found)
    print(f"{faults} faults")
    sys.exit(1 if faults else 0)


if __name__ == "__main__":
    main()
