#!/usr/bin/env python3
"""beside.py [--catzd PROGRAM] [--servers LIST] [PART ..]: three of the attacks, on catzd and on Knot and NSD beside it.

The parts are notifies, primaries and clients, as in attacks.py. It prints what it saw and judges nothing. Knot and NSD
have the zones in their configurations, and no catalog."""
import argparse
import pathlib
import resource
import socket
import subprocess
import sys
import tempfile
import threading
import time

import attacks
from attacks import PORT, PRIMARY_PORT, SLOW_PORT, Late, asked, drip, held, new_address, seconds_to, told_times

sys.path.insert(0, str(pathlib.Path(__file__).resolve().parent.parent.parent / "bench"))

import ask
import servers
import wire

NAMES, SLOW = [f"m{number}.test." for number in range(10)], ["aa.test.", "ab.test."]


class Knot(servers.Knot):
    """Knot with these zones, of which those in SLOW have the slow primary."""

    def __init__(self, folder):
        super().__init__(servers.Plan(attacks.CATALOG, PRIMARY_PORT, NAMES), folder, PORT)

    def words(self):
        words = super().words()
        text = (self.folder / "knot.conf").read_text().split("zone:\n")[0]
        text = text.replace("acl:\n", f"  - id: slow\n    address: 127.0.0.1@{SLOW_PORT}\nacl:\n", 1)
        zones = "".join(f"  - domain: {one}\n    master: {'slow' if one in SLOW else 'primary'}\n" for one in NAMES + SLOW)
        self.write("knot.conf", f"{text}zone:\n{zones}")
        return words


class Nsd(servers.Nsd):
    """NSD with these zones."""

    def __init__(self, folder):
        super().__init__(servers.Plan(attacks.CATALOG, PRIMARY_PORT, NAMES + SLOW), folder, PORT)

    def words(self):
        words = super().words()
        text = (self.folder / "nsd.conf").read_text()
        for one in SLOW:
            text = text.replace(f"name: {one}\n    request-xfr: 127.0.0.1@{PRIMARY_PORT}",
                                f"name: {one}\n    request-xfr: 127.0.0.1@{SLOW_PORT}")
        self.write("nsd.conf", text)
        return words


KINDS = {"catzd": attacks.Attacked, "knot": Knot, "nsd": Nsd}


def grown(folder):
    """How many octets its log has."""
    return sum(file.stat().st_size for file in folder.iterdir() if file.name in ("log", "errors"))


def notifies(kind, folder):
    """50,000 NOTIFYs a second from 1,000 addresses, and two members NOTIFYed by their primary, whose transfers take 0.2 s."""
    primary, members = held(NAMES, Late)
    server = kind(folder).start()
    stop = threading.Event()
    try:
        attacks.wait_answered(NAMES)
        primary.seconds = 0.2
        packets = [wire.query(1, name, wire.SOA, wire.NOTIFY_FLAGS).hex() for name in (NAMES[0], ".".join(["x" * 60] * 4) + ".")]

        def pester():
            while not stop.wait(0.01):
                primary.notify(NAMES[0], PORT)
                primary.notify(NAMES[1], PORT)
        flood = subprocess.Popen([sys.executable, "-c", attacks.FLOOD, str(PORT), "50000", "14", *packets],
                                 stdout=subprocess.PIPE, text=True)
        threading.Thread(target=pester, daemon=True).start()
        before, begun, seen = grown(folder), time.monotonic(), []

        def change():
            new_address(members[NAMES[2]], 77)
            asker = ask.Asker(PORT)
            try:
                seen.append(f"{seconds_to(asker, NAMES[2], 77, limit=20):.1f} s")
            except ask.TooLate:
                seen.append("more than 20 s")
            asker.close()
        timer = threading.Timer(2, change)
        timer.start()
        told = beside(10, NAMES[1])
        timer.join()
        rate = flood.communicate()[0].strip()
        print(f"  {rate} NOTIFYs a second; beside them {told}; a change without NOTIFY "
              f"(REFRESH 2 s) answered after {seen[0]}; the log grew by {(grown(folder) - before) / (time.monotonic() - begun):.0f} octets a second")
    finally:
        stop.set()
        server.stop()
        primary.close()


def primaries(kind, folder):
    """Two zones whose primary sends an octet each 9 seconds, beside ten healthy ones."""
    stop = threading.Event()
    primary, members = held(NAMES, slow=SLOW)
    listener = socket.create_server(("127.0.0.1", SLOW_PORT), backlog=100)
    threading.Thread(target=drip, args=(listener, stop), daemon=True).start()
    server = kind(folder).start()
    try:
        took = attacks.wait_answered(NAMES, limit=90) - server.begun
        new_address(members[NAMES[9]], 79)
        asker = ask.Asker(PORT)
        changed = seconds_to(asker, NAMES[9], 79, limit=60)
        asker.close()
        time.sleep(2)
        stopped, _ = server.stop()
        print(f"  ten healthy zones answered {took:.1f} s after the start; a change without NOTIFY after {changed:.1f} s "
              f"(REFRESH 2 s); a stop took {stopped:.2f} s")
    finally:
        stop.set()
        if server.is_running():
            server.stop()
        primary.close()
        listener.close()


def clients(kind, folder):
    """800 clients of 20 addresses that send queries and never read, for 9 s."""
    primary, _ = held(NAMES)
    server = kind(folder).start()
    query = wire.frame(wire.query(7, f"www.{NAMES[0]}", wire.A)) * 500
    try:
        attacks.wait_answered(NAMES)
        before, mute, refused = server.memory()[1], [], 0
        for number in range(800):
            one = socket.socket()
            one.setsockopt(socket.SOL_SOCKET, socket.SO_RCVBUF, 2048)
            one.bind((f"127.0.2.{number // 40 + 1}", 0))
            one.settimeout(1)
            try:
                one.connect(("127.0.0.1", PORT))
            except OSError:
                refused += 1
            one.setblocking(False)
            mute.append(one)
        most, end = 0, time.monotonic() + 9
        while time.monotonic() < end:
            for one in mute:
                try:
                    one.send(query)
                except OSError:
                    pass
            most = max(most, server.memory()[1])
        told = beside(2, NAMES[0])
        for one in mute:
            one.close()
        time.sleep(13)
        print(f"  {before:.1f} MB before, {most:.1f} at most meanwhile, {server.memory()[1]:.1f} 13 s after them; "
              f"{refused} not accepted; beside them {told}")
    finally:
        server.stop()
        primary.close()


def beside(seconds, name):
    """Queries beside an attack, one each millisecond over UDP and one over TCP."""
    try:
        lost, _, times = asked(seconds, f"www.{name}")
        return f"{told_times(times)}, {lost} lost"
    except OSError as error:
        return f"a query over TCP failed ({error})"


PARTS = (notifies, primaries, clients)


def main():
    reader = argparse.ArgumentParser(description=__doc__.splitlines()[0])
    reader.add_argument("--catzd", default=servers.Catzd.program)
    reader.add_argument("--servers", default=",".join(KINDS))
    reader.add_argument("parts", nargs="*")
    words = reader.parse_args()
    servers.Catzd.choose(words.catzd)
    resource.setrlimit(resource.RLIMIT_NOFILE, (4096, max(4096, resource.getrlimit(resource.RLIMIT_NOFILE)[1])))
    for part in PARTS:
        if words.parts and part.__name__ not in words.parts:
            continue
        print(f"{part.__name__}: {part.__doc__}", flush=True)
        for name in words.servers.split(","):
            if not KINDS[name].is_installed():
                print(f" {name} isn't installed.")
                continue
            print(f" {name}", flush=True)
            with tempfile.TemporaryDirectory() as folder:
                part(KINDS[name], pathlib.Path(folder))


if __name__ == "__main__":
    main()
