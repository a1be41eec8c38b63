#!/usr/bin/env python3
"""attacks.py [--catzd PROGRAM] [PART ..]: what clients, primaries, floods and small faults do to a server, on loopback.

The parts are notifies, primaries, sockets, stops, clients, addresses and log; all of them without one. Each takes at most
two minutes. It prints what it saw, and each fault, and ends with status 1 where there was one."""
import argparse
import fcntl
import json
import pathlib
import resource
import shutil
import signal
import socket
import statistics
import struct
import subprocess
import sys
import tempfile
import threading
import time

sys.path.insert(0, str(pathlib.Path(__file__).resolve().parent.parent.parent / "bench"))

import ask
import servers
import wire
import zones
from primary import Primary

CATALOG = "catalog.test."
PRIMARY_PORT, SLOW_PORT, PORT = 5830, 5831, 5832
TIMES = (2, 1, 3600, 60)  # REFRESH, RETRY, EXPIRE and the negative TTL of each zone, in seconds
FAULTS = []


def judge(is_right, text):
    """Prints what was seen, and notes a fault where it isn't as it has to be."""
    print(f"  {'as it should be' if is_right else 'FAULT'}: {text}", flush=True)
    if not is_right:
        FAULTS.append(text)


class Attacked(servers.Catzd):
    """A catzd whose address, limits and environment a part chooses."""

    def __init__(self, folder, listen="127.0.0.1", environment=(), descriptors=None, log=None):
        super().__init__(None, folder, PORT)
        self.listen, self.environment, self.descriptors = listen, list(environment), descriptors
        if log is not None:
            self.log = log

    def words(self):
        words = super().words()
        return [*words[:2], *self.environment, *words[2:]]

    def prepare(self):
        if self.descriptors:
            resource.setrlimit(resource.RLIMIT_NOFILE, (self.descriptors, self.descriptors))

    def start(self):
        self.errors = open(self.folder / "errors", "w+")
        self.begun = time.monotonic()
        self.process = subprocess.Popen(self.words(), cwd=self.folder, stdin=self.input(), stdout=self.log,
                                        stderr=self.errors, preexec_fn=self.prepare)
        return self

    def told(self):
        return (self.folder / "errors").read_text()

    def input(self):
        return open(self.write("catzd.toml", f"""listen = "{self.listen}:{PORT}"
[[catalog]]
name = "{CATALOG}"
policy = "off"
primaries = ["127.0.0.1:{PRIMARY_PORT}"]
[[catalog.group]]
word = "slow"
policy = "off"
primaries = ["127.0.0.1:{SLOW_PORT}"]
"""))


class Late(Primary):
    """A primary that takes some time for each transfer."""
    seconds = 0.0

    def _reply(self, request, is_stream):
        if is_stream:
            time.sleep(self.seconds)
        return super()._reply(request, is_stream)


def held(names, kind=Primary, slow=()):
    """A primary of a catalog with these members, of which some are in the group `slow`."""
    primary, catalog = kind(PRIMARY_PORT), zones.catalog(CATALOG, [*names, *slow])
    for number in range(len(names), len(names) + len(slow)):
        catalog.put(f"group.m{number + 1}.zones", wire.TXT, wire.txt("slow"))
    members = {one: zones.member(one) for one in names}
    for zone in (catalog, *members.values()):
        zone.times = TIMES
    primary.hold(catalog, *members.values())
    return primary, members


def wait_answered(names, address="127.0.0.1", limit=60):
    asker = ask.Asker(PORT, address)
    try:
        return asker.wait_all([f"www.{one}" for one in names], limit=limit)
    finally:
        asker.close()


def new_address(zone, number):
    """Gives a zone a new version, with another address at www."""
    old = next(one for one in zone.records if one.startswith(b"\x03www"))
    zone.change([("www", wire.A, old[-4:])], [("www", wire.A, zones.address(number))])


def seconds_to(asker, name, number, limit=30):
    """Seconds until an address is answered."""
    begun, rdata = time.monotonic(), zones.address(number)
    return asker.wait(f"www.{name}", lambda message: ask.is_address(message, rdata), limit=limit) - begun


# What asks is a process of its own, so that it doesn't wait for the primary.
ASK = """
import json, subprocess, sys
sys.path.insert(0, sys.argv[1])
import ask
steady = ask.Steady(int(sys.argv[2]), sys.argv[3])
lost = steady.run(subprocess.Popen(["sleep", sys.argv[4]]))
print(json.dumps([lost, steady.renewed, steady.found]))
"""


def asked(seconds, owner):
    """Queries, one each millisecond over UDP and over TCP, for some seconds: how many were lost, how many connections the
    server closed, and the times over UDP and over TCP."""
    words = [sys.executable, "-c", ASK, sys.path[0], str(PORT), owner, str(seconds)]
    lost, renewed, found = json.loads(subprocess.run(words, stdout=subprocess.PIPE, check=True).stdout)
    times = {kind: sorted(took for transport, _, took in found if transport == kind)
             for kind in {transport for transport, _, _ in found}}
    return lost, renewed, times


def told_times(times):
    return ", ".join(f"{kind} {statistics.median(one) * 1000:.2f} ms in the median, {one[len(one) * 99 // 100] * 1000:.1f} at 99 %, "
                     f"{one[-1] * 1000:.0f} at most" for kind, one in sorted(times.items()))


def worst(times, share):
    return max(one[min(len(one) - 1, int(len(one) * share))] for one in times.values())


# -- The parts --------------------------------------------------------------------------------------------------------

FLOOD = """
import socket, sys, time
port, rate, seconds = map(int, sys.argv[1:4])
packets = [bytes.fromhex(one) for one in sys.argv[4:]]
senders = []
for number in range(1000):
    one = socket.socket(socket.AF_INET, socket.SOCK_DGRAM)
    one.bind((f"127.1.{number // 200}.{number % 200 + 1}", 0))
    one.connect(("127.0.0.1", port))
    one.setblocking(False)
    senders.append(one)
begun, sent = time.monotonic(), 0
while time.monotonic() - begun < seconds:
    while sent < (time.monotonic() - begun) * rate:
        try:
            senders[sent % 1000].send(packets[sent // 1000 % len(packets)])
        except OSError:
            pass
        sent += 1
    time.sleep(0.0005)
print(int(sent / seconds))
"""


def notifies(folder):
    """50,000 NOTIFYs a second from 1,000 addresses, and two members NOTIFYed by their primary without end."""
    names = ["a.test.", "b.test.", "z.test."]
    primary, members = held(names, Late)
    server = Attacked(folder).start()
    try:
        wait_answered(names)
        primary.seconds = 0.2
        notify = wire.query(1, "a.test.", wire.SOA, wire.NOTIFY_FLAGS).hex()
        long_name = ".".join(["x" * 60] * 4) + "."
        other = wire.query(1, long_name, wire.SOA, wire.NOTIFY_FLAGS).hex()
        stop = threading.Event()

        def pester():
            while not stop.wait(0.01):
                primary.notify("a.test.", PORT)
                primary.notify("b.test.", PORT)
        flood = subprocess.Popen([sys.executable, "-c", FLOOD, str(PORT), "50000", "14", notify, other],
                                 stdout=subprocess.PIPE, text=True)
        threading.Thread(target=pester, daemon=True).start()
        before, begun = (folder / "log").stat().st_size, time.monotonic()
        seen = []

        def change():
            new_address(members["z.test."], 77)
            asker = ask.Asker(PORT)
            seen.append(seconds_to(asker, "z.test.", 77))
            asker.close()
        timer = threading.Timer(2, change)
        timer.start()
        lost, _, times = asked(10, "www.b.test.")
        timer.join()
        took = seen[0] if seen else 60
        rate = flood.communicate()[0].strip()
        stop.set()
        grown = ((folder / "log").stat().st_size - before) / (time.monotonic() - begun)
        judge(worst(times, 0.99) < 0.005 or servers.os.cpu_count() < 4, f"{rate} NOTIFYs a second; {told_times(times)}; {lost} queries of 20,000 lost")
        judge(took < 5, f"a third member, changed without NOTIFY, answered after {took:.1f} s (REFRESH 2 s)")
        judge(grown < 20_000, f"the log grew by {grown:.0f} octets a second")
        primary.seconds = 0.0
        time.sleep(2.5)
        new_address(members["a.test."], 78)
        asker = ask.Asker(PORT)
        primary.notify("a.test.", PORT)
        took = seconds_to(asker, "a.test.", 78)
        asker.close()
        judge(took < 0.05, f"NOTIFY to new answer of a quiet member: {took * 1000:.1f} ms")
    finally:
        server.stop()
        primary.close()


def drip(listener, stop):
    """A primary that takes each connection, and sends an octet each 9 seconds."""
    streams = []
    while not stop.wait(9 if streams else 0.1):
        listener.settimeout(0.1)
        try:
            while True:
                streams.append(listener.accept()[0])
        except TimeoutError:
            pass
        for one in streams:
            try:
                one.send(b"\x10")
            except OSError:
                pass


def primaries(folder):
    """Two members whose primary sends an octet in 9 seconds, beside ten healthy ones."""
    names, stop = [f"m{number}.test." for number in range(10)], threading.Event()
    primary, members = held(names, slow=["aa.test.", "ab.test."])
    listener = socket.create_server(("127.0.0.1", SLOW_PORT), backlog=100)
    threading.Thread(target=drip, args=(listener, stop), daemon=True).start()
    server = Attacked(folder).start()
    try:
        took = wait_answered(names, limit=90) - server.begun
        judge(took < 45, f"ten healthy members answered {took:.1f} s after the start")
        new_address(members["m9.test."], 79)
        asker = ask.Asker(PORT)
        took = seconds_to(asker, "m9.test.", 79, limit=60)
        asker.close()
        judge(took < 45, f"a change without NOTIFY answered after {took:.1f} s (REFRESH 2 s)")
        time.sleep(2)
        took, status = server.stop()
        judge(took < 1.5 and status == 0, f"a stop beside them: {took:.2f} s, status {status}")
    finally:
        stop.set()
        if server.is_running():
            server.stop()
        primary.close()
        listener.close()


def library(folder):
    """The library of net.c, or None where there is no compiler."""
    compiler = next(filter(None, map(shutil.which, ("cc", "gcc", "clang"))), None)
    if compiler is None:
        return None
    made = folder / "net.so"
    subprocess.run([compiler, "-O2", "-shared", "-fPIC", "-o", made, pathlib.Path(__file__).with_name("net.c"), "-ldl"], check=True)
    return made


def sockets(folder):
    """Calls of sockets that fail for two seconds, and one that fails for good."""
    made, faults = library(folder), folder / "faults"
    if made is None:
        print("  no compiler: not tried")
        return
    primary, _ = held(["a.test."])
    server = Attacked(folder, environment=[f"LD_PRELOAD={made}", f"NET_FAULTS={faults}"]).start()
    try:
        wait_answered(["a.test."])
        for call, error in (("recvfrom", 105), ("recvfrom", 1), ("accept4", 1), ("accept4", 113), ("epoll_wait", 12)):
            idle = ask.idle_clients(PORT, "www.a.test.", 5)
            faults.write_text(f"{call} {error}")
            before, late = server.cpu(), socket.create_connection(("127.0.0.1", PORT))
            time.sleep(2)
            spent = server.cpu() - before
            faults.unlink()
            begun = time.monotonic()
            took = wait_answered(["a.test."], limit=5) - begun
            ask.tcp_times(PORT, "www.a.test.", 1)
            left = sum(is_open(one) for one in [*idle, late])
            judge(took < 1 and spent < 1 and left == 6,
                  f"{call} with error {error} for 2 s: answered {took:.2f} s later; {spent:.2f} s of CPU meanwhile; {left} of 6 clients are left")
            for one in [*idle, late]:
                one.close()
        print("  on standard error:", server.told().strip().replace("\n", "; "))
        faults.write_text("recvfrom 9")
        begun = time.monotonic()
        status = server.process.wait(5)
        judge(status == 6, f"a bad descriptor for UDP ends the server with status {status} after {time.monotonic() - begun:.1f} s")
    finally:
        if server.is_running():
            server.stop()
        primary.close()


def is_open(stream):
    stream.setblocking(False)
    try:
        return stream.recv(1, socket.MSG_PEEK) != b""
    except BlockingIOError:
        return True
    except OSError:
        return False


def stops(folder):
    """SIGTERM while no descriptor is left, and while a reader of the log stalls."""
    primary, _ = held(["a.test.", *(f"m{number}.test." for number in range(100))])
    server = Attacked(folder, descriptors=40).start()
    try:
        wait_answered(["a.test."])
        clients = [socket.create_connection(("127.0.0.1", PORT), source_address=(f"127.0.3.{number + 1}", 0)) for number in range(60)]
        time.sleep(1)
        took, status = server.stop()
        judge(took < 1.5 and status == 0, f"a stop with all descriptors in use: {took:.2f} s, status {status}")
        for one in clients:
            one.close()
        reader, writer = servers.os.pipe()
        fcntl.fcntl(writer, fcntl.F_SETPIPE_SZ, 4096)
        server = Attacked(folder, log=servers.os.fdopen(writer, "wb")).start()
        server.log.close()
        thread = threading.Thread(target=stall, args=(reader, 5), daemon=True)
        begun = time.monotonic()
        thread.start()
        time.sleep(3)
        server.process.send_signal(signal.SIGTERM)
        status = server.process.wait(15)
        took = time.monotonic() - begun - 5
        judge(status == 0 and took < 1.5, f"a stop while the log's reader stalls: {took:.2f} s after it reads on, status {status}")
    finally:
        if server.is_running():
            server.stop()
        primary.close()


def stall(reader, seconds):
    """Reads nothing for some seconds, and then on."""
    time.sleep(seconds)
    while servers.os.read(reader, 65_536):
        pass


def clients(folder):
    """800 clients that send queries and never read."""
    primary, _ = held(["a.test."])
    server = Attacked(folder, environment=["MALLOC_MMAP_THRESHOLD_=131072"]).start()
    query = wire.frame(wire.query(7, "www.a.test.", wire.A)) * 500
    try:
        wait_answered(["a.test."])
        ask.tcp_times(PORT, "www.a.test.", 100)
        before, mute = server.memory()[1], []
        for number in range(800):
            one = socket.socket()
            one.setsockopt(socket.SOL_SOCKET, socket.SO_RCVBUF, 2048)
            one.bind((f"127.0.2.{number // 40 + 1}", 0))
            one.connect(("127.0.0.1", PORT))
            one.setblocking(False)
            mute.append(one)
        most, end, open_most = 0, time.monotonic() + 9, 0
        while time.monotonic() < end:
            for one in mute:
                try:
                    one.send(query)
                except OSError:
                    pass
            most = max(most, server.memory()[1])
        lost, renewed, times = asked(2, "www.a.test.")
        for one in mute:
            one.close()
        time.sleep(13)
        after = server.memory()[1]
        judge(most - before < 120, f"{before:.1f} MB before, {most:.1f} at most meanwhile")
        judge(after - before < 2, f"{after:.1f} MB 13 s after them")
        judge(lost == 0 and worst(times, 0.99) < 0.05, f"beside them: {told_times(times)}; {lost} lost; {renewed} of the connections closed to make room")
        many = [socket.create_connection(("127.0.0.1", PORT), source_address=("127.0.4.1", 0)) for _ in range(300)]
        time.sleep(1)
        left = sum(is_open(one) for one in many)
        judge(left <= 100, f"of 300 connections of one address {left} are left")
        for one in many:
            one.close()
    finally:
        server.stop()
        primary.close()


def from_port_0(packet):
    """Sends a datagram from port 0, where this user may."""
    try:
        raw = socket.socket(socket.AF_INET, socket.SOCK_RAW, socket.IPPROTO_UDP)
    except PermissionError:
        return False
    raw.sendto(struct.pack(">4H", 0, PORT, 8 + len(packet), 0) + packet, ("127.0.0.1", 0))
    raw.close()
    return True


def addresses(folder):
    """Port 0, the address that a dial leaves from, and 0.0.0.0."""
    listener = socket.create_server(("127.0.0.1", PRIMARY_PORT))
    listener.settimeout(10)
    server = Attacked(folder, listen="127.0.0.5").start()
    stream, (address, _) = listener.accept()
    judge(address == "127.0.0.5", f"with listen at 127.0.0.5 a dial leaves from {address}")
    stream.close()
    listener.close()
    server.stop()
    primary, _ = held(["a.test."])
    try:
        server = Attacked(folder).start()
        wait_answered(["a.test."])
        sent = from_port_0(wire.query(3, "www.a.test.", wire.A))
        time.sleep(0.5)
        took, status = server.stop()
        judge(status == 0, f"a query from port 0 {'was sent' if sent else 'could not be sent'}; status {status} at the end")
        server = Attacked(folder, listen="0.0.0.0").start()
        wait_answered(["a.test."])
        judge("0.0.0.0" in server.told(), f"0.0.0.0: {server.told().strip()}")
    finally:
        server.stop()
        primary.close()


# A process of its own, so that what asks doesn't wait for it.
PESTER = """
import socket, sys, time
port, seconds = map(int, sys.argv[1:3])
packets = [bytes.fromhex(one) for one in sys.argv[3:]]
sender = socket.socket(socket.AF_INET, socket.SOCK_DGRAM)
end = time.monotonic() + seconds
while time.monotonic() < end:
    for one in packets:
        sender.sendto(one, ("127.0.0.1", port))
    time.sleep(0.05)
"""


def log(folder):
    """NOTIFYs and queries while the reader of the log reads nothing for 20 seconds."""
    names = [f"m{number}.test." for number in range(100)]
    primary, members = held(names)
    reader, writer = servers.os.pipe()
    server = Attacked(folder, log=servers.os.fdopen(writer, "wb")).start()
    stop = threading.Event()

    def read():
        while servers.os.read(reader, 65_536):
            if stop.wait(0):
                time.sleep(22)
                stop.clear()

    notify = [wire.query(7, one, wire.SOA, wire.NOTIFY_FLAGS).hex() for one in names]
    threading.Thread(target=read, daemon=True).start()
    try:
        server.log.close()
        wait_answered(names)
        stop.set()
        pester = subprocess.Popen([sys.executable, "-c", PESTER, str(PORT), "20", *notify])
        lost, _, times = asked(20, "www.m1.test.")
        pester.wait()
        judge(worst(times, 1) < 0.05 and lost == 0, f"{told_times(times)}; {lost} lost")
        time.sleep(4)
        new_address(members["m5.test."], 80)
        primary.notify("m5.test.", PORT)
        asker = ask.Asker(PORT)
        took = seconds_to(asker, "m5.test.", 80)
        asker.close()
        judge(took < 3, f"then a change is answered after {took:.2f} s")
    finally:
        server.process.send_signal(signal.SIGTERM)
        server.process.wait(20)
        primary.close()


PARTS = (notifies, primaries, sockets, stops, clients, addresses, log)


def main():
    reader = argparse.ArgumentParser(description=__doc__.splitlines()[0])
    reader.add_argument("--catzd", default=servers.Catzd.program)
    reader.add_argument("parts", nargs="*")
    words = reader.parse_args()
    servers.Catzd.choose(words.catzd)
    resource.setrlimit(resource.RLIMIT_NOFILE, (4096, max(4096, resource.getrlimit(resource.RLIMIT_NOFILE)[1])))
    for part in PARTS:
        if words.parts and part.__name__ not in words.parts:
            continue
        print(f"{part.__name__}: {part.__doc__}", flush=True)
        with tempfile.TemporaryDirectory() as folder:
            part(pathlib.Path(folder))
    print(f"{len(FAULTS)} faults")
    sys.exit(1 if FAULTS else 0)


if __name__ == "__main__":
    main()
