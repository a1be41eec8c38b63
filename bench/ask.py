"""What is asked of a running server: until it answers, how fast it answers, and what that costs it."""
import collections
import gc
import re
import select
import socket
import subprocess
import time

import wire


class TooLate(Exception):
    """What was waited for didn't come."""


def is_address(message, rdata=None):
    """Whether a reply has an address, this one where one is told."""
    return message.code == wire.NOERROR and any(
        record.kind == wire.A and rdata in (None, record.rdata) for record in message.answer)


class Asker:
    """A UDP socket that asks one server."""

    def __init__(self, port, address="127.0.0.1"):
        self.socket = socket.socket(socket.AF_INET, socket.SOCK_DGRAM)
        self.socket.setsockopt(socket.SOL_SOCKET, socket.SO_RCVBUF, 1 << 20)
        self.socket.connect((address, port))
        self.last = 0

    def ask(self, owner, kind=wire.A, limit=0.05):
        """The reply, or none within the limit in seconds."""
        self.last = (self.last + 1) & 0xFFFF
        self.socket.settimeout(limit)
        try:
            self.socket.send(wire.query(self.last, owner, kind))
            while True:
                message = wire.read_message(self.socket.recv(65_535))
                if message.identity == self.last:
                    return message
        except (TimeoutError, ConnectionError):
            return None

    def wait(self, owner, is_right=is_address, limit=120, pause=0.0005):
        """The moment at which the reply is right for the first time."""
        end = time.monotonic() + limit
        while time.monotonic() < end:
            message = self.ask(owner)
            if message is not None and is_right(message):
                return time.monotonic()
            time.sleep(pause)
        raise TooLate(owner)

    def wait_reply(self, owner, kind=wire.A, limit=20):
        """The first reply, whatever it says."""
        end = time.monotonic() + limit
        while time.monotonic() < end:
            message = self.ask(owner, kind)
            if message is not None:
                return message
            time.sleep(0.001)
        raise TooLate(owner)

    def wait_all(self, owners, limit=300):
        """The moment at which each of the names has an address. Those that have none yet are asked again."""
        left, end = list(owners), time.monotonic() + limit
        while left and time.monotonic() < end:
            batch, answered = left[:200], set()
            for owner in batch:
                message = self.ask(owner)
                if message is None or not is_address(message):
                    break
                answered.add(owner)
            left = left[len(answered):]
            if len(answered) < len(batch):
                left = left[1:] + left[:1]
                time.sleep(0.005)
        if left:
            raise TooLate(f"{len(left)} names")
        return time.monotonic()

    def close(self):
        self.socket.close()


def tcp_times(port, owner, count, limit=15):
    """Seconds from the dial to the reply of so many queries, each over a connection of its own, until one takes too
    long, whose time is the limit."""
    times = []
    for number in range(count):
        begun = time.monotonic()
        try:
            with socket.create_connection(("127.0.0.1", port), timeout=limit) as stream:
                stream.sendall(wire.frame(wire.query(number + 1, owner, wire.A)))
                read_frame(stream)
        except OSError:
            return times + [limit]
        times.append(time.monotonic() - begun)
        if times[-1] > 1:
            break
    return times


def read_octets(stream):
    """The octets of the next message of a stream."""
    held = b""
    while len(held) < 2 or len(held) < 2 + int.from_bytes(held[:2], "big"):
        octets = stream.recv(65_537)
        if not octets:
            raise ConnectionError("the server closed the connection")
        held += octets
    return held[2:]


def read_frame(stream):
    """The next message of a stream."""
    return wire.read_message(read_octets(stream))


def transfer(port, zone, kind=wire.AXFR, source="127.0.0.1", limit=60):
    """The messages of a transfer, up to the one with the closing SOA record or with an error, and how many octets they
    have with their lengths. What has come is read before a message is, since a server may give up on a slow reader."""
    messages, held, at, left, is_open = [], bytearray(), 0, 2, True
    with socket.create_connection(("127.0.0.1", port), timeout=limit, source_address=(source, 0)) as stream:
        stream.sendall(wire.frame(wire.query(4711, zone, kind)))
        while left > 0:
            end = at + 2 + int.from_bytes(held[at:at + 2], "big")
            is_whole = at + 2 <= len(held) and end <= len(held)
            if is_open and (not is_whole or select.select([stream], [], [], 0)[0]):
                octets = stream.recv(1 << 20)
                is_open = bool(octets)
                held += octets
            elif not is_whole:
                raise ConnectionError(f"the server at port {port} closed the connection")
            else:
                messages.append(wire.read_message(bytes(held[at + 2:end])))
                at = end
                left -= sum(record.kind == wire.SOA for record in messages[-1].answer)
                if messages[-1].code or not messages[-1].answer:
                    break
    return messages, at


def read_all(port, zone, octets, limit=60):
    """Seconds from the request for a zone to the last of so many octets, of which nothing is looked at."""
    room = memoryview(bytearray(1 << 20))
    with socket.create_connection(("127.0.0.1", port), timeout=limit) as stream:
        begun = time.monotonic()
        stream.sendall(wire.frame(wire.query(1, zone, wire.AXFR)))
        while octets > 0:
            got = stream.recv_into(room)
            if not got:
                raise ConnectionError("the server closed the connection")
            octets -= got
        return time.monotonic() - begun


class Steady:
    """Asks over UDP and over some TCP connections in turn, a query of each kind each millisecond, whether replies come or
    not. A reply's time counts from the moment at which its query was due, also where the server closed the connection and
    it was asked again."""
    GAP, CONNECTIONS = 0.001, 4

    def __init__(self, port, owner):
        self.owner, self.found = owner, []  # found: (transport, moment, seconds)
        self.datagrams = socket.socket(socket.AF_INET, socket.SOCK_DGRAM)
        self.datagrams.connect(("127.0.0.1", port))
        self.streams = [socket.create_connection(("127.0.0.1", port)) for _ in range(self.CONNECTIONS)]
        self.sockets = [self.datagrams, *self.streams]
        for one in self.streams:
            one.setsockopt(socket.IPPROTO_TCP, socket.TCP_NODELAY, 1)
        self.due = {}  # the identity of a query over UDP -> when it was due
        self.waiting = {stream: collections.deque() for stream in self.streams}
        self.held = dict.fromkeys(self.streams, b"")
        self.port, self.renewed = port, 0  # renewed: how many connections the server closed

    def run(self, process, grace=2):
        """Asks until a process has ended, and then waits for the last replies. It answers how many never came."""
        gc.disable()
        start, count = time.monotonic(), 0
        while process.poll() is None:
            due = start + self.GAP * count
            self.read_until(due)
            self.ask(due, count)
            count += 1
        self.read_until(time.monotonic() + grace)
        gc.enable()
        for one in self.sockets:
            one.close()
        return len(self.due) + sum(map(len, self.waiting.values()))

    def ask(self, due, count):
        query = wire.query(count & 0xFFFF, self.owner, wire.A)
        stream = self.streams[count % self.CONNECTIONS]
        self.due[count & 0xFFFF] = due
        self.waiting[stream].append(due)
        self.datagrams.send(query)
        try:
            stream.sendall(wire.frame(query))
        except ConnectionError:
            self.renew(stream)

    def renew(self, stream):
        """Another connection in place of one that the server closed. What had no reply over it is asked again."""
        stream.close()
        other = socket.create_connection(("127.0.0.1", self.port))
        other.setsockopt(socket.IPPROTO_TCP, socket.TCP_NODELAY, 1)
        self.streams[self.streams.index(stream)] = self.sockets[self.sockets.index(stream)] = other
        self.waiting[other], self.held[other] = self.waiting.pop(stream), b""
        del self.held[stream]
        other.sendall(wire.frame(wire.query(0, self.owner, wire.A)) * len(self.waiting[other]))
        self.renewed += 1

    def read_until(self, moment):
        while True:
            left = moment - time.monotonic()
            ready, _, _ = select.select(self.sockets, [], [], max(left, 0))
            for one in ready:
                self.read(one)
            if left <= 0 or not ready:
                return

    def read(self, one):
        try:
            octets, now = one.recv(65_536), time.monotonic()
        except ConnectionResetError:
            octets = b""
        if not octets:
            self.renew(one)
            return
        if one is self.datagrams:
            self.note("UDP", self.due.pop(int.from_bytes(octets[:2], "big"), now), now)
            return
        held, at = self.held[one] + octets, 0
        while at + 2 <= len(held) and at + 2 + int.from_bytes(held[at:at + 2], "big") <= len(held):
            at += 2 + int.from_bytes(held[at:at + 2], "big")
            self.note("TCP", self.waiting[one].popleft(), now)
        self.held[one] = held[at:]

    def note(self, transport, due, now):
        self.found.append((transport, due, now - due))

    def times(self, transport, is_within):
        """Sorted times of the replies over UDP or TCP whose queries were due at such moments."""
        return sorted(seconds for kind, due, seconds in self.found if kind == transport and is_within(due))


def idle_clients(port, owner, count):
    """So many connections, forty from an address, that asked once and are then left idle; fewer where the server accepts
    no more."""
    streams = []
    try:
        for at in range(count):
            streams.append(socket.create_connection(("127.0.0.1", port), 0.5, (f"127.0.1.{1 + at // 40}", 0)))
            streams[-1].sendall(wire.frame(wire.query(1, owner, wire.A)))
        for stream in streams:
            read_frame(stream)
    except OSError:
        pass
    return streams


def dnsperf(server, queries, seconds, connections=0, dnssec=False):
    """Queries a second by dnsperf, and microseconds of the server's CPU for each, or infinity where few were
    answered: over UDP, or TCP connections, with the DO bit or without."""
    words = ["dnsperf", "-s", "127.0.0.1", "-p", str(server.port), "-d", queries, "-l", str(seconds), "-e", "-q", "200"]
    words += ["-m", "tcp", "-c", str(connections)] if connections else ["-c", "20"]
    words += ["-D"] if dnssec else []
    before = server.cpu()
    done = subprocess.run([*words, "-T", "2", "-t", "2"], capture_output=True, text=True)
    spent = server.cpu() - before
    found = re.search(r"Queries completed:\s+(\d+)", done.stdout)
    count = int(found.group(1)) if found else 0
    rate = re.search(r"Queries per second:\s+([\d.]+)", done.stdout)
    return (float(rate.group(1)) if rate else 0.0), (spent / count * 1e6 if count > 10_000 else float("inf"))
