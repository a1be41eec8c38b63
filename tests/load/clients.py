"""Clients over TCP and UDP that ask for member zones and hold each reply against their stories."""
import random
import selectors
import socket
import time

import story
import wire

FAST, PIPELINING, SLOW, IDLE = "fast", "pipelining", "slow", "idle"
SHARES = ((FAST, 0.1), (PIPELINING, 0.05), (SLOW, 0.55), (IDLE, 0.3))
RESTS = {FAST: 0.05, PIPELINING: 0.5, SLOW: 0.5, IDLE: 3600.0}  # seconds from a reply to the next query
TYPES = (("h0", wire.TXT), ("h3", wire.TXT), ("x.wild", wire.TXT), ("", wire.SOA), ("nothing", wire.A), ("h1", wire.MX))
LIMIT = 10  # seconds that a fast client waits at the most
ADDRESSES = 10  # from which clients connect in turn, since of one address there may be 100 connections


class Client:
    """A TCP connection that asks again and again, and is made anew where the server closes it."""

    def __init__(self, crowd, kind):
        self.crowd, self.kind, self.last = crowd, kind, 0
        self.pace = crowd.random.uniform(0.02, 0.6) if kind == SLOW else 0  # seconds from one octet to the next
        self.stream, self.due = None, time.monotonic() + crowd.random.random() * 3

    def is_fast(self):
        return self.kind in (FAST, PIPELINING)

    def connect(self):
        source = f"127.0.5.{self.crowd.connections % ADDRESSES + 1}"
        self.stream = socket.create_connection(("127.0.0.1", self.crowd.port), timeout=5, source_address=(source, 0))
        self.stream.setblocking(False)
        self.crowd.selector.register(self.stream, selectors.EVENT_READ, self)
        self.unsent, self.heard, self.asked, self.cursors = b"", b"", [], {}
        self.crowd.connections += 1

    def drop(self):
        if self.stream is not None:
            self.crowd.selector.unregister(self.stream)
            self.stream.close()
        self.stream, self.due = None, time.monotonic() + 0.2

    def act(self, now):
        """Sends what is due."""
        if self.is_fast() and self.stream is not None and self.asked and now - self.asked[0][1] > LIMIT:
            self.crowd.faults.append(f"a {self.kind} client got no reply in {LIMIT} s")
            self.drop()
        if now < self.due:
            return
        try:
            if self.stream is None:
                self.connect()
            if not self.asked:
                self.unsent = b"".join(self.query() for _ in range(20 if self.kind == PIPELINING else 1))
            self.send(now)
        except OSError:
            self.drop()

    def send(self, now):
        """Sends an octet, or all that is unsent. Behind the last one the replies are waited for."""
        if self.unsent:
            piece = self.unsent[:1] if self.pace else self.unsent
            self.unsent = self.unsent[self.stream.send(piece):]
            self.asked = [(identity, now, member) for identity, _, member in self.asked]
        self.due = now + (self.pace if self.unsent else 1)

    def query(self):
        """A query for a member, as it goes over TCP; it is noted as asked."""
        member = self.crowd.random.choice(self.crowd.members)
        label, kind = self.crowd.random.choice(TYPES)
        self.last = (self.last + 1) & 0xFFFF
        self.asked.append((self.last, time.monotonic(), member))
        owner = f"{label}.{member.zone.apex}" if label else member.zone.apex
        return wire.frame(wire.query(self.last, owner, kind))

    def hear(self, now):
        try:
            octets = self.stream.recv(65_536)
        except OSError:
            octets = b""
        if not octets:
            self.crowd.closed[self.kind] += 1
            self.drop()
            return
        self.heard += octets
        while len(self.heard) > 2 and len(self.heard) >= 2 + int.from_bytes(self.heard[:2], "big"):
            length = int.from_bytes(self.heard[:2], "big")
            reply, self.heard = self.heard[2:2 + length], self.heard[2 + length:]
            self.judge(reply, now)

    def judge(self, reply, now):
        """A reply comes in the order of the queries, and never tells of an older state than one before."""
        identity, asked_at, member = self.asked.pop(0)
        message = wire.read_message(reply)
        if message.identity != identity:
            raise story.Wrong(f"ID {message.identity} in place of {identity}")
        cursor = self.cursors.setdefault(member.zone.apex, story.Cursor(member))
        cursor.see(story.said_by(message))
        self.crowd.replies += 1
        if self.is_fast():
            self.crowd.waits.append(now - asked_at)
        if not self.asked:
            self.due = now + RESTS[self.kind]


class Crowd:
    """All clients of one server."""

    def __init__(self, port, members, count, seed):
        self.port, self.members, self.random = port, members, random.Random(seed)
        self.selector, self.faults = selectors.DefaultSelector(), []
        self.replies = self.connections = self.datagrams = self.lost = 0
        self.waits, self.closed = [], dict.fromkeys(RESTS, 0)
        self.clients = [Client(self, kind) for kind, share in SHARES for _ in range(round(share * count))]
        self.socket = socket.socket(socket.AF_INET, socket.SOCK_DGRAM)
        self.socket.connect(("127.0.0.1", port))
        self.socket.settimeout(1)

    def turn(self):
        """Each client does what is due, and hears what came within a hundredth of a second."""
        for client in self.clients:
            client.act(time.monotonic())
        for key, _ in self.selector.select(0.01):
            try:
                if key.data.stream is key.fileobj:
                    key.data.hear(time.monotonic())
            except (story.Wrong, wire.Malformed, IndexError) as error:
                self.faults.append(f"{key.data.kind} client: {error!r}")
                key.data.drop()
        self.ask_once()

    def ask_once(self):
        """A query over UDP, whose reply is that of some state so far."""
        member, identity = self.random.choice(self.members), self.datagrams + self.lost & 0xFFFF
        try:
            self.socket.send(wire.query(identity, f"h2.{member.zone.apex}", wire.TXT))
            message = wire.read_message(self.socket.recv(65_535))
            while message.identity != identity:  # the reply to a query that counts as lost
                message = wire.read_message(self.socket.recv(65_535))
            story.Cursor(member).see(story.said_by(message))
            self.datagrams += 1
        except TimeoutError:
            self.lost += 1
        except (story.Wrong, wire.Malformed) as error:
            self.faults.append(f"over UDP: {error!r}")

    def close(self):
        for client in self.clients:
            client.drop()
