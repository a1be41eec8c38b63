"""A primary that serves zones to secondaries over loopback: SOA, AXFR, IXFR, NOTIFY, and ways to misbehave."""
import random
import selectors
import socket
import struct
import threading
from dataclasses import dataclass, field

import wire

GOOD, BREAK, RESET, STALL, SILENT, GARBAGE = "good", "break", "reset", "stall", "silent", "garbage"
MODES = (GOOD, BREAK, RESET, STALL, SILENT, GARBAGE)


@dataclass
class Client:
    """A TCP connection: what it sent so far, what waits to be sent to it, and what comes behind that."""
    stream: socket.socket
    heard: bytes = b""
    unsent: memoryview = field(default_factory=lambda: memoryview(b""))
    ending: str = GOOD
    wanted: int = selectors.EVENT_READ


class Primary:
    """Zones at one address, which a thread of its own serves until `close`. `mode` says how transfers go. Who changes a
    zone holds `lock`, which primaries of the same zones share."""

    def __init__(self, port, address="127.0.0.1", lock=None):
        self.zones, self.mode, self.transfers = {}, GOOD, 0
        self.lock, self.random, self.stopped = lock or threading.Lock(), random.Random(port), False
        self.datagrams = socket.socket(socket.AF_INET, socket.SOCK_DGRAM)
        self.datagrams.bind((address, port))
        self.listener = socket.create_server((address, port), backlog=1000)
        self.selector = selectors.DefaultSelector()
        for one in (self.datagrams, self.listener):
            one.setblocking(False)
            self.selector.register(one, selectors.EVENT_READ)
        self.thread = threading.Thread(target=self._serve, daemon=True)
        self.thread.start()

    def hold(self, *zones):
        """Serves these zones too."""
        with self.lock:
            self.zones.update({wire.name(zone.apex): zone for zone in zones})

    def notify(self, apex, port, address="127.0.0.1"):
        """Tells a secondary of a change (RFC 1996)."""
        self.datagrams.sendto(wire.query(self.random.randrange(65536), apex, wire.SOA, wire.NOTIFY_FLAGS),
                              (address, port))

    def close(self):
        self.stopped = True
        self.thread.join()
        for key in list(self.selector.get_map().values()):
            key.fileobj.close()
        self.selector.close()

    def _serve(self):
        while not self.stopped:
            for key, events in self.selector.select(0.2):
                if key.fileobj is self.datagrams:
                    self._answer_datagram()
                elif key.fileobj is self.listener:
                    self._accept()
                else:
                    self._go_on(key.data, events)

    def _accept(self):
        """Accepts a connection, and hears at once what came with it."""
        try:
            stream, _ = self.listener.accept()
        except OSError:
            return
        stream.setblocking(False)
        stream.setsockopt(socket.IPPROTO_TCP, socket.TCP_NODELAY, 1)
        client = Client(stream)
        self.selector.register(stream, selectors.EVENT_READ, client)
        self._go_on(client, selectors.EVENT_READ)

    def _answer_datagram(self):
        try:
            request, peer = self.datagrams.recvfrom(65_535)
            if len(request) > 12 and not request[2] & 0x80:
                self.datagrams.sendto(self._reply(request, False), peer)
        except (OSError, wire.Malformed):
            pass

    def _go_on(self, client, events):
        try:
            if events & selectors.EVENT_READ:
                self._hear(client)
            self._send(client)
        except (OSError, wire.Malformed):
            self._drop(client)

    def _hear(self, client):
        try:
            octets = client.stream.recv(65_536)
        except BlockingIOError:
            return
        if not octets:
            raise OSError("closed")
        client.heard += octets
        while len(client.heard) > 2 and len(client.heard) >= 2 + int.from_bytes(client.heard[:2], "big"):
            length = int.from_bytes(client.heard[:2], "big")
            request, client.heard = client.heard[2:2 + length], client.heard[2 + length:]
            client.ending, stream = self._spoil(self._reply(request, True))
            client.unsent = memoryview(bytes(client.unsent) + stream)

    def _spoil(self, stream):
        """What is sent of a stream by the mode, and what comes behind it."""
        if self.mode == SILENT:
            return STALL, b""
        if self.mode == GARBAGE:
            return GARBAGE, self.random.randbytes(self.random.randrange(1, 3000))
        if self.mode == GOOD:
            return GOOD, stream
        return self.mode, stream[:self.random.randrange(len(stream))]

    def _send(self, client):
        if client.unsent:
            try:
                client.unsent = client.unsent[client.stream.send(client.unsent):]
            except BlockingIOError:
                pass
        if not client.unsent and client.ending in (BREAK, RESET, GARBAGE):
            if client.ending == RESET:
                client.stream.setsockopt(socket.SOL_SOCKET, socket.SO_LINGER, struct.pack("ii", 1, 0))
            raise OSError("ended by the mode")
        wanted = selectors.EVENT_READ | (selectors.EVENT_WRITE if client.unsent else 0)
        if wanted != client.wanted:
            self.selector.modify(client.stream, wanted, client)
            client.wanted = wanted

    def _drop(self, client):
        self.selector.unregister(client.stream)
        client.stream.close()

    def _reply(self, request, is_stream):
        identity, flags = struct.unpack_from(">HH", request)
        asked, at = wire.read_name(request, 12)
        kind = struct.unpack_from(">H", request, at)[0]
        with self.lock:
            zone = self.zones.get(asked.lower())
            if zone is None:
                reply = struct.pack(">6H", identity, 0x8005, 1, 0, 0, 0) + request[12:at + 4]
                return wire.frame(reply) if is_stream else reply
            if is_stream and kind in (wire.AXFR, wire.IXFR):
                self.transfers += 1
                return zone.whole(identity) if kind == wire.AXFR else zone.since(identity, held_serial(request, at + 4))
            reply = struct.pack(">6H", identity, 0x8400 | flags & 0x0100, 1, 1, 0, 0) + request[12:at + 4] + zone.soa()
            return wire.frame(reply) if is_stream else reply


def held_serial(request, at):
    """The serial of the SOA record in the authority section of an IXFR query."""
    record, _ = wire.read_record(request, at)
    return struct.unpack(">I", record.rdata[-20:-16])[0]
