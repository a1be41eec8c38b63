"""Zones as a primary holds them: their records, their serials, and the octets of their transfers (RFC 5936, 1995)."""
import hashlib
import struct
from dataclasses import dataclass, field

import wire

TO_APEX = b"\xc0\x0c"  # a pointer to the question's name, which is the apex in each transfer
MESSAGE = 16_000  # octets of records in one message of a transfer
KEPT = 50  # differences that are kept for IXFR


def piece(labels, kind, ttl, rdata):
    """A record of a transfer. `labels` is what its owner has in front of the apex, as text."""
    front = wire.name(labels)[:-1] if labels else b""
    return front + TO_APEX + struct.pack(">HHIH", kind, 1, ttl, len(rdata)) + rdata


def messages(identity, apex, kind, pieces):
    """The framed messages of a transfer with these records."""
    question = wire.name(apex) + struct.pack(">HH", kind, 1)
    framed, batch, size = [], [], 0

    def close():
        head = struct.pack(">6H", identity, 0x8400, 1, len(batch), 0, 0)
        framed.append(wire.frame(head + question + b"".join(batch)))

    for one in pieces:
        if size + len(one) > MESSAGE and batch:
            close()
            batch, size = [], 0
        batch.append(one)
        size += len(one)
    close()
    return b"".join(framed)


@dataclass
class Difference:
    """What leads from one serial to the next."""
    serial: int
    deleted: list
    added: list


@dataclass
class Zone:
    """A zone with its present records but the SOA, which its serial makes."""
    apex: str
    serial: int = 1
    times: tuple = wire.SOA_TIMES
    has_digest: bool = False
    records: dict = field(default_factory=dict)  # a record's octets in a transfer -> its place in canonical order
    differences: list = field(default_factory=list)
    _whole: tuple = (None, b"")  # the serial and the octets of the last whole transfer

    def put(self, labels, kind, rdata, ttl=3600):
        """Adds a record, before the first transfer."""
        self.records[piece(labels, kind, ttl, rdata)] = self._place(labels, kind, rdata)

    def soa(self, serial=None):
        """The SOA record of a serial."""
        return piece("", wire.SOA, 3600, wire.soa(serial or self.serial, self.times))

    def change(self, deleted, added):
        """Makes a new version: lists of (labels, type, RDATA) that go and come."""
        gone = [piece(labels, kind, 3600, rdata) for labels, kind, rdata in deleted]
        come = {piece(*one[:2], 3600, one[2]): self._place(*one) for one in added}
        before = [one for one in self.records if self._is_digest(one)] if self.has_digest else []
        for one in gone + before:
            del self.records[one]
        self.records.update(come)
        self.serial += 1
        self.seal()
        after = [one for one in self.records if self._is_digest(one)] if self.has_digest else []
        self.differences.append(Difference(self.serial - 1, gone + before, list(come) + after))
        del self.differences[:-KEPT]

    def seal(self):
        """Adds the ZONEMD record of the present records, where the zone has one (RFC 8976, SHA-384)."""
        if not self.has_digest:
            return
        soa = [(self._place("", wire.SOA, wire.soa(self.serial, self.times)), self.soa())]
        digest, apex = hashlib.sha384(), wire.name(self.apex)
        for _, one in sorted(soa + [(place, one) for one, place in self.records.items()]):
            at = one.index(TO_APEX) if not one.startswith(TO_APEX) else 0
            digest.update(one[:at] + apex + one[at + 2:])
        self.put("", wire.ZONEMD, struct.pack(">IBB", self.serial, 1, 1) + digest.digest())

    def whole(self, identity):
        """The octets of an AXFR reply."""
        if self._whole[0] != self.serial:
            stream = messages(0, self.apex, wire.AXFR, [self.soa(), *self.records, self.soa()])
            self._whole = (self.serial, stream)
        return with_identity(self._whole[1], identity)

    def since(self, identity, serial):
        """The octets of an IXFR reply to who has this serial."""
        if serial == self.serial:
            return messages(identity, self.apex, wire.IXFR, [self.soa()])
        known = [i for i, one in enumerate(self.differences) if one.serial == serial]
        if not known:
            return messages(identity, self.apex, wire.IXFR, [self.soa(), *self.records, self.soa()])
        pieces = [self.soa()]
        for one in self.differences[known[0]:]:
            pieces += [self.soa(one.serial), *one.deleted, self.soa(one.serial + 1), *one.added]
        return messages(identity, self.apex, wire.IXFR, [*pieces, self.soa()])

    def _place(self, labels, kind, rdata):
        owner = f"{labels}.{self.apex}" if labels else self.apex
        return wire.canonical(wire.name(owner)), kind, rdata

    def _is_digest(self, one):
        return one.startswith(TO_APEX + struct.pack(">H", wire.ZONEMD))


def with_identity(stream, identity):
    """A stream of framed messages with another ID in each."""
    if not identity:
        return stream
    changed, at, two = bytearray(stream), 0, struct.pack(">H", identity)
    while at < len(changed):
        changed[at + 2:at + 4] = two
        at += 2 + struct.unpack_from(">H", changed, at)[0]
    return bytes(changed)


def address(number):
    """An address of 10.0.0.0/8 as RDATA."""
    return struct.pack(">I", (10 << 24) + number)


def member(apex, serial=1):
    """A small zone: a name server, an address, a wildcard and an alias."""
    zone = Zone(apex, serial)
    zone.put("", wire.NS, wire.name(f"ns.{apex}"))
    zone.put("ns", wire.A, address(53))
    zone.put("www", wire.A, address(1))
    zone.put("*.wild", wire.A, address(2))
    zone.put("alias", wire.CNAME, wire.name(f"www.{apex}"))
    return zone


def large(apex, count, has_digest=False):
    """A zone of so many addresses, h000000 and on."""
    zone = Zone(apex, has_digest=has_digest)
    zone.put("", wire.NS, wire.name(f"ns.{apex}"))
    zone.put("ns", wire.A, address(53))
    for number in range(count):
        zone.put(f"h{number:06}", wire.A, address(number))
    zone.seal()
    return zone


def count_labels(labels, apex):
    """The labels of an owner as an RRSIG record counts them (RFC 4034 section 3.1.3)."""
    return len([label for label in f"{labels}.{apex}".split(".") if label not in ("", "*")])


def signature(apex, labels, kind, ttl):
    """The RDATA of an RRSIG record in the form of ECDSA (RFC 4034 section 3.1). The signature is made up."""
    octets = hashlib.sha512(f"{labels} {kind}".encode()).digest()
    return struct.pack(">HBBIIIH", kind, 13, count_labels(labels, apex), ttl, 2_000_000_000, 1_700_000_000, 4711) \
        + wire.name(apex) + octets


def type_map(kinds):
    """The types at an owner as an NSEC record has them (RFC 4034 section 4.1.2), all below 256."""
    octets = bytearray(max(kinds) // 8 + 1)
    for kind in kinds:
        octets[kind // 8] |= 0x80 >> kind % 8
    return bytes([0, len(octets)]) + bytes(octets)


def signed(apex, count):
    """A zone of so many addresses, h000000 and on, with a wildcard, a signed and an unsigned delegation, in the form of
    one that is signed with NSEC. Nobody can verify it."""
    zone, held = Zone(apex), {}

    def put(labels, kind, rdata, is_signed=True):
        ttl = wire.SOA_TIMES[3] if kind == wire.NSEC else 3600
        if kind != wire.SOA:
            zone.put(labels, kind, rdata, ttl)
        if is_signed:
            zone.put(labels, wire.RRSIG, signature(apex, labels, kind, ttl), ttl)
        held.setdefault(labels, set()).add(kind)

    put("", wire.SOA, b"")
    put("", wire.NS, wire.name(f"ns.{apex}"))
    put("", wire.DNSKEY, struct.pack(">HBB", 257, 3, 13) + bytes(range(64)))
    put("ns", wire.A, address(53))
    put("*.w", wire.A, address(2))
    for cut, is_signed in (("s", True), ("o", False)):
        put(cut, wire.NS, wire.name(f"ns.{cut}.{apex}"), False)
        if is_signed:
            put(cut, wire.DS, struct.pack(">HBB", 4711, 13, 2) + hashlib.sha256(cut.encode()).digest())
    for number in range(count):
        put(f"h{number:06}", wire.A, address(number))
    owners = sorted(held, key=lambda labels: wire.canonical(wire.name(f"{labels}.{apex}")))
    for labels, after in zip(owners, owners[1:] + owners[:1]):
        kinds = held[labels] | {wire.RRSIG, wire.NSEC}
        put(labels, wire.NSEC, wire.name(f"{after}.{apex}") + type_map(kinds))
    for cut in ("s", "o"):
        zone.put(f"ns.{cut}", wire.A, address(3))
    return zone


def catalog(apex, members):
    """A catalog zone of version 2 (RFC 9432) whose members are named m1, m2 and on."""
    zone = Zone(apex)
    zone.put("", wire.NS, wire.name("invalid."))
    zone.put("version", wire.TXT, wire.txt("2"))
    for number, one in enumerate(members, 1):
        zone.put(f"m{number}.zones", wire.PTR, wire.name(one))
    return zone
