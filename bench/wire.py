"""The octets of DNS messages: how they are written, and a reader that refuses what is malformed (RFC 1035, 6891)."""
import struct
from dataclasses import dataclass

A, NS, CNAME, SOA, PTR, MX, TXT, AAAA, OPT, ZONEMD, IXFR, AXFR = 1, 2, 5, 6, 12, 15, 16, 28, 41, 63, 251, 252
DS, RRSIG, NSEC, DNSKEY = 43, 46, 47, 48
NOERROR, FORMERR, SERVFAIL, NXDOMAIN, NOTIMP, REFUSED, NOTAUTH = 0, 1, 2, 3, 4, 5, 9
RESPONSE, AUTHORITATIVE, TRUNCATED = 0x8000, 0x0400, 0x0200
NOTIFY_FLAGS, DNSSEC_OK = 0x2400, 0x8000
SOA_TIMES = (3600, 600, 604_800, 300)  # REFRESH, RETRY, EXPIRE and MINIMUM in seconds


class Malformed(Exception):
    """The octets are no message."""


def name(text):
    """The wire form of a name without escapes; its last dot may be missing."""
    labels = [label for label in text.lower().rstrip(".").encode().split(b".") if label]
    return b"".join(bytes([len(label)]) + label for label in labels) + b"\0"


def text_of(wire):
    """The text of a name's wire form, with escapes for octets that aren't printable."""
    labels, at = [], 0
    while wire[at]:
        label = wire[at + 1:at + 1 + wire[at]]
        labels.append("".join(chr(c) if 33 <= c < 127 and c not in b".\\" else f"\\{c:03}" for c in label))
        at += 1 + wire[at]
    return ".".join(labels) + "."


def canonical(wire):
    """The key of the canonical order of names (RFC 4034 section 6.1): the labels from the right."""
    labels, at = [], 0
    while wire[at]:
        labels.append(wire[at + 1:at + 1 + wire[at]])
        at += 1 + wire[at]
    return tuple(reversed(labels))


def soa(serial, times=SOA_TIMES):
    """The RDATA of an SOA record."""
    return name("ns.invalid.") + name("host.invalid.") + struct.pack(">5I", serial, *times)


def txt(text):
    """The RDATA of a TXT record of one string."""
    return bytes([len(text)]) + text.encode()


def query(identity, owner, kind, flags=0, edns=None, dnssec=False):
    """A query; `edns` is the payload size of an OPT record, where there is to be one, and `dnssec` its DO bit."""
    head = struct.pack(">6H", identity, flags, 1, 0, 0, 0 if edns is None else 1)
    opt = b"" if edns is None else b"\0" + struct.pack(">HHIH", OPT, edns, DNSSEC_OK if dnssec else 0, 0)
    return head + name(owner) + struct.pack(">HH", kind, 1) + opt


def frame(message):
    """A message as it goes over TCP."""
    return struct.pack(">H", len(message)) + message


@dataclass(frozen=True)
class Record:
    owner: bytes
    kind: int
    of_class: int
    ttl: int
    rdata: bytes


@dataclass
class Message:
    identity: int
    flags: int
    question: tuple  # (name, type, class), or None
    answer: list
    authority: list
    additional: list

    @property
    def code(self):
        """The response code, with the upper bits of an OPT record."""
        upper = [record.ttl >> 24 for record in self.additional if record.kind == OPT]
        return (self.flags & 15) | (upper[0] << 4 if upper else 0)


def read_name(octets, at):
    """The name at a place, and the place behind it. A pointer leads strictly before the piece that it ends."""
    labels, end, bound = b"", None, at
    while True:
        if at >= len(octets):
            raise Malformed("a name is cut short")
        length = octets[at]
        if length >= 0xC0:
            if at + 2 > len(octets):
                raise Malformed("a pointer is cut short")
            target = struct.unpack_from(">H", octets, at)[0] & 0x3FFF
            if target >= bound:
                raise Malformed("a pointer doesn't lead back")
            end, at, bound = end or at + 2, target, target
            continue
        if length > 63 or at + 1 + length > len(octets):
            raise Malformed("a label is none")
        labels += octets[at:at + 1 + length]
        at += 1 + length
        if len(labels) > 255:
            raise Malformed("a name is too long")
        if not length:
            return labels, end or at


def read_rdata(octets, at, end, kind):
    """RDATA with its names written out, where its type has names."""
    names = {NS: (0, 1), CNAME: (0, 1), PTR: (0, 1), SOA: (0, 2), MX: (2, 1)}.get(kind)
    if names is None:
        sizes = {A: 4, AAAA: 16}
        if kind in sizes and end - at != sizes[kind]:
            raise Malformed("an address has another length")
        return octets[at:end]
    front, count = names
    rdata, place = octets[at:at + front], at + front
    for _ in range(count):
        label, place = read_name(octets, place)
        rdata += label
    tail = octets[place:end]
    if place + len(tail) != end or len(tail) != (20 if kind == SOA else 0):
        raise Malformed("RDATA has another length")
    return rdata + tail


def read_record(octets, at):
    owner, at = read_name(octets, at)
    if at + 10 > len(octets):
        raise Malformed("a record is cut short")
    kind, of_class, ttl, length = struct.unpack_from(">HHIH", octets, at)
    at += 10
    if at + length > len(octets):
        raise Malformed("RDATA is cut short")
    return Record(owner, kind, of_class, ttl, read_rdata(octets, at, at + length, kind)), at + length


def read_message(octets):
    """The message that the octets are, to their last one."""
    if len(octets) < 12:
        raise Malformed("no header")
    identity, flags, *counts = struct.unpack_from(">6H", octets)
    if counts[0] > 1:
        raise Malformed("more than one question")
    at, question = 12, None
    if counts[0]:
        asked, at = read_name(octets, at)
        if at + 4 > len(octets):
            raise Malformed("the question is cut short")
        question, at = (asked, *struct.unpack_from(">HH", octets, at)), at + 4
    sections = []
    for count in counts[1:]:
        section = []
        for _ in range(count):
            record, at = read_record(octets, at)
            section.append(record)
        sections.append(section)
    if at != len(octets):
        raise Malformed("octets behind the end")
    return Message(identity, flags, question, *sections)
