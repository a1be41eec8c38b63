"""TSIG (RFC 8945) as a primary and a client have it: messages with a signature, and a reader of a signed stream.

Nothing here is taken from catzd: a signature is made and compared with `hmac` of Python.
"""
import base64
import hmac
import struct
from dataclasses import dataclass, replace

import wire

TSIG, CLASS_ANY = 250, 255
BADSIG, BADKEY, BADTIME = 16, 17, 18
FUDGE, UNSIGNED = 300, 99  # seconds; the most messages in a row without a TSIG (section 5.3.1)
HASHES = {"hmac-sha256": "sha256", "hmac-sha512": "sha512"}


class Wrong(Exception):
    """A stream whose signatures aren't right, and why."""


@dataclass(frozen=True)
class Key:
    """A key that a primary and a secondary share."""
    name: str
    secret: bytes
    algorithm: str = "hmac-sha256"

    @property
    def hex(self):
        return self.secret.hex()

    @property
    def base64(self):
        return base64.b64encode(self.secret).decode()


@dataclass(frozen=True)
class Signature:
    """The fields of a TSIG record (section 4.2)."""
    owner: bytes
    algorithm: bytes
    time: int
    fudge: int
    mac: bytes
    identity: int
    error: int = 0
    other: bytes = b""

    def times(self):
        """What a later message's MAC is of beside the message (section 5.3.1)."""
        return self.time.to_bytes(6, "big") + struct.pack(">H", self.fudge)

    def variables(self):
        """What that of a query and of a first message is of (section 4.3.3)."""
        return self.owner.lower() + struct.pack(">HI", CLASS_ANY, 0) + self.algorithm.lower() + self.times() \
            + struct.pack(">HH", self.error, len(self.other)) + self.other

    def record(self, less=0):
        """The record, whose RDATA lacks its last octets where `less` says so."""
        rdata = self.algorithm + self.times() + struct.pack(">H", len(self.mac)) + self.mac \
            + struct.pack(">HHH", self.identity, self.error, len(self.other)) + self.other
        rdata = rdata[:len(rdata) - less]
        return self.owner + struct.pack(">HHIH", TSIG, CLASS_ANY, 0, len(rdata)) + rdata


def counted(message, more):
    """A message whose count of additional records is another."""
    return message[:10] + struct.pack(">H", struct.unpack_from(">H", message, 10)[0] + more) + message[12:]


def with_record(message, record):
    return counted(message, 1) + record


def split(message):
    """A message without its TSIG, and that; None where its last record is none."""
    counts, at, last, kind = struct.unpack_from(">4H", message, 4), 12, 12, 0
    for _ in range(counts[0]):
        at = wire.read_name(message, at)[1] + 4
    for _ in range(sum(counts[1:])):
        last, at = at, wire.read_name(message, at)[1]
        kind, length = struct.unpack_from(">H6xH", message, at)
        at += 10 + length
    if kind != TSIG or not counts[3]:
        return message, None
    owner, place = wire.read_name(message, last)
    algorithm, place = wire.read_name(message, place + 10)
    high, low, fudge, size = struct.unpack_from(">HIHH", message, place)
    place += 10 + size
    identity, error, more = struct.unpack_from(">HHH", message, place)
    return counted(message[:last], -1), Signature(owner, algorithm, high << 32 | low, fudge, message[place - size:place],
                                                  identity, error, message[place + 6:place + 6 + more])


def front(mac):
    """A MAC with its length, which the next one is of."""
    return struct.pack(">H", len(mac)) + mac


def mac_of(key, before, message, signature, is_first):
    text = before + message + (signature.variables() if is_first else signature.times())
    return hmac.digest(key.secret, text, HASHES[key.algorithm])


def signed(key, message, moment, before=b"", is_first=True, **fields):
    """A message with a TSIG, and its MAC; `fields` are those of the TSIG that are others."""
    signature = replace(Signature(wire.name(key.name), wire.name(key.algorithm), moment, FUDGE, b"",
                                  struct.unpack_from(">H", message)[0]), **fields)
    mac = mac_of(key, before, message, signature, is_first)
    return with_record(message, replace(signature, mac=mac).record()), mac


def signed_stream(key, request, messages, moment, is_signed=lambda number: True, **fields):
    """Messages without a TSIG as the answer to a query with this MAC. The first and the last one are signed, and those
    between where `is_signed` says so. `moment` and each of `fields` is a value, or a function of a message's number."""
    def at(value, number):
        return value(number) if callable(value) else value

    before, out = front(request), []
    for number, message in enumerate(messages):
        if number in (0, len(messages) - 1) or is_signed(number):
            one, mac = signed(key, message, at(moment, number), before, number == 0,
                              **{word: at(value, number) for word, value in fields.items()})
            out.append(one)
            before = front(mac)
        else:
            out.append(message)
            before += message
    return out


@dataclass
class Seen:
    """What a stream's signatures are."""
    messages: int = 0
    signed: int = 0
    in_a_row: int = 0  # the most messages in a row without a TSIG
    octets: int = 0
    fudges: tuple = ()
    form: str = ""  # what the answer is

    def __str__(self):
        each = "each signed" if self.messages == self.signed else \
            f"{self.signed} of them signed, at most {self.in_a_row} in a row not"
        fudges = ", ".join(map(str, self.fudges))
        return f"{self.form}, {self.messages} message{'s' * (self.messages != 1)} of {self.octets} octets, {each}, " \
               f"fudge {fudges}"


def read_stream(key, request, messages, moment):
    """What the signatures of an answer are, or `Wrong` (section 5.3.1)."""
    seen, before, row, time = Seen(len(messages), octets=sum(map(len, messages))), front(request), 0, None
    for number, message in enumerate(messages):
        bare, signature = split(message)
        if signature is None:
            row += 1
            seen.in_a_row = max(seen.in_a_row, row)
            if number in (0, len(messages) - 1) or row > UNSIGNED:
                raise Wrong(f"message {number + 1} of {len(messages)} has no TSIG")
            before += message
            continue
        if signature.owner.lower() != wire.name(key.name) or signature.algorithm.lower() != wire.name(key.algorithm):
            raise Wrong(f"message {number + 1} has the key {wire.text_of(signature.owner)}")
        original = struct.pack(">H", signature.identity) + bare[2:]
        if not hmac.compare_digest(mac_of(key, before, original, signature, number == 0), signature.mac):
            raise Wrong(f"the MAC of message {number + 1} of {len(messages)} is another")
        if abs(signature.time - moment) > signature.fudge or time is not None and signature.time < time:
            raise Wrong(f"the time of message {number + 1} is {signature.time}")
        if signature.error:
            raise Wrong(f"message {number + 1} has the error {signature.error}")
        seen.signed, row, time, before = seen.signed + 1, 0, signature.time, front(signature.mac)
        seen.fudges = tuple(sorted({*seen.fudges, signature.fudge}))
    return seen
