"""A relay between catzd and its primary that reads the signatures of each query and answer, and may change the answer."""
import socket
import struct
import threading
import time
from dataclasses import replace

import ask
import tap
import tsig
import wire


def serial_of(record):
    """The serial of an SOA record."""
    return struct.unpack(">I", record.rdata[-20:-16])[0]


class Query:
    """A query for a transfer, and its TSIG."""

    def __init__(self, octets):
        self.octets, (self.bare, self.signature) = octets, tsig.split(octets)
        message = wire.read_message(self.bare)
        self.zone, self.kind, _ = message.question
        self.held = serial_of(message.authority[0]) if message.authority else None

    @property
    def mac(self):
        return self.signature.mac if self.signature else b""

    @property
    def words(self):
        return f"{wire.text_of(self.zone)} {tap.KINDS[self.kind]}"

    def key_of(self, keys):
        """That of these keys which it is signed with; one with its name where the MAC is that of none."""
        named = [key for key in keys if self.signature and self.signature.owner == wire.name(key.name)]
        right = [key for key in named if tsig.mac_of(key, b"", self.bare, self.signature, True) == self.mac]
        return (right + named + [None])[0]

    def faults(self, key, now):
        """What is wrong with its TSIG, seen by who shares the key."""
        one = self.signature
        if one is None:
            return ["has no TSIG"]
        identity = struct.unpack_from(">H", self.bare)[0]
        seen = (one.owner, one.algorithm, one.fudge, one.identity, one.error, one.other)
        wanted = (wire.name(key.name), wire.name(key.algorithm), tsig.FUDGE, identity, 0, b"")
        faults = [] if seen == wanted else [f"has the TSIG {one}"]
        if tsig.mac_of(key, b"", self.bare, one, True) != one.mac:
            faults.append("has another MAC")
        return faults + ([] if 0 <= now - one.time <= 5 else [f"was signed at {one.time}, {now - one.time} s ago"])


class End:
    """Finds the last message of an answer (RFC 5936, 1995)."""

    def __init__(self, query):
        self.query, self.first, self.seen, self.records, self.wanted = query, None, 0, 0, 2

    def is_last(self, octets):
        message = wire.read_message(octets)
        for record in message.answer:
            self.records += 1
            if record.kind == wire.SOA:
                self.first = serial_of(record) if self.first is None else self.first
                self.seen += serial_of(record) == self.first
                if self.records == 2 and self.query.kind == wire.IXFR and serial_of(record) != self.first:
                    self.wanted = 3
        is_none = message.code or not message.answer
        is_same = self.records == 1 and self.query.kind == wire.IXFR and self.first == self.query.held
        return bool(is_none or is_same or self.seen == self.wanted)

    @property
    def form(self):
        """What the answer is, once it has ended."""
        return {1: "nothing new", 2: "the whole zone", 3: "differences"}[self.seen]


class Answer:
    """What a primary answers to a signed query."""

    def __init__(self, query, key, messages, version):
        self.query, self.key, self.messages, self.version = query, key, messages, version

    def bare(self):
        return [tsig.split(message)[0] for message in self.messages]

    def places(self):
        """The numbers of the messages that have a TSIG."""
        return [number for number, one in enumerate(self.messages) if tsig.split(one)[1]]

    def again(self, key=None, request=None, moment=None, **how):
        """Signed anew, another way."""
        now = int(time.time()) if moment is None else moment
        return tsig.signed_stream(key or self.key, request or self.query.mac, self.bare(), now, **how)

    def with_one(self, number, change):
        """With another message in the place of one."""
        messages = list(self.messages)
        messages[number] = change(messages[number])
        return messages


class Relay:
    """Passes queries over TCP from a port of 127.0.0.1 on to a primary at another. With `signs` the primary knows nothing
    of keys, and its answers are signed here. `keys` are those that queries may be signed with."""

    def __init__(self, port, behind, keys, signs=False):
        self.behind, self.keys, self.signs = ("127.0.0.1", behind), keys, signs
        self.changes, self.holds, self.version, self.lock = {}, {}, 1, threading.Lock()
        self.notes, self.faults = [], []
        self.listener = socket.create_server(("127.0.0.1", port), backlog=100)
        self.thread = threading.Thread(target=self._accept, daemon=True)
        self.thread.start()

    def change(self, zone, change=None):
        """From now on the answers of a zone are what `change` makes of them."""
        self.changes[wire.name(zone)] = change

    def hold(self, zone, free):
        """From now on the answers of a zone are passed on once an event was set."""
        self.holds[wire.name(zone)] = free

    def of(self, zone, kind):
        """What was seen of the answers to such queries since the last call."""
        words = f"{zone}. {tap.KINDS[kind]}"
        with self.lock:
            found = [seen for asked, seen in self.notes if asked == words]
            self.notes = [one for one in self.notes if one[0] != words]
        return found

    def close(self):
        """Ends the thread that accepts too, which would keep the port."""
        self.listener.shutdown(socket.SHUT_RDWR)
        self.listener.close()
        self.thread.join()

    def _accept(self):
        while True:
            try:
                client, _ = self.listener.accept()
            except OSError:
                return
            threading.Thread(target=self._serve, args=(client,), daemon=True).start()

    def _serve(self, client):
        with client:
            try:
                while True:
                    query = Query(ask.read_octets(client))
                    client.sendall(b"".join(map(wire.frame, self._answer(query))))
            except (OSError, wire.Malformed) as error:
                if not isinstance(error, ConnectionError):
                    self.faults.append(f"the relay: {error!r}")

    def _answer(self, query):
        """The messages that are passed on, of which a note is made as they came."""
        moment = int(time.time())
        key = query.key_of(self.keys)
        with self.lock:
            if key is not None:
                self.faults += [f"the query {query.words} {fault}" for fault in query.faults(key, moment)]
        end = End(query)
        messages = self._fetch(query.bare if self.signs else query.octets, end)
        if query.zone in self.holds:
            self.holds[query.zone].wait(30)
        answer = Answer(query, key, messages, self.version)
        if key is None or wire.read_message(messages[0]).code:
            return messages
        if self.signs:
            answer.messages = answer.again()
        try:
            seen = replace(tsig.read_stream(key, query.mac, answer.messages, moment), form=end.form)
        except tsig.Wrong as error:
            seen = f"wrong: {error}"
            self.faults.append(f"the answer to {query.words}: {error}")
        with self.lock:
            self.notes.append((query.words, seen))
        change = self.changes.get(query.zone)
        return change(answer) if change else answer.messages

    def _fetch(self, octets, end):
        """All messages of the primary's answer."""
        frames, found = tap.Frames(), []
        with socket.create_connection(self.behind, timeout=20) as server:
            server.sendall(wire.frame(octets))
            while True:
                octets = server.recv(1 << 20)
                if not octets:
                    raise ConnectionError("the primary closed the connection")
                for message in frames.feed(octets):
                    found.append(message)
                    if end.is_last(message):
                        return found


# -- What is changed --------------------------------------------------------------------------------------------------

def flipped(octets, at):
    return octets[:at] + bytes([octets[at] ^ 1]) + octets[at + 1:]


def without(answer, number):
    """A message without its TSIG."""
    return answer.with_one(number, lambda message: tsig.split(message)[0])


def with_fields(answer, number, **fields):
    """A message whose TSIG has other fields, and the MAC that it had."""
    bare, one = tsig.split(answer.messages[number])
    return answer.with_one(number, lambda _: tsig.with_record(bare, replace(one, **fields).record()))


def with_mac(answer, number, change):
    return with_fields(answer, number, mac=change(tsig.split(answer.messages[number])[1].mac))


def with_other_address(answer):
    """The address of www is another in the new version."""
    old, new = (b"\0\4" + bytes([192, 0, 2, last]) for last in (answer.version, 251))
    return [message.replace(old, new) for message in answer.messages]


def without_message(answer):
    at = len(answer.messages) // 3
    return answer.messages[:at] + answer.messages[at + 1:]


def with_swapped(answer):
    at, all_of = len(answer.messages) // 3, answer.messages
    return [*all_of[:at], all_of[at + 1], all_of[at], *all_of[at + 2:]]


def cut_short(answer):
    """The last TSIG ends an octet too early."""
    bare, one = tsig.split(answer.messages[-1])
    return answer.with_one(-1, lambda _: tsig.with_record(bare, one.record(less=1)))


def late(answer, fudge):
    """The answer comes, and is signed, three seconds after the query."""
    time.sleep(3)
    return answer.again(fudge=fudge)


def at(seconds):
    """Signed at a moment so many seconds from now."""
    return lambda answer: answer.again(moment=int(time.time()) + seconds)


def between(answer):
    """A message with a TSIG that is neither the first nor the last, or the last where there is none."""
    places = answer.places()
    return places[len(places) // 2] if len(places) > 2 else places[-1]


OPT = b"\0" + struct.pack(">HHIH", wire.OPT, 1232, 0, 0)
UPPER = bytes(c - 32 if 97 <= c < 123 else c for c in wire.name("transfer.key."))
ONE, MANY = "one.test", "many.test"
BOTH = (ONE, MANY)

# What is changed; what it has catzd say of the transfer, or None where it is taken; of which zones it is tried; and
# whether it is tried with each server, or with the script's own primary alone, of which all is tried.
ALTERATIONS = (
    ("no TSIG", 1, BOTH, True, lambda a: a.bare()),
    ("the first message has no TSIG", 1, (MANY,), True, lambda a: without(a, 0)),
    ("the last message has no TSIG", 1, (MANY,), True, lambda a: without(a, -1)),
    ("99 messages in a row without a TSIG", None, (MANY,), False, lambda a: a.again(is_signed=lambda n: n % 100 == 0)),
    ("100 messages in a row without a TSIG", 1, (MANY,), False, lambda a: a.again(is_signed=lambda n: n % 101 == 0)),
    ("a second TSIG", 2, BOTH, True, lambda a: a.with_one(-1, lambda m: tsig.signed(a.key, m, int(time.time()))[0])),
    ("an OPT record behind the TSIG", 2, BOTH, False, lambda a: a.with_one(-1, lambda m: tsig.with_record(m, OPT))),
    ("an octet of the TSIG is missing", 2, BOTH, False, cut_short),
    ("another key name", 3, BOTH, True, lambda a: a.again(owner=wire.name("other.key."))),
    ("the key name in upper case", None, BOTH, False, lambda a: a.again(owner=UPPER)),
    ("hmac-sha512", 3, BOTH, True, lambda a: a.again(key=replace(a.key, algorithm="hmac-sha512"))),
    ("an octet of the first MAC changed", 4, BOTH, True, lambda a: with_mac(a, 0, lambda mac: flipped(mac, 0))),
    ("an octet of a MAC between changed", 4, (MANY,), True, lambda a: with_mac(a, between(a), lambda m: flipped(m, 31))),
    ("an octet of the last MAC changed", 4, (MANY,), True, lambda a: with_mac(a, -1, lambda mac: flipped(mac, 15))),
    ("half a MAC", 4, BOTH, False, lambda a: with_mac(a, -1, lambda mac: mac[:16])),
    ("an empty MAC", 4, BOTH, False, lambda a: with_mac(a, -1, lambda mac: b"")),
    ("another secret", 4, BOTH, True, lambda a: a.again(key=replace(a.key, secret=bytes(32)))),
    ("the answer to another query", 4, BOTH, True, lambda a: a.again(request=flipped(a.query.mac, 7))),
    ("an octet of a record changed", 4, BOTH, True, with_other_address),
    ("a message left out", 4, (MANY,), True, without_message),
    ("two messages exchanged", 4, (MANY,), True, with_swapped),
    ("another original ID", 4, BOTH, False, lambda a: with_fields(a, -1, identity=1)),
    ("signed 310 s ago", 5, BOTH, True, at(-310)),
    ("signed 310 s from now", 5, BOTH, True, at(310)),
    ("signed 290 s ago", None, BOTH, False, at(-290)),
    ("signed 290 s from now", None, BOTH, False, at(290)),
    ("a later message signed a second before the one before it", 5, (MANY,), False,
     lambda a: a.again(moment=lambda n, now=int(time.time()): now - (n > 4))),
    ("later messages signed an hour from now", None, (MANY,), False,
     lambda a: a.again(moment=lambda n, now=int(time.time()): now + 3600 * (n > 4))),
    ("an answer after 3 s with a fudge of 1 s", 5, (ONE,), False, lambda a: late(a, 1)),
    ("an answer after 3 s with a fudge of 30 s", None, (ONE,), False, lambda a: late(a, 30)),
    ("the error BADTIME in a TSIG", 6, BOTH, True, lambda a: a.again(error=lambda n: tsig.BADTIME if n in (0, 2) else 0)),
)
