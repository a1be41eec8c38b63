#!/usr/bin/env python3
"""Writes streams of transfers of `example.` into a folder: each message behind its length."""
import struct, sys, pathlib
out = pathlib.Path(sys.argv[1])
APEX = b"\x07example\x00"
def message(kind, answers, id_=1):
    question = b"" if kind is None else APEX + struct.pack(">2H", kind, 1)
    return struct.pack(">6H", id_, 0x8400, 0 if kind is None else 1, len(answers), 0, 0) + question + b"".join(answers)
def record(owner, kind, rdata, ttl=3600):
    return owner + struct.pack(">2HIH", kind, 1, ttl, len(rdata)) + rdata
def soa(serial):
    return record(APEX, 6, b"\x02ns\x00\x05admin\x00" + struct.pack(">5I", serial, 1800, 900, 604800, 300))
NS = record(APEX, 2, b"\x02ns\x07example\x00")
def address(n, pointer=True, first=10):
    return record(b"\x07h%06d" % n + (b"\xc0\x0c" if pointer else APEX), 1, bytes([first, n >> 16, n >> 8 & 255, n & 255]))
def frames(messages):
    return b"".join(struct.pack(">H", len(m)) + m for m in messages)
def pack(kind, answers, limit):
    """Messages of at most so many octets, each with the question."""
    messages, some, size = [], [], 12 + len(APEX) + 4
    start = size
    for answer in answers:
        if some and size + len(answer) > limit:
            messages.append(message(kind, some)); some, size = [], start
        some.append(answer); size += len(answer)
    messages.append(message(kind, some))
    return frames(messages)
def zone(count, serial=5, pointer=True):
    return [soa(serial), NS] + [address(n, pointer) for n in range(count)] + [soa(serial)]
def write(name, octets):
    (out / name).write_bytes(octets); print(name, len(octets))
write("whole-16k", pack(252, zone(200_000), 16_384))
write("whole-64k", pack(252, zone(200_000), 65_535))
one = zone(200_000, pointer=False)
write("whole-one", frames([message(252, one[:1])] + [message(None, [r]) for r in one[1:]]))
changed = [n * 4000 for n in range(50)]
write("differences-50", pack(251, [soa(6), soa(5)] + [address(n) for n in changed] + [soa(6)] + [address(n, first=11) for n in changed] + [soa(6)], 65_535))
for count in [5_000, 10_000, 20_000, 40_000]:
    steps = [soa(5 + count)]
    for n in range(count):
        steps += [soa(5 + n), address(n), soa(6 + n), address(n, first=11)]
    write(f"differences-{count}", pack(251, steps + [soa(5 + count)], 65_535))
write("ends-at-64MiB", frames([message(252, [soa(5)])] + [message(None, [address(n % 1_000_000, False)]) for n in range(67_108_864 // 45 + 2)]))
filled = record(b"\x00", 65280, b"\x00" * (65_535 - 12 - 11))
write("filled-64MiB", frames([message(252, [soa(5)])] + [message(None, [filled])] * 1025))
def chains():
    """A record whose RDATA is a chain of pointers, each to the one before, and records whose owners point to its end."""
    head = struct.pack(">6H", 1, 0x8400, 1, 0, 0, 0) + APEX + struct.pack(">2H", 252, 1) + soa(5)
    at = len(head) + 1 + 10
    chain, last = b"", 12
    while at + len(chain) + 2 <= 16_383:
        here = at + len(chain); chain += struct.pack(">H", 0xC000 | last); last = here
    body, count = record(b"\x00", 65280, chain), 2
    one = record(struct.pack(">H", 0xC000 | last), 1, b"\x0a\x00\x00\x01")
    while len(head) + len(body) + len(one) + 3 <= 65_535:
        body += one; count += 1
    return head[:6] + struct.pack(">H", count) + head[8:] + body + b"\x00"
write("chains-of-pointers", frames([chains()]))
def owners():
    """Records whose owners point each to the one before, as far as pointers reach."""
    head = struct.pack(">6H", 1, 0x8400, 1, 0, 0, 0) + APEX + struct.pack(">2H", 252, 1) + soa(5)
    body, count, last = b"", 1, 12
    while len(head) + len(body) + 16 + 3 <= 65_535:
        here = len(head) + len(body)
        body += record(struct.pack(">H", 0xC000 | last), 1, b"\x0a\x00\x00\x01"); count += 1
        if here < 16_384:
            last = here
    return head[:6] + struct.pack(">H", count) + head[8:] + body + b"\x00"
write("owners-in-a-chain", frames([owners()]))
def labels():
    """Names of 127 labels that end in pointers to one another."""
    head = struct.pack(">6H", 1, 0x8400, 1, 0, 0, 0) + APEX + struct.pack(">2H", 252, 1) + soa(5)
    body, count = record(b"\x01a" * 123 + b"\xc0\x0c", 1, b"\x0a\x00\x00\x01"), 2
    owner = struct.pack(">H", 0xC000 | len(head))
    while len(head) + len(body) + 16 + 3 <= 65_535:
        body += record(owner, 1, b"\x0a\x00\x00\x01"); count += 1
    return head[:6] + struct.pack(">H", count) + head[8:] + body + b"\x00"
write("names-of-124-labels", frames([labels()]))
write("records-250001", pack(252, zone(249_999 + 1), 65_535))
write("questions-13000", frames([struct.pack(">6H", 1, 0x8400, 5038, 0, 0, 0) + (APEX + struct.pack(">2H", 252, 1)) * 5038]))
same = [soa(5), NS] + [address(7)] * 200_000 + [soa(5)]
write("same-200000", pack(252, same, 65_535))
one_owner = [soa(5), NS] + [record(b"\x07h000000\xc0\x0c", 16, b"\x06%06d" % (n * 77_773 % 200_000)) for n in range(200_000)] + [soa(5)]
write("one-owner-200000", pack(252, one_owner, 65_535))
