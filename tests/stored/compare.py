#!/usr/bin/env python3
"""The exchanges of the stored run are the theorems: `python3 tests/stored/compare.py`, at once."""
import pathlib
import re
import sys

CRATES = pathlib.Path(__file__).resolve().parents[2] / "crates"
# what it shows, its name, moment and transport, the request and its reply
THEOREM = re.compile(r'^-- (.+)\npub (\w+) : (?:Replied|Silent) (\d+) (udp|tcp)\s+"(\w+)"(?:\n +"(\w+)")?$', re.M)
CLAIM = re.compile(r"^pub \w+ : (?:Replied|Silent)\s", re.M)
REQUEST = re.compile(r"^(?:# (\w+): (.+)\n)?(\d+) (udp|tcp) \S+ (\w+)$", re.M)
REPLY = re.compile(r"^(?:reply (\w+)|none)$", re.M)


def theorems(text):
    """The exchanges of a text of theorems."""
    return [(name, says, *rest) for says, name, *rest in THEOREM.findall(text)]


def stored(script, output):
    """The exchanges of a script and of what it writes: those with a name, and not the requests of stories."""
    requests, replies = REQUEST.findall(script), REPLY.findall(output)
    if len(requests) != len(replies):
        sys.exit(f"{len(requests)} requests, and {len(replies)} replies")
    return [(*request, reply) for request, reply in zip(requests, replies) if request[0]]


def main():
    examples = CRATES / "dz_reply/specs/Examples.antt"
    proved = theorems(examples.read_text())
    ran = stored((CRATES / "dz_stories/stdin").read_text(), (CRATES / "dz_stories/stdout").read_text())
    for theorem, exchange in zip(proved, ran):
        if theorem != exchange:
            sys.exit(f"the theorem {theorem[0]} and the exchange {exchange[0]} differ:\n{theorem}\n{exchange}")
    claimed = CLAIM.findall(examples.read_text())
    if len(proved) != len(ran) or len(proved) != len(claimed):
        sys.exit(f"{len(proved)} theorems with a request, and {len(ran)} exchanges")
    print(f"{len(ran)} exchanges")


if __name__ == "__main__":
    main()
