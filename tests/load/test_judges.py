#!/usr/bin/env python3
"""The judges of the load find what is wrong: `python3 tests/load/test_judges.py`, a second."""
import pathlib
import sys
import unittest

sys.path.insert(0, str(pathlib.Path(__file__).resolve().parents[2] / "bench"))
import datagrams
import kept
import story
import wire
import zones


def reply_to(request, flags=0x8400, records=()):
    """A reply that echoes the question of a request and has these answers."""
    end = wire.read_name(request, 12)[1] + 4
    head = request[:2] + flags.to_bytes(2, "big") + b"\0\1" + len(records).to_bytes(2, "big") + b"\0\0\0\0"
    return head + request[12:end] + b"".join(records)


class Judge(unittest.TestCase):
    """`datagrams.judge`."""
    request = wire.query(7, "www.a.test.", wire.A)
    address = zones.piece("", wire.A, 60, zones.address(1))

    def fault(self, reply):
        return datagrams.judge(self.request, reply)

    def test_right(self):
        self.assertIsNone(self.fault(reply_to(self.request, records=[self.address])))
        self.assertIsNone(self.fault(self.request[:2] + b"\x80\1" + bytes(8)))

    def test_wrong(self):
        right = reply_to(self.request, records=[self.address])
        other = reply_to(wire.query(7, "ns.a.test.", wire.A))
        for reply in (right[:-1], right + b"\0", right[:7] + b"\2" + right[8:], other, reply_to(self.request, 0x0400),
                      reply_to(self.request, 0x8580), reply_to(self.request, 0x8480), reply_to(self.request, 0x8407),
                      reply_to(self.request, records=[self.address] * 40), self.request[:2] + b"\x80\0" + bytes(8)):
            self.assertIsNotNone(self.fault(reply), reply.hex())

    def test_no_request(self):
        self.assertIsNotNone(datagrams.judge(self.request[:11], reply_to(self.request)))
        self.assertIsNotNone(datagrams.judge(reply_to(self.request), reply_to(self.request)))

    def test_pointer_that_leads_nowhere(self):
        loop = b"\xc0\x1d" + self.address[2:]
        self.assertIsNotNone(self.fault(reply_to(self.request, records=[loop])))


class Story(unittest.TestCase):
    """`story.Cursor`."""

    def setUp(self):
        self.member = story.Member(zones.Zone("m.test.", serial=9), None, stays=[None, 1, None, 2, 3])
        self.cursor = story.Cursor(self.member)

    def see(self, *said):
        for one in said:
            self.cursor.see(one)

    def test_whole_story(self):
        self.see(story.REFUSED, story.WAITING, story.WAITING, 1, 1, 4)
        self.see(story.REFUSED, story.WAITING, 4, 9, story.WAITING, 9)

    def test_skipped(self):
        self.see(3, story.WAITING, 5, story.WAITING)

    def test_wrong(self):
        for said in ((2, 1), (10,), (1, story.REFUSED, story.WAITING, 1, story.WAITING, 1, story.WAITING),
                     (1, story.REFUSED, 2, story.REFUSED), (4, story.WAITING, 3), (story.REFUSED, 5, story.REFUSED, 4)):
            self.setUp()
            with self.assertRaises(story.Wrong, msg=said):
                self.see(*said)

    def test_two_serials_in_a_reply(self):
        answers = [wire.Record(b"", wire.TXT, 1, 0, wire.txt(text)) for text in ("4", "5")]
        with self.assertRaises(story.Wrong):
            story.said_by(wire.Message(1, 0x8400, None, answers, [], []))


def record(payload):
    return b"\1" + len(payload).to_bytes(8, "big") + payload


class Account(unittest.TestCase):
    """`kept.Account` and `kept.kept_in`."""
    first = ("job 1 catalog.test. axfr id 1 at 127.0.0.1:1", "failed catalog.test.")
    taken = ("job 2 catalog.test. axfr id 2 at 127.0.0.1:1", "published 1 catalog.test. 1", "added a.test. catalog.test.",
             "added b.test. catalog.test.", "job 3 a.test. axfr id 3 at 127.0.0.1:1", "published 2 a.test. 7")
    changed = ("job 4 catalog.test. ixfr 1 id 4 at 127.0.0.1:1", "published 3 catalog.test. 2",
               "removed a.test. catalog.test.")

    def account(self, *lines):
        account = kept.Account()
        self.assertEqual(account.read(lines), [])
        return account

    def test_last_line(self):
        account = self.account(*self.first, *self.taken)
        self.assertEqual([account.allowed(zone) for zone in ("a.test.", "b.test.")],
                         [{kept.WAITING, 7}, {kept.WAITING}])

    def test_changes_of_a_catalog(self):
        lines = (*self.first, *self.taken, *self.changed)
        self.assertEqual(self.account(*lines).allowed("a.test."), {7, kept.WAITING, None})
        self.assertEqual(self.account(*lines, "notify b.test. taken").allowed("a.test."), {None})

    def test_lost(self):
        account = self.account(*self.first, *self.taken, "notify b.test. taken")
        self.assertEqual(len(account.faults({"a.test.": 6, "b.test.": kept.WAITING})), 1)
        self.assertEqual(len(account.faults({"a.test.": 8, "b.test.": 1})), 2)
        self.assertEqual(len(account.read(self.first)), 2)

    def test_file(self):
        version = zones.Zone("a.test.", 7)
        whole = record(b"\1" + wire.name("a.test.") + wire.name("c.test.") + b"\2m1" + bytes(8) + version.whole(0))
        gone = record(b"\2" + wire.name("a.test."))
        self.assertEqual(kept.kept_in(whole + b"\0"), {"a.test.": 7})
        self.assertEqual(kept.kept_in(whole[:-1]), {})
        self.assertEqual(kept.kept_in(whole + gone[:-1]), {"a.test.": 7})
        self.assertEqual(kept.kept_in(whole + gone), {})


if __name__ == "__main__":
    unittest.main()
