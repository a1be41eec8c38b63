"""Signed zones for validate.py: their texts, and how ldns-signzone signs them."""
import pathlib
import subprocess

APEX, CATALOG = "s.test", "catalog.test"
HERE, OPEN = "here.s.test", "open.s.test"  # a signed and an unsigned child that the same server has
AWAY, FAR, DEEP = "away.s.test", "far.s.test", "x.y.s.test"  # a signed child and two unsigned ones of another server
SERVED, ELSEWHERE = (APEX, HERE, OPEN), (AWAY, FAR, DEEP)
SIGNED = (HERE, AWAY, APEX)  # the children first, since their DS records are in the zone above
ADDRESS_ELSEWHERE = "127.0.0.2"

TEXT = """$ORIGIN {apex}.
$TTL 3600
@ SOA ns hostmaster 1 3600 600 604800 300
@ NS ns
ns A {address}
www A 192.0.2.80
www AAAA 2001:db8::80
"""

PARENT_TEXT = """a.b.c A 192.0.2.1
*.w A 192.0.2.9
*.wc CNAME www
*.wx CNAME nothing
alias CNAME www
chain CNAME alias
lost CNAME nothing
towild CNAME x.w
outside CNAME www.other.test.
d DNAME t
w.t A 192.0.2.90
toname CNAME w.d
twice DNAME d
long DNAME {label}.{label}.{label}
short 60 A 192.0.2.60
large TXT {string} {string} {string} {string} {string} {string}
here NS ns.here
ns.here A 127.0.0.1
open NS ns.open
ns.open A 127.0.0.1
away NS ns.away
ns.away A {elsewhere}
far NS ns.far
ns.far A {elsewhere}
x.y NS ns.x.y
ns.x.y A {elsewhere}
""".format(label="l" * 61, string='"' + "s" * 250 + '"', elsewhere=ADDRESS_ELSEWHERE)


def texts():
    """The unsigned zones."""
    found = {}
    for zone in SERVED + ELSEWHERE:
        address = "127.0.0.1" if zone in SERVED else ADDRESS_ELSEWHERE
        found[zone] = TEXT.format(apex=zone, address=address) + (PARENT_TEXT if zone == APEX else "")
    return found


def catalog_text():
    members = "\n".join(f"m{number}.zones PTR {zone}." for number, zone in enumerate(SERVED))
    return f"""$ORIGIN {CATALOG}.
$TTL 3600
@ SOA invalid. invalid. 1 3600 600 604800 0
@ NS invalid.
version TXT "2"
{members}
"""


def run(folder, *words):
    done = subprocess.run(words, cwd=folder, capture_output=True, text=True, timeout=60, check=True)
    return done.stdout.strip()


def sign(folder, zone, text, has_nsec3):
    """A signed zone as text, its DS record, and its key."""
    folder = pathlib.Path(folder)
    key = run(folder, "ldns-keygen", "-a", "ECDSAP256SHA256", "-k", f"{zone}.")
    (folder / f"{zone}.plain").write_text(text)
    form = ["-n", "-t", "0"] if has_nsec3 else []
    run(folder, "ldns-signzone", *form, "-f", f"{zone}.signed", "-o", f"{zone}.", f"{zone}.plain", key)
    return ((folder / f"{zone}.signed").read_text(), (folder / f"{key}.ds").read_text(),
            (folder / f"{key}.key").read_text())


def zones(folder, has_nsec3):
    """All zones, signed where they are to be, and the key of the zone at the top."""
    found, records, key = texts(), "", ""
    for zone in SIGNED:
        text = found[zone] + (records if zone == APEX else "")
        found[zone], record, key = sign(folder, zone, text, has_nsec3)
        records += record
    return found, key


# What is asked, its name, its type, and whether its answer needs an NSEC record, or an NSEC3 record in its place.
QUESTIONS = (
    ("address", "www.s.test.", "A", False),
    ("address of six", "www.s.test.", "AAAA", False),
    ("address, short TTL", "short.s.test.", "A", False),
    ("apex SOA", "s.test.", "SOA", False),
    ("apex NS", "s.test.", "NS", False),
    ("apex DNSKEY", "s.test.", "DNSKEY", False),
    ("more than 1,232 octets", "large.s.test.", "TXT", False),
    ("ANY", "www.s.test.", "ANY", False),
    ("no data", "www.s.test.", "TXT", True),
    ("no data at an empty name", "c.s.test.", "A", True),
    ("no data at an empty name, two labels", "b.c.s.test.", "A", True),
    ("no name", "nothing.s.test.", "A", True),
    ("no name, three labels", "a.b.nothing.s.test.", "A", True),
    ("no name below an address", "x.www.s.test.", "A", True),
    ("no name, ANY", "nothing.s.test.", "ANY", True),
    ("wildcard", "q.w.s.test.", "A", True),
    ("wildcard, two labels", "q.r.w.s.test.", "A", True),
    ("wildcard itself", "*.w.s.test.", "A", False),
    ("wildcard, no data", "q.w.s.test.", "TXT", True),
    ("wildcard, ANY", "q.w.s.test.", "ANY", True),
    ("wildcard's CNAME", "q.wc.s.test.", "A", True),
    ("wildcard's CNAME, no data", "q.wc.s.test.", "TXT", True),
    ("wildcard's CNAME to no name", "q.wx.s.test.", "A", True),
    ("alias", "alias.s.test.", "A", False),
    ("alias, CNAME", "alias.s.test.", "CNAME", False),
    ("chain of aliases", "chain.s.test.", "AAAA", False),
    ("chain, no data", "chain.s.test.", "TXT", True),
    ("chain to no name", "lost.s.test.", "A", True),
    ("chain to a wildcard", "towild.s.test.", "A", True),
    ("chain out of the zone, CNAME", "outside.s.test.", "CNAME", False),
    ("below a DNAME", "w.d.s.test.", "A", False),
    ("below a DNAME, no data", "w.d.s.test.", "TXT", True),
    ("below a DNAME, no name", "nothing.d.s.test.", "A", True),
    ("below a DNAME, CNAME", "w.d.s.test.", "CNAME", False),
    ("below a DNAME, ANY", "w.d.s.test.", "ANY", False),
    ("a DNAME's owner", "d.s.test.", "DNAME", False),
    ("a DNAME's owner, no data", "d.s.test.", "A", True),
    ("CNAME, DNAME, address", "toname.s.test.", "A", False),
    ("DNAME, DNAME, address", "w.twice.s.test.", "A", False),
    ("DNAME to a name too long", f"{'m' * 63}.long.s.test.", "A", False),
    ("DS of a signed child here", "here.s.test.", "DS", False),
    ("DS of an unsigned child here", "open.s.test.", "DS", True),
    ("DS of a signed child elsewhere", "away.s.test.", "DS", False),
    ("DS of an unsigned child elsewhere", "far.s.test.", "DS", True),
    ("DS of an unsigned child, two labels", "x.y.s.test.", "DS", True),
    ("DS of no cut", "www.s.test.", "DS", True),
    ("DS of no name", "nothing.s.test.", "DS", True),
    ("signed child here", "www.here.s.test.", "A", False),
    ("signed child here, no name", "nothing.here.s.test.", "A", True),
    ("signed child here, apex NS", "here.s.test.", "NS", False),
    ("unsigned child here", "www.open.s.test.", "A", True),
    ("unsigned child here, no name", "nothing.open.s.test.", "A", True),
    ("signed child elsewhere", "www.away.s.test.", "A", False),
    ("signed child elsewhere, no name", "nothing.away.s.test.", "A", False),
    ("unsigned child elsewhere", "www.far.s.test.", "A", True),
    ("unsigned child, two labels", "www.x.y.s.test.", "A", True),
    ("empty name above a cut", "y.s.test.", "A", True),
    ("RRSIG", "www.s.test.", "RRSIG", False),
    ("NSEC", "www.s.test.", "NSEC", True),
)

# What is asked of the servers alone, since a resolver would ask elsewhere.
DIRECT = (
    ("DS of the apex", "s.test.", "DS", True),
    ("chain out of the zone", "outside.s.test.", "A", False),
    ("referral to a signed child", "away.s.test.", "A", False),
    ("referral to an unsigned child", "far.s.test.", "A", True),
)
