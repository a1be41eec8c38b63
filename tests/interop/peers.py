"""Other servers as primaries of a catalog and its members: how each is configured, started, and told of a change.

With a `key` (tsig.Key) they give zones only to who signs with it, and with `signs_notify` they sign NOTIFY with it too.
"""
import os
import pathlib
import shutil
import signal
import subprocess
import time

CATALOG, MEMBERS = "catalog.test", ("a.test", "b.test", "c.test", "d.test", "e.test", "f.test")

CATALOG_TEXT = """$ORIGIN catalog.test.
$TTL 3600
@ SOA invalid. invalid. {serial} 3600 600 86400 0
@ NS invalid.
version TXT "2"
group.ma.zones TXT "checked"
{members}
"""

# RETRY is a second, so that a refused transfer is made again soon.
MEMBER_TEXT = """$ORIGIN {apex}.
$TTL 3600
@ SOA ns hostmaster {serial} 3600 1 86400 300
@ NS ns
ns A 192.0.2.53
www A 192.0.2.{serial}
"""

# What members have beside that: a.test each kind of answer, d.test DNAME records, f.test names below one.
MORE = {"a.test": """@ MX 10 mail
www AAAA 2001:db8::1
mail A 192.0.2.25
text TXT "one" "two words"
deep.empty A 192.0.2.3
*.wild A 192.0.2.2
sub NS ns1.sub
sub NS ns2.sub
sub NS ns.other.test.
ns1.sub A 192.0.2.61
ns1.sub AAAA 2001:db8::61
ns2.sub A 192.0.2.62
one CNAME two
two CNAME www
lost CNAME nothing
outside CNAME www.other.test.
""", "d.test": """d DNAME t
w.t A 192.0.2.90
alias.t CNAME w.t
*.wild.t A 192.0.2.91
first CNAME w.d
twice DNAME d
both DNAME t
both A 192.0.2.92
both TXT "beside a DNAME"
outside DNAME other.test.
member DNAME b.test.
round DNAME back
back DNAME round
grow DNAME a.grow
long DNAME {label}.{label}.{label}
cut NS ns.cut
ns.cut A 192.0.2.93
d.cut DNAME t
tocut DNAME cut
towild DNAME wild.t
*.star A 192.0.2.94
d.star DNAME t
*.stars DNAME t
""".format(label="l" * 61), "f.test": """d DNAME t
w.t A 192.0.2.90
x.d A 192.0.2.95
cut.d NS ns.cut.d
ns.cut.d A 192.0.2.96
"""}

# A zone whose apex owns a DNAME record, so that it has no other names.
RENAMED_TEXT = """$ORIGIN e.test.
$TTL 3600
@ SOA ns.d.test. hostmaster.d.test. {serial} 3600 1 86400 300
@ NS ns.d.test.
@ DNAME t.d.test.
"""


def catalog_text(serial, members):
    return CATALOG_TEXT.format(serial=serial, members="\n".join(
        f"m{one[0]}.zones PTR {one}." for one in members))


def member_text(apex, serial):
    if apex == "e.test":
        return RENAMED_TEXT.format(serial=serial)
    return MEMBER_TEXT.format(apex=apex, serial=serial) + MORE.get(apex, "")


def member_texts():
    """The catalog and its members, as they are at first."""
    return {CATALOG: catalog_text(1, MEMBERS), **{one: member_text(one, 1) for one in MEMBERS}}


class Daemon:
    """A server in a folder of its own, at a port of a loopback address."""
    label, programs = "", ()

    def __init__(self, folder, port, address="127.0.0.1"):
        self.folder, self.port, self.address = pathlib.Path(folder), port, address
        self.folder.mkdir(parents=True)
        self.log, self.process, self.environment = open(self.folder / "log", "wb"), None, {}

    @classmethod
    def is_installed(cls):
        return all(shutil.which(program) for program in cls.programs)

    def config(self, file, text):
        (self.folder / file).write_text(text)
        return str(self.folder / file)

    def run(self, *words):
        subprocess.run(words, cwd=self.folder, stdout=self.log, stderr=self.log, timeout=20, check=False)

    def start(self):
        self.process = subprocess.Popen(self.words(), cwd=self.folder, stdin=subprocess.DEVNULL, stdout=self.log,
                                        stderr=self.log, env={**os.environ, **self.environment})
        return self

    def is_running(self):
        return self.process is not None and self.process.poll() is None

    def stop(self):
        self.process.send_signal(signal.SIGTERM)
        try:
            self.process.wait(10)
        except subprocess.TimeoutExpired:
            self.process.kill()
        self.log.close()


class Peer(Daemon):
    """A primary of zones, given as texts, which notifies a port of 127.0.0.1."""
    has_differences = True  # whether it answers IXFR with differences
    signs_always = False  # whether it signs NOTIFY wherever it has a key
    has_digests = False  # whether it makes the ZONEMD records of a.test, which catzd then requires
    refusals = ()  # lines of catzd's log that are expected of its transfers

    def __init__(self, folder, port, secondary, texts=None, address="127.0.0.1", key=None, signs_notify=False):
        super().__init__(folder, port, address)
        self.secondary, self.zones = secondary, texts or member_texts()
        self.key, self.notify_key = key, key if signs_notify else None
        for zone, text in self.zones.items():
            self.write(zone, text)

    def write(self, zone, text):
        (self.folder / f"{zone}.zone").write_text(text)

    def change(self, zone, text):
        """Replaces a zone and has the server read it, which then sends NOTIFY."""
        self.write(zone, text)
        self.reload(zone)


class Knot(Peer):
    label, programs, has_digests = "Knot", ("knotd", "knotc"), True
    refusals = ("refused f.test. rcode 2",)  # it doesn't load a zone with names below a DNAME's owner

    def words(self):
        (self.folder / "db").mkdir()
        zones = "".join(f"  - domain: {one}\n" for one in self.zones).replace(
            "a.test\n", "a.test\n    zonemd-generate: zonemd-sha384\n")
        return ["knotd", "-c", self.config("knot.conf", f"""server:
    listen: {self.address}@{self.port}
    rundir: {self.folder}
database:
    storage: {self.folder}/db
log:
  - target: stderr
    any: info
{self.keys()}remote:
  - id: catzd
    address: 127.0.0.1@{self.secondary}
{self.line("    key: ", self.notify_key)}acl:
  - id: transfer
    address: 127.0.0.1
{self.line("    key: ", self.key)}    action: transfer
template:
  - id: default
    storage: {self.folder}
    file: "%s.zone"
    notify: catzd
    acl: transfer
    zonefile-load: difference
zone:
{zones}""")]

    @staticmethod
    def line(front, key):
        return f"{front}{key.name}\n" if key else ""

    def keys(self):
        return "" if self.key is None else f"""key:
  - id: {self.key.name}
    algorithm: {self.key.algorithm}
    secret: {self.key.base64}
"""

    def reload(self, zone):
        self.run("knotc", "-c", "knot.conf", "zone-reload", zone)


class Nsd(Peer):
    label, programs = "NSD", ("nsd", "nsd-control")
    # It doesn't load a zone with names below a DNAME's owner; and the differences of NSD 4.6 for a zone with an MX record
    # add that record again, though it is in both versions. Those of NSD 4.12 don't.
    refusals = ("refused f.test. rcode 9", "refused a.test. shape add-present")

    def words(self):
        zones = "".join(f"""zone:
    name: {one}
    zonefile: {one}.zone
    notify: 127.0.0.1@{self.secondary} {self.name_of(self.notify_key)}
    provide-xfr: 127.0.0.1 {self.name_of(self.key)}
    store-ixfr: yes
    create-ixfr: yes
    ixfr-size: 100000000
""" for one in self.zones)
        return ["nsd", "-d", "-c", self.config("nsd.conf", f"""server:
    ip-address: {self.address}@{self.port}
    username: ""
    zonesdir: {self.folder}
    database: ""
    pidfile: {self.folder}/nsd.pid
    xfrdfile: {self.folder}/xfrd.state
    xfrdir: {self.folder}
    zonelistfile: {self.folder}/zone.list
    minimal-responses: yes
    rrl-ratelimit: 0
remote-control:
    control-enable: yes
    control-interface: {self.folder}/control
{self.keys()}{zones}""")]

    @staticmethod
    def name_of(key):
        return key.name if key else "NOKEY"

    def keys(self):
        return "" if self.key is None else f"""key:
    name: {self.key.name}
    algorithm: {self.key.algorithm}
    secret: {self.key.base64}
"""

    def reload(self, zone):
        self.run("nsd-control", "-c", "nsd.conf", "reload", zone)


class Bind(Peer):
    label, programs = "BIND", ("named",)
    # Without `lock-file none`, which BIND 9.20 refuses; no lock is the default of BIND 9.18 too.

    def words(self):
        zones = "".join(f'zone "{one}" {{ type primary; file "{one}.zone"; }};\n' for one in self.zones)
        allowed = f'key "{self.key.name}"' if self.key else "127.0.0.1"
        signed = f' key "{self.notify_key.name}"' if self.notify_key else ""
        return ["named", "-g", "-c", self.config("named.conf", f"""{self.keys()}options {{
    directory "{self.folder}";
    listen-on port {self.port} {{ {self.address}; }};
    listen-on-v6 {{ none; }};
    pid-file "{self.folder}/named.pid";
    session-keyfile "{self.folder}/session.key";
    recursion no;
    dnssec-validation no;
    allow-transfer {{ {allowed}; }};
    notify explicit;
    notify-delay 0;
    also-notify {{ 127.0.0.1 port {self.secondary}{signed}; }};
    ixfr-from-differences yes;
    max-ixfr-ratio unlimited;
    max-journal-size unlimited;
    minimal-responses yes;
    check-integrity no;
}};
controls {{}};
{zones}""")]

    def keys(self):
        return "" if self.key is None else f"""key "{self.key.name}" {{
    algorithm {self.key.algorithm};
    secret "{self.key.base64}";
}};
"""

    def reload(self, zone):
        self.process.send_signal(signal.SIGHUP)


class PowerDns(Peer):
    label, programs, has_differences, signs_always = "PowerDNS", ("pdns_server", "pdns_control"), False, True

    def words(self):
        self.config("zones.conf", "".join(
            f'zone "{one}" {{ type master; file "{self.folder}/{one}.zone"; }};\n' for one in self.zones))
        self.config("pdns.conf", f"""launch=bind
bind-config={self.folder}/zones.conf
local-address={self.address}
local-port={self.port}
socket-dir={self.folder}
primary=yes
allow-axfr-ips={"" if self.key else "127.0.0.0/8"}
only-notify=127.0.0.0/8
dname-processing=yes
also-notify=127.0.0.1:{self.secondary}
cache-ttl=0
query-cache-ttl=0
negquery-cache-ttl=0
zone-cache-refresh-interval=0
daemon=no
guardian=no
{f"bind-dnssec-db={self.folder}/keys.db" if self.key else ""}
""")
        if self.key:
            self.put_keys()
        return ["pdns_server", f"--config-dir={self.folder}"]

    def put_keys(self):
        """The key, and which zones it may have, stand in a database."""
        def util(*words):
            self.run("pdnsutil", f"--config-dir={self.folder}", *words)

        util("create-bind-db", f"{self.folder}/keys.db")
        util("import-tsig-key", self.key.name, self.key.algorithm, self.key.base64)
        for zone in self.zones:
            util("activate-tsig-key", zone, self.key.name, "primary")

    def reload(self, zone):
        self.run("pdns_control", f"--config-dir={self.folder}", "bind-reload-now", zone)
        time.sleep(0.2)
        self.run("pdns_control", f"--config-dir={self.folder}", "notify", zone)


PEERS = {peer.label.lower(): peer for peer in (Knot, Nsd, Bind, PowerDns)}
