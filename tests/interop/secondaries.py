"""Other servers as secondaries of zones that catzd hands on: how each is configured."""
import peers


class Secondary(peers.Daemon):
    """A server that has some zones from a port of 127.0.0.1, and hands them on to who asks from there."""
    asks_ixfr = True  # whether it asks by IXFR for a zone that it holds
    special, setting = "s.test", None  # a zone, and what is set for it so that it is asked for the other way
    needs_unset = False  # whether the zone stays as it is until that is unset

    def __init__(self, folder, port, primary, zones):
        super().__init__(folder, port)
        self.primary, self.zones = primary, zones


class Knot(Secondary):
    label, programs = "Knot", ("knotd",)

    def words(self):
        (self.folder / "db").mkdir()
        zones = "".join(f"  - domain: {one}\n" for one in self.zones).replace(
            "a.test\n", "a.test\n    zonemd-verify: on\n")
        return ["knotd", "-c", self.config("knot.conf", f"""server:
    listen: {self.address}@{self.port}
    rundir: {self.folder}
database:
    storage: {self.folder}/db
log:
  - target: stderr
    any: info
remote:
  - id: catzd
    address: 127.0.0.1@{self.primary}
acl:
  - id: local
    address: 127.0.0.1
    action: [notify, transfer]
template:
  - id: default
    storage: {self.folder}
    master: catzd
    acl: local
zone:
{zones}""")]


class Nsd(Secondary):
    label, programs, setting = "NSD", ("nsd",), "request-xfr: AXFR"

    def words(self):
        zones = "".join(f"""zone:
    name: {one}
    zonefile: {one}.zone
    request-xfr: {"AXFR " if one == self.special else ""}127.0.0.1@{self.primary} NOKEY
    allow-notify: 127.0.0.1 NOKEY
    provide-xfr: 127.0.0.1 NOKEY
""" for one in self.zones)
        return ["nsd", "-d", "-c", self.config("nsd.conf", f"""server:
    ip-address: {self.address}@{self.port}
    username: ""
    zonesdir: {self.folder}
    database: ""
    pidfile: {self.folder}/nsd.pid
    xfrdfile: {self.folder}/xfrd.state
    xfrdir: {self.folder}
    zonelistfile: {self.folder}/zone.list
    verbosity: 2
    rrl-ratelimit: 0
remote-control:
    control-enable: no
{zones}""")]


class Bind(Secondary):
    label, programs, setting = "BIND", ("named",), "request-ixfr no"
    # Without `lock-file none`, which BIND 9.20 refuses; no lock is the default of BIND 9.18 too.

    def words(self):
        zones = "".join(f"""zone "{one}" {{
    type secondary;
    file "{one}.db";
    primaries {{ 127.0.0.1 port {self.primary}; }};
    {"request-ixfr no;" if one == self.special else ""}
}};
""" for one in self.zones)
        return ["named", "-g", "-c", self.config("named.conf", f"""options {{
    directory "{self.folder}";
    listen-on port {self.port} {{ {self.address}; }};
    listen-on-v6 {{ none; }};
    pid-file "{self.folder}/named.pid";
    session-keyfile "{self.folder}/session.key";
    recursion no;
    dnssec-validation no;
    allow-transfer {{ 127.0.0.1; }};
    notify no;
    min-refresh-time 1;
    min-retry-time 1;
}};
controls {{}};
{zones}""")]


class PowerDns(Secondary):
    label, programs, asks_ixfr = "PowerDNS", ("pdns_server", "pdnsutil"), False
    # It never asks for a signed zone by IXFR. For another it does by this setting, and doesn't fall back to AXFR.
    special, setting, needs_unset = "a.test", "set-meta IXFR 1", True

    def words(self):
        self.config("zones.conf", "".join(
            f'zone "{one}" {{ type slave; file "{self.folder}/{one}.zone"; masters {{ 127.0.0.1:{self.primary}; }}; }};\n'
            for one in self.zones))
        self.config("pdns.conf", f"""launch=bind
bind-config={self.folder}/zones.conf
bind-dnssec-db={self.folder}/dnssec.db
local-address={self.address}
local-port={self.port}
socket-dir={self.folder}
secondary=yes
xfr-cycle-interval=1
allow-axfr-ips=127.0.0.1
allow-notify-from=127.0.0.1
cache-ttl=0
query-cache-ttl=0
negquery-cache-ttl=0
zone-cache-refresh-interval=0
zone-metadata-cache-ttl=0
daemon=no
guardian=no
""")
        self.run("pdnsutil", f"--config-dir={self.folder}", "create-bind-db", f"{self.folder}/dnssec.db")
        self.set_ixfr("1")
        return ["pdns_server", f"--config-dir={self.folder}"]

    def set_ixfr(self, value):
        self.run("pdnsutil", f"--config-dir={self.folder}", "set-meta", self.special, "IXFR", value)

    def unset(self):
        self.set_ixfr("0")


SECONDARIES = {one.label.lower(): one for one in (Knot, Nsd, Bind, PowerDns)}
