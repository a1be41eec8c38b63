"""Secondaries that are started in a folder of their own on processors 0 and 1: catzd, Knot, NSD and BIND."""
import os
import pathlib
import shutil
import signal
import subprocess
import sys
import time
from dataclasses import dataclass, field

TICKS = os.sysconf("SC_CLK_TCK")  # units of CPU time in a second
SERVER_PROCESSORS, LOAD_PROCESSORS = {0, 1}, {2, 3}
ROOT = pathlib.Path(__file__).resolve().parent.parent


@dataclass
class Plan:
    """What a secondary is to have: a catalog at a primary, and the catalog's members for who reads no catalogs."""
    catalog: str
    primary: int  # a port of 127.0.0.1
    members: list = field(default_factory=list)
    verifies: bool = False  # versions need a good ZONEMD record
    downstream: list = field(default_factory=list)  # addresses to which it hands zones on


def pin(processors):
    """Keeps this process to some processors, where the machine has four."""
    if os.cpu_count() >= 4:
        os.sched_setaffinity(0, processors)


def stolen():
    """How many ticks of the processors the host of a virtual machine has taken so far, and how many there were."""
    ticks = [int(field) for field in pathlib.Path("/proc/stat").read_text().splitlines()[0].split()[1:9]]
    return ticks[7], sum(ticks)


def family(pid):
    """A process and its descendants."""
    found = [pid]
    for one in found:
        tasks = [task.name for task in pathlib.Path(f"/proc/{one}/task").glob("*")]
        found += [int(child) for task in tasks for child in read_proc(one, f"task/{task}/children").split()]
    return found


def read_proc(pid, file):
    """A file of /proc; empty where the process has ended."""
    try:
        return pathlib.Path(f"/proc/{pid}/{file}").read_text()
    except (FileNotFoundError, ProcessLookupError):
        return ""


def kilobytes(pid, file, word):
    """The number behind a word in a file of /proc."""
    for line in read_proc(pid, file).splitlines():
        if line.startswith(word):
            return int(line.split()[1])
    return 0


class Server:
    """A secondary that runs. A kind says how its configuration is written and how it is started."""
    label, program, reads_catalogs, verifies = "", "", True, False

    def __init__(self, plan, folder, port):
        self.plan, self.folder, self.port = plan, pathlib.Path(folder), port
        self.folder.mkdir(parents=True, exist_ok=True)
        self.log = open(self.folder / "log", "wb")
        self.process, self.begun = None, 0.0

    @classmethod
    def is_installed(cls):
        return shutil.which(cls.program) is not None

    def start(self):
        words = self.words()
        self.begun = time.monotonic()
        self.process = subprocess.Popen(words, cwd=self.folder, stdin=self.input(), stdout=self.log, stderr=self.log,
                                        preexec_fn=self.prepare)
        return self

    def prepare(self):
        """What its process does before the program."""
        pin(SERVER_PROCESSORS)

    def input(self):
        return subprocess.DEVNULL

    def write(self, file, text):
        (self.folder / file).write_text(text)
        return str(self.folder / file)

    def cpu(self):
        """CPU seconds of all its processes so far, those that ended and were waited for included."""
        total = 0
        for pid in family(self.process.pid):
            fields = read_proc(pid, "stat").rpartition(")")[2].split()
            total += sum(int(field) for field in fields[11:15])
        return total / TICKS

    def cpu_of_threads(self):
        """CPU seconds of all threads that it has, to the microsecond."""
        tasks = [(pid, task.name) for pid in family(self.process.pid) for task in pathlib.Path(f"/proc/{pid}/task").glob("*")]
        return sum(int((read_proc(pid, f"task/{task}/schedstat") or "0").split()[0]) for pid, task in tasks) / 1e9

    def memory(self):
        """Megabytes that it has resident, at the most (VmHWM) and now (VmRSS). Of a server of several processes both
        are what they have now, each shared page counted once (Pss)."""
        processes = family(self.process.pid)
        if len(processes) > 1:
            now = sum(kilobytes(pid, "smaps_rollup", "Pss:") for pid in processes)
            return now / 1024, now / 1024
        return tuple(kilobytes(processes[0], "status", word) / 1024 for word in ("VmHWM:", "VmRSS:"))

    def is_running(self):
        return self.process.poll() is None

    def stop(self):
        """Seconds from SIGTERM to the end, and the exit status; it is killed after 20 seconds."""
        begun = time.monotonic()
        self.process.send_signal(signal.SIGTERM)
        try:
            status = self.process.wait(20)
        except subprocess.TimeoutExpired:
            self.process.kill()
            status = self.process.wait()
        self.log.close()
        return time.monotonic() - begun, status


class Catzd(Server):
    label, program, verifies = "catzd", str(ROOT / "crates/catzd/out/catzd"), True

    @classmethod
    def choose(cls, program):
        """Takes this program, which must be there."""
        cls.program = os.path.abspath(program)
        if not cls.is_installed():
            sys.exit(f"there is no program {cls.program}; `rt run -- replay < stdin` in crates/catzd builds it")

    def words(self):
        return ["env", "--block-signal=TERM,INT,HUP", self.program, "serve"]

    def input(self):
        policy = "require" if self.plan.verifies else "off"
        hosts = ", ".join(f'"{host}"' for host in self.plan.downstream)
        downstream = f"downstream = [{hosts}]\n" if hosts else ""
        return open(self.write("catzd.toml", f"""listen = "127.0.0.1:{self.port}"
{downstream}[[catalog]]
name = "{self.plan.catalog}"
policy = "off"
primaries = ["127.0.0.1:{self.plan.primary}"]
[[catalog.group]]
word = "checked"
policy = "{policy}"
primaries = ["127.0.0.1:{self.plan.primary}"]
"""))


class Knot(Server):
    label, program, verifies = "Knot", "knotd", True

    def template(self, name):
        """How its zones are kept: in memory alone, as those of catzd are."""
        return f"""  - id: {name}
    storage: {self.folder}
    master: primary
    acl: notify
    zonefile-sync: -1
    zonefile-load: none
    journal-content: none
    zonemd-verify: {"on" if self.plan.verifies and name == "member" else "off"}
"""

    def words(self):
        (self.folder / "db").mkdir(exist_ok=True)
        return ["knotd", "-c", self.write("knot.conf", f"""server:
    listen: 127.0.0.1@{self.port}
    rundir: {self.folder}
    udp-workers: 2
    tcp-workers: 2
    background-workers: 2
database:
    storage: {self.folder}/db
log:
  - target: stderr
    any: warning
remote:
  - id: primary
    address: 127.0.0.1@{self.plan.primary}
acl:
  - id: notify
    address: 127.0.0.1
    action: [notify, transfer]
template:
{self.template("default")}{self.template("member")}zone:
  - domain: {self.plan.catalog}
    catalog-role: interpret
    catalog-template: member
""")]


class Nsd(Server):
    label, program, reads_catalogs = "NSD", "nsd", False

    def words(self):
        zones = "".join(f"""zone:
    name: {one}
    request-xfr: 127.0.0.1@{self.plan.primary} NOKEY
    allow-notify: 127.0.0.1 NOKEY
    provide-xfr: 127.0.0.1 NOKEY
""" for one in self.plan.members)
        return ["nsd", "-d", "-c", self.write("nsd.conf", f"""server:
    server-count: 2
    ip-address: 127.0.0.1@{self.port}
    username: ""
    zonesdir: {self.folder}
    database: ""
    pidfile: {self.folder}/nsd.pid
    xfrdfile: {self.folder}/xfrd.state
    xfrdir: {self.folder}
    zonelistfile: {self.folder}/zone.list
    tcp-count: 400
    xfrd-tcp-max: 128
    rrl-ratelimit: 0
remote-control:
    control-enable: no
{zones}""")]


class Bind(Server):
    label, program = "BIND", "named"

    def words(self):
        return ["named", "-g", "-n", "2", "-c", self.write("named.conf", f"""options {{
    directory "{self.folder}";
    listen-on port {self.port} {{ 127.0.0.1; }};
    listen-on-v6 {{ none; }};
    pid-file "{self.folder}/named.pid";
    session-keyfile "{self.folder}/session.key";
    recursion no;
    dnssec-validation no;
    notify no;
    minimal-responses yes;
    tcp-clients 400;
    tcp-listen-queue 512;
    serial-query-rate 10000;
    transfers-in 100;
    transfers-per-ns 100;
    catalog-zones {{ zone "{self.plan.catalog}" default-primaries {{ 127.0.0.1 port {self.plan.primary}; }}
        in-memory yes min-update-interval 0; }};
}};
controls {{}};
logging {{ channel quiet {{ stderr; severity warning; }}; category default {{ quiet; }}; }};
zone "{self.plan.catalog}" {{
    type secondary;
    primaries {{ 127.0.0.1 port {self.plan.primary}; }};
}};
""")]


KINDS = {kind.label.lower(): kind for kind in (Catzd, Knot, Nsd, Bind)}
