"""Questions that are asked of two servers by dig, kdig and drill, and what their answers differ in."""
import re
import shutil
import subprocess
from dataclasses import dataclass

TOOLS = ("dig", "kdig", "drill")
SECTIONS = ("answer", "authority", "additional")

# What is asked, its name, within a.test where it doesn't end with a dot, and its type.
QUESTIONS = (
    ("address", "www", "A"),
    ("address of six", "www", "AAAA"),
    ("text", "text", "TXT"),
    ("apex SOA", "", "SOA"),
    ("apex NS", "", "NS"),
    ("apex MX", "", "MX"),
    ("no data", "www", "MX"),
    ("no data at an empty name", "empty", "A"),
    ("no name", "nothing", "A"),
    ("no name below an address", "x.www", "A"),
    ("wildcard", "x.wild", "A"),
    ("wildcard, two labels", "x.y.wild", "A"),
    ("wildcard, no data", "x.wild", "MX"),
    ("delegation", "host.sub", "A"),
    ("delegation itself", "sub", "NS"),
    ("address of glue", "ns1.sub", "A"),
    ("alias", "one", "CNAME"),
    ("chain of aliases", "one", "A"),
    ("chain, no data", "one", "MX"),
    ("chain to no name", "lost", "A"),
    ("chain out of the zone", "outside", "A"),
    ("another zone", "www.other.test.", "A"),
    ("the catalog", "catalog.test.", "SOA"),
)

# The same of zones with DNAME records.
RENAMED = (
    ("below a DNAME", "w.d.d.test.", "A"),
    ("below a DNAME, no data", "w.d.d.test.", "MX"),
    ("below a DNAME, no name", "nothing.d.d.test.", "A"),
    ("below a DNAME, two labels", "x.w.d.d.test.", "A"),
    ("below a DNAME, CNAME", "w.d.d.test.", "CNAME"),
    ("below a DNAME, DNAME", "w.d.d.test.", "DNAME"),
    ("below a DNAME, ANY", "w.d.d.test.", "ANY"),
    ("below a DNAME, ANY, no name", "nothing.d.d.test.", "ANY"),
    ("a DNAME's owner, DNAME", "d.d.test.", "DNAME"),
    ("a DNAME's owner, A", "d.d.test.", "A"),
    ("a DNAME's owner, ANY", "d.d.test.", "ANY"),
    ("a DNAME's owner, CNAME", "d.d.test.", "CNAME"),
    ("a DNAME's owner with an address", "both.d.test.", "A"),
    ("a DNAME's owner with an address, no data", "both.d.test.", "AAAA"),
    ("a DNAME's owner with an address, ANY", "both.d.test.", "ANY"),
    ("below a DNAME with an address", "w.both.d.test.", "A"),
    ("DNAME, CNAME, address", "alias.d.d.test.", "A"),
    ("CNAME, DNAME, address", "first.d.test.", "A"),
    ("DNAME, DNAME, address", "w.twice.d.test.", "A"),
    ("DNAME to a wildcard", "w.towild.d.test.", "A"),
    ("DNAME to a delegation", "w.tocut.d.test.", "A"),
    ("DNAME out of the zone", "www.outside.d.test.", "A"),
    ("DNAME to another member", "www.member.d.test.", "A"),
    ("DNAME round", "w.round.d.test.", "A"),
    ("DNAME that grows", "w.grow.d.test.", "A"),
    ("DNAME to a name too long", f"{'m' * 63}.long.d.test.", "A"),
    ("DNAME to the longest name", f"{'m' * 60}.long.d.test.", "A"),
    ("DNAME to a name too long, CNAME", f"{'m' * 63}.long.d.test.", "CNAME"),
    ("a DNAME's owner below a cut", "d.cut.d.test.", "DNAME"),
    ("below a DNAME below a cut", "w.d.cut.d.test.", "A"),
    ("wildcard beside a DNAME", "x.star.d.test.", "A"),
    ("below a DNAME beside a wildcard", "w.d.star.d.test.", "A"),
    ("a DNAME beside a wildcard", "d.star.d.test.", "A"),
    ("a wildcard's DNAME, its owner", "*.stars.d.test.", "DNAME"),
    ("a wildcard's DNAME", "w.stars.d.test.", "A"),
    ("a wildcard's DNAME, DNAME", "w.stars.d.test.", "DNAME"),
    ("a wildcard's DNAME, two labels", "w.x.stars.d.test.", "A"),
    ("below a wildcard's DNAME", "w.*.stars.d.test.", "A"),
    ("apex with a DNAME, SOA", "e.test.", "SOA"),
    ("apex with a DNAME, DNAME", "e.test.", "DNAME"),
    ("apex with a DNAME, A", "e.test.", "A"),
    ("apex with a DNAME, ANY", "e.test.", "ANY"),
    ("below an apex with a DNAME", "w.e.test.", "A"),
    ("below a DNAME in its zone", "w.d.f.test.", "A"),
    ("an address below a DNAME", "x.d.f.test.", "A"),
    ("a cut below a DNAME", "cut.d.f.test.", "NS"),
    ("below a cut below a DNAME", "w.cut.d.f.test.", "A"),
)


def owner_of(name):
    """The whole name of a question."""
    return name if name.endswith(".") else f"{name}.a.test." if name else "a.test."


@dataclass(frozen=True)
class Way:
    """How a question is asked."""
    tool: str
    is_tcp: bool
    has_edns: bool
    has_do: bool = False

    def __str__(self):
        edns = "DO" if self.has_do else "EDNS" if self.has_edns else "no EDNS"
        return f"{self.tool}, {'TCP' if self.is_tcp else 'UDP'}, {edns}"

    def words(self, port, owner, kind):
        """The command line."""
        if self.tool == "drill":
            flags = ["-t" if self.is_tcp else "-u"] + (["-b", "1232"] if self.has_edns else [])
            flags += ["-D"] if self.has_do else []
            return ["drill", "-o", "rd", "-p", str(port), *flags, owner, "@127.0.0.1", kind]
        edns = ["+edns=0", "+bufsize=1232"] if self.has_edns else ["+noedns"]
        flags = ["+tcp" if self.is_tcp else "+notcp", "+norec", "+tries=1" if self.tool == "dig" else "+retry=0"]
        edns += ["+dnssec"] if self.has_do else []
        cookie = ["+nocookie"] if self.has_edns else []
        return [self.tool, "@127.0.0.1", "-p", str(port), owner, kind, *flags, *edns, *cookie]


def ways(has_do=False):
    """All ways for the tools that are installed, with DO or without."""
    return [Way(tool, is_tcp, has_edns, has_do) for tool in TOOLS if shutil.which(tool)
            for is_tcp in (False, True) for has_edns in (False, True) if has_edns or not has_do]


@dataclass(frozen=True)
class Reply:
    """A reply as a tool prints it: code, AA and TC, the sections' records sorted by text, and whether OPT came."""
    status: str
    flags: str
    answer: tuple
    authority: tuple
    additional: tuple
    edns: bool

    def differs_from(self, other):
        """The parts in which two replies differ."""
        return tuple(part for part in ("status", "flags", *SECTIONS, "edns")
                     if getattr(self, part) != getattr(other, part))


def read_reply(text):
    """What a tool printed; a status of `none` where no reply came."""
    status = re.search(r"(?:status|rcode): (\w+)", text)
    flags = re.search(r";; [Ff]lags: ([a-z ]*)", text)
    sections, section = {one: [] for one in SECTIONS}, None
    for line in text.splitlines():
        head = re.match(r";; (ANSWER|AUTHORITY|ADDITIONAL) SECTION", line)
        if head:
            section = head.group(1).lower()
        elif line.startswith(";") or not line.strip():
            section = section if line.strip() else None
        elif section:
            owner, *rest = line.split()
            sections[section].append(" ".join([owner.lower(), *rest]))
    held = "".join(sorted(flag for flag in (flags.group(1).split() if flags else []) if flag in ("aa", "tc")))
    edns = re.search(r"EDNS: version|EDNS PSEUDOSECTION|OPT PSEUDOSECTION", text) is not None
    return Reply(status.group(1) if status else "none", held, *(tuple(sorted(sections[one])) for one in SECTIONS), edns)


def ask(way, port, owner, kind):
    done = subprocess.run(way.words(port, owner, kind), capture_output=True, text=True, timeout=15, check=False)
    return read_reply(done.stdout)
