#!/usr/bin/env python3
"""definitions.py: makes docs/DEFINITIONS.md: `python3 tests/docs/definitions.py`, in a few seconds.

The page has each definition of the modules of crates/*/specs/ that begin with "-- Meaning" or "-- Answer", in the order of
crates.txt, with the comment above it. A definition without a comment has its sentence from docs/definitions.txt, or else goes with the
one before it. Modules that begin with "-- Judge" are on the page if a crate's src/laws.rt states them. What cites a
definition is searched in the contracts of src/.
"""
import pathlib
import re

ROOT = pathlib.Path(__file__).resolve().parents[2]
PAGE, SENTENCES, MAP = "docs/DEFINITIONS.md", "docs/definitions.txt", "docs/ARCHITECTURE.md"
TESTS = ("dz_tests", "dz_low_tests")
# How a module begins that a reader has to trust.
TRUSTED = ("-- Meaning", "-- Answer")
CITED = 3  # how many that cite a definition are named
# A definition, by its words before the name; a field or a constructor of one, with what is said at its end.
DECLARED = re.compile(r"^(?:(?:abbrev|unfoldable|opaque) )?pub (?!use )(?:(?:record|data) )?([^\s:({]+)")
PART = re.compile(r"^  (?:pub )?(\w+) :.*?  -- (.*)$")
IMPORT = re.compile(r"^\s*(?:ghost )?(?:pub )?use (?:Rattle\.(\w+)|crate|lib)\.(specs(?:\.\w+)*?)"
                    r"(?:\.\{([^}]*)\}| as (\w+))?;?$", re.M)
# In code: a call or a type, and the types whose values contracts see.
ITEM = re.compile(r"^( *)(pub )?(?:const )?(fn|struct|enum|trait) (\w+)|^( *)()(impl)(?:<.*?>)? (?:Model for )?(\w+)")


class Module:
    """A module of definitions: its path, what its first lines say, and its definitions in groups."""

    def __init__(self, file, sentences):
        self.file, self.crate = file, file.relative_to(ROOT / "crates").parts[0]
        self.path = ".".join(file.relative_to(ROOT / "crates" / self.crate).with_suffix("").parts)
        self.text = file.read_text()
        self.head, self.groups = "", []
        self.read(sentences)

    def key(self, name):
        return f"{self.crate}/{self.path.split('.', 1)[1]}.{name}"

    def read(self, sentences):
        text = self.text
        if re.search(r"^module _ ", text, re.M):  # what it has is indented
            text = re.sub(r"^  ", "", text, flags=re.M)
        lines = text.splitlines()
        while lines and lines[0].startswith("-- "):
            self.head = f"{self.head} {lines.pop(0)[3:]}".strip()
        comment, section = [], ""
        for line in lines:
            declared, part = DECLARED.match(line), PART.match(line)
            if line.startswith("-- ----"):
                comment, section = [], line.strip("- ")
            elif line.startswith("-- "):
                comment.append(line[3:])
            elif declared:
                self.declare(declared.group(1), " ".join(comment), section, sentences)
                comment, section = [], ""
            elif part and self.groups:
                self.groups[-1].parts.append(part.groups())

    def declare(self, name, comment, section, sentences):
        """A definition joins the one before it if nothing is said of it alone."""
        if comment:
            sentences.pop(self.key(name), None)
        said = comment or sentences.get(self.key(name)) or section
        if said or not self.groups:
            self.groups.append(Group(said))
        self.groups[-1].names.append(name)


class Group:
    """Definitions that one comment is about."""

    def __init__(self, comment):
        self.comment, self.names, self.parts = comment, [], []


def sentences():
    """The sentences of docs/definitions.txt, by the definitions that they are about."""
    lines = [line for line in (ROOT / SENTENCES).read_text().splitlines() if line and not line.startswith("#")]
    return dict(line.split(": ", 1) for line in lines)


def crates():
    lines = (ROOT / "crates.txt").read_text().splitlines()
    return [re.match(r"\w+", line).group() for line in lines if line and not line.startswith("#")]


def families():
    """The families of crates.txt, each with its crates."""
    found = {}
    for line in (ROOT / "crates.txt").read_text().splitlines():
        if line.startswith("#"):
            family = found.setdefault(line.lstrip("# ").split(":")[0], [])
        elif line.strip():
            family.append(re.match(r"\w+", line).group())
    return found


def imports(text, crate):
    """What a text uses of modules of definitions: pairs of the name in the text, and the crate, the module and the name."""
    for other, module, names, alias in IMPORT.findall(text):
        for name in re.split(r",\s*", names) if names else []:
            first, _, last = name.partition(" as ")
            yield last or first, (other or crate, module, first)
        for name in re.findall(rf"\b{alias}\.(\w+)", text) if alias else []:
            yield f"{alias}.{name}", (other or crate, module, name)


def contracts(text):
    """The public calls and the types of a text of code, each with its contract or with what contracts see of it."""
    owner, owner_is_public, item, parts = "", False, None, []
    for line in text.splitlines():
        match = ITEM.match(line)
        if match:
            if item:
                yield item, "\n".join(parts)
            indent, public, kind, name = match.groups()[:4] if match.group(3) else match.groups()[4:]
            if not indent and kind != "fn":
                owner, owner_is_public = name, kind == "trait" and bool(public)
            item, parts = None, []
            if kind != "fn":
                item = name if public or kind == "impl" else None
            elif public:
                item = name
            elif indent and owner_is_public:
                item = owner
        elif re.match(r" *\{$|.* \{$", line) and item and "ensures" in "".join(parts):
            yield item, "\n".join(parts)
            item = None
        if item and not line.lstrip().startswith("//") and "ghost use " not in line:
            parts.append(line)
    if item:
        yield item, "\n".join(parts)


def citations(order):
    """By crate, module and name of a definition: the calls and types whose contracts have that name, with their files."""
    found = {}
    for crate in order:
        for file in sorted((ROOT / "crates" / crate / "src").glob("*.rt")):
            if crate in TESTS or file.stem in ("tests", "desk_tests"):
                continue
            text = file.read_text()
            used = dict(imports(text, crate))
            for item, contract in contracts(text):
                words = set(re.findall(r"\w+\.\w+|\w+", contract)) | set(re.findall(r"\w+", contract))
                for name in words & set(used):
                    if re.search(rf"\b(?:fn|struct|enum|trait) {item}\b", text):
                        found.setdefault(used[name], {})[item] = file
    return found


def in_order(modules):
    """Modules of a crate, each after those that it uses."""
    left, done = sorted(modules, key=lambda module: module.path), []
    uses = {module.path: {key[1] for _, key in imports(module.text, module.crate) if key[0] == module.crate}
            for module in left}
    while left:
        free = [module for module in left if not uses[module.path] & {other.path for other in left} - {module.path}]
        done.append((free or left)[0])
        left.remove(done[-1])
    return done


def laws(crate):
    """The modules of laws that the crate's src/laws.rt states."""
    file = ROOT / "crates" / crate / "src/laws.rt"
    used = {key[:2] for _, key in imports(file.read_text(), crate)} if file.exists() else set()
    return {module for other, module in used if other == crate}


def sentence(text):
    """A comment as a sentence of the page."""
    parts = re.split(r"(`[^`]*`)", text.strip())
    parts[::2] = [re.sub(r"([*<|])", r"\\\1", part) for part in parts[::2]]
    text = "".join(parts)
    text = text[:1].upper() + text[1:] if text[1:2] != " " or text[:1] == "a" else text
    return text if not text or text[-1] in ".:;" else text + "."


def cited_by(module, group, found):
    items = {}
    for name in group.names:
        for item, file in found.get((module.crate, module.path, name), {}).items():
            items.setdefault(item, file)
    own = sorted(items.items(), key=lambda pair: f"crates/{module.crate}/" not in str(pair[1]))
    shown = [f"[`{item}`](../{file.relative_to(ROOT)})" for item, file in own[:CITED]]
    return f" *Cited by* {', '.join(shown)}{' and others' if len(own) > CITED else ''}." if shown else ""


def lines_of(module, found):
    kind, _, head = module.head.partition(": ")
    link = f"../{module.file.relative_to(ROOT)}"
    yield f"### [{module.path.split('.', 1)[1]}]({link})"
    yield ""
    yield sentence(head) + (" These are laws, which are proved, and need not be believed." if kind == "Judge" else "")
    yield ""
    for group in module.groups:
        names = ", ".join(f"`{name}`" for name in group.names)
        parts = "; ".join(f"`{name}`: {said}" for name, said in group.parts)
        said = sentence(group.comment) + (f" {sentence(parts)}" if parts else "")
        yield f"- **{names}**{': ' + said if said else ''}{cited_by(module, group, found)}"
    if module.groups:
        yield ""


def roles():
    """What each crate does, by the map."""
    return dict(re.findall(r"^\| `(\w+)` \| (.*?) \|", (ROOT / MAP).read_text(), re.M))


def page():
    """The text of the page, the number of modules that a reader has to trust, and the sentences that no definition needs."""
    order, said, does, shown = crates(), sentences(), roles(), {}
    for crate in order:
        files = sorted((ROOT / "crates" / crate / "specs").rglob("*.antt"))
        stated = laws(crate)
        modules = [Module(file, said) for file in files if file.read_text().startswith(TRUSTED)
                   or file.read_text().startswith("-- Judge") and f"specs.{file.stem}" in stated]
        if modules:
            shown[crate] = in_order(modules)
    found = citations(order)
    meanings = [module for modules in shown.values() for module in modules if not module.head.startswith("Judge")]
    count = sum(len(group.names) for module in meanings for group in module.groups)
    used = {module.key(name) for modules in shown.values() for module in modules
            for group in module.groups for name in group.names} & set(said)
    out = [HEAD.format(count=f"{count:,}", modules=len(meanings))]
    for family, members in families().items():
        links = ", ".join(f"[{crate}](#{crate})" for crate in members if crate in shown)
        out += [f"- {family}: {links}"] if links else []
    out.append("")
    for crate, modules in shown.items():
        out += [f"## {crate}", "", sentence(does[crate].replace("\\", "")), ""]
        for module in modules:
            out += lines_of(module, found)
    return "\n".join(out), len(meanings), sorted(set(sentences()) - used)


HEAD = """# Definitions

What the contracts mean, and what has to be believed for a proof to say what it seems to say: {count} definitions in {modules} modules. This page is made by `make docs` from the comments of these modules, crate by crate from the bottom to the top, and within a crate each module after those that it uses. A heading links to its module.

How to read it:

- Each item has the definitions that one comment is about. *Cited by* names calls and types whose contracts have one of them, {cited} at most. Items without it are parts of others.
- Octets are a list of numbers below 256. A name is a list of labels in lower case, the leftmost first and without the root's. A kind is the number of a type ([Words](../crates/dz_name/specs/Words.antt)). The numbers of the DNS have names in [dns](../crates/dz_name/src/dns.rt), which code and definitions use.
- [RFC.md](RFC.md) goes from a rule of an RFC to its definition, and [GLOSSARY.md](GLOSSARY.md) from a term.

Where to begin:

- what a reply is: [`reply_of`](../crates/dz_reply/specs/Reply.antt), the sections of an answer: [`sections_of`](../crates/dz_reply/specs/Answer.antt), what a zone has for a name and a type: [`found`](../crates/dz_lookup/specs/Found.antt), which zone answers: [`closest`](../crates/dz_table/specs/Table.antt)
- what comes of a transfer: [`outcome`](../crates/dz_take/specs/Outcome.antt), what makes a zone valid: [`fault_of`](../crates/dz_zone/specs/Valid.antt), which of two serials is the newer: [`is_newer`](../crates/dz_serial/specs/Serial.antt)
- what a catalog lists: [`listing_of`](../crates/dz_catalog/specs/Listing.antt), what a listing changes at a zone: [`judged`](../crates/dz_member/specs/Process.antt)
- what is assigned and held after a list of transfers: [`after`](../crates/dz_history/specs/After.antt), what the core does at an event: [Core](../crates/dz_fleet/specs/Core.antt)
- what a running server owes its clients and primaries: [`IsRun`](../crates/dz_serve/specs/Runs.antt), what a disk keeps through a crash: [Disk](../crates/dz_disk/specs/Disk.antt)

The crates, by families:
""".replace("{cited}", {3: "three"}[CITED])


if __name__ == "__main__":
    (ROOT / PAGE).write_text(page()[0])
