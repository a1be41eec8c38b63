#!/usr/bin/env python3
"""check.py: compares the man pages with what the program's definitions say, both ways.

It reads each form of a line of the log from the definitions (crates/dz_report/specs/Lines.antt and Reason.antt,
crates/dz_provision/specs/Log.antt, crates/dz_serve/specs/Command.antt), each exit status from
crates/dz_run/specs/Exit.antt, and the keys, faults, policies and limits of a configuration from crates/dz_config and
crates/dz_member, and finds each in man/catzd.8 and man/catzd.toml.5; and it finds nothing there that the definitions
don't have. It ends with status 1 where the two differ, or where it can't read a definition.
"""
import pathlib
import re
import sys

ROOT = pathlib.Path(__file__).resolve().parents[2]
LINES, REASONS = "crates/dz_report/specs/Lines.antt", "crates/dz_report/specs/Reason.antt"
UNKEPT = "crates/dz_provision/specs/Log.antt"
COMMAND, FAULTS = "crates/dz_serve/specs/Command.antt", "crates/dz_config/specs/Reading.antt"
KEYS, LIMITS = "crates/dz_config/specs/Document.antt", "crates/dz_settings/src/limits.rt"
POLICIES = "crates/dz_settings/src/peer.rt"
STATUSES, USAGE = "crates/dz_run/specs/Exit.antt", "crates/dz_run/src/commands.rt"
PROGRAM, CONFIGURATION = "man/catzd.8", "man/catzd.toml.5"
# The crates whose code writes lines, and the page with the commands that the man page leaves out.
WRITERS = ("catzd", "dz_serve", "dz_provision", "dz_report")
OTHER_PAGE = "docs/USING.md"

# What the man page calls a value, by the definition that gives it; other values have the names of the definitions.
NAMES = {"serial_in": "serial", "fault_number": "number", "number_of": "number", "peer_text": "primary"}


class Unread(Exception):
    """A definition that has none of the forms that are known here."""


def text_of(file):
    return (ROOT / file).read_text()


# -- Definitions ------------------------------------------------------------------------------------------------------

def equations(*files):
    """The equations of each definition, by its name: a list of (its patterns, its right side)."""
    found = {}
    for file in files:
        text = re.sub(r"^--.*$", "", text_of(file), flags=re.M)
        for head in re.finditer(r"^(?:abbrev|unfoldable) pub (\w+) : .*$", text, re.M):
            name, rest = head.group(1), text[head.end():].split("\n\n")[0]
            rest = re.sub(r"\n +", " ", rest)
            for line in filter(str.strip, rest.splitlines()):
                match = re.match(rf"{name} (.*?) = (.*)$", line)
                found.setdefault(name, []).append((match.group(1), match.group(2)) if match else (line, None))
    return found


def tokens(text):
    return re.findall(r'"[^"]*"|\(|\)|\+\+|∷|\[\]|[^\s()]+', text)


def parse(text):
    """An expression as nested lists: a word, a text in quotes, or [function, argument, ..]; `++` is a function."""
    words = tokens(re.sub(r"^let .*? in ", "", text.strip()))
    place = 0

    def one():
        nonlocal place
        word = words[place]
        place += 1
        if word != "(":
            return word
        inner = all_of()
        if place >= len(words) or words[place] != ")":
            raise Unread(text)
        place += 1
        return inner

    def all_of():
        nonlocal place
        terms, parts = [], []
        while place < len(words) and words[place] != ")":
            if words[place] in ("++", "∷"):
                terms.append(parts)
                parts = []
                place += 1
            else:
                parts.append(one())
        terms.append(parts)
        terms = [term[0] if len(term) == 1 else term for term in terms]
        return terms[0] if len(terms) == 1 else ["++", *terms]

    return all_of()


class Forms:
    """The texts that definitions can give, with <name> for a value."""

    def __init__(self, *files):
        self.found, self.used = equations(*files), set()

    def of(self, name):
        """All forms of a definition, one for each of its equations and what these stand on."""
        if name not in self.found:
            raise Unread(f"no definition of {name}")
        self.used.add(name)
        for line, right in self.found[name]:
            if right is None:
                raise Unread(line)
        return {form for _, right in self.found[name] for form in self.forms(parse(right))}

    def forms(self, term):
        """The forms of an expression."""
        if isinstance(term, str):
            return {term.strip('"')} if term.startswith('"') else {self.value(term)}
        head, *rest = term
        if head == "codes":
            return {rest[0].strip('"')}
        if head in ("decimal", "text_of", "printed"):
            return {self.value(rest[0])}
        if head == "end":
            return {form + "\n" for form in self.forms(rest[0])}
        if head == "also":
            return {f"{one} {other}" for one in self.forms(rest[0]) for other in self.forms(rest[1])}
        if head == "numbered":
            return {one + self.value(rest[1]) for one in self.forms(rest[0])}
        if head == "flat_map":
            return {""} | self.of(rest[0])
        if head == "++":
            forms = {""}
            for part in rest:
                if part != "10":
                    forms = {one + other for one in forms for other in self.forms(part)}
            return forms
        if head == "peer_text":
            return {f"<{NAMES[head]}>"}
        return self.of(head)

    def value(self, term):
        """What a number or a name is called."""
        word = term if isinstance(term, str) else term[0]
        if word == "[]":
            return ""
        word = NAMES.get(word, word.split(".")[-1])
        return f"<{word}>"


def log_forms():
    """Each line of the log of `serve`."""
    forms = Forms(LINES, REASONS)
    lines = set()
    for name in ("job_line", "failure_line", "notify_line", "verdict_lines"):
        for form in forms.of(name):
            lines |= set(form.splitlines())
    unused = {name for name in forms.found if name.endswith(("_line", "_lines", "_word", "reason_of"))} - forms.used
    if unused:
        raise Unread(f"definitions that no line stands on: {unused}")
    lines |= {form.rstrip() for form in Forms(UNKEPT).of("unkept_text")}
    bad = re.search(r'^bad_config fault = codes "(.*?)"', text_of(COMMAND), re.M)
    if not bad:
        raise Unread(COMMAND)
    return lines | {bad.group(1) + "<number>"}


def statuses():
    """Each exit status."""
    found = equations(STATUSES)
    rights = [right for name in ("number_of", "exit_number") for _, right in found[name]]
    return {right for right in rights if right and right.isdigit()}


def keys():
    """The keys of each table, in order: the document, a catalog, a group."""
    found = {}
    for place, right in equations(KEYS)["is_key"]:
        found[place.split()[0]] = re.findall(r'codes "(\w+)"', right)
    return found


def faults():
    return {number for _, number in equations(FAULTS)["number_of"]}


def policies():
    return set(re.findall(r'text == b"(\w+)"', text_of(POLICIES)))


def limits():
    """The limits of a configuration, by their names."""
    text = text_of(LIMITS) + text_of("crates/dz_config/src/config.rt") + text_of("crates/dz_config/src/downstream.rt")
    return dict(re.findall(r"^pub const (\w+): usize = ([\d_]+);", text, re.M))


def commands():
    return re.search(r"usage: catzd (.*?)\\n", text_of(USAGE)).group(1).split(" | ")


def written():
    """The first words of the texts that are written, from the code."""
    words = set()
    for crate in WRITERS:
        for file in sorted((ROOT / "crates" / crate / "src").glob("*.rt")):
            if "tests" not in file.name:
                words |= set(re.findall(r'[( *]b"([a-z][a-z-]*)', file.read_text()))
    return words


# -- Man pages --------------------------------------------------------------------------------------------------------

def section(page, heading):
    """The lines of a section of a man page."""
    match = re.search(rf"^\.S[hs] {heading}\n(.*?)(?=^\.Sh |\Z)", text_of(page), re.M | re.S)
    if not match:
        raise Unread(f"{page} has no section {heading}")
    return match.group(1).splitlines()


def form_of(item):
    """The form that an item of a list has: `Ic` are words, `Ar` values."""
    words, is_value = [], False
    for word in item.split():
        if word in ("Ic", "Ar", "Cm"):
            is_value = word == "Ar"
        else:
            words.append(f"<{word}>" if is_value else word)
    return " ".join(words)


def items(lines):
    return [line[4:] for line in lines if line.startswith(".It ")]


def man_forms():
    return [form_of(item) for item in items(section(PROGRAM, "LOG"))]


def man_keys(heading):
    """The keys in a part of the configuration's page."""
    match = re.search(rf"^\.Ss {heading}\n(.*?)(?=^\.S[hs] |\Z)", text_of(CONFIGURATION), re.M | re.S)
    return [item.split()[1] for item in items(match.group(1).splitlines()) if item.startswith("Ic ")]


# -- The comparison ---------------------------------------------------------------------------------------------------

class Comparison:
    def __init__(self):
        self.faults = 0

    def fault(self, text):
        print(f"FAULT: {text}")
        self.faults += 1

    def same(self, what, program, page, seen):
        """The lists have the same, and the page has each once."""
        for one in sorted(set(program) - set(seen)):
            self.fault(f"{page} has no {what} `{one}`")
        for one in sorted(set(seen) - set(program)):
            self.fault(f"{page} has `{one}`, and the program has no such {what}")
        for one in sorted({one for one in seen if list(seen).count(one) > 1}):
            self.fault(f"{page} has the {what} `{one}` twice")
        print(f"{what}: {len(set(program))} in the program, {len(set(seen))} in {page}")

    def has(self, what, text, page):
        if text not in text_of(page):
            self.fault(f"{page} doesn't say {what}: {text}")


def compare():
    all_of = Comparison()
    all_of.same("line of the log", log_forms(), PROGRAM, man_forms())
    all_of.same("exit status", statuses(), PROGRAM, [item.split()[0] for item in items(section(PROGRAM, "EXIT STATUS"))])
    for place, heading in (("Document", "The document"), ("Catalog", "A catalog"), ("Group", "A group")):
        all_of.same(f"key of {heading.lower()}", keys()[place], CONFIGURATION, man_keys(heading))
    all_of.same("fault of a configuration", faults(), CONFIGURATION, items(section(CONFIGURATION, "FAULTS")))
    nested = [item.split()[1] for item in items(section(CONFIGURATION, "A catalog")) if item.startswith("Cm ")]
    all_of.same("policy", policies(), CONFIGURATION, nested)
    shown = {"CATALOGS": "1 to {} tables", "CATALOG_GROUPS": "Up to {} tables", "PRIMARIES": "1 to {} addresses",
             "WORD_OCTETS": "1 to {} characters", "TEXT_OCTETS": "{} octets",
             "DOWNSTREAM": "0 to {} addresses", "SECRET_OCTETS": "1 to {} octets"}
    all_of.same("limit", limits(), CONFIGURATION, list(shown))
    for name, number in limits().items():
        all_of.has(f"the limit {name}", shown.get(name, name + " {}").format(f"{int(number):,}"), CONFIGURATION)
    described = [item for item in items(section(PROGRAM, "DESCRIPTION")) if item.startswith("Cm ")]
    all_of.same("command", commands(), PROGRAM, [item[3:].replace("Ar ", "") for item in described])
    pages = re.sub(r"^\.\w+ ", "", text_of(PROGRAM), flags=re.M) + text_of(OTHER_PAGE)
    for word in sorted(written()):
        if not re.search(rf"(?<![\w-]){word}(?![\w-])", pages):
            all_of.fault(f"neither {PROGRAM} nor {OTHER_PAGE} has `{word}`, which the code writes")
    print(f"{len(written())} words that the code writes")
    return all_of.faults


def main():
    try:
        faults_found = compare()
    except (Unread, OSError, KeyError, AttributeError) as error:
        sys.exit(f"a definition has another form than the ones known here: {error!r}")
    print(f"{faults_found} faults")
    sys.exit(1 if faults_found else 0)


if __name__ == "__main__":
    main()
