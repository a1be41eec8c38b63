#!/usr/bin/env python3
"""check.py: compares the documents with the repository: `python3 tests/docs/check.py`, at once.

It finds each place that a page links to; each name that a table of docs/RFC.md has in code quotes, as a declaration in the
file that it links to; each crate in docs/ARCHITECTURE.md, in the families and the order of crates.txt; and the modules of
each crate in its README's table. It compares docs/DEFINITIONS.md with what definitions.py makes, and the program's version
with the Makefile's. It ends with status 1 where something is missing or differs.
"""
import pathlib
import re
import sys

import definitions

ROOT = pathlib.Path(__file__).resolve().parents[2]
PAGES = ("README.md", "docs/*.md", "bench/*.md", "bench/programs/*.md", "tests/*/*.md", "crates/*/README.md")
RULES, MAP, PROVED = "docs/RFC.md", "docs/ARCHITECTURE.md", "docs/PROVED.md"
# The columns whose names are those of the files that they link to.
COLUMNS = ("Definition", "Function", "Seen in")
LINK = re.compile(r"\[((?:`[^`]*`|[^\]`])*)\]\(([^)\s]+)\)")
NAME = re.compile(r"`([^`]+)`")
# Declarations of code and of definitions; a trait's name stands in its `impl` too, and a field of a record in its lines.
CODE = r"(?:fn|struct|enum|trait|ghost|const) {0}\b|\bimpl(?:<[^\n]*>)? {0}\b"
DEFINED = r"^ *(?:(?:abbrev|unfoldable|opaque|pub|record|data) )*{0}(?= [:({{]| $|$)"


class Comparison:
    def __init__(self):
        self.faults, self.counts = 0, {}

    def fault(self, text):
        print(f"FAULT: {text}")
        self.faults += 1

    def count(self, what):
        self.counts[what] = self.counts.get(what, 0) + 1


def text_of(page):
    return (ROOT / page).read_text()


def pages():
    return sorted(str(file.relative_to(ROOT)) for form in PAGES for file in ROOT.glob(form))


def without_blocks(text):
    return re.sub(r"^ *```.*?^ *```", "", text, flags=re.M | re.S)


def target(page, link):
    """The file or folder that a link leads to."""
    return (ROOT / page).parent / link.split("#")[0]


def anchors(file):
    """The headings of a page, as links name them, and the names that it gives to places."""
    text = file.read_text()
    headings = re.findall(r"^#+ (.*)$", text, re.M)
    named = {re.sub(r"[^\w\- ]", "", heading.lower()).replace(" ", "-") for heading in headings}
    return named | set(re.findall(r'<a id="([^"]+)"></a>', text))


def links(seen):
    for page in pages():
        for _, link in LINK.findall(without_blocks(text_of(page))):
            if re.match(r"\w+:", link):
                continue
            seen.count("links")
            file = target(page, link) if link.split("#")[0] else ROOT / page
            if not file.exists():
                seen.fault(f"{page} links to {link}, which isn't there")
            elif "#" in link and link.split("#")[1] not in anchors(file):
                seen.fault(f"{page} links to {link}, which has no such place")


def declares(file, name):
    form = CODE if file.suffix == ".rt" else DEFINED
    return re.search(form.format(re.escape(re.split(r"\.|::", name)[-1])), file.read_text(), re.M)


def tables(page):
    """Each row of a page's tables, by the headings of its columns."""
    heads = []
    for line in text_of(page).splitlines():
        cells = [cell.strip() for cell in line.strip("|").split(" | ")] if line.startswith("|") else []
        if not cells:
            heads = []
        elif not heads:
            heads = cells
        elif not set(line) <= set("|-"):
            yield dict(zip(heads, cells)) if len(cells) == len(heads) else {"": line}


def names(seen):
    for row in tables(RULES):
        if "" in row:
            seen.fault(f"{RULES} has a row of other columns: {row['']}")
        for column in set(COLUMNS) & set(row):
            found = LINK.findall(row[column])
            if not found:
                seen.fault(f"{RULES} links to nothing as {column}: {row[column]}")
            for text, link in found:
                for name in NAME.findall(text):
                    seen.count("names")
                    file = target(RULES, link)
                    if file.exists() and not declares(file, name):
                        seen.fault(f"{RULES}: {link} doesn't declare {name}")


def made(seen):
    """The page of definitions is what the script makes, and other pages tell how many modules it has."""
    text, modules, unused = definitions.page()
    seen.counts["modules"] = modules
    if text != text_of(definitions.PAGE):
        seen.fault(f"{definitions.PAGE} isn't what `make docs` makes")
    for key in unused:
        seen.fault(f"{definitions.SENTENCES} has a sentence that isn't needed: {key}")
    for page in ("README.md", PROVED):
        told = re.findall(r"(\d+) modules of `crates/\*/specs/`", text_of(page))
        if told != [str(modules)]:
            seen.fault(f"{page} tells of {told} modules that begin with Meaning or Answer, and there are {modules}")


def crates(seen):
    """The families and crates of crates.txt are those of the map, in their order."""
    listed = [line.lstrip("# ").split(":")[0] if line[0] == "#" else re.match(r"\w+", line).group()
              for line in text_of("crates.txt").splitlines() if line.strip()]
    part = text_of(MAP).split("## Crates, by families")[1].split("\n## ")[0]
    shown = [one or other for one, other in re.findall(r"^### (.*)$|^\| `(\w+)` \|", part, re.M)]
    for one, other in zip(listed + [None], shown + [None]):
        seen.count("families and crates")
        if one != other:
            seen.fault(f"crates.txt has {one} where {MAP} has {other}")
            break


def tables_of_crates(seen):
    """Where a crate's README has a table of modules, they are the files of its `src/` but for tests."""
    for page in sorted(ROOT.glob("crates/*/README.md")):
        rows = re.findall(r"^\| ((?:`\w+`(?:, )?)+) \|", page.read_text(), re.M)
        told = {name for row in rows for name in NAME.findall(row)}
        files = {file.stem for file in page.parent.glob("src/*.rt")} - {"lib", "main", "tests", "desk_tests"}
        for name in sorted(told ^ files if told else []):
            where = "src/ has" if name in told else "its README has"
            seen.fault(f"{page.parent.name}: {where} no module {name}")
        seen.count("crates' READMEs")


def version(seen):
    """The version that the program tells is that of the Makefile, which names archives and packages."""
    told = re.search(r'^const VERSION: &str = "catzd (.*)";$', text_of("crates/catzd/src/main.rt"), re.M)
    made = re.search(r"^VERSION *= (.*)$", text_of("Makefile"), re.M)
    if not told or not made or told.group(1) != made.group(1):
        seen.fault("the VERSION of crates/catzd/src/main.rt isn't that of the Makefile")


def main():
    seen = Comparison()
    for check in (made, links, names, crates, tables_of_crates, version):
        check(seen)
    print(", ".join(f"{number} {what}" for what, number in seen.counts.items()))
    print(f"{seen.faults} faults")
    sys.exit(1 if seen.faults else 0)


if __name__ == "__main__":
    main()
