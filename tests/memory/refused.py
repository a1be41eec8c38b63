#!/usr/bin/env python3
"""Refuses one request for memory after the other in two runs: `rt try --fail-alloc N` over a program that judges itself.

    refused.py [PROGRAM..] [--first N] [--step N] [--seconds N] [--rt RT]

replayed  `replay` of a catalog, its zone whole and then by differences, and a query. What is written is a front of what
          ample memory gives, all of it only where the status is 0; else the status says that memory ran out.
served    `serve` over devices in memory, two transfer workers among them. The first dial fails; a transfer that gets no
          memory is made again later. The log tells entries in their order, each version once, and nothing else.

Each program writes the same line in each run that is as it should be. A trial builds the program anew, which takes half a
minute or more, so a whole round of some hundred requests takes hours: it begins at request --first, goes on by --step, and
ends after --seconds (1,800 for each program). It prints each run that was not as expected, crashed or hung, and where it
ended, and ends with status 1 where there was one.
"""
import argparse
import pathlib
import shutil
import subprocess
import sys
import tempfile
import time

HERE = pathlib.Path(__file__).resolve().parent
ROOT = HERE.parents[1]
USES = {
    "replayed": "dz_run dz_desk dz_io",
    "served": "dz_run dz_desk dz_io dz_words dz_test_devices",
}

# A catalog lists `example.`, whose version 5 is held; its TTL and another address then come by differences.
SOA = "076578616d706c65000006000100000e10002e026e7307696e76616c69640004686f737407696e76616c6964000000000{}000000640000003c000002580000001e"
CATALOG = "0463617431076578616d706c65000006000100000e10002e026e7307696e76616c69640004686f737407696e76616c69640000000001000000640000003c000002580000001e"
WWW, SOON = "03777777076578616d706c65000001000100000e100004c0000250", "03777777076578616d706c6500000100010000003c0004c0000250"
SCRIPT = f"""catalog cat1.example. off 192.0.2.1
1000 job
1000 take 1 01170001840000010005000000000463617431076578616d706c650000fc0001{CATALOG}0463617431076578616d706c65000002000100000e10000907696e76616c6964000776657273696f6e0463617431076578616d706c6500001000010000000000020132026d31057a6f6e65730463617431076578616d706c6500000c000100000e100009076578616d706c6500{CATALOG}
1000 job
1000 take 2 00d5000284000001000400000000076578616d706c650000fc0001{SOA.format(5)}076578616d706c65000002000100000e10000c026e7307696e76616c696400{WWW}{SOA.format(5)}
1100 job
1100 job
1100 take 4 01f1000484000001000900000000076578616d706c650000fb0001{SOA.format(7)}{SOA.format(5)}{WWW}{SOA.format(6)}{SOON}{SOA.format(6)}{SOA.format(7)}046d61696c076578616d706c65000001000100000e100004c0000219{SOA.format(7)}
1100 udp 198.51.100.9 00300000000100000000000003777777076578616d706c650000010001
"""
OUTPUT = """job 1 cat1.example. axfr id 1 at 192.0.2.1:53
published 1 cat1.example. 1
added example. cat1.example.
job 2 example. axfr id 2 at 192.0.2.1:53
published 2 example. 5
job 3 cat1.example. ixfr 1 id 3 at 192.0.2.1:53
job 4 example. ixfr 5 id 4 at 192.0.2.1:53
published 3 example. 7
reply 00308400000100010000000003777777076578616d706c650000010001c00c000100010000003c0004c0000250
"""


def repository(folder, name):
    """A repository of copies of the crates, as far as a trial reads them, and the program."""
    crates = folder / "crates"
    (crates / name / "src").mkdir(parents=True)
    for crate in (ROOT / "crates").iterdir():
        if (crate / "src").is_dir():
            shutil.copytree(crate / "src", crates / crate.name / "src")
    (folder / "HANDLES").write_text((ROOT / "HANDLES").read_text())
    (folder / "crates.txt").write_text((ROOT / "crates.txt").read_text() + f"{name}: {USES[name]}\n")
    text = (HERE / f"{name}.rt.txt").read_text()
    for mark, what in (("@SCRIPT@", SCRIPT), ("@OUTPUT@", OUTPUT)):
        text = text.replace(mark, what.replace("\n", "\\n"))
    (crates / name / "src/main.rt").write_text(text)
    return crates / name


def tried(rt, crate, words):
    """What `rt try` says of the program, its last line apart, and its status."""
    done = subprocess.run([rt, "try", *words], cwd=crate, stdin=subprocess.DEVNULL, capture_output=True, text=True)
    lines = [line for line in done.stderr.splitlines() if line]
    return done.stdout, lines[:-1], lines[-1] if lines else "", done.returncode


def refuse(chosen, name):
    """Refuses requests of a program one after the other: whether all was as expected."""
    with tempfile.TemporaryDirectory(prefix="refused-") as folder:
        crate = repository(pathlib.Path(folder), name)
        call, wrong, ends = 0, 0, time.monotonic() + chosen.seconds
        while True:
            words = ["--fail-alloc", str(call)] if call else []  # first with ample memory
            wrote, said, last, status = tried(chosen.rt, crate, words)
            if (wrote, status) != ("as expected\n", 0):
                wrong += 1
                print(f"{name}, request {call}: it wrote {wrote!r}, status {status}: {last}\n" + "\n".join(said), flush=True)
            if wrong and not call:
                break
            if time.monotonic() > ends:
                break
            call = call + chosen.step if call else chosen.first
    print(f"{name}: requests from {chosen.first} by {chosen.step} up to {call}, {wrong} runs not as expected", flush=True)
    return not wrong


def main():
    words = argparse.ArgumentParser(description=__doc__, formatter_class=argparse.RawDescriptionHelpFormatter)
    words.add_argument("programs", nargs="*", metavar="PROGRAM", help=", ".join(USES))
    words.add_argument("--first", type=int, default=1, metavar="N", help="the first request that is refused (default 1)")
    words.add_argument("--step", type=int, default=1, metavar="N", help="how many further the next one is (default 1)")
    words.add_argument("--seconds", type=int, default=1800, metavar="N", help="the time for each program (default 1800)")
    words.add_argument("--rt", default="rt")
    chosen = words.parse_args()
    if unknown := [name for name in chosen.programs if name not in USES]:
        words.error(f"no program {unknown[0]}")
    results = [refuse(chosen, name) for name in chosen.programs or USES]
    sys.exit(0 if all(results) else 1)


if __name__ == "__main__":
    main()
