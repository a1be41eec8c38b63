#!/usr/bin/env python3
"""Shows catzd at work: a primary with a catalog of two zones, and catzd as its secondary, to ask with dig.

    demo.py [--catzd PROGRAM] [--once]

It prints catzd's configuration, its log, and what to ask. Enter changes a record at the primary; Ctrl-C ends all of it. With
--once it asks for itself, changes a record, asks again, and ends. Without PROGRAM it takes crates/catzd/out/catzd if that is
there, and otherwise compiles one without its proofs into out/demo, once, which takes some three minutes. It needs Python 3.9,
and uses the ports 5401 and 5402 of 127.0.0.1.
"""
import argparse
import os
import pathlib
import subprocess
import sys
import tempfile
import threading
import time

ROOT = pathlib.Path(__file__).resolve().parents[1]
sys.path.insert(0, str(ROOT / "bench"))
import ask
import primary
import wire
import zones

PRIMARY, PORT = 5401, 5402
CATALOG, PLAIN, SIGNED = "catalog.example.", "a.example.", "b.example."
CONFIGURATION = f"""listen = "127.0.0.1:{PORT}"

[[catalog]]
name = "{CATALOG}"
policy = "present"
primaries = ["127.0.0.1:{PRIMARY}"]
"""
QUESTIONS = f"""Ask it from another terminal:

    dig @127.0.0.1 -p {PORT} www.{PLAIN}
    dig @127.0.0.1 -p {PORT} anything.wild.{PLAIN}
    dig @127.0.0.1 -p {PORT} nothing.{PLAIN}
    dig @127.0.0.1 -p {PORT} h000001.{SIGNED} +dnssec

Enter gives www.{PLAIN} another address at the primary, which sends a NOTIFY. Ctrl-C ends the demo."""


def program(named):
    """The program to run: the one that is named, the proved one, or one that is compiled here."""
    proved, quick = ROOT / "crates/catzd/out/catzd", ROOT / "out/demo/catzd"
    if named:
        return os.path.abspath(named)
    if proved.exists():
        return proved
    if not quick.exists():
        print("There is no crates/catzd/out/catzd. Compiling one without its proofs, once: some three minutes.", flush=True)
        quick.parent.mkdir(parents=True, exist_ok=True)
        done = subprocess.run([sys.executable, ROOT / "bench/programs/build.py", ROOT, "catzd", quick.parent],
                              capture_output=True, text=True, check=False)
        if not quick.exists():
            sys.exit(done.stdout[-2000:] + done.stderr[-2000:])
    print(f"Running {quick}, which was compiled without its proofs.", flush=True)
    return quick


def indented(lines):
    """Prints lines as they come."""
    for line in lines:
        print("    " + line, end="", flush=True)


def start(binary, folder):
    """Starts catzd in a folder, with its configuration as its standard input; its log is printed as it is written."""
    server = subprocess.Popen(["env", "--block-signal=TERM,INT,HUP", binary, "serve"], cwd=folder, text=True,
                              stdin=subprocess.PIPE, stdout=subprocess.PIPE, start_new_session=True)
    server.stdin.write(CONFIGURATION)
    server.stdin.close()
    threading.Thread(target=indented, args=(server.stdout,), daemon=True).start()
    return server


def is_address(number):
    """Whether a reply has this address."""
    return lambda message: ask.is_address(message, zones.address(number))


def change(source, zone, number):
    """Gives www the address after this one, and tells catzd."""
    zone.change([("www", wire.A, zones.address(number))], [("www", wire.A, zones.address(number + 1))])
    source.notify(zone.apex, PORT)


def attend(source, zone, once):
    """Waits for the zones, and then changes a record at each line of standard input."""
    asker = ask.Asker(PORT)
    asker.wait(f"www.{PLAIN}", limit=30)
    asker.wait(f"h000001.{SIGNED}", limit=30)
    time.sleep(0.2)  # so that the log comes first
    if once:
        change(source, zone, 1)
        asker.wait(f"www.{PLAIN}", is_address(2), limit=30)
        print(f"www.{PLAIN} has its new address.")
        return
    print(QUESTIONS, flush=True)
    for number, _ in enumerate(sys.stdin, 1):
        change(source, zone, number)


def main():
    words = argparse.ArgumentParser(description=__doc__, formatter_class=argparse.RawDescriptionHelpFormatter)
    words.add_argument("--catzd")
    words.add_argument("--once", action="store_true")
    chosen = words.parse_args()
    binary = program(chosen.catzd)
    plain, signed = zones.member(PLAIN), zones.signed(SIGNED, 3)
    source = primary.Primary(PRIMARY)
    source.hold(zones.catalog(CATALOG, [PLAIN, SIGNED]), plain, signed)
    with tempfile.TemporaryDirectory() as folder:
        print("catzd.toml:")
        indented(CONFIGURATION.splitlines(keepends=True))
        print("Its log:", flush=True)
        server = start(binary, folder)
        try:
            attend(source, plain, chosen.once)
        except KeyboardInterrupt:
            pass
        finally:
            server.terminate()
            server.wait(20)
            source.close()


if __name__ == "__main__":
    main()
