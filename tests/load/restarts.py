#!/usr/bin/env python3
"""Stops catzd in hard ways, gives it stores that aren't, and measures what its store costs.

    restarts.py [kills] [files] [times] [--kills N] [--cuts N] [--every N] [--members N,N,..] [--folder FOLDER] [--seed N]
                [--catzd PROGRAM]

kills   A server takes changes of 14 members all the time and is killed (SIGKILL) at 1,000 moments, in some of which it
        starts, gives zones back, or writes its file anew. After each it is started on the same file with the primary away,
        and each member must be answered as the log says: what a line tells is kept once a line of another call comes after
        it, since both are written under one lock; what the last line tells may be kept. The kernel keeps what a killed
        process wrote, so this tells nothing of a power failure.
files   A file that is cut at one of its last 10,000 octets (each tenth by default, each with --every 1), random octets,
        files of other formats, what is no file, a second server, a folder and a file that can't be written, files that
        may not grow, a full disk: the server must start, say `unkept` where it should, leave alone what isn't its own, and
        serve.
times   How long starts take with the primary away, and first starts with a store and without; how long queries over UDP
        take beside a store on a slow disk; how long the lock is held for a catalog that drops 1,000 members.

Without a word it does all three. Folders are temporary ones, in --folder where it says another place than the system's;
the ports are 5699 and above of 127.0.0.1.
"""
import argparse
import pathlib
import random
import sys
import tempfile

sys.path.insert(0, str(pathlib.Path(__file__).resolve().parents[2] / "bench"))
import delays
import kills
import servers
import spoiled

PARTS = ("kills", "files", "times")


def main():
    words = argparse.ArgumentParser(description=__doc__, formatter_class=argparse.RawDescriptionHelpFormatter)
    words.add_argument("parts", nargs="*", metavar="PART", help="kills, files, times; all where none is named")
    words.add_argument("--kills", type=int, default=1_000)
    words.add_argument("--cuts", type=int, default=10_000)
    words.add_argument("--every", type=int, default=10)
    words.add_argument("--members", default="1000,5000,65536")
    words.add_argument("--folder")
    words.add_argument("--seed", type=int, default=random.randrange(1 << 32))
    words.add_argument("--catzd", default=servers.Catzd.program)
    chosen = words.parse_args()
    if set(chosen.parts) - set(PARTS):
        words.error(f"the parts are {', '.join(PARTS)}")
    parts = chosen.parts or PARTS
    servers.Catzd.choose(chosen.catzd)
    sys.setswitchinterval(0.001)
    faults = []
    with tempfile.TemporaryDirectory(prefix="catzd-restarts-", dir=chosen.folder) as name:
        folder = pathlib.Path(name)
        folder.chmod(0o755)
        if "kills" in parts:
            faults += kills.run(folder / "kills", chosen.kills, chosen.seed)
        if "files" in parts:
            faults += spoiled.run(folder / "files", chosen.cuts, chosen.every, chosen.seed)
        if "times" in parts:
            delays.run(folder / "times", [int(number) for number in chosen.members.split(",")])
    for fault in faults:
        print(f"FAULT: {fault}")
    print(f"{len(faults)} faults")
    sys.exit(1 if faults else 0)


if __name__ == "__main__":
    main()
