#!/usr/bin/env python3
"""Times the built program over UDP by the names that it is asked for, on zones of 50,000 and 500,000 names: one after the other, drawn at random,
with letters in mixed case, and made up, so that they are not there; and what memory it has before and after many queries.

The kinds of names take turns, as in serve.py, and the sums of these are told. The names are drawn from a seed.

  names.py [SECONDS]  so long for each kind, or 3

Needs a C compiler (cc), for load.c. Uses loopback alone.
"""

import random
import subprocess
import sys
import tempfile
from pathlib import Path

import serve
from serve import clients

ZONES = (50_000, 500_000)  # names
DRAWN = 200_000  # names of each kind that are drawn
MANY = 10_000_000  # queries behind which the memory is looked at again


def mixed(chance, name):
    """The name with some of its letters large."""
    return "".join(letter.upper() if chance.random() < 0.5 else letter for letter in name)


def kinds(names, folder):
    """Each kind of names, with the file that they stand in."""
    chance = random.Random(1035)
    all_names = names.read_text().split()
    drawn = [chance.choice(all_names) for _ in range(DRAWN)]
    lists = {
        "drawn at random": drawn,
        "in mixed case": [mixed(chance, name) for name in drawn],
        "made up, below the origin": [f"x{chance.getrandbits(40):x}.example.com" for _ in drawn],
        "made up, below a name": [f"x{chance.getrandbits(32):x}.{name}" for name in drawn],
    }
    files = {"one after the other": names}
    for place, (title, kind) in enumerate(lists.items()):
        files[title] = Path(folder, f"kind{place}")
        files[title].write_text("\n".join(kind) + "\n")
    return files


def asked(load, server, files, seconds):
    sums = serve.in_turns([
        lambda turns, file=file: serve.measured(load, server.run, server.port, "udp", seconds / turns, file) for file in files.values()
    ])
    for title, one in zip(files, sums):
        serve.line(title, serve.figures_of(one))


def main():
    seconds = float(sys.argv[1]) if len(sys.argv) > 1 else 3.0
    if not clients.PROGRAM.exists():
        sys.exit("names.py: the program is not built: run rt ci first")
    with tempfile.TemporaryDirectory() as folder:
        load = f"{folder}/load"
        subprocess.run(["cc", "-O2", "-o", load, Path(__file__).with_name("load.c")], check=True)
        for count in ZONES:
            zone, names = serve.zone_of(count, folder)
            files = kinds(names, folder)
            with clients.Serving(zone=zone, workers=1) as server:
                print(f"{count} names: {server.resident():,} KiB")
                asked(load, server, files, seconds)
                done = 0
                while done < MANY:
                    done += serve.measured(load, server.run, server.port, "tcp", 1, files["drawn at random"])[0]
                print(f"{count} names: {server.resident():,} KiB after {done:,} queries more", flush=True)


if __name__ == "__main__":
    main()
