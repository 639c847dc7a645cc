#!/usr/bin/env python3
"""Tells where the memory of a name goes, by crates/dns_bench: the blocks that it holds, by the function that asked for them, and its resident
memory, from a zone of 50,000 names to one of 500,000 and divided by the names between them.

    bench/memory.py [PROGRAM]      PROGRAM is a build of dns_bench, as bench/unproved.py makes one; the proved one where none is named

Three moments are told: where most is held while a zone is read, where most is held while a journal in memory is begun with it, and where it
then waits for messages. The blocks are counted under valgrind's dhat, each as malloc of glibc rounds it. A text is read into room that
doubles; what is not filled of it is never touched, so it is not resident. Takes some minutes. Uses the standard library and valgrind.
"""

import json
import os
import subprocess
import sys
import tempfile
import time

import settle

NAMES, BETWEEN = (50_000, 500_000), 450_000
ALLOCATOR = ("malloc", "realloc", "rattle_alloc", "rattle_realloc")
LOOKS = 10  # tenths of a second
# The moments, with dhat's letter for each: where most is held, or the end.
MOMENTS = (("where most is held while a zone is read", (), "g"), ("while its journal is begun", ("0",), "g"), ("where it waits", ("0",), "e"))


def run(command, waits):
    """Runs it to its end, or until it waits for messages, asleep some looks long; gives its resident memory then."""
    child = subprocess.Popen(command, stdin=subprocess.PIPE, stdout=subprocess.DEVNULL, stderr=subprocess.DEVNULL)
    used = sleeps = 0
    while waits and sleeps < LOOKS:
        time.sleep(0.1)
        if child.poll() is not None:
            sys.exit(f"memory.py: {command[0]} ended early, with status {child.returncode}")
        with open(f"/proc/{child.pid}/status", encoding="ascii") as text:
            told = dict(line.split(":", 1) for line in text)
        used = int(told["VmRSS"].split()[0]) * 1024
        sleeps = sleeps + 1 if told["State"].split()[0] == "S" else 0
    if waits:
        child.terminate()
    child.communicate(timeout=settle.BOUND)
    if not waits and child.returncode:
        sys.exit(f"memory.py: {command[0]} ended with status {child.returncode}")
    return used


def held(points, letter):
    """For each function and size of block: the blocks, the bytes asked for, and the bytes taken, 8 more and to a multiple of 16, but 32 at least."""
    found = {}
    for point in points["pps"]:
        blocks, asked = point[letter + "bk"], point[letter + "b"]
        path = [points["ftbl"][it].split(": ", 1)[-1].split(" (in ")[0].split("::<")[0] for it in point["fs"]]
        each = max(32, (-(-asked // max(blocks, 1)) + 8 + 15) // 16 * 16)
        sums = found.setdefault((next((it for it in path if it not in ALLOCATOR), path[-1]), min(each, 4096)), [0, 0, 0])
        for place, more in enumerate((blocks, asked, blocks * each)):
            sums[place] += more
    return found


def main():
    program = os.path.abspath(sys.argv[1]) if sys.argv[1:] else settle.PROGRAM
    with tempfile.TemporaryDirectory() as folder:
        zones, out = [os.path.join(folder, str(one)) for one in NAMES], os.path.join(folder, "dhat")
        for count, zone in zip(NAMES, zones):
            settle.write_zone(zone, count)
        print(f"text of the zone: {(os.path.getsize(zones[1]) - os.path.getsize(zones[0])) / BETWEEN:.1f} bytes a name")
        for title, words, letter in MOMENTS:
            used, blocks = [], []
            for command in ([program, settle.ORIGIN, zone, *words] for zone in zones):
                used.append(run(command, True) if letter == "e" else settle.resident(command))
                run(["valgrind", "--tool=dhat", "--num-callers=4", f"--dhat-out-file={out}", *command], letter == "e")
                with open(out, encoding="utf-8") as text:
                    blocks.append(held(json.load(text), letter))
                os.remove(out)
            print(f"{title}: {(used[1] - used[0]) / BETWEEN:.1f} bytes a name resident; blocks, bytes asked for, bytes taken:", flush=True)
            for key in sorted(blocks[1], key=lambda it: -blocks[1][it][2]):
                more = [(much - little) / BETWEEN for much, little in zip(blocks[1][key], blocks[0].get(key, (0, 0, 0)))]
                if more[2] > 0.05:
                    print(f"  {more[0]:6.3f} {more[1]:6.1f} {more[2]:6.1f}  {key[0]}")


if __name__ == "__main__":
    main()
