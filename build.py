#!/usr/bin/env python3
"""Proves and builds a program with all that it stands on: build.py CRATE

The libraries that do not wait for one another are built side by side, those with the longest chain of others behind them first, on
as many processors as there are, or as RT_JOBS says; what an earlier build kept is not proved again. Then rt builds the program.
A line for each library goes to standard error: how many of all are proved, the minutes gone, and about how many are left, by the lines that are left and the pace so far. What the
prover says goes to crates/CRATE/out/build.log. It uses the standard library, and the kit's own rtlib.py, as rt does.
"""

import os
import subprocess
import sys
import time
from concurrent.futures import FIRST_COMPLETED, ThreadPoolExecutor, wait
from pathlib import Path

TOP = Path(__file__).resolve().parent
sys.path.insert(0, str(TOP / "checks"))

import kit  # noqa: E402

PACE, LINES = 0.07, 3_000  # seconds that a line takes, as long as not many more lines than these are proved
PROGRAM = 240  # seconds of the program itself, which are those of what it reads


class Progress:
    """What is proved of the libraries below a program, and about how long the others take."""

    def __init__(self, top, order, lanes):
        self.begun, self.lanes, self.order = time.time(), lanes, order
        self.lines = {it.name: lines_of(it.folder) for it in top.below()}
        self.left, self.seconds, self.proved = {*self.lines}, 0, 0

    def done(self, name, seconds):
        """Takes note of a library that is built now, in these seconds, or was before, in none."""
        self.left.remove(name)
        if seconds:
            self.seconds, self.proved = self.seconds + seconds, self.proved + self.lines[name]

    def minutes_left(self):
        """By the longest chain that is left, or by all that is left over all processors, whichever takes longer, with the program behind it."""
        pace = (PACE * LINES + self.seconds) / (LINES + self.proved)
        lines = max(max((self.order[it] for it in self.left), default=0), sum(self.lines[it] for it in self.left) / self.lanes)
        return (pace * lines + PROGRAM) / 60

    def tell(self, what):
        count = len(self.lines)
        gone = (time.time() - self.begun) / 60
        print(f"dns: {what}: {count - len(self.left)} of {count} libraries, {gone:.0f} minutes gone, about {self.minutes_left():.0f} left", file=sys.stderr, flush=True)


def lines_of(folder):
    """How many lines a crate has, by which the time of its proof is reckoned."""
    parts = [Path(folder) / part for part in ("src", "specs", "proofs")]
    return sum(path.read_bytes().count(b"\n") for part in parts for path in part.rglob("*") if path.suffix in (".rt", ".antt"))


def behind(crates):
    """How many lines the longest chain has that waits for each library."""
    found = {}
    for crate in reversed(crates):
        above = [found[it.name] for it in crates if crate in it.deps]
        found[crate.name] = lines_of(crate.folder) + max(above, default=0)
    return found


def built(crate, jobs, log):
    """Builds a library whose own libraries are built, and returns whether it could, and in how many seconds, none where it was built before."""
    if crate.is_built():
        return True, 0
    begun = time.time()
    with open(f"{log}.{crate.name}", "w", encoding="utf-8") as crate.out:
        return crate.build_rlib(["--jobs", str(jobs)], anew=False) == 0, time.time() - begun


def libraries(top, lanes, log):
    """Builds all libraries below a program, and returns the first that could not be built, if there is one."""
    crates = top.below()
    order = behind(crates)
    left, running, done = sorted(crates, key=lambda it: -order[it.name]), {}, set()
    progress = Progress(top, order, lanes)
    progress.tell("what it stands on is proved first")
    with ThreadPoolExecutor(lanes) as pool:
        while left or running:
            ready = [it for it in left if done.issuperset(dep.name for dep in it.below())]
            for at, crate in enumerate(ready):
                idle = lanes - sum(jobs for _, jobs in running.values())
                if idle <= 0:
                    break
                jobs = max(1, min(4, idle // (len(ready) - at)))
                left.remove(crate)
                running[pool.submit(built, crate, jobs, log)] = crate, jobs
            for it in wait(running, return_when=FIRST_COMPLETED).done:
                crate, _ = running.pop(it)
                is_well, seconds = it.result()
                if not is_well:
                    return crate.name
                done.add(crate.name)
                progress.done(crate.name, seconds)
                progress.tell(f"{crate.name} is proved" if seconds else f"{crate.name} was proved before")
    progress.tell(f"{top.name} itself is proved now")
    return None


def main():
    if len(sys.argv) != 2:
        sys.exit("usage: build.py CRATE")
    begun, lib, number = time.time(), kit.rtlib(), os.environ.get("RT_JOBS", "")
    folder = TOP / "crates" / sys.argv[1]
    log = folder / "out/build.log"
    log.parent.mkdir(exist_ok=True)
    lib.guarded()
    kit.sums_once(lib)
    top = lib.Crate(str(folder), str(TOP), {})
    held = lib.lock([*top.below(), top])
    lanes = int(number) if number.isdigit() and int(number) else len(os.sched_getaffinity(0))
    failed = libraries(top, lanes, log)
    for it in held:
        os.close(it)
    if failed:
        print(f"dns: the library {failed} could not be proved: see {log}.{failed}", file=sys.stderr)
        return 1
    with open(log, "w", encoding="utf-8") as out:
        status = subprocess.run(["rt", "run", "--", "--version"], cwd=folder, stdin=subprocess.DEVNULL, stdout=out, stderr=out).returncode
    if status == 0:
        print(f"dns: built in {(time.time() - begun) / 60:.0f} minutes", file=sys.stderr)
    return 1 if status else 0


if __name__ == "__main__":
    sys.exit(main())
