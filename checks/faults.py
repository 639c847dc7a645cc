#!/usr/bin/env python3
"""Refuses the built program one call after the other: each growth of memory, and each reading, writing and syncing, of four runs. What
is then said and left has to be a front of what the same run says and leaves undisturbed, with no part of a message.

The runs are a query, a connection, two updates over a new journal, and the second of them over a journal that has the first. In
each the Nth call is refused (refusing.c), for N from 1 until a run ends before its Nth call.

Where a growth is refused, the status is 0, with all that is due, or 10, with a front of it; and the journal has the rows that it had, or
those behind the first messages, and behind all of them where a byte was written. Where a transfer fails, the status is 6 or 8, with its
line, and no message was settled; or 7, with a front of what is due; or 0, where an update whose append failed is told so (ServFail),
and the journal is as if it had never come, or has its whole batch, as after a crash. Then the program goes on with the journal.

  faults.py [NAME]  the runs in whose names this word stands, or all

No part of .ci/run: it takes minutes, and a C compiler (cc). Uses the standard library alone, and no network. Each run of the program is
bounded in time.
"""

import itertools
import os
import shutil
import sqlite3
import subprocess
import sys
import tempfile
from concurrent.futures import ThreadPoolExecutor
from pathlib import Path

import wire
from cases import BOUND, PROGRAM, TOP, cases_in
from journals import stored

CHECKS = TOP / "checks"
MOST = 100_000  # calls of a run
STEP = 64  # runs that are begun together
SERVFAIL = wire.CODES["SERVFAIL"]


class Run:
    """A run of the program: event lines, those of them that are updates by their places, and a journal where there is one."""

    def __init__(self, name, zone, lines, updates=(), journal=False, before=()):
        self.name, self.zone, self.lines, self.updates = name, zone, list(lines), list(updates)
        self.has_journal, self.before = journal, list(before)

    def prepare(self, folder):
        """What each run begins with, and what is due: of the whole run and of each front, and where updates fail, which by their places."""
        self.home = Path(folder, "home")
        self.home.mkdir()
        (self.home / "zone").write_bytes(self.zone)
        if self.before:
            self.played(self.home, self.before)
        self.given = self.rows(self.home)
        self.opening = self.undisturbed(folder, [])[2]
        self.fronts = [self.undisturbed(folder, self.lines[:count])[2] for count in range(len(self.lines) + 1)]
        subsets = [set(some) for size in range(len(self.updates) + 1) for some in itertools.combinations(self.updates, size)]
        self.failed = [(some, *self.with_failures(folder, some)) for some in subsets]
        self.output = self.failed[0][1]

    def words(self, home):
        update = ["--update"] if self.updates else []
        journal = [f"--journal={home / 'journal'}"] if self.has_journal else []
        return [str(PROGRAM), "events", "example.com.", f"--zone={home / 'zone'}", *update, *journal]

    def played(self, home, lines, **environment):
        text = "".join(line + "\n" for line in lines).encode()
        environment = {**os.environ, **environment}
        done = subprocess.run(self.words(home), input=text, capture_output=True, timeout=BOUND, env=environment)
        return done.returncode, done.stdout + done.stderr

    def rows(self, home):
        """The rows of the journal that is left, without their stamps, or none."""
        journal = home / "journal"
        if not self.has_journal or not journal.exists() or journal.read_bytes()[:1] == b"\0":
            return []
        try:
            return [(row[0], row[1], row[2], row[4]) for row in stored(journal)]
        except sqlite3.DatabaseError as fault:
            return [str(fault)]

    def copied(self, folder, name):
        return Path(shutil.copytree(self.home, Path(folder, name)))

    def undisturbed(self, folder, lines):
        """The status, the output and the rows behind a run over these lines, with nothing refused."""
        home = self.copied(folder, "undisturbed")
        status, output = self.played(home, lines)
        rows = self.rows(home)
        shutil.rmtree(home)
        if status != 0:
            sys.exit(f"faults.py: {self.name}: status {status} with nothing refused")
        return status, output, rows

    def with_failures(self, folder, some):
        """The output and the rows that are due where the updates of these places fail: they are as if they had never come."""
        others = [line for place, line in enumerate(self.lines) if place not in some]
        _, output, rows = self.undisturbed(folder, others)
        lines = output.decode().splitlines()
        for place in sorted(some):
            lines.insert(place, servfail_to(self.lines[place]))
        return "".join(line + "\n" for line in lines).encode(), rows

    def begun_by(self, output):
        return self.output.startswith(output)

    def is_right(self, kind, status, output, rows):
        """Whether this is an end that a run may have of which a call of this kind was refused."""
        if kind == "growth":
            return self.wants_memory(status, output, rows)
        if status == 6:
            return output == b"read fault\n" and rows == self.given
        if status == 8:
            return output == b"keeper fault\n" and rows in (self.given, self.opening)
        if status == 7:
            return self.begun_by(output) and rows == self.fronts[-1]
        return status == 0 and self.is_settled(output, rows)

    def wants_memory(self, status, output, rows):
        if status == 0:
            return output == self.output and rows == self.fronts[-1]
        is_front = rows in ([self.fronts[-1]] if output else [self.given, *self.fronts])
        return status == 10 and self.begun_by(output) and is_front

    def is_settled(self, output, rows):
        """The output is due where some updates failed; and so are the rows, or they have the batch of one behind which none passed."""
        for some, due, _ in self.failed:
            last = max(set(self.updates) - some, default=-1)
            left = [rows_ for fewer, _, rows_ in self.failed if fewer <= some and all(place > last for place in some - fewer)]
            if output == due and rows in left:
                return True
        return False

    def goes_on(self, home, rows):
        """Whether the program goes on with the journal that is left."""
        if not self.has_journal:
            return True
        length = len(rows) or len(self.opening)
        status, output = self.played(home, [])
        return status == 0 and f"journal_len {length}\n".encode() in output

    def tried(self, folder, kind, number, library):
        """Whether the call came, and what is wrong, or none."""
        home = self.copied(folder, f"{kind}{number}")
        told = home / "told"
        refused = {"LD_PRELOAD": str(library), "REFUSE": f"{kind}:{number}", "REFUSE_TOLD": str(told)}
        status, output = self.played(home, self.lines, **refused)
        rows, came = self.rows(home), told.exists()
        is_fine = self.is_right(kind, status, output, rows) and self.goes_on(home, rows)
        shutil.rmtree(home)
        wrong = f"{self.name}, {kind} {number}: status {status}, {len(rows)} rows, {output.decode(errors='replace')!r}"
        return came, None if is_fine else wrong

    def swept(self, folder, kind, library, pool):
        """How many calls were refused, and what is wrong."""
        wrong = []
        for begin in range(1, MOST, STEP):
            tries = list(pool.map(lambda number: self.tried(folder, kind, number, library), range(begin, begin + STEP)))
            wrong += [fault for _, fault in tries if fault]
            came = sum(came for came, _ in tries)
            if came < STEP:
                return begin - 1 + came, wrong
        return MOST, [*wrong, f"{self.name}: there is no end to its calls"]


def servfail_to(line):
    """The line of the reply ServFail to an update that came in this line: the header's code, and the zone section (RFC 2136 3.8)."""
    _, _, ip, port, message = line.split()
    bytes_ = bytes.fromhex(message)
    end = bytes_.index(b"\0", 12) + 5
    flags = 0x80 | bytes_[2] & 0x79
    return f"P {ip} {port} {(bytes_[:2] + bytes([flags, SERVFAIL]) + bytes([0, 1]) + bytes(6) + bytes_[12:end]).hex()}"


def addition(address):
    """An update that adds an address to a name."""
    message = wire.update(("example.com.", "SOA", "IN"), [], [f"new.example.com. 3600 IN A {address}"])
    return f"D 0 7f000001 5300 {message.hex()}"


def runs():
    case = next(one for one in cases_in(CHECKS / "cases" / "connections.txt") if "bytes of another connection" in one.name)
    query = f"D 0 7f000001 5300 {wire.query('www.example.com.', 'A').hex()}"
    updates = [addition("192.0.2.7"), addition("192.0.2.8")]
    yield Run("a query", case.zone, [query])
    yield Run("a connection", case.zone, case.events.decode().splitlines())
    yield Run("two updates", case.zone, updates, updates=[0, 1], journal=True)
    yield Run("a journal read back", case.zone, [updates[1], query], updates=[0], journal=True, before=updates[:1])


def built(folder):
    """The library that refuses."""
    library = Path(folder, "refusing.so")
    subprocess.run(["cc", "-O1", "-fPIC", "-shared", "-o", library, CHECKS / "refusing.c"], check=True)
    return library


def main():
    if not PROGRAM.exists():
        sys.exit("faults.py: the program is not built: run rt ci first")
    word, wrong = " ".join(sys.argv[1:]), []
    with tempfile.TemporaryDirectory() as folder, ThreadPoolExecutor(os.cpu_count()) as pool:
        library = built(folder)
        for run in runs():
            if word not in run.name:
                continue
            place = Path(folder, run.name.replace(" ", "_"))
            place.mkdir()
            run.prepare(place)
            for kind in ("growth", "transfer"):
                count, faults = run.swept(place, kind, library, pool)
                print(f"{run.name}: {count} calls refused, {kind}: {len(faults)} wrong", flush=True)
                wrong += faults if count else [f"{run.name}: no call was refused"]
    for one in wrong[:10]:
        print(one if len(one) < 1_000 else one[:1_000] + " ..")
    sys.exit(bool(wrong))


if __name__ == "__main__":
    main()
