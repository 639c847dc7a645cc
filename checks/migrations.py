#!/usr/bin/env python3
"""Journals of schema version 1, in files, as the built program migrates them to the current version: the rows stay as they are, and each
longest run of neighbouring rows of one client and serial is a batch, as Python's sqlite3 reads both.

  migrations.py [KILLS [SEED]]  so many runs that are killed at a random moment, or 50; the same ones for the same seed

A run that is killed leaves the file at its version or wholly migrated, and the program goes on with it. A file that may not be written is
refused with status 8 and stays as it is, and so does one for whose migration there is no room, from none at all up to enough.

Uses the standard library alone, and no network. Each run of the program is bounded in time.
"""

import os
import random
import resource
import shutil
import subprocess
import sys
import tempfile
import time
from itertools import groupby
from pathlib import Path

try:
    import sqlite3
except ImportError:
    print("migrations: skipped, Python has no module sqlite3")
    sys.exit(0)

import journals
import updates

KILLS, SEED = 50, 1876
UPDATES = 3000  # of the journal that is migrated
NOBODY = 65534
WORDS = ["events", "example.com."]
ROOMS = [0, *(1 << bits for bits in range(9, 23))]  # bytes that a file may have


def batches_of(rows):
    """The runs of neighbouring rows of one client and serial: the first id of each, and its length."""
    found = []
    for _, run in groupby(rows, key=lambda row: row[1:3]):
        run = list(run)
        found.append((run[0][0], len(run)))
    return found


def standing(journal):
    """The version of a file, its rows, and its batches, none where it has no table of them."""
    database = sqlite3.connect(journal)
    try:
        tables = {name for (name,) in database.execute("SELECT name FROM sqlite_master WHERE type = 'table'")}
        [(version,)] = database.execute("SELECT version FROM tdns_schema").fetchall()
        rows = [tuple(row) for row in database.execute(journals.COLUMNS)]
        batches = database.execute("SELECT first, count FROM batches ORDER BY first").fetchall() if "batches" in tables else None
    finally:
        database.close()
    return version, rows, batches


class Earlier:
    """A journal of version 1, the output of the program over it without events, and how long that takes, in seconds."""

    def __init__(self, folder):
        self.file = Path(folder, "earlier")
        zone = Path(folder, "zone")
        zone.write_text(journals.ZONE, encoding="ascii")
        events = journals.changing_events(UPDATES)
        status, _ = journals.run([*WORDS, "--update"], self.file, events, zone)
        assert status == 0, f"the journal of version 1 was not made: status {status}"
        journals.spoil(self.file, "DROP TABLE batches", "UPDATE tdns_schema SET version = 1")
        journals.spoil(self.file, "PRAGMA wal_checkpoint(TRUNCATE)")
        _, self.rows, _ = standing(self.file)
        self.batches = batches_of(self.rows)
        self.output = f"serial {self.rows[-1][2]}\njournal_len {len(self.rows)}\nopen 0\n"
        begun = time.monotonic()
        self.fault = self.going_on(self.copied(folder))
        self.duration = time.monotonic() - begun

    def copied(self, folder):
        """A copy of it."""
        journal = Path(folder, "journal")
        for old in Path(folder).glob("journal*"):
            old.unlink()
        shutil.copyfile(self.file, journal)
        return journal

    def going_on(self, journal):
        """What is wrong with the program as it goes on with a file; none where nothing is."""
        got = journals.run(WORDS, journal, [])
        if got != (0, self.output):
            return f"the program goes on with status {got[0]}: {got[1]}"
        return None if self.is_whole(journal) == 2 else "the program went on, and the file is not migrated"

    def is_whole(self, journal):
        """The version of a file where it is this journal at it, whole; else none."""
        version, rows, batches = standing(journal)
        if rows == self.rows and (version, batches) in [(1, None), (2, self.batches)]:
            return version
        return None


def killed(earlier, folder, wait):
    """What is wrong with what is left of a migration that is killed after so many seconds, and the version that is left."""
    journal = earlier.copied(folder)
    process = subprocess.Popen([updates.PROGRAM, *WORDS, f"--journal={journal}"], stdin=subprocess.DEVNULL, stdout=subprocess.DEVNULL)
    time.sleep(wait)
    process.kill()
    process.wait()
    version = earlier.is_whole(journal)
    place = f"killed after {wait:.3f} s"
    if version is None:
        return f"{place}: the file is not the journal at one of its versions", None
    fault = earlier.going_on(journal)
    return f"{place}: {fault}" if fault else None, version


def refused(earlier, folder, place, **how):
    """What is wrong with the program over a file that it cannot migrate, and the status; the program is one that anybody may run."""
    journal = earlier.copied(folder)
    if "user" in how or os.getuid():
        journal.chmod(0o444)
        Path(folder).chmod(0o555)
    done = subprocess.run(
        [Path(folder).parent / "dns", *WORDS, f"--journal={journal}"],
        stdin=subprocess.DEVNULL, stdout=subprocess.PIPE, stderr=subprocess.DEVNULL, timeout=journals.BOUND, **how,
    )
    Path(folder).chmod(0o755)
    journal.chmod(0o644)
    version = earlier.is_whole(journal)
    got = (done.returncode, done.stdout.decode())
    if (got, version) not in [((8, "keeper fault\n"), 1), ((0, earlier.output), 2)]:
        return f"{place}: status {got[0]}, {got[1]!r}, version {version}", got[0]
    return None, got[0]


def unwritable(earlier, folder):
    """What is wrong where nobody may write the file or its folder; none where nothing is."""
    how = {} if os.getuid() else {"user": NOBODY, "group": NOBODY, "extra_groups": []}
    fault, status = refused(earlier, folder, "a file that may not be written", **how)
    return fault or (None if status == 8 else "a file that may not be written: it was migrated")


def without_room(earlier, folder):
    """What is wrong where files may not grow beyond so many bytes, by each of ROOMS."""
    wrong, statuses = [], set()
    for room in ROOMS:
        limit = lambda: resource.setrlimit(resource.RLIMIT_FSIZE, (room, room))  # noqa: B023, E731
        fault, status = refused(earlier, folder, f"room for {room} bytes", preexec_fn=limit, restore_signals=False)
        statuses.add(status)
        wrong += [fault] if fault else []
    if not wrong and statuses != {0, 8}:
        wrong.append(f"of {ROOMS[0]} to {ROOMS[-1]} bytes all ended with {statuses}")
    return wrong


def main():
    words = [int(word) for word in sys.argv[1:]]
    kills, seed = words + [KILLS, SEED][len(words) :]
    if not updates.PROGRAM.exists():
        sys.exit("migrations.py: the program is not built: run rt ci first")
    chance, left = random.Random(seed), []
    with tempfile.TemporaryDirectory() as top:
        Path(top).chmod(0o755)
        shutil.copy(updates.PROGRAM, Path(top, "dns"))
        folder = Path(top, "home")
        folder.mkdir()
        earlier = Earlier(folder)
        wrong = [earlier.fault] if earlier.fault else []
        for _ in range(kills):
            fault, version = killed(earlier, folder, chance.uniform(0, earlier.duration))
            left.append(version)
            wrong += [fault] if fault else []
        wrong += [fault for fault in [unwritable(earlier, folder), *without_room(earlier, folder)] if fault]
    for one in wrong[:3]:
        print(one)
    count = 1 + kills + 1 + len(ROOMS)
    told = f"{left.count(1)} killed before and {left.count(2)} behind"
    print(f"migrations: {count - len(wrong)} passed, {len(wrong)} failed; of {len(earlier.rows)} rows, {told}")
    sys.exit(bool(wrong))


if __name__ == "__main__":
    main()
