#!/usr/bin/env python3
"""Times the journal in a file: durable updates a second of the built program, beside SQLite alone doing the same inserts one a
transaction with the same settings; and how long it takes to open a journal of many rows, from the program's start to its first answer,
beside reading them by Python's sqlite3.

Uses the standard library, and loopback alone. Each run of the program is bounded in time.
"""

import sqlite3
import subprocess
import sys
import tempfile
import time
from pathlib import Path

TOP = Path(__file__).resolve().parent.parent
sys.path.insert(0, str(TOP / "checks"))
import clients
import wire

PROGRAM = TOP / "crates" / "dns_program" / "out" / "dns_program"
UPDATES = 2_000  # of one record each
ROWS = (50_000, 100_000)
AT_ONCE = (500, 1)  # records in one update of a journal of many rows
IN_A_RUN = 20_000  # updates; the text of a run's events is bounded
TURNS = 3  # of which the fastest counts
BOUND = 300  # seconds
ZONE = "example.com. 60 IN SOA ns.example.com. host.example.com. 7 1 1 1 1\nexample.com. 60 IN NS ns.example.com.\n"


def added(place):
    return f"k{place:x}.example.com. 60 IN A 10.{place >> 16}.{place >> 8 & 255}.{place & 255}"


def run(journal, messages, zone=None):
    """Runs the program over a journal with these updates as datagrams, all of which have to be answered NoError: the seconds."""
    text = "".join(f"D {moment} 7f000001 53 {message.hex()}\n" for moment, message in enumerate(messages))
    command = [PROGRAM, "events", "example.com.", "--update", f"--journal={journal}", *([f"--zone={zone}"] if zone else [])]
    begin = time.perf_counter()
    done = subprocess.run(command, input=text.encode(), stdout=subprocess.PIPE, timeout=BOUND)
    seconds = time.perf_counter() - begin
    replies = [bytes.fromhex(line.split()[-1].decode()) for line in done.stdout.splitlines() if line.startswith(b"P ")]
    if done.returncode != 0 or len(replies) != len(messages) or any(one[3] & 15 for one in replies):
        sys.exit(f"status {done.returncode}, {len(replies)} replies to {len(messages)} updates, or an update is refused")
    return seconds


def updated(folder, turn):
    """Updates a second, one batch each, without the start of the program."""
    zone, journal = Path(folder, "zone"), Path(folder, f"journal{turn}")
    zone.write_text(ZONE)
    start = run(journal, [], zone)
    messages = [wire.update(("example.com.", "SOA", "IN"), [], [added(place)]) for place in range(UPDATES)]
    return UPDATES / (run(journal, messages) - start)


def inserted(folder, turn):
    """The same rows and batches by SQLite alone, one of each a transaction."""
    database = sqlite3.connect(Path(folder, f"bare{turn}"), isolation_level=None)
    database.execute("PRAGMA journal_mode = WAL")
    database.execute("PRAGMA synchronous = FULL")
    database.execute("CREATE TABLE records (id INTEGER PRIMARY KEY, client_id, soa_serial, timestamp, record)")
    database.execute("CREATE TABLE batches (first INTEGER PRIMARY KEY, count)")
    begin = time.perf_counter()
    for place in range(UPDATES):
        row = (place + 1, place, "2026-01-01 00:00:00.000", wire.record_bytes(added(place)))
        database.execute("BEGIN")
        database.execute("INSERT INTO records VALUES (?, 0, ?, ?, ?)", row)
        database.execute("INSERT INTO batches VALUES (?, 1)", row[:1])
        database.execute("COMMIT")
    return UPDATES / (time.perf_counter() - begin)


def read(journal):
    """Seconds in which Python's sqlite3 reads all rows and batches, and how many there are of both."""
    begin = time.perf_counter()
    database = sqlite3.connect(journal)
    rows = database.execute("SELECT id, client_id, soa_serial, timestamp, record FROM records ORDER BY id").fetchall()
    batches = database.execute("SELECT first, count FROM batches ORDER BY first").fetchall()
    database.close()
    return time.perf_counter() - begin, len(rows), len(batches)


def answered(journal):
    """Seconds from the program's start to its first answer, as it serves by a journal."""
    begin = time.perf_counter()
    with clients.Serving(journal=journal):
        return time.perf_counter() - begin


def opened(folder, count, at_once):
    """A journal of at least so many rows, with so many records in each update: how long it takes to open it, and to read it by Python."""
    zone, journal = Path(folder, "zone"), Path(folder, f"rows{count}by{at_once}")
    zone.write_text(ZONE)
    places = range(count)
    parts = [places[first : first + at_once] for first in range(0, count, at_once)]
    updates = [wire.update(("example.com.", "SOA", "IN"), [], [added(place) for place in part]) for part in parts]
    for first in range(0, len(updates), IN_A_RUN):
        run(journal, updates[first : first + IN_A_RUN], zone)
    ours = min(answered(journal) for _ in range(TURNS))
    seconds, rows, batches = min(read(journal) for _ in range(TURNS))
    told = f"first answer after {ours:.3f} s, read by Python's sqlite3 in {seconds:.3f} s"
    print(f"a journal of {rows:,} rows in {batches:,} batches: {told}", flush=True)


def main():
    with tempfile.TemporaryDirectory(dir=sys.argv[1] if len(sys.argv) > 1 else None) as folder:
        ours = max(updated(folder, turn) for turn in range(TURNS))
        bare = max(inserted(folder, turn) for turn in range(TURNS))
        print(f"updates on a journal in a file: {ours:,.0f} a second, {100 * ours / bare:.0f} % of SQLite's own {bare:,.0f}", flush=True)
        for at_once in AT_ONCE:
            for count in ROWS:
                opened(folder, count, at_once)


if __name__ == "__main__":
    main()
