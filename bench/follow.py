#!/usr/bin/env python3
"""Times a follower in a file beside the server's durable updates, and a feed beside Python's sqlite3 reading the same journal.

The server makes the journal over lists of events, by updates of one record each, every one of which is in the file before it is answered: how many
a second, without the starts of the program. Then a feed of it goes into a file, and a follower takes that file into a journal of its own, which has to
have the same rows and batches: how many a second, its start and the reading of the feed counted.

  follow.py [COUNT [FOLDER]]  that many updates, or 100,000; the files stand in a folder of this one, or of the system's

Uses the standard library alone, and no network. Each run of a program is bounded in time.
"""

import os
import signal
import subprocess
import sys
import tempfile
import time
from pathlib import Path

import journal  # which finds the checks

import journals
import kit
import wire

TOP = Path(__file__).resolve().parent.parent
PROGRAM = kit.called("dns-follow")
NAME = "example.com."
COUNT = 100_000
TURNS = 3  # of which the fastest counts
BOUND = 600  # seconds


def updated(folder, count):
    """A journal of so many updates that the server makes, and how many it takes a second, without its starts."""
    zone, made, seconds = Path(folder, "zone"), Path(folder, "made"), 0.0
    zone.write_text(journal.ZONE)
    journal.run(made, [], zone)
    for first in range(0, count, journal.IN_A_RUN):
        start = journal.run(made, [])
        places = range(first, min(count, first + journal.IN_A_RUN))
        messages = [wire.update((NAME, "SOA", "IN"), [], [journal.added(place)]) for place in places]
        seconds += journal.run(made, messages) - start
    return made, count / seconds


def timed(words, given, told):
    """Seconds that a run of the program takes over files, and its memory, in KiB."""
    signal.alarm(BOUND)
    with open(given, "rb") as text, open(told, "wb") as output:
        begin = time.perf_counter()
        run = subprocess.Popen([PROGRAM, *words], stdin=text, stdout=output)
        _, status, usage = os.wait4(run.pid, 0)
        seconds = time.perf_counter() - begin
    signal.alarm(0)
    run.returncode = os.waitstatus_to_exitcode(status)
    if run.returncode:
        sys.exit(f"follow: {words} ends with status {run.returncode}")
    return seconds, usage.ru_maxrss


def fed(made, frames):
    return timed(["feed", NAME, "1", f"--journal={made}"], os.devnull, frames)


def followed(frames, folder, turn):
    """A follower's run into a new file, and that file."""
    second, told = Path(folder, f"second{turn}"), Path(folder, "told")
    return timed(["follow", NAME, f"--journal={second}"], frames, told), second


def are_same(made, second):
    """Whether both files have the same rows, stamps aside, and batches."""
    rows = ([row[:3] + row[4:] for row in journals.stored(file)] for file in (made, second))
    return next(rows) == next(rows) and journals.batches_in(made) == journals.batches_in(second)


def main():
    count = int(sys.argv[1]) if len(sys.argv) > 1 else COUNT
    with tempfile.TemporaryDirectory(dir=sys.argv[2] if len(sys.argv) > 2 else None) as folder:
        made, rate = updated(folder, count)
        frames = Path(folder, "frames")
        feeds, reads, follows = [], [], []
        for turn in range(TURNS):
            feeds.append(fed(made, frames))
            reads.append(journal.read(made))
            run, second = followed(frames, folder, turn)
            follows.append(run)
            if not are_same(made, second):
                sys.exit("follow: the follower has other rows or batches")
            for file in Path(folder).glob(f"{second.name}*"):
                file.unlink()
        size, rows, batches = frames.stat().st_size, reads[0][1], reads[0][2]
    (feed, feed_memory), (read, _, _), (follow, follow_memory) = min(feeds), min(reads), min(follows)
    print(f"a journal of {rows:,} rows in {batches:,} batches, whose feed has {size:,} bytes")
    print(f"the server took {rate:,.0f} durable updates a second")
    print(f"follow: {follow:.2f} s, {rows / follow:,.0f} rows a second, {rows / follow / rate:.2f} of that; {follow_memory / 1024:.0f} MB")
    print(f"feed: {feed:.3f} s, {feed / read:.2f} of the {read:.3f} s in which Python's sqlite3 reads it; {feed_memory / 1024:.0f} MB")


if __name__ == "__main__":
    main()
