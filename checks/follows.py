#!/usr/bin/env python3
"""Runs the built program that feeds journals and follows feeds, and compares what it writes and stores with a plain model of both
(follow_model.py): what a feed of a journal is, and what a follower does with any bytes.

Many journals are drawn with what updates.py draws, and followed by update_model.py; Python's sqlite3 writes them by the form in
man/dns-journal.5, and some the built server. The feed of each, from row 1 and from another, has to be the model's. Then up to four runs of a
follower over one journal get what is drawn of the frames: cut short, lost, repeated, in another order, joined anew, damaged, or of another
journal. After each run its status and its line, and the rows and batches in the file, have to be the model's.

Then followers that are killed under a feed, and fed again; words that are no command; files that are damaged, of another version or no
journal; rows that are too long, feeds of any bytes; outputs that are full, inputs that cannot be read, files for which there is no room, and runs that are
stopped before each of their calls that change a file; journals that a server holds, or a follower when the server comes; and feeds by a
pipe and by relays over loopback, after which a server on the follower's journal has to answer as one on the primary's.

  follows.py [COUNT [KILLS [SEED]]]  that many journals and kills, or 2,000 and 50; the same ones for the same seed

At the end stands how often each answer came. Of 2,000 journals or more, each has to come in some.

Uses the standard library, and loopback alone. Each run of a program is bounded in time.
"""

import os
import random
import resource
import shutil
import socket
import subprocess
import sys
import tempfile
import threading
import time
from collections import Counter
from concurrent.futures import ProcessPoolExecutor
from pathlib import Path

try:
    import sqlite3  # noqa: F401
except ImportError:
    print("follows: skipped, Python has no module sqlite3")
    sys.exit(0)

import audits
import clients
import journals
import kit
import migrations
import reasons
import traced
import updates
import wire
from follow_model import LONGEST, Follower, History, Served, drawn, fed, frame, frames_of, line, write
from update_model import IN, Record, name_bytes, number, opening_rows, record_bytes

TOP = Path(__file__).resolve().parent.parent
PROGRAM = kit.called("dns-follow")
COUNT, KILLS, SEED = 2_000, 50, 2136
BOUND = 60  # seconds
BY_SERVER = 10  # each so many journals one is written by the server
BATCHES = 300  # of a journal whose follower is killed
RANDOM = 300  # feeds in which bytes were changed
SERVED = 250  # updates that a server takes while followers come, and before it is followed
NAME = "example.com."
ANSWERS = """
fed from row 1; fed from another row; fed from the row behind the last; fed from above; journal of the server; feed cut within a frame; feed
cut between frames; feed without a frame; known; ahead; held; stored; stored with a snapshot within; row in another form; stored by two
clients; bad frame: too few bytes; bad frame: row 0; bad frame: row above the last id; bad frame: another mark; bad frame: no record; bad
frame: bytes behind the record; mixed: another client; mixed: another serial; refused: row out of place; refused: not one SOA; not
opened; length told; length told without a zone; held rows dropped at the end
"""


def run(*words, journal=None, given=b"", program=PROGRAM, **how):
    """The program's status, its output and what it says on standard error, but for the line that is due where words are refused."""
    command = [program, *words, *([f"--journal={journal}"] if journal else [])]
    done = subprocess.run(command, input=given, capture_output=True, timeout=BOUND, **how)
    told = reasons.beside(1, done.stderr) if done.returncode == 1 else done.stderr
    return done.returncode, done.stdout, told.decode("ascii", "replace")


# Journals, as they stand in files.


def standing(journal):
    """The rows of a file without their stamps, and its batches."""
    return [row[:3] + row[4:] for row in journals.stored(journal)], journals.batches_in(journal) or []


def stamps_are_now(journal):
    """Whether all rows of each batch of a file have one stamp, which is of the last two minutes."""
    stamps = [row[3] for row in journals.stored(journal)]
    return all(
        len(set(stamps[first - 1 : first - 1 + count])) == 1 and journals.is_now(stamps[first - 1]) for first, count in journals.batches_in(journal) or []
    )


def told_other(what, got, due):
    """How an answer that is not the due one is told."""
    return f"{what}: status {got[0]} where {due[0]} is due\ndue: {due[1]!r}\ngot: {got[1]!r}\n{got[2]}"


def feeds(chance, history, journal, told):
    """What is wrong with the feeds of a journal; none where nothing is."""
    rows = len(history.rows)
    another = chance.choice([rows + 1, rows + 2, 2**32, 2**63 - 1, 2**63, 2**64 - 1, *range(2, rows + 1)])
    for begin in (1, another):
        got, due = run("feed", history.name, str(begin), journal=journal), fed(history.rows, history.batches, begin)
        if got != due:
            return told_other(f"the feed from row {begin}", got, due)
        told[place_of(begin, rows)] += 1
    return None


def place_of(begin, rows):
    """Where a feed begins, of a journal of so many rows."""
    if begin == 1:
        return "fed from row 1"
    return "fed from another row" if begin <= rows else "fed from the row behind the last" if begin == rows + 1 else "fed from above"


def follows(chance, history, other, journal, told):
    """What is wrong with the runs of a follower; none where nothing is."""
    follower = Follower(history.origin)
    follower.told = told
    frames = frames_of(history.rows, history.batches)
    for place in range(chance.choice([1, 2, 3, 4])):
        data, how = drawn(chance, frames, other, len(follower.rows))
        told[how] += 1
        is_other = chance.random() < 0.03
        origin = (b"q", *history.origin) if is_other and len(name_bytes(history.origin)) < 250 else history.origin
        got = run("follow", updates.name_text(origin) if is_other else history.name, journal=journal, given=data)
        due = follower.follow(data, origin)
        if got != due:
            return told_other(f"run {place + 1} over {data.hex()}", got, due)
        stored, kept = standing(journal), (follower.rows, follower.batches)
        if stored != kept:
            return f"run {place + 1} over {data.hex()}: the file has other rows or batches: {stored} where {kept} are due"
        if not stamps_are_now(journal):
            return f"run {place + 1} over {data.hex()}: stamps are not those of this moment, or not one a batch"
    return None


def followed(numbered):
    """What is wrong with one journal, its feeds and a follower of it, none where nothing is; and how often each answer came."""
    number_, seed = numbered
    is_served, told = number_ % BY_SERVER == 0, Counter()
    history = (Served if is_served else History)(number_, seed)
    other = History(number_, f"{seed} other")
    chance = random.Random(f"{seed} draw {number_}")
    told["journal of the server"] += is_served
    with tempfile.TemporaryDirectory(dir=audits.in_memory()) as folder:
        journal, second = Path(folder, "journal"), Path(folder, "second")
        wrong = history.write(journal, folder)
        before = None if wrong else journals.stored(journal)
        wrong = wrong or feeds(chance, history, journal, told)
        wrong = wrong or follows(chance, history, frames_of(other.rows, other.batches), second, told)
        if not wrong and (journals.stored(journal), journals.batches_in(journal)) != (before, history.batches):
            wrong = "the journal that is fed was changed"
    return f"journal {number_}: {wrong}" if wrong else None, told


# Kills.


def long_history(count=BATCHES):
    """The rows and batches of a journal of so many updates of one to four rows."""
    chance = random.Random(f"{SEED} kills")
    rows = [(place, 0, *row) for place, row in enumerate(opening_rows(journals.opened(), journals.ORIGIN), 1)]
    batches = [(1, len(rows))]
    for place in range(count):
        size, first = chance.randrange(1, 5), len(rows) + 1
        hosts = (wire.record_bytes(f"h{place}x{one}.example.com. 60 IN A 10.0.{place >> 8}.{place & 255}") for one in range(size))
        rows += [(first + one, place % 3, 8 + place, host) for one, host in enumerate(hosts)]
        batches.append((first, size))
    return rows, batches


def is_front(journal, rows, batches):
    """Whether a file has a front of rows that is empty or ends with a batch; and how many rows it has."""
    if not journal.exists() or not journal.read_bytes() or journals.is_half_made(journal):
        return True, 0
    got, got_batches = standing(journal)
    ends = {0, *(first + count - 1 for first, count in batches)}
    return got == rows[: len(got)] and len(got) in ends and got_batches == [one for one in batches if one[0] <= len(got)], len(got)


def killed_after(command, given, wait):
    """Runs a program over an input that goes on and on, and kills it after so many seconds; whether it had not ended by then."""
    process = subprocess.Popen(command, stdin=subprocess.PIPE, stdout=subprocess.PIPE)
    timer = threading.Timer(wait, process.kill)
    timer.start()
    try:
        process.stdin.write(given)
        process.stdin.flush()
    except OSError:
        pass
    timer.join()
    process.stdout.read()
    status = process.wait(BOUND)
    for stream in (process.stdin, process.stdout):
        try:
            stream.close()
        except OSError:
            pass
    return status == -9


def kills(count, seed):
    """What is wrong with followers that are killed so many times in all, each up to a few times before it is fed to the end; and how often a
    part was there, but not all."""
    chance, left, parts = random.Random(f"{seed} kills"), count, 0
    rows, batches = long_history()
    whole = b"".join(frames_of(rows, batches))
    with tempfile.TemporaryDirectory() as folder:
        begun = time.monotonic()
        got = run("follow", NAME, journal=Path(folder, "first"), given=whole)
        duration = time.monotonic() - begun
        if got != (0, f"length {len(rows)} serial {rows[-1][2]}\n".encode(), ""):
            return f"a feed of {len(rows)} rows: {got}", 0
        while left:
            journal = Path(folder, f"journal{left}")
            command = [PROGRAM, "follow", NAME, f"--journal={journal}"]
            for _ in range(min(left, chance.randrange(1, 6))):
                wait = chance.uniform(0, duration)
                killed_after(command, whole, wait)
                left -= 1
                is_due, length = is_front(journal, rows, batches)
                parts += 0 < length < len(rows)
                if not is_due:
                    return f"killed after {wait:.3f} s: {length} rows are no front that ends with a batch, or their batches are others", parts
            got = run("follow", NAME, journal=journal, given=whole)
            if got != (0, f"length {len(rows)} serial {rows[-1][2]}\n".encode(), "") or standing(journal) != (rows, batches):
                return f"killed, and fed again: {got}, {len(standing(journal)[0])} rows", parts
    return None, parts


# Words, rows, and files that are damaged.


USAGE = line(1)
NO_COMMANDS = [
    [], ["feed"], ["feed", NAME], ["feed", NAME, "0"], ["feed", NAME, "00"], ["feed", NAME, "01"], ["feed", NAME, "+1"], ["feed", NAME, "-1"],
    ["feed", NAME, ""], ["feed", NAME, "1 "], ["feed", NAME, " 1"], ["feed", NAME, "0x1"], ["feed", NAME, "1.0"], ["feed", NAME, "18446744073709551616"],
    ["feed", NAME, "1", "2"], ["feed", NAME, "--journal=@"], ["feed", NAME, "--journal=@", "1"], ["feed", "1", NAME, "--journal=@"],
    ["feed", NAME, "1", "--journal="], ["feed", NAME, "1", "--journal=@", "--journal=@"], ["feed", NAME, "1", "--into=@"],
    ["feed", NAME, "1", "--journal", "@"], ["feed", "--journal=@", NAME, "1"], ["feed", "example..com.", "1"], ["feed", "", "1"],
    ["feed", "a" * 64, "1"], ["Feed", NAME, "1"], ["feeds", NAME, "1"], ["follow"], ["follow", NAME, "1"], ["follow", NAME, "--journal="],
    ["follow", NAME, "--journal=@", "--journal=@"], ["follow", NAME, "--zone=@"], ["follow", "--journal=@", NAME], ["follow", "a" * 64],
    ["follow", "", "--journal=@"], ["follow", "example..com.", "--journal=@"], ["FOLLOW", NAME], ["follows", NAME], ["follow", NAME, "--help"],
    ["help"], ["--version", "--help"], ["--help", "feed"], ["serve", NAME], [b"follow", b"\xff"], [b"follow", b"example.com.", b"--journal=\xff"],
]  # fmt: skip


def words_and_rows(folder):
    """What is wrong with the words of the command line and the worked rows, one after the other."""
    journal, zone, second = (Path(folder, name) for name in ("journal", "zone", "second"))
    untouched = Path(folder, "untouched")
    for words in NO_COMMANDS:
        at = bytes(untouched) if words and isinstance(words[0], bytes) else str(untouched)
        given = [word.replace(b"@" if isinstance(word, bytes) else "@", at) for word in words]
        yield f"the words {words}", run(*given, given=b"\0\1x"), USAGE
    yield "words that are no command open no file", untouched.exists(), False
    version = (TOP / "crates" / "dns_follow" / "src" / "help.rt").read_text(encoding="utf-8").split('VERSION: &str = "')[1].split("\\n")[0]
    yield "--version", run("--version"), (0, f"{version}\n".encode(), "")
    status, text, told = run("--help")
    yield "--help", (status, all(word in text for word in (b"feed ", b"follow ", b"--journal=")), told), (0, True, "")
    yield "the feed of a journal in memory", run("feed", NAME, "1"), (0, b"", "")
    yield "a follower without a feed", run("follow", NAME), (0, b"length 0 serial -\n", "")
    yield "and with a journal", run("follow", NAME, journal=second), (0, b"length 0 serial -\n", "")
    yield "which is made", journals.left(second), (2, [], [])
    yield "and has no feed", run("feed", NAME, "1", journal=second), (0, b"", "")
    empty = Path(folder, "empty")
    empty.touch()
    yield "the feed of an empty file", run("feed", NAME, "1", journal=empty), (0, b"", "")
    journals.nine_rows(journal, zone)
    rows, batches = standing(journal)
    # by hand: the first frame is that of the snapshot row, the last that of the row which stands alone in its batch
    first = bytes.fromhex("0028 0000000000000001 00000000 00000007 00 076578616d706c6503636f6d00 00fc0001000000000000")
    last = bytes.fromhex("0037 0000000000000009 00000000 00000008 01 0a73657269616c74657374076578616d706c6503636f6d00 0001000100000e100004c0000237")
    got = run("feed", NAME, "1", journal=journal)
    yield "the feed of nine rows", (got, got[1][: len(first)], got[1][-len(last) :]), (fed(rows, batches, 1), first, last)
    yield "its last row", run("feed", "Example.COM", "9", journal=journal), (0, last, "")
    yield "the feed from row 10", run("feed", NAME, "10", journal=journal), (0, b"", "")
    yield "the feed from the last id", run("feed", NAME, "18446744073709551615", journal=journal), (0, b"", "")
    yield "of another zone's name, which is not looked at", run("feed", "example.org.", "9", journal=journal), (0, last, "")
    whole = got[1]
    yield "without a journal", run("follow", NAME, given=whole), (0, b"length 9 serial 8\n", "")
    yield "the opening alone", run("follow", NAME, journal=second, given=whole[: -len(last)]), (0, b"length 8 serial 7\n", "")
    yield "the last row", run("follow", "Example.COM", journal=second, given=last), (0, b"length 9 serial 8\n", "")
    yield "all of it again", run("follow", NAME, journal=second, given=whole), (0, b"length 9 serial 8\n", "")
    yield "what it stored", standing(second), (rows, batches)
    yield "another zone's follower", run("follow", "example.org.", journal=second, given=last), (5, b"journal row 1: row out of place\n", "")
    yield "another zone's feed", run("follow", "example.org.", given=whole), line(33)
    yield "the server on it", journals.run(["events", NAME], second, []), (0, "serial 8\njournal_len 9\nopen 0\n")
    yield "the auditor on it", audits.audit("list", NAME, journal=second), (0, "batch 1 8 serial 7 client 0\nbatch 9 1 serial 8 client 0\n", "")
    started = Path(folder, "started")
    zone.write_bytes(audits.EXAMPLE.read_bytes())
    journals.begin(started, zone)
    yield "a journal that a server began with the same zone", run("follow", NAME, journal=started, given=whole), (0, b"length 9 serial 8\n", "")
    yield "its rows", standing(started), (rows, batches)


def long_rows(folder):
    """What is wrong with rows of so many bytes that they fill a frame, or are too long for one."""
    journal, second, other = (Path(folder, name) for name in ("journal", "second", "other"))
    origin = journals.ORIGIN
    opening = [(place, 0, *row) for place, row in enumerate(opening_rows(journals.opened(), origin), 1)]
    for size in (LONGEST, LONGEST + 1):
        data = record_bytes(Record(origin, 65_280, IN, 60, (bytes(size - len(name_bytes(origin)) - 10),)))
        rows, batches = [*opening, (4, 1, 8, data), (5, 2, 9, opening[2][3])], [(1, 3), (4, 1), (5, 1)]
        for old in Path(folder).glob("*"):
            old.unlink()
        write(journal, rows, batches)
        due = fed(rows, batches, 1)
        yield f"a row of {size} bytes is due to be so", (len(data), due[0]), (size, 0 if size == LONGEST else 30)
        got = run("feed", NAME, "1", journal=journal)
        yield f"the feed of a row of {size} bytes", got, due
        yield f"from it on, {size} bytes", run("feed", NAME, "4", journal=journal), fed(rows, batches, 4)
        yield f"from behind it, {size} bytes", run("feed", NAME, "5", journal=journal), (0, frame(rows[4], 1), "")
        follower = Follower(origin)
        fed_again = run("follow", NAME, journal=second, given=got[1]), standing(second)
        due = follower.follow(got[1]), (follower.rows, follower.batches)
        yield f"a follower of it, {size} bytes", fed_again, due
        if size == LONGEST:
            yield "what a follower of such a row is fed", run("feed", NAME, "1", journal=second), got
            follower = Follower(origin)
            slowly = b"".join(frames_of(rows, batches)) * 3
            yield "three times in one run", run("follow", NAME, journal=other, given=slowly), follower.follow(slowly)


def any_bytes(_):
    """What is wrong with followers in memory of a feed in which bytes were changed, their lengths too, and of bytes at random."""
    rows, batches = long_history(6)
    whole, chance = b"".join(frames_of(rows, batches)), random.Random(SEED)
    for place in range(RANDOM):
        data = bytearray(whole)
        for _ in range(chance.choice([1, 1, 2, 5])):
            data[chance.randrange(len(data))] = chance.choice([0, 1, 255, chance.randrange(256)])
        given = bytes(data) if place % 10 else b"".join(number(size, 2) + chance.randbytes(size) for size in (chance.randrange(40), 17))
        yield f"a follower of {given.hex()}", run("follow", NAME, given=given), Follower(journals.ORIGIN).follow(given)


# How a journal is made that is fed, from which row on, and the status and line that are due; where no line is given, the sound feed.
UNFED = [
    (audits.edited("DELETE FROM records WHERE id = 1"), 1, (5, 1)),
    (audits.edited("DELETE FROM records WHERE id = 4"), 1, (5, 4)),
    (audits.edited("DELETE FROM records WHERE id = 4"), 9, (5, 4)),
    (audits.edited("DELETE FROM records WHERE id = 4", "DELETE FROM batches"), 1, (5, 4)),
    (audits.edited("DELETE FROM records WHERE id = 4", "UPDATE records SET client_id = -1 WHERE id = 2"), 1, (5, 4)),
    (audits.edited("UPDATE records SET id = id + 1 WHERE id = 9"), 1, (5, 9)),
    (audits.edited("UPDATE records SET id = 9223372036854775807 WHERE id = 9"), 10, (5, 9)),
    (audits.edited("UPDATE records SET id = 0 WHERE id = 1"), 1, (5, 1)),
    (audits.edited("INSERT INTO records SELECT 0, client_id, soa_serial, timestamp, record FROM records WHERE id = 1"), 1, (5, 1)),
    (audits.edited("INSERT INTO records SELECT -5, client_id, soa_serial, timestamp, record FROM records WHERE id = 1"), 1, (5, 1)),
    (audits.edited("DELETE FROM records WHERE id = 9"), 1, (5, 9)),
    (audits.edited("DELETE FROM records"), 1, (5, 1)),
    (audits.edited("DELETE FROM batches"), 1, (5, 1)),
    (audits.edited("DELETE FROM batches"), 10, (5, 1)),
    (audits.edited("DELETE FROM batches WHERE first = 9"), 1, (5, 9)),
    (audits.edited("DELETE FROM batches WHERE first = 1"), 1, (5, 1)),
    (audits.edited("UPDATE batches SET first = 10 WHERE first = 9"), 1, (5, 9)),
    (audits.edited("UPDATE batches SET count = 7 WHERE first = 1"), 1, (5, 8)),
    (audits.edited("UPDATE batches SET count = 9 WHERE first = 1"), 1, (5, 1)),
    (audits.edited("UPDATE batches SET count = 2 WHERE first = 9"), 1, (5, 9)),
    (audits.edited("UPDATE batches SET count = 0 WHERE first = 9"), 1, (5, 9)),
    (audits.edited("UPDATE batches SET count = -8 WHERE first = 1"), 1, (5, 1)),
    (audits.edited("INSERT INTO batches VALUES (10, 1)"), 1, (5, 10)),
    (audits.edited("INSERT INTO batches VALUES (0, 1)"), 1, (5, 1)),
    (audits.edited("DELETE FROM batches", "DELETE FROM records"), 1, (0, b"")),
    (audits.edited("UPDATE records SET client_id = 7 WHERE id = 5"), 1, (5, 1)),
    (audits.edited("UPDATE records SET client_id = 4294967296 WHERE id = 9"), 1, (5, 9)),
    (audits.edited("UPDATE records SET client_id = 4294967296 WHERE id < 9"), 9, (5, 1)),
    (audits.edited("UPDATE records SET client_id = -1 WHERE id = 9"), 10, (5, 9)),
    (audits.edited("UPDATE records SET soa_serial = 4294967296 WHERE id = 9"), 1, (5, 9)),
    (audits.edited("UPDATE records SET soa_serial = -1 WHERE id < 9"), 1, (5, 1)),
    (audits.edited("UPDATE records SET client_id = 4294967296 WHERE id = 9", "DELETE FROM batches WHERE first = 9"), 1, (5, 9)),
    (audits.edited("UPDATE records SET client_id = -9223372036854775808 WHERE id < 9", "DELETE FROM batches WHERE first = 9"), 1, (5, 9)),
    (audits.edited("UPDATE records SET client_id = 'x' WHERE id = 9"), 1, (8, None)),
    (audits.edited("UPDATE records SET soa_serial = x'00' WHERE id = 2"), 1, (8, None)),
    (audits.edited("UPDATE records SET record = 'text' WHERE id = 2"), 9, (8, None)),
    (audits.edited("UPDATE records SET record = 'text' WHERE id = 4", "DELETE FROM records WHERE id = 2"), 1, (5, 2)),
    (audits.edited("UPDATE batches SET count = 'x' WHERE first = 9"), 1, (8, None)),
    (audits.edited("UPDATE batches SET count = 'x' WHERE first = 9", "DELETE FROM records WHERE id = 2"), 1, (5, 2)),
    (audits.edited("UPDATE records SET timestamp = 'never' WHERE id = 2"), 1, (0, None)),
    (audits.edited("UPDATE records SET client_id = 4294967295 WHERE id = 9"), 9, (0, None)),
    (audits.edited("UPDATE records SET soa_serial = 4294967295, client_id = 1 WHERE id < 9"), 1, (0, None)),
    (audits.edited("UPDATE records SET record = x'' WHERE id = 2"), 1, (0, None)),
    (audits.edited("UPDATE records SET record = x'ffff' WHERE id = 9"), 1, (0, None)),
    (audits.edited("UPDATE batches SET count = 3 WHERE first = 1", "INSERT INTO batches VALUES (4, 1), (5, 4)"), 2, (0, None)),
]  # fmt: skip


def unfed(make, begin, due):
    """What is wrong with the feed of a journal that another hand has changed; none where nothing is."""
    with tempfile.TemporaryDirectory(dir=audits.in_memory()) as folder:
        journal, zone = Path(folder, "journal"), Path(folder, "zone")
        make(journal, zone)
        before, (status, place) = journals.content(journal), due
        due = line(8) if status == 8 else (5, f"journal row {place}: out of place\n".encode(), "") if status == 5 else (0, place, "")
        if due[1] is None:
            due = fed(*standing(journal), begin)
        got = run("feed", NAME, str(begin), journal=journal)
        if got != due or got[0] == 0 and status:
            return told_other(f"{make.__name__}, fed from row {begin}", got, due)
        if journals.content(journal) != before:
            return f"{make.__name__}, fed from row {begin}: the file was changed"
    return None


# the kinds of journals whose feeds are not refused as their opening is by the server: their rows or batches stand in other places, or none does
FED_OTHERWISE = {
    "cut_row": (0, None), "cut_row_of_eight": (0, None), "missing_row": (5, 2), "no_snapshot": (5, 1), "no_soa": (5, 1), "text_for_bytes": (8, None),
    "missing_row_before_text": (5, 2), "no_batch": (5, 1), "empty_batch": (5, 1), "batch_cut_short": (5, 3), "batch_without_rows": (5, 1),
    "batch_behind_its_row": (5, 9), "batch_of_two_serials": (5, 1), "missing_row_and_batch": (5, 2),
}  # fmt: skip


def refused_as_by_the_server(make, status, told, why=""):
    """What is wrong with how a file is refused to a follower that the server refuses too, and with its feed; none where nothing is."""
    rows, batches = long_history(1)
    with tempfile.TemporaryDirectory(dir=audits.in_memory()) as folder:
        journal, zone = Path(folder, "journal"), Path(folder, "zone")
        zone.write_text(journals.ZONE, encoding="ascii")
        make(journal, zone)
        before, due = journals.content(journal), (status, f"{told}\n".encode(), f"dns-follow: {journal}: {why}\n" if why else "")
        got = run("follow", NAME, journal=journal, given=b"".join(frames_of(rows, batches)))
        if got != due:
            return told_other(f"{make.__name__}, follow", got, due)
        if not why:
            status, place = FED_OTHERWISE[make.__name__]
            due = line(8) if status == 8 else fed(*standing(journal), 1)
            if status == 5:
                due = 5, f"journal row {place}: out of place\n".encode(), ""
        got = run("feed", NAME, "1", journal=journal)
        if got != due or got[0] != status:
            return told_other(f"{make.__name__}, feed", got, due)
        if journals.content(journal) != before:
            return f"{make.__name__}: the file was changed"
    return None


def earlier_versions(folder):
    """What is wrong with journals of version 1, which are brought to the current one; their batches are runs of one client and serial."""
    rows, _ = long_history(4)
    batches = migrations.batches_of([(*row[:3], None, row[3]) for row in rows])
    fed_file, own = Path(folder, "fed"), Path(folder, "own")
    for journal in (fed_file, own):
        write(journal, rows, None, version=1)
    yield "the feed of version 1", run("feed", NAME, "1", journal=fed_file), fed(rows, batches, 1)
    yield "its file", (journals.left(fed_file)[0], standing(fed_file)), (2, (rows, batches))
    more, more_batches = long_history(6)
    data = b"".join(frames_of(more, more_batches))
    yield "a follower of version 1", run("follow", NAME, journal=own, given=data), (0, f"length {len(more)} serial {more[-1][2]}\n".encode(), "")
    yield "its file", (journals.left(own)[0], standing(own)), (2, (more, more_batches))


# Outputs, inputs and files that take or give nothing, and files that two programs want.


def outputs(folder):
    """What is wrong where the output takes nothing, or the input gives nothing."""
    journal, zone, second = (Path(folder, name) for name in ("journal", "zone", "second"))
    journals.nine_rows(journal, zone)
    rows, batches = standing(journal)
    whole = b"".join(frames_of(rows, batches))
    runs = [(["feed", NAME, "1"], journal, 7), (["feed", NAME, "10"], journal, 0), (["follow", NAME], second, 7)]
    runs += [(words, None, 7) for words in (["feed", NAME], ["--help"], ["--version"])]
    for words, at, status in runs:
        with open("/dev/full", "wb") as full:
            command = [PROGRAM, *words, *([f"--journal={at}"] if at else [])]
            done = subprocess.run(command, input=whole, stdout=full, stderr=subprocess.PIPE, timeout=BOUND)
        yield f"{' '.join(words)}, onto a full disk", (done.returncode, done.stderr), (status, b"")
    yield "what a follower stored is there, though it could not be told", standing(second), (rows, batches)
    reading, writing = os.pipe()
    os.close(reading)
    command = [PROGRAM, "feed", NAME, "1", f"--journal={journal}"]
    done = subprocess.run(command, stdin=subprocess.DEVNULL, stdout=writing, stderr=subprocess.PIPE, timeout=BOUND, restore_signals=False)
    os.close(writing)
    yield "into a pipe that nobody reads", (done.returncode, done.stderr), (7, b"")
    here = os.open(folder, os.O_RDONLY)
    third = Path(folder, "third")
    done = subprocess.run([PROGRAM, "follow", NAME, f"--journal={third}"], stdin=here, capture_output=True, timeout=BOUND)
    yield "a folder as the input", (done.returncode, done.stdout, done.stderr), (6, b"read fault\n", b"")
    done = subprocess.run([PROGRAM, "feed", NAME, "9", f"--journal={journal}"], stdin=here, capture_output=True, timeout=BOUND)
    yield "which a feed does not read", (done.returncode, done.stdout, done.stderr), (0, frame(rows[8], 1), b"")
    os.close(here)
    for missing in (Path(folder, "missing"), Path(folder, "no", "journal")):
        due = (8, b"keeper fault\n", f"dns-follow: {missing}: No such file or directory (os error 2)\n")
        yield "no such file to feed", (run("feed", NAME, "1", journal=missing), missing.exists()), (due, False)
    nowhere = Path(folder, "no", "journal")
    yield "no folder for a follower", run("follow", NAME, journal=nowhere), (8, b"keeper fault\n", f"dns-follow: {nowhere}: sqlite error\n")


def read_only(folder):
    """What is wrong with a journal that may not be written: it is refused, since it would have to be held."""
    journal, zone, program = (Path(folder, name) for name in ("journal", "zone", "dns-follow"))
    journals.nine_rows(journal, zone)
    shutil.copy(PROGRAM, program)
    journal.chmod(0o444)
    Path(folder).chmod(0o555)
    how = {} if os.getuid() else {"user": migrations.NOBODY, "group": migrations.NOBODY, "extra_groups": []}
    for words in (["feed", NAME, "1"], ["follow", NAME]):
        told = run(*words, journal=journal, program=program, **how)
        yield f"a journal that may not be written, {words[0]}", told, (8, b"keeper fault\n", f"dns-follow: {journal}: sqlite error\n")
    Path(folder).chmod(0o755)


def without_room(folder):
    """What is wrong where files may not grow beyond so many bytes: the journal has a front that ends with a batch, and the feed goes on with it
    where there is room again."""
    rows, batches = long_history(200)
    whole, statuses, lengths = b"".join(frames_of(rows, batches)), set(), set()
    for room in [*migrations.ROOMS, *range(3_000, 120_000, 6_000)]:
        journal = Path(folder, f"journal{room}")
        limit = lambda: resource.setrlimit(resource.RLIMIT_FSIZE, (room, room))  # noqa: B023, E731
        got = run("follow", NAME, journal=journal, given=whole, preexec_fn=limit, restore_signals=False)[:2]
        statuses.add(got[0])
        is_due, length = is_front(journal, rows, batches)
        lengths.add(length)
        fits = got == (0, f"length {len(rows)} serial {rows[-1][2]}\n".encode()) and length == len(rows) if got[0] == 0 else got == line(8)[:2]
        yield f"room for {room} bytes: {got}, {length} rows", (is_due, fits), (True, True)
        again = run("follow", NAME, journal=journal, given=whole)
        yield f"once more with room, behind {room} bytes", (again[0], standing(journal) == (rows, batches)), (0, True)
    yield "with room and without", statuses, {0, 8}
    yield "some were filled in part", len(lengths) > 3, True


def stopped(folder):
    """What is wrong where a follower is stopped before each of its calls that change a file: its journal has a front that ends with a batch, and
    the feed goes on with it."""
    if not traced.is_there():
        print("follows: programs cannot be traced here, so none is stopped at its calls")
        return
    rows, batches = long_history(3)
    told, given = Path(folder, "told"), Path(folder, "given")
    given.write_bytes(b"".join(frames_of(rows, batches)))
    due = f"length {len(rows)} serial {rows[-1][2]}\n".encode()
    status, count, lengths = None, 0, set()
    while status != 0 and count < journals.MOST_CALLS:
        count += 1
        journal = Path(folder, f"journal{count}")
        with given.open("rb") as text, told.open("wb") as output:
            status = traced.stopped_before(count, [PROGRAM, "follow", NAME, f"--journal={journal}"], stdin=text, stdout=output)
        is_due, length = is_front(journal, rows, batches)
        lengths.add(length)
        yield f"stopped before call {count}: {length} rows", is_due, True
        yield f"its output, stopped before call {count}", told.read_bytes() in (b"", due) and (length == len(rows) or not told.stat().st_size), True
        again = run("follow", NAME, journal=journal, given=given.read_bytes())
        yield f"once more, stopped before call {count}", (again, standing(journal)), ((0, due, ""), (rows, batches))
    yield "a run is stopped before some calls, and one ends", (status, count > 10), (0, True)
    yield "every batch was the last one once", lengths, {0, *(first + size - 1 for first, size in batches)}


def held_by_the_server(folder):
    """What is wrong while a server holds the journal: who feeds or follows is told so, and neither loses anything."""
    journal, second = Path(folder, "journal"), Path(folder, "second")
    held = (8, b"keeper fault\n", f"dns-follow: {journal}: sqlite error\n")
    with clients.Serving("--update", zone=audits.EXAMPLE, journal=journal, workers=4) as server:
        codes = []
        for place, reply in enumerate(clients.in_turn(server.connected, map(clients.added, range(SERVED)))):
            codes.append(reply[3] & 15)
            if place % 25 == 0:
                words = [["feed", NAME, "1"], ["follow", NAME]][place // 25 % 2]
                yield f"{' '.join(words)}, while the server takes updates", run(*words, journal=journal, given=b"\0\1x"), held
        yield "the updates", codes, [0] * SERVED
        yield "the server's end", server.stopped()[0], 0
    rows, batches = standing(journal)
    yield "what was served", (len(rows), len(batches)), (8 + SERVED, 1 + SERVED)
    got = run("feed", NAME, "1", journal=journal)
    yield "the feed of what was served", got, fed(rows, batches, 1)
    yield "a follower of it", run("follow", NAME, journal=second, given=got[1]), (0, f"length {len(rows)} serial {rows[-1][2]}\n".encode(), "")
    yield "its rows", standing(second), (rows, batches)


def held_by_a_follower(folder):
    """What is wrong while a follower holds the journal, since its input goes on: whoever comes is told so, and the follower goes on."""
    journal = Path(folder, "journal")
    rows, batches = long_history(4)
    frames = frames_of(rows, batches)
    process = subprocess.Popen([PROGRAM, "follow", NAME, f"--journal={journal}"], stdin=subprocess.PIPE, stdout=subprocess.PIPE)
    process.stdin.write(b"".join(frames[:3]))
    process.stdin.flush()
    end = time.monotonic() + BOUND
    while time.monotonic() < end and not (journal.exists() and Path(f"{journal}-wal").exists() and Path(f"{journal}-wal").stat().st_size):
        time.sleep(0.01)
    told = f"dns-follow: {journal}: sqlite error\n"
    yield "the server, while a follower runs", journals.run(["events", NAME], journal, []), (8, "keeper fault\n")
    yield "another follower", run("follow", NAME, journal=journal, given=b""), (8, b"keeper fault\n", told)
    yield "a feed of it", run("feed", NAME, "1", journal=journal), (8, b"keeper fault\n", told)
    process.stdin.write(b"".join(frames[3:]))
    process.stdin.close()
    yield "the follower's end", (process.stdout.read(), process.wait(BOUND)), (f"length {len(rows)} serial {rows[-1][2]}\n".encode(), 0)
    process.stdout.close()
    yield "its rows", standing(journal), (rows, batches)
    yield "the server, afterwards", journals.run(["events", NAME], journal, []), (0, f"serial {rows[-1][2]}\njournal_len {len(rows)}\nopen 0\n")


# Feeds that come over a way.


def feeding(journal, begin=1, **how):
    return subprocess.Popen([PROGRAM, "feed", NAME, str(begin), f"--journal={journal}"], stdin=subprocess.DEVNULL, **how)


def following(journal, **how):
    return subprocess.Popen([PROGRAM, "follow", NAME, f"--journal={journal}"], stdout=subprocess.PIPE, **how)


def by_pipe(journal, second):
    feed = feeding(journal, stdout=subprocess.PIPE)
    follow = following(second, stdin=feed.stdout)
    feed.stdout.close()
    return ended(feed, follow)


def ended(feed, follow):
    """The statuses of both, and what the follower wrote."""
    told, _ = follow.communicate(timeout=BOUND)
    return feed.wait(BOUND), follow.returncode, told


def copied(read, put, chance):
    """Hands bytes on in pieces of any size."""
    while True:
        piece = read(chance.choice([1, 2, 7, 100, 4_096, 65_536]))
        if not piece:
            return
        put(piece)


def by_a_relay(journal, second):
    """By a relay of two threads and a connection over loopback between them."""
    chance, other = random.Random(1), random.Random(2)
    with socket.socket() as listener:
        listener.bind(("127.0.0.1", 0))
        listener.listen()
        sending = socket.create_connection(listener.getsockname(), BOUND)
        receiving, _ = listener.accept()
    feed, follow = feeding(journal, stdout=subprocess.PIPE, bufsize=0), following(second, stdin=subprocess.PIPE)

    def send():
        copied(feed.stdout.read, sending.sendall, chance)
        sending.close()

    thread = threading.Thread(target=send)
    thread.start()
    copied(receiving.recv, follow.stdin.write, other)
    thread.join()
    for stream in (receiving, feed.stdout):
        stream.close()
    return ended(feed, follow)


# How a program listens on a port and writes what comes, and how one sends what it reads.
RELAYS = {
    "socat": (lambda port: ["socat", "-u", f"TCP-LISTEN:{port},bind=127.0.0.1,reuseaddr", "STDOUT"], lambda port: ["socat", "-u", "STDIN", f"TCP:127.0.0.1:{port}"]),
    "nc": (lambda port: ["nc", "-l", "127.0.0.1", str(port)], lambda port: ["nc", "-N", "127.0.0.1", str(port)]),
}


def by_program(journal, second, listen, send):
    """By a program that listens and one that sends, which is begun again until the first one listens."""
    port = clients.free_port()
    listener = subprocess.Popen(listen(port), stdin=subprocess.DEVNULL, stdout=subprocess.PIPE)
    follow = following(second, stdin=listener.stdout)
    listener.stdout.close()
    end, status = time.monotonic() + BOUND, None
    while status != 0 and time.monotonic() < end:
        feed = feeding(journal, stdout=subprocess.PIPE)
        sender = subprocess.Popen(send(port), stdin=feed.stdout, stdout=subprocess.DEVNULL, stderr=subprocess.DEVNULL)
        feed.stdout.close()
        status, fed_status = sender.wait(BOUND), feed.wait(BOUND)
    told, _ = follow.communicate(timeout=BOUND)
    listener.wait(BOUND)
    return fed_status, follow.returncode, told


def knows_nc():
    """Whether nc is the one that ends with its input by -N, as that of OpenBSD does."""
    told = subprocess.run(["nc", "-h"], stdin=subprocess.DEVNULL, capture_output=True, timeout=BOUND, text=True)
    return "-N" in told.stdout + told.stderr and "OpenBSD" in told.stdout + told.stderr


def ways(journal, folder):
    """The ways by which feeds come, and what came of each."""
    yield "a pipe", by_pipe, Path(folder, "piped")
    yield "a relay", by_a_relay, Path(folder, "relayed")
    for program, (listen, send) in RELAYS.items():
        if shutil.which(program) is None or program == "nc" and not knows_nc():
            print(f"follows: {program} is not installed{', or another one' * (program == 'nc')}, skipped")
        else:
            yield program, lambda journal, second, listen=listen, send=send: by_program(journal, second, listen, send), Path(folder, program)


def questions():
    """Messages that show the zone."""
    asked = [wire.query(name, kind) for name, kind, *_ in clients.ASKED] + [wire.query("many.example.com.", kind) for kind in ("A", "ANY", "TXT")]
    return asked + [wire.query(f"k{place}.example.com.", kind) for place in range(0, SERVED, 7) for kind in ("A", "ANY")] + [wire.query(NAME, "ANY")]


def asked(journal):
    """What a server on a journal answers, by datagram and over connections, and how it ends."""
    with clients.Serving(journal=journal) as server:
        by_datagram = [server.asked(message) for message in questions()]
        over_tcp = list(clients.in_turn(server.connected, questions()))
        return by_datagram, over_tcp, server.stopped()


def over_ways(folder):
    """What is wrong with followers that are fed by a pipe and by relays, and the answers of servers on their journals."""
    journal, zone = Path(folder, "journal"), Path(folder, "zone")
    zone.write_text(clients.ZONE)
    with clients.Serving("--update", zone=zone, journal=journal) as server:
        codes = [reply[3] & 15 for reply in clients.in_turn(server.connected, map(clients.added, range(SERVED)))]
        yield "the updates of the primary", (codes, server.stopped()[0]), ([0] * SERVED, 0)
    rows, batches = standing(journal)
    due, answers = f"length {len(rows)} serial {rows[-1][2]}\n".encode(), asked(journal)
    yield "the primary answers", (len(answers[0]), None in answers[0], len(answers[1]), answers[2][0]), (len(questions()), False, len(questions()), 0)
    for name, way, second in ways(journal, folder):
        yield f"by {name}", way(journal, second), (0, 0, due)
        yield f"what came by {name}", standing(second), (rows, batches)
        yield f"a server on what came by {name}", asked(second), answers
        yield f"and once more by {name}", (way(journal, second), standing(second)), ((0, 0, due), (rows, batches))
    chained = Path(folder, "chained")
    yield "a follower of a follower", by_pipe(second, chained), (0, 0, due)
    yield "what it stored", standing(chained), (rows, batches)
    damaged_one, late = Path(folder, "damaged"), Path(folder, "late")
    write(damaged_one, rows[:20] + rows[21:], batches)
    yield "a feed that is out of place, by a pipe", (by_pipe(damaged_one, late), standing(late)), ((5, 0, b"length 0 serial -\n"), ([], []))


PARTS = [words_and_rows, long_rows, any_bytes, earlier_versions, outputs, read_only, without_room, stopped, held_by_the_server, held_by_a_follower, over_ways]


def tried(part):
    """What is wrong with one part, and how many runs there were."""
    with tempfile.TemporaryDirectory(dir=audits.in_memory()) as folder:
        runs = list(part(folder))
    return [f"{name}\ndue: {due}\ngot: {got}" for name, got, due in runs if got != due], len(runs)


def main():
    words = [int(word) for word in sys.argv[1:]]
    count, kills_, seed = words + [COUNT, KILLS, SEED][len(words) :]
    for program in (PROGRAM, updates.PROGRAM, audits.PROGRAM):
        if not program.exists():
            sys.exit(f"follows.py: {program.name} is not built: run rt ci first")
    with ProcessPoolExecutor(os.cpu_count()) as pool:
        results = list(pool.map(followed, [(number_, seed) for number_ in range(count)], chunksize=10))
    wrong, told = [one for one, _ in results if one], sum((one for _, one in results), Counter())
    fault, parts = kills(kills_, seed)
    wrong += [fault] if fault else []
    wrong += [one for one in [*(unfed(*case) for case in UNFED), *(refused_as_by_the_server(*case) for case in journals.REFUSALS)] if one]
    runs = count + kills_ + len(UNFED) + len(journals.REFUSALS)
    for part in PARTS:
        faults, tries = tried(part)
        wrong, runs = wrong + faults, runs + tries
    answers = [" ".join(answer.split()) for answer in ANSWERS.split(";")]
    if not set(told) <= set(answers):
        sys.exit(f"follows.py: answers without a name here: {set(told) - set(answers)}")
    never = [answer for answer in answers if not told[answer]]
    print("follows: " + "; ".join(f"{answer} {told[answer]}" for answer in answers))
    if never and count >= COUNT:
        print(f"follows: no journal reached: {'; '.join(never)}")
    for one in wrong[:5]:
        print(one if len(one) < 4_000 else one[:4_000] + " ..")
    print(f"follows: {runs - len(wrong)} passed, {len(wrong)} failed; of {kills_} kills {parts} left a part")
    sys.exit(bool(wrong) or (bool(never) and count >= COUNT))


if __name__ == "__main__":
    main()
