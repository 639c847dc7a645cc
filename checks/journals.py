#!/usr/bin/env python3
"""Compares journals in files with a plain model of dynamic updates (update_model.py): their rows as Python's sqlite3 reads them, what
the program answers when it goes on with them, and what is left when it is killed.

The cases are the datagrams of those of updates.py, cut into up to four runs of the program over one file; the zone text is handed
to the first run alone. After each run every row is compared: its id, its client, its serial, its stamp and its bytes. A killed run
has to leave a front of the rows that were due, which ends with a whole batch, or nothing; the program goes on with it, and where a
line of its replies was out, all rows are there. A run that makes the tables, opens a zone and settles an update is stopped before each
of its calls that change a file, in turn; so is one over a file of version 1, whose batches it makes. Then files that are no journal, or a damaged one, are refused and left as they are.

  journals.py [COUNT [KILLS [SEED]]]  that many cases and killed runs, or 60 and 200; the same ones for the same seed

Uses the standard library alone, and no network. Each run of the program is bounded in time.
"""

import random
import subprocess
import sys
import tempfile
import time
from datetime import datetime, timezone
from pathlib import Path

try:
    import sqlite3
except ImportError:
    print("journals: skipped, Python has no module sqlite3")
    sys.exit(0)

import connections
import traced
import updates
import wire
from update_model import A, ANY, IN, SOA, Record, Server, name_bytes, number, record_bytes, serial_of

TOP = Path(__file__).resolve().parent.parent
COUNT, KILLS, SEED = 60, 200, 2136
BOUND = 60  # seconds
BATCHES = 60  # updates of a run that is killed
MOST_CALLS = 10_000  # calls of a run that is stopped
UPDATE = wire.update(("example.com.", "SOA", "IN"), [], ["serialtest.example.com. 3600 IN A 192.0.2.55"])
# What a run that opens the zone of eight rows and settles an update of one may leave of version, rows and batches; over a file of version 1
# and over none.
SETTLED = [(2, 8, [(1, 8)]), (2, 9, [(1, 8), (9, 1)])]
LEFT_OF_EARLIER = [(1, 8, None), *SETTLED]
LEFT = [(-1, 0, None), (2, 0, []), *SETTLED]
COLUMNS = "SELECT id, client_id, soa_serial, timestamp, record FROM records ORDER BY id"
ORIGIN = (b"example", b"com")
ZONE = "example.com. 60 IN SOA ns.example.com. host.example.com. 7 1 1 1 1\nexample.com. 60 IN NS ns.example.com.\n"
PEER = ("7f000001", 53)


def run(words, journal, events, zone=None):
    """The program over a journal: its status and its output."""
    command = [updates.PROGRAM, *words, f"--journal={journal}", *([f"--zone={zone}"] if zone else [])]
    text = "".join(map(connections.line, events)).encode()
    done = subprocess.run(command, input=text, stdout=subprocess.PIPE, stderr=subprocess.DEVNULL, timeout=BOUND)
    return done.returncode, done.stdout.decode(errors="replace")


def stored(journal):
    """The rows of a file, none where it has no table of them."""
    database = sqlite3.connect(journal)
    try:
        tables = {name for (name,) in database.execute("SELECT name FROM sqlite_master WHERE type = 'table'")}
        return [tuple(row) for row in database.execute(COLUMNS)] if "records" in tables else []
    finally:
        database.close()


def batches_in(journal):
    """The batches of a file, by their first rows and lengths; none where it has no table of them."""
    database = sqlite3.connect(journal)
    try:
        tables = {name for (name,) in database.execute("SELECT name FROM sqlite_master WHERE type = 'table'")}
        return database.execute("SELECT first, count FROM batches ORDER BY first").fetchall() if "batches" in tables else None
    finally:
        database.close()


def stamp(moment):
    """What a clock in UTC shows at a moment, in milliseconds since 1970."""
    shown = datetime.fromtimestamp(moment // 1_000, timezone.utc)
    return shown.strftime("%Y-%m-%d %H:%M:%S") + f".{moment % 1_000:03}"


def is_now(text):
    """Whether a stamp is of the last two minutes."""
    try:
        at = datetime.strptime(text, "%Y-%m-%d %H:%M:%S.%f").replace(tzinfo=timezone.utc)
    except ValueError:
        return False
    return len(text) == 23 and -1 < datetime.now(timezone.utc).timestamp() - at.timestamp() < 120


class Due:
    """What the model answers, and the rows that are due."""

    def __init__(self, server):
        self.server = server
        self.moments = [None] * len(server.rows)
        self.batches = [0, len(server.rows)]  # how many rows there are after each append

    def lines(self, events):
        """The output of one run over these datagrams."""
        lines = []
        for event in events:
            reply = self.server.settle(event["piece"], event["peer"], True)
            added = len(self.server.rows) - len(self.moments)
            self.moments += [event["at"]] * added
            self.batches += [len(self.server.rows)] * (added > 0)
            if reply is not None:
                lines.append(f"P {event['peer'][0]} {event['peer'][1]} {reply.hex()}")
        lines += [f"serial {serial_of(self.server.zone)}", f"journal_len {len(self.server.rows)}", "open 0"]
        return "".join(line + "\n" for line in lines)

    def are(self, rows):
        """Whether these are the first rows that are due."""
        return all(self.is_row(place, row) for place, row in enumerate(rows))

    def batched(self, count):
        """The batches that so many rows are due to have."""
        ends = [end for end in self.batches if end <= count]
        return [(begin + 1, end - begin) for begin, end in zip(ends, ends[1:]) if begin < end]

    def is_row(self, place, row):
        if place >= len(self.moments):
            return False
        moment, (serial, record) = self.moments[place], self.server.rows[place]
        is_stamp = is_now(row[3]) if moment is None else row[3] == stamp(moment)
        return is_stamp and (row[0], row[1], row[2], row[4]) == (place + 1, 0, serial, record)


def continued(number_, seed):
    """What is wrong with a case that is cut into runs, none where nothing is."""
    case, chance = updates.Case(number_, seed), random.Random(f"{seed} cut {number_}")
    events = [event for event in case.events if event["kind"] == "D"]
    cuts = sorted(chance.randrange(len(events) + 1) for _ in range(chance.randrange(4)))
    due = Due(case.server())
    with tempfile.TemporaryDirectory() as folder:
        zone, journal = Path(folder, "zone"), Path(folder, "journal")
        zone.write_text(case.text, encoding="ascii")
        for place, (begin, end) in enumerate(zip([0, *cuts], [*cuts, len(events)])):
            lines = due.lines(events[begin:end])
            got = run(case.words, journal, events[begin:end], None if place else zone)
            if got != (0, lines):
                return f"case {number_}, run {place + 1}: status {got[0]}\ndue:\n{lines}got:\n{got[1]}"
            rows = stored(journal)
            if len(rows) != len(due.moments) or not due.are(rows):
                return f"case {number_}, run {place + 1}: the rows in the file are others: {rows}"
            if batches_in(journal) != due.batched(len(rows)):
                return f"case {number_}, run {place + 1}: the batches in the file are others: {batches_in(journal)}"
    return None


def changing_events(count=BATCHES):
    """Updates that each add two records of a name, or delete those of one that was added."""
    events = []
    for place in range(count):
        name = (f"host{place // 3 * 3}".encode(), *ORIGIN)
        deletion = [Record(name, ANY, ANY, 0, ())]
        additions = [Record(name, A, IN, 60, (bytes([192, 0, 2, n]),)) for n in (place % 3 * 2 + 1, place % 3 * 2 + 2)]
        records = deletion if place % 3 == 2 else additions
        head = number(place % 65_536, 2) + number(5 << 11, 2) + b"".join(number(n, 2) for n in (1, 0, len(records), 0))
        message = head + name_bytes(ORIGIN) + number(SOA, 2) + number(IN, 2) + b"".join(map(record_bytes, records))
        events.append({"kind": "D", "at": place, "peer": PEER, "piece": message})
    return events


def opened():
    """The records of ZONE."""
    timers = b"".join(number(n, 4) for n in (7, 1, 1, 1, 1))
    soa = Record(ORIGIN, SOA, IN, 60, ((b"ns", *ORIGIN), (b"host", *ORIGIN), timers))
    return [soa, Record(ORIGIN, 2, IN, 60, ((b"ns", *ORIGIN),))]


def is_half_made(journal):
    """Whether a file lacks the first byte of a database, which is written last: its making was cut short, and is begun anew."""
    return journal.exists() and journal.read_bytes()[:16] == b"\0QLite format 3\0"


def killed(wait, events):
    """What is wrong with what is left of a run that is killed after so many seconds, none where nothing is."""
    due = Due(Server(ORIGIN, opened(), True))
    due.lines(events)
    with tempfile.TemporaryDirectory() as folder:
        zone, journal = Path(folder, "zone"), Path(folder, "journal")
        zone.write_text(ZONE, encoding="ascii")
        command = [updates.PROGRAM, "events", "example.com.", "--update", f"--journal={journal}", f"--zone={zone}"]
        text = "".join(map(connections.line, events)).encode()
        process = subprocess.Popen(command, stdin=subprocess.PIPE, stdout=subprocess.PIPE)
        process.stdin.write(text)
        process.stdin.close()
        time.sleep(wait)
        process.kill()
        output = process.stdout.read().decode()
        process.wait()
        rows = stored(journal) if journal.exists() and not is_half_made(journal) else []
        if not due.are(rows) or len(rows) not in due.batches:
            return f"killed after {wait:.3f} s: {len(rows)} rows, which are no front of those due that ends with a batch"
        if rows and batches_in(journal) != due.batched(len(rows)):
            return f"killed after {wait:.3f} s: {len(rows)} rows with other batches: {batches_in(journal)}"
        if output and len(rows) != len(due.moments):
            return f"killed after {wait:.3f} s: replies were out, and of {len(due.moments)} rows {len(rows)} are left"
        length = len(rows) or due.batches[1]
        serial = due.server.rows[length - 1][0]
        got = run(["events", "example.com.", "--update"], journal, [], zone)
        if got != (0, f"serial {serial}\njournal_len {length}\nopen 0\n"):
            return f"killed after {wait:.3f} s: with {len(rows)} rows the program goes on with status {got[0]}: {got[1]}"
    return None


def left(journal):
    """The version, the rows and the batches of a file, without stamps: -1 and none where it has no tables."""
    if not journal.exists() or not journal.read_bytes() or is_half_made(journal):
        return -1, [], None
    database = sqlite3.connect(journal)
    try:
        tables = {name for (name,) in database.execute("SELECT name FROM sqlite_master WHERE type = 'table'")}
        version = database.execute("SELECT version FROM tdns_schema").fetchall() if "tdns_schema" in tables else [(-1,)]
    finally:
        database.close()
    return version[0][0], [(row[0], row[1], row[2], row[4]) for row in stored(journal)], batches_in(journal)


def earlier():
    """A journal of version 1 with the zone of eight rows, as a file."""
    with tempfile.TemporaryDirectory() as folder:
        journal = Path(folder, "journal")
        run(["events", "example.com."], journal, [], TOP / "examples" / "example.com.zone")
        spoil(journal, "DROP TABLE batches", "UPDATE tdns_schema SET version = 1")
        spoil(journal, "PRAGMA wal_checkpoint(TRUNCATE)")
        return journal.read_bytes()


def stopped(count, whole, begun):
    """What is wrong with what is left of a run that is stopped before its call of this number that changes a file, and whether it was: it
    makes the tables, or those that a file of version 1 lacks; opens the zone of eight rows; and settles one update. None where nothing is
    wrong."""
    zone = TOP / "examples" / "example.com.zone"
    with tempfile.TemporaryDirectory() as folder:
        journal, given, told = (Path(folder, name) for name in ("journal", "given", "told"))
        given.write_text(f"D 0 7f000001 5300 {UPDATE.hex()}\n", encoding="ascii")
        if begun:
            journal.write_bytes(begun)
        command = [updates.PROGRAM, "events", "example.com.", "--update", f"--journal={journal}", f"--zone={zone}"]
        with given.open("rb") as text, told.open("wb") as output:
            status = traced.stopped_before(count, command, stdin=text, stdout=output)
        version, rows, batches = left(journal)
        place = f"stopped before call {count}"
        due = LEFT_OF_EARLIER if begun else LEFT
        if (version, len(rows), batches) not in due or whole and rows != whole[: len(rows)]:
            return f"{place}: version {version}, {len(rows)} rows, batches {batches}", rows, False
        if told.stat().st_size and len(rows) != 9:
            return f"{place}: replies were out, and {len(rows)} rows are left", rows, False
        length = len(rows) or 8
        got = run(["events", "example.com.", "--update"], journal, [], zone)
        if got != (0, f"serial {length - 1}\njournal_len {length}\nopen 0\n"):
            return f"{place}: with {len(rows)} rows the program goes on with status {got[0]}: {got[1]}", rows, False
        return None, rows, status == 0


def stops():
    """How many calls there are before which a run may be stopped, and what is wrong with what is left at some of them."""
    if not traced.is_there():
        print("journals: programs cannot be traced here, so none is stopped at its calls")
        return 0, []
    calls, wrong = 0, []
    for begun in (None, earlier()):
        whole, is_over = stopped(MOST_CALLS, [], begun)[1], False
        count = 0
        while not is_over and count < MOST_CALLS and not wrong:
            count += 1
            fault, _, is_over = stopped(count, whole, begun)
            wrong += [fault] if fault else []
        if not wrong and (count < 10 or not is_over):
            wrong.append(f"a run was stopped before {count} of its calls, and is none that ends")
        calls += count
    return calls, wrong


def duration(events):
    """How long a whole run takes, in seconds."""
    with tempfile.TemporaryDirectory() as folder:
        zone = Path(folder, "zone")
        zone.write_text(ZONE, encoding="ascii")
        begun = time.monotonic()
        run(["events", "example.com.", "--update"], Path(folder, "journal"), events, zone)
        return time.monotonic() - begun


def spoil(journal, *statements):
    """Changes a file by statements of SQLite."""
    database = sqlite3.connect(journal)
    for statement in statements:
        database.execute(statement)
    database.commit()
    database.close()


def begin(journal, zone):
    """A journal of one run without events, its three rows in the file itself."""
    run(["events", "example.com."], journal, [], zone)
    spoil(journal, "PRAGMA wal_checkpoint(TRUNCATE)")


def no_database(journal, zone):
    journal.write_bytes(b"no database at all " * 100)


def a_folder(journal, zone):
    journal.mkdir()


def foreign_table(journal, zone):
    spoil(journal, "CREATE TABLE other(id INTEGER PRIMARY KEY)")


def later_version(journal, zone):
    begin(journal, zone)
    spoil(journal, "UPDATE tdns_schema SET version = 3")


def cut_row(journal, zone):
    begin(journal, zone)
    spoil(journal, "UPDATE records SET record = substr(record, 1, length(record) - 1) WHERE id = 3")


def cut_row_of_eight(journal, zone):
    zone.write_bytes((TOP / "examples" / "example.com.zone").read_bytes())
    begin(journal, zone)
    spoil(journal, "UPDATE records SET record = substr(record, 1, length(record) - 1) WHERE id = 5")


def missing_row(journal, zone):
    begin(journal, zone)
    spoil(journal, "DELETE FROM records WHERE id = 2")


def no_snapshot(journal, zone):
    begin(journal, zone)
    spoil(journal, "DELETE FROM records WHERE id = 1", "UPDATE records SET id = id - 1")


def no_soa(journal, zone):
    begin(journal, zone)
    spoil(journal, "DELETE FROM records WHERE id > 1")


def text_for_bytes(journal, zone):
    begin(journal, zone)
    spoil(journal, "UPDATE records SET record = 'text' WHERE id = 2")


def no_batch(journal, zone):
    begin(journal, zone)
    spoil(journal, "DELETE FROM batches")


def empty_batch(journal, zone):
    begin(journal, zone)
    spoil(journal, "UPDATE batches SET count = 0")


def batch_cut_short(journal, zone):
    begin(journal, zone)
    spoil(journal, "UPDATE batches SET count = 2")


def batch_without_rows(journal, zone):
    begin(journal, zone)
    spoil(journal, "DELETE FROM records")


def nine_rows(journal, zone):
    """A journal of an opening of eight rows and an update of one, in the file itself."""
    zone.write_bytes((TOP / "examples" / "example.com.zone").read_bytes())
    run(["events", "example.com.", "--update"], journal, [{"kind": "D", "at": 0, "peer": PEER, "piece": UPDATE}], zone)
    spoil(journal, "PRAGMA wal_checkpoint(TRUNCATE)")


def batch_behind_its_row(journal, zone):
    nine_rows(journal, zone)
    spoil(journal, "UPDATE batches SET first = 10 WHERE first = 9")


def batch_of_two_serials(journal, zone):
    nine_rows(journal, zone)
    spoil(journal, "DELETE FROM batches WHERE first = 9", "UPDATE batches SET count = 9")


def missing_row_and_batch(journal, zone):
    missing_row(journal, zone)
    spoil(journal, "DELETE FROM batches")


def missing_row_before_text(journal, zone):
    missing_row(journal, zone)
    spoil(journal, "INSERT INTO records SELECT 4, client_id, soa_serial, timestamp, 'text' FROM records WHERE id = 3")


REFUSALS = [
    (no_database, 8, "keeper fault", "sqlite error"),
    (a_folder, 8, "keeper fault", "sqlite error"),
    (foreign_table, 8, "keeper fault", "error recovering from journal: schema version"),
    (later_version, 8, "keeper fault", "a journal of version 3, of which this program knows 0 to 2"),
    (cut_row, 5, "journal row 3: row is no record"),
    (cut_row_of_eight, 5, "journal row 5: row is no record"),
    (missing_row, 5, "journal row 3: row out of place"),
    (no_snapshot, 5, "journal row 1: row out of place"),
    (no_soa, 5, "journal row 1: not one SOA"),
    (text_for_bytes, 8, "keeper fault"),
    (missing_row_before_text, 5, "journal row 3: row out of place"),
    (no_batch, 5, "journal row 1: batch out of place"),
    (empty_batch, 5, "journal row 1: batch out of place"),
    (batch_cut_short, 5, "journal row 3: batch out of place"),
    (batch_without_rows, 5, "journal row 1: batch out of place"),
    (batch_behind_its_row, 5, "journal row 9: batch out of place"),
    (batch_of_two_serials, 5, "journal row 1: batch out of place"),
    (missing_row_and_batch, 5, "journal row 3: row out of place"),
]


def content(journal):
    return journal.read_bytes() if journal.is_file() else None


def refused(make, status, line, why=""):
    """What is wrong with the refusal of a file, none where nothing is; the last words are those on standard error."""
    with tempfile.TemporaryDirectory() as folder:
        zone, journal = Path(folder, "zone"), Path(folder, "journal")
        zone.write_text(ZONE, encoding="ascii")
        make(journal, zone)
        before = content(journal)
        command = [updates.PROGRAM, "events", "example.com.", "--update", f"--journal={journal}", f"--zone={zone}"]
        text = "".join(map(connections.line, changing_events()[:1])).encode()
        done = subprocess.run(command, input=text, capture_output=True, timeout=BOUND)
        got = (done.returncode, done.stdout.decode(errors="replace"), done.stderr.decode(errors="replace"))
        if got != (status, line + "\n", f"dns: {journal}: {why}\n" if why else ""):
            return f"{make.__name__}: status {got[0]}, {got[1]!r}, {got[2]!r}, due {status}, {line!r}, {why!r}"
        if content(journal) != before:
            return f"{make.__name__}: the file was changed"
    return None


def taken():
    """What is wrong where another program writes the journal, or the file is empty at first; none where nothing is."""
    with tempfile.TemporaryDirectory() as folder:
        zone, journal = Path(folder, "zone"), Path(folder, "journal")
        zone.write_text(ZONE, encoding="ascii")
        journal.touch()
        due = "serial 7\njournal_len 3\nopen 0\n"
        got = run(["events", "example.com."], journal, [], zone)
        if got != (0, due):
            return f"an empty file: status {got[0]}, {got[1]!r}"
        database = sqlite3.connect(journal, isolation_level=None)
        database.execute("BEGIN IMMEDIATE")
        got = run(["events", "example.com.", "--update"], journal, changing_events()[:1])
        database.execute("ROLLBACK")
        database.close()
        if got != (8, "keeper fault\n"):
            return f"a journal that another program writes: status {got[0]}, {got[1]!r}"
        if len(stored(journal)) != 3:
            return "a journal that another program writes: its rows were changed"
        got = run(["events", "example.com."], journal, [])
        return None if got == (0, due) else f"afterwards: status {got[0]}, {got[1]!r}"


def main():
    words = [int(word) for word in sys.argv[1:]]
    count, kills, seed = words + [COUNT, KILLS, SEED][len(words) :]
    if not updates.PROGRAM.exists():
        sys.exit("journals.py: the program is not built: run rt ci first")
    wrong = [one for one in (continued(number_, seed) for number_ in range(count)) if one]
    events, chance = changing_events(), random.Random(seed)
    whole = duration(events)
    wrong += [one for one in (killed(chance.uniform(0, whole * 1.1), events) for _ in range(kills)) if one]
    calls, faults = stops()
    wrong += faults
    wrong += [one for one in [*(refused(*refusal) for refusal in REFUSALS), taken()] if one]
    for one in wrong[:3]:
        print(one)
    print(f"journals: {count + kills + calls + len(REFUSALS) + 1 - len(wrong)} passed, {len(wrong)} failed")
    sys.exit(bool(wrong))


if __name__ == "__main__":
    main()
