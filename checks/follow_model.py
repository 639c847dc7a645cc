"""A plain model of feeds and followers: the frames of a journal, what a follower does with any bytes, journals that are drawn, and what is drawn of
their frames. Written from man/dns-follow.1, man/dns-journal.5 and the standards; it knows nothing of the program's code.

A row is its id, its client, its serial and its bytes; a batch the id of its first row and how many it has.
"""

import sqlite3
from collections import Counter

import audits
import updates
from update_model import AXFR, IN, MX, NS, SOA, Outside, Record, batch, folded, name_bytes, number, opening_rows, prescan, read_record
from update_model import record_bytes, replay, rows_of, serial_of

LONGEST = 65_518  # bytes of a row that has room in a frame
CLIENTS = [0, 0, 0, 1, 2, 7, 2**31, 2**32 - 1]
STATUSES = {
    1: "usage", 6: "read fault", 8: "keeper fault", 30: "too long", 31: "bad frame", 32: "mixed", 33: "refused",
}  # fmt: skip


def line(status):
    """What is due of a refusal that always has the same line."""
    return status, STATUSES[status].encode() + b"\n", ""


# Frames.


def frame(row, mark):
    """A row as a frame, behind its two bytes of length."""
    payload = number(row[0], 8) + number(row[1], 4) + number(row[2], 4) + bytes([mark]) + row[3]
    return number(len(payload), 2) + payload


def uncovered(rows, batches):
    """The place from which on batches do not cover rows, if there is one: each has rows of one client and one serial."""
    place = 1
    for first, count in batches:
        told = {row[1:3] for row in rows[place - 1 : place - 1 + count]} if count > 0 else ()
        if first != place or len(told) != 1 or place - 1 + count > len(rows):
            return place
        place += count
    return place if place <= len(rows) else None


def out_of_place(rows, batches):
    """The row at which a journal is not in place, if there is one."""
    for place, row in enumerate(rows, 1):
        if row[0] != place:
            return place
    place = uncovered(rows, batches)
    if place is not None:
        return place
    return next((row[0] for row in rows if not all(0 <= value < 2**32 for value in row[1:3])), None)


def frames_of(rows, batches):
    """The frames of the rows of a journal in place, in order."""
    ends = {first + count - 1 for first, count in batches}
    return [frame(row, row[0] in ends) for row in rows]


def fed(rows, batches, begin):
    """What is due of the feed from a row on."""
    place = out_of_place(rows, batches)
    if place is not None:
        return 5, f"journal row {place}: out of place\n".encode(), ""
    kept = rows[begin - 1 :]
    fits = next((count for count, row in enumerate(kept) if len(row[3]) > LONGEST), len(kept))
    sent = b"".join(frames_of(kept[:fits], batches))
    return (0, sent, "") if fits == len(kept) else (30, sent + b"too long\n", "")


def payloads(data):
    """What the whole frames of bytes carry."""
    while len(data) >= 2 and len(data) >= 2 + int.from_bytes(data[:2], "big"):
        size = int.from_bytes(data[:2], "big")
        yield data[2 : 2 + size]
        data = data[2 + size :]


def carried(payload):
    """The row that a payload carries, its bytes as the record is written without pointers, and its mark; or why it carries none."""
    if len(payload) < 17:
        return "too few bytes"
    id_, client, serial = (int.from_bytes(payload[place : place + size], "big") for place, size in ((0, 8), (8, 4), (12, 4)))
    if id_ == 0 or id_ > 2**63 - 1:
        return "row 0" if id_ == 0 else "row above the last id"
    if payload[16] > 1:
        return "another mark"
    try:
        record, end = read_record(payload[17:], 0)
    except Outside:
        return "no record"
    if end != len(payload) - 17:
        return "bytes behind the record"
    return (id_, client, serial, record_bytes(record)), payload[16]


class Follower:
    """What a follower has stored, and how often it gave each answer."""

    def __init__(self, origin):
        self.origin, self.rows, self.batches, self.zone, self.told = origin, [], [], None, Counter()

    def follow(self, data, origin=None):
        """One run over its journal, by this origin: what is due of it."""
        origin = folded(self.origin if origin is None else origin)
        if self.rows:
            found = replay(origin, [row[2:] for row in self.rows])
            if isinstance(found, tuple):
                self.told["not opened"] += 1
                return 5, f"journal row {found[0]}: {found[1]}\n".encode(), ""
        held = []
        for payload in payloads(data):
            status = self.take(payload, held, origin)
            if status is not None:
                return line(status)
        self.told["held rows dropped at the end"] += bool(held)
        self.told["length told" if self.zone else "length told without a zone"] += 1
        return 0, f"length {len(self.rows)} serial {serial_of(self.zone) if self.zone else '-'}\n".encode(), ""

    def take(self, payload, held, origin):
        """Takes a payload: the status that it ends the run with, or none. The rows of a batch that is not whole are held."""
        found = carried(payload)
        if isinstance(found, str):
            self.told[f"bad frame: {found}"] += 1
            return 31
        (row, mark), want = found, len(self.rows) + len(held) + 1
        if row[0] != want:
            self.told["known" if row[0] < want else "ahead"] += 1
            return None
        if held and held[-1][1:3] != row[1:3]:
            self.told["mixed: another serial" if held[-1][2] != row[2] else "mixed: another client"] += 1
            return 32
        held.append(row)
        self.told["row in another form"] += row[3] != payload[17:]
        if mark == 0:
            self.told["held"] += 1
            return None
        zone = replay(origin, [one[2:] for one in self.rows + held])
        if isinstance(zone, tuple):
            self.told[f"refused: {zone[1]}"] += 1
            return 33
        self.tell_stored(held)
        self.rows, self.batches, self.zone = self.rows + held, [*self.batches, (held[0][0], len(held))], zone
        held.clear()
        return None

    def tell_stored(self, held):
        self.told["stored"] += 1
        snapshot = record_bytes(Record(folded(self.origin), AXFR, IN, 0, ()))
        self.told["stored with a snapshot within"] += self.rows != [] and any(row[3] == snapshot for row in held)
        self.told["stored by two clients"] += self.rows != [] and self.rows[-1][1] != held[0][1]


# Journals.


def write(journal, rows, batches, stamp="2026-11-30 12:00:00.000", version=2):
    """Writes a journal, by the form in man/dns-journal.5."""
    database = sqlite3.connect(journal)
    database.execute("CREATE TABLE tdns_schema(version INTEGER NOT NULL)")
    database.execute("INSERT INTO tdns_schema VALUES (?)", (version,))
    columns = ["id INTEGER PRIMARY KEY", *(f"{name} NOT NULL" for name in ("client_id INTEGER", "soa_serial INTEGER", "timestamp TEXT", "record BLOB"))]
    database.execute(f"CREATE TABLE records({', '.join(columns)})")
    database.executemany("INSERT INTO records VALUES (?, ?, ?, ?, ?)", [(*row[:3], stamp, row[3]) for row in rows])
    if version == 2:
        database.execute("CREATE TABLE batches(first INTEGER PRIMARY KEY, count INTEGER NOT NULL)")
        database.executemany("INSERT INTO batches VALUES (?, ?)", batches)
    database.commit()
    database.close()


class History:
    """A drawn journal: its origin, rows and batches."""

    def __init__(self, number_, seed):
        chance = updates.Chance(f"{seed} follow {number_}")
        chance.begin()
        self.origin = chance.origin
        _, zone = updates.a_zone(chance)
        self.rows, self.batches = [], []
        self.add(chance, opening_rows(zone, self.origin))
        for _ in range(chance.randrange(9)):
            zone, rows = self.changed(chance, zone)
            if rows:
                self.add(chance, rows)
        self.zone, self.name = zone, updates.name_text(chance.spelled(self.origin))

    def changed(self, chance, zone):
        """The zone after one more update, and the rows of it; now and then these begin the zone anew, with other rows before it or none."""
        makers = [updates.put_records, updates.deleting_records, updates.ordered_records]
        records = [one for _ in range(chance.choice([1, 1, 1, 2, 3])) for one in chance.choice(makers)(chance, zone)]
        records, after, _ = batch(zone, self.origin, [one for one in records if prescan(one, self.origin)[0] is None])
        if chance.random() < 0.06:
            before = rows_of(records, serial_of(after))
            anew = opening_rows(after, self.origin)
            return after, before + anew if before and chance.random() < 0.5 else anew
        return after, rows_of(records, serial_of(after))

    def add(self, chance, rows):
        first, client = len(self.rows) + 1, chance.choice(CLIENTS)
        self.rows += [(place, client, serial, row) for place, (serial, row) in enumerate(rows, first)]
        self.batches.append((first, len(rows)))

    def write(self, journal, _folder):
        write(journal, self.rows, self.batches)


class Served:
    """The same of a journal that the server writes."""

    def __init__(self, number_, seed):
        history = audits.History(number_, seed)
        self.origin, self.name, self.write = history.origin, history.name, history.write
        self.rows = [(place, 0, *row) for place, row in enumerate(history.rows, 1)]
        ends = [0, *(length for length, _ in history.ends)]
        self.batches = [(begin + 1, end - begin) for begin, end in zip(ends, ends[1:])]


# What is drawn of frames.


def lost(chance, frames, _):
    return [one for one in frames if chance.random() < chance.choice([0.5, 0.9, 0.9])]


def one_lost(chance, frames, _):
    place = chance.randrange(len(frames) + 1)
    return frames[:place] + frames[place + 1 :]


def repeated(chance, frames, _):
    return [one for one in frames for _ in range(chance.choice([1, 1, 1, 2, 3]))]


def reordered(chance, frames, _):
    return chance.sample(frames, len(frames))


def neighbours_turned(chance, frames, _):
    frames = list(frames)
    for place in range(0, len(frames) - 1, 2):
        if chance.random() < 0.3:
            frames[place : place + 2] = frames[place + 1], frames[place]
    return frames


def joined(chance, frames, _):
    """A part, and then one that begins elsewhere."""
    return frames[: chance.randrange(len(frames) + 1)] + frames[chance.randrange(len(frames) + 1) :]


def others(chance, frames, other):
    """Frames of another journal behind these, before them, or from one of them on."""
    place = chance.randrange(len(frames) + 1)
    return chance.choice([frames + other, other + frames, frames[:place] + other[place:], other[:place] + frames[place:]])


def damaged(chance, frames, _):
    """One frame that is not as it was, or one more."""
    if not frames:
        return [chance.choice([b"\0\0", number(16, 2) + bytes(16)])]
    place = chance.randrange(len(frames))
    return [*frames[:place], *damages(chance, frames[place]), *frames[place + 1 :]]


def damages(chance, one):
    """What a frame is made to."""
    found = carried(one[2:])
    if isinstance(found, str):
        return [one]
    row, mark = found
    id_, client, serial, data = row
    record, _ = read_record(data, 0)
    payload = one[2:]
    bits = bytearray(payload)
    bits[chance.randrange(len(bits))] ^= 1 << chance.randrange(8)
    outside = Record((b"example", b"org"), record.kind, record.klass, record.ttl, record.data)
    named = chance.choice([NS, MX])  # a record whose data is its owner by a pointer (RFC 1035 4.1.4)
    pointing = name_bytes(record.name) + number(named, 2) + number(IN, 2) + bytes([0, 0, 0, 60, 0, 2 * named - 2 if named == NS else 4])
    pointing += (b"\0\5" if named == MX else b"") + b"\xc0\0"
    made = [
        payload[: chance.randrange(18)], frame((0, client, serial, data), mark)[2:],
        frame((chance.choice([2**63, 2**64 - 1]), client, serial, data), mark)[2:], frame((2**63 - 1, client, serial, data), mark)[2:],
        frame(row, chance.choice([2, 3, 255]))[2:], payload + bytes(chance.randrange(1, 3)), payload[:-1], payload[:17],
        frame((id_, client ^ 1, serial, data), mark)[2:], frame((id_, client, serial ^ 1, data), mark)[2:],
        frame((id_ + chance.choice([1, 2]), client, serial, data), mark)[2:], frame(row, 1 - mark)[2:],
        frame((id_, client, serial, record_bytes(outside)), mark)[2:], frame((id_, client, serial, pointing), mark)[2:], bytes(bits),
        frame((id_, client, serial, record_bytes(Record(record.name, AXFR, IN, 0, ()))), mark)[2:],
        frame((id_, client, serial, record_bytes(record._replace(name=tuple(label.upper() for label in record.name)))), mark)[2:],
    ]  # fmt: skip
    changed = chance.choice(made)
    frames = [number(len(changed), 2) + changed]
    return chance.choice([frames, frames, frames, [one] + frames, frames + [one]])


def without_an_soa(chance, frames, _):
    """The front of a batch that begins the zone, as far as its SOA does not stand in it."""
    kept = []
    for one in frames:
        row, mark = carried(one[2:])
        if read_record(row[3], 0)[0].kind == SOA:
            break
        kept.append(frame(row, 0))
    return kept[:-1] + [frame(carried(kept[-1][2:])[0], 1)] if kept else frames


WAYS = [lost, one_lost, one_lost, repeated, reordered, neighbours_turned, joined, joined, others, damaged, damaged, damaged, damaged]


def drawn(chance, frames, other, length):
    """The bytes that one run of a follower with so many rows gets, and how they end."""
    begin = chance.choice([0, 0, 0, length, length, chance.randrange(len(frames) + 1)])
    kept = frames[begin:]
    if length == 0 and chance.random() < 0.05:
        kept = without_an_soa(chance, frames, other)
    for way in chance.choices(WAYS, k=chance.choice([0, 1, 1, 1, 2])):
        kept = way(chance, kept, other)
    how = chance.random()
    if how < 0.25 and kept:
        place = chance.randrange(len(kept))
        return b"".join(kept[:place]) + kept[place][: chance.randrange(1, len(kept[place]))], "feed cut within a frame"
    if how < 0.4:
        kept = kept[: chance.randrange(len(kept) + 1)]
    return b"".join(kept), "feed cut between frames" if kept else "feed without a frame"
