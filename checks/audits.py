#!/usr/bin/env python3
"""Runs the built auditor over journals in files that the built server wrote, and compares what it tells with plain models.

Many journals of updates are drawn by updates.py and followed by update_model.py. At the end of each batch, at some rows between and
behind the last, the auditor's zone has to be the model's, as a text that is printed here by RFC 1035 5.1, RFC 3597 5 and RFC 4291 2.2; the
batches have to be the model's; and the journal of one batch that the auditor makes has to stand for the same zone, for the auditor, for
Python's sqlite3 and for the server that goes on with it.

Zones with every type, with any byte in names and strings, are printed for the programs of others, which have to read the records that were
drawn: named-checkzone, kzonecheck, nsd-checkzone, ldns-read-zone and dnspython, each skipped with a line where it is not installed.

Then words that are no command; files that are damaged, of another version or no journal; one file as both journals; an output that is
full; files for which there is no room, and runs that are stopped before each of their calls that change a file; and a journal that the
server holds, or that the auditor holds when the server comes.

  audits.py [COUNT [SEED]]  that many journals of updates, or 500; the same ones for the same seed

Uses the standard library, and loopback alone. Each run of a program is bounded in time.
"""

import io
import ipaddress
import os
import random
import resource
import shutil
import subprocess
import sys
import tempfile
from collections import Counter
from concurrent.futures import ProcessPoolExecutor
from pathlib import Path

try:
    import sqlite3  # noqa: F401
except ImportError:
    print("audits: skipped, Python has no module sqlite3")
    sys.exit(0)

import clients
import journals
import kit
import migrations
import reasons
import traced
import updates
import wire
import zone_texts
from update_model import A, AAAA, CNAME, DS, IN, MX, NS, PTR, SOA, SRV, TXT, Record, Server
from update_model import data_bytes, folded, name_bytes, number, opening_rows, replay, serial_of

TOP = Path(__file__).resolve().parent.parent
PROGRAM = kit.called("dns-audit")
COUNT, SEED = 500, 1035
ZONES = 60  # for the programs of others
BOUND = 60  # seconds
SERVED = 300  # updates that the server takes while the auditor comes
PLAIN = b"abcdefghijklmnopqrstuvwxyz0123456789-_*"
NAMES = updates.NAMES
ORIGIN = journals.ORIGIN
EXAMPLE = TOP / "examples" / "example.com.zone"
PYTHONS = "/usr/lib/python3/dist-packages"  # where a system keeps dnspython


def audit(*words, journal=None, into=None, program=PROGRAM, **how):
    """The auditor's status, its output and what it says on standard error, but for the line that is due where words are refused."""
    command = [program, *words, *([f"--journal={journal}"] if journal else []), *([f"--into={into}"] if into else [])]
    done = subprocess.run(command, stdin=subprocess.DEVNULL, capture_output=True, timeout=BOUND, **how)
    told = reasons.beside(1, done.stderr) if done.returncode == 1 else done.stderr
    return done.returncode, done.stdout.decode("ascii", "replace"), told.decode("ascii", "replace")


# A zone as it is due to be printed.


def label_text(label):
    return "".join(chr(byte) if byte in PLAIN else f"\\{byte:03}" for byte in label) + "."


def name_text(name):
    return "".join(map(label_text, name)) or "."


def string_text(string):
    shown = (chr(byte) if 32 <= byte <= 126 and byte not in b'"\\' else f"\\{byte:03}" for byte in string)
    return '"' + "".join(shown) + '"'


def strings_of(data):
    """The strings that stand one behind the other, each behind its length."""
    while data:
        yield data[1 : 1 + data[0]]
        data = data[1 + data[0] :]


def data_text(record):
    kind, data = record.kind, record.data
    if kind == A:
        return ".".join(map(str, data[0]))
    if kind == AAAA:
        return ":".join(f"{int.from_bytes(data[0][place : place + 2], 'big'):x}" for place in range(0, 16, 2))
    if kind in (NS, CNAME, PTR):
        return name_text(data[0])
    if kind in (MX, SRV):
        return f"{updates.numbers_text(data[0], 2)} {name_text(data[1])}"
    if kind == SOA:
        return f"{name_text(data[0])} {name_text(data[1])} {updates.numbers_text(data[2], 4)}"
    if kind == TXT:
        return " ".join(map(string_text, strings_of(data[0])))
    return f"\\# {len(data[0])} {data[0].hex()}"


def line(record):
    return f"{name_text(record.name)} {record.ttl} IN {NAMES.get(record.kind, f'TYPE{record.kind}')} {data_text(record)}\n"


def printed(zone, length):
    return "".join(map(line, zone)) + f"; length {length} serial {serial_of(zone)}\n"


# Journals of updates.


class History:
    """A drawn zone and updates of it, as the model does them: its rows, and its zone and length after each batch."""

    def __init__(self, number_, seed):
        self.case = updates.Case(number_, seed)
        self.events = [event for event in self.case.events if event["kind"] == "D"]
        server = self.case.server()
        self.origin, self.ends = self.case.origin, [(len(server.rows), server.zone)]
        for event in self.events:
            server.settle(event["piece"], event["peer"], True)
            if len(server.rows) > self.ends[-1][0]:
                self.ends.append((len(server.rows), server.zone))
        self.rows, self.zone = server.rows, server.zone
        self.name = self.case.words[1]

    def write(self, journal, folder):
        """Has the server write the journal; what is wrong with that."""
        text = Path(folder, "text")
        text.write_text(self.case.text, encoding="ascii")
        status, _ = journals.run(self.case.words, journal, self.events, text)
        return f"the server ends with status {status}" if status else None

    def batches(self):
        """The lines of the batches."""
        lines, first = [], 1
        for length, _ in self.ends:
            lines.append(f"batch {first} {length + 1 - first} serial {self.rows[first - 1][0]} client 0\n")
            first = length + 1
        return "".join(lines)

    def due(self, length):
        """What is due of the zone at a length that ends no batch."""
        if length > len(self.rows):
            return 12, f"short {len(self.rows)}\n"
        found = replay(self.origin, self.rows[:length])
        if isinstance(found, tuple):
            return 5, f"journal row {found[0]}: {found[1]}\n"
        return 0, printed(found, length)


def told_other(what, got, due):
    """How an answer that is not the due one is told."""
    return f"{what}: status {got[0]} where {due[0]} is due\ndue:\n{due[1]}got:\n{got[1]}{got[2]}"


def compared(history, journal, chance):
    """What is wrong with the zones and the batches of a journal; none where nothing is."""
    wanted = [(length, (0, printed(zone, length))) for length, zone in history.ends]
    others = [len(history.rows) + 1, *chance.choices([0, 1, 2**32, 2**63, 2**64 - 1, *range(1, len(history.rows))], k=3)]
    ended = {length for length, _ in history.ends}
    wanted += [(length, history.due(length)) for length in others if length not in ended]
    for length, due in wanted:
        got = audit("zone", history.name, str(length), journal=journal)
        if got != (*due, ""):
            return told_other(f"the zone at length {length}", got, due)
    got, due = audit("list", history.name, journal=journal), (0, history.batches())
    return None if got == (*due, "") else told_other("the batches", got, due)


def names_in(zone):
    """The names of a zone, and one below each."""
    names = list(dict.fromkeys(record.name for record in zone))
    return names + [(b"q", *name) for name in names if len(name_bytes(name)) < 254]


def gone_on(history, into, seed):
    """What is wrong with the server as it goes on with a journal of one batch, where it is asked for the whole zone; none where nothing is."""
    chance = updates.Chance(seed)
    chance.origin, chance.below = history.origin, names_in(history.zone)
    messages = updates.closing_messages(chance, history.zone)
    events = [{"kind": "D", "at": 0, "peer": updates.SAFE, "piece": message} for message in messages]
    lines = journals.Due(Server(history.origin, history.zone, True)).lines(events)
    got = journals.run(["events", history.name, "--update"], into, events)
    return None if got == (0, lines) else told_other("the server goes on", (*got, ""), (0, lines))


def compacted(history, journal, folder, seed):
    """What is wrong with the journal of one batch that is made of another; none where nothing is."""
    into, rows = Path(folder, "into"), opening_rows(history.zone, history.origin)
    got, due = audit("compact", history.name, journal=journal, into=into), (0, f"rows {len(rows)}\n")
    if got != (*due, ""):
        return told_other("the journal of one batch", got, due)
    found = journals.stored(into)
    if [row[:3] + row[4:] for row in found] != [(place, 0, serial, row) for place, (serial, row) in enumerate(rows, 1)]:
        return f"the journal of one batch has other rows: {found}"
    if len({row[3] for row in found}) != 1 or not journals.is_now(found[0][3]):
        return f"the journal of one batch is of another moment: {found[0][3]}"
    if journals.batches_in(into) != [(1, len(rows))]:
        return f"the journal of one batch has others: {journals.batches_in(into)}"
    got, due = audit("zone", history.name, str(len(rows)), journal=into), (0, printed(history.zone, len(rows)))
    if got != (*due, ""):
        return told_other("the zone of the journal of one batch", got, due)
    before = journals.content(into)
    got, due = audit("compact", history.name, journal=journal, into=into), (13, "not empty\n")
    if got != (*due, "") or journals.content(into) != before:
        return told_other("a journal that has rows", got, due)
    return gone_on(history, into, seed)


def audited(numbered):
    """What is wrong with the audit of one journal of updates; none where nothing is."""
    number_, seed = numbered
    history, seed = History(number_, seed), f"{seed} audit {number_}"
    with tempfile.TemporaryDirectory(dir=in_memory()) as folder:
        journal = Path(folder, "journal")
        wrong = history.write(journal, folder)
        before = None if wrong else journals.stored(journal)
        wrong = wrong or compared(history, journal, random.Random(seed)) or compacted(history, journal, folder, seed)
        if not wrong and journals.stored(journal) != before:
            wrong = "the journal was changed"
    return f"journal {number_}: {wrong}" if wrong else None


def in_memory():
    """A folder whose files are kept in memory, where there is one."""
    return "/dev/shm" if os.path.isdir("/dev/shm") else None


# The programs of others.


MARKS = b"aZ09-_*. \\;()@#\x00\x09\x7f\xc3\xa9\xff'&,:="


class Words(random.Random):
    """Zones by chance, with every type, and with any byte in names and strings. Those for ldns-read-zone (is_for_ldns) have no long labels."""

    def label(self, is_short):
        kind = self.random()
        if kind < 0.5:
            return self.choice([b"www", b"a", b"b", b"ns1", b"_sip", b"x-y", b"0", b"mail", b"xn--4ca"])
        if kind < 0.9 or is_short:
            return bytes(self.choices(MARKS if is_short else MARKS + b'"$', k=self.randrange(1, 6)))
        return self.randbytes(self.choice([1, 2, 62, 63]))

    def name(self, origin):
        labels = tuple(self.label(self.is_short) for _ in range(self.choice([0, 1, 1, 1, 2, 3])))
        if self.random() < 0.1:
            labels = (b"*", *labels)
        name = folded((*labels, *origin))
        return name if len(name_bytes(name)) <= 255 else origin

    def strings(self):
        sizes = self.choices([0, 1, 3, 20, 255], [2, 4, 4, 4, 1], k=self.choice([1, 1, 2, 3]))
        strings = [bytes(self.choices(range(256) if self.random() < 0.5 else b'aZ 09.;"\\()$@', k=size)) for size in sizes]
        return b"".join(bytes([len(string)]) + string for string in strings)

    def data(self, kind, origin):
        if kind == A:
            return (self.randbytes(4),)
        if kind == AAAA:
            return (b"".join(self.choice([b"\0\0", b"\0\0", b"\0\1", b"\0\x10", b"\1\0", self.randbytes(2)]) for _ in range(8)),)
        if kind in (CNAME, PTR):
            return (self.name(self.choice([origin, origin, ORIGIN, ()])),)
        if kind == NS:  # of a name outside, since others want the addresses of one inside
            return (self.name((b"example", b"net")),)
        if kind in (MX, SRV):
            return self.randbytes(2 if kind == MX else 6), self.name(self.choice([origin, origin, ()]))
        if kind == TXT:
            return (self.strings(),)
        known = KNOWN.get(kind)
        return (self.choice(known) if known else self.randbytes(self.choice([1, 2, 16, 300])),)

    def zone(self, kinds):
        """An origin, and the records of a zone of it."""
        self.is_short = self.random() < 0.5
        origin = self.choice([ORIGIN, ORIGIN, (b"z",), (b"a-b", b"_x", b"\xe9t\xe9", b"test"), (b"2", b"0", b"192", b"in-addr", b"arpa")])
        timers = number(self.choice([0, 1, 2**31, 2**32 - 1]), 4) + b"".join(number(self.randrange(1, 2**31), 4) for _ in range(4))
        soa = Record(origin, SOA, IN, self.randrange(2**31), (self.name(origin), self.name(origin), timers))
        zone = {(origin, SOA): [soa], (origin, NS): [Record(origin, NS, IN, 60, ((b"ns", b"example"),))]}
        for _ in range(self.randrange(5, 40)):
            name, kind = self.name(origin), self.choice(kinds)
            owned = [other for owner, other in zone if owner == name]
            is_alone = kind == CNAME and owned or CNAME in owned
            # Others refuse an NS of a wildcard, and a DS of the origin.
            is_refused = kind == NS and b"*" in name or name == origin and kind in (NS, CNAME, DS)
            if is_alone or is_refused:
                continue
            ttl = self.choice([0, 60, 2**31 - 1])
            data = dict.fromkeys(self.data(kind, origin) for _ in range(1 if kind == CNAME else self.randrange(1, 4)))
            zone[name, kind] = [Record(name, kind, IN, ttl, one) for one in data]
        records = [record for records in zone.values() for record in records]
        self.shuffle(records)
        return origin, records

    def spelled(self, text):
        """A name's text; one without escapes now and then with large letters, and with bytes by their numbers."""
        if "\\" in text or self.random() < 0.7:
            return text
        return "".join(one if one == "." else self.choice([one.upper(), one, one, f"\\{ord(one):03}"]) for one in text)

    def line(self, record):
        """A line of zone text that stands for a record."""
        given = data_text(record)
        if record.kind == AAAA:
            address = ipaddress.IPv6Address(record.data[0])
            mixed = f"{ipaddress.IPv6Address(record.data[0][:12] + bytes(4)).exploded[:-9]}{ipaddress.IPv4Address(record.data[0][12:])}"
            given = self.choice([address.compressed, address.exploded, address.exploded.upper(), mixed, given])
        if record.kind in (NS, CNAME, PTR):
            given = self.spelled(given)
        mnemonic = NAMES.get(record.kind, f"TYPE{record.kind}")
        return f"{self.spelled(name_text(record.name))} {record.ttl} IN {mnemonic} {given}\n"


KNOWN = {  # data of types that others know, and the server does not
    13: [b"\3cpu\2os", b"\0\0"],
    35: [number(100, 2) + number(10, 2) + b"\1S\7SIP+D2U\0" + name_bytes((b"_sip", b"_udp", b"example", b"net"))],
    DS: [number(60485, 2) + bytes([5, 1]) + bytes(range(20)), number(1, 2) + bytes([8, 2]) + bytes(range(32))],
    44: [bytes([2, 1]) + bytes(range(20))],
    52: [bytes([3, 1, 1]) + bytes(range(32))],
    257: [bytes([0, 5]) + b"issueca.example.net", bytes([128, 3]) + b"tbsUnknown"],
}
OWN = [A, A, AAAA, AAAA, NS, CNAME, PTR, MX, TXT, TXT, TXT, SRV, SRV]
FOREIGN = [65_280, 65_281, 65_534, 1_000, 4_711]


def keys(records):
    """Records as a set: owner, TTL, type and data in bytes."""
    return {(record.name, record.ttl, record.kind, data_bytes(record)) for record in records}


def by_reader(text, origin):
    """The records of a text, by the plain reader of zone texts."""
    found = zone_texts.read(text, origin)
    return set(found) if isinstance(found, list) else found


def python_zones():
    """dnspython's module of zones, or none."""
    if PYTHONS not in sys.path:
        sys.path.append(PYTHONS)
    try:
        import dns.name
        import dns.zone
    except ImportError:
        return None
    return dns.zone


def by_dnspython(text, origin):
    """The records of a text, by dnspython."""
    zones = python_zones()
    try:
        zone = zones.from_text(text.decode("ascii"), origin=name_text(origin), relativize=False)
    except Exception as fault:  # noqa: BLE001: what it raises is its answer
        return f"{type(fault).__name__}: {fault}"
    found = set()
    for name, ttl, rdata in zone.iterate_rdatas():
        file = io.BytesIO()
        rdata.to_wire(file)
        found.add((folded(name.labels[:-1]), ttl, int(rdata.rdtype), file.getvalue()))
    return found


def ran(command, **how):
    done = subprocess.run(command, stdin=subprocess.DEVNULL, capture_output=True, timeout=BOUND, **how)
    return done.returncode, done.stdout, done.stdout + done.stderr


LENIENT = [word for option in "ikmMnrSTW" for word in (f"-{option}", "none" if option == "i" else "ignore")]
# how each program is asked, and whether it writes the zone that it read
READERS = {
    "named-checkzone": (lambda name, file: ["named-checkzone", *LENIENT, "-D", "-q", "-s", "full", "-o", "-", name, file], True),
    "ldns-read-zone": (lambda name, file: ["ldns-read-zone", file], True),
    "kzonecheck": (lambda name, file: ["kzonecheck", "-o", name, file], False),
    "nsd-checkzone": (lambda name, file: ["nsd-checkzone", name, file], False),
}


def names_of(zone):
    """The owners of a zone's records and the names in their data."""
    return {name for record in zone for name in (record.name, *record.data) if isinstance(name, tuple)}


def is_for_ldns(zone):
    """Whether ldns-read-zone takes the names of a zone: it refuses one of more than 255 characters, however many bytes they stand for, and
    takes one whose first label is `@` for the origin. And whether it prints them so that they are read: it leaves the backslash before a
    quote out, and before a dollar sign."""
    names = [(name, b"".join(name)) for name in names_of(zone)]
    return all(len(name_text(name)) <= 255 and name[:1] != (b"@",) and b'"' not in text and text[:1] != b"$" for name, text in names)


def read_by_others(origin, zone, file, is_own):
    """What is wrong with what the programs of others read in a file, none where nothing is; and which of them read it."""
    due, read, readers = keys(zone), by_reader if is_own else by_dnspython, []
    if python_zones():
        readers.append("dnspython")
        found = by_dnspython(file.read_bytes(), origin)
        if found != due:
            return f"dnspython reads {different(found, due)}", readers
    for program, (command, writes) in READERS.items():
        if shutil.which(program) is None or program == "ldns-read-zone" and not is_for_ldns(zone):
            continue
        readers.append(program)
        status, text, told = ran(command(name_text(origin), str(file)))
        if status:
            return f"{program} ends with status {status}: {told.decode(errors='replace')}", readers
        found = read(text, origin) if writes and (is_own or python_zones()) else due
        if found != due:
            return f"{program} reads {different(found, due)}", readers
    return None, readers


def different(found, due):
    return f"not {sorted(due - found)[:2]}, but {sorted(found - due)[:2]}" if isinstance(found, set) else found


def of_every_type(number_, seed):
    """What is wrong with the printed text of a zone with every type, none where nothing is; and which programs read it."""
    chance, is_own = Words(f"{seed} zone {number_}"), number_ % 3 != 0
    origin, zone = chance.zone(OWN + FOREIGN if is_own else OWN + list(KNOWN) * 2)
    with tempfile.TemporaryDirectory(dir=in_memory()) as folder:
        given, journal, file = (Path(folder, name) for name in ("given", "journal", "printed"))
        given.write_text("".join(map(chance.line, zone)), encoding="ascii")
        status, told = journals.run(["events", name_text(origin)], journal, [], given)
        if status:
            return f"zone {number_}: the server ends with status {status}: {told}", []
        length = 1 + len(zone)
        got, due = audit("zone", name_text(origin), str(length), journal=journal), (0, printed(zone, length))
        if got != (*due, ""):
            return told_other(f"zone {number_}", got, due), []
        file.write_text(got[1], encoding="ascii")
        again = Path(folder, "again")
        journals.run(["events", name_text(origin)], again, [], file)
        got = audit("zone", name_text(origin), str(length), journal=again)
        if got != (*due, ""):
            return told_other(f"zone {number_}, read by the server and printed again", got, due), []
        wrong, readers = read_by_others(origin, zone, file, is_own)
    return f"zone {number_}: {wrong}" if wrong else None, readers


def tell_missing():
    for program in [*READERS, *([] if python_zones() else ["dnspython"])]:
        if program == "dnspython" or shutil.which(program) is None:
            print(f"audits: {program} is not installed, skipped")


# Words, rows, and files that are damaged.

NINTH = "serialtest.example.com. 3600 IN A 192.0.2.55\n"
USAGE = (1, "usage\n", "")
NO_COMMANDS = [
    [], ["zone"], ["zone", "example.com."], ["zone", "example.com.", "8", "9"], ["zone", "example.com.", "-1"], ["zone", "example.com.", "+1"],
    ["zone", "example.com.", "08"], ["zone", "example.com.", ""], ["zone", "example.com.", "8 "], ["zone", "example.com.", "0x8"],
    ["zone", "example.com.", "18446744073709551616"], ["zone", "example..com.", "8"], ["zone", "", "8"], ["zone", "8", "example.com."],
    ["Zone", "example.com.", "8"], ["list"], ["list", "example.com.", "8"], ["list", "example.com.", "--into=@"], ["list", "a" * 64],
    ["list", "example.com.", "--journal="], ["list", "example.com.", "--journal=@", "--journal=@"], ["list", "--journal=@", "example.com."],
    ["compact"], ["compact", "example.com.", "--into=@", "--journal=@"], ["compact", "example.com.", "--journal=@", "--into="],
    ["compact", "example.com.", "--journal=@", "--into=@", "--into=@"], ["compact", "example.com.", "@"], ["compact", "example.com.", "--zone=@"],
    ["zone", "example.com.", "8", "--into=@"], ["zone", "--journal=@", "example.com.", "8"], ["list", "example.com.", "--help"],
    ["lists", "example.com."], ["help"], ["--version", "--help"], [b"list", b"\xff"], [b"list", b"example.com.", b"--journal=\xff"],
]  # fmt: skip


def words_and_rows(folder):
    """What is wrong with the words of the command line and the worked rows, one after the other."""
    journal, zone, into = (Path(folder, name) for name in ("journal", "zone", "into"))
    untouched = Path(folder, "untouched")
    for words in NO_COMMANDS:
        at = bytes(untouched) if words and isinstance(words[0], bytes) else str(untouched)
        given = [word.replace(b"@" if isinstance(word, bytes) else "@", at) for word in words]
        yield f"the words {words}", audit(*given), USAGE
    yield "words that are no command open no file", untouched.exists(), False
    version = (TOP / "crates" / "dns_audit" / "src" / "help.rt").read_text(encoding="utf-8").split('VERSION: &str = "')[1].split("\\n")[0]
    yield "--version", audit("--version"), (0, version + "\n", "")
    status, text, told = audit("--help")
    yield "--help", (status, all(word in text for word in ("zone ", "list ", "compact ", "--journal=", "--into=")), told), (0, True, "")
    yield "the batches of a journal in memory", audit("list", "example.com."), (0, "", "")
    yield "its zone", audit("zone", "example.com.", "0"), (5, "journal row 0: not one SOA\n", "")
    yield "its zone of one row", audit("zone", "example.com.", "1"), (12, "short 0\n", "")
    yield "its journal of one batch", audit("compact", "example.com."), (5, "journal row 0: not one SOA\n", "")
    empty = Path(folder, "empty")
    empty.touch()
    yield "the batches of an empty file", audit("list", "example.com.", journal=empty), (0, "", "")
    journals.nine_rows(journal, zone)
    first = EXAMPLE.read_text(encoding="ascii")
    yield "the zone of eight rows", audit("zone", "example.com.", "8", journal=journal), (0, first + "; length 8 serial 7\n", "")
    second = first.replace(" 7 3600", " 8 3600") + NINTH
    yield "the zone of nine rows", audit("zone", "example.com.", "9", journal=journal), (0, second + "; length 9 serial 8\n", "")
    yield "the zone of ten rows", audit("zone", "Example.COM", "10", journal=journal), (12, "short 9\n", "")
    yield "the zone of four rows", audit("zone", "example.com.", "4", journal=journal), (0, "".join(first.splitlines(True)[:3]) + "; length 4 serial 7\n", "")
    yield "another zone's", audit("zone", "example.org.", "9", journal=journal), (5, "journal row 1: row out of place\n", "")
    batches = "batch 1 8 serial 7 client 0\nbatch 9 1 serial 8 client 0\n"
    yield "the batches of nine rows", audit("list", "example.com.", journal=journal), (0, batches, "")
    yield "without a journal to write", audit("compact", "example.com.", journal=journal), (0, "rows 9\n", "")
    yield "the journal of one batch", audit("compact", "example.com.", journal=journal, into=into), (0, "rows 9\n", "")
    before = journals.content(into)
    yield "and again", audit("compact", "example.com.", journal=journal, into=into), (13, "not empty\n", "")
    yield "which changes nothing", journals.content(into), before
    yield "its batches", audit("list", "example.com.", journal=into), (0, "batch 1 9 serial 8 client 0\n", "")
    yield "its zone", audit("zone", "example.com.", "9", journal=into), (0, second + "; length 9 serial 8\n", "")
    yield "the server on it", journals.run(["events", "example.com."], into, []), (0, "serial 8\njournal_len 9\nopen 0\n")


def eight_rows(journal, zone):
    """A journal of an opening of eight rows, in the file itself."""
    zone.write_bytes(EXAMPLE.read_bytes())
    journals.begin(journal, zone)


def edited(*statements, make=journals.nine_rows):
    """Makes a journal that another hand has changed."""

    def making(journal, zone):
        make(journal, zone)
        journals.spoil(journal, *statements)
        journals.spoil(journal, "PRAGMA wal_checkpoint(TRUNCATE)")

    making.__name__ = "; ".join(statements)
    return making


def record_of(text):
    return f"x'{wire.record_bytes(text).hex()}'"


def row_nine_is(text):
    return edited(f"UPDATE records SET record = {record_of(text)} WHERE id = 9")


CUT = edited("UPDATE records SET record = substr(record, 1, length(record) - 1) WHERE id = 5")
KEEPER, OUT_OF_PLACE = (8, "keeper fault\n"), "row out of place"
WHOLE = "batch 1 8 serial 7 client 0\nbatch 9 1 serial 8 client 0\n"
# How a journal is made, the words, and what is due of them; where no output is given, that of the sound journal.
DAMAGED = [
    (CUT, ["zone", "4"], (0, None)),
    (CUT, ["zone", "5"], (5, "journal row 5: row is no record\n")),
    (CUT, ["zone", "9"], (5, "journal row 5: row is no record\n")),
    (CUT, ["zone", "10"], (12, "short 9\n")),
    (CUT, ["list"], (5, "journal row 5: row is no record\n")),
    (CUT, ["compact"], (5, "journal row 5: row is no record\n")),
    (edited("UPDATE records SET record = CAST(record || x'00' AS BLOB) WHERE id = 9"), ["zone", "9"], (5, "journal row 9: row is no record\n")),
    (edited("UPDATE records SET soa_serial = 4294967296 WHERE id = 9"), ["zone", "9"], (5, f"journal row 9: {OUT_OF_PLACE}\n")),
    (edited("UPDATE records SET soa_serial = -1 WHERE id = 9"), ["compact"], (5, f"journal row 9: {OUT_OF_PLACE}\n")),
    (edited("UPDATE records SET soa_serial = 'x' WHERE id = 9"), ["zone", "8"], (0, None)),
    (edited("UPDATE records SET soa_serial = 'x' WHERE id = 9"), ["zone", "9"], KEEPER),
    (edited("UPDATE records SET client_id = x'00' WHERE id = 2"), ["list"], KEEPER),
    (edited("UPDATE records SET client_id = 7 WHERE id = 9"), ["list"], (0, WHOLE[:-2] + "7\n")),
    (edited("UPDATE records SET client_id = -1 WHERE id = 9"), ["list"], (0, WHOLE[:-2] + "-1\n")),
    (edited("UPDATE records SET client_id = 7 WHERE id = 5"), ["list"], (5, "journal row 1: batch out of place\n")),
    (edited("UPDATE records SET record = 'text' WHERE id = 2"), ["compact"], KEEPER),
    (edited("DELETE FROM records WHERE id = 1"), ["zone", "1"], (5, f"journal row 2: {OUT_OF_PLACE}\n")),
    (edited("DELETE FROM records WHERE id = 4"), ["zone", "8"], (5, f"journal row 5: {OUT_OF_PLACE}\n")),
    (edited("DELETE FROM records WHERE id = 4"), ["zone", "9"], (12, "short 8\n")),
    (edited("DELETE FROM records WHERE id = 4"), ["compact"], (5, f"journal row 5: {OUT_OF_PLACE}\n")),
    (edited("DELETE FROM records WHERE id = 9"), ["list"], (5, "journal row 9: batch out of place\n")),
    (edited("DELETE FROM batches WHERE first = 9"), ["list"], (5, "journal row 9: batch out of place\n")),
    (edited("DELETE FROM batches WHERE first = 9"), ["zone", "9"], (0, None)),
    (edited("DELETE FROM batches"), ["compact"], (0, "rows 9\n")),
    (edited("DELETE FROM batches", "DELETE FROM records"), ["list"], (0, "")),
    (edited("DELETE FROM batches", "DELETE FROM records"), ["compact"], (5, "journal row 0: not one SOA\n")),
    (edited("DELETE FROM records"), ["list"], (5, "journal row 1: batch out of place\n")),
    (edited("UPDATE batches SET first = 10 WHERE first = 9"), ["list"], (5, "journal row 9: batch out of place\n")),
    (edited("UPDATE batches SET count = 'x' WHERE first = 9"), ["list"], KEEPER),
    (row_nine_is("alias.example.com. 60 IN A 192.0.2.9"), ["zone", "9"], (14, "alias beside other\n")),
    (row_nine_is("alias.example.com. 60 IN A 192.0.2.9"), ["zone", "8"], (0, None)),
    (row_nine_is("alias.example.com. 60 IN A 192.0.2.9"), ["zone", "10"], (12, "short 9\n")),
    (row_nine_is("www.example.com. 60 IN CNAME example.org."), ["zone", "9"], (14, "alias beside other\n")),
    (row_nine_is("www.example.org. 60 IN A 192.0.2.9"), ["zone", "9"], (5, f"journal row 9: {OUT_OF_PLACE}\n")),
    (row_nine_is("alias.example.com. 60 IN A 192.0.2.9"), ["list"], (0, WHOLE)),
]


def damaged(make, words, due):
    """What is wrong with what is told of a journal that another hand has changed; none where nothing is."""
    with tempfile.TemporaryDirectory(dir=in_memory()) as folder:
        journal, zone, into, sound = (Path(folder, name) for name in ("journal", "zone", "into", "sound"))
        make(journal, zone)
        before, command = journals.content(journal), [words[0], "example.com.", *words[1:]]
        if due[1] is None:
            journals.nine_rows(sound, zone)
            due = audit(*command, journal=sound)[:2]
        got = audit(*command, journal=journal, into=into if words[0] == "compact" else None)
        if got != (*due, ""):
            return told_other(f"{make.__name__}, {' '.join(words)}", got, due)
        if journals.content(journal) != before:
            return f"{make.__name__}, {' '.join(words)}: the file was changed"
        if words[0] == "compact" and due[0] and journals.stored(into):
            return f"{make.__name__}, {' '.join(words)}: rows were written"
    return None


def refused_as_by_the_server(make, status, told, why=""):
    """What is wrong with how a file is refused that the server refuses too; none where nothing is."""
    with tempfile.TemporaryDirectory(dir=in_memory()) as folder:
        journal, zone, into = (Path(folder, name) for name in ("journal", "zone", "into"))
        zone.write_text(journals.ZONE, encoding="ascii")
        make(journal, zone)
        before, due = journals.content(journal), (status, told + "\n", f"dns-audit: {journal}: {why}\n" if why else "")
        got = audit("list", "example.com.", journal=journal)
        if got != due:
            return told_other(f"{make.__name__}, list", got, due)
        if why:
            got = audit("compact", "example.com.", journal=journal, into=into)
            if got != due or journals.stored(into):
                return told_other(f"{make.__name__}, compact", got, due)
            got = audit("compact", "example.com.", into=journal)
            if got != due:
                return told_other(f"{make.__name__}, compact into it", got, due)
        if journals.content(journal) != before:
            return f"{make.__name__}: the file was changed"
    return None


# Outputs and files that take nothing, and files that two programs want.


def outputs(folder):
    """What is wrong where the output takes nothing, or the files are one."""
    journal, zone, into = (Path(folder, name) for name in ("journal", "zone", "into"))
    journals.nine_rows(journal, zone)
    before = journals.content(journal)
    for place, words in enumerate((["zone", "example.com.", "9"], ["list", "example.com."], ["compact", "example.com."], ["zone", "example.com.", "10"], ["--help"])):
        with open("/dev/full", "wb") as full:
            files = [] if words[0] == "--help" else [f"--journal={journal}"]
            files += [f"--into={into}{place}"] if words[0] == "compact" else []
            done = subprocess.run([PROGRAM, *words, *files], stdin=subprocess.DEVNULL, stdout=full, stderr=subprocess.PIPE, timeout=BOUND)
        yield f"{' '.join(words)}, onto a full disk", (done.returncode, done.stderr), (7, b"")
    yield "the journal of one batch is whole, though it could not be told", len(journals.stored(f"{into}2")), 9
    same = audit("compact", "example.com.", journal=journal, into=journal)
    yield "one file as both", same, (8, "keeper fault\n", f"dns-audit: {journal}: this is the journal that is read\n")
    link = Path(folder, "link")
    link.symlink_to(journal)
    linked = audit("compact", "example.com.", journal=journal, into=link)
    yield "one file as both, by a link", linked, (8, "keeper fault\n", f"dns-audit: {link}: this is the journal that is read\n")
    yield "nothing is lost", journals.content(journal), before
    for missing in (Path(folder, "missing"), Path(folder, "no", "journal")):
        due = (8, "keeper fault\n", f"dns-audit: {missing}: No such file or directory (os error 2)\n")
        yield "no such file", (audit("list", "example.com.", journal=missing), missing.exists()), (due, False)
    nowhere = Path(folder, "no", "into")
    yield "no folder", audit("compact", "example.com.", journal=journal, into=nowhere), (8, "keeper fault\n", f"dns-audit: {nowhere}: sqlite error\n")


def read_only(folder):
    """What is wrong with a journal that may not be written: it is refused, since it would have to be held."""
    journal, zone, program = (Path(folder, name) for name in ("journal", "zone", "dns-audit"))
    journals.nine_rows(journal, zone)
    shutil.copy(PROGRAM, program)
    journal.chmod(0o444)
    Path(folder).chmod(0o555)
    how = {} if os.getuid() else {"user": migrations.NOBODY, "group": migrations.NOBODY, "extra_groups": []}
    told = audit("zone", "example.com.", "9", journal=journal, program=program, **how)
    yield "a journal that may not be written", told, (8, "keeper fault\n", f"dns-audit: {journal}: sqlite error\n")
    Path(folder).chmod(0o755)


def without_room(folder):
    """What is wrong where files may not grow beyond so many bytes: the journal of one batch is empty or whole."""
    journal, statuses = Path(folder, "journal"), set()
    zone = Path(folder, "zone")
    zone.write_text(journals.ZONE, encoding="ascii")
    journals.run(["events", "example.com.", "--update"], journal, journals.changing_events(600), zone)
    journals.spoil(journal, "PRAGMA wal_checkpoint(TRUNCATE)")
    status, text, _ = audit("compact", "example.com.", journal=journal)
    for room in [*migrations.ROOMS, *range(3_000, 40_000, 1_500)]:
        into = Path(folder, f"into{room}")
        limit = lambda: resource.setrlimit(resource.RLIMIT_FSIZE, (room, room))  # noqa: B023, E731
        got = audit("compact", "example.com.", journal=journal, into=into, preexec_fn=limit, restore_signals=False)[:2]
        statuses.add(got[0])
        version, rows, batches = journals.left(into)
        whole = len(rows) == int(text.split()[1]) and batches == [(1, len(rows))]
        fits = (got == (0, text) and whole) if got[0] == 0 else (got == KEEPER and (whole or not rows and not batches))
        yield f"room for {room} bytes: {got}, version {version}, {len(rows)} rows, batches {batches}", fits, True
    yield "with room and without", (status, statuses), (0, {0, 8})


def stopped(folder):
    """What is wrong where the making of a journal of one batch is stopped before each of its calls that change a file: it is empty or whole,
    and empty it may be used again."""
    journal, told = Path(folder, "journal"), Path(folder, "told")
    if not traced.is_there():
        print("audits: programs cannot be traced here, so none is stopped at its calls")
        return
    journals.nine_rows(journal, Path(folder, "zone"))
    status, count = None, 0
    while status != 0 and count < journals.MOST_CALLS:
        count += 1
        into = Path(folder, f"into{count}")
        with told.open("wb") as output:
            command = [PROGRAM, "compact", "example.com.", f"--journal={journal}", f"--into={into}"]
            status = traced.stopped_before(count, command, stdin=subprocess.DEVNULL, stdout=output)
        _, rows, batches = journals.left(into)
        yield f"stopped before call {count}: {len(rows)} rows, batches {batches}", (len(rows), batches or []) in [(0, []), (9, [(1, 9)])], True
        yield f"its output, stopped before call {count}", told.read_bytes() in (b"", b"rows 9\n") and (len(rows) == 9 or not told.stat().st_size), True
        due = (13, "not empty\n", "") if rows else (0, "rows 9\n", "")
        yield f"once more, stopped before call {count}", audit("compact", "example.com.", journal=journal, into=into), due
    yield "a run is stopped before some calls, and one ends", (status, count > 10), (0, True)


def held_by_the_server(folder):
    """What is wrong while a server holds the journal: the auditor is told so, whatever it asks, and neither loses anything."""
    journal, held = Path(folder, "journal"), (8, "keeper fault\n", f"dns-audit: {Path(folder, 'journal')}: sqlite error\n")
    with clients.Serving("--update", zone=EXAMPLE, journal=journal, workers=4) as server:
        codes = []
        for place, reply in enumerate(clients.in_turn(server.connected, map(clients.added, range(SERVED)))):
            codes.append(reply[3] & 15)
            if place % 10 == 0:
                words = [["zone", "example.com.", "9"], ["list", "example.com."], ["compact", "example.com."]][place // 10 % 3]
                yield f"{' '.join(words)}, while the server takes updates", audit(*words, journal=journal), held
        yield "into it, while it is held", audit("compact", "example.com.", into=journal), held
        yield "the updates", codes, [0] * SERVED
        yield "the server's end", server.stopped()[0], 0
    rows, batches = journals.stored(journal), journals.batches_in(journal)
    due = "".join(f"batch {first} {count} serial {rows[first - 1][2]} client {rows[first - 1][1]}\n" for first, count in batches)
    yield "the batches that were served", audit("list", "example.com.", journal=journal), (0, due, "")
    yield "and their number", (len(rows), len(batches)), (8 + SERVED, 1 + SERVED)
    zone = replay(ORIGIN, [(row[2], row[4]) for row in rows])
    yield "the zone that was served", audit("zone", "example.com.", str(len(rows)), journal=journal), (0, printed(zone, len(rows)), "")


def held_by_the_auditor(folder):
    """What is wrong while the auditor holds the journal, since its output is not taken: the server is told so, and so is another auditor."""
    journal, zone = Path(folder, "journal"), Path(folder, "zone")
    zone.write_text(journals.ZONE + "".join(f"h{place}.example.com. 60 IN A 10.0.{place >> 8}.{place & 255}\n" for place in range(9_000)), encoding="ascii")
    journals.run(["events", "example.com."], journal, [], zone)
    command = [PROGRAM, "zone", "example.com.", "9003", f"--journal={journal}"]
    run = subprocess.Popen(command, stdin=subprocess.DEVNULL, stdout=subprocess.PIPE)
    begun = run.stdout.read(1)
    yield "the server, while the auditor writes", journals.run(["events", "example.com."], journal, []), KEEPER
    yield "another auditor", audit("list", "example.com.", journal=journal)[:2], KEEPER
    text = begun + run.stdout.read()
    yield "the auditor's end", (run.wait(BOUND), text.decode()), (0, zone.read_text(encoding="ascii") + "; length 9003 serial 7\n")
    run.stdout.close()
    yield "the server, afterwards", journals.run(["events", "example.com."], journal, []), (0, "serial 7\njournal_len 9003\nopen 0\n")


PARTS = [words_and_rows, outputs, read_only, without_room, stopped, held_by_the_server, held_by_the_auditor]


def tried(part):
    """What is wrong with one part, and how many runs there were."""
    with tempfile.TemporaryDirectory(dir=in_memory()) as folder:
        runs = list(part(folder))
    return [f"{name}\ndue: {due}\ngot: {got}" for name, got, due in runs if got != due], len(runs)


def main():
    words = [int(word) for word in sys.argv[1:]]
    count, seed = words + [COUNT, SEED][len(words) :]
    for program in (PROGRAM, updates.PROGRAM):
        if not program.exists():
            sys.exit(f"audits.py: {program.name} is not built: run rt ci first")
    tell_missing()
    with ProcessPoolExecutor(os.cpu_count()) as pool:
        wrong = [one for one in pool.map(audited, [(number_, seed) for number_ in range(count)], chunksize=10) if one]
        zones = list(pool.map(of_every_type, range(ZONES), [seed] * ZONES))
    wrong += [one for one, _ in zones if one]
    wrong += [one for one in [*(damaged(*case) for case in DAMAGED), *(refused_as_by_the_server(*case) for case in journals.REFUSALS)] if one]
    runs = count + ZONES + len(DAMAGED) + len(journals.REFUSALS)
    for part in PARTS:
        faults, tries = tried(part)
        wrong, runs = wrong + faults, runs + tries
    readers = Counter(program for _, programs in zones for program in programs)
    print("audits: zones read by " + ", ".join(f"{program} {readers[program]}" for program in sorted(readers)))
    for one in wrong[:5]:
        print(one if len(one) < 4_000 else one[:4_000] + " ..")
    print(f"audits: {runs - len(wrong)} passed, {len(wrong)} failed")
    sys.exit(bool(wrong))


if __name__ == "__main__":
    main()
