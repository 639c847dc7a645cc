#!/usr/bin/env python3
"""Compares the built program with a plain model of dynamic updates (RFC 2136), on many small zones with lists of events.

Each case is a random zone text and 5 to 30 events: updates and queries by datagram and over connections, most with --update. The
whole output is compared with that of the model (update_model.py); which messages a connection completes is told by
connections.py. At the end of each case the rows that the model keeps have to stand for its zone.

  updates.py [COUNT [SEED]]          that many cases, or 2,000; the same ones for the same seed
  updates.py --model [COUNT [SEED]]  the cases by the model alone, without the program; rows are read back after each message
  updates.py --replay NUMBER [SEED]  one case: the words, the zone text, the events, what is due and what the program wrote

At the end stands how often each rule decided. Of 2,000 cases or more, each rule has to decide in some.

Uses the standard library alone, and no network. Each run of the program is bounded in time.
"""

import os
import random
import subprocess
import sys
import tempfile
from collections import Counter
from concurrent.futures import ProcessPoolExecutor
from pathlib import Path

import connections
from update_model import A, AAAA, ANY, AXFR, CNAME, DS, IN, IXFR, META, MX, NONE, NS, OPT, PTR, SOA, SRV, TXT, UPDATE
from update_model import Outside, Record, Server, folded, folded_record, is_zone, name_bytes, number, owns, put, read_message
from update_model import record_bytes, replay, serial_of

PROGRAM = Path(__file__).resolve().parent.parent / "crates" / "dns_program" / "out" / "dns_program"
CASES, SEED = 2_000, 2136
BOUND = 60  # seconds
NAMES = {A: "A", NS: "NS", CNAME: "CNAME", SOA: "SOA", PTR: "PTR", MX: "MX", TXT: "TXT", AAAA: "AAAA", SRV: "SRV"}
PLAIN = [A, AAAA, NS, TXT, MX, PTR, SRV, DS, 127, 256, 65_280]
SERIALS = [0, 1, 7, 2**31 - 1, 2**31, 2**32 - 2, 2**32 - 1]
TTLS = [0, 60, 300, 3_600, 2**31, 2**32 - 1]
SAFE, OTHER = ("7f000001", 53), ("c0000264", 5_353)
UNSAFE = [("7f000001", 0), ("00000000", 53), ("0" * 32, 53), ("ffffffff", 9)]
SOURCES = [SAFE] * 20 + [OTHER] * 10 + [("0" * 31 + "1", 53)] * 2 + UNSAFE
DENIED = ("--deny=c0000200/24", "c00002")
RULES = """
unsafe source; no header; a reply; shut out; no message; version of EDNS; another opcode; not one question; query; query
refused; referral; no such name; alias; chain ends; data; no data; not one zone; update; zone of another type; another zone;
zone of another class; updates not let in; zone named; prerequisite with TTL; prerequisite outside; prerequisite ANY with data;
name in use; name not in use, should be; set there; set not there, should be; prerequisite NONE with data; name not in use; name
in use, should not be; set not there; set there, should not be; prerequisite IN without data; gathered; prerequisite of another
class; set as gathered; set not as gathered; update outside; IN of a meta type; IN without data; ANY with TTL; ANY with data;
ANY of a meta type; NONE with TTL; NONE of a meta type; NONE without data; update of another class; update scanned; SOA away
from the origin; SOA of the same serial; SOA 2^31 above; SOA of an older serial; SOA replaced; SOA replaced past zero; CNAME
beside others; CNAME added; CNAME replaced; CNAME as it is; beside a CNAME; record added; equal as it is; equal with another
TTL; all at the origin; all of a name; nothing of a name; set of the origin's SOA; set of the origin's NS; set deleted; no such
set; record deleted; no such record; SOA deleted singly; last NS of the origin; nothing changed; changed; undone within; serial
past zero; update with pointers; update in large letters; update with an OPT
"""


# Names and data by chance.


class Chance(random.Random):
    """Chances, and what a case's messages are made of."""

    def begin(self):
        self.origin = self.choice([(b"example", b"com")] * 7 + [(b"z",), (b"a", b"b", b"c"), ()])
        rest = 254 - len(name_bytes(self.origin))
        long = [b"l" * 63] * (rest // 64) + [b"m" * (rest % 64)] * (rest % 64 > 0)
        below = [(), (b"www",), (b"a",), (b"b",), (b"x", b"a"), (b"*",), (b"*", b"a"), (b"sub",), (b"h", b"sub"), (b"ns", b"sub")]
        below += [(b"i", b"sub"), (b"sub", b"sub"), (b"\xc1",), (b"\xe1",), (b"d.t", b"b"), tuple(long)]
        self.below = [name + self.origin for name in below]
        self.outside = [(b"example", b"org"), self.origin[1:], (b"x" + b"".join(self.origin[:1]), *self.origin[1:])]

    def name(self):
        return self.choice(self.below)

    def target(self):
        return self.choice([*self.below, *self.below, self.outside[0]])

    def spelled(self, name):
        """The name, with some of its letters large."""
        if self.random() < 0.7:
            return name
        return tuple(label.upper() if self.random() < 0.6 else label.capitalize() for label in name)

    def data(self, kind, serial=7):
        """The data of a type; few of each."""
        if kind in (NS, CNAME, PTR):
            return (self.target(),)
        if kind in (MX, SRV):
            return (number(self.choice([10, 20]), 2) + bytes(4 * (kind == SRV)), self.target())
        if kind == SOA:
            times = [*self.choices([0, 60, 3_600], k=3), self.choice([0, 60, 300, 2**32 - 1])]
            return self.target(), self.target(), b"".join(number(value, 4) for value in (serial, *times))
        if kind in (A, AAAA):
            return (bytes(3 if kind == A else 15) + bytes([self.randrange(1, 4)]),)
        if kind == TXT:
            return (self.choice([b"\1w", b"\1W", b"\1w\1x", b"\0", b"\3a;b"]),)
        return (self.choice([b"w", b"W", b"\0", b"\1\2\3", b"w", b"W", b"\0", bytes(600)]),)

    def record(self):
        """A record of class IN."""
        kind = self.choice(PLAIN + [A, A, TXT, NS, CNAME, CNAME, CNAME])
        return Record(self.name(), kind, IN, self.choice(TTLS), self.data(kind))


# The zone text.


def byte_text(byte):
    return chr(byte) if byte < 128 and (chr(byte).isalnum() or byte == ord("*")) else f"\\{byte:03}"


def name_text(name):
    return ".".join(["".join(map(byte_text, label)) for label in name] + [""]) if name else "."


def numbers_text(data, size):
    return " ".join(str(int.from_bytes(data[place : place + size], "big")) for place in range(0, len(data), size))


def data_text(record):
    kind, data = record.kind, record.data
    if kind in (NS, CNAME, PTR):
        return name_text(data[0])
    if kind in (MX, SRV):
        return f"{numbers_text(data[0], 2)} {name_text(data[1])}"
    if kind == SOA:
        return f"{name_text(data[0])} {name_text(data[1])} {numbers_text(data[2], 4)}"
    if kind == A:
        return ".".join(str(byte) for byte in data[0])
    if kind == AAAA:
        return ":".join(data[0][place : place + 2].hex() for place in range(0, 16, 2))
    if kind == TXT:
        strings, left = [], data[0]
        while left:
            strings, left = [*strings, left[1 : 1 + left[0]].decode()], left[1 + left[0] :]
        return " ".join(f'"{string}"' for string in strings)
    return f"\\# {len(data[0])} {data[0].hex()}"


def zone_line(record):
    return f"{name_text(record.name)} {record.ttl} IN {NAMES.get(record.kind, f'TYPE{record.kind}')} {data_text(record)}\n"


def a_zone(chance):
    """The lines of a zone text, and the zone: each record comes where no alias forbids it."""
    soa = Record(chance.origin, SOA, IN, chance.choice(TTLS), chance.data(SOA, chance.choice(SERIALS)))
    lines, zone = [], []
    wanted = [soa] + [Record(chance.origin, NS, IN, 60, chance.data(NS)) for _ in range(chance.choice([0, 1, 1, 2]))]
    wanted += [chance.record() for _ in range(chance.randrange(4, 16))]
    chance.shuffle(wanted)
    for record in wanted:
        stands = [one.kind for one in zone if one.name == record.name]
        if record.kind == CNAME and (stands or record.name == chance.origin) or CNAME in stands:
            continue
        lines.append(zone_line(record._replace(name=chance.spelled(record.name))))
        zone = put(zone, folded_record(record))
    return "".join(lines), zone


# Messages.


class Writer:
    """A message that is being written, with names spelled and cut short by pointers by chance (RFC 1035 4.1.4)."""

    def __init__(self, chance, head):
        self.chance, self.bytes, self.places, self.shortens = chance, head, {}, chance.random() < 0.5
        if head[0] == 0 and chance.random() < 0.3:
            self.places[()] = 0

    def name(self, name):
        name = self.chance.spelled(name)
        if self.shortens and self.chance.random() < 0.002:
            self.bytes += number(0xC000 | len(self.bytes) + self.chance.choice([-1, 0, 0, 1]), 2)
            return
        for place in range(len(name) + 1):
            rest = folded(name[place:])
            if self.shortens and rest in self.places and self.chance.random() < 0.9:
                self.bytes += number(0xC000 | self.places[rest], 2)
                return
            if rest:
                self.places.setdefault(rest, len(self.bytes))
                self.bytes += bytes([len(name[place])]) + name[place]
        self.bytes += b"\0"

    def question(self, name, kind, klass):
        self.name(name)
        self.bytes += number(kind, 2) + number(klass, 2)

    def record(self, record):
        self.name(record.name)
        self.bytes += number(record.kind, 2) + number(record.klass, 2) + number(record.ttl, 4)
        place = len(self.bytes)
        self.bytes += bytes(2)
        for part in record.data:
            if isinstance(part, tuple):
                self.name(part)
            else:
                self.bytes += part
        self.bytes = self.bytes[:place] + number(len(self.bytes) - place - 2, 2) + self.bytes[place + 2 :]


def opt_record(chance):
    version = chance.choice([0] * 9 + [1])
    ttl = chance.choice([0, 1]) << 24 | version << 16 | chance.choice([0, 0x8000, 0x7FFF])
    return Record((), OPT, chance.choice([0, 512, 1_232, 4_096]), ttl, chance.choice([(), (bytes(4),)]))


def a_message(chance, opcode, questions, answers, authority):
    """A message, now and then with an OPT, another additional record, bytes behind it, or something wrong."""
    additional = [Record(chance.name(), chance.choice([A, 250]), chance.choice([IN, ANY]), 0, ())] * (chance.random() < 0.1)
    additional += [opt_record(chance)] * (chance.random() < 0.25)
    chance.shuffle(additional)
    if chance.random() < 0.01:
        chance.choice([answers, authority, additional]).append(opt_record(chance))
    counts = [len(section) for section in (questions, answers, authority, additional)]
    if chance.random() < 0.01:
        counts[chance.randrange(4)] += chance.choice([1, -1])
    flags = opcode << 11 | chance.choice([0, 0x0100, 0x0010, 0x0110, 0x06E5]) | (0x8000 if chance.random() < 0.01 else 0)
    id_ = chance.choice([b"\0\0", b"\x12\x34", chance.randbytes(2)])
    writer = Writer(chance, id_ + number(flags, 2) + b"".join(number(max(0, n), 2) for n in counts))
    for question in questions:
        writer.question(*question)
    for record in (*answers, *authority, *additional):
        writer.record(record)
    message = writer.bytes
    if chance.random() < 0.02:
        message = chance.choice([message[:-1], message + b"\0", message[:11], message[: chance.randrange(12, len(message) + 1)]])
    return message


# Updates. Each maker gives records, and is told the zone as it is.


def sets_of(zone):
    return list(dict.fromkeys((record.name, record.kind) for record in zone))


def held_prerequisites(chance, zone):
    """Prerequisites that hold, or one that may."""
    name, kind = chance.choice(sets_of(zone))
    absent = [one for one in chance.below if not owns(zone, one)] or [name]
    other = chance.choice(PLAIN)
    return chance.choice([
        [Record(name, ANY, ANY, 0, ())],
        [Record(name, kind, ANY, 0, ())],
        [Record(chance.choice(absent), ANY, NONE, 0, ())],
        [Record(chance.choice(absent), other, NONE, 0, ())],
        [Record(name, other if not owns(zone, name, other) else AXFR, NONE, 0, ())],
        whole_set(chance, zone, name, kind),
        whole_set(chance, zone, name, kind) + whole_set(chance, zone, *chance.choice(sets_of(zone))),
    ])  # fmt: skip


def whole_set(chance, zone, name, kind):
    """The zone's set in another order, now and then with a record told twice."""
    records = [record._replace(ttl=0) for record in zone if (record.name, record.kind) == (name, kind)]
    records += [chance.choice(records)] * (chance.random() < 0.2)
    chance.shuffle(records)
    return records


def in_other_letters(record):
    """The record with the letters of its strings turned, which do count, beside those of names."""
    return record._replace(data=tuple(part if isinstance(part, tuple) else part.swapcase() for part in record.data))


def owned_elsewhere(zone, origin):
    """Names that exist by a name below them alone, and names that a wildcard answers for, with a type."""
    below = [(one.name[1:], one.kind) for one in zone if one.name != origin and not owns(zone, one.name[1:])]
    return below + [((b"q", *one.name[1:]), one.kind) for one in zone if one.name[:1] == (b"*",)]


def several_of(zone):
    """The names and types of which there is more than one record, or all where there are none."""
    keys = [(record.name, record.kind) for record in zone]
    return [key for key in keys if keys.count(key) > 1] or keys


def other_prerequisites(chance, zone):
    """Prerequisites that may fail, by what the zone has."""
    absent = owned_elsewhere(zone, chance.origin) or [(chance.name(), A)]
    name, kind = chance.choice([chance.choice(sets_of(zone)), (chance.name(), chance.choice(PLAIN)), chance.choice(absent)])
    few = whole_set(chance, zone, *chance.choice(several_of(zone)))
    many = few + [few[0]._replace(data=chance.data(few[0].kind))]
    return chance.choice([
        [Record(name, ANY, ANY, 0, ())],
        [Record(name, kind, ANY, 0, ())],
        [Record(name, ANY, NONE, 0, ())],
        [Record(name, kind, NONE, 0, ())],
        [one for one in few if one.data != few[0].data] or many,
        many,
        [in_other_letters(few[0]), *few[1:]],
        [Record(name, kind, IN, 0, chance.data(kind))],
        [Record(name, chance.choice([ANY, AXFR]), IN, 0, (b"w",))],
    ])  # fmt: skip


def faulty_prerequisites(chance, zone):
    """A prerequisite that is not of its form."""
    kind = chance.choice([A, TXT, ANY, SOA])
    data = chance.data(kind)
    name = chance.name()
    return [chance.choice([
        Record(name, kind, chance.choice([ANY, NONE, IN, 3]), chance.choice([1, 2**31]), chance.choice([(), data])),
        Record(chance.choice(chance.outside), kind, chance.choice([ANY, NONE, IN, 3]), chance.choice([0, 0, 1]), data),
        Record(name, kind, ANY, 0, data),
        Record(name, kind, NONE, 0, data),
        Record(name, kind, IN, 0, ()),
        Record(name, kind, chance.choice([0, 2, 3, 253, 256, 65_535]), 0, chance.choice([(), data])),
        Record(name, A, chance.choice([ANY, NONE, IN]), 0, (b"w",)),
    ])]  # fmt: skip


def soa_at(chance, zone, name):
    """An SOA whose serial stands at an edge of the arithmetic of serials (RFC 1982 3.2)."""
    step = chance.choice([0, 1, 2, -1, 2**31 - 1, 2**31 - 1, 2**31, 2**31, 2**31 + 1, chance.choice(SERIALS) - serial_of(zone)])
    return Record(name, SOA, IN, chance.choice(TTLS), chance.data(SOA, (serial_of(zone) + step) % 2**32))


def put_records(chance, zone):
    """Records to put."""
    one = chance.choice(zone)
    alias = chance.choice([record.name for record in zone if record.kind == CNAME] or [chance.name()])
    kind = chance.choice(PLAIN)
    return chance.choice([
        [chance.record()],
        [chance.record(), chance.record()],
        [Record(chance.name(), kind, IN, chance.choice(TTLS), chance.data(kind)) for kind in chance.choices(PLAIN, k=3)],
        [Record(one.name, one.kind, IN, one.ttl, one.data)],
        [Record(one.name, one.kind, IN, chance.choice(TTLS), one.data)],
        [Record(one.name, CNAME, IN, 60, chance.data(CNAME))],
        [Record(alias, CNAME, IN, chance.choice(TTLS), chance.data(CNAME))],
        [Record(alias, kind, IN, 60, chance.data(kind))],
        [Record(chance.origin, NS, IN, 60, chance.data(NS))],
        [soa_at(chance, zone, chance.origin)],
        [soa_at(chance, zone, chance.origin), soa_at(chance, zone, chance.origin)],
        [soa_at(chance, zone, chance.name())],
    ])  # fmt: skip


def deleting_records(chance, zone):
    """Records to delete."""
    one = chance.choice(zone)
    kind = chance.choice(PLAIN + [CNAME])
    soa = next(record for record in zone if record.kind == SOA)
    nameservers = [record._replace(klass=NONE, ttl=0) for record in zone if record[:2] == (chance.origin, NS)]
    return chance.choice([
        [Record(one.name, one.kind, ANY, 0, ())],
        [Record(one.name, ANY, ANY, 0, ())],
        [Record(one.name, one.kind, NONE, 0, one.data)],
        [Record(one.name, one.kind, NONE, 0, one.data)],
        [in_other_letters(one._replace(klass=NONE, ttl=0))],
        [Record(chance.name(), kind, ANY, 0, ())],
        [Record(chance.name(), ANY, ANY, 0, ())],
        [Record(chance.name(), kind, NONE, 0, chance.data(kind))],
        [Record(one.name, one.kind, NONE, 0, chance.data(one.kind, serial_of(zone)))],
        [Record(one.name, chance.choice([NS, CNAME, PTR]) if one.kind in (NS, CNAME, PTR) else kind, NONE, 0, one.data)],
        [Record(chance.origin, chance.choice([SOA, NS, ANY, A, MX]), ANY, 0, ())],
        [Record(chance.origin, SOA, NONE, 0, soa.data)],
        nameservers[:1],
        nameservers,
    ])  # fmt: skip


def ordered_records(chance, zone):
    """What counts by its order: a record that comes and goes, or goes and comes back, which at the end of the list changes
    nothing; an alias where all goes, and something else where an alias goes."""
    kind = chance.choice(PLAIN)
    new = Record(chance.name(), kind, IN, 60, chance.data(kind))
    last = zone[-1]
    gone = [Record(last.name, last.kind, NONE, 0, last.data), Record(last.name, last.kind, IN, last.ttl, last.data)]
    one = chance.choice(zone)
    alias = [Record(one.name, ANY, ANY, 0, ()), Record(one.name, CNAME, IN, 60, chance.data(CNAME))]
    other = [Record(one.name, CNAME, ANY, 0, ()), Record(one.name, kind, IN, 60, new.data)]
    return chance.choice([
        [new, Record(new.name, kind, NONE, 0, new.data)],
        [new, Record(new.name, kind, ANY, 0, ())],
        gone,
        alias,
        alias[::-1],
        other,
    ])  # fmt: skip


def faulty_records(chance, zone):
    """An update record that is not of its form."""
    kind = chance.choice([A, TXT, NS])
    meta = chance.choice([0, 0, 128, 128, ANY, ANY, IXFR, AXFR, *chance.sample(sorted(META - {OPT}), 4)])
    data = chance.data(kind)
    name = chance.name()
    return [chance.choice([
        Record(chance.choice(chance.outside), kind, chance.choice([IN, ANY, NONE, 3]), 0, data),
        Record(name, meta, IN, 0, chance.choice([(), (b"w",)])),
        Record(name, kind, IN, 60, ()),
        Record(name, chance.choice([kind, ANY]), ANY, chance.choice([1, 2**31]), ()),
        Record(name, chance.choice([kind, ANY]), ANY, 0, (b"\0" * 4,) if kind == A else data),
        Record(name, meta, ANY, 0, ()),
        Record(name, kind, NONE, chance.choice([1, 2**31]), data),
        Record(name, meta, NONE, 0, (b"w",)),
        Record(name, kind, NONE, 0, ()),
        Record(name, kind, chance.choice([0, 2, 3, 253, 256, 65_535]), 0, chance.choice([(), data])),
        Record(name, A, chance.choice([IN, ANY, NONE]), 0, (b"w",)),
    ])]  # fmt: skip


def zone_questions(chance):
    if chance.random() < 0.88:
        return [(chance.origin, SOA, IN)]
    return chance.choice([
        [], [(chance.origin, SOA, IN)] * 2, [(chance.origin, chance.choice([A, ANY, NS]), IN)], [(chance.name(), SOA, IN)],
        [(chance.choice(chance.outside), SOA, IN)], [(chance.origin, SOA, chance.choice([3, ANY, NONE]))],
        [(chance.outside[0], A, 3)],
    ])  # fmt: skip


def an_update(chance, zone):
    prerequisites, updates = [], []
    for _ in range(chance.choice([0, 0, 1, 1, 2, 3])):
        kinds = [held_prerequisites] * 8 + [other_prerequisites, other_prerequisites, faulty_prerequisites]
        prerequisites += chance.choice(kinds)(chance, zone)
    for _ in range(chance.choice([0, 1, 1, 1, 2, 2, 3, 4])):
        kinds = [put_records] * 8 + [deleting_records] * 6 + [ordered_records] * 3 + [faulty_records] * 2
        updates += chance.choice(kinds)(chance, zone)
    return a_message(chance, UPDATE, zone_questions(chance), prerequisites, updates)


def a_query(chance, zone):
    if chance.random() < 0.03:
        return a_message(chance, chance.choice([1, 2, 4, 6, 15]), [(chance.name(), A, IN)], [], [])
    aliases = [record.name for record in zone if record.kind == CNAME]
    names = [chance.name(), chance.name(), chance.choice(zone).name, (b"q", *chance.name()), chance.choice(chance.outside)]
    name = chance.choice(aliases if aliases and chance.random() < 0.2 else names)
    name = name if len(name_bytes(name)) <= 255 else chance.origin
    kind = chance.choice(PLAIN + [A, A, TXT, ANY, ANY, ANY, SOA, CNAME, AXFR, IXFR])
    questions = [(name, kind, chance.choice([IN] * 15 + [3, ANY]))]
    return a_message(chance, 0, questions * chance.choice([0] + [1] * 15 + [2]), [], [])


def closing_messages(chance, zone):
    """What shows the whole zone: the cuts go, then there is a query for all at each name."""
    cuts = [key for key in sets_of(zone) if key[1] == NS and key[0] != chance.origin]
    updates = [Record(name, NS, ANY, 0, ()) for name, _ in cuts]
    opt = Record((), OPT, 4_096, 0, ())
    messages = []
    wanted = [(UPDATE, (chance.origin, SOA, IN), updates)] + [(0, (name, ANY, IN), []) for name in chance.below]
    for opcode, question, records in wanted:
        counts = b"".join(number(n, 2) for n in (1, 0, len(records), 1))
        writer = Writer(chance, chance.randbytes(2) + number(opcode << 11, 2) + counts)
        writer.question(*question)
        for record in (*records, opt):
            writer.record(record)
        messages.append(writer.bytes)
    return messages


# Cases.


class Case:
    """A zone text, words and events, made while a model follows them, so that the messages speak of what is there."""

    def __init__(self, number, seed):
        chance = Chance(f"{seed} {number}")
        chance.begin()
        self.number, self.origin, self.at, self.events, self.numbers, self.left = number, chance.origin, 0, [], [], {}
        self.text, self.zone = a_zone(chance)
        self.are_let_in, self.is_denied = chance.random() < 0.92, chance.random() < 0.1
        self.payload = random.Random(f"{seed} {number} payload").choice([None, None, None, 512, 600, 1_232])
        self.follower = self.server()
        for _ in range(chance.randrange(5, 31)):
            self.at += chance.choice([0, 0, 0, 0, 1, 2])
            self.add(chance)
        if chance.random() < 0.4:
            for message in closing_messages(chance, self.follower.zone):
                self.datagram(message, SAFE)
        if chance.random() < 0.05:
            self.events.append({"kind": "S", "at": self.at})
        spelled = name_text(chance.spelled(chance.origin))
        self.words = ["events", spelled, *["--update"] * self.are_let_in, *[DENIED[0]] * self.is_denied]
        self.words += [f"--payload={self.payload}"] if self.payload else []

    def server(self):
        return Server(self.origin, self.zone, self.are_let_in, DENIED[1] if self.is_denied else None, self.payload or 65_507)

    def datagram(self, message, source):
        self.events.append({"kind": "D", "at": self.at, "peer": source, "piece": message})
        self.follower.settle(message, source, True)

    def add(self, chance):
        """One more event."""
        kind = chance.choice("DDDDDDDDDDDDDDBBBBBAET" if self.numbers else "DDDDDDDDDDDDA")
        message = (an_update if chance.random() < 0.75 else a_query)(chance, self.follower.zone)
        if kind == "D":
            self.datagram(message, chance.choice(SOURCES))
        elif kind == "A":
            self.numbers.append(len(self.numbers) + 1)
            source = chance.choice([SAFE] * 8 + [OTHER] * 3 + [connections.NO_PORT])
            limit = chance.choice([0, 0, 0, 0, 3])
            self.events.append({"kind": "A", "at": self.at, "conn": self.numbers[-1], "peer": source, "limit": limit})
        elif kind == "B":
            conn = chance.choice(self.numbers)
            framed = self.left.get(conn) or number(len(message), 2) + message
            size = chance.choice([len(framed)] * 4 + [1, 3, len(framed) // 2])
            self.left[conn] = framed[size:]
            self.events.append({"kind": "B", "at": self.at, "conn": conn, "piece": framed[:size]})
            if size == len(framed):
                self.follower.settle(message, SAFE, False)
        else:
            self.events.append({"kind": kind, "at": self.at, **({"conn": chance.choice(self.numbers)} if kind == "E" else {})})

    def event_text(self):
        return "".join(map(connections.line, self.events))


def check(case, server):
    """The model against itself: its zone is one, and its rows stand for it."""
    if not is_zone(case.origin, server.zone) or replay(case.origin, server.rows) != server.zone:
        raise AssertionError(f"case {case.number}: the zone of the model is none, or its rows stand for another")


def manners(message):
    """How an update is written, beside what it says."""
    try:
        read = read_message(message)
    except Outside:
        return
    names = [one.name for one in (*read.questions, *read.answers, *read.authority)]
    if read.opcode == UPDATE and read.edns:
        yield "update with an OPT"
    if read.opcode == UPDATE and names != [folded(name) for name in names]:
        yield "update in large letters"
    size = sum(len(name_bytes(one.name)) + 4 for one in read.questions)
    size += sum(len(record_bytes(one)) for one in (*read.answers, *read.authority, *read.additional))
    if read.opcode == UPDATE and 12 + size > len(message):
        yield "update with pointers"


def due(case, is_read_back=False):
    """The output that is due, and how often each rule decided."""
    server, lines = case.server(), []
    for conn, peer, message in connections.completed(case.events):
        reply = server.settle(message, peer, conn is None)
        if reply is not None:
            server.decided.update(manners(message))
        if is_read_back:
            check(case, server)
        if reply is not None and conn is None:
            lines.append(f"P {peer[0]} {peer[1]} {reply.hex()}")
        elif reply is not None:
            lines.append(f"C {conn} {(number(len(reply), 2) + reply).hex()}")
    check(case, server)
    lines += [f"serial {serial_of(server.zone)}", f"journal_len {len(server.rows)}"]
    lines.append(f"open {connections.open_count(case.events)}")
    return "".join(line + "\n" for line in lines), server.decided


def written(case):
    """The status and the output of the program."""
    with tempfile.NamedTemporaryFile("w", suffix=".zone", encoding="ascii") as file:
        file.write(case.text)
        file.flush()
        command = [PROGRAM, *case.words, f"--zone={file.name}"]
        run = subprocess.run(command, input=case.event_text().encode(), stdout=subprocess.PIPE, timeout=BOUND)
    return run.returncode, run.stdout.decode(errors="replace")


def told(case, output, status, got):
    asked = f"case {case.number}: {' '.join(case.words)}\nzone:\n{case.text}events:\n{case.event_text()}"
    return f"{asked}due, status 0:\n{output}got, status {status}:\n{got}"


def tried(numbered):
    """Whether the program is wrong, and what decided."""
    number_, seed, with_program = numbered
    case = Case(number_, seed)
    output, decided = due(case, is_read_back=not with_program)
    if not with_program:
        return None, decided
    status, got = written(case)
    return (None if (status, got) == (0, output) else (number_, status, got, output)), decided


def told_difference(wrong, seed):
    """The first line in which the two differ, and how the whole case is shown."""
    number_, status, got, output = wrong
    lines = zip([*output.split("\n"), ""], [*got.split("\n"), ""])
    line = next((pair for pair in lines if pair[0] != pair[1]), ("", ""))
    return f"case {number_}, status {status}: --replay {number_} {seed}\ndue: {line[0]}\ngot: {line[1]}"


def replayed(number_, seed):
    case = Case(number_, seed)
    output, _ = due(case)
    status, got = written(case) if PROGRAM.exists() else (None, "no program\n")
    print(told(case, output, status, got), end="")
    sys.exit((status, got) != (0, output))


def main():
    words = [word for word in sys.argv[1:] if not word.startswith("--")]
    if "--replay" in sys.argv:
        replayed(int(words[0]), int(words[1]) if len(words) > 1 else SEED)
    count, seed = (int(words[0]) if words else CASES), (int(words[1]) if len(words) > 1 else SEED)
    with_program = "--model" not in sys.argv
    if with_program and not PROGRAM.exists():
        sys.exit("updates.py: the program is not built: run rt ci first")
    with ProcessPoolExecutor(os.cpu_count()) as pool:
        results = list(pool.map(tried, [(number_, seed, with_program) for number_ in range(count)], chunksize=20))
    wrong = [one for one, _ in results if one is not None]
    decided = sum((one for _, one in results), Counter())
    for one in wrong[:3]:
        print(told_difference(one, seed))
    rules = [" ".join(rule.split()) for rule in RULES.split(";")]
    if not set(decided) <= set(rules):
        sys.exit(f"updates.py: rules without a name here: {set(decided) - set(rules)}")
    never = [rule for rule in rules if not decided[rule]]
    print("updates: " + "; ".join(f"{rule} {decided[rule]}" for rule in rules))
    if never and count >= CASES:
        print(f"updates: no case reached: {'; '.join(never)}")
    print(f"updates: {count - len(wrong)} passed, {len(wrong)} failed")
    sys.exit(bool(wrong) or (bool(never) and count >= CASES))


if __name__ == "__main__":
    main()
