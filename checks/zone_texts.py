#!/usr/bin/env python3
"""Compares the built program with a plain reader of zone texts, on many small texts.

The reader is written from the standards (RFC 1035 5.1, RFC 2308 4, RFC 3597 5, RFC 4291 2.2) and docs/PROFILE.md, "The zone
text". It takes a text apart by patterns and knows nothing of the program's code. It tells the records of the zone, or the
line and kind of the first entry that is refused. What the program read is told by its status and line, or else by its replies
to a query for ANY by each owner (with a referral at and below a cut, RFC 1034 4.3.2), the serial and the length of the
journal. The same texts come in each run.

Uses the standard library alone, and no network. Each run of the program is bounded in time.
"""

import os
import random
import re
import subprocess
import sys
import tempfile
from concurrent.futures import ThreadPoolExecutor

import reasons

TOP = os.path.dirname(os.path.dirname(os.path.abspath(__file__)))
PROGRAM = os.path.join(TOP, "crates", "dns_program", "out", "dns_program")
TEXTS = 2_000
BOUND = 60  # seconds
TYPES = {b"A": 1, b"NS": 2, b"CNAME": 5, b"SOA": 6, b"PTR": 12, b"MX": 15, b"TXT": 16, b"AAAA": 28, b"SRV": 33}
SECONDS = {b"w": 604_800, b"d": 86_400, b"h": 3_600, b"m": 60, b"s": 1}
NS, CNAME, SOA = 2, 5, 6


# The reader. A name is its labels in small letters, from the left; a record is owner, TTL, type and data.


class Refused(Exception):
    """The kind of a fault."""


TOKEN = re.compile(
    rb'[ \t]+|;.*|(?P<open>\()|(?P<close>\))|"(?P<quoted>(?:[^"\\]|\\.)*)"|(?P<unclosed>".*)'
    rb'|(?P<word>(?:[^ \t;()"\\]|\\.|\\$)+)',
    re.DOTALL,
)
ESCAPED = re.compile(rb"\\([0-9]{3})|\\([^0-9])|([^\\])", re.DOTALL)


def lines_of(text):
    """The lines: each ends with LF, and a CR before it is dropped; the last may lack its end."""
    *ended, last = text.split(b"\n")
    return [line[:-1] if line.endswith(b"\r") else line for line in ended] + ([last] if last else [])


def entries_of(text):
    """The entries: the line of each, whether it begins with a blank, its words and whether they stand in quotes, its faults."""
    first, words, faults, depth = None, [], set(), 0
    for number, line in enumerate(lines_of(text), 1):
        if first is None:
            first, is_indented = number, line[:1] in (b" ", b"\t")
        for token in TOKEN.finditer(line):
            kind = token.lastgroup
            if kind in ("word", "quoted"):
                words.append((token[kind], kind == "quoted"))
            depth += (kind == "open") - (kind == "close")
            faults |= {"Quote"} if kind == "unclosed" else {"Paren"} if depth < 0 else set()
        if depth <= 0:
            if words or faults:
                yield first, is_indented, words, faults
            first, words, faults, depth = None, [], set(), 0
    if depth > 0:
        yield first, is_indented, words, {"Paren"}


def unescaped(text, kind):
    """The bytes that a text stands for, each with whether it is written as it is."""
    found, place = [], 0
    while place < len(text):
        one = ESCAPED.match(text, place)
        if one is None or (one[1] and int(one[1]) > 255):
            raise Refused(kind)
        found.append((int(one[1]) if one[1] else (one[2] or one[3])[0], one[3] is not None))
        place = one.end()
    return found


def name_of(word, origin, kind):
    """The name that a word stands for below the origin."""
    text, is_quoted = word
    if is_quoted or not text:
        raise Refused(kind)
    if text == b"@":
        return origin
    labels = [b""]
    for byte, is_plain in unescaped(text, kind):
        if byte == ord(".") and is_plain:
            labels.append(b"")
        else:
            labels[-1] += bytes([byte]).lower()
    if labels == [b"", b""]:
        return ()
    name = tuple(labels[:-1]) if labels[-1] == b"" else (*labels, *origin)
    if not all(1 <= len(label) <= 63 for label in name) or len(name_bytes(name)) > 255:
        raise Refused(kind)
    return name


def name_bytes(name):
    return b"".join(bytes([len(label)]) + label for label in name) + b"\0"


def number_of(word, size, kind):
    """The bytes of a decimal number."""
    text, is_quoted = word
    if is_quoted or not re.fullmatch(rb"[0-9]+", text) or int(text) >= 256**size:
        raise Refused(kind)
    return int(text).to_bytes(size, "big")


def time_of(word, kind):
    """Seconds: a number, or numbers with a unit behind each."""
    text, is_quoted = word
    if is_quoted or not re.fullmatch(rb"[0-9]+|([0-9]+[wdhmsWDHMS])+", text):
        raise Refused(kind)
    parts = re.findall(rb"([0-9]+)([a-z]?)", text.lower())
    seconds = sum(int(count) * SECONDS.get(unit, 1) for count, unit in parts)
    if seconds >= 2**32:
        raise Refused(kind)
    return seconds


def type_of(word):
    """The type, and whether it is written by its number (RFC 3597 5)."""
    text, is_quoted = word
    if not is_quoted and text.upper() in TYPES:
        return TYPES[text.upper()], False
    if is_quoted or not re.fullmatch(rb"TYPE(0|[1-9][0-9]{0,4})", text.upper()):
        raise Refused("Type")
    number = int(text[4:])
    if number in (0, 41) or 128 <= number <= 255 or number > 65_535:
        raise Refused("Type")
    return number, True


def ipv4_of(text):
    if not re.fullmatch(rb"(0|[1-9][0-9]{0,2})(\.(0|[1-9][0-9]{0,2})){3}", text):
        raise Refused("Data")
    parts = [int(part) for part in text.split(b".")]
    if max(parts) > 255:
        raise Refused("Data")
    return bytes(parts)


def groups_of(text):
    """The bytes of groups of one to four hexadecimal digits, parted by colons; of the last two perhaps as an IPv4 address."""
    found = b""
    groups = text.split(b":") if text else []
    for place, group in enumerate(groups):
        if b"." in group and place == len(groups) - 1:
            found += ipv4_of(group)
        elif re.fullmatch(rb"[0-9a-fA-F]{1,4}", group):
            found += int(group, 16).to_bytes(2, "big")
        else:
            raise Refused("Data")
    return found


def ipv6_of(text):
    """An address: eight groups, or fewer and `::` for the zeros between (RFC 4291 2.2)."""
    if b"::" not in text:
        found = groups_of(text)
    else:
        before, after = text.split(b"::", 1)
        if b"." in before:
            raise Refused("Data")
        before, after = groups_of(before), groups_of(after)
        found = before + bytes(max(2, 16 - len(before + after))) + after
    if len(found) != 16:
        raise Refused("Data")
    return found


def string_of(word):
    """The bytes of a character string (RFC 1035 3.3)."""
    string = bytes(byte for byte, _ in unescaped(word[0], "Data"))
    if len(string) > 255:
        raise Refused("Data")
    return bytes([len(string)]) + string


SIZES = {"address": 4, "long address": 16, "short": 2, "long": 4, "time": 4}


def labels_at(data, place):
    """The labels that begin at a place of data, each with its length, up to the byte of 0, and the place behind them. A pointer
    points at a place before that at which the labels began (RFC 1035 4.1.4)."""
    found, end = b"", place
    while end < len(data):
        size = data[end]
        if size == 0:
            return found + b"\0", end + 1
        if size >= 192 and end + 1 < len(data):
            to = 256 * (size - 192) + data[end + 1]
            if to >= place:
                break
            return found + labels_at(data, to)[0], end + 2
        if size >= 64 or end + size >= len(data):
            break
        found += data[end : end + 1 + size]
        end += 1 + size
    raise Refused("Data")


def taken(field, data, place):
    """The bytes of a field at a place of data, a name in small letters and without pointers, and the place behind it."""
    if field == "name":
        found, end = labels_at(data, place)
        if len(found) > 255:
            raise Refused("Data")
        # A length byte is below the capitals.
        return found.lower(), end
    end = place + (1 + data[place] if field == "string" and place < len(data) else SIZES.get(field, 1))
    if len(data) < end:
        raise Refused("Data")
    return data[place:end], end


def bytes_of(number, data):
    """The bytes in general form, read as data of their type where it has a form of its own (RFC 3597 5): as in a message whose first
    byte is the first of the data."""
    if number not in TYPES.values():
        return data
    found, place, form = b"", 0, list(FORMS.get(number, []))
    while form or (number not in FORMS and place < len(data)):
        field, place = taken(form.pop(0) if form else "string", data, place)
        found += field
    if place < len(data):
        raise Refused("Data")
    return found


def general_of(words, number):
    """The data that the general form writes (RFC 3597 5)."""
    if any(is_quoted for _, is_quoted in words) or len(words) < 2 or words[0][0] != b"\\#":
        raise Refused("Data")
    size, digits = number_of(words[1], 2, "Data"), b"".join(text for text, _ in words[2:])
    if size == bytes(2) or not re.fullmatch(rb"[0-9a-fA-F]*", digits) or len(digits) != 2 * int.from_bytes(size, "big"):
        raise Refused("Data")
    return bytes_of(number, bytes.fromhex(digits.decode()))


def plain(read):
    """A reader of words that stand in no quotes."""

    def found(word, _):
        if word[1]:
            raise Refused("Data")
        return read(word[0])

    return found


FIELDS = {
    "address": plain(ipv4_of),
    "long address": plain(ipv6_of),
    "name": lambda word, origin: name_bytes(name_of(word, origin, "Data")),
    "short": lambda word, _: number_of(word, 2, "Data"),
    "long": lambda word, _: number_of(word, 4, "Data"),
    "time": lambda word, _: time_of(word, "Data").to_bytes(4, "big"),
    "string": lambda word, _: string_of(word),
}
FORMS = {
    1: ["address"],
    28: ["long address"],
    2: ["name"],
    5: ["name"],
    12: ["name"],
    15: ["short", "name"],
    33: ["short", "short", "short", "name"],
    6: ["name", "name", "long", "time", "time", "time", "time"],
}


def data_of(number, is_numbered, words, origin):
    """The data of a type, as it stands in a message."""
    if is_numbered:
        return general_of(words, number)
    form = FORMS.get(number, ["string"] * max(1, len(words)))
    if len(form) != len(words):
        raise Refused("Data")
    found = b"".join(FIELDS[field](word, origin) for field, word in zip(form, words))
    if len(found) > 65_535:
        raise Refused("Data")
    return found


class Reader:
    """What the entries so far have stated, and the records of the zone."""

    def __init__(self, zone):
        self.zone, self.origin, self.default, self.stated, self.owner, self.records = zone, zone, None, None, None, []

    def take(self, is_indented, words):
        """One entry."""
        text, is_quoted = words[0]
        if is_quoted or not text.startswith(b"$"):
            self.take_record(is_indented, words)
        elif text.upper() == b"$ORIGIN" and len(words) == 2:
            self.origin = name_of(words[1], self.origin, "Name")
        elif text.upper() == b"$TTL" and len(words) == 2:
            self.default = time_of(words[1], "Ttl")
        else:
            raise Refused({b"$ORIGIN": "Name", b"$TTL": "Ttl"}.get(text.upper(), "Directive"))

    def take_record(self, is_indented, words):
        owner = self.owner if is_indented else name_of(words[0], self.origin, "Name")
        if owner is None:
            raise Refused("Name")
        words, ttl, has_class = words[0 if is_indented else 1 :], None, False
        while words:
            if ttl is None and words[0][0][:1].isdigit():
                ttl = time_of(words[0], "Ttl")
            elif not has_class and not words[0][1] and words[0][0].upper() == b"IN":
                has_class = True
            else:
                break
            words = words[1:]
        given = next((one for one in (ttl, self.default, self.stated) if one is not None), None)
        is_soa = bool(words) and not words[0][1] and words[0][0].upper() in (b"SOA", b"TYPE6")
        if given is None and not is_soa:
            raise Refused("Ttl")
        number, is_numbered = type_of(words[0] if words else (b"", False))
        data = data_of(number, is_numbered, words[1:], self.origin)
        self.put(owner, int.from_bytes(data[-4:], "big") if given is None else given, number, data)
        self.owner, self.stated = owner, self.stated if ttl is None else ttl

    def put(self, owner, ttl, number, data):
        """An equal datum takes the place of the earlier one."""
        if owner[max(0, len(owner) - len(self.zone)) :] != self.zone:
            raise Refused("OutOfZone")
        if number == SOA and (owner != self.zone or any(one[2] == SOA for one in self.records)):
            raise Refused("NotOneSoa")
        beside = [one for one in self.records if one[0] == owner and CNAME in (one[2], number)]
        if any((one[2], one[3]) != (number, data) for one in beside):
            raise Refused("AliasBesideOther")
        equal = [place for place, one in enumerate(self.records) if (one[0], *one[2:]) == (owner, number, data)]
        place = equal[0] if equal else len(self.records)
        self.records[place : place + 1] = [(owner, ttl, number, data)]


def read(text, zone):
    """The records, or the line and kind of the first fault."""
    reader = Reader(zone)
    for line, is_indented, words, faults in entries_of(text):
        try:
            if faults:
                raise Refused(min(faults))  # Paren comes before Quote
            reader.take(is_indented, words)
        except Refused as fault:
            return line, fault.args[0]
    return reader.records if any(one[2] == SOA for one in reader.records) else (0, "NotOneSoa")


# What the program is due to say.


def query(name):
    return bytes.fromhex("123401000001000000000000") + name_bytes(name) + bytes([0, 255, 0, 1])


def reply(name, zone, records):
    """The records of a name by ascending type; or a referral, with the NS of the highest cut."""
    tops = [name[place:] for place in range(len(name) - len(zone) - 1, -1, -1)]
    cuts = [top for top in tops if any(one[0] == top and one[2] == NS for one in records)]
    answers = [] if cuts else sorted((one for one in records if one[0] == name), key=lambda one: one[2])
    authority = [one for one in records if one[0] == cuts[0] and one[2] == NS] if cuts else []
    head = bytes([0x12, 0x34, 0x81 if cuts else 0x85, 0, 0, 1, 0, len(answers), 0, len(authority), 0, 0])
    return head + query(name)[12:] + b"".join(record_bytes(*one) for one in answers + authority)


def record_bytes(owner, ttl, number, data):
    numbers = ((number, 2), (1, 2), (ttl, 4), (len(data), 2))
    return name_bytes(owner) + b"".join(value.to_bytes(size, "big") for value, size in numbers) + data


def framed(message):
    return (len(message).to_bytes(2, "big") + message).hex()


def expected(found, zone):
    """The event text, the output and the status."""
    if isinstance(found, tuple):
        return "", f"zone text line {found[0]}: {found[1]}\n", 2
    names = sorted({one[0] for one in found})
    events = ["A 0 1 7f000001 53 0", *(f"B 0 1 {framed(query(name))}" for name in names)]
    serial = next(int.from_bytes(one[3][-20:-16], "big") for one in found if one[2] == SOA)
    lines = [*(f"C 1 {framed(reply(name, zone, found))}" for name in names)]
    lines += [f"serial {serial}", f"journal_len {len(found) + 1}", "open 1"]
    return "".join(line + "\n" for line in events), "".join(line + "\n" for line in lines), 0


def written(origin, text, events):
    """What the program says, also on standard error where that is not due."""
    with tempfile.NamedTemporaryFile(dir="/dev/shm" if os.path.isdir("/dev/shm") else None) as file:
        file.write(text)
        file.flush()
        command = [PROGRAM, "events", origin, f"--zone={file.name}"]
        run = subprocess.run(command, input=events.encode(), stdout=subprocess.PIPE, stderr=subprocess.PIPE, timeout=BOUND)
    said = run.stdout + reasons.beside(run.returncode, run.stderr)
    return said.decode(errors="replace"), run.returncode


# The texts. A word of bytes is taken from those that are of a form, and seldom from those that are not.

ORIGINS = {"z.": (b"z",), "Ex.Z": (b"ex", b"z"), ".": ()}
LONG = b"l" * 63
LONGEST = b".".join([LONG, LONG, LONG, b"l" * 61])  # 255 bytes with the closing zero
GOOD = {
    "name": rb"""a a A b c.a d.c.a @ *.a * a.z. A.Z. b.ex.z. z. ex.z. . a\.b \097 \065 \@ 1 1a \; a\(b \000 \255
        x-_""".split() + [b"\xc3\xa9"],
    "time": b"0 1 60 007 1h 1H30m 2W 1d1D 5s0m 4294967295 49710d6h28m15s 00000000000000000001 7101w1d".split(),
    "short": b"0 1 10 65535 00065535".split(),
    "long": b"0 7 7 4294967295 01".split(),
    "address": b"192.0.2.1 192.0.2.1 192.0.2.2 0.0.0.0 255.255.255.255 1.20.3.100".split(),
    "long address": b"""
        :: ::1 1:: 1:2:3:4:5:6:7:8 ::1.2.3.4 1:2:3:4:5:6:1.2.3.4 fE80::ABcd 1::8 1:2:3:4:5:6:7:: ::2:3:4:5:6:7:8
        1:2:3::5:6:7:8 ::ffff:192.0.2.1 0001::0a 1::3:4:5:6:1.2.3.4 1:2:3:4:5::1.2.3.4""".split(),
    "string": [b'"w"', b'"w"', b"w", b'""', rb'"a b;(\"c"', rb"\"", rb"a\;b", rb"\032", rb'"\065"', b"\xff", b"$x", b"s" * 255],
    "type": b"A A NS NS CNAME PTR MX MX TXT TXT AAAA AAAA SRV".split(),
}
FAULTY = {
    "name": rb'a..b .a \256 a\1 a\ "a" .. a\12x. "" a\ c.com. z zz. a.z..'.split() + [LONG + b"l", LONGEST + b"l."],
    "time": b'''4294967296 49710d6h28m16s 1x 1h30 h 1hh -1 +1 1.5 "1" 7102w 99999999999999999999w 18446744073709551617
        1w1'''.split(),
    "short": rb'65536 -1 +1 x 1h 0x1 "1" 18446744073709551616 \049'.split(),
    "long": b'4294967296 -1 1h x 18446744073709551623 "7"'.split(),
    "address": rb'''256.1.1.1 1.2.3 1.2.3.4.5 01.2.3.4 1.2.3.00 1..2.3 1.2.3.4. .1.2.3 a.b.c.d "1.2.3.4" 1.2.3.+4
        \049.2.3.4 1'''.split(),
    "long address": b'''
        ::: 1::2::3 1:2:3:4:5:6:7 1:2:3:4:5:6:7:8:9 12345:: 1:2:3:4:5:6:7:8:: ::1.2.3 ::1.2.3.256 1.2.3.4:: g:: :
        1:2:3:4:5:6:7: :1:2:3:4:5:6:7 "::1" ::1.2.3.4:5 1:2:3:4:5:6:7:1.2.3.4 ::01.2.3.4 1:2:3:4:1.2.3.4 1::2: :1:: 1:::2
        1:2:3:4:5:6::1.2.3.4 ::1:2:3:4:5:6:7:8 1.2.3.4 1:2:3:4::5:6:7:8 00001:: 1:1.2.3.4::'''.split(),
    "string": [rb"\256", rb"\1", rb"\12x", b"a\\", rb'"\999"', b'"a', b"s" * 256],
    "type": rb'''SOA TYPE0 TYPE41 TYPE128 TYPE255 TYPE01 TYPE65536 TYPE B AX "A" CH DS TYPE-1 TYPE1x ANY \A TYPE1 TYPE6
        TYPE16 TYPE99999'''.split(),
}
ALPHABETS = {
    "name": rb"aZ.\\012@5",
    "time": b"01449wdhmsH",
    "short": b"06553",
    "long": b"4294967296",
    "address": b"0125...",
    "long address": b":::1aF.0",
    "string": rb'\\"a 0125;',
    "type": b"TYPEA0129",
}
GENERAL = b"TYPE65280 type1234 TYPE43 TYPE127 TYPE256 TYPE65535 TYPE40".split()
FAULTY_GENERAL = [rb"\# 1", rb"# 1 00", rb"\# 0", rb"\# 1 000", rb"\# 1 00 0", rb"\# 1 g0", rb'\# 1 "00"', rb"\# x 00", b""]
KNOWN = [
    *(rb"TYPE1 \# 4 c0000201", rb"TYPE1 \# 3 c00002", rb"TYPE1 \# 5 c000020100", rb"TYPE28 \# 16 " + b"0a" * 16),
    *(rb"TYPE28 \# 15 " + b"0a" * 15, rb"TYPE2 \# 3 014200", rb"TYPE5 \# 5 0142015a00", rb"TYPE12 \# 1 00"),
    *(rb"TYPE12 \# 2 c000", rb"TYPE12 \# 2 c00b", rb"TYPE12 \# 2 c00c", rb"TYPE12 \# 4 0142c00b", rb"TYPE12 \# 4 01420000"),
    *(rb"TYPE12 \# 2 0142", rb"TYPE12 \# 3 404200", rb"TYPE15 \# 5 4142014200", rb"TYPE15 \# 2 4142", rb"TYPE15 \# 4 0001c000"),
    *(rb"TYPE33 \# 9 414243444546014200", rb"TYPE33 \# 8 000100010001c000", rb"TYPE16 \# 4 03416263", rb"TYPE16 \# 3 034162"),
    *(rb"TYPE16 \# 1 00", rb"TYPE16 \# 2 0061", rb"TYPE6 \# 29 014100014200 " + b"00" * 20 + b" 000000", rb"TYPE6 \# 22 " + b"00" * 22),
    *(rb"TYPE6 \# 23 00c000" + b"00" * 20, rb"TYPE6 \# 21 " + b"00" * 21, rb"TYPE6 \# 25 014200c000" + b"00" * 20),
    *(rb"TYPE6 \# 27 0142000143c000" + b"00" * 20, rb"TYPE6 \# 25 014200c003" + b"00" * 20, rb"TYPE15 \# 4 0141c000"),
    *(rb"TYPE15 \# 4 0000c000", rb"TYPE15 \# 4 0000c001", rb"TYPE15 \# 4 0000c002", rb"TYPE15 \# 6 00000142c000"),
    *(rb"TYPE15 \# 6 00000142c002", rb"TYPE33 \# 8 014200000000c000", rb"TYPE33 \# 8 014200000000c006", rb"TYPE33 \# 7 014200000000c0"),
]
WIRE_NAMES = [[], [b"a"], [b"A", b"z"], [b"b", b"Z"], [b"*", b"a.B"], [b"@[`{"], [b"L" * 63] * 3 + [b"l" * 61], [b"\0\xff"]]
FAULTY_FRONTS = [b"CH", b"IN IN", b"1 1", b"1 IN 1", b'"IN"', b'"1"', b"CLASS1", b"1 CH", b"1IN"]
FAULTY_ENTRIES = [
    *(b"$INCLUDE f", b"$", b"$TTL", b"$ORIGIN", b"$ORIGIN a b", b"$TTL 1 1", b"$TTL 1x", b"$ORIGINS a", b"a"),
    *(b"$a 1 A 1.2.3.4", b'"$TTL" 1', b"$ORIGIN 1..", b"a IN", b"a 1"),
    *(b'a 1 TXT ( "', b'a 1 TXT ) "', b"a 1 TXT (", b"a 1 TXT )"),
]
WITHIN_LINES = {
    "name": [b"%s 1 A 192.0.2.1", b"a NS %s", b"a SRV 1 1 1 %s", b"$ORIGIN %s\nb 1 A 192.0.2.1"],
    "time": [b"a %s A 192.0.2.1", b"a IN %s A 192.0.2.1", b"$TTL %s\na A 192.0.2.1", b"@ SOA a b 7 1 1 1 %s"],
    "short": [b"a MX %s b", b"a SRV 1 %s 1 b"],
    "long": [b"@ SOA a b %s 1 1 1 1"],
    "address": [b"a A %s", b"a AAAA 1::%s"],
    "long address": [b"a AAAA %s"],
    "string": [b"a TXT %s", b"a TXT x %s y"],
    "type": [b"a 1 %s 192.0.2.1", b"a %s"],
    "general": [b"a TYPE300 %s", b"a TYPE1 %s"],
    "known": [b"a %s", b"a 1 %s\na 2 %s", b"@ %s"],
    "front": [b"a %s A 192.0.2.1"],
    "entry": [b"%s"],
}
CROWD_OWNERS = b"a A a b @ c.a a.z. z. y. *".split() + [b"", b""]
CROWD_DATA = [
    *(b"A 1.2.3.4", b"A 1.2.3.4", b"A 1.2.3.5", b"AAAA ::1", b"AAAA 0::0:1", b"TXT x", b"TXT X", b'TXT "x"', b'TXT x ""'),
    *(b"CNAME b", b"CNAME B", b"CNAME b", b"CNAME c", b"NS a", b"NS A", b"MX 1 a", b"MX 01 A", b"MX 2 a", b"SRV 1 1 1 a"),
    *(rb"TYPE300 \# 1 ab", rb"type300 \# 1 AB", rb"TYPE1 \# 4 01020304", rb"TYPE2 \# 5 0141017A00", b"PTR a", b"SOA a b 7 1 1 1 1"),
]
AIMED = [(field, word) for pool in (GOOD, FAULTY) for field in pool for word in pool[field]]
AIMED += [("known", word) for word in KNOWN]
AIMED += [("general", word) for word in FAULTY_GENERAL] + [("front", word) for word in FAULTY_FRONTS]
AIMED += [("entry", word) for word in FAULTY_ENTRIES]
MARKS = [
    *(b"(", b")", b'"', b"\\", b";", b"\r", b"\n", b" ", b"\t", b"$", b"@", b".", b"0", b"\0", b"\xff"),
    *(b"( ", b"\n ", b"\r\n", b"\\\n", b'""'),
]
GAPS = [b" "] * 8 + [b"\t", b"  ", b" \t "]
OPENED = [b"(", b"( ", b"(\n", b"(;\n"]
CLOSED = [b")", b" ) ", b"\n)", b"())", b"())", b"()))"]
WITHIN = [b"\n", b"", b"\n ", b" ; n )\n", b"\r\n\t", b"\n\n"]
NOTES = [b" ; note", b";", b" ;( \"", b"\t;\\"]
ENDS = [b"\n"] * 8 + [b"\r\n", b"\n\n", b"\n \t\n;\n"]


class Texts:
    """Texts by chance."""

    def __init__(self, seed):
        self.seed, self.chance, self.faulty = seed, random.Random(seed), 0.02
        self.origin = "z." if seed % 3 == 2 else self.chance.choice(list(ORIGINS))

    def often(self, share):
        return self.chance.random() < share

    def word(self, field):
        if field == "name" and self.often(0.02):
            return self.long_name()
        if self.often(self.faulty):
            return self.scribble(ALPHABETS[field], 12) if self.often(0.5) else self.chance.choice(FAULTY[field])
        return self.chance.choice(GOOD[field])

    def scribble(self, alphabet, most):
        return bytes(self.chance.choices(alphabet, k=self.chance.randrange(1, most)))

    def long_name(self):
        """A name near the greatest length."""
        whole = LONGEST[: 253 - self.chance.randrange(5)].rstrip(b".")
        return whole + b"." if self.often(0.5) else whole[: len(whole) - self.chance.randrange(10)].rstrip(b".")

    def general(self):
        """A type by its number, and its data in general form."""
        if self.often(2 * self.faulty):
            return [self.chance.choice(GENERAL), *self.chance.choice(FAULTY_GENERAL).split()]
        if self.often(0.7):
            kind = self.chance.choice([one for one in TYPES if one != b"SOA"])
            return [b"TYPE%d" % TYPES[kind], *self.digits(self.known(kind))]
        return [self.chance.choice(GENERAL), *self.digits(self.chance.randbytes(self.chance.randrange(1, 7)))]

    def digits(self, data):
        """The words of the general form for these bytes."""
        digits = b"".join(self.chance.choice([b"%02x", b"%02X"]) % byte for byte in data)
        place = self.chance.randrange(len(digits) + 1)
        parts = [part for part in (digits[:place], digits[place:]) if part]
        return [rb"\#", b"%d" % len(data), *parts]

    def known(self, kind):
        """The bytes of data of a type, perhaps spoiled; at least one."""
        form = FORMS.get(TYPES[kind], ["string"] * self.chance.choice([1, 1, 2, 3]))
        data = b"".join(self.field(field) for field in form)
        if self.often(0.3 if self.faulty else 0):
            place = self.chance.randrange(len(data) + 1)
            more = self.chance.choice([b"", b"", b"\0", b"a", b"\xc0\x00", b"\xc0\x01", b"\xc0\x0b", b"\xc0\x0c", b"\x40", b"\x80"])
            data = data[:place] + more + self.chance.choice([data[place:], data[place + 1 :], b""])
        return data or b"\0"

    def field(self, field):
        """The bytes of one field."""
        if field == "name":
            return b"".join(bytes([len(label)]) + label for label in self.chance.choice(WIRE_NAMES)) + b"\0"
        if field == "string":
            return self.chance.choice([b"\0", b"\1w", b"\3aBc", b"\xff" + b"S" * 255])
        return self.chance.randbytes(SIZES[field])

    def data(self, kind=None):
        """The words of a type and its data."""
        if kind is None and self.often(0.1):
            return self.general()
        kind = kind or self.word("type")
        form = FORMS.get(TYPES.get(kind), ["string"] * self.chance.choice([1, 1, 2, 3]))
        words = [kind.lower() if self.often(0.1) else kind, *(self.word(field) for field in form)]
        if self.often(self.faulty):
            return self.chance.choice([words[:-1], [*words, b"1"], [*words, b'""'], words[:1]])
        return words

    def record(self, owner, kind=None):
        fronts = [[], [self.word("time")], [b"IN"], [self.word("time"), b"IN"], [b"in", self.word("time")]]
        if self.often(self.faulty):
            fronts = [self.chance.choice(FAULTY_FRONTS).split()]
        return [owner, *self.chance.choice(fronts), *self.data(kind)]

    def entry(self):
        """The words of an entry; the owner has no bytes where it is left out."""
        if self.often(0.1):
            return [self.chance.choice([b"$TTL", b"$ttl"]), self.word("time")]
        if self.often(0.1):
            return [self.chance.choice([b"$ORIGIN", b"$Origin"]), self.word("name")]
        if self.often(self.faulty):
            return self.chance.choice(FAULTY_ENTRIES).split()
        return self.record(b"" if self.often(0.2) else self.word("name"))

    def line(self, words):
        """An entry as it may be written: with blanks, brackets and comments."""
        gaps = self.chance.choices(GAPS, k=len(words))
        if len(words) > 2 and self.often(0.2):
            opened, closed = sorted(self.chance.choices(range(1, len(words)), k=2))
            for place in range(opened, closed):
                gaps[place] += self.chance.choice(WITHIN)
            gaps[opened - 1] += self.chance.choice(OPENED)
            gaps[closed] = self.chance.choice(CLOSED) + gaps[closed]
        if self.often(0.8):
            gaps[-1] = gaps[-1].rstrip(b" \t")
        note = self.chance.choice(NOTES) if self.often(0.1) else b""
        indent = b" " if words[0].startswith(b"$") and self.often(0.1) else b""
        whole = b"".join(word + gap for word, gap in zip(words, gaps))
        return indent + whole + note + self.chance.choice(ENDS)

    def text(self):
        return (self.mixed, self.aimed, self.crowded)[self.seed % 3]()

    def aimed(self):
        """A text in which one word matters, of all words in turn."""
        field, word = AIMED[self.seed // 3 % len(AIMED)]
        line = self.chance.choice(WITHIN_LINES[field]).replace(b"%s", word)
        default = self.chance.choice([b"", b"$TTL 5\n", b"$TTL 5\n", b"$TTL 5\n"])
        return default + b"@ SOA a b 7 1 1 1 1\n" + line + self.chance.choice([b"", b"\n", b"\n\nb 1 NS a\nx\n"])

    def crowded(self):
        """A text of entries that meet one another: few owners, equal data, aliases, other origins and TTLs."""
        lines = []
        for _ in range(self.chance.randrange(2, 6)):
            owner, data = self.chance.choice(CROWD_OWNERS), self.chance.choice(CROWD_DATA)
            lines.append(owner + self.chance.choice([b" ", b" 1 ", b" 2 IN ", b" IN "]) + data)
        lines.insert(self.chance.choice([0, 0, 0, len(lines)]), self.chance.choice([b"@", b"z."]) + b" 9 SOA a b 7 1 1 1 1")
        if self.often(0.2):
            directive = self.chance.choice([b"$ORIGIN a", b"$ORIGIN z.", b"$ORIGIN y.", b"$TTL 3"])
            lines.insert(self.chance.randrange(len(lines) + 1), directive)
        return b"\n".join(lines)

    def mixed(self):
        """A text of several entries."""
        self.faulty = self.chance.choice([0, 0, 0, 0.02, 0.05, 0.1])
        lines = [self.line(self.entry()) for _ in range(self.chance.randrange(0, 7))]
        soa = self.line(self.record(self.chance.choice([b"@", self.origin.rstrip(".").encode() + b"."]), b"SOA"))
        lines.insert(0 if self.often(0.85) else self.chance.randrange(len(lines) + 1), soa if self.often(0.98) else b"")
        lines.insert(0, b"$TTL 5\n" if self.often(0.5) else b"")
        if self.often(0.1):
            lines.append(b"a 1 TXT b" + self.scribble(b'ab1\\\\"() \t;;\r\n\n', 30))
        whole = b"".join(lines)
        for _ in range(self.chance.choice([0, 0, 0, 1, 2])):
            whole = self.changed(whole)
        return whole[:-1] if whole.endswith(b"\n") and self.often(0.1) else whole

    def changed(self, text):
        """A text with a mark more, a byte less, or a piece twice."""
        first, second = sorted(self.chance.choices(range(len(text) + 1), k=2))
        return self.chance.choice(
            [
                text[:first] + self.chance.choice(MARKS) + text[first:],
                text[:first] + text[first + 1 :],
                text[:first] + self.chance.choice(MARKS) + text[first + 1 :],
                text[:second] + text[first : min(second, first + 40)] + text[second:],
            ]
        )


def differs(seed):
    """What the program says otherwise than the reader, none where they agree."""
    texts = Texts(seed)
    text, zone = texts.text(), ORIGINS[texts.origin]
    events, due, status = expected(read(text, zone), zone)
    said = written(texts.origin, text, events)
    if said == (due, status):
        return None
    return f"text {seed}, origin {texts.origin}:\n{text}\ndue, status {status}:\n{due}written, status {said[1]}:\n{said[0]}"


def main():
    if not os.path.exists(PROGRAM):
        sys.exit("zone_texts.py: the program is not built: run rt ci first")
    with ThreadPoolExecutor(os.cpu_count()) as pool:
        found = [one for one in pool.map(differs, range(TEXTS)) if one is not None]
    for one in found[:3]:
        print(one)
    print(f"zone texts: {TEXTS - len(found)} passed, {len(found)} failed")
    sys.exit(1 if found else 0)


if __name__ == "__main__":
    main()
