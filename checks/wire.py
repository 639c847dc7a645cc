"""Names, questions and records in text, and their bytes in a message (RFC 1035 3.1, 3.2.1, 4.1; 5.1 for the text)."""

import re

TYPES = {"A": 1, "NS": 2, "CNAME": 5, "SOA": 6, "PTR": 12, "MX": 15, "TXT": 16, "AAAA": 28, "SRV": 33, "DS": 43, "ANY": 255}
CLASSES = {"IN": 1, "CH": 3, "NONE": 254, "ANY": 255}
CODES = {"NOERROR": 0, "FORMERR": 1, "SERVFAIL": 2, "NXDOMAIN": 3, "NOTIMP": 4, "REFUSED": 5}
CODES |= {"YXDOMAIN": 6, "YXRRSET": 7, "NXRRSET": 8, "NOTAUTH": 9, "NOTZONE": 10}


def name_bytes(text):
    """A name; \\DDD in a label is the byte of that number, and there are no other escapes."""
    labels = [re.sub(r"\\(\d{3})", byte_of, label).encode("latin-1") for label in text.rstrip(".").split(".") if label]
    return b"".join(bytes([len(label)]) + label for label in labels) + b"\0"


def byte_of(escape):
    return chr(int(escape[1]))


def number(text, size):
    return int(text).to_bytes(size, "big")


def type_number(kind):
    """A type, by its name or as TYPEn (RFC 3597 5)."""
    return TYPES[kind] if kind in TYPES else int(kind.removeprefix("TYPE"))


def data_bytes(kind, words):
    """The data of a record: of the types A, NS, CNAME, PTR, MX, SRV, SOA, TXT, or of any type as \\# N HEX."""
    if words[0] == "\\#":
        return bytes.fromhex("".join(words[2:]))
    if kind == "A":
        return bytes(int(part) for part in words[0].split("."))
    if kind in ("NS", "CNAME", "PTR"):
        return name_bytes(words[0])
    if kind in ("MX", "SRV"):
        return b"".join(number(word, 2) for word in words[:-1]) + name_bytes(words[-1])
    if kind == "SOA":
        return name_bytes(words[0]) + name_bytes(words[1]) + b"".join(number(word, 4) for word in words[2:])
    if kind == "TXT":
        strings = [word.strip('"').encode() for word in words]
        return b"".join(bytes([len(string)]) + string for string in strings)
    raise ValueError(f"no data of type {kind}")


def record_bytes(text):
    """A record: owner, TTL, class, type, data. There need be no data."""
    owner, ttl, klass, kind, *words = text.split()
    data = data_bytes(kind, words) if words else b""
    head = name_bytes(owner) + number(type_number(kind), 2) + number(CLASSES[klass], 2) + number(ttl, 4)
    return head + number(len(data), 2) + data


def question_bytes(name, kind, klass="IN"):
    return name_bytes(name) + number(type_number(kind), 2) + number(CLASSES[klass], 2)


def query(name, kind):
    """A query with the id 1234 (hexadecimal) and RD."""
    return bytes.fromhex("123401000001000000000000") + question_bytes(name, kind)


def reply(name, kind, words, answers, authority):
    """Its reply: a code, and perhaps aa; and records."""
    flags = 0x8100 | (0x0400 if "aa" in words else 0) | CODES[words[0]]
    counts = [1, len(answers), len(authority), 0]
    head = bytes.fromhex("1234") + number(flags, 2) + b"".join(number(count, 2) for count in counts)
    return head + question_bytes(name, kind) + b"".join(record_bytes(one) for one in answers + authority)


def update(zone, prerequisites, updates):
    """An update with the id 1234 (hexadecimal): name, type and class of the zone section, and records (RFC 2136 2)."""
    counts = [1, len(prerequisites), len(updates), 0]
    head = bytes.fromhex("12342800") + b"".join(number(count, 2) for count in counts)
    return head + question_bytes(*zone) + b"".join(record_bytes(one) for one in prerequisites + updates)


def update_reply(zone, code):
    """Its reply, which repeats the zone section alone."""
    return bytes.fromhex("1234") + number(0xA800 | CODES[code], 2) + bytes.fromhex("0001000000000000") + question_bytes(*zone)
