"""A plain model of one server over its zone: reading a message, looking a question up, judging and doing an update, the
journal's rows, and the reply in bytes. One function a rule, written from the standards and docs/PROFILE.md; it knows nothing of
the program's code.

A name is the tuple of its labels from the left. The data of a record is the tuple of its parts: a name, or bytes; no data is the
empty tuple. A zone is the list of its records. A rule that decides gives its own name beside what it decides.
"""

from collections import Counter, namedtuple

A, NS, CNAME, SOA, PTR, MX, TXT, AAAA, SRV, OPT, DS = 1, 2, 5, 6, 12, 15, 16, 28, 33, 41, 43
IXFR, AXFR, ANY = 251, 252, 255
IN, NONE = 1, 254  # the class ANY has the number of the type
NOERROR, FORMERR, NXDOMAIN, NOTIMP, REFUSED = 0, 1, 3, 4, 5
YXDOMAIN, YXRRSET, NXRRSET, NOTAUTH, NOTZONE, BADVERS = 6, 7, 8, 9, 10, 16
QUERY, UPDATE = 0, 5
META = {0, OPT, *range(128, 256)}
NAME = "a name"
FORMS = {  # the parts of each type's data: a name, or so many bytes (RFC 1035 3.3, 3.4, RFC 3596 2.2, RFC 2782)
    A: [4], NS: [NAME], CNAME: [NAME], SOA: [NAME, NAME, 20], PTR: [NAME], MX: [2, NAME], AAAA: [16], SRV: [6, NAME],
}  # fmt: skip

Record = namedtuple("Record", "name kind klass ttl data")
Question = namedtuple("Question", "name kind klass")
Edns = namedtuple("Edns", "payload version dnssec_ok")
Message = namedtuple("Message", "opcode questions answers authority additional edns")


# Names, and what is written.


def folded(name):
    """A name with small letters (RFC 1035 2.3.3)."""
    return tuple(label.lower() for label in name)


def is_at_or_below(name, other):
    """Of folded names."""
    return len(name) >= len(other) and name[len(name) - len(other) :] == other


def folded_record(record):
    """A record with its owner and the names in its data in small letters."""
    data = tuple(folded(part) if isinstance(part, tuple) else part for part in record.data)
    return record._replace(name=folded(record.name), data=data)


def number(value, size):
    return value.to_bytes(size, "big")


def name_bytes(name):
    return b"".join(bytes([len(label)]) + label for label in name) + b"\0"


def data_bytes(record):
    return b"".join(name_bytes(part) if isinstance(part, tuple) else part for part in record.data)


def record_bytes(record):
    data = data_bytes(record)
    head = number(record.kind, 2) + number(record.klass, 2) + number(record.ttl, 4) + number(len(data), 2)
    return name_bytes(record.name) + head + data


# A message that is read (RFC 1035 4.1, RFC 6891 6.1).


class Outside(Exception):
    """The bytes are no message."""


def taken(message, at, size):
    if at + size > len(message):
        raise Outside
    return message[at : at + size]


def read_number(message, at, size):
    return int.from_bytes(taken(message, at, size), "big")


def read_labels(message, begun, at):
    """The labels from a place on, in the sequence that began at another, and the place behind them (RFC 1035 4.1.4)."""
    octet = read_number(message, at, 1)
    if octet == 0:
        return (), at + 1
    if octet < 64:
        label = taken(message, at + 1, octet)
        more, end = read_labels(message, begun, at + 1 + octet)
        return (label, *more), end
    target = read_number(message, at, 2) & 0x3FFF
    if octet < 192 or target >= begun:
        raise Outside
    return read_labels(message, target, target)[0], at + 2


def read_name(message, at):
    name, end = read_labels(message, at, at)
    if len(name_bytes(name)) > 255:
        raise Outside
    return name, end


def read_question(message, at):
    name, at = read_name(message, at)
    return Question(name, read_number(message, at, 2), read_number(message, at + 2, 2)), at + 4


def are_strings(data):
    """Whether bytes are strings, each behind its length (RFC 1035 3.3.14)."""
    while data:
        if len(data) < 1 + data[0]:
            return False
        data = data[1 + data[0] :]
    return True


def read_data(message, kind, at, size):
    """The data of so many bytes. Without a byte it is empty, whatever the type."""
    data = taken(message, at, size)
    if kind not in FORMS or size == 0:
        if kind == TXT and not are_strings(data):
            raise Outside
        return (data,) if size else ()
    parts, end = [], at + size
    for form in FORMS[kind]:
        part, at = read_name(message, at) if form is NAME else (taken(message, at, form), at + form)
        parts.append(part)
    if at != end:
        raise Outside
    return tuple(parts)


def read_record(message, at):
    name, at = read_name(message, at)
    kind, klass, ttl, size = (read_number(message, at + place, width) for place, width in ((0, 2), (2, 2), (4, 4), (8, 2)))
    return Record(name, kind, klass, ttl, read_data(message, kind, at + 10, size)), at + 10 + size


def read_message(message):
    """The message. Bytes behind the last record are free."""
    counts = [read_number(message, place, 2) for place in (4, 6, 8, 10)]
    at, questions, sections, edns = 12, [], [[], [], []], None
    for _ in range(counts[0]):
        question, at = read_question(message, at)
        questions.append(question)
    for section, count in zip(sections, counts[1:]):
        for _ in range(count):
            record, at = read_record(message, at)
            if record.kind != OPT:
                section.append(record)
            elif section is not sections[2] or edns is not None or record.name != ():
                raise Outside
            else:
                edns = Edns(record.klass, record.ttl >> 16 & 255, bool(record.ttl & 0x8000))
    return Message(message[2] >> 3 & 15, questions, *sections, edns)


# The reply that is written (RFC 1035 4.1.1, 4.1.2, RFC 6891 6.1.3).


def written(request, code, limit, question=None, aa=False, answers=(), authority=(), edns=None):
    """A reply under a limit: the longest front of the records that fits."""
    head = b"" if question is None else name_bytes(question.name) + number(question.kind, 2) + number(question.klass, 2)
    ttl = (code >> 4 << 24) | (0x8000 if edns and edns.dnssec_ok else 0)
    opt = b"" if edns is None else bytes.fromhex("000029") + number(max(512, edns.payload), 2) + number(ttl, 4) + bytes(2)
    records = [record_bytes(record) for record in (*answers, *authority)]
    kept = len(records)
    while 12 + len(head) + sum(map(len, records[:kept])) + len(opt) > limit:
        kept -= 1
    flags = 0x8000 | (request[2] << 8 | request[3]) & 0x7910 | code & 15  # opcode, RD and CD are the request's
    flags |= (0x0400 if aa else 0) | (0x0200 if kept < len(records) else 0)
    first = min(kept, len(answers))
    counts = [0 if question is None else 1, first, kept - first, 0 if edns is None else 1]
    return request[:2] + number(flags, 2) + b"".join(number(n, 2) for n in counts) + head + b"".join(records[:kept]) + opt


# A question that is looked up (RFC 1034 4.3.2, RFC 2308, RFC 4592, RFC 6604).


def owns(zone, name, kind=None):
    return any(record.name == name and kind in (None, record.kind) for record in zone)


def exists(zone, name):
    return any(is_at_or_below(record.name, name) for record in zone)


def names_above(name, origin):
    """A name and those above it, up to the origin."""
    return [name[place:] for place in range(len(name) - len(origin) + 1)]


def cut(zone, origin, name, kind):
    """The topmost name below the origin, at or above the name, that owns NS; none for DS of that very name (RFC 4035 3.1.4.1)."""
    found = [above for above in names_above(name, origin) if above != origin and owns(zone, above, NS)]
    return None if not found or (found[-1] == name and kind == DS) else found[-1]


def found_at(zone, origin, name):
    """The records of a name, or of the wildcard below its closest encloser; none where there is neither (RFC 4592 3.3.1)."""
    if exists(zone, name):
        return [record for record in zone if record.name == name]
    encloser = next(above for above in names_above(name, origin) if exists(zone, above))
    wildcard = (b"*", *encloser)
    return [record._replace(name=name) for record in zone if record.name == wildcard] if exists(zone, wildcard) else None


def look(zone, origin, name, kind):
    """One look: what it finds, and the records."""
    cut_name = cut(zone, origin, name, kind)
    if cut_name is not None:
        return "referral", [record for record in zone if (record.name, record.kind) == (cut_name, NS)]
    found = found_at(zone, origin, name)
    if found is None:
        return "no such name", []
    aliases = [record for record in found if record.kind == CNAME]
    if aliases and kind not in (CNAME, ANY):
        return "alias", aliases
    data = sorted((record for record in found if kind in (ANY, record.kind)), key=lambda record: record.kind)
    return ("data", data) if data else ("no data", [])


def chain(zone, origin, name, kind, asked):
    """The code, answers and authority of a chain of looks, and what each look found; asked are the names so far."""
    found, records = look(zone, origin, name, kind)
    if found == "referral":
        return NOERROR, [], records, [found]
    if found == "data":
        return NOERROR, records, [], [found]
    if found == "alias":
        target = records[0].data[0]
        if len(asked) == 8 or not is_at_or_below(target, origin) or target in asked:
            return NOERROR, records, [], [found, "chain ends"]
        code, answers, authority, looks = chain(zone, origin, target, kind, [*asked, target])
        return code, records + answers, authority, [found, *looks]
    soa = next(record for record in zone if record.kind == SOA)
    negative = soa._replace(ttl=min(soa.ttl, int.from_bytes(soa.data[2][16:], "big")))
    return (NXDOMAIN if found == "no such name" else NOERROR), [], [negative], [found]


# An update that is judged (RFC 2136 3.1, 3.2, 3.4.1): the code of the first rule that fails, or none.


def zone_section(question, origin, are_let_in):
    if question.kind != SOA:
        return FORMERR, "zone of another type"
    if folded(question.name) != origin:
        return NOTAUTH, "another zone"
    if question.klass != IN:
        return NOTAUTH, "zone of another class"
    return (None, "zone named") if are_let_in else (REFUSED, "updates not let in")


def prerequisite(record, origin, zone):
    name = folded(record.name)
    if record.ttl != 0:
        return FORMERR, "prerequisite with TTL"
    if not is_at_or_below(name, origin):
        return NOTZONE, "prerequisite outside"
    if record.klass == ANY and record.data:
        return FORMERR, "prerequisite ANY with data"
    if record.klass == ANY and record.kind == ANY:
        return (None, "name in use") if owns(zone, name) else (NXDOMAIN, "name not in use, should be")
    if record.klass == ANY:
        return (None, "set there") if owns(zone, name, record.kind) else (NXRRSET, "set not there, should be")
    if record.klass == NONE and record.data:
        return FORMERR, "prerequisite NONE with data"
    if record.klass == NONE and record.kind == ANY:
        return (YXDOMAIN, "name in use, should not be") if owns(zone, name) else (None, "name not in use")
    if record.klass == NONE:
        return (YXRRSET, "set there, should not be") if owns(zone, name, record.kind) else (None, "set not there")
    if record.klass == IN:
        return (None, "gathered") if record.data else (FORMERR, "prerequisite IN without data")
    return FORMERR, "prerequisite of another class"


def gathered_set(gathered, name, kind, zone):
    """Whether the data gathered for a name and type are the zone's, as a set (RFC 2136 3.2.3)."""
    of_it = [{record.data for record in records if (record.name, record.kind) == (name, kind)} for records in (gathered, zone)]
    return (None, "set as gathered") if of_it[0] == of_it[1] else (NXRRSET, "set not as gathered")


def prescan(record, origin):
    if not is_at_or_below(folded(record.name), origin):
        return NOTZONE, "update outside"
    has_ttl, is_meta = record.ttl != 0, record.kind in META
    faults = {
        IN: [(is_meta, "IN of a meta type"), (not record.data, "IN without data")],
        ANY: [(has_ttl, "ANY with TTL"), (record.data, "ANY with data"), (is_meta and record.kind != ANY, "ANY of a meta type")],
        NONE: [(has_ttl, "NONE with TTL"), (is_meta, "NONE of a meta type"), (not record.data, "NONE without data")],
    }
    for is_fault, rule in faults.get(record.klass, [(True, "update of another class")]):
        if is_fault:
            return FORMERR, rule
    return None, "update scanned"


def judgements(origin, zone, message, are_let_in):
    """What each rule says, in the order in which they are tried."""
    yield zone_section(message.questions[0], origin, are_let_in)
    for record in message.answers:
        yield prerequisite(record, origin, zone)
    gathered = [folded_record(record) for record in message.answers if record.klass == IN]
    for name, kind in dict.fromkeys((record.name, record.kind) for record in gathered):
        yield gathered_set(gathered, name, kind, zone)
    for record in message.authority:
        yield prescan(record, origin)


# An update that is done (RFC 2136 3.4.2), each record folded: the zone after it.


def serial_of(zone):
    return next(int.from_bytes(record.data[2][:4], "big") for record in zone if record.kind == SOA)


def with_serial(zone, serial):
    """The zone with the serial of its SOA set, where it has one."""
    return [
        record._replace(data=(*record.data[:2], number(serial, 4) + record.data[2][4:])) if record.kind == SOA else record
        for record in zone
    ]


def put(zone, record):
    """The record takes the place of the SOA, of its name's CNAME, of its equal, or comes last."""
    for place, one in enumerate(zone):
        is_alias = record.kind == CNAME and (one.name, one.kind) == (record.name, CNAME)
        is_equal = (one.name, one.kind, one.data) == (record.name, record.kind, record.data)
        if (record.kind == SOA and one.kind == SOA) or is_alias or is_equal:
            return [*zone[:place], record, *zone[place + 1 :]]
    return [*zone, record]


def ignored(zone, origin, record):
    """The rule by which a record of class IN is passed over, or none (RFC 2136 3.4.2.2; serials RFC 1982 3.2)."""
    if record.kind == SOA and record.name != origin:
        return "SOA away from the origin"
    if record.kind == SOA:
        ahead = (int.from_bytes(record.data[2][:4], "big") - serial_of(zone)) % 2**32
        if 1 <= ahead <= 2**31 - 1:
            return None
        return "SOA of the same serial" if ahead == 0 else "SOA 2^31 above" if ahead == 2**31 else "SOA of an older serial"
    if record.kind == CNAME:
        return "CNAME beside others" if any(one.name == record.name and one.kind != CNAME for one in zone) else None
    return "beside a CNAME" if owns(zone, record.name, CNAME) else None


def deleted(zone, origin, record):
    """The zone without what a record of class ANY or NONE names (RFC 2136 3.4.2.3, 3.4.2.4)."""
    is_last_ns = sum((one.name, one.kind) == (origin, NS) for one in zone) == 1

    def goes(one):
        if one.name != record.name:
            return False
        if record.klass == ANY:
            return record.kind in (ANY, one.kind) and not (one.name == origin and one.kind in (SOA, NS))
        is_kept = one.kind == SOA or (is_last_ns and one.name == origin and one.kind == NS)
        return (one.kind, one.data) == (record.kind, record.data) and not is_kept

    return [one for one in zone if not goes(one)]


def changed(zone, origin, record):
    """The zone after one record."""
    if record.klass != IN:
        return deleted(zone, origin, record)
    return zone if ignored(zone, origin, record) else put(zone, record)


def rule_of_change(zone, origin, record):
    """Which rule said what one record does."""
    after = changed(zone, origin, record)
    if record.klass == IN and ignored(zone, origin, record):
        return ignored(zone, origin, record)
    if record.klass == IN and record.kind == SOA:
        return "SOA replaced" if serial_of(after) > serial_of(zone) else "SOA replaced past zero"
    if record.klass == IN and len(after) > len(zone):
        return "CNAME added" if record.kind == CNAME else "record added"
    if record.klass == IN and record.kind == CNAME:
        return "CNAME as it is" if after == zone else "CNAME replaced"
    if record.klass == IN:
        return "equal as it is" if after == zone else "equal with another TTL"
    at_origin = record.name == origin
    if record.klass == ANY and record.kind == ANY:
        return "all at the origin" if at_origin else "all of a name" if after != zone else "nothing of a name"
    if record.klass == ANY and at_origin and record.kind in (SOA, NS):
        return "set of the origin's SOA" if record.kind == SOA else "set of the origin's NS"
    if record.klass == ANY:
        return "set deleted" if after != zone else "no such set"
    if record.kind == SOA:
        return "SOA deleted singly"
    if after != zone:
        return "record deleted"
    is_there = (record.name, record.kind, record.data) in [(one.name, one.kind, one.data) for one in zone]
    return "last NS of the origin" if is_there else "no such record"


def batch(zone, origin, updates):
    """The records that changed anything, the zone after them, and the rules."""
    records, after, rules = [], zone, []
    for record in map(folded_record, updates):
        rules.append(rule_of_change(after, origin, record))
        before, after = after, changed(after, origin, record)
        if after != before:
            records.append(record)
    if not records:
        return [], zone, [*rules, "nothing changed"]
    serial = (serial_of(after) + 1) % 2**32
    rules.append("undone within" if after == zone else "changed")
    if serial == 0:
        rules.append("serial past zero")
    return records, with_serial(after, serial), rules


# The journal's rows, each the serial and the bytes of a record.


def rows_of(records, serial):
    return [(serial, record_bytes(record)) for record in records]


def opening_rows(zone, origin):
    """What a journal begins with: the snapshot row, and a row for each record of the zone."""
    return rows_of([Record(origin, AXFR, IN, 0, ()), *zone], serial_of(zone))


def is_out_of_place(record, origin):
    is_far_soa = record.kind == SOA and record.klass == IN and folded(record.name) != origin
    return prescan(record, origin)[0] is not None or is_far_soa


def replay(origin, rows):
    """The zone that rows stand for, or the first row that is refused, with its kind."""
    zone = []
    for place, (serial, row) in enumerate(rows, 1):
        try:
            record, end = read_record(row, 0)
        except Outside:
            return place, "row is no record"
        if end != len(row):
            return place, "row is no record"
        record = folded_record(record)
        is_snapshot = record == Record(origin, AXFR, IN, 0, ())
        if (place == 1 and not is_snapshot) or not 0 <= serial < 2**32 or (not is_snapshot and is_out_of_place(record, origin)):
            return place, "row out of place"
        zone = [] if is_snapshot else put(zone, record) if record.klass == IN else deleted(zone, origin, record)
        zone = with_serial(zone, serial)
    return zone if any(record.kind == SOA for record in zone) else (len(rows), "not one SOA")


def is_zone(origin, zone):
    """What holds of every zone: one SOA, at the origin; nothing twice; no alias beside other data."""
    keys = [(record.name, record.kind, record.data) for record in zone]
    aliases = [record.name for record in zone if record.kind == CNAME]
    return (
        [record.name for record in zone if record.kind == SOA] == [origin]
        and len(keys) == len(set(keys))
        and all([record.name for record in zone].count(name) == 1 for name in aliases)
        and all(record.klass == IN and is_at_or_below(record.name, origin) and record.data for record in zone)
        and zone == [folded_record(record) for record in zone]
    )


# What a message is owed.


def is_safe(source):
    address, port = source
    return port != 0 and address not in ("00000000", "ffffffff", "0" * 32)


class Server:
    """A zone beside its journal. denied are the hexadecimal digits with which the IPv4 addresses begin that are shut out; payload is how many bytes a
    datagram has at most, those of IPv4 where nothing else is said (RFC 791, RFC 768)."""

    def __init__(self, origin, zone, are_let_in, denied=None, payload=65_507):
        self.origin, self.zone, self.are_let_in, self.denied, self.payload = origin, zone, are_let_in, denied, payload
        self.rows, self.decided = opening_rows(zone, origin), Counter()

    def settle(self, request, source, is_datagram):
        """The reply to a message, or none: the first rule that fits."""
        rule, reply = self.settled(request, source, is_datagram)
        self.decided[rule] += 1
        return reply

    def settled(self, request, source, is_datagram):
        least = 512 if is_datagram else 65_535
        if not is_safe(source):
            return "unsafe source", None
        if len(request) < 12:
            return "no header", None
        if request[2] & 0x80:
            return "a reply", None
        if self.denied and len(source[0]) == 8 and source[0].startswith(self.denied):
            return "shut out", written(request, REFUSED, least, only_question(request))
        try:
            message = read_message(request)
        except Outside:
            return "no message", written(request, FORMERR, least)
        question = message.questions[0] if len(message.questions) == 1 else None
        limit = min(self.payload, max(512, message.edns.payload)) if is_datagram and message.edns else least
        same = {"limit": limit, "question": question, "edns": message.edns}
        if message.edns and message.edns.version > 0:
            return "version of EDNS", written(request, BADVERS, **same)
        if message.opcode not in (QUERY, UPDATE):
            return "another opcode", written(request, NOTIMP, **same)
        if question is None:
            rule = "not one zone" if message.opcode == UPDATE else "not one question"
            return rule, written(request, FORMERR, **same)
        if message.opcode == UPDATE:
            return "update", written(request, self.update(message), **same)
        if question.klass != IN or not is_at_or_below(folded(question.name), self.origin) or question.kind in (IXFR, AXFR):
            return "query refused", written(request, REFUSED, **same)
        name = folded(question.name)
        code, answers, authority, looks = chain(self.zone, self.origin, name, question.kind, [name])
        self.decided.update(looks)
        return "query", written(request, code, aa=looks[0] != "referral", answers=answers, authority=authority, **same)

    def update(self, message):
        """Judges an update, and does and keeps it where it passes: the code."""
        for code, rule in judgements(self.origin, self.zone, message, self.are_let_in):
            self.decided[rule] += 1
            if code is not None:
                return code
        records, self.zone, rules = batch(self.zone, self.origin, message.authority)
        self.decided.update(rules)
        self.rows += rows_of(records, serial_of(self.zone))
        return NOERROR


def only_question(request):
    """The question of bytes that need be no message, where they count one and it reads."""
    try:
        return read_question(request, 12)[0] if request[4:6] == b"\0\1" else None
    except Outside:
        return None
