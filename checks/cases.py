#!/usr/bin/env python3
"""Runs the built program on the cases in checks/cases/*.txt, and on the real files and streams that no data file can name. The cases
of updates are tried over a journal in a file too, and the program is started once more on what is left of it.

A file of cases is read line by line. An empty line, and one that begins with #, says nothing. Every other line is a key, a
colon, and behind one space its value:

  zone: LINE     a line of the zone text. Before the first case: of every case of the file, with more lines of a case behind
                 them
  text: TEXT     zone text as it is, with escapes as for raw
  case: TEXT     begins a case, with what it shows
  words: WORDS   the words of the command line, parted by blanks, with @zone for the path of the zone text and @top for that
                 of the repository; before the first case, of every case of the file. Where there are none: events
                 example.com. --zone=@zone
  add: WORDS     words behind these
  in: LINE       a line of the event text; (HEX)xN in it and a blank stand for these digits N times
  raw: TEXT      event text as it is, with \\n, \\r, \\t, \\\\ and \\xHH for bytes
  ask: NAME TYPE a query by datagram, with RD and the id 1234 (hexadecimal)
  is: CODE [aa]  its reply; behind it
  answer: RECORD     a record of the answer section
  authority: RECORD  a record of the authority section
  update: ZONE   an update by datagram with the id 1234 (hexadecimal), of the zone with this name; a type and a class may stand
                 behind it where they are not SOA and IN. Behind it
  if: RECORD     a prerequisite: owner, TTL, class, type, and data or none
  do: RECORD     an update record, in the same form
  is: CODE       its reply
  out: LINE      a line of the output. HEX...N at its end stands for a word of N bytes that begins with HEX
  outs: N LINE   such a line, N times
  end: S J O     the three closing lines: the zone's serial, the rows of the journal, the open connections
  status: N      the exit status, 0 where nothing is said

Uses the standard library alone, and no network. Each run of the program is bounded in time.
"""

import os
import re
import subprocess
import sys
import tempfile
from concurrent.futures import ThreadPoolExecutor
from pathlib import Path

import reasons
import wire

TOP = Path(__file__).resolve().parent.parent
PROGRAM = TOP / "crates" / "dns_program" / "out" / "dns_program"
BOUND = 60  # seconds
WORDS = "events example.com. --zone=@zone"
KEPT = ("updates.txt", "update_serials.txt")  # the files whose cases are tried over a journal too
UNESCAPED = {"n": b"\n", "r": b"\r", "t": b"\t", "\\": b"\\"}


class Case:
    """What is run, and what is due."""

    def __init__(self, name, zone, words=WORDS):
        self.name, self.zone = name, zone
        self.words, self.more, self.events = words, [], b""
        self.output, self.asked, self.status = [], None, 0
        self.updated, self.before = None, b""

    def take(self, key, value):
        if key == "zone":
            self.zone += value.encode() + b"\n"
        elif key == "text":
            self.zone += unescaped(value)
        elif key == "words":
            self.words = value
        elif key == "add":
            self.more += value.split()
        elif key == "in":
            self.events += repeated(value).encode() + b"\n"
        elif key == "raw":
            self.events += unescaped(value)
        elif key == "out":
            self.output.append(value)
        elif key == "outs":
            count, line = value.split(" ", 1)
            self.output += [line] * int(count)
        elif key == "end":
            serial, rows, connections = value.split()
            self.output += [f"serial {serial}", f"journal_len {rows}", f"open {connections}"]
        elif key == "status":
            self.status = int(value)
        elif key in ("update", "if", "do") or (key == "is" and self.updated):
            self.take_updated(key, value)
        else:
            self.take_asked(key, value)

    def take_updated(self, key, value):
        if key == "update":
            words = value.split()
            self.updated, self.before = ([*words, *["", "SOA", "IN"][len(words) :]], [], []), self.events
            self.output.append("")
        elif key == "is":
            self.output[-1] = f"P 7f000001 5300 {wire.update_reply(self.updated[0], value).hex()}"
        else:
            self.updated[1 if key == "if" else 2].append(value)
        self.events = self.before + f"D 0 7f000001 5300 {wire.update(*self.updated).hex()}\n".encode()

    def take_asked(self, key, value):
        if key == "ask":
            self.updated = None
            self.asked = (*value.split(), [], [], [])
            self.events += f"D 0 7f000001 5300 {wire.query(*value.split()).hex()}\n".encode()
            self.output.append("")
        elif key in ("is", "answer", "authority"):
            name, kind, words, answers, authority = self.asked
            words.extend(value.split() if key == "is" else [])
            answers.extend([value] if key == "answer" else [])
            authority.extend([value] if key == "authority" else [])
            self.output[-1] = f"P 7f000001 5300 {wire.reply(name, kind, words, answers, authority).hex()}"
        else:
            raise ValueError(f"no key of a case: {key}")


def repeated(line):
    """A line with all digits that it stands for."""
    return re.sub(r"\(([0-9a-f]+)\)x([0-9]+) ?", lambda found: found[1] * int(found[2]), line)


def unescaped(text):
    """The bytes that a text with escapes stands for."""
    found = b""
    for plain, letter, digits in re.findall(r"([^\\]+)|\\(?:([nrt\\])|x([0-9a-f]{2}))", text):
        found += plain.encode() if plain else UNESCAPED[letter] if letter else bytes.fromhex(digits)
    return found


def cases_in(path):
    """The cases of a file."""
    zone, words, cases = b"", WORDS, []
    for number, line in enumerate(path.read_text().splitlines(), 1):
        if not line or line.startswith("#"):
            continue
        key, colon, value = line.partition(":")
        if not colon or value[:1] not in ("", " "):
            raise ValueError(f"{path.name}:{number}: no key and value")
        value = value[1:]
        if key == "case":
            cases.append(Case(f"{path.stem}: {value}", zone, words))
        elif cases:
            cases[-1].take(key, value)
        elif key == "zone":
            zone += value.encode() + b"\n"
        elif key == "words":
            words = value
        else:
            raise ValueError(f"{path.name}:{number}: {key} before the first case")
    return cases


def is_line(written, due):
    """Whether a line was written that is due."""
    if "..." not in due:
        return written == due
    front, size = due.split("...")
    begun = front.rsplit(" ", 1)[1]
    words, last = written.rsplit(" ", 1)[0], written.rsplit(" ", 1)[-1]
    return words + " " == front[: -len(begun)] and last.startswith(begun) and len(last) == 2 * int(size)


def ran(words, **streams):
    """The status and the output of a run, and what it says on standard error that is not due there; which line is due reasons.py sees."""
    run = subprocess.run([PROGRAM, *words], stdout=subprocess.PIPE, stderr=subprocess.PIPE, timeout=BOUND, **streams)
    said = reasons.beside(run.returncode, run.stderr)
    return run.returncode, run.stdout + (b"on standard error: " + said if said else b"")


def tried(case):
    """What is wrong with a case, or none."""
    with tempfile.TemporaryDirectory() as folder:
        words = words_in(folder, case)
        return unlike(case.name, ran(words, input=case.events), (case.status, case.output))


def kept(case):
    """What is wrong with a case over a journal in a file, or with a run behind it that brings no events, or none."""
    with tempfile.TemporaryDirectory() as folder:
        words = [*words_in(folder, case), f"--journal={folder}/journal"]
        first = unlike(f"{case.name}, over a journal", ran(words, input=case.events), (case.status, case.output))
        again = unlike(f"{case.name}, when the journal is opened again", ran(words, input=b""), (0, [*case.output[-3:-1], "open 0"]))
        return first or again


def words_in(folder, case):
    """The words of a case, whose zone text lies in a folder."""
    zone = Path(folder) / "zone"
    zone.write_bytes(case.zone)
    return [word.replace("@zone", str(zone)).replace("@top", str(TOP)) for word in case.words.split()] + case.more


def unlike(name, got, due):
    """What is wrong with the status and the output of a run, or none."""
    (status, output), (status_due, lines_due) = got, due
    lines = output.decode(errors="replace").split("\n")
    if status == status_due and len(lines) == len(lines_due) + 1 and lines[-1] == "" and all(map(is_line, lines, lines_due)):
        return None
    shown = "".join(line + "\n" for line in lines_due)
    return f"{name}\ndue, status {status_due}:\n{shown}written, status {status}:\n{output.decode(errors='replace')}"


# What data files cannot say: many pieces, long texts, and real files and streams.


def spread_cases():
    """Cases whose lines follow a rule."""
    zone = (TOP / "examples" / "example.com.zone").read_bytes()
    query = "12340100000100000000000003777777076578616d706c6503636f6d0000010001"
    address = "03777777076578616d706c6503636f6d000001000100000e100004c0000201"
    reply = f"12348500000100010000000003777777076578616d706c6503636f6d0000010001{address}"
    bytewise = Case("a query in pieces of one byte (RFC 1035 4.2.2)", zone)
    bytewise.take("in", "A 0 1 7f000001 5300 0")
    for byte in bytes.fromhex("0021" + query):
        bytewise.take("in", f"B 0 1 {byte:02x}")
    bytewise.take("out", f"C 1 0040{reply}")
    bytewise.take("end", "7 8 1")
    # Three headers that are owed FormErr, with an empty message behind the first, and one of a byte behind the second.
    stream = bytes.fromhex("000c000101000000000000000000 0000 000c000301000000000000000000 000161 000c000501000000000000000000")
    cut = Case("a stream cut in three at any two places", zone)
    numbers = 0
    for second in range(len(stream) + 1):
        for third in range(second, len(stream) + 1):
            numbers += 1
            cut.take("in", f"A 0 {numbers} 7f000001 5300 0")
            for piece in (stream[:second], stream[second:third], stream[third:]):
                cut.take("in", f"B 0 {numbers} {piece.hex() or '-'}")
            cut.take("in", f"E 0 {numbers}")
            for number in (1, 3, 5):
                cut.take("out", f"C {numbers} 000c00{number:02x}81010000000000000000")
    cut.take("end", "7 8 0")
    longest = Case("a datagram of 65,535 bytes is taken", zone)
    longest.take("in", "D 0 7f000001 53 " + "00" * 65_535)
    longest.take("out", "P 7f000001 53 000080010000000000000000")
    longest.take("end", "7 8 0")
    too_long = Case("a datagram of 65,536 bytes is not", zone)
    too_long.take("in", "D 0 7f000001 53 " + "00" * 65_536)
    too_long.take("out", "not valid")
    too_long.take("status", "4")
    full = Case("an event text of 8,388,608 bytes is read", zone)
    full.take("raw", "#" * 8_388_608)
    full.take("end", "7 8 0")
    overfull = Case("one byte more is too long", zone)
    overfull.take("raw", "#" * 8_388_609)
    overfull.take("out", "too long")
    overfull.take("status", "9")
    endless = Case("a zone text of 16,777,217 bytes is too long, and no event line is read", b"#" * 16_777_217)
    endless.take("in", "no event line")
    endless.take("out", "too long")
    endless.take("status", "9")
    return [bytewise, cut, longest, too_long, full, overfull, endless, *string_cases(), *datagram_cases()]


def string_cases():
    """A string has at most 255 bytes, and the data of a record at most 65,535, with a length byte for each string."""
    strings = " ".join(["s" * 255] * 255)
    for size, is_read in ((254, True), (255, False), (256, False)):
        case = Case(f"255 strings of 255 bytes, and one of {size}", b"z. 1 IN SOA a.z. b.z. 7 1 1 1 1\n", "events z. --zone=@zone")
        case.take("zone", f"z. 1 IN TXT {strings} {'s' * size}")
        case.take(*(("end", "7 3 0") if is_read else ("out", "zone text line 2: Data")))
        case.take("status", "0" if is_read else "2")
        yield case


def datagram_cases():
    """The greatest datagram of IPv4 has 65,507 bytes (RFC 791, RFC 768): a reply of one byte more is cut, whatever the OPT offers, and is whole by
    TCP. It has 12 bytes of header, 9 of the question, 15 before the data of its record, those, and 11 of the OPT (RFC 1035 4.1, RFC 6891 6.1.2)."""
    strings = " ".join(["s" * 255] * 255)
    question, option = "0174017a0000100001", "000029ffff000000000000"
    for last, words, is_whole in ((179, [], True), (180, [], False), (179, ["--payload=65507"], True), (179, ["--payload=65506"], False)):
        size = 12 + 9 + 15 + 255 * 256 + 1 + last + 11
        case = Case(f"a reply of {size} bytes by datagram, {' '.join(words) or 'without a word'}", b"z. 1 IN SOA a.z. b.z. 7 1 1 1 1\n", "events z. --zone=@zone")
        case.take("zone", f"t.z. 1 IN TXT {strings} {'s' * last}")
        case.more += words
        case.take("in", f"D 0 7f000001 53 123401000001000000000001{question}{option}")
        case.take("in", "A 0 1 7f000001 53 0")
        case.take("in", f"B 0 1 0020123401000001000000000001{question}{option}")
        whole = f"123485000001000100000001{question}0174017a0000100001"
        case.take("out", f"P 7f000001 53 {whole}...{size}" if is_whole else f"P 7f000001 53 123487000001000000000001{question}{option}")
        case.take("out", f"C 1 {size:04x}{whole}...{size + 2}")
        case.take("end", "7 3 1")
        yield case


def real_runs():
    """Runs over real files and streams: what each shows, the status and the output, and those that are due."""
    example = f"--zone={TOP / 'examples' / 'example.com.zone'}"
    closing = b"serial 7\njournal_len 8\nopen 0\n"
    read_fault = (6, b"read fault\n")
    with tempfile.TemporaryDirectory() as folder:
        no_file = f"--zone={folder}/none"
        yield "a zone file that is not there", ran(["events", "example.com.", no_file], input=b""), read_fault
        yield "a folder for a zone file", ran(["events", "example.com.", f"--zone={folder}"], input=b""), read_fault
        journal = Path(folder) / "journal"
        faulty = ran(["serve", "example.com.", f"--journal={journal}", "--upd=7f000001:0"], input=b"")
        yield "words that are no command make no journal", (*faulty, journal.exists()), (1, b"usage\n", False)
    yield "standard input that is empty", ran(["events", "example.com.", example], stdin=subprocess.DEVNULL), (0, closing)
    yield "no zone file", ran(["events", "example.com."], input=b""), (2, b"zone text line 0: NotOneSoa\n")
    yield "words that are not UTF-8", ran([b"events", b"example.com\xff"], input=b""), (1, b"usage\n")
    yield "no words", ran([], input=b""), (1, b"usage\n")
    with open("/dev/zero", "rb") as endless:
        yield "usage is told before standard input is read", ran(["event"], stdin=endless), (1, b"usage\n")
    with open("/dev/zero", "rb") as endless:
        faulty = ran(["events", "example.com."], stdin=endless)
        yield "a faulty zone text is told before standard input is read", faulty, (2, b"zone text line 0: NotOneSoa\n")
    yield "version", ran(["--version"], input=b""), (0, b"dns 0.1.0\n")
    status, text = ran(["--help"], input=b"")
    yield "help", (status, text[:4]), (0, b"dns:")
    for name, words in (("replies", ["events", "example.com.", example]), ("a refusal", ["event"]), ("help", ["--help"])):
        with open("/dev/full", "wb") as full:
            run = subprocess.run([PROGRAM, *words], input=b"", stdout=full, stderr=subprocess.PIPE, timeout=BOUND)
        yield f"{name}, written to a full disk", (run.returncode, run.stderr), (7, b"")


def main():
    if not PROGRAM.exists():
        sys.exit("cases.py: the program is not built: run rt ci first")
    cases = [case for path in sorted((TOP / "checks" / "cases").glob("*.txt")) for case in cases_in(path)] + spread_cases()
    journals = [case for path in KEPT for case in cases_in(TOP / "checks" / "cases" / path) if case.status == 0]
    with ThreadPoolExecutor(os.cpu_count()) as pool:
        wrong = [one for one in [*pool.map(tried, cases), *pool.map(kept, journals)] if one is not None]
    runs = list(real_runs())
    wrong += [f"{name}\ndue: {due}\ngot: {got}" for name, got, due in runs if got != due]
    for one in wrong[:10]:
        print(one if len(one) < 4_000 else one[:4_000] + " ..")
    print(f"cases: {len(cases) + len(journals) + len(runs) - len(wrong)} passed, {len(wrong)} failed")
    sys.exit(1 if wrong else 0)


if __name__ == "__main__":
    main()
