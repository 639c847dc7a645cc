#!/usr/bin/env python3
"""Runs the built update client against the built server on loopback, and against servers that answer as no server should.

Each kind of prerequisite and of change is sent to the server, which serves example.com and lets updates in, and what is served
afterwards is asked for. A server of this script's own looks at the bytes that come, and answers with another id, with what is no reply,
with what is no message, with half a frame, byte by byte, or not at all, and ends each connection behind its 100th message. Then scripts
that have a line at fault, which send nothing; words that are no command; and a server that is not there. One script is given to BIND's
nsupdate, too, whose messages must say the same, section by section; that is skipped with a line where it is not installed.

  nsupdate.py

What is due comes from RFC 2136 (the messages: 2.4 and 2.5, the codes: 3.1 to 3.4) and from what the client says of itself, written by
hand. Uses the standard library, and loopback alone. Each wait is bounded in time.
"""

import shutil
import socket
import subprocess
import sys
import threading
import time
from contextlib import contextmanager
from pathlib import Path

import reasons
import serving
import update_model
import wire

TOP = Path(__file__).resolve().parent.parent
PROGRAM = TOP / "crates" / "dns_nsupdate" / "out" / "dns_nsupdate"
BOUND = 20  # seconds for a run
PATIENCE = 5  # seconds that the client waits for a server that sends nothing
MOST = 1_048_576  # bytes of a script
HOST, IP = "127.0.0.1", "7f000001"
ZONE = ("example.com.", "SOA", "IN")
ADD = "zone example.com.\nadd new.example.com. 60 A 192.0.2.55\nsend\n"
ADD_MESSAGE = wire.update(ZONE, [], ["new.example.com. 60 IN A 192.0.2.55"])  # its id is 4660

# scripts for the server, one after the other on the same zone; the id of the first message, and the lines that are due
SENT = [
    ("nothing", "", 0, ""),
    ("no message", "; a comment\n\n   \t\nzone example.com.\n", 0, ""),
    ("a record is added", ADD, 4660, "1234 0\n"),
    ("a message without records", "zone example.com.\nsend\n", 0, "0000 0\n"),
    ("a name that is in use", "zone example.com.\nprereq yxdomain new.example.com.\nsend\n", 1, "0001 0\n"),
    ("a name that is not", "zone example.com.\nprereq yxdomain none.example.com.\nsend\n", 1, "0001 3\n"),
    ("a name that owns nothing, above a wildcard", "zone example.com.\nprereq yxdomain wild.example.com.\nsend\n", 4660, "1234 3\n"),
    ("a name that is to be in no use and is", "zone example.com.\nprereq nxdomain www.example.com.\nsend\n", 1, "0001 6\n"),
    ("a name that is in no use", "zone example.com.\nprereq nxdomain none.example.com.\nsend\n", 1, "0001 0\n"),
    ("a set that is there", "zone example.com.\nprereq yxrrset www.example.com. A\nsend\n", 1, "0001 0\n"),
    ("a set that is not", "zone example.com.\nprereq yxrrset www.example.com. TXT\nsend\n", 1, "0001 8\n"),
    ("a set that is not to be there and is", "zone example.com.\nprereq nxrrset www.example.com. A\nsend\n", 1, "0001 7\n"),
    ("a set that is not there", "zone example.com.\nprereq nxrrset www.example.com. TXT\nsend\n", 1, "0001 0\n"),
    ("a set with its data", "zone example.com.\nprereq yxrrset www.example.com. A 192.0.2.1\nsend\n", 1, "0001 0\n"),
    ("a set with other data", "zone example.com.\nprereq yxrrset www.example.com. A 192.0.2.2\nsend\n", 1, "0001 8\n"),
    ("another zone", "zone example.net.\nadd a.example.net. 60 A 192.0.2.9\nsend\n", 1, "0001 9\n"),
    ("a name out of the zone", "zone example.com.\nadd a.example.net. 60 A 192.0.2.9\nsend\n", 1, "0001 10\n"),
    (
        "several messages, whose ids begin anew",
        "zone example.com.\r\n  update\tadd one.example.com. 60 A 192.0.2.71\r\nsend\r\n"
        "prereq nxdomain one.example.com.\r\nadd two.example.com. 60 A 192.0.2.72\r\nsend\r\n"
        "prereq yxdomain one.example.com.\r\nadd three.example.com 60 IN TXT \"a ; b\" c\r\nsend\r\n",
        65_534,
        "fffe 0\nffff 6\n0000 0\n",
    ),
    (
        "deletions",
        "zone example.com.\nadd del.example.com. 60 A 192.0.2.81\nadd del.example.com. 60 A 192.0.2.82\n"
        "add del.example.com. 60 TXT x\nadd gone.example.com. 60 A 192.0.2.83\nsend\n"
        "delete del.example.com. A 192.0.2.81\nupdate delete del.example.com. TXT\ndelete gone.example.com.\nsend",
        16,
        "0010 0\n0011 0\n",
    ),
]

# what is asked for afterwards: the name and type, the code, and the addresses or texts of the answers
SERVED = [
    ("new.example.com", "A", 0, ["new.example.com. 60 IN A 192.0.2.55"]),
    ("one.example.com", "A", 0, ["one.example.com. 60 IN A 192.0.2.71"]),
    ("two.example.com", "A", 3, []),
    ("del.example.com", "A", 0, ["del.example.com. 60 IN A 192.0.2.82"]),
    ("del.example.com", "TXT", 0, []),
    ("gone.example.com", "A", 3, []),
]

# each kind of line, and the record that it means: of a prerequisite, or of a change
LINES = [
    ("prereq yxdomain Www.example.com", "Www.example.com. 0 ANY ANY", None),
    ("prereq nxdomain www.example.com.", "www.example.com. 0 NONE ANY", None),
    ("prereq\tyxrrset www.example.com. MX", "www.example.com. 0 ANY MX", None),
    ("prereq nxrrset www.example.com. TYPE65280", "www.example.com. 0 NONE TYPE65280", None),
    ("prereq yxrrset www.example.com. MX 10 m.example.com.", "www.example.com. 0 IN MX 10 m.example.com.", None),
    ("add a.example.com. 1h AAAA 2001:db8::1", None, "a.example.com. 3600 IN TYPE28 \\# 16 20010db8000000000000000000000001"),
    ("add a.example.com 0 TXT \"; no comment\"", None, "a.example.com. 0 IN TYPE16 \\# 13 0c3b206e6f20636f6d6d656e74"),
    ("update add a.example.com. 60 TYPE65280 \\# 2 abcd", None, "a.example.com. 60 IN TYPE65280 \\# 2 abcd"),
    ("delete a.example.com", None, "a.example.com. 0 ANY ANY"),
    ("delete a.example.com. CNAME", None, "a.example.com. 0 ANY CNAME"),
    ("update delete a.example.com. 60 NS n.example.com.", None, "a.example.com. 0 NONE NS n.example.com."),
]

# messages byte by byte (RFC 1035 4.1, RFC 2136 2), with the id 4660: what adds a record, and what asks for a name that is in use
NAME_BYTES = "076578616d706c6503636f6d00"
WRITTEN = [
    (
        "add serialtest.example.com. 3600 A 192.0.2.55",
        f"123428000001000000010000{NAME_BYTES}000600010a73657269616c74657374{NAME_BYTES}0001000100000e100004c0000237",
    ),
    ("prereq yxdomain wild.example.com.", f"123428000001000100000000{NAME_BYTES}000600010477696c64{NAME_BYTES}00ff00ff000000000000"),
]

# scripts that both clients read, with each kind of line
COMMON = (
    """zone example.com.
prereq yxdomain www.example.com.
prereq nxdomain none.example.com.
prereq yxrrset www.example.com. A
prereq nxrrset www.example.com. TXT
prereq yxrrset www.example.com. A 192.0.2.1
prereq yxrrset mx.example.com. MX 10 m.example.com.
add a.example.com. 60 A 192.0.2.55
update add b.example.com. 3600 AAAA 2001:db8::1
add c.example.com. 60 TXT "a b" c
add c.example.com. 60 SRV 1 2 53 t.example.com.
add d.example.com. 60 TYPE65280 \\# 2 abcd
update delete e.example.com.
delete e.example.com. CNAME
delete f.example.com. NS n.example.com.
delete g.example.com. MX 5 q.example.com.
send
""",
    """zone example.net.
add x.example.net. 1 PTR y.example.net.
send
""",
)

# scripts that are refused, and what is told of them
FAULTY = [
    ("send\n", "1: NoZone"),
    ("zone example.com.\nzon example.com.\n", "2: Word"),
    ("zone\n", "1: Word"),
    ("zone a b\n", "1: Word"),
    ("ADD a. 60 A 192.0.2.1\n", "1: Word"),
    ("send now\n", "1: Word"),
    ("prereq yxdomain\n", "1: Word"),
    ("prereq yxdomain a. A\n", "1: Word"),
    ("prereq nxrrset a. A 192.0.2.1\n", "1: Word"),
    ("add\n", "1: Word"),
    ("delete\n", "1: Word"),
    ("update\n", "1: Word"),
    ("zone " + "a" * 64 + ".\n", "1: Name"),
    ("\n; c\ndelete a..b\n", "3: Name"),
    ("delete a. NOTYPE\n", "1: Type"),
    ("add a. A 192.0.2.1\n", "1: Ttl"),
    ("add a. 60 NOTYPE x\n", "1: Type"),
    ("add a. 60 A 192.0.2\n", "1: Data"),
    ("add a. 60 TXT \"x\n", "1: Quote"),
    ("add $TTL x y\n", "1: Directive"),
    ("add ( $TTL x )\n", "1: Directive"),
    ("\t\nadd ( $ORIGIN a..b )\n", "2: Directive"),
    ("add ( $INCLUDE f )\n", "1: Directive"),
    ("add ( \"$TTL\" 60 A 192.0.2.1 )\n", "1: Name"),
    ("zone example.com.\nadd a.example.com. 60 A 192.0.2.1\n", "2: Unsent"),
    ("zone example.com.\nadd a.example.com. 60 A 192.0.2.1\nsend\n\nprereq yxdomain a.\ndelete a.", "5: Unsent"),
]

WORDS = [
    [],
    ["--server=7f000001:1"],
    ["--id=0"],
    ["--server=7f000001:1", "--id=65536"],
    ["--server=7f000001:1", "--id=01"],
    ["--server=7f000001:1", "--id="],
    ["--server=7f000001", "--id=0"],
    ["--server=127.0.0.1", "--id=0"],
    ["--server=127.0.0.1:01", "--id=0"],
    ["--server=127.0.0.256:1", "--id=0"],
    ["--server=::1:1", "--id=0"],
    ["--server=[::1]", "--id=0"],
    ["--server=localhost:1", "--id=0"],
    ["--server=7f000001:65536", "--id=0"],
    ["--server=7f000001:1", "--server=7f000001:1"],
    ["--server=7f000001:1", "--id=0", "--id=0"],
    ["--server=7f000001:1", "--id=0", "more"],
    ["--help", "--version"],
]


def run(words, script, **streams):
    """The status and the output of a run, and what it says on standard error of refused words where that is not the line that is due."""
    given = script if isinstance(script, bytes) else script.encode()
    done = subprocess.run([PROGRAM, *words], input=given, timeout=BOUND, **({"stdout": subprocess.PIPE, "stderr": subprocess.PIPE} | streams))
    said = reasons.beside(1, done.stderr) if done.returncode == 1 and done.stderr is not None else b""
    return done.returncode, ((done.stdout or b"") + said).decode(errors="replace")


def sent_to(port, script, first_id, ip=IP):
    return run([f"--server={ip}:{port}", f"--id={first_id}"], script)


def framed(message):
    return wire.number(len(message), 2) + message


def reply_to(message, code=0, flags=0xA800):
    """A reply that repeats the zone section alone (RFC 2136 3.8)."""
    end = message.index(b"\0\x00\x06", 12) + 5  # the question ends behind its type and class
    return message[:2] + wire.number(flags | code, 2) + b"\0\1" + b"\0" * 6 + message[12:end]


class Plain:
    """A server that hands what comes over one connection to a function, which answers on it."""

    def __init__(self, answer):
        self.listener = socket.create_server((HOST, 0))
        self.port = self.listener.getsockname()[1]
        self.came = []
        self.thread = threading.Thread(target=self.serve, args=(answer,), daemon=True)
        self.thread.start()

    def serve(self, answer):
        self.listener.settimeout(BOUND)
        try:
            tcp, _ = self.listener.accept()
            with tcp:
                tcp.settimeout(BOUND)
                while (message := self.message(tcp)) is not None:
                    self.came.append(message)
                    if not answer(tcp, message):
                        break
        except OSError:
            pass

    @staticmethod
    def message(tcp):
        """The next message, none at the other end's close."""
        size = Plain.exactly(tcp, 2)
        return None if size is None else Plain.exactly(tcp, int.from_bytes(size, "big"))

    @staticmethod
    def exactly(tcp, size):
        found = b""
        while len(found) < size:
            piece = tcp.recv(size - len(found))
            if not piece:
                return None
            found += piece
        return found

    def ended(self):
        """What came, when the connection is done."""
        self.thread.join(BOUND)
        return self.came


class Ending(Plain):
    """A server that answers NoError, ends each connection behind its 100th message, and takes so many connections."""

    def __init__(self, connections):
        self.connections, self.counts = connections, []
        super().__init__(lambda tcp, message: tcp.sendall(framed(reply_to(message))))

    def serve(self, answer):
        self.listener.settimeout(BOUND)
        try:
            for place in range(self.connections):
                tcp, _ = self.listener.accept()
                if place == self.connections - 1:
                    self.listener.close()
                self.counts.append(self.served(tcp, answer))
        except OSError:
            pass

    def served(self, tcp, answer):
        """How many messages a connection brings."""
        count = 0
        with tcp:
            tcp.settimeout(BOUND)
            while count < serving.MOST and (message := self.message(tcp)) is not None:
                self.came.append(message)
                answer(tcp, message)
                count += 1
        return count


@contextmanager
def plain(answer):
    server = Plain(answer)
    try:
        yield server
    finally:
        server.listener.close()


def answering(make, goes_on=True):
    """Answers each message with these bytes."""

    def answer(tcp, message):
        tcp.sendall(make(message))
        return goes_on

    return answer


def byte_by_byte(tcp, message):
    for place, byte in enumerate(framed(reply_to(message, 5))):
        tcp.sendall(bytes([byte]))
        time.sleep(0.002 if place else 0.2)
    return True


def silent(tcp, message):
    time.sleep(PATIENCE + 3)
    return False


# What is tried. Each gives what it shows, what came, and what was due.


def served():
    """The server of this repository: what it answers, and what it serves then."""
    with serving.serving("--update") as server:
        for name, script, first_id, due in SENT:
            yield name, sent_to(server.port, script, first_id), (0, due)
        for name, kind, code, answers in SERVED:
            reply = server.asked(wire.query(name, kind))
            found = [record for record in answers if wire.record_bytes(record)[len(wire.name_bytes(record.split()[0])) :] in reply]
            yield f"{name} {kind} afterwards", (reply[3] % 16, int.from_bytes(reply[6:8], "big"), found), (code, len(answers), answers)
    with serving.serving() as server:
        yield "updates that are not let in", sent_to(server.port, ADD, 7), (0, "0007 5\n")


def messages():
    """The bytes that are sent."""
    for line, prerequisite, change in LINES:
        due = wire.update(ZONE, [prerequisite] if prerequisite else [], [change] if change else [])
        with plain(answering(lambda message: framed(reply_to(message)))) as server:
            got = sent_to(server.port, f"zone example.com.\n{line}\nsend\n", 4660)
            yield line, (got, server.ended()), ((0, "1234 0\n"), [due])
    for line, digits in WRITTEN:
        reply = bytes.fromhex(f"1234a8000001000000000000{NAME_BYTES}00060001")
        with plain(answering(lambda message: framed(reply))) as server:
            got = sent_to(server.port, f"zone example.com.\n{line}\nsend\n", 4660)
            yield f"{line}, byte by byte", (got, server.ended()), ((0, "1234 0\n"), [bytes.fromhex(digits)])
    many = [f"{'prereq yxdomain' if place % 2 else 'delete'} n{place}.example.com." for place in range(200)]
    due = wire.update(
        ZONE,
        [f"n{place}.example.com. 0 ANY ANY" for place in range(200) if place % 2],
        [f"n{place}.example.com. 0 ANY ANY" for place in range(200) if place % 2 == 0],
    )
    with plain(answering(lambda message: framed(reply_to(message)))) as server:
        got = sent_to(server.port, "\n".join(["zone example.com.", *many, "send"]), 4660)
        yield "prerequisites and changes in turn", (got, server.ended()), ((0, "1234 0\n"), [due])
    with plain(answering(lambda message: framed(reply_to(message)))) as server:
        got = sent_to(server.port, "zone .\nsend\nzone A.\nsend\n", 65_535)
        due = [wire.update((name, "SOA", "IN"), [], []) for name in (".", "A.")]
        yield "two zones", (got, server.ended()), ((0, "ffff 0\n0000 0\n"), [b"\xff\xff" + due[0][2:], b"\0\0" + due[1][2:]])


def answers():
    """Replies that are none, or odd ones."""
    other = {
        "a reply of another id": (lambda m: framed(b"\x12\x35" + reply_to(m)[2:]), (22, "mismatch\n")),
        "the message itself": (framed, (23, "notreply\n")),
        "a reply to a query": (lambda m: framed(reply_to(m, flags=0x8000)), (23, "notreply\n")),
        "eleven bytes": (lambda m: framed(reply_to(m)[:11]), (24, "proto\n")),
        "an empty frame": (lambda m: b"\0\0", (24, "proto\n")),
        "a question that is cut": (lambda m: framed(reply_to(m)[:-1]), (24, "proto\n")),
        "no message of another id": (lambda m: framed(b"\0\0" + reply_to(m)[2:-1]), (24, "proto\n")),
        "the message itself with another id": (lambda m: framed(b"\0\0" + m[2:]), (22, "mismatch\n")),
        "a header alone": (lambda m: framed(m[:2] + b"\xa8\x05" + b"\0" * 8), (0, "1234 5\n")),
        "the code 16 of an OPT": (
            lambda m: framed(m[:2] + b"\xa8\x00" + b"\0" * 7 + b"\1" + b"\0\0\x29\x04\xd0\1\0\0\0\0\0"),
            (0, "1234 16\n"),
        ),
        "all codes of a header": (lambda m: framed(reply_to(m, 15)), (0, "1234 15\n")),
    }
    for name, (make, due) in other.items():
        with plain(answering(make)) as server:
            yield name, (sent_to(server.port, ADD, 4660), server.ended()), (due, [ADD_MESSAGE])
    for name, size in (("no byte", 0), ("half a length", 1), ("a length", 2), ("half a frame", 20)):
        with plain(answering(lambda m: framed(reply_to(m))[:size], goes_on=False)) as server:
            yield f"an end behind {name}", sent_to(server.port, ADD, 4660), (21, "ended\n")
    with plain(byte_by_byte) as server:
        yield "a reply byte by byte", sent_to(server.port, ADD, 4660), (0, "1234 5\n")
    two = ADD + "send\n"
    with plain(answering(lambda m: framed(reply_to(m)) if m[1] == 0x34 else framed(m))) as server:
        yield "the second of two", (sent_to(server.port, two, 4660), len(server.ended())), ((23, "notreply\n"), 2)
    with plain(answering(lambda m: framed(m))) as server:
        yield "nothing behind the first that is at fault", (sent_to(server.port, two, 4660), len(server.ended())), ((23, "notreply\n"), 1)
    with plain(silent) as server:
        begun = time.monotonic()
        got = sent_to(server.port, ADD, 4660)
        took = time.monotonic() - begun
        yield "a server that is silent", (got, PATIENCE - 0.5 < took < PATIENCE + 2.5), ((6, "read fault\n"), True)


def refused():
    """Scripts and words that are refused, and a server that is not there."""
    for script, told in FAULTY:
        with plain(answering(framed)) as server:
            got = sent_to(server.port, ADD + script if told.endswith("Unsent") else script, 0)
            lines = ADD.count("\n") if told.endswith("Unsent") else 0
            line, kind = told.split(": ")
            yield f"script {script!r}", (got, server.ended()), ((20, f"script line {int(line) + lines}: {kind}\n"), [])
    words = ["--server=7f000001:1", "--id=0"]
    yield "a script of the greatest length", run(words, b"\n" * MOST), (0, "")
    yield "one byte more", run(words, b"\n" * MOST + b"\n"), (9, "too long\n")
    yield "far more", run(words, b"send\n" * MOST), (9, "too long\n")
    for other in WORDS:
        yield f"words {other}", run(other, ADD), (1, "usage\n")
    with socket.socket() as taken:
        taken.bind((HOST, 0))  # nobody listens there
        words = [f"--server={IP}:{taken.getsockname()[1]}", "--id=9"]
        yield "no server", run(words, ADD), (6, "read fault\n")
        yield "no server, by its address as people write it", run([f"--server={HOST}:{taken.getsockname()[1]}", "--id=9"], ADD), (6, "read fault\n")
        yield "no server, the words in the other order", run(words[::-1], ADD), (1, "usage\n")
        yield "no server, and no message", run(words, "zone a.\n"), (0, "")
        yield "no server, and a line at fault", run(words, "zone\n"), (20, "script line 1: Word\n")
    with plain(answering(lambda m: framed(reply_to(m)))) as server:
        yield "the server's address as people write it", sent_to(server.port, ADD, 7, HOST), (0, "0007 0\n")
    with open("/dev/full", "wb") as full, plain(answering(lambda m: framed(reply_to(m)))) as server:
        yield "an output that takes nothing", run([f"--server={IP}:{server.port}", "--id=0"], ADD, stdout=full)[0], 7
    yield "the version", run(["--version"], ""), (0, "dns-nsupdate 0.1.0\n")
    status, text = run(["--help"], "")
    yield "the help", (status, text.splitlines()[2]), (0, "usage: dns-nsupdate --server=IP:PORT --id=N")


def example():
    """The script of the first steps, sent twice: the name is in no use before the first time alone (RFC 2136 3.2.5)."""
    script = (TOP / "examples" / "add_new.script").read_text(encoding="utf-8")
    with serving.serving("--update") as server:
        yield "the example", sent_to(server.port, script, 1), (0, "0001 0\n")
        yield "the example once more", sent_to(server.port, script, 1), (0, "0001 6\n")


def said_by(client):
    """What the messages say that a client sends over one connection, without their ids, which each chooses by itself: flags and sections."""
    with plain(answering(lambda message: framed(reply_to(message)))) as server:
        client(server.port)
        return [(message[2:4], update_model.read_message(message)) for message in server.ended()]


def beside_another_client():
    """BIND's nsupdate: its message for a script says what ours says."""
    if shutil.which("nsupdate") is None:
        print("nsupdate: BIND's nsupdate is not installed, skipped")
        return
    for script in COMMON:

        def other(port):
            lines = f"server {HOST} {port}\n{script}"
            subprocess.run(["nsupdate", "-v"], input=lines.encode(), stdout=subprocess.DEVNULL, stderr=subprocess.DEVNULL, timeout=BOUND, check=True)

        theirs = said_by(other)
        yield "another client's message", len(theirs), 1
        yield f"what another client says for {script!r}", said_by(lambda port: sent_to(port, script, 0)), theirs


def added(count):
    """A script of so many messages, each of which adds a name that is in no use before."""
    lines = [f"prereq nxdomain m{place}.example.com.\nadd m{place}.example.com. 60 A 192.0.2.1\nsend" for place in range(count)]
    return "\n".join(["zone example.com.", *lines, ""])


def many_messages():
    """More messages than a server lets a connection have: those behind a hundred go over a new connection, and none goes twice."""
    lines = lambda count: "".join(f"{place:04x} 0\n" for place in range(count))
    rows = serving.ZONE.count("\n") + 1 + 250  # the snapshot's, one for each record, and one for each message
    with serving.serving("--update") as server:
        yield "250 messages", sent_to(server.port, added(250), 0), (0, lines(250))
        yield "what 250 messages left", server.stop()[:2], (0, f"serial 257\njournal_len {rows}\n")
    for counts in ([99], [100], [100, 1], [100, 100, 50]):
        server = Ending(len(counts))
        got = sent_to(server.port, added(sum(counts)), 0)
        ids = [int.from_bytes(message[:2], "big") for message in server.ended()]
        yield f"{sum(counts)} messages", (got, server.counts, ids), ((0, lines(sum(counts))), counts, list(range(sum(counts))))
    server = Ending(1)
    yield "a server that is gone behind the hundredth message", (sent_to(server.port, added(101), 0), len(server.ended())), ((6, "read fault\n"), 100)


def slow_script():
    """A script that comes slowly: the connection is made when it was read, so that a server with a limit does not end it."""
    with serving.serving("--update", f"--limit={serving.LIMIT}") as server:
        words = [PROGRAM, f"--server={IP}:{server.port}", "--id=3"]
        with subprocess.Popen(words, stdin=subprocess.PIPE, stdout=subprocess.PIPE) as client:
            time.sleep(serving.LIMIT / 1_000 + 1)
            output, _ = client.communicate(ADD.encode(), timeout=BOUND)
        yield "a script that comes slowly", (client.returncode, output.decode()), (0, "0003 0\n")


def tried():
    """Everything, one after the other."""
    yield from served()
    yield from messages()
    yield from answers()
    yield from refused()
    yield from example()
    yield from beside_another_client()
    yield from many_messages()
    yield from slow_script()


def main():
    for program in (PROGRAM, serving.PROGRAM):
        if not program.exists():
            sys.exit(f"nsupdate.py: {program.name} is not built: run rt ci first")
    passed, wrong = 0, []
    for name, got, due in tried():
        if got == due:
            passed += 1
        else:
            wrong.append(f"{name}\ndue: {serving.shown(due)}\ngot: {serving.shown(got)}")
    for one in wrong[:10]:
        print(one)
    print(f"nsupdate: {passed} passed, {len(wrong)} failed")
    sys.exit(1 if wrong else 0)


if __name__ == "__main__":
    main()
