#!/usr/bin/env python3
"""Asks the built program, which serves on loopback, with the clients that people use, and treats it as they do at their worst.

dig, kdig and dnspython ask hits, aliases, referrals, wildcards and negatives, with and without EDNS, over UDP and TCP, and an answer
that is too long for UDP; dnsperf asks the same with many under way; kdig and dnspython ask more over a connection that they keep than
one has, and connect again; nsupdate sends each kind of prerequisite, and adds and deletes; a restart on the same journal shows what was
acknowledged. Then the program is killed under streams of updates, and what was answered NoError has to be there afterwards; and 900
connections come at once, and a hundred behind them, half of which send a single byte or nothing. A client that is not installed is skipped, with a line.

  clients.py [KILLS [CONNECTIONS]]  that many kills and connections, or 50 and 900

Uses the standard library, and loopback alone. Each run of a program is bounded in time.
"""

import os
import random
import re
import selectors
import shutil
import signal
import socket
import subprocess
import sys
import tempfile
import threading
import time
from pathlib import Path

import wire
from servers import PROGRAM

KILLS, CONNECTIONS = 50, 900
BOUND = 30  # seconds for one run of a client, or one reply
LIMIT = 2_000  # milliseconds that a connection may take for a message: a busy machine may keep a client from its processor for long
QUEUE = 20  # connections that the system may still have in its queue when the silent ones come
SOA = "example.com. 3600 IN SOA ns.example.com. hostmaster.example.com. 7 3600 600 86400 300"
MANY = 60  # records of the set that is too long for a datagram
ZONE = f"""{SOA}
example.com. 3600 IN NS ns.example.com.
ns.example.com. 3600 IN A 192.0.2.53
www.example.com. 3600 IN A 192.0.2.1
www.example.com. 3600 IN AAAA 2001:db8::1
alias.example.com. 3600 IN CNAME www.example.com.
*.wild.example.com. 3600 IN TXT "w"
sub.example.com. 3600 IN NS ns.sub.example.com.
""" + "".join(f"many.example.com. 60 IN A 10.0.0.{place}\n" for place in range(MANY))
NEGATIVE = SOA.replace("3600 IN", "300 IN", 1)  # its TTL is the lesser of its TTL and its minimum (RFC 2308 3)

# a name and type; the code, whether it is authoritative, the answers and the authority that are due
ASKED = [
    ("www.example.com", "A", "NOERROR", True, ["www.example.com. 3600 IN A 192.0.2.1"], []),
    ("WWW.example.COM", "AAAA", "NOERROR", True, ["www.example.com. 3600 IN AAAA 2001:db8::1"], []),
    ("www.example.com", "TXT", "NOERROR", True, [], [NEGATIVE]),
    ("alias.example.com", "A", "NOERROR", True,
     ["alias.example.com. 3600 IN CNAME www.example.com.", "www.example.com. 3600 IN A 192.0.2.1"], []),
    ("alias.example.com", "CNAME", "NOERROR", True, ["alias.example.com. 3600 IN CNAME www.example.com."], []),
    ("a.b.wild.example.com", "TXT", "NOERROR", True, ['a.b.wild.example.com. 3600 IN TXT "w"'], []),
    ("wild.example.com", "TXT", "NOERROR", True, [], [NEGATIVE]),
    ("no.example.com", "A", "NXDOMAIN", True, [], [NEGATIVE]),
    ("host.sub.example.com", "A", "NOERROR", False, [], ["sub.example.com. 3600 IN NS ns.sub.example.com."]),
    ("example.com", "SOA", "NOERROR", True, [SOA], []),
    ("example.com", "NS", "NOERROR", True, ["example.com. 3600 IN NS ns.example.com."], []),
    ("example.net", "A", "REFUSED", False, [], []),
]
MOST = 100  # messages of a connection, which is closed behind the last of them
PERF_TURNS = 100  # times that dnsperf asks each question
PERF_WAYS = [("-m", "udp"), ("-m", "tcp", "-O", f"num-queries-per-conn={MOST}"), ("-m", "udp", "-e")]
KEPT = 250  # questions over a connection that is kept
LONG = [f"many.example.com. 60 IN A 10.0.0.{place}" for place in range(MANY)]


class Wrong(Exception):
    """What is wrong with a run."""


def free_port():
    """A port that neither UDP nor TCP uses on loopback just now, and that the system gives to no client."""
    for _ in range(1_000):
        port = random.randrange(10_000, 32_000)
        with socket.socket() as stream, socket.socket(type=socket.SOCK_DGRAM) as datagrams:
            try:
                stream.bind(("127.0.0.1", port))
                datagrams.bind(("127.0.0.1", port))
            except OSError:
                continue
            return port
    raise Wrong("no port is free")


class Serving:
    """The program, serving on loopback until it is stopped."""

    def __init__(self, *words, zone=None, journal=None, workers=16):
        self.port = free_port()
        at = f"7f000001:{self.port}"
        command = [PROGRAM, "serve", "example.com.", *words, f"--udp={at}", f"--tcp={at}", f"--limit={LIMIT}", f"--workers={workers}"]
        command += [f"--zone={zone}"] if zone else []
        command += [f"--journal={journal}"] if journal else []
        self.run = subprocess.Popen(command, stdin=subprocess.PIPE, stdout=subprocess.PIPE)

    def __enter__(self):
        end = time.monotonic() + BOUND
        while time.monotonic() < end and self.run.poll() is None:
            if self.asked(wire.query("example.com.", "SOA"), 0.2) is not None:
                return self
        self.run.kill()
        raise Wrong(f"it does not serve: status {self.run.wait()}, {self.run.stdout.read()!r}")

    def __exit__(self, *_):
        if self.run.poll() is None:
            self.run.kill()
        self.run.wait()
        self.run.stdin.close()
        self.run.stdout.close()

    def asked(self, message, seconds=BOUND):
        """The reply to a datagram, none where none comes."""
        with socket.socket(type=socket.SOCK_DGRAM) as datagrams:
            datagrams.settimeout(seconds)
            datagrams.connect(("127.0.0.1", self.port))
            try:
                datagrams.send(message)
                return datagrams.recv(65_535)
            except OSError:
                return None

    def connected(self, seconds=BOUND):
        return socket.create_connection(("127.0.0.1", self.port), seconds)

    def stopped(self):
        """Ends its standard input: its status and its output."""
        self.run.stdin.close()
        status = self.run.wait(BOUND)
        return status, self.run.stdout.read().decode()

    def resident(self):
        """How much memory it has, in KiB; none where that is not told."""
        try:
            text = Path(f"/proc/{self.run.pid}/status").read_text()
        except OSError:
            return None
        found = re.search(r"VmRSS:\s+(\d+) kB", text)
        return int(found[1]) if found else None


def words_of(line):
    """A record as its words, in small letters."""
    return " ".join(line.lower().split())


def sections_of(text):
    """What dig or kdig prints of a reply: its code, whether it is authoritative, its answers and its authority."""
    code = re.search(r"status: (\w+)", text)
    flags = re.search(r"[Ff]lags: ([a-z ]+);", text)
    parts = {"ANSWER": [], "AUTHORITY": [], "ADDITIONAL": [], None: []}
    part = None
    for line in text.splitlines():
        head = re.match(r";; (\w+) SECTION", line)
        part = head[1] if head else part
        if line and not line.startswith(";"):
            parts.get(part, parts[None]).append(words_of(line))
    return code and code[1], bool(flags and "aa" in flags[1].split()), parts["ANSWER"], parts["AUTHORITY"]


def is_due(got, due):
    code, authoritative, answers, authority = due
    want = (code, authoritative, sorted(map(words_of, answers)), sorted(map(words_of, authority)))
    return (got[0], got[1], sorted(got[2]), sorted(got[3])) == want


def dug(program, server, name, kind, *options):
    """What dig or kdig prints of the reply to a question."""
    command = [program, "@127.0.0.1", "-p", str(server.port), name, kind, "+time=5", *options]
    ran = subprocess.run(command, stdout=subprocess.PIPE, stderr=subprocess.DEVNULL, text=True, timeout=BOUND)
    return sections_of(ran.stdout)


def diggers(server, program, ways):
    """Asks each question in each way."""
    if shutil.which(program) is None:
        print(f"clients: {program} is not installed, skipped")
        return 0
    for way in ways:
        for name, kind, *due in ASKED:
            got = dug(program, server, name, kind, *way)
            if not is_due(got, due):
                raise Wrong(f"{program} {name} {kind} {' '.join(way)}: {got}")
    got = dug(program, server, "many.example.com", "A")
    if not is_due(got, ("NOERROR", True, LONG, [])):
        raise Wrong(f"{program}: a long answer is not asked for again over TCP: {got}")
    return len(ways) * len(ASKED) + 1


def dnspython(server):
    """Asks each question by dnspython, over UDP and TCP, with and without EDNS; and sends it an update."""
    sys.path.append("/usr/lib/python3/dist-packages")
    try:
        import dns.flags, dns.message, dns.query, dns.rcode, dns.update
    except ImportError:
        print("clients: dnspython is not installed, skipped")
        return 0
    count = 0
    for ask in (dns.query.udp, dns.query.tcp):
        for edns in (-1, 0):
            for name, kind, *due in ASKED:
                question = dns.message.make_query(name, kind, use_edns=edns, payload=1232 if edns == 0 else None)
                got = ask(question, "127.0.0.1", timeout=BOUND, port=server.port)
                answers, authority = ([words_of(line) for part in parts for line in part.to_text().splitlines()]
                                      for parts in (got.answer, got.authority))
                seen = dns.rcode.to_text(got.rcode()), bool(got.flags & dns.flags.AA), answers, authority
                if not is_due(seen, due) or (got.edns >= 0) != (edns == 0):
                    raise Wrong(f"dnspython {name} {kind} edns {edns}: {got}")
                count += 1
    change = dns.update.Update("example.com")
    change.absent("python")
    change.add("python", 60, "A", "192.0.2.77")
    for code in ("NOERROR", "YXDOMAIN"):
        got = dns.rcode.to_text(dns.query.tcp(change, "127.0.0.1", timeout=BOUND, port=server.port).rcode())
        if got != code:
            raise Wrong(f"dnspython: an update is answered {got} where {code} is due")
    return count + 2


def kdig_kept(server, names):
    """Asks for the text of each name by kdig over a connection that it keeps: the names that are answered."""
    words = [word for name in names for word in (name, "TXT")]
    command = ["kdig", "@127.0.0.1", "-p", str(server.port), "+tcp", "+keepopen", "+noall", "+answer", *words]
    ran = subprocess.run(command, stdout=subprocess.PIPE, stderr=subprocess.DEVNULL, text=True, timeout=BOUND)
    lines = [line.split() for line in ran.stdout.splitlines()]
    return {line[0] for line in lines if line[2:] == ["IN", "TXT", '"w"']}


def kdig_keeps(server):
    """More questions than a connection has. kdig connects again where its connection ended, but tells of the question that it had sent there
    that it is not answered, and does not ask it again: so it is run again for these."""
    if shutil.which("kdig") is None:
        return 0
    left = [f"n{place}.wild.example.com." for place in range(KEPT)]
    for lost in (KEPT // MOST, 0):
        answered = kdig_kept(server, left)
        left = [name for name in left if name not in answered]
        if len(left) > lost:
            raise Wrong(f"kdig +keepopen: {len(left)} questions are not answered where {lost} may be: {left[:4]}")
    return KEPT


def dnspython_keeps(server):
    """More questions than a connection has, by dnspython, over one that is made anew where it ended."""
    try:
        import dns.message, dns.query
    except ImportError:
        return 0
    made, stream = 0, None
    for place in range(KEPT):
        question = dns.message.make_query(f"n{place}.wild.example.com", "TXT")
        for _ in range(2):
            if stream is None:
                made, stream = made + 1, server.connected()
            try:
                got = dns.query.tcp(question, "127.0.0.1", timeout=BOUND, sock=stream)
                break
            except (EOFError, OSError):
                stream.close()
                stream = None
        else:
            raise Wrong(f"dnspython: question {place} is not answered over a new connection")
        if [line.to_text().split(" ", 1)[1] for line in got.answer] != ['3600 IN TXT "w"']:
            raise Wrong(f"dnspython: question {place} is answered {got}")
    stream.close()
    if made != -(-KEPT // MOST):
        raise Wrong(f"dnspython: {KEPT} questions took {made} connections")
    return KEPT


# lines for nsupdate, and the code that the server has to answer (RFC 2136 2.4, 2.5, 3.2)
UPDATES = [
    ("update add new.example.com. 3600 A 192.0.2.55", "NOERROR"),
    ("prereq nxdomain new.example.com.\nupdate add new.example.com. 3600 A 192.0.2.56", "YXDOMAIN"),
    ("prereq yxdomain other.example.com.\nupdate add new.example.com. 3600 A 192.0.2.56", "NXDOMAIN"),
    ("prereq yxdomain new.example.com.\nupdate add new.example.com. 3600 A 192.0.2.56", "NOERROR"),
    ("prereq nxrrset new.example.com. A\nupdate add new.example.com. 3600 A 192.0.2.57", "YXRRSET"),
    ("prereq nxrrset new.example.com. TXT\nupdate add new.example.com. 3600 TXT t", "NOERROR"),
    ("prereq yxrrset new.example.com. AAAA\nupdate add new.example.com. 3600 A 192.0.2.57", "NXRRSET"),
    ("prereq yxrrset new.example.com. TXT t\nupdate delete new.example.com. TXT", "NOERROR"),
    ("prereq yxrrset new.example.com. A 192.0.2.55\nupdate add new.example.com. 3600 A 192.0.2.57", "NXRRSET"),
    ("update delete new.example.com. A 192.0.2.56", "NOERROR"),
    ("update add gone.example.com. 60 A 192.0.2.60\nupdate add gone.example.com. 60 TXT x", "NOERROR"),
    ("update delete gone.example.com.", "NOERROR"),
    ("update delete sub.example.com. NS", "NOERROR"),
    ("update add sub.example.com. 60 MX 10 www.example.com.", "NOERROR"),
]
LEFT = [
    ("new.example.com", "A", "NOERROR", True, ["new.example.com. 3600 IN A 192.0.2.55"], []),
    ("new.example.com", "TXT", "NOERROR", True, [], None),
    ("gone.example.com", "A", "NXDOMAIN", True, [], None),
    ("sub.example.com", "MX", "NOERROR", True, ["sub.example.com. 60 IN MX 10 www.example.com."], []),
]


def nsupdated(server, lines):
    """Sends an update by nsupdate: the code that it was answered with."""
    script = f"server 127.0.0.1 {server.port}\nzone example.com.\n{lines}\nsend\n"
    ran = subprocess.run(["nsupdate"], input=script, stderr=subprocess.PIPE, text=True, timeout=BOUND)
    failed = re.search(r"update failed: (\w+)", ran.stderr)
    if not failed and (ran.returncode or ran.stderr):
        raise Wrong(f"nsupdate {lines!r}: {ran.stderr}")
    return failed[1] if failed else "NOERROR"


def nsupdates(server):
    if shutil.which("nsupdate") is None:
        print("clients: nsupdate is not installed, skipped")
        return False
    for lines, code in UPDATES:
        got = nsupdated(server, lines)
        if got != code:
            raise Wrong(f"nsupdate {lines!r} is answered {got} where {code} is due")
    return True


def look(server):
    """Whether what the updates left is there, by messages of our own."""
    for name, kind, code, _, answers, _ in LEFT:
        reply = server.asked(wire.query(name + ".", kind))
        count = int.from_bytes(reply[6:8], "big")
        is_there = all(wire.record_bytes(answer) in reply for answer in answers)
        if reply[3] & 15 != wire.CODES[code] or count != len(answers) or not is_there:
            raise Wrong(f"after the updates {name} {kind} is answered {reply.hex()}")


def dnsperf(server, folder):
    """Asks each question many times over by dnsperf, with many under way: each has to be answered, with the code that is due."""
    if shutil.which("dnsperf") is None:
        print("clients: dnsperf is not installed, skipped")
        return 0
    questions = Path(folder, "questions")
    questions.write_text("".join(f"{name} {kind}\n" for name, kind, *_ in ASKED))
    due = {code: PERF_TURNS * sum(code == other for _, _, other, *_ in ASKED) for _, _, code, *_ in ASKED}
    for way in PERF_WAYS:
        command = ["dnsperf", "-s", "127.0.0.1", "-p", str(server.port), "-d", questions, "-n", str(PERF_TURNS), "-c", "4", *way]
        told = subprocess.run(command, stdout=subprocess.PIPE, stderr=subprocess.DEVNULL, text=True, timeout=2 * BOUND).stdout
        codes = re.search(r"Response codes: +(.*)", told)
        got = {code: int(count) for code, count in re.findall(r"([A-Z]+) (\d+)", codes[1])} if codes else {}
        if got != due or not re.search(r"Queries lost: +0 ", told):
            raise Wrong(f"dnsperf {' '.join(way)} tells {got} where {due} are due")
    return len(PERF_WAYS) * PERF_TURNS * len(ASKED)


def clients():
    """People's clients, then a restart."""
    with tempfile.TemporaryDirectory() as folder:
        zone, journal = Path(folder, "zone"), Path(folder, "journal")
        zone.write_text(ZONE)
        with Serving("--update", zone=zone, journal=journal) as server:
            count = diggers(server, "dig", [("+edns=0",), ("+noedns",), ("+tcp",), ("+tcp", "+noedns"), ("+edns=0", "+bufsize=4096")])
            count += diggers(server, "kdig", [(), ("+edns",), ("+tcp",)])
            count += dnspython(server) + dnspython_keeps(server) + kdig_keeps(server)
            count += dnsperf(server, folder)
            sent = nsupdates(server)
            if sent:
                look(server)
            status, closing = server.stopped()
            if status or not re.fullmatch(r"serial \d+\njournal_len \d+\n", closing):
                raise Wrong(f"it ends with status {status}: {closing!r}")
        with Serving(journal=journal) as server:
            if sent:
                look(server)
            if server.stopped() != (0, closing):
                raise Wrong("a restart has another serial or another journal")
    return count + 2 * len(UPDATES) * sent


def added(place):
    """The update that adds the name of this place (RFC 2136 2.5.1)."""
    return wire.update(("example.com.", "SOA", "IN"), [], [f"k{place}.example.com. 60 IN A 10.{place >> 16 & 255}.{place >> 8 & 255}.{place & 255}"])


def framed(message):
    return len(message).to_bytes(2, "big") + message


def frames_in(stream):
    """The messages of a connection, until it ends."""
    read = b""
    while True:
        try:
            piece = stream.recv(65_536)
        except OSError:
            return
        if not piece:
            return
        read += piece
        while len(read) >= 2 and len(read) >= 2 + int.from_bytes(read[:2], "big"):
            size = int.from_bytes(read[:2], "big")
            yield read[2 : 2 + size]
            read = read[2 + size :]


def in_turn(connected, messages):
    """Sends messages one after another, each behind the reply to the one before, and over a new connection behind each hundred: their
    replies, until a connection cannot be made or ends."""
    stream, replies = None, None
    for place, message in enumerate(messages):
        try:
            if place % MOST == 0:
                if stream is not None:
                    stream.close()
                stream = connected()
                stream.setsockopt(socket.IPPROTO_TCP, socket.TCP_NODELAY, 1)
                replies = frames_in(stream)
            stream.sendall(framed(message))
        except OSError:
            break
        reply = next(replies, None)
        if reply is None:
            break
        yield reply
    if stream is not None:
        stream.close()


def acknowledged(server, first, seconds):
    """Sends updates one after another until the program is killed: the places that were answered NoError."""
    done = []
    timer = threading.Timer(seconds, server.run.send_signal, [signal.SIGKILL])
    timer.start()
    for place, reply in enumerate(in_turn(server.connected, map(added, range(first, first + 100_000))), first):
        if reply[3] & 15:
            raise Wrong(f"an update is answered {reply.hex()}")
        done.append(place)
    timer.join()
    server.run.wait(BOUND)
    return done


def is_lost(server, places):
    """Those of the names that are not there."""
    lost = []
    for begin in range(0, len(places), MOST):
        part = places[begin : begin + MOST]
        with server.connected() as stream:
            stream.sendall(b"".join(framed(wire.query(f"k{place}.example.com.", "A")) for place in part))
            replies = frames_in(stream)
            lost += [place for place in part if int.from_bytes(next(replies, bytes(8))[6:8], "big") != 1]
    return lost


def kills(count):
    """Kills it under updates, so many times over one journal."""
    chance, done = random.Random(2136), []
    with tempfile.TemporaryDirectory() as folder:
        zone, journal = Path(folder, "zone"), Path(folder, "journal")
        zone.write_text(ZONE)
        for _ in range(count):
            with Serving("--update", zone=zone, journal=journal) as server:
                lost = is_lost(server, done[-500:])
                if lost:
                    raise Wrong(f"after a kill {len(lost)} updates that were answered NoError are missing")
                first = done[-1] + 2 if done else 0
                done += acknowledged(server, first, chance.uniform(0.01, 0.3))
        with Serving(zone=zone, journal=journal) as server:
            lost = is_lost(server, done)
            if lost:
                raise Wrong(f"{len(lost)} of {len(done)} updates that were answered NoError are missing at the end")
    return len(done)


def crowd(server, count):
    """So many connections at once, which ask and are answered, and a hundred behind them, of which each second one is silent or sends a single
    byte. These come when the system's queue has room: of those that it has no room for it forgets one that sends nothing."""
    message = framed(wire.query("www.example.com.", "A"))
    last, count = count, count + 100
    idle = set(range(last, count, 2))
    selector = selectors.DefaultSelector()
    streams, answered, ended = [], 0, 0
    end = time.monotonic() + 4 * BOUND

    def send(stream, place):
        """Sends what a connection is to get, once it is made."""
        if place not in idle:
            stream.send(message)
        elif place % 4 == 0:
            stream.send(message[:1])
        selector.modify(stream, selectors.EVENT_READ, place)

    def take(stream, place):
        """Takes what came over a connection, or its end."""
        nonlocal answered, ended
        try:
            piece = stream.recv(4096)
        except OSError:
            piece = b""
        if place in idle:
            if piece:
                raise Wrong("a connection that asked nothing is answered")
            ended += 1
        elif piece[2:4] == message[2:4] and len(piece) > len(message):
            answered += 1
        else:
            raise Wrong(f"a connection that asked is answered {piece.hex()}")
        selector.unregister(stream)
        stream.close()

    def go_on(wait):
        """Goes on with each connection that was made meanwhile, or that there is something of."""
        for key, events in selector.select(wait):
            (send if events & selectors.EVENT_WRITE else take)(key.fileobj, key.data)

    for place in range(count):
        while place == last and place - answered > QUEUE and time.monotonic() < end:
            go_on(0.5)
        stream = socket.socket()
        stream.setblocking(False)
        stream.connect_ex(("127.0.0.1", server.port))
        streams.append(stream)
        selector.register(stream, selectors.EVENT_WRITE, place)
        if place % 16 == 15:
            go_on(0)  # at once, since the server waits for no more than its limit
    while answered + ended < count and time.monotonic() < end:
        go_on(0.5)
    for stream in streams:
        stream.close()
    if (answered, ended) != (count - len(idle), len(idle)):
        raise Wrong(f"{answered} of {count - len(idle)} connections were answered, and {ended} of {len(idle)} idle ones were ended")


def crowds(count):
    with tempfile.TemporaryDirectory() as folder:
        zone = Path(folder, "zone")
        zone.write_text(ZONE)
        with Serving(zone=zone) as server:
            crowd(server, count // 3)
            before = server.resident()
            crowd(server, count)
            crowd(server, count)
            after = server.resident()
            if before is not None and after > before + 1024:
                raise Wrong(f"{before} KiB of memory before {2 * count} connections, and {after} behind them")
            status, _ = server.stopped()
            if status:
                raise Wrong(f"it ends with status {status}")


def main():
    kills_, connections = [int(word) for word in sys.argv[1:3]] + [KILLS, CONNECTIONS][len(sys.argv) - 1 :]
    try:
        count = clients()
        acknowledged_ = kills(kills_)
        crowds(connections)
    except Wrong as wrong:
        print(f"clients: {wrong}")
        sys.exit(1)
    print(f"clients: {count} exchanges passed, {acknowledged_} updates outlived {kills_} kills, {connections} connections at once, 0 failed")


if __name__ == "__main__":
    main()
