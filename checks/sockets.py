#!/usr/bin/env python3
"""Treats the built program, as it serves on loopback, to what only sockets, clocks and threads of the system bring, and what no list of events shows.

The stamps of updates by each way in, also where the time of day is set and a week has passed, which moves no deadline; connections over
many workers, of which none gives way while there is room for all; peers that read a little at a time and keep no newcomer out; thousands of
connections that are closed at once, which a client beside them does not notice; a standard input that does not block; the greatest datagram;
a stop of the whole process behind which what had come is answered; refused accepts by which no other connection ends; peers of IPv4 at an
address of IPv6, and who is let in; a hundred long replies to a peer that reads late; and what is said of a journal with a table too many.

  sockets.py [WORD..]  the checks in whose names one of these words stands, or all

Uses the standard library, a C compiler (cc) for refusing_calls.c, and loopback alone. Each server and each wait is bounded in time. DNS_PROGRAM
names another program. The checks run side by side where none spoils the other's times.
"""

import calendar
import errno
import os
import resource
import select
import signal
import socket
import sys
import tempfile
import threading
import time
from concurrent.futures import ThreadPoolExecutor
from contextlib import ExitStack, closing

try:
    import sqlite3
except ImportError:
    sqlite3 = None

import servers
import wire
from servers import MESSAGES, QUERY, REPLY, Server, exchange, fault_if, frame_from, framed, is_ended

NEAR = 1.0  # seconds by which a stamp may be off
HOUR, WEEK = 3_600, 604_800  # seconds
LIMIT = 2.0  # seconds that a connection may stay without a whole message
TICK = 0.8  # seconds within which a connection is closed behind its limit, on a busy machine
PLACES, DRAINING = 20, 10  # connections of trickling peers, and seconds behind the limit within which one of them has given way
REFUSED = wire.CODES["REFUSED"]
TC = 0x02  # in the third byte of a message
MOST_DATAGRAM = 65_507  # bytes that IPv4 has for a datagram's own: 65,535 less the heads of IP and UDP (RFC 791 3.1, RFC 768)
USAGE, OUT_OF_PLACE, KEEPER_FAULT = 1, 5, 8
P99 = 0.05  # seconds
EACH = 45e-6  # seconds of processor time that closing a connection takes at most, of which the system's own part is half
IP_BIND_ADDRESS_NO_PORT = 24  # linux/in.h: the port is chosen as it connects

library = None  # refusing_calls.c, built


def with_opt(message, size):
    """A message with an OPT record at its end (RFC 6891 6.1.2)."""
    return message[:10] + b"\0\1" + message[12:] + b"\0" + wire.number(41, 2) + wire.number(size, 2) + bytes(6)


def addition(name):
    return wire.update(servers.SECTION, [], [f"{name}.example.com. 60 IN A 192.0.2.55"])


# Stamps, and clocks that are set.


def stamps():
    """An update by each way in, before and behind settings of the clock: each row's stamp against the time of day at its answer."""
    if not sqlite3:
        print("sockets: stamps is skipped, Python has no module sqlite3")
        return
    due, server = [], Server("--update", library=library)
    server.command.append(f"--journal={server.folder}/journal")
    with server:
        for place, (passed, seconds) in enumerate([(0, 0), (0, HOUR), (0, -HOUR), (0, WEEK), (WEEK, WEEK), (2 * WEEK, 2 * WEEK + 5)]):
            server.calls.pass_time(passed)
            server.calls.shift(seconds - passed)
            time.sleep(0.3)
            for way in ("udp", "tcp"):
                message = addition(f"{way}{place}")
                reply = server.asked(message) if way == "udp" else server.exchanged(message)
                yield fault_if(not reply or reply[3] & servers.CODE, f"an update by {way} was not taken")
                due.append((way, seconds, time.time() + seconds))
        server.stop()
        with closing(sqlite3.connect(f"{server.folder}/journal")) as rows:
            found = rows.execute("SELECT timestamp FROM records WHERE client_id > 0 ORDER BY id").fetchall()
    yield fault_if(len(found) != len(due), f"{len(found)} rows for {len(due)} updates")
    last = {"udp": 0.0, "tcp": 0.0}
    for (text,), (way, seconds, moment) in zip(found, due):
        stamp = calendar.timegm(time.strptime(text[:19], "%Y-%m-%d %H:%M:%S")) + int(text[20:]) / 1_000
        # The clock was set back: no moment falls, so that a stamp may stay behind the one before it instead.
        is_near = abs(stamp - moment) <= NEAR or (seconds < 0 and last[way] <= stamp <= last[way] + 2 * NEAR)
        yield fault_if(not is_near, f"by {way}, clock {seconds:+} s: the stamp is {text}, {stamp - moment:+.1f} s off")
        last[way] = stamp


def deadlines():
    """A connection in the middle of its time when the clock is set: it is closed neither early nor much later."""

    def one(seconds):
        with Server(f"--limit={1_000 * LIMIT:.0f}", library=library) as server, server.connected() as kept, server.connected() as silent:
            begun = time.monotonic()
            time.sleep(LIMIT / 2)
            server.calls.shift(seconds)
            time.sleep(LIMIT * 0.35)
            early = is_ended(silent)
            wrong = [fault_if(early, f"clock {seconds:+} s: a connection is closed at {time.monotonic() - begun:.2f} s of {LIMIT:.0f}")]
            wrong.append(fault_if(exchange(kept) != REPLY, f"clock {seconds:+} s: a connection is not served in the middle of its time"))
            late = not early and not is_ended(silent, LIMIT * 0.15 + TICK)
            return wrong + [fault_if(late, f"clock {seconds:+} s: a silent connection stays for more than {time.monotonic() - begun:.2f} s")]

    with ThreadPoolExecutor(4) as pool:
        for found in pool.map(one, (HOUR, -HOUR, WEEK, 0)):
            yield from found


# Workers.


def workers():
    """Connections over several workers: none gives way while fewer are open than may be, and the bound holds for all of them together."""
    for count, most, opened in ((64, 4_096, 2_000), (4, 40, 30), (4, 40, 40), (8, 16, 16), (3, 1_000, 999)):
        opened = min(opened, resource.getrlimit(resource.RLIMIT_NOFILE)[0] - 200)
        with ExitStack() as streams, Server(f"--workers={count}", f"--connections={most}", "--limit=0") as server:
            time.sleep(0.5)  # those that asked whether it serves are gone
            kept = [streams.enter_context(server.connected()) for _ in range(opened)]
            served = sum(exchange(stream) == REPLY for stream in kept)
            yield fault_if(served < opened, f"{count} workers, {most} connections: of {opened} only {served} are answered")
            time.sleep(0.3)
            closed = sum(is_ended(stream) for stream in kept)
            yield fault_if(closed, f"{count} workers, {most} connections: of {opened} that are open {closed} are closed")
    for count, most, more in ((8, 16, 64), (4, 40, 5), (1, 10, 3), (5, 7, 7)):
        with ExitStack() as streams, Server(f"--workers={count}", f"--connections={most}", "--limit=0") as server:
            time.sleep(0.5)
            kept = [streams.enter_context(server.connected()) for _ in range(most)]
            for stream in kept:
                exchange(stream)
            answered = 0
            for _ in range(more):
                stream = streams.enter_context(server.connected())
                stream.settimeout(2)
                answered += exchange(stream) == REPLY
                kept.append(stream)
            yield fault_if(answered < more, f"{count} workers, {most} connections, all open: of {more} newcomers {answered} are answered")
            time.sleep(0.3)
            open_now = sum(not is_ended(stream) for stream in kept)
            yield fault_if(open_now > most, f"{count} workers: {open_now} connections are open at once, of {most} that may be")
            yield fault_if(open_now < most, f"{count} workers: {open_now} connections stay open of {most} that may, of {most + more} that came")


# Peers that trickle.


def trickling():
    """Peers at all places that take a little of what they are owed from time to time: a newcomer is served all the same."""
    long = framed(servers.LONG) * 21  # 880 KB of replies, fewer bytes than may wait
    with ThreadPoolExecutor(2) as pool:
        ways = {"": long, ", closed behind their last message,": framed(QUERY) * (MESSAGES - 21) + long}
        for name, took, is_served in pool.map(lambda way: trickled(*way), ways.items()):
            text = f"{PLACES} peers{name} that read 28 KB a second keep a newcomer out for {took:.0f} s at a limit of {LIMIT:.0f}"
            yield fault_if(not is_served, text)


def trickled(name, questions):
    """How long a newcomer waits beside peers at all places that ask so and read a little at a time, and whether it is served in time."""
    with ExitStack() as streams, Server(f"--connections={PLACES}", f"--limit={1_000 * LIMIT:.0f}", zone=servers.LONG_ZONE) as server:
        time.sleep(0.3)
        peers, is_over = [], threading.Event()
        for _ in range(PLACES):
            stream = streams.enter_context(socket.socket())
            stream.setsockopt(socket.IPPROTO_TCP, socket.TCP_MAXSEG, 400)
            stream.setsockopt(socket.SOL_SOCKET, socket.SO_RCVBUF, 2_048)
            stream.connect((server.host, server.port))
            stream.sendall(questions)
            peers.append(stream)

        def trickle():
            while not is_over.wait(0.1):
                for stream in peers:
                    try:
                        stream.recv(2_800, socket.MSG_DONTWAIT)
                    except OSError:
                        continue

        reader = threading.Thread(target=trickle)
        reader.start()
        time.sleep(1)
        begun, reply = time.monotonic(), None
        while reply != REPLY and time.monotonic() < begun + LIMIT + DRAINING:
            try:
                reply = server.exchanged(QUERY, 1)
            except OSError:
                time.sleep(0.1)
        is_over.set()
        reader.join()
        return name, time.monotonic() - begun, reply == REPLY


# Closing many.


class Crowd:
    """A process that holds so many connections, and closes them at once, from the first to the last, when it is told to."""

    def __init__(self, place, count):
        ready, told = os.pipe()
        waits, self.go = os.pipe()
        self.child = os.fork()
        if self.child == 0:
            try:
                kept = []
                for number in range(count):
                    stream = socket.socket()
                    stream.setsockopt(socket.IPPROTO_IP, IP_BIND_ADDRESS_NO_PORT, 1)
                    stream.bind((f"127.78.{number // 10_000 + 1}.1", 0))
                    stream.connect(place)
                    kept.append(stream)
                for stream in kept:
                    stream.sendall(framed(QUERY))
                for stream in kept:
                    stream.recv(65_536)
                os.write(told, b"x")
                os.read(waits, 1)
                for stream in kept:
                    stream.close()
                time.sleep(60)
            finally:
                os._exit(0)
        os.close(told)
        os.close(waits)
        self.is_ready = bool(select.select([ready], [], [], 60)[0]) and os.read(ready, 1) == b"x"
        os.close(ready)

    def close_all(self):
        os.write(self.go, b"x")

    def end(self):
        os.close(self.go)
        os.kill(self.child, signal.SIGKILL)
        os.waitpid(self.child, 0)


def closing_many():
    """So many connections closed at once take processor time in proportion, and leave no file open."""
    few = fewest()
    taken = {}
    for count in (few, 2 * few, 4 * few):
        taken[count], _ = yield from closed_crowd(count)
    shown = ", ".join(f"{one:.2f} s of processor time for {count}" for count, one in taken.items())
    yield fault_if(taken[4 * few] > 1.4 * 4 * max(taken[few], 0.05), f"closing at once is not linear: {shown}")
    yield fault_if(taken[4 * few] > EACH * 4 * few, f"closing at once takes long: {shown}")


def beside_closing():
    """A client that goes on asking does not notice that many connections are closed at once."""
    for count in (fewest(), 4 * fewest()):
        _, slow = yield from closed_crowd(count)
        yield fault_if(slow > P99, f"while {count} connections are closed, of 100 queries of a steady client 99 take up to {1_000 * slow:.0f} ms")


def fewest():
    """A quarter of the connections that this process may hold, up to 5,000."""
    return min(5_000, (resource.getrlimit(resource.RLIMIT_NOFILE)[0] - 200) // 4)


def closed_crowd(count):
    """What closing so many connections at once comes to: processor time, and what 99 of 100 queries of a steady client take at most meanwhile."""
    with Server("--limit=0", "--connections=65536") as server:
        left = server.open_files() + 20
        crowd = Crowd((server.host, server.port), count)
        try:
            yield fault_if(not crowd.is_ready, f"{count} connections were not all served")
            found = closed_at_once(server, crowd, left)
            yield fault_if(server.open_files() > left, f"of {count} connections {server.open_files() - left} stay open")
            return found
        finally:
            crowd.end()


def closed_at_once(server, crowd, left):
    """The processor time that it takes until only so many files are open, and what 99 of 100 queries of a steady client take at most meanwhile."""
    before, times, is_over = server.processor(), [], False
    crowd.close_all()
    end = time.monotonic() + 20
    while time.monotonic() < end and not is_over:
        with server.connected() as stream:
            for place in range(MESSAGES - 1):
                begun = time.monotonic()
                exchange(stream, wait=20)
                times.append(time.monotonic() - begun)
                time.sleep(0.001)
                if place % 10 == 9 and server.open_files() <= left:
                    is_over = True
                    break
    return server.processor() - before, sorted(times)[len(times) * 99 // 100]


# Standard input.


def inputs():
    """A standard input that does not block: it serves until its end, whatever comes of it before."""
    ours, theirs = os.pipe()
    os.set_blocking(ours, False)
    server = Server(given=ours)
    server.start()
    os.close(ours)
    try:
        if not server.is_serving(3):
            yield f"a pipe that does not block: it does not serve, status {server.status(1)}, {server.written()!r}"
            return
        os.write(theirs, b"x" * 700)
        before = server.processor()
        time.sleep(1.5)
        yield fault_if(not server.is_serving(2), f"it ended before its input: status {server.run.poll()}, {server.written()!r}")
        taken = (server.processor() or 0) - (before or 0)
        yield fault_if(taken > 0.1, f"waiting for standard input takes {100 * taken / 1.5:.0f} % of a processor")
        os.close(theirs)
        status = server.status(3)
        yield fault_if(status != 0 or not server.written().startswith("serial 7\n"), f"at its end the status is {status}: {server.written()!r}")
    finally:
        server.end()


# The greatest datagram.


def strings(size):
    """The TXT records of a set whose reply to a query with OPT has so many bytes: question, records without compression, OPT."""
    owner = "big.example.com."
    head = len(wire.query(owner, "TXT")) + 11
    each = len(wire.name_bytes(owner)) + 10 + 1
    count = -(-(size - head) // (each + 255))
    left = size - head - count * each
    texts = []
    for place in range(count):
        length = min(255, left - 6 * (count - place - 1))
        texts.append(f"{place:06}".ljust(length, "x"))
        left -= length
    return "".join(f'{owner} 60 IN TXT "{text}"\n' for text in texts)


def payloads():
    """Sets about the greatest datagram: none vanishes; and the word that bounds it."""
    for size in (60_000, MOST_DATAGRAM - 1, MOST_DATAGRAM, MOST_DATAGRAM + 1, 65_535, 80_000):
        question = with_opt(wire.query("big.example.com.", "TXT"), 65_535)
        with Server(zone=servers.ZONE + strings(size)) as server:
            reply = server.asked(question, 2)
            yield fault_if(reply is None, f"a reply of {size} bytes by datagram vanishes")
            if reply:
                is_cut = bool(reply[2] & TC)
                yield fault_if(is_cut != (size > MOST_DATAGRAM), f"a reply of {size} bytes comes as {len(reply)} bytes, TC {int(is_cut)}")
                yield fault_if(not is_cut and len(reply) != size, f"a reply of {size} bytes comes as {len(reply)} bytes")
                yield fault_if(len(reply) > MOST_DATAGRAM, f"a datagram of {len(reply)} bytes")
    zone = servers.ZONE + strings(60_000)
    for most, offered in ((512, 512), (512, 4_096), (1_232, 512), (1_232, 1_232), (1_232, 65_535), (1_232, None), (4_000, 65_535), (65_507, 65_535)):
        server = Server(f"--payload={most}", zone=zone)
        server.start()
        try:
            if not server.is_serving(3):
                yield f"--payload={most} is not taken: status {server.run.poll()}, {server.written()!r}"
                continue
            question = wire.query("big.example.com.", "TXT")
            reply = server.asked(with_opt(question, offered) if offered else question, 2)
            bound = min(most, offered or 512)
            yield fault_if(reply is None, f"--payload={most}, {offered} offered: no reply")
            if reply:
                is_cut = bool(reply[2] & TC)
                yield fault_if(len(reply) > bound, f"--payload={most}, {offered} offered: a datagram of {len(reply)} bytes")
                yield fault_if(is_cut != (bound < 60_000), f"--payload={most}, {offered} offered: TC {int(is_cut)} of {len(reply)} bytes")
                # No record more would fit: each has at most 255 + 28 bytes.
                yield fault_if(is_cut and len(reply) <= bound - 290, f"--payload={most}, {offered} offered: only {len(reply)} bytes")
            whole = server.exchanged(question)
            yield fault_if(not whole or len(whole) != 60_000 - 11, f"--payload={most}: over a connection the reply has {len(whole or b'')} bytes")
        finally:
            server.end()
    for word in ("0", "511", "65508", "65536", "4294968296", "-1", "x", "", "0512", "1232 "):
        server = Server(f"--payload={word}").start()
        status = server.status(3)
        yield fault_if(status != USAGE or not server.written().startswith("usage"), f"--payload={word!r}: status {status}, {server.written()!r}")
        server.end()
    server = Server("--payload=1232", "--payload=1232").start()
    yield fault_if(server.status(3) != USAGE, "--payload= twice is taken")
    server.end()


# A process that stands still.


def stalls():
    """The whole process stopped for longer than the limit: what had come before time ran out is answered, then time is judged."""
    stall, limit = 5.7, 5.0
    with Server() as server, server.connected() as asking, server.connected() as half, server.connected() as silent:
        first = exchange(asking) == REPLY and exchange(half) == REPLY
        yield fault_if(not first, "a connection is not served")
        begun = time.monotonic()
        os.kill(server.run.pid, signal.SIGSTOP)
        time.sleep(0.5)
        asking.sendall(framed(QUERY))
        half.sendall(framed(QUERY)[:9])
        waiting = server.connected()
        waiting.sendall(framed(QUERY))
        time.sleep(begun + stall - time.monotonic())
        os.kill(server.run.pid, signal.SIGCONT)
        for name, stream in (("a connection", asking), ("a newcomer", waiting)):
            stream.settimeout(3)
            try:
                reply = frame_from(stream)
            except OSError:
                reply = None
            yield fault_if(reply != REPLY, f"behind a stall of {stall} s at a limit of {limit:.0f}, {name} whose query waited is closed unanswered")
        yield fault_if(not is_ended(half, limit + 1), "half a message keeps a connection open behind its limit")
        yield fault_if(not is_ended(silent, limit + 1), "a silent connection stays open behind its limit")
        waiting.close()


# Refused accepts.


def evictions():
    """Accepts that are refused for a reason of one connection's, or for want of memory: no other connection is closed for it."""
    names = "ECONNABORTED EPERM EPROTO ENETDOWN ENOPROTOOPT EHOSTDOWN ENONET EHOSTUNREACH EOPNOTSUPP ENETUNREACH EINTR ENOBUFS ENOMEM".split()

    def one(name):
        with ExitStack() as streams, Server("--limit=0", "--connections=100", library=library, call="accept4", error=getattr(errno, name)) as server:
            kept = [streams.enter_context(server.connected()) for _ in range(8)]
            served = sum(exchange(stream) == REPLY for stream in kept)
            server.calls.refuse(4)
            for _ in range(6):
                streams.enter_context(server.connected())
                time.sleep(0.02)
            time.sleep(0.5)
            still = sum(exchange(stream) == REPLY for stream in kept)
            wrong = [fault_if(served < 8, f"accept4 {name}: of 8 connections {served} are served")]
            return wrong + [fault_if(still < 8, f"accept4 {name}, four times: of 8 connections that were open {8 - still} are closed")]

    with ThreadPoolExecutor(len(names)) as pool:
        for found in pool.map(one, names):
            yield from found


# Peers of IPv4 at an address of IPv6.


def code_of(reply):
    return None if reply is None else reply[3] & servers.CODE


def asks_from(server, host, source, way):
    """The code of the reply to a query from this address to that one, none without a reply."""
    family = socket.AF_INET6 if ":" in host else socket.AF_INET
    with socket.socket(family, socket.SOCK_DGRAM if way == "udp" else socket.SOCK_STREAM) as one:
        one.settimeout(3)
        one.bind((source, 0))
        try:
            one.connect((host, server.port))
            one.sendall(QUERY if way == "udp" else framed(QUERY))
            return code_of(one.recv(65_535) if way == "udp" else frame_from(one))
        except OSError:
            return None


def mapped():
    """At [::] a peer of IPv4 is let in or shut out by the networks of IPv4, and one of IPv6 by those of IPv6."""
    try:
        servers.free_port("::1")
    except OSError:
        print("sockets: loopback has no IPv6, which is skipped")
        return
    at = ["--udp=[::]:PORT", "--tcp=[::]:PORT"]
    v4, other, v6 = ("127.0.0.1", "127.0.0.1"), ("127.0.0.1", "127.0.0.9"), ("::1", "::1")
    tried = [
        ([], {v4: 0, other: 0, v6: 0}),
        (["--deny=127.0.0.0/8"], {v4: REFUSED, other: REFUSED, v6: 0}),
        (["--deny=7f000000/8"], {v4: REFUSED, v6: 0}),
        (["--deny=127.0.0.9/32"], {v4: 0, other: REFUSED, v6: 0}),
        (["--allow=127.0.0.1/32"], {v4: 0, other: REFUSED}),
        (["--allow=10.0.0.0/8"], {v4: REFUSED, other: REFUSED}),
        (["--deny=0.0.0.0/0", "--allow=127.0.0.9/32"], {v4: REFUSED, other: 0, v6: 0}),
        (["--deny=::/0"], {v4: 0, v6: REFUSED}),
        (["--allow=::1/128"], {v4: 0, v6: 0}),
        (["--allow=2001:db8::/32"], {v4: 0, v6: REFUSED}),
        (["--allow=127.0.0.0/8", "--deny=::/0"], {v4: 0, other: 0, v6: REFUSED}),
    ]
    for words, due in tried:
        server = Server(*words, at=at, host="::1").start()
        try:
            end = time.monotonic() + 5
            while time.monotonic() < end and asks_from(server, "::1", "::1", "udp") is None:
                time.sleep(0.05)
            for (host, source), code in due.items():
                for way in ("udp", "tcp"):
                    got = asks_from(server, host, source, way)
                    yield fault_if(got != code, f"at [::] with {' '.join(words) or 'no network'}: by {way} from {source} the code is {got}, and {code} is due")
        finally:
            server.end()


# Long replies, read late.


def read_late():
    """A hundred pipelined queries whose replies have 56 KB each, read a second late: a hundred whole frames, then the end."""
    size = 56_000
    question = wire.query("big.example.com.", "TXT")
    with Server("--limit=5000", zone=servers.ZONE + strings(size + 11)) as server, ExitStack() as streams:
        due = server.exchanged(question)
        yield fault_if(not due or len(due) != size, f"a reply of {size} bytes comes as {len(due or b'')}")
        for count, room, is_half in ((MESSAGES, None, False), (MESSAGES, 65_536, False), (MESSAGES, 65_536, True), (60, 65_536, True)):
            stream = streams.enter_context(server.connected(room=room))
            stream.settimeout(5)
            stream.sendall(framed(question) * count)
            if is_half:
                stream.shutdown(socket.SHUT_WR)
            time.sleep(1)
            whole = 0
            try:
                while frame_from(stream) == due:
                    whole += 1
            except OSError as fault:
                yield f"{count} queries, read late: behind {whole} whole replies {type(fault).__name__} {fault}"
            yield fault_if(whole != count, f"{count} queries of {size} bytes each, read a second late{', sending ended' if is_half else ''}: {whole} whole replies")
        few = 20
        before = server.memory()
        greedy = [streams.enter_context(server.connected(room=4_096)) for _ in range(few)]
        for stream in greedy:
            stream.sendall(framed(question) * MESSAGES)
        time.sleep(1)
        grown = (server.memory() - before) / few
        yield fault_if(grown > 1.1 * MESSAGES * (size + 2), f"what a peer does not take makes {grown / 1_048_576:.1f} MiB wait in the program")


# What is said of a journal.


def journals():
    """A journal with an index or a table too many, of each version, and one of a version to come: the status, and what a person is told."""
    if not sqlite3:
        print("sockets: journals is skipped, Python has no module sqlite3")
        return
    down = "DROP TABLE batches; UPDATE tdns_schema SET version = 1"
    index = "CREATE INDEX extra ON records (soa_serial)"
    tried = [
        ("version 1 with an index", f"{down}; {index}", 1),
        ("version 1 with ANALYZE's table", f"{down}; ANALYZE", 1),
        ("version 1 with a table", f"{down}; CREATE TABLE extra (a)", 1),
        ("version 2 with an index", index, 2),
        ("version 2 with ANALYZE's table", "ANALYZE", 2),
        ("version 2 with a table", "CREATE TABLE extra (a)", 2),
        ("version 7", "UPDATE tdns_schema SET version = 7", 7),
    ]
    for name, statements, version in tried:
        with tempfile.TemporaryDirectory() as folder:
            written(folder, statements)
            server = Server(f"--journal={folder}/journal", folder=folder).start()
            status, told = server.status(5), server.told()
            server.end()
            yield fault_if(status != KEEPER_FAULT or server.written() != "keeper fault\n", f"{name}: status {status}, {server.written()!r}")
            yield fault_if(told.count("\n") != 1 or f"{folder}/journal" not in told, f"{name}: what is told is {told!r}")
            is_known = version <= 2
            yield fault_if(is_known and "of which this program knows" in told, f"{name}: it is told as a version that is not known: {told.strip()!r}")
            yield fault_if(is_known and "table" not in told and "index" not in told, f"{name}: nothing says that its tables are odd: {told.strip()!r}")
            yield fault_if(not is_known and "version 7" not in told, f"{name}: its version is not told: {told.strip()!r}")
    with tempfile.TemporaryDirectory() as folder:
        written(folder, "DELETE FROM batches WHERE first > 1")
        server = Server(f"--journal={folder}/journal", folder=folder).start()
        status = server.status(5)
        yield fault_if(status != OUT_OF_PLACE or "batch out of place" not in server.written(), f"a batch too few: status {status}, {server.written()!r}")
        server.end()
        change(folder, down)
        with Server(f"--journal={folder}/journal", folder=folder) as server:
            replies = [code_of(server.asked(wire.query(f"n{place}.example.com.", "A"))) for place in range(3)]
            yield fault_if(replies != [0, 0, 0], f"a journal whose batches were made anew: the codes are {replies}")


def written(folder, statements):
    """A journal that the program wrote, behind these statements."""
    with Server("--update", f"--journal={folder}/journal", folder=folder) as server:
        for place in range(3):
            server.asked(addition(f"n{place}"))
        server.stop()
    change(folder, statements)


def change(folder, statements):
    with closing(sqlite3.connect(f"{folder}/journal", isolation_level=None)) as database:
        for statement in statements.split("; "):
            database.execute(statement)
        database.execute("PRAGMA wal_checkpoint(TRUNCATE)")


# Those of ALONE would spoil one another's times.
TOGETHER = [stamps, deadlines, inputs, payloads, stalls, evictions, mapped, read_late, journals, trickling]
ALONE = [workers, closing_many, beside_closing]


def main():
    global library
    with tempfile.TemporaryDirectory() as folder:
        library = servers.built(folder)
        servers.report("sockets", sys.argv[1:], TOGETHER, ALONE)


if __name__ == "__main__":
    main()
