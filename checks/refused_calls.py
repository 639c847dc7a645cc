#!/usr/bin/env python3
"""Refuses the built program, as it serves on loopback, each of the calls of the system that serving makes, with each error of the call's
manual page: once, at its first call, at a middle and at a late one; and for ever. The tables BEGINNING, OPENING and SERVING have what is due then, and why.

Once: a client behind it has its answer within two seconds, by UDP and by TCP; or the program does not begin to serve, with a line and a
status that is not 0. For ever: it takes no more than a twentieth of a processor; and whoever is not served is told of, by a line on
standard error within six seconds. What is acknowledged meanwhile stands in the journal.

  refused_calls.py [WORD..]  the cases in whose names all these words stand, or all

A case that fails is tried again, with few others beside it, and once more with one. Uses the standard library, a C compiler (cc) for refusing_calls.c, and
loopback alone. Each server and each wait is bounded in time. DNS_PROGRAM names another program.
"""

import errno
import os
import socket
import sys
import tempfile
import time
from collections import namedtuple
from concurrent.futures import ThreadPoolExecutor
from contextlib import closing
from pathlib import Path

try:
    import sqlite3
except ImportError:
    sqlite3 = None

import servers
import wire
from servers import QUERY, Server, frame_from, framed

AT_ONCE = 2.0  # seconds within which a client behind a refused call has its answer
TOLD = 6.0  # seconds within which what is refused for ever is told
MOST = 0.05  # of a processor
A_WHILE = 2.0  # seconds for which a call is refused that passes then: fewer than those behind which the program gives up
BESIDE = (56, 8, 2)  # servers side by side, and where what failed is tried again, and once more
FEW = 120  # cases that failed and are tried again: where more fail it is no busy machine
BEGINS = 10.0  # seconds within which a start that is refused has ended
UPDATES = 3  # of a client of whose updates one finds a call refused
MANY = 120  # queries before a late call
PORT_FAULT, NO_MEMORY = 11, 10
GREED = 47  # times that two long answers are asked for over a connection that is not read: more than the system's buffers take
PAUSE = 0.2  # seconds between two clients while calls are refused
CLOSING = "serial "
NEW = "new.example.com. 60 IN A 192.0.2.55"
ADDITION, ADDED = wire.update(servers.SECTION, [], [NEW]), wire.record_bytes(NEW)
NOERROR = 0

# What is due. Each names what may be seen while the call is refused for ever; once, all but two want that a client behind it is answered.
STARTS = "it serves, or ends with a line and a status that is not 0"
TELLS = "who is not served is told of by a line; it ends as a port fault, or serves again once the call passes"
ENDS = "a line, and it ends as a port fault; once, it may go on in its place"
GOES = "the server goes on, and serves the others"
INPUT = "standard input has failed: it ends as where it ended, with its two lines"
OUTPUT = "the output could not be written"

Row = namedtuple("Row", "calls when errors due others reason", defaults=("", ""))

# At the start each call is made before anybody is served; a refusal of it is one to serve.
BEGINNING = [
    ("socket:datagram", "EACCES EAFNOSUPPORT EINVAL EMFILE ENFILE ENOBUFS ENOMEM EPROTONOSUPPORT"),
    ("socket:stream", "EACCES EAFNOSUPPORT EINVAL EMFILE ENFILE ENOBUFS ENOMEM EPROTONOSUPPORT"),
    ("bind:datagram", "EACCES EADDRINUSE EADDRNOTAVAIL EBADF EFAULT EINVAL ENOMEM ENOTSOCK"),
    ("bind:stream", "EACCES EADDRINUSE EADDRNOTAVAIL EBADF EFAULT EINVAL ENOMEM ENOTSOCK"),
    ("setsockopt:datagram", "EBADF EFAULT EINVAL ENOPROTOOPT ENOTSOCK"),
    ("setsockopt:stream", "EBADF EFAULT EINVAL ENOPROTOOPT ENOTSOCK"),
    ("listen", "EADDRINUSE EBADF ENOTSOCK EOPNOTSUPP"),
    ("fcntl:duplicate", "EBADF EINVAL EMFILE"),
    ("epoll_create1", "EINVAL EMFILE ENFILE ENOMEM"),
    ("epoll_ctl:add", "EBADF EEXIST EINVAL ELOOP ENOENT ENOMEM ENOSPC EPERM"),
    ("pthread_create", "EAGAIN EINVAL ENOMEM EPERM"),
]
OPENING = [
    (
        "openat",
        "EACCES EBUSY EDQUOT EEXIST EINTR EINVAL EIO EISDIR ELOOP EMFILE ENAMETOOLONG ENFILE ENODEV ENOENT ENOMEM ENOSPC ENOTDIR ENXIO"
        " EOVERFLOW EPERM EROFS ETXTBSY",
    ),
    ("statx", "EACCES EBADF EFAULT EINVAL ELOOP ENAMETOOLONG ENOENT ENOMEM ENOTDIR"),
    ("fcntl:lock", "EACCES EAGAIN EBADF EDEADLK EINTR EINVAL ENOLCK"),
    ("read:file", "EAGAIN EBADF EFAULT EINTR EINVAL EIO EISDIR"),
    ("pread", "EAGAIN EBADF EFAULT EINTR EINVAL EIO EISDIR ENXIO EOVERFLOW ESPIPE"),
    ("pwrite", "EAGAIN EBADF EDQUOT EFAULT EFBIG EINTR EINVAL EIO ENOSPC EPERM"),
    ("fsync", "EBADF EDQUOT EINTR EINVAL EIO ENOSPC EROFS"),
    ("fdatasync", "EBADF EDQUOT EINTR EINVAL EIO ENOSPC EROFS"),
    ("fchown", "EBADF EIO EPERM EROFS"),
    ("fchmod", "EBADF EIO EPERM EROFS"),
    ("close:file", "EBADF EDQUOT EINTR EIO ENOSPC"),
]
PASSES = "memory, buffers and signals come and go: it rests, and goes on; what does not pass is told"
USELESS = "the descriptor or the argument is wrong, which no waiting mends"
ONE_PEER = "it is of one connection that was refused (accept(2)): it takes the next one, and rests where that is refused as well"
OWN = "it is of this connection alone, which may end"
DATAGRAM = "it is of this reply alone, which is dropped"
KEPT = "the update is answered ServFail, or is in the journal; queries need none of it"
UNWATCHED = "a connection that cannot be watched is not served; where none can, nobody is served by TCP"
ACCEPTED = """ECONNABORTED EPERM EPROTO ENETDOWN ENOPROTOOPT EHOSTDOWN ENONET EHOSTUNREACH EOPNOTSUPP ENETUNREACH ETIMEDOUT EPROTONOSUPPORT
    ESOCKTNOSUPPORT"""
READ = "EAGAIN EBADF ECONNREFUSED ECONNRESET EFAULT EHOSTUNREACH EINTR EINVAL EIO ENOMEM ENOTCONN ENOTSOCK ETIMEDOUT"
WRITTEN = """EACCES EAGAIN EBADF ECONNRESET EDESTADDRREQ EFAULT EHOSTUNREACH EINTR EINVAL EIO EMSGSIZE ENOBUFS ENOMEM ENOTCONN ENOTSOCK EPERM
    EPIPE ETIMEDOUT"""
SENT = """EACCES EAGAIN EBADF ECONNRESET EDESTADDRREQ EFAULT EHOSTUNREACH EINTR EINVAL EISCONN EMSGSIZE ENETUNREACH ENOBUFS ENOMEM ENOTCONN
    ENOTSOCK EOPNOTSUPP EPERM EPIPE"""
SERVING = [
    Row("epoll_wait", "waits", "EINTR ENOMEM", TELLS, "", PASSES),
    Row("epoll_wait", "waits", "EBADF EFAULT EINVAL", ENDS, "", USELESS),
    Row("accept4", "waits", "EINTR EMFILE ENFILE ENOBUFS ENOMEM ENOSR", TELLS, "udp", PASSES),
    Row("accept4", "waits", ACCEPTED, TELLS, "udp", ONE_PEER),
    Row("accept4", "waits", "EBADF EFAULT EINVAL ENOTSOCK", ENDS, "", USELESS),
    Row("accept4", "waits", "EAGAIN", GOES, "udp", "nobody waits"),
    Row("recvfrom", "waits", "EINTR ENOMEM ENOBUFS EPERM ECONNREFUSED EHOSTUNREACH ENETDOWN ENETUNREACH", TELLS, "tcp", PASSES),
    Row("recvfrom", "waits", "EBADF EFAULT EINVAL ENOTCONN ENOTSOCK", ENDS, "", USELESS),
    Row("recvfrom", "waits", "EAGAIN", GOES, "tcp", "nothing came"),
    Row("epoll_ctl:add", "connections", "ENOMEM ENOSPC EPERM EEXIST EINVAL ELOOP ENOENT EBADF", TELLS, "udp", UNWATCHED),
    Row("setsockopt:connection", "connections", "EBADF EFAULT EINVAL ENOPROTOOPT ENOTSOCK", TELLS, "udp", OWN),
    Row("ioctl", "connections", "EBADF EFAULT EINVAL ENOTTY", TELLS, "udp", OWN),
    Row("read:connection", "connections", READ, GOES, "udp", OWN),
    Row("write:connection", "connections", WRITTEN, GOES, "udp", OWN),
    Row("epoll_ctl:mod", "owed", "EBADF EINVAL ELOOP ENOENT ENOMEM ENOSPC EPERM", GOES, "udp tcp", OWN),
    Row("shutdown", "closings", "EBADF EINVAL ENOTCONN ENOTSOCK", GOES, "udp tcp", OWN),
    Row("close:connection", "closings", "EBADF EDQUOT EINTR EIO ENOSPC", GOES, "udp tcp", "the descriptor is free whatever close(2) says"),
    Row("sendto", "datagrams", SENT, GOES, "tcp", DATAGRAM),
    Row("pwrite", "updates", "EAGAIN EBADF EDQUOT EFAULT EFBIG EINTR EINVAL EIO ENOSPC EPERM", GOES, "udp tcp", KEPT),
    Row("fdatasync", "updates", "EBADF EDQUOT EINTR EINVAL EIO ENOSPC EROFS", GOES, "udp tcp", KEPT),
    Row("read:input", "input", "EINTR EAGAIN", GOES, "udp tcp", "it is not at its end: it waits"),
    Row("read:input", "input", "EBADF EFAULT EINVAL EIO EISDIR", INPUT, "", "it serves until standard input ends or fails"),
    Row("write:output", "output", "EBADF EDQUOT EFAULT EFBIG EIO ENOSPC EPERM EPIPE", OUTPUT, "", "status 7"),
]


class Fault(Exception):
    """What is not as it is due."""


class Case:
    """A call, an error, when it is refused and how often; and what is due."""

    def __init__(self, call, error, when, count, skip, due, kind, others=""):
        self.call, self.error, self.when, self.count, self.skip = call, error, when, count, skip
        self.due, self.kind, self.others = due, kind, others.split()

    @property
    def name(self):
        return f"{self.call} {self.error} {self.when}"

    def server(self, library, folder, *words):
        code = getattr(errno, self.error)
        zone = servers.LONG_ZONE if self.kind == "owed" else servers.ZONE
        words = ["--update", f"--journal={folder}/journal", *words]
        return Server(*words, zone=zone, folder=folder, library=library, call=self.call, error=code)

    def tried(self, library):
        """What is wrong in one line, or none."""
        with tempfile.TemporaryDirectory(prefix="dns-refused-", dir=servers.ROOM) as folder:
            server = None
            try:
                if self.kind == "opened":
                    before(folder)
                server = self.server(library, folder, f"--workers={2 if self.kind in ('begin', 'opened', 'new') else 1}")
                self.play(server)
                self.look_at_journal(server)
            except Fault as fault:
                return f"{self.name}: {fault}"
            except (OSError, RuntimeError) as fault:
                return f"{self.name}: {type(fault).__name__} {fault}"
            finally:
                if server and server.run:
                    server.end()
        return None

    def play(self, server):
        self.acknowledged = False
        if self.kind in ("begin", "opened", "new"):
            self.begin(server)
        elif self.due == INPUT:
            self.input_fails(server)
        elif self.due == OUTPUT:
            self.output_fails(server)
        elif self.count > 0:
            self.once(server)
        else:
            self.for_ever(server)

    # What is refused at the start.

    def begin(self, server):
        """A call that is made before anybody is served: it serves, or ends with a line and a status."""
        server.calls.refuse(self.count, self.skip)
        server.start()
        is_serving = server.is_serving(AT_ONCE)
        status = server.status(0 if is_serving else BEGINS - AT_ONCE)
        if not server.calls.refused:
            raise Fault("the call was not made")
        if status is not None:
            if status == 0:
                raise Fault(f"it ended with status 0, and wrote {server.written()!r}")
            if not (server.told() + server.written()).endswith("\n") and status != 10:
                raise Fault(f"it ended with status {status} and no line")
            return
        if not is_serving:
            raise Fault(f"it neither serves nor ends: {self.seen(server)}")
        self.acknowledged = self.is_added(server)

    def is_added(self, server):
        """Whether the answer to an update says that it is done; then the journal has to have it."""
        reply = server.asked(ADDITION, AT_ONCE)
        return reply is not None and reply[3] & servers.CODE == NOERROR

    # What is refused once.

    def once(self, server):
        if self.when == "first":
            server.calls.refuse(self.count, self.skip)
        server.start()
        if not server.is_serving(AT_ONCE + 1 if self.when == "first" else servers.BOUND):
            return self.ended(server, "behind its start")
        if self.when == "late":
            spend(server)
        if self.when != "first":
            server.calls.refuse(self.count, self.skip)
        own = self.client(server)
        if self.count > 1:
            time.sleep(A_WHILE)
            server.calls.pass_all()
        own.wait(server)
        if not server.calls.refused:
            raise Fault("the call was not made")
        for name, is_answering in (("UDP", server.is_udp_answering), ("TCP", server.is_tcp_answering)):
            begun = time.monotonic()
            while not is_answering(AT_ONCE):
                if server.run.poll() is not None or time.monotonic() - begun >= AT_ONCE:
                    own.end()
                    return self.ended(server, f"to a client by {name}")
        if self.is_owed_itself() and not own.is_answered:
            raise Fault("the client whose call it was has no answer")
        own.end()
        if server.run.poll() is not None:
            self.ended(server, "behind it")
        if self.kind == "updates":
            self.acknowledged = self.is_added(server)
        return None

    def is_owed_itself(self):
        """Whether the client whose call was refused is owed its answer too: a call that a signal broke off is made again."""
        return self.error == "EINTR" and self.call in ("read:connection", "write:connection", "recvfrom", "epoll_wait", "accept4")

    def client(self, server):
        """The client whose call it is."""
        return {"updates": Updates, "closings": Closings, "owed": Owed}.get(self.kind, Asks)(server)

    def ended(self, server, where):
        """It has ended, which it may where the call is of no use; or it has not, and does not answer."""
        status = server.status(0.5)
        if status is None:
            raise Fault(f"no answer {where} within {AT_ONCE:.0f} s: {self.seen(server)}")
        if self.due != ENDS and not (self.when == "first" and self.due == TELLS):
            raise Fault(f"it ended with status {status} {where}: {self.seen(server)}")
        self.is_port_fault(server, status)

    def is_port_fault(self, server, status):
        """It ended as a port fault, or for want of memory where that was refused, and said so."""
        if status != PORT_FAULT and (status, self.error) != (NO_MEMORY, "ENOMEM"):
            raise Fault(f"it ended with status {status}: {self.seen(server)}")
        if not server.told().strip():
            raise Fault(f"it ended with status {status}, with no line on standard error")

    # What is refused for ever.

    def for_ever(self, server):
        if self.when == "for ever from the start":
            server.calls.refuse(-1)
            server.start()
        else:
            server.start()
            if not server.is_serving(servers.BOUND):
                raise Fault(f"it does not serve: {self.seen(server)}")
            server.calls.refuse(-1)
        begun, taken, told = time.monotonic(), server.processor() or 0, None
        before_, served, clients = taken, {"udp": 0, "tcp": 0}, []
        while time.monotonic() < begun + TOLD and server.run.poll() is None:
            if self.kind != "owed" or len(clients) < 2:
                clients.append(self.client(server))
            for name, is_answering in (("udp", server.is_udp_answering), ("tcp", server.is_tcp_answering)):
                served[name] = time.monotonic() if is_answering(PAUSE / 2) else served[name]
            time.sleep(PAUSE)
            taken = server.processor() or taken
            told = told or (time.monotonic() - begun if server.told().strip() else None)
        for one in clients:
            one.end()
        elapsed, status = time.monotonic() - begun, server.status(0.3)
        if not server.calls.refused:
            raise Fault("the call was not made")
        if taken - before_ > MOST * elapsed + 0.05:
            raise Fault(f"it takes {100 * (taken - before_) / elapsed:.0f} % of a processor: {self.seen(server)}")
        self.judge(server, status, told, {name for name, at in served.items() if at > begun + elapsed - 2})

    def judge(self, server, status, told, served):
        if status is not None:
            if self.due == GOES:
                raise Fault(f"it ended with status {status}: {self.seen(server)}")
            return self.is_port_fault(server, status)
        if self.due == ENDS:
            raise Fault(f"it goes on: {self.seen(server)}")
        if self.due == TELLS and told is None and served != {"udp", "tcp"}:
            raise Fault(f"by {' and '.join(sorted({'udp', 'tcp'} - served))} nobody is served, and nothing says so")
        for other in self.others:
            if other not in served:
                raise Fault(f"by {other} nobody is served meanwhile")
        server.calls.pass_all()
        if not server.is_udp_answering(AT_ONCE) or not server.is_tcp_answering(AT_ONCE):
            raise Fault(f"once the call passes it does not serve: {self.seen(server)}")
        if self.kind == "updates":
            self.acknowledged = self.is_added(server)
        return None

    # Standard streams.

    def input_fails(self, server):
        server.calls.refuse(self.count)
        server.start()
        os.write(server.run.stdin.fileno(), b"x")
        status = server.status(TOLD)
        if status is None and server.is_serving(AT_ONCE):
            return
        if status != 0 or not server.written().startswith(CLOSING):
            raise Fault(f"status {status}: {self.seen(server)}")

    def output_fails(self, server):
        server.start()
        if not server.is_serving(servers.BOUND):
            raise Fault(f"it does not serve: {self.seen(server)}")
        server.calls.refuse(self.count)
        status = server.stop(TOLD)
        if status != 7:
            raise Fault(f"status {status}: {self.seen(server)}")

    # What is left.

    def look_at_journal(self, server):
        """What was acknowledged stands in the journal: the record of the last update is in one of its rows."""
        if not self.acknowledged or not sqlite3:
            return
        server.calls.pass_all()
        server.stop(TOLD)
        server.run.kill()
        server.run.wait()
        with closing(sqlite3.connect(f"{server.folder}/journal")) as rows:
            count = rows.execute("SELECT count(*) FROM records WHERE record = ?", [ADDED]).fetchone()[0]
        if count != 1:
            raise Fault("an update was acknowledged, and stands in no row of the journal")

    def seen(self, server):
        return f"{server.calls.refused} of {server.calls.made} refused, told {(server.told() or server.written())[:120]!r}"


def before(folder):
    """A journal that has the zone already."""
    server = Server(f"--journal={folder}/journal", folder=folder)
    with server:
        server.stop()


def spend(server):
    """Asks many times."""
    with server.connected() as stream, socket.socket(type=socket.SOCK_DGRAM) as udp:
        udp.settimeout(servers.BOUND)
        udp.connect((server.host, server.port))
        for _ in range(MANY // 2):
            udp.send(QUERY)
            udp.recv(65_535)
            stream.sendall(framed(QUERY))
            frame_from(stream)


class Asks:
    """A client that asks by UDP and over a connection, and does not wait."""

    def __init__(self, server):
        self.is_answered = False
        self.streams = []
        if server.run.stdin:
            self.sends(os.write, server.run.stdin.fileno(), b"x")  # so that standard input is read
        self.udp = socket.socket(type=socket.SOCK_DGRAM)
        self.udp.settimeout(AT_ONCE)
        self.udp.connect((server.host, server.port))
        self.sends(self.udp.send, QUERY)
        try:
            self.stream = server.connected(AT_ONCE)
            self.streams.append(self.stream)
            self.sends(self.stream.sendall, framed(QUERY))
        except OSError:
            self.stream = None

    def sends(self, way, *message):
        try:
            way(*message)
        except OSError:
            pass

    def wait(self, server):
        """Until the call is refused, and then for the answers."""
        end = time.monotonic() + AT_ONCE
        while time.monotonic() < end and not server.calls.refused:
            time.sleep(0.005)
        self.is_answered = self.is_udp_answered() and self.is_tcp_answered()

    def is_udp_answered(self):
        try:
            self.udp.settimeout(1)
            return len(self.udp.recv(65_535)) > 0
        except OSError:
            return False

    def is_tcp_answered(self):
        try:
            self.stream.settimeout(1)
            return frame_from(self.stream) is not None
        except (OSError, AttributeError):
            return False

    def end(self):
        for one in (self.udp, *self.streams):
            one.close()


class Updates(Asks):
    """A client that sends updates."""

    def __init__(self, server):
        super().__init__(server)
        for place in range(UPDATES):
            message = wire.update(servers.SECTION, [], [f"n{time.monotonic_ns()}-{place}.example.com. 60 IN A 192.0.2.56"])
            self.sends(self.udp.send, message)

    def wait(self, server):
        super().wait(server)
        answered = sum(self.is_udp_answered() for _ in range(UPDATES))
        if answered < UPDATES:
            raise Fault(f"of {UPDATES} updates {answered} are answered")


class Closings(Asks):
    """A client that sends more than a connection has messages, which ends it."""

    def __init__(self, server):
        super().__init__(server)
        if self.stream:
            self.sends(self.stream.sendall, framed(QUERY) * 100)

    def wait(self, server):
        super().wait(server)
        self.end()
        time.sleep(0.05)


class Owed(Asks):
    """A client that asks for more than the system's buffers take, and does not read."""

    def __init__(self, server):
        super().__init__(server)
        try:
            stream = server.connected(0.2, room=2_048)
            self.streams.append(stream)
            for _ in range(GREED):
                stream.sendall(framed(servers.LONG) * 2)
                time.sleep(0.008)
        except OSError:
            pass


def cases(counts):
    """All cases. Of each call that is made at the start it is known how often an undisturbed start makes it."""
    for kind, calls in (("begin", BEGINNING), ("new", OPENING), ("opened", OPENING)):
        for call, errors in calls:
            made = counts[kind, call]
            for place in sorted({1, (made + 1) // 2, made}) if made else []:
                for error in errors.split():
                    yield Case(call, error, f"once, call {place} of {made} of a start{kind_words(kind)}", 1, place - 1, STARTS, kind)
            for error in [one for one in errors.split() if one != "EINTR"] if made else []:
                yield Case(call, error, f"for ever from a start{kind_words(kind)}", -1, 0, STARTS, kind)
    for row in SERVING:
        for error in row.errors.split():
            yield from cases_of(row, error)


def kind_words(kind):
    return {"begin": "", "new": ", new journal", "opened": ", journal read back"}[kind]


def cases_of(row, error):
    """Those of a call that is made while it serves."""
    if row.when in ("input", "output"):
        for when, count in (("once", 1), ("for ever", -1)) if error != "EINTR" else (("once", 1),):
            kind = row.when
            case = Case(row.calls, error, when, count, 0, row.due, kind, row.others)
            if row.due == GOES:
                case.when = "first" if count == 1 else "for ever from the start"
            yield case
        return
    # The first is of the listener at the start, and so with the journal.
    first = 1 if row.calls == "epoll_ctl:add" else 0
    for when in ("first", "middle", "late") if row.when != "updates" else ("middle", "late"):
        yield Case(row.calls, error, when, 1, first if when == "first" else 0, row.due, row.when, row.others)
    # No signal breaks off each call for ever: it is made again at once, by the kit's library too (accept4), or is counted as any other refusal (recvfrom).
    if error == "EINTR" and row.calls != "recvfrom":
        return
    yield Case(row.calls, error, "for ever", -1, 0, row.due, row.when, row.others)
    if row.when == "waits":
        yield Case(row.calls, error, "for ever from the start", -1, 0, row.due, row.when, row.others)
        if row.due == TELLS:
            yield Case(row.calls, error, "for a while", 1 << 60, 0, row.due, row.when, row.others)


def counted(library):
    """How often an undisturbed start makes each call: of the kinds that are refused there."""
    found = {}
    ways = [(kind, call) for kind, calls in (("begin", BEGINNING), ("new", OPENING), ("opened", OPENING)) for call, _ in calls]

    def one(way):
        kind, call = way
        with tempfile.TemporaryDirectory(prefix="dns-refused-", dir=servers.ROOM) as folder:
            if kind == "opened":
                before(folder)
            words = ["--update", f"--journal={folder}/journal", "--workers=2"]
            server = Server(*words, folder=folder, library=library, call=call)
            server.start()
            try:
                while server.run.poll() is None and not is_listening(server):
                    time.sleep(0.01)
                time.sleep(0.05)
                return way, server.calls.made
            finally:
                server.end()

    with ThreadPoolExecutor(8) as pool:
        found.update(pool.map(one, ways))
    return found


def is_listening(server):
    """Whether its socket of connections is there, by the table of the system: no connection is made."""
    place = f":{server.port:04X} 00000000:0000 0A"
    return place in Path("/proc/net/tcp").read_text()


def main():
    if not servers.PROGRAM.exists():
        sys.exit("refused_calls.py: the program is not built: run rt ci first")
    words, begun = sys.argv[1:], time.monotonic()
    with tempfile.TemporaryDirectory(prefix="dns-refused-", dir=servers.ROOM) as folder:
        library = servers.built(folder)
        tried = [case for case in cases(counted(library)) if all(word in case.name for word in words)]
        tried.sort(key=lambda case: case.count > 0)
        left, wrong = tried, []
        for beside in BESIDE:
            with ThreadPoolExecutor(beside) as pool:
                found = [(case, fault) for case, fault in zip(left, pool.map(lambda case: case.tried(library), left)) if fault]
            left, wrong = [case for case, _ in found], [fault for _, fault in found]
            if not 0 < len(left) <= FEW:
                break
    for fault in wrong:
        print(fault)
    print(f"refused_calls: {len(tried)} cases, {len(wrong)} failed, in {time.monotonic() - begun:.0f} s")
    sys.exit(bool(wrong) or not tried)


if __name__ == "__main__":
    main()
