#!/usr/bin/env python3
"""Looks at each figure and each word that the pages promise of serving, and that no other script looks at: docs/GATE.md has the list.

When a silent connection is closed, with the limit of the words, with the usual one and with none; when one is closed whose peer takes
nothing of its replies, where there is room for all; how long a closed one may still send; how many may be open where nothing is said; how
many threads and descriptors serve; that nothing is read of who does not take his replies; that the replies to one read go out at once;
whose number a row bears; addresses; how long a zone text may be, and when it is read; how a run ends.

  limits.py [WORD..]  the checks in whose names one of these words stands, or all

Uses the standard library, a C compiler (cc) for refusing_calls.c, and loopback alone. Each server and each wait is bounded in time. DNS_PROGRAM
names another program.
"""

import os
import resource
import signal
import socket
import sys
import tempfile
import time
from concurrent.futures import ThreadPoolExecutor
from contextlib import ExitStack, closing
from pathlib import Path

try:
    import sqlite3
except ImportError:
    sqlite3 = None

import servers
import wire
from servers import LONG, LONG_ZONE, MESSAGES, QUERY, REPLY, Server, exchange, fault_if, frame_from, framed, is_ended

USUAL_LIMIT, USUAL_CONNECTIONS = 5.0, 4_096
FIFTH = 0.2  # seconds within which a connection is closed behind its limit
SLACK = 0.35  # seconds by which a busy machine may be late
EARLY = 0.05  # seconds by which a clock may be read early
DRAINING = 1.0  # seconds for which a connection that is closed may still send
GREED = 47  # times that two long replies are asked for over a connection that is not read: more than the system's buffers take
MOST_TEXT = 16_777_216  # bytes of a zone text
USAGE, READ_FAULT, KEEPER_FAULT, TOO_LONG, NO_MEMORY = 1, 6, 8, 9, 10
CLOSING = "serial 7\njournal_len 5\n"  # the closing lines where nothing was updated: the snapshot's row, and four

library = None  # refusing_calls.c, built


def side_by_side(check, ways):
    """What a check of one way finds, for each of them, at the same time."""
    with ThreadPoolExecutor(len(ways)) as pool:
        for found in pool.map(lambda way: list(check(*way)), ways):
            yield from found


def closed_after(stream, wait):
    """How long it takes until the other end closes a connection, none where it does not in time."""
    begun = time.monotonic()
    return time.monotonic() - begun if is_ended(stream, wait) else None


def is_within(took, limit):
    return took is not None and limit - EARLY <= took <= limit + FIFTH + SLACK


# When a connection is closed that brings no whole message.


def times():
    """A silent connection, half a message, a byte at a time, and one that asked in between: each is closed a fifth of a second behind its limit."""
    ways = [(["--limit=1000"], 1.0), (["--limit=1000", "--workers=4"], 1.0), (["--limit=2500"], 2.5), ([], USUAL_LIMIT)]
    yield from side_by_side(limited, ways)
    with Server("--limit=0") as server, server.connected() as silent, server.connected() as asked:
        exchange(asked)
        took = closed_after(silent, USUAL_LIMIT + 1.5)
        yield fault_if(took is not None, f"--limit=0: a silent connection is closed after {took or 0:.2f} s")
        yield fault_if(exchange(silent) != REPLY or exchange(asked) != REPLY, "--limit=0: a connection that was silent is not served")


def limited(words, limit):
    name = " ".join(words) or "no limit in the words"
    with Server(*words) as server, ThreadPoolExecutor(4) as pool:

        def silent():
            with server.connected() as stream:
                return closed_after(stream, limit + 3)

        def half():
            with server.connected() as stream:
                stream.sendall(framed(QUERY)[:9])
                return closed_after(stream, limit + 3)

        def dripping():
            with server.connected() as stream:
                begun = time.monotonic()
                for byte in framed(QUERY * 9):
                    if is_ended(stream, limit / 20):
                        return time.monotonic() - begun
                    if time.monotonic() > begun + limit + 3:
                        return None
                    stream.sendall(bytes([byte]))
            return None

        def asking():
            with server.connected() as stream:
                time.sleep(limit * 0.6)
                if exchange(stream) != REPLY:
                    return None
                return closed_after(stream, limit + 3)

        for kind, took in [(one.__name__, pool.submit(one)) for one in (silent, half, dripping, asking)]:
            took = took.result()
            yield fault_if(not is_within(took, limit), f"{name}: a connection ({kind}) is closed after {took or 99:.2f} s, and {limit} are due")


# When one is closed whose peer does not read.


def patience():
    """A peer that takes nothing of what it is owed: its connection is closed a fifth of a second behind the limit, though there is room, and no sooner."""
    ways = [(["--limit=1500"], 1.5, False), (["--limit=0"], USUAL_LIMIT, False), ([], USUAL_LIMIT, False), (["--limit=1500"], 1.5, True)]
    yield from side_by_side(unread, ways)


def unread(words, due, is_closing):
    name = f"{' '.join(words) or 'no limit in the words'}{', closed behind its last message' if is_closing else ''}"
    with Server(*words, zone=LONG_ZONE) as server, server.connected(room=4_096) as greedy:
        time.sleep(0.3)
        files = server.open_files() - 1
        for place in range(GREED):
            greedy.sendall(framed(LONG) * 2)
            time.sleep(0.008)
        if is_closing:
            greedy.sendall(framed(QUERY) * (MESSAGES - 2 * GREED))
        begun = time.monotonic()
        while server.open_files() > files and time.monotonic() < begun + due + 4:
            time.sleep(0.01)
        took = time.monotonic() - begun if server.open_files() <= files else None
        # It may have taken its last bytes some time before the last question, and has to have an event behind it.
        is_due = took is not None and due - 0.8 <= took <= due + FIFTH + SLACK
        yield fault_if(not is_due, f"{name}: a connection whose peer takes nothing is closed after {took or 99:.2f} s, and {due} are due")
        yield fault_if(server.exchanged(QUERY, 3) != REPLY, f"{name}: and nobody is served behind it")


def taken_again():
    """A peer that takes what it is owed just before its time is over is served on."""
    with Server("--limit=1500", zone=LONG_ZONE) as server, server.connected(room=4_096) as stream:
        stream.sendall(framed(LONG) * 20)
        whole = 0
        for _ in range(20):
            time.sleep(0.05)
            whole += frame_from(stream) is not None
        yield fault_if(whole < 20, f"of 20 long replies that are taken slowly {whole} come whole")


def slow_reader():
    """A peer that takes its replies slowly, at more than 16 KB a second, gets all of them, also behind its limit."""
    limit, count, rate = 3.0, 6, 28_000
    with Server(f"--limit={1_000 * limit:.0f}", zone=LONG_ZONE) as server, socket.socket() as stream:
        size = count * (len(server.exchanged(LONG)) + 2)
        stream.setsockopt(socket.IPPROTO_TCP, socket.TCP_MAXSEG, 400)
        stream.setsockopt(socket.SOL_SOCKET, socket.SO_RCVBUF, 2_048)
        stream.connect((server.host, server.port))
        stream.sendall(framed(LONG) * count)
        begun, taken = time.monotonic(), 0
        while taken < size and time.monotonic() < begun + 2 * size / rate:
            time.sleep(0.1)
            try:
                piece = stream.recv(rate // 10, socket.MSG_DONTWAIT)
            except BlockingIOError:
                continue
            except OSError:
                break
            taken += len(piece)
            if not piece:
                break
        took = time.monotonic() - begun
        yield fault_if(taken != size, f"a peer that takes {rate} bytes a second gets {taken} of {size} bytes, and then no more, after {took:.1f} s")


def unread_waits():
    """While a peer is owed something nothing more is read of its connection: an update behind long replies is settled once they are taken."""
    added = wire.query("behind.example.com.", "A")
    with Server("--update", "--limit=0", zone=LONG_ZONE) as server, server.connected(room=4_096) as stream:
        for _ in range(GREED):
            stream.sendall(framed(LONG) * 2)
            time.sleep(0.008)
        time.sleep(0.3)
        stream.sendall(framed(wire.update(servers.SECTION, [], ["behind.example.com. 60 IN A 192.0.2.55"])))
        time.sleep(0.7)
        early = server.asked(added)
        yield fault_if(early[3] & servers.CODE == 0, "an update is read of a connection whose peer does not take its replies")
        replies = []
        try:
            while len(replies) < 2 * GREED + 1 and (reply := frame_from(stream)):
                replies.append(reply)
        except OSError:
            pass
        yield fault_if(len(replies) != 2 * GREED + 1, f"of {2 * GREED + 1} replies {len(replies)} come once they are read")
        late = server.asked(added)
        yield fault_if(late[3] & servers.CODE != 0, "an update behind long replies is not settled once these are taken")


def waiting_in_queue():
    """Where each is owed something a newcomer waits in the system's queue, and is served once one of them is over."""
    with ExitStack() as streams, Server("--limit=1500", "--connections=3", zone=LONG_ZONE) as server:
        time.sleep(0.3)
        for _ in range(3):
            stream = streams.enter_context(server.connected(room=4_096))
            for _ in range(GREED):
                stream.sendall(framed(LONG) * 2)
                time.sleep(0.008)
        begun = time.monotonic()
        reply = server.exchanged(QUERY, 5)
        took = time.monotonic() - begun
        yield fault_if(reply != REPLY, "a newcomer that waited is not served")
        yield fault_if(took > 1.5 + FIFTH + 2 * SLACK, f"a newcomer waits for {took:.2f} s for those that take nothing for 1.5")


# The end of a connection.


def draining():
    """Behind its last message a connection is ended at once, and what its peer still sends is dropped for a second and not answered by a reset."""
    with Server("--limit=0") as server, server.connected() as stream:
        time.sleep(0.3)
        files = server.open_files() - 1
        stream.sendall(framed(QUERY) * MESSAGES)
        for _ in range(MESSAGES):
            frame_from(stream)
        begun = time.monotonic()
        took = closed_after(stream, 3)
        yield fault_if(took is None or took > 0.3, f"a connection is ended {took or 99:.2f} s behind its last message")
        is_reset = False
        while server.open_files() > files and time.monotonic() < begun + 4:
            try:
                stream.send(b"x")
            except OSError:
                is_reset = True
            time.sleep(0.02)
            if time.monotonic() < begun + DRAINING - 0.2:
                yield fault_if(is_reset or server.open_files() <= files, "a connection is reset at once behind its last message")
        took = time.monotonic() - begun if server.open_files() <= files else None
        yield fault_if(not is_within(took, DRAINING), f"a connection that is closed is gone after {took or 99:.2f} s, and {DRAINING} are due")
    with Server("--limit=0") as server, server.connected() as stream:
        replies = []
        stream.sendall(framed(QUERY) * (MESSAGES + 20))
        while (reply := frame_from(stream)) is not None:
            replies.append(reply)
        yield fault_if(replies != [REPLY] * MESSAGES, f"a connection has {len(replies)} messages")


# How many.


def defaults():
    """Where nothing is said one thread serves connections, and 4,096 may be open; the numbers that the words may have."""
    room = resource.getrlimit(resource.RLIMIT_NOFILE)[0] - 200
    if room < USUAL_CONNECTIONS:
        print(f"limits: that {USUAL_CONNECTIONS} connections may be open is not looked at: {room} descriptors are too few")
    else:
        with Server("--limit=0") as server, ExitStack() as streams:
            time.sleep(0.5)
            kept = [streams.enter_context(server.connected()) for _ in range(USUAL_CONNECTIONS)]
            served = sum(exchange(stream) == REPLY for stream in kept)
            yield fault_if(served != USUAL_CONNECTIONS, f"of {USUAL_CONNECTIONS} connections {served} are served")
            yield fault_if(any(map(is_ended, kept)), f"of {USUAL_CONNECTIONS} connections {sum(map(is_ended, kept))} give way")
            more = [streams.enter_context(server.connected()) for _ in range(12)]
            served = sum(exchange(stream) == REPLY for stream in more)
            time.sleep(0.2)
            open_now = sum(not is_ended(stream) for stream in [*kept, *more])
            yield fault_if(served != 12 or open_now != USUAL_CONNECTIONS, f"where nothing is said {open_now} connections may be open; 12 newcomers: {served}")
    for word in ("0", "65537", "01", "", "x", "-1", "+1", "1 ", "4294967297"):
        yield from is_usage(f"--connections={word}")
    yield from is_usage("--connections=1", "--connections=1")
    for word in ("01", "", "x", "140737488355328"):
        yield from is_usage(f"--limit={word}")
    for word in ("0", "65", "01", "", "x"):
        yield from is_usage(f"--workers={word}")
    for words in (["--connections=1"], ["--connections=65536"], ["--connections=65536", "--workers=64"], ["--workers=64", "--connections=1"]):
        server = Server(*words, "--limit=0")
        with server:
            yield fault_if(server.exchanged(QUERY, 3) != REPLY, f"{' '.join(words)} does not serve")


def is_usage(*words):
    server = Server(*words).start()
    status = server.status(3)
    yield fault_if(status != USAGE or server.written() != "usage\n", f"{' '.join(words)}: status {status}, {server.written()!r}")
    server.end()


def threads():
    """Threads: one for each worker of connections, and no more where more are asked for; descriptors: some ten, and two for each worker."""
    counts = {}
    for workers in (None, 1, 2, 8, 64):
        with Server(*([f"--workers={workers}"] if workers else [])) as server:
            time.sleep(0.5)  # until each worker has its thread
            counts[workers] = len(os.listdir(f"/proc/{server.run.pid}/task"))
            files, most = server.open_files(), 10 + 2 * (workers or 1)
            yield fault_if(files > most, f"{workers} workers: {files} descriptors with no connection, and {most} are said")
            with server.connected() as one, server.connected() as other:
                exchange(one)
                exchange(other)
                yield fault_if(server.open_files() != files + 2, f"two connections take {server.open_files() - files} descriptors")
    yield fault_if(counts[None] != counts[1], f"where nothing is said {counts[None] - counts[1] + 1} workers serve")
    for workers in (2, 8, 64):
        more = counts[workers] - counts[1] + 1
        yield fault_if(more != workers, f"--workers={workers}: {more} threads serve connections")


def together():
    """The replies to the messages of one read go out by one write."""
    with Server("--limit=0", library=library, call="write:connection") as server, server.connected() as stream:
        exchange(stream)
        for count in (1, 2, 50):
            before = server.calls.made
            stream.sendall(framed(QUERY) * count)
            for _ in range(count):
                frame_from(stream)
            made = server.calls.made - before
            yield fault_if(made != 1, f"the replies to {count} messages of one read go out by {made} writes")


def clients_of_rows():
    """A row bears the number of the worker that settled it: the worker of datagrams is the first, where there is one."""
    if not sqlite3:
        print("limits: clients_of_rows is skipped, Python has no module sqlite3")
        return
    for ways, workers in ((("udp", "tcp"), 1), (("udp", "tcp"), 4), (("tcp",), 3), (("udp",), 1)):
        place = "HOST:PORT".replace("HOST", servers.HOST)
        with tempfile.TemporaryDirectory() as folder:
            words = [f"--journal={folder}/journal", "--update", f"--workers={workers}"]
            server = Server(*words, at=[f"--{way}={place}" for way in ways], folder=folder).start()
            due, first = [], 1
            for way in ("udp", "tcp"):
                for number in range(8 if way in ways else 0):
                    message = wire.update(servers.SECTION, [], [f"{way}{number}.example.com. 60 IN A 192.0.2.55"])
                    reply = sent(server, way, message)
                    is_taken = reply is not None and reply[3] & servers.CODE == 0
                    yield fault_if(not is_taken, f"an update by {way}, of {' and '.join(ways)}, is not taken")
                    if not is_taken:
                        server.end()
                        return
                    due.append(range(first, first + (1 if way == "udp" else workers)))
                first += 1 if way in ways else 0
            server.stop()
            with closing(sqlite3.connect(f"{folder}/journal")) as rows:
                found = [client for (client,) in rows.execute("SELECT client_id FROM records WHERE id > 5 ORDER BY id")]
            server.end()
            is_right = len(found) == len(due) and all(one in some for one, some in zip(found, due))
            yield fault_if(not is_right, f"{' and '.join(ways)}, {workers} workers: the rows bear the clients {found}")


def sent(server, way, message):
    """The reply by UDP or by TCP of a server that may only just have been started."""
    end = time.monotonic() + 5
    while time.monotonic() < end:
        try:
            reply = server.asked(message, 2) if way == "udp" else server.exchanged(message, 2)
            if reply is not None:
                return reply
        except OSError:
            pass
        time.sleep(0.02)
    return None


# Where it listens.


def places():
    """Each form of an address, each way alone, and a port that the system chooses."""
    host = servers.HOST
    octets = "".join(f"{int(part):02x}" for part in host.split("."))
    tried = [
        ([f"--udp={host}:PORT"], [host], ["udp"]),
        ([f"--tcp={host}:PORT"], [host], ["tcp"]),
        ([f"--udp={octets}:PORT", f"--tcp={octets.upper()}:PORT"], [host], ["udp", "tcp"]),
        (["--udp=0.0.0.0:PORT", "--tcp=0.0.0.0:PORT"], ["127.0.0.1", host], ["udp", "tcp"]),
        (["--udp=00000000:PORT", "--tcp=00000000:PORT"], ["127.0.0.1"], ["udp", "tcp"]),
    ]
    for at, hosts, ways in tried:
        server = Server(at=at).start()
        server.host = hosts[0]
        for way in ("udp", "tcp"):
            reply = sent(server, way, QUERY) if way in ways else None
            if way in ways:
                yield fault_if(reply != REPLY, f"{' '.join(at)}: no reply by {way}")
        for other in hosts[1:]:
            server.host = other
            yield fault_if(server.exchanged(QUERY, 2) != REPLY, f"{' '.join(at)}: no reply at {other}")
        if len(ways) == 1:
            other = "tcp" if ways == ["udp"] else "udp"
            is_answering = server.is_tcp_answering(0.3) if other == "tcp" else server.is_udp_answering(0.3)
            yield fault_if(is_answering, f"{' '.join(at)}: a reply by {other}")
        server.end()
    chosen = []
    for _ in range(2):
        server = Server(at=[f"--tcp={host}:0"]).start()
        time.sleep(0.5)
        server.port = chosen_port(server, host)
        chosen.append(server)
        yield fault_if(not server.port or not server.is_tcp_answering(2), f"--tcp={host}:0: no port is listened at")
    yield fault_if(chosen[0].port == chosen[1].port, f"--tcp={host}:0: port {chosen[0].port} each time, which the system did not choose")
    for server in chosen:
        server.end()


def chosen_port(server, host):
    """The port of loopback that a server listens at by TCP, from the system's table; none where there is none."""
    packed = "".join(f"{int(part):02X}" for part in reversed(host.split(".")))
    for line in Path("/proc/net/tcp").read_text().splitlines()[1:]:
        words = line.split()
        if words[1].startswith(packed + ":") and words[3] == "0A" and is_socket_of(server, words[9]):
            return int(words[1].split(":")[1], 16)
    return None


def is_socket_of(server, number):
    files = Path(f"/proc/{server.run.pid}/fd")
    return any(os.readlink(one) == f"socket:[{number}]" for one in files.iterdir())


# The zone and the journal.


def zones():
    """How long a zone text may be; when it is read; and what stays without a journal."""
    line = servers.ZONE.encode()
    for size, due in ((MOST_TEXT, None), (MOST_TEXT + 1, TOO_LONG)):
        server = Server("--limit=0")
        (server.folder / "zone").write_bytes(line + b";" * (size - len(line) - 1) + b"\n")
        server.start()
        if due is None:
            yield fault_if(not server.is_serving(10), f"a zone text of {size} bytes is not served: {server.written()!r}")
        else:
            status = server.status(10)
            yield fault_if(status != due or server.written() != "too long\n", f"a zone text of {size} bytes: status {status}, {server.written()!r}")
        server.end()
    server = Server()
    (server.folder / "zone").unlink()
    status = server.start().status(5)
    yield fault_if(status != READ_FAULT or server.written() != "read fault\n", f"no zone text: status {status}, {server.written()!r}")
    server.end()
    many = servers.ZONE + "".join(f"n{place}.example.com. 60 IN A 10.0.0.1\n" for place in range(300_000))
    server = Server(zone=many, space=40 << 20).start()
    status = server.status(20)
    yield fault_if(status != NO_MEMORY or server.written() != "", f"a zone that finds no memory: status {status}, {server.written()!r}")
    server.end()
    addition = wire.update(servers.SECTION, [], ["new.example.com. 60 IN A 192.0.2.55"])
    new = wire.query("new.example.com.", "A")
    with tempfile.TemporaryDirectory() as folder:
        words = ["--update", f"--journal={folder}/journal"]
        with Server(*words, folder=folder) as server:
            server.asked(addition)
            other = Server(*words).start()
            status = other.status(5)
            yield fault_if(status != KEEPER_FAULT, f"a second program over the journal of one that serves: status {status}")
            other.end()
            if sqlite3:
                yield fault_if(not is_locked(f"{folder}/journal"), "another program reads the journal of one that serves")
            server.stop()
        for text in ("www.example.com. 3600 IN A 192.0.2.99\nfaulty", servers.ZONE.replace("192.0.2.1\n", "192.0.2.99\n")):
            with Server(*words, zone=text, folder=folder) as server:
                yield fault_if(server.asked(QUERY, 2) != REPLY, "a zone text is read though the journal has rows")
                yield fault_if((server.asked(new, 2) or b"\0\0\0\3")[3] & servers.CODE, "an update is gone behind a restart")
                server.stop()
    for place in range(2):
        with Server("--update") as server:
            reply = server.asked(new, 2)
            yield fault_if(not reply or reply[3] & servers.CODE != 3, "an update of a run without a journal stands in the next run")
            server.asked(addition)
            server.stop()
    with Server() as server:
        reply = server.asked(addition, 2)
        yield fault_if(not reply or reply[3] & servers.CODE != wire.CODES["REFUSED"], "without --update an update is not Refused")


def is_locked(journal):
    try:
        with closing(sqlite3.connect(journal, timeout=0.1)) as rows:
            rows.execute("SELECT count(*) FROM records").fetchall()
    except sqlite3.OperationalError:
        return True
    return False


# The end of a run.


def ends():
    """SIGTERM ends it at once without its lines; the end of standard input ends it soon, with them; what standard input brings says nothing."""
    words = ["--udp=HOST:PORT", "--tcp=HOST:PORT"]
    for name, at in (("udp and tcp", words), ("udp", words[:1]), ("tcp", words[1:])):
        at = [word.replace("HOST", servers.HOST) for word in at]
        for workers in (1, 8):
            server = Server(f"--workers={workers}", at=at).start()
            sent(server, "udp" if "udp" in name else "tcp", QUERY)
            server.run.stdin.write(b"stop\n" * 2_000)
            server.run.stdin.flush()
            time.sleep(0.2)
            yield fault_if(server.run.poll() is not None, f"{name}: it ends by what standard input brings")
            begun = time.monotonic()
            status = server.stop(5)
            took = time.monotonic() - begun
            yield fault_if(status != 0 or server.written() != CLOSING, f"{name}: at the end the status is {status}: {server.written()!r}")
            yield fault_if(took > 0.1 + 0.4, f"{name}, {workers} workers: the end takes {took:.2f} s")
            yield fault_if(server.told() != "", f"{name}: it tells {server.told()!r}")
            server.end()
    with Server() as server:
        server.run.send_signal(signal.SIGTERM)
        status = server.status(3)
        yield fault_if(status != -signal.SIGTERM or server.written() != "", f"SIGTERM: status {status}, {server.written()!r}")


TOGETHER = [times, patience, taken_again, slow_reader, unread_waits, waiting_in_queue, draining, together, clients_of_rows, places, zones, ends]
ALONE = [threads, defaults]


def main():
    global library
    with tempfile.TemporaryDirectory() as folder:
        library = servers.built(folder)
        servers.report("limits", sys.argv[1:], TOGETHER, ALONE)


if __name__ == "__main__":
    main()
