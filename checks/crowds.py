#!/usr/bin/env python3
"""Treats the built program, which serves many connections by one thread, as a crowd of clients does: good ones, slow ones and ill ones.

Slow clients keep their connections while a newcomer is answered; many hundreds of them go on asking, and each gets every answer; thousands
are silent, and take little memory; silent, dripping and never-reading ones beside one that asks steadily and does not notice; more than
may be open at once, of which the one that was silent longest gives way; a connection for each query; a hundred messages and no more;
frames cut at each place; a peer that ends its own sending and still gets its replies; fewer descriptors than connections; resets; the limit
of a connection; and the end of standard input while all this is open.

  crowds.py [PROGRAM]  that program in place of the built one

Uses the standard library, and loopback alone. Each wait is bounded in time. Where a time is due that a busy machine may spoil, it is tried
up to three times.
"""

import os
import resource
import selectors
import socket
import struct
import subprocess
import sys
import tempfile
import time
from contextlib import ExitStack, contextmanager
from pathlib import Path

import clients
import wire
from clients import BOUND, MOST, framed, frames_in

PROGRAM = Path(sys.argv[1]) if len(sys.argv) > 1 else clients.PROGRAM
TRIES = 3
SLOW, PAUSE = 16, 2.0  # clients that ask once in so many seconds
AT_ONCE = 0.1  # seconds within which a newcomer is answered beside them
ASKING, ASKED_FOR, BETWEEN = 900, 10.0, 0.25  # clients that go on asking, for so many seconds, one question in so many
IDLE, IDLE_BYTES = 5_000, 208  # silent connections, and the memory that each may take
SILENT, DRIPPING, GREEDY = 60, 40, 12  # connections that send nothing or half a message, a byte at a time, or never read
DRIP = 0.2  # seconds between two bytes
STEADY = 1.5  # seconds that a steady client is watched
SLOWER = 5  # times that its queries may take longer beside ill peers
FEW = 20  # connections where that is the bound
DESCRIPTORS, WANTING = 40, 60  # descriptors that the program has, and connections that come
LIMIT = 1.0  # seconds
QUERY = framed(wire.query("www.example.com.", "A"))
LONG = framed(wire.query("long.example.com.", "TXT"))
LONGS = 160  # strings of a long answer, of 250 bytes each
GREED = 47  # times that two long answers are asked for over a connection that does not read them: more than the system's own buffers take
ZONE = clients.ZONE + "".join(f'long.example.com. 60 IN TXT "{place:0250}"\n' for place in range(LONGS))


class Server:
    """The program, serving over connections on loopback until it is told to stop."""

    def __init__(self, zone, *words, descriptors=None):
        self.port = clients.free_port()
        command = [PROGRAM, "serve", "example.com.", f"--zone={zone}", f"--tcp=127.0.0.1:{self.port}", *words]

        def bounded():
            if descriptors:
                resource.setrlimit(resource.RLIMIT_NOFILE, (descriptors, descriptors))

        self.run = subprocess.Popen(command, stdin=subprocess.PIPE, stdout=subprocess.PIPE, preexec_fn=bounded)
        end = time.monotonic() + BOUND
        while not self.is_answering():
            if time.monotonic() > end or self.run.poll() is not None:
                self.run.kill()
                raise RuntimeError(f"it does not serve: status {self.run.wait()}, {self.run.stdout.read()!r}")
            time.sleep(0.02)

    def is_answering(self):
        try:
            return self.answered() is not None
        except OSError:
            return False

    def connected(self, room=None):
        """A connection, with so little room for what it receives."""
        stream = socket.socket()
        stream.settimeout(BOUND)
        if room:
            stream.setsockopt(socket.SOL_SOCKET, socket.SO_RCVBUF, room)
        stream.setsockopt(socket.IPPROTO_TCP, socket.TCP_NODELAY, 1)
        try:
            stream.connect(("127.0.0.1", self.port))
        except OSError:
            stream.close()
            raise
        return stream

    def answered(self):
        """The reply to a query over a connection of its own."""
        with self.connected() as stream:
            stream.sendall(QUERY)
            return next(frames_in(stream), None)

    def exchanged(self, pieces, pause=0.001):
        """All that comes back over a connection that sends these pieces and ends its sending."""
        with self.connected() as stream:
            for piece in pieces:
                stream.sendall(piece)
                time.sleep(pause)
            stream.shutdown(socket.SHUT_WR)
            return list(frames_in(stream))

    def processor(self):
        """The processor time of its threads so far, in seconds."""
        tasks = Path(f"/proc/{self.run.pid}/task").iterdir()
        return sum(int((task / "schedstat").read_text().split()[0]) for task in tasks) / 1e9

    def memory(self):
        """How many bytes of memory it has."""
        pages = int(Path(f"/proc/{self.run.pid}/statm").read_text().split()[1])
        return pages * resource.getpagesize()

    def stopped(self):
        """Ends its standard input: its status, and whether it ended soon."""
        begun = time.monotonic()
        self.run.communicate(timeout=BOUND)
        return self.run.returncode, time.monotonic() - begun < 5


@contextmanager
def serving(*words, **limits):
    """A server over the zone, with these words. It is ended in any case."""
    with tempfile.TemporaryDirectory() as folder:
        zone = Path(folder, "zone")
        zone.write_text(ZONE)
        server = Server(zone, *words, **limits)
        try:
            yield server
        finally:
            server.run.kill()
            server.run.communicate()


def exchange(stream, message=QUERY):
    """Sends a message over a connection that is kept: how many bytes its reply has, none at the end of the connection."""
    try:
        stream.sendall(message)
        head = received(stream, 2)
        return len(received(stream, int.from_bytes(head, "big"))) if head else 0
    except ConnectionError:
        return 0


def received(stream, size):
    """So many bytes, fewer at the end of the connection."""
    found = b""
    while len(found) < size and (piece := stream.recv(size - len(found))):
        found += piece
    return found


def is_ended(stream):
    """Whether the other end closes the connection, whatever comes before."""
    try:
        while stream.recv(65_536):
            pass
    except ConnectionError:
        pass
    except TimeoutError:
        return False
    return True


def thrice(part):
    """What a part shows that a busy machine may spoil: where it is not what is due, that of another try."""
    for _ in range(TRIES):
        found = list(part())
        if all(got == due for _, got, due in found):
            break
    yield from found


def ask_greedily(streams):
    """Asks for long answers, which nobody reads, for more than the system takes of them: whether all of it was sent. It is few at a time, so that
    no connection is owed so much at once that it is ended."""
    for _ in range(GREED):
        for stream in streams:
            try:
                stream.sendall(LONG * 2)
            except ConnectionError:
                return False
        time.sleep(0.008)
    return True


def slow_clients():
    """Clients that ask from time to time over connections that they keep, and one more that asks meanwhile, over and over."""
    with serving() as server, ExitStack() as streams:
        size = len(server.answered())
        kept = [streams.enter_context(server.connected()) for _ in range(SLOW)]
        begun, answered, newcomers, times = time.monotonic(), [], [], []
        for place in range(2 * SLOW):
            time.sleep(max(0, begun + place * PAUSE / SLOW - time.monotonic()))
            answered.append(exchange(kept[place % SLOW]))
            asked = time.monotonic()
            newcomers.append(len(server.answered()))
            times.append(time.monotonic() - asked)
        yield "slow clients are served", answered, [size] * (2 * SLOW)
        yield "and newcomers beside them", newcomers, [size] * (2 * SLOW)
        yield f"within {AT_ONCE} s", [one for one in times if one > AT_ONCE], []


def going_on():
    """Many clients that go on asking: each gets an answer to each of its questions, in order."""
    with serving() as server, selectors.DefaultSelector() as waiting, ExitStack() as streams:
        asked, replies, bytes_ = [0] * ASKING, [0] * ASKING, [b""] * ASKING
        kept = [streams.enter_context(server.connected()) for _ in range(ASKING)]
        for place, stream in enumerate(kept):
            waiting.register(stream, selectors.EVENT_READ, place)

        def ask(place):
            kept[place].sendall(framed(asked[place].to_bytes(2, "big") + QUERY[4:]))
            asked[place] += 1

        def hear(place):
            piece = kept[place].recv(65_536)
            bytes_[place] += piece
            while len(bytes_[place]) >= 4 and len(bytes_[place]) >= 2 + int.from_bytes(bytes_[place][:2], "big"):
                if bytes_[place][2:4] == replies[place].to_bytes(2, "big"):
                    replies[place] += 1
                bytes_[place] = bytes_[place][2 + int.from_bytes(bytes_[place][:2], "big") :]
            if not piece:
                waiting.unregister(kept[place])

        begun, turn = time.monotonic(), 0
        end = begun + ASKED_FOR
        while time.monotonic() < end or (sum(replies) < sum(asked) and waiting.get_map() and time.monotonic() < end + BOUND):
            if time.monotonic() < end and begun + turn * BETWEEN / ASKING < time.monotonic() and asked[turn % ASKING] < MOST - 1:
                ask(turn % ASKING)
                turn += 1
                continue
            for key, _ in waiting.select(BETWEEN / ASKING):
                hear(key.data)
        yield f"{ASKING} clients that go on asking get all answers", [one - other for one, other in zip(asked, replies)], [0] * ASKING
        yield "and asked for long", min(asked) > 1, True


def idle():
    """Thousands of silent connections, of which each asked once: what memory they take, and that a newcomer is answered."""
    with serving("--limit=0", f"--connections={2 * IDLE}") as server, ExitStack() as streams:
        most = min(IDLE, resource.getrlimit(resource.RLIMIT_NOFILE)[0] - 100)
        size = len(server.answered())
        streams.enter_context(server.connected())
        before = server.memory()
        kept = [streams.enter_context(server.connected()) for _ in range(most)]
        answered = [exchange(stream) for stream in kept]
        yield f"{most} connections are answered", answered, [size] * most
        taken = (server.memory() - before) / most
        print(f"crowds: {taken:.0f} bytes of memory for a silent connection")
        yield "a silent connection takes little memory", taken <= IDLE_BYTES, True
        yield "a newcomer beside silent connections", len(server.answered()), size
        begun = server.processor()
        time.sleep(1)
        yield "silent connections take next to no time", server.processor() - begun < 0.1, True
        yield "the first and the last of them are served on", [exchange(kept[0]), exchange(kept[-1])], [size] * 2


class Ill:
    """Peers that send nothing or half a message, that send a byte at a time, and that never read."""

    def __init__(self, server, streams):
        self.greedy = [streams.enter_context(server.connected(4_096)) for _ in range(GREEDY)]
        self.silent = [streams.enter_context(server.connected()) for _ in range(SILENT)]
        self.dripping = [streams.enter_context(server.connected()) for _ in range(DRIPPING)]
        self.place, self.due = 0, time.monotonic()
        ask_greedily(self.greedy)
        for stream in self.silent[::2]:
            stream.sendall(QUERY[:9])

    def go_on(self):
        """One byte more of each that drips, where it is time."""
        if time.monotonic() < self.due:
            return
        for stream in self.dripping:
            stream.sendall(QUERY[self.place % len(QUERY) :][:1])
        self.place, self.due = self.place + 1, time.monotonic() + DRIP


def taken_by_most(server, ill=None):
    """How long 99 of 100 queries take at most that come one after another, over connections of a hundred each; none where one is not answered."""
    times, end = [], time.monotonic() + STEADY
    while time.monotonic() < end:
        with server.connected() as stream:
            for _ in range(MOST):
                if ill:
                    ill.go_on()
                begun = time.monotonic()
                if not exchange(stream):
                    return None
                times.append(time.monotonic() - begun)
    return sorted(times)[len(times) * 99 // 100]


def ill_peers():
    """A client that asks steadily does not notice peers of all kinds."""
    with serving("--limit=0") as server, ExitStack() as streams:
        alone = taken_by_most(server)
        beside = taken_by_most(server, Ill(server, streams))
        yield "a steady client is answered", [one is not None for one in (alone, beside)], [True] * 2
        print(f"crowds: of 100 queries of a steady client 99 took at most {beside * 1e3:.2f} ms beside ill peers, and {alone * 1e3:.2f} ms alone")
        yield "and does not notice ill peers", beside <= SLOWER * alone, True


def bound():
    """At the bound the one that was silent for the longest time gives way, but none that is owed something, nor one that asked since."""
    with serving("--limit=0", f"--connections={FEW}") as server, ExitStack() as streams:
        size = len(server.answered())
        greedy = streams.enter_context(server.connected(4_096))
        yield "one asks and does not read", ask_greedily([greedy]), True
        kept = []
        for _ in range(FEW - 1):
            kept.append(streams.enter_context(server.connected()))
            exchange(kept[-1])
            time.sleep(0.01)
        exchange(kept[0])
        newcomers = [streams.enter_context(server.connected()) for _ in range(2)]
        yield "newcomers at the bound", [exchange(stream) for stream in newcomers], [size] * 2
        yield "those that were silent longest gave way", [is_ended(stream) for stream in kept[1:3]], [True] * 2
        rest = [kept[0], *kept[3:]]
        yield "the others are served on", [exchange(stream) for stream in rest], [size] * len(rest)
        replies = list(frames_in(greedy)) if greedy.shutdown(socket.SHUT_WR) is None else []
        yield "and so is the one that was owed something", len(replies), 2 * GREED


def short():
    """A connection for each query, one after another, and many at once; a hundred messages and no more; frames cut at each place."""
    with serving(f"--connections={ASKING}") as server, ExitStack() as streams:
        reply = server.answered()
        yield "a connection for each query", [server.answered() == reply for _ in range(500)], [True] * 500
        kept = [streams.enter_context(server.connected()) for _ in range(ASKING // 2)]
        yield "many connections at once", [exchange(stream) for stream in kept], [len(reply)] * len(kept)
        yield "a hundred messages of a connection", server.exchanged([QUERY * MOST]), [reply] * MOST
        yield "and no more", server.exchanged([QUERY * (MOST + 1)]), [reply] * MOST
        with server.connected() as stream:
            stream.sendall(QUERY * MOST)
            yield "it is closed behind them", list(frames_in(stream)), [reply] * MOST
        with server.connected() as stream:
            yield "one after another", [exchange(stream) for _ in range(MOST)], [len(reply)] * MOST
            yield "and it is closed", is_ended(stream), True
        cut = [piece for place in range(1, len(QUERY)) for piece in (QUERY[:place], QUERY[place:])]
        yield "frames that are cut at each place", server.exchanged(cut), [reply] * (len(QUERY) - 1)
        yield "byte by byte", server.exchanged([bytes([one]) for one in QUERY * 3]), [reply] * 3
        yield "half a message at the end", server.exchanged([QUERY + QUERY[:9]]), [reply]
        yield "no byte", server.exchanged([]), []
        yield "long replies to a peer that ended its sending", [len(one) for one in server.exchanged([LONG * 6], 0.1)], [exchange(server.connected(), LONG)] * 6


def half_closed():
    """A peer that ends its sending at once, and reads late and slowly, gets all of its replies, and then the end."""
    with serving("--limit=0") as server:
        with server.connected(4_096) as stream:
            yield "a peer asks and does not read", ask_greedily([stream]), True
            stream.shutdown(socket.SHUT_WR)
            time.sleep(0.5)
            replies = list(frames_in(stream))
        yield "replies to a peer that reads late", [one[:2] for one in replies], [LONG[2:4]] * (2 * GREED)


def wanting():
    """Fewer descriptors than connections: it does not spin, and newcomers are served in place of silent ones."""
    with serving("--limit=0", descriptors=DESCRIPTORS) as server, ExitStack() as streams:
        size = len(server.answered())
        kept = [streams.enter_context(server.connected()) for _ in range(WANTING)]
        yield "connections for which there are no descriptors", [exchange(stream) for stream in kept[-3:]], [size] * 3
        begun = server.processor()
        time.sleep(1)
        yield "it does not spin", server.processor() - begun < 0.3, True
        yield "a newcomer", len(server.answered()), size


def resets():
    """Connections that are reset, with and without something under way."""
    with serving() as server:
        size = len(server.answered())
        for place in range(300):
            stream = server.connected()
            stream.setsockopt(socket.SOL_SOCKET, socket.SO_LINGER, struct.pack("ii", 1, 0))
            stream.sendall([QUERY, QUERY[:5], LONG * 6, QUERY * MOST, b""][place % 5])
            stream.close()
        yield "behind resets", [len(server.answered()) for _ in range(5)], [size] * 5


def limited():
    """Connections that bring no whole message within their limit are closed, and others are not."""
    with serving(f"--limit={LIMIT * 1_000:.0f}") as server, ExitStack() as streams:
        ill = Ill(server, streams)
        begun, kept = time.monotonic(), streams.enter_context(server.connected())
        answered = []
        while time.monotonic() < begun + 2.5 * LIMIT:
            answered.append(exchange(kept) > 0)
            time.sleep(LIMIT / 8)
        yield "one that goes on asking is served past its limit", answered, [True] * len(answered)
        yield "silent ones are closed", [is_ended(stream) for stream in ill.silent], [True] * SILENT
        yield "and those that drip", [is_ended(stream) for stream in ill.dripping], [True] * DRIPPING
        yield "and those that never read", [is_ended(stream) for stream in ill.greedy], [True] * GREEDY


def ends():
    """The end of standard input, with connections of all kinds open."""
    with serving("--limit=0") as server, ExitStack() as streams:
        ill = Ill(server, streams)
        kept = [streams.enter_context(server.connected()) for _ in range(100)]
        for stream in kept[::2]:
            exchange(stream)
        yield "it ends with all of them open", server.stopped(), (0, True)
        yield "and they are closed", [is_ended(stream) for stream in [*kept, *ill.silent]], [True] * (len(kept) + SILENT)


def tried():
    """Everything, one after the other."""
    timed = (slow_clients, idle, ill_peers, bound, half_closed, wanting, limited, ends)
    for part in (slow_clients, going_on, idle, ill_peers, bound, short, half_closed, wanting, resets, limited, ends):
        begun = time.monotonic()
        yield from thrice(part) if part in timed else part()
        if len(sys.argv) > 1:
            print(f"crowds: {part.__name__} took {time.monotonic() - begun:.1f} s", flush=True)


def main():
    if not PROGRAM.exists():
        sys.exit("crowds.py: the program is not built: run rt ci first")
    most = resource.getrlimit(resource.RLIMIT_NOFILE)[1]
    resource.setrlimit(resource.RLIMIT_NOFILE, (most, most))
    passed, wrong = 0, []
    for name, got, due in tried():
        if got == due:
            passed += 1
        else:
            wrong.append(f"{name}\ndue: {shown(due)}\ngot: {shown(got)}")
    for one in wrong:
        print(one)
    print(f"crowds: {passed} passed, {len(wrong)} failed")
    sys.exit(1 if wrong else 0)


def shown(value):
    text = repr(value)
    return text if len(text) < 1_000 else text[:1_000] + " .."


if __name__ == "__main__":
    main()
