#!/usr/bin/env python3
"""Asks the built program, as it serves on loopback, and compares each reply with the one that it gives over a list of events.

By UDP and by TCP: queries of each kind with and without EDNS, frames behind one another and cut anywhere, updates with queries around
them, malformed messages and random bytes. Then connections that stay silent, or send single bytes, are closed at their limit; many
connections come at once; a restart on the same journal shows what was acknowledged; the end of standard input stops the program, which
writes its two closing lines; and a port that is taken is told by a status of its own.

  serving.py [CONNECTIONS [SEED]]  that many connections at once, or 200; the same random bytes for the same seed

Uses the standard library, and loopback alone. Each wait is bounded in time. DNS_PROGRAM names another program. Clients that people use ask in clients.py.
"""

import random
import selectors
import socket
import subprocess
import sys
import tempfile
import time
from contextlib import contextmanager
from pathlib import Path

import wire
from servers import PROGRAM

CONNECTIONS, SEED = 200, 1035
BOUND = 20  # seconds for a run, a reply or a connection's end
MOST = 100  # messages of a connection, which is closed behind the last of them
LIMIT = 1_000  # milliseconds that a connection may stay without a whole message
RANDOM = 300  # datagrams of random bytes
HOST, IP = "127.0.0.1", "7f000001"
ORIGIN = "example.com."
ZONE = "\n".join(
    [
        "example.com. 3600 IN SOA ns.example.com. hostmaster.example.com. 7 3600 600 86400 300",
        "example.com. 3600 IN NS ns.example.com.",
        "ns.example.com. 3600 IN A 192.0.2.53",
        "www.example.com. 3600 IN A 192.0.2.1",
        "alias.example.com. 3600 IN CNAME www.example.com.",
        "out.example.com. 3600 IN CNAME www.example.net.",
        '*.wild.example.com. 3600 IN TXT "w"',
        "sub.example.com. 3600 IN NS ns.sub.example.com.",
        *[f"many.example.com. 60 IN A 10.0.0.{place}" for place in range(60)],
        "",
    ]
)
SECTION = (ORIGIN, "SOA", "IN")
ADD_NEW = wire.update(SECTION, [], ["new.example.com. 60 IN A 192.0.2.55"])
ADD_MORE = wire.update(SECTION, [], ["more.example.com. 60 IN A 192.0.2.56"])
ADD_NEW_IF_NOT = wire.update(SECTION, ["new.example.com. 0 NONE ANY"], ["new.example.com. 60 IN A 192.0.2.57"])
DELETE_NEW = wire.update(SECTION, [], ["new.example.com. 0 ANY ANY"])
OUTSIDE = wire.update(SECTION, [], ["example.net. 60 IN A 192.0.2.55"])
NEW, MORE = wire.query("new.example.com", "A"), wire.query("more.example.com", "A")


# Messages.


def with_opt(message, size, version=0, is_do=False):
    """A message with an OPT record at its end (RFC 6891 6.1.2)."""
    opt = b"\0" + wire.number(41, 2) + wire.number(size, 2) + bytes([0, version, 0x80 if is_do else 0, 0]) + b"\0\0"
    return message[:10] + b"\0\1" + message[12:] + opt


def queries():
    """A query for each way through the zone, with and without EDNS."""
    asked = [
        ("www.example.com", "A"),
        ("WWW.example.COM", "A"),
        ("www.example.com", "TXT"),
        ("alias.example.com", "A"),
        ("alias.example.com", "CNAME"),
        ("out.example.com", "A"),
        ("a.b.wild.example.com", "TXT"),
        ("wild.example.com", "TXT"),
        ("no.example.com", "A"),
        ("host.sub.example.com", "A"),
        ("sub.example.com", "DS"),
        ("example.com", "SOA"),
        ("example.com", "ANY"),
        ("many.example.com", "A"),
        ("example.net", "A"),
    ]
    for name, kind in asked:
        plain = wire.query(name, kind)
        yield from (plain, with_opt(plain, 512), with_opt(plain, 1232, is_do=True), with_opt(plain, 65_535), with_opt(plain, 0))


def odd_messages():
    """Messages that are no plain query, or none at all."""
    plain = wire.query("www.example.com", "A")
    yield with_opt(plain, 1232, version=1)
    yield plain[:2] + b"\x81\x00" + plain[4:]  # a reply
    yield plain[:2] + b"\x11\x00" + plain[4:]  # a status request
    yield plain[:2] + b"\x21\x00" + plain[4:]  # a notification
    yield plain[:4] + b"\0\2" + plain[6:]
    yield plain[:4] + b"\0\0" + plain[6:12]
    yield plain[:-1]
    yield plain + b"\0"
    yield plain[:11]
    yield b""
    yield plain[:12] + b"\xc0\x0c" + plain[-4:]  # a name that points to itself
    yield plain[:2] + b"\xff" * 10
    yield ADD_NEW


def random_messages(seed):
    """Random bytes, and queries with a few bytes changed."""
    chance = random.Random(seed)
    for place in range(RANDOM):
        if place % 2:
            yield chance.randbytes(chance.randrange(600))
            continue
        message = bytearray(wire.query("www.example.com", "A"))
        for _ in range(chance.randrange(1, 4)):
            message[chance.randrange(2, len(message))] = chance.randrange(256)
        yield bytes(message)


def framed(message):
    return wire.number(len(message), 2) + message


# What is due: the replies of the same program to the same messages over a list of events.


def told(options, lines):
    """The lines that the program writes for these events."""
    with tempfile.TemporaryDirectory() as folder:
        zone = Path(folder) / "zone"
        zone.write_text(ZONE)
        command = [PROGRAM, "events", ORIGIN, f"--zone={zone}", *options]
        done = subprocess.run(command, input="\n".join(lines).encode(), stdout=subprocess.PIPE, timeout=BOUND)
    if done.returncode:
        raise RuntimeError(f"status {done.returncode} of events: {done.stdout[:200]!r}")
    return done.stdout.decode().splitlines()


def due_to(messages, options):
    """The reply to each message, or none; each comes from a port of its own."""
    first = 1_024
    lines = told(options, [f"D 0 {IP} {first + place} {message.hex() or '-'}" for place, message in enumerate(messages)])
    found = {int(line.split()[2]): bytes.fromhex(line.split()[3]) for line in lines if line[0] == "P"}
    return [found.get(first + place) for place in range(len(messages))]


def due_over(streams, options):
    """The bytes that connections get back which come one after another, and the first two closing lines."""
    events = ((f"A 0 {place} {IP} 5300 0", f"B 0 {place} {stream.hex()}", f"E 0 {place}") for place, stream in enumerate(streams, 1))
    lines = told(options, [line for three in events for line in three])
    replies = [line.split() for line in lines if line[0] == "C"]
    return [b"".join(bytes.fromhex(one[2]) for one in replies if one[1] == str(place)) for place in range(1, len(streams) + 1)], lines[-3:-1]


def due_on(stream, options):
    """The bytes that a connection gets back."""
    lines = told(options, [f"A 0 1 {IP} 5300 0", f"B 0 1 {stream.hex()}", "E 0 1"])
    return b"".join(bytes.fromhex(line.split()[2]) for line in lines if line[0] == "C")


# The program as it serves.


def free_port(host=HOST):
    """A port that nobody listens at, by UDP and by TCP, and that the system gives to no client."""
    while True:
        port = random.randrange(10_000, 32_000)
        with socket.socket(family(host), socket.SOCK_DGRAM) as udp, socket.socket(family(host)) as tcp:
            try:
                udp.bind((host, port))
                tcp.bind((host, port))
            except OSError:
                continue
            return port


def family(host):
    return socket.AF_INET6 if ":" in host else socket.AF_INET


class Server:
    """The program, which serves over both UDP and TCP at one port until it is told to stop."""

    def __init__(self, *words, host=HOST, ip=IP):
        self.host, self.port = host, free_port(host)
        at = f"{ip}:{self.port}"
        command = [PROGRAM, "serve", ORIGIN, f"--udp={at}", f"--tcp={at}", *words]
        self.run = subprocess.Popen(command, stdin=subprocess.PIPE, stdout=subprocess.PIPE)
        self.wait_until_it_serves()

    def wait_until_it_serves(self):
        end = time.monotonic() + BOUND
        while time.monotonic() < end and self.run.poll() is None:
            try:
                with self.connected(timeout=1):
                    return
            except OSError:
                time.sleep(0.02)
        raise RuntimeError(f"it does not serve: status {self.run.poll()}")

    def connected(self, timeout=BOUND):
        return socket.create_connection((self.host, self.port), timeout=timeout)

    def stop(self):
        """Ends its standard input. Its status, what it wrote, and how long it took to end."""
        begun = time.monotonic()
        output, _ = self.run.communicate(timeout=BOUND)
        return self.run.returncode, output.decode(errors="replace"), time.monotonic() - begun

    def asked(self, message, waits=True):
        """The reply to a datagram. Where none is waited for, a query behind it is answered first."""
        with socket.socket(family(self.host), socket.SOCK_DGRAM) as udp:
            udp.connect((self.host, self.port))
            udp.settimeout(BOUND)
            udp.send(message)
            if not waits:
                udp.send(b"\xab\xcd" + wire.query("ns.example.com", "A")[2:])
            reply = udp.recv(65_535)
        return None if not waits and reply[:2] == b"\xab\xcd" else reply

    def exchanged(self, pieces):
        """What comes back over one connection that sends these pieces and ends."""
        with self.connected() as tcp:
            tcp.setsockopt(socket.IPPROTO_TCP, socket.TCP_NODELAY, 1)
            for piece in pieces:
                tcp.sendall(piece)
                time.sleep(0.001)
            tcp.shutdown(socket.SHUT_WR)
            return received(tcp)


def received(tcp):
    """All that comes until the other end closes."""
    found = b""
    while piece := tcp.recv(65_536):
        found += piece
    return found


@contextmanager
def serving(*words, **place):
    """A server over the zone text, with these words. It is ended in any case."""
    with tempfile.TemporaryDirectory() as folder:
        zone = Path(folder) / "zone"
        zone.write_text(ZONE)
        server = Server(f"--zone={zone}", *words, **place)
        try:
            yield server
        finally:
            server.run.kill()
            server.run.communicate()


# What is tried. Each gives what it shows, what came, and what was due.


def datagrams(name, messages, *options):
    due = due_to(messages, options)
    with serving(*options) as server:
        for place, (message, reply) in enumerate(zip(messages, due)):
            yield f"{name} {place}, {message.hex()}", server.asked(message, reply is not None), reply


def cut_anywhere(stream, seed, count):
    """A stream in pieces, at random places."""
    chance = random.Random(f"{seed} cut")
    for _ in range(count):
        places = sorted(chance.randrange(len(stream) + 1) for _ in range(chance.randrange(12)))
        yield [stream[begin:end] for begin, end in zip([0, *places], [*places, len(stream)])]


def connections(seed):
    """Frames behind one another, in whatever pieces; and what is no whole message at the end."""
    messages = [message for message in [*queries(), *odd_messages()] if message]
    stream = b"".join(map(framed, messages)) + b"\0\0" + framed(b"\1") + framed(wire.query("www.example.com", "A"))
    short = b"".join(map(framed, messages[:3]))
    with serving() as server:
        due = due_on(stream, [])
        yield "all at once over a connection", server.exchanged([stream]), due
        for place, pieces in enumerate(cut_anywhere(stream, seed, 20)):
            yield f"cut anywhere {place}", server.exchanged(pieces), due
        due = due_on(short, [])
        yield "byte by byte", server.exchanged([short[place : place + 1] for place in range(len(short))]), due
        yield "half a message at the end", server.exchanged([short + b"\0\x40half"]), due
        yield "no byte", server.exchanged([]), b""


def updates():
    """Updates, each with queries behind it, by datagram and by connection in turn."""
    messages = [NEW, ADD_NEW, NEW, ADD_NEW, ADD_NEW_IF_NOT, ADD_MORE, MORE, OUTSIDE, wire.query(ORIGIN, "SOA"), DELETE_NEW, NEW, ADD_NEW, NEW]
    due = due_to(messages, ["--update"])
    closing = told(["--update"], [f"D 0 {IP} 5300 {message.hex()}" for message in messages])[-3:-1]
    with tempfile.TemporaryDirectory() as folder:
        journal = f"--journal={folder}/journal"
        with serving("--update", journal) as server:
            for place, (message, reply) in enumerate(zip(messages, due)):
                got = server.exchanged([framed(message)])[2:] if place % 2 else server.asked(message)
                yield f"update or query {place}", got, reply
            yield "the end of standard input", server.stop()[:2], (0, "".join(line + "\n" for line in closing))
        server = Server(journal)  # with no zone text: the rows of the journal stand for the zone
        yield "after a restart", [server.asked(one) for one in (NEW, MORE)], [due[-1], due[6]]
        yield "an update that is not let in", server.asked(ADD_NEW), due_to([ADD_NEW], [])[0]
        yield "the end after a restart", server.stop()[:2], (0, "".join(line + "\n" for line in closing))


def updates_between_queries(seed):
    """Updates with many queries before and behind them, over a few connections, all at once and in whatever pieces."""
    other = [wire.query("www.example.com", "A")]
    messages = [*other * 70, NEW, ADD_NEW, NEW, *other * 3, ADD_NEW, ADD_NEW_IF_NOT, ADD_MORE, MORE, OUTSIDE, *other * 100, DELETE_NEW, *[NEW] * 130, ADD_NEW, NEW]
    streams = [b"".join(map(framed, messages[begin : begin + MOST])) for begin in range(0, len(messages), MOST)]
    due, closing = due_over(streams, ["--update"])
    ways = [[[stream] for stream in streams], *zip(*(cut_anywhere(stream, f"{seed} updates", 4) for stream in streams))]
    for place, way in enumerate(ways):
        with serving("--update") as server:
            yield f"updates between queries {place}", [server.exchanged(pieces) for pieces in way], due
            yield f"the end behind updates between queries {place}", server.stop()[:2], (0, "".join(line + "\n" for line in closing))


def hundreds():
    """More messages than a connection has: the first of them are answered, and the connection ends in order."""
    query = framed(wire.query("www.example.com", "A"))
    with serving() as server:
        due = due_on(query * MOST, [])
        yield "a hundred queries over a connection", server.exchanged([query * MOST]), due
        yield "ten thousand queries over a connection", server.exchanged([query * 10_000]), due
        yield "one more, in a piece of its own", server.exchanged([query * 60, query * 40, query]), due
        with server.connected() as tcp:
            tcp.sendall(query * MOST)
            yield "the end of a connection that its client leaves open", received(tcp), due
        yield "ten thousand messages without a reply", server.exchanged([bytes(20_000)]), b""


def shut_out():
    message = wire.query("www.example.com", "A")
    option = "--deny=7f000000/8"
    with serving(option) as server:
        yield "a source that is shut out, by UDP", server.asked(message), due_to([message], [option])[0]
        yield "and by TCP", server.exchanged([framed(message)]), due_on(framed(message), [option])


def ended_after(tcp, pieces, pause):
    """Sends pieces with a pause behind each, and tells in seconds when the other end closed, none where it did not in time."""
    begun, end = time.monotonic(), time.monotonic() + BOUND
    tcp.settimeout(pause)
    while time.monotonic() < end:
        try:
            if pieces:
                tcp.sendall(pieces.pop(0))
            if not tcp.recv(65_536):
                return time.monotonic() - begun
        except TimeoutError:
            continue
        except ConnectionError:
            return time.monotonic() - begun
    return None


def limits():
    """Connections that stay without a whole message are closed, and one that goes on asking is not."""
    query, limit = framed(wire.query("www.example.com", "A")), LIMIT / 1_000
    with serving(f"--limit={LIMIT}", "--workers=4") as server:
        for name, pieces in (("silent", []), ("half a message", [query[:9]]), ("single bytes", [b"\xff"] * 400)):
            with server.connected() as tcp:
                took = ended_after(tcp, list(pieces), 0.1)
            yield f"a connection is closed at its limit: {name}", took is not None and limit * 0.9 < took < limit + 2, True
        with server.connected() as tcp:
            for _ in range(8):
                tcp.sendall(query)
                size = int.from_bytes(tcp.recv(2), "big")
                reply = tcp.recv(size)
                time.sleep(limit / 2)
            yield "a connection that goes on asking is served past its limit", len(reply), size
        yield "and the server goes on", server.exchanged([query]), due_on(query, [])


def at_once(count):
    """Many connections at the same time: each is answered, whatever the others do."""
    query = framed(wire.query("www.example.com", "A"))
    due = due_on(query, [])
    with serving("--limit=2000") as server, selectors.DefaultSelector() as waiting:
        found = {}
        for place in range(count):
            tcp = server.connected()
            tcp.sendall(query if place % 8 else query[:5])  # one of eight never ends its message
            waiting.register(tcp, selectors.EVENT_READ, place)
            found[place] = b""
        end = time.monotonic() + 2 * BOUND
        while waiting.get_map() and time.monotonic() < end:
            for key, _ in waiting.select(timeout=1):
                piece = read_or_end(key.fileobj)
                found[key.data] += piece
                if not piece or found[key.data] == due:
                    waiting.unregister(key.fileobj)
                    key.fileobj.close()
        yield f"{count} connections at once", [found[place] == (due if place % 8 else b"") for place in range(count)], [True] * count
        yield "and a datagram", server.asked(query[2:]), due[2:]


def read_or_end(tcp):
    """What came, none at the other end's close."""
    try:
        return tcp.recv(65_536)
    except ConnectionError:
        return b""


def run(words, **streams):
    """The status and the output of a run that ends by itself."""
    done = subprocess.run([PROGRAM, *words], stdout=subprocess.PIPE, timeout=BOUND, **streams)
    return done.returncode, done.stdout.decode(errors="replace")


def stops():
    """How a run ends: at the end of standard input, with connections open, and where a port is taken."""
    rows = ZONE.count("\n") + 1  # the snapshot's, and one for each record
    closing = (0, f"serial 7\njournal_len {rows}\n")
    with serving("--limit=0") as server:
        with server.connected() as silent:
            status, output, took = server.stop()
            yield "the end of standard input while a connection is silent", (status, output), closing
            yield "it ends soon", took < 5, True
            yield "and the connection is closed", read_or_end(silent), b""
    with tempfile.TemporaryDirectory() as folder:
        zone = Path(folder) / "zone"
        zone.write_text(ZONE)
        words, fault = ["serve", ORIGIN, f"--zone={zone}"], (11, "port fault\n")
        at = f"{IP}:{free_port()}"
        yield "no standard input", run([*words, f"--udp={at}"], stdin=subprocess.DEVNULL), closing
        yield "by TCP alone", run([*words, f"--tcp={at}", "--workers=1"], stdin=subprocess.DEVNULL), closing
        with socket.socket(type=socket.SOCK_DGRAM) as udp, socket.socket() as tcp:
            udp.bind((HOST, 0))
            tcp.bind((HOST, 0))
            tcp.listen()
            taken = [f"{IP}:{one.getsockname()[1]}" for one in (udp, tcp)]
            journal = Path(folder) / "journal"
            with open("/dev/zero", "rb") as endless:
                yield "a port that is taken, by UDP", run([*words, f"--udp={taken[0]}"], stdin=endless), fault
                yield "by TCP", run([*words, f"--tcp={taken[1]}"], stdin=endless), fault
                both = [f"--udp={at}", f"--tcp={taken[1]}", f"--journal={journal}"]
                yield "by TCP, behind one that is free", run([*words, *both], stdin=endless), fault
        again = run(["serve", ORIGIN, f"--udp={at}", f"--journal={journal}"], stdin=subprocess.DEVNULL)
        yield "the port is free again, and the journal has the zone", again, closing
        faulty = run(["serve", "example.net.", f"--udp={at}", f"--journal={journal}"], stdin=subprocess.DEVNULL)
        yield "a journal of another zone", faulty[0], 5
        yield "no zone text", run(["serve", ORIGIN, f"--udp={at}"], stdin=subprocess.DEVNULL), (2, "zone text line 0: NotOneSoa\n")


def over_ipv6():
    """An address of IPv6, where loopback has one."""
    try:
        free_port("::1")
    except OSError:
        print("serving: loopback has no IPv6, which is skipped")
        return
    message = wire.query("www.example.com", "A")
    with serving(host="::1", ip="0" * 31 + "1") as server:
        yield "by UDP over IPv6", server.asked(message), due_to([message], [])[0]
        yield "by TCP over IPv6", server.exchanged([framed(message)]), due_on(framed(message), [])


def tried(count, seed):
    """Everything, one after the other."""
    yield from datagrams("query", list(queries()))
    yield from datagrams("query under a greatest datagram", list(queries()), "--payload=600")
    yield from datagrams("odd message", list(odd_messages()))
    yield from datagrams("random bytes", list(random_messages(seed)), "--update")
    yield from connections(seed)
    yield from updates()
    yield from updates_between_queries(seed)
    yield from hundreds()
    yield from shut_out()
    yield from limits()
    yield from at_once(count)
    yield from stops()
    yield from over_ipv6()


def main():
    count, seed = [int(word) for word in sys.argv[1:]] + [CONNECTIONS, SEED][len(sys.argv) - 1 :]
    if not PROGRAM.exists():
        sys.exit("serving.py: the program is not built: run rt ci first")
    passed, wrong = 0, []
    for name, got, due in tried(count, seed):
        if got == due:
            passed += 1
        else:
            wrong.append(f"{name}\ndue: {shown(due)}\ngot: {shown(got)}")
    for one in wrong[:10]:
        print(one)
    print(f"serving: {passed} passed, {len(wrong)} failed")
    sys.exit(1 if wrong else 0)


def shown(value):
    text = value.hex() if isinstance(value, bytes) else repr(value)
    return text if len(text) < 2_000 else text[:2_000] + " .."


if __name__ == "__main__":
    main()
