#!/usr/bin/env python3
"""Runs the command `load`, and compares its lines with those that a plain model tells: of the messages (load_model.py), and of the
replies to them (update_model.py). Nothing that the program wrote is looked at to tell what is due. Uses the standard library alone."""

import subprocess
import sys

from cases import PROGRAM
from load_model import lines
from update_model import A, CNAME, IN, NOERROR, NS, NXDOMAIN, SOA, TXT, Record, Server, number, serial_of

LISTS = [(0, 1), (7, 20_000), (7, 20_000), (1, 1), (2**64 - 1, 500), (12_345_678_901_234_567_890, 3_000)]
MOST = 100  # messages of a connection, which is closed behind the last of them
ONE = ["messages 1", "replies 1", "bytes 29", "noerror 1", "nxdomain 0", "serial 8", "journal_len 9", "open 4"]


def name(text):
    return tuple(label.encode() for label in text.split(".") if label)


def record(owner, kind, *data):
    return Record(name(owner), kind, IN, 3600, data)


def zone():
    """The zone of a drawn list."""
    times = b"".join(number(n, 4) for n in (7, 3600, 600, 86400, 300))
    return [
        record("example.com.", SOA, name("ns.example.com."), name("hostmaster.example.com."), times),
        record("example.com.", NS, name("ns.example.com.")),
        record("ns.example.com.", A, bytes([192, 0, 2, 53])),
        record("www.example.com.", A, bytes([192, 0, 2, 1])),
        record("alias.example.com.", CNAME, name("www.example.com.")),
        record("*.wild.example.com.", TXT, b"\1w"),
        record("sub.example.com.", NS, name("ns.sub.example.com.")),
    ]


def messages(seed, count):
    """The messages of a drawn list in order of completion, each with its source, and the number of its connection, if it comes over one."""
    sources, begun = {}, {}
    for line in lines(seed, count):
        kind, _, *words = line.split(" ")
        if kind == "A":
            sources[words[0]] = (words[1], int(words[2]))
        elif kind == "D":
            yield bytes.fromhex(words[2]), (words[0], int(words[1])), None
        else:
            stream = begun.pop(words[0], b"") + bytes.fromhex(words[1])
            if len(stream) < 2 + int.from_bytes(stream[:2], "big"):
                begun[words[0]] = stream
            else:
                yield stream[2:], sources[words[0]], words[0]


def due(seed, count):
    """The lines that the model tells."""
    server, replies, taken = Server(name("example.com."), zone(), True), [], dict.fromkeys("1234", 0)
    for message, source, connection in messages(seed, count):
        if connection is not None:
            taken[connection] += 1
            if taken[connection] > MOST:
                continue
        reply = server.settle(message, source, connection is None)
        if reply is not None:
            replies.append((len(reply) + (0 if connection is None else 2), reply[3] & 15))
    codes = [code for _, code in replies]
    return [
        f"messages {count}",
        f"replies {len(replies)}",
        f"bytes {sum(size for size, _ in replies)}",
        f"noerror {codes.count(NOERROR)}",
        f"nxdomain {codes.count(NXDOMAIN)}",
        f"serial {serial_of(server.zone)}",
        f"journal_len {len(server.rows)}",
        f"open {sum(count < MOST for count in taken.values())}",
    ]


def told(seed, count):
    """The lines that the program writes."""
    done = subprocess.run([str(PROGRAM), "load", str(seed), str(count)], capture_output=True, timeout=600)
    if done.returncode != 0:
        sys.exit(f"loads.py: load {seed} {count} ended with {done.returncode}: {done.stdout[:200]!r} {done.stderr[-500:]!r}")
    return done.stdout.decode().splitlines()


def main():
    if not PROGRAM.exists():
        sys.exit("loads.py: the program is not built: run rt ci first")
    for seed, count in LISTS:
        wanted, got = due(seed, count), told(seed, count)
        if got != wanted or (seed == 0 and got != ONE):
            sys.exit(f"loads.py: load {seed} {count} gives {got}, and the model {wanted}")
    print(f"loads.py: {len(LISTS)} drawn lists ok")


if __name__ == "__main__":
    main()
