#!/usr/bin/env python3
"""Times the built program: zones of few and of many names, many queries to the example zone, many connections with one
query each in two pieces, and the messages of the tests over and over. Where valgrind is there the instructions are counted
of a query for a name that is there, and of a message of the tests; that takes some minutes.

Uses the standard library alone, and no network. Each run of the program is bounded in time.
"""

import itertools
import os
import re
import shutil
import subprocess
import sys
import tempfile
import time

TOP = os.path.dirname(os.path.dirname(os.path.abspath(__file__)))
PROGRAM = os.path.join(TOP, "crates", "dns_program", "out", "dns_program")
ZONES = (7, 50_000, 500_000)  # names
COUNTED = (500, 2_500)  # queries whose instructions are counted, as a difference
QUERIES = 20_000
CONNECTIONS = 10_000
MESSAGES = 100_000
AT_ONCE = 20_000  # messages in one event text, which has a greatest length
BOUND = 300  # seconds
ROWS = os.path.join(TOP, "checks", "rows", "base.rows")
SOA = "z. 1 IN SOA ns.z. admin.z. 7 1 1 1 1"


def query(labels, number):
    """The message of a query for an A record (RFC 1035 4.1)."""
    name = b"".join(bytes([len(label)]) + label.encode() for label in labels) + b"\0"
    return number.to_bytes(2, "big") + bytes.fromhex("01000001000000000000") + name + bytes.fromhex("00010001")


def line(moment, labels):
    return f"D {moment} 7f000001 5300 {query(labels, moment % 65536).hex()}\n"


def on_connection(number, labels):
    """A connection that is accepted, and brings one query in two pieces."""
    message = query(labels, number % 65536)
    framed = (len(message).to_bytes(2, "big") + message).hex()
    return f"A 0 {number} 7f000001 5300 0\nB 0 {number} {framed[:34]}\nB 0 {number} {framed[34:]}\n"


def seconds_of(zone, events, due, origin="example.com."):
    """Runs the program, and gives how long it took. So many replies are due."""
    command = [PROGRAM, "events", origin, f"--zone={zone}"]
    start = time.perf_counter()
    run = subprocess.run(command, input=events.encode(), stdout=subprocess.PIPE, timeout=BOUND)
    seconds = time.perf_counter() - start
    replies = sum(1 for one in run.stdout.splitlines() if one.startswith((b"P ", b"C ")))
    if run.returncode != 0 or replies != due:
        sys.exit(f"status {run.returncode}, {replies} replies where {due} are due")
    return seconds


def report(title, seconds, count, unit):
    print(f"{title}: {seconds:.3f} s, {count / seconds:,.0f} {unit} a second")


def messages():
    """The messages of the rows of the wire format, each as a request: with QR clear, so that it is read and answered."""
    with open(ROWS, encoding="utf-8") as text:
        rows = text.read().splitlines()
    for row in rows:
        kind, hexed = row.split("|")[:2]
        if kind == "message" and len(hexed) >= 24:
            message = bytearray.fromhex(hexed)
            message[2] &= 0x7F
            yield message.hex()


def lines_of(table, count):
    return "".join(f"D 0 7f000001 5300 {one}\n" for one in itertools.islice(itertools.cycle(table), count))


def instructions(zone, events, folder, origin="example.com."):
    """How many instructions the program takes."""
    counts = os.path.join(folder, "callgrind.out")
    command = ["valgrind", "--tool=callgrind", f"--callgrind-out-file={counts}", PROGRAM, "events", origin]
    command.append(f"--zone={zone}")
    subprocess.run(command, input=events.encode(), capture_output=True, timeout=BOUND, check=True)
    with open(counts, encoding="ascii") as text:
        return int(re.search(r"^(?:summary|totals): (\d+)", text.read(), re.M).group(1))


def write_zone(path, names):
    """A zone of so many names, each with an address."""
    with open(path, "w", encoding="ascii") as text:
        text.write(SOA + "\n")
        for number in range(names - 1):
            text.write(f"h{number:x}.z. 1 IN A 10.{number >> 16}.{number >> 8 & 255}.{number & 255}\n")


def asked_in(names, count):
    """Queries for names that are there, all over the zone."""
    return "".join(line(0, [f"h{number * 7919 % (names - 1):x}", "z"]) for number in range(count))


def time_zones(folder):
    for names in ZONES:
        zone = os.path.join(folder, "zone")
        write_zone(zone, names)
        report(f"a zone of {names:,} names, one query", seconds_of(zone, asked_in(names, 1), 1, "z."), names, "zone lines")
        if shutil.which("valgrind"):
            few, many = (instructions(zone, asked_in(names, count), folder, "z.") for count in COUNTED)
            used = (many - few) // (COUNTED[1] - COUNTED[0])
            print(f"a zone of {names:,} names: {used:,} instructions a query for a name that is there, with its lines of text")
        else:
            print("valgrind is not there: no instructions are counted")


def time_messages(zone, folder):
    table = list(messages())
    events = lines_of(table, AT_ONCE)
    seconds = sum(seconds_of(zone, events, AT_ONCE) for _ in range(MESSAGES // AT_ONCE))
    report(f"messages of the tests, {MESSAGES:,}", seconds, MESSAGES, "messages")
    if shutil.which("valgrind"):
        used = instructions(zone, events, folder) - instructions(zone, "", folder)
        print(f"messages of the tests: {used // AT_ONCE:,} instructions a message, with its lines of text")


def main():
    # The first call builds the program where that is needed, outside the times.
    subprocess.run([os.path.join(TOP, "dns"), "--version"], stdout=subprocess.DEVNULL, check=True)
    with tempfile.TemporaryDirectory() as folder:
        time_zones(folder)
        small = os.path.join(TOP, "examples", "example.com.zone")
        many = "".join(line(moment, ["www", "example", "com"]) for moment in range(QUERIES))
        report(f"the example zone, {QUERIES:,} queries", seconds_of(small, many, QUERIES), QUERIES, "event lines")
        cut = "".join(on_connection(number, ["www", "example", "com"]) for number in range(CONNECTIONS))
        report(f"{CONNECTIONS:,} connections, a query each", seconds_of(small, cut, CONNECTIONS), CONNECTIONS, "connections")
        time_messages(small, folder)


if __name__ == "__main__":
    main()
