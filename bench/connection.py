#!/usr/bin/env python3
"""Counts what a query costs that comes over a connection, in user instructions of the built program as it serves on loopback, on zones of
few and of many names. The program is sent two numbers of queries for names that are there, 50 of them under way at a time, over a new
connection behind each hundred, and the difference is divided by the queries between them, so that starting it and reading the zone are not
in it. All that its worker does is in it: accepting, reading, cutting, taking its turn of the book, settling, writing.

    bench/connection.py [NAMES ..]      zones of so many names each, 7 and 50,000 where none are said

Needs valgrind. Uses the standard library alone, and loopback alone.
"""

import re
import shutil
import socket
import subprocess
import sys
import tempfile
import time
from pathlib import Path

TOP = Path(__file__).resolve().parent.parent
sys.path.insert(0, str(TOP / "checks"))
sys.path.insert(0, str(TOP / "bench"))
import clients
import settle

SIZES = (7, 50_000)  # names
QUERIES = (2_000, 12_000)
WINDOW = 50  # a connection has two of them
BOUND = 600  # seconds


def connected(port):
    """A connection to the program, which may still be starting."""
    end = time.monotonic() + BOUND
    while time.monotonic() < end:
        try:
            return socket.create_connection(("127.0.0.1", port), BOUND)
        except OSError:
            time.sleep(0.1)
    sys.exit("it does not serve")


def instructions(zone, messages, queries, folder):
    """The instructions of a run that answers so many queries, these messages over and over."""
    path = Path(folder, f"counts{queries}")
    port = clients.free_port()
    command = ["valgrind", "--tool=cachegrind", "--cache-sim=no", f"--cachegrind-out-file={path}", clients.PROGRAM, "serve", settle.ORIGIN]
    run = subprocess.Popen([*command, f"--zone={zone}", f"--tcp=7f000001:{port}", "--workers=1"], stdin=subprocess.PIPE, stdout=subprocess.PIPE,
                           stderr=subprocess.PIPE)
    for begin in range(0, queries, clients.MOST):
        with connected(port) as stream:
            replies = clients.frames_in(stream)
            for first in range(begin, min(begin + clients.MOST, queries), WINDOW):
                part = [messages[place % len(messages)] for place in range(first, min(first + WINDOW, queries))]
                stream.sendall(b"".join(clients.framed(one) for one in part))
                for one in part:
                    if next(replies)[:2] != one[:2]:
                        sys.exit("a reply to another query")
    run.communicate(timeout=BOUND)
    if run.returncode != 0:
        sys.exit(f"status {run.returncode}")
    return int(re.search(r"^summary: (\d+)", path.read_text(encoding="ascii"), re.M).group(1))


def main():
    sizes = [int(word) for word in sys.argv[1:]] or SIZES
    if not shutil.which("valgrind"):
        sys.exit("connection: no valgrind")
    with tempfile.TemporaryDirectory() as folder:
        for names in sizes:
            zone = Path(folder, f"zone{names}")
            settle.write_zone(zone, names)
            _, messages = next(settle.kinds(names))
            few, many = (instructions(zone, messages, queries, folder) for queries in QUERIES)
            print(f"{names:,} names, a hit over a connection: {(many - few) / (QUERIES[1] - QUERIES[0]):,.0f} instructions", flush=True)


if __name__ == "__main__":
    main()
