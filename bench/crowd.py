#!/usr/bin/env python3
"""Measures what the built program needs for a query over connections, beside a bare echo over epoll in C, in one run on loopback: processor time of
the server for each reply, with one query under way on each of thirty and of nine hundred connections, with many under way on one, and with a
connection for each query; and what thousands of connections need that are silent, in memory and in processor time a second.

The program and the echo have one worker each, on the first processor; the load has the others. They are measured by turns, in another order each
time. Of the turns the quotient of the echo's time by the program's is told, its median, least and greatest: what a machine gives differs from
minute to minute, so that times of different turns tell less.

  crowd.py [SECONDS [PROGRAM ..]]  so long for each figure, or 3; these programs in place of the built one, each by the same words

Needs a C compiler (cc), for crowd.c. Uses loopback alone, and ends each server that it starts by its own number.
"""

import os
import random
import re
import shutil
import statistics
import subprocess
import sys
import tempfile
import time
from pathlib import Path

TOP = Path(__file__).resolve().parent.parent
sys.path.insert(0, str(TOP / "checks"))
import clients
import wire

NAMES = 50  # that are asked for
TURNS = 5
IDLE = 5_000  # connections
WATCHED = 5  # seconds
BOUND = 60
EACH = clients.MOST
# what is told, connections at once, queries under way on each, and queries of each
WAYS = [("30 connections", 30, 1, EACH), ("900 connections", 900, 1, EACH), ("64 under way on one", 1, 64, EACH), ("a connection for each", 30, 1, 1)]


class Running:
    """A server, on the first processor, until it is let go."""

    def __init__(self, command):
        self.port = clients.free_port()
        words = [str(word).format(port=self.port) for word in command]
        self.run = subprocess.Popen(words, stdin=subprocess.PIPE, stdout=subprocess.DEVNULL, preexec_fn=lambda: os.sched_setaffinity(0, {0}))
        end = time.monotonic() + BOUND
        while not self.answers():
            if time.monotonic() > end or self.run.poll() is not None:
                self.let_go()
                sys.exit(f"crowd: {words[0]} does not serve")
            time.sleep(0.02)

    def answers(self):
        try:
            with clients.socket.create_connection(("127.0.0.1", self.port), 1) as stream:
                stream.sendall(clients.framed(wire.query("www.example.com.", "A")))
                return len(stream.recv(2)) > 0
        except OSError:
            return False

    def processor(self):
        """The processor time of its threads so far, in seconds."""
        tasks = Path(f"/proc/{self.run.pid}/task").iterdir()
        return sum(int((task / "schedstat").read_text().split()[0]) for task in tasks) / 1e9

    def memory(self):
        """How many bytes of memory it has."""
        return int(re.search(r"VmRSS:\s+(\d+)", Path(f"/proc/{self.run.pid}/status").read_text())[1]) * 1024

    def let_go(self):
        self.run.stdin.close()
        try:
            self.run.wait(10)
        except subprocess.TimeoutExpired:
            self.run.kill()
            self.run.wait()


def on_others():
    os.sched_setaffinity(0, set(range(os.cpu_count())) - {0} or {0})


def loaded(load, server, seconds, names, way):
    """Replies, seconds, and processor time of the server."""
    _, connections, window, each = way
    before = server.processor()
    words = [load, "load", server.port, seconds, connections, window, each, names]
    ran = subprocess.run(list(map(str, words)), stdout=subprocess.PIPE, text=True, check=True, preexec_fn=on_others)
    replies, passed, _made = ran.stdout.split()
    return int(replies), float(passed), server.processor() - before


def queries(servers, load, seconds, names):
    print("\n| queries over | server | replies a second | us a reply | of the echo's, per cent (least, greatest) |\n|---|---|---|---|---|")
    for way in WAYS:
        got = {name: [] for name in servers}
        for _ in range(TURNS):
            for name in random.sample(list(servers), len(servers)):
                got[name].append(loaded(load, servers[name], seconds / TURNS, names, way))
        spent = {name: [time_ * 1e6 / max(replies, 1) for replies, _, time_ in turns] for name, turns in got.items()}
        for name, turns in got.items():
            quotients = sorted(100 * echo / own for echo, own in zip(spent["echo"], spent[name]))
            rate = sum(replies for replies, _, _ in turns) / sum(passed for _, passed, _ in turns)
            cells = [way[0], name, f"{rate:,.0f}", f"{statistics.median(spent[name]):.2f}"]
            print("|", " | ".join(cells), f"| {statistics.median(quotients):.0f} ({quotients[0]:.0f}, {quotients[-1]:.0f}) |", flush=True)


def idle(servers, load):
    print(f"\n| {IDLE:,} silent connections | bytes of memory for each | ms of processor time a second |\n|---|---|---|")
    for name, server in servers.items():
        time.sleep(1)
        before = server.memory()
        run = subprocess.Popen([load, "idle", str(server.port), str(IDLE)], stdin=subprocess.PIPE, stdout=subprocess.PIPE)
        run.stdout.readline()
        time.sleep(1)
        after, start = server.memory(), server.processor()
        time.sleep(WATCHED)
        spent = server.processor() - start
        print(f"| {name} | {(after - before) / IDLE:.0f} | {spent * 1e3 / WATCHED:.2f} |", flush=True)
        run.communicate()


def main():
    seconds = float(sys.argv[1]) if len(sys.argv) > 1 else 3
    programs = sys.argv[2:] or [clients.PROGRAM]
    compiler = shutil.which("cc")
    if compiler is None:
        sys.exit("crowd: no C compiler")
    with tempfile.TemporaryDirectory() as folder:
        load, zone, names = (str(Path(folder, name)) for name in ("load", "zone", "names"))
        subprocess.run([compiler, "-O2", "-o", load, TOP / "bench" / "crowd.c"], check=True)
        Path(zone).write_text(clients.ZONE + "".join(f"h{place}.example.com. 60 IN A 10.0.0.1\n" for place in range(NAMES)))
        Path(names).write_text("".join(f"h{place}.example.com\n" for place in range(NAMES)))
        servers = {"echo": Running([load, "echo", "{port}"])}
        try:
            for program in programs:
                words = ["serve", "example.com.", f"--zone={zone}", "--tcp=127.0.0.1:{port}", "--limit=0", f"--connections={2 * IDLE}", "--workers=1"]
                servers[Path(program).name] = Running([program, *words])
            print(f"{time.strftime('%Y-%m-%d')}: {os.cpu_count()} processors; one worker each, {seconds:g} s a figure in {TURNS} turns")
            queries(servers, load, seconds, names)
            idle(servers, load)
        finally:
            for server in servers.values():
                server.let_go()


if __name__ == "__main__":
    main()
