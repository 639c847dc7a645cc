#!/usr/bin/env python3
"""Times the built program as it serves on loopback, beside a bare echo in C on the same machine (load.c): replies a second and processor
time a reply, over UDP and over one connection with many queries under way, on zones of few and of many names; how long it takes from the
start to the first answer; what a second worker adds, and what many connections at once get; and updates a second on a journal in a file,
beside SQLite alone doing the same inserts.

What such a machine gives differs from minute to minute, so what is compared is measured in turns: the program for a moment, then the echo
(or one worker, then two), and again, and the sums of these are told.

  serve.py [SECONDS]  so long for each figure, or 3

Needs a C compiler (cc). Uses loopback alone.
"""

import os
import shutil
import socket
import sqlite3
import subprocess
import sys
import tempfile
import time
from pathlib import Path

TOP = Path(__file__).resolve().parent.parent
sys.path.insert(0, str(TOP / "checks"))
import clients
import wire

ZONES = (7, 50_000, 500_000)  # names
WINDOW = {"udp": 64, "tcp": 64}
WINDOWS = (1, 8, 64)  # queries under way on each of two connections
CROWDS = (1, 4, 8, 16)  # connections at once, of as many workers as the last of these
UPDATES = 2_000
TURNS = 10  # in which what is compared takes turns
UPDATE_TURNS = 3  # of which the fastest counts
TICKS = os.sysconf("SC_CLK_TCK")
os.environ["GLIBC_TUNABLES"] = "glibc.malloc.hugetlb=1"  # as the command dns at the top has it


def processor(run):
    """The processor time of a process and its children so far, in seconds: of all, and in user mode alone."""
    pids = [run.pid, *(int(pid) for pid in Path(f"/proc/{run.pid}/task/{run.pid}/children").read_text().split())]
    times = [Path(f"/proc/{pid}/stat").read_text().rsplit(")", 1)[1].split()[11:13] for pid in pids]
    return sum(int(user) + int(system) for user, system in times) / TICKS, sum(int(user) for user, _ in times) / TICKS


def measured(load, run, port, way, seconds, names):
    """The replies in about so many seconds, these seconds, the processor time, that in user mode, and how many datagrams were lost."""
    begin = processor(run)
    out = subprocess.run([load, way, str(port), str(seconds), str(WINDOW[way]), names], stdout=subprocess.PIPE, text=True, check=True)
    end = processor(run)
    replies, passed, lost = out.stdout.split()
    return int(replies), float(passed), end[0] - begin[0], end[1] - begin[1], int(lost)


def in_turns(measures, turns=TURNS):
    """What each of these measures gives in all, where they take turns."""
    sums = [None] * len(measures)
    for _ in range(turns):
        for place, measure in enumerate(measures):
            got = measure(turns)
            sums[place] = got if sums[place] is None else tuple(map(sum, zip(sums[place], got)))
    return sums


def figures_of(sums):
    """Replies a second, microseconds of processor time a reply, of all and in user mode, and how many datagrams were lost."""
    replies, passed, spent, user, lost = sums
    return replies / passed, spent * 1e6 / replies, user * 1e6 / replies, lost


def line(title, figures, echo=None):
    rate, spent, user, lost = figures
    part = f", {100 * rate / echo[0]:.0f} % of the echo" if echo else ""
    print(f"{title:<28}{rate:>10,.0f} a second{spent:>8.2f} us a reply, {user:.2f} of them in user mode{part}"
          + (f", {lost} lost" if lost else ""), flush=True)


def zone_of(count, folder):
    """A zone of so many names, and a file of names in it."""
    zone, names = Path(folder, f"zone{count}"), Path(folder, f"names{count}")
    hosts = ["www"] if count == 7 else [f"h{place}" for place in range(count)]
    text = clients.ZONE if count == 7 else clients.ZONE + "$ORIGIN example.com.\n" + "".join(f"{host} 60 IN A 10.0.0.1\n" for host in hosts)
    zone.write_text(text)
    names.write_text("".join(f"{hosts[place * 7919 % len(hosts)]}.example.com\n" for place in range(len(hosts))))
    return zone, names


def serving(load, seconds, folder):
    port = clients.free_port()
    echo = subprocess.Popen([load, "echo", str(port)])
    time.sleep(0.3)
    for count in ZONES:
        zone, names = zone_of(count, folder)
        begin = time.perf_counter()
        with clients.Serving(zone=zone, workers=1) as server:
            print(f"{count} names: {1000 * (time.perf_counter() - begin):,.0f} ms from the start to the first answer, {server.resident():,} KiB")
            for way in WINDOW:
                bare, ours = map(figures_of, in_turns([
                    lambda turns: measured(load, echo, port, way, seconds / turns, names),
                    lambda turns: measured(load, server.run, server.port, way, seconds / turns, names),
                ]))
                line(f"echo in C, {way}", bare)
                line(f"{count} names, {way}", ours, bare)
    for pid in Path(f"/proc/{echo.pid}/task/{echo.pid}/children").read_text().split():
        os.kill(int(pid), 9)
    echo.kill()
    echo.wait()


def replies_of(load, port, seconds, names, connections, window):
    """The replies a second over so many connections at once, with so many queries under way on each."""
    command = [load, "tcp", str(port), str(seconds), str(window), names]
    runs = [subprocess.Popen(command, stdout=subprocess.PIPE, text=True) for _ in range(connections)]
    outs = [run.communicate()[0].split() for run in runs]
    return (sum(int(replies) / float(passed) for replies, passed, _lost in outs),)


def second_worker(load, seconds, folder):
    """What a second worker adds: two connections, which come to either worker, beside one."""
    zone, names = zone_of(ZONES[0], folder)
    with clients.Serving(zone=zone, workers=2) as server:
        for window in WINDOWS:
            (one,), (two,) = in_turns([
                lambda turns: replies_of(load, server.port, seconds / turns, names, 1, window),
                lambda turns: replies_of(load, server.port, seconds / turns, names, 2, window),
            ])
            print(f"{ZONES[0]} names, tcp, two workers, {window} under way: {two / TURNS:,.0f} a second; the second adds {two / one - 1:.2f} of the "
                  f"first's {one / TURNS:,.0f}", flush=True)


def crowds(load, seconds, folder):
    """Replies a second over many connections at once, with a worker for each, though several may come to one."""
    zone, names = zone_of(ZONES[0], folder)
    with clients.Serving(zone=zone, workers=max(CROWDS)) as server:
        for window in WINDOWS:
            sums = in_turns([lambda turns, count=count: replies_of(load, server.port, seconds / turns, names, count, window) for count in CROWDS])
            rates = ", ".join(f"{rate / TURNS:,.0f} over {count}" for count, (rate,) in zip(CROWDS, sums))
            print(f"{ZONES[0]} names, tcp, {window} under way on each connection: {rates}", flush=True)


def updated(folder, turn):
    """Updates a second, each acknowledged before the next, a hundred over a connection."""
    zone, _ = zone_of(ZONES[0], folder)
    with clients.Serving("--update", zone=zone, journal=Path(folder, f"journal{turn}"), workers=1) as server:
        begin, done = time.perf_counter(), 0
        for reply in clients.in_turn(server.connected, map(clients.added, range(UPDATES))):
            if reply[3] & 15:
                sys.exit("an update is refused")
            done += 1
        if done != UPDATES:
            sys.exit(f"the connection was ended: an update took longer than its limit of {clients.LIMIT} ms")
        return UPDATES / (time.perf_counter() - begin)


def inserted(folder, turn):
    """The same inserts by SQLite alone, one a transaction."""
    database = sqlite3.connect(Path(folder, f"bare{turn}"), isolation_level=None)
    database.execute("PRAGMA journal_mode = WAL")
    database.execute("PRAGMA synchronous = FULL")
    database.execute("CREATE TABLE records (id INTEGER PRIMARY KEY, client_id, soa_serial, timestamp, record)")
    begin = time.perf_counter()
    for place in range(UPDATES):
        record = wire.record_bytes(f"k{place}.example.com. 60 IN A 10.0.0.1")
        database.execute("BEGIN")
        database.execute("INSERT INTO records VALUES (?, 1, ?, ?, ?)", (place + 1, place, "2026-01-01 00:00:00.000", record))
        database.execute("COMMIT")
    return UPDATES / (time.perf_counter() - begin)


def main():
    seconds = float(sys.argv[1]) if len(sys.argv) > 1 else 3
    compiler = shutil.which("cc")
    if compiler is None:
        sys.exit("serve: no C compiler")
    with tempfile.TemporaryDirectory() as folder:
        load = str(Path(folder, "load"))
        subprocess.run([compiler, "-O2", "-o", load, TOP / "bench" / "load.c"], check=True)
        serving(load, seconds, folder)
        second_worker(load, seconds, folder)
        crowds(load, seconds, folder)
        ours, bare = map(max, zip(*((updated(folder, turn), inserted(folder, turn)) for turn in range(UPDATE_TURNS))))
        print(f"updates on a journal in a file: {ours:,.0f} a second, {100 * ours / bare:.0f} % of SQLite's own {bare:,.0f}")


if __name__ == "__main__":
    main()
