#!/usr/bin/env python3
"""Counts what it costs to settle a message, by crates/dns_bench: user instructions for each kind of message on zones of few and
of many names, instructions for a line of zone text, and memory for a name.

The program is run with two numbers of turns over a list of messages of one kind, and the difference is divided by the messages
between them, so that reading the zone is not in it. Instructions are counted by `perf stat`, or by `valgrind --tool=cachegrind`
where there is no such counter; where there is neither, that is said and nothing is counted. Memory is the greatest resident
memory that the operating system tells of a run.

    bench/settle.py [NAMES ..]      zones of so many names each, 7, 50,000 and 500,000 where none are said

Uses the standard library alone, and no network. As many runs go side by side as there are processors. With half a million names
and cachegrind it takes some minutes.
"""

import os
import re
import shutil
import subprocess
import sys
import tempfile
from concurrent.futures import ThreadPoolExecutor

TOP = os.path.dirname(os.path.dirname(os.path.abspath(__file__)))
CRATE = os.path.join(TOP, "crates", "dns_bench")
PROGRAM = os.path.join(CRATE, "out", "dns_bench")
SIZES = (7, 50_000, 500_000)  # names
ASKED = 100  # names that are asked in one turn, all over the zone
TURNS = (20, 120)
UPDATE_TURNS = (5, 25)
BOUND = 1800  # seconds
ORIGIN = "z."
A, SOA, TXT, ANY, OPT = 1, 6, 16, 255, 41
IN, NONE = 1, 254

# Seven names. The others are hN.z., in hexadecimal digits.
FIRST_LINES = """z. 60 IN SOA ns.z. admin.z. 7 60 60 60 60
z. 60 IN NS ns.z.
ns.z. 60 IN A 10.0.0.1
alias.z. 60 IN CNAME h0.z.
*.wild.z. 60 IN TXT "w"
sub.z. 60 IN NS ns.sub.z.
many.z. 60 IN A 10.0.0.2
many.z. 60 IN TXT "m"
many.z. 60 IN MX 1 ns.z.
h0.z. 60 IN A 10.0.0.3
"""
FIRST_NAMES = 7


def hosts_of(names):
    return names - FIRST_NAMES + 1


def write_zone(path, names):
    """Writes a zone of so many names, and gives how many lines it has."""
    with open(path, "w", encoding="ascii") as text:
        text.write(FIRST_LINES)
        for number in range(1, hosts_of(names)):
            text.write(f"h{number:x}.z. 60 IN A 10.{number >> 16}.{number >> 8 & 255}.{number & 255}\n")
    return FIRST_LINES.count("\n") + hosts_of(names) - 1


def wire(name):
    """A name in a message (RFC 1035 3.1)."""
    return b"".join(bytes([len(label)]) + label.encode() for label in name.split(".") if label) + b"\0"


def u16(number):
    return number.to_bytes(2, "big")


def header(number, flags, *counts):
    return b"".join(u16(one) for one in (number, flags, *counts))


def query(number, name, rtype, extra=b""):
    return header(number, 0x0100, 1, 0, 0, 1 if extra else 0) + wire(name) + u16(rtype) + u16(IN) + extra


def opt(payload=1232):
    return b"\0" + u16(OPT) + u16(payload) + bytes(6)


def update(number, name, rclass, ttl, address):
    """An update that adds an address, or deletes it (RFC 2136 2.5.1, 2.5.4)."""
    record = wire(name) + u16(A) + u16(rclass) + ttl.to_bytes(4, "big") + u16(4) + address
    return header(number, 0x2800, 1, 0, 1, 0) + wire(ORIGIN) + u16(SOA) + u16(IN) + record


def spread(names):
    """Numbers of names that are all over the zone."""
    hosts = hosts_of(names)
    return [step * hosts // ASKED for step in range(ASKED)]


def kinds(names):
    """Each kind of message, with a list of them."""
    numbers = spread(names)
    yield "hit", [query(n % 65536, f"h{n:x}.z.", A) for n in numbers]
    yield "alias", [query(n, "alias.z.", A) for n in range(ASKED)]
    yield "referral", [query(n, f"x{n:x}.sub.z.", A) for n in range(ASKED)]
    yield "wildcard", [query(n, f"x{n:x}.wild.z.", TXT) for n in range(ASKED)]
    yield "no such name, two labels below", [query(n % 65536, f"x.h{n:x}g.z.", A) for n in numbers]
    yield "ANY of three types", [query(n, "many.z.", ANY) for n in range(ASKED)]
    yield "hit, with OPT", [query(n % 65536, f"h{n:x}.z.", A, opt()) for n in numbers]
    address = bytes([10, 0, 0, 9])
    yield "update", [update(1, "u.z.", IN, 60, address), update(2, "u.z.", NONE, 0, address)]


def counts_instructions():
    """Whether `perf stat` counts instructions here."""
    if not shutil.which("perf"):
        return False
    run = subprocess.run(["perf", "stat", "-x,", "-e", "instructions:u", "true"], capture_output=True, text=True, check=False)
    return run.returncode == 0 and run.stderr.split(",")[0].isdigit()


def counter():
    """What counts the instructions of a command: a function of the command, its input and a folder; none where nothing does."""
    if counts_instructions():
        return by_perf
    return by_cachegrind if shutil.which("valgrind") else None


def run_bounded(command, text):
    return subprocess.run(command, input=text, capture_output=True, timeout=BOUND, check=True)


def by_perf(command, text, folder):
    run = run_bounded(["perf", "stat", "-x,", "-e", "instructions:u", *command], text)
    return int(run.stderr.split(b",")[0])


def by_cachegrind(command, text, folder):
    handle, path = tempfile.mkstemp(dir=folder)
    os.close(handle)
    run_bounded(["valgrind", "--tool=cachegrind", "--cache-sim=no", f"--cachegrind-out-file={path}", *command], text)
    with open(path, encoding="ascii") as counts:
        return int(re.search(r"^summary: (\d+)", counts.read(), re.M).group(1))


def command_of(zone, *turns):
    return [PROGRAM, ORIGIN, zone, *(str(one) for one in turns)]


def instructions_each(count, zone, messages, turns, folder):
    """Instructions for one of these messages."""
    text = "".join(one.hex() + "\n" for one in messages).encode()
    few, many = (count(command_of(zone, one), text, folder) for one in turns)
    return (many - few) / ((turns[1] - turns[0]) * len(messages))


def resident(command):
    """The greatest resident memory of a run, in bytes."""
    child = subprocess.Popen(command, stdin=subprocess.DEVNULL, stdout=subprocess.DEVNULL)
    _, status, usage = os.wait4(child.pid, 0)
    child.returncode = os.waitstatus_to_exitcode(status)
    if child.returncode != 0:
        sys.exit(f"{command}: status {child.returncode}")
    return usage.ru_maxrss * 1024


def report_kinds(pool, count, zones, folder):
    for names, zone, _lines in zones:
        rows = []
        for title, messages in kinds(names):
            turns = UPDATE_TURNS if title == "update" else TURNS
            rows.append((title, pool.submit(instructions_each, count, zone, messages, turns, folder)))
        for title, used in rows:
            print(f"{names:,} names, {title}: {used.result():,.0f} instructions a message", flush=True)


def report_lines(pool, count, zones, folder):
    """Instructions for a line of zone text, by the two greatest zones: reading it, and beginning a journal with it too."""
    (_, few_zone, few), (_, many_zone, many) = zones[-2:]
    for title, turns in (("to read", ()), ("to read and to begin a journal with", (0,))):
        counts = [pool.submit(count, command_of(zone, *turns), b"", folder) for zone in (few_zone, many_zone)]
        used = (counts[1].result() - counts[0].result()) / (many - few)
        print(f"a line of zone text {title}: {used:,.0f} instructions", flush=True)


def report_memory(zones):
    (few, few_zone, _), (many, many_zone, _) = zones[-2:]
    for title, turns in (("of a zone", ()), ("of a zone and its journal in memory", (0,))):
        used = (resident(command_of(many_zone, *turns)) - resident(command_of(few_zone, *turns))) / (many - few)
        print(f"a name {title}, its text with it: {used:,.0f} bytes resident at most", flush=True)


def main():
    sizes = [int(word) for word in sys.argv[1:]] or SIZES
    if len(sizes) < 2 or any(one < FIRST_NAMES for one in sizes) or list(sizes) != sorted(set(sizes)):
        sys.exit(f"two or more numbers of names, each greater than the one before, from {FIRST_NAMES} on")
    # The program is proved and built where that is needed.
    words = ["example.com.", os.path.join(CRATE, "data", "zone.txt")]
    if subprocess.run(["rt", "run", "--", *words], cwd=CRATE, stdin=subprocess.DEVNULL, capture_output=True, check=False).returncode != 0:
        sys.exit("the program was not built: rt run in crates/dns_bench tells why")
    with tempfile.TemporaryDirectory() as folder, ThreadPoolExecutor(os.cpu_count()) as pool:
        zones = []
        for names in sizes:
            zone = os.path.join(folder, f"zone{names}")
            zones.append((names, zone, write_zone(zone, names)))
        report_memory(zones)
        count = counter()
        if count is None:
            print("neither perf with a counter nor valgrind is there: no instructions are counted")
            return
        report_lines(pool, count, zones, folder)
        report_kinds(pool, count, zones, folder)


if __name__ == "__main__":
    main()
