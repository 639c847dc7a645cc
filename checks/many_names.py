#!/usr/bin/env python3
"""Runs the built program on a zone of 50,000 names, with a query for each of them and for names that are not there, and tries
each reply against a plain table of names.

The names stand at one to three labels below the origin, in no order; some begin with others, and some exist only by a name
below them. Uses the standard library alone, and no network. The run of the program is bounded in time.
"""

import random
import subprocess
import sys
import tempfile
from pathlib import Path

import wire

TOP = Path(__file__).resolve().parent.parent
PROGRAM = TOP / "crates" / "dns_program" / "out" / "dns_program"
NAMES = 50_000
ABSENT = 4_000
BOUND = 60  # seconds
ORIGIN = "example.com."
SOA = f"{ORIGIN} 3600 IN SOA ns.example.com. admin.example.com. 7 3600 600 86400 300"
NEGATIVE = SOA.replace(" 3600 IN", " 300 IN")


def name_of(number):
    """The name of a number: each is another's, and many begin with the bytes of others."""
    front = "n" + format(number // 3, "x")
    return f"{front}.{(ORIGIN, f'g{number % 97}.{ORIGIN}', f'b.g{number % 89}.{ORIGIN}')[number % 3]}"


def address_of(number):
    return f"10.{number >> 16}.{number >> 8 & 255}.{number & 255}"


def names_above(name):
    """The names above one, down from it to the origin."""
    while name != ORIGIN:
        name = name.partition(".")[2]
        yield name


def due(name, table, there):
    """The reply to a query for the address of a name."""
    asked = name.rstrip(".")
    if name in table:
        return wire.reply(asked, "A", ["NOERROR", "aa"], [f"{name} 3600 IN A {table[name]}"], [])
    return wire.reply(asked, "A", ["NOERROR" if name in there else "NXDOMAIN", "aa"], [], [NEGATIVE])


def main():
    if not PROGRAM.exists():
        sys.exit("many_names.py: the program is not built: run rt ci first")
    chance = random.Random(1035)
    table = {name_of(number): address_of(number) for number in range(NAMES)}
    there = {ORIGIN}.union(*(names_above(name) for name in table))
    absent = [f"{name_of(chance.randrange(NAMES)).replace('n', 'm', 1)}" for _ in range(ABSENT)]
    records = [f"{name} 3600 IN A {address}" for name, address in table.items()]
    asked = list(table) + sorted(there) + absent
    chance.shuffle(records)
    chance.shuffle(asked)
    zone = "\n".join([SOA, *records, ""])
    events = "".join(f"D 0 7f000001 5300 {wire.query(name.rstrip('.'), 'A').hex()}\n" for name in asked)
    with tempfile.NamedTemporaryFile("w", suffix=".zone", encoding="ascii") as file:
        file.write(zone)
        file.flush()
        command = [PROGRAM, "events", ORIGIN, f"--zone={file.name}"]
        run = subprocess.run(command, input=events.encode(), stdout=subprocess.PIPE, timeout=BOUND)
    lines = [f"P 7f000001 5300 {due(name, table, there).hex()}" for name in asked]
    lines += ["serial 7", f"journal_len {NAMES + 2}", "open 0", ""]
    written = run.stdout.decode().split("\n")
    wrong = [number for number, (got, line) in enumerate(zip(written, lines)) if got != line]
    if run.returncode != 0 or len(written) != len(lines) or wrong:
        print(f"many names: status {run.returncode}, {len(written)} lines where {len(lines)} are due")
        for number in wrong[:5]:
            print(f"due: {lines[number]}\ngot: {written[number]}")
        sys.exit(1)
    print(f"many names: {len(asked):,} queries to a zone of {len(table):,} names passed")


if __name__ == "__main__":
    main()
