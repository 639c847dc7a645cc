#!/usr/bin/env python3
"""Times the auditor on the journal of a large zone, and tells its memory, beside the server's start on the same journal: `zone` at full length,
`list`, and `compact` into a new file. The text has to have a line for each record, and the server to go on with the new file.

  audit.py [COUNT [FOLDER]]  that many names, or 500,000; the files stand in a folder of this one, or of the system's

Uses the standard library, and loopback alone. Each run of a program is bounded in time.
"""

import os
import signal
import subprocess
import sys
import tempfile
import time
from pathlib import Path

TOP = Path(__file__).resolve().parent.parent
sys.path.insert(0, str(TOP / "checks"))
import clients
import kit

os.environ["GLIBC_TUNABLES"] = "glibc.malloc.hugetlb=1"  # as the commands at the top have it
PROGRAM = kit.called("dns-audit")
COUNT = 500_000
TURNS = 3  # of which the fastest counts
BOUND = 120  # seconds


def zone_of(count, folder):
    """A zone of so many names."""
    zone = Path(folder, "zone")
    hosts = "".join(f"h{place} 60 IN A 10.{place >> 16}.{place >> 8 & 255}.{place & 255}\n" for place in range(count))
    zone.write_text(f"{clients.SOA}\nexample.com. 3600 IN NS ns.example.com.\n$ORIGIN example.com.\n{hosts}", encoding="ascii")
    return zone


def ended(pid):
    """How a program ended, and how much memory it had at most, in KiB."""
    _, status, usage = os.wait4(pid, 0)
    return os.waitstatus_to_exitcode(status), usage.ru_maxrss


def served(journal, zone=None):
    """Seconds from the server's start to its first answer, and its memory."""
    begin = time.perf_counter()
    with clients.Serving(journal=journal, zone=zone) as server:
        seconds = time.perf_counter() - begin
        server.run.stdin.close()
        server.run.returncode, memory = ended(server.run.pid)
    return seconds, memory


def audited(told, *words):
    """Seconds that an audit takes, and its memory; its output goes to a file."""
    signal.alarm(BOUND)
    with open(told, "wb") as output:
        begin = time.perf_counter()
        run = subprocess.Popen([PROGRAM, *words], stdin=subprocess.DEVNULL, stdout=output)
        status, memory = ended(run.pid)
        seconds = time.perf_counter() - begin
    signal.alarm(0)
    run.returncode = status
    if status:
        sys.exit(f"audit: {words} ends with status {status}")
    return seconds, memory


def lines_in(told):
    with open(told, "rb") as text:
        return sum(1 for _ in text)


def line(title, runs, beside=None):
    """The fastest of the runs, and their greatest memory."""
    seconds, memory = min(runs)[0], max(run[1] for run in runs)
    part = f": {seconds / beside[0]:.2f} of the time, {memory / beside[1]:.2f} of the memory" if beside else ""
    print(f"{title:<30}{seconds:>8.3f} s{memory / 1024:>8.0f} MB{part}", flush=True)
    return seconds, memory


def measured(count, folder):
    journal, into, told = (Path(folder, name) for name in ("journal", "into", "told"))
    zone, read = zone_of(count, folder), f"--journal={journal}"
    served(journal, zone)
    starts, zones, lists, compacts = [], [], [], []
    for _ in range(TURNS):
        starts.append(served(journal))
        zones.append(audited(told, "zone", "example.com.", str(count + 3), read))
        if lines_in(told) != count + 3:
            sys.exit(f"audit: the zone has {lines_in(told)} lines")
        lists.append(audited(told, "list", "example.com.", read))
        compacts.append(audited(told, "compact", "example.com.", read, f"--into={into}"))
        served(into)
        for file in Path(folder).glob("into*"):
            file.unlink()
    print(f"a journal of {count + 3:,} rows in one batch")
    start = line("the server's first answer", starts)
    for title, runs in (("zone, at full length", zones), ("list", lists), ("compact, into a new file", compacts)):
        line(title, runs, start)


def main():
    count = int(sys.argv[1]) if len(sys.argv) > 1 else COUNT
    with tempfile.TemporaryDirectory(dir=sys.argv[2] if len(sys.argv) > 2 else None) as folder:
        measured(count, folder)


if __name__ == "__main__":
    main()
