#!/usr/bin/env python3
"""Measures the built program beside NSD, Knot DNS and BIND, each where it is installed, in one run on loopback: replies a second and processor
time a reply, over UDP and over one connection with many queries under way, on zones of few and of many names; how long it takes from the start
to the first answer, and with how much memory; and updates a second, each acknowledged before the next, beside a bare sync of the disk.

Each server has one worker, on the first processor; the load has the others. They are started and measured by turns, in another order each time, and
the sums of the turns are told: what a machine gives differs from minute to minute. So compare within a run, and processor time rather than
replies, which a load may not fill. A server that is not installed is passed over, with a line; so are updates to NSD, which takes none. It says
which machine, which date and which versions.

  peers.py [SECONDS]  so long for each figure, or 3

Needs a C compiler (cc), for load.c. Uses loopback alone, and ends each server that it starts by its own number.
"""

import functools
import os
import platform
import random
import re
import shutil
import socket
import subprocess
import sys
import tempfile
import time
from pathlib import Path

TOP = Path(__file__).resolve().parent.parent
sys.path.insert(0, str(TOP / "checks"))
import clients
import wire

ZONES = (7, 50_000)  # names
WAYS = ("udp", "tcp")
WINDOW = 64  # queries under way
TURNS = 5
UPDATES = 500  # in a turn
BOUND = 60  # seconds for a start
TICKS = os.sysconf("SC_CLK_TCK")
GLUE = "ns.sub.example.com. 3600 IN A 192.0.2.54\n"  # which BIND wants of each zone

NSD = """server:
    server-count: 1
    ip-address: 127.0.0.1@{port}
    do-ip6: no
    username: ""
    zonesdir: "{home}"
    database: ""
    pidfile: "{home}/nsd.pid"
    xfrdfile: "{home}/xfrd.state"
    xfrdir: "{home}"
    zonelistfile: "{home}/zone.list"
    logfile: "{home}/nsd.log"
    rrl-ratelimit: 0
    rrl-whitelist-ratelimit: 0
remote-control:
    control-enable: no
zone:
    name: "example.com"
    zonefile: "{zone}"
"""
KNOT = """server:
    rundir: "{home}"
    listen: 127.0.0.1@{port}
    udp-workers: 1
    tcp-workers: 1
    background-workers: 1
log:
  - target: stderr
    any: warning
database:
    storage: "{home}"
acl:
  - id: update
    address: 127.0.0.1
    action: update
zone:
  - domain: example.com
    file: "{zone}"
    zonefile-sync: -1
    journal-content: changes
    acl: update
"""
BIND = """options {{
    directory "{home}";
    pid-file "{home}/named.pid";
    session-keyfile "{home}/session.key";
    listen-on port {port} {{ 127.0.0.1; }};
    listen-on-v6 {{ none; }};
    recursion no;
    dnssec-validation no;
    notify no;
    allow-query {{ any; }};
}};
controls {{ }};
logging {{ channel quiet {{ null; }}; category default {{ quiet; }}; }};
zone "example.com" {{ type primary; file "{zone}"; allow-update {{ 127.0.0.0/8; }}; }};
"""


class Peer:
    """A kind of server: how it is started, what its configuration is, how it tells its version, and whether it takes updates."""

    def __init__(self, name, program, words, configuration=None, version=None, updates=True, tunables=None):
        self.name, self.words, self.configuration, self.updates = name, words, configuration, updates
        self.environment = os.environ | ({"GLIBC_TUNABLES": tunables} if tunables else {})
        self.program = shutil.which(program, path=os.environ["PATH"] + ":/usr/sbin:/usr/local/sbin:/sbin")
        self.version = version

    def told(self):
        """What it says of its version, in its first line."""
        ran = subprocess.run([self.program, *self.version], stdout=subprocess.PIPE, stderr=subprocess.STDOUT, text=True, check=False)
        return (ran.stdout.splitlines() or ["?"])[0]


PEERS = [
    Peer("this program", str(clients.PROGRAM), ["serve", "example.com.", "--zone={zone}", "--journal={home}/journal", "--update", "--workers=1",
                                                "--udp=127.0.0.1:{port}", "--tcp=127.0.0.1:{port}"],
         version=["--version"], tunables="glibc.malloc.hugetlb=1"),  # as the command dns at the top has it
    Peer("NSD", "nsd", ["-d", "-c", "{home}/conf"], NSD, ["-v"], updates=False),
    Peer("Knot DNS", "knotd", ["-c", "{home}/conf"], KNOT, ["-V"]),
    Peer("BIND", "named", ["-f", "-n", "1", "-c", "{home}/conf"], BIND, ["-v"]),
]


def descendants(pid):
    """A process and those below it."""
    pids = [pid]
    for one in pids:
        try:
            for task in Path(f"/proc/{one}/task").iterdir():
                pids += map(int, (task / "children").read_text().split())
        except OSError:
            pass
    return pids


def stat_of(pid):
    try:
        return Path(f"/proc/{pid}/stat").read_text().rsplit(")", 1)[1].split()
    except OSError:
        return None


class Running:
    """One server on one zone, on the first processor, until it is let go."""

    def __init__(self, peer, zone, folder):
        self.port = clients.free_port()
        self.home = Path(tempfile.mkdtemp(dir=folder))
        own = self.home / "zone"  # a server may write beside its zone
        shutil.copy(zone, own)
        named = {"home": self.home, "port": self.port, "zone": own}
        if peer.configuration:
            (self.home / "conf").write_text(peer.configuration.format(**named))
        self.log = open(self.home / "log", "wb")
        begin = time.perf_counter()
        self.run = subprocess.Popen([peer.program, *(word.format(**named) for word in peer.words)], stdin=subprocess.PIPE, stdout=self.log, stderr=self.log,
                                    cwd=self.home, env=peer.environment, preexec_fn=lambda: os.sched_setaffinity(0, {0}))
        self.await_answer(peer)
        self.start = time.perf_counter() - begin

    def await_answer(self, peer):
        end = time.monotonic() + BOUND
        query = wire.query("www.example.com.", "A")
        while time.monotonic() < end and self.run.poll() is None:
            with socket.socket(type=socket.SOCK_DGRAM) as datagrams:
                datagrams.settimeout(0.05)
                datagrams.connect(("127.0.0.1", self.port))
                try:
                    datagrams.send(query)
                    reply = datagrams.recv(65_535)
                    if reply[3] & 15 == 0 and reply[7]:
                        return
                except OSError:
                    time.sleep(0.001)
        said = "".join(file.read_text(errors="replace")[-500:] for file in sorted(self.home.glob("*log")))
        self.let_go()
        sys.exit(f"peers: {peer.name} does not serve: {said}")

    def processor(self):
        """The processor time of it and what it started so far, in seconds."""
        stats = filter(None, map(stat_of, descendants(self.run.pid)))
        return sum(int(stat[11]) + int(stat[12]) for stat in stats) / TICKS

    def memory(self):
        """Its memory in MB, with what it shares counted once."""
        total = 0
        for pid in descendants(self.run.pid):
            try:
                total += int(re.search(r"^Pss:\s+(\d+)", Path(f"/proc/{pid}/smaps_rollup").read_text(), re.M)[1])
            except (OSError, TypeError):
                pass
        return total / 1024

    def let_go(self):
        pids = descendants(self.run.pid)
        self.run.stdin.close()
        self.run.terminate()
        try:
            self.run.wait(10)
        except subprocess.TimeoutExpired:
            self.run.kill()
            self.run.wait()
        for pid in pids[1:]:
            try:
                os.kill(pid, 9)
            except OSError:
                pass
        self.log.close()
        shutil.rmtree(self.home, ignore_errors=True)


def zone_of(count, folder):
    """A zone of so many names, and a file with the names that are asked for."""
    zone, names = Path(folder, f"zone{count}"), Path(folder, f"names{count}")
    hosts = ["www"] if count == 7 else [f"h{place}" for place in range(count)]
    text = clients.ZONE + GLUE
    if count != 7:
        text += "".join(f"{host}.example.com. 60 IN A 10.0.0.1\n" for host in hosts)
    zone.write_text(text)
    names.write_text("".join(f"{hosts[place * 7919 % len(hosts)]}.example.com\n" for place in range(len(hosts))))
    return zone, names


def loaded(load, server, way, seconds, names):
    """Replies, seconds, and processor time of the server, for one turn."""
    others = set(range(os.cpu_count())) - {0} or {0}
    before = server.processor()
    ran = subprocess.run([load, way, str(server.port), str(seconds), str(WINDOW), names], stdout=subprocess.PIPE, text=True, check=True,
                         preexec_fn=lambda: os.sched_setaffinity(0, others))
    replies, passed, _lost = ran.stdout.split()
    return int(replies), float(passed), server.processor() - before


def updated(server, turn):
    """Updates that were acknowledged one after another, a hundred over a connection, and the seconds."""
    begin, done = time.perf_counter(), 0
    connected = functools.partial(socket.create_connection, ("127.0.0.1", server.port), clients.BOUND)
    for reply in clients.in_turn(connected, (clients.added(turn * UPDATES + place) for place in range(UPDATES))):
        if reply[3] & 15:
            sys.exit(f"peers: an update is refused: {reply[3] & 15}")
        done += 1
    if done != UPDATES:
        sys.exit(f"peers: a connection ended behind {done} updates")
    return UPDATES, time.perf_counter() - begin


def synced(folder):
    """Small records that were made durable one after another, and the seconds: what the disk itself allows."""
    with open(Path(folder, "bare"), "ab", buffering=0) as file:
        begin = time.perf_counter()
        for _ in range(UPDATES):
            file.write(bytes(100))
            os.fdatasync(file.fileno())
        return UPDATES, time.perf_counter() - begin


def queries(peers, load, seconds, folder):
    for count in ZONES:
        zone, names = zone_of(count, folder)
        sums = {(peer.name, way): [0, 0.0, 0.0] for peer in peers for way in WAYS}
        starts = {peer.name: [] for peer in peers}
        for _ in range(TURNS):
            for peer in random.sample(peers, len(peers)):
                server = Running(peer, zone, folder)
                try:
                    for way in WAYS:
                        got = loaded(load, server, way, seconds / TURNS, names)
                        sums[peer.name, way] = [one + more for one, more in zip(sums[peer.name, way], got)]
                    starts[peer.name].append((server.start, server.memory()))
                finally:
                    server.let_go()
        print(f"\n| {count:,} names | replies a second, UDP | us a reply | replies a second, TCP | us a reply | first answer after, ms | memory, MB |")
        print("|---|---|---|---|---|---|---|")
        for peer in peers:
            cells = []
            for way in WAYS:
                replies, passed, spent = sums[peer.name, way]
                cells += [f"{replies / passed:,.0f}", f"{spent * 1e6 / max(replies, 1):.2f}"]
            start, memory = (sorted(values)[len(values) // 2] for values in zip(*starts[peer.name]))
            print(f"| {peer.name} | {' | '.join(cells)} | {start * 1000:,.0f} | {memory:,.0f} |", flush=True)


def updates(peers, folder):
    peers = [peer for peer in peers if peer.updates]
    zone, _ = zone_of(ZONES[0], folder)
    servers = {peer.name: Running(peer, zone, folder) for peer in peers}
    sums = {name: [0, 0.0] for name in [*servers, "fdatasync alone"]}
    try:
        for turn in range(TURNS):
            for name in random.sample(list(sums), len(sums)):
                got = updated(servers[name], turn) if name in servers else synced(folder)
                sums[name] = [one + more for one, more in zip(sums[name], got)]
    finally:
        for server in servers.values():
            server.let_go()
    print(f"\n| updates on {ZONES[0]} names | a second |\n|---|---|")
    for name, (count, passed) in sums.items():
        print(f"| {name} | {count / passed:,.0f} |", flush=True)


def machine():
    """The processors and the system."""
    try:
        found = re.search(r"model name\s*:\s*(.*)", Path("/proc/cpuinfo").read_text())
    except OSError:
        found = None
    return f"{os.cpu_count()} processors, {found[1] if found else platform.machine()}, {platform.system()} {platform.release()}"


def main():
    seconds = float(sys.argv[1]) if len(sys.argv) > 1 else 3
    compiler = shutil.which("cc")
    if compiler is None:
        sys.exit("peers: no C compiler")
    for peer in PEERS:
        if peer.program is None:
            print(f"peers: {peer.name} is not {'built' if peer is PEERS[0] else 'installed'}, passed over")
    peers = [peer for peer in PEERS if peer.program]
    print(f"{time.strftime('%Y-%m-%d')}: {machine()}; one worker each, {seconds:g} s a figure in {TURNS} turns")
    for peer in peers:
        print(f"- {peer.name}: {peer.told()}")
    with tempfile.TemporaryDirectory() as folder:
        os.chmod(folder, 0o755)
        load = str(Path(folder, "load"))
        subprocess.run([compiler, "-O2", "-o", load, TOP / "bench" / "load.c"], check=True)
        queries(peers, load, seconds, folder)
        updates(peers, folder)


if __name__ == "__main__":
    main()
