"""A server of the built program on loopback, for the scripts that look at what it makes of the system's calls: its ports, the questions
to it, its processor time, what it wrote, and a library in C that refuses it calls (refusing_calls.c).

DNS_PROGRAM in the environment names another program than the built one."""

import mmap
import os
import random
import resource
import select
import shutil
import socket
import struct
import subprocess
import sys
import tempfile
import threading
import time
from concurrent.futures import ThreadPoolExecutor
from pathlib import Path

import wire

TOP = Path(__file__).resolve().parent.parent
PROGRAM = Path(os.environ.get("DNS_PROGRAM", TOP / "crates" / "dns_program" / "out" / "dns_program"))
HOST = f"127.77.{os.getpid() >> 8 & 255}.{os.getpid() & 255 or 1}"  # an address of loopback of this run's own
BOUND = 20  # seconds
ROOM = "/dev/shm" if os.access("/dev/shm", os.W_OK) else None  # where files stand: in memory, where syncing hundreds of journals takes no time
ORIGIN = "example.com."
ZONE = """example.com. 3600 IN SOA ns.example.com. hostmaster.example.com. 7 3600 600 86400 300
example.com. 3600 IN NS ns.example.com.
ns.example.com. 3600 IN A 192.0.2.53
www.example.com. 3600 IN A 192.0.2.1
"""
SECTION = (ORIGIN, "SOA", "IN")
QUERY = wire.query("www.example.com.", "A")
LONG = wire.query("long.example.com.", "TXT")
LONG_ZONE = ZONE + "".join(f'long.example.com. 60 IN TXT "{place:0250}"\n' for place in range(160))  # its answer takes 42 KB
REPLY = wire.reply("www.example.com.", "A", ["NOERROR", "aa"], ["www.example.com. 3600 IN A 192.0.2.1"], [])
MESSAGES = 100  # of a connection
CODE = 0x0F  # the bits of the code in the fourth byte of a message

ports = {"next": random.Random(os.getpid()).randrange(10_000, 24_000)}
ports_lock = threading.Lock()


def free_port(host=HOST):
    """A port that nobody listens at, by UDP and by TCP, that the system gives to no client, and that no other server of this run has."""
    family = socket.AF_INET6 if ":" in host else socket.AF_INET
    while True:
        with ports_lock:
            ports["next"] = port = ports["next"] + 1 if ports["next"] < 32_000 else 10_000
        with socket.socket(family, socket.SOCK_DGRAM) as udp, socket.socket(family) as tcp:
            try:
                udp.bind((host, port))
                tcp.bind((host, port))
            except OSError:
                continue
            return port


def framed(message):
    return wire.number(len(message), 2) + message


def received(stream, size):
    """So many bytes, fewer at the end of the connection."""
    found = b""
    while len(found) < size and (piece := stream.recv(size - len(found))):
        found += piece
    return found


def frame_from(stream):
    """The next whole message of a connection, none at its end."""
    head = received(stream, 2)
    if len(head) < 2:
        return None
    size = int.from_bytes(head, "big")
    message = received(stream, size)
    return message if len(message) == size else None


def is_ended(stream, wait=0.0):
    """Whether the other end closes the connection before so many seconds have passed, whatever comes before."""
    end, coming = time.monotonic() + wait, select.poll()
    coming.register(stream, select.POLLIN)
    while True:
        if not coming.poll(max(0, 1_000 * (end - time.monotonic()))):
            return False
        try:
            if not stream.recv(65_536):
                return True
        except ConnectionError:
            return True


def exchange(stream, message=QUERY, wait=3):
    """The reply to a message over a connection that is kept, none where it ends or nothing comes in time."""
    try:
        stream.settimeout(wait)
        stream.sendall(framed(message))
        return frame_from(stream)
    except OSError:
        return None


class Calls:
    """The page by which refusing_calls.c is told what to refuse, and tells what it did."""

    def __init__(self, folder):
        self.path = Path(folder, "calls")
        self.path.write_bytes(bytes(48))
        with open(self.path, "r+b") as file:
            self.page = mmap.mmap(file.fileno(), 48)

    def number(self, place):
        return struct.unpack_from("q", self.page, 8 * place)[0]

    def put(self, place, number):
        struct.pack_into("q", self.page, 8 * place, number)

    def refuse(self, count, skip=0):
        """Has so many calls refused, all below 0, behind so many that pass."""
        self.put(1, skip)
        self.put(2, count)

    def pass_all(self):
        self.put(2, 0)

    @property
    def made(self):
        return self.number(0)

    @property
    def refused(self):
        return self.number(3)

    def shift(self, seconds):
        """Sets the time of day so many seconds off."""
        self.put(4, seconds)

    def pass_time(self, seconds):
        """Has every clock tell that so many seconds more went by."""
        self.put(5, seconds)


def built(folder):
    """The library that refuses."""
    library = Path(folder, "refusing_calls.so")
    source = TOP / "checks" / "refusing_calls.c"
    subprocess.run(["cc", "-O1", "-fPIC", "-shared", "-o", library, source, "-ldl"], check=True)
    return library


class Server:
    """The program as it serves at a port of its own, by UDP and by TCP where no words of it are given. It is not waited for."""

    def __init__(
        self, *words, zone=ZONE, at=None, host=HOST, folder=None, library=None, call="", error=0, descriptors=None, space=None, given=subprocess.PIPE
    ):
        self.host, self.port = host, free_port(host)
        self.is_own = folder is None
        self.folder = Path(folder or tempfile.mkdtemp(prefix="dns-server-", dir=ROOM))
        zone_file = self.folder / "zone"
        zone_file.write_text(zone)
        place = f"[{host}]:{self.port}" if ":" in host else f"{host}:{self.port}"
        at = at if at is not None else [f"--udp={place}", f"--tcp={place}"]
        environment = {name: value for name, value in os.environ.items() if name not in ("REFUSE_CALL", "REFUSE_ERROR", "CALLS_PAGE")}
        if library:
            self.calls = Calls(self.folder)
            environment |= {"LD_PRELOAD": str(library), "REFUSE_CALL": call, "REFUSE_ERROR": str(error), "CALLS_PAGE": str(self.calls.path)}
        self.command = [str(PROGRAM), "serve", ORIGIN, f"--zone={zone_file}", *[word.replace("PORT", str(self.port)) for word in at], *words]
        self.environment, self.given = environment, given
        self.bounds = [(resource.RLIMIT_NOFILE, descriptors), (resource.RLIMIT_AS, space)]
        self.run = None

    def start(self):
        """Starts it, and does not wait until it serves."""

        def bounded():
            for what, most in self.bounds:
                if most:
                    resource.setrlimit(what, (most, most))

        # No other process may begin while a port is looked for, or it would hold that port for a moment.
        with ports_lock, open(self.folder / "output", "wb") as output, open(self.folder / "error", "wb") as error:
            self.run = subprocess.Popen(self.command, stdin=self.given, stdout=output, stderr=error, env=self.environment, preexec_fn=bounded)
        return self

    def __enter__(self):
        self.start()
        if not self.is_serving(BOUND):
            fault = f"it does not serve: status {self.run.poll()}, {self.written()!r}"
            self.end()
            raise RuntimeError(fault)
        return self

    def __exit__(self, *_):
        self.end()

    def end(self):
        """Ends it in any case, and takes its files away."""
        self.run.kill()
        if self.run.stdin and not self.run.stdin.closed:
            self.run.stdin.close()
        self.run.wait()
        if self.is_own:
            shutil.rmtree(self.folder, ignore_errors=True)

    def is_serving(self, wait):
        """Whether it answers by UDP and by TCP before so many seconds have passed; it is asked until then, or until it has ended."""
        end = time.monotonic() + wait
        while time.monotonic() < end and self.run.poll() is None:
            if self.is_tcp_answering(min(1, wait)) and self.is_udp_answering(min(1, wait)):
                return True
            time.sleep(0.01)
        return False

    def is_udp_answering(self, wait, message=QUERY):
        try:
            return self.asked(message, wait) is not None
        except OSError:
            return False

    def is_tcp_answering(self, wait, message=QUERY):
        try:
            return self.exchanged(message, wait) is not None
        except OSError:
            return False

    def asked(self, message, wait=BOUND):
        """The reply to a datagram, none where none came in time."""
        with socket.socket(socket.AF_INET6 if ":" in self.host else socket.AF_INET, socket.SOCK_DGRAM) as udp:
            udp.settimeout(wait)
            udp.connect((self.host, self.port))
            try:
                udp.send(message)
                return udp.recv(65_535)
            except (TimeoutError, ConnectionRefusedError):
                return None

    def connected(self, wait=BOUND, room=None):
        """A connection, with so little room for what it receives."""
        stream = socket.socket(socket.AF_INET6 if ":" in self.host else socket.AF_INET)
        stream.settimeout(wait)
        if room:
            stream.setsockopt(socket.SOL_SOCKET, socket.SO_RCVBUF, room)
        try:
            stream.setsockopt(socket.IPPROTO_TCP, socket.TCP_NODELAY, 1)
            stream.connect((self.host, self.port))
        except OSError:
            stream.close()
            raise
        return stream

    def exchanged(self, message, wait=BOUND):
        """The reply to a message over a connection of its own, none where none came in time."""
        with self.connected(wait) as stream:
            stream.sendall(framed(message))
            return frame_from(stream)

    def processor(self):
        """The processor time that it took so far, in seconds; none where it has ended."""
        try:
            words = Path(f"/proc/{self.run.pid}/stat").read_text().rsplit(") ", 1)[1].split()
            return (int(words[11]) + int(words[12])) / os.sysconf("SC_CLK_TCK")
        except (OSError, IndexError):
            return None

    def memory(self):
        """How many bytes of memory it has."""
        return int(Path(f"/proc/{self.run.pid}/statm").read_text().split()[1]) * resource.getpagesize()

    def open_files(self):
        """How many descriptors it has."""
        return len(os.listdir(f"/proc/{self.run.pid}/fd"))

    def status(self, wait):
        """Its status, none where it has not ended before so many seconds have passed."""
        try:
            return self.run.wait(wait)
        except subprocess.TimeoutExpired:
            return None

    def stop(self, wait=BOUND):
        """Ends its standard input: its status, none where it goes on."""
        self.run.stdin.close()
        return self.status(wait)

    def written(self, name="output"):
        return (self.folder / name).read_text(errors="replace")

    def told(self):
        """What it wrote on standard error."""
        return self.written("error")


# Checks: each is a generator of what is wrong, in a line each, and of None for each case that is as it is due.


def fault_if(is_wrong, text):
    return text if is_wrong else None


def found_by(check):
    """What a check finds, where a busy machine may have spoiled it the best of three tries; and how long it took, in seconds."""
    begun, best = time.monotonic(), None
    for _ in range(3):
        try:
            found = list(check())
        except Exception as fault:  # the check itself broke off: a fault like any
            found = [f"{type(fault).__name__} {fault}"]
        if best is None or sum(map(bool, found)) < sum(map(bool, best)):
            best = found
        if not any(best):
            break
    return check.__name__, best, time.monotonic() - begun


def report(script, words, together, alone):
    """Tries the checks in whose names one of these words stands, or all: first those that spoil no times side by side, then the others. Tells
    what is wrong, and ends with status 1 where something is."""
    if not PROGRAM.exists():
        sys.exit(f"{script}.py: the program is not built: run rt ci first")
    most = resource.getrlimit(resource.RLIMIT_NOFILE)[1]
    resource.setrlimit(resource.RLIMIT_NOFILE, (most, most))
    beside, others = ([one for one in checks if not words or any(word in one.__name__ for word in words)] for checks in (together, alone))
    with ThreadPoolExecutor(max(1, len(beside))) as pool:
        found = [*pool.map(found_by, beside), *map(found_by, others)]
    for name, faults, took in found:
        for fault in filter(None, faults):
            print(f"{name}: {fault}")
        if words:
            print(f"{script}: {name} took {took:.1f} s")
    count, wrong = sum(len(faults) for _, faults, _ in found), sum(bool(fault) for _, faults, _ in found for fault in faults)
    print(f"{script}: {count} cases, {wrong} failed")
    sys.exit(bool(wrong) or not count)
