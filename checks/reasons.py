#!/usr/bin/env python3
"""Runs the built programs with wrong words and files, and sees what each tells a person on standard error, beside the status and the one line of standard
output that scripts read.

  reasons.py [dns [dns-nsupdate]]     the programs, where they are not those in crates/*/out

Each case is the words, the status, the line of standard output, and what standard error says, all but the name in front. Beside them stands that every key of
the table in crates/dns_reasons/src/keys.rt is told by a program's help and by its page in man/, and the other way round. What is due was written by hand from
what the help says. Uses the standard library alone, and no network. Each run is bounded in time.
"""

import os
import re
import subprocess
import sys
import tempfile
from pathlib import Path

TOP = Path(__file__).resolve().parent.parent
BOUND = 60  # seconds
SERVER = "a command was expected: serve, events or load, or one of zone, list, compact, feed and follow"
AUDITOR = "a command was expected: zone, list or compact"
FOLLOWER = "a command was expected: feed or follow"
LONE = "this word stands alone, with no other"
UNKNOWN = "this word is not known here"
APART = "its value has to stand behind it in the same word, with = between them"
AGAIN = "this may stand once alone"
ALONE = "nothing may stand behind this word"
PATH = "a path was expected behind ="
SOCKET = "an address and a port were expected, as 127.0.0.1:53 or [::1]:53"
HOST = "this is no address: 127.0.0.1:53 or [::1]:53 would be one with its port"
PORT = "a port is a number from 0 to 65535"
NETWORK = "a network was expected, as 192.0.2.0/24 or 2001:db8::/32"
IP = "this is no address: 192.0.2.0/24 or 2001:db8::/32 would be a network"
BITS = "behind / stands how many bits count, a number from 0 to "
NAME = "this is no domain name: example.com. is one (labels have 1 to 63 bytes, the name at most 255)"
NO_ORIGIN = "ORIGIN is missing behind it: the name at the top of the zone"
NO_PORT = "--udp=IP:PORT or --tcp=IP:PORT is missing: where to listen"
MOST = 18446744073709551615
HERE = "serve example.com. --udp=127.0.0.1:0 "

# what the programs say on standard error where they refuse, by the status: of words one line, of the server's zone text one, and of a file
# that could not be read one, but where it is the event text's, or can be read by then
SAID = {1: rb"dns[a-z-]*: [^\n]+; dns[a-z-]* --help tells more\n", 2: rb"dns: --zone=[^\n]+\n", 6: rb"(dns: --zone=[^\n]+\n)?"}


def beside(status, said):
    """What was said on standard error beside what is due at a status: nothing, or else all of it, or that it is missing."""
    return b"" if re.fullmatch(SAID.get(status, b""), said) else said or b"a line is missing"


def between(least, most):
    return f"a number from {least} to {most} was expected"


# the words, the word that is named, and why
DNS = [
    ("", "", SERVER),
    ("srve example.com.", "srve", SERVER),
    ("--udp=127.0.0.1:53 serve example.com.", "--udp=127.0.0.1:53", SERVER),
    ("--help serve", "--help", LONE),
    ("serve --help", "--help", LONE),
    ("serve", "serve", NO_ORIGIN),
    ("events", "events", NO_ORIGIN),
    ("serve --udp=127.0.0.1:99999", "serve", NO_ORIGIN),
    ("serve example..com --udp=127.0.0.1:53", "example..com", NAME),
    ("serve " + 64 * "a" + ". --udp=127.0.0.1:53", 64 * "a" + ".", NAME),
    ("serve example.com.", "serve", NO_PORT),
    ("serve example.com. --zone=z", "serve", NO_PORT),
    ("serve example.com. --udp=127.0.0.1:99999", "--udp=127.0.0.1:99999", PORT),
    ("serve example.com. --udp=127.0.0.1:", "--udp=127.0.0.1:", PORT),
    ("serve example.com. --udp=127.0.0.1:053", "--udp=127.0.0.1:053", PORT),
    ("serve example.com. --tcp=[::1]:65536", "--tcp=[::1]:65536", PORT),
    ("serve example.com. --udp=7f000001:65536", "--udp=7f000001:65536", PORT),
    ("serve example.com. --udp=127.0.0.1", "--udp=127.0.0.1", SOCKET),
    ("serve example.com. --udp=", "--udp=", SOCKET),
    ("serve example.com. --udp=127.0.0.300:53", "--udp=127.0.0.300:53", HOST),
    ("serve example.com. --udp=localhost:53", "--udp=localhost:53", HOST),
    ("serve example.com. --tcp=::1:53", "--tcp=::1:53", HOST),
    ("serve example.com. --udp 127.0.0.1:53", "--udp", APART),
    (HERE + "--journl=x", "--journl=x", UNKNOWN),
    (HERE + "zone.txt", "zone.txt", UNKNOWN),
    (HERE + "--zone", "--zone", APART),
    (HERE + "--zone=", "--zone=", PATH),
    (HERE + "--journal=", "--journal=", PATH),
    (HERE + "--zone=a --zone=b", "--zone=a", AGAIN),
    (HERE + "--udp=127.0.0.1:1", "--udp=127.0.0.1:0", AGAIN),
    (HERE + "--update --update", "--update", AGAIN),
    (HERE + "--update=yes", "--update=yes", ALONE),
    (HERE + "--updates", "--updates", UNKNOWN),
    (HERE + "--workers=0", "--workers=0", between(1, 64)),
    (HERE + "--workers=65", "--workers=65", between(1, 64)),
    (HERE + "--connections=65537", "--connections=65537", between(1, 65536)),
    (HERE + "--limit=5s", "--limit=5s", between(0, 2**47 - 1)),
    (HERE + "--payload=511", "--payload=511", between(512, 65507)),
    (HERE + "--payload=65508", "--payload=65508", between(512, 65507)),
    (HERE + "--deny=10.0.0.0", "--deny=10.0.0.0", NETWORK),
    (HERE + "--deny=10.0.0/8", "--deny=10.0.0/8", IP),
    (HERE + "--deny=10.0.0.0/33", "--deny=10.0.0.0/33", BITS + "32"),
    (HERE + "--allow=2001:db8::/129", "--allow=2001:db8::/129", BITS + "128"),
    ("events example.com. --udp=127.0.0.1:53", "--udp=127.0.0.1:53", UNKNOWN),
    ("events example.com. --workers=2", "--workers=2", UNKNOWN),
    ("load", "load", "SEED is missing behind it: a number"),
    ("load 1", "load", "COUNT is missing behind SEED: how many messages"),
    ("load one 1", "one", between(0, MOST)),
    ("load 1 0", "0", between(1, 100000)),
    ("load 1 100001", "100001", between(1, 100000)),
    ("load 1 1 1", "1", UNKNOWN),
]
AUDIT = [
    ("audit", "", AUDITOR),
    ("audit zones", "zones", AUDITOR),
    ("zone", "zone", NO_ORIGIN),
    ("zone example.com.", "zone", "LENGTH is missing behind ORIGIN: how many rows make the zone"),
    ("zone example.com. -1", "-1", between(0, MOST)),
    ("list example.com. --into=x", "--into=x", UNKNOWN),
    ("compact example.com. --into=x --journal=y", "compact", "the words stand in another order: --server= before --id=, and --journal= before --into="),
]
FOLLOW = [
    ("feed example.com.", "feed", "FROM is missing behind ORIGIN: the number of the first row"),
    ("feed example.com. 0", "0", between(1, MOST)),
    ("follow example.com. --journal=a --journal=b", "--journal=a", AGAIN),
]
UPDATE = [
    ("", "", "--server=IP:PORT is missing: the server that is sent to"),
    ("--id=1", "", "--server=IP:PORT is missing: the server that is sent to"),
    ("--server=127.0.0.1:53", "", "--id=N is missing: the id of the first message"),
    ("--server=127.0.0.1:65536 --id=1", "--server=127.0.0.1:65536", PORT),
    ("--server=127.0.0.1:53 --id=65536", "--id=65536", between(0, 65535)),
    ("--server=ns.example.com:53 --id=1", "--server=ns.example.com:53", HOST),
    ("--id=1 --server=127.0.0.1:53", "", "the words stand in another order: --server= before --id=, and --journal= before --into="),
]


def run(program, words):
    """The status, the output and what standard error says of a run."""
    done = subprocess.run([program, *words], stdin=subprocess.DEVNULL, capture_output=True, timeout=BOUND)
    return done.returncode, done.stdout.decode(errors="replace"), done.stderr.decode(errors="replace")


def refused(program, name, cases):
    """What words that are no command give, and what is due."""
    for words, word, why in cases:
        named = f"{word}: " if word else ""
        yield f"{name} {words}", run(program, words.split()), (1, "usage\n", f"{name}: {named}{why}; {name} --help tells more\n")


def odd(program, name):
    """What an empty word, words with control characters, and one that is not UTF-8 give: one line each."""
    end = f"; {name} --help tells more\n"
    for words, due in (
        ([""], f"an empty word: {SERVER}"),
        (["serve", ""], f"an empty word: {NAME}"),
        (["serve", "example.com.", "--udp=127.0.0.1:0", ""], f"an empty word: {UNKNOWN}"),
        (["srve\nserve"], f"srve\\nserve: {SERVER}"),
        (["serve", "example.com.", "--udp=127.0.0.1:0", "--x\x1b[31m"], f"--x\\u{{1b}}[31m: {UNKNOWN}"),
        ([b"serve", b"ex\xffample.", b"--udp=127.0.0.1:0"], "one of the words is not UTF-8"),
    ):
        yield f"{name} {words}", run(program, words), (1, "usage\n", f"{name}: {due}{end}")


# a zone text, the line of standard output, and what is told behind the path
SOA = "@ IN SOA a b 1 2 3 4 5\n"
TTL = "no TTL: a number of seconds, as 3600 or 1h, is to stand before the type, or $TTL before the first record"
DATA = "the data is not of the form of its type"
TEXTS = [
    (f"$TTL 1h\n{SOA}@ IN NS a\nwww IN A 192.0.2.300\n", "4: Data", f', line 4: "www IN A 192.0.2.300": {DATA}'),
    (f"$TTL 1h\n{SOA}www IN A 192.0.2.300", "3: Data", f', line 3: "www IN A 192.0.2.300": {DATA}'),
    (f"$TTL 1h\n{SOA}t TXT " + 40 * "word " + "(\n", "3: Paren", ', line 3: "' + ("t TXT " + 40 * "word ")[:160] + '": a bracket is open at its end, or closes none'),
    ("www IN A 192.0.2.1\n", "1: Ttl", f', line 1: "www IN A 192.0.2.1": {TTL}'),
    ("$INCLUDE other\n", "1: Directive", ', line 1: "$INCLUDE other": the directives are $ORIGIN and $TTL; $INCLUDE is none here'),
    (f"$TTL 1h\n{SOA}www.example.net. IN A 192.0.2.1\n", "3: OutOfZone", ', line 3: "www.example.net. IN A 192.0.2.1": its name is not at ORIGIN or below it'),
    (f"$TTL 1h\n{SOA}{SOA.replace('1', '2', 1)}", "3: NotOneSoa", ', line 3: "@ IN SOA a b 2 2 3 4 5": one SOA record is to stand, at ORIGIN alone'),
    ("$TTL 1h\nwww IN A 192.0.2.1\n", "0: NotOneSoa", ": it has no SOA record, which is to stand at ORIGIN"),
    ("", "0: NotOneSoa", ": it has no SOA record, which is to stand at ORIGIN"),
]


def faulty(program):
    """What zone texts with a faulty line give, and what no zone text does."""
    with tempfile.TemporaryDirectory() as folder:
        path = Path(folder, "zone")
        for text, line, told_of in TEXTS:
            path.write_text(text, encoding="utf-8")
            yield f"a zone text {text[:60]!r}", run(program, ["events", "example.com.", f"--zone={path}"]), (2, f"zone text line {line}\n", f"dns: --zone={path}{told_of}\n")
        pipe = Path(folder, "pipe")
        os.mkfifo(pipe)
        writer = subprocess.Popen(["sh", "-c", 'echo "www A" > "$0"', pipe])
        yield "a pipe", run(program, ["events", "example.com.", f"--zone={pipe}"]), (2, "zone text line 1: Ttl\n", f"dns: --zone={pipe}, line 1: {TTL}\n")
        writer.wait(timeout=BOUND)
    due = "dns: --zone=PATH is missing: without a file of the zone text there is no zone\n"
    yield "no zone text", run(program, ["events", "example.com."]), (2, "zone text line 0: NotOneSoa\n", due)


def unread(program):
    """What zone files that cannot be read give."""
    with tempfile.TemporaryDirectory() as folder:
        missing = Path(folder, "zone")
        for command in (["events", "example.com."], ["serve", "example.com.", "--udp=127.0.0.1:0"]):
            for path, why in ((missing, "No such file or directory (os error 2)"), (folder, "Is a directory (os error 21)"), (f"{__file__}/z", "Not a directory (os error 20)")):
                yield f"{command[0]} over {path}", run(program, [*command, f"--zone={path}"]), (6, "read fault\n", f"dns: --zone={path}: {why}\n")
        if os.geteuid():
            missing.touch(mode=0)
            due = (6, "read fault\n", f"dns: --zone={missing}: Permission denied (os error 13)\n")
            yield "a file that may not be read", run(program, ["events", "example.com.", f"--zone={missing}"]), due


def told():
    """The keys of the table, and those that the programs' helps and pages have."""
    table = re.search(r"fn key_text.*?\n}\n", (TOP / "crates/dns_reasons/src/keys.rt").read_text(encoding="utf-8"), re.S)[0]
    keys = set(re.findall(r'"--([a-z]+)', table))
    for place, files in (("help", TOP.glob("crates/*/src/help.rt")), ("man", (TOP / "man").glob("*"))):
        text = "".join(file.read_text(encoding="utf-8") for file in files).replace("\\-", "-")
        yield f"the keys of {place}", set(re.findall(r"(?:--|Fl -)([a-z]+)", text)) - {"help", "version"}, keys


def main():
    given = [Path(word).resolve() for word in sys.argv[1:]]
    built = [TOP / "crates" / name / "out" / name for name in ("dns_program", "dns_nsupdate")]
    server, client = given + built[len(given) :]
    tried = [*refused(server, "dns", DNS), *refused(server, "dns-audit", AUDIT), *refused(server, "dns-follow", FOLLOW), *odd(server, "dns"), *faulty(server), *unread(server), *told()]
    if client.exists():
        tried += refused(client, "dns-nsupdate", UPDATE)
        for words, due in (([""], f"an empty word: {UNKNOWN}"), ([b"--server=\xff", b"--id=1"], "one of the words is not UTF-8")):
            tried.append((f"dns-nsupdate {words}", run(client, words), (1, "usage\n", f"dns-nsupdate: {due}; dns-nsupdate --help tells more\n")))
    else:
        print("reasons: dns-nsupdate is not built: passed over")
    wrong = [f"{name}\ndue: {due}\ngot: {got}" for name, got, due in tried if got != due]
    for one in wrong[:10]:
        print(one)
    print(f"reasons: {len(tried) - len(wrong)} passed, {len(wrong)} failed")
    sys.exit(1 if wrong else 0)


if __name__ == "__main__":
    main()
