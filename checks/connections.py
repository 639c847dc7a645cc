#!/usr/bin/env python3
"""Compares the built program with a plain model of connections, on many small lists of events.

The model knows nothing of buffers. It takes each connection by all the bytes that ever came over it, as the definitions do
(crates/dns_server_core/specs/Valid.antt and Connections.antt): which lists are valid, which messages an event completes,
and which connections are open at the end. The messages are headers without questions, so that the model can tell the reply
that each is owed (RFC 1035 4.1.1). The same lists come in each run.

Uses the standard library alone, and no network. Each run of the program is bounded in time.
"""

import os
import random
import subprocess
import sys
from concurrent.futures import ThreadPoolExecutor

TOP = os.path.dirname(os.path.dirname(os.path.abspath(__file__)))
PROGRAM = os.path.join(TOP, "crates", "dns_program", "out", "dns_program")
ZONE = os.path.join(TOP, "examples", "example.com.zone")
LISTS = 2_000
BOUND = 60  # seconds
MOST = 100  # messages of a connection, which is closed behind the last of them
GREATEST = 2**47  # no moment and no limit reaches it
SAFE, NO_PORT, NO_ADDRESS, EVERYBODY = ("7f000001", 53), ("7f000001", 0), ("00000000", 53), ("ffffffff", 53)


# The model.


def frames(stream):
    """The whole messages of a stream, and the bytes behind the last of them (RFC 1035 4.2.2)."""
    if len(stream) < 2:
        return [], stream
    size = stream[0] * 256 + stream[1]
    if len(stream) - 2 < size:
        return [], stream
    messages, rest = frames(stream[2 + size :])
    return [stream[2 : 2 + size]] + messages, rest


def is_valid(events):
    moments = [event["at"] for event in events]
    numbers = [event["conn"] for event in events if event["kind"] == "A"]
    return (
        all(at < GREATEST for at in moments)
        and all(event.get("limit", 0) < GREATEST for event in events)
        and all(first <= second for first, second in zip(moments, moments[1:]))
        and all(first < second for first, second in zip(numbers, numbers[1:]))
        and all(event["kind"] != "S" for event in events[:-1])
    )


def is_safe(peer):
    return peer not in (NO_PORT, NO_ADDRESS, EVERYBODY)


def pieces_of(start, events):
    """The byte events of the connection that this event accepts: those before its first end, each with its place."""
    number, found = events[start]["conn"], []
    for place in range(start + 1, len(events)):
        event = events[place]
        if event.get("conn") == number and event["kind"] == "E":
            break
        if event.get("conn") == number and event["kind"] == "B":
            found.append((place, event["at"], event["piece"]))
    return found


def total(pieces, count):
    return b"".join(piece for _, _, piece in pieces[:count])


def whole(pieces, count):
    return min(MOST, len(frames(total(pieces, count))[0]))


def base(begun, pieces, count):
    """The moment of the last of the first pieces that completed a message; that of the beginning where none did."""
    for i in range(count, 0, -1):
        if whole(pieces, i) > whole(pieces, i - 1):
            return pieces[i - 1][1]
    return begun


def in_time(begun, limit, pieces, count):
    return all(whole(pieces, i) < MOST and (limit == 0 or pieces[i][1] <= base(begun, pieces, i) + limit) for i in range(count))


def completed(events):
    """The messages that the list completes, by event place: the number of the connection or none, and the message."""
    found = {place: [] for place in range(len(events))}
    for place, event in enumerate(events):
        if event["kind"] == "D":
            found[place].append((None, event["peer"], event["piece"]))
        if event["kind"] != "A" or not is_safe(event["peer"]):
            continue
        pieces = pieces_of(place, events)
        for i in range(len(pieces)):
            if in_time(event["at"], event["limit"], pieces, i + 1):
                for message in frames(total(pieces, i + 1))[0][whole(pieces, i) : whole(pieces, i + 1)]:
                    found[pieces[i][0]].append((event["conn"], event["peer"], message))
    return [one for place in range(len(events)) for one in found[place]]


def open_count(events):
    if not events:
        return 0
    last, count = events[-1]["at"], 0
    for place, event in enumerate(events):
        if event["kind"] != "A" or not is_safe(event["peer"]):
            continue
        later = events[place + 1 :]
        if any(one["kind"] == "S" or (one["kind"] == "E" and one["conn"] == event["conn"]) for one in later):
            continue
        pieces = pieces_of(place, events)
        limit, held = event["limit"], base(event["at"], pieces, len(pieces))
        timely = in_time(event["at"], limit, pieces, len(pieces)) and (limit == 0 or last <= held + limit)
        if timely and whole(pieces, len(pieces)) < MOST:
            count += 1
    return count


def reply_to(message, peer):
    """What a header without questions is owed: FormErr, or NotImp for another opcode than QUERY (0) and UPDATE (5); none for
    a reply, for less than a header, and from a source that nothing can be sent to."""
    if len(message) < 12 or message[2] & 0x80 or not is_safe(peer):
        return None
    code = 1 if message[2] >> 3 & 15 in (0, 5) else 4
    return message[:2] + bytes([0x80 | message[2] & 0x79, message[3] & 0x10 | code]) + bytes(8)


def expected(events):
    """The output and the status."""
    if not is_valid(events):
        return "not valid\n", 4
    lines = []
    for conn, peer, message in completed(events):
        reply = reply_to(message, peer)
        if reply is not None and conn is None:
            lines.append(f"P {peer[0]} {peer[1]} {reply.hex()}")
        elif reply is not None:
            lines.append(f"C {conn} {(len(reply).to_bytes(2, 'big') + reply).hex()}")
    lines += ["serial 7", "journal_len 8", f"open {open_count(events)}"]
    return "".join(line + "\n" for line in lines), 0


# The lists, and the program's answers.


def header(chance):
    flags = bytes([chance.choice([0, 1, 0x11, 0x28, 0x80, 0x31]), chance.choice([0, 0x10])])
    return chance.randbytes(2) + flags + bytes(8) + chance.choice([b"", b"", b"x"])


def stream(chance):
    """Frames of headers, of nothing and of too little, of which the last may be cut; in front of them at times many of nothing."""
    bytes_ = bytes(2 * chance.choice([0] * 6 + [48, 98, 99, 100]))
    for _ in range(chance.randrange(1, 4)):
        message = chance.choice([header(chance), header(chance), b"", b"ab"])
        bytes_ += len(message).to_bytes(2, "big") + message
    return bytes_


def next_event(chance, at, numbers, left):
    """One more event: of the connections so far, or of one that is new."""
    kind = chance.choice("ABBBBBEDT" if numbers else "AAADT")
    if kind == "A":
        numbers.append(max(numbers, default=0) + chance.choice([1, 1, 1, 2, 0 if numbers else 1]))
        left[numbers[-1]] = b""
        peer = chance.choice([SAFE] * 6 + [NO_PORT, NO_ADDRESS, EVERYBODY])
        return {"kind": kind, "at": at, "conn": numbers[-1], "peer": peer, "limit": chance.choice([0, 0, 1, 2, 3, 5])}
    if kind == "B":
        number = chance.choice(numbers + [99])
        source = left.get(number) or stream(chance)
        size = chance.choice([0, 1, 2, 3, 13, 14, len(source), len(source)])
        left[number] = source[size:]
        return {"kind": kind, "at": at, "conn": number, "piece": source[:size]}
    if kind == "E":
        return {"kind": kind, "at": at, "conn": chance.choice(numbers + [99])}
    if kind == "D":
        return {"kind": kind, "at": at, "peer": chance.choice([SAFE, SAFE, NO_PORT]), "piece": header(chance)}
    return {"kind": kind, "at": at}


def a_list(seed):
    chance = random.Random(seed)
    events, numbers, left, at = [], [], {}, chance.choice([0, 5, GREATEST - 4])
    for _ in range(chance.randrange(0, 14)):
        at = max(0, at + chance.choice([0, 0, 0, 0, 1, 1, 2, 3] + [-1] * (seed % 9 == 0)))
        events.append(next_event(chance, at, numbers, left))
    if seed % 4 == 0:
        events.insert(len(events) - (seed % 12 == 0 and len(events) > 0), {"kind": "S", "at": at})
    return events


def line(event):
    words = [event["kind"], event["at"]]
    words += [event["conn"]] if "conn" in event else []
    words += list(event["peer"]) if "peer" in event else []
    words += [event["limit"]] if "limit" in event else []
    words += [event["piece"].hex() or "-"] if "piece" in event else []
    return " ".join(str(word) for word in words) + "\n"


def differs(seed):
    """What the program says otherwise than the model, none where they agree."""
    events = a_list(seed)
    text = "".join(line(event) for event in events)
    command = [PROGRAM, "events", "example.com.", f"--zone={ZONE}"]
    run = subprocess.run(command, input=text.encode(), stdout=subprocess.PIPE, timeout=BOUND)
    due, status = expected(events)
    if (run.stdout.decode(), run.returncode) == (due, status):
        return None
    return f"list {seed}:\n{text}due, status {status}:\n{due}written, status {run.returncode}:\n{run.stdout.decode()}"


def main():
    if not os.path.exists(PROGRAM):
        sys.exit("connections.py: the program is not built: run rt ci first")
    with ThreadPoolExecutor(os.cpu_count()) as pool:
        found = [one for one in pool.map(differs, range(LISTS)) if one is not None]
    for one in found[:3]:
        print(one)
    print(f"connections: {LISTS - len(found)} passed, {len(found)} failed")
    sys.exit(1 if found else 0)


if __name__ == "__main__":
    main()
