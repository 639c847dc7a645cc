"""A plain model of the lists of events that the command `load` draws, as event lines."""


def name(text):
    return b"".join(bytes([len(label)]) + label.encode() for label in text.split(".") if label) + b"\0"


def word(n):
    return n.to_bytes(2, "big")


def query(number, host):
    return word(number % 65536) + bytes.fromhex("0100" "0001" "0000" "0000" "0000") + name(host) + word(1) + word(1)


def update(number, record):
    head = word(number % 65536) + bytes.fromhex("2800" "0001" "0000" "0001" "0000")
    return head + name("example.com.") + word(6) + word(1) + record


def addition(host, last):
    return name(host) + word(1) + word(1) + (60).to_bytes(4, "big") + word(4) + bytes([10, 0, 0, last])


def deletion(host):
    return name(host) + word(1) + word(255) + bytes(4) + word(0)


def lines(seed, count):
    """The event lines of a seed and a count of messages."""
    state = seed
    for conn in range(1, 5):
        yield f"A 0 {conn} 7f000001 {5000 + conn} 0"
    for k in range(count):
        state = (state * 6364136223846793005 + 1442695040888963407) % 2**64
        drawn = state >> 32
        kind, host, rest = drawn % 8, f"h{drawn // 8 % 64}.example.com.", drawn // 512
        datagram = f"D {k} 7f000001 {1024 + rest % 1000} "
        if kind < 4:
            yield datagram + query(k, host).hex()
        elif kind < 6:
            message = query(k, host)
            frame = word(len(message)) + message
            yield f"B {k} {1 + rest % 4} {frame[:5].hex()}"
            yield f"B {k} {1 + rest % 4} {frame[5:].hex()}"
        elif kind == 6:
            yield datagram + update(k, addition(host, rest % 256)).hex()
        else:
            yield datagram + update(k, deletion(host)).hex()


if __name__ == "__main__":
    import sys

    for line in lines(int(sys.argv[1]), int(sys.argv[2])):
        print(line)
