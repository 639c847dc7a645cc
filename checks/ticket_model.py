"""A plain model of the ticket world: seats that draw tickets for one book, and the rows that they add in turn. Each step is one
function, written from the table of steps; it knows nothing of the program's code.

  ticket_model.py [COUNT [SEED]]   prints that many random lists of steps, or 40; the same ones for the same seed

A line is three parts between semicolons: how many seats and how many rows there are at the start; the steps in order, each with
whether it is made (+) or not (-); and the world that is left: the next ticket, the one that is served, whether the book is at
home (1) or not (0), the number of rows, the faults, and of each seat that was made how many rows it has seen. The parts of a
step stand between dots: its kind, its seat, and what else it has: the other seat of a join (J); of a count (C) the number that
the batch's rows bear, the id of the first of them, how many there are, and the count of faults.
"""

import random
import sys
from dataclasses import dataclass, field

COUNT, SEED, STEPS = 40, 64, 30
IDLE, WAITS, HAS_TURN, HOLDS, HAS_COUNTED, HAS_GIVEN, ENDED = range(7)
TICKETS = 2**64


@dataclass
class Seat:
    seen: int
    phase: int = IDLE
    ticket: int = 0
    faults: int = 0
    receipts: list = field(default_factory=list)  # the number, the id of the first row, how many


class World:
    def __init__(self, seats, rows):
        self.next = self.serving = self.faults = 0
        self.home = True
        self.opening = rows
        self.rows = [0] * rows  # the number that each row bears
        self.seats = {number: Seat(seen=rows) for number in range(1, seats + 1)}

    def at(self, number, *phases):
        return number in self.seats and self.seats[number].phase in phases

    def draw(self, number):
        if not self.at(number, IDLE):
            return False
        seat = self.seats[number]
        seat.ticket, seat.phase = self.next, WAITS
        self.next = (self.next + 1) % TICKETS
        return True

    def look(self, number):
        if not self.at(number, WAITS, HAS_TURN):
            return False
        if self.seats[number].ticket == self.serving:
            self.seats[number].phase = HAS_TURN
        return True

    def take(self, number):
        if not self.at(number, WAITS, HAS_TURN) or self.seats[number].ticket != self.serving or not self.home:
            return False
        self.seats[number].phase = HOLDS
        self.home = False
        return True

    def count(self, number, bears, first, rows, faults):
        if not self.at(number, HOLDS) or faults < self.faults:
            return False
        if rows and (bears != number or first != len(self.rows) + 1):
            return False
        seat = self.seats[number]
        if rows:
            seat.receipts.append((number, first, rows))
        self.rows += [number] * rows
        seat.seen = len(self.rows)
        seat.faults += faults - self.faults
        self.faults = faults
        seat.phase = HAS_COUNTED
        return True

    def give(self, number):
        if not self.at(number, HAS_COUNTED):
            return False
        self.seats[number].phase = HAS_GIVEN
        self.home = True
        return True

    def pass_on(self, number):
        if not self.at(number, HAS_GIVEN):
            return False
        self.seats[number].phase = IDLE
        self.serving = (self.serving + 1) % TICKETS
        return True

    def split(self, number):
        if number != 1 or not self.at(number, IDLE):
            return False
        self.seats[len(self.seats) + 1] = Seat(seen=self.seats[1].seen)
        return True

    def join(self, number, other):
        if number != 1 or number == other or not self.at(number, IDLE) or not self.at(other, IDLE):
            return False
        one, two = self.seats[number], self.seats[other]
        one.seen = max(one.seen, two.seen)
        one.faults += two.faults
        two.phase = ENDED
        return True

    def check(self):
        """The facts that each world keeps."""
        seats = self.seats.values()
        busy = [seat for seat in seats if seat.phase not in (IDLE, ENDED)]
        out = [(self.serving + i) % TICKETS for i in range((self.next - self.serving) % TICKETS)]
        assert sum(seat.phase in (HOLDS, HAS_COUNTED) for seat in seats) == (0 if self.home else 1)
        assert sorted(seat.ticket for seat in busy) == sorted(out)
        assert all(seat.ticket == self.serving for seat in busy if seat.phase != WAITS)
        assert all(seat.seen <= len(self.rows) for seat in seats)
        for number, seat in self.seats.items():
            own = [place for place in range(self.opening, len(self.rows)) if self.rows[place] == number]
            assert own == [first - 1 + i for _, first, rows in seat.receipts for i in range(rows)]
            assert all(bears == number for bears, _, _ in seat.receipts)
        assert all(bears in self.seats for bears in self.rows[self.opening :])
        assert sum(seat.faults for seat in seats if seat.phase != ENDED) == self.faults

    def digest(self):
        words = [self.next, self.serving, int(self.home), len(self.rows), self.faults]
        return " ".join(map(str, words + [seat.seen for seat in self.seats.values()]))


CALLS = {
    "D": World.draw, "L": World.look, "T": World.take, "C": World.count, "G": World.give, "P": World.pass_on, "S": World.split,
    "J": World.join,
}  # fmt: skip
ONWARD = {IDLE: "DDDDDSJ", WAITS: "LT", HAS_TURN: "TTL", HOLDS: "C", HAS_COUNTED: "G", HAS_GIVEN: "P", ENDED: "D"}


def some_step(chance, world):
    """A step: mostly one that its seat is at, else any."""
    number = chance.choice([0, len(world.seats) + 1] + 10 * list(world.seats))
    kind = chance.choice(list(CALLS))
    if number in world.seats and chance.random() < 0.85:
        kind = chance.choice(ONWARD[world.seats[number].phase])
    if kind in "SJ" and chance.random() < 0.7:
        number = 1
    if kind == "J":
        return kind, [number, chance.randint(1, len(world.seats))]
    if kind == "C":
        right = chance.random() < 0.8
        bears = number if right else chance.randint(1, len(world.seats))
        first = len(world.rows) + (1 if right else chance.randint(0, 2))
        faults = max(0, world.faults + chance.choice([0, 0, 1, 3] if right else [-1, 0, 2]))
        return kind, [number, bears, first, chance.randint(0, 3), faults]
    return kind, [number]


def some_list(chance):
    """A line, and which kinds of steps were made and were not."""
    seats, rows = chance.choice([1, 2, 2, 3, 3, 4]), chance.choice([0, 0, 1, 3])
    world, words, met = World(seats, rows), [], set()
    for _ in range(STEPS):
        kind, numbers = some_step(chance, world)
        made = CALLS[kind](world, *numbers)
        world.check()
        met.add((kind, made))
        words.append(".".join([kind, *map(str, numbers), "+" if made else "-"]))
    return f"{seats} {rows};{' '.join(words)};{world.digest()}", met


def table(count=COUNT, seed=SEED):
    """Lines in which each kind of step is made and is not."""
    chance = random.Random(seed)
    lists = [some_list(chance) for _ in range(count)]
    met = set().union(*(met for _, met in lists))
    assert count < COUNT or met == {(kind, made) for kind in CALLS for made in (True, False)}, "a kind of step is missing"
    return [line for line, _ in lists]


if __name__ == "__main__":
    print("\n".join(table(*map(int, sys.argv[1:]))))
