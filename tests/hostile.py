#!/usr/bin/env python3
"""Compares the port with the reading on hostile sessions: any numbers, and bad records.

    hostile.py [--seed N] [--sessions N] [--calls N] [--port CMD]

A guest of sessions.py that likes the edges plays; between its turns stand calls whose every field
is any number that the kind takes.  A bad record ends a run, so every run of some sessions ends
with one: each kind of bad record in turn.  Before these come short runs, one for each bad record
and for ends after some number of records.  Answers, final tables and all of memory must be equal.
It prints what it compared; at the first difference it prints the smallest session found that
shows it and exits with 1.  --port names the program,
crates/differential/out/differential (of rt run in that folder) if not given.
"""

import argparse
import random
import shlex
from itertools import cycle, islice
from pathlib import Path

from comparing import Pair, Program, Reading
from reading import WRAP
from replay_reading import BYTE, GUEST_STORE, LONG, MEMORY, NEW_SESSION, USES, Record
from sessions import IN_USE, START, WEIGHTS, WITH_ENDPOINTS, Guest

PORT = Path(__file__).resolve().parent.parent / "crates/differential/out/differential"
RUN = 20


class Hostile(Guest):
    """Most of its turns are those of a guest of sessions.py, outside the domain of the Rust."""

    def __init__(self, choices):
        super().__init__(choices, domain=False)

    def any_byte(self):
        return self.choices.choice((0, 1, 2, 3, 16, 17, 31, 32, self.choices.randrange(256), 255))

    def any_long(self):
        """Near 0, near the end of memory, near 2**64, near a power of two, or any."""
        base = self.choices.choice((0, MEMORY, WRAP, 1 << self.choices.randrange(64),
                                    self.choices.randrange(WRAP)))
        return (base + self.choices.choice((0, -1, 1, self.choices.randrange(-1200, 1200)))) % WRAP

    def any_call(self, kind):
        """Each field any number that the kind uses; mostly a slot that is there."""
        uses_slot, uses_endpoint, flag, pointer, value = USES[kind]
        slot = self.any_byte() if self.chance(1 / 4) else self.slot(IN_USE)
        endpoint = self.any_byte() if self.chance(1 / 2) else self.endpoint(slot)
        self.call(kind, slot=uses_slot & slot, endpoint=uses_endpoint & endpoint,
                  flag=flag & self.choices.randrange(4), pointer=pointer & self.any_long(),
                  value=value & self.any_long())

    def any_store(self):
        """A byte anywhere, most often where contexts are."""
        base = self.choices.choice([0, *(slot.base for slot in self.session.table.slots)])
        record = Record(GUEST_STORE, pointer=(base + self.choices.randrange(1100)) % MEMORY,
                        value=self.choices.randrange(256))
        self.session.play(record)
        self.records.append(record)

    def play(self, calls):
        while self.calls < calls:
            stuck = not self.slots(WITH_ENDPOINTS) and self.chance(1 / 2)
            for kind in START if stuck else self.choices.choices(list(WEIGHTS), WEIGHTS.values()):
                self.choices.choice((self.turn, self.turn, self.any_call))(kind)
            if self.chance(1 / 4):
                self.any_store()
        return self.records


def hostile_session(seed, calls):
    return Hostile(random.Random(seed)).play(calls)


# ---- bad records

def unused_fields():
    """For each kind and each field that it does not use, a record that is bad for that alone."""
    for kind, uses in USES.items():
        for field, used in enumerate(uses, 1):
            # Slot, endpoint and flag are bytes; pointer and value have 64 bits.
            left = (BYTE if field < 4 else LONG) & ~used
            for bit in {left & -left, 1 << left.bit_length() >> 1}:
                if bit:
                    numbers = [kind, 0, 0, 0, 0, 0]
                    numbers[field] = bit
                    yield Record(*numbers).encode()


def dirty_zeros():
    """A nonzero byte where zero is due: 4 to 7 and 24 to 31."""
    for kind in range(len(USES) + 1):
        for place in (*range(4, 8), *range(24, 32)):
            data = bytearray(Record(kind).encode())
            data[place] = 1 << (kind + place) % 8
            yield bytes(data)


def bad_records():
    """Unknown kinds, short records, stores of no byte or outside memory, and the two above."""
    yield from (Record(kind).encode() for kind in range(len(USES) + 1, 256))
    yield from (Record(NEW_SESSION, *[int(field == place) for place in range(5)]).encode()
                for field in range(5))
    yield from (Record(3).encode()[:length] for length in range(1, 32))
    yield from (Record(GUEST_STORE, pointer=1, value=value).encode()
                for value in (256, 257, 65_536, LONG))
    yield from (Record(GUEST_STORE, pointer=pointer, value=1).encode()
                for pointer in (MEMORY, MEMORY + 1, 2**32, 2**63, LONG))
    yield from unused_fields()
    yield from dirty_zeros()


def runs(seed, sessions, calls):
    """Runs of some sessions, each with a bad record at its end and a call that is not reached."""
    bad = cycle(bad_records())
    numbers = iter(range(sessions))
    while some := list(islice(numbers, RUN)):
        records = [record for number in some
                   for record in hostile_session(f"hostile.{seed}.{number}", calls)]
        ending = next(bad)
        # Nothing can follow a record that is short.
        yield records + ([ending, Record(3)] if len(ending) == 32 else [ending])


def endings():
    """Every bad record, each in a run of its own, after two calls."""
    for bad in bad_records():
        yield [Record(NEW_SESSION), Record(1, value=1), Record(3),
               *([bad, Record(3)] if len(bad) == 32 else [bad])]


def boundaries():
    """A short record, an unknown kind, a new session or nothing, after about 2, 4, .. 4,096
    records: a program may read many at a time."""
    for count in sorted({2**power + more for power in range(1, 13) for more in (-1, 0, 1)}):
        calls = [Record(1, value=number % 18) for number in range(count - 1)]
        for ending in ([b"\x03"], [Record(255).encode(), Record(3)],
                       [Record(NEW_SESSION), Record(3)], []):
            yield [Record(NEW_SESSION), *calls, *ending]


def main():
    parser = argparse.ArgumentParser(description="Compares the port with the reading.")
    parser.add_argument("--seed", type=int, default=1)
    parser.add_argument("--sessions", type=int, default=200)
    parser.add_argument("--calls", type=int, default=200, help="calls in a session")
    parser.add_argument("--port", type=shlex.split, default=[PORT],
                        help="the program that runs the port")
    choice = parser.parse_args()
    pair = Pair(Program("port", choice.port), Reading())
    calls = pair.compare("bad records, a run of its own for each", endings(), batch=1)
    calls += pair.compare("ends after some records, a run of its own for each", boundaries(),
                          batch=1)
    calls += pair.compare(
        f"runs of {RUN} hostile sessions, seed {choice.seed}, a bad record at the end of each",
        runs(choice.seed, choice.sessions, choice.calls), batch=1)
    print(f"together: {calls} calls, 0 differences")


if __name__ == "__main__":
    main()
