#!/usr/bin/env python3
"""Writes random sessions as records, for comparing two readings of the rules.

    sessions.py (--domain | --hostile) [--seed N] [--sessions N] [--calls N]

Each session begins with a record of kind 0 and has at least N calls; the guest stores
between them are not counted.  A model played by the reading steers what comes next.

--domain keeps to what the Rust can be asked as well; --hostile uses any numbers and
likes the edges: the end of memory, wrapping pointers, contexts that overlap.
"""

import argparse
import random
import sys

from reading import (ADDRESSED, CONFIGURED, CONTEXT, DEFAULT, DISABLED, ENABLED, ENDPOINTS, ERROR,
                     FREE, IN_FLIGHT, OUTSIDE, SLOTS, WRAP, flags)
from replay_reading import (ADDRESS_DEVICE, CONFIGURE_ENDPOINT, DISABLE_SLOT, DOORBELL,
                            ENABLE_SLOT, EVALUATE_CONTEXT, GUEST_STORE, MEMORY, NEW_SESSION, OK,
                            RESET_ALL, RESET_DEVICE, RESET_ENDPOINT, SET_DCBAAP, SET_DEQUEUE,
                            SET_LIMIT, STALL, STOP_ENDPOINT, TRANSACTION_ERROR, TRB_ERROR, USES,
                            Record, Session)

INPUT_COMMANDS = ADDRESS_DEVICE, CONFIGURE_ENDPOINT, EVALUATE_CONTEXT
HOST_EVENTS = OK, STALL, TRANSACTION_ERROR, TRB_ERROR
ENDPOINT_KINDS = STOP_ENDPOINT, RESET_ENDPOINT, SET_DEQUEUE, DOORBELL, *HOST_EVENTS
START = SET_LIMIT, ENABLE_SLOT, ADDRESS_DEVICE, ENABLE_SLOT, ADDRESS_DEVICE
WEIGHTS = {SET_LIMIT: 3, SET_DCBAAP: 4, ENABLE_SLOT: 6, DISABLE_SLOT: 3, ADDRESS_DEVICE: 10,
           CONFIGURE_ENDPOINT: 20, EVALUATE_CONTEXT: 4, RESET_DEVICE: 3, RESET_ALL: 1,
           STOP_ENDPOINT: 16, RESET_ENDPOINT: 8, SET_DEQUEUE: 12, DOORBELL: 4,
           **dict.fromkeys(HOST_EVENTS, 5)}
IN_USE = ENABLED, DEFAULT, ADDRESSED, CONFIGURED
WITH_ENDPOINTS = DEFAULT, ADDRESSED, CONFIGURED
GOOD_TYPES = 2, 3, 4, 6, 7
BAD_TYPES = 0, 1, 5


def in_domain(session, record):
    """All accesses inside memory; slot ids and limits that both sides have; DCBAAP a
    multiple of 64; aligned pointers in commands and host events; no terminate of an
    endpoint that is in flight or in Error, and no add over one in flight."""
    uses_slot, uses_endpoint, *_ = USES[record.kind]
    if uses_slot and not 1 <= record.slot <= SLOTS:
        return False
    if uses_endpoint and not 1 <= record.endpoint <= ENDPOINTS:
        return False
    if record.pointer % (64 if record.kind == SET_DCBAAP else 16):
        return False
    # The Rust reads 8 bytes at P even where P is not used.
    if record.kind in INPUT_COMMANDS and record.pointer + 8 > MEMORY:
        return False
    if record.kind == SET_LIMIT:
        return record.value <= SLOTS
    before = session.table
    answer = copy_of(session).play(record)
    if record.kind == RESET_ALL:
        return not any(endpoint.state in (IN_FLIGHT, ERROR) for endpoint in before.endpoints)
    ended = [before.endpoint(record.slot, number).state for number in flags(answer.terminated, 1)]
    replaced = [before.endpoint(record.slot, number).state
                for number in flags(answer.launched & ~answer.terminated, 1)]
    return (answer.code != OUTSIDE and IN_FLIGHT not in ended and ERROR not in ended
            and IN_FLIGHT not in replaced)


def copy_of(session):
    trial = Session()
    trial.table = session.table.copy()
    trial.memory[:] = session.memory
    return trial


class Guest:
    """A guest and its host, who play a session and keep its records."""

    def __init__(self, choices, domain):
        self.choices = choices
        self.domain = domain
        self.session = Session()
        self.records = [Record(NEW_SESSION)]
        self.calls = 0

    def chance(self, part):
        return self.choices.random() < part

    def odd(self):
        """Now and then a hostile guest gives a number that makes no sense."""
        return not self.domain and self.chance(1 / 8)

    def call(self, kind, **fields):
        record = Record(kind, **fields)
        if not self.domain or in_domain(self.session, record):
            self.session.play(record)
            self.records.append(record)
            self.calls += 1

    def poke(self, address, number, count):
        """Guest stores of a little-endian number, where they change memory."""
        for place, byte in enumerate(number.to_bytes(count, "little"), address):
            place %= WRAP
            if place < MEMORY and self.session.memory[place] != byte:
                record = Record(GUEST_STORE, pointer=place, value=byte)
                self.session.play(record)
                self.records.append(record)

    def edge(self):
        """An address by the end of memory, one from which additions wrap, or any."""
        return self.choices.choice((
            MEMORY - 8 * self.choices.randrange(1, 150) + self.jitter(),
            WRAP - self.choices.randrange(1, 6),
            WRAP - self.choices.randrange(1, 1200),
            self.choices.randrange(WRAP)))

    def jitter(self):
        return self.choices.choice((-1, 0, 0, 1))

    def by_the_end(self, fewest):
        """Room for a few contexts, give or take a byte."""
        contexts = self.choices.choice((fewest, self.choices.randrange(fewest, 35)))
        return MEMORY - CONTEXT * contexts + self.jitter()

    def device_address(self):
        """Where a device context goes: mostly clear of others, at times so close to the end
        of memory that only some endpoints fit, or over another."""
        if self.odd():
            return self.edge()
        if self.chance(1 / 4):
            return self.by_the_end(2)
        bases = [self.session.table.slot(slot).base for slot in self.slots(WITH_ENDPOINTS)]
        if bases and self.chance(1 / 4):
            return (self.choices.choice(bases) + 16 * self.choices.randrange(-8, 9)) % WRAP
        return 64 * self.choices.randrange(MEMORY // 64 - 16)

    def input_address(self, base):
        """Where an input context goes: the same, or over the device context at base."""
        if self.odd():
            return self.edge()
        address = 64 * self.choices.randrange(MEMORY // 64 - 17)
        if self.chance(1 / 4):
            address = self.by_the_end(3)
        elif self.chance(1 / 3):
            address = base - self.choices.randrange(-32, self.choices.choice((128, 1088)))
        return (address - address % 16 if self.domain else address) % WRAP

    def dcbaap(self):
        """Mostly room for all entries; else the next slot's entry is by the end or wraps."""
        if not self.odd():
            return 64 * self.choices.randrange(MEMORY // 64 - 2)
        entry = 8 * min(self.slots([FREE]), default=1)
        return self.choices.choice((MEMORY - 8 - entry + self.jitter(), self.edge(),
                                    (WRAP - entry + self.choices.randrange(64)) % WRAP))

    def slots(self, states):
        return [number for number, slot in enumerate(self.session.table.slots, 1)
                if slot.state in states]

    def slot(self, states):
        """Mostly a slot in one of the states, or at least in use."""
        if self.odd():
            return self.choices.choice((0, 17, 18, 255))
        fit = self.slots(states) or self.slots(IN_USE)
        return (self.choices.choice(fit) if fit and self.chance(0.95)
                else self.choices.randrange(1, SLOTS + 1))

    def endpoint(self, slot):
        """Mostly one of the slot's first enabled endpoints."""
        if self.odd():
            return self.choices.choice((0, 32, 33, 255))
        fit = [number for number in range(1, ENDPOINTS + 1) if 1 <= slot <= SLOTS
               and self.session.table.endpoint(slot, number).state != DISABLED]
        return (self.choices.choice(fit[:3]) if fit and self.chance(0.95)
                else self.choices.randrange(1, ENDPOINTS + 1))

    def ring_pointer(self):
        if self.odd():
            return self.choices.randrange(WRAP)
        return 16 * self.choices.randrange(WRAP // 16 if self.chance(1 / 4) else MEMORY // 16)

    def flag_word(self):
        """Mostly a few flags, at times all, any or none."""
        few = sum({1 << self.choices.randrange(32) for _ in range(3)})
        return self.choices.choice([few] * 8 + [3, 1 << 31, 0xFFFFFFFF, 0,
                                                self.choices.randrange(2**32)])

    def add_flags(self, pointer, base):
        """Flags whose highest endpoint, if memory ends nearby, just fits or just does not."""
        room = min((MEMORY - pointer) // CONTEXT - 1, (MEMORY - base) // CONTEXT)
        if not 3 <= room <= 31 or self.chance(1 / 4):
            return self.flag_word()
        highest = room - 1 if self.domain or self.chance(1 / 2) else room
        return self.flag_word() % (1 << highest) | 1 << highest

    def write_input(self, pointer, added, dropped):
        """An input context at P: flags, root port, and a type and a ring for each endpoint."""
        self.poke(pointer, dropped, 4)
        self.poke(pointer + 4, added, 4)
        self.poke(pointer + CONTEXT + 6, self.choices.randrange(256), 1)
        endpoints = flags(added | 2, 1)
        bad = self.choices.choice(endpoints) if self.chance(1 / 6) else 0
        for number in endpoints:
            context = pointer + CONTEXT * (number + 1)
            kind = self.choices.choice(BAD_TYPES if number == bad else GOOD_TYPES)
            self.poke(context + 4, kind << 3 | self.choices.randrange(4) << 6, 1)
            if self.chance(1 / 2):
                self.poke(context + 8, self.ring_pointer() | self.choices.randrange(16), 8)

    def settle(self, slots):
        """Inside the domain a guest ends no endpoint that is in flight or in Error."""
        for slot in slots if self.domain else ():
            for number, endpoint in enumerate(self.session.table.endpoints_of(slot), 1):
                if endpoint.state == IN_FLIGHT:
                    self.call(OK, slot=slot, endpoint=number, pointer=self.ring_pointer())
                elif endpoint.state == ERROR:
                    self.call(SET_DEQUEUE, slot=slot, endpoint=number, pointer=self.ring_pointer())

    def input_command(self, kind):
        """Address Device, Configure Endpoint or Evaluate Context, with what it reads."""
        slot = self.slot({ADDRESS_DEVICE: (ENABLED, DEFAULT),
                          CONFIGURE_ENDPOINT: (ADDRESSED, CONFIGURED),
                          EVALUATE_CONTEXT: IN_USE}[kind])
        base = 0
        if 1 <= slot <= SLOTS:
            self.settle([slot])
            state, base, entry = self.session.table.slot(slot)
            if state in (ENABLED, DEFAULT) and self.chance(3 / 4):
                address = self.device_address()
                self.poke(entry, address, 8)
                base = address if state == ENABLED else base
        pointer = self.input_address(base)
        if self.chance(7 / 8):
            added = (3 if kind == ADDRESS_DEVICE and self.chance(1 / 2)
                     else self.add_flags(pointer, base))
            self.write_input(pointer, added, self.flag_word())
        flag = 0 if kind == EVALUATE_CONTEXT else int(self.chance(1 / 3))
        self.call(kind, slot=slot, flag=flag, pointer=pointer)

    def endpoint_call(self, kind):
        """A command, a doorbell or a host event for one endpoint; a doorbell often goes
        before an event or a Stop, so that a transfer is in flight."""
        slot = self.slot(WITH_ENDPOINTS)
        endpoint = self.endpoint(slot)
        leading = [DOORBELL] if kind in (STOP_ENDPOINT, *HOST_EVENTS) and self.chance(1 / 2) else []
        for each in (*leading, kind):
            _, _, flag, pointer, _ = USES[each]
            self.call(each, slot=slot, endpoint=endpoint,
                      flag=flag & self.choices.choice((0, 1, 2, 2, 3, 3)),
                      pointer=pointer & self.ring_pointer())

    def turn(self, kind):
        """One call of a kind, and the guest stores and calls that lead to it."""
        if kind == SET_LIMIT:
            self.call(kind, value=self.choices.choice((17, 255, WRAP - 1)) if self.odd()
                      else self.choices.randrange(self.choices.choice((5, SLOTS + 1))))
        elif kind == SET_DCBAAP:
            self.call(kind, pointer=self.dcbaap())
        elif kind == ENABLE_SLOT:
            self.call(kind)
        elif kind == RESET_ALL:
            self.settle(range(1, SLOTS + 1))
            self.call(kind)
        elif kind in INPUT_COMMANDS:
            self.input_command(kind)
        elif kind in ENDPOINT_KINDS:
            self.endpoint_call(kind)
        else:
            slot = self.slot(IN_USE if kind == DISABLE_SLOT else WITH_ENDPOINTS)
            if 1 <= slot <= SLOTS:
                self.settle([slot])
            self.call(kind, slot=slot)


def session(seed, calls, domain):
    """The records of one session."""
    choices = random.Random(seed)
    guest = Guest(choices, domain)
    while guest.calls < calls:
        stuck = not guest.slots(WITH_ENDPOINTS) and guest.chance(1 / 2)
        for kind in START if stuck else choices.choices(list(WEIGHTS), WEIGHTS.values()):
            guest.turn(kind)
    return guest.records


def main():
    parser = argparse.ArgumentParser(description="Writes random sessions as records.")
    mode = parser.add_mutually_exclusive_group(required=True)
    mode.add_argument("--domain", action="store_true", help="inside the domain of the Rust")
    mode.add_argument("--hostile", action="store_true", help="any numbers")
    parser.add_argument("--seed", type=int, default=1)
    parser.add_argument("--sessions", type=int, default=10)
    parser.add_argument("--calls", type=int, default=100)
    choice = parser.parse_args()
    for number in range(choice.sessions):
        for record in session(f"{choice.seed}.{number}", choice.calls, choice.domain):
            sys.stdout.buffer.write(record.encode())


if __name__ == "__main__":
    main()
