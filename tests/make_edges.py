#!/usr/bin/env python3
"""Writes what the program `edges` must write, from the rules of document 01 as reading.py renders them.

    make_edges.py > crates/edges/stdout

Under a heading, each line: the call and its numbers; the answer's eight numbers; checksums of
the table and of memory after the call, and whether they are those before it.
"""

import reading
from reading import (ADDRESSED, CONFIGURED, CONTINUABLE, DEFAULT, DISABLED, ENABLED, ERROR, FREE,
                     HALTED, IN_FLIGHT, STOPPED, WAITING, Endpoint, Slot, Table)

MOST = 2**64 - 1
NUMBERS = 0, 1, 16, 17, 31, 32, 255, 2**32, MOST
PLACE = 2048


# ---- the table and the memory

def plain_table():
    table = Table(length=4096, limit=4, dcbaap=256)
    table.set_slot(1, Slot(CONFIGURED, 1024, 264))
    table.set_slot(2, Slot(ENABLED, 0, 272))
    table.set_slot(3, Slot(DEFAULT, 2560, 280))
    table.set_slot(16, Slot(ADDRESSED, 4032, 384))
    table.set_endpoint(3, 1, Endpoint(WAITING, 0, 3184))
    table.set_endpoint(16, 1, Endpoint(WAITING, 1, 3200))
    states = WAITING, IN_FLIGHT, HALTED, ERROR, CONTINUABLE, STOPPED
    for number, state in enumerate(states, 1):
        table.set_endpoint(1, number, Endpoint(state, number % 2, 3056 + 16 * number))
    table.set_endpoint(1, 31, Endpoint(WAITING, 1, 3168))
    return table


def with_slot(slot, *record):
    table = plain_table()
    table.set_slot(slot, Slot(*record))
    return table


def with_endpoint(slot, endpoint, *record):
    table = plain_table()
    table.set_endpoint(slot, endpoint, Endpoint(*record))
    return table


def with_numbers(**numbers):
    table = plain_table()
    for name, number in numbers.items():
        setattr(table, name, number)
    return table


def memory(length=4096, base=1536, flags=0, kind=0):
    """Slot 2's DCBAA entry; flags of two input contexts; endpoint 1's type and dequeue
    word in the first of them; slot 1's root port."""
    lent = bytearray(4097)
    words = {272: base, 2048: flags << 32, 4032: flags << 32, 2112: kind << 35, 2120: 3073,
             1024: 5 << 48}
    for address, word in words.items():
        lent[address:address + 8] = word.to_bytes(8, "little")
    return lent[:length]


# ---- checksums

def half(total, bits):
    return (total * 16777619 + bits) % 4294967291


def whole(total, number):
    return half(half(total, number % 2**32), number // 2**32)


def table_sum(table):
    total = 0
    for number in (table.limit, table.length, table.dcbaap):
        total = whole(total, number)
    for record in table.slots + table.endpoints:
        for number in record:
            total = whole(total, number)
    return total


def memory_sum(lent):
    total = 0
    for byte in lent:
        total = half(total, byte)
    return total


# ---- one call

TABLE_CALLS = "set-limit", "set-dcbaap", "enable-slot", "reset-all"
SLOT_CALLS = ("disable-slot", "address-device", "configure-endpoint", "evaluate-context",
              "reset-device")
ENDPOINT_CALLS = ("stop-endpoint", "reset-endpoint", "set-dequeue", "doorbell", "host-ok",
                  "host-stall", "host-transaction-error", "host-trb-error")
TAKES_NOTHING = "enable-slot", "reset-all", "disable-slot", "reset-device"
TAKES_NO_FLAG = "evaluate-context",
LENDS_NONE = "set-limit", "set-dcbaap", "enable-slot"
LOOKS = "doorbell", "host-ok"
TAKES_PLACE = "set-dequeue", "host-stall", "host-transaction-error"


def rule(name):
    return getattr(reading, name.removeprefix("host-").replace("-", "_"))


def arguments(name, slot, endpoint, pointer, flag):
    """What the call takes of the numbers that are written: a limit and DCBAAP come as the
    id, a cycle as the flag, and a look has found a TRB."""
    if name in TABLE_CALLS:
        return [] if name in TAKES_NOTHING else [slot]
    if name in SLOT_CALLS:
        takes = 1 if name in TAKES_NOTHING else 2 if name in TAKES_NO_FLAG else 3
        return [slot, pointer, flag][:takes]
    if name in LOOKS:
        return [slot, endpoint, 1, pointer, flag]
    return [slot, endpoint, pointer, flag] if name in TAKES_PLACE else [slot, endpoint]


def attempt(name, *numbers, table=None, lent=None):
    """A call on a table and a memory of its own."""
    table = plain_table() if table is None else table.copy()
    lent = memory() if lent is None else lent
    before = table_sum(table), memory_sum(lent)
    lends = [] if name in LENDS_NONE else [lent]
    answer = rule(name)(table, *lends, *arguments(name, *numbers))
    after = table_sum(table), memory_sum(lent)
    print(name, *numbers, "|", *answer, "|", *after, "same" if before == after else "changed")


def every(table, length=4096, slot=1, endpoint=2):
    """Every call that takes a table."""
    print("every", length, slot, endpoint)
    for name in TABLE_CALLS + SLOT_CALLS + ENDPOINT_CALLS:
        attempt(name, slot, endpoint, PLACE, 0, table=table, lent=memory(length))


# ---- what is tried

def ids():
    print("ids")
    for name in ("set-limit", "set-dcbaap") + SLOT_CALLS + ENDPOINT_CALLS:
        for number in NUMBERS:
            attempt(name, number, 1, PLACE, 1)
        if name in ENDPOINT_CALLS:
            for number in NUMBERS:
                if number != 1:
                    attempt(name, 1, number, PLACE, 1)
            attempt(name, MOST, MOST, PLACE, 1)


def tables():
    print("enable")
    for limit in 0, 1, 3, 4, 16, 17:
        attempt("enable-slot", limit, 0, 0, 0, table=with_numbers(limit=limit))
    for length in 0, 1, 4096, 2**30 - 1, 2**30, 2**30 + 1, 2**32, MOST:
        answer, table = reading.make_table(length)
        print("make-table", length, "|", *answer, "|", table_sum(table))


def inputs():
    places = 0, PLACE, 4000, 4001, 4032, 4033, 4096, 2**64 - 4, 2**64 - 32
    tried = [("address-device", 2, 0), ("address-device", 2, 1), ("address-device", 3, 0),
             ("address-device", 3, 1), ("configure-endpoint", 1, 0), ("configure-endpoint", 1, 1),
             ("configure-endpoint", 2, 0), ("configure-endpoint", 16, 0),
             ("evaluate-context", 2, 0)]
    for what, flags, kind in ("no flags", 0, 0), ("first flag", 2, 4), ("last flag", 2**31, 4):
        print(what)
        for name, slot, flag in tried:
            for place in places:
                attempt(name, slot, 0, place, flag, lent=memory(flags=flags, kind=kind))
    print("types")
    for kind in range(8):
        for name, slot in ("address-device", 2), ("configure-endpoint", 1), ("evaluate-context", 3):
            attempt(name, slot, 0, PLACE, 0, lent=memory(flags=2, kind=kind))


def bases():
    print("bases")
    for base in 0, 4032, 4033, 4096, 2**64 - 4, 2**64 - 32, MOST:
        for flag in 0, 1:
            attempt("address-device", 2, 0, PLACE, flag, lent=memory(base=base))
    print("entries")
    for entry in 0, 4032, 4033, 4088, 4089, 4096, 2**64 - 4, 2**64 - 32, MOST:
        attempt("address-device", 2, 0, PLACE, 0, table=with_slot(2, ENABLED, 0, entry))


def rings():
    print("rings")
    for name in "set-dequeue", "doorbell", "host-ok", "host-stall", "host-transaction-error":
        for endpoint in range(1, 7):
            for place in 0, 4032, 4033, 4096, 2**64 - 16, 2**64 - 4, 2**64 - 32:
                attempt(name, 1, endpoint, place, 1)


def lengths():
    every(plain_table(), 4095)
    every(plain_table(), 4095, 0, 0)
    every(plain_table(), 4097)
    every(plain_table(), 4097, MOST, MOST)
    every(plain_table(), 0)
    every(with_numbers(limit=17), 4095, 0, 0)
    every(with_numbers(length=2**30))


# The records that spoil a table: a slot's, or that of a slot's endpoint.
MALFORMED = [
    (with_slot, 4, FREE, 1, 0),
    (with_slot, 4, FREE, 0, 1),
    (with_slot, 15, FREE, MOST, 0),
    (with_endpoint, 4, 1, WAITING, 0, 0),
    (with_endpoint, 4, 1, DISABLED, 1, 0),
    (with_endpoint, 15, 31, DISABLED, 0, 16),
    (with_slot, 2, ENABLED, 1, 272),
    (with_endpoint, 2, 1, WAITING, 0, 0),
    (with_endpoint, 2, 31, STOPPED, 0, 3072),
    (with_slot, 3, DEFAULT, 4033, 280),
    (with_slot, 16, ADDRESSED, 4096, 384),
    (with_slot, 1, CONFIGURED, 4033, 264),
    (with_slot, 3, DEFAULT, 2**64 - 32, 280),
    (with_slot, 3, DEFAULT, MOST, 280),
    (with_endpoint, 3, 1, DISABLED, 0, 0),
    (with_endpoint, 16, 1, DISABLED, 0, 0),
    (with_endpoint, 1, 1, DISABLED, 0, 0),
    (with_endpoint, 16, 2, WAITING, 0, 3072),
    (with_endpoint, 16, 31, IN_FLIGHT, 0, 3072),
    (with_endpoint, 1, 7, DISABLED, 1, 0),
    (with_endpoint, 1, 7, DISABLED, 0, 16),
    (with_endpoint, 1, 1, WAITING, 1, 3073),
    (with_endpoint, 1, 31, STOPPED, 1, 3176),
    (with_endpoint, 1, 2, IN_FLIGHT, 0, MOST),
]


def malformed():
    print("limits and lengths")
    for numbers in ({"limit": 17}, {"limit": MOST}, {"length": 2**30 + 1}, {"length": MOST},
                    {"length": 4095}):
        every(with_numbers(**numbers))
    for spoilt, *numbers in MALFORMED:
        if spoilt is with_slot:
            slot, *record = numbers
            print("slot", slot - 1, *record)
        else:
            slot, endpoint, *record = numbers
            print("endpoint", (slot - 1) * 31 + endpoint - 1, *record)
        every(spoilt(*numbers))


def main():
    ids()
    tables()
    inputs()
    bases()
    rings()
    lengths()
    malformed()


main()
