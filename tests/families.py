"""Families of short sessions inside the domain of the Rust: every sequence of inputs to a launched
endpoint, and every sequence of slot commands."""

from replay_reading import (ADDRESS_DEVICE, CONFIGURE_ENDPOINT, DISABLE_SLOT, DOORBELL,
                            ENABLE_SLOT, EVALUATE_CONTEXT, GUEST_STORE, NEW_SESSION, OK,
                            RESET_ALL, RESET_DEVICE, RESET_ENDPOINT, SET_DCBAAP, SET_DEQUEUE,
                            SET_LIMIT, STALL, STOP_ENDPOINT, TRANSACTION_ERROR, TRB_ERROR,
                            Record, Session)
from sessions import copy_of, in_domain

# Input contexts: endpoint 1; endpoint 1 of a bad type; endpoints 2 and 3 added; endpoint 3
# dropped, endpoint 2 added.
PLAIN, BAD, ADDS, DROPS = 0x2000, 0x3000, 0x4000, 0x5000


def stores(address, number, count):
    """Guest stores of a little-endian number to memory that is zero."""
    return [Record(GUEST_STORE, pointer=place, value=byte)
            for place, byte in enumerate(number.to_bytes(count, "little"), address) if byte]


def input_context(pointer, dropped, added, kinds):
    """Flags, a root port, and for each endpoint its type and a ring."""
    records = stores(pointer, dropped, 4) + stores(pointer + 4, added, 4)
    records += stores(pointer + 38, 5, 1)
    for number, kind in kinds.items():
        context = pointer + 32 * (number + 1)
        records += stores(context + 4, kind << 3, 1)
        records += stores(context + 8, 0x7001 + 0x100 * number, 8)
    return records


SETTING = [Record(SET_LIMIT, value=2), Record(SET_DCBAAP, pointer=0x100),
           *stores(0x108, 0x400, 8), *stores(0x110, 0x1000, 8),
           *input_context(PLAIN, 0, 0b11, {1: 4})]
LAUNCHED = [*SETTING, Record(ENABLE_SLOT), Record(ADDRESS_DEVICE, 1, pointer=PLAIN)]
CONTEXTS = [*SETTING, *input_context(BAD, 0, 0b11, {1: 5}),
            *input_context(ADDS, 0, 0b1100, {2: 2, 3: 7}),
            *input_context(DROPS, 0b1000, 0b0100, {2: 6})]

# Each place is another one, so that a pointer tells where it came from.
INPUTS = [Record(DOORBELL, 1, 1, 0b01, 0x6010), Record(DOORBELL, 1, 1, 0b10, 0x6020),
          Record(STOP_ENDPOINT, 1, 1), Record(RESET_ENDPOINT, 1, 1),
          Record(SET_DEQUEUE, 1, 1, 0b0, 0x6030), Record(DISABLE_SLOT, 1),
          Record(OK, 1, 1, 0b00, 0x6040), Record(OK, 1, 1, 0b11, 0x6050),
          Record(STALL, 1, 1, 0b10, 0x6060), Record(STALL, 1, 1, 0b00),
          Record(TRANSACTION_ERROR, 1, 1, 0b11, 0x6070), Record(TRANSACTION_ERROR, 1, 1, 0b00),
          Record(TRB_ERROR, 1, 1)]
COMMANDS = [Record(ENABLE_SLOT), Record(DISABLE_SLOT, 1),
            Record(ADDRESS_DEVICE, 1, flag=0, pointer=PLAIN),
            Record(ADDRESS_DEVICE, 1, flag=1, pointer=PLAIN),
            Record(ADDRESS_DEVICE, 1, flag=0, pointer=BAD),
            Record(CONFIGURE_ENDPOINT, 1, flag=0, pointer=ADDS),
            Record(CONFIGURE_ENDPOINT, 1, flag=0, pointer=DROPS),
            Record(CONFIGURE_ENDPOINT, 1, flag=1, pointer=DROPS),
            Record(EVALUATE_CONTEXT, 1, pointer=ADDS),
            Record(RESET_DEVICE, 1), Record(RESET_ALL)]


def sequences(start, choices, length):
    """Every sequence of so many of the choices, inside the domain, after the start."""
    def grow(model, records, left):
        if left == 0:
            yield records
            return
        for record in choices:
            if in_domain(model, record):
                longer = copy_of(model)
                longer.play(record)
                yield from grow(longer, [*records, record], left - 1)

    model = Session()
    for record in start:
        model.play(record)
    return grow(model, [Record(NEW_SESSION), *start], length)
