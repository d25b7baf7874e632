#!/usr/bin/env python3
"""Replays recorded sessions by the reading of the rules.

    replay_reading.py [--answers] [FILE]

Records of 32 bytes come from FILE or standard input: kind, slot, endpoint, flag at
0..3, zeros at 4..7, pointer at 8..15, value at 16..23, zeros to 31.  Flag bit 0 is BSR,
DC or the cycle; bit 1 is found, or pointer given.

Each call prints its answer's eight decimals.  Each session, which kind 0 begins, ends
with the table and with every 32-byte row of memory that is not all zero.  With --answers
the input is one session, kind 0 is no kind, and only answers are printed.
"""

import argparse
import struct
import sys
from typing import NamedTuple

import reading

MEMORY = 65_536
ROW = 32
LAYOUT = struct.Struct("<4B4sQQ8s")
(NEW_SESSION, SET_LIMIT, SET_DCBAAP, ENABLE_SLOT, DISABLE_SLOT, ADDRESS_DEVICE,
 CONFIGURE_ENDPOINT, EVALUATE_CONTEXT, RESET_DEVICE, RESET_ALL, STOP_ENDPOINT, RESET_ENDPOINT,
 SET_DEQUEUE, DOORBELL, OK, STALL, TRANSACTION_ERROR, TRB_ERROR, GUEST_STORE) = range(19)

BYTE = 0xFF
LONG = 2**64 - 1

# The bits that a kind uses of each field.  It uses a field even where this record's flag
# makes it irrelevant: DC=1 may carry P, and a Stall without a given pointer may carry one.
# Flag bit 0 of a Stall or Transaction Error holds the cycle of the place that is given.
USES = {
    #                   slot  endp. flag  pointer value
    SET_LIMIT:          (0,    0,    0b00, 0,    LONG),
    SET_DCBAAP:         (0,    0,    0b00, LONG, 0),
    ENABLE_SLOT:        (0,    0,    0b00, 0,    0),
    DISABLE_SLOT:       (BYTE, 0,    0b00, 0,    0),
    ADDRESS_DEVICE:     (BYTE, 0,    0b01, LONG, 0),
    CONFIGURE_ENDPOINT: (BYTE, 0,    0b01, LONG, 0),
    EVALUATE_CONTEXT:   (BYTE, 0,    0b00, LONG, 0),
    RESET_DEVICE:       (BYTE, 0,    0b00, 0,    0),
    RESET_ALL:          (0,    0,    0b00, 0,    0),
    STOP_ENDPOINT:      (BYTE, BYTE, 0b00, 0,    0),
    RESET_ENDPOINT:     (BYTE, BYTE, 0b00, 0,    0),
    SET_DEQUEUE:        (BYTE, BYTE, 0b01, LONG, 0),
    DOORBELL:           (BYTE, BYTE, 0b11, LONG, 0),
    OK:                 (BYTE, BYTE, 0b11, LONG, 0),
    STALL:              (BYTE, BYTE, 0b11, LONG, 0),
    TRANSACTION_ERROR:  (BYTE, BYTE, 0b11, LONG, 0),
    TRB_ERROR:          (BYTE, BYTE, 0b00, 0,    0),
    GUEST_STORE:        (0,    0,    0b00, LONG, BYTE),
}

# The call of a kind, and the parts of the record that it takes, in its order.
CALLS = {
    SET_LIMIT: (reading.set_limit, "value"),
    SET_DCBAAP: (reading.set_dcbaap, "pointer"),
    ENABLE_SLOT: (reading.enable_slot,),
    DISABLE_SLOT: (reading.disable_slot, "slot"),
    ADDRESS_DEVICE: (reading.address_device, "slot", "pointer", "low"),
    CONFIGURE_ENDPOINT: (reading.configure_endpoint, "slot", "pointer", "low"),
    EVALUATE_CONTEXT: (reading.evaluate_context, "slot", "pointer"),
    RESET_DEVICE: (reading.reset_device, "slot"),
    RESET_ALL: (reading.reset_all,),
    STOP_ENDPOINT: (reading.stop_endpoint, "slot", "endpoint"),
    RESET_ENDPOINT: (reading.reset_endpoint, "slot", "endpoint"),
    SET_DEQUEUE: (reading.set_dequeue, "slot", "endpoint", "pointer", "low"),
    DOORBELL: (reading.doorbell, "slot", "endpoint", "high", "pointer", "low"),
    OK: (reading.ok, "slot", "endpoint", "high", "pointer", "low"),
    STALL: (reading.stall, "slot", "endpoint", "given", "given_cycle"),
    TRANSACTION_ERROR: (reading.transaction_error, "slot", "endpoint", "given", "given_cycle"),
    TRB_ERROR: (reading.trb_error, "slot", "endpoint"),
}
LEND_NONE = SET_LIMIT, SET_DCBAAP, ENABLE_SLOT


class BadRecord(Exception):
    """A short last record, an unknown kind, a nonzero byte where zero is due, a stored
    value above 255 or a guest store outside memory."""


class Record(NamedTuple):
    kind: int
    slot: int = 0
    endpoint: int = 0
    flag: int = 0
    pointer: int = 0
    value: int = 0

    @property
    def low(self):
        return self.flag & 1

    @property
    def high(self):
        return self.flag >> 1

    @property
    def given(self):
        return self.pointer if self.high else None

    @property
    def given_cycle(self):
        return self.low if self.high else None

    def encode(self):
        kind, slot, endpoint, flag, pointer, value = self
        return LAYOUT.pack(kind, slot, endpoint, flag, b"", pointer, value, b"")


def decode(data):
    """Kind, slot, endpoint, flag at 0..3, zeros at 4..7, pointer at 8..15, value at
    16..23, zeros to 31."""
    if len(data) != LAYOUT.size:
        raise BadRecord
    kind, slot, endpoint, flag, hole, pointer, value, rest = LAYOUT.unpack(data)
    if any(hole) or any(rest):
        raise BadRecord
    return Record(kind, slot, endpoint, flag, pointer, value)


class Session:
    """It starts from a fresh table and 65,536 zero bytes."""

    def __init__(self):
        _, self.table = reading.make_table(MEMORY)
        self.memory = bytearray(MEMORY)

    def guest_store(self, address, byte):
        """A guest store prints nothing."""
        if address >= len(self.memory):
            raise BadRecord
        self.memory[address] = byte

    def play(self, record):
        """Fields that a kind does not use are zero."""
        uses = USES.get(record.kind)
        if uses is None or any(number & ~used for number, used in zip(record[1:], uses)):
            raise BadRecord
        if record.kind == GUEST_STORE:
            return self.guest_store(record.pointer, record.value)
        call, *parts = CALLS[record.kind]
        lent = [] if record.kind in LEND_NONE else [self.memory]
        return call(self.table, *lent, *(getattr(record, part) for part in parts))

    def end(self):
        """The slots in use, the enabled endpoints, the rows of memory that are not all
        zero; ascending."""
        numbered = list(enumerate(self.table.slots, 1))
        for slot, record in numbered:
            if record.state != reading.FREE:
                yield f"slot {slot} {record.state} {record.base} {record.entry}"
        for slot, _ in numbered:
            for endpoint, record in enumerate(self.table.endpoints_of(slot), 1):
                if record.state != reading.DISABLED:
                    yield (f"endpoint {slot} {endpoint} {record.state} {record.cycle}"
                           f" {record.pointer}")
        for address in range(0, len(self.memory), ROW):
            row = self.memory[address:address + ROW]
            if any(row):
                yield f"memory {address} {row.hex()}"


def replay(source, answers_only=False):
    """One line per call, eight decimals with single spaces, in the order of the answer."""
    session = Session()
    try:
        while data := source.read(LAYOUT.size):
            record = decode(data)
            if record == Record(NEW_SESSION) and not answers_only:
                yield from session.end()
                session = Session()
                continue
            answer = session.play(record)
            if answer is not None:
                yield " ".join(map(str, answer))
    except BadRecord:
        # Decided here: "ends the run" leaves the cut session's table and memory unprinted.
        yield "bad record"
        return
    if not answers_only:
        yield from session.end()


def main():
    parser = argparse.ArgumentParser(description="Replays recorded sessions by the reading.")
    parser.add_argument("--answers", action="store_true", help="print the answers only")
    parser.add_argument("file", nargs="?", help="records, instead of standard input")
    choice = parser.parse_args()
    with open(choice.file, "rb") if choice.file else sys.stdin.buffer as source:
        for line in replay(source, choice.answers):
            print(line)


if __name__ == "__main__":
    main()
