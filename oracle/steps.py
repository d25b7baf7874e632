#!/usr/bin/env python3
"""Compares the stored lines of all fifty-four endpoint steps with the unchanged Rust.

    steps.py [--oracle PATH] [FILE]

FILE is crates/endpoint_cases/stdout.  Its lines have three forms:

    STATE INPUT PLACE | CODE SUBMIT CANCEL STORED | RECORD | MEMORY
    launch WORD | RECORD | MEMORY
    terminate STATE | STORED | RECORD | MEMORY

For each line a session brings endpoint 1 of slot 1 into the state, fills the bytes that
the line shows with ee, and gives the input: a launch by Address Device, a Terminate by
Disable Slot.  The Rust's answer, record and bytes must be the line's.  Lines to which the
Rust has no answer of its own are counted with the reason, and the oracle must say so.
"""

import argparse
import struct
import subprocess
import sys
from collections import Counter
from pathlib import Path

HERE = Path(__file__).resolve().parent
sys.path.insert(0, str(HERE.parent / "tests"))

from replay_reading import (ADDRESS_DEVICE, DISABLE_SLOT, DOORBELL, ENABLE_SLOT, GUEST_STORE,
                            MEMORY, OK, RESET_ENDPOINT, ROW, SET_DCBAAP, SET_DEQUEUE, SET_LIMIT,
                            STALL, STOP_ENDPOINT, TRANSACTION_ERROR, TRB_ERROR, Record)

KINDS = {"doorbell": DOORBELL, "stop": STOP_ENDPOINT, "reset": RESET_ENDPOINT,
         "set-dequeue": SET_DEQUEUE, "ok": OK, "stall": STALL,
         "transaction-error": TRANSACTION_ERROR, "trb-error": TRB_ERROR}
HOST_EVENTS = "ok", "stall", "transaction-error", "trb-error"
# As the oracle numbers them.
STATES = ["disabled", "waiting", "in-flight", "halted", "error", "stopped-continuable", "stopped"]

DCBAAP, BASE, INPUT = 256, 1024, 2048
# A line shows the 8 bytes before the endpoint's context, and the context.
SHOWN, WORDS = BASE + 24, struct.Struct("<5Q")
# The place where the endpoint rests before a step, and before a line's terminate.
STEPPED, ENDED = ("1230", "1"), ("2340", "1")

# Why the Rust has no answer of its own, and the words by which the oracle shows it.
ABSENT = "a host event out of flight: the oracle answers 196 itself, the Rust is not asked", "196 "
DROPS = "Terminate in flight or in Error: the Rust drops the message", "SlotWorker stopped"
PANICS = "an unaligned pointer that the step uses: the Rust panics", "panicked"
LOOKS = "an unaligned look report that the step uses: the ring is a stand-in", "unaligned pointer"


def fill(address, data):
    return [Record(GUEST_STORE, pointer=place, value=byte)
            for place, byte in enumerate(data, address)]


def enabled():
    """Slot 1 is Enabled, and its DCBAA entry holds the base."""
    return [Record(SET_LIMIT, value=1), Record(SET_DCBAAP, pointer=DCBAAP),
            *fill(DCBAAP + 8, BASE.to_bytes(8, "little")), Record(ENABLE_SLOT)]


def launched(word):
    """Endpoint 1 is launched from an input context of ee with this dequeue word.  There is
    no add flag, so its type is not judged."""
    contexts = b"\xee" * 40 + word.to_bytes(8, "little") + b"\xee" * 16
    return [*enabled(), *fill(INPUT + 32, contexts), Record(ADDRESS_DEVICE, 1, pointer=INPUT)]


def given(name, *place):
    """An input with its place: found, pointer and cycle; pointer and cycle; or nowhere."""
    if name == "terminate":
        return Record(DISABLE_SLOT, 1)
    if place in ((), ("nowhere",)):
        return Record(KINDS[name], 1, 1)
    *found, pointer, cycle = [int(part, 16) for part in place]
    if name in ("stall", "transaction-error"):
        found = [1]
    return Record(KINDS[name], 1, 1, sum(found) << 1 | cycle, pointer)


def resting(state, pointer, cycle):
    """Endpoint 1 rests in the state with this pointer and cycle, over ee."""
    flying = [given("doorbell", "1", pointer, cycle)]
    steps = {"disabled": [], "waiting": [], "in-flight": flying,
             "halted": [*flying, given("stall", "nowhere")],
             "error": [*flying, given("trb-error")],
             "stopped-continuable": [*flying, given("stop")], "stopped": [given("stop")]}[state]
    start = enabled() if state == "disabled" else launched(int(pointer, 16) | int(cycle))
    return [*start, *steps, *fill(SHOWN, b"\xee" * WORDS.size)]


def session(head):
    """The records of a line's session; the last one is the call that the line is about."""
    first, *rest = head
    if first == "launch":
        return launched(int(rest[0], 16))
    if first == "terminate":
        return [*resting(rest[0], *ENDED), given("terminate")]
    return [*resting(first, *STEPPED), given(*rest)]


def expected(head, counts):
    """The eight numbers of the answer to that call.  Address Device stores 66 bytes, and its
    root port is ee; Disable Slot has the endpoint that it ended in its mask."""
    if head[0] == "launch":
        return "1 0 2 0 238 66 0 0".split()
    if head[0] == "terminate":
        counts = ["1", "0", "0", *counts]
    code, submit, cancel, stored = counts
    ended = "2" if "terminate" in head and stored == "1" else "0"
    return [code, "0", "0", ended, "0", stored, submit, cancel]


def left_out(head, counts):
    """Why the Rust has no answer of its own to a line, or None."""
    if head[0] == "launch":
        return None
    state, name = reversed(head) if head[0] == "terminate" else head[:2]
    if name in HOST_EVENTS and state != "in-flight":
        return ABSENT
    if name == "terminate" and state in ("in-flight", "error"):
        return DROPS
    if counts[0] == "195":
        return LOOKS if name in ("doorbell", "ok") else PANICS
    return None


def run(oracle, records):
    """The lines that the oracle prints for the last call and the end of the session."""
    data = b"".join(record.encode() for record in records)
    done = subprocess.run([oracle], input=data, stdout=subprocess.PIPE, stderr=subprocess.DEVNULL,
                          check=False)
    before = sum(record.kind != GUEST_STORE for record in records) - 1
    return done.stdout.decode().splitlines()[before:]


def observed(answer, *end):
    """The answer, the endpoint's record and the words that a line shows."""
    endpoint, memory = ["disabled", "0", "0"], bytearray(MEMORY)
    for name, *parts in map(str.split, end):
        if name == "endpoint":
            _, _, state, cycle, pointer = map(int, parts)
            endpoint = [STATES[state], f"{pointer:x}", str(cycle)]
        elif name == "memory":
            memory[int(parts[0]):int(parts[0]) + ROW] = bytes.fromhex(parts[1])
    return answer.split(), endpoint, [f"{word:016x}" for word in WORDS.unpack_from(memory, SHOWN)]


def main():
    parser = argparse.ArgumentParser(description="Compares the stored steps with the Rust.")
    parser.add_argument("--oracle", default=HERE / "target/release/oracle")
    parser.add_argument("file", nargs="?", default=HERE.parent / "crates/endpoint_cases/stdout")
    choice = parser.parse_args()
    lines = Path(choice.file).read_text().splitlines()
    compared, skipped, entries, differences = Counter(), Counter(), set(), 0
    for line in lines:
        head, *counts, record, words = [part.split() for part in line.split("|")]
        counts = sum(counts, [])
        told = run(choice.oracle, session(head))
        reason = left_out(head, counts)
        if reason:
            why, sign = reason
            skipped[why] += 1
            agrees = sign in told[0]
        else:
            step = head[0] not in ("launch", "terminate")
            unused = step and given(*head[1:]).pointer % 16
            entries.update([tuple(head[:2])] if step else [])
            compared["steps with an unaligned pointer that the state does not use" if unused
                     else "steps" if step else f"lines of {head[0]}"] += 1
            agrees = (told[0].startswith(tuple("0123456789"))
                      and observed(*told) == (expected(head, counts), record, words))
        if not agrees:
            differences += 1
            print("difference:", line, *told, sep="\n  ")
    print(f"{len(lines)} lines, {compared.total()} compared, {differences} differences;"
          f" {len(entries)} of 54 entries have a line that was compared")
    for title, counter in (("compared", compared), ("not compared", skipped)):
        print(*[f"{title}: {count} {what}" for what, count in counter.items()], sep="\n")
    sys.exit(1 if differences else 0)


if __name__ == "__main__":
    main()
