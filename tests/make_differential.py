#!/usr/bin/env python3
"""Makes what the program `differential` reads and what it must write, in named parts.

    make_differential.py [--oracle PATH] [--write]

| part     | sessions                                                     | whose lines             |
|----------|--------------------------------------------------------------|-------------------------|
| hand     | the scope document's cases by hand that lie in the domain    | the oracle's            |
| steps    | the lines of crates/endpoint_cases that the Rust can answer  | the oracle's            |
| random   | random calls inside the domain of the Rust                   | the oracle's            |
| outside  | the other lines of crates/endpoint_cases, and the document's | the second reading's    |
|          | cases by hand that lie outside the domain                    |                         |
| linux    | an ordinary Linux desktop, recorded                          | traces/*.answers for the calls, the second reading's for the end |

Every session begins with a record of zeros.  No line comes from `differential` itself.
Where a host event meets an endpoint out of flight the oracle answers 196 by itself.

The Rust's lines must also be the second reading's, and the cases by hand must have the
document's numbers.  The Rust must leave its domain in each session of the part `outside`
and at the Linux session's call 806, and its answers before that must be the stored ones.

--write stores crates/differential/stdin and stdout; else both must be as they are stored.
"""

import argparse
import io
import subprocess
import sys
from pathlib import Path

ROOT = Path(__file__).resolve().parent.parent
sys.path.insert(0, str(ROOT / "oracle"))

import steps
from replay_reading import (ADDRESS_DEVICE, CONFIGURE_ENDPOINT, ENABLE_SLOT, EVALUATE_CONTEXT,
                            GUEST_STORE, NEW_SESSION, RESET_ALL, SET_DCBAAP, SET_LIMIT,
                            STOP_ENDPOINT, Record, replay)
from sessions import session as random_session

SEED, SESSIONS, CALLS = "differential", 10, 400
STOPS = 806  # The Linux session's call at which the Rust leaves its domain.


def store(address, number, count=8):
    return [Record(GUEST_STORE, pointer=place, value=byte)
            for place, byte in enumerate(number.to_bytes(count, "little"), address)]


# ---- the scope document's cases by hand. Memory is longer here: what lies by its end is moved to the end.

def setting(base=1024, pointer=2048, limit=4):
    """Limit 4, DCBAAP 256, the entry at 264 holds the base; at P flags 3, endpoint 1's type
    and its dequeue word.  Slot 1 is enabled."""
    return [Record(SET_LIMIT, value=limit), Record(SET_DCBAAP, pointer=256), *store(264, base),
            *store(pointer + 4, 3, 4), *store(pointer + 68, 32, 1), *store(pointer + 72, 3073),
            Record(ENABLE_SLOT)]


def address(bsr, pointer=2048, slot=1):
    return Record(ADDRESS_DEVICE, slot, flag=bsr, pointer=pointer)


def configure(pointer=2048, dc=0, slot=1):
    return Record(CONFIGURE_ENDPOINT, slot, flag=dc, pointer=pointer)


def last_endpoint(pointer):
    """Flags D=0, A=2^31 and endpoint 31's type."""
    return store(pointer, 0, 4) + store(pointer + 4, 2**31, 4) + store(pointer + 1028, 56, 1)


def all_on():
    """Sixteen slots with all endpoints on, at 1024 and from there on; P is 32,768.  The
    first slot's Configure Endpoint is done twice, with all endpoints dropped and added."""
    records = [Record(SET_LIMIT, value=16), Record(SET_DCBAAP, pointer=256),
               *store(32768 + 4, 2**32 - 1, 4)]
    for i in range(1, 32):
        records += store(32768 + 32 * (i + 1) + 4, 56, 1)
    for slot in range(1, 17):
        records += [*store(256 + 8 * slot, 1024 * slot), Record(ENABLE_SLOT),
                    address(0, 32768, slot), configure(32768, 0, slot)]
    return records + [*store(32768, 2**32 - 4, 4), configure(32768), Record(RESET_ALL),
                      Record(ENABLE_SLOT)]


# (records, the document's answers from the last call backwards)
HAND = [
    (setting(), ["1 1 0 0 0 0 0 0"]),
    (setting(limit=0), ["9 0 0 0 0 0 0 0"]),
    ([Record(ENABLE_SLOT)], ["9 0 0 0 0 0 0 0"]),
    (setting() + [address(1)], ["1 0 2 0 0 66 0 0"]),
    (setting() + [address(1), address(1)], ["19 0 0 0 0 0 0 0"]),
    (setting() + [address(1), *store(2116, 0, 1), address(1)], ["17 0 0 0 0 0 0 0"]),
    (setting() + [address(1), address(0), *store(2052, 8, 4), *store(2180, 56, 1),
                  *store(2176, 0x1122334455667788), *store(2180, 56, 1), configure(),
                  Record(STOP_ENDPOINT, 1, 3), Record(STOP_ENDPOINT, 1, 3)],
     ["1 0 2 2 0 67 0 0", "1 0 8 0 0 34 0 0", "1 0 0 0 0 9 0 0", "19 0 0 0 0 0 0 0"]),
    (setting(base=65536 - 64) + [address(0)], ["1 0 2 0 0 66 0 0"]),
    (setting(pointer=65536 - 96) + [address(0, 65536 - 96)], ["1 0 2 0 0 66 0 0"]),
    (setting(base=65536 - 1024) + [address(0), *last_endpoint(2048), configure()],
     ["1 0 2147483648 0 0 34 0 0"]),
    (setting() + [address(0), *last_endpoint(65536 - 1056), configure(65536 - 1056)],
     ["1 0 2147483648 0 0 34 0 0"]),
    (setting() + [Record(EVALUATE_CONTEXT, 1, pointer=2048)], ["1 0 0 0 0 0 0 0"]),
    (all_on(), ["1 0 4294967292 4294967292 0 1021 0 0", "0 0 0 0 0 496 0 0", "9 0 0 0 0 0 0 0"]),
]

# The same, outside the domain: ranges that are not wholly in memory.
WRAPS = 2**64 - 4
HAND_OUTSIDE = [
    (setting(base=65536 - 63) + [address(0)], ["193 0 0 0 0 0 0 0"]),
    (setting(pointer=4096) + [address(0, 65536 - 95)], ["193 0 0 0 0 0 0 0"]),
    (setting(base=65536 - 1023) + [address(0), *last_endpoint(2048), configure()],
     ["193 0 0 0 0 0 0 0"]),
    (setting() + [address(0), *last_endpoint(65536 - 1055), configure(65536 - 1055)],
     ["193 0 0 0 0 0 0 0"]),
    (setting() + [address(0, WRAPS), configure(WRAPS)],
     ["1 0 2 0 0 66 0 0", "193 0 0 0 0 0 0 0"]),
]


def begun(records):
    return [Record(NEW_SESSION), *records]


def endpoint_lines():
    """The sessions of the stored steps: those that the Rust can answer, and the others."""
    inside, outside = [], []
    for line in (ROOT / "crates/endpoint_cases/stdout").read_text().splitlines():
        head, *counts, _, _ = [part.split() for part in line.split("|")]
        reason = steps.left_out(head, sum(counts, []))
        (outside if reason and reason is not steps.ABSENT else inside).append(
            begun(steps.session(head)))
    return inside, outside


def encoded(sessions):
    return b"".join(record.encode() for session in sessions for record in session)


def read_by_rust(oracle, data):
    run = subprocess.run([oracle], input=data, stdout=subprocess.PIPE, stderr=subprocess.DEVNULL,
                         check=False)
    return run.stdout.decode().splitlines()


def read_by_reading(data):
    return list(replay(io.BytesIO(data)))


def demand(fact, what):
    if not fact:
        sys.exit(f"make_differential.py: {what}")


def by_hand(cases, lines_of):
    """The sessions of the cases, each answered as the document says."""
    for number, (records, answers) in enumerate(cases, 1):
        told = [line for line in lines_of(encoded([begun(records)])) if line[0].isdigit()]
        demand(told[-len(answers):] == answers, f"case {number} by hand: {told}")
    return [begun(records) for records, _ in cases]


def linux(oracle):
    """The recorded session, and its lines: the stored answers, then the reading's end."""
    data = (ROOT / "traces/linux-desktop.trace").read_bytes()
    answers = (ROOT / "traces/linux-desktop.answers").read_text().splitlines()
    read, told = read_by_reading(data), read_by_rust(oracle, data)
    demand(read[:len(answers)] == answers, "the reading's answers are not the stored ones")
    demand(not any(line[0].isdigit() for line in read[len(answers):]), "too few answers")
    demand(told[:-1] == answers[:STOPS - 1] and told[-1].startswith("undefined"),
           f"the Rust did not stop at call {STOPS}: {told[-1]}")
    return Record(NEW_SESSION).encode() + data, answers + read[len(answers):]


def parts(oracle):
    """Each part's name, records, lines, and whose they are."""
    inside, outside = endpoint_lines()
    for name, sessions in (
            ("hand", by_hand(HAND, lambda data: read_by_rust(oracle, data))),
            ("steps", inside),
            ("random", [random_session(f"{SEED}.{number}", CALLS, True)
                        for number in range(SESSIONS)])):
        data = encoded(sessions)
        told = read_by_rust(oracle, data)
        demand(not any(line.startswith("undefined") for line in told), f"{name}: undefined")
        demand(told == read_by_reading(data), f"{name}: the Rust and the reading differ")
        yield name, data, told, "the oracle's"
    outside += by_hand(HAND_OUTSIDE, read_by_reading)
    for session in outside:
        demand(read_by_rust(oracle, encoded([session]))[-1].startswith("undefined"),
               f"outside: the Rust has an answer to {session[-1]}")
    yield "outside", encoded(outside), read_by_reading(encoded(outside)), "the second reading's"
    yield "linux", *linux(oracle), "the stored answers, and the second reading's end"


def main():
    parser = argparse.ArgumentParser(description="Makes the input and output of differential.")
    parser.add_argument("--oracle", default=ROOT / "oracle/target/release/oracle")
    parser.add_argument("--write", action="store_true", help="store both files")
    choice = parser.parse_args()
    data, lines = b"", []
    for name, records, told, whose in parts(choice.oracle):
        calls = sum(line[0].isdigit() for line in told)
        print(f"{name}: records {len(data) // 32 + 1} to {(len(data) + len(records)) // 32},"
              f" lines {len(lines) + 1} to {len(lines) + len(told)}, {calls} calls; {whose}")
        data += records
        lines += told
    files = {"stdin": data, "stdout": "".join(f"{line}\n" for line in lines).encode()}
    for name, content in files.items():
        path = ROOT / "crates/differential" / name
        if choice.write:
            path.write_bytes(content)
        else:
            demand(path.read_bytes() == content, f"{path} is not what this script makes")
    print("stored" if choice.write else "as stored")


if __name__ == "__main__":
    main()
