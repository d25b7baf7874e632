#!/usr/bin/env python3
"""Writes the sessions that the program `replay_cases` replays, and what it must write, from the change request's
words on records and the scope document's hand-checked cases: no program is run.

    make_replay.py
"""
import pathlib
import struct

CRATE = pathlib.Path(__file__).resolve().parent.parent / "crates" / "replay_cases"
(LIMIT, DCBAAP, ENABLE, DISABLE, ADDRESS, CONFIGURE, EVALUATE, RESET_DEVICE, RESET_ALL, STOP) = range(1, 11)
STORE = 18
BAD = "bad record"
FULL = "9 0 0 0 0 0 0 0"


def record(kind, slot=0, endpoint=0, flag=0, pointer=0, value=0):
    return struct.pack("<4B4xQQ8x", kind, slot, endpoint, flag, pointer, value)


def with_byte(bytes_, at, byte):
    return bytes_[:at] + bytes([byte]) + bytes_[at + 1:]


def store(address, value, count=1):
    return b"".join(record(STORE, pointer=address + i, value=b)
                    for i, b in enumerate(value.to_bytes(count, "little")))


def line(code, slot=0, launched=0, terminated=0, port=0, stored=0, submit=0, cancel=0):
    return "%d %d %d %d %d %d %d %d" % (code, slot, launched, terminated, port, stored, submit, cancel)


# "DCBAAP 256, entry at 264 holding 1024, P=2048, flags 3, byte 2116 = 32, eight bytes at 2120 holding 3073, all else 0"
SETTING = (record(LIMIT, value=4) + record(DCBAAP, pointer=256) + store(264, 1024, 8) + store(2052, 3, 4)
           + store(2116, 32) + store(2120, 3073, 8))
HAND = (SETTING + record(ENABLE)
        + record(ADDRESS, slot=1, flag=1, pointer=2048)
        + record(ADDRESS, slot=1, flag=1, pointer=2048)
        + record(ADDRESS, slot=1, pointer=2048)
        + store(2052, 8, 4) + store(2180, 56)
        + record(CONFIGURE, slot=1, pointer=2048)
        + record(STOP, slot=1, endpoint=3) + record(STOP, slot=1, endpoint=3)
        + record(RESET_ALL) + record(ENABLE))
HAND_LINES = [line(0), line(0), line(1, slot=1), line(1, launched=2, stored=66), line(19),
              line(1, launched=2, terminated=2, stored=67), line(1, launched=8, stored=34),
              line(1, stored=9), line(19), line(0, stored=2), FULL]

# name, records, lines; the program goes by this order
SESSIONS = [
    ("empty", b"", []),
    ("enable", record(ENABLE), [FULL]),
    ("limits", record(LIMIT, value=17) + record(ENABLE) + record(LIMIT, value=2) + record(ENABLE) * 3,
     [line(197), FULL, line(0), line(1, slot=1), line(1, slot=2), FULL]),
    ("last_byte", store(65535, 255) + record(ENABLE), [FULL]),
    ("hand", HAND, HAND_LINES),
    # 65,536 bytes are 2,048 records
    ("parts", store(0, 1) * 2047 + record(ENABLE) * 2 + record(ENABLE)[:31], [FULL, FULL, BAD]),
    ("short", record(ENABLE) + record(ENABLE)[:31], [FULL, BAD]),
    ("one_byte", record(ENABLE)[:1], [BAD]),
    ("kind_0", record(0) + record(ENABLE), [BAD]),
    ("kind_19", record(ENABLE) + record(19) + record(ENABLE), [FULL, BAD]),
    ("byte_4", with_byte(record(ENABLE), 4, 1) + record(ENABLE), [BAD]),
    ("byte_31", with_byte(record(ENABLE), 31, 1) + record(ENABLE), [BAD]),
    ("unused_slot", record(ENABLE, slot=1), [BAD]),
    ("unused_endpoint", record(DISABLE, slot=1, endpoint=1), [BAD]),
    ("unused_flag", record(EVALUATE, slot=1, flag=1), [BAD]),
    ("unused_bit", record(ADDRESS, slot=1, flag=2), [BAD]),
    ("unused_pointer", record(LIMIT, pointer=1), [BAD]),
    ("unused_value", record(DCBAAP, value=1), [BAD]),
    ("value_256", record(STORE, value=256) + record(ENABLE), [BAD]),
    ("store_65536", record(STORE, pointer=65536) + record(ENABLE), [BAD]),
]


def main():
    data = CRATE / "data"
    data.mkdir(parents=True, exist_ok=True)
    out = []
    for name, records, lines in SESSIONS:
        (data / name).write_bytes(records)
        out += [name + ":"] + lines
    (CRATE / "stdout").write_text("\n".join(out) + "\n")


if __name__ == "__main__":
    main()
