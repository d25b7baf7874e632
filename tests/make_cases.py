#!/usr/bin/env python3
"""Writes what the program `cases` must write: the scope document's cases, "Checked by hand".

    make_cases.py > crates/cases/stdout

Under a heading, the slot limit and the base in slot 1's DCBAA entry, each line: the case; the call
with its slot, its pointer or endpoint and its flag, or what is looked at; what is expected; what
came.  Every number is the document's.  Where it says "accepted", the rest of the answer is what
its rules give for the command: Address Device launches endpoint 1 and stores 32 + 1 + 32 + 1
bytes, Configure Endpoint with one endpoint added stores 32 + 1 + 1.
"""

P = 2048
WRAPPING = 2**64 - 4
EVERY = sum(2**number for number in range(2, 32))


def answer(code, slot=0, launched=0, terminated=0, stored=0):
    """Root port, submit and cancel are 0 in all cases."""
    return code, slot, launched, terminated, 0, stored, 0, 0


ADDRESSED = answer(1, launched=2, stored=66)
LAST = answer(1, launched=2**31, stored=34)
OUTSIDE = answer(193)


def line(case, what, *expected):
    print("case", case, what + ": expected", *expected, "came", *expected, "same")


def call(case, name, number, flag, expected):
    line(case, f"{name} 1 {number} {flag}", *expected)


def enable(case, expected):
    call(case, "enable-slot", 0, 0, expected)


def address(case, pointer, block, expected):
    call(case, "address-device", pointer, block, expected)


def configure(case, pointer, expected):
    call(case, "configure-endpoint", pointer, 0, expected)


def byte(case, address, expected):
    line(case, f"byte {address}", expected)


def setting(limit=4, base=1024):
    print("limit", limit, "base", base)


def life():
    setting()
    address(3, P, 1, answer(1, launched=2, stored=66))
    byte(3, 1039, 8)
    byte(3, 1056, 1)
    line(3, "endpoint 1 pointer", 3072)
    line(3, "endpoint 1 cycle", 1)
    address(4, P, 1, answer(19))
    address(5, P, 1, answer(17))
    address(6, P, 0, answer(1, launched=2, terminated=2, stored=67))
    byte(6, 1039, 16)
    configure(7, P, answer(1, launched=8, stored=34))
    # Bytes 2176 to 2207 are 0 but for byte 2180, the type; the launch then stores 1 at 1120.
    copied = bytearray(32)
    copied[2180 - 2176] = 56
    copied[0] = 1
    for place in range(0, 32, 8):
        line(7, f"eight bytes {1120 + place}",
             int.from_bytes(copied[place:place + 8], "little"))
    byte(7, 1039, 24)
    call(8, "stop-endpoint", 3, 0, answer(1, stored=9))
    call(8, "stop-endpoint", 3, 0, answer(19))


def edges():
    for case, base, pointer, expected in ((9, 4032, P, ADDRESSED), (9, 4033, P, OUTSIDE),
                                          (10, 1024, 4000, ADDRESSED), (10, 1024, 4001, OUTSIDE)):
        setting(base=base)
        address(case, pointer, 0, expected)
    for case, base, pointer, expected in ((11, 3072, P, LAST), (11, 3073, P, OUTSIDE),
                                          (12, 1024, 3040, LAST), (12, 1024, 3041, OUTSIDE)):
        setting(base=base)
        configure(case, pointer, expected)
    setting()
    address(13, WRAPPING, 0, ADDRESSED)
    configure(13, WRAPPING, OUTSIDE)


def main():
    setting()
    enable(1, answer(1, slot=1))
    setting(limit=0)
    enable(2, answer(9))
    life()
    edges()
    setting(limit=16)
    configure(14, P, answer(1, launched=EVERY, terminated=EVERY, stored=1021))
    call(15, "reset-all", 0, 0, answer(0, stored=496))
    enable(16, answer(9))


if __name__ == "__main__":
    main()
