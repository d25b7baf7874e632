#!/usr/bin/env python3
"""Tests of the reading: the cases checked by hand, the table of steps, malformed tables,
replay of records, the recorded session in traces/, and a hostile run.
"""

import io
import pathlib
import unittest
from collections import Counter

import reading
import replay_reading
import sessions
from reading import (ADDRESSED, CONFIGURED, CONTINUABLE, DEFAULT, DISABLED, ENABLED, ERROR, FREE,
                     HALTED, IN_FLIGHT, STOPPED, WAITING, Answer, Endpoint, Slot, flags)
from replay_reading import Record

P = 2048
BASE = 1024
STATES = WAITING, IN_FLIGHT, HALTED, ERROR, CONTINUABLE, STOPPED


class ByHand(unittest.TestCase):
    """Memory 4096, limit 4, DCBAAP 256, entry at 264 holding 1024, P=2048, flags 3,
    byte 2116 = 32, eight bytes at 2120 holding 3073, all else 0."""

    def setUp(self):
        _, self.table = reading.make_table(4096)
        self.memory = bytearray(4096)
        reading.set_limit(self.table, 4)
        reading.set_dcbaap(self.table, 256)
        self.put(264, 1024, 8)
        self.put(P + 4, 3, 4)
        self.put(2116, 32)
        self.put(2120, 3073, 8)

    def put(self, address, number, count=1):
        self.memory[address:address + count] = number.to_bytes(count, "little")

    def take(self, address, count):
        return int.from_bytes(self.memory[address:address + count], "little")

    def call(self, rule, *numbers):
        return rule(self.table, self.memory, *numbers)

    def assert_refused(self, code, rule, *numbers):
        before = self.table.copy(), bytes(self.memory)
        self.assertEqual(self.call(rule, *numbers), Answer(code))
        self.assertEqual((self.table, self.memory), before)

    def enable(self):
        return reading.enable_slot(self.table)

    def address(self, block=0, pointer=P):
        return self.call(reading.address_device, 1, pointer, block)

    def configure(self, dropped=0, added=0, pointer=P):
        self.put(pointer, dropped, 4)
        self.put(pointer + 4, added, 4)
        for number in flags(added, 1):
            self.put(pointer + 32 * (number + 1) + 4, 56)
        return self.call(reading.configure_endpoint, 1, pointer, 0)


class Cases(ByHand):
    def test_enable(self):
        self.assertEqual(self.enable(), Answer(1, slot=1))
        self.assertEqual(self.table.slot(1), Slot(ENABLED, 0, 264))

    def test_enable_with_limit_0(self):
        reading.set_limit(self.table, 0)
        self.assertEqual(self.enable(), Answer(9))

    def test_address_and_what_follows(self):
        self.enable()
        self.assertEqual(self.address(block=1), Answer(1, launched=2, stored=66))
        self.assertEqual((self.memory[1039], self.memory[1056]), (8, 1))
        self.assertEqual(self.table.endpoint(1, 1), Endpoint(WAITING, 1, 3072))

        self.assert_refused(19, reading.address_device, 1, P, 1)
        self.put(2116, 0)
        self.assert_refused(17, reading.address_device, 1, P, 1)
        self.put(2116, 32)

        self.assertEqual(self.address(), Answer(1, launched=2, terminated=2, stored=67))
        self.assertEqual(self.memory[1039], 16)

        self.put(2184, 3089, 8)
        self.assertEqual(self.configure(added=8), Answer(1, launched=8, stored=34))
        self.assertEqual(self.memory[1120:1152], b"\x01" + self.memory[2177:2208])
        self.assertEqual(self.memory[1039], 24)
        self.assertEqual(self.table.slot(1), Slot(CONFIGURED, BASE, 264))
        self.assertEqual(self.table.endpoint(1, 3), Endpoint(WAITING, 1, 3088))

        self.assertEqual(self.call(reading.stop_endpoint, 1, 3), Answer(1, stored=9))
        self.assertEqual((self.memory[1120], self.take(1128, 8)), (3, 3089))
        self.assert_refused(19, reading.stop_endpoint, 1, 3)

    def test_base_by_the_end(self):
        self.enable()
        self.put(264, 4033, 8)
        self.assert_refused(193, reading.address_device, 1, P, 0)
        self.put(264, 4032, 8)
        self.assertEqual(self.address().code, 1)

    def test_input_by_the_end(self):
        self.enable()
        self.assert_refused(193, reading.address_device, 1, 4001, 0)
        self.assertEqual(self.address(pointer=4000).code, 1)

    def test_output_of_endpoint_31(self):
        for base, code in (3072, 1), (3073, 193):
            with self.subTest(base=base):
                self.setUp()
                self.put(264, base, 8)
                self.enable()
                self.assertEqual(self.address().code, 1)
                self.assertEqual(self.configure(added=1 << 31).code, code)

    def test_input_of_endpoint_31(self):
        for pointer, code in (3040, 1), (3041, 193):
            with self.subTest(pointer=pointer):
                self.setUp()
                self.enable()
                self.assertEqual(self.address().code, 1)
                self.assertEqual(self.configure(added=1 << 31, pointer=pointer).code, code)

    def test_wrapping_input(self):
        self.enable()
        self.assertEqual(self.address(pointer=2**64 - 4), Answer(1, launched=2, stored=66))
        self.assert_refused(193, reading.configure_endpoint, 1, 2**64 - 4, 0)

    def test_most_bytes_stored(self):
        _, self.table = reading.make_table(65_536)
        self.memory = bytearray(65_536)
        reading.set_limit(self.table, 16)
        for slot in range(1, 17):
            self.enable()
            self.put(8 * slot, 32_768 + 1024 * slot, 8)
            self.assertEqual(self.call(reading.address_device, slot, P, 0).stored, 66)
            for number in range(2, 32):
                self.put(P + 32 * (number + 1) + 4, 56)
            self.put(P + 4, 0xFFFFFFFC, 4)
            self.assertEqual(self.call(reading.configure_endpoint, slot, P, 0).stored, 991)
            self.put(P + 4, 0, 4)
        every = 0xFFFFFFFC
        self.assertEqual(self.configure(dropped=every, added=every),
                         Answer(1, launched=every, terminated=every, stored=1021))
        self.assertEqual(self.call(reading.reset_all), Answer(0, stored=496))
        self.assertEqual(self.table, reading.Table(65_536))

    def test_enable_after_reset_of_all(self):
        self.enable()
        self.assertEqual(self.call(reading.reset_all), Answer(0))
        self.assertEqual(self.enable(), Answer(9))

    def test_making_and_limits(self):
        self.assertEqual(reading.make_table(2**30), (Answer(0), reading.Table(2**30)))
        self.assertEqual(reading.make_table(2**30 + 1), (Answer(197), reading.Table(0)))
        self.assertEqual(reading.set_limit(self.table, 16), Answer(0))
        self.assertEqual(reading.set_limit(self.table, 17), Answer(197))
        self.assertEqual(self.table.limit, 16)


class WrongTurns(ByHand):
    def test_drops_go_before_adds(self):
        self.enable()
        self.address()
        self.configure(added=8)
        self.assertEqual(self.configure(dropped=8, added=8),
                         Answer(1, launched=8, terminated=8, stored=35))
        self.assertEqual(self.table.endpoint(1, 3).state, WAITING)

    def test_add_over_enabled(self):
        self.enable()
        self.address()
        self.configure(added=8)
        self.assertEqual(self.configure(added=8), Answer(1, launched=8, stored=34))

    def test_base_is_not_read_again(self):
        self.enable()
        self.address(block=1)
        self.put(264, 512, 8)
        self.address()
        self.assertEqual(self.table.slot(1), Slot(ADDRESSED, BASE, 264))

    def test_limit_is_not_a_count(self):
        self.enable()
        self.enable()
        reading.set_limit(self.table, 1)
        self.call(reading.disable_slot, 1)
        self.assertEqual(self.enable(), Answer(1, slot=1))

    def test_bad_type_leaves_endpoint_1(self):
        self.enable()
        self.address(block=1)
        self.put(2116, 0)
        self.assert_refused(17, reading.address_device, 1, P, 0)

    def test_state_before_alignment(self):
        self.enable()
        self.address()
        self.table.set_endpoint(1, 1, Endpoint(HALTED, 0, 0))
        self.assert_refused(19, reading.set_dequeue, 1, 1, 8, 0)
        self.table.set_endpoint(1, 1, Endpoint(STOPPED, 0, 0))
        self.assert_refused(195, reading.set_dequeue, 1, 1, 8, 0)

    def test_overlapping_copies(self):
        self.enable()
        self.put(264, P + 48, 8)
        self.memory[P + 32:P + 96] = bytes(range(64))
        self.put(P + 4, 0, 4)
        self.address()
        first = bytearray(range(32))
        first[15] = 16
        second = first[16:] + bytes(range(48, 64))
        second[0] = 1
        self.assertEqual(self.memory[P + 48:P + 112], first + second)


# A cell holds the code, and where the step has an effect the next state (its first letter,
# F for In flight, D for Disabled) and the bytes stored.
GRID = """
             doorbell  Ok   Stall  Transaction  TRB  Stop  Reset  SetDequeue  Terminate
Waiting      0F0       196  196    196          196  1S9   19     19          1D1
InFlight     0         0F0  0H9    0H9          0E9  1C9   19     19          1D1
Halted       0         196  196    196          196  19    1S9    19          1D1
Error        0         196  196    196          196  19    19     1S9         1D1
Continuable  0F1       196  196    196          196  19    19     1S9         1D1
Stopped      0F1       196  196    196          196  19    19     1S9         1D1
"""
FOLLOWING = {"F": IN_FLIGHT, "H": HALTED, "E": ERROR, "C": CONTINUABLE, "S": STOPPED,
             "D": DISABLED}
STATE_BYTE = {"F": 1, "H": 2, "E": 4, "C": 3, "S": 3, "D": 0}

# Each input as it is given to endpoint 1, which rests at 3072 with cycle 1; and the pointer
# and cycle that the endpoint then has.
INPUTS = {
    "doorbell": (reading.doorbell, (1, 1, 1, 512, 0), (512, 0)),
    "Ok": (reading.ok, (1, 1, 1, 512, 0), (512, 0)),
    "Stall": (reading.stall, (1, 1, 512, 0), (512, 0)),
    "Transaction": (reading.transaction_error, (1, 1, 512, 0), (512, 0)),
    "TRB": (reading.trb_error, (1, 1), (3072, 1)),
    "Stop": (reading.stop_endpoint, (1, 1), (3072, 1)),
    "Reset": (reading.reset_endpoint, (1, 1), (3072, 1)),
    "SetDequeue": (reading.set_dequeue, (1, 1, 512, 0), (512, 0)),
    "Terminate": (reading.disable_slot, (1,), (0, 0)),
}


class Steps(ByHand):
    """Six resting states, nine inputs: these fifty-four entries are one fixed table."""

    def rest(self, state):
        self.setUp()
        self.enable()
        self.address()
        self.table.set_endpoint(1, 1, Endpoint(state, 1, 3072))
        self.put(BASE + 32, 99)
        self.put(BASE + 40, 99, 8)

    def test_every_entry(self):
        names, *rows = (line.split() for line in GRID.strip().splitlines())
        for state, (_, *cells) in zip(STATES, rows, strict=True):
            for name, cell in zip(names, cells, strict=True):
                with self.subTest(state=state, input=name):
                    self.rest(state)
                    self.check(cell, *INPUTS[name])

    def check(self, cell, rule, numbers, ring):
        if cell.isdigit():
            self.assert_refused(int(cell), rule, *numbers)
            return
        code, letter, stored = cell
        pointer, cycle = ring
        self.assertEqual(self.call(rule, *numbers),
                         Answer(int(code), stored=int(stored), submit=int(letter == "F"),
                                cancel=int(letter == "C"), terminated=2 * (letter == "D")))
        self.assertEqual(self.table.endpoint(1, 1), Endpoint(FOLLOWING[letter], cycle, pointer))
        self.assertEqual(self.memory[BASE + 32], 99 if stored == "0" else STATE_BYTE[letter])
        self.assertEqual(self.take(BASE + 40, 8), pointer + cycle if stored == "9" else 99)

    def test_nothing_found(self):
        self.rest(STOPPED)
        self.assertEqual(self.call(reading.doorbell, 1, 1, 0, 512, 0), Answer(0, stored=1))
        self.assertEqual(self.table.endpoint(1, 1), Endpoint(WAITING, 0, 512))
        self.assert_refused(195, reading.doorbell, 1, 1, 0, 520, 0)

    def test_no_pointer_given(self):
        self.rest(IN_FLIGHT)
        self.assertEqual(self.call(reading.stall, 1, 1, None, None), Answer(0, stored=9))
        self.assertEqual(self.table.endpoint(1, 1), Endpoint(HALTED, 1, 3072))

    def test_unused_pointer_is_not_inspected(self):
        self.rest(HALTED)
        self.assert_refused(0, reading.doorbell, 1, 1, 1, 520, 0)
        self.assert_refused(196, reading.ok, 1, 1, 1, 520, 0)
        self.assert_refused(19, reading.set_dequeue, 1, 1, 520, 0)


# Each call with its numbers after the slot, and after the endpoint.
SLOT_CALLS = {reading.disable_slot: (), reading.address_device: (P, 0),
              reading.configure_endpoint: (P, 0), reading.evaluate_context: (P,),
              reading.reset_device: ()}
ENDPOINT_COMMANDS = {reading.stop_endpoint: (), reading.reset_endpoint: (),
                     reading.set_dequeue: (8, 0), reading.doorbell: (1, 8, 0)}
HOST_EVENTS = {reading.ok: (1, 8, 0), reading.stall: (8, 0), reading.transaction_error: (8, 0),
               reading.trb_error: ()}
LENDING = [(reading.reset_all, ()),
           *((rule, (99, *numbers)) for rule, numbers in SLOT_CALLS.items()),
           *((rule, (99, 99, *numbers)) for rule, numbers in ENDPOINT_COMMANDS.items()),
           *((rule, (99, 99, *numbers)) for rule, numbers in HOST_EVENTS.items())]
LENDING_NONE = [(reading.set_limit, (17,)), (reading.set_dcbaap, (0,)), (reading.enable_slot, ())]


class Order(ByHand):
    """Order of checks: 198; 194 (calls that lend memory); 11; 12; then the command's own."""

    # What makes a table malformed in which slot 1 is Addressed and slot 2 Enabled.
    MALFORMED = {
        "limit": lambda table: setattr(table, "limit", 17),
        "length": lambda table: setattr(table, "length", 2**30 + 1),
        "free slot with an entry": lambda table: table.set_slot(3, Slot(FREE, 0, 8)),
        "free slot with a base": lambda table: table.set_slot(3, Slot(FREE, 8, 0)),
        "free slot with an endpoint":
            lambda table: table.set_endpoint(3, 1, Endpoint(WAITING, 0, 0)),
        "disabled endpoint with a pointer":
            lambda table: table.set_endpoint(1, 2, Endpoint(DISABLED, 0, 16)),
        "disabled endpoint with a cycle":
            lambda table: table.set_endpoint(16, 31, Endpoint(DISABLED, 1, 0)),
        "Enabled slot with a base": lambda table: table.set_slot(2, Slot(ENABLED, 64, 272)),
        "Enabled slot with an endpoint":
            lambda table: table.set_endpoint(2, 31, Endpoint(WAITING, 0, 0)),
        "no endpoint 1": lambda table: table.set_endpoint(1, 1, Endpoint()),
        "base outside": lambda table: table.set_slot(1, Slot(ADDRESSED, 4033, 264)),
        "base that wraps": lambda table: table.set_slot(1, Slot(DEFAULT, 2**64 - 32, 264)),
        "endpoint outside":
            lambda table: (table.set_slot(1, Slot(CONFIGURED, 3073, 264)),
                           table.set_endpoint(1, 31, Endpoint(STOPPED, 0, 0))),
        "unaligned pointer": lambda table: table.set_endpoint(1, 1, Endpoint(ERROR, 0, 8)),
    }

    def setUp(self):
        super().setUp()
        self.enable()
        self.address()
        self.enable()

    def test_malformed(self):
        self.assertTrue(reading.well_formed(self.table))
        for name, spoil in self.MALFORMED.items():
            with self.subTest(name):
                self.setUp()
                spoil(self.table)
                self.assertFalse(reading.well_formed(self.table))
                spoilt = self.table.copy()
                for rule, numbers in LENDING:
                    self.assertEqual(rule(self.table, bytearray(1), *numbers), Answer(198))
                for rule, numbers in LENDING_NONE:
                    self.assertEqual(rule(self.table, *numbers), Answer(198))
                self.assertEqual(self.table, spoilt)

    def test_just_well_formed(self):
        self.table.set_slot(1, Slot(CONFIGURED, 3072, 2**64 - 1))
        self.table.set_endpoint(1, 31, Endpoint(STOPPED, 1, 2**64 - 16))
        self.table.limit = 0
        self.assertTrue(reading.well_formed(self.table))

    def test_other_length(self):
        before = self.table.copy()
        for memory in bytearray(4095), bytearray(4097), bytearray():
            for rule, numbers in LENDING:
                self.assertEqual(rule(self.table, memory, *numbers), Answer(194))
        self.assertEqual(self.table, before)

    def test_absent_slot(self):
        for slot in 0, 3, 17, 2**64 - 1:
            for rule, numbers in SLOT_CALLS.items():
                self.assert_refused(11, rule, slot, *numbers)
            for rule, numbers in ENDPOINT_COMMANDS.items():
                self.assert_refused(11, rule, slot, 99, *numbers)
            for rule, numbers in HOST_EVENTS.items():
                self.assert_refused(196, rule, slot, 99, *numbers)

    def test_absent_endpoint(self):
        for slot, endpoint in (1, 0), (1, 2), (1, 32), (1, 2**64 - 1), (2, 1):
            for rule, numbers in ENDPOINT_COMMANDS.items():
                self.assert_refused(12, rule, slot, endpoint, *numbers)
            for rule, numbers in HOST_EVENTS.items():
                self.assert_refused(196, rule, slot, endpoint, *numbers)


class Records(unittest.TestCase):
    """Replay of a recorded session."""

    def lines(self, *records, answers_only=True):
        data = b"".join(record if isinstance(record, bytes) else record.encode()
                        for record in records)
        return list(replay_reading.replay(io.BytesIO(data), answers_only))

    def test_few_records(self):
        self.assertEqual(self.lines(), [])
        self.assertEqual(self.lines(Record(3)), ["9 0 0 0 0 0 0 0"])
        self.assertEqual(self.lines(Record(18, pointer=65_535, value=255)), [])

    def test_bad_records(self):
        for bad in (bytes(31), b"\x03", Record(0), Record(19), Record(255),
                    Record(18, pointer=1, value=256), Record(18, pointer=65_536, value=1),
                    Record(18, slot=1), Record(3, slot=1), Record(3, pointer=1), Record(3, value=1),
                    Record(1, pointer=1), Record(2, value=1), Record(4, endpoint=1),
                    Record(5, flag=2), Record(6, endpoint=1), Record(7, flag=1), Record(8, flag=1),
                    Record(9, slot=1), Record(10, pointer=16), Record(11, flag=1),
                    Record(12, flag=2), Record(13, flag=4), Record(14, value=1),
                    Record(15, flag=128), Record(16, value=1), Record(17, pointer=16),
                    bytes((3, 0, 0, 0, 1)) + bytes(27), bytes((3, *bytes(30), 1))):
            with self.subTest(bad=bad):
                self.assertEqual(self.lines(Record(3), bad, Record(3)),
                                 ["9 0 0 0 0 0 0 0", "bad record"])

    def test_irrelevant_fields(self):
        for record in (Record(6, flag=1, pointer=2**64 - 1), Record(12), Record(14, pointer=8),
                       Record(15, pointer=8), Record(16, flag=1), Record(1, value=2**64 - 1)):
            self.assertNotIn("bad record", self.lines(record))

    def test_sessions(self):
        records = (Record(0), Record(1, value=2), Record(2, pointer=64), Record(3), Record(3),
                   Record(18, pointer=73, value=4), Record(5, slot=1, pointer=2048),
                   Record(13, slot=1, endpoint=1, flag=3, pointer=32), Record(0), Record(3))
        self.assertEqual(self.lines(*records, answers_only=False), [
            "0 0 0 0 0 0 0 0", "0 0 0 0 0 0 0 0", "1 1 0 0 0 0 0 0", "1 2 0 0 0 0 0 0",
            "1 0 2 0 0 66 0 0", "0 0 0 0 0 0 1 0",
            "slot 1 3 1024 72", "slot 2 1 0 80", "endpoint 1 1 2 1 32",
            "memory 64 " + "00" * 9 + "04" + "00" * 22,
            "memory 1024 " + "00" * 15 + "10" + "00" * 16,
            "memory 1056 01" + "00" * 31,
            "9 0 0 0 0 0 0 0"])

    def test_linux_desktop(self):
        directory = pathlib.Path(__file__).parent.parent / "traces"
        expected = (directory / "linux-desktop.answers").read_text().splitlines()
        self.assertEqual(self.lines((directory / "linux-desktop.trace").read_bytes()), expected)


class Hostile(unittest.TestCase):
    """Any numbers are answered; a refusal changes nothing."""

    CODES = {0, 1, 9, 11, 12, 17, 19, 193, 194, 195, 196, 197, 198}

    def setUp(self):
        self.codes = Counter()
        self.steps = Counter()

    def test_hostile_run(self):
        for seed in range(20):
            session = replay_reading.Session()
            for number, record in enumerate(sessions.session(seed, 250, domain=False)[1:]):
                if number % 16 == 0:
                    self.spoil(session, record)
                self.play(session, record)
        self.assertGreater(sum(self.codes.values()), 5000)
        self.assertEqual(set(self.codes), self.CODES)
        self.assertEqual(len(self.steps), 54)

    def play(self, session, record):
        before, memory = session.table.copy(), bytes(session.memory)
        answer = session.play(record)
        self.assertEqual(len(session.memory), len(memory))
        if answer is None:
            return
        self.assertTrue(reading.well_formed(session.table))
        if answer.code not in (0, 1):
            self.assertEqual(answer, Answer(answer.code))
            self.assertEqual((session.table, session.memory), (before, memory))
        self.codes[answer.code] += 1
        for step in self.steps_of(before, record, answer):
            self.steps[step] += 1

    def steps_of(self, table, record, answer):
        """The entries of the table of steps that a call has met: state and input."""
        if record.kind == replay_reading.RESET_ALL:
            met = [(endpoint, "terminate") for endpoint in table.endpoints]
        elif record.kind in sessions.ENDPOINT_KINDS:
            there = 1 <= record.slot <= 16 and 1 <= record.endpoint <= 31 and answer.code != 195
            met = [(table.endpoint(record.slot, record.endpoint), record.kind)] if there else []
        else:
            met = [(table.endpoint(record.slot, number), "terminate")
                   for number in flags(answer.terminated, 1)]
        return [(endpoint.state, given) for endpoint, given in met if endpoint.state != DISABLED]

    def spoil(self, session, record):
        """No record brings a malformed table or memory of another length: they are made."""
        for code, spoil in ((194, lambda trial: trial.memory.append(0)),
                            (198, lambda trial: setattr(trial.table, "limit", 17))):
            trial = sessions.copy_of(session)
            spoil(trial)
            answer = trial.play(record)
            if answer is not None and (code == 198 or record.kind not in replay_reading.LEND_NONE):
                self.assertEqual(answer, Answer(code))
                self.codes[code] += 1


class Domain(unittest.TestCase):
    """Sessions inside the domain of the Rust meet no code that it cannot give."""

    def test_domain_run(self):
        codes = set()
        for seed in range(10):
            records = sessions.session(seed, 200, domain=True)
            data = io.BytesIO(b"".join(record.encode() for record in records[1:]))
            codes |= {line.split()[0] for line in replay_reading.replay(data, answers_only=True)}
        self.assertEqual(codes, {"0", "1", "9", "11", "12", "17", "19", "196"})


if __name__ == "__main__":
    unittest.main()
