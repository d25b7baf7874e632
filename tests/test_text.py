"""traces/text.py: a trace to text and back."""
import os
import random
import sys
import unittest

ROOT = os.path.dirname(os.path.dirname(os.path.abspath(__file__)))
TRACES = os.path.join(ROOT, "traces")
sys.path.insert(0, TRACES)
import text


def any_record(chance):
    """A good record of any kind: what its kind does not use is zero."""
    kind = chance.randint(1, len(text.KINDS))
    _, fields, flags = text.KINDS[kind - 1]
    values = [kind, 0, 0, 0, 0, 0]
    for field in fields:
        wide = text.PLACES[field] >= 4 and field != "byte"
        values[text.PLACES[field]] = chance.choice([0, 1, 255, 2**64 - 1 if wide else 2, chance.getrandbits(64 if wide else 8)])
    values[3] = chance.getrandbits(8) % (1 << len(flags))
    return text.RECORD.pack(*values)


class Text(unittest.TestCase):
    def test_line(self):
        record = text.RECORD.pack(5, 1, 0, 1, 0x8C0, 0)
        self.assertEqual(text.line_of(record), "Address Device slot 1 input 0x8c0 BSR")
        self.assertEqual(text.answer_of("1 0 2 0 0 66 0 0"), "code 1 launched 1 stored 66")
        self.assertEqual(text.answer_of("0 0 0 0 0 9 1 1"), "code 0 stored 9 submit cancel")

    def test_any_record_comes_back(self):
        chance = random.Random(1)
        for _ in range(5000):
            record = any_record(chance)
            self.assertEqual(text.record_of(text.line_of(record)), record)

    def test_one_byte_more_is_bad(self):
        chance = random.Random(2)
        for _ in range(500):
            record = bytearray(any_record(chance))
            record[chance.choice([4, 5, 6, 7, 24, 31])] = 1
            self.assertRaises(text.Bad, text.line_of, bytes(record))

    def test_what_stands_for_no_record(self):
        for line in ["Enable", "Enable Slot slot 1", "store at 0 byte 256", "Stop Endpoint slot 1", "Ok slot 1 endpoint 1 pointer 0x0 given",
                     "Disable Slot slot 256", "Disable Slot slot one", "doorbell slot 1 endpoint 1 pointer 0x0 found cycle"]:
            self.assertRaises(text.Bad, text.record_of, line)

    def test_the_linux_session(self):
        with open(os.path.join(TRACES, "linux-desktop.trace"), "rb") as f:
            trace = f.read()
        with open(os.path.join(TRACES, "linux-desktop.answers")) as f:
            lines = list(text.show(trace, iter(f)))
        self.assertEqual(len(lines), len(trace) // 32)
        self.assertEqual(b"".join(text.make(lines)), trace)
        self.assertTrue(all((" -> code" in line) != line.startswith("store") for line in lines))

    def test_the_gate_replays_it(self):
        gate = os.path.join(ROOT, "crates", "replay")
        for ours, name in [("stdin", "linux-desktop.trace"), ("stdout", "linux-desktop.answers")]:
            with open(os.path.join(gate, ours), "rb") as one, open(os.path.join(TRACES, name), "rb") as other:
                self.assertEqual(one.read(), other.read())


if __name__ == "__main__":
    unittest.main()
