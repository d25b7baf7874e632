#!/usr/bin/env python3
"""Tests of the comparison itself: it finds what differs, makes it small, and counts what it ran."""

import contextlib
import io
import unittest
from pathlib import Path

import hostile
import make_cases
import sensitivity
from comparing import Pair, Reading, encoded
from replay_reading import NEW_SESSION, Record, replay
from sessions import session

ROOT = Path(__file__).resolve().parent.parent


class Mistaken(Reading):
    """A side that says 12 where the reading says 19."""

    def lines(self, data):
        return ["12 0 0 0 0 0 0 0" if line == "19 0 0 0 0 0 0 0" else line
                for line in super().lines(data)]


class Comparison(unittest.TestCase):
    def compare(self, pair, family):
        with contextlib.redirect_stdout(io.StringIO()) as out:
            try:
                calls = pair.compare("sessions", family, batch=3)
            except SystemExit as end:
                return end.code, out.getvalue()
        return calls, out.getvalue()

    def test_counts(self):
        family = [[Record(NEW_SESSION), Record(1, value=2), Record(3),
                   Record(18, pointer=1, value=7)]] * 7
        calls, out = self.compare(Pair(Reading(), Reading()), family)
        self.assertEqual(calls, 14)
        # Two answers, a slot and a row of memory.
        self.assertIn("sessions: 7 sessions, 14 calls, 28 lines, 0 differences", out)

    def test_what_is_not_reached_is_not_counted(self):
        family = [[Record(NEW_SESSION), Record(3), b"\x03", Record(3)]]
        calls, _ = self.compare(Pair(Reading(), Reading()), family)
        self.assertEqual(calls, 1)

    def test_difference(self):
        pair = Pair(Reading(), Mistaken("mistaken"))
        family = [session(f"test.{number}", 60, True) for number in range(5)]
        code, out = self.compare(pair, family)
        self.assertEqual(code, 1)
        # A Reset Device of an Enabled slot, or the like: limit, Enable and the call that differs.
        lines = out.splitlines()
        self.assertEqual(lines[-2].split(": ")[1], "19 0 0 0 0 0 0 0")
        self.assertEqual(lines[-1].split(": ")[1], "12 0 0 0 0 0 0 0")
        self.assertLess(len(lines), 12)

    def test_shrink(self):
        pair = Pair(Reading(), Mistaken("mistaken"))
        records = [Record(NEW_SESSION), Record(1, value=2), Record(2, pointer=64), Record(3),
                   Record(3), Record(18, pointer=9, value=1), Record(8, slot=2), Record(3)]
        self.assertEqual(pair.shrink(records),
                         [Record(1, value=2), Record(3), Record(3), Record(8, slot=2)])


class BadRecords(unittest.TestCase):
    def test_each_is_bad(self):
        bad = list(hostile.bad_records())
        self.assertEqual(len(bad), len(set(bad)))
        for data in bad:
            self.assertEqual(list(replay(io.BytesIO(data))), ["bad record"])

    def test_hostile_sessions_meet_every_code(self):
        codes = set()
        for seed in range(10):
            data = encoded(hostile.hostile_session(seed, 250))
            codes |= {line.split()[0] for line in replay(io.BytesIO(data), answers_only=False)
                      if line[0].isdigit()}
        self.assertEqual(codes, {"0", "1", "9", "11", "12", "17", "19", "193", "195", "196",
                                 "197"})


class Mistakes(unittest.TestCase):
    def test_each_changes_one_place(self):
        names = [mistake.name for mistake in sensitivity.MISTAKES]
        self.assertEqual(len(names), len(set(names)))
        for mistake in sensitivity.MISTAKES:
            _, text, wrong = sensitivity.changed(ROOT, mistake)
            self.assertNotEqual(text, wrong)


class Cases(unittest.TestCase):
    def test_stored_lines(self):
        with contextlib.redirect_stdout(io.StringIO()) as out:
            make_cases.main()
        self.assertEqual(out.getvalue(), (ROOT / "crates/cases/stdout").read_text())


if __name__ == "__main__":
    unittest.main()
