"""Two sides that answer the same sessions, compared line by line.

A side is a program that reads records from standard input and prints a line for each call and,
for each session, the table and memory that it leaves; or the reading, run in this process.
"""

import io
import subprocess
import sys
import time
from itertools import islice, zip_longest
from typing import NamedTuple

from replay_reading import NEW_SESSION, Record, replay

BATCH = 400


def encoded(records):
    """The bytes of records; bytes among them stand for themselves."""
    return b"".join(record if isinstance(record, bytes) else record.encode()
                    for record in records)


class Program(NamedTuple):
    """A side that is a program: its name, and its words."""
    name: str
    words: list

    def lines(self, data):
        # A run that fails is seen by what it has not printed.
        run = subprocess.run(self.words, input=data, stdout=subprocess.PIPE,
                             stderr=subprocess.DEVNULL, check=False)
        return run.stdout.decode(errors="replace").splitlines()


class Reading(NamedTuple):
    """The side that is the reading of the rules."""
    name: str = "reading"

    def lines(self, data):
        return list(replay(io.BytesIO(data)))


class Pair(NamedTuple):
    first: Program | Reading
    second: Program | Reading

    def lines(self, records):
        data = encoded(records)
        return self.first.lines(data), self.second.lines(data)

    def difference(self, records):
        """None, or what kind of difference: where the Rust leaves its domain, how it does so."""
        first, second = self.lines(records)
        if first == second:
            return None
        return next((line for line in first if line.startswith("undefined")), "difference")

    def shrink(self, records):
        """Leaves out records, many at a time and then one by one, while the difference stays."""
        kind = self.difference(records)
        size = len(records)
        while size:
            at, before = 0, len(records)
            while at < len(records):
                shorter = records[:at] + records[at + size:]
                if self.difference(shorter) == kind:
                    records = shorter
                else:
                    at += size
            if size > 1 or len(records) == before:
                size //= 2
        return records

    def report(self, records):
        """A session, as its records' fields, and the first lines that differ."""
        print("difference; the smallest session found (kind, slot, endpoint, flag, pointer,"
              " value; or bytes):")
        for record in records:
            print("   ", record.hex() if isinstance(record, bytes) else " ".join(map(str, record)))
        for number, lines in enumerate(zip_longest(*self.lines(records)), 1):
            if lines[0] != lines[1]:
                for side, line in zip(self, lines):
                    print(f"line {number}, {side.name}: {line}")
                break

    def compare(self, name, family, batch=BATCH):
        """Compares a family of sessions, many in a run, and says how much it compared.  At a
        difference it looks for the session, makes it small, and exits with 1."""
        began = time.monotonic()
        family = iter(family)
        sessions = calls = lines = 0
        while sample := list(islice(family, batch)):
            whole = [record for records in sample for record in records]
            first, second = self.lines(whole)
            if first != second:
                found = next((records for records in sample if self.difference(records)), whole)
                self.report(self.shrink(found))
                sys.exit(1)
            sessions += whole.count(Record(NEW_SESSION))
            calls += sum(is_answer(line) for line in first)
            lines += len(first)
        print(f"{name}: {sessions} sessions, {calls} calls, {lines} lines, 0 differences,"
              f" {time.monotonic() - began:.0f} s", flush=True)
        return calls


def is_answer(line):
    """Other lines begin with a word: a slot, an endpoint, memory, or why the run ends."""
    return line[:1].isdigit()
