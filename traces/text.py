#!/usr/bin/env python3
"""A recorded session as text, and back (docs/TRACE.md has the records).

    text.py show [TRACE [ANSWERS]]    a line for each record; with the lines that `replay` printed for
                                      the trace, each call is followed by ' -> ' and its answer
    text.py make [TEXT]               the trace that such lines stand for, on standard output

Without a file's name, or with '-' in its place, standard input is read. A line of text is the record's name, then the fields that its kind uses, as

    Address Device slot 1 input 0x8c0 BSR -> code 1 launched 1 stored 66

A flag is named where it is set. Of an answer, what is 0 is left out but for the code; masks are lists of endpoints. `make` passes
over what follows ' -> ', lines that begin with '#', and empty lines.
"""
import struct
import sys

# kind, from 1 on: its name, the fields that it uses, the names of its flag bits
KINDS = [
    ("set", ["limit"], []),
    ("set", ["DCBAAP"], []),
    ("Enable Slot", [], []),
    ("Disable Slot", ["slot"], []),
    ("Address Device", ["slot", "input"], ["BSR"]),
    ("Configure Endpoint", ["slot", "input"], ["DC"]),
    ("Evaluate Context", ["slot", "input"], []),
    ("Reset Device", ["slot"], []),
    ("reset all slots", [], []),
    ("Stop Endpoint", ["slot", "endpoint"], []),
    ("Reset Endpoint", ["slot", "endpoint"], []),
    ("Set Dequeue", ["slot", "endpoint", "pointer"], ["cycle"]),
    ("doorbell", ["slot", "endpoint", "pointer"], ["cycle", "found"]),
    ("Ok", ["slot", "endpoint", "pointer"], ["cycle", "found"]),
    ("Stall", ["slot", "endpoint", "pointer"], ["cycle", "given"]),
    ("Transaction Error", ["slot", "endpoint", "pointer"], ["cycle", "given"]),
    ("TRB Error", ["slot", "endpoint"], []),
    ("store", ["at", "byte"], []),
]
STORE = 18
# where a field of that name stands in a record
PLACES = {"slot": 1, "endpoint": 2, "DCBAAP": 4, "at": 4, "input": 4, "pointer": 4, "limit": 5, "byte": 5}
RECORD = struct.Struct("<BBBB4xQQ8x")
ANSWER = ["code", "slot", "launched", "terminated", "port", "stored", "submit", "cancel"]


class Bad(Exception):
    pass


def line_of(record):
    """A record's line."""
    if len(record) != RECORD.size:
        raise Bad("a record of %d bytes" % len(record))
    values = RECORD.unpack(record)
    kind = values[0]
    if not 1 <= kind <= len(KINDS):
        raise Bad("kind %d" % kind)
    name, fields, flags = KINDS[kind - 1]
    words = [name]
    for field in fields:
        value = values[PLACES[field]]
        words += [field, "0x%x" % value if PLACES[field] == 4 else "%d" % value]
    words += [flag for bit, flag in enumerate(flags) if values[3] >> bit & 1]
    line = " ".join(words)
    if record_of(line) != record:
        raise Bad("a byte that kind %d does not use" % kind)
    return line


def record_of(line):
    """The record that a line stands for."""
    for kind, (name, fields, flags) in enumerate(KINDS, 1):
        words = line[len(name):].split()
        if (line + " ").startswith(name + " ") and words[: 2 * len(fields) : 2] == fields:
            break
    else:
        raise Bad(line)
    values, rest = [kind, 0, 0, 0, 0, 0], words[2 * len(fields):]
    try:
        for field, word in zip(fields, words[1::2]):
            values[PLACES[field]] = int(word, 0)
        values[3] = sum(1 << flags.index(flag) for flag in set(rest))
        if rest != [flag for flag in flags if flag in rest] or kind == STORE and values[5] > 255:
            raise Bad(line)
        return RECORD.pack(*values)
    except (ValueError, struct.error):
        raise Bad(line) from None


def answer_of(line):
    """An answer's line of eight decimals, with names."""
    words = []
    for name, value in zip(ANSWER, map(int, line.split())):
        if name in ("launched", "terminated"):
            value = ",".join(str(i) for i in range(64) if value >> i & 1)
        elif name in ("submit", "cancel"):
            value = value and " "
        if value or name == "code":
            words.append(("%s %s" % (name, value)).strip())
    return " ".join(words)


def show(trace, answers=None):
    """The lines of a trace. It ends at the first record that is bad by itself, as a replay does."""
    for at in range(0, len(trace), RECORD.size):
        record = trace[at : at + RECORD.size]
        try:
            line = line_of(record)
        except Bad as why:
            yield "# bad record: %s" % why
            return
        if answers is not None and record[0] != STORE:
            answer = next(answers, None)
            line += "" if answer is None else " -> " + answer_of(answer)
        yield line


def make(lines):
    """The trace that lines stand for."""
    for line in lines:
        line = line.split(" -> ")[0].strip()
        if line and not line.startswith("#"):
            yield record_of(line)


def opened(words, mode):
    name = words[0] if words else "-"
    if name == "-":
        return sys.stdin.buffer if "b" in mode else sys.stdin
    return open(name, mode)


def main(words):
    if words[:1] == ["show"] and len(words) <= 3:
        answers = iter(opened(words[2:], "r")) if len(words) == 3 else None
        for line in show(opened(words[1:2], "rb").read(), answers):
            print(line)
    elif words[:1] == ["make"] and len(words) <= 2:
        for record in make(opened(words[1:2], "r")):
            sys.stdout.buffer.write(record)
    else:
        sys.exit(__doc__)


if __name__ == "__main__":
    try:
        main(sys.argv[1:])
    except Bad as why:
        sys.exit("no record: %s" % why)
    except BrokenPipeError:
        sys.stderr.close()
