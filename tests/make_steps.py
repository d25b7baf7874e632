#!/usr/bin/env python3
"""Writes what the program `endpoint_cases` must write, from the scope document's "Endpoint steps",
"Codes" and "Commands" (launch, terminate).

    make_steps.py > crates/endpoint_cases/stdout
"""
STATES = ["waiting", "in-flight", "halted", "error", "stopped-continuable", "stopped"]
COMMANDS = {"stop", "reset", "set-dequeue", "terminate"}
LISTED = {  # (state, input): list of effects, in the document's words
    ("waiting", "doorbell"): "look",
    ("waiting", "stop"): "byte 3, save; stopped",
    ("in-flight", "ok"): "look",
    ("in-flight", "stall"): "take, byte 2, save; halted",
    ("in-flight", "transaction-error"): "take, byte 2, save; halted",
    ("in-flight", "trb-error"): "byte 4, save; error",
    ("in-flight", "stop"): "byte 3, save, cancel; stopped-continuable",
    ("halted", "reset"): "byte 3, save; stopped",
    ("stopped", "doorbell"): "byte 1, look",
    ("stopped-continuable", "doorbell"): "byte 1, look",
    ("stopped", "set-dequeue"): "byte 3, take, save; stopped",
    ("stopped-continuable", "set-dequeue"): "byte 3, take, save; stopped",
    ("error", "set-dequeue"): "byte 3, take, save; stopped",
}
AT = 8


def fresh():
    return bytearray([0xEE] * 40)


def words(mem):
    return "".join(" %016x" % int.from_bytes(mem[i:i + 8], "little") for i in range(0, 40, 8))


def record(rec):
    return " | %s %x %d" % rec


def step(state, name, found, place):
    """place: None, or (pointer, cycle). Gives (code, submit, cancel, stored), record, memory."""
    mem, old = fresh(), (state, 0x1230, 1)
    nothing = lambda code: ((code, 0, 0, 0), old, mem)
    if name == "terminate":
        mem[AT] = 0
        return (1, 0, 0, 1), ("disabled", 0, 0), mem
    rule = LISTED.get((state, name))
    if rule is None:
        return nothing(19 if name in COMMANDS else 0 if name == "doorbell" else 196)
    effects, _, after = rule.partition(";")
    effects, after = [e.strip() for e in effects.split(",")], after.strip()
    uses = ("look" in effects or "take" in effects) and place is not None
    if uses and place[0] % 16 != 0:
        return nothing(195)
    pointer, cycle = place if uses else old[1:]
    submit = 0
    if "look" in effects:
        after, submit = ("in-flight", 1) if found else ("waiting", 0)
    stored = 0
    for e in effects:
        if e.startswith("byte"):
            mem[AT] = int(e.split()[1])
            stored += 1
    if "save" in effects:
        mem[AT + 8:AT + 16] = (pointer + cycle).to_bytes(8, "little")
        stored += 8
    code = 1 if name in COMMANDS else 0
    return (code, submit, int("cancel" in effects), stored), (after, pointer, cycle), mem


A, U = 0x2340, 0x2348
LOOKS = [(0, A, 1), (1, A, 0), (0, U, 1), (1, U, 1)]
GIVENS = [(A, 0), (U, 1), None]
for s in STATES:
    cases = [("doorbell", f, (p, c), " %d %x %d" % (f, p, c)) for f, p, c in LOOKS]
    cases += [("stop", 0, None, ""), ("reset", 0, None, "")]
    cases += [("set-dequeue", 0, (p, c), " %x %d" % (p, c)) for p, c in [(A, 0), (A, 1), (U, 1)]]
    cases += [("terminate", 0, None, "")]
    cases += [("ok", f, (p, c), " %d %x %d" % (f, p, c)) for f, p, c in LOOKS]
    for name in ["stall", "transaction-error"]:
        cases += [(name, 0, g, " %x %d" % g if g else " nowhere") for g in GIVENS]
    cases += [("trb-error", 0, None, "")]
    for name, found, place, shown in cases:
        answer, rec, mem = step(s, name, found, place)
        print("%s %s%s | %d %d %d %d%s |%s" % (s, name, shown, *answer, record(rec), words(mem)))
for w in [0x2341, 0x234F, 0x234E, 2**64 - 1]:
    mem = fresh()
    mem[AT + 8:AT + 16] = w.to_bytes(8, "little")
    mem[AT] = 1
    print("launch %x%s |%s" % (w, record(("waiting", w - w % 16, w % 2)), words(mem)))
for s in ["disabled"] + STATES:
    mem, stored = fresh(), 0
    if s != "disabled":
        mem[AT], stored = 0, 1
    print("terminate %s | %d%s |%s" % (s, stored, record(("disabled", 0, 0)), words(mem)))
