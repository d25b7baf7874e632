"""A second reading of the rules of document 01, written from its text. Where the text leaves a
question open, a comment says "Decided here"; the cycle of a place that a Stall or Transaction Error
gives was decided after the Rust.

A call takes the table, the guest's memory where it lends one, and its numbers;
it answers eight numbers and changes table and memory in place.  Identifiers,
pointers and limits may be any numbers below 2**64, flags are 0 or 1.  Each
function opens with the sentence of the rules that it renders.
"""

from dataclasses import dataclass, field
from functools import wraps
from typing import NamedTuple

SLOTS = 16
ENDPOINTS = 31
LONGEST = 1_073_741_824
WRAP = 2**64
CONTEXT = 32

# States are numbered as in the saved form.
FREE, ENABLED, DEFAULT, ADDRESSED, CONFIGURED = range(5)
DISABLED, WAITING, IN_FLIGHT, HALTED, ERROR, CONTINUABLE, STOPPED = range(7)

NO_EVENT = 0
SUCCESS = 1
NO_SLOTS = 9
SLOT_ABSENT = 11
ENDPOINT_ABSENT = 12
BAD_PARAMETER = 17
BAD_STATE = 19
OUTSIDE = 193
OTHER_LENGTH = 194
UNALIGNED = 195
NOT_IN_FLIGHT = 196
TOO_LARGE = 197
MALFORMED = 198


class Answer(NamedTuple):
    """An answer holds: code, slot id, launched mask, terminated mask (bit i is
    endpoint i), root port, bytes stored, submit, cancel.  What no rule sets is 0."""
    code: int
    slot: int = 0
    launched: int = 0
    terminated: int = 0
    root_port: int = 0
    stored: int = 0
    submit: int = 0
    cancel: int = 0


class Refusal(Exception):
    """Everything but the code is 0 in a refusal."""

    def __init__(self, code):
        self.code = code


class Slot(NamedTuple):
    state: int = FREE
    base: int = 0
    entry: int = 0


class Endpoint(NamedTuple):
    state: int = DISABLED
    cycle: int = 0
    pointer: int = 0


FREE_SLOT = Slot()
DISABLED_ENDPOINT = Endpoint()
NO_ENDPOINTS = [DISABLED_ENDPOINT] * ENDPOINTS


@dataclass
class Table:
    """Slots 1..16.  Endpoints 1..31.  The table keeps one record per pair, 496
    in one flat run.  Making a table gives limit 0, DCBAAP 0, no slot."""
    length: int = 0
    limit: int = 0
    dcbaap: int = 0
    slots: list = field(default_factory=lambda: [FREE_SLOT] * SLOTS)
    endpoints: list = field(default_factory=lambda: NO_ENDPOINTS * SLOTS)

    def copy(self):
        return Table(self.length, self.limit, self.dcbaap, list(self.slots), list(self.endpoints))

    def slot(self, slot):
        return self.slots[slot - 1]

    def set_slot(self, slot, record):
        self.slots[slot - 1] = record

    def endpoint(self, slot, endpoint):
        return self.endpoints[(slot - 1) * ENDPOINTS + endpoint - 1]

    def set_endpoint(self, slot, endpoint, record):
        self.endpoints[(slot - 1) * ENDPOINTS + endpoint - 1] = record

    def endpoints_of(self, slot):
        return self.endpoints[(slot - 1) * ENDPOINTS:slot * ENDPOINTS]


def inside(address, count, length):
    """Additions wrap, as in the Rust; then the whole range must lie in memory."""
    return address % WRAP + count <= length


def well_formed(table):
    """A table is well formed when: limit and length are in range; ..."""
    return (table.limit <= SLOTS and table.length <= LONGEST
            and all(slot_well_formed(table, slot) for slot in range(1, SLOTS + 1)))


def slot_well_formed(table, slot):
    """... free slots and disabled endpoints are all zero; an Enabled slot has base 0
    and no endpoint; any later state has endpoint 1, and the 64 bytes from base lie
    wholly in memory; ..."""
    record = table.slot(slot)
    endpoints = table.endpoints_of(slot)
    if record.state == FREE:
        # Decided here: "all zero" of a free slot covers its 31 endpoint records.
        return record == FREE_SLOT and endpoints == NO_ENDPOINTS
    if record.state == ENABLED:
        return record.base == 0 and endpoints == NO_ENDPOINTS
    return (endpoints[0].state != DISABLED
            and inside(record.base, 2 * CONTEXT, table.length)
            and all(endpoint_well_formed(endpoint, record.base + CONTEXT * number, table.length)
                    for number, endpoint in enumerate(endpoints, 1)))


def endpoint_well_formed(endpoint, context, length):
    """... each enabled endpoint i has its 32 bytes from base+32i wholly in memory,
    and an aligned pointer."""
    if endpoint.state == DISABLED:
        return endpoint == DISABLED_ENDPOINT
    return inside(context, CONTEXT, length) and endpoint.pointer % 16 == 0


class Work:
    """A call at work in lent memory, and what it has done so far."""

    def __init__(self, table, memory):
        self.table = table
        self.memory = memory
        self.launched = self.terminated = self.root_port = self.stored = 0

    def answer(self, code, submit=0, cancel=0):
        return Answer(code, 0, self.launched, self.terminated, self.root_port, self.stored,
                      submit, cancel)

    def slot(self, slot, code=SLOT_ABSENT):
        """11: slot id 0, above 16, or free."""
        if not 1 <= slot <= SLOTS or self.table.slot(slot).state == FREE:
            raise Refusal(code)
        return self.table.slot(slot)

    def endpoint(self, slot, endpoint, code=ENDPOINT_ABSENT):
        """12: endpoint id 0, above 31, or disabled."""
        if not 1 <= endpoint <= ENDPOINTS or self.table.endpoint(slot, endpoint).state == DISABLED:
            raise Refusal(code)
        return self.table.endpoint(slot, endpoint)

    def require(self, address, count):
        """193: a needed range is not wholly in memory."""
        if not inside(address, count, self.table.length):
            raise Refusal(OUTSIDE)

    def read(self, address, count):
        """Multi-byte fields are little-endian."""
        self.require(address, count)
        start = address % WRAP
        return int.from_bytes(self.memory[start:start + count], "little")

    def store(self, address, number, count=1):
        """Bytes stored counts each byte of each store, repeats included."""
        start = address % WRAP
        self.memory[start:start + count] = number.to_bytes(count, "little")
        self.stored += count

    def copy(self, source, target):
        """Each 32-byte context is read whole, then stored."""
        self.store(target, self.read(source, CONTEXT), CONTEXT)

    def context_check(self, pointer):
        """Read 4 bytes of add flags at P+4.  For each set flag i from 1 to 31,
        ascending, read the byte at P+32(i+1)+4; its bits 3..5 are the type.  Types 0,
        1 and 5 give 17.  The first failure in this order, 17 or 193, decides."""
        added = self.read(pointer + 4, 4)
        for number in flags(added, 1):
            if self.read(pointer + CONTEXT * (number + 1) + 4, 1) >> 3 & 7 in (0, 1, 5):
                raise Refusal(BAD_PARAMETER)
        return added

    def launch(self, slot, endpoint):
        """Root port is the byte at base+6; store 1 at base+32i; take 8 bytes at
        base+32i+8: the pointer is the value with its low four bits cleared, the cycle
        is bit 0; the record becomes Waiting."""
        base = self.table.slot(slot).base
        context = base + CONTEXT * endpoint
        self.root_port = self.read(base + 6, 1)
        self.store(context, 1)
        taken = self.read(context + 8, 8)
        self.table.set_endpoint(slot, endpoint, Endpoint(WAITING, taken & 1, taken & ~15))
        self.launched |= 1 << endpoint

    def terminate(self, slot, endpoints):
        """Store 0 at base+32i; the record becomes disabled.  A disabled endpoint is
        passed over: no store, no mask bit."""
        for endpoint in endpoints:
            if self.table.endpoint(slot, endpoint).state != DISABLED:
                self.store(self.table.slot(slot).base + CONTEXT * endpoint, 0)
                self.table.set_endpoint(slot, endpoint, DISABLED_ENDPOINT)
                self.terminated |= 1 << endpoint

    def store_slot_state(self, slot):
        """Slot state byte at base+15: Default 8, Addressed 16, Configured 24."""
        record = self.table.slot(slot)
        self.store(record.base + 15, (record.state - ENABLED) << 3)

    def free(self, slot):
        """Terminates all endpoints ascending and frees the slot; the slot state byte is
        untouched."""
        self.terminate(slot, range(1, ENDPOINTS + 1))
        self.table.set_slot(slot, FREE_SLOT)


def flags(word, lowest):
    """A walk over flag bits, ascending."""
    return [number for number in range(lowest, 32) if word >> number & 1]


# Order of checks: 198; 194 (calls that lend memory); 11; 12; then the command's own.
# Decided here: setting the limit, setting DCBAAP, Enable Slot and making a table lend
# no memory, and every other call does.

def lends_none(rule):
    """198: malformed table, unchanged."""
    @wraps(rule)
    def call(table, *numbers):
        if not well_formed(table):
            return Answer(MALFORMED)
        try:
            return rule(table, *numbers)
        except Refusal as refusal:
            return Answer(refusal.code)
    return call


def lends_memory(rule):
    """194: lent memory has another length than the table's, unchanged."""
    @lends_none
    @wraps(rule)
    def call(table, memory, *numbers):
        if len(memory) != table.length:
            raise Refusal(OTHER_LENGTH)
        return rule(Work(table, memory), *numbers)
    return call


def make_table(length):
    """Making a table gives limit 0, DCBAAP 0, no slot; too long a memory gives 197 and
    a table for length 0."""
    if length > LONGEST:
        return Answer(TOO_LARGE), Table(0)
    return Answer(NO_EVENT), Table(length)


@lends_none
def set_limit(table, limit):
    """The slot limit (0..16) may be set at any time; slots above a lowered limit stay."""
    if limit > SLOTS:
        raise Refusal(TOO_LARGE)
    table.limit = limit
    return Answer(NO_EVENT)


@lends_none
def set_dcbaap(table, address):
    """DCBAAP may be set at any time; it is kept as given."""
    table.dcbaap = address
    return Answer(NO_EVENT)


@lends_none
def enable_slot(table):
    """Smallest free id from 1 to the limit.  Its DCBAA entry address is DCBAAP + 8 × id,
    fixed at that moment."""
    for slot in range(1, table.limit + 1):
        if table.slot(slot).state == FREE:
            table.set_slot(slot, Slot(ENABLED, 0, (table.dcbaap + 8 * slot) % WRAP))
            return Answer(SUCCESS, slot)
    raise Refusal(NO_SLOTS)


@lends_memory
def address_device(work, slot, pointer, block):
    """Context check first, then state.  Enabled, BSR=1: read base, to Default.  Enabled,
    BSR=0: read base, to Addressed.  Default, BSR=0: terminate endpoint 1, to Addressed.
    Else 19.  Then copy 32 bytes from P+32 to base; store the slot state byte; copy 32
    bytes from P+64 to base+32; launch endpoint 1."""
    state, base, entry = work.slot(slot)
    work.context_check(pointer)
    if state == ENABLED:
        base = work.read(entry, 8)
    elif state != DEFAULT or block:
        raise Refusal(BAD_STATE)
    for start in (pointer + 32, pointer + 64, base, base + 32):
        work.require(start, CONTEXT)
    if state == DEFAULT:
        work.terminate(slot, [1])
    work.table.set_slot(slot, Slot(DEFAULT if block else ADDRESSED, base, entry))
    work.copy(pointer + 32, base)
    work.store_slot_state(slot)
    work.copy(pointer + 64, base + 32)
    work.launch(slot, 1)
    return work.answer(SUCCESS)


@lends_memory
def configure_endpoint(work, slot, pointer, deconfigure):
    """State first: Enabled or Default gives 19.  DC=1: terminate endpoints 2..31, to
    Addressed; P is not used.  DC=0: context check; read drop flags at P, then add flags.
    Bits 2..31 only.  All drops, ascending, then all adds, ascending: copy from P+32(i+1)
    to base+32i, launch.  To Configured.  The slot state byte is stored last."""
    state, base, entry = work.slot(slot)
    if state in (ENABLED, DEFAULT):
        raise Refusal(BAD_STATE)
    if deconfigure:
        drops, adds = range(2, ENDPOINTS + 1), []
    else:
        adds = flags(work.context_check(pointer), 2)
        drops = flags(work.read(pointer, 4), 2)
    for number in adds:
        work.require(pointer + CONTEXT * (number + 1), CONTEXT)
        work.require(base + CONTEXT * number, CONTEXT)
    work.terminate(slot, drops)
    for number in adds:
        work.copy(pointer + CONTEXT * (number + 1), base + CONTEXT * number)
        work.launch(slot, number)
    work.table.set_slot(slot, Slot(ADDRESSED if deconfigure else CONFIGURED, base, entry))
    work.store_slot_state(slot)
    return work.answer(SUCCESS)


@lends_memory
def evaluate_context(work, slot, pointer):
    """Context check, then 1, in any slot state."""
    work.slot(slot)
    work.context_check(pointer)
    return work.answer(SUCCESS)


@lends_memory
def reset_device(work, slot):
    """Enabled or Default: 19.  Else terminate 2..31, to Default, store the state byte."""
    state, base, entry = work.slot(slot)
    if state in (ENABLED, DEFAULT):
        raise Refusal(BAD_STATE)
    work.terminate(slot, range(2, ENDPOINTS + 1))
    work.table.set_slot(slot, Slot(DEFAULT, base, entry))
    work.store_slot_state(slot)
    return work.answer(SUCCESS)


@lends_memory
def disable_slot(work, slot):
    """Disable Slot terminates all endpoints ascending and frees the slot."""
    work.slot(slot)
    work.free(slot)
    return work.answer(SUCCESS)


@lends_memory
def reset_all(work):
    """Reset of all slots does so for each slot ascending, sets limit and DCBAAP to 0, and
    answers 0 with masks 0."""
    for slot in range(1, SLOTS + 1):
        work.free(slot)
    work.table.limit = work.table.dcbaap = 0
    # Decided here: the bytes stored are answered, since only the masks are said to be 0.
    return Answer(NO_EVENT, stored=work.stored)


COMMANDS = STOP, RESET, SET_DEQUEUE = "Stop", "Reset", "Set Dequeue"
HOST_EVENTS = OK, STALL, TRANSACTION_ERROR, TRB_ERROR = (
    "Ok", "Stall", "Transaction Error", "TRB Error")
DOORBELL = "doorbell"

# Unlisted: command 19, doorbell 0 with no effect, host event 196.
UNLISTED = (dict.fromkeys(COMMANDS, BAD_STATE) | {DOORBELL: NO_EVENT}
            | dict.fromkeys(HOST_EVENTS, NOT_IN_FLIGHT))


class Step(NamedTuple):
    """The state byte stored (or none), whether pointer and cycle are saved, whether the
    transfer is cancelled, and the next state: none where a look decides it."""
    byte: int | None
    save: bool
    cancel: int
    following: int | None


LOOK = Step(None, False, 0, None)
RESTART = Step(1, False, 0, None)
STOPS = Step(3, True, 0, STOPPED)
HALTS = Step(2, True, 0, HALTED)

# Six resting states, nine inputs: these fifty-four entries are one fixed table.
# Terminate, the ninth, works in all.
STEPS = {
    (WAITING, DOORBELL): LOOK,
    (WAITING, STOP): STOPS,
    (IN_FLIGHT, OK): LOOK,
    (IN_FLIGHT, STALL): HALTS,
    (IN_FLIGHT, TRANSACTION_ERROR): HALTS,
    (IN_FLIGHT, TRB_ERROR): Step(4, True, 0, ERROR),
    (IN_FLIGHT, STOP): Step(3, True, 1, CONTINUABLE),
    (HALTED, RESET): STOPS,
    (STOPPED, DOORBELL): RESTART,
    (CONTINUABLE, DOORBELL): RESTART,
    (STOPPED, SET_DEQUEUE): STOPS,
    (CONTINUABLE, SET_DEQUEUE): STOPS,
    (ERROR, SET_DEQUEUE): STOPS,
}


def step(work, slot, endpoint, given, pointer=None, cycle=None, found=False):
    """A host event answers 196 where 11 or 12 would stand.  State is judged before
    alignment.  "Look" means: take its pointer and cycle; found gives In flight and submit,
    else Waiting.  "Save" stores pointer plus cycle in 8 bytes at context+8."""
    absent = [NOT_IN_FLIGHT] if given in HOST_EVENTS else []
    context = work.slot(slot, *absent).base + CONTEXT * endpoint
    resting = work.endpoint(slot, endpoint, *absent)
    entry = STEPS.get((resting.state, given))
    if entry is None:
        return Answer(UNLISTED[given])
    # An input brings a pointer and a cycle, or neither; what it brings is taken.
    pointer = resting.pointer if pointer is None else pointer
    cycle = resting.cycle if cycle is None else cycle
    if pointer % 16:
        raise Refusal(UNALIGNED)
    if entry.byte is not None:
        work.store(context, entry.byte)
    if entry.save:
        work.store(context + 8, pointer + cycle, 8)
    looked = IN_FLIGHT if found else WAITING
    following = looked if entry.following is None else entry.following
    work.table.set_endpoint(slot, endpoint, Endpoint(following, cycle, pointer))
    return work.answer(SUCCESS if given in COMMANDS else NO_EVENT, int(found), entry.cancel)


@lends_memory
def stop_endpoint(work, slot, endpoint):
    """Waiting, Stop: byte 3, save; Stopped.  In flight, Stop: byte 3, save, cancel;
    Stopped-continuable."""
    return step(work, slot, endpoint, STOP)


@lends_memory
def reset_endpoint(work, slot, endpoint):
    """Halted, Reset: byte 3, save; Stopped."""
    return step(work, slot, endpoint, RESET)


@lends_memory
def set_dequeue(work, slot, endpoint, pointer, cycle):
    """Those two, Error, Set Dequeue: byte 3, take, save; Stopped."""
    return step(work, slot, endpoint, SET_DEQUEUE, pointer, cycle)


@lends_memory
def doorbell(work, slot, endpoint, found, pointer, cycle):
    """Waiting, doorbell: look.  Stopped, Stopped-continuable, doorbell: byte 1; look."""
    return step(work, slot, endpoint, DOORBELL, pointer, cycle, found)


@lends_memory
def ok(work, slot, endpoint, found, pointer, cycle):
    """In flight, Ok: look."""
    return step(work, slot, endpoint, OK, pointer, cycle, found)


@lends_memory
def stall(work, slot, endpoint, pointer, cycle):
    """In flight, Stall: take the pointer if given; byte 2, save; Halted."""
    # Decided here: a pointer that is given comes with its cycle, as in the Rust, and both
    # are taken; without one, pointer and cycle are None and the endpoint keeps its own.
    return step(work, slot, endpoint, STALL, pointer, cycle)


@lends_memory
def transaction_error(work, slot, endpoint, pointer, cycle):
    """In flight, Transaction Error: take the pointer if given; byte 2, save; Halted."""
    return step(work, slot, endpoint, TRANSACTION_ERROR, pointer, cycle)


@lends_memory
def trb_error(work, slot, endpoint):
    """In flight, TRB Error: byte 4, save; Error."""
    return step(work, slot, endpoint, TRB_ERROR)
