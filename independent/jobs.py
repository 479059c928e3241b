"""Jobs once more, worked out from the sentences of request Three, of document 01 for the take that a start is, and of
request Four for what is stored beside the slots.

It has neither code nor layout in common with the crates. A state is 1,024 signs, one for each slot; sixteen signs
each for what the summary and the mark of full words say of each 64 of them; and the stored count. Free, running or
reaped slots are so many equal signs in a row, and used slots are counted sign by sign. A call gives its answer and the
state that it leaves; a refused call leaves the very state.
"""
import collections

SLOTS, PART = 1024, 64
# A stray slot is marked as reaped and is not used. No call makes one, but a state from outside can have it.
FREE, RUNNING, REAPED, STRAY = ".ox!"
YES, NO = "+-"

State = collections.namedtuple("State", "slots summary full count")


# ---- states


def holding(slots):
    """The state with these slots, and stored beside them what has to be: of each 64 slots whether one of them is used, and
    whether each of them is; and how many are used."""
    parts = [slots[at : at + PART] for at in range(0, SLOTS, PART)]
    some = "".join(YES if RUNNING in part or REAPED in part else NO for part in parts)
    every = "".join(NO if FREE in part or STRAY in part else YES for part in parts)
    return State(slots, some, every, slots.count(RUNNING) + slots.count(REAPED))


def is_sound(state):
    return STRAY not in state.slots and state == holding(state.slots)


def turned(state, start, n, sign):
    """The state whose n slots from `start` on have this sign."""
    return holding(state.slots[:start] + sign * n + state.slots[start + n :])


# ---- changes


def start(state, n, a):
    """A take: the lowest start that is a multiple of 2^a and has n free slots from it on; these then run."""
    if not is_sound(state):
        return "no 1", state
    if n == 0:
        return "no 2", state
    if a >= 10:
        return "no 3", state
    if n > SLOTS:
        return "no 4", state
    free_run = FREE * n
    for at in range(0, SLOTS, 2**a):
        if state.slots.startswith(free_run, at):
            return f"at {at}", turned(state, at, n, RUNNING)
    return "no 7", state


def passed_on(state, start, n, before, after, refusal):
    """The n slots from `start` on pass from one sign to the next; refused where one of them has another."""
    if not is_sound(state):
        return "no 1", state
    if n == 0:
        return "no 2", state
    if start + n > SLOTS:
        return "no 4", state
    if state.slots[start : start + n] != before * n:
        return refusal, state
    return "ok", turned(state, start, n, after)


def reap(state, start, n):
    return passed_on(state, start, n, RUNNING, REAPED, "no 13")


def record(state, start, n):
    return passed_on(state, start, n, REAPED, FREE, "no 14")


# ---- questions


def state(state, slot):
    if not is_sound(state):
        return "no 1", state
    if slot >= SLOTS:
        return "no 4", state
    return {FREE: "free", RUNNING: "running", REAPED: "reaped"}[state.slots[slot]], state


def empty(state):
    if not is_sound(state):
        return "no 1", state
    return "yes" if state.slots == FREE * SLOTS else "no", state


def used(state):
    if not is_sound(state):
        return "no 1", state
    return f"is {state.slots.count(RUNNING) + state.slots.count(REAPED)}", state


def capacity(state):
    return f"is {SLOTS}", state


def new_empty(state):
    """The state with each slot free, whatever the state before it is."""
    return "ok", holding(FREE * SLOTS)
