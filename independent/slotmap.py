#!/usr/bin/env python3
"""The runner once more, worked out from the rules of the record alone.

    python3 independent/slotmap.py < RECORD

writes the report of the record on standard input, or `big`; report(record) hands it to a program.
It has neither code nor layout in common with the crates: a map is 1,024 bytes, one for each slot, 1
where the slot is used; a free run is so many zero bytes in a row, and used slots are counted one by one.
"""
import sys

SLOTS = 1024
LONGEST = 32768
TAKE, CLAIM, FREE = 1, 2, 3
BODY = {TAKE: 3, CLAIM: 4, FREE: 4}


# ---- the calls: each changes the map where it is accepted, and gives its line of the report


def take(used, n, a):
    if n == 0:
        return "no 2"
    if a >= 10:
        return "no 3"
    if n > SLOTS:
        return "no 4"
    run, multiple = bytes(n), 2**a
    start = used.find(run)
    while start > 0 and start % multiple != 0:
        start = used.find(run, start + multiple - start % multiple)
    if start < 0:
        return "no 7"
    used[start : start + n] = b"\1" * n
    return f"at {start}"


def turn(used, start, n, value, refusal):
    """Gives the named slots this value; refused where one of them has it already."""
    if n == 0:
        return "no 2"
    if start > SLOTS or n > SLOTS - start:
        return "no 4"
    if value in used[start : start + n]:
        return refusal
    used[start : start + n] = bytes([value]) * n
    return "ok"


def claim(used, start, n):
    return turn(used, start, n, 1, "no 6")


def free(used, start, n):
    return turn(used, start, n, 0, "no 5")


# ---- the record


def number(low, high):
    return low + 256 * high


def stops(tag, length):
    return tag == 0 or tag >= 128 or BODY.get(tag, length) != length


def answer(used, tag, body):
    """The line of a field that is whole and stops nothing."""
    if tag == TAKE:
        return take(used, number(body[0], body[1]), body[2])
    if tag == CLAIM:
        return claim(used, number(body[0], body[1]), number(body[2], body[3]))
    if tag == FREE:
        return free(used, number(body[0], body[1]), number(body[2], body[3]))
    return "skip"


def lines(record, used):
    """The lines of the report. The record is carried out on this map."""
    at = 0
    while at < len(record):
        if len(record) - at < 3:
            yield "cut"
            break
        tag, length = record[at], number(record[at + 1], record[at + 2])
        if stops(tag, length):
            yield "bad"
            break
        body = record[at + 3 : at + 3 + length]
        if len(body) < length:
            yield "cut"
            break
        yield answer(used, tag, body)
        at += 3 + length
    yield f"used {sum(used)}"


def report(record: bytes, lines_of_map=lambda used: ()) -> bytes:
    """The report, and after it the lines that are asked for of the map that is left."""
    if len(record) > LONGEST:
        return b"big\n"
    used = bytearray(SLOTS)
    return "".join(f"{line}\n" for line in [*lines(record, used), *lines_of_map(used)]).encode()


if __name__ == "__main__":
    sys.stdout.buffer.write(report(sys.stdin.buffer.read(LONGEST + 1)))
