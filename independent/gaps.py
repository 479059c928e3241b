#!/usr/bin/env python3
"""What the program slotgaps writes, worked out once more from its rules alone.

    python3 independent/gaps.py < RECORD

writes the report of the record on standard input and then the runs of the map that it leaves, or `big`;
text(record) hands it to a program. The report and the map are those of independent/slotmap.py: the map has
one byte for each slot, 1 where the slot is used. A run is as many equal bytes as a pattern finds in a row.
"""
import re
import sys

sys.dont_write_bytecode = True
import slotmap

FREE, USED = re.compile(b"\0+"), re.compile(b"\1+")


def runs(pattern, used):
    """Start and length of each run, the lowest first."""
    return [(found.start(), found.end() - found.start()) for found in pattern.finditer(used)]


def lines(used):
    free = runs(FREE, used)
    for start, length in free:
        yield f"free run {start} {length}"
    for start, length in runs(USED, used):
        yield f"used run {start} {length}"
    # of runs that are equally long, max gives the first
    longest = max(free, key=lambda run: run[1], default=None)
    yield "longest free run " + ("none" if longest is None else f"{longest[0]} {longest[1]}")
    yield f"free slots {used.count(0)}"


def text(record: bytes) -> bytes:
    return slotmap.report(record, lines)


if __name__ == "__main__":
    sys.stdout.buffer.write(text(sys.stdin.buffer.read(slotmap.LONGEST + 1)))
