#!/usr/bin/env python3
"""The blackboard's examples once more, worked out from the papers' sentences alone: document 01's, for the third level
those of request One, for jobs those of request Three, for what a map stores those of request Four, for images those of
request Five, and for lists of runs those of request Seven.

Nothing here is shared with the crates: no code, no table, no list of examples. Where the crates use
masks, this counts: a power of two is found by trying exponents, a multiple by dividing whole numbers
of any size, an overlap by looking for the common number, a mask by adding up its bits.
"""
import itertools


class Refused(Exception):
    pass


def refuse(number, when):
    if when:
        raise Refused(number)


def is_power(n):
    return any(n == 2**k for k in range(64))


# ---- what document 01 says


def low_mask(k):
    return sum(2**i for i in range(min(k, 64)))


def one_bit(x):
    refuse(4, x > 63)
    return 2**x


def mask(s, e):
    refuse(4, e > 63)
    refuse(10, e < s)
    return sum(2**i for i in range(s, e + 1))


def align_up(v, a, width=64):
    refuse(8, not is_power(a))
    multiple = (v + a - 1) // a * a
    refuse(9, multiple >= 2**width)
    return multiple


def align_down(v, a):
    refuse(8, not is_power(a))
    return v // a * a


def is_aligned(v, a):
    refuse(8, not is_power(a))
    return v // a * a == v


def pages(x):
    """One for each page that begins below x."""
    return len(range(0, x, 4096))


def overlap(a, b, c, d):
    refuse(10, a > b or c > d)
    return any(c <= n <= d for n in range(a, b + 1))


def clear(buffer, start, end):
    refuse(4, end > len(buffer))
    refuse(10, end < start)
    for offset in range(start, end):
        buffer[offset] = "."


# a map is the set of its used slots and the number of slots that it has; take, claim, free and set give
# the set that they leave. A word map has 64 slots. A tree has 1,024, and stores a summary, a mark of full words and a
# count. The third level has 16,384 and a summary, and below it sixteen trees with what they store. What a map tells so
# may be wrong


def summary(used, part):
    """Bit i is 1 exactly if part i, of so many slots, holds a used one."""
    return sum(2**i for i in {slot // part for slot in used})


def full_mark(used):
    """Bit i is 1 exactly if each of the 64 slots of word i is used."""
    return sum(2**word for word in range(16) if all(64 * word + place in used for place in range(64)))


def stored(used):
    """What a tree with these slots has to store."""
    return [summary(used, 64), full_mark(used), len(used)]


def to_tell(size, used):
    """What a map with these slots has to tell: its summary, then what is stored beside it. This is the mark and the count of
    a tree, and of the third level what each of its trees stores."""
    if size == 64:
        return []
    if size == 1024:
        return stored(used)
    trees = [{slot - first for slot in used if first <= slot < first + 1024} for first in range(0, size, 1024)]
    return [summary(used, 1024)] + [stored(tree) for tree in trees]


class Map:
    def __init__(self, size, used=(), told=None):
        self.size, self.used = size, set(used)
        self.told = to_tell(size, self.used) if told is None else told

    def sound(self):
        refuse(1, self.told != to_tell(self.size, self.used))

    def inside(self, start, n):
        refuse(2, n == 0)
        refuse(4, start > self.size or n > self.size - start)
        return set(range(start, start + n))

    def take(self, n, a):
        self.sound()
        refuse(2, n == 0)
        refuse(3, a >= 60 or 2**a >= self.size)
        refuse(4, n > self.size)
        for start in range(0, self.size - n + 1, 2**a):
            run = range(start, start + n)
            if self.used.isdisjoint(run):
                return start, self.used | set(run)
        raise Refused(7)

    def claim(self, start, n):
        self.sound()
        named = self.inside(start, n)
        refuse(6, named & self.used)
        return None, self.used | named

    def free(self, start, n):
        self.sound()
        named = self.inside(start, n)
        refuse(5, named - self.used)
        return None, self.used - named

    def give(self, start, n, value):
        self.sound()
        named = self.inside(start, n)
        return None, self.used | named if value else self.used - named

    def next_free(self, start):
        self.sound()
        refuse(4, start >= self.size)
        free = [slot for slot in range(start, self.size) if slot not in self.used]
        refuse(7, free == [])
        return min(free)

    def get(self, slot):
        self.sound()
        refuse(4, slot >= self.size)
        return slot in self.used

    def empty(self):
        self.sound()
        return self.used == set()

    def count(self):
        self.sound()
        return len(self.used)


# what request Three says: a slot is free, running or reaped. A state of jobs has the set of its running slots and the set
# of its reaped ones, which are both used, and stores what a tree does, which it may tell wrong. A stray slot is said to be
# reaped and is not used. Start, reap and record give the state that they leave


class Jobs:
    size = 1024

    def __init__(self, running=(), reaped=(), told=None, stray=()):
        self.running, self.reaped, self.stray = set(running), set(reaped), set(stray)
        self.told = stored(self.running | self.reaped) if told is None else told

    def sound(self):
        refuse(1, self.stray or self.told != stored(self.running | self.reaped))

    def named(self, start, n):
        self.sound()
        refuse(2, n == 0)
        refuse(4, start + n > self.size)
        return set(range(start, start + n))

    def start(self, n, a):
        self.sound()
        refuse(2, n == 0)
        refuse(3, a >= 10)
        refuse(4, n > self.size)
        free = {slot for slot in range(self.size) if self.state(slot) == "free"}
        fits = [start for start in free if start % 2**a == 0 and free.issuperset(range(start, start + n))]
        refuse(7, fits == [])
        return min(fits), Jobs(self.running | set(range(min(fits), min(fits) + n)), self.reaped)

    def reap(self, start, n):
        named = self.named(start, n)
        refuse(13, any(self.state(slot) != "running" for slot in named))
        return None, Jobs(self.running - named, self.reaped | named)

    def record(self, start, n):
        named = self.named(start, n)
        refuse(14, any(self.state(slot) != "reaped" for slot in named))
        return None, Jobs(self.running, self.reaped - named)

    def state(self, slot):
        self.sound()
        refuse(4, slot >= self.size)
        return "running" if slot in self.running else "reaped" if slot in self.reaped else "free"

    def empty(self):
        self.sound()
        return not self.running and not self.reaped

    def count(self):
        self.sound()
        return len(self.running) + len(self.reaped)


# what request Five says: an image is a list of 136 bytes, two fields of a tag, a length and a body. The words are one body
# and the summary is the other. Write and read turn a tree into an image and back; a call for C works on the image


def low_first(number, size):
    """The bytes of a number."""
    return [number // 256**k % 256 for k in range(size)]


def image(m):
    body = [sum(2**bit for bit in range(8) if 8 * byte + bit in m.used) for byte in range(128)]
    return [32] + low_first(128, 2) + body + [33] + low_first(2, 2) + low_first(m.told[0], 2)


def write(m, buffer):
    refuse(16, len(buffer) != 136)
    m.sound()
    buffer[:] = image(m)


def fields(held):
    """Tag and body of each field; what is cut short is no field."""
    rest = list(held)
    while rest:
        size = rest[1] + 256 * rest[2] if len(rest) > 2 else len(rest)
        refuse(16, len(rest) < 3 + size)
        yield rest[0], rest[3 : 3 + size]
        rest = rest[3 + size :]


def read(held):
    found = list(fields(held))
    refuse(16, [(tag, len(body)) for tag, body in found] != [(32, 128), (33, 2)])
    words, (low, high) = found[0][1], found[1][1]
    used = {slot for slot in range(1024) if words[slot // 8] // 2 ** (slot % 8) % 2 == 1}
    m = Map(1024, used, [low + 256 * high] + stored(used)[1:])
    m.sound()
    return m


def for_c(buffer, call):
    """The one signed number that a call on an image answers."""
    try:
        m = read(buffer)
        start, left = call(m)
        buffer[:] = image(Map(1024, left))
        return start or 0
    except Refused as refusal:
        return -refusal.args[0]


# what request Seven says: the free slots of a tree, or its used ones, as runs of a start and a length, each as long as it
# can be. A run begins where the slot on its left is missing, and ends where the one on its right is


def ends(slots):
    """The first and the last slot of each run."""
    firsts = sorted(slot for slot in slots if slot - 1 not in slots)
    lasts = sorted(slot for slot in slots if slot + 1 not in slots)
    return list(zip(firsts, lasts))


def unused(m):
    return set(range(m.size)) - m.used


def list_runs(m, slots, buffer):
    m.sound()
    refuse(11, len(buffer) < 1024)
    numbers = [number for first, last in ends(slots) for number in (first, last - first + 1)]
    buffer[: len(numbers)] = numbers
    return len(numbers) // 2


def longest_free(m):
    """As a list of one run: of the longest ones the lowest."""
    m.sound()
    refuse(7, unused(m) == set())
    length = max(last - first + 1 for first, last in ends(unused(m)))
    return [min(first for first, last in ends(unused(m)) if last - first + 1 == length), length]


# ---- the lines


def line(words, call):
    try:
        answer = call()
    except Refused as refusal:
        answer = f"refused {refusal}"
    if answer is None:
        answer = "ok"
    elif isinstance(answer, bool):
        answer = "yes" if answer else "no"
    print(f"{words}: {answer}")


def up(v, a):
    line(f"round up {v} to {a}", lambda: align_up(v, a))


def down(v, a):
    line(f"round down {v} to {a}", lambda: align_down(v, a))


def multiple(v, a):
    line(f"is {v} a multiple of {a}", lambda: is_aligned(v, a))


def narrow(words, v, joined, a, call):
    line(f"at 32 bits {words} {v} {joined} {a}", lambda: call(v, a))


def intervals(a, b, c, d):
    line(f"overlap {a}..{b} and {c}..{d}", lambda: overlap(a, b, c, d))


def cleared(start, end):
    buffer = list("abcdefgh")
    try:
        clear(buffer, start, end)
        answer = "ok"
    except Refused as refusal:
        answer = f"refused {refusal}"
    print(f"clear {start}..{end} leaves {''.join(buffer)}: {answer}")


def runs(used):
    """The first and the last slot of each run, as a list of words."""
    return "".join(f" {first}..{last}" for first, last in ends(used)) or " none"


def in_words(told):
    """What a tree stores."""
    return f" under summary {told[0]}, full mark {told[1]}, count {told[2]}"


def groups(trees):
    """The trees that store anything but 0; those side by side that store the same are said as first and last."""
    said = ""
    for told, group in itertools.groupby(range(len(trees)), lambda tree: trees[tree]):
        group = list(group)
        if any(told):
            said += f", trees {group[0]}..{group[-1]}{in_words(told)}"
    return said


def picture(m):
    if m.size == 64:
        return " " + "".join("#" if slot in m.used else "." for slot in range(64))
    if m.size == 1024:
        return runs(m.used) + in_words(m.told)
    return f"{runs(m.used)} under summary {m.told[0]}{groups(m.told[1:])}"


def changed(name, words, call):
    left = MAPS[name]
    try:
        start, used = call(left)
        answer = "ok" if start is None else f"at {start}"
        left = Map(left.size, used)
    except Refused as refusal:
        answer = f"refused {refusal}"
    print(f"{name}: {words}: {answer}, leaves{picture(left)}")
    return left


def takes(name, n, a, how="take"):
    return changed(name, f"{how} {n} at a multiple of 2^{a}", lambda m: m.take(n, a))


def claims(name, start, n):
    return changed(name, f"claim from {start}, {n}", lambda m: m.claim(start, n))


def frees(name, start, n, how="free"):
    return changed(name, f"{how} from {start}, {n}", lambda m: m.free(start, n))


def sets(name, start, n, value):
    changed(name, f"set {'used' if value else 'free'} from {start}, {n}", lambda m: m.give(start, n, value))


def next_frees(name, start):
    line(f"{name}: next free from {start}", lambda: MAPS[name].next_free(start))


def gets(name, slot):
    line(f"{name}: is used {slot}", lambda: MAPS[name].get(slot))


def counts(name):
    line(f"{name}: empty", MAPS[name].empty)
    line(f"{name}: used", MAPS[name].count)
    line(f"{name}: capacity", lambda: MAPS[name].size)


SIGNS = {"free": ".", "running": "#", "reaped": "r"}


def in_runs(jobs):
    return f"{runs(jobs.running | jobs.reaped)}{in_words(jobs.told)}, reaped{runs(jobs.reaped | jobs.stray)}"


def in_row(jobs):
    """The first 64 slots, each by the sign of its state."""
    return " " + "".join(SIGNS[jobs.state(slot)] for slot in range(64))


def worked(name, words, call, shown):
    left = MAPS[name]
    try:
        start, left = call(left)
        answer = "ok" if start is None else f"at {start}"
    except Refused as refusal:
        answer = f"refused {refusal}"
    print(f"{name}: {words}: {answer}, leaves{shown(left)}")
    return left


def starts(name, n, a, shown=in_runs):
    return worked(name, f"start {n} at a multiple of 2^{a}", lambda jobs: jobs.start(n, a), shown)


def reaps(name, start, n, shown=in_runs):
    return worked(name, f"reap from {start}, {n}", lambda jobs: jobs.reap(start, n), shown)


def records(name, start, n, shown=in_runs):
    return worked(name, f"record from {start}, {n}", lambda jobs: jobs.record(start, n), shown)


def states(name, slot):
    line(f"{name}: state of {slot}", lambda: MAPS[name].state(slot))


TOP = 2**64 - 1
EMPTY, FULL = "empty word", "full word"
FIRST, THIRD, TENTH, LOW = "word with slot 0", "word with slot 2", "word with slot 10", "word with slots 0 to 62"
BARE, PACKED = "empty tree", "full tree"
ONE, INNER, ACROSS = "tree with slot 0", "tree with slot 70", "tree with slots 60 to 67"
MOST, WORDS_FULL = "tree with slots 0 to 1022", "tree with slots 0 to 959"
BAD, HIDDEN = "no slot under summary 1", "all slots under summary 32767"
UNMARKED, OVERMARKED = "full tree with full mark 32767", "empty tree with full mark 1"
NEIGHBOUR_MARKED = "tree with slots 0 to 63, full mark 2"
COUNT_HIGH, COUNT_LOW = "empty tree with count 1", "full tree with count 1023"
LARGE, LARGE_FULL, LARGE_ONE = "empty third level", "full third level", "third level with slot 0"
LARGE_ACROSS, LARGE_MOST = "third level with slots 1000 to 1099", "third level with slots 0 to 16382"
TREES_FULL = "third level with slots 0 to 5200"
ODD_TREE = "full third level, tree 15 under 32767"
ODD_TOP, LOW_TOP = "empty third level under summary 1", "full third level under summary 32767"
UNTOLD = "third level with slot 0, under no summary"
LARGE_UNMARKED = "full third level, tree 15 with full mark 32767"
LARGE_OVERMARKED = "empty third level, tree 0 with full mark 1"
NEXT_MARKED = "third level with slots 960 to 1023, marked in tree 1"
LARGE_COUNT_HIGH = "empty third level, tree 15 with count 1"
LARGE_COUNT_LOW = "full third level, tree 0 with count 1023"
EXCHANGED = "third level with slots 1000 to 1099, counts exchanged"
IDLE, BUSY, ENDED = "empty jobs", "jobs with all slots running", "jobs with all slots reaped"
ENDED_ONE, BUSY_MOST = "jobs with slot 0 reaped", "jobs with slots 0 to 1022 running"
BUSY_ACROSS, ENDED_ACROSS = "jobs with slots 60 to 67 running", "jobs with slots 60 to 67 reaped"
PARTLY = "jobs with slots 60 to 67, of which 62 to 65 reaped"
IDLE_TOLD, BUSY_UNTOLD = "jobs with no slot under summary 1", "jobs with slot 0 running, under no summary"
ENDED_HIDDEN = "jobs with all slots reaped under summary 32767"
ENDED_UNMARKED, UNCOUNTED = "jobs with all slots reaped and full mark 32767", "jobs with slot 0 running and count 0"
STRAY, STRAY_LAST = "jobs with slot 0 reaped and not used", "jobs with slots 0 to 1022 running, 1023 reaped and not used"
# what trees store where it is right
NOTHING, ALL = [0, 0, 0], [65535, 65535, 1024]
MAPS = {
    EMPTY: Map(64),
    FULL: Map(64, range(64)),
    FIRST: Map(64, {0}),
    THIRD: Map(64, {2}),
    TENTH: Map(64, {10}),
    LOW: Map(64, range(63)),
    BARE: Map(1024),
    PACKED: Map(1024, range(1024)),
    ONE: Map(1024, {0}),
    INNER: Map(1024, {70}),
    ACROSS: Map(1024, range(60, 68)),
    MOST: Map(1024, range(1023)),
    WORDS_FULL: Map(1024, range(960)),
    BAD: Map(1024, (), [1, 0, 0]),
    HIDDEN: Map(1024, range(1024), [32767, 65535, 1024]),
    UNMARKED: Map(1024, range(1024), [65535, 32767, 1024]),
    OVERMARKED: Map(1024, (), [0, 1, 0]),
    NEIGHBOUR_MARKED: Map(1024, range(64), [1, 2, 64]),
    COUNT_HIGH: Map(1024, (), [0, 0, 1]),
    COUNT_LOW: Map(1024, range(1024), [65535, 65535, 1023]),
    LARGE: Map(16384),
    LARGE_FULL: Map(16384, range(16384)),
    LARGE_ONE: Map(16384, {0}),
    LARGE_ACROSS: Map(16384, range(1000, 1100)),
    LARGE_MOST: Map(16384, range(16383)),
    TREES_FULL: Map(16384, range(5201)),
    ODD_TREE: Map(16384, range(16384), [65535] + 15 * [ALL] + [[32767, 65535, 1024]]),
    ODD_TOP: Map(16384, (), [1] + 16 * [NOTHING]),
    LOW_TOP: Map(16384, range(16384), [32767] + 16 * [ALL]),
    UNTOLD: Map(16384, {0}, [0] + [[0, 0, 1]] + 15 * [NOTHING]),
    LARGE_UNMARKED: Map(16384, range(16384), [65535] + 15 * [ALL] + [[65535, 32767, 1024]]),
    LARGE_OVERMARKED: Map(16384, (), [0] + [[0, 1, 0]] + 15 * [NOTHING]),
    NEXT_MARKED: Map(16384, range(960, 1024), [1] + [[32768, 0, 64], [0, 1, 0]] + 14 * [NOTHING]),
    LARGE_COUNT_HIGH: Map(16384, (), [0] + 15 * [NOTHING] + [[0, 0, 1]]),
    LARGE_COUNT_LOW: Map(16384, range(16384), [65535] + [[65535, 65535, 1023]] + 15 * [ALL]),
    EXCHANGED: Map(16384, range(1000, 1100), [3] + [[32768, 0, 76], [3, 1, 24]] + 14 * [NOTHING]),
    IDLE: Jobs(),
    BUSY: Jobs(range(1024)),
    ENDED: Jobs((), range(1024)),
    ENDED_ONE: Jobs((), {0}),
    BUSY_MOST: Jobs(range(1023)),
    BUSY_ACROSS: Jobs(range(60, 68)),
    ENDED_ACROSS: Jobs((), range(60, 68)),
    PARTLY: Jobs({60, 61, 66, 67}, range(62, 66)),
    IDLE_TOLD: Jobs(told=[1, 0, 0]),
    BUSY_UNTOLD: Jobs({0}, told=[0, 0, 1]),
    ENDED_HIDDEN: Jobs((), range(1024), told=[32767, 65535, 1024]),
    ENDED_UNMARKED: Jobs((), range(1024), told=[65535, 32767, 1024]),
    UNCOUNTED: Jobs({0}, told=[1, 0, 0]),
    STRAY: Jobs(stray={0}),
    STRAY_LAST: Jobs(range(1023), stray={1023}),
}

# the paper's own
up(4097, 4096)
up(2**64 - 4096, 4096)
up(2**64 - 4095, 4096)
for direction in (up, down, multiple):
    direction(5, 3)
    direction(5, 0)
intervals(0, 4, 4, 8)
intervals(0, 3, 4, 8)
intervals(5, 3, 0, 10)
takes(EMPTY, 1, 5)
takes(EMPTY, 1, 6)
next_frees(BARE, 1023)
next_frees(BARE, 1024)
next_frees(PACKED, 0)

# masks
for k in (0, 1, 63, 64, 65):
    line(f"low mask {k}", lambda: low_mask(k))
for x in (0, 63, 64):
    line(f"one bit {x}", lambda: one_bit(x))
for s, e in ((0, 63), (5, 5), (63, 63), (3, 1), (0, 64), (65, 64)):
    line(f"mask from {s} to {e}", lambda: mask(s, e))

# rounding
up(0, 1)
up(TOP, 1)
up(2**63, 2**63)
up(2**63 + 1, 2**63)
down(TOP, 4096)
down(4095, 4096)
multiple(0, 4096)
multiple(8192, 4096)
multiple(4097, 4096)
for v, a in ((2**32 - 4096, 4096), (2**32 - 4095, 4096), (2**32 - 1, 3)):
    narrow("round up", v, "to", a, lambda v, a: align_up(v, a, 32))
narrow("round down", 2**32 - 1, "to", 4096, align_down)
narrow("round down", 7, "to", 0, align_down)
narrow("is", 2**32 - 4096, "a multiple of", 4096, is_aligned)
narrow("is", 6, "a multiple of", 6, is_aligned)

# pages
for x in (1, 2**64 - 4096, 2**64 - 4095, TOP):
    line(f"round up to a page {x}", lambda: align_up(x, 4096))
for x in (0, 1, 4096, 4097, 2**64 - 4096, 2**64 - 4095, TOP):
    line(f"pages for {x}", lambda: pages(x))
for x in (4096, TOP):
    line(f"page offset of {x}", lambda: x % 4096)

# clearing
for start, end in ((0, 8), (2, 5), (0, 1), (3, 3), (8, 8), (5, 2), (0, 9), (12, 9)):
    cleared(start, end)

# the word map
for n, a in ((64, 5), (0, 6), (65, 6), (65, 5), (TOP, 0), (1, TOP)):
    takes(EMPTY, n, a)
takes(FULL, 1, 0)
for n, a in ((63, 0), (64, 0), (1, 5), (32, 5), (33, 5)):
    takes(FIRST, n, a)
for n, a in ((2, 0), (3, 0), (4, 1), (4, 3)):
    takes(THIRD, n, a)
takes(LOW, 1, 0)
takes(LOW, 1, 1)
for start, n in ((0, 64), (63, 1), (63, 2), (64, 0), (64, 1), (TOP, 2)):
    claims(EMPTY, start, n)
claims(TENTH, 8, 2)
claims(TENTH, 8, 3)
for start, n in ((0, 64), (63, 1), (0, 0), (1, TOP)):
    frees(FULL, start, n)
frees(EMPTY, 0, 1)
frees(EMPTY, 60, 5)
frees(TENTH, 10, 1)
frees(TENTH, 10, 2)
sets(EMPTY, 0, 64, True)
sets(TENTH, 8, 4, True)
sets(TENTH, 8, 4, False)
sets(FULL, 62, 2, False)
sets(FULL, 62, 3, False)
sets(FULL, 65, 0, False)
for name, start in ((EMPTY, 0), (EMPTY, 63), (EMPTY, 64), (FULL, 0), (FULL, TOP), (LOW, 5)):
    next_frees(name, start)
for name, slot in ((FULL, 63), (FULL, 64), (EMPTY, 0), (LOW, 62), (LOW, 63)):
    gets(name, slot)
for name in (EMPTY, FULL, LOW):
    counts(name)

# the tree map
for n, a in ((1024, 9), (1025, 9), (1025, 10), (0, 10), (1, 10), (TOP, 0), (1, TOP)):
    takes(BARE, n, a)
takes(PACKED, 1, 0)
for n, a in ((1, 9), (64, 0), (1023, 0), (1024, 0), (512, 9), (513, 9)):
    takes(ONE, n, a)
for n, a in ((70, 0), (71, 0), (71, 3), (200, 6)):
    takes(INNER, n, a)
takes(MOST, 1, 0)
takes(MOST, 1, 1)
takes(INNER, 71, 3, "take in place")
takes(PACKED, 1, 0, "take in place")
for start, n in ((0, 1024), (63, 2), (1023, 2), (1024, 0), (1024, 1), (TOP, 2)):
    claims(BARE, start, n)
for start, n in ((0, 60), (0, 61), (68, 956)):
    claims(ACROSS, start, n)
for start, n in ((0, 1024), (63, 2), (64, 64), (0, 0), (1, TOP)):
    frees(PACKED, start, n)
frees(BARE, 0, 1)
for start, n in ((60, 8), (60, 9), (62, 4), (64, 4)):
    frees(ACROSS, start, n)
sets(ACROSS, 50, 100, True)
sets(ACROSS, 50, 100, False)
for start, n in ((1000, 24), (1000, 25), (1025, 0)):
    sets(PACKED, start, n, False)
frees(ACROSS, 62, 4, "free in place")
frees(ACROSS, 60, 9, "free in place")
for name, start in ((BARE, 0), (MOST, 0), (MOST, 1023), (PACKED, 1023), (PACKED, TOP)):
    next_frees(name, start)
for name, slot in ((PACKED, 1023), (PACKED, 1024), (BARE, 0), (MOST, 1022), (MOST, 1023)):
    gets(name, slot)
for name in (BARE, PACKED, MOST):
    counts(name)

# full words in front: passed over, marked when a take fills one, no longer marked when a free opens one
for start in (0, 959, 1023):
    next_frees(WORDS_FULL, start)
counts(WORDS_FULL)
for n, a in ((63, 0), (64, 6), (65, 0)):
    takes(WORDS_FULL, n, a)
frees(WORDS_FULL, 0, 1)
frees(WORDS_FULL, 63, 2)
sets(WORDS_FULL, 900, 100, True)
sets(WORDS_FULL, 900, 100, False)

# trees that store something wrong: the summary, the mark of full words or the count
for name in (BAD, HIDDEN, UNMARKED, OVERMARKED, NEIGHBOUR_MARKED, COUNT_HIGH, COUNT_LOW):
    takes(name, 0, 10)
    takes(name, 1, 0, "take in place")
    claims(name, TOP, 2)
    frees(name, 0, 0)
    frees(name, 1, 1, "free in place")
    sets(name, 0, 1, True)
    next_frees(name, 1024)
    gets(name, 0)
    counts(name)

# the third level
for n, a in ((16384, 13), (2000, 0), (16385, 13), (16385, 14), (0, 14), (1, 14), (TOP, 0), (1, TOP)):
    takes(LARGE, n, a)
takes(LARGE_FULL, 1, 0)
for n, a in ((1, 13), (1024, 0), (1024, 10), (8192, 13), (8193, 13), (16383, 0), (16384, 13)):
    takes(LARGE_ONE, n, a)
for n, a in ((1000, 0), (1001, 0), (1001, 10), (14261, 0), (15285, 0)):
    takes(LARGE_ACROSS, n, a)
takes(LARGE_MOST, 1, 0)
takes(LARGE_MOST, 1, 1)
for start, n in ((0, 16384), (1023, 2), (15359, 2), (16383, 1), (16383, 2), (16384, 0), (16384, 1), (TOP, 2)):
    claims(LARGE, start, n)
for start, n in ((0, 1000), (0, 1001), (1100, 15284)):
    claims(LARGE_ACROSS, start, n)
for start, n in ((0, 16384), (1023, 2), (15359, 2), (1024, 1024), (0, 0), (1, TOP)):
    frees(LARGE_FULL, start, n)
frees(LARGE, 0, 1)
for start, n in ((1000, 100), (1000, 101), (1000, 24), (1024, 76)):
    frees(LARGE_ACROSS, start, n)
sets(LARGE, 15359, 2, True)
sets(LARGE_ACROSS, 500, 3000, True)
sets(LARGE_ACROSS, 500, 3000, False)
for start, n in ((1023, 14338), (16000, 384), (16000, 385), (16385, 0)):
    sets(LARGE_FULL, start, n, False)
for start in (16383, 16384):
    next_frees(LARGE, start)
for name, start in ((LARGE_FULL, 0), (LARGE_FULL, TOP), (LARGE_MOST, 0), (LARGE_ACROSS, 1000)):
    next_frees(name, start)
for name, slot in ((LARGE_FULL, 16383), (LARGE_FULL, 16384), (LARGE, 0), (LARGE_ACROSS, 1024), (LARGE_ACROSS, 1100)):
    gets(name, slot)
for name in (LARGE, LARGE_FULL, LARGE_ACROSS):
    counts(name)

# full trees in front
for start in (0, 5119, 16383):
    next_frees(TREES_FULL, start)
counts(TREES_FULL)
takes(TREES_FULL, 47, 0)
takes(TREES_FULL, 1, 10)
frees(TREES_FULL, 0, 1024)
frees(TREES_FULL, 5119, 2)
sets(TREES_FULL, 5100, 300, True)
sets(TREES_FULL, 5100, 300, False)

# third levels that are not sound: by the summary of a tree, the one over them, or both; by marks; by counts
SUMMARIES_WRONG = (ODD_TREE, ODD_TOP, LOW_TOP, UNTOLD)
MARKS_WRONG = (LARGE_UNMARKED, LARGE_OVERMARKED, NEXT_MARKED)
COUNTS_WRONG = (LARGE_COUNT_HIGH, LARGE_COUNT_LOW, EXCHANGED)
for name in SUMMARIES_WRONG + MARKS_WRONG + COUNTS_WRONG:
    takes(name, 0, 14)
    takes(name, 16385, 14)
    claims(name, TOP, 2)
    frees(name, 0, 0)
    sets(name, 0, 1, True)
    next_frees(name, 16384)
    gets(name, 16384)
    counts(name)

# the states of jobs
for n, a in ((1024, 9), (1025, 9), (1025, 10), (0, 10), (1, 10), (TOP, 0), (1, TOP)):
    starts(IDLE, n, a)
starts(BUSY, 1, 0)
starts(ENDED, 1, 0)
for n, a in ((1, 0), (1, 9), (1023, 0), (1024, 0)):
    starts(ENDED_ONE, n, a)
starts(BUSY_MOST, 1, 0)
starts(BUSY_MOST, 1, 1)
for n, a in ((60, 0), (61, 0), (61, 6), (956, 0), (957, 0)):
    starts(PARTLY, n, a)
# reap and record have the same edges; `passes` has each slot as it has to be, `other` as the other call has it
for call, passes, other, across in ((reaps, BUSY, ENDED, BUSY_ACROSS), (records, ENDED, BUSY, ENDED_ACROSS)):
    for start, n in ((0, 0), (1025, 0), (1023, 2), (1024, 1), (TOP, 2), (0, 1), (0, 1024)):
        call(IDLE, start, n)
    for start, n in ((0, 1024), (0, 1025), (1023, 1), (1023, 2), (64, 64), (1, TOP)):
        call(passes, start, n)
    call(other, 0, 1024)
    for start, n in ((60, 8), (62, 4), (64, 4), (59, 9), (60, 9)):
        call(across, start, n)
    for start, n in ((60, 2), (60, 3), (66, 2), (65, 3), (62, 4), (63, 2), (61, 5), (62, 5), (60, 8)):
        call(PARTLY, start, n)
for slot in (0, 1023, 1024, TOP):
    states(IDLE, slot)
for slot in (59, 61, 62, 65, 66, 68):
    states(PARTLY, slot)
states(BUSY, 1023)
states(ENDED, 1023)
for name in (IDLE, BUSY, ENDED, PARTLY):
    counts(name)

# states that are not sound: by what is stored, or by a slot that is reaped and not used
for name in (IDLE_TOLD, BUSY_UNTOLD, ENDED_HIDDEN, ENDED_UNMARKED, UNCOUNTED, STRAY, STRAY_LAST):
    starts(name, 0, 10)
    starts(name, 1, 0)
    for call in (reaps, records):
        for start, n in ((0, 0), (TOP, 2), (0, 1)):
            call(name, start, n)
    states(name, 0)
    states(name, 1024)
    counts(name)

# the lesson's stories: each call on the map or the state that the one before left


def story(name, first, *calls):
    MAPS[name] = first
    print(f"{name}: at first, leaves{picture(first)}")
    for call, *numbers in calls:
        MAPS[name] = call(name, *numbers) or MAPS[name]


story("a second free", Map(64), (takes, 4, 2), (frees, 0, 4), (frees, 0, 4), (takes, 4, 2), (frees, 0, 4))
story("a free of no entries", Map(64, range(6)), (frees, 0, 0))
story("a free at reaping", Map(64), (takes, 4, 2), (frees, 0, 4), (takes, 4, 2))


def day(name, *calls):
    MAPS[name] = Jobs()
    print(f"{name}: at first, leaves{in_row(MAPS[name])}")
    for call, *numbers in calls:
        MAPS[name] = call(name, *numbers, in_row)


day("the same day with jobs", (starts, 4, 2), (reaps, 0, 4), (starts, 4, 2), (records, 0, 4), (starts, 4, 2))
day(
    "the shortcuts",
    (starts, 4, 2),
    (records, 0, 4),
    (reaps, 0, 4),
    (reaps, 0, 4),
    (records, 0, 4),
    (records, 0, 4),
    (starts, 4, 2),
    (records, 0, 4),
    (reaps, 0, 4),
)
story("a mark that is cleared", Map(1024, range(64)), (frees, 10, 1), (next_frees, 0), (takes, 1, 0))
OPENED = set(range(64)) - {10}
story("a mark that stays", Map(1024, OPENED, [1, 1, 63]), (next_frees, 0), (takes, 1, 0))
story("free, then take", Map(64, {0}), (frees, 0, 1), (takes, 1, 0))
story("take, then free", Map(64, {0}), (takes, 1, 0), (frees, 0, 1))

# images. A buffer has one byte more than an image, and is lent up to some byte
SPARE = 85


def buffer_with(name):
    return image(MAPS[name]) + [SPARE]


def bytes_of(name, buffer):
    print(f"image of the {name}: {' '.join(map(str, buffer[:136]))}")


def on_part(buffer, length, call):
    """What a call says of the part that is lent, and the buffer that it leaves."""
    part = buffer[:length]
    try:
        said = call(part)
    except Refused as refusal:
        said = f"refused {refusal}"
    return said, part + buffer[length:]


def differing(before, after):
    return f"bytes changed {sum(one != other for one, other in itertools.zip_longest(before, after))}"


def writes(name, length):
    before = 137 * [SPARE]
    said, after = on_part(before, length, lambda part: write(MAPS[name], part) or "ok")
    print(f"{name}: write, lent {length} bytes: {said}, {differing(before, after)}")


def reads(name, buffer, length=136):
    left = [Map(1024)]

    def call(part):
        left.append(read(part))
        return "ok"

    said, _ = on_part(buffer, length, call)
    print(f"{name}: read, lent {length} bytes: {said}, leaves{picture(left[-1])}")
    return left[-1]


def with_bytes(buffer, *changes):
    return [dict(changes).get(offset, byte) for offset, byte in enumerate(buffer)]


def lends(name, buffer, length, words, call):
    said, after = on_part(buffer, length, call)
    print(f"{name}: slotmap_{words}, lent {length} bytes: {said}, {differing(buffer, after)}")
    return after


def c_take(name, buffer, n, a, length=136):
    words = f"take {n} at a multiple of 2^{a}"
    return lends(name, buffer, length, words, lambda part: for_c(part, lambda m: m.take(n, a)))


def c_free(name, buffer, start, n, length=136):
    words = f"free from {start}, {n}"
    return lends(name, buffer, length, words, lambda part: for_c(part, lambda m: m.free(start, n)))


def c_used(name, buffer, length=136):
    return lends(name, buffer, length, "used", lambda part: for_c(part, lambda m: (m.count(), m.used)))


LAST = "tree with slot 1023"
MAPS[LAST] = Map(1024, {1023})
for name in (BARE, PACKED, ONE, LAST):
    bytes_of(name, buffer_with(name))
for length in (0, 135, 137, 136):
    writes(BARE, length)
for name in (BAD, HIDDEN, UNMARKED, OVERMARKED, COUNT_HIGH, COUNT_LOW):
    writes(name, 136)
    writes(name, 135)

# read: images of maps, and what is no image or one under a wrong summary
FIRST_SLOT, UNDER_NONE = "image with slot 0", "image with slot 0 under no summary"
of_empty, of_full, of_first = buffer_with(BARE), buffer_with(PACKED), buffer_with(ONE)
of_none = with_bytes(of_first, (134, 0))
for name, buffer in (
    ("empty image", of_empty),
    ("full image", of_full),
    ("image with slot 1023", buffer_with(LAST)),
    (FIRST_SLOT, of_first),
):
    again = image(reads(name, buffer)) + [SPARE]
    print(f"{name}: read and written again, {differing(buffer, again)}")
for length in (0, 135, 137):
    reads(FIRST_SLOT, of_first, length)
for offset, byte in ((0, 33), (1, 127), (2, 1), (131, 32), (132, 3), (133, 1), (134, 3), (135, 128)):
    reads(f"{FIRST_SLOT}, byte {offset} as {byte}", with_bytes(of_first, (offset, byte)))
reads(f"{FIRST_SLOT}, fields exchanged", of_first[131:136] + of_first[:131] + [SPARE])
reads(UNDER_NONE, of_none)
reads(UNDER_NONE, of_none, 135)
for offset, byte in ((0, 33), (131, 32)):
    reads(f"{UNDER_NONE}, byte {offset} as {byte}", with_bytes(of_none, (offset, byte)))

# the calls for C: document 01's record on one image, and refusals in their order
RECORD = "record of document 01"
board = c_take(RECORD, of_empty, 3, 2)
board = c_take(RECORD, board, 2, 0)
board = c_free(RECORD, board, 1, 3)
board = c_free(RECORD, board, 0, 2)
board = c_take(RECORD, board, 4, 2)
c_used(RECORD, board)
bytes_of(RECORD, board)
for n, a in ((0, 10), (1, 10), (1025, 10), (1025, 0), (1024, 9)):
    c_take("empty image", of_empty, n, a)
c_take("full image", of_full, 1, 0)
for start, n in ((0, 0), (1024, 1), (TOP, 2), (1023, 1)):
    c_free("empty image", of_empty, start, n)
c_free("full image", of_full, 1023, 2)
c_free("full image", of_full, 0, 1024)
c_used("empty image", of_empty)
c_used("full image", of_full)
for name, buffer, length in (
    (UNDER_NONE, of_none, 136),
    (f"{FIRST_SLOT}, byte 0 as 33", with_bytes(of_first, (0, 33)), 136),
    (f"{UNDER_NONE}, byte 0 as 33", with_bytes(of_none, (0, 33)), 136),
    (FIRST_SLOT, of_first, 0),
    (FIRST_SLOT, of_first, 135),
    (FIRST_SLOT, of_first, 137),
):
    c_take(name, buffer, 0, 10, length)
    c_take(name, buffer, 1, 0, length)
    c_free(name, buffer, 0, 0, length)
    c_free(name, buffer, 0, 1, length)
    c_used(name, buffer, length)

# lists of runs. A buffer has two numbers more than the longest list, and is lent up to some number
NO_NUMBER = 65535


def goes_on(found, k):
    """Run k has the length of run k - 1, and comes after it by the step that led to that one."""
    if not 2 <= k < len(found):
        return False
    (first, _), (second, length), (third, same) = found[k - 2 : k + 1]
    return (third - second, same) == (second - first, length)


def in_short(numbers):
    """Start and length of each run; dots for those in the midst of equal steps."""
    found = list(zip(numbers[::2], numbers[1::2]))
    said = [".." if goes_on(found, k) and goes_on(found, k + 1) else f"{start}+{n}" for k, (start, n) in enumerate(found)]
    return " ".join(words for words, _ in itertools.groupby(said)) or "none"


def lists(name, which, length):
    m, written = MAPS[name], []

    def call(part):
        n = list_runs(m, unused(m) if which == "free" else m.used, part)
        written.extend(part[: 2 * n])
        return f"{n}, list {in_short(written)}"

    said, after = on_part(1026 * [NO_NUMBER], length, call)
    rest = after[len(written) :]
    print(f"{name}: {which} runs, lent {length} numbers: {said}, then {rest[0]}, unchanged {rest.count(NO_NUMBER)}")


def both(name, length):
    lists(name, "free", length)
    lists(name, "used", length)


def gaps(name):
    both(name, 1024)
    line(f"{name}: longest free run", lambda: in_short(longest_free(MAPS[name])))


EVEN, ODD, WITHOUT_FIRST = "tree with the even slots", "tree with the odd slots", "tree without slot 0"
GAP_ACROSS, ONE_WORD = "tree without slots 60 to 67", "tree with slots 64 to 127"
TIE, LATER = "tree without slots 100 to 199, 400 to 499", "tree without slots 100 to 199, 400 to 500"
SEVEN = "tree with seven gaps"


def all_but(*gaps):
    """The tree whose free slots are these, first and last of each gap."""
    return Map(1024, set(range(1024)).difference(*(range(first, last + 1) for first, last in gaps)))


MAPS |= {
    EVEN: Map(1024, range(0, 1024, 2)),
    ODD: Map(1024, range(1, 1024, 2)),
    WITHOUT_FIRST: all_but((0, 0)),
    GAP_ACROSS: all_but((60, 67)),
    ONE_WORD: Map(1024, range(64, 128)),
    TIE: all_but((100, 199), (400, 499)),
    LATER: all_but((100, 199), (400, 500)),
    SEVEN: all_but((150, 175), (260, 319), (410, 519), (592, 607), (736, 819), (922, 959), (1012, 1023)),
}

# no slot, all slots, every other slot, one slot; at the edges of words; two gaps that are equally long, and two that are not
for name in (BARE, PACKED, EVEN, ODD, ONE, LAST, WITHOUT_FIRST, MOST, ACROSS, GAP_ACROSS, ONE_WORD, WORDS_FULL, TIE, LATER):
    gaps(name)
for name, length in ((BARE, 0), (PACKED, 1023), (EVEN, 1023), (EVEN, 1026)):
    both(name, length)
for name in (BAD, HIDDEN, UNMARKED, OVERMARKED, COUNT_HIGH, COUNT_LOW):
    gaps(name)
    both(name, 1023)

# a group as large as all gaps together, one that is larger than each of them by a slot, and one that fits
gaps(SEVEN)
for n in (346, 111, 110):
    takes(SEVEN, n, 0)
