"""The exposed report, which the Rust does not have: expected are the rows of RULES 8.2, by the model below. It goes forwards,
as the definition does: a place is exposed if some call reads it and no earlier call has rewritten it."""
from arithmetic import ADD, ADD_WITH_CARRY, COMPARE, OPERATIONS, READ_CARRY, SUBTRACT_WITH_BORROW
from model import *

REPORT, PLACES, MOST = 40, 182, 64
CARRY, PARITY, ZERO, SIGN, DIRECTION, OVERFLOW = range(176, 182)
RSP_LANES = set(range(8 * RSP, 8 * RSP + 8))
CR3_LANES = set(range(8 * CR3, 8 * CR3 + 8))


def entry(kind, size=0, a=0, b=0, op=NO_OPERAND):
    """A call of a list, as the 16 words of its header; words that its kind does not use are 0."""
    size = size if kind in (READ, WRITE, COMPUTE, COMPUTE_SIZED) else 0
    a = 0 if kind in (READ, ADDRESS, PUSH, POP) else a
    return (kind, 0, size, a, b if kind == SET_FLAG else 0, 0, *op, *NO_OPERAND)


def operate(operation, size=3, first=0xFF, second=1):
    return (ARITHMETIC, 0, size, first, second, operation, *NOT_LOOKED_AT, *NOT_LOOKED_AT)


def lanes(number, how_many):
    """The places of a register by its number plus 1; 0 has none."""
    if not number:
        return set()
    _, parent, first, read, rewritten = REGISTERS[number - 1]
    return set(range(8 * parent + first, 8 * parent + first + (read if how_many == READ else rewritten)))


def reads(call):
    kind, op = call[0], call[6:11]
    if kind in (PUSH, POP):
        return RSP_LANES | CR3_LANES
    if kind in (READ_MEMORY, WRITE_MEMORY):
        return CR3_LANES
    if kind == TEST_FLAG:
        return {176 + call[3]}
    if kind == ARITHMETIC:
        return {CARRY} if call[5] in READ_CARRY else set()
    if kind in (READ, WRITE, ADDRESS) and op[0] == 3:
        return lanes(op[1], READ) | lanes(op[2], READ) | (set() if kind == ADDRESS else CR3_LANES)
    return lanes(op[1], READ) if kind == READ and op[0] == 2 else set()


def rewrites(call):
    kind, op = call[0], call[6:11]
    if kind in (PUSH, POP):
        return RSP_LANES
    if kind == SET_FLAG:
        return {176 + call[3]}
    if kind in (COMPUTE, COMPUTE_SIZED):
        return {PARITY, ZERO, SIGN}
    if kind == ARITHMETIC:
        return {CARRY, PARITY, ZERO, SIGN, OVERFLOW}
    return lanes(op[1], WRITE) if kind == WRITE and op[0] == 2 else set()


def exposed(listed):
    found, rewritten = set(), set()
    for call in listed:
        found |= reads(call) - rewritten
        rewritten |= rewrites(call)
    return found


def report(s, given, count=None):
    """The list states `count` calls, by default as many as are given; behind those given stands push."""
    count = len(given) if count is None else count
    found = set() if count > MOST else exposed((given + [entry(PUSH)] * MOST)[:count])
    block = b"".join(struct.pack("<16Q", *call) for call in given)
    shown = bytes(int(place in found) for place in range(PLACES))
    s.put([REPORT, len(block), 0, count], block, [12 if count > MOST else 0, 0, 0, 0, 0, 0], shown, s.m.used)
    s.counted += 1


def on(kind, name, size=0):
    return entry(kind, size, 5, op=register(NUMBERS[name]))


def singles():
    """Each call alone, over every register in every part of an operand. Index without scale, immediate destinations and addresses of what has none
    are refused; their rows hold all the same."""
    for kind in (READ, WRITE, ADDRESS):
        for n in range(80):
            yield entry(kind, n % 4, n, op=register(n))
            yield entry(kind, 0, n, op=at(n, base=n))
            yield entry(kind, 1, n, op=at(-n, index=n, scale=n))
            yield entry(kind, 2, n, op=at(0, index=n))
            yield entry(kind, 3, n, op=at(1, base=79 - n, index=n, scale=8))
        yield entry(kind, 0, 7, op=immediate(TOP - 1))
        yield entry(kind, 0, 7, op=at(-1))
        yield entry(kind, 0, 7, op=at(-1, scale=4))
    for kind in (PUSH, POP, READ_MEMORY, WRITE_MEMORY):
        yield entry(kind, a=TOP - 1)
    for flag in range(6):
        yield entry(TEST_FLAG, a=flag)
        yield entry(SET_FLAG, a=flag, b=0)
        yield entry(SET_FLAG, a=flag, b=1)
    for size in range(4):
        yield entry(COMPUTE, size, 1 << 63)
        yield entry(COMPUTE_SIZED, size, 1 << 63)
        for operation in OPERATIONS:
            yield operate(operation, size, TOP - 1, 1 << 63)


def groups():
    """All registers of one width in one list: what they read; what they leave when they are written; what they read as base and index."""
    for row in sorted({row[2:] for row in REGISTERS}):
        numbers = [n for n in range(80) if REGISTERS[n][2:] == row]
        yield [entry(READ, n % 4, op=register(n)) for n in numbers]
        yield [entry(WRITE, n % 4, 9, op=register(n)) for n in numbers] + [entry(READ, op=register(n)) for n in range(22)]
        yield [entry(ADDRESS, op=at(0, base=n, index=m, scale=1)) for n, m in zip(numbers[::2], numbers[1::2])]
    flags = range(6)
    yield [entry(TEST_FLAG, a=f) for f in flags]
    yield [entry(COMPUTE, 3, 1)] + [entry(TEST_FLAG, a=f) for f in flags]
    yield [entry(COMPUTE_SIZED, 3, 256)] + [entry(TEST_FLAG, a=f) for f in flags]
    yield [entry(SET_FLAG, a=f) for f in flags if f % 2] + [entry(TEST_FLAG, a=f) for f in flags]
    yield [entry(TEST_FLAG, a=1), entry(COMPUTE, 0, 1), entry(TEST_FLAG, a=2), entry(SET_FLAG, a=5, b=1), entry(TEST_FLAG, a=5)]
    for operation in OPERATIONS:
        yield [operate(operation)] + [entry(TEST_FLAG, a=f) for f in flags]
        yield [entry(SET_FLAG, a=0), operate(operation), entry(TEST_FLAG, a=0), entry(TEST_FLAG, a=4)]
    yield [operate(ADD), *leave_carry(), operate(ADD_WITH_CARRY)]
    yield [*leave_carry(), operate(ADD_WITH_CARRY)]
    for kind in (PUSH, POP, READ_MEMORY, WRITE_MEMORY):
        yield [entry(kind)]
    yield [entry(READ, 3, op=at(0, base=NUMBERS["bl"], index=NUMBERS["ch"], scale=1))]
    yield [entry(WRITE, 3, 1, op=at(0, base=NUMBERS["r9d"], index=NUMBERS["es"], scale=1)), on(READ, "r9")]
    yield [entry(WRITE, 0, 1, op=register(CR3)), entry(PUSH), entry(POP), entry(READ_MEMORY), entry(WRITE_MEMORY)]
    yield [on(WRITE, "esp"), entry(PUSH), on(READ, "rsp")]
    yield [entry(WRITE, 0, 1, op=at(0, base=NUMBERS["r8w"], index=NUMBERS["ah"])), on(WRITE, "ax"), on(WRITE, "r8d"), on(READ, "r8"), on(READ, "rax")]


def leave_carry():
    """A call of each other kind that does not rewrite Carry."""
    return [entry(SET_FLAG, a=f) for f in range(1, 6)] + [
        entry(COMPUTE, 3), entry(COMPUTE_SIZED, 3), entry(TEST_FLAG, a=0), entry(PUSH), entry(POP), entry(READ_MEMORY), entry(WRITE_MEMORY),
        on(READ, "ax"), on(WRITE, "eax"), on(ADDRESS, "rax"), entry(WRITE, 0, 1, op=immediate(1)), entry(READ, 0, op=at(8, base=RBP)),
        entry(WRITE, 0, 1, op=at(8, index=RBP))]


def pairs():
    """One name of a register is written and another read, over all names with the same parent; a flag set and another tested; arithmetic after each
    call that may or may not rewrite its Carry, and before each test of a flag."""
    for n, row in enumerate(REGISTERS):
        for m, other in enumerate(REGISTERS):
            if row[1] == other[1]:
                yield [entry(WRITE, 0, 1, op=register(n)), entry(READ, 0, op=register(m))]
                yield [entry(WRITE, 0, 1, op=register(n)), entry(ADDRESS, op=at(0, base=m))]
    for flag in range(6):
        for other in range(6):
            yield [entry(SET_FLAG, a=flag, b=other % 2), entry(TEST_FLAG, a=other)]
    for operation in OPERATIONS:
        for call in [operate(other, other % 4) for other in OPERATIONS] + [entry(SET_FLAG, a=0)] + leave_carry():
            yield [call, operate(operation)]
            yield [operate(operation), call, operate(ADD_WITH_CARRY), operate(SUBTRACT_WITH_BORROW)]
        for flag in range(6):
            yield [operate(operation), entry(TEST_FLAG, a=flag)]
            yield [entry(TEST_FLAG, a=flag), operate(operation), entry(TEST_FLAG, a=5 - flag)]


class Rng:
    """The harness's own numbers (src/random.rs): Python's may change from version to version, and the stored sample is made again byte for byte."""

    def __init__(self, seed):
        self.state = seed

    def next(self):
        self.state = (self.state + 0x9E3779B97F4A7C15) % TOP
        z = self.state
        z = (z ^ z >> 30) * 0xBF58476D1CE4E5B9 % TOP
        z = (z ^ z >> 27) * 0x94D049BB133111EB % TOP
        return z ^ z >> 31

    def below(self, n):
        return self.next() % n

    def choice(self, some):
        return some[self.below(len(some))]


def drawn(g, n):
    """n calls, as often as not on a few registers, so that they meet."""
    few = [g.below(80) for _ in range(4)] + [RSP, CR3]
    some = lambda: g.choice(few) if g.below(8) < 5 else g.below(80)
    maybe = lambda: None if g.below(3) == 0 else some()

    def one():
        kind = g.choice([READ, READ, WRITE, WRITE, WRITE, ADDRESS, PUSH, POP, READ_MEMORY, WRITE_MEMORY, TEST_FLAG, TEST_FLAG, SET_FLAG, COMPUTE,
                         COMPUTE_SIZED, ARITHMETIC])
        if kind == ARITHMETIC:
            return operate(g.choice(OPERATIONS), g.below(4), g.next(), g.next())
        if kind in (TEST_FLAG, SET_FLAG):
            return entry(kind, a=g.below(6), b=g.below(2))
        if kind not in (READ, WRITE, ADDRESS):
            return entry(kind, g.below(4), g.next())
        parts = at(signed(g.next(), 32), maybe(), maybe(), g.choice([None, 0, 1, 8, 255]))
        op = g.choice([register(some()), register(some()), register(some()), immediate(g.next()), parts, parts])
        return entry(kind, g.below(4), g.next(), op=op)

    return [one() for _ in range(n)]


def calls(s, sample):
    s.reset([0] * 25, [0], 4096, 0, 0xEE)
    g = Rng(20260101)
    # the rows of RULES 8.2: those of the Rust's calls, then Carry's among sums, then the sized flags'
    examples = [
        ([on(WRITE, "ax"), on(READ, "eax")], {2, 3}),
        ([on(WRITE, "eax"), on(READ, "rax")], set()),
        ([entry(PUSH), on(READ, "spl")], set(range(32, 40)) | set(range(152, 160))),
        ([], set()),
        ([operate(ADD), operate(ADD_WITH_CARRY)], set()),
        ([operate(ADD_WITH_CARRY), operate(ADD)], {CARRY}),
        ([operate(SUBTRACT_WITH_BORROW, 0)], {CARRY}),
        ([entry(COMPUTE), entry(SET_FLAG, a=5), operate(ADD_WITH_CARRY, 1), operate(ADD_WITH_CARRY, 1)], {CARRY}),
        ([operate(COMPARE)] + [entry(TEST_FLAG, a=f) for f in range(6)], {DIRECTION}),
        ([entry(COMPUTE_SIZED, 3, 256)] + [entry(TEST_FLAG, a=f) for f in range(6)], {CARRY, DIRECTION, OVERFLOW}),
        ([entry(TEST_FLAG, a=2), entry(COMPUTE_SIZED, 3, 256)], {ZERO}),
    ]
    for listed, places in examples:
        assert exposed(listed) == places
        report(s, listed)
    for listed in groups():
        report(s, listed)
    if not sample:
        for call in singles():
            report(s, [call])
            report(s, [call] + [entry(READ, op=register(n)) for n in range(22)] + [entry(TEST_FLAG, a=f) for f in range(6)])
        for listed in pairs():
            report(s, listed)
    for n in [1, 5, 20, 64] if sample else [k % 65 for k in range(1300)]:
        report(s, drawn(g, n))
    # a count that is not that of the calls given; more than 64 are refused
    for n in [0, 3] if sample else [0, 1, 2, 3, 30, 63, 64]:
        given = [on(WRITE, "esp")] * (n % 2) + drawn(g, n - n % 2)
        for count in sorted({0, max(n - 1, 0), n, n + 1, 63, 64, 65, 1 << 32, 1 << 63, TOP - 1}):
            report(s, given, count)
    s.show()
