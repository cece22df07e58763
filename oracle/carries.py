"""Arithmetic (RULES 2.12 to 2.14), which the Rust does not have; expected is what arithmetic.py says. Each operation at each size over its edges;
numbers of many words, a word to a call, with calls in between that leave Carry; and arithmetic drawn among all other calls. Then the flags of a
result by both forms, of all 64 bits (RULES 2.10) and at the size (RULES 2.11), by model.py."""
import arithmetic
from arithmetic import ADD, ADD_WITH_CARRY, BY_HAND, CARRY, OPERATIONS, SUBTRACT, SUBTRACT_WITH_BORROW
from model import *
from report import Rng

WORDS = [0x1111_1111_1111_1111 * (i % 15 + 1) for i in range(25)]
WORDS[RSP], WORDS[CR3] = 0x2804, 0


def alone(s, operation, size, first, second, rflags, carry, op=NO_OPERAND):
    """One call on rflags with this Carry, and the whole machine after it."""
    words = list(WORDS)
    words[RFLAGS] = arithmetic.put(rflags, CARRY, carry)
    s.reset(words, [], 0, 0, 0)
    s.call(ARITHMETIC, size, first, second, operation, op=op)
    s.show_machine()


def edges(s, g, sample):
    """The same call on rflags of zeros and of ones but for Carry, so that each bit that stays and each that is rewritten is seen both ways; on the
    ones the values have bits above the size."""
    k = 0
    for operation in OPERATIONS:
        for size in range(4):
            width = 64 >> size
            half = 1 << width - 1
            values = [0, 1, half - 1, half, half + 1, 2 * half - 2, 2 * half - 1]
            for first in values:
                for second in values:
                    for rflags, op in (0, NO_OPERAND), (TOP - 1, NOT_LOOKED_AT):
                        above = lambda v: (v + (g.next() << width)) % TOP if rflags else v
                        a, b = above(first), above(second)
                        for carry in (0, 1):
                            k += 1
                            if not sample or k % 59 == 0:
                                alone(s, operation, size, a, b, rflags, carry, op)


def start(s, g):
    """Three slots, so that a write soon finds none."""
    words = list(WORDS)
    words[RFLAGS] = g.next()
    s.reset(words, [0] * 3, 3 * 4096, 0, 0xEE)


def another(s, g):
    """A call of another kind that leaves Carry, accepted or refused."""
    where, size, value = g.below(7) * 4096 + g.choice([0, 8, 4090, 4095]), g.below(4), g.next() >> g.below(64)
    name = register(g.choice([n for n in range(16) if n != RSP]))
    kind = g.below(14)
    if kind < 2:
        s.call(TEST_FLAG, a=kind * g.below(6))
    elif kind == 2:
        s.call(SET_FLAG, a=1 + g.below(5), b=g.below(2))
    elif kind == 3:
        s.call(g.choice([COMPUTE, COMPUTE_SIZED]), size, (value << g.below(64)) % TOP)
    elif kind == 4:
        s.call(PUSH, block=bytes([value % 256]) * g.choice([0, 1, 8, 4097]))  # the last is refused: 5
    elif kind == 5:
        s.call(POP)
    elif kind == 6:
        s.call(WRITE_MEMORY, a=where, block=value.to_bytes(8, "little"))
    elif kind == 7:
        s.call(READ_MEMORY, a=where, b=g.choice([0, 8, 4097]), c=0xA5)
    elif kind == 8:
        s.call(WRITE, size, value, op=at(where))
    elif kind == 9:
        s.call(READ, size, op=at(where))
    elif kind == 10:
        s.call(WRITE, size, value, op=g.choice([name, immediate(5)]))
    elif kind == 11:
        s.call(READ, size, op=g.choice([name, immediate(value)]))
    elif kind == 12:
        s.call(ADDRESS, op=g.choice([name, at(8, index=RBP), at(8, base=RBP, index=RAX, scale=4)]))
    else:
        s.call(g.choice([READ, WRITE]), size, value, op=at(8, index=RBP))


def chain(s, g, add, sizes):
    """Two numbers added or subtracted a word to a call, lowest first, each word at its size. That the words make up the whole, and Carry what is
    carried out of it, is asserted of the model."""
    total = sum(64 >> size for size in sizes)
    some = lambda: g.choice([0, 1, 1 << total - 1, (1 << total) - 1, (1 << total) - (1 << g.below(total)), g.next() ** 9 % (1 << total)])
    a, b = some(), some()
    joined = done = 0
    calls = (ADD, ADD_WITH_CARRY) if add else (SUBTRACT, SUBTRACT_WITH_BORROW)
    for k, size in enumerate(sizes):
        # what stands above the word are the words to come
        value = s.call(ARITHMETIC, size, (a >> done) % TOP, (b >> done) % TOP, calls[k > 0])
        joined += value % (1 << (64 >> size)) << done
        done += 64 >> size
        for _ in range(g.below(4)):
            another(s, g)
    whole = a + b if add else a - b
    assert joined == whole % (1 << total)
    assert (s.m.words[RFLAGS] & CARRY != 0) == (not 0 <= whole < 1 << total)
    s.show_machine()


def mixed(s, g, n):
    for _ in range(n):
        kind = g.below(4)
        if kind == 0:
            another(s, g)
        elif kind == 1 and g.below(2):
            s.call(SET_FLAG, a=0, b=g.below(2))
        else:
            # few bits, all bits, or the value's negative, so that sums meet the edges
            values = [(g.next() >> g.below(64)) * g.choice([1, TOP - 1]) % TOP for _ in range(2)]
            s.call(ARITHMETIC, g.below(4), g.choice(values), g.choice(values), g.choice(OPERATIONS))
            if g.below(4) == 0:
                s.show_machine()


def forms(s, g, sample):
    """Both forms of the flags of a result, at each size, on rflags of zeros and of ones: 0, the sign bit or all ones in the low bits of each width,
    with nothing, one bit or anything above them."""
    for width in (8, 16, 32, 64):
        for low in (0, 1 << width - 1, (1 << width) - 1):
            for above in (0, 1, 1 << 63 - width, g.next()) if width < 64 else (0,):
                for size in range(4):
                    if not sample or g.below(24) == 0:
                        for kind in (COMPUTE, COMPUTE_SIZED):
                            for rflags in (0, TOP - 1):
                                s.reset(WORDS[:RFLAGS] + [rflags] + WORDS[RFLAGS + 1 :], [], 0, 0, 0)
                                s.call(kind, size, (low + (above << width)) % TOP, op=g.choice([NO_OPERAND, NOT_LOOKED_AT]))
                                s.show_machine()


def calls(s, sample):
    arithmetic.check()
    g = Rng(20260102)
    for operation, width, first, second, carry, _, _ in BY_HAND:
        for rflags in (0, TOP - 1):
            alone(s, operation, [64, 32, 16, 8].index(width), first, second, rflags, carry)
    edges(s, g, sample)
    for k in range(4 if sample else 120):
        start(s, g)
        for add in (True, False):
            sizes = [k % 4] * (1 + k % 7) if k % 3 else [g.below(4) for _ in range(1 + g.below(8))]
            chain(s, g, add, sizes)
    for _ in range(2 if sample else 40):
        start(s, g)
        mixed(s, g, 30 if sample else 60)
        s.show()
    forms(s, g, sample)
