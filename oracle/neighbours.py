"""Dependent calls and calls that are exchanged (RULES 8.6), which the Rust does not have. Two calls are dependent by the rows of report.py: one
rewrites a place that the other reads or rewrites, or both reach memory. Then pairs of calls are made in both orders, from equal starts and amid other
calls, with every word and byte shown after each: by model.py independent ones must give the same answers and leave the same, and drive must say what
the model says."""
from arithmetic import ADD, ADD_WITH_CARRY, OPERATIONS
from lacking import WALKED, load_tables
from model import *
from report import Rng, drawn, entry, on, operate, reads, rewrites, singles

DEPENDS = 41


def reaches(call):
    return call[0] in (PUSH, POP, READ_MEMORY, WRITE_MEMORY) or call[0] in (READ, WRITE) and call[6] == 3


def dependent(a, b):
    meets = lambda c, d: not rewrites(c).isdisjoint(reads(d) | rewrites(d))
    return meets(a, b) or meets(b, a) or reaches(a) and reaches(b)


def ask(s, a, b):
    s.put([DEPENDS, 256], struct.pack("<32Q", *a, *b), [0, 2, int(dependent(a, b)), 0, 0, 0], b"", s.m.used)
    s.counted += 1


def asked_of(sample):
    """One register's name against another's, flags against flags, what reaches memory against all; what is drawn from every call alone."""
    names = [NUMBERS[name] for name in ("eax", "ah", "fs")] if sample else range(80)
    for n in names:
        for m in names:
            yield entry(WRITE, 0, 1, op=register(n)), entry(WRITE, 0, 1, op=register(m))
            if not sample:
                yield entry(WRITE, 0, 1, op=register(n)), entry(READ, 0, op=register(m))
                yield entry(READ, 0, op=at(0, base=n)), entry(WRITE, 0, 1, op=register(m))
                yield entry(WRITE, 0, 1, op=register(n)), entry(ADDRESS, op=at(0, index=m, scale=2))
    on_flags = [entry(kind, a=f) for kind in (TEST_FLAG, SET_FLAG) for f in range(6)]
    on_flags += [entry(COMPUTE, 3, 1), entry(COMPUTE_SIZED, 3, 1)] + [operate(operation) for operation in OPERATIONS]
    for a in on_flags[::6] if sample else on_flags:
        for b in on_flags[::9] if sample else on_flags:
            yield a, b
    every = list(singles())
    g = Rng(7)
    for _ in range(0 if sample else 20000):
        yield g.choice(every), g.choice(every)


def lent_to(g, call):
    """The call put near the pages that there are, and as many bytes as are lent to it."""
    where = g.choice([0, 0x1000, 0x2000, 0x3000, 0x40000000, 0x40200000, 0xB8000, TOP - 4096]) + g.choice([0, 8, 0xFA0, 4090, 4095])
    kind, op = call[0], call[6:11]
    if kind in (READ_MEMORY, WRITE_MEMORY):
        call = (*call[:3], where % TOP, *call[4:])
    if op[0] == 3 and kind != ARITHMETIC and g.below(2):
        call = (*call[:10], where % (1 << 31), *call[11:])
    n = g.choice([0, 1, 2, 8, 8, 16]) if g.below(50) else 4097
    return call, bytes(0x31 + k % 77 for k in range(n)) if kind in (PUSH, READ_MEMORY, WRITE_MEMORY) else b""


def run(s, call, lent):
    kind, _, size, a, b, c, *op = call[:11]
    if kind == READ_MEMORY:
        s.call(kind, a=a, b=len(lent), c=0xA5)
    else:
        s.call(kind, size, a, b, c, op=op, block=lent)
    return s.answer


def any_start(g):
    """A machine whose registers are addresses now and then, and a store that lacks slots, or is none, now and then."""
    words = [g.choice([0, 8, 0xFFC, 0x2004, 0xB8FA2, 0x40200FFF, g.next(), g.next()]) for _ in range(25)]
    words[CR3] = g.choice([0, 0, WALKED, WALKED, g.next()])
    directory = g.choice([[1, 2, 3, 0x600], [0, 1, 0, 0], [0xB8, 2], [5], []])
    length = 4096 * len(directory) - (g.below(12) == 0)
    return words, directory, max(length, 0), g.below(len(directory) + 1), g.choice([0, 0xEE])


def both_orders(s, start, before, a, b, after, of_each_page=4096):
    """Whether all is alike but for the order: each call's answer, and every word and byte at the end. So many bytes of each page are shown."""
    ends = []
    for pair in (a, b), (b, a):
        s.reset(*start)
        load_tables(s)
        answers = [run(s, *call) for call in (*before, *pair, *after)]
        s.show(of_each_page)
        k = len(before)
        if pair[0] is b:
            answers[k], answers[k + 1] = answers[k + 1], answers[k]
        ends.append((answers, s.m.words, s.m.directory, s.m.bytes, s.m.used))
    return ends[0] == ends[1]


def calls(s, sample):
    s.reset([0] * 25, [0], 4096, 0, 0xEE)
    # the rule's sentence on examples that its readers agreed on
    memory, sum_with_carry, indexed = entry(READ_MEMORY), operate(ADD_WITH_CARRY), at(0, base=RAX, index=RBP, scale=1)
    for a, b, so in [
        (on(WRITE, "al"), on(WRITE, "ah"), False), (on(WRITE, "ax"), on(READ, "ah"), True), (on(READ, "eax"), on(WRITE, "ah"), True),
        (on(READ, "rax"), on(READ, "al"), False), (on(WRITE, "es"), on(WRITE, "rax"), False), (on(WRITE, "rsp"), entry(PUSH), True),
        (on(WRITE, "cr0"), memory, False), (on(WRITE, "cr3"), memory, True), (memory, entry(READ_MEMORY, a=4096), True),
        (entry(SET_FLAG), entry(TEST_FLAG, a=2), False), (entry(SET_FLAG, a=4), sum_with_carry, False), (operate(ADD), sum_with_carry, True),
        (entry(ADDRESS, op=indexed), entry(POP), False), (entry(READ, op=indexed), entry(POP), True), (on(WRITE, "bpl"), entry(ADDRESS, op=indexed), True),
        (on(WRITE, "cr3"), entry(READ, op=indexed), True)]:
        assert dependent(a, b) == so
        ask(s, a, b)
    for a, b in asked_of(sample):
        ask(s, a, b)
    words = [0x1111_1111_1111_1111 * (i % 15 + 1) for i in range(25)]
    words[RSP], words[CR3] = 0x2004, 0
    on_screen, address = entry(WRITE_MEMORY, a=0xB8000), entry(ADDRESS, op=at(0, base=RSP))
    for a, b in (on(WRITE, "al"), on(WRITE, "ah")), (on(WRITE, "cr0"), on_screen), (address, on(READ, "sp")):
        lent = b"\x31\x32" if b is on_screen else b""
        assert both_orders(s, (words, [0xB8, 0], 8192, 1, 0xEE), [], (a, b""), (b, lent), [], 24)
    if not sample:
        drawn_pairs(s)


def drawn_pairs(s):
    """Each amid up to four calls more."""
    g = Rng(20260107)
    independent = differing = 0
    for _ in range(6000):
        some = [lent_to(g, call) for call in drawn(g, 2 + g.below(5))]
        where = g.below(len(some) - 1)
        a, b = some[where : where + 2]
        ask(s, a[0], b[0])
        alike = both_orders(s, any_start(g), some[:where], a, b, some[where + 2 :])
        assert alike or dependent(a[0], b[0]), (a, b)
        independent += not dependent(a[0], b[0])
        differing += not alike
    # enough of either, so that a rule that is too narrow would have been seen
    assert independent > 2000 and differing > 200, (independent, differing)
