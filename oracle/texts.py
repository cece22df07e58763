"""Texts that do not fit their buffer, which the Rust has no answer to (refusal 7), and the order of 9, 8, 3, 7. The texts expected are those of
RULES 6, by the model below."""
from model import *

FORMATTED, ARGUMENTS, STATE, LINE, SHOWN, REGISTER = range(32, 38)
STATE_ORDER = "rax rbx rcx rdx rsi rdi rbp rsp r8 r9 r10 r11 r12 r13 r14 r15 rip".split()
NO_SIZE = 4
LONGEST = 57


def operand_text(op, size):
    if op[0] == 1:
        return "$0x%x" % (op[4] % (1 << (64 >> size)))
    if op[0] == 2:
        return "%" + REGISTERS[op[1] - 1][0]
    displacement = signed(op[4], 64)
    base, index = ("%" + REGISTERS[n - 1][0] if n else "" for n in op[1:3])
    if index:
        if not op[3]:
            raise Refused(3)
        parts = "(%s,%s,%d)" % (base, index, op[3] - 1)
    else:
        parts = "(%s)" % base if base else ""
    return "%s0x%x%s" % ("-" if displacement < 0 else "", abs(displacement), parts)


def selected(first, second, size):
    """The size that `size()` gives: the explicit one, or a register's, the first operand's before the second's; alone, another operand counts 64."""
    if size != NO_SIZE:
        return size
    for op in (first, second):
        if op[0] == 2:
            row = REGISTERS[op[1] - 1]
            return {8: 0, 4: 1, 2: 2, 1: 3, 0: 2}[row[3]]
    if second[0]:
        raise Refused(8)
    return 0


def arguments_text(first, second, size):
    if not first[0]:
        if second[0]:
            raise Refused(9)
        return ""
    size = selected(first, second, size)
    return ",".join(operand_text(op, size) for op in (first, second) if op[0])


def line(kind, register, value):
    if kind == 1:
        name = REGISTERS[register - 1][0].upper()
        return "%s: %x" % ("CR5" if name == "CR8" else name, value)
    return "VIDEO: " + chr(value) if kind == 2 else ""


def text(kind, size, first, second, words):
    if kind == STATE:
        return "\n".join("%-15s0x%x" % (name, words[PARENTS.index(name)]) for name in STATE_ORDER)
    if kind == LINE:
        return line(first[0], first[1], first[4])
    if kind == ARGUMENTS:
        return arguments_text(first, second, size)
    return operand_text(first, size if kind == FORMATTED else 0)


def call(s, kind, b, c, size=0, a=0, first=NO_OPERAND, second=NO_OPERAND):
    """One text into a buffer of b bytes."""
    lent = bytes([c % 256]) * b
    shape = value = refusal = 0
    try:
        told = text(kind, size, first, second, s.m.words).encode()
        if len(told) > b:
            raise Refused(7)
        shape, value = 1, len(told)
        lent = told + lent[value:]
    except Refused as why:
        refusal = why.args[0]
    s.put([kind, 0, size, a, b, c, *first, *second], b"", [refusal, shape, value, 0, 0, 0], lent, s.m.used)
    s.counted += 1


def around(s, sample, kind, size=0, first=NO_OPERAND, second=NO_OPERAND):
    """A buffer of no bytes, one a byte short, one that the text just fills; what has no text is refused in every buffer alike."""
    try:
        n = len(text(kind, size, first, second, s.m.words).encode())
    except Refused:
        n = LONGEST
    lengths = {0, n - 1, n} if sample else {0, 1, n // 2, n - 1, n, n + 1, n + 100}
    for b in sorted(b for b in lengths if b >= 0):
        call(s, kind, b, 0x0101_0101_0101_0101 * (s.counted % 251), size, s.counted % 257 if kind == ARGUMENTS else 0, first, second)


def calls(s, sample):
    words = [(0x0123_4567_89AB_CDEF * (2 * i + 1) >> 3 * i) % TOP for i in range(25)]
    s.reset(words, [0], 4096, 0, 0xEE)
    longest = at(-(1 << 31), base=NUMBERS["r10d"], index=NUMBERS["r15w"], scale=255)
    unscaled = at(8, base=RBP, index=NUMBERS["gs"])
    parts = [at(0), at(-8, base=RBP), at(0, index=NUMBERS["rcx"], scale=8), at(-(1 << 31)), at((1 << 31) - 1), longest, unscaled]
    values = [immediate(0), immediate(0x8081), immediate(TOP - 1)]
    for n in [0, 8, 10, 38, 79] if sample else range(80):
        around(s, sample, REGISTER, first=register(n))
    for k, op in enumerate(values + parts + [register(NUMBERS["r8"]), register(NUMBERS["al"])]):
        around(s, sample, SHOWN, first=op)
        for size in [k % 4] if sample else range(4):
            around(s, sample, FORMATTED, size, op)
    few = [NO_OPERAND, values[2], parts[1], longest, unscaled, register(NUMBERS["cr8"]), register(NUMBERS["ah"])]
    k = 0
    for first in few:
        for second in few:
            for size in range(5):
                k += 1
                # 3 and 8 together, and no size at all, are what the order is about
                if not sample or k % 11 == 0 or size == NO_SIZE and unscaled in (first, second):
                    around(s, sample, ARGUMENTS, size, first, second)
    around(s, sample, STATE)
    around(s, sample, LINE)
    for register_number, value in [(17, 0), (18, 0xFFF), (19, 0x1000), (20, 1 << 63), (21, TOP - 1)]:
        around(s, sample, LINE, first=(1, register_number + 1, 0, 0, value))
    for shown in [0, 10, 0x7F, 0x80, 0xFF] if sample else range(256):
        around(s, sample, LINE, first=(2, 0, 0, 0, shown))
    s.show()
    # an unsound store is no matter to a text
    s.reset([0] * 25 if sample else [TOP - 1] * 25, [0], 4095, 2, 0xEE)
    for kind, first in [(STATE, NO_OPERAND), (ARGUMENTS, longest), (LINE, (2, 0, 0, 0, 0xE9)), (SHOWN, longest), (REGISTER, register(RBP))]:
        around(s, sample, kind, first=first)
    if not sample:
        for kind in (STATE, LINE):
            call(s, kind, 8192, 0x5A)
    s.show()
