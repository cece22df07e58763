"""What refusals.py, texts.py, report.py, carries.py, lacking.py and neighbours.py share: records, operands, the table of registers
(RULES 2.4), and a small model of the machine and its store. It is written from the rules and shares nothing with the Rattle code or with the Rust;
arithmetic.py has RULES 2.12 to 2.14."""
import struct

import arithmetic
from arithmetic import signed

READ, WRITE, ADDRESS, PUSH, POP, READ_MEMORY, WRITE_MEMORY, TEST_FLAG, SET_FLAG, COMPUTE, READ_BYTE, ARITHMETIC, COMPUTE_SIZED = range(1, 14)
VIEW, RESET, LOAD, SHOW_MACHINE, SHOW_DIRECTORY, SHOW_BYTES = 20, 24, 25, 26, 27, 28
TOP = 1 << 64
RAX, RSP, RBP, CR3, RFLAGS = 0, 4, 5, 19, 22
CONTROL = range(17, 22)  # CR0, CR2, CR3, CR4, CR8: writing one is an event
NO_OPERAND = (0, 0, 0, 0, 0)
NOT_LOOKED_AT = (7, 999, TOP - 1, 300, 5)  # names no operand: for records that have none
PARENTS = "rax rbx rcx rdx rsp rbp rsi rdi r8 r9 r10 r11 r12 r13 r14 r15 rip cr0 cr2 cr3 cr4 cr8".split()


def named(names, parents, suffix, first, read, rewritten):
    """Rows of RULES 2.4: name, parent, first lane, lanes read, lanes rewritten. With a suffix, r8 to r15 have a name of the kind too."""
    upper = PARENTS[8:16] if suffix else []
    rows = zip(names.split() + [p + suffix for p in upper], parents.split() + upper)
    return [(name, PARENTS.index(parent), first, read, rewritten) for name, parent in rows]


# in the Rust's order of names, which are numbered from 0
REGISTERS = (
    named(" ".join(PARENTS), " ".join(PARENTS), "", 0, 8, 8)
    + named("eax ebx ecx edx esp ebp esi edi", "rax rbx rcx rdx rsp rbp rsi rdi", "d", 0, 4, 8)
    + named("ax cx dx bx sp bp si di", "rax rcx rdx rbx rsp rbp rsi rdi", "w", 0, 2, 2)
    + named("al cl dl bl", "rax rcx rdx rbx", "", 0, 1, 1)
    + named("ah ch dh bh", "rax rcx rdx rbx", "", 1, 1, 1)
    + named("spl bpl sil dil", "rsp rbp rsi rdi", "b", 0, 1, 1)
    + [(name, 0, 0, 0, 0) for name in "es cs ss ds fs gs".split()]
)
NUMBERS = {row[0]: number for number, row in enumerate(REGISTERS)}


def register(n):
    return (2, n + 1, 0, 0, 0)


def immediate(v):
    return (1, 0, 0, 0, v)


def at(displacement, base=None, index=None, scale=None):
    plus = lambda x: 0 if x is None else x + 1
    return (3, plus(base), plus(index), plus(scale), displacement % TOP)


class Refused(Exception):
    pass


class Model:
    """The machine's 25 words, and the lent store: directory, bytes, slots in use."""

    def __init__(self, words, directory, length, used, fill):
        self.words, self.directory, self.used = list(words), list(directory), used
        self.bytes = bytearray([fill]) * length

    def get(self, number):
        """A register's lanes, sign-extended; a segment has none and reads 0."""
        _, parent, first, read, _ = REGISTERS[number]
        return signed(self.words[parent] >> 8 * first, 8 * read) % TOP if read else 0

    def put(self, number, value):
        """Writes a register from the low bytes given. Gives the event."""
        _, parent, first, read, rewritten = REGISTERS[number]
        lanes = (1 << 8 * rewritten) - 1 << 8 * first
        self.words[parent] = self.words[parent] & ~lanes | value % (1 << 8 * read) << 8 * first
        return [1, number, value] if number in CONTROL else [0, 0, 0]

    def check(self, n):
        slots = len(self.directory)
        if slots > 65536 or self.used > slots or len(self.bytes) != 4096 * slots:
            raise Refused(4)
        if n > 4096:
            raise Refused(5)

    def slot(self, page):
        in_use = self.directory[: self.used]
        return in_use.index(page) if page in in_use else None

    def byte(self, p):
        i = self.slot(p // 4096)
        return 0 if i is None else self.bytes[4096 * i + p % 4096]

    def word(self, p):
        return int.from_bytes(bytes(self.byte(p + k) for k in range(8)), "little")

    def physical(self, address):
        """Where the walk leads; with CR3 = 0 the address itself."""
        table = self.words[CR3]
        if table == 0:
            return address
        for lowest in (39, 30, 21):
            table = self.word((table + 8 * (address >> lowest & 0x1FF)) % TOP) & ~0xFFF
        return (table + address % (1 << 21)) % TOP

    def read(self, address, n):
        self.check(n)
        p = self.physical(address)
        return bytes(self.byte(p + k) for k in range(n))

    def write(self, address, data):
        """The event, or a refusal: 6 with the number of slots that lack (RULES 7.5)."""
        self.check(len(data))
        if not data:
            return None
        p = self.physical(address)
        absent = [q for q in range(p // 4096, (p + len(data) - 1) // 4096 + 1) if self.slot(q) is None]
        unused = len(self.directory) - self.used
        if len(absent) > unused:
            raise Refused(6, len(absent) - unused)
        for q in absent:
            self.directory[self.used] = q
            self.bytes[4096 * self.used : 4096 * self.used + 4096] = bytes(4096)
            self.used += 1
        for k, b in enumerate(data):
            self.bytes[4096 * self.slot((p + k) // 4096) + (p + k) % 4096] = b
        return data[0] if 0xB8000 <= p <= 0xB8FA0 and p % 2 == 0 else None

    def address(self, op):
        if op[0] != 3:
            raise Refused(1)
        total = signed(op[4], 64) + (self.get(op[1] - 1) if op[1] else 0)
        if op[2]:
            if not op[3]:
                raise Refused(3)
            total += self.get(op[2] - 1) * (op[3] - 1)
        return total % TOP

    def value(self, op, size):
        if op[0] == 1:
            return op[4]
        if op[0] == 2:
            return self.get(op[1] - 1)
        n = 8 >> size
        v = int.from_bytes(self.read(self.address(op), n), "little")
        return (v if size == 3 else signed(v, 8 * n)) % TOP

    def put_flag(self, flag, yes):
        self.words[RFLAGS] = arithmetic.put(self.words[RFLAGS], flag, yes)

    def compute_flags(self, result, size, zero_bits):
        """Zero is of so many low bits: all 64 whatever the size (RULES 2.10), or those of the size (RULES 2.11)."""
        self.put_flag(arithmetic.PARITY, arithmetic.even_ones(result))
        self.put_flag(arithmetic.ZERO, result % (1 << zero_bits) == 0)
        self.put_flag(arithmetic.SIGN, signed(result, 64 >> size) < 0)

    def operate(self, operation, size, first, second):
        """The answer's shape and value."""
        result, self.words[RFLAGS] = arithmetic.operate(operation, 64 >> size, first, second, self.words[RFLAGS])
        return (0, 0) if result is None else (1, result % TOP)


class Stream:
    def __init__(self, calls, answers):
        self.calls, self.answers, self.counted, self.refused = calls, answers, 0, 0

    def put(self, header, block, answer, lent, used):
        header = list(header) + [0] * (16 - len(header))
        self.calls.write(struct.pack("<16Q", *header) + block)
        self.answers.write(struct.pack("<8Q", *answer, used, len(lent)) + lent)

    def reset(self, words, directory, length, used, fill):
        self.m = Model(words, directory, length, used, fill)
        block = struct.pack("<%dQ" % (25 + len(directory)), *words, *directory)
        self.put([RESET, len(block), used, len(directory), length, fill], block, [0] * 6, b"", used)

    def load(self, where, data):
        self.m.bytes[where : where + len(data)] = data
        self.put([LOAD, len(data), 0, where], data, [0] * 6, b"", self.m.used)

    def call(self, kind, size=0, a=0, b=0, c=0, op=NO_OPERAND, block=b""):
        m, lent = self.m, block
        shape = value = 0
        event = [0, 0, 0]
        refusal = 0
        if kind == READ_MEMORY:
            lent = bytes([c]) * b
        try:
            if kind == READ:
                shape, value = 1, m.value(op, size)
            elif kind == WRITE and op[0] == 1:
                raise Refused(2)
            elif kind == WRITE and op[0] == 2:
                event = m.put(op[1] - 1, a)
            elif kind == ADDRESS:
                shape, value = 1, m.address(op)
            elif kind == POP:
                shape, value = 1, int.from_bytes(m.read(m.words[RSP], 8), "little")
                m.words[RSP] = (m.words[RSP] + 8) % TOP
            elif kind == READ_MEMORY:
                lent = m.read(a, b)
            elif kind == READ_BYTE:
                shape, value = 1, m.read(a, 1)[0]
            elif kind == TEST_FLAG:
                shape, value = 2, int(m.words[RFLAGS] & arithmetic.FLAGS[a] != 0)
            elif kind == SET_FLAG:
                m.put_flag(arithmetic.FLAGS[a], b)
            elif kind == COMPUTE:
                m.compute_flags(a, size, 64)
            elif kind == COMPUTE_SIZED:
                m.compute_flags(a, size, 64 >> size)
            elif kind == ARITHMETIC:
                shape, value = m.operate(c, size, a, b)
            else:
                to, data = a, block
                if kind == WRITE:
                    to, data = m.address(op), (a % (1 << (64 >> size))).to_bytes(8 >> size, "little")
                if kind == PUSH:
                    to = (m.words[RSP] - len(block)) % TOP
                shown = m.write(to, data)
                if shown is not None:
                    event = [2, 0, shown]
                if kind == PUSH:
                    m.words[RSP] = to
        except Refused as why:
            refusal, *said = why.args
            if said:
                shape, value = 1, said[0]
        self.answer = [refusal, shape, value, *event], lent
        self.put([kind, len(block), size, a, b, c, *op], block, *self.answer, m.used)
        self.counted += 1
        self.refused = refusal
        return value

    def view(self, page, start=0, n=8, zeros=4096, last=0):
        m = self.m
        slots = len(m.directory)
        good = len(m.bytes) == 4096 * slots and m.used <= slots and zeros == 4096 and last == 0
        shown = b""
        if good:
            i = m.slot(page)
            whole = bytes(4096) if i is None else bytes(m.bytes[4096 * i : 4096 * i + 4096])
            shown = whole[start : start + n]
        self.put([VIEW, 0, 0, page, start, n, 0, zeros, 0, 0, last], b"", [0 if good else 4, 0, 0, 0, 0, 0], shown, m.used)
        self.counted += 1

    def show_machine(self):
        self.put([SHOW_MACHINE], b"", [0] * 6, struct.pack("<25Q", *self.m.words), self.m.used)

    def show(self, of_each_page=24):
        m = self.m
        self.show_machine()
        self.put([SHOW_DIRECTORY], b"", [0] * 6, struct.pack("<%dQ" % len(m.directory), *m.directory), m.used)
        for where in range(0, len(m.bytes), 4096):
            n = min(of_each_page, len(m.bytes) - where)
            self.put([SHOW_BYTES, 0, 0, where, n], b"", [0] * 6, bytes(m.bytes[where : where + n]), m.used)
