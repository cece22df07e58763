#!/usr/bin/env python3
"""readback.py MODE CALLS ANSWERS ..: writes a stream of operand texts to be read back (kind 38 of docs/FORMAT.md), and the answers that reading.py
gives. Prints how many texts there are and how many of them are read. The fixed texts are `calls`, which refusals.py runs.
  short FIRST MANY           of all texts of at most four bytes that are in use in operand text, MANY from the one numbered FIRST on
  damaged SEED FIRST MANY    MANY operand texts drawn from SEED, from the one numbered FIRST on, most of them damaged by a few edits
  printed FROM TOLD          every operand text that the Rust printed, of the calls in FROM with the answers in TOLD (`oracle random`). Apart from
                             reading.py's answer it is asserted that the operands come back where RULES 6.11 says so; a third number says how often"""
import sys
from itertools import chain, islice, product

sys.dont_write_bytecode = True
from differences import records
from model import *
from reading import *
from report import Rng
from texts import ARGUMENTS, FORMATTED, REGISTER, SHOWN, operand_text, selected

READ_BACK, LONGEST_BLOCK = 38, 8192


def printed_again(operands):
    """The text of what was read, at the widest size."""
    return ",".join(operand_text(op, 0) for op in operands if op[0])


def call(s, text):
    """One text to be read; gives its reading, or None."""
    found = readings(text)
    block = text.encode("latin-1")
    s.counted += 1
    if not found:
        s.put([READ_BACK, len(block)], block, [NOT_OPERAND_TEXT, 1, place(text), 0, 0, 0], b"", s.m.used)
        return None
    first, second = found[0]
    assert printed_again(found[0]) == text
    s.put([READ_BACK, len(block)], block, [0] * 6, struct.pack("<10Q", *first, *second), s.m.used)
    return found[0]


def start(s):
    s.reset([0] * 25, [0], 4096, 0, 0xEE)


# after these a byte more tells much: names, digits and bounds that may end here or go on
LIVE = ["", "%", "%r", "%r1", "%es", "%rax", "%rax,", "0x", "-0x", "$0x", "0x0", "-0x8000000", "0x7ffffff", "0x7fffffff", "-0x80000000",
        "$0xfffffffffffffff", "$0xffffffffffffffff", "0x0(", "0x0(%", "0x0(%es", "0x0(%rax,", "0x0(,", "0x0(,%r8", "0x0(,%rcx,", "0x0(,%rcx,0",
        "0x0(,%rcx,2", "0x0(,%rcx,25", "0x0(,%rcx,255", "0x0(,%rcx,8)", "0x0(%rbp)", "$0x0,%r1", "0x1(%gs),0x0(%es,%es,25"]
LONGEST = "-0x80000000(%r10d,%r15w,255)"
TELLING = ["-0x8(%rbp)", "0x0(,%rcx,8)", "0x0(%rip,%cr8,0)", "$0xffffffffffffffff,-0x80000000(%gs,%r15w,255)", LONGEST + "," + LONGEST, "%esp,%es",
           "%r8d,%r8", "%spl,%sp", "%r1,%rax", "%RAX", "%rax ", "$0", "--0x1", "0x1(%rax", "0x1(%rax,)", "0x1(,)", "0x1(,%rbx)", "0x1(%rax,,2)",
           "0x1(%rax)(%rbx)", "0x1(%rax),%rb", "0x0(,%rcx,00)", "0x0(,%rcx,1f)", "0x0(,%es,300)", "$0x10000000000000000", "$0x01", "%rax,-0x0",
           "%rax,0x80000000", "%cr8,%cr5", "%rip,%eip", "%al,%alh", "%rax\0", "\xff", "%rax\xa5", "0x1\xb2"]
MORE = ["%rax,%rax", "0x8(%rax)", "$0x0", " %rax", "rax", "$1", "0", "0X0", "8", "-8", "+0x1", "-$0x1", "$-0x1", "$0x-1", "-", "0x1(%rax,",
        "0x1(%rax,%rbx,", "0x1(,%rbx,)", "0x1(%rax,2)", "0x1(%rax)%rbx", "0x1(%rax),", "0x1(%r8w,%r9b,30)", "0x1(%rax,%rbx,1)0", "0x0(,%rcx,-1)",
        "0x0(,%es,99)", "$0x00", "-0x00", "-0x01", "%raxx", "%rax;%rbx", "%rax.%rbx", "\0", "\x80", "%\xe9", "%rax,\xff", "0x1(%rax\xa9"]
NAMES = sorted(NAME.says)


def fixed():
    """Every name and its beginnings, in every part of an operand; scales; bounds by their digits; every byte after what may go on."""
    yield from MORE
    for name in NAMES:
        yield from (name[:n] for n in range(1, len(name)))
        for text in ["%s", "%s,%%rax", "%%rax,%s", "0x1(%s)", "0x1(%s", "-0x1(%s,%%bl,9)", "0x1(,%s,10)", "0x1(%%cl,%s,100)", "0x1(,%s)", "0x1(,%s,"]:
            yield text % name
    yield from ("0x0(,%%rcx,%d)" % scale for scale in range(1100))
    for digits in range(1, 18):
        for number in [first + more * (digits - 1) for first in "1789f" for more in "0f"]:
            yield from (text % number for text in ["0x%s", "-0x%s", "$0x%s", "%%al,0x%s(%%al)"])
    yield from (text + chr(byte) for text in LIVE for byte in range(256))
    # a text is any bytes that a block may hold, and may be much longer than what is read
    for unit in ["%", "0", "%rax,", "0x1(", "\0", "\xff", LONGEST + ","]:
        yield (unit * LONGEST_BLOCK)[:LONGEST_BLOCK]


def calls(s, sample):
    check()
    start(s)
    few = [text for text, _ in PLACES] + TELLING + LIVE + ["%ax", "%r10b", "%sil", "%gs"]
    for text in dict.fromkeys(few):
        call(s, text)
    for text in [LONGEST + "," + LONGEST, "0x1(%rax),-0x", "$0x"] if sample else LIVE:
        call(s, text + "1" * (LONGEST_BLOCK - len(text)))
    for text in [] if sample else fixed():
        call(s, text)
    # an unsound store is no matter to a text
    s.reset([TOP - 1] * 25, [0], 4095, 2, 0xEE)
    for text in ["", "%rax", LONGEST + "," + LONGEST, "0x0(,%rcx,256)"]:
        call(s, text)
    s.show()


def short(first, many):
    """Texts of at most four bytes in use, the shorter first: so many of them."""
    texts = chain.from_iterable(product(IN_USE, repeat=length) for length in range(5))
    return map("".join, islice(texts, first, first + many))


def number(g, bits):
    """Fewer bits as often as more; then an edge."""
    n = g.next() >> 64 - 1 - g.below(bits)
    return g.choice([n, n, n, 0, 1, (1 << bits) - 1, 1 << bits - 1, (1 << bits - 1) - 1])


def drawn(g):
    """The text of one operand or two, as it is printed at a size."""

    def one():
        what = g.below(8)
        if what < 2:
            return register(g.below(80))
        if what < 4:
            return immediate(number(g, 64))
        base = g.choice([None, g.below(80), g.below(80)])
        index = g.choice([None, g.below(80)])
        scale = None if index is None else g.choice([1, 2, 4, 8, g.below(10), g.below(100), g.below(256), 255])
        return at(signed(number(g, 32), 32), base, index, scale)

    size = g.below(4)
    return ",".join(operand_text(one(), size) for _ in range(1 + g.below(2)))


def edited(g, text):
    """One edit: a byte replaced, put in, taken out, swapped with the next or doubled; the text cut short or joined with another."""
    k = g.below(len(text) + 1)
    what = g.below(9)
    # a byte of operand text as a rule, else one that looks like it, else any
    byte = g.choice(IN_USE) if g.below(4) else g.choice("XFAg *@/:\n\0") if g.below(2) else chr(g.below(256))
    if what < 2:
        return text[:k] + byte + text[k + 1 :]
    if what < 4:
        return text[:k] + byte + text[k:]
    if what == 4:
        return text[:k] + text[k + 1 :]
    if what == 5:
        return text[:k] + text[k + 1 : k + 2] + text[k : k + 1] + text[k + 2 :]
    if what == 6:
        return text[:k] + text[k : k + 1] + text[k:]
    if what == 7:
        return text[:k]
    return text + g.choice([",", "", ",,"]) + drawn(g)


def damaged(g):
    """One text in eight is left as it is printed."""
    text = drawn(g)
    for _ in range(g.choice([0, 1, 1, 1, 1, 2, 2, 3])):
        text = edited(g, text)
    return text


def printed(calls, told):
    """Each text that was printed of operands, with these and its size."""
    for (head, _), (answer, lent) in zip(records(calls, 16, 1), records(told, 8, 7)):
        if head[0] in (FORMATTED, ARGUMENTS, SHOWN, REGISTER) and answer[0] == 0:
            first, second = head[6:11], head[11:16]
            if first[0]:
                size = selected(first, second, head[2]) if head[0] == ARGUMENTS else head[2] if head[0] == FORMATTED else 0
                yield lent[: answer[2]].decode("latin-1"), first, second, size


def comes_back(op, size):
    """RULES 6.11: its immediate fits the size without sign, and it has no scale without an index."""
    return op[4] < 1 << (64 >> size) if op[0] == 1 else op[0] != 3 or op[2] or not op[3]


def main():
    check()
    mode, words = sys.argv[1], sys.argv[4:]
    with open(sys.argv[2], "wb") as to, open(sys.argv[3], "wb") as answers:
        s = Stream(to, answers)
        start(s)
        read, same = 0, []
        if mode == "short":
            for text in short(*map(int, words)):
                read += call(s, text) is not None
        elif mode == "damaged":
            seed, first, many = map(int, words)
            for k in range(first, first + many):
                # each text has its own numbers, so that it doesn't matter how a run is cut
                read += call(s, damaged(Rng((seed * 0x2545F4914F6CDD1D + k * 0xD1342543DE82EF95) % TOP))) is not None
        elif mode == "printed":
            same = [0]
            for text, first, second, size in printed(*(open(name, "rb").read() for name in words)):
                found = call(s, text)
                assert found is not None, text
                read += 1
                if comes_back(first, size) and comes_back(second, size):
                    assert found == (first, second), (text, found)
                    same[0] += 1
        else:
            sys.exit("no such mode: " + mode)
        print(s.counted, read, *same)


if __name__ == "__main__":
    main()
