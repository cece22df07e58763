#!/usr/bin/env python3
"""refusals.py CALLS ANSWERS [sample]: appends to both files the calls that the Rust has no answer to, with the answers that the rules give them:
accesses of no bytes, refusals 4, 5 and 6 and their order, the page view, directories with numbers twice or past 2^52; then, by texts.py, report.py,
readback.py, carries.py, lacking.py and neighbours.py, refusal 7, the exposed report and refusal 12, operand text read back and refusal 13, arithmetic
and the sized flags, how many slots lack at refusal 6, and dependent calls. The expected answers come from models that are written from docs/RULES.md
and share nothing with the Rattle code or with the Rust. With `sample` there are fewer of these last six, for the stored sample. Prints the number of
calls."""
import sys

sys.dont_write_bytecode = True
import carries
import lacking
import neighbours
import readback
import report
import texts
from model import *


def every_call(s, long):
    """Each call that reaches memory, and each that does not, on the store as it is."""
    s.call(READ, 3, op=register(RAX))
    s.call(WRITE, 3, 0x1234_5678_9ABC_DEF0, op=register(RBP))
    s.call(READ, 2, op=immediate(TOP - 5))
    s.call(WRITE, 2, 7, op=immediate(5))
    s.call(ADDRESS, op=at(-8, base=RAX, index=RBP, scale=8))
    s.call(ADDRESS, op=register(RAX))
    for kind in (READ, WRITE, ADDRESS):
        s.call(kind, 0, 9, op=at(1, index=RBP))  # 3 comes before 4
    for size in range(4):
        s.call(READ, size, op=at(4095))
    s.call(POP)
    s.call(READ_BYTE, a=4095)
    s.call(READ_MEMORY, a=4090, b=0, c=0xA5)
    s.call(READ_MEMORY, a=4090, b=12, c=0xA5)
    s.call(WRITE_MEMORY, a=0xB8000, block=b"")
    s.call(WRITE_MEMORY, a=4095, block=b"")
    s.call(PUSH, block=b"")
    s.show()
    for page in (0, 1, 7, 1 << 52, 1 << 63):
        s.view(page, 4088 if page == 1 else 0)
    s.view(0, zeros=4095)
    s.view(0, zeros=4097)
    s.view(7, zeros=4096, last=1)
    s.view(7, zeros=0)
    if long:
        for n in (4096, 4097, 8192):
            s.call(READ_MEMORY, a=1, b=n, c=0x5A)
        s.call(PUSH, block=bytes(range(256)) * 17)
        s.call(WRITE_MEMORY, a=0xB8000, block=bytes(range(1, 256)) * 18)
        s.call(PUSH, block=bytes(range(5, 255)) * 16)
        s.call(WRITE_MEMORY, a=3, block=bytes(range(256)) * 16)
    s.call(PUSH, block=b"\x91")
    s.call(WRITE, 3, 0x1FF, op=at(0xB8FA0))
    s.call(WRITE, 0, TOP - 2, op=at(4090))
    s.call(WRITE_MEMORY, a=4095, block=b"\x81\x82")  # pages 0 and 1
    s.call(WRITE_MEMORY, a=4095, block=b"\x83")
    s.call(WRITE_MEMORY, a=TOP - 1, block=b"\x84\x85")
    s.call(READ_MEMORY, a=4088, b=16, c=0xA5)
    s.call(WRITE_MEMORY, a=0xB8002, block=b"")
    s.show()


def main():
    with open(sys.argv[1], "ab") as calls, open(sys.argv[2], "ab") as answers:
        s = Stream(calls, answers)
        words = [0x1111_1111_1111_1111 * (i % 15 + 1) for i in range(25)]
        words[RSP], words[CR3] = 0x2004, 0
        stores = [
            # directory, bytes, in use: sound ones, then each way to be unsound
            ([], 0, 0), ([5], 4096, 0), ([0], 4096, 1), ([7], 4096, 0), ([0, 9], 8192, 1), ([9, 9, 9], 12288, 1), ([1, 0, 2, 3], 16384, 2),
            ([3, 0, 3, 0, 5, 6], 24576, 4), ([1 << 52, 1 << 63, TOP - 1, 0, 0, 0, 0, 0], 32768, 3), ([0] * 40, 163840, 1),
            ([], 1, 0), ([], 0, 1), ([0], 0, 0), ([0], 4095, 1), ([0], 4097, 1), ([0], 4096, 2), ([0], 4096, TOP - 1),
            ([0, 1], 4096, 1), ([0, 1], 4096, 3),
        ]
        for i, (directory, length, used) in enumerate(stores):
            s.reset(words, directory, length, used, 0xEE)
            for where in range(0, length - 4095, 4096):
                if where // 4096 < 3:
                    s.load(where + 4080 if where else 0, bytes(range(0x30 + where // 4096, 0x40 + where // 4096)))
            every_call(s, i in (8, 14))
        # RULES 10.10: one unused slot, pages 0 and 1 absent; then page 0 present
        s.reset([0] * 25, [4, 0], 8192, 1, 0xEE)
        s.call(WRITE_MEMORY, a=4095, block=b"\1\2")
        s.show()
        s.reset([0] * 25, [0, 0], 8192, 1, 0xEE)
        s.call(WRITE_MEMORY, a=4095, block=b"\1\2")
        s.show()
        # a refused push does not move rsp
        s.reset([0] * 25, [], 0, 0, 0)
        s.call(PUSH, block=b"\1")
        s.call(PUSH, block=bytes(4096))
        s.show()
        sample = sys.argv[3:] == ["sample"]
        texts.calls(s, sample)
        report.calls(s, sample)
        readback.calls(s, sample)
        carries.calls(s, sample)
        lacking.calls(s, sample)
        neighbours.calls(s, sample)
        print(s.counted)


main()
