"""Refusal 6 and how many slots lack (RULES 7.5); expected is what model.py says, by the slots of RULES 3.9 and the walk. Each kind of write, at page
ends and at the top, on stores with few slots; with and without a walk, whose tables lie in the store. A call that lacks k slots is tried again on the
same store with one slot fewer than that, and with just so many."""
import random
import struct

from model import *

# the walk of RULES 10.9, and an entry of 0: 0x40200000 leads to 0x600000, 0x40000000 to 0, so that a page may be there by its address and absent by
# the walk, or the other way round
TABLES = {1: {0: 0x2003}, 2: {8: 0x3003}, 3: {0: 0, 8: 0x600083}}
WALKED = 0x1000


def start(s, directory, used, more, cr3, rsp, fill):
    """The store with so many slots more, with stale numbers in those that are not in use; pages 1 to 3 hold the tables."""
    words = [0] * 25
    words[RAX], words[RSP], words[CR3] = 0xFF0, rsp, cr3
    directory = directory + [1, 0, 0x600, 2][:more]
    s.reset(words, directory, 4096 * len(directory), used, fill)
    if cr3:
        load_tables(s)


def load_tables(s):
    for i, page in enumerate(s.m.directory[: s.m.used]):
        for at_byte, entry in TABLES.get(page, {}).items():
            s.load(4096 * i + at_byte, struct.pack("<Q", entry))


def write(s, kind, address, n):
    """n bytes go to an address: by a write of memory, a push from rsp = address + n, or an operand's write of 1, 2, 4 or 8 bytes. Gives how many
    slots lack, where it is refused with 6."""
    data = bytes(0x31 + k % 77 for k in range(n))
    if kind == WRITE:
        displacement = address - 0xFF0 if address < 0xFF0 + (1 << 31) else address - 0xFF0 - TOP
        return s.call(WRITE, {8: 0, 4: 1, 2: 2, 1: 3}[n], int.from_bytes(data, "little"), op=at(displacement, base=RAX))
    return s.call(kind, a=address if kind == WRITE_MEMORY else 0, block=data)


def tried(s, kind, address, n, directory, used, cr3, fill=0xEE):
    """The call; where slots lack, again with one slot less than lack, and with just so many."""
    more = 0
    while True:
        start(s, directory, used, more, cr3, (address + n) % TOP, fill)
        lacks = write(s, kind, address, n)
        s.show()
        if s.refused != 6:
            return
        more += max(1, lacks - 1)


def calls(s, sample):
    g = random.Random(5)
    kinds = (WRITE_MEMORY, PUSH, WRITE)
    stores = [([], 0), ([7], 0), ([7], 1), ([0], 1), ([1], 1), ([7, 0], 1), ([0, 1], 2), ([1, 1], 2), ([5, 0, 9], 3), ([9, 9, 9], 1)]
    places = [(4095, 2), (4096, 1), (4088, 8), (4093, 4), (4094, 2), (TOP - 1, 2), (TOP - 4, 8), (0x2FFF, 2), (4095, 1)]
    tables = [([1, 2, 3], 3), ([3, 1, 2, 0x600], 4), ([1, 2, 3, 0x601], 4), ([2, 3, 1, 0x40200], 4), ([1, 2, 3, 0], 3), ([1, 2, 3, 9, 9], 3)]
    walked = [(0x40200005, 2), (0x40200FFF, 2), (0x40000FFF, 2), (0x40001FF8, 8), (0x40002FFC, 8), (0x40003FFF, 2), (0x401FFFFF, 2), (0x40200000, 4)]
    every = [(d, p, 0) for d in stores for p in places] + [(d, p, WALKED) for d in tables for p in walked]
    before = every.index((tables[3], walked[0], WALKED))  # its page is there by the address, and absent by the walk
    for k, ((directory, used), (address, n), cr3) in enumerate(every):
        if not sample or k % 13 == 0 or k == before:
            for kind in [kinds[k % 3]] if sample else kinds:
                tried(s, kind, address, n, directory, used, cr3)
    for _ in range(0 if sample else 4000):
        slots = g.randrange(5)
        directory = [g.choice([0, 1, 2, 3, 4, 0x600, 0x601, (1 << 52) - 1, 1 << 52]) for _ in range(slots)]
        kind, cr3 = g.choice(kinds), g.choice([0, 0, WALKED, WALKED, 8, TOP - 4])
        n = g.choice([1, 2, 4, 8]) if kind == WRITE else g.choice([1, 2, 3, 9, 4095, 4096])
        address = g.choice([0, 0x1000, 0x2000, 0x40000000, 0x40001000, 0x40200000, 0x40201000, TOP - 4096]) + g.choice([0, 1, 2048, 4088, 4094, 4095])
        if kind != WRITE or address < 0x7FFFF000 or address > TOP - 0x7FFFF000:
            tried(s, kind, address % TOP, n, directory, g.randrange(slots + 1), cr3, g.choice([0, 0xEE]))
