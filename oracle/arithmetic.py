#!/usr/bin/env python3
"""Add, add with carry, subtract, subtract with borrow and compare, by the manual's rules over whole numbers: RULES 2.12 to 2.14 alone, nothing from
the Rattle code or the Rust. Two values are cut to a width; each has a reading without sign and one with it, and the exact sums and differences of
these say every flag. Nothing is cut before it is compared. Run as a script this checks the hand values below and goes through all bytes."""

ADD, ADD_WITH_CARRY, SUBTRACT, SUBTRACT_WITH_BORROW, COMPARE = OPERATIONS = range(5)
READ_CARRY = (ADD_WITH_CARRY, SUBTRACT_WITH_BORROW)
# the bits of rflags, in the order of the flags' numbers; Direction is the one that arithmetic leaves
CARRY, PARITY, ZERO, SIGN, DIRECTION, OVERFLOW = FLAGS = 1 << 0, 1 << 2, 1 << 6, 1 << 7, 1 << 10, 1 << 11


def unsigned(v, width):
    return v % (1 << width)


def signed(v, width):
    v = unsigned(v, width)
    return v - (1 << width) if v >= 1 << width - 1 else v


def even_ones(v):
    """Whether the low byte has an even number of ones."""
    return bin(v % 256).count("1") % 2 == 0


def put(rflags, flag, yes):
    return rflags | flag if yes else rflags & ~flag


def operate(operation, width, first, second, rflags):
    """What is answered, the result with its sign (None: compare answers nothing), and rflags after it."""
    a, b = unsigned(first, width), unsigned(second, width)
    sa, sb = signed(first, width), signed(second, width)
    c = int(operation in READ_CARRY and rflags & CARRY != 0)
    if operation in (ADD, ADD_WITH_CARRY):
        exact, carry = sa + sb + c, a + b + c >= 1 << width
    else:
        exact, carry = sa - sb - c, a < b + c
    result = signed(exact, width)
    rflags = put(rflags, CARRY, carry)
    rflags = put(rflags, PARITY, even_ones(result))
    rflags = put(rflags, ZERO, result == 0)
    rflags = put(rflags, SIGN, result < 0)
    rflags = put(rflags, OVERFLOW, not -(1 << width - 1) <= exact < 1 << width - 1)
    return None if operation == COMPARE else result, rflags


ALL = (1 << 64) - 1
# operation, width, first, second, Carry before: the result cut to the width, and the flags that are set or clear ("C" set, "c" clear)
BY_HAND = [
    (SUBTRACT_WITH_BORROW, 8, 0x00, 0xFF, 1, 0x00, "CoZs"),
    (SUBTRACT_WITH_BORROW, 8, 0x00, 0x7F, 1, 0x80, "CozS"),
    (SUBTRACT_WITH_BORROW, 8, 0x80, 0x7F, 1, 0x00, "cOZs"),
    (SUBTRACT_WITH_BORROW, 8, 0x05, 0x05, 1, 0xFF, "CozS"),
    (SUBTRACT_WITH_BORROW, 8, 0x05, 0x05, 0, 0x00, "coZs"),
    (ADD_WITH_CARRY, 8, 0x7F, 0x00, 1, 0x80, "cOzS"),
    (ADD_WITH_CARRY, 8, 0xFF, 0x00, 1, 0x00, "CoZs"),
    (ADD_WITH_CARRY, 8, 0xFF, 0xFF, 1, 0xFF, "CozS"),
    (ADD_WITH_CARRY, 8, 0x80, 0xFF, 1, 0x80, "CozS"),
    (SUBTRACT, 8, 0x80, 0x01, 1, 0x7F, "cOzs"),
    (SUBTRACT, 8, 0x00, 0x80, 1, 0x80, "COzS"),
    (COMPARE, 8, 0x80, 0x01, 1, None, "cOzs"),
    (COMPARE, 8, 0x105, 0x205, 1, None, "coZs"),
    (ADD_WITH_CARRY, 64, ALL, ALL, 1, ALL, "CozS"),
    (ADD, 64, ALL, 1, 1, 0, "CoZs"),
    (SUBTRACT_WITH_BORROW, 64, 0, ALL, 1, 0, "CoZs"),
    # 0x01ff + 0x0001 by bytes, the low one first
    (ADD, 8, 0xFF, 0x01, 0, 0x00, "CoZs"),
    (ADD_WITH_CARRY, 8, 0x01, 0x00, 1, 0x02, "cozs"),
    # Parity is that of the low byte alone: 0x300 has none, 0x101 has one
    (ADD, 16, 0x1FF, 0x101, 0, 0x300, "Pcozs"),
    (ADD, 16, 0x100, 0x001, 0, 0x101, "pcozs"),
]


def check():
    letters = dict(zip("CPZSDO", FLAGS))
    for operation, width, first, second, carry, wanted, flags in BY_HAND:
        for others in (0, ALL):
            before = put(others, CARRY, carry)
            result, after = operate(operation, width, first, second, before)
            assert wanted is None and result is None or unsigned(result, width) == wanted, (operation, width, first, second)
            for letter in flags:
                assert (after & letters[letter.upper()] != 0) == letter.isupper(), (operation, width, first, second, letter)
            five = CARRY | PARITY | ZERO | SIGN | OVERFLOW
            assert (before ^ after) & ~five == 0
    # over all bytes: a sum or difference is the result, the carry and the overflow taken together, in either reading
    for operation in OPERATIONS:
        plus = operation in (ADD, ADD_WITH_CARRY)
        for a in range(256):
            for b in range(256):
                for carry in (0, 1):
                    result, after = operate(operation, 8, a, b, carry)
                    c = carry if operation in READ_CARRY else 0
                    whole = a + b + c if plus else a - b - c
                    out = 256 if after & CARRY else 0
                    if result is None:
                        result = signed(whole, 8)
                    assert unsigned(result, 8) == (whole - out if plus else whole + out)
                    exact = signed(a, 8) + signed(b, 8) + c if plus else signed(a, 8) - signed(b, 8) - c
                    assert (result != exact) == (after & OVERFLOW != 0)


if __name__ == "__main__":
    check()
    print("arithmetic: %d hand values and all bytes as they should be" % len(BY_HAND))
