#!/usr/bin/env python3
"""Operand text read back, and the offset where a text goes wrong, from RULES 6.2 to 6.6 and 6.10 to 6.12 alone: it shares nothing with the Rattle
code or with the Rust. A piece is a set of texts, each with what it says. Asked about a text from an offset on, it answers two things (`walk`): every
offset where a text of the piece that starts there may end, with what it says; and how far the text is, from there, a beginning of a text of the
piece. What stands after another or beside another is tried in all ways. A text goes wrong at the end of its longest beginning that begins some
operand text. A text is a str of the characters 0 to 255, one for each byte. Run as a script this checks the table of offsets below."""
import sys
from functools import lru_cache

sys.dont_write_bytecode = True
from model import *

NOT_OPERAND_TEXT = 13


class Words:
    """A few texts, each with what it says."""

    def __init__(self, says):
        self.says = says
        self.begun = {text[:n] for text in says for n in range(len(text) + 1)}
        self.walk = lru_cache(256)(self.walk)

    def walk(self, text, start):
        ways = []
        for end in range(start, len(text) + 1):
            if text[start:end] not in self.begun:
                return ways, end - 1
            if text[start:end] in self.says:
                ways.append((end, self.says[text[start:end]]))
        return ways, len(text)


class Hex:
    """The numbers from low, which is 0 or 1, to high, each as printing tells it: in lowercase hex without leading zeros. A beginning of such a text is
    such a text itself, or empty."""

    def __init__(self, low, high):
        self.low, self.high = low, high

    def number(self, text):
        try:
            n = int(text, 16)
        except ValueError:
            return None
        return n if "%x" % n == text and self.low <= n <= self.high else None

    def walk(self, text, start):
        ways = []
        for end in range(start + 1, len(text) + 1):
            n = self.number(text[start:end])
            if n is None:
                return ways, end - 1
            ways.append((end, n))
        return ways, len(text)


class Row:
    """One piece after another; what they say makes what the row says. A str stands for itself and says nothing. A beginning of a row is some whole
    pieces, then a beginning of the next; every piece has texts, so that what is begun can be ended."""

    def __init__(self, made, *pieces):
        self.made, self.pieces = made, pieces

    def walk(self, text, start):
        ways, furthest = [(start, ())], start
        for piece in self.pieces:
            gone = []
            for here, said in ways:
                if isinstance(piece, str):
                    same = len(piece)
                    while not text.startswith(piece[:same], here):
                        same -= 1
                    furthest = max(furthest, here + same)
                    if same == len(piece):
                        gone.append((here + same, said))
                else:
                    more, far = piece.walk(text, here)
                    furthest = max(furthest, far)
                    gone += [(end, said + (value,)) for end, value in more]
            ways = gone
        return [(end, self.made(*said)) for end, said in ways], furthest


class Either:
    """Any of some pieces."""

    def __init__(self, *pieces):
        self.pieces = pieces
        self.walk = lru_cache(256)(self.walk)

    def walk(self, text, start):
        walks = [piece.walk(text, start) for piece in self.pieces]
        return [way for ways, _ in walks for way in ways], max(far for _, far in walks)


# RULES 6.3 to 6.6. A register is told by its number, an operand by its five words (docs/FORMAT.md).
NAME = Words({"%" + name: number for name, number in NUMBERS.items()})
SCALE = Words({"%d" % scale: scale for scale in range(256)})
DISPLACEMENT = Either(Row(lambda n: n, "0x", Hex(0, (1 << 31) - 1)), Row(lambda n: -n, "-0x", Hex(1, 1 << 31)))
ADDRESS = Either(
    Row(at, DISPLACEMENT),
    Row(at, DISPLACEMENT, "(", NAME, ")"),
    Row(at, DISPLACEMENT, "(", NAME, ",", NAME, ",", SCALE, ")"),
    Row(lambda d, index, scale: at(d, None, index, scale), DISPLACEMENT, "(,", NAME, ",", SCALE, ")"),
)
OPERAND = Either(Row(register, NAME), Row(immediate, "$0x", Hex(0, TOP - 1)), ADDRESS)
TEXT = Either(Row(lambda first: (first, NO_OPERAND), OPERAND), Row(lambda first, second: (first, second), OPERAND, ",", OPERAND))
# the bytes that operand text is made of
IN_USE = sorted(set("".join(NAME.says) + "".join(SCALE.says) + "0123456789abcdef" + "$0x" + "-0x" + "(,)"))


def readings(text):
    """The two operands of every reading; a second that isn't there is NO_OPERAND. A text has at most one (RULES 6.11)."""
    found = [said for end, said in TEXT.walk(text, 0)[0] if end == len(text)]
    assert len(found) < 2, text
    return found


def place(text):
    """The greatest k for which text[:k] is viable."""
    return TEXT.walk(text, 0)[1]


def viable(text):
    """Whether some operand text begins with this text."""
    return place(text) == len(text)


# text and offset; None where it is read
PLACES = [
    ("", 0), ("-0x0", 3), ("0x00", 3), ("0x80000000", 9), ("-0x80000000", None), ("-0x80000001", 10), ("$0x", 3), ("$0xFF", 3), ("$0x" + "1" * 17, 19),
    ("(%rax)", 0), ("0x8()", 4), ("0x8(%rax,%rbx)", 13), ("0x0(,%rcx,256)", 12), ("0x0(,%rcx,08)", 11), ("%r1", 3), ("%r1,", 3), ("%r16", 3),
    ("%esx", 3), ("%cr1", 3), ("%rax,", 5), ("%rax,,", 5), ("%rax,%rbx,%rcx", 9), ("%rax\n", 4), ("$0x1,$0x2", None), ("0x7fffffff8", 10),
    ("0x0(,%rcx,2555)", 13),
]


def check():
    """The table; and that what `viable` says of each beginning of a text agrees with the text's offset."""
    assert len(NUMBERS) == 80 and len(IN_USE) == 31
    for text, wanted in PLACES:
        found = None if readings(text) else place(text)
        assert found == wanted, (text, found, wanted)
        for k in range(len(text) + 1):
            assert viable(text[:k]) == (k <= place(text)), (text, k)


if __name__ == "__main__":
    check()
    print("places: %d texts as they should be" % len(PLACES))
