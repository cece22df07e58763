#!/usr/bin/env python3
"""differences.py CALLS EXPECTED GOT: walks two streams of answers (docs/FORMAT.md) and says which record differs first and how many do."""
import struct
import sys

KINDS = {1: "read operand", 2: "write operand", 3: "effective address", 4: "push", 5: "pop", 6: "read memory", 7: "write memory", 8: "test flag",
         9: "set flag", 10: "compute_flags", 11: "read byte", 12: "arithmetic", 13: "sized flags", 16: "size", 17: "one argument", 18: "two arguments",
         20: "page view", 24: "reset", 25: "load", 26: "show machine", 27: "show directory", 28: "show bytes", 32: "operand text at a size",
         33: "arguments text", 34: "state text", 35: "event line", 36: "operand text", 37: "register text", 38: "operand text read back",
         40: "exposed report"}
TEXTS, READ_BACK, REPORT = range(32, 38), 38, 40


def records(data, words, length_at):
    """Each header or answer with the bytes that follow it; what is cut short comes last, as it is."""
    at = 0
    while at < len(data):
        if at + 8 * words > len(data):
            yield None, data[at:]
            return
        head = struct.unpack_from("<%dQ" % words, data, at)
        end = at + 8 * words + head[length_at]
        yield head, data[at + 8 * words : end]
        at = end


def told(head):
    return "%s: %s" % (KINDS.get(head[0], head[0]), " ".join("%x" % w for w in head))


def show(kind, answer):
    if answer is None:
        return "nothing"
    head, lent = answer
    if head is None:
        return "%d bytes, cut short" % len(lent)
    if kind in TEXTS:
        shown = repr(lent)
    elif kind == REPORT:
        shown = "exposed: %s" % [place for place, yes in enumerate(lent) if yes]
    else:
        shown = lent[:32].hex()
    return "refusal %d, shape %d, value %#x, event %d %d %#x, used %d, %d bytes %s" % (*head, shown)


def first_difference(i, call, wanted, given):
    head, block = call
    print("record %d, %s" % (i, told(head)))
    if head[0] == READ_BACK:
        print("  of", block)
    if head[0] == REPORT:
        for inner, _ in records(block, 16, 1):
            print("  of", told(inner))
    if given is not None and given[0] is not None:
        k = next((k for k, (x, y) in enumerate(zip(wanted[1], given[1])) if x != y), None)
        print("first differing byte:", k)
    print("expected:", show(head[0], wanted))
    print("got:     ", show(head[0], given))


def main():
    calls, expected, got = (open(name, "rb").read() for name in sys.argv[1:4])
    answers = records(got, 8, 7)
    differ = 0
    for i, (call, wanted) in enumerate(zip(records(calls, 16, 1), records(expected, 8, 7))):
        given = next(answers, None)
        if given != wanted:
            if differ == 0:
                first_difference(i, call, wanted, given)
            differ += 1
    more = sum(1 for _ in answers)
    if more:
        print("answers to no record: %d" % more)
    print("differ: %d" % (differ + more))


if __name__ == "__main__":
    main()
