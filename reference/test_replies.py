#!/usr/bin/env python3
"""Runs replies.py on the points that R-10 leaves open, on its order of waits, faults and numbers, on each limit exactly and one beyond, on examples of
RESP2 and on what the encoder writes. Exit status 1 on a difference."""

import sys

from model import array, bulk, encode, error, integer, simple
from replies import BULK_LIMIT, COUNT_LIMIT, LINE_LIMIT, NO_PLACE, TOO_DEEP, WAIT, items_of, read_reply, table_words

failures = []
checks = 0


def same(what, got, wanted):
    global checks
    checks += 1
    if got != wanted:
        failures.append(f"{what}: got {got!r}, wanted {wanted!r}")


def reads(data, places, wanted):
    same(f"{data[:60]!r} ({len(data)} bytes), {places} places", read_reply(data, places), wanted)


def whole(used, *items):
    return ("reply", used, list(items))


def fault(at):
    return ("fault", at)


EIGHT = b"*1\r\n" * 8
ARRAYS = [("array", 1)] * 8

# Where the text leaves two open
reads(b"X", 9, WAIT)
reads(b"\r\n", 9, fault(0))
reads(b"\n", 9, fault(0))
reads(b"$-1\n", 9, whole(4, ("nil",)))
reads(b"+a\rb\r\n", 9, whole(6, ("simple", 1, 3)))
reads(b"+a\r\r\n", 9, whole(5, ("simple", 1, 2)))
reads(b"+\xff\r\n", 9, whole(4, ("simple", 1, 1)))
reads(b"$01\r\na\r\n", 9, whole(8, ("bulk", 5, 1)))
reads(b"*00\r\n", 9, whole(5, ("array", 0)))
for text in (b"-01", b"-2", b"-0", b"-", b"", b"+1", b"+0", b"1 ", b" 1", b"1x", b"\xff", b"1\r", b"-1 ", b"--1"):
    reads(b"$" + text + b"\r\n", 9, fault(0))
    reads(b"*" + text + b"\r\n", 9, fault(0))
reads(b"$5\r\n", 0, NO_PLACE)
reads(b"$1\r\naxx", 0, NO_PLACE)
reads(b"$5", 0, WAIT)
reads(b"", 0, WAIT)
reads(b"*5\r\n", 1, WAIT)
reads(EIGHT + b"*0\r\n", 99, TOO_DEEP)
reads(EIGHT + b"*-1\r\n", 99, whole(37, *ARRAYS, ("nil array",)))
reads(EIGHT + b":5\r\n", 9, whole(36, *ARRAYS, ("integer", 5)))
reads(EIGHT + b"*x\r\n", 8, fault(32))
reads(EIGHT + b"*0\r\n", 8, TOO_DEEP)
reads(EIGHT + b"*0\r\n", 7, NO_PLACE)
reads(b"*2\r\n+a\r\n$1\r\naxx", 9, fault(8))
reads(b"$1\r\nax", 9, WAIT)
reads(b"$1\r\naxx", 9, fault(0))

# What is met earlier in the bytes
reads(b"*2\r\n:1\r\n:2\r\n", 2, NO_PLACE)
reads(b"*2\r\n:1\r\n:2", 2, WAIT)
reads(b"*2\r\n:1\r\n$+2\r\nab\r\n", 2, fault(8))
reads(b"*2\r\n:x\r\n:1\r\n", 0, NO_PLACE)
reads(b"*2\r\n:x\r\n:1\r\n", 1, fault(4))
reads(b"*2\r\n$1\r\nax", 2, WAIT)
reads(b"*0\r\n", 0, NO_PLACE)
reads(b"*x\r\n", 0, fault(0))
reads(b"*-1\r\n", 0, NO_PLACE)
reads(b"?\r\n", 0, fault(0))

# Whole numbers
for n in (0, 1, -1, 10, -10, 2**63 - 1, -(2**63)):
    reads(b":%d\r\n" % n, 1, whole(len(b":%d\r\n" % n), ("integer", n)))
for text in (b"", b"-", b"+", b"-0", b"+0", b"+1", b"00", b"01", b"-01", b"9223372036854775808", b"-9223372036854775809", b"1 ", b"9" * 5000):
    reads(b":" + text + b"\r\n", 1, fault(0))

# Lines: an LF at offset 65,536 from the line's start passes
for head in (b"", b"*2\r\n+a\r\n"):
    at, places = len(head), 3
    before = [("array", 2), ("simple", 5, 1)] if head else []
    for kind, name in ((b"+", "simple"), (b"-", "error")):
        fits = kind + b"x" * (LINE_LIMIT - 1) + b"\n"
        reads(head + fits, places, whole(at + LINE_LIMIT + 1, *before, (name, at + 1, LINE_LIMIT - 1)))
        reads(head + kind + b"x" * (LINE_LIMIT - 2) + b"\r\n", places, whole(at + LINE_LIMIT + 1, *before, (name, at + 1, LINE_LIMIT - 2)))
        reads(head + kind + b"x" * LINE_LIMIT + b"\n", places, fault(at))
        reads(head + kind + b"x" * (LINE_LIMIT - 1) + b"\r\n", places, fault(at))
        reads(head + kind + b"x" * (LINE_LIMIT - 1), places, WAIT)
        reads(head + kind + b"x" * LINE_LIMIT, places, fault(at))
    reads(head + b"?" * LINE_LIMIT, places, WAIT)
    reads(head + b"?" * (LINE_LIMIT + 1), places, fault(at))
    reads(head + b"$" + b"0" * (LINE_LIMIT - 1) + b"\n\r\n", places, whole(at + LINE_LIMIT + 3, *before, ("bulk", at + LINE_LIMIT + 1, 0)))
    reads(head + b"$" + b"0" * LINE_LIMIT + b"\n\r\n", places, fault(at))
reads(b"+" + b"x" * LINE_LIMIT, 0, fault(0))

# Lengths and counts
for kind, limit in ((b"$", BULK_LIMIT), (b"*", COUNT_LIMIT)):
    reads(kind + b"%d\r\n" % limit, 1, WAIT)
    reads(kind + b"%d\r\n" % limit, 0, NO_PLACE)
    for n in (limit + 1, 2**63 - 1, 2**63, 2**64 - 1, 2**64, 2**64 + 1, 10**5000):
        text = b"1" + b"0" * 5000 if n == 10**5000 else b"%d" % n
        reads(kind + text + b"\r\n", 0, fault(0))
        reads(kind + text + b"\r\n", 1, fault(0))
largest = b"$%d\r\n" % BULK_LIMIT + bytes(BULK_LIMIT) + b"\r\n"
reads(largest, 1, whole(len(largest), ("bulk", 11, BULK_LIMIT)))
reads(largest[:-1], 1, WAIT)
many = b"*%d\r\n" % COUNT_LIMIT + b":7\r\n" * COUNT_LIMIT
same("as many items as may be", read_reply(many, COUNT_LIMIT + 1), whole(len(many), ("array", COUNT_LIMIT), *[("integer", 7)] * COUNT_LIMIT))
same("one item too few", read_reply(many[:-4], COUNT_LIMIT + 1), WAIT)
same("one place too few", read_reply(many, COUNT_LIMIT), NO_PLACE)

# Nesting
for depth in range(1, 11):
    reply = integer(5)
    for _ in range(depth):
        reply = array([reply])
    data = encode(reply)
    reads(data, 99, ("reply", len(data), items_of(reply)) if depth <= 8 else TOO_DEEP)
reads(b"*2\r\n" + b"*1\r\n" * 7 + b":1\r\n" + b"*1\r\n" * 7 + b":2\r\n", 99, whole(68, ("array", 2), *(ARRAYS[1:] + [("integer", 1)] + ARRAYS[1:] + [("integer", 2)])))

# RESP2
for data, items in (
    (b"+OK\r\n", [("simple", 1, 2)]),
    (b"-Error message\r\n", [("error", 1, 13)]),
    (b":1000\r\n", [("integer", 1000)]),
    (b"$5\r\nhello\r\n", [("bulk", 4, 5)]),
    (b"$0\r\n\r\n", [("bulk", 4, 0)]),
    (b"$-1\r\n", [("nil",)]),
    (b"*-1\r\n", [("nil array",)]),
    (b"*0\r\n", [("array", 0)]),
    (b"*2\r\n$5\r\nhello\r\n$5\r\nworld\r\n", [("array", 2), ("bulk", 8, 5), ("bulk", 19, 5)]),
    (
        b"*2\r\n*3\r\n:1\r\n:2\r\n:3\r\n*2\r\n+Hello\r\n-World\r\n",
        [("array", 2), ("array", 3), ("integer", 1), ("integer", 2), ("integer", 3), ("array", 2), ("simple", 25, 5), ("error", 33, 5)],
    ),
):
    reads(data, len(items), whole(len(data), *items))
    reads(data + b"*x\r\n", len(items) + 1, whole(len(data), *items))
    reads(data, len(items) - 1, NO_PLACE)
    for end in range(len(data)):
        reads(data[:end], len(items), WAIT)

# The table
reply = array([simple(b"a\r\n"), error(b""), integer(-1), bulk(b"xy"), bulk(None), array(None), array([])])
data = encode(reply)
answer = read_reply(data, 9)
same("a reply of every kind", answer, ("reply", len(data), items_of(reply)))
words = [7, 0, 0, 7, 1, 5, 3, 0, 2, 11, 0, 0, 3, 0, 0, 2**64 - 1, 4, 22, 2, 0, 5, 0, 0, 0, 6, 0, 0, 0, 7, 0, 0, 0]
same("its words", table_words(answer, 39), words + [0] * 7)
for answer in (WAIT, fault(3), NO_PLACE, TOO_DEEP):
    same("words without a reply", table_words(answer, 6), [0] * 6)

for failure in failures[:20]:
    print(failure)
print(f"{checks} checks, {len(failures)} differences")
sys.exit(1 if failures else 0)
