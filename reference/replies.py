"""A reader of replies, written from R-10 of document 02 and the rules of section 3 of document 01 that it takes over, slow and obvious.

`read_reply(data, places)` gives one of

    ("wait",)
    ("reply", bytes used, items)
    ("fault", offset of its item)
    ("number", 11 or 12)

An item is ("simple", start, length), ("error", start, length), ("integer", number), ("bulk", start, length), ("nil",), ("nil array",) or
("array", count). It shares no code with the model's reader of requests. Replies as trees, and the encoder, are those of model.py.
"""

import re

from model import encode

LINE_LIMIT = 65536
BULK_LIMIT = 67108864
COUNT_LIMIT = 1048576
DEPTH_LIMIT = 8
ITEM_WORDS = 4

WAIT = ("wait",)
NO_PLACE = ("number", 11)
TOO_DEEP = ("number", 12)
KINDS = {"simple": 1, "error": 2, "integer": 3, "bulk": 4, "nil": 5, "nil array": 6, "array": 7}
TEXTS = ("simple", "error", "bulk")


class Stop(Exception):
    """An answer that is no whole reply, and of a fault what is wrong."""

    def __init__(self, answer, reason=""):
        super().__init__(answer, reason)
        self.answer = answer
        self.reason = reason


def fault(at, reason):
    return Stop(("fault", at), reason)


# Lines and the numbers in them


def read_line(data, at):
    """The line from `at` without its end, and where it ends. The item at `at` has it for its first line."""
    lf = data.find(b"\n", at)
    if lf < 0 and len(data) - at <= LINE_LIMIT:
        raise Stop(WAIT)
    if lf < 0 or lf - at > LINE_LIMIT:
        raise fault(at, "line too long")
    line = data[at:lf]
    return (line[:-1] if line.endswith(b"\r") else line), lf + 1


def value_of(digits):
    """The value of decimal digits; from 2^64 on only that it is too large matters."""
    value = 0
    for digit in digits:
        value = min(10 * value + digit - ord("0"), 2**64)
    return value


def whole_number(text, at):
    """R-1: `0`, or an optional - and digits that begin with 1 to 9, within i64."""
    if re.fullmatch(rb"0|-?[1-9][0-9]*", text) is None:
        raise fault(at, "number")
    n = -value_of(text[1:]) if text.startswith(b"-") else value_of(text)
    if not -(2**63) <= n < 2**63:
        raise fault(at, "number")
    return n


def size(text, limit, at):
    """A length or a count: one or more digits without a sign, at most the limit; None for `-1`."""
    if text == b"-1":
        return None
    if re.fullmatch(rb"[0-9]+", text) is None:
        raise fault(at, "length")
    n = value_of(text)
    if n > limit:
        raise fault(at, "length above its limit")
    return n


# Items


class Reader:
    def __init__(self, data, places):
        self.data = data
        self.places = places
        self.items = []
        self.lines = []  # each line that was read, with its end

    def put(self, *item):
        if len(self.items) >= self.places:
            raise Stop(NO_PLACE)
        self.items.append(item)

    def item(self, at, depth):
        """Reads the item at `at`, which stands inside `depth` arrays, and gives the offset behind it."""
        line, end = read_line(self.data, at)
        self.lines.append(self.data[at:end])
        kind, text = line[:1], line[1:]
        if kind == b"+":
            self.put("simple", at + 1, len(text))
        elif kind == b"-":
            self.put("error", at + 1, len(text))
        elif kind == b":":
            self.put("integer", whole_number(text, at))
        elif kind == b"$":
            return self.bulk(size(text, BULK_LIMIT, at), at, end)
        elif kind == b"*":
            return self.array(size(text, COUNT_LIMIT, at), end, depth)
        else:
            raise fault(at, "kind")
        return end

    def bulk(self, length, at, start):
        if length is None:
            self.put("nil")
            return start
        self.put("bulk", start, length)
        end = start + length
        if len(self.data) < end + 2:
            raise Stop(WAIT)
        if self.data[end : end + 2] != b"\r\n":
            raise fault(at, "no CR LF behind a bulk")
        return end + 2

    def array(self, count, at, depth):
        if count is None:
            self.put("nil array")
            return at
        if depth == DEPTH_LIMIT:
            raise Stop(TOO_DEEP)
        self.put("array", count)
        for _ in range(count):
            at = self.item(at, depth + 1)
        return at


    def reply(self):
        """The answer, and of a fault what is wrong."""
        try:
            used = self.item(0, 0)
        except Stop as stop:
            return stop.answer, stop.reason
        return ("reply", used, self.items), ""


def read_reply(data, places):
    return Reader(data, places).reply()[0]


# The lent table


def item_words(item):
    kind = item[0]
    start, length = item[1:] if kind in TEXTS else (0, 0)
    number = item[1] % 2**64 if kind in ("integer", "array") else 0
    return [KINDS[kind], start, length, number]


def table_words(answer, count):
    """The words of a lent table of so many words."""
    items = answer[2] if answer[0] == "reply" else []
    words = [word for item in items for word in item_words(item)]
    return words + [0] * (count - len(words))


# What reading an encoded reply must give, from the reply and not from its bytes


def items_of(reply, at=0):
    """The items of a reply whose encoding begins at `at`."""
    kind, held = reply
    if kind in "+-":
        return [("simple" if kind == "+" else "error", at + 1, len(held))]
    if kind == ":":
        return [("integer", held)]
    if held is None:
        return [("nil",) if kind == "$" else ("nil array",)]
    start = at + len(b"%s%d\r\n" % (kind.encode(), len(held)))
    if kind == "$":
        return [("bulk", start, len(held))]
    items = [("array", len(held))]
    for inner in held:
        items += items_of(inner, start)
        start += len(encode(inner))
    return items
