#!/usr/bin/env python3
"""Reads the strings of fuzz_replies.py by hiredis and by replies.py with a table that holds every reply. Exit status 1 if a string that both read as a
whole reply has other items, texts, numbers or bytes used, or is read by one alone, for a reason that is not named in `REASONS`.

    beside_hiredis.py DRIVER SEED COUNT     DRIVER is tests/replies_hiredis.c, built with Debian's libhiredis-dev (0.14)

Writes how many strings both read alike, and a table in Markdown of those that they do not: the reason, what each says, how many, the smallest.
"""

import collections
import itertools
import re
import struct
import sys
import time

from compare import fewer
from fuzz_replies import String, batches, record, run, strings
from replies import ITEM_WORDS, Reader, table_words

MANY_PLACES = 1 << 30
HEAD = struct.Struct("=QQQ128s")
SHRINK_SECONDS, SHRINK_BYTES = 20, 4096
SAYS = {"wait": "wait", "reply": "reply", "fault": "fault", "number": "12", "error": "error"}
REFUSED = ("fault", "12", "error")


class Pair:
    """A string as the two read it."""

    def __init__(self, data, theirs, their_error):
        reader = Reader(data, MANY_PLACES)
        self.data, self.theirs, self.their_error = data, theirs, their_error
        self.ours, self.fault = reader.reply()
        self.lines = reader.lines

    def said(self):
        return SAYS[self.ours[0]], SAYS[self.theirs[0]]

    def alike(self):
        ours, theirs = self.said()
        if ours == theirs == "reply":
            return self.theirs == ("reply", self.ours[1], table_words(self.ours, ITEM_WORDS * len(self.ours[2])))
        return ours == theirs or ours in REFUSED and theirs in REFUSED

    def reason(self):
        """The first reason that fits, or None."""
        return next((reason for reason, fits in REASONS.items() if fits(self)), None)


REASONS = {
    "a line ends at an LF alone": lambda p: any(not line.endswith(b"\r\n") for line in p.lines),
    "a length or count has leading zeros": lambda p: any(re.match(rb"[$*]0[0-9]", line) for line in p.lines) and "length" in p.their_error,
    "CR LF behind a bulk is not looked at by hiredis": lambda p: p.fault == "no CR LF behind a bulk",
    "hiredis has no limit on lines": lambda p: p.fault == "line too long",
    "hiredis has other limits on lengths and counts": lambda p: p.fault == "length above its limit",
    "hiredis does not wait for the line of an unknown kind": lambda p: p.ours[0] == "wait" and "reply type byte" in p.their_error,
    "hiredis does not wait for the line of an array inside eight": lambda p: p.ours[0] == "wait" and "nested" in p.their_error,
    "`*-1` inside eight arrays": lambda p: p.ours[0] == "reply" and ("nil array",) in p.ours[2] and "nested" in p.their_error,
}


def pairs(driver, data):
    """The strings as the two read them; hiredis: ("wait",), ("reply", bytes used, words of the items) or ("error",)."""
    output, status = run(driver, b"".join(record(String(0, each)) for each in data))
    if status != 0:
        sys.exit(f"{driver}: exit status {status}")
    at = 0
    for each in data:
        state, used, items, error = HEAD.unpack_from(output, at)
        at += HEAD.size
        words = list(struct.unpack_from(f"={ITEM_WORDS * items}Q", output, at))
        at += 8 * len(words)
        yield Pair(each, (("wait",), ("reply", used, words), ("error",))[state], error.decode())


def kind_of(pair):
    return (pair.reason(), *pair.said())


def shrunk(driver, data, kind):
    """A smallest string with a difference of this kind."""
    if len(data) > SHRINK_BYTES:
        return data

    def fails(trial):
        pair = next(pairs(driver, [bytes(trial)]))
        return not pair.alike() and kind_of(pair) == kind

    return bytes(fewer(list(data), fails, time.time() + SHRINK_SECONDS))


def shown(data):
    text = repr(data[:72])[2:-1].replace("|", "\\|")
    return f"`{text}`" if len(data) <= 72 else f"`{text[:20]}` .., {len(data):,} bytes"


def main(argv):
    if len(argv) != 3:
        sys.exit(__doc__)
    driver, seed, count = argv[0], int(argv[1]), int(argv[2])
    alike, differences, smallest = collections.Counter(), collections.Counter(), {}
    for batch in batches(itertools.islice(strings(seed), count)):
        data = [each for each, _ in itertools.groupby(string.data for string, _ in batch)]
        for pair in pairs(driver, data):
            if pair.alike():
                alike[pair.said()[1]] += 1
                continue
            kind = kind_of(pair)
            differences[kind] += 1
            smallest[kind] = min(smallest.get(kind, pair.data), pair.data, key=lambda b: (len(b), b))
    print(f"{sum(alike.values()) + sum(differences.values()):,} strings; alike: {alike['reply']:,} replies, {alike['wait']:,} waits, {alike['error']:,} refused\n")
    print("| Reason | replies.py | hiredis | Strings | A smallest one |")
    print("|---|---|---|---|---|")
    for kind, n in sorted(differences.items(), key=lambda each: (list(REASONS).index(each[0][0]) if each[0][0] else -1, -each[1])):
        print(f"| {kind[0]} | {kind[1]} | {kind[2]} | {n:,} | {shown(shrunk(driver, smallest[kind], kind))} |", flush=True)
    return 1 if any(reason is None for reason, _, _ in differences) else 0


if __name__ == "__main__":
    sys.exit(main(sys.argv[1:]))
