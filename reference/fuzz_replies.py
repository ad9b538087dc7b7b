#!/usr/bin/env python3
"""Reads many strings by the compiled library and by replies.py, and stops at the first difference, shrunk. Exit status 1 if they differ.

    fuzz_replies.py DRIVER SEED COUNT       DRIVER is tests/replies_lib.c, built with the library; the same strings for a seed

The strings: each limit exactly and one beyond; what the encoder writes of replies drawn at random, with bytes behind it, with every table from none
to one place more than it needs, cut at every byte, and with one byte changed, put in or left out; replies with faults drawn by
make_replies.py; and pieces of the protocol in any order. Three laws are held besides: what the encoder writes is read back as the
reply, every proper beginning of it waits, and an answer other than wait stays when bytes follow.
"""

import collections
import itertools
import random
import struct
import subprocess
import sys
import time
from typing import NamedTuple, Optional

from compare import fewer
from make_replies import NUMBERS, Draw
from model import array, bulk, encode, error, integer, simple
from replies import BULK_LIMIT, COUNT_LIMIT, DEPTH_LIMIT, ITEM_WORDS, LINE_LIMIT, WAIT, items_of, read_reply, table_words

BATCH_STRINGS, BATCH_BYTES = 20000, 1 << 25
SHRINK_SECONDS, SHRINK_BYTES = 60, 1 << 18
STATES = {"wait": 0, "reply": 1, "fault": 2, "number": 3}
PIECES = [b"+", b"-", b":", b"$", b"*", b"\r\n", b"\r\n", b"\r\n", b"\n", b"\r", b"0", b"1", b"2", b"7", b"-1", b"a", b"\x00", b"\xff", b"~"]
PIECES += [b"*1\r\n", b"*2\r\n", b"*0\r\n", b"*-1\r\n", b"$-1\r\n", b"$0\r\n\r\n", b"$1\r\na\r\n", b"$2\r\n", b":1\r\n", b"+OK\r\n", b"-E\r\n"]
CHANGED = b"+-:$*\r\n\x00\xff 01279aA?_#,(%~>=!"


class String(NamedTuple):
    words: int  # of the lent table
    data: bytes
    due: Optional[tuple] = None  # the answer, where a law gives it


# Limits


def limit_lines():
    """Lines whose LF stands at the limit and about it, and as many bytes without LF."""
    for n in (LINE_LIMIT - 1, LINE_LIMIT, LINE_LIMIT + 1):
        for kind in (b"+", b"-", b":", b"$", b"*", b"?"):
            digits = b"0" if kind in b"$*" else b"1" if kind == b":" else b"x"
            for head in (b"", b"*1\r\n", b"*3\r\n$2\r\n\n\n\r\n:0\r\n"):
                line = head + kind + digits * (n - 1)
                yield from (line, line + b"\n", line[:-1] + b"\r\n", line + b"\n\r\n", line + b"\r\n")


def limit_sizes():
    for kind, limit in ((b"$", BULK_LIMIT), (b"*", COUNT_LIMIT)):
        for n in (limit - 1, limit, limit + 1, 2**32 - 1, 2**32, 2**63 - 1, 2**63, 2**64 - 1, 2**64, 2**64 + 1, 2**64 + limit, 10**30):
            for sign in (b"", b"0", b"+", b"-"):
                yield kind + sign + b"%d\r\n" % n
                yield b"*1\r\n" + kind + sign + b"%d\r\n:1\r\n" % n


def limit_numbers():
    for n in (2**63 - 1, 2**63, 2**63 + 1, 2**64 - 1, 2**64, 2**64 + 1, 10**19, 10**30):
        for sign in (b"", b"0", b"+", b"-", b"-0"):
            yield b":" + sign + b"%d\r\n" % n


def limit_depths():
    ends = [b":5\r\n", b"+a\r\n", b"$-1\r\n", b"*-1\r\n", b"*0\r\n", b"*x\r\n", b"$1\r\naxx", b"$1\r\nax", b"*1", b""]
    for depth in range(1, 11):
        for end in ends:
            yield b"*1\r\n" * depth + end
            yield b"*2\r\n" + b"*1\r\n" * (depth - 1) + b":1\r\n" + b"*1\r\n" * (depth - 1) + end


def limits():
    for data in itertools.chain(limit_lines(), limit_sizes(), limit_numbers()):
        for places in range(5):
            yield String(ITEM_WORDS * places, data)
    for data in limit_depths():
        for places in range(23):
            yield String(ITEM_WORDS * places, data)
    largest = b"$%d\r\n" % BULK_LIMIT + bytes(BULK_LIMIT) + b"\r\n"
    yield String(ITEM_WORDS, largest)
    yield String(ITEM_WORDS, largest[:-1])
    many = b"*%d\r\n" % COUNT_LIMIT + b":7\r\n" * COUNT_LIMIT
    yield String(ITEM_WORDS * (COUNT_LIMIT + 1), many)
    yield String(ITEM_WORDS * COUNT_LIMIT, many)


# Replies drawn at random


class Replies:
    def __init__(self, source):
        self.random = source

    def some(self, alphabet, most):
        return bytes(self.random.choices(alphabet, k=self.random.randint(0, most)))

    def text(self):
        return self.some(b"OK ERR\x00\xc3\xa9\xff$*:+-01", 8)

    def value(self):
        most = self.random.choice([0, 1, 2, 9, 10, 11, 12, 12, 12, 101])
        return self.some(b"\r\n\r\n$*:+-0123abc\x00\xff", most)

    def number(self):
        magnitude = self.random.getrandbits(self.random.choice([1, 4, 8, 32, 62, 63]))
        return self.random.choice([magnitude, -magnitude, 2**63 - 1, -(2**63), 0])

    def leaf(self):
        kind = self.random.randrange(7)
        if kind < 2:
            return simple(self.text()) if kind else error(self.text())
        if kind < 4:
            return integer(self.number())
        return bulk(self.value()) if kind < 6 else self.random.choice([bulk(None), array(None)])

    def reply(self, depth):
        """A reply in which arrays nest at most `depth` deep."""
        if depth == 0 or self.random.random() < 0.4:
            return self.leaf()
        if self.random.random() < 0.2:
            return array([self.reply(depth - 1)])
        return array([self.reply(self.random.randrange(depth)) for _ in range(self.random.choice([0, 1, 2, 3, 4, 10]))])


def nested(reply, depth):
    for _ in range(depth):
        reply = array([reply])
    return reply


def written(reply):
    """The bytes of a reply, and the answer that they must get."""
    data = encode(reply)
    return data, ("reply", len(data), items_of(reply))


def damaged(source, data):
    """The bytes with one changed, one put in or one left out, at places drawn at random."""
    for at in range(len(data)):
        change = source.randrange(6)
        if change < 3:
            byte = bytes([source.choice(CHANGED) if change else data[at] ^ 1 << source.randrange(8)])
            yield data[:at] + byte + data[at + 1 :]
        elif change == 3:
            yield data[:at] + bytes([source.choice(CHANGED)]) + data[at:]
        elif change == 4:
            yield data[:at] + data[at + 1 :]


def around(source, reply, behind):
    """Strings made of one reply within the limits."""
    data, due = written(reply)
    count = len(due[2])
    enough = ITEM_WORDS * count + source.choice([0, 0, 1, 2, 3, 4])
    yield String(enough, data + behind, due)
    for places in range(count + 2):
        yield String(ITEM_WORDS * places + source.randrange(4), data, due if places >= count else None)
    for end in range(len(data)):
        yield String(enough, data[:end], WAIT)
    for wrong in damaged(source, data):
        yield String(enough, wrong)


def drawn(source):
    """Strings without end."""
    replies, draw = Replies(source), Draw(source)
    while True:
        depth = source.choice([0, 1, 2, 2, 3, 3, 4, 8])
        behind = source.choice([b"", source.randbytes(3), encode(replies.reply(1)), draw.input()])
        yield from around(source, replies.reply(depth), behind)
        yield from around(source, nested(replies.leaf(), source.randint(1, DEPTH_LIMIT)), behind)
        deep = encode(nested(replies.reply(1), source.randint(DEPTH_LIMIT, DEPTH_LIMIT + 2)))
        yield String(ITEM_WORDS * source.randint(6, 12), deep)
        for _ in range(60):
            yield String(ITEM_WORDS * source.choice([0, 1, 2, 3, 5, 9, 30]), draw.input())
        for _ in range(60):
            pieces = source.choices(PIECES, k=source.randint(0, 12))
            yield String(ITEM_WORDS * source.choice([0, 1, 2, 9, 9]), b"".join(pieces))
        for number in NUMBERS:
            yield String(ITEM_WORDS, b":" + number + source.choice([b"\r\n", b"\n", b"", b"0\r\n", b" \r\n"]))


def strings(seed):
    """Strings without end, each with its answer; half of those that do not wait come again with bytes behind them."""
    source = random.Random(seed)
    for string in itertools.chain(limits(), drawn(source)):
        answer = read_reply(string.data, string.words // ITEM_WORDS)
        yield string, answer
        if answer != WAIT and len(string.data) <= LINE_LIMIT + 2 and source.random() < 0.5:
            longer = string.data + b"".join(source.choices(PIECES, k=source.randint(1, 4)))
            yield String(string.words, longer, answer), read_reply(longer, string.words // ITEM_WORDS)


# The driver


def record(string):
    return struct.pack("=QQ", string.words, len(string.data)) + string.data


def output(answer, words):
    """What the driver is to write."""
    kind = answer[0]
    number = answer[1] if kind == "number" else 0
    used, items = (answer[1], len(answer[2])) if kind == "reply" else (0, 0)
    offset = answer[1] if kind == "fault" else 0
    return struct.pack(f"={5 + words}Q", number, STATES[kind], used, items, offset, *table_words(answer, words))


def run(driver, records):
    done = subprocess.run([driver], input=records, stdout=subprocess.PIPE)
    return done.stdout, done.returncode


def differs(driver, string):
    due = output(read_reply(string.data, string.words // ITEM_WORDS), string.words)
    return run(driver, record(string)) != (due, 0)


def shrunk(driver, string):
    if len(string.data) > SHRINK_BYTES:
        return string
    until = time.time() + SHRINK_SECONDS
    data = bytes(fewer(list(string.data), lambda trial: differs(driver, String(string.words, bytes(trial))), until))
    for words in range(string.words + 1):
        if differs(driver, String(words, data)):
            return String(words, data)
    return string


def show(driver, string, text):
    got, status = run(driver, record(string))
    print(f"{text} {string.data[:300]!r}, {len(string.data)} bytes, a table of {string.words} words")
    print("    replies.py:", str(read_reply(string.data, string.words // ITEM_WORDS))[:300])
    print("    driver: number, state, used, items, offset, table:", struct.unpack(f"={len(got) // 8}Q", got)[:60], f"exit status {status}" if status else "")


def batches(numbered):
    """Lists of strings with their answers, of bounded size."""
    batch, size = [], 0
    for string, answer in numbered:
        batch.append((string, answer))
        size += len(string.data) + 8 * string.words
        if len(batch) >= BATCH_STRINGS or size >= BATCH_BYTES:
            yield batch
            batch, size = [], 0
    if batch:
        yield batch


def first_difference(driver, batch):
    """The first string of a batch that the driver answers otherwise, or None."""
    due = [output(answer, string.words) for string, answer in batch]
    got, status = run(driver, b"".join(record(string) for string, _ in batch))
    if (got, status) == (b"".join(due), 0):
        return None
    at = 0
    for i, wanted in enumerate(due):
        if got[at : at + len(wanted)] != wanted:
            # Of a driver that broke off, the last of its output is missing.
            rest = [string for string, _ in batch[i:]]
            return next((string for string in rest if differs(driver, string)), rest[0])
        at += len(wanted)
    return batch[-1][0]


def main(argv):
    if len(argv) != 3:
        sys.exit(__doc__)
    driver, seed, count = argv[0], int(argv[1]), int(argv[2])
    started, counts, laws = time.time(), collections.Counter(), 0
    for batch in batches(itertools.islice(strings(seed), count)):
        for string, answer in batch:
            if string.due is not None and string.due != answer:
                print(f"a law does not hold: {string} is answered {answer}")
                return 1
            laws += string.due is not None
            counts[" ".join(map(str, answer[: 1 + (answer[0] == "number")]))] += 1
        string = first_difference(driver, batch)
        if string is not None:
            show(driver, string, "differs:")
            show(driver, shrunk(driver, string), "a smallest input:")
            return 1
    kinds = ", ".join(f"{n} {kind}" for kind, n in sorted(counts.items()))
    print(f"{sum(counts.values())} strings ({kinds}), {laws} with an answer by a law, no difference, {time.time() - started:.0f} s")
    return 0


if __name__ == "__main__":
    sys.exit(main(sys.argv[1:]))
