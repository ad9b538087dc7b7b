#!/usr/bin/env python3
"""Writes crates/replies_main/stdin and crates/replies_main/stdout.

stdin has 4,000 records that are drawn at random: a digit of places, two bytes of length, the highest first, and the bytes. stdout has a line for each
reply in `main` of crates/replies_main/src/main.rt, and then for each record: the answer, a colon and all words of the table. What is expected
comes from replies.py and never from the program.
"""
import ast
import collections
import os
import random
import re

from replies import ITEM_WORDS, read_reply, table_words

HERE = os.path.dirname(os.path.abspath(__file__))
CRATE = os.path.join(HERE, "..", "crates", "replies_main")
RECORDS = 4000
PLACES = [0, 1, 2, 3, 5, 9, 9, 9, 9]
LONG_LINE = 65538

NUMBERS = [b"0", b"1", b"-1", b"42", b"-42", b"9223372036854775807", b"-9223372036854775808", b"9223372036854775808"]
NUMBERS += [b"-9223372036854775809", b"007", b"-0", b"+1", b"", b"-", b"1a", b"99999999999999999999999"]


class Draw:
    """Bytes that are a reply, or nearly one."""

    def __init__(self, source):
        self.random = source

    def happens(self, share):
        return self.random.random() < share

    def one_of(self, choices):
        return self.random.choice(choices)

    def text(self):
        return bytes(self.one_of(b"abOK -$*:+\r\x00\xff7") for _ in range(self.one_of([0, 1, 2, 5])))

    def size(self, n):
        """A length or a count, mostly n."""
        if self.happens(0.85):
            return b"%d" % n
        wrong = [b"+%d" % n, b"0%d" % n, b"-%d" % n, b"-1", b"-01", b"", b"%dx" % n, b"67108865", b"1048577", b"18446744073709551616", b"\xff"]
        return self.one_of(wrong)

    def line_end(self):
        return b"\r\n" if self.happens(0.93) else self.one_of([b"\n", b"\r\r\n", b"\r"])

    def bulk(self):
        if self.happens(0.15):
            return b"$-1" + self.line_end()
        text = self.text()
        return b"$" + self.size(len(text)) + self.line_end() + text + (b"\r\n" if self.happens(0.93) else b"\rx")

    def array(self, depth):
        if self.happens(0.1):
            return b"*-1" + self.line_end()
        if self.happens(0.3):
            return b"*1\r\n" * self.random.randint(1, 10) + self.reply(0)
        count = self.random.randint(0, 4)
        return b"*" + self.size(count) + self.line_end() + b"".join(self.reply(depth - 1) for _ in range(count))

    def reply(self, depth):
        kind = self.one_of("++-::$$$***" if depth > 0 else "+-:$")
        if kind == "$":
            return self.bulk()
        if kind == "*":
            return self.array(depth)
        text = self.one_of(NUMBERS) if kind == ":" else self.text()
        return kind.encode() + text + self.line_end()

    def input(self):
        """A reply; cut, with bytes behind it, or with a byte changed."""
        data, chance = self.reply(4), self.random.random()
        if chance < 0.25:
            return data[: self.random.randint(0, len(data))]
        if chance < 0.4:
            return data + self.reply(1)
        if chance < 0.5:
            at = self.random.randrange(len(data))
            return data[:at] + bytes([self.one_of(b"+-:$*\r\n01?\xff")]) + data[at + 1 :]
        return data


def line(data, places):
    """The program's line for a reply."""
    answer = read_reply(data, places)
    said = ("whole", answer[1], len(answer[2])) if answer[0] == "reply" else answer
    return " ".join(map(str, said)) + ":" + "".join(f" {word}" for word in table_words(answer, ITEM_WORDS * places))


def fixed_lines():
    """The lines for the replies in `main`: `show(stdout, BYTES, PLACES)`, and lines of `+` with an LF at an offset or of so many bytes without one."""
    with open(os.path.join(CRATE, "src", "main.rt")) as file:
        source = file.read()
    called = r'show\(\s*(?:stdout,\s*)?(b"(?:[^"\\]|\\.)*"),\s*(\d+),?\s*\)|(with|without)_feed\((?:stdout,\s*)?(\d+)\)'
    for shown, places, feed, offset in re.findall(called, source[source.index("fn main(") :]):
        if shown:
            yield line(ast.literal_eval(shown), int(places))
        elif feed == "with":
            yield line(b"+" * int(offset) + b"\n" + b"+" * (LONG_LINE - int(offset) - 1), 1)
        else:
            yield line(b"+" * int(offset), 1)


def main():
    draw, records, lines = Draw(random.Random(10)), [], list(fixed_lines())
    counts = collections.Counter()
    for _ in range(RECORDS):
        data, places = draw.input(), draw.one_of(PLACES)
        records.append(b"%d" % places + len(data).to_bytes(2, "big") + data)
        lines.append(line(data, places))
        counts[lines[-1].split(":")[0].split()[0]] += 1
    with open(os.path.join(CRATE, "stdin"), "wb") as file:
        file.write(b"".join(records))
    with open(os.path.join(CRATE, "stdout"), "w") as file:
        file.write("\n".join(lines) + "\n")
    print(f"{len(lines) - RECORDS} replies of main, {RECORDS} records:", ", ".join(f"{n} {kind}" for kind, n in sorted(counts.items())))


if __name__ == "__main__":
    main()
