#!/usr/bin/env python3
"""Generates input for the comparisons, always the same for a seed.

    generate.py mixed SEED RUNS [LINES]     frames input for comparing with the Rust
    generate.py watched SEED RUNS [LINES]   frames input with WATCH, writes and EXEC in any order, and commands inside MULTI that are not queued
                                            for their argument count, for comparing with the model
    generate.py numbers SEED RUNS [LINES]   frames input that also meets numbers, and INFO, for comparing with the model
    generate.py limits                      frames input that reaches each limit exactly and one beyond
    generate.py long                        frames input for programs without the limits of 4,096 bytes: lines about 65,536 bytes
    generate.py exhaustive LENGTH           every list of LENGTH steps of two sessions over two keys (13 kinds of step), with EXEC behind
                                            it or else DISCARD, that is in the domain, for comparing with the Rust
    generate.py exhaustive-watched LENGTH   every such list with EXEC behind it that leaves the domain, for comparing with the model
    generate.py groups SEED RUNS            group scripts whose capacities hold all they write, for comparing with the Rust
    generate.py group-limits SEED RUNS      group scripts that meet 6, 7 and 8
    generate.py previews SEED RUNS [LINES]  group scripts with requests and previews, for comparing the library with the model

A file holds several runs; each begins with a line `# name` and is for a new process, since a store keeps every version.

Input for comparing with the Rust is in the domain that README.md describes. The generator runs the model beside it and, for `mixed`, ends a
run before the line that would meet a number and leaves out a line that would leave the domain in another way.
"""

import itertools
import random
import re
import sys
from unittest import mock

import model

FRAME = model.FRAME_LIMIT

NAMES = [b"GET", b"SET", b"DEL", b"EXISTS", b"MGET", b"MSET", b"INCR", b"INCRBY", b"DECR", b"PING", b"ECHO"]
READING = [b"GET", b"EXISTS", b"MGET", b"PING", b"ECHO"]
LISTING = [b"DBSIZE", b"KEYS", b"SCAN", b"RANGE"]
CONTROL = [b"MULTI", b"EXEC", b"DISCARD", b"WATCH", b"UNWATCH", b"QUIT"]

KEYS = [b"a", b"b", b"c", b"ab", b"abc", b"axbbc", b"n", b"m", b"k1", b"k2"]
ODD_KEYS = [
    b"", b"*", b"?", b"\\", b"a*b", b"[a]", b"A", b"\x00", b"\xff", b"k\xff", b"\xc3\xa9", b"\xe2\x82", b"a b", b"a\r\nb",
    b"\xf0\x9f\x98\x80", b"x" * 40, b"a\x00", b"aa", b"\xed\xa0\x80",
]
NUMBERS = [
    b"0", b"1", b"2", b"7", b"10", b"-1", b"-7", b"+7", b"-0", b"+0", b"007", b"-007", b"+", b"-", b"", b"1a", b" 1", b"1 ", b"--1",
    b"+-1", b"1.0", b"0x1", b"9223372036854775806", b"9223372036854775807", b"9223372036854775808", b"-9223372036854775807",
    b"-9223372036854775808", b"-9223372036854775809", b"+9223372036854775807", b"0009223372036854775807", b"18446744073709551616",
    b"1" * 40, b"0" * 40, b"\xef\xbc\x91", b"\xff", b"1\n", b"1_0",
]
# Whole numbers to the Rust and, by R-1, not here: with +, leading zeros or -0
SKIPPED = re.compile(rb"\+[0-9]+|-?0[0-9]+|-0")
UNKNOWN = [
    b"FOO", b"", b"GE", b"GETS", b"SETEX", b"G\xc3\xa9T", b"G\xffT", b"\xc3", b"foo\r\nbar", b"\xe2\x82x", b"\xed\xa0\x80", b"PING\x00",
    b"\xf0\x90\x80", b"\xf4\x90\x80\x80", b"\xc0\x80", b"'", b"INCRBYFLOAT", b"QUITS", b"\xef\xbf\xbd", b"$", b"get get",
]
FAULTS = [
    b"*x\r\n", b"*\r\n", b"*-1\r\n", b"*-0\r\n", b"*+\r\n", b"*++1\r\n", b"*1 \r\n", b"* 1\r\n", b"*1\r\r\n", b"*\xff\r\n", b"*1\xc3\xa9\r\n",
    b"*1048577\r\n", b"*+018446744073709551615\r\n", b"*18446744073709551616\r\n", b"*99999999999999999999999\r\n", b"**\r\n", b"*\x00\n",
    b"*1\r\nX\r\n", b"*1\r\n\r\n", b"*1\n\n", b"*1\r\n\xff\xfe\r\n", b"*1\r\n*1\r\n", b"*2\r\n$4\r\nPING\r\nPING\r\n", b"*1\r\n\xc3\xa9$\r\n", b"*1\r\n\r\r\n",
    b"*1\r\n$x\r\n", b"*1\r\n$\r\n", b"*1\r\n$-1\r\n", b"*1\r\n$67108865\r\n", b"*1\r\n$18446744073709551616\r\n", b"*1\r\n$\xff\r\n",
    b"*1\r\n$+67108865\r\n", b"*1\r\n$ 4\r\n", b"*1\r\n$4\r\nPINGxx", b"*1\r\n$4\r\nPING\n\n", b"*1\r\n$4\r\nPING\r\r", b"*1\r\n$3\r\nPING\r\n",
    b"*2\r\n$4\r\nECHO\r\n$1\r\nab\r\n", b"*1\r\n$\xc3\xa9\r\n", b"*x\xe2\x82\xac\r\n",
]
BAD_LINES = [
    b"", b"00", b"00 ", b"0 61", b"00  61", b"00 6", b"00 616", b"00 0A", b"00 6g", b" 00 61", b"00 61 ", b"00 61\r", b"x0 61", b"0x 61", b"-1 61",
    b"000 61", b"00\t61", b"00 61 61", b"?", b"\xff", b"00 \xff\xff", b"+1 61", b"00,61", b"00 !1", b"00 -",
]


class Omitted(Exception):
    """What runs against the Rust leave out: INFO outside MULTI, a number text that R-1 skips, an EXEC behind a write since its session's first
    WATCH in force (R-7), a command inside MULTI that is not queued for its argument count (R-8)."""


def whole_number(text, read=model.whole_number):
    if SKIPPED.fullmatch(text):
        raise Omitted
    return read(text)


class Domain(model.Registry):
    def respond(self, session, args):
        with mock.patch.object(model, "whole_number", whole_number):
            return super().respond(session, args)

    def written_since_watch(self, session):
        """Was a version added since the session's first WATCH in force?"""
        return any(sequence < self.store.last for _, sequence in session.watched)

    def outside(self, session, name, args):
        if name == b"INFO":
            raise Omitted
        return super().outside(session, name, args)

    def exec(self, session):
        if session.queue is not None and self.written_since_watch(session):
            raise Omitted
        return super().exec(session)

    def inside(self, session, name, args):
        if name in model.QUEUEABLE and model.queue_refusal(name, len(args) - 1):
            raise Omitted
        return super().inside(session, name, args)


def frames_model(long=False):
    frames = model.Frames(long)
    frames.registry = Domain(frames.registry.store)
    return frames


def meets_number(answer):
    """Does an output line show a number other than 1?"""
    return re.search(rb"![2-9]$", answer) is not None


def lines_in_domain(lines, long=False):
    """How many of the lines come before the first that leaves the domain of runs against the Rust."""
    frames = frames_model(long)
    for i, line in enumerate(lines):
        try:
            answer = frames.line(line)
        except Omitted:
            return i
        if meets_number(answer):
            return i
    return len(lines)


# Requests as bytes


def array_bytes(args):
    return b"*%d\r\n" % len(args) + b"".join(b"$%d\r\n%s\r\n" % (len(a), a) for a in args)


def inline_bytes(args):
    return b" ".join(args) + b"\r\n"


def frame_lines(session, data):
    """Lines of at most 4,096 bytes each."""
    return [b"%02d %s" % (session, data[i : i + FRAME].hex().encode()) for i in range(0, len(data), FRAME)]


class Mixed:
    """Interleaved sessions over few keys, in the domain of runs against the Rust."""

    def __init__(self, rng, lines, **fixed):
        self.rng = rng
        self.lines = lines
        self.frames = frames_model()  # runs beside the generator
        self.count = rng.choice([1, 2, 2, 3, 3, 4, 16])
        keys = rng.sample(KEYS, rng.randint(2, 4)) + rng.sample(ODD_KEYS, rng.choice([0, 0, 1, 2, 4]))
        self.keys = keys + (KEYS if rng.random() < 0.3 else [])
        self.odd = rng.choice([0.0, 0.02, 0.1])
        self.split = rng.choice([0.0, 0.1, 0.5])
        self.pipeline = rng.choice([0.0, 0.2, 0.6])
        self.inline = rng.choice([0.0, 0.5, 0.9])
        self.transact = rng.choice([0.05, 0.3, 0.6])
        self.numeric = rng.choice([0.1, 0.5, 0.5])  # how many values are small numbers
        self.listing = rng.choice([0.1, 0.1, 0.5])
        self.quiet = rng.choice([0.0, 0.7, 0.95])  # how often a session reads in place of a write while another watches
        vars(self).update(fixed)
        self.waiting = [[] for _ in range(self.count)]  # chunks of bytes that each session has still to send
        self.multi = [0] * self.count  # commands that the session means to queue still; 0 outside MULTI

    def inside(self, s):
        """Is session s inside MULTI?"""
        return self.frames.registry.sessions[s].queue is not None

    def stale(self, s):
        """Would an EXEC of session s leave the domain?"""
        registry = self.frames.registry
        return registry.written_since_watch(registry.sessions[s])

    def watching(self):
        """Does a session watch, and may still EXEC?"""
        registry = self.frames.registry
        return any(session.watched and not registry.written_since_watch(session) for session in registry.sessions)

    def chance(self, p):
        return self.rng.random() < p

    def key(self):
        return self.rng.choice(self.keys) if not self.chance(0.02) else self.rng.choice(ODD_KEYS)

    def number(self, among=NUMBERS):
        """One of the texts; of one that is skipped, the number as it is written."""
        text = self.rng.choice(among)
        return b"%d" % int(text) if SKIPPED.fullmatch(text) else text

    def value(self):
        r = self.rng.random()
        if r < self.numeric:
            return self.number(NUMBERS[:9])
        if r < self.numeric + 0.2:
            return self.number()
        return bytes(self.rng.choice(b"abxyz \r\n\xff0") for _ in range(self.rng.choice([0, 1, 2, 3, 5, 12])))

    def pattern(self):
        if self.chance(0.3):
            return self.rng.choice([b"*", b"?", b"a*", b"*b?", b"a*b?", b"\\*", b"\\", b"a\\", b"[a]", b"**", b"*a*b*", b"\\\\", b"k?", b"", b"*\xff"])
        return bytes(self.rng.choice(b"ab*?\\xk1*?") for _ in range(self.rng.randint(0, 6)))

    def several(self, f, counts):
        return [f() for _ in range(self.rng.choice(counts))]

    def command(self, name):
        """A command of that name, now and then with a wrong argument count."""
        if self.chance(0.06):
            return [name] + self.several(self.key, [0, 0, 1, 2, 3, 4, 5])
        a = {
            b"GET": lambda: [self.key()],
            b"SET": lambda: [self.key(), self.value()] + ([b"NX"] if self.chance(0.04) else []),
            b"DEL": lambda: self.several(self.key, [1, 1, 2, 3]),
            b"EXISTS": lambda: self.several(self.key, [1, 2, 3, 5]),
            b"MGET": lambda: self.several(self.key, [1, 2, 3, 5]),
            b"MSET": lambda: [x for _ in range(self.rng.choice([1, 2, 3])) for x in (self.key(), self.value())],
            b"INCR": lambda: [self.key()],
            b"DECR": lambda: [self.key()],
            b"INCRBY": lambda: [self.key(), self.number()],
            b"PING": lambda: [] if self.chance(0.7) else [self.value()],
            b"ECHO": lambda: [self.value()],
            b"DBSIZE": lambda: [],
            b"KEYS": lambda: [self.pattern()],
            b"SCAN": self.scan_arguments,
            b"RANGE": self.range_arguments,
            b"WATCH": lambda: self.several(self.key, [1, 1, 1, 2, 3]),
        }.get(name, lambda: [self.key()] if self.chance(0.05) else [])()
        return [name] + a

    def queued_command(self):
        """A command for the queue: of right argument count, and no SET with options."""
        while True:
            args = self.command(self.rng.choice(NAMES))
            if not model.queue_refusal(args[0], len(args) - 1):
                return args

    def scan_arguments(self):
        cursor = self.rng.choice([b"0", b"0", b"0", b"1", b"2", b"3", b"10"]) if self.chance(0.8) else self.number()
        a = [cursor]
        for _ in range(self.rng.choice([0, 0, 1, 1, 2, 3])):
            r = self.rng.random()
            if r < 0.45:
                a += [self.letters(b"MATCH"), self.pattern()]
            elif r < 0.9:
                a += [self.letters(b"COUNT"), self.number([b"1", b"2", b"3", b"5"] if self.chance(0.7) else NUMBERS)]
            elif r < 0.95:
                a += [self.rng.choice([b"LIMIT", b"MATC", b"TYPE", b""]), b"1"]
            else:
                a += [self.rng.choice([b"MATCH", b"COUNT", b"x"])]
        return a

    def range_arguments(self):
        bounds = [b"", b"a", b"b", b"k", b"z", b"\xff\xff"]
        a = [self.rng.choice(bounds) if self.chance(0.5) else self.key(), self.rng.choice(bounds) if self.chance(0.5) else self.key()]
        r = self.rng.random()
        if r < 0.4:
            a += [self.letters(b"LIMIT"), self.number([b"0", b"1", b"2", b"5"] if self.chance(0.7) else NUMBERS)]
        elif r < 0.5:
            a += self.rng.choice([[b"LIMIT"], [b"LIMIT", b"1", b"1"], [b"COUNT", b"1"], [b""], [b"LIMI", b"x"], [b"LIMIT", b"1", b"LIMIT", b"1"]])
        return a

    def letters(self, word):
        r = self.rng.random()
        if r < 0.6:
            return word
        if r < 0.8:
            return word.lower()
        return bytes(self.rng.choice([x, x | 32]) if 65 <= x <= 90 else x for x in word)

    def next_command(self, s):
        """What session s sends next, by what it means to do."""
        r = self.rng.random()
        if r < 0.02:
            return [self.rng.choice(UNKNOWN)] + self.several(self.key, [0, 0, 1, 2])
        if r < 0.04:
            return self.command(self.rng.choice(CONTROL + LISTING + NAMES))
        if self.multi[s] > 1:
            self.multi[s] -= 1
            if self.chance(0.01):
                return [self.letters(b"INFO")]
            return self.queued_command()
        if self.multi[s] == 1:
            self.multi[s] = 0
            return self.command(b"EXEC" if self.chance(0.92) and not self.stale(s) else b"DISCARD")
        if self.chance(self.transact):
            r = self.rng.random()
            if r < 0.5 and self.stale(s):
                return self.command(b"UNWATCH")
            if r < 0.4:
                return self.command(b"WATCH")
            if r < 0.95:
                self.multi[s] = self.rng.choice([1, 2, 2, 3, 4, 6])
                return self.command(b"MULTI")
            return self.command(b"UNWATCH")
        r = self.rng.random()
        if r < 0.01:
            return [b"QUIT"]
        if r < self.listing:
            return self.command(self.rng.choice(LISTING))
        if self.chance(self.quiet) and self.watching():
            return self.command(self.rng.choice(READING))
        return self.command(self.rng.choice(NAMES + [b"SET", b"SET", b"INCR", b"GET"]))

    def request(self, s):
        """Bytes of one request of session s."""
        r = self.rng.random()
        if r < self.odd * 0.3:
            return self.rng.choice(FAULTS)
        if r < self.odd * 0.5:
            return self.rng.choice([b"\r\n", b"\n", b" \t\f\r\n", b"*0\r\n", b"*+0\n", b"*00\r\n", b"\r\r\n"])
        args = self.next_command(s)
        args[0] = self.letters(args[0])
        data = self.inline_form(args) if self.chance(self.inline) else None
        if data is None:
            data = self.array_form(args)
        if self.chance(self.odd * 0.3):
            data = self.damage(data)
        return data

    def inline_form(self, args):
        if any(not a or any(b in b" \t\n\f\r" for b in a) for a in args) or args[0][:1] == b"*":
            return None
        if not self.chance(0.2):
            return inline_bytes(args)
        gap = lambda: self.rng.choice([b" ", b"  ", b"\t", b" \x0c", b"\r ", b"\x0b " if self.chance(0.2) else b" "])
        end = self.rng.choice([b"\n", b"\r\n", b" \r\n", b"\r\r\n"])
        return (b" " if self.chance(0.2) else b"") + b"".join(a + gap() for a in args[:-1]) + args[-1] + end

    def array_form(self, args):
        if not self.chance(0.1):
            return array_bytes(args)
        number = lambda n: self.rng.choice([b"%d", b"+%d", b"0%d", b"+000%d"]) % n
        end = lambda: self.rng.choice([b"\r\n", b"\n"])
        return b"*" + number(len(args)) + end() + b"".join(b"$" + number(len(a)) + end() + a + b"\r\n" for a in args)

    def damage(self, data):
        at = self.rng.randrange(len(data))
        r = self.rng.random()
        byte = bytes([self.rng.choice(b"\r\n$*+-019a \x00\xff")])
        if r < 0.4 and len(data) > 1:
            return data[:at] + data[at + 1 :]
        if r < 0.7:
            return data[:at] + byte + data[at + 1 :]
        if r < 0.9:
            return data[:at] + byte + data[at:]
        return data[: max(1, at)]

    def chunks(self, s):
        """Frames that session s sends next: one request or several, whole or split."""
        if self.chance(0.002):
            size = self.rng.choice([FRAME - 1, FRAME, FRAME + 1, FRAME + 50])
            data = b"*2\r\n$4\r\nECHO\r\n$%d\r\n" % size + b"e" * size + b"\r\n" if self.chance(0.5) else b"w" * size
            return [data[i : i + FRAME] for i in range(0, len(data), FRAME)]
        data = self.request(s)
        while self.chance(self.pipeline) and len(data) < 1000:
            data += self.request(s)
        found = [data]
        while self.chance(self.split) and len(found) < 6:
            at = self.rng.randrange(len(found))
            if len(found[at]) > 1:
                cut = self.rng.randrange(1, len(found[at]))
                found[at : at + 1] = [found[at][:cut], found[at][cut:]]
        return [piece[i : i + FRAME] for piece in found for i in range(0, len(piece), FRAME)]

    def next_line(self):
        if self.chance(self.odd * 0.1):
            return self.rng.choice(BAD_LINES)
        if self.chance(self.odd * 0.05):
            return b"%d 50494e470a" % self.rng.randint(16, 99)
        s = self.rng.randrange(self.count)
        if not self.waiting[s]:
            self.waiting[s] = self.chunks(s)
        return b"%02d %s" % (s, self.waiting[s].pop(0).hex().encode())

    def answer(self, line):
        """The model's answer, or None for a line that leaves the domain without a number; then the model is as before."""
        registry = self.frames.registry
        kept = registry.store.last, list(registry.store.versions), list(registry.sessions), list(self.frames.rests)
        try:
            return self.frames.line(line)
        except Omitted:
            registry.store.last, registry.store.versions, registry.sessions, self.frames.rests = kept
            return None

    def leave_out(self, line):
        """The session goes on without that line and what it had still to send: with EXEC or DISCARD if it is inside MULTI."""
        s = int(line[:2])
        self.waiting[s] = []
        self.multi[s] = 1 if self.inside(s) else 0

    def run(self):
        """Lines of one run; it ends before the first line that meets a number other than 1."""
        lines = []
        while len(lines) < self.lines:
            line = self.next_line()
            answer = self.answer(line)
            if answer is None:
                self.leave_out(line)
            elif meets_number(answer):
                break
            else:
                lines.append(line)
        return lines


class Free(Mixed):
    """The same without the domain's limits."""

    def __init__(self, rng, lines, **fixed):
        chosen = {"wrong": rng.choice([0.0, 0.05, 0.2])}  # how many commands inside MULTI have a wrong count, or are SET with options
        super().__init__(rng, lines, **(chosen | fixed))

    def number(self, among=NUMBERS):
        return self.rng.choice(among)

    def stale(self, s):
        return False

    def watching(self):
        return False

    def queued_command(self):
        name = self.rng.choice(NAMES)
        if not self.chance(self.wrong):
            return self.command(name)
        if self.chance(0.3):
            return [b"SET", self.key(), self.value()] + self.rng.choice([[b"NX"], [b"EX", b"5"], [b""]])
        wrong = [n for n in range(5) if not model.right_count(name, n)]
        return [name] + self.several(self.key, wrong)

    def run(self):
        return [self.next_line() for _ in range(self.lines)]


class Watched(Free):
    """Sessions that watch few keys at different times, while all of them write."""

    def __init__(self, rng, lines, **fixed):
        chosen = {
            "count": rng.choice([2, 3, 3, 4]),
            "keys": rng.sample([b"a", b"b", b"n", b"m", b"", b"ab"], rng.randint(2, 6)),
            "odd": rng.choice([0.0, 0.0, 0.02]),
            "split": rng.choice([0.0, 0.1]),
            "pipeline": rng.choice([0.0, 0.2, 0.6]),
            "inline": 0.8,
            "numeric": 0.7,
            "write": rng.choice([0.05, 0.2, 0.5]),  # how often a session writes outside MULTI
        }
        super().__init__(rng, lines, **(chosen | fixed))

    def key(self):
        return self.rng.choice(self.keys)

    def next_command(self, s):
        if self.multi[s] > 1:
            self.multi[s] -= 1
            if self.chance(0.02):
                return self.command(self.rng.choice(LISTING + CONTROL))
            return self.queued_command()
        if self.multi[s] == 1:
            self.multi[s] = 0
            return self.command(b"EXEC" if self.chance(0.95) else b"DISCARD")
        if self.chance(self.write):
            return self.command(self.rng.choice([b"SET", b"SET", b"DEL", b"DEL", b"MSET", b"INCR", b"DECR", b"INCRBY"]))
        r = self.rng.random()
        if r < 0.4:
            return self.command(b"WATCH")
        if r < 0.8:
            self.multi[s] = self.rng.choice([1, 2, 3, 4])
            return self.command(b"MULTI")
        if r < 0.86:
            return self.command(self.rng.choice(CONTROL))
        return self.command(self.rng.choice(READING + LISTING))


class Numbers(Free):
    """Large requests, so that numbers are met often."""

    def __init__(self, rng, lines):
        super().__init__(rng, lines)
        self.large = rng.choice([0.02, 0.1, 0.3])

    def value(self):
        if self.chance(self.large):
            return b"v" * self.rng.choice([50, 200, 700, 1000, 2000])
        return super().value()

    def key(self):
        if self.chance(self.large * 0.3):
            return b"key" * self.rng.choice([10, 30, 100, 250])
        return super().key()

    def command(self, name):
        if self.chance(self.large) and name in (b"DEL", b"EXISTS", b"MGET", b"WATCH", b"MSET"):
            n = self.rng.choice([10, 20, 33, 40, 100, 300])
            if self.chance(0.5):
                return [name] + self.several(lambda: self.rng.choice(self.keys), [2 * n])
            return [name] + [b"%d" % (i % self.rng.choice([7, 40, 1000])) for i in range(2 * n)]
        return super().command(name)

    def next_command(self, s):
        if self.multi[s] > 1 and self.chance(self.large * 0.2):
            self.multi[s] += 40
        return super().next_command(s)

    def request(self, s):
        if self.chance(self.odd * 0.1):
            return self.rng.choice([b"*1025\r\n", b"*1048576\r\n", b"*2000\r\nX\r\n", b"a " * 1024 + b"\n", b"a " * 1025 + b"\n", b"QUIT" + b" q" * 1024 + b"\n"])
        return super().request(s)


class Previews(Watched):
    """Scripts of requests, previews and groups over stores that are often small. The model runs beside them."""

    def __init__(self, rng, lines, **fixed):
        chosen = {"count": rng.choice([1, 2, 3]), "wrong": rng.choice([0.0, 0.05]), "write": rng.choice([0.05, 0.2])}
        super().__init__(rng, lines, **(chosen | fixed))
        self.calls = model.Groups()
        self.script = []

    def say(self, text):
        self.script.append(text.encode())
        return self.calls.line(text)

    def open(self):
        last = self.rng.choice([0, 0, 0, 5, 100, 2**64 - 1, 2**64 - 5, 2**64 - 12])
        self.say(f"open {last} {self.rng.choice([0, 3, 9, 100, 100, 100])} {self.rng.choice([0, 30, 1000, 1000, 1000])}")
        self.multi = [0] * self.count

    def room(self, s):
        """Reply bytes: enough, or about as many as EXEC of session s needs."""
        if self.chance(0.6):
            return 400
        needed = len(self.calls.registry.preview(s, 400).reply)
        return max(0, needed + self.rng.choice([-1, -1, 0, 0, 1, -needed]))

    def member(self):
        last = self.calls.registry.store.last
        read = "-" if self.chance(0.5) else max(0, last - self.rng.choice([0, 0, 1, 3]))
        writes = [f"+{self.key().hex()}=31" if self.chance(0.7) else f"-{self.key().hex()}" for _ in range(self.rng.choice([0, 1, 1, 2]))]
        return " ".join([f"member {read}"] + writes)

    def sequence(self):
        """Another sequence for the first watched key of a session, one above the last among them."""
        last = self.calls.registry.store.last
        watching = [i for i, session in enumerate(self.calls.registry.sessions) if session.watched]
        s = self.rng.choice(watching or [0])
        self.say(f"sequence {s} {min(2**64 - 1, max(0, last + self.rng.choice([-2, -1, 0, 1, 1])))}")

    def next_command(self, s):
        args = super().next_command(s)
        if args[0] == b"MULTI":
            self.multi[s] += self.rng.choice([0, 2, 4])
        return args

    def step(self):
        s = self.rng.randrange(self.count)
        r = self.rng.random()
        if self.calls.registry.damaged() and r < 0.15:
            self.sequence()
        elif r < 0.4:
            s = s if self.chance(0.97) else self.rng.choice([15, 16, 17, 2**64 - 1])
            self.say(f"preview {s} {self.room(s)}")
        elif r < 0.43:
            self.say(self.member())
            self.say("group")
        elif r < 0.48:
            self.sequence()
        elif r < 0.49:
            self.say("versions")
        elif r < 0.51:
            self.open()
        else:
            self.say(f"request {s} {self.room(s)} {self.request(s).hex()}")

    def run(self):
        self.open()
        while len(self.script) < self.lines:
            self.step()
        return self.script


# Limits


def limit_runs():
    """Named runs: a list of (session, bytes) each, or of whole lines."""
    runs = []

    def run(name, *steps):
        lines = []
        for step in steps:
            lines += [step] if isinstance(step, bytes) else frame_lines(*step)
        runs.append((name, lines))

    def inline(*words):
        return inline_bytes(list(words))

    def echo_to(total):
        """An ECHO whose name and argument have `total` bytes."""
        return array_bytes([b"ECHO", b"e" * (total - 4)])

    def watch_keys(n, first=0):
        return inline(b"WATCH", *[b"w%d" % i for i in range(first, first + n)])

    def put_pairs(first, n, size=1):
        return b"".join(
            array_bytes([b"MSET"] + [x for i in range(at, min(at + 40, first + n)) for x in (b"%04d" % i, b"v" * size)])
            for at in range(first, first + n, 40)
        )

    multi, do, ping, end = b"MULTI\n", b"EXEC\n", b"PING\n", b"DISCARD\n"
    again = (0, ping)

    for n in (15, 16, 17, 99):
        run(f"session {n}", (n, ping), (n, b"PI"), (n, b"NG\n"), again)
    run("lines that are no frames", *BAD_LINES, again)
    for n in (FRAME, FRAME + 1):
        run(f"frame of {n} bytes", b"00 " + b"0a" * n, again)
        run(f"frame of {n} bytes, unfinished", b"00 " + b"78" * n, (0, b"\n"), again)
        run(f"rest of {n} bytes", (0, b"x" * (n - 100)), (0, b"x" * 100), (0, b"\n"), again)
        run(f"rest of {n} bytes inside MULTI", (0, multi + b"x" * (FRAME - 6)), (0, b"x" * (n - FRAME + 6)), (0, b"\n"), (0, do))
        run(f"rest of {n} bytes behind replies", (0, b"x" * (FRAME - 5)), (0, b"\n" + ping + b"y" * (n - FRAME)), (0, b"y" * FRAME), (0, b"\n"), again)
    for n in (1023, 1024, 1025):
        run(f"array of {n} arguments", (0, array_bytes([b"EXISTS"] + [b"a"] * (n - 1))), again)
        run(f"array of {n} empty arguments", (0, array_bytes([b""] * n)), again)
        run(f"inline line of {n} words", (0, inline(*[b"a"] * n)), again)
        run(f"inline line of {n} words without LF", (0, b" ".join([b"a"] * n)), (0, b" a"), (0, b"\n"), again)
        run(f"count {n} alone", (0, b"*%d\r\n" % n), (0, b"X\r\n"), again)
        run(f"count {n} and a fault", (0, b"*%d\r\nX\r\n" % n), again)
        run(f"QUIT among {n} words", (0, multi), (0, inline(b"QUIT", *[b"q"] * (n - 1))), (0, do))
        run(f"{n} words behind replies", (0, ping + inline(*[b"a"] * n) + ping), again)
    run("counts above the places", (0, b"*1048576\r\n"), again, (0, b"*1048577\r\n"), again, (0, multi), (0, b"*1048577\r\n"), (0, do))
    run("2 leaves the session", (0, b"SET a 1\n"), (0, b"WATCH a\n"), (0, multi), (0, b"GET a\n"), (0, b"*1025\r\n"), (0, do))

    # replies: n bulk strings of value length v under a header
    for extra in (-1, 0, 1):
        # `*327\r\n` and 327 times `$93\r\n` + 93 + `\r\n` are 6 + 327 * 100 bytes; one more value is padded to the wanted length
        want = 32768 + extra
        rest = want - (6 + 326 * 100)
        pad = rest - 8
        pad += (rest - (len(b"$%d\r\n" % pad) + pad + 2))
        fill = [(0, array_bytes([b"SET", b"v", b"v" * 93])), (0, array_bytes([b"SET", b"w", b"w" * pad]))]
        read = array_bytes([b"MGET"] + [b"v"] * 326 + [b"w"])
        run(f"MGET reply {extra:+d}", *fill, (0, read), again)
        run(f"MGET reply {extra:+d} behind replies", *fill, (0, ping + ping), (0, ping + read + ping), again)
        # inside EXEC: `*1\r\n` more
        pad2 = pad - 4
        fill2 = [fill[0], (0, array_bytes([b"SET", b"w", b"w" * pad2]))]
        run(f"EXEC reply {extra:+d}", *fill2, (0, multi), (0, read), (0, do), (0, do), (0, end), again)
        run(f"EXEC reply {extra:+d} with a conflict", *fill2, (0, b"WATCH v\n"), (0, multi), (0, read), (1, b"SET v 1\n"), (0, do), (0, do))
        run(f"EXEC reply {extra:+d} leaves writes", *fill2, (0, multi), (0, read), (0, b"SET z 1\n"), (0, do), (0, b"GET z\n"), (0, end), (0, b"GET z\n"))
    # listings: keys k000.. of 4 bytes with values; RANGE of n pairs
    for n in (322, 323, 324, 325, 326):
        steps = [(0, array_bytes([b"MSET"] + [x for i in range(at, min(at + 30, n)) for x in (b"k%03d" % i, b"v" * 84)])) for at in range(0, n, 30)]
        run(f"RANGE of {n} pairs", *steps, (0, b"RANGE a z\n"), (0, b"DBSIZE\n"), (0, b"RANGE a z LIMIT 322\n"))
    keys = [b"k%03d" % i + b"x" * 300 for i in range(107)]
    for n in (104, 105, 106, 107):
        steps = [(0, array_bytes([b"MSET"] + [x for k in keys[at : min(at + 12, n)] for x in (k, b"")])) for at in range(0, n, 12)]
        run(f"KEYS of {n} long keys", *steps, (0, b"KEYS *\n"), (0, b"SCAN 0 COUNT 200\n"), (0, b"SCAN 0 COUNT %d\n" % (n - 1)), (0, b"RANGE a z\n"))

    # queue
    for n in (63, 64, 65):
        run(f"{n} queued commands", (0, multi), (0, ping * n), (0, do), (0, do))
        run(f"{n} queued commands, one by one", (0, multi), *[(0, ping)] * n, (0, b"SET a 1\n"), (0, do), (0, b"GET a\n"))
        run(f"{n} queued commands of a failed session", (0, multi), (0, b"FOO\n"), (0, ping * n), (0, do))
        run(f"a name that cannot be queued behind {n}", (0, multi), (0, ping * n), (0, b"FOO\n"), (0, do))
        run(f"a wrong count behind {n} queued", (0, multi), (0, ping * n), (0, b"GET\n"), (0, ping), (0, ping), (0, do))
        run(f"SET with options behind {n} queued", (0, multi), (0, ping * n), (0, b"set a 1 NX\n"), (0, ping), (0, ping), (0, do), (0, b"GET a\n"))
    for n in (511, 512, 513):
        run(f"{n} queued arguments in one", (0, multi), (0, inline(b"DEL", *[b"k"] * (n - 1))), (0, do), (0, b"DBSIZE\n"))
        run(f"{n} queued arguments in two", (0, multi), (0, inline(b"MGET", *[b"k"] * 399)), (0, inline(b"EXISTS", *[b"k"] * (n - 401))), (0, do))
        run(f"{n} queued arguments with PING", (0, multi), (0, inline(b"DEL", *[b"k"] * (n - 2))), (0, ping), (0, do))
        run(f"a wrong count of {n} arguments, none queued", (0, multi), (0, inline(b"GET", *[b"k"] * (n - 1))), (0, ping), (0, do))
        run(f"SET with {n} arguments, none queued", (0, multi), (0, inline(b"SET", *[b"k"] * (n - 1))), (0, ping), (0, do))
        run(f"MSET of {n} arguments", (0, multi), (0, inline(b"MSET", *[b"k"] * (n - 1))), (0, ping), (0, do))
    for n in (8191, 8192, 8193):
        run(f"{n} queued bytes", (0, multi), (0, echo_to(4000)), (0, echo_to(n - 4000)), (0, do))
        run(f"{n} queued bytes in one", (0, multi), (0, echo_to(4090)), (0, echo_to(n - 4094)), (0, ping), (0, do))
        run(f"a wrong count behind {n} queued bytes", (0, multi), (0, echo_to(4000)), (0, echo_to(n - 4000)), (0, b"ECHO\n"), (0, b"DEL\n"), (0, ping), (0, do))
        run(f"{n} queued bytes, refused once", (0, b"WATCH a\n"), (0, multi), (0, echo_to(4000)), (0, echo_to(n - 4000)), (0, ping), (1, b"SET a 1\n"), (0, do))
    run("4 and DISCARD", (0, multi), (0, ping * 65), (0, end), (0, multi), (0, ping), (0, do))
    run("4 and QUIT", (0, multi), (0, ping * 65), (0, b"QUIT\n"), (0, do), (0, multi), (0, do))
    run("4 and a protocol error", (0, multi), (0, ping * 65), (0, b"*x\n"), (0, do), (0, multi), (0, do))

    # watch
    for n in (31, 32, 33):
        run(f"{n} watched keys at once", (0, watch_keys(n)), (1, b"SET w0 1\n"), (0, multi), (0, do))
        run(f"{n} watched keys one by one", *[(0, watch_keys(1, i)) for i in range(n)], (1, b"SET w%d 1\n" % (n - 1)), (0, multi), (0, do))
        run(f"{n} watched keys with repeats", (0, watch_keys(n - 2)), (0, watch_keys(n)), (0, watch_keys(2)), (0, multi), (0, do))
        run(f"{n} watched keys after UNWATCH", (0, watch_keys(20, 50)), (0, b"UNWATCH\n"), (0, watch_keys(n)), (0, multi), (0, do))
        run(f"{n} watched keys, one more behind a write", (0, watch_keys(n)), (0, b"SET a 1\n"), (0, b"WATCH a\n"), (0, multi), (0, do))
    for n in (2047, 2048, 2049):
        run(f"{n} watched bytes", (0, array_bytes([b"WATCH", b"w" * n])), (1, array_bytes([b"SET", b"w" * n, b"1"])), (0, multi), (0, do))
        run(f"{n} watched bytes in two", (0, array_bytes([b"WATCH", b"v" * 1000])), (0, array_bytes([b"WATCH", b"w" * (n - 1000), b"v" * 1000])), (0, multi), (0, do))
    run("a key of 1,025 bytes named twice", (0, array_bytes([b"WATCH", b"w" * 1025, b"w" * 1025])), (0, multi), (0, do))
    run("5 leaves the watch", (0, b"WATCH a\n"), (0, watch_keys(32)), (1, b"SET w0 1\n"), (0, multi), (0, do))
    run("5 leaves the earlier watch", (0, b"WATCH a\n"), (0, watch_keys(32)), (1, b"SET a 1\n"), (0, multi), (0, do))
    run("the empty key is watched", (0, watch_keys(31)), (0, array_bytes([b"WATCH", b""])), (0, array_bytes([b"WATCH", b"", b"x"])), (0, multi), (0, do))

    # store: n versions are written, then each kind of command
    at_edge = [
        b"SET a 1\n", b"DEL zz\n", b"DEL a a\n", b"INCR n\n", b"INCRBY n x\n", b"INCRBY n 9223372036854775807\n", b"MSET a 1 b 2\n", b"GET 0000\n", b"DBSIZE\n",
        b"MULTI\nSET a 1\nSET a 2\nEXEC\n", b"MULTI\nDEL a a\nEXEC\n", b"MULTI\nSET a 1\nSET b 1\nEXEC\nEXEC\nDISCARD\n", b"MULTI\nGET 0000\nEXEC\n", b"MULTI\nEXEC\n",
        b"MULTI\nINCR 0001\nEXEC\nDISCARD\n", b"INCR 0001\n",
    ]
    for n in (1022, 1023, 1024):
        for i, step in enumerate(at_edge):
            run(f"{n} versions, then {step.split()[0].decode()} {i}", (0, put_pairs(0, n)), (0, step), again, (0, b"DBSIZE\n"), (0, b"SET zzz 1\n"), (0, b"MGET a b n zzz\n"))
        run(f"{n} versions, a conflict first", (0, put_pairs(0, n - 1)), (0, b"WATCH a\n"), (1, b"SET a 1\n"), (0, b"MULTI\nSET a 1\nSET b 2\n"), (0, do), (0, do))
        run(f"{n} versions, failed session", (0, put_pairs(0, n)), (0, b"MULTI\nSET a 1\nFOO\n"), (0, do), (0, do))
        run(f"{n} versions, 6 leaves queue and watch", (0, put_pairs(0, n)), (0, b"WATCH a\nMULTI\nSET b 1\nSET c 1\nGET 0000\n"), (0, do), (0, do), (0, end), (0, do))
    # bytes: 15 pairs of 4 + 2,000 and one that leaves `left` bytes
    for left in (0, 1, 2, 3, 5):
        big = b"".join(array_bytes([b"SET", b"%04d" % i, b"v" * 2000]) for i in range(16))
        used = 16 * 2004
        fill = [(0, big), (0, array_bytes([b"SET", b"fill", b"f" * (32768 - used - 4 - left)]))]
        for i, step in enumerate(at_edge):
            run(f"{left} bytes left, then {step.split()[0].decode()} {i}", *fill, (0, step), again, (0, b"DBSIZE\n"), (0, b"SET z 1\n"), (0, b"MGET a b n z\n"))
        run(f"{left} bytes left, empty key and value", *fill, (0, array_bytes([b"SET", b"", b""])), (0, array_bytes([b"DEL", b""])), (0, array_bytes([b"MSET", b"", b"", b"", b"xx"])))
        run(f"{left} bytes left, a conflict first", *fill, (0, b"WATCH 0000\n"), (0, b"MULTI\nSET abcdef 123456\n"), (1, array_bytes([b"DEL", b""])), (0, do))
        run(f"{left} bytes left, a counter grows", *fill, (0, b"INCR n\n"), (0, b"INCRBY n 8\n"), (0, b"INCR n\n"), (0, b"GET n\n"))
    return runs


def long_runs():
    """Lines about the limit of 65,536 bytes, for programs run with `long`."""
    runs = []
    for n in (65535, 65536, 65537):
        for name, data in (
            ("inline", b"x" * n + b"\n"),
            ("inline with CR", b"x" * (n - 1) + b"\r\n"),
            ("words", b"PING" + b" " * (n - 4) + b"\n"),
            ("count", b"*" + b"0" * (n - 2) + b"1\n$4\nPING\r\n"),
            ("length", b"*1\n$" + b"0" * (n - 2) + b"4\nPING\r\n"),
            ("no LF", b"x" * n),
            ("no LF in a count", b"*" + b"0" * (n - 1)),
            ("no LF in a length", b"*1\n$" + b"0" * (n - 1)),
        ):
            runs.append((f"{name} {n}", [b"00 " + data.hex().encode(), b"00 " + b"PING\n".hex().encode(), b"00 " + b"PING\n".hex().encode()]))
    return runs


# Every short list of steps

STEPS = [
    (0, b"WATCH a"), (0, b"WATCH b"), (0, b"MULTI"), (0, b"EXEC"), (0, b"DISCARD"), (0, b"SET a 1"), (0, b"INCR b"), (0, b"DEL a"), (0, b"MGET a b"),
    (0, b"SET a"), (1, b"SET a 2"), (1, b"SET b x"), (1, b"DEL b"),
]
LISTS_IN_A_RUN = 100


def step_lines(steps, last, i=0):
    """Lines of the steps, followed by MULTI, `last`, reading, and QUIT; `i` makes its keys its own."""
    lines = []
    for session, text in list(steps) + [(0, b"MULTI"), (0, last), (1, b"MGET a b"), (0, b"QUIT")]:
        words = [word + b"%d" % i if word in (b"a", b"b") else word for word in text.split()]
        lines += frame_lines(session, inline_bytes(words))
    return lines


def in_domain(steps, last):
    lines = step_lines(steps, last)
    return lines_in_domain(lines) == len(lines)


def lists_of_steps(length, watched):
    """Lists of steps, each with what ends it; if `watched`, those that leave the domain, else those in it."""
    for steps in itertools.product(STEPS, repeat=length):
        if watched != in_domain(steps, b"EXEC"):
            yield steps, b"EXEC"
        elif not watched and in_domain(steps, b"DISCARD"):
            yield steps, b"DISCARD"


def exhaustive_runs(mode, length):
    """Each list has keys of its own and ends with a clear session."""
    lists = lists_of_steps(length, mode == "exhaustive-watched")
    for number in itertools.count():
        lines = []
        for i, (steps, last) in enumerate(itertools.islice(lists, LISTS_IN_A_RUN)):
            lines += step_lines(steps, last, i)
        if not lines:
            return
        yield f"{mode} {length} {number}", lines


# Group scripts


def group_run(rng, limits):
    """Lines of one script."""
    last = rng.choice([0, 5, 2**64 - 1, 2**64 - 2, 2**64 - 4, 2**64 - 9] if limits else [0, 0, 5, 100])
    lines = []
    keys = [b"61", b"62", b"6162", b"", b"ff"][: rng.randint(1, 5)]
    now = last
    sizes = rng.random() < 0.15
    for _ in range(rng.randint(1, 6)):
        count = rng.choice([1, 1, 2, 3, 4, 6])
        if limits and rng.random() < 0.1:
            count = rng.choice([0, 63, 64, 65])
        for _ in range(count):
            read = b"-" if rng.random() < 0.35 else b"%d" % max(0, min(2**64 - 1, now - rng.choice([0, 0, 0, 1, 2, 3, -2])))
            parts = []
            for _ in range(rng.choice([0, 1, 1, 1, 2, 3])):
                key = rng.choice(keys)
                if rng.random() < 0.3:
                    parts.append(b"-" + key)
                elif sizes:
                    total = rng.choice([1048576, 1048577, 1048575, 524288, 524287, 1, 0])
                    parts.append(b"+" + key + b"=78*%d" % max(0, total - len(key) // 2))
                else:
                    parts.append(b"+" + key + b"=" + rng.choice([b"", b"31", b"3132", b"78*40"]))
            parts += [b"?" + rng.choice(keys) for _ in range(rng.choice([0, 0, 1, 2]))]
            now += rng.choice([0, 1, 1])
            lines.append(b" ".join([b"member", read] + parts))
        lines += [b"group", b"versions"]
    members = [model.Groups().member(line.decode().split(" ")[1:]) for line in lines if line.startswith(b"member")]
    versions, size = sum(len(m.writes) for m in members), sum(map(model.size_of, members))
    if limits:
        versions, size = rng.choice([0, 1, 2, 4, 8, versions]), rng.choice([0, 1, 3, 10, 30, size])
    return [b"open %d %d %d" % (last, versions, size)] + lines


# Runs and files

SCRIPTS = ("groups", "group-limits", "previews")  # modes whose lines are group scripts


def runs_of(mode, seed=0, count=1, lines=300):
    """Pairs of a name and a list of lines."""
    if mode == "limits":
        yield from limit_runs()
        return
    if mode == "long":
        yield from long_runs()
        return
    if mode in ("exhaustive", "exhaustive-watched"):
        yield from exhaustive_runs(mode, seed)
        return
    for i in range(count):
        rng = random.Random(f"{mode} {seed} {i}")
        name = f"{mode} {seed} {i}"
        if mode in ("groups", "group-limits"):
            yield name, group_run(rng, mode == "group-limits")
        else:
            yield name, {"mixed": Mixed, "watched": Watched, "numbers": Numbers, "previews": Previews}[mode](rng, lines).run()


def read_runs(data):
    """The runs of a file; a file without a `# name` line is one run."""
    runs = []
    for line in model.lines_of(data):
        if line.startswith(b"# "):
            runs.append((line[2:].decode(), []))
        else:
            if not runs:
                runs.append(("input", []))
            runs[-1][1].append(line)
    return runs


if __name__ == "__main__":
    mode, *rest = sys.argv[1:] or [""]
    counts = {"mixed": 2, "watched": 2, "numbers": 2, "limits": 0, "long": 0, "exhaustive": 1, "exhaustive-watched": 1, "groups": 2, "group-limits": 2, "previews": 2}
    if len(rest) < counts.get(mode, 99):
        sys.exit(__doc__)
    for name, lines in runs_of(mode, *map(int, rest)):
        sys.stdout.buffer.write(b"# " + name.encode() + b"\n" + b"".join(line + b"\n" for line in lines))
