#!/usr/bin/env python3
"""Compares a program with the Rust on many requests. Exit status 1 if they differ.

    scale.py RUST PROGRAM SEED REQUESTS [SECONDS]

    scale.py rust/frames_rust ../crates/frames/out/frames 1 1000000

Input is made without the model and stays in the domain (README.md): each run ends before its commands could write 1,024 versions or
32,768 bytes. A line is left out if it has an EXEC and behind its session's first WATCH in force came a request that may write, or if it has
a command inside MULTI that is not queued for its argument count. A value such as `00` may stand in a key that a counter then reads: that ends a run.
Where the two programs differ all the same, the model decides: a line that leaves the domain ends the run if the model and PROGRAM
agree up to it, a number included; anything else is a difference, which is shown and shrunk.
A request counts when the Rust answered it. Empty requests and bytes that wait are sent too and not counted.
"""

import random
import re
import sys
import time
from collections import Counter
from typing import NamedTuple

import compare
import generate
import model

MOST_VERSIONS, MOST_BYTES = 1000, 32000
REPORT_EVERY = 100000

# Keys that agree up to their last bytes, about the lengths where a comparison by blocks changes its way
BLOCKS = [b"p" * n + tail for n in (6, 7, 8, 15, 16, 23, 31, 32, 40) for tail in (b"", b"a", b"b", b"\x00", b"\xff")]
BROKEN = [b"x" * n + b"m" + b"x" * (16 - n) for n in range(17)]
MANY = [b"k%03d" % i for i in range(150)]
EDGES = [b"9223372036854775806", b"9223372036854775807", b"-9223372036854775807", b"-9223372036854775808", b"1", b"-1", b"0"]
SHORTEST = [b"", b"", b"\x00"]
FAMILIES = [[], [], SHORTEST, BLOCKS, BROKEN, MANY, MANY + BLOCKS]

# Bytes next to the digits
BESIDE = [b"1:", b":", b"/1", b"/", b"-:", b"+/"]
BESIDE_FAULTS = [b"*1:\r\n", b"*/\r\n", b"*:\r\n", b"*1\r\n$4:\r\nPING\r\n", b"*1\r\n$/\r\n", b"*1\r\n#4\r\n", b"*1\r\n%4\r\n"]


def writes_of(args):
    """How many versions a command can write at most."""
    name, n = args[0].upper(), len(args) - 1
    return {b"SET": 1, b"INCR": 1, b"DECR": 1, b"INCRBY": 1, b"DEL": n, b"MSET": n // 2}.get(name, 0)


class Tracked(NamedTuple):
    """What is known of a session without the store."""

    rest: bytes = b""
    multi: bool = False
    queued: bool = False  # a command that may write is in the queue
    watch: bool = False
    stale: bool = False  # a request that may write came behind the first WATCH in force


MAY_WRITE = {b"SET", b"DEL", b"MSET", b"INCR", b"DECR", b"INCRBY"}


class Tracker:
    """Follows requests without the store: a request that may write counts as a write."""

    def __init__(self):
        self.sessions = [Tracked()] * model.SESSIONS
        self.names = Counter()

    def take(self, line):
        """Takes a line; False, and nothing changes, if it holds an EXEC inside MULTI behind what counts as a write, or a command inside MULTI
        that is not queued for its argument count."""
        given = compare.frame_of(line)
        if given is None or given[0] >= model.SESSIONS or len(given[1]) > model.FRAME_LIMIT:
            return True
        s, sessions, names = given[0], list(self.sessions), []
        data = sessions[s].rest + given[1]
        while data:
            try:
                args, used = model.read_request(data, model.ARGUMENT_PLACES)
            except model.Wait:
                break
            except (model.ProtocolError, model.Number):
                sessions[s], data = Tracked(), b""
                break
            data = data[used:]
            if not args:
                continue
            names.append(args[0].upper())
            if names[-1] == b"QUIT":
                sessions[s], data = Tracked(), b""
            elif not self.request(sessions, s, names[-1], len(args)):
                return False
        sessions[s] = sessions[s]._replace(rest=b"" if len(data) > model.FRAME_LIMIT else data)
        self.sessions = sessions
        self.names.update(names)
        return True

    def request(self, sessions, s, name, count):
        session, writes = sessions[s], False
        if not session.multi:
            writes = name in MAY_WRITE
            if name == b"MULTI":
                sessions[s] = session._replace(multi=True)
            elif name == b"WATCH" and count > 1:
                sessions[s] = session._replace(watch=True)
            elif name == b"UNWATCH":
                sessions[s] = session._replace(watch=False, stale=False)
        elif name == b"EXEC":
            if session.stale:
                return False
            sessions[s], writes = Tracked(), session.queued
        elif name == b"DISCARD":
            sessions[s] = Tracked()
        elif name in model.QUEUEABLE and model.queue_refusal(name, count - 1):
            return False
        elif name in MAY_WRITE:
            sessions[s] = session._replace(queued=True)
        if writes:
            sessions[:] = [session._replace(stale=session.watch) for session in sessions]
        return True


class Crowded(generate.Mixed):
    """Interleaved sessions that send several requests in a line, within the capacities of the store."""

    def __init__(self, rng):
        super().__init__(rng, 0)
        self.keys += rng.choice(FAMILIES)
        self.pipeline = rng.choice([0.2, 0.5, 0.9])
        self.split = rng.choice([0.0, 0.05, 0.3])
        self.odd = rng.choice([0.0, 0.01, 0.05])
        self.most = rng.choice([200, MOST_VERSIONS, MOST_VERSIONS])
        self.hot = rng.choice([0.1, 0.4, 0.7])  # how many keys are the one that a session watched last
        self.edge = rng.choice([0.0, 0.2, 0.5])  # how many values and amounts lie at the ends of i64
        self.watched = None
        self.tracker = Tracker()
        self.versions = self.bytes = 0

    def inside(self, s):
        return self.tracker.sessions[s].multi

    def stale(self, s):
        return self.tracker.sessions[s].stale

    def watching(self):
        return any(session.watch and not session.stale for session in self.tracker.sessions)

    def key(self):
        return self.watched if self.watched is not None and self.chance(self.hot) else super().key()

    def value(self):
        return self.rng.choice(EDGES) if self.chance(self.edge) else super().value()

    def command(self, name):
        args = super().command(name)
        if name == b"WATCH" and len(args) > 1:
            self.watched = args[1]
        if name == b"INCRBY" and len(args) == 3 and self.chance(self.edge):
            args[2] = self.rng.choice(EDGES)
        if name in (b"INCRBY", b"SET", b"SCAN") and len(args) > 1 and self.chance(0.02):
            args[-1] = self.rng.choice(BESIDE)
        return args

    def next_command(self, s):
        args = super().next_command(s)
        if args[0].upper() == b"INFO":
            args = self.command(b"DBSIZE")
        n = writes_of(args)
        self.versions += n
        self.bytes += sum(map(len, args[1:])) if n else 0
        return args

    def request(self, s):
        if self.chance(0.002):  # INFO may come only inside MULTI
            self.multi[s] = 2
            return b"MULTI\r\nINFO\r\n"
        if self.chance(self.odd * 0.1):
            return self.rng.choice(BESIDE_FAULTS)
        return super().request(s)

    def run(self):
        lines = []
        while self.versions < self.most and self.bytes < MOST_BYTES:
            line = self.next_line()
            if self.tracker.take(line):
                lines.append(line)
            else:
                self.leave_out(line)
        return lines


def skip_reply(data, at):
    """Where the reply at `at` ends."""
    end = data.index(b"\r\n", at) + 2
    kind = data[at]
    if kind not in b"$*":
        return end
    n = int(data[at + 1 : end - 2])
    if kind == 36:
        return end if n < 0 else end + n + 2
    for _ in range(n):
        end = skip_reply(data, end)
    return end


QUOTED = re.compile(rb"'.*'|(?<=unknown command )'.*", re.DOTALL)


def kind_of(reply):
    """A short name for a reply, by which replies are counted."""
    if reply[:1] == b"-":
        if reply.startswith(b"-ERR Protocol error"):
            return "protocol error"
        return QUOTED.sub(b"'...'", reply[:-2]).decode(errors="replace")[:60]
    if reply[:1] == b"+":
        return reply[:-2].decode()
    return {b":": "integer", b"$": "bulk string or nil", b"*": "array"}[reply[:1]]


def count_replies(answers, kinds):
    """Adds the replies in output lines to `kinds`, and gives their count."""
    total = 0
    for line in answers:
        text = line[3:].split(b"!")[0]
        if len(text) < 2:
            continue
        data, at = bytes.fromhex(text.decode()), 0
        while at < len(data):
            end = skip_reply(data, at)
            kinds[kind_of(data[at:end])] += 1
            total += 1
            at = end
    return total


def end_of_domain(lines, answers):
    """The index of the line that leaves the domain, if the model and `answers` agree up to it; None if it is a difference."""
    frames = generate.frames_model()
    for i, line in enumerate(lines):
        try:
            wanted = frames.line(line)
        except generate.Omitted:
            return i
        if wanted != answers[i]:
            return None
        if generate.meets_number(wanted):
            return i
    return None


def main(argv):
    if len(argv) < 4:
        sys.exit(__doc__)
    one, two = compare.Program(argv[0], "mixed"), compare.Program(argv[1], "mixed")
    seed, wanted = int(argv[2]), int(argv[3])
    until = time.time() + (float(argv[4]) if len(argv) > 4 else 10**9)
    started, shown = time.time(), 0
    runs = lines_total = requests = left = 0
    kinds, names = Counter(), Counter()
    while requests < wanted and time.time() < until:
        made = Crowded(random.Random(f"scale {seed} {runs}"))
        lines = made.run()
        a, b = one.answers(lines), two.answers(lines)
        if a != b:
            end = end_of_domain(lines, b)
            if end is None:
                compare.show(one, two, lines, f"run {runs} of seed {seed} differs after {requests} requests:")
                small = compare.shrink(one, two, lines, True, True)
                compare.show(one, two, small, f"a smallest input ({len(small)} lines):")
                return 1
            left += 1
            lines, a = lines[:end], a[:end]
        runs += 1
        lines_total += len(lines)
        requests += count_replies(a, kinds)
        names.update(made.tracker.names)
        if requests // REPORT_EVERY > shown:
            shown = requests // REPORT_EVERY
            print(f"  {requests} requests, {time.time() - started:.0f} s", flush=True)
    print(f"{requests} requests answered alike in {lines_total} lines of {runs} runs, {time.time() - started:.0f} s; {left} runs left the domain")
    print("replies:")
    for kind, n in kinds.most_common():
        print(f"  {n:8} {kind}")
    print("commands sent:")
    known = generate.NAMES + generate.LISTING + generate.CONTROL + [b"INFO"]
    print("  " + ", ".join(f"{name.decode()} {names[name]}" for name in known))
    return 0


if __name__ == "__main__":
    sys.exit(main(sys.argv[1:]))
