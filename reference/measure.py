#!/usr/bin/env python3
"""Measures a program beside the Rust on the same input and writes tables in Markdown.

    measure.py RUST PROGRAM [FIGURES]       FIGURES: a file for the figures, from which plot.py draws

    measure.py rust/frames_rust ../crates/frames/out/frames figures.json > tables.md

Each input is one file for one process and stays in the domain. Before anything is measured the two outputs are compared, and the script
stops if they differ. Then the programs run in turn, ROUNDS times each, reading the file and writing to the null device; the least user
time and the least wall time of each count. The cost of a request at n versions is the time of filling the store and sending many
requests, less the time of filling it alone, over their count.
"""

import json
import os
import random
import resource
import subprocess
import sys
import tempfile
import time

from generate import array_bytes, frame_lines

LINES = 100000
ROUNDS = 5
REQUESTS = 400000
FEWER = {"SCAN COUNT 10": 100000, "RANGE LIMIT 10": 100000, "MGET of 10": 100000}  # what costs the Rust more is sent less often
SIZES = (16, 128, 1024)
SETS_IN_A_ROW = 40  # fresh processes, each of which fills a store with single writes


def must(condition, text):
    if not condition:
        sys.exit(text)


# Input


def key(i):
    return b"station:%04d" % i


def value(i):
    return b"value %07d" % i


def line(session, *words):
    return frame_lines(session, array_bytes(list(words)))[0]


class Mix:
    """Lines of four sessions over 200 keys; about one in a hundred commits a version, so that the store fills over the whole input."""

    KEYS = 200
    MOST_VERSIONS, MOST_BYTES = 1000, 32000

    def __init__(self, rng):
        self.rng = rng
        self.lines = []
        self.versions = self.bytes = 0

    def key(self):
        return key(self.rng.randrange(self.KEYS))

    def keys(self, n):
        return [self.key() for _ in range(n)]

    def may_write(self):
        """Whether the next version has come due and finds room."""
        due = len(self.lines) * self.MOST_VERSIONS > self.versions * LINES
        return due and self.versions < self.MOST_VERSIONS and self.bytes < self.MOST_BYTES

    def write(self, session):
        self.versions += 1
        kind = self.rng.random()
        if kind < 0.7:
            i = self.rng.randrange(self.KEYS)
            self.bytes += len(key(i)) + len(value(i))
            return line(session, b"SET", key(i), value(i))
        if kind < 0.9:
            self.bytes += len(b"count:0") + 4
            return line(session, b"INCR", b"count:%d" % self.rng.randrange(5))
        self.bytes += len(key(0))
        return line(session, b"DEL", self.key())

    def read(self, session):
        name = self.rng.choices(
            [b"GET", b"MGET", b"EXISTS", b"PING", b"ECHO", b"DBSIZE", b"SCAN", b"RANGE", b"KEYS", b"wrong"], [50, 10, 8, 6, 6, 4, 4, 4, 2, 6]
        )[0]
        words = {
            b"GET": lambda: self.keys(1),
            b"MGET": lambda: self.keys(5),
            b"EXISTS": lambda: self.keys(3),
            b"PING": lambda: [],
            b"ECHO": lambda: [value(1)],
            b"DBSIZE": lambda: [],
            b"SCAN": lambda: [b"%d" % self.rng.randrange(100), b"COUNT", b"10"],
            b"RANGE": lambda: [self.key(), b"t", b"LIMIT", b"10"],
            b"KEYS": lambda: [b"station:00?5"],
            b"wrong": lambda: [],
        }[name]()
        return line(session, *([name] + words if name != b"wrong" else [self.rng.choice([b"GET", b"NONE", b"EXEC"])]))

    def transaction(self, session):
        """WATCH, MULTI, three commands, EXEC; now and then another session writes the watched key in between, and DISCARD ends it."""
        watched = self.key()
        steps = [(b"WATCH", watched), (b"MULTI",), (b"GET", watched), (b"MGET", *self.keys(3)), (b"ECHO", value(2)), (b"EXEC",)]
        lines = [line(session, *words) for words in steps]
        if self.may_write():
            self.versions += 1
            self.bytes += len(watched) + len(value(0))
            lines[2:] = [line(4, b"SET", watched, value(0))] + lines[2:-1] + [line(session, b"DISCARD")]
        return lines

    def make(self):
        while len(self.lines) < LINES:
            session = self.rng.randrange(4)
            if self.may_write() and self.rng.random() < 0.7:
                self.lines.append(self.write(session))
            elif self.rng.random() < 0.05:
                self.lines += self.transaction(session)
            else:
                self.lines.append(self.read(session))
        return self.lines


def filling(n):
    """Lines that write n versions of n keys, 16 to a line."""
    lines = []
    for at in range(0, n, 16):
        pairs = [x for i in range(at, min(at + 16, n)) for x in (key(i), b"v%d" % i)]
        lines.append(line(0, b"MSET", *pairs))
    return lines


def count_of(kind, n):
    return REQUESTS * 16 // n if kind == "DBSIZE" else FEWER.get(kind, REQUESTS)


def requests_at(n, kind):
    """One request for each line, on a store of n versions."""
    rng = random.Random(f"requests {n}")
    some = lambda: key(rng.randrange(n))
    one = {
        "PING": lambda: [b"PING"],
        "GET": lambda: [b"GET", some()],
        "GET of no key": lambda: [b"GET", b"station:none"],
        "MGET of 10": lambda: [b"MGET"] + [some() for _ in range(10)],
        "SCAN COUNT 10": lambda: [b"SCAN", b"0", b"COUNT", b"10"],
        "RANGE LIMIT 10": lambda: [b"RANGE", some(), b"t", b"LIMIT", b"10"],
        "DBSIZE": lambda: [b"DBSIZE"],
    }
    if kind in one:
        return [line(0, *one[kind]()) for _ in range(count_of(kind, n))]
    steps = lambda: [[b"MULTI"], [b"GET", some()], [b"GET", some()], [b"EXEC"]]
    return [line(0, *words) for _ in range(count_of(kind, n) // 4) for words in steps()]


KINDS = ["PING", "GET", "GET of no key", "MGET of 10", "SCAN COUNT 10", "RANGE LIMIT 10", "DBSIZE", "MULTI, GET, GET, EXEC"]


def single_writes():
    return [line(0, b"SET", key(i), b"v%d" % i) for i in range(1024)]


# Measuring


class Input:
    """A file of lines."""

    def __init__(self, folder, lines):
        self.count = len(lines)
        handle, self.path = tempfile.mkstemp(dir=folder)
        with os.fdopen(handle, "wb") as f:
            f.write(b"".join(text + b"\n" for text in lines))

    def output(self, program):
        with open(self.path, "rb") as f:
            return subprocess.run([program], stdin=f, stdout=subprocess.PIPE, check=True).stdout


def once(program, given, times=1):
    """User and wall seconds of `times` processes, one behind the other."""
    before, started = resource.getrusage(resource.RUSAGE_CHILDREN).ru_utime, time.perf_counter()
    for _ in range(times):
        with open(given.path, "rb") as f:
            subprocess.run([program], stdin=f, stdout=subprocess.DEVNULL, check=True)
    return resource.getrusage(resource.RUSAGE_CHILDREN).ru_utime - before, time.perf_counter() - started


def best(programs, given, times=1):
    """For each program the least user and the least wall seconds, the programs in turn."""
    found = {program: [] for program in programs}
    for _ in range(ROUNDS):
        for program in programs:
            found[program].append(once(program, given, times))
    return [tuple(min(column) for column in zip(*found[program])) for program in programs]


def same_output(programs, given, name):
    a, b = (given.output(program) for program in programs)
    must(a == b, f"{name}: the outputs differ")
    must(b"!" not in a, f"{name}: a number was returned")


def load():
    return os.getloadavg()[0]


def processor():
    with open("/proc/cpuinfo") as f:
        names = [text.split(":", 1)[1].strip() for text in f if text.startswith("model name")]
    return f"{names[0] if names else 'unknown'}, {len(names)} processors"


def row(*cells):
    print("| " + " | ".join(str(c) for c in cells) + " |", flush=True)


def ratio(a, b):
    return f"{b / a:.2f}" if a > 0 else "-"


def mixed_table(programs, folder, figures):
    made = Mix(random.Random("measure"))
    given = Input(folder, made.make())
    same_output(programs, given, "mixed")
    (rust_user, rust_wall), (user, wall) = best(programs, given)
    print(f"\nMixed input, {given.count} lines of one request each, {made.versions} versions and at most {made.bytes} bytes at its end:\n")
    row("", "user s", "wall s", "lines a second (wall)", "µs a line (user)")
    row("---", "---", "---", "---", "---")
    for name, u, w in (("Rust", rust_user, rust_wall), ("frames", user, wall)):
        row(name, f"{u:.3f}", f"{w:.3f}", f"{given.count / w:,.0f}", f"{u / given.count * 1e6:.2f}")
    row("frames over Rust", ratio(rust_user, user), ratio(rust_wall, wall), "", "")
    figures["mixed"] = {"lines": given.count, "rust": [rust_user, rust_wall], "frames": [user, wall]}


def cost_table(programs, folder, figures):
    print(f"\nµs of user time a request, by the count of versions in the store (Rust / frames / frames over Rust):\n")
    row("", *(f"{n} versions" for n in SIZES))
    row("---", *("---" for _ in SIZES))
    figures["costs"] = {}
    base = {}
    for n in SIZES:
        base[n] = best(programs, Input(folder, filling(n)))
    for kind in KINDS:
        cells, kept = [], []
        for n in SIZES:
            given = Input(folder, filling(n) + requests_at(n, kind))
            same_output(programs, given, f"{kind} at {n}")
            rust, ours = ((u - base[n][i][0]) / count_of(kind, n) * 1e6 for i, (u, _) in enumerate(best(programs, given)))
            cells.append(f"{rust:.2f} / {ours:.2f} / {ratio(rust, ours)}")
            kept.append([n, rust, ours])
        row(kind, *cells)
        figures["costs"][kind] = kept


def writes_table(programs, folder, figures):
    given, empty = Input(folder, single_writes()), Input(folder, [line(0, b"PING")])
    same_output(programs, given, "writes")
    base = best(programs, empty, SETS_IN_A_ROW)
    costs = [(u - base[i][0]) / (SETS_IN_A_ROW * given.count) * 1e6 for i, (u, _) in enumerate(best(programs, given, SETS_IN_A_ROW))]
    print(f"\nSET of a new key, mean over the 1,024 that fill an empty store ({SETS_IN_A_ROW} processes a round), µs of user time:\n")
    row("Rust", "frames", "frames over Rust")
    row("---", "---", "---")
    row(f"{costs[0]:.2f}", f"{costs[1]:.2f}", ratio(*costs))
    figures["set"] = costs


def main(argv):
    must(len(argv) in (2, 3), __doc__)
    programs, figures = [os.path.abspath(path) for path in argv[:2]], {}
    before = load()
    print(f"{processor()}. Best of {ROUNDS} rounds, the Rust and frames in turn, one process for each file, output to the null device.")
    with tempfile.TemporaryDirectory() as folder:
        mixed_table(programs, folder, figures)
        cost_table(programs, folder, figures)
        writes_table(programs, folder, figures)
    after = load()
    print(f"\nLoad average {before:.2f} before, {after:.2f} after; the measuring itself makes about 1.")
    if before > 0.5 or after > 1.5:
        print("**The machine was loaded: these figures are not final.**")
    if len(argv) == 3:
        with open(argv[2], "w") as f:
            json.dump(figures, f, indent=1)
    return 0


if __name__ == "__main__":
    sys.exit(main(sys.argv[1:]))
