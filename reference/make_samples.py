#!/usr/bin/env python3
"""Writes the files under samples/, always the same.

mixed-N.in       generated input (fixed seeds) in the domain of runs against the Rust; mixed-N.out is the Rust's output
watched.in       generated input (fixed seed) with WATCH, writes and EXEC in any order, and commands inside MULTI that are not queued for their
                 argument count; watched.out is the model's output
groups.in        group scripts (fixed seed) within capacities; groups.out is the Rust's output
group-limits.in  group scripts that meet 6, 7 and 8; group-limits.out is the model's output
previews.in      group scripts with requests and previews (fixed seed); previews.out is the model's output
limits.in        each limit reached exactly and one beyond, in one run; limits.out is the model's output
published.in     published examples; published.out is their expected output, byte for byte (published.md lists the sources and how they were taken)

    make_samples.py                         the files under samples/
    make_samples.py frames STDIN STDOUT     input and expected output for the program frames, one process: published, mixed-1, a part of
                                            watched and each limit, the store's at last

frames_rust must have been built (rust/build.sh). The script stops if the Rust, the model and the bytes given as published disagree.
"""

import os
import random
import re
import subprocess
import sys
from collections import Counter

import generate
import model
from generate import array_bytes, frame_lines, inline_bytes

HERE = os.path.dirname(os.path.abspath(__file__))
RUST = os.path.join(HERE, "rust", "frames_rust")
RUST_GROUPS = os.path.join(HERE, "rust", "groups_rust")
LINES = 500
MIXED = [
    (65, {"count": 2, "odd": 0.1, "transact": 0.3, "split": 0.1}),
    (66, {"count": 3, "odd": 0.1, "transact": 0.6, "split": 0.0}),
    (70, {"count": 4, "odd": 0.1, "transact": 0.3, "split": 0.3}),
    (68, {"count": 16, "odd": 0.1, "transact": 0.3, "split": 0.1}),
]
WATCHED = (53, {"count": 4, "keys": [b"a", b"b", b"n", b"m"], "odd": 0.02, "split": 0.0, "pipeline": 0.2, "write": 0.2, "wrong": 0.05})
WATCHED_PART = 300  # lines of it that the program frames gets


def text_of(lines):
    return b"".join(line + b"\n" for line in lines)


def rust(lines, program=RUST):
    return model.lines_of(subprocess.run([program], input=text_of(lines), stdout=subprocess.PIPE, check=True).stdout)


def models(lines):
    return model.lines_of(model.answer_frames(text_of(lines)))


def write(name, lines):
    with open(os.path.join(HERE, "samples", name), "wb") as f:
        f.write(text_of(lines))


def must(condition, text):
    if not condition:
        sys.exit(text)


# Every answer that the mixed samples must show at least once, as a pattern over replies
WANTED = [
    rb"\+OK", rb"\+PONG", rb"\+QUEUED", rb":\d+", rb":-\d+", rb"\$-1", rb"\$0\r\n", rb"\*0\r\n", rb"\*[1-9]", rb"-EXECABORT ",
    rb"-ERR unknown command '", rb"-ERR '.*' can't be used inside MULTI", rb"-ERR value is not an integer or out of range", rb"-ERR syntax error",
    rb"-ERR increment or decrement would overflow", rb"-ERR invalid cursor", rb"-ERR LIMIT must be a non-negative integer",
    rb"-ERR SET options \(EX, NX, \.\.\.\) are not supported", rb"-ERR EXEC without MULTI", rb"-ERR DISCARD without MULTI",
    rb"-ERR MULTI calls can not be nested", rb"-ERR WATCH inside MULTI is not allowed", rb"invalid multibulk length '", rb"invalid multibulk length\r",
    rb"multibulk length \d+ is over the limit of 1048576", rb"invalid bulk length '", rb"invalid bulk length\r", rb"expected '\$', got '",
    rb"bulk length \d+ is over the limit of 67108864", rb"bulk string not followed by CRLF", rb"\xef\xbf\xbd",
] + [
    b"wrong number of arguments for '%s' command" % name
    for name in b"get set del exists mget mset incr incrby decr ping echo dbsize keys scan range watch".split()
]


def mixed():
    shown = b""
    for number, (seed, fixed) in enumerate(MIXED, 1):
        found = generate.Mixed(random.Random(f"sample {seed}"), LINES, **fixed).run()
        must(len(found) == LINES, f"mixed-{number}: a number is met")
        answers = rust(found)
        must(answers == models(found), f"mixed-{number}: the model and the Rust differ")
        write(f"mixed-{number}.in", found)
        write(f"mixed-{number}.out", answers)
        shown += b"".join(bytes.fromhex(m[1].decode()) for line in answers if (m := re.fullmatch(rb"\d\d ([0-9a-f]+)!?", line)))
        print(f"mixed-{number}: {len(found)} lines")
    for pattern in WANTED:
        must(re.search(pattern, shown), f"no sample shows {pattern}")


class Counted(model.Registry):
    """Counts the errors of commands that are not queued for their argument count."""

    def __init__(self, store):
        super().__init__(store)
        self.refused = Counter()

    def inside(self, session, name, args):
        if name in model.QUEUEABLE:
            self.refused[model.queue_refusal(name, len(args) - 1)] += 1
        return super().inside(session, name, args)


def refused_in(lines):
    """How many commands inside MULTI have a wrong count, and how many are SET with options."""
    frames = model.Frames()
    frames.registry = Counted(frames.registry.store)
    for line in lines:
        frames.line(line)
    told = frames.registry.refused
    return told.total() - told[None] - told[model.SET_OPTIONS], told[model.SET_OPTIONS]


def watched():
    seed, fixed = WATCHED
    lines = generate.Watched(random.Random(f"sample {seed}"), LINES, **fixed).run()
    answers = models(lines)
    must(not any(map(generate.meets_number, answers)), "watched: a number is met")
    must(min(refused_in(lines[:WATCHED_PART])) > 1, "watched: hardly a command that is not queued for its count")
    write("watched.in", lines)
    write("watched.out", answers)
    nil = sum(b"*-1\r\n".hex().encode() in line for line in answers)
    counts, options = refused_in(lines)
    print(f"watched: {len(lines)} lines, {nil} of them with an EXEC answered *-1, {sum(a != b for a, b in zip(answers, rust(lines)))} answered otherwise by the Rust")
    print(f"watched: not queued are {counts} commands of wrong count and {options} SET with options")


def limit_lines():
    """The runs of `generate.py limits` that leave most of the store free, one behind the other, each ended by QUIT."""
    lines = []
    part = re.compile(r"session|frame|rest|array|inline|count|QUIT|words|2 leaves|queued|cannot be queued|4 and|watch|named twice|5 leaves|MGET reply \+[01]$|EXEC reply \+[01]$")
    for name, run in generate.limit_runs():
        if part.search(name) and not re.search(r"\b(63|31|511|8191|2047|1023)\b|bytes left|versions,", name):
            lines += run + frame_lines(0, b"\nQUIT\n") + frame_lines(1, b"\nQUIT\n")
    return lines


def limits():
    """The runs that leave most of the store free; then the store is filled."""
    lines = limit_lines()
    store = model.Frames()
    for line in lines:
        store.line(line)
    left = 1024 - len(store.registry.store.versions)
    must(0 < left and store.registry.store.bytes_used() < 30000, "the store is full too early")
    # one version left, then none
    for at in range(0, left - 1, 50):
        lines += frame_lines(0, inline_bytes([b"DEL"] + [b"%d" % i for i in range(at, min(at + 50, left - 1))]))
    for step in (
        b"MSET a 1 b 2\n", b"DEL a a\n", b"MULTI\nSET a 1\nSET b 2\nEXEC\n", b"DISCARD\n", b"WATCH a\nMULTI\nSET a 1\nSET a 2\nEXEC\n", b"SET a 3\n", b"GET a\n",
        b"INCR a\n", b"SET s x\n", b"INCRBY a x\n", b"INCRBY a 9223372036854775807\n", b"DEL zz\n", b"MULTI\nGET a\nEXEC\n", b"MULTI\nINCR a\nEXEC\n", b"EXEC\n",
        b"DISCARD\n", b"MULTI\nFOO\nSET a 4\nEXEC\n", b"MULTI\nSET a 4\nSET a\nEXEC\n", b"DBSIZE\n", b"MGET a b s\n",
    ):
        lines += frame_lines(0, step)
    write("limits.in", lines)
    write("limits.out", models(lines))
    print(f"limits: {len(lines)} lines")


def groups():
    for name, count in (("groups", 25), ("group-limits", 25)):
        lines = [line for _, run in generate.runs_of(name, 41, count) for line in run]
        answers = model.lines_of(model.answer_groups(text_of(lines)))
        if name == "groups":
            must(answers == rust(lines, RUST_GROUPS), "groups: the model and the Rust differ")
        write(f"{name}.in", lines)
        write(f"{name}.out", answers)
        print(f"{name}: {len(lines)} lines")


# Every kind of answer to a preview that the sample must show: number, verdict, last sequence and reply
PREVIEWED = [
    rb"0 0 \d+ 2a3.*", rb"0 1 \d+ " + b"*-1\r\n".hex().encode(), rb"0 255 \d+ " + b"-ERR EXEC without MULTI\r\n".hex().encode(),
    rb"0 255 \d+ " + b"-EXECABORT ".hex().encode() + rb".*",
] + [b"%d 255 0 -" % number for number in (1, 9, 6, 7, 3)]


def previews():
    lines = [line for _, run in generate.runs_of("previews", 41, 2) for line in run]
    answers = model.lines_of(model.answer_groups(text_of(lines)))
    for pattern in PREVIEWED:
        must(any(re.fullmatch(pattern, answer) for answer in answers), f"no preview is answered {pattern}")
    write("previews.in", lines)
    write("previews.out", answers)
    print(f"previews: {len(lines)} lines, {sum(line.startswith(b'preview') for line in lines)} previews")


RESP = "RESP protocol specification"
COMMANDS = "Redis command page "
TRANSACTIONS = "Redis page on transactions"


def bulk_text(text):
    return b"$%d\r\n%s\r\n" % (len(text), text)


def say(*words):
    return array_bytes(list(words))


# Source, and steps of session, request, reply. The pages show requests as typed or as bytes, and replies as bytes or as redis-cli prints them
# (`(integer) 2` is `:2`, `"Hello"` a bulk string, `(nil)` the null bulk string, `1) .. 2) ..` an array).
PUBLISHED = [
    (f"{RESP}, inline commands: PING", [(0, b"PING\r\n", b"+PONG\r\n")]),
    (f"{RESP}, inline commands: EXISTS somekey", [(0, b"EXISTS somekey\r\n", b":0\r\n")]),
    (f"{RESP}, simple errors: unknown command 'asdf'", [(0, b"asdf\r\n", b"-ERR unknown command 'asdf'\r\n")]),
    (f"{RESP}, bulk strings: the encoding of `hello` and of the empty string", [(0, say(b"ECHO", b"hello"), b"$5\r\nhello\r\n"), (0, say(b"ECHO", b""), b"$0\r\n\r\n")]),
    (f"{RESP}, null bulk strings: GET of a key that does not exist", [(0, say(b"GET", b"nokey"), b"$-1\r\n")]),
    (
        f"{RESP}, arrays: `hello` and `world`; an array with a null element; the empty array",
        [
            (0, say(b"MSET", b"one", b"hello", b"two", b"world"), b"+OK\r\n"),
            (0, say(b"MGET", b"one", b"two"), b"*2\r\n$5\r\nhello\r\n$5\r\nworld\r\n"),
            (0, say(b"MGET", b"one", b"nokey", b"two"), b"*3\r\n$5\r\nhello\r\n$-1\r\n$5\r\nworld\r\n"),
            (0, say(b"KEYS", b"nokey"), b"*0\r\n"),
            (0, say(b"DEL", b"one", b"two"), b":2\r\n"),
        ],
    ),
    (
        f"{RESP}, integers: the encodings of 0 and 1000",
        [(0, say(b"EXISTS", b"n"), b":0\r\n"), (0, say(b"INCRBY", b"n", b"1000"), b":1000\r\n"), (0, say(b"DEL", b"n"), b":1\r\n")],
    ),
    (
        "Redis page on bulk loading: SET key value as bytes",
        [(0, b"*3\r\n$3\r\nSET\r\n$3\r\nkey\r\n$5\r\nvalue\r\n", b"+OK\r\n"), (0, say(b"GET", b"key"), bulk_text(b"value")), (0, say(b"DEL", b"key"), b":1\r\n")],
    ),
    ("Redis page on pipelining: three PINGs in one packet", [(0, b"PING\r\nPING\r\nPING\r\n", b"+PONG\r\n+PONG\r\n+PONG\r\n")]),
    (COMMANDS + "PING", [(0, b"PING\r\n", b"+PONG\r\n"), (0, say(b"PING", b"hello world"), bulk_text(b"hello world"))]),
    (COMMANDS + "ECHO", [(0, say(b"ECHO", b"Hello World!"), bulk_text(b"Hello World!"))]),
    (
        COMMANDS + "GET",
        [(0, b"GET nonexisting\r\n", b"$-1\r\n"), (0, say(b"SET", b"mykey", b"Hello"), b"+OK\r\n"), (0, b"GET mykey\r\n", bulk_text(b"Hello")), (0, b"DEL mykey\r\n", b":1\r\n")],
    ),
    (COMMANDS + "SET", [(0, say(b"SET", b"mykey", b"Hello"), b"+OK\r\n"), (0, b"GET mykey\r\n", bulk_text(b"Hello")), (0, b"DEL mykey\r\n", b":1\r\n")]),
    (
        COMMANDS + "DEL",
        [(0, say(b"SET", b"key1", b"Hello"), b"+OK\r\n"), (0, say(b"SET", b"key2", b"World"), b"+OK\r\n"), (0, b"DEL key1 key2 key3\r\n", b":2\r\n")],
    ),
    (
        COMMANDS + "EXISTS",
        [
            (0, say(b"SET", b"key1", b"Hello"), b"+OK\r\n"),
            (0, b"EXISTS key1\r\n", b":1\r\n"),
            (0, b"EXISTS nosuchkey\r\n", b":0\r\n"),
            (0, say(b"SET", b"key2", b"World"), b"+OK\r\n"),
            (0, b"EXISTS key1 key2 nosuchkey\r\n", b":2\r\n"),
            (0, b"DEL key1 key2\r\n", b":2\r\n"),
        ],
    ),
    (
        COMMANDS + "MGET",
        [
            (0, say(b"SET", b"key1", b"Hello"), b"+OK\r\n"),
            (0, say(b"SET", b"key2", b"World"), b"+OK\r\n"),
            (0, b"MGET key1 key2 nonexisting\r\n", b"*3\r\n" + bulk_text(b"Hello") + bulk_text(b"World") + b"$-1\r\n"),
            (0, b"DEL key1 key2\r\n", b":2\r\n"),
        ],
    ),
    (
        COMMANDS + "MSET",
        [
            (0, say(b"MSET", b"key1", b"Hello", b"key2", b"World"), b"+OK\r\n"),
            (0, b"GET key1\r\n", bulk_text(b"Hello")),
            (0, b"GET key2\r\n", bulk_text(b"World")),
            (0, b"DEL key1 key2\r\n", b":2\r\n"),
        ],
    ),
    (
        COMMANDS + "INCR",
        [(0, b"SET mykey 10\r\n", b"+OK\r\n"), (0, b"INCR mykey\r\n", b":11\r\n"), (0, b"GET mykey\r\n", bulk_text(b"11")), (0, b"DEL mykey\r\n", b":1\r\n")],
    ),
    (COMMANDS + "INCRBY", [(0, b"SET mykey 10\r\n", b"+OK\r\n"), (0, b"INCRBY mykey 5\r\n", b":15\r\n"), (0, b"DEL mykey\r\n", b":1\r\n")]),
    (
        COMMANDS + "DECR",
        [
            (0, b"SET mykey 10\r\n", b"+OK\r\n"),
            (0, b"DECR mykey\r\n", b":9\r\n"),
            (0, b"SET mykey 234293482390480948029348230948\r\n", b"+OK\r\n"),
            (0, b"DECR mykey\r\n", b"-ERR value is not an integer or out of range\r\n"),
            (0, b"DEL mykey\r\n", b":1\r\n"),
        ],
    ),
    (
        COMMANDS + "KEYS (the page's order of keys is not fixed; here ascending)",
        [
            (0, b"MSET firstname Jack lastname Stuntman age 35\r\n", b"+OK\r\n"),
            (0, b"KEYS *name*\r\n", b"*2\r\n" + bulk_text(b"firstname") + bulk_text(b"lastname")),
            (0, b"KEYS a??\r\n", b"*1\r\n" + bulk_text(b"age")),
            (0, b"KEYS *\r\n", b"*3\r\n" + bulk_text(b"age") + bulk_text(b"firstname") + bulk_text(b"lastname")),
            (0, b"DEL firstname lastname age\r\n", b":3\r\n"),
        ],
    ),
    (
        COMMANDS + "KEYS, supported glob-style patterns: h?llo matches hello, hallo and hxllo; h*llo matches hllo and heeeello",
        [
            (0, b"MSET hello 1 hallo 1 hxllo 1 hllo 1 heeeello 1\r\n", b"+OK\r\n"),
            (0, b"KEYS h?llo\r\n", b"*3\r\n" + bulk_text(b"hallo") + bulk_text(b"hello") + bulk_text(b"hxllo")),
            (0, b"KEYS h*llo\r\n", b"*5\r\n" + b"".join(map(bulk_text, (b"hallo", b"heeeello", b"hello", b"hllo", b"hxllo")))),
            (0, b"DEL hello hallo hxllo hllo heeeello\r\n", b":5\r\n"),
        ],
    ),
    (
        f"{TRANSACTIONS}, usage",
        [
            (0, b"MULTI\r\n", b"+OK\r\n"),
            (0, b"INCR foo\r\n", b"+QUEUED\r\n"),
            (0, b"INCR bar\r\n", b"+QUEUED\r\n"),
            (0, b"EXEC\r\n", b"*2\r\n:1\r\n:1\r\n"),
            (0, b"DEL foo bar\r\n", b":2\r\n"),
        ],
    ),
    (
        f"{TRANSACTIONS}, discarding the command queue",
        [
            (0, b"SET foo 1\r\n", b"+OK\r\n"),
            (0, b"MULTI\r\n", b"+OK\r\n"),
            (0, b"INCR foo\r\n", b"+QUEUED\r\n"),
            (0, b"DISCARD\r\n", b"+OK\r\n"),
            (0, b"GET foo\r\n", bulk_text(b"1")),
            (0, b"DEL foo\r\n", b":1\r\n"),
        ],
    ),
    (
        f"{TRANSACTIONS}, optimistic locking: WATCH mykey, GET, MULTI, SET, EXEC (with the values 1 and 2)",
        [
            (0, b"SET mykey 1\r\n", b"+OK\r\n"),
            (0, b"WATCH mykey\r\n", b"+OK\r\n"),
            (0, b"GET mykey\r\n", bulk_text(b"1")),
            (0, b"MULTI\r\n", b"+OK\r\n"),
            (0, b"SET mykey 2\r\n", b"+QUEUED\r\n"),
            (0, b"EXEC\r\n", b"*1\r\n+OK\r\n"),
            (0, b"GET mykey\r\n", bulk_text(b"2")),
            (0, b"DEL mykey\r\n", b":1\r\n"),
        ],
    ),
    (
        f"{TRANSACTIONS}, WATCH explained: when EXEC is called, all keys are unwatched",
        [
            (0, b"WATCH mykey\r\n", b"+OK\r\n"),
            (0, b"MULTI\r\n", b"+OK\r\n"),
            (0, b"EXEC\r\n", b"*0\r\n"),
            (1, b"SET mykey 5\r\n", b"+OK\r\n"),
            (0, b"MULTI\r\n", b"+OK\r\n"),
            (0, b"INCR mykey\r\n", b"+QUEUED\r\n"),
            (0, b"EXEC\r\n", b"*1\r\n:6\r\n"),
            (0, b"DEL mykey\r\n", b":1\r\n"),
        ],
    ),
    (
        f"{TRANSACTIONS}, WATCH explained: UNWATCH without arguments flushes all watched keys",
        [
            (0, b"WATCH mykey\r\n", b"+OK\r\n"),
            (1, b"SET mykey 5\r\n", b"+OK\r\n"),
            (0, b"UNWATCH\r\n", b"+OK\r\n"),
            (0, b"MULTI\r\n", b"+OK\r\n"),
            (0, b"GET mykey\r\n", b"+QUEUED\r\n"),
            (0, b"EXEC\r\n", b"*1\r\n" + bulk_text(b"5")),
            (0, b"DEL mykey\r\n", b":1\r\n"),
        ],
    ),
]

# Here the page alone is the yardstick, not the Rust: a write between first WATCH and EXEC, or a command that is not queued
BY_THE_PAGE = [
    (
        f"{TRANSACTIONS}, optimistic locking: another client changes mykey between WATCH and EXEC, so EXEC answers the null reply",
        [
            (0, b"SET mykey 1\r\n", b"+OK\r\n"),
            (0, b"WATCH mykey\r\n", b"+OK\r\n"),
            (0, b"GET mykey\r\n", bulk_text(b"1")),
            (1, b"SET mykey 5\r\n", b"+OK\r\n"),
            (0, b"MULTI\r\n", b"+OK\r\n"),
            (0, b"SET mykey 2\r\n", b"+QUEUED\r\n"),
            (0, b"EXEC\r\n", b"*-1\r\n"),
            (0, b"GET mykey\r\n", bulk_text(b"5")),
            (0, b"DEL mykey\r\n", b":1\r\n"),
        ],
    ),
    (
        f"{TRANSACTIONS}, WATCH explained: each WATCH watches for changes starting from its call",
        [
            (0, b"WATCH key1\r\n", b"+OK\r\n"),
            (1, b"SET key2 5\r\n", b"+OK\r\n"),
            (0, b"WATCH key2\r\n", b"+OK\r\n"),
            (0, b"MULTI\r\n", b"+OK\r\n"),
            (0, b"GET key2\r\n", b"+QUEUED\r\n"),
            (0, b"INCR key2\r\n", b"+QUEUED\r\n"),
            (0, b"EXEC\r\n", b"*2\r\n" + bulk_text(b"5") + b":6\r\n"),
            (0, b"DEL key2\r\n", b":1\r\n"),
        ],
    ),
    (
        f"{TRANSACTIONS}, WATCH explained: up to the moment EXEC is called; one WATCH can name any number of keys",
        [
            (0, b"WATCH key1 key2\r\n", b"+OK\r\n"),
            (0, b"MULTI\r\n", b"+OK\r\n"),
            (0, b"SET key1 1\r\n", b"+QUEUED\r\n"),
            (1, b"SET key2 5\r\n", b"+OK\r\n"),
            (0, b"EXEC\r\n", b"*-1\r\n"),
            (0, b"MGET key1 key2\r\n", b"*2\r\n$-1\r\n" + bulk_text(b"5")),
            (0, b"DEL key2\r\n", b":1\r\n"),
        ],
    ),
    (
        f"{TRANSACTIONS}, errors inside a transaction: a syntax error is reported at once, and INCR a b c is not queued at all",
        [
            (0, b"MULTI\r\n", b"+OK\r\n"),
            (0, b"INCR a b c\r\n", b"-ERR wrong number of arguments for 'incr' command\r\n"),
            (0, b"DISCARD\r\n", b"+OK\r\n"),
        ],
    ),
    (
        f"{TRANSACTIONS}, errors inside a transaction: after an error while queueing, EXEC answers an error and discards the transaction (the texts are the server's)",
        [
            (0, b"MULTI\r\n", b"+OK\r\n"),
            (0, b"SET foo 1\r\n", b"+QUEUED\r\n"),
            (0, b"SET foo\r\n", b"-ERR wrong number of arguments for 'set' command\r\n"),
            (0, b"INCR bar\r\n", b"+QUEUED\r\n"),
            (0, b"EXEC\r\n", b"-EXECABORT Transaction discarded because of previous errors.\r\n"),
            (0, b"MGET foo bar\r\n", b"*2\r\n$-1\r\n$-1\r\n"),
            (0, b"EXEC\r\n", b"-ERR EXEC without MULTI\r\n"),
        ],
    ),
]


def lines_of(examples):
    """The lines of examples, and their answers."""
    steps = [step for _, steps in examples for step in steps]
    given = [line for session, request, _ in steps for line in frame_lines(session, request)]
    return given, [b"%02d %s" % (session, reply.hex().encode()) for session, _, reply in steps]


def must_answer(name, got, wanted):
    must(len(got) == len(wanted), f"published: {name} answers {len(got)} lines")
    for line, (a, b) in enumerate(zip(got, wanted), 1):
        must(a == b, f"published line {line}: {name} answers {a}, the page {b}")


def published():
    judged, answers = lines_of(PUBLISHED)
    given, wanted = lines_of(PUBLISHED + BY_THE_PAGE)
    must(generate.lines_in_domain(judged) == len(judged), "published: an example leaves the domain")
    for example in BY_THE_PAGE:
        lines, _ = lines_of([example])
        must(generate.lines_in_domain(lines) < len(lines), f"published: {example[0]}: it stays in the domain")
    must_answer("the Rust", rust(judged), answers)
    must_answer("the model", models(given), wanted)
    notes = [
        "# Published examples",
        "",
        "The pages were not at hand: these examples were written down from memory, and want a comparison with the pages themselves. A server",
        "(Redis 7.0.15) gave these replies, but for more text behind the unknown command's name and another order of the keys of KEYS.",
        "",
        "Lines of published.in and published.out, and where the requests and replies come from. A last DEL in an example only clears the",
        "keys for the next one. Two sessions (00, 01) are two clients. Left out are examples that document 01 narrows (commands, options,",
        "replies or texts that the Rust does not have or answers in another way).",
        "",
        f"The Rust answers lines 1 to {len(judged)} alike. From line {len(judged) + 1} on something is written between WATCH and EXEC (R-7 of document 02),",
        "or a command inside MULTI is not queued for its argument count (R-8): there the page alone is the yardstick.",
        "",
        "| Lines | Source |",
        "|---|---|",
    ]
    at = 1
    for source, steps in PUBLISHED + BY_THE_PAGE:
        notes.append(f"| {at} to {at + len(steps) - 1} | {source} |")
        at += len(steps)
    write("published.in", given)
    write("published.out", wanted)
    write("published.md", [note.encode() for note in notes])
    print(f"published: {len(PUBLISHED + BY_THE_PAGE)} examples, {len(given)} lines; the first {len(PUBLISHED)} examples, {len(judged)} lines, are the Rust's too")


# One input for the program frames


class Told:
    """Lines and the model behind them."""

    def __init__(self):
        self.frames = model.Frames()
        self.lines, self.answers = [], []

    def add(self, lines):
        for line in lines:
            self.lines.append(line)
            self.answers.append(self.frames.line(line))

    def add_answered(self, lines, wanted):
        begun = len(self.lines)
        self.add(lines)
        must(self.answers[begun:] == wanted, "frames: a published example is answered otherwise")

    def say(self, session, *requests):
        for data in requests:
            self.add(frame_lines(session, data))

    def clear_sessions(self):
        """QUIT by each session that waits or has something queued or watched."""
        for session in range(model.SESSIONS):
            if self.frames.registry.sessions[session] != model.CLEAR or self.frames.rests[session]:
                self.say(session, b"\nQUIT\n")
            must(self.frames.registry.sessions[session] == model.CLEAR and not self.frames.rests[session], "a session is not clear")

    def versions_left(self):
        return 1024 - len(self.frames.registry.store.versions)

    def bytes_left(self):
        return 32768 - self.frames.registry.store.bytes_used()


def fill_bytes(told, left):
    """Writes values until `left` bytes are free."""
    while told.bytes_left() > left:
        size = min(2000, told.bytes_left() - left - 4)
        told.say(0, say(b"SET", b"fill", b"f" * size))
    must(told.bytes_left() == left, "the bytes are not filled as wanted")


def fill_versions(told, left):
    """Writes tombstones of the empty key, which take no bytes, until `left` versions are free."""
    while told.versions_left() > left:
        told.say(0, say(b"DEL", *[b""] * min(50, told.versions_left() - left)))


def at_the_bytes(told):
    """Three bytes are left, then one, then none."""
    fill_bytes(told, 3)
    told.say(0, say(b"SET", b"abcd", b""), b"MSET a 1 b 2\n", b"DEL abcd\n", b"INCRBY n 100\n", b"MULTI\nSET ab cd\nEXEC\n", b"DISCARD\n", b"MULTI\nSET a x\nSET a xxx\nEXEC\n", b"DISCARD\n")
    told.say(0, b"INCR q\n", b"INCR q\n", b"SET a b\n", say(b"SET", b"a", b""), say(b"DEL", b""), b"DEL a\n", b"INCR a\n", b"SET s x\n", b"MGET q a abcd n\n")


def at_the_versions(told):
    """Three versions are left, then one, then none; no bytes are left, so only the empty key is written."""
    fill_versions(told, 3)
    told.say(0, say(b"DEL", b"", b"", b"", b""), say(b"WATCH", b""), b"MULTI\n", say(b"SET", b"", b""), say(b"SET", b"a", b"b"))
    told.say(1, say(b"SET", b"", b""))
    told.say(0, b"EXEC\n", say(b"GET", b""), say(b"DEL", b""), b"MULTI\n", say(b"DEL", b"", b""), say(b"SET", b"", b""), b"EXEC\n", say(b"DEL", b""), say(b"SET", b"", b""))
    told.say(0, b"INCR a\n", b"INCRBY q x\n", b"INCRBY q 9223372036854775807\n", b"MULTI\nGET q\nEXEC\n", b"MULTI\nINCR q\nEXEC\n", b"EXEC\n", b"DISCARD\n")
    told.say(0, b"MULTI\nFOO\nSET a 4\nEXEC\n", b"MULTI\nSET a 4\nSET a\nEXEC\n", b"DBSIZE\n", b"MGET q a n\n", b"SCAN 0\n", b"RANGE q zz LIMIT 3\n")


def read_lines(name):
    with open(os.path.join(HERE, "samples", name), "rb") as f:
        return model.lines_of(f.read())


# The example of document 01: input, then output, whole.
EXAMPLE = [b"00 5049", b"00 4e470d0a", b"01 494e4352206e0d0a"]
EXAMPLE_ANSWERS = [b"00 -", b"00 2b504f4e470d0a", b"01 3a310d0a"]


def frames_told():
    """The lines of the input, their answers, and how many lines are in the domain."""
    told = Told()
    told.add(EXAMPLE)
    must(told.answers == EXAMPLE_ANSWERS, "frames: the example of document 01 is answered otherwise")
    told.say(1, b"DEL n\n")
    told.add_answered(*lines_of(PUBLISHED))
    told.add(read_lines("mixed-1.in"))
    told.clear_sessions()
    domain = len(told.lines)
    must(generate.lines_in_domain(told.lines) == domain, "frames: a line leaves the domain")
    must(told.answers == rust(told.lines), "frames: the model and the Rust differ")
    told.add_answered(*lines_of(BY_THE_PAGE))
    told.add(read_lines("watched.in")[:WATCHED_PART])
    told.clear_sessions()
    told.add(limit_lines())
    told.clear_sessions()
    at_the_bytes(told)
    at_the_versions(told)
    must(told.versions_left() == 0 and told.bytes_left() == 0, "frames: the store is not full at the end")
    return told, domain


def frames(stdin, stdout):
    told, domain = frames_told()
    for path, lines in ((stdin, told.lines), (stdout, told.answers)):
        with open(path, "wb") as f:
            f.write(text_of(lines))
    print(f"frames: {len(told.lines)} lines; the first {domain} are in the domain, and the Rust answers them alike")


if __name__ == "__main__":
    if sys.argv[1:2] == ["frames"] and len(sys.argv) == 4:
        frames(*sys.argv[2:])
    elif len(sys.argv) == 1:
        mixed()
        watched()
        limits()
        groups()
        previews()
        published()
    else:
        sys.exit(__doc__)
