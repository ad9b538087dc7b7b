"""side_by_side.py STATION_PORT REDIS_PORT: the same requests to both.

SAME holds lists of steps whose replies are equal, byte by byte. WATCHES holds such lists for the watch of each key (document 02, R-7), COUNTS
for argument counts inside MULTI (R-8) and NUMBERS for whole numbers (R-1), each with its name and the last reply. DIFFERENT holds those where
the documents ask for another answer than Redis gives, each with the reason and both replies; a case of it whose replies have become equal is
an error too. A step is a console and its words; `{k}` in a word is a prefix of that case alone, so that no case meets the keys of another.
"""
import socket
import sys

MAX, MIN = "9223372036854775807", "-9223372036854775808"

SAME = [
    ["0 PING", "0 ECHO hello", "0 ping", "0 PiNg"],
    ["0 PING text"],
    ["0 SET {k}a 1", "0 GET {k}a", "0 GET {k}b", "0 SET {k}a", "0 GET", "0 GET {k}a {k}b"],
    ["0 SET {k}a x", "0 DEL {k}a", "0 GET {k}a", "0 DEL {k}a", "0 DEL", "0 EXISTS {k}a"],
    ["0 MSET {k}a 1 {k}b 2", "0 MGET {k}a {k}b {k}c", "0 EXISTS {k}a {k}a {k}c", "0 DEL {k}a {k}b {k}c", "0 MGET {k}a"],
    ["0 MGET", "0 EXISTS", "0 ECHO", "0 ECHO a b", "0 INCR", "0 INCRBY {k}a", "0 DECR", "0 INCR {k}a {k}b"],
    ["0 INCR {k}n", "0 INCR {k}n", "0 INCRBY {k}n 40", "0 DECR {k}n", "0 GET {k}n", "0 INCRBY {k}n -41", "0 GET {k}n"],
    ["0 SET {k}n x", "0 INCR {k}n", "0 INCRBY {k}n y", "0 GET {k}n"],
    ["0 SET {k}n " + MAX, "0 INCR {k}n", "0 GET {k}n", "0 DECR {k}n", "0 INCRBY {k}n 2", "0 GET {k}n"],
    ["0 SET {k}n " + MIN, "0 DECR {k}n", "0 GET {k}n", "0 INCR {k}n"],
    ["0 SET {k}n 9223372036854775808", "0 INCR {k}n", "0 INCRBY {k}m 9223372036854775808", "0 GET {k}m"],
    ["0 MULTI", "0 EXEC", "0 MULTI", "0 DISCARD"],
    ["0 EXEC", "0 DISCARD"],
    ["0 MULTI", "0 MULTI", "0 EXEC"],
    ["0 MULTI", "0 SET {k}a 1", "0 INCR {k}a", "0 GET {k}a", "0 MGET {k}a {k}b", "0 EXEC", "0 GET {k}a"],
    ["0 MULTI", "0 SET {k}a x", "0 INCR {k}a", "0 SET {k}b y", "0 EXEC", "0 MGET {k}a {k}b"],
    ["0 MULTI", "0 SET {k}a 1", "0 DISCARD", "0 GET {k}a"],
    ["0 MULTI", "0 PING", "0 ECHO e", "0 EXISTS {k}a", "0 DEL {k}a", "0 DECR {k}n", "0 INCRBY {k}n 5", "0 MSET {k}a 1 {k}b 2", "0 EXEC"],
    ["0 WATCH {k}a", "0 MULTI", "0 SET {k}a 1", "0 EXEC", "0 GET {k}a"],
    ["0 WATCH {k}a", "1 SET {k}a 2", "0 MULTI", "0 SET {k}a 1", "0 EXEC", "0 GET {k}a"],
    ["0 WATCH {k}a", "0 MULTI", "1 SET {k}a 2", "0 SET {k}b 1", "0 EXEC", "0 GET {k}b"],
    ["0 WATCH {k}a", "0 SET {k}a 2", "0 MULTI", "0 GET {k}a", "0 EXEC"],
    ["0 WATCH {k}a {k}b", "1 SET {k}b 2", "0 MULTI", "0 EXEC"],
    ["0 WATCH {k}a", "1 SET {k}a 2", "0 UNWATCH", "0 MULTI", "0 SET {k}a 1", "0 EXEC", "0 GET {k}a"],
    ["0 WATCH {k}a", "1 SET {k}a 2", "0 MULTI", "0 DISCARD", "0 MULTI", "0 GET {k}a", "0 EXEC"],
    ["0 WATCH {k}a", "1 SET {k}b 2", "0 MULTI", "0 GET {k}a", "0 EXEC"],
    ["0 SET {k}a 1", "0 WATCH {k}a", "1 DEL {k}a", "0 MULTI", "0 EXEC"],
    ["0 WATCH {k}a", "1 MULTI", "1 SET {k}a 1", "1 EXEC", "0 MULTI", "0 EXEC", "0 MULTI", "0 EXEC"],
    ["0 MULTI", "0 SET {k}a 1", "1 GET {k}a", "0 EXEC", "1 GET {k}a"],
    ["0 WATCH", "0 UNWATCH"],
    ["0 MULTI", "0 WATCH {k}a", "0 PING", "0 EXEC"],
    ["0 KEYS {k}*", "0 SET {k}one 1", "0 KEYS {k}*", "0 KEYS {k}?ne", "0 KEYS {k}\\one", "0 KEYS"],
    ["0 SET {k}a b", "0 set {k}a c", "0 GeT {k}a"],
    ["0 QUIT"],
]

WATCHES = [
    ("a key watched again", ["0 WATCH {k}a", "1 SET {k}a 1", "0 WATCH {k}a", "0 MULTI", "0 EXEC"], "*-1\r\n"),
    ("a key watched later", ["0 WATCH {k}a", "1 SET {k}b 1", "0 WATCH {k}b", "0 MULTI", "0 EXEC"], "*0\r\n"),
    ("a key watched later, then written", ["0 WATCH {k}a", "0 WATCH {k}b", "1 SET {k}b 1", "0 MULTI", "0 EXEC"], "*-1\r\n"),
    ("after UNWATCH", ["0 WATCH {k}a", "1 SET {k}a 1", "0 UNWATCH", "0 WATCH {k}a", "0 MULTI", "0 EXEC"], "*0\r\n"),
    ("after DISCARD", ["0 WATCH {k}a", "1 SET {k}a 1", "0 MULTI", "0 DISCARD", "0 WATCH {k}a", "0 MULTI", "0 EXEC"], "*0\r\n"),
    ("after EXEC", ["0 WATCH {k}a", "0 MULTI", "0 EXEC", "1 SET {k}a 1", "0 MULTI", "0 EXEC"], "*0\r\n"),
    ("EXEC without MULTI keeps the watch", ["0 WATCH {k}a", "0 EXEC", "0 SET {k}a 1", "0 MULTI", "0 EXEC"], "*-1\r\n"),
    ("one's own write inside EXEC", ["0 WATCH {k}a", "0 MULTI", "0 SET {k}a 1", "0 SET {k}a 2", "0 EXEC"], "*2\r\n+OK\r\n+OK\r\n"),
    ("one's own direct write", ["0 WATCH {k}a", "0 SET {k}a 1", "0 MULTI", "0 EXEC"], "*-1\r\n"),
    ("the same value again", ["0 SET {k}a 1", "0 WATCH {k}a", "1 SET {k}a 1", "0 MULTI", "0 EXEC"], "*-1\r\n"),
    ("written and deleted again", ["0 WATCH {k}a", "1 SET {k}a 1", "1 DEL {k}a", "0 MULTI", "0 EXEC"], "*-1\r\n"),
    ("GET of a key not watched", ["0 WATCH {k}a", "1 SET {k}b 1", "0 MULTI", "0 GET {k}b", "0 EXEC"], "*1\r\n$1\r\n1\r\n"),
    ("a key that is only written", ["0 WATCH {k}a", "1 SET {k}b 1", "0 MULTI", "0 SET {k}b 2", "0 EXEC"], "*1\r\n+OK\r\n"),
    ("a counter's key", ["0 WATCH {k}a", "1 INCR {k}n", "0 MULTI", "0 INCR {k}n", "0 EXEC"], "*1\r\n:2\r\n"),
]

NOT_INTEGER = "-ERR value is not an integer or out of range\r\n"

# A wrong count is not queued, and what stands around it is not carried out.
NOT_QUEUED = [
    "SET {k}a", "set {k}a", "SET", "GET", "GET {k}a {k}b", "MSET", "MSET {k}a", "INCR", "INCR {k}a {k}b {k}c", "INCRBY {k}a", "INCRBY {k}a 1 2", "DECR",
    "ECHO", "ECHO a b", "DEL", "EXISTS", "MGET",
]
ABORTED = "-EXECABORT Transaction discarded because of previous errors.\r\n"
COUNTS = [
    (f"{words} inside MULTI", ["0 MULTI", "0 SET {k}q 1", f"0 {words}", "0 INCR {k}q", "0 EXEC", "0 GET {k}q"], "$-1\r\n") for words in NOT_QUEUED
] + [
    ("a wrong count, then EXEC", ["0 MULTI", "0 GET", "0 EXEC"], ABORTED),
    ("EXEC ends the transaction", ["0 MULTI", "0 GET", "0 EXEC", "0 EXEC"], "-ERR EXEC without MULTI\r\n"),
    ("a wrong count, then DISCARD", ["0 MULTI", "0 GET", "0 DISCARD", "0 MULTI", "0 PING", "0 EXEC"], "*1\r\n+PONG\r\n"),
    ("a wrong count and a conflict", ["0 WATCH {k}a", "1 SET {k}a 1", "0 MULTI", "0 GET", "0 EXEC"], ABORTED),
    ("a wrong count behind 64 commands", ["0 MULTI"] + ["0 PING"] * 64 + ["0 GET", "0 EXEC"], ABORTED),
    ("a wrong count outside MULTI", ["0 SET {k}a", "0 MULTI", "0 EXEC"], "*0\r\n"),
    ("a wrong count of another console", ["0 MULTI", "0 SET {k}a 1", "1 SET {k}a", "0 EXEC"], "*1\r\n+OK\r\n"),
    ("an amount that is no number", ["0 MULTI", "0 INCRBY {k}n x", "0 EXEC"], "*1\r\n" + NOT_INTEGER),
    ("MULTI inside MULTI does not mark", ["0 MULTI", "0 MULTI", "0 PING", "0 EXEC"], "*1\r\n+PONG\r\n"),
]

NUMBERS = [
    ("0 held", ["0 SET {k}n 0", "0 INCR {k}n"], ":1\r\n"),
    ("the least number held", ["0 SET {k}n " + MIN, "0 INCR {k}n"], ":-9223372036854775807\r\n"),
    ("the least number as an amount", ["0 INCRBY {k}n " + MIN, "0 GET {k}n"], "$20\r\n" + MIN + "\r\n"),
    ("+ held", ["0 SET {k}n +7", "0 INCR {k}n"], NOT_INTEGER),
    ("+ and leading zeros held", ["0 SET {k}n +007", "0 DECR {k}n"], NOT_INTEGER),
    ("leading zeros held", ["0 SET {k}n 007", "0 INCRBY {k}n 1"], NOT_INTEGER),
    ("- and leading zeros held", ["0 SET {k}n -01", "0 INCR {k}n"], NOT_INTEGER),
    ("-0 held", ["0 SET {k}n -0", "0 INCR {k}n"], NOT_INTEGER),
    ("two zeros held", ["0 SET {k}n 00", "0 INCR {k}n"], NOT_INTEGER),
    ("no text held", ["0 SET {k}n ", "0 INCR {k}n"], NOT_INTEGER),
    ("held inside EXEC", ["0 SET {k}n +7", "0 MULTI", "0 INCR {k}n", "0 GET {k}n", "0 EXEC"], "*2\r\n" + NOT_INTEGER + "$2\r\n+7\r\n"),
    ("+ in an amount", ["0 INCRBY {k}n +7"], NOT_INTEGER),
    ("leading zeros in an amount", ["0 INCRBY {k}n 07"], NOT_INTEGER),
    ("- and leading zeros in an amount", ["0 INCRBY {k}n -01"], NOT_INTEGER),
    ("-0 as an amount", ["0 INCRBY {k}n -0"], NOT_INTEGER),
    ("one below the least as an amount", ["0 INCRBY {k}n -9223372036854775809"], NOT_INTEGER),
    ("+ in COUNT", ["0 SCAN 0 COUNT +1"], NOT_INTEGER),
    ("leading zeros in COUNT", ["0 SCAN 0 COUNT 01"], NOT_INTEGER),
    ("-0 as COUNT", ["0 SCAN 0 COUNT -0"], NOT_INTEGER),
]

# Name of the difference in the documents or in what they take from the Rust, the steps, and what each side answers to the last step.
DIFFERENT = [
    ("unknown command: no list of arguments", ["0 FOO a"], "-ERR unknown command 'FOO'\r\n", "-ERR unknown command 'FOO', with args beginning with: 'a' \r\n"),
    ("INFO outside MULTI is unknown", ["0 INFO nothing"], "-ERR unknown command 'INFO'\r\n", "$0\r\n\r\n"),
    ("eleven names may be queued", ["0 MULTI", "0 DBSIZE"], "-ERR 'DBSIZE' can't be used inside MULTI\r\n", "+QUEUED\r\n"),
    ("UNWATCH inside MULTI marks the session", ["0 MULTI", "0 UNWATCH"], "-ERR 'UNWATCH' can't be used inside MULTI\r\n", "+QUEUED\r\n"),
    ("SCAN inside MULTI keeps its text, whatever its count", ["0 MULTI", "0 SCAN"], "-ERR 'SCAN' can't be used inside MULTI\r\n", "-ERR wrong number of arguments for 'scan' command\r\n"),
    ("WATCH inside MULTI keeps its text, whatever its count", ["0 MULTI", "0 WATCH"], "-ERR WATCH inside MULTI is not allowed\r\n", "-ERR wrong number of arguments for 'watch' command\r\n"),
    ("WATCH without keys inside MULTI does not mark the session", ["0 MULTI", "0 WATCH", "0 EXEC"], "*0\r\n", ABORTED),
    ("MSET that ends with a key is told when queueing", ["0 MULTI", "0 MSET {k}a 1 {k}b"], "-ERR wrong number of arguments for 'mset' command\r\n", "+QUEUED\r\n"),
    ("PING with two arguments is told when queueing", ["0 MULTI", "0 PING a b"], "-ERR wrong number of arguments for 'ping' command\r\n", "+QUEUED\r\n"),
    ("SET has no options", ["0 SET {k}a 1 NX"], "-ERR SET options (EX, NX, ...) are not supported\r\n", "+OK\r\n"),
    ("SET with options is not queued", ["0 MULTI", "0 SET {k}a 1 EX 5"], "-ERR SET options (EX, NX, ...) are not supported\r\n", "+QUEUED\r\n"),
    ("SET with options marks the session", ["0 MULTI", "0 SET {k}a 1 EX 5", "0 EXEC"], ABORTED, "*1\r\n+OK\r\n"),
    ("DEL counts a repeated argument twice", ["0 SET {k}a 1", "0 DEL {k}a {k}a"], ":2\r\n", ":1\r\n"),
    ("SCAN's cursor is a whole number", ["0 SCAN 00 MATCH {k}* COUNT 1000"], "-ERR invalid cursor\r\n", "*2\r\n$1\r\n0\r\n*0\r\n"),
    ("a length may have a plus sign", ["0 RAW *+1\r\n$4\r\nPING\r\n"], "+PONG\r\n", "-ERR Protocol error: invalid multibulk length\r\n"),
    ("a length may have leading zeros", ["0 RAW *1\r\n$04\r\nPING\r\n"], "+PONG\r\n", "-ERR Protocol error: invalid bulk length\r\n"),
    ("DEL of an absent key is a write", ["0 WATCH {k}a", "1 DEL {k}a", "0 MULTI", "0 EXEC"], "*-1\r\n", "*0\r\n"),
    ("inline lines have no quoting", ["0 INLINE ECHO 'a'"], "$3\r\n'a'\r\n", "$1\r\na\r\n"),
    ("protocol errors have the Rust's text", ["0 RAW *x\r\n"], "-ERR Protocol error: invalid multibulk length 'x'\r\n", "-ERR Protocol error: invalid multibulk length\r\n"),
    ("RANGE is not of Redis", ["0 RANGE {k}a {k}b"], "*0\r\n", None),
]


class Side:
    """A server with consoles that are opened when a step first names them."""

    def __init__(self, port):
        self.port = port
        self.consoles = {}

    def step(self, console, sent):
        if console not in self.consoles:
            s = socket.create_connection(("127.0.0.1", self.port), timeout=10)
            self.consoles[console] = (s, s.makefile("rb"))
        s, replies = self.consoles[console]
        s.sendall(sent)
        return reply(replies)

    def end(self):
        for s, replies in self.consoles.values():
            replies.close()
            s.close()
        self.consoles = {}


def reply(stream):
    """The bytes of one reply."""
    line = stream.readline()
    if line[:1] == b"$" and line != b"$-1\r\n":
        return line + stream.read(int(line[1:]) + 2)
    if line[:1] == b"*":
        return line + b"".join(reply(stream) for _ in range(max(0, int(line[1:]))))
    return line


def request(text, prefix):
    console, rest = text.split(" ", 1)
    rest = rest.replace("{k}", prefix)
    if rest.startswith("RAW "):
        return console, rest[4:].encode()
    if rest.startswith("INLINE "):
        return console, rest[7:].encode() + b"\r\n"
    words = rest.split(" ")
    return console, b"*%d\r\n" % len(words) + b"".join(b"$%d\r\n%s\r\n" % (len(w.encode()), w.encode()) for w in words)


def both(station, redis, steps, prefix):
    """The replies of both to each step."""
    told = []
    for step in steps:
        console, sent = request(step, prefix)
        told.append((step, station.step(console, sent), redis.step(console, sent)))
    station.end()
    redis.end()
    return told


def main():
    station, redis = Side(int(sys.argv[1])), Side(int(sys.argv[2]))
    for i, steps in enumerate(SAME):
        for step, ours, theirs in both(station, redis, steps, f"s{i}:"):
            if ours != theirs:
                sys.exit(f"{steps}, at {step}\n station {ours!r}\n redis   {theirs!r}")
    for i, (what, steps, due) in enumerate(WATCHES + COUNTS + NUMBERS):
        told = both(station, redis, steps, f"w{i}:")
        if any(ours != theirs for _, ours, theirs in told) or told[-1][1] != due.encode():
            sys.exit(f"{what}: due {due!r}, told {told}")
    for i, (why, steps, our_due, their_due) in enumerate(DIFFERENT):
        step, ours, theirs = both(station, redis, steps, f"d{i}:")[-1]
        if ours != our_due.encode() or ours == theirs or (their_due is not None and theirs != their_due.encode()):
            sys.exit(f"{why}: {steps}\n station {ours!r}, due {our_due!r}\n redis   {theirs!r}, due {their_due!r}")
        print(f"difference: {why}")
    print(f"side_by_side.py: {len(SAME) + len(WATCHES) + len(COUNTS) + len(NUMBERS)} cases with equal replies, {len(DIFFERENT)} with the differences named")


main()
