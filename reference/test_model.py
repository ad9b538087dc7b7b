#!/usr/bin/env python3
"""Runs the model on the readings of document 01, on the points that its text leaves open, on R-1, on R-6, on R-7 and on R-8. Exit status 1 on a
difference."""

import sys

import model
from model import Frames, Member, Registry, Store

failures = []


def same(what, got, wanted):
    if got != wanted:
        failures.append(f"{what}: got {got!r}, wanted {wanted!r}")


def registry(last=0, versions=1024, size=32768):
    return Registry(Store(last, versions, size))


def replies(*steps, r=None):
    """Replies to whole requests; a step is bytes for session 0, or a session and bytes."""
    r = r or registry()
    out = []
    for step in steps:
        index, data = step if isinstance(step, tuple) else (0, step)
        answer = r.request(index, data)
        out.append(b"!%d" % answer.number if answer.number else answer.reply)
    return out


def last_reply(*steps, r=None):
    return replies(*steps, r=r)[-1]


def call(data, places=1024, room=32768, r=None):
    answer = (r or registry()).request(0, data, places, room)
    return answer.number, answer.used, answer.reply


def frames(*lines):
    f = Frames()
    return [f.line(line) for line in lines]


def put(*keys):
    return [(key, b"1") for key in keys]


# The readings of document 01
same("PING", call(b"*1\r\n$4\r\nPING\r\n"), (0, 14, b"+PONG\r\n"))
same("*+1", call(b"*+1\r\n$4\r\nPING\r\n"), (0, 15, b"+PONG\r\n"))
same("*-1", call(b"*-1\r\n"), (0, 5, b"-ERR Protocol error: invalid multibulk length '-1'\r\n"))
same("empty", call(b"\r\n"), (0, 2, b""))
for n, wanted in ((65536, (0, 65537)), (65537, (0, 65538))):
    got = call(b" " * n + b"\n")
    same(f"LF at {n}", got[:2], wanted)
    same(f"LF at {n}: fault", b"line too long" in got[2], n == 65537)
    got = call(b" " * n)
    same(f"{n} bytes without LF", got[1], 0 if n == 65536 else n)
r = registry()
same("overflow", last_reply(b"SET n 9223372036854775807\n", b"INCR n\n", r=r), b"-ERR increment or decrement would overflow\r\n")
same("no version", r.store.last, 1)
r = registry()
same("DEL k k", last_reply(b"SET k 1\n", b"DEL k k\n", r=r), b":2\r\n")
same("DEL k k: last", r.store.last, 3)
same("MULTI, EXEC", last_reply(b"MULTI\n", b"EXEC\n"), b"*0\r\n")
same("conflict", last_reply(b"WATCH f\n", b"MULTI\n", (1, b"SET f 1\n"), b"EXEC\n"), b"*-1\r\n")
same("conflict, SET queued", last_reply(b"WATCH f\n", b"MULTI\n", b"SET f 2\n", (1, b"SET f 1\n"), b"EXEC\n"), b"*-1\r\n")
wide = lambda: Store(0, 1000, 10**8)
for sizes, wanted in (([1048576, 0], [0, 0]), ([1048577, 0], [0, 255]), ([1, 1048576], [0, 255]), ([1, 1048576, 0], [0, 255, 255])):
    members = [Member(None, [(b"", b"x" * n)], []) for n in sizes]
    same(f"sizes {sizes}", wide().group(members), wanted)
store = Store(4)
store.write([(b"a", b"1")])
same("read 5", store.group([Member(5, put(b"a"), []), Member(5, [], [b"a"])]), [0, 1])
same("glob", model.glob(b"a*b?", b"axbbc"), True)
same("frames", frames(b"00 5049", b"00 4e470d0a", b"01 494e4352206e0d0a"), [b"00 -", b"00 2b504f4e470d0a", b"01 3a310d0a"])

# Where the text leaves two open
same("2, not yet there", call(b"*3\r\n", 2), (2, 0, b""))
same("2, a fault behind", call(b"*3\r\nX\r\n", 2), (2, 0, b""))
same("2, count above its limit", call(b"*1048577\r\n", 2), (0, 10, b"-ERR Protocol error: multibulk length 1048577 is over the limit of 1048576\r\n"))
same("2, no LF", call(b"a b c", 2), (0, 0, b""))
same("2 or QUIT", call(b"QUIT a b\n", 2), (2, 0, b""))
same("1, no bytes", registry().request(16, b"").number, 1)
same("wait for LF", call(b"*1\r\nX"), (0, 0, b""))
same("wait for LF in a count", call(b"*x"), (0, 0, b""))
same("a failed session queues on", replies(b"MULTI\n", b"FOO\n", *[b"PING\n"] * 65)[-2:], [b"+QUEUED\r\n", b"!4"])
r = registry()
replies(b"MULTI\n", *[b"PING\n"] * 64, r=r)
same("4 or 3", r.request(0, b"PING\n", room=0).number, 4)
same("4 marks", last_reply(b"EXEC\n", r=r), b"-EXECABORT Transaction discarded because of previous errors.\r\n")
same("names counted", last_reply(b"MULTI\n", b"DEL" + b" k" * 511 + b"\n", b"PING\n"), b"!4")
ABORT = b"-EXECABORT Transaction discarded because of previous errors.\r\n"
same("a wrong count inside MULTI", replies(b"MULTI\n", b"SET a 1\n", b"SET a\n", b"EXEC\n")[2:], [b"-ERR wrong number of arguments for 'set' command\r\n", ABORT])
same("SET with options inside MULTI", replies(b"MULTI\n", b"SET a 1 EX 5\n", b"EXEC\n")[1:], [b"-ERR SET options (EX, NX, ...) are not supported\r\n", ABORT])
same("a wrong count leaves the queue", replies(b"MULTI\n", *[b"PING\n"] * 63, b"GET\n", b"PING\n", b"PING\n")[-2:], [b"+QUEUED\r\n", b"!4"])
same("a wrong count in small letters", last_reply(b"MULTI\n", b"set a\n"), b"-ERR wrong number of arguments for 'set' command\r\n")
same("SET with options in small letters", last_reply(b"MULTI\n", b"set a 1 ex 5\n"), b"-ERR SET options (EX, NX, ...) are not supported\r\n")
same("SET with options before 4", last_reply(b"MULTI\n", *[b"PING\n"] * 64, b"SET a 1 NX\n"), b"-ERR SET options (EX, NX, ...) are not supported\r\n")
same("a wrong count and DISCARD", replies(b"MULTI\n", b"GET\n", b"DISCARD\n", b"MULTI\n", b"EXEC\n")[-1], b"*0\r\n")
same("a wrong count of a name not queued", last_reply(b"MULTI\n", b"SCAN\n"), b"-ERR 'SCAN' can't be used inside MULTI\r\n")
same("WATCH without keys inside MULTI", last_reply(b"MULTI\n", b"WATCH\n", b"EXEC\n"), b"*0\r\n")
same("a wrong count before 4", last_reply(b"MULTI\n", *[b"PING\n"] * 64, b"GET\n"), b"-ERR wrong number of arguments for 'get' command\r\n")
same("an amount that is no number is queued", last_reply(b"MULTI\n", b"INCRBY n x\n", b"EXEC\n"), b"*1\r\n-ERR value is not an integer or out of range\r\n")
same("a wrong count outside MULTI", last_reply(b"SET a\n", b"MULTI\n", b"EXEC\n"), b"*0\r\n")
r = registry()
r.request(0, b"MULTI\n")
same("a wrong count whose error does not fit", (r.request(0, b"GET\n", room=4).number, r.request(0, b"EXEC\n").reply), (3, b"*0\r\n"))
same("4, a name not queued", last_reply(b"MULTI\n", *[b"PING\n"] * 64, b"FOO\n"), b"-ERR 'FOO' can't be used inside MULTI\r\n")
same("watched twice", last_reply(b"WATCH " + b"k" * 1025 + b" " + b"k" * 1025 + b"\n"), b"+OK\r\n")
many = b"WATCH" + b"".join(b" %d" % i for i in range(33)) + b"\n"
same("5 watches no key", replies(many, b"SET a 1\n", b"WATCH a\n", b"MULTI\n", b"EXEC\n")[::4], [b"!5", b"*0\r\n"])
same("6, repeated keys", last_reply(b"MSET a 1 a 2\n", r=registry(versions=1)), b"!6")
same("6, repeated in EXEC", last_reply(b"MULTI\n", b"SET a 1\n", b"SET a 2\n", b"EXEC\n", r=registry(versions=1)), b"*2\r\n+OK\r\n+OK\r\n")
same("MSET half", last_reply(b"MSET a 1 b 2\n", b"GET a\n", r=registry(versions=1)), b"$-1\r\n")
r = registry()
replies(b"MULTI\n", r=r)
same("3 and QUIT", r.request(0, b"QUIT\n", room=4).number, 3)
same("3 leaves MULTI", last_reply(b"EXEC\n", r=r), b"*0\r\n")
r = registry()
replies(b"WATCH a\n", b"SET a 1\n", b"MULTI\n", r=r)
same("3 and a conflict", r.request(0, b"EXEC\n", room=4).number, 3)
same("EXEC again", last_reply(b"EXEC\n", r=r), b"*-1\r\n")
same("mark before conflict", last_reply(b"WATCH a\n", b"SET a 1\n", b"MULTI\n", b"FOO\n", b"EXEC\n")[:10], b"-EXECABORT")
same("behind a 6", Store(0, 1).group([Member(None, put(b"a", b"b"), []), Member(None, put(b"c"), [])]), [6, 0])
same("keys of a 6", Store(0, 1).group([Member(None, put(b"a", b"b"), []), Member(0, put(b"a"), [])]), [6, 0])
store = wide()
store.write([(b"a", b"1")])
same("a refused size", store.group([Member(0, [(b"a", b"x" * 1048575)], []), Member(None, put(b""), [])]), [1, 255])
same("read above the last", Store().group([Member(9, put(b"a"), []), Member(9, put(b"a"), [])]), [0, 1])
same("65 members", registry().group([Member(None, [], [])] * 65), (8, []))
same("short verdicts", registry().group([Member(None, [], [])], 0), (8, []))
same("part outside", registry().group_in(b"abc", [Member(None, [((0, 1), (1, 3))], [])]), (8, []))
same("part inside", registry().group_in(b"abc", [Member(None, [((0, 1), (1, 2))], [])]), (0, [0]))
same("no members", registry().group([]), (0, []))
same("verdict 7", Store(2**64 - 1).group([Member(None, put(b"a"), []), Member(0, [], [b"a"])]), [7, 0])
same("the last sequence of all", Store(2**64 - 2).group([Member(None, put(b"a"), [])]), [0])
same("7", last_reply(b"SET a 1\n", r=registry(last=2**64 - 1)), b"!7")
same("EXEC that only checks", last_reply(b"WATCH a\n", b"MULTI\n", b"EXEC\n", r=registry(last=2**64 - 1)), b"*0\r\n")
same("the watch is kept", last_reply(b"WATCH a\n", b"EXEC\n", b"DISCARD\n", b"SET a 1\n", b"MULTI\n", b"EXEC\n"), b"*-1\r\n")
same("INFO inside", last_reply(b"MULTI\n", b"info\n"), b"-ERR 'INFO' can't be used inside MULTI\r\n")
same("INFO outside", last_reply(b"info\n"), b"-ERR unknown command 'info'\r\n")
line = lambda session, data: b"%02d %s" % (session, data.hex().encode())
same("what a number drops", frames(line(0, b"PING\n*1025\r\nPING\n")), [b"00 2b504f4e470d0a!2"])
same("rest of 4,096", frames(line(0, b"x" * 4096), line(0, b"\n"))[1][:10], b"00 2d45525"[:10])
same("session 16", frames(b"16 0a"), [b"16 !1"])
same("rest and MULTI", frames(line(0, b"MULTI\n" + b"x" * 4090), line(0, b"x" * 7), line(0, b"EXEC\n")), [b"00 2b4f4b0d0a", b"00 !", b"00 2a300d0a"])
same("CR in a line", frames(b"00 0a\r"), [b"?"])

# a watch for each key. 0 and 1 are sessions
same("a key watched again", last_reply(b"WATCH a\n", (1, b"SET a 1\n"), b"WATCH a\n", b"MULTI\n", b"EXEC\n"), b"*-1\r\n")
same("a key watched later", last_reply(b"WATCH a\n", (1, b"SET b 1\n"), b"WATCH b\n", b"MULTI\n", b"EXEC\n"), b"*0\r\n")
same("a key watched later, then written", last_reply(b"WATCH a\n", b"WATCH b\n", (1, b"SET b 1\n"), b"MULTI\n", b"EXEC\n"), b"*-1\r\n")
same("a key watched again beside another", last_reply(b"WATCH a\n", (1, b"SET b 1\n"), b"WATCH a b\n", (1, b"SET a 1\n"), b"MULTI\n", b"EXEC\n"), b"*-1\r\n")
same("first, after UNWATCH", last_reply(b"WATCH a\n", (1, b"SET a 1\n"), b"UNWATCH\n", b"WATCH a\n", b"MULTI\n", b"EXEC\n"), b"*0\r\n")
r = registry()
same("a WATCH whose reply does not fit", r.request(0, b"WATCH a\n", room=4).number, 3)
same("its key is not watched", last_reply((1, b"SET a 1\n"), b"MULTI\n", b"EXEC\n", r=r), b"*0\r\n")
same("EXEC without MULTI", last_reply(b"WATCH a\n", b"EXEC\n", b"SET a 1\n", b"MULTI\n", b"EXEC\n"), b"*-1\r\n")
same("one's own write inside EXEC", last_reply(b"WATCH a\n", b"MULTI\n", b"SET a 1\n", b"SET a 2\n", b"EXEC\n"), b"*2\r\n+OK\r\n+OK\r\n")
same("one's own direct write", last_reply(b"WATCH a\n", b"SET a 1\n", b"MULTI\n", b"EXEC\n"), b"*-1\r\n")
same("the same value again", last_reply(b"SET a 1\n", b"WATCH a\n", (1, b"SET a 1\n"), b"MULTI\n", b"EXEC\n"), b"*-1\r\n")
same("DEL of an absent key", last_reply(b"WATCH a\n", (1, b"DEL a\n"), b"MULTI\n", b"EXEC\n"), b"*-1\r\n")
same("GET of a key not watched", last_reply(b"WATCH a\n", (1, b"SET b 1\n"), b"MULTI\n", b"GET b\n", b"EXEC\n"), b"*1\r\n$1\r\n1\r\n")
same("a counter's key", last_reply(b"WATCH a\n", (1, b"INCR n\n"), b"MULTI\n", b"INCR n\n", b"EXEC\n"), b"*1\r\n:2\r\n")
same("a key merely written", last_reply(b"WATCH a\n", (1, b"SET b 1\n"), b"MULTI\n", b"SET b 2\n", b"EXEC\n"), b"*1\r\n+OK\r\n")
dropping = {
    "EXEC": [b"MULTI\n", b"EXEC\n"],
    "*-1": [b"SET a 0\n", b"MULTI\n", b"EXEC\n"],
    "EXECABORT": [b"MULTI\n", b"FOO\n", b"EXEC\n"],
    "DISCARD": [b"MULTI\n", b"DISCARD\n"],
    "QUIT": [b"QUIT\n"],
    "a protocol error": [b"*x\n"],
}
for name, steps in dropping.items():
    same(f"{name} drops the watch", last_reply(b"WATCH a\n", *steps, (1, b"SET a 1\n"), b"MULTI\n", b"EXEC\n"), b"*0\r\n")
r = registry()
replies(b"WATCH a\n", b"MULTI\n", r=r)
same("a group beside a watch", r.group([Member(0, put(b"a"), []), Member(0, put(b"b"), [b"a"])]), (0, [0, 1]))
same("a key that a group wrote", last_reply(b"EXEC\n", r=r), b"*-1\r\n")
full = registry(versions=1)
same("conflict before 6", last_reply(b"WATCH a\n", b"SET a 1\n", b"MULTI\n", b"SET b 1\n", b"EXEC\n", r=full), b"*-1\r\n")
last = registry(last=2**64 - 2)
same("conflict before 7", last_reply(b"WATCH a\n", b"SET a 1\n", b"MULTI\n", b"SET b 1\n", b"EXEC\n", r=last), b"*-1\r\n")

# a preview is what EXEC would give; nothing is done
def previewed(*steps, r=None, room=32768, index=0):
    """A preview behind the steps, the same again, and then EXEC, which must give what both told."""
    r = r or registry()
    replies(*steps, r=r)
    told = r.preview(index, room)
    same("the same preview again", r.preview(index, room), told)
    answer = r.request(index, b"EXEC\n", room=room)
    same("EXEC gives what was told", (answer.number, answer.reply), (told.number, told.reply))
    same("EXEC leaves the last sequence that was told", r.store.last if told.number == 0 else 0, told.last)
    return tuple(told)


same("outside MULTI", previewed(b"SET a 1\n"), (0, 255, b"-ERR EXEC without MULTI\r\n", 1))
same("failed", previewed(b"MULTI\n", b"FOO\n"), (0, 255, ABORT, 0))
same("conflict", previewed(b"WATCH a\n", b"SET a 1\n", b"MULTI\n", b"SET b 1\n"), (0, 1, b"*-1\r\n", 1))
same("3 after a verdict", previewed(b"MULTI\n", room=3), (3, 255, b"", 0))
same("a preview that just fits", previewed(b"MULTI\n", room=4), (0, 0, b"*0\r\n", 0))
same("6", previewed(b"MULTI\n", b"SET a 1\n", r=registry(versions=0, size=100000)), (6, 255, b"", 0))
same("7", previewed(b"MULTI\n", b"SET a 1\n", r=registry(last=2**64 - 1)), (7, 255, b"", 0))
same("6 before 7", previewed(b"MULTI\n", b"SET a 1\n", r=registry(last=2**64 - 1, versions=0)), (6, 255, b"", 0))
same("6 before 3", previewed(b"MULTI\n", b"SET a 1\n", r=registry(versions=0), room=0), (6, 255, b"", 0))
same("7 before 3", previewed(b"MULTI\n", b"SET a 1\n", r=registry(last=2**64 - 1), room=0), (7, 255, b"", 0))
two_keys = [b"MULTI\n", b"SET a 1\n", b"SET b 2\n", b"SET a 3\n", b"GET a\n"]
same("two keys written three times", previewed(*two_keys, r=registry(last=5)), (0, 0, b"*4\r\n+OK\r\n+OK\r\n+OK\r\n$1\r\n3\r\n", 7))
same("no write at the last sequence of all", previewed(b"MULTI\n", b"GET a\n", r=registry(last=2**64 - 1)), (0, 0, b"*1\r\n$-1\r\n", 2**64 - 1))
same("conflict before 6", previewed(b"WATCH a\n", b"SET a 1\n", b"MULTI\n", b"SET b 1\n", r=registry(versions=1)), (0, 1, b"*-1\r\n", 1))
same("a conflict that does not fit", previewed(b"WATCH a\n", b"SET a 1\n", b"MULTI\n", room=4), (3, 255, b"", 0))
same("1", previewed(index=16), (1, 255, b"", 0))
r = registry()
r.sessions[1] = model.Session(watched=((b"a", 1),))
same("9", previewed(r=r), (9, 255, b"", 0))
same("1 before 9", previewed(r=r, index=16), (1, 255, b"", 0))
same("9 before 3", previewed(r=r, room=0), (9, 255, b"", 0))
r = registry()
replies(b"WATCH a\n", b"MULTI\n", b"SET a 1\n", r=r)
kept = r.store.last, list(r.store.versions), list(r.sessions)
r.preview(0)
same("a preview leaves store and sessions", (r.store.last, r.store.versions, r.sessions), kept)

# 9
session = lambda **k: model.Session(**k)
for name, state, wanted in (
    ("a queue that holds another name", session(queue=((b"FOO",),)), 9),
    ("an empty command", session(queue=((),)), 9),
    ("a queued command of wrong count", session(queue=((b"GET",),)), 9),
    ("the same, marked failed", session(queue=((b"GET",),), failed=True), 9),
    ("a queued SET without a value", session(queue=((b"SET", b"a"),)), 9),
    ("a queued SET with options", session(queue=((b"SET", b"a", b"1", b"EX", b"5"),)), 9),
    ("a queued MSET of three", session(queue=((b"MSET", b"a", b"1", b"b"),)), 9),
    ("a queued SET with options in small letters", session(queue=((b"set", b"a", b"1", b"nx"),)), 9),
    ("a queued amount that is no number", session(queue=((b"INCRBY", b"a", b"x"),)), 0),
    ("33 watched keys", session(watched=tuple((b"%d" % i, 0) for i in range(33))), 9),
    ("a key watched at 6, last 5", session(watched=((b"a", 6),)), 9),
    ("the second key watched at 6, last 5", session(watched=((b"a", 5), (b"b", 6))), 9),
    ("a key watched at 5, last 5", session(watched=((b"a", 5),)), 0),
    ("watched keys out of order", session(watched=((b"b", 0), (b"a", 0))), 9),
    ("a watched key twice", session(watched=((b"a", 0), (b"a", 1))), 9),
    ("a mark outside MULTI", session(failed=True), 0),
):
    r = registry(last=5)
    r.sessions[0] = state
    same(name, r.request(3, b"PING\n").number, wanted)
    same(f"{name}: a preview", r.preview(3).number, wanted)
    same(f"{name}: a group, which is lent no session", r.group([]), (0, []))
good = model.Lent([(0, 1, 1, 2), (2, 1, None, 1)], 3, 2, 4, 16, 4, b"axa" + bytes(13))
same("a lent store", model.lent_store(good).in_order(), [(b"a", 2, b"x"), (b"a", 1, None)])
for name, lent in (
    ("a gap", good._replace(rows=[(0, 1, 1, 2), (3, 1, None, 1)], used=4)),
    ("an overlap", good._replace(rows=[(0, 1, 1, 2), (1, 1, None, 1)])),
    ("a gap at the end", good._replace(used=4)),
    ("out of order", good._replace(rows=[(0, 1, 1, 1), (2, 1, None, 2)])),
    ("repeated", good._replace(rows=[(0, 1, 1, 2), (2, 1, None, 2)])),
    ("a sequence above the last", good._replace(last=1)),
    ("more versions than the capacity", good._replace(max_versions=1)),
    ("more bytes than the capacity", good._replace(max_bytes=2)),
    ("a capacity above the rows", good._replace(max_versions=5)),
    ("a capacity above the buffer", good._replace(max_bytes=17)),
):
    same(name, model.lent_store(lent), 9)
same("two keys of one sequence", isinstance(model.lent_store(good._replace(rows=[(0, 1, 1, 2), (2, 1, None, 2)], buffer=b"axb" + bytes(13))), Store), True)
same("opening", model.open_store(0, 5, 16, 4, 16), 9)

# whole numbers as Redis writes them
for text, n in ((b"0", 0), (b"10", 10), (b"-1", -1), (b"9223372036854775807", 2**63 - 1), (b"-9223372036854775808", -(2**63))):
    same(f"a number: {text}", (model.whole_number(text), model.decimal(n)), (n, text))
for text in (b"", b"-", b"+", b"-0", b"+0", b"+1", b"00", b"01", b"-01", b"9223372036854775808", b"-9223372036854775809"):
    same(f"no number: {text}", model.whole_number(text), None)
not_integer = b"-ERR value is not an integer or out of range\r\n"
for text in (b"+007", b"-0", b"01"):
    for name in (b"INCR n\n", b"DECR n\n", b"INCRBY n 1\n"):
        same(f"{name} of {text}", last_reply(b"SET n " + text + b"\n", name), not_integer)
    same(f"INCRBY n {text}", last_reply(b"INCRBY n " + text + b"\n"), not_integer)
    same(f"SCAN {text}", last_reply(b"SCAN " + text + b"\n"), b"-ERR invalid cursor\r\n")
    same(f"COUNT {text}", last_reply(b"SCAN 0 COUNT " + text + b"\n"), not_integer)
    same(f"LIMIT {text}", last_reply(b"RANGE a z LIMIT " + text + b"\n"), b"-ERR LIMIT must be a non-negative integer\r\n")
same("lengths keep their rule", last_reply(b"*+1\r\n$04\r\nPING\r\n"), b"+PONG\r\n")

# UTF-8 against Python's own reader
for n in range(3):
    for i in range(256 ** min(n, 2)):
        data = b"\xf0\x9f"[: 2 - n] + i.to_bytes(n, "big") + b"\x80\x80"
        same("lossy", model.lossy(data), data.decode("utf-8", "replace").encode())
for first in range(256):
    for second in range(0x70, 0x100):
        for rest in (b"", b"\x80", b"\x80\x80", b"a", b"\xc3\xa9"):
            data = bytes([first, second]) + rest
            same("lossy", model.lossy(data), data.decode("utf-8", "replace").encode())

for failure in failures[:20]:
    print(failure)
print(f"{len(failures)} differences")
sys.exit(1 if failures else 0)
