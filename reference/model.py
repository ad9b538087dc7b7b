#!/usr/bin/env python3
"""A model of document 01 with R-1, R-6, R-7 and R-8 of document 02: requests, sessions, versions, groups, previews and the program `frames`,
slow and obvious.

It is written from the documents' sentences, with lists, dictionaries and sets, and shares no code with the Rust.

    model.py frames         reads and writes lines as the program `frames`
    model.py frames long    the same without the two limits of 4,096 bytes, and with a reply buffer that holds any reply
    model.py groups         reads group scripts (their form: rust/drivers/groups_rust.rs; three instructions more, for requests
                            and previews: station/src/bin/groups_lib.rs)
"""

import re
import sys
from typing import NamedTuple, Optional

LARGEST_SEQUENCE = 2**64 - 1
SESSIONS = 16
ARGUMENT_PLACES = 1024
REPLY_ROOM = 32768
FRAME_LIMIT = 4096
QUEUE_COMMANDS, QUEUE_ARGUMENTS, QUEUE_BYTES = 64, 512, 8192
WATCH_KEYS, WATCH_BYTES = 32, 2048
GROUP_MEMBERS, GROUP_BYTES = 64, 1048576

# Whole numbers and lengths (section 3)


def value_of(digits):
    """The value of decimal digits; beyond 30 significant ones only that it is too large matters."""
    digits = digits.lstrip(b"0") or b"0"
    return int(digits) if len(digits) <= 30 else 10**30


def whole_number(text):
    """`0`, or an optional - and digits that begin with 1 to 9, within i64; otherwise None."""
    m = re.fullmatch(rb"0|(-?)([1-9][0-9]*)", text)
    if m is None:
        return None
    n = value_of(m[2] or b"0")
    if m[1] == b"-":
        n = -n
    return n if -(2**63) <= n < 2**63 else None


def length_number(text):
    """Optional +, digits, at least one, within 64 bits; otherwise None."""
    m = re.fullmatch(rb"\+?([0-9]+)", text)
    if m is None:
        return None
    n = value_of(m[1])
    return n if n < 2**64 else None


# UTF-8 (RFC 3629; Unicode Standard, table 3-7): first byte, then the ranges of the bytes behind it

TAIL = (0x80, 0xBF)
WELL_FORMED = [
    ((0x00, 0x7F), []),
    ((0xC2, 0xDF), [TAIL]),
    ((0xE0, 0xE0), [(0xA0, 0xBF), TAIL]),
    ((0xE1, 0xEC), [TAIL, TAIL]),
    ((0xED, 0xED), [(0x80, 0x9F), TAIL]),
    ((0xEE, 0xEF), [TAIL, TAIL]),
    ((0xF0, 0xF0), [(0x90, 0xBF), TAIL, TAIL]),
    ((0xF1, 0xF3), [TAIL, TAIL, TAIL]),
    ((0xF4, 0xF4), [(0x80, 0x8F), TAIL, TAIL]),
]
REPLACEMENT = b"\xef\xbf\xbd"


def next_piece(data, at):
    """Length of the sequence at `at`, and whether it is well formed; if not, the length of its maximal subpart."""
    for (low, high), tails in WELL_FORMED:
        if low <= data[at] <= high:
            n = 1
            for low, high in tails:
                if at + n >= len(data) or not low <= data[at + n] <= high:
                    return n, False
                n += 1
            return n, True
    return 1, False


def pieces(data):
    at = 0
    while at < len(data):
        n, good = next_piece(data, at)
        yield data[at : at + n], good
        at += n


def is_utf8(data):
    return all(good for _, good in pieces(data))


def lossy(data):
    return b"".join(piece if good else REPLACEMENT for piece, good in pieces(data))


# Replies (section 4): a kind and what it holds


def simple(text):
    return ("+", text)


def error(text):
    return ("-", text)


def integer(n):
    return (":", n)


def bulk(value):
    return ("$", value)


def array(items):
    return ("*", items)


OK = simple(b"OK")


def err(text):
    return error(b"ERR " + text)


def decimal(n):
    return str(n).encode()


def encode(reply):
    kind, held = reply
    if kind in "+-":
        text = held.replace(b"\r", b" ").replace(b"\n", b" ")
    elif kind == ":":
        text = decimal(held)
    elif held is None:
        text = b"-1"
    elif kind == "$":
        text = decimal(len(held)) + b"\r\n" + held
    else:
        return b"*" + decimal(len(held)) + b"\r\n" + b"".join(encode(item) for item in held)
    return kind.encode() + text + b"\r\n"


# Requests (section 3)


class Wait(Exception):
    pass


class ProtocolError(Exception):
    pass


class Number(Exception):
    def __init__(self, number):
        super().__init__(number)
        self.number = number


def read_line(data, start):
    """The line from `start` without its end, and where the next begins."""
    lf = data.find(b"\n", start)
    if lf < 0:
        if len(data) - start > 65536:
            raise ProtocolError(b"line too long")
        raise Wait
    if lf - start > 65536:
        raise ProtocolError(b"line too long")
    line = data[start:lf]
    if line.endswith(b"\r"):
        line = line[:-1]
    return line, lf + 1


def read_length(text, limit, what):
    if not is_utf8(text):
        raise ProtocolError(b"invalid " + what)
    n = length_number(text)
    if n is None:
        raise ProtocolError(b"invalid " + what + b" '" + text + b"'")
    if n > limit:
        raise ProtocolError(what + b" " + decimal(n) + b" is over the limit of " + decimal(limit))
    return n


def read_array(data, places):
    line, at = read_line(data, 0)
    count = read_length(line[1:], 1048576, b"multibulk length")
    if count > places:
        raise Number(2)
    args = []
    for _ in range(count):
        line, start = read_line(data, at)
        if not line.startswith(b"$"):
            raise ProtocolError(b"expected '$', got '" + lossy(line[:1]) + b"'")
        end = start + read_length(line[1:], 67108864, b"bulk length")
        if len(data) < end + 2:
            raise Wait
        if data[end : end + 2] != b"\r\n":
            raise ProtocolError(b"bulk string not followed by CRLF")
        args.append(data[start:end])
        at = end + 2
    return args, at


def read_inline(data, places):
    line, used = read_line(data, 0)
    args = [word for word in re.split(rb"[ \t\n\f\r]", line) if word]
    if len(args) > places:
        raise Number(2)
    return args, used


def read_request(data, places):
    """Arguments and bytes used; or Wait, ProtocolError, Number(2)."""
    if not data:
        raise Wait
    return read_array(data, places) if data[:1] == b"*" else read_inline(data, places)


# Globs (section 7)


ANY_RUN, ANY_BYTE = "*", "?"


def tokens(pattern):
    at = 0
    while at < len(pattern):
        byte = pattern[at : at + 1]
        if byte == b"\\" and at + 1 < len(pattern):
            at += 1
            yield pattern[at]
        else:
            yield {b"*": ANY_RUN, b"?": ANY_BYTE}.get(byte, pattern[at])
        at += 1


def glob(pattern, name):
    reached = {0}  # how many bytes of the name the tokens so far can have matched
    for token in tokens(pattern):
        if token == ANY_RUN:
            reached = {end for start in reached for end in range(start, len(name) + 1)}
        else:
            reached = {i + 1 for i in reached if i < len(name) and token in (ANY_BYTE, name[i])}
    return len(name) in reached


# The store (sections 1, 2 and 6)


class Member(NamedTuple):
    """A member of a group; a write is a key and a value, None for a tombstone."""

    read: Optional[int]
    writes: list
    checks: list


class Store:
    def __init__(self, last=0, max_versions=1024, max_bytes=32768):
        self.last = last
        self.max_versions = max_versions
        self.max_bytes = max_bytes
        self.versions = []  # (key, sequence, value or None)

    def read(self, key, at):
        seen = [(s, v) for k, s, v in self.versions if k == key and s <= at]
        return max(seen, key=lambda version: version[0])[1] if seen else None

    def newest(self, key):
        return max((s for k, s, _ in self.versions if k == key), default=None)

    def table(self):
        """Live keys ascending, each with its value."""
        found = {}
        for key, sequence, value in self.versions:
            if key not in found or found[key][0] < sequence:
                found[key] = (sequence, value)
        return [(key, found[key][1]) for key in sorted(found) if found[key][1] is not None]

    def in_order(self):
        return sorted(self.versions, key=lambda version: (version[0], -version[1]))

    def bytes_used(self):
        return sum(len(k) + len(v or b"") for k, _, v in self.versions)

    def damaged(self):
        """What 9 says of a store without a layout; of one that is lent, `lent_store` says the rest."""
        kept = [(k, s) for k, s, _ in self.versions]
        return (
            len(kept) > self.max_versions
            or self.bytes_used() > self.max_bytes
            or len(set(kept)) < len(kept)
            or any(s > self.last for _, s in kept)
        )

    def verdict(self, member, written=frozenset()):
        """0, 1, 6 or 7 for a member behind accepted ones that wrote the keys `written`."""
        if member.read is not None:
            for key in [k for k, _ in member.writes] + list(member.checks):
                newest = self.newest(key)
                if key in written or (newest is not None and newest > member.read):
                    return 1
        size = size_of(member)
        if len(self.versions) + len(member.writes) > self.max_versions or self.bytes_used() + size > self.max_bytes:
            return 6
        if self.last + len(member.writes) > LARGEST_SEQUENCE:
            return 7
        return 0

    def write(self, writes):
        for key, value in writes:
            self.last += 1
            self.versions.append((key, self.last, value))

    def group(self, members):
        """The verdicts of a group; accepted members write."""
        taken, total = 0, 0
        for member in members:
            if taken > 0 and total + size_of(member) > GROUP_BYTES:
                break
            total += size_of(member)
            taken += 1
        verdicts, written = [], set()
        for member in members[:taken]:
            verdict = self.verdict(member, written)
            if verdict == 0:
                self.write(member.writes)
                written |= {key for key, _ in member.writes}
            verdicts.append(verdict)
        return verdicts + [255] * (len(members) - taken)


def size_of(member):
    return sum(len(k) + len(v or b"") for k, v in member.writes)


# Commands (section 7)

QUEUEABLE = {b"GET", b"SET", b"DEL", b"EXISTS", b"MGET", b"MSET", b"INCR", b"INCRBY", b"DECR", b"PING", b"ECHO"}
NOT_INTEGER = err(b"value is not an integer or out of range")
SYNTAX = err(b"syntax error")
SET_OPTIONS = err(b"SET options (EX, NX, ...) are not supported")


class Effect(NamedTuple):
    reply: tuple
    writes: list = []


def right_count(name, n):
    return {
        b"PING": n <= 1,
        b"ECHO": n == 1,
        b"GET": n == 1,
        b"SET": n >= 2,
        b"DEL": n >= 1,
        b"EXISTS": n >= 1,
        b"MGET": n >= 1,
        b"MSET": n >= 2 and n % 2 == 0,
        b"INCR": n == 1,
        b"DECR": n == 1,
        b"INCRBY": n == 2,
        b"DBSIZE": n == 0,
        b"KEYS": n == 1,
        b"SCAN": n >= 1,
        b"RANGE": n >= 2,
    }.get(name)


def arity(name):
    return err(b"wrong number of arguments for '" + name.lower() + b"' command")


def queue_refusal(name, n):
    """The error of a command that is not queued for its n arguments, or None."""
    if not right_count(name, n):
        return arity(name)
    return SET_OPTIONS if name == b"SET" and n > 2 else None


def execute(args, read, table):
    """What a command answers and writes; `read` gives a key's value, `table` the table."""
    name, a = args[0].upper(), args[1:]
    right = right_count(name, len(a))
    if right is None:
        return Effect(err(b"unknown command '" + lossy(args[0]) + b"'"))
    if not right:
        return Effect(arity(name))
    if name == b"PING":
        return Effect(bulk(a[0]) if a else simple(b"PONG"))
    if name == b"ECHO":
        return Effect(bulk(a[0]))
    if name == b"GET":
        return Effect(bulk(read(a[0])))
    if name == b"SET":
        if len(a) > 2:
            return Effect(SET_OPTIONS)
        return Effect(OK, [(a[0], a[1])])
    if name in (b"DEL", b"EXISTS"):
        live = integer(sum(1 for key in a if read(key) is not None))
        return Effect(live, [(key, None) for key in a] if name == b"DEL" else [])
    if name == b"MGET":
        return Effect(array([bulk(read(key)) for key in a]))
    if name == b"MSET":
        return Effect(OK, list(zip(a[0::2], a[1::2])))
    if name == b"INCR":
        return count(a[0], 1, read)
    if name == b"DECR":
        return count(a[0], -1, read)
    if name == b"INCRBY":
        by = whole_number(a[1])
        return Effect(NOT_INTEGER) if by is None else count(a[0], by, read)
    if name == b"DBSIZE":
        return Effect(integer(len(table())))
    if name == b"KEYS":
        return Effect(array([bulk(key) for key, _ in table() if glob(a[0], key)]))
    if name == b"SCAN":
        return Effect(scan(a, table()))
    return Effect(range_of(a, table()))


def count(key, by, read):
    text = read(key)
    held = 0 if text is None else whole_number(text)
    if held is None:
        return Effect(NOT_INTEGER)
    if not -(2**63) <= held + by < 2**63:
        return Effect(err(b"increment or decrement would overflow"))
    return Effect(integer(held + by), [(key, decimal(held + by))])


def scan(a, table):
    cursor = whole_number(a[0])
    if cursor is None or cursor < 0:
        return err(b"invalid cursor")
    pattern, most = b"*", 10
    options = a[1:]
    while len(options) >= 2:
        option, value = options[0].upper(), options[1]
        if option == b"MATCH":
            pattern = value
        elif option == b"COUNT":
            most = whole_number(value)
            if most is None or most <= 0:
                return NOT_INTEGER
        else:
            return SYNTAX
        options = options[2:]
    if options:
        return SYNTAX
    looked_at = table[cursor : cursor + most]
    follows = cursor + most < len(table)
    keys = [bulk(key) for key, _ in looked_at if glob(pattern, key)]
    return array([bulk(decimal(cursor + most if follows else 0)), array(keys)])


def range_of(a, table):
    start, end, options = a[0], a[1], a[2:]
    limit = len(table)
    if options:
        if len(options) != 2 or options[0].upper() != b"LIMIT":
            return SYNTAX
        limit = whole_number(options[1])
        if limit is None or limit < 0:
            return err(b"LIMIT must be a non-negative integer")
    found = [(key, value) for key, value in table if start <= key < end][:limit]
    return array([bulk(item) for pair in found for item in pair])


# Sessions (section 7, R-6, R-7 and R-8)


class Session(NamedTuple):
    queue: Optional[tuple] = None  # None outside MULTI
    failed: bool = False
    watched: tuple = ()  # pairs, ascending: a key, and the last sequence at the WATCH that first named it


CLEAR = Session()
ACCEPTED, CONFLICT, NO_VERDICT = 0, 1, 255


class Step(NamedTuple):
    """A reply, the session behind it and writes that are to commit."""

    reply: tuple
    session: Session
    writes: list = []


class Decision(NamedTuple):
    """What EXEC comes to before anything is done: the verdict, and the step that it then takes."""

    verdict: int
    step: Step


class Answer(NamedTuple):
    number: int
    used: int = 0
    reply: bytes = b""
    closed: bool = False  # QUIT or a protocol error


class Previewed(NamedTuple):
    number: int
    verdict: int = NO_VERDICT
    reply: bytes = b""
    last: int = 0


class Registry:
    def __init__(self, store):
        self.store = store
        self.sessions = [CLEAR] * SESSIONS

    def request(self, index, data, places=ARGUMENT_PLACES, room=REPLY_ROOM):
        """One call; numbers in the order 1, 9, 2, 4, 5, 6, 7, 3."""
        if index >= SESSIONS:
            return Answer(1)
        if self.damaged():
            return Answer(9)
        closed = False
        try:
            args, used = read_request(data, places)
            if not args:
                return Answer(0, used)
            closed = args[0].upper() == b"QUIT"
            step = self.respond(self.sessions[index], args)
        except Wait:
            return Answer(0)
        except ProtocolError as e:
            used, closed = len(data), True
            step = Step(err(b"Protocol error: " + e.args[0]), CLEAR)
        except Number as n:
            if n.number == 4:
                self.sessions[index] = self.sessions[index]._replace(failed=True)
            return Answer(n.number)
        reply = encode(step.reply)
        if len(reply) > room:
            return Answer(3)
        self.store.write(step.writes)
        self.sessions[index] = step.session
        return Answer(0, used, reply, closed)

    def preview(self, index, room=REPLY_ROOM):
        """What EXEC of that session would give; nothing is done. Numbers in the order 1, 9, 6, 7, 3."""
        if index >= SESSIONS:
            return Previewed(1)
        if self.damaged():
            return Previewed(9)
        try:
            verdict, step = self.decide(self.sessions[index])
        except Number as n:
            return Previewed(n.number)
        reply = encode(step.reply)
        if len(reply) > room:
            return Previewed(3)
        return Previewed(0, verdict, reply, self.store.last + len(step.writes))

    def respond(self, session, args):
        name = args[0].upper()
        if name == b"QUIT":
            return Step(OK, CLEAR)
        if session.queue is None:
            return self.outside(session, name, args)
        return self.inside(session, name, args)

    def outside(self, session, name, args):
        if name == b"MULTI":
            return Step(OK, session._replace(queue=(), failed=False))
        if name == b"EXEC":
            return self.exec(session)
        if name == b"DISCARD":
            return Step(err(b"DISCARD without MULTI"), session)
        if name == b"WATCH":
            return self.watch(session, args)
        if name == b"UNWATCH":
            return Step(OK, session._replace(watched=()))
        effect = execute(args, lambda key: self.store.read(key, self.store.last), self.store.table)
        self.must_fit(effect.writes)
        return Step(effect.reply, session, effect.writes)

    def watch(self, session, args):
        if len(args) < 2:
            return Step(arity(b"WATCH"), session)
        watched = {key: self.store.last for key in args[1:]} | dict(session.watched)
        if len(watched) > WATCH_KEYS or sum(map(len, watched)) > WATCH_BYTES:
            raise Number(5)
        return Step(OK, session._replace(watched=tuple(sorted(watched.items()))))

    def inside(self, session, name, args):
        if name == b"EXEC":
            return self.exec(session)
        if name == b"DISCARD":
            return Step(OK, CLEAR)
        if name == b"MULTI":
            return Step(err(b"MULTI calls can not be nested"), session)
        if name == b"WATCH":
            return Step(err(b"WATCH inside MULTI is not allowed"), session)
        if name not in QUEUEABLE:
            reply = err(b"'" + lossy(args[0]).upper() + b"' can't be used inside MULTI")
            return Step(reply, session._replace(failed=True))
        refused = queue_refusal(name, len(args) - 1)
        if refused:
            return Step(refused, session._replace(failed=True))
        queue = session.queue + (args,)
        arguments = [argument for command in queue for argument in command]
        if len(queue) > QUEUE_COMMANDS or len(arguments) > QUEUE_ARGUMENTS or sum(map(len, arguments)) > QUEUE_BYTES:
            raise Number(4)
        return Step(simple(b"QUEUED"), session._replace(queue=queue))

    def exec(self, session):
        return self.decide(session).step

    def decide(self, session):
        """EXEC of a session, nothing done yet; 6 and 7 leave the call."""
        if session.queue is None:
            return Decision(NO_VERDICT, Step(err(b"EXEC without MULTI"), session))
        if session.failed:
            return Decision(NO_VERDICT, Step(error(b"EXECABORT Transaction discarded because of previous errors."), CLEAR))
        if any((self.store.newest(key) or 0) > sequence for key, sequence in session.watched):
            return Decision(CONFLICT, Step(array(None), CLEAR))
        own, replies = {}, []
        for args in session.queue:
            effect = execute(args, lambda key: own[key] if key in own else self.store.read(key, self.store.last), None)
            own.update(effect.writes)
            replies.append(effect.reply)
        writes = sorted(own.items())
        self.must_fit(writes)
        return Decision(ACCEPTED, Step(array(replies), CLEAR, writes))

    def must_fit(self, writes):
        """6 and 7 leave the call."""
        verdict = self.store.verdict(Member(None, writes, []))
        if verdict:
            raise Number(verdict)

    def group(self, members, verdict_room=GROUP_MEMBERS):
        """A number and the verdict bytes that are written. Sessions are not lent."""
        if self.store.damaged():
            return 9, []
        if len(members) > GROUP_MEMBERS or verdict_room < len(members):
            return 8, []
        return 0, self.store.group(members)

    def group_in(self, data, members, verdict_room=GROUP_MEMBERS):
        """The same with members whose keys and values are parts (start, length) of `data`."""
        if self.store.damaged():
            return 9, []
        if len(members) > GROUP_MEMBERS or verdict_room < len(members):
            return 8, []
        parts = [p for m in members for p in [q for w in m.writes for q in w if q is not None] + list(m.checks)]
        if any(start + length > len(data) for start, length in parts):
            return 8, []
        at = lambda p: None if p is None else data[p[0] : p[0] + p[1]]
        return 0, self.store.group(
            [Member(m.read, [(at(k), at(v)) for k, v in m.writes], [at(k) for k in m.checks]) for m in members]
        )

    def damaged(self):
        return self.store.damaged() or any(self.damaged_session(session) for session in self.sessions)

    def damaged_session(self, session):
        if session is CLEAR:
            return False
        arguments = [argument for command in session.queue or () for argument in command]
        keys = [key for key, _ in session.watched]
        return (
            len(keys) > WATCH_KEYS
            or sum(map(len, keys)) > WATCH_BYTES
            or keys != sorted(set(keys))
            or any(sequence > self.store.last for _, sequence in session.watched)
            or len(session.queue or ()) > QUEUE_COMMANDS
            or len(arguments) > QUEUE_ARGUMENTS
            or sum(map(len, arguments)) > QUEUE_BYTES
            or any(
                not command or command[0].upper() not in QUEUEABLE or queue_refusal(command[0].upper(), len(command) - 1)
                for command in session.queue or ()
            )
        )


# Lent store: rows (start, key length, value length or None, sequence) over a buffer


class Lent(NamedTuple):
    rows: list
    used: int
    last: int
    max_versions: int
    max_bytes: int
    row_places: int
    buffer: bytes


def open_store(last, max_versions, max_bytes, row_places, buffer_length):
    """An empty store, or 9 for capacities that the lent buffers do not hold."""
    if max_versions > row_places or max_bytes > buffer_length:
        return 9
    return Store(last, max_versions, max_bytes)


def lent_store(lent):
    """The store that is lent, or 9."""
    if lent.max_versions > lent.row_places or lent.max_bytes > len(lent.buffer):
        return 9
    if len(lent.rows) > lent.max_versions or lent.used > lent.max_bytes:
        return 9
    store, at, before = Store(lent.last, lent.max_versions, lent.max_bytes), 0, None
    for start, key_length, value_length, sequence in lent.rows:
        middle = start + key_length
        end = middle + (value_length or 0)
        if start != at or end > lent.used or sequence > lent.last:
            return 9
        key = lent.buffer[start:middle]
        place = (key, -sequence)
        if before is not None and place <= before:
            return 9
        value = None if value_length is None else lent.buffer[middle:end]
        store.versions.append((key, sequence, value))
        at, before = end, place
    return store if at == lent.used else 9


# The program `frames`


class Frames:
    def __init__(self, long=False):
        self.registry = Registry(Store(0, 1024, 32768))
        self.rests = [b""] * SESSIONS
        self.long = long

    def line(self, line):
        """The answer to one line, both without their ends."""
        m = re.fullmatch(rb"([0-9][0-9]) ((?:[0-9a-f][0-9a-f])+)", line)
        if m is None or (len(m[2]) > 2 * FRAME_LIMIT and not self.long):
            return b"?"
        session = int(m[1])
        data = bytes.fromhex(m[2].decode())
        if session < SESSIONS:
            data = self.rests[session] + data
        replies, mark = b"", b""
        while True:
            answer = self.registry.request(session, data, room=10**9 if self.long else REPLY_ROOM)
            if answer.number != 0:
                mark, data = b"!" + decimal(answer.number), b""
                break
            if answer.used == 0:
                break
            replies += answer.reply
            data = b"" if answer.closed else data[answer.used :]
        if len(data) > FRAME_LIMIT and not self.long:
            mark, data = b"!", b""
        if session < SESSIONS:
            self.rests[session] = data
        return m[1] + b" " + (replies.hex().encode() + mark or b"-")


# Group scripts, with requests and previews

SCRIPT_PLACES = 64


def script_bytes(text):
    once, _, times = text.partition("*")
    return bytes.fromhex(once) * int(times or "1")


def script_text(data):
    if len(data) > 32 and len(set(data)) == 1:
        return f"{data[:1].hex()}*{len(data)}"
    return data.hex()


class Groups:
    def __init__(self):
        self.registry = Registry(Store())
        self.members = []

    def line(self, line):
        """The answer to one instruction, or None."""
        word, *rest = line.split(" ")
        if word == "open":
            self.registry = Registry(Store(*map(int, rest)))
            self.members = []
        elif word == "member":
            self.members.append(self.member(rest))
        elif word == "group":
            number, verdicts = self.registry.group(self.members, len(self.members))
            self.members = []
            return f"!{number}" if number else " ".join(map(str, verdicts)) or "none"
        elif word == "request":
            answer = self.registry.request(int(rest[0]), script_bytes(rest[2]), SCRIPT_PLACES, int(rest[1]))
            return f"{answer.number} {answer.used} {answer.reply.hex() or '-'}"
        elif word == "preview":
            told = self.registry.preview(int(rest[0]), int(rest[1]))
            return f"{told.number} {told.verdict} {told.last} {told.reply.hex() or '-'}"
        elif word == "sequence":
            self.set_sequence(*map(int, rest))
        elif word == "versions":
            store = self.registry.store
            shown = [f"{script_text(k)}@{s}" + ("" if v is None else "=" + script_text(v)) for k, s, v in store.in_order()]
            return " ".join([str(store.last)] + shown)
        else:
            raise ValueError(line)
        return None

    def set_sequence(self, index, sequence):
        """The sequence of the session's first watched key, if it has one."""
        session = self.registry.sessions[index]
        keys = [(key, sequence if at == 0 else kept) for at, (key, kept) in enumerate(session.watched)]
        self.registry.sessions[index] = session._replace(watched=tuple(keys))

    def member(self, words):
        writes, checks = [], []
        for part in words[1:]:
            kind, rest = part[0], part[1:]
            if kind == "+":
                key, value = rest.split("=")
                writes.append((script_bytes(key), script_bytes(value)))
            elif kind == "-":
                writes.append((script_bytes(rest), None))
            elif kind == "?":
                checks.append(script_bytes(rest))
            else:
                raise ValueError(part)
        return Member(None if words[0] == "-" else int(words[0]), writes, checks)


def lines_of(data):
    """Lines without their LF; a last one without LF counts."""
    lines = data.split(b"\n")
    return lines[:-1] if lines[-1] == b"" else lines


def answer_frames(data, long=False):
    frames = Frames(long)
    return b"".join(frames.line(line) + b"\n" for line in lines_of(data))


def answer_groups(data):
    groups = Groups()
    answers = [groups.line(line.decode()) for line in lines_of(data)]
    return b"".join(answer.encode() + b"\n" for answer in answers if answer is not None)


if __name__ == "__main__":
    given = sys.stdin.buffer.read()
    if sys.argv[1:] == ["groups"]:
        sys.stdout.buffer.write(answer_groups(given))
    elif sys.argv[1:] in (["frames"], ["frames", "long"]):
        sys.stdout.buffer.write(answer_frames(given, len(sys.argv) == 3))
    else:
        sys.exit(__doc__)
