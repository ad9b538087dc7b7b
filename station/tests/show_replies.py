"""show_replies.py PROGRAM: what the program shows of captures is what redis-cli prints of the same replies, byte by byte.

A server of one connection answers each command of redis-cli with the next reply of the capture."""
import os
import random
import re
import socket
import subprocess
import sys
import tempfile
import threading

PROGRAM = sys.argv[1]
STORED = os.path.join(os.path.dirname(os.path.abspath(__file__)), "../../crates/frames/stdout")
COMMAND = b"*1\r\n$4\r\nPING\r\n"
DRAWN = 600
PART = 50  # replies of one run of redis-cli
count = 0


def simple(text):
    return b"+" + text + b"\r\n"


def error(text):
    return b"-" + text + b"\r\n"


def integer(n):
    return b":%d\r\n" % n


def bulk(text):
    return b"$%d\r\n%s\r\n" % (len(text), text)


def array(items):
    return b"*%d\r\n%s" % (len(items), b"".join(items))


NIL = b"$-1\r\n"
NIL_ARRAY = b"*-1\r\n"
EMPTY = array([])
# What a simple or an error text may hold: no CR, no LF; and no zero byte, where redis-cli cuts the text.
TEXT_BYTES = bytes(b for b in range(1, 256) if b not in b"\r\n")


def nested(depth, inner):
    for _ in range(depth):
        inner = array([inner])
    return inner


def chosen():
    """Each kind, each byte, each width of an index, arrays eight deep."""
    yield from (simple(b"OK"), simple(b""), simple("début".encode()), simple(TEXT_BYTES), error(b"ERR no such key"), error(b""), error(TEXT_BYTES))
    yield from map(integer, (0, 1, -1, 10, -10, 2**63 - 1, -(2**63)))
    yield from (bulk(b""), bulk(b"value"), bulk(b'\\ " \n \r \t \a \b \0 \x7f'), bulk("début".encode()), bulk(b"\r\n+OK\r\n"), bulk(b"x" * 100000))
    yield from (bulk(bytes([b])) for b in range(256))
    yield from (NIL, NIL_ARRAY, EMPTY)
    yield from (array([integer(n) for n in range(size)]) for size in (1, 2, 9, 10, 11, 99, 100, 101, 1000, 70000))
    yield from (nested(depth, inner) for depth in range(1, 9) for inner in (NIL, NIL_ARRAY, bulk(b"a")))
    yield from (nested(depth, EMPTY) for depth in range(1, 8))
    yield array([NIL, NIL_ARRAY, EMPTY, error(b"ERR in an array"), simple(b"OK"), bulk(b""), integer(-5)])
    yield array([array([array([integer(k) for k in range(12)]) for _ in range(11)]) for _ in range(10)])
    yield array([bulk(b"0"), array([bulk(b"key:%d" % n) for n in range(15)])])


def drawn(dice, depth):
    kind = dice.randrange(8 if depth else 6)
    if kind == 0:
        return simple(bytes(dice.choices(TEXT_BYTES, k=dice.randrange(12))))
    if kind == 1:
        return error(b"ERR " + bytes(dice.choices(TEXT_BYTES, k=dice.randrange(12))))
    if kind == 2:
        return integer(dice.randrange(-(2**63), 2**63) >> dice.randrange(64))
    if kind == 3:
        return bulk(dice.randbytes(dice.randrange(20)))
    if kind == 4:
        return NIL
    if kind == 5:
        return dice.choice((NIL_ARRAY, EMPTY, bulk(b"OK")))
    return array([drawn(dice, depth - 1) for _ in range(dice.choice((0, 1, 2, 3, 10, 13)))])


def serve(listener, replies):
    connection, _ = listener.accept()
    with connection:
        got = b""
        for reply in replies:
            while len(got) < len(COMMAND):
                part = connection.recv(65536)
                if not part:
                    return
                got += part
            got = got[len(COMMAND):]
            connection.sendall(reply)


def redis_cli(replies):
    """What redis-cli prints of these replies."""
    with socket.create_server(("127.0.0.1", 0)) as listener:
        server = threading.Thread(target=serve, args=(listener, replies), daemon=True)
        server.start()
        command = ["redis-cli", "-p", str(listener.getsockname()[1]), "--no-raw", "-r", str(len(replies)), "PING"]
        printed = subprocess.run(command, stdin=subprocess.DEVNULL, stdout=subprocess.PIPE, timeout=120, check=True).stdout
        server.join(20)
    return printed


def show(capture, *arguments):
    run = subprocess.run([PROGRAM, *arguments], input=capture, capture_output=True, timeout=120)
    return run.returncode, run.stdout, run.stderr.decode()


def same(what, got, due):
    global count
    count += 1
    if got != due:
        got, due = str(got), str(due)
        begin = max(len(os.path.commonprefix((got, due))) - 200, 0)
        sys.exit(f"show_replies: {what}\n got {got[begin:begin + 600]}\n due {due[begin:begin + 600]}")


def shown(*replies):
    status, text, said = show(b"".join(replies))
    same("status of a whole capture", (status, said), (0, ""))
    return text


def beside_redis_cli():
    dice = random.Random(1)
    replies = [*chosen(), *(drawn(dice, 4) for _ in range(DRAWN))]
    printed = b""
    for at in range(0, len(replies), PART):
        part = replies[at:at + PART]
        printed += redis_cli(part)
        same(f"replies up to {at + len(part)}", shown(*replies[:at + len(part)]), printed)
    return len(replies)


def ends():
    """Captures that are no stream of whole replies: what comes before is shown, and the message names the place."""
    ok = simple(b"OK")
    at = len(ok)
    long = b"*1000\r\n" + 999 * NIL
    cases = (
        ("nothing", b"", 0, b"", ""),
        ("a zero byte in a text", simple(b"a\0b"), 0, b"a\0b\n", ""),
        ("a cut line", ok + b"+O", 4, b"OK\n", f"offset {at}: the last bytes, which are no whole reply"),
        ("a cut array", ok + b"*2\r\n:1\r\n", 4, b"OK\n", f"offset {at}: the last bytes, which are no whole reply"),
        ("no kind", ok + b"?\r\n" + ok, 2, b"OK\n", f"offset {at}: an item that is no reply"),
        ("a fault in an array", ok + b"*2\r\n:1\r\n:x\r\n", 2, b"OK\n", f"offset {at + 8}: an item that is no reply"),
        ("nine arrays deep", ok + nested(9, NIL), 3, b"OK\n", f"offset {at}: a reply whose arrays nest deeper than 8"),
        ("eight arrays deep", nested(8, NIL), 0, b"1) " * 8 + b"(nil)\n", ""),
        ("a long array, cut", ok + long + b":1", 4, b"OK\n", f"offset {at}: the last bytes, which are no whole reply"),
        ("a long array with a fault", ok + long + b":x\r\n", 2, b"OK\n", f"offset {at + len(long)}: an item that is no reply"),
        ("a long array too deep", ok + long + nested(8, NIL), 3, b"OK\n", f"offset {at}: a reply whose arrays nest deeper than 8"),
    )
    for what, capture, status, text, message in cases:
        said = f"show_replies: {message}\n" if message else ""
        same(what, show(capture), (status, text, said))


def lines():
    """The form of `frames`."""
    ok, tree = simple(b"OK"), array([NIL, array([bulk(b"a"), integer(7)])])
    whole = f"00 {(ok + tree).hex()}\n15 -\n16 !1\n00 {ok.hex()}!6\n00 {ok.hex()}!\n?\n00 !\n".encode()
    due = b"session 00\n" + shown(ok, tree) + b"session 15\n(no reply)\nsession 16\n(number) 1\nsession 00\nOK\n(number) 6\n"
    due += b"session 00\nOK\n(rest dropped)\n(no frame)\nsession 00\n(rest dropped)\n"
    same("lines", show(whole, "--hex"), (0, due, ""))
    same("a last line without LF", show(whole[:-1], "--hex"), (0, due, ""))
    form = "not of the form of frames"
    for bad in (b"", b"00", b"0 -", b"00-", b"x0 -", b"00 2", b"00 2B", b"00 !x", b"00 -!", b"00 ?", b"00 !\0", b"00 ", b"00 2g"):
        status, _, said = show(b"?\n" + bad + b"\n", "--hex")
        same(f"line {bad!r}", (status, said), (5, f"show_replies: line 2: {form}\n"))
    cut = show(f"?\n00 {(ok + ok[:3]).hex()}\n".encode(), "--hex")
    same("a cut reply in a line", cut, (4, b"(no frame)\nsession 00\nOK\n", "show_replies: line 2: offset 5: the last bytes, which are no whole reply\n"))


def files():
    """A capture in a file, and what cannot be read or written."""
    ok = simple(b"OK")
    with tempfile.TemporaryDirectory() as folder:
        capture, text = os.path.join(folder, "capture"), os.path.join(folder, "text")
        with open(capture, "wb") as file:
            file.write(ok)
        with open(text, "w") as file:
            file.write(f"00 {ok.hex()}\n")
        same("a file", show(b"", capture), (0, b"OK\n", ""))
        same("a file of lines", show(b"", "--hex", text), (0, b"session 00\nOK\n", ""))
        same("no file", show(b"", text + "s"), (1, b"", "show_replies: the capture cannot be opened\n"))
        same("a folder", show(b"", folder), (1, b"", "show_replies: the capture cannot be read\n"))
        same("two files", show(b"", capture, text), (1, b"", "show_replies: show_replies [--hex] [FILE]\n"))
        with open("/dev/full", "wb") as full:
            run = subprocess.run([PROGRAM, capture], stdout=full, stderr=subprocess.PIPE, timeout=120)
        same("no room for the text", (run.returncode, run.stderr), (1, b"show_replies: the output fails\n"))


def reply_end(capture, at):
    """Where the reply that begins at `at` ends."""
    end = capture.index(b"\r\n", at) + 2
    if capture[at:at + 1] == b"$" and capture[at + 1:at + 2] != b"-":
        return end + int(capture[at + 1:end]) + 2
    if capture[at:at + 1] == b"*":
        for _ in range(int(capture[at + 1:end])):
            end = reply_end(capture, end)
    return end


def stored():
    """The stored answers of `frames`, without what the program says of sessions and marks; texts cut at a zero byte, as by redis-cli."""
    with open(STORED, "rb") as file:
        text = file.read()
    capture = b"".join(bytes.fromhex(digits.decode()) for digits in re.findall(rb"^\d\d ([0-9a-f]+)", text, re.M))
    replies, at = [], 0
    while at < len(capture):
        end = reply_end(capture, at)
        replies.append(capture[at:end])
        at = end
    status, lines, said = show(text, "--hex")
    same("status of stored lines", (status, said), (0, ""))
    own = re.compile(rb"^(session \d\d|\((no reply|no frame|rest dropped)\)|\(number\) \d)\n", re.M)
    same("stored lines", re.sub(rb"\0.*", b"", own.sub(b"", lines)), redis_cli(replies))
    return len(replies)


replies = beside_redis_cli() + stored()
ends()
lines()
files()
print(f"show_replies.py: {replies} replies as redis-cli prints them, {count} comparisons hold")
