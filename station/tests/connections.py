"""connections.py PORT: what needs several connections at once, or pauses between bytes."""
import socket
import sys
import time

PORT = int(sys.argv[1])
count = 0


def connect():
    return socket.create_connection(("127.0.0.1", PORT), timeout=20)


def receive(s, n):
    got = b""
    while len(got) < n:
        part = s.recv(n - len(got))
        if not part:
            break
        got += part
    return got


def to_the_end(s):
    got = b""
    while part := s.recv(65536):
        got += part
    return got


def same(what, got, due):
    global count
    count += 1
    if got != due:
        sys.exit(f"connections: {what}\n got {got[:200]!r} ({len(got)})\n due {due[:200]!r} ({len(due)})")


def answers(s, sent, due, what):
    s.sendall(sent)
    same(what, receive(s, len(due)), due)


def half_requests():
    text = b"*3\r\n$3\r\nSET\r\n$1\r\nk\r\n$5\r\nvalue\r\nGET k\r\n"
    due = b"+OK\r\n$5\r\nvalue\r\n"
    with connect() as s:
        s.setsockopt(socket.IPPROTO_TCP, socket.TCP_NODELAY, 1)
        for i in range(len(text)):
            s.sendall(text[i : i + 1])
            if i % 8 == 0:
                time.sleep(0.01)
        same("a request byte by byte", receive(s, len(due)), due)
    for cut in range(1, len(text) - 7):
        with connect() as s:
            s.sendall(text[:cut])
            time.sleep(0.004)
            s.sendall(text[cut:])
            same(f"a request cut at {cut}", receive(s, len(due)), due)


def last_sequence():
    with connect() as s:
        s.sendall(b"PREVIEW\r\nQUIT\r\n")
        return int(to_the_end(s).split(b"\r\n")[2][1:])


def half_previews():
    due = b"+OK\r\n+QUEUED\r\n*3\r\n:0\r\n:%d\r\n*1\r\n$-1\r\n+OK\r\n" % last_sequence()
    for form in (b"PREVIEW\r\n", b"preview\n", b"*1\r\n$7\r\nPREVIEW\r\n"):
        for cut in range(1, len(form)):
            with connect() as s:
                s.sendall(b"MULTI\r\nGET none\r\n" + form[:cut])
                time.sleep(0.004)
                s.sendall(form[cut:] + b"DISCARD\r\n")
                same(f"{form} cut at {cut}", receive(s, len(due)), due)


def waiting_console_delays_none():
    with connect() as slow, connect() as other:
        slow.sendall(b"*2\r\n$3\r\nGET\r\n$1000\r\nhalf")
        answers(other, b"PING\r\n", b"+PONG\r\n", "beside a console that waits")
        answers(slow, b"x" * 996 + b"\r\n", b"$-1\r\n", "the waiting console goes on")


def pipelining():
    with connect() as s:
        sent = b"".join(b"*2\r\n$4\r\nINCR\r\n$8\r\npipeline\r\n" for _ in range(1000))
        due = b"".join(b":%d\r\n" % (i + 1) for i in range(1000))
        answers(s, sent, due, "1,000 requests in one go")
        sent = b"".join(b"SET p%d %d\r\nGET p%d\r\n" % (i, i, i) for i in range(500))
        due = b"".join(b"+OK\r\n$%d\r\n%d\r\n" % (len(str(i)), i) for i in range(500))
        answers(s, sent, due, "1,000 inline requests in one go")


def long_lines():
    name = b"G" + b"x" * 65000
    with connect() as s:
        due = b"-ERR unknown command '" + name + b"'\r\n"
        answers(s, name + b"\r\n", due, "an inline line of 65,003 bytes")
        # LF at offset 65,536 passes, at 65,537 it does not.
        fits = b"ECHO " + b"y" * 65531 + b"\n"
        due = b"$65531\r\n" + b"y" * 65531 + b"\r\n"
        answers(s, fits, due, "LF at offset 65,536")
    with connect() as s:
        s.sendall(b"ECHO " + b"y" * 65532 + b"\n")
        same("LF at offset 65,537", to_the_end(s), b"-ERR Protocol error: line too long\r\n")
    with connect() as s:
        s.sendall(b"z" * 65537)
        same("65,537 bytes without LF", to_the_end(s), b"-ERR Protocol error: line too long\r\n")
    with connect() as s:
        s.sendall(b"z" * 65536)
        time.sleep(0.3)
        s.setblocking(False)
        try:
            same("65,536 bytes without LF wait", s.recv(1), None)
        except BlockingIOError:
            same("65,536 bytes without LF wait", b"", b"")


def long_values():
    value = b"v" * 300_000
    with connect() as s:
        answers(s, b"*3\r\n$3\r\nSET\r\n$4\r\nlong\r\n$300000\r\n" + value + b"\r\n", b"+OK\r\n", "a value of 300,000 bytes")
        # The first reply of this length: a longer reply buffer is needed.
        told = b"*1\r\n$300000\r\n" + value + b"\r\n"
        due = b"+OK\r\n+QUEUED\r\n*3\r\n:0\r\n:%d\r\n" % last_sequence() + told + told
        answers(s, b"MULTI\r\nGET long\r\nPREVIEW\r\nEXEC\r\n", due, "a preview of 300,000 bytes, and EXEC")
        due = (b"$300000\r\n" + value + b"\r\n") * 20
        answers(s, b"GET long\r\n" * 20, due, "6,000,000 bytes of replies to a console that reads late")


def too_long_a_request():
    with connect() as s:
        s.sendall(b"*3\r\n$3\r\nSET\r\n$1\r\nk\r\n$60000000\r\n")
        got = b""
        try:
            for _ in range(100):
                s.sendall(b"x" * 65536)
        except OSError:
            pass
        try:
            got = to_the_end(s)
        except ConnectionResetError:
            sys.exit("connections: the reply to a request that is too long was lost")
        same("a request that is not held", got, b"-ERR request longer than 2048576 bytes\r\n")


def seventeenth():
    consoles = []
    for i in range(16):
        s = connect()
        answers(s, b"PING\r\n", b"+PONG\r\n", f"console {i}")
        consoles.append(s)
    for _ in range(3):
        with connect() as s:
            s.sendall(b"PING\r\n")
            same("the 17th console", to_the_end(s), b"-ERR max number of clients reached\r\n")
    for i, s in enumerate(consoles):
        answers(s, b"PING\r\n", b"+PONG\r\n", f"console {i} after the 17th")
    consoles[5].sendall(b"WATCH w\r\nMULTI\r\nSET w 1\r\n")
    same("a queue", receive(consoles[5], 19), b"+OK\r\n+OK\r\n+QUEUED\r\n")
    consoles[5].close()
    time.sleep(0.3)
    with connect() as s:
        answers(s, b"EXEC\r\n", b"-ERR EXEC without MULTI\r\n", "a place that came free, with a clear session")
        answers(s, b"SET w 2\r\nMULTI\r\nEXEC\r\n", b"+OK\r\n+OK\r\n*0\r\n", "and without its watch")
    for s in consoles:
        s.close()
    time.sleep(0.3)


def number_leaves_the_others():
    with connect() as one, connect() as two:
        answers(two, b"MULTI\r\nSET kept 1\r\n", b"+OK\r\n+QUEUED\r\n", "another console's queue")
        one.sendall(b"*1000000\r\nPING\r\n")
        same("number 2", to_the_end(one), b"-ERR number 2: the request has too many arguments\r\n")
        answers(two, b"EXEC\r\n", b"*1\r\n+OK\r\n", "the other console goes on")


def reset_by_the_console():
    for _ in range(20):
        s = connect()
        s.setsockopt(socket.SOL_SOCKET, socket.SO_LINGER, b"\x01\0\0\0\0\0\0\0")
        s.sendall(b"MULTI\r\nSET r 1\r\n*3\r\n")
        s.close()
    time.sleep(0.3)
    with connect() as s:
        answers(s, b"EXEC\r\nGET r\r\n", b"-ERR EXEC without MULTI\r\n$-1\r\n", "after consoles that broke off")


half_requests()
half_previews()
waiting_console_delays_none()
pipelining()
long_lines()
long_values()
too_long_a_request()
seventeenth()
number_leaves_the_others()
reset_by_the_console()
print(f"connections.py: {count} comparisons hold")
