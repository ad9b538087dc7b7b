#!/usr/bin/env python3
"""Measures KEYS over 1,024 names that differ in or near their last bytes, and writes a table in Markdown: microseconds and instructions of a KEYS.

    measure_keys.py BEFORE AFTER STATION       two programs `frames`, and the server of station/; redis-server is taken from the path

Replies are compared before anything is measured, redis-server's as sets, and the script stops if they differ. Of `frames` the user time of
filling the store and of many KEYS counts, less that of filling it alone; of the servers the time between sending many KEYS at once and the
last byte of their replies. All run in turn, ROUNDS times, and the least counts. Instructions are counted by callgrind; they do not depend on the
load of the machine, nor on where the linker puts a function.
"""
import os
import re
import resource
import socket
import subprocess
import sys
import tempfile
import time

from generate import array_bytes, frame_lines

NAMES = 1024
KEYS = 10000
COUNTED = 20
AT_ONCE = 200
ROUNDS = 9
SHORT, LONG, ENDING = b"b:%04d", b"b:desk:console:north:%04d", b"b:%04dx"
ROWS = [
    (SHORT, b"b:*07"),
    (SHORT, b"*x*07"),
    (LONG, b"b:*07"),
    (LONG, b"b:*north*07"),
    (SHORT, b"c:*07"),
    (SHORT, b"b:0512"),
    (SHORT, b"b:05??"),
    (SHORT, b"*"),
    (SHORT, b"b:*"),
    (SHORT, b"*5*"),
    (SHORT, b"c:*"),
    (ENDING, b"c:*x"),
]


def must(condition, text):
    if not condition:
        sys.exit(text)


def names(form):
    return [form % i for i in range(NAMES)]


def line(*words):
    return frame_lines(0, array_bytes(list(words)))[0] + b"\n"


class Frames:
    """A program `frames`: a new process for each run."""

    def __init__(self, program, form, pattern):
        self.program = program
        filling = b"".join(line(b"SET", name, b"v") for name in names(form))
        keys = line(b"KEYS", pattern)
        self.filling, self.few, self.all = (self.file(filling + count * keys) for count in (0, COUNTED, KEYS))

    def file(self, text):
        with tempfile.NamedTemporaryFile(delete=False) as f:
            f.write(text)
        return f.name

    def run(self, path, out):
        before = resource.getrusage(resource.RUSAGE_CHILDREN).ru_utime
        with open(path, "rb") as f:
            ran = subprocess.run([self.program], stdin=f, stdout=out, check=True)
        return ran.stdout, resource.getrusage(resource.RUSAGE_CHILDREN).ru_utime - before

    def count(self, path):
        with tempfile.NamedTemporaryFile() as out, open(path, "rb") as f:
            command = ["valgrind", "--tool=callgrind", f"--callgrind-out-file={out.name}", self.program]
            subprocess.run(command, stdin=f, stdout=subprocess.DEVNULL, stderr=subprocess.DEVNULL, check=True)
            return int(re.search(rb"^(?:summary|totals): (\d+)", out.read(), re.M)[1])

    def instructions(self):
        return (self.count(self.few) - self.count(self.filling)) // COUNTED

    def reply(self):
        output, _ = self.run(self.few, subprocess.PIPE)
        return bytes.fromhex(output.split(b"\n")[-2].split(b" ")[1].decode())

    def seconds(self):
        return self.run(self.filling, subprocess.DEVNULL)[1], self.run(self.all, subprocess.DEVNULL)[1]

    def cost(self, rounds):
        return (min(all_ for _, all_ in rounds) - min(filling for filling, _ in rounds)) / KEYS

    def end(self):
        for path in (self.filling, self.few, self.all):
            os.unlink(path)


class Server:
    """A server that speaks the Redis protocol, with one connection."""

    def __init__(self, command, port, form, pattern):
        self.process = subprocess.Popen(command, stdout=subprocess.DEVNULL)
        self.socket = self.connect(port)
        self.pattern = pattern
        for name in names(form):
            self.ask(array_bytes([b"SET", name, b"v"]), len(b"+OK\r\n"))
        self.length = len(self.reply())

    def connect(self, port):
        for _ in range(200):
            try:
                return socket.create_connection(("127.0.0.1", port))
            except OSError:
                time.sleep(0.05)
        sys.exit(f"no server on port {port}")

    def ask(self, request, length):
        self.socket.sendall(request)
        got = b""
        while len(got) < length:
            part = self.socket.recv(1 << 20)
            must(part, "the connection was closed")
            got += part
        return got

    def reply(self):
        """The reply to one KEYS, of a length that is not known yet: what came before the reply to PING."""
        self.socket.sendall(array_bytes([b"KEYS", self.pattern]) + array_bytes([b"PING"]))
        got = b""
        while not got.endswith(b"+PONG\r\n"):
            got += self.socket.recv(1 << 20)
        return got[: -len(b"+PONG\r\n")]

    def seconds(self):
        start = time.perf_counter()
        self.ask(AT_ONCE * array_bytes([b"KEYS", self.pattern]), AT_ONCE * self.length)
        return time.perf_counter() - start

    def cost(self, rounds):
        return min(rounds) / AT_ONCE

    def end(self):
        self.socket.close()
        self.process.kill()
        self.process.wait()


def measure(before, after, station, form, pattern):
    """Seconds of a KEYS in each program, and the instructions of the two `frames`."""
    all_ = [
        Frames(before, form, pattern),
        Frames(after, form, pattern),
        Server([station, "--address", "127.0.0.1:6391"], 6391, form, pattern),
        Server(["redis-server", "--port", "6392", "--save", "", "--appendonly", "no"], 6392, form, pattern),
    ]
    replies = [one.reply() for one in all_]
    must(replies[0] == replies[1] == replies[2], f"{pattern}: the replies differ")
    must(sorted(replies[2].split(b"\r\n")) == sorted(replies[3].split(b"\r\n")), f"{pattern}: redis-server replies otherwise")
    rounds = [[one.seconds() for one in all_] for _ in range(ROUNDS)]
    counts = [one.instructions() for one in all_[:2]]
    for one in all_:
        one.end()
    return [one.cost([each[i] for each in rounds]) for i, one in enumerate(all_)], counts


def main():
    must(len(sys.argv) == 4, __doc__)
    print("| Names | Pattern | `frames` before | after | station | redis-server | instructions before | after |")
    print("|---|---|---|---|---|---|---|---|")
    for form, pattern in ROWS:
        first = (form % 0).decode()
        costs, counts = measure(*sys.argv[1:], form, pattern)
        cells = [f"`{first}` ..", f"`{pattern.decode()}`"] + [f"{1e6 * cost:.1f}" for cost in costs] + [f"{count:,}" for count in counts]
        print("| " + " | ".join(cells) + " |", flush=True)


if __name__ == "__main__":
    main()
