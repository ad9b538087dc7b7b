#!/usr/bin/env python3
"""Counts the instructions of programs that speak the form of `frames`, with callgrind, on inputs with EXEC; writes a table in Markdown.

    instructions.py PROGRAM..

Each input is one process and meets no number. The counts do not depend on the load of the machine.
"""
import os
import re
import subprocess
import sys
import tempfile

from generate import array_bytes, frame_lines


def line(session, text):
    return frame_lines(session, array_bytes(text.encode().split()))[0]


def lines(steps):
    return [line(int(step[0]), step[2:]) for step in steps]


def key(i):
    return f"station:{i % 1000:04d}"


def sets(n):
    return [f"0 SET {key(i)} v{i}" for i in range(n)]


def eight(name, rest=""):
    return [f"0 {name} {key(125 * i)}{rest}" for i in range(8)]


def times(n, steps):
    return [step for i in range(n) for step in steps(i)]


INPUTS = {
    "1,000 SET": sets(1000),
    "1,000 times MULTI, SET, EXEC": times(1000, lambda i: ["0 MULTI", f"0 SET {key(i)} v{i}", "0 EXEC"]),
    "1,000 times WATCH, MULTI, SET of that key, EXEC": times(1000, lambda i: ["0 WATCH k", "0 MULTI", f"0 SET k v{i}", "0 EXEC"]),
    "1,000 SET and 1,500 times MULTI, GET, GET, EXEC": sets(1000) + times(1500, lambda i: ["0 MULTI", f"0 GET {key(7 * i)}", f"0 GET {key(11 * i)}", "0 EXEC"]),
    "1,000 SET and 1,500 times WATCH, MULTI, GET, GET, EXEC": sets(1000)
    + times(1500, lambda i: ["0 WATCH k", "0 MULTI", f"0 GET {key(7 * i)}", f"0 GET {key(11 * i)}", "0 EXEC"]),
    "120 times WATCH, MULTI, 8 SET, EXEC": times(120, lambda i: ["0 WATCH k", "0 MULTI"] + eight("SET", " v") + ["0 EXEC"]),
    "120 times WATCH, MULTI, 8 INCR, EXEC": times(120, lambda i: ["0 WATCH k", "0 MULTI"] + eight("INCR") + ["0 EXEC"]),
    "1,000 times WATCH, MULTI, 8 SET, SET of the watched key by another session, EXEC": times(
        1000, lambda i: ["0 WATCH k", "0 MULTI"] + eight("SET", " v") + ["1 SET k v", "0 EXEC"]
    ),
}


def count(program, path, folder):
    """Instructions and output of one process."""
    out = os.path.join(folder, "counts")
    with open(path, "rb") as f:
        ran = subprocess.run(
            ["valgrind", "--tool=callgrind", f"--callgrind-out-file={out}", program], stdin=f, stdout=subprocess.PIPE, stderr=subprocess.PIPE, check=True
        )
    with open(out) as f:
        return int(re.search(r"^(?:summary|totals): (\d+)", f.read(), re.M)[1]), ran.stdout


def main(programs):
    if not programs:
        sys.exit(__doc__)
    print("| Input | " + " | ".join(programs) + " |")
    print("|---|" + "---|" * len(programs))
    with tempfile.TemporaryDirectory() as folder:
        for name, steps in INPUTS.items():
            path = os.path.join(folder, "input")
            with open(path, "wb") as f:
                f.write(b"".join(text + b"\n" for text in lines(steps)))
            found = [count(os.path.abspath(program), path, folder) for program in programs]
            if any(b"!" in output or output != found[0][1] for _, output in found):
                sys.exit(f"{name}: a number was returned, or the outputs differ")
            print(f"| {name} | " + " | ".join(f"{n:,}" for n, _ in found) + " |", flush=True)


main(sys.argv[1:])
