#!/usr/bin/env python3
"""Runs two programs on the same input, shows the first difference and shrinks it. Exit status 1 if they differ.

    compare.py A B mixed SEED RUNS [LINES]      generated input (every mode of generate.py)
    compare.py A B limits
    compare.py A B exhaustive LENGTH
    compare.py A B file PATH                    runs from a file (`# name` lines divide them)
    compare.py in-domain A B limits             compares each run only up to the first line that leaves the domain of runs against the Rust

A and B are command lines, or `model`. Each run is a new process. The domain is that of README.md; input of the modes `mixed`, `exhaustive`
and `long` is in it, and stays in it when it is shrunk. For the modes `long`, `groups`, `group-limits` and `previews` the
model and the programs must speak that form: `model` does by itself, `frames_rust` takes the argument `long`, groups are for `groups_rust`, and
previews for the station's `groups_lib`.

    compare.py model rust/frames_rust mixed 1 200
"""

import re
import subprocess
import sys
import time

import generate
import model

IN_DOMAIN = ("mixed", "exhaustive", "long")  # modes of frames input


class Program:
    def __init__(self, command, mode):
        self.command = command.split()
        self.mode = mode

    def answers(self, lines):
        """The program's output lines."""
        data = b"".join(line + b"\n" for line in lines)
        if self.command != ["model"]:
            done = subprocess.run(self.command, input=data, stdout=subprocess.PIPE)
            return model.lines_of(done.stdout) + ([] if done.returncode == 0 else [b"exit status %d" % done.returncode])
        if self.mode in generate.SCRIPTS:
            return model.lines_of(model.answer_groups(data))
        return model.lines_of(model.answer_frames(data, self.mode == "long"))


def first_difference(a, b):
    """Index of the first line that differs, or None."""
    for i in range(max(len(a), len(b))):
        if a[i : i + 1] != b[i : i + 1]:
            return i
    return None


def differ(one, two, lines):
    return first_difference(one.answers(lines), two.answers(lines)) is not None


SHRINK_SECONDS = 60


def fewer(items, fails, until):
    """Delta debugging: a list of items that still fails, from which no single one can be left out (or time ran out)."""
    size = max(1, len(items) // 2)
    while True:
        at, changed = 0, False
        while at < len(items):
            if time.time() > until:
                return items
            trial = items[:at] + items[at + size :]
            if trial and fails(trial):
                items, changed = trial, True
            else:
                at += size
        if size > 1:
            size = max(1, size // 2)
        elif not changed:
            return items


def frame_of(line):
    """Session and bytes of a frames line, or None."""
    m = re.fullmatch(rb"([0-9][0-9]) ((?:[0-9a-f][0-9a-f])+)", line)
    return m and (int(m[1]), bytes.fromhex(m[2].decode()))


def one_request_a_line(lines):
    """The same requests, each whole in a line of its own, at the place where it became whole."""
    rests, out = {}, []
    for line in lines:
        given = frame_of(line)
        if given is None:
            out.append(line)
            continue
        session, data = given[0], rests.pop(given[0], b"") + given[1]
        while data:
            try:
                used = model.read_request(data, model.ARGUMENT_PLACES)[1]
            except model.Wait:
                break
            except (model.ProtocolError, model.Number):
                used = len(data)
            out += generate.frame_lines(session, data[:used])
            data = data[used:]
        rests[session] = data
    return out + [line for session, data in rests.items() for line in generate.frame_lines(session, data)]


def as_inline(line):
    """The line with its request in inline form, if it has one."""
    given = frame_of(line)
    try:
        args, used = model.read_request(given[1], model.ARGUMENT_PLACES)
        inline = b" ".join(args) + b"\n"
        if used == len(given[1]) and model.read_request(inline, model.ARGUMENT_PLACES)[0] == args:
            return generate.frame_lines(given[0], inline)[0]
    except (TypeError, model.Wait, model.ProtocolError, model.Number):
        pass
    return line


def shrink(one, two, lines, frames, domain):
    """A smallest input that differs; if `domain`, one that is in the domain."""
    within = lambda trial: not domain or generate.lines_in_domain(trial, one.mode == "long") == len(trial)
    fails = lambda trial: within(trial) and differ(one, two, trial)
    until = time.time() + SHRINK_SECONDS
    i = first_difference(one.answers(lines), two.answers(lines))
    if frames and fails(lines[: i + 1]):
        lines = lines[: i + 1]
    if frames and fails(one_request_a_line(lines)):
        lines = one_request_a_line(lines)
    lines = fewer(lines, fails, until)
    if not frames:
        return lines
    for i in range(len(lines)):
        trial = lines[:i] + [as_inline(lines[i])] + lines[i + 1 :]
        if fails(trial):
            lines = trial
    for i, line in enumerate(lines):
        if frame_of(line) is None:
            continue
        pairs = [line[k : k + 2] for k in range(3, len(line), 2)]
        rebuilt = lambda pairs: lines[:i] + [line[:3] + b"".join(pairs)] + lines[i + 1 :]
        lines = rebuilt(fewer(pairs, lambda trial: fails(rebuilt(trial)), until))
    return fewer(lines, fails, until)


def readable(line):
    try:
        return repr(bytes.fromhex(line[3:].decode()))[1:]
    except ValueError:
        return ""


def show(one, two, lines, text):
    a, b = one.answers(lines), two.answers(lines)
    i = first_difference(a, b)
    print(text)
    if one.mode in generate.SCRIPTS:
        for line in lines:
            print("   ", line.decode()[:300])
    else:
        for line in lines[: i + 1][-40:]:
            print("   ", line.decode(errors="replace")[:300], readable(line)[:200])
    for name, answers in ((one.command, a), (two.command, b)):
        line = answers[i] if i < len(answers) else b"(no line)"
        print(f"    answer {i + 1} of {' '.join(name)}: {line.decode(errors='replace')[:300]} {readable(line)[:200]}")


def main(argv):
    in_domain = argv[:1] == ["in-domain"]
    argv = argv[in_domain:]
    if len(argv) < 3:
        sys.exit(__doc__)
    mode = argv[2]
    one, two = Program(argv[0], mode), Program(argv[1], mode)
    if mode == "file":
        with open(argv[3], "rb") as f:
            runs = generate.read_runs(f.read())
    else:
        runs = generate.runs_of(mode, *map(int, argv[3:]))
    started = time.time()
    count = total = 0
    for name, lines in runs:
        if in_domain:
            lines = lines[: generate.lines_in_domain(lines, mode == "long")]
        if differ(one, two, lines):
            show(one, two, lines, f"run `{name}` differs:")
            small = shrink(one, two, lines, mode not in generate.SCRIPTS, in_domain or mode in IN_DOMAIN)
            show(one, two, small, f"a smallest input ({len(small)} lines):")
            return 1
        count += 1
        total += len(lines)
    print(f"{count} runs, {total} lines, no difference, {time.time() - started:.0f} s")
    return 0


if __name__ == "__main__":
    sys.exit(main(sys.argv[1:]))
