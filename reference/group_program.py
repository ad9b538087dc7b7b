#!/usr/bin/env python3
"""Makes a Rattle program out of group scripts, so that the group call can be compared without a reader of scripts in Rattle.

    group_program.py SCRIPTS > main.rt      the program; SCRIPTS as samples/groups.in

The program makes the calls of the scripts one behind the other and writes numbers: after each call the returned number and the verdict
bytes, and for `versions` the store as it is lent. A script with a value above 4,096 bytes is left out; `usable` gives those that stay.
"""

import sys

import model

MOST_VALUE = 4096

HEAD = """// Group calls made out of scripts: the number, the verdicts and the store after each.
use group_spec::Member;
use registry::group;
use registry::open;
use std::io::Stdout;

fn wide(byte: u8) -> u64 {
    byte as u64
}

fn show(stdout: Stdout, number: u64) {
    let _ = print!(stdout; "{number} ");
}

fn end(stdout: Stdout) {
    let _ = stdout.write_all(b"\\n");
}

fn show_bytes(stdout: Stdout, bytes: &[u8], count: usize) {
    let mut i = 0;
    while i < count {
        show(stdout, wide(bytes[i]));
        i += 1;
    }
    end(stdout);
}

fn show_call(stdout: Stdout, number: u64, verdicts: &[u8], count: usize) {
    show(stdout, number);
    show_bytes(stdout, verdicts, count);
}

fn show_words(stdout: Stdout, words: &[u64], count: usize) {
    let mut i = 0;
    while i < count {
        show(stdout, words[i]);
        i += 1;
    }
    end(stdout);
}

fn show_store(stdout: Stdout, words: &[u64], bytes: &[u8]) {
    show_words(stdout, words, 5 + 4 * words[0] as usize);
    show_bytes(stdout, bytes, words[1] as usize);
}
"""


def scripts_of(lines):
    """Lists of lines, each beginning with `open`."""
    found = []
    for line in lines:
        if line.startswith(b"open"):
            found.append([])
        found[-1].append(line.decode())
    return found


def members_of(line):
    return model.Groups().member(line.split(" ")[1:])


def is_small(script):
    members = [members_of(line) for line in script if line.startswith("member")]
    return all(len(part or b"") <= MOST_VALUE for m in members for write in m.writes for part in write)


def usable(lines):
    """The lines of the scripts that stay."""
    return [line.encode() for script in scripts_of(lines) if is_small(script) for line in script]


def bytes_text(data):
    return 'b"' + "".join(f"\\x{byte:02X}" for byte in data) + '"'


class Call:
    """The buffers of one group call."""

    def __init__(self, members):
        self.data, self.parts, self.text = b"", [], []
        writes = sum(len(m.writes) for m in members)
        first_write, first_check, checks = 0, 2 * writes, []
        for m in members:
            for key, value in m.writes:
                self.parts += self.place(key) + (self.place(value) if value is not None else [0, -1])
            checks += [word for key in m.checks for word in self.place(key)]
            read = f"has_read: {0 if m.read is None else 1}, read: {m.read or 0}"
            self.text.append(
                f"Member {{ {read}, first_write: {first_write}, writes: {len(m.writes)}, first_check: {first_check}, checks: {len(m.checks)} }}"
            )
            first_write += len(m.writes)
            first_check += len(m.checks)
        # the fourth word of a write is the value's length and one more, or 0
        self.parts = [word + 1 if i % 4 == 3 else word for i, word in enumerate(self.parts)] + checks

    def place(self, data):
        start = len(self.data)
        self.data += data
        return [start, len(data)]

    def lines(self):
        count = len(self.text)
        parts = ", ".join(map(str, self.parts or [0, 0]))
        member = "Member { has_read: 0, read: 0, first_write: 0, writes: 0, first_check: 0, checks: 0 }"
        return [
            "    {",
            f"        let members = [{', '.join(self.text or [member])}];",
            f"        let parts: [u64; {len(self.parts or [0, 0])}] = [{parts}];",
            f"        let number = group::group(&members[..{count}], &parts, {bytes_text(self.data)}, &mut verdicts[..{count}], &mut words, &mut bytes);",
            f"        show_call(stdout, number, &verdicts, {count});",
            "    }",
        ]


def function_of(number, script):
    _, last, versions, size = script[0].split(" ")
    out = [
        f"fn script_{number}(stdout: Stdout) {{",
        f"    let mut words = [0u64; {5 + 4 * int(versions)}];",
        f"    let mut bytes = [0u8; {max(1, int(size))}];",
        "    let mut verdicts = [9u8; 80];",
        f"    open::open(&mut words, &bytes, {last}, {versions}, {size});",
    ]
    members = []
    for line in script[1:]:
        if line.startswith("member"):
            members.append(members_of(line))
        elif line == "group":
            out += Call(members).lines()
            members = []
        else:
            out.append("    show_store(stdout, &words, &bytes);")
    return out + ["}", ""]


def program_of(lines):
    scripts = scripts_of(usable(lines))
    out = [HEAD]
    for number, script in enumerate(scripts):
        out += function_of(number, script)
    return "\n".join(out + ["fn main(rt: HostRuntime) {"] + [f"    script_{number}(rt.stdout());" for number in range(len(scripts))] + ["}", ""])


def store_text(words, data):
    """The line of `versions` for a store as it is lent."""
    shown = []
    for row in range(words[0]):
        start, key_length, value_word, sequence = words[5 + 4 * row : 9 + 4 * row]
        key = data[start : start + key_length]
        value = data[start + key_length : start + key_length + max(0, value_word - 1)]
        shown.append(f"{model.script_text(key)}@{sequence}" + ("" if value_word == 0 else "=" + model.script_text(value)))
    return " ".join([str(words[2])] + shown)


def read_output(output, lines):
    """The program's output in the form of groups_rust; `lines` are the scripts that it was made of."""
    given = iter(output.split(b"\n"))
    numbers = lambda: [int(word) for word in next(given).split()]
    found = []
    for line in usable(lines):
        if line == b"group":
            number, *verdicts = numbers()
            found.append(f"!{number}" if number else " ".join(map(str, verdicts)) or "none")
        elif line == b"versions":
            words = numbers()
            found.append(store_text(words, bytes(numbers())))
    return b"".join(text.encode() + b"\n" for text in found)


def main(argv):
    if len(argv) != 1:
        sys.exit(__doc__)
    with open(argv[0], "rb") as f:
        sys.stdout.write(program_of(model.lines_of(f.read())))
    return 0


if __name__ == "__main__":
    sys.exit(main(sys.argv[1:]))
