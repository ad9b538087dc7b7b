#!/usr/bin/env python3
"""Finds repeated code and laws in the .rt and .antt files of the crates.

    repeated.py [--lines N] [--proofs] [TREE]     blocks of at least N lines (6) that stand more than once, and laws stated more than once

Comments, imports, lists of modules and blank lines do not count. Names that a file imports, fields, and what stands behind `::` are compared as they are;
every other name by the place at which a block first has it, so a copy under other names is found. `Bytes` is taken for a list of numbers.
The proof of a function (Invariants.antt and Answers.antt in a folder below proofs/) answers goals that the checker prints, mostly in one word each, and
Opens.antt is a list of names: both are left out, unless --proofs is given.

A group is the places of one block; the last line counts the lines that a single copy of each block would save.
"""

import argparse
import collections
import os
import re

TOP = os.path.dirname(os.path.dirname(os.path.abspath(__file__)))
IMPORT = re.compile(r"\s*(?:ghost |unfoldable )?(?:pub )?(?:use|mod) ")
NAME = r"[^\W\d][\w'-]*"
TOKEN = re.compile(NAME + r"|«\w+»|\d+|[^\s\w]")
KEYWORDS = set(
    "fn pub let mut if else while for in loop match return as const struct enum impl mod true false u8 u64 i64 usize bool "
    "requires ensures result now old new module where record unfolding unfoldable abbrev data absurd search grind omega arith rw simp refl".split()
)
LAW_WORDS = 12


class Line:
    def __init__(self, path, number, tokens, law, declared):
        self.path, self.number, self.tokens, self.law, self.declared = path, number, tokens, law, declared


def imported(lines):
    names = set()
    for line in lines:
        if IMPORT.match(line):
            names.update(re.findall(NAME, line))
    return names


def marked(text, kept):
    """The tokens of a line: (token, is it a name of the file's own)."""
    tokens = []
    before = ""
    for token in TOKEN.findall(text):
        own = re.match(NAME, token) and token not in kept and token not in KEYWORDS and before not in (":", ".")
        tokens.append((token, bool(own)))
        before = token
    return tokens


def read(path, shown):
    with open(path, encoding="utf-8") as file:
        lines = file.read().splitlines()
    kept = imported(lines)
    declared = set(re.findall(rf"^\s*(?:(?:pub|abbrev|unfoldable) )*({NAME}) : ", "\n".join(lines), re.M))
    comment = re.compile(r"\s*//.*$" if path.endswith(".rt") else r"\s*--( .*)?$")
    result = []
    for number, line in enumerate(lines, 1):
        text = comment.sub("", line)
        if not text.strip() or IMPORT.match(text):
            continue
        # `a::b` and `a.b`: the part behind is kept; the colon of a type is not doubled.
        law = re.match(rf"\s*(?:pub )?({NAME}) : ", text) if path.endswith(".antt") else None
        tokens = marked(re.sub(r"\bBytes\b", "List ℕ", text).replace("pub ", "").replace("::", ":").replace(" : ", " ∶ ").replace(": ", "∶ "), kept)
        result.append(Line(shown, number, tokens, law, declared))
    return result


def normal(lines):
    """A block with its own names numbered by their first place."""
    places = {}
    out = []
    for line in lines:
        for token, own in line.tokens:
            out.append(f"#{places.setdefault(token, len(places))}" if own else token)
        out.append("\n")
    return " ".join(out)


def blocks(files, least):
    """Groups of equal blocks of at least so many lines, the longest first; a line is in one group."""
    starts = collections.defaultdict(list)
    for f, lines in enumerate(files):
        for i in range(len(lines) - least + 1):
            starts[hash(normal(lines[i : i + least]))].append((f, i))
    groups = collections.defaultdict(set)
    for places in starts.values():
        if len(places) < 2:
            continue
        f, i = places[0]
        size = least
        while all(
            b + size < len(files[a]) and normal(files[a][b : b + size + 1]) == normal(files[f][i : i + size + 1]) if i + size < len(files[f]) else False
            for a, b in places
        ):
            size += 1
        groups[normal(files[f][i : i + size])].update((a, b, size) for a, b in places)
    taken = set()
    result = []
    for places in sorted(groups.values(), key=lambda g: (-max(size for _, _, size in g), min(g))):
        free = []
        for f, i, size in sorted(places):
            span = {(f, k) for k in range(i, i + size)}
            if not span & taken:
                free.append((f, i, size))
                taken |= span
        if len(free) > 1:
            result.append(free)
        else:
            taken -= {(f, k) for f, i, size in free for k in range(i, i + size)}
    return result, taken


def statement(lines, i):
    """The statement of the law at line i, or none where its first line is not one that binds its variables: the law's own name and its
    variables are numbered, what the file declares stays."""
    first = lines[i]
    end = i + 1
    while end < len(lines) and lines[end].tokens[0][0] not in ("unfolding", first.law.group(1)):
        end += 1
    words = [token for line in lines[i:end] for token, _ in line.tokens]
    if end == len(lines) or end > i + 4 or len(words) < LAW_WORDS or words[2] not in "({":
        return None
    tokens = [(token, own and token not in first.declared) for line in lines[i:end] for token, own in line.tokens]
    return normal([Line(None, None, tokens[1:], None, None)])


def laws(files, taken):
    """Groups of laws with one statement that are in no block. A helper of one law (`go`) is none."""
    groups = collections.defaultdict(list)
    for f, lines in enumerate(files):
        for i, line in enumerate(lines):
            if line.law and line.law.group(1) != "go" and (f, i) not in taken:
                stated = statement(lines, i)
                if stated:
                    groups[stated].append((f, i))
    return [places for places in groups.values() if len(places) > 1]


def sources(tree, proofs):
    for folder, _, names in sorted(os.walk(os.path.join(tree, "crates"))):
        part = os.path.relpath(folder, tree).split(os.sep)[2:]
        if part[:1] == ["out"]:
            continue
        of_function = part[:1] == ["proofs"] and len(part) > 1
        for name in sorted(names):
            left_out = not proofs and (of_function or name == "Opens.antt")
            if name.endswith((".rt", ".antt")) and not left_out:
                path = os.path.join(folder, name)
                yield path, os.path.relpath(path, tree)


def main():
    parser = argparse.ArgumentParser()
    parser.add_argument("--lines", type=int, default=6)
    parser.add_argument("--proofs", action="store_true")
    parser.add_argument("tree", nargs="?", default=TOP)
    words = parser.parse_args()
    files = [read(path, shown) for path, shown in sources(words.tree, words.proofs)]
    repeated, taken = blocks(files, words.lines)
    saved = 0
    for group in repeated:
        size = group[0][2]
        saved += size * (len(group) - 1)
        print(f"{size} lines, {len(group)} places")
        for f, i, _ in group:
            print(f"    {files[f][i].path}:{files[f][i].number}-{files[f][i + size - 1].number}")
    stated = laws(files, taken)
    for group in stated:
        print(f"a law stated {len(group)} times")
        for f, i in group:
            print(f"    {files[f][i].path}:{files[f][i].number} {files[f][i].law.group(1)}")
    print(f"{len(repeated)} repeated blocks, {saved} lines more than once; {len(stated)} laws stated more than once; {sum(map(len, files))} lines read")


if __name__ == "__main__":
    main()
