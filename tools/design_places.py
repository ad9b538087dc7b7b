#!/usr/bin/env python3
"""Counts the places of the points of docs/DESIGN-PASS.md in the sources of the crates.

    design_places.py [TREE] [--list]     a line for each kind of place; --list names each

It goes by text, on the layout that `rt fmt` gives: one item or clause begins a line, and an item ends at a closing brace in its first column.
"""

import collections
import glob
import os
import re
import sys

ARGS = [a for a in sys.argv[1:] if not a.startswith("--")]
TREE = ARGS[0] if ARGS else os.path.dirname(os.path.dirname(os.path.abspath(__file__)))
LIST = "--list" in sys.argv


class Function:
    def __init__(self, where, name, head, body):
        self.where, self.name, self.head, self.body = where, name, head, body
        self.parameters = re.findall(r"(?:^|[(,\s])(?:mut )?(\w+): (&?(?:'\w+ )?(?:mut )?[^,()]+(?:\([^)]*\))?)", head.split("\n    requires")[0].split("\n    ensures")[0])
        self.requires = re.findall(r"^\s*requires(?: \w+)? \{ (.*) \}$", head, re.M)
        result = re.search(r"\) -> ([^\n{]+)", head)
        self.result = result.group(1).strip() if result else ""


def sources():
    for path in sorted(glob.glob(os.path.join(TREE, "crates", "*", "src", "**", "*.rt"), recursive=True)):
        crate = path.split("/crates/")[1].split("/")[0]
        with open(path, encoding="utf-8") as f:
            yield crate + "/" + path.split("/src/")[1], f.read()


def functions(where, text):
    start = r"^( *)(?:pub )?(?:const )?(?:unsafe )?(?:extern \"C\" )?fn (\w+)"
    for m in re.finditer(start, text, re.M):
        end = text.index("\n" + m.group(1) + "}\n", m.start())
        whole = text[m.start() : end]
        opened = re.search(r"(?:^|\) |[\w>\]] )\{$", whole, re.M)
        cut = opened.end() if opened else len(whole)
        yield Function(where, m.group(2), whole[:cut], whole[cut:])


def enums(where, text):
    for m in re.finditer(r"^(?:pub )?enum (\w+)[^{]*\{\n(.*?)^\}", text, re.M | re.S):
        variants = re.findall(r"^    (\w+)(\([^\n]*\)|\s*\{[^}]*\})?,", m.group(2), re.M)
        yield m.group(1), variants


def shape(variants):
    full = sum(1 for v in variants if v[1])
    if len(variants) == 2 and full == 1:
        return "Option"
    if len(variants) == 2 and full == 2:
        return "Result"
    if {v[0] for v in variants} == {"Less", "Equal", "Greater"}:
        return "Ordering"
    return None


def counted_loop(function):
    """loops whose condition names a variable that the body raises or lowers by a fixed step"""
    found = []
    for m in re.finditer(r"^( *)while ([^\n]*) \{\n(.*?)^\1\}", function.body, re.M | re.S):
        for name in re.findall(r"\b([a-z_]\w*)\b", m.group(2)):
            if re.search(r"\b%s [+-]= \d+;" % name, m.group(3)):
                found.append(name)
                break
    return found


def switches(function):
    """matches of which three arms or more are a call alone"""
    found = 0
    for m in re.finditer(r"^( *)(?:[\w ]+= )?match [^\n]* \{\n(.*?)^\1\}", function.body, re.M | re.S):
        arms = re.findall(r"^%s    [^\n]*=> (?:\{\n\s*)?(?:\w+::)*[a-z]\w*\(" % m.group(1), m.group(2), re.M)
        found += len(arms) >= 3
    return found


CONVERSIONS = {
    "wide", "index", "word_of", "magnitude", "four", "eight", "lower", "upper_byte", "lower_byte", "is_space", "clean_byte", "begins_with", "is_minus_one", "is_zero",
    "clear_words", "put_words", "move_down", "shift_up", "hex_value", "int_of", "value_len", "same_front", "same_blocks", "compare", "same", "verdict_byte", "put_at",
}
GROUPS = {
    "words, bytes (a store)": ("words", "bytes"),
    "session_words, session_bytes (a session)": ("session_words", "session_bytes"),
    "swords, sbytes (sessions)": ("swords", "sbytes"),
    "input, places (a request)": ("input", "places"),
    "own, rows or n, data (own writes)": ("own", "data"),
    "lens, seqs, text (watched keys)": ("lens", "seqs", "text"),
    "parts, data (a group's parts)": ("parts", "data"),
    "out, put (a reply so far)": ("out", "put"),
    "counts, held (what sessions hold)": ("counts", "held"),
}


def main():
    points = collections.OrderedDict()

    def place(point, text):
        points.setdefault(point, []).append(text)

    facts = collections.defaultdict(list)
    for where, text in sources():
        for name, variants in enums(where, text):
            kind = shape(variants)
            if kind == "Ordering":
                place("4 order: an own enum of the shape of Ordering", where + " " + name)
            elif kind:
                place("1 an own enum of the shape of " + kind, where + " " + name)
        for m in re.finditer(r"^    (?:pub )?(number|verdict|found|state|has_\w+|kind): u(?:64|8),", text, re.M):
            place("1 a number for a kind, a refusal or a flag: field", where + " " + m.group(1))
        for f in functions(where, text):
            label = where + " " + f.name
            if re.search(r"\bnumber: u64|\bverdict: u64", f.head) or re.search(r"_number$", f.name):
                place("1 a number for a kind, a refusal or a flag: parameter or result", label)
            for name in counted_loop(f):
                place("3 a loop that counts an index by hand", label + " (" + name + ")")
            if switches(f):
                place("7 a switch on which step to run", label)
            if f.name in CONVERSIONS:
                place("4 equality, order, copying or conversion by hand", label)
            if len(re.findall(r"\bLess => true\b|\bGreater => false\b|\bEqual => false\b", f.body)) >= 2 and "Less => true" in f.body:
                place("4 equality, order, copying or conversion by hand", label + " (an order turned into a bool)")
            for text_of in f.requires:
                head = re.match(r"\(?([A-Z]\w*)\b", text_of)
                if head:
                    facts[head.group(1)].append(label)
            names = {n for n, t in f.parameters}
            for group, members in GROUPS.items():
                if all(m in names for m in members):
                    place("5 parameters that travel together: " + group, label)
        for m in re.finditer(r"^    (?:pub )?(\w+): \[u(?:8|64); \w+\],\n    (?:pub )?(length|len|count): usize", text, re.M):
            place("6 a buffer with a length beside it", where + " " + m.group(1))
    for fact, where in facts.items():
        if len(where) >= 3:
            for label in where:
                place("5 a fact in the contracts of three or more functions: " + fact, label)
    total = collections.OrderedDict()
    for point, found in points.items():
        total[point] = len(found)
    for point in sorted(total):
        print("%4d  %s" % (total[point], point))
        if LIST:
            for text in points[point]:
                print("        " + text)


main()
