#!/usr/bin/env python3
"""Spells the names that this repository's specs/ and proofs/ declare in snake case: sameKey becomes same_key, over-front over_front.

usage: tools/rename.py          at the top of the repository, once, after the kit's port.py

Types and modules keep their capitals. Functions of src/ and strings keep their names. Of two names that would fall together, the lemma gets the end `_lem`.
The table of names is written to tools/renamed.tsv: old, a tab, new.
"""

import collections
import os
import re
import subprocess
import sys

OF_A_FUNCTION = ("Proof.antt", "Answers.antt", "Invariants.antt")  # below proofs/: what is declared there is the function's own
KIT_NAMES = {"and-false", "map-append", "not-false"}  # the kit's own names too: they stay
DECLARED = re.compile(
    r"(?m)^ *(?:(?:pub|abbrev|unfoldable|irreducible|data|record|mutual|ghost|opaque) )*"
    r"([^\s(){}.;,@\"«»:]+)(?: [({][^(){}\n]*[)}])* :(?= |$)"
)
# a function's folder, and a step of its proof: they have the function's name
MODULE = re.compile(r"(\bproofs\.[\w.]*)_lem(?=\.(?:Tie|Statement|Goals|Given)\b)")
CHAIN = re.compile(r"(?<![\w.])c(?:\.[^\s(){}.;,@\"«»]+)+")
SNAKE = "port/notes/2026-11-18-names-are-in-snake-case/snake.py"  # below the kit's folder


def in_snake_case(name):
    words = re.sub(r"(?<=[a-z0-9])[A-Z]", lambda m: "_" + m[0].lower(), name)
    return words.replace("-", "_")


def declared(root):
    found = collections.defaultdict(set)
    for folder, dirs, files in os.walk(os.path.join(root, "crates")):
        dirs[:] = sorted(d for d in dirs if d != "out")
        for f in sorted(files):
            if f.endswith(".antt") and (f not in OF_A_FUNCTION or os.path.basename(folder) == "specs" or folder.endswith("/proofs")):
                with open(os.path.join(folder, f), encoding="utf-8") as it:
                    text = re.sub(r"--.*", "", it.read())
                kind = "specs" if "/specs" in folder else "proofs"
                for m in DECLARED.finditer(text):
                    found[m[1]].add(kind)
    return found


def table(found):
    groups = collections.defaultdict(list)
    for name in found:
        if name[:1].islower() and name not in KIT_NAMES:
            groups[in_snake_case(name)].append(name)
    turn = {}
    for new, olds in groups.items():
        # the definition keeps the plain name: first what specs/ declares, then what is in camel case
        olds.sort(key=lambda n: ("specs" not in found[n], "-" in n, n))
        for n, old in enumerate(olds):
            turn[old] = new + "_lem" * n
    return {old: new for old, new in turn.items() if old != new}


def main():
    root = subprocess.run(["git", "rev-parse", "--show-toplevel"], capture_output=True, text=True, check=True).stdout.strip()
    os.chdir(root)
    turn = table(declared(root))
    rows = "tools/renamed.tsv"
    with open(rows, "w", encoding="utf-8") as f:
        f.writelines(f"{old}\t{new}\n" for old, new in sorted(turn.items()))
    paths = sorted(os.path.join("crates", c, d) for c in os.listdir("crates") for d in ("specs", "proofs", "src") if os.path.isdir(os.path.join("crates", c, d)))
    doc = subprocess.run(["rt", "doc"], capture_output=True, text=True, check=True).stdout.strip()
    code = subprocess.run([sys.executable, "-B", os.path.join(os.path.dirname(doc), SNAKE), "--table", rows, *paths]).returncode
    for folder in paths:
        for path in (os.path.join(d, f) for d, _, files in os.walk(folder) for f in files if f.endswith(".antt")):
            with open(path, encoding="utf-8") as f:
                old = f.read()
            new = CHAIN.sub(lambda m: m[0].replace("_lem", ""), MODULE.sub(r"\1", old))
            if new != old:
                with open(path, "w", encoding="utf-8") as f:
                    f.write(new)
    return code


if __name__ == "__main__":
    sys.exit(main())
