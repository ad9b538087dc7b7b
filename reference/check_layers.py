#!/usr/bin/env python3
"""Sees that no crate uses one of a layer above its own, by crates.txt. The layer is the first word of a crate's name.

    check_layers.py          says what does not hold; exit status 1 if there is anything
"""

import os
import sys

TOP = os.path.dirname(os.path.dirname(os.path.abspath(__file__)))
LAYERS = "base resp reply store group command session exec call registry frames program".split()
PROGRAMS = "frames examples group_main replies_main".split()


def layer(crate):
    return LAYERS.index("program" if crate in PROGRAMS else crate.split("_")[0])


def uses():
    """Each crate with one that it uses. What has no line of its own is the kit's; a static library has the word `staticlib` behind its name."""
    with open(os.path.join(TOP, "crates.txt")) as f:
        rows = [line.split("#")[0].partition(":") for line in f]
    crates = {head.split()[0]: below.split() for head, colon, below in rows if colon}
    return [(crate, name) for crate, below in crates.items() for name in below if name in crates]


def main():
    wrong = [(crate, name) for crate, name in uses() if layer(name) > layer(crate)]
    for crate, name in wrong:
        print(f"{crate} uses {name}")
    print(f"{len(wrong)} uses of a layer above")
    return 1 if wrong else 0


if __name__ == "__main__":
    sys.exit(main())
