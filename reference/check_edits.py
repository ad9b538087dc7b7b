#!/usr/bin/env python3
"""Reads what the gate printed, and sees that each must-fail edit was refused for a fact that its row names.

    rt ci > LOG; check_edits.py LOG     says what does not hold; exit status 1 if there is anything
    check_edits.py - < LOG              the same
    check_edits.py                      the rows alone, without a log

LOG has what `rt ci`, or `rt must-fail NAME..`, printed; of several lines on one edit the last counts. An edit that the log does not name was not tried.

- Each edit of crates/*/must-fail has a row in docs/theorems/edits.md, and each row an edit.
- Each edit is refused, and the first fact that fails is one that its row names: a law, or the contract of a function. `rt` shows that fact alone.
  Refused only for a name that is gone, or only by a limit of the prover, is not enough.
- Each public function of the crates in LEAVES is a fact of the row of an edit that was refused so; without a log, of some row.
"""

import glob
import os
import re
import sys

TOP = os.path.dirname(os.path.dirname(os.path.abspath(__file__)))
LEAVES = (
    "base_key base_writing base_number base_decimal resp_spec resp_utf8 resp_headers resp_bulk resp_parse reply_item reply_reader resp_sanitize resp_encode "
    "resp_items resp_faults command_glob command_names session_memory session_validity session_flags session_queue session_watch base_input"
).split()
WITHOUT = {"session_flags::unwatch"}  # its only line stands twice in its file, and an edit names a line that stands once
TRIED = re.compile(r"^rt: must-fail ([a-z_0-9]+)/([\w.-]+)\.edit: (.*)$", re.M)
REFUSED = "refused, as it must be: "


def read(*words):
    with open(os.path.join(TOP, *words)) as f:
        return f.read()


def rows():
    """Each edit of docs/theorems/edits.md with the facts that its row names."""
    for line in read("docs", "theorems", "edits.md").split("\n"):
        cells = [cell.strip() for cell in line.strip("|").split("|")]
        if len(cells) == 3 and re.fullmatch(r"\[`[a-z_0-9]+/[a-z_0-9]+`\]", cells[0]):
            yield cells[0].strip("[`]"), re.findall(r"`([a-z_0-9]+(?:!|::)[^`]+)`", cells[2])


def function_at(crate, path, line):
    """The function of a source file in which the line stands. An edit puts one line for one, so the numbers are those of the file as it is."""
    lines = read("crates", crate, path).split("\n")
    while lines[line - 1].lstrip().startswith("#["):  # an attribute stands above its function
        line += 1
    heads = [re.search(r"\bfn (\w+)", text) for text in lines[:line]]
    names = [head[1] for head in heads if head]
    ends = [re.match(r"impl(?:<[^>]*>)? (?:.* for )?(\w+)|\}", text) for text in lines[:line]]
    block = [end[1] for end in ends if end][-1:]  # the type of the `impl` block that is open, or None behind a block
    module = os.path.basename(path)[:-3]
    return "::".join([crate] + ([] if module in ("lib", "main") else [module]) + [name for name in block if name] + names[-1:]) if names else None


def fact(crate, said):
    """The fact that failed first: `crate!File.law`, or `crate::module::function` for a goal of its contract or of its safety."""
    source = re.match(r"(?:note: )?(?:\./)?(src/\S+?\.rt):(\d+):\d+: ", said)
    if source:
        return function_at(crate, source[1], int(source[2]))
    proof = re.match(r"(?:note: )?(?:\./)?proofs/(\S+)\.antt:\d+:\d+: (?:error: )?`([^`]+)`", said)
    if not proof:
        return None
    *folders, file = proof[1].split("/")
    return "::".join([crate] + [folder.lstrip("+") for folder in folders]) if folders else f"{crate}!{file}.{proof[2]}"


def public_functions(crate):
    for path in glob.glob(os.path.join(TOP, "crates", crate, "src", "*.rt")):
        for n, line in enumerate(read(path).split("\n"), 1):
            if re.match(r" *pub fn \w+", line):
                yield function_at(crate, os.path.join("src", os.path.basename(path)), n)


def faults_of_rows(facts, edits):
    for edit in sorted(edits - facts.keys()):
        yield f"{edit}: no row in docs/theorems/edits.md"
    for edit in sorted(facts.keys() - edits):
        yield f"{edit}: a row, and no edit"
    yield from without_edit({fact for row in facts.values() for fact in row})


def without_edit(found):
    for crate in LEAVES:
        for function in public_functions(crate):
            if function not in found | WITHOUT:
                yield f"{function}: no edit"


def faults_of_log(log, facts, edits):
    tried = {f"{crate}/{label}": (crate, said) for crate, label, said in TRIED.findall(log)}
    refused = set()
    for edit in sorted(edits & facts.keys()):
        crate, said = tried.get(edit, (None, "not tried"))
        if not said.startswith(REFUSED):
            yield f"{edit}: {said[:200]}"
            continue
        found = fact(crate, said[len(REFUSED) :])
        if found in facts[edit]:
            refused.update(facts[edit])
        else:
            yield f"{edit}: refused for {found or said[len(REFUSED) :]}, and its row names {', '.join(facts[edit])}"
    yield from without_edit(refused)


def main():
    facts = dict(rows())
    edits = {"/".join(p.split(os.sep)[-3::2])[:-5] for p in glob.glob(os.path.join(TOP, "crates", "*", "must-fail", "*.edit"))}
    found = list(faults_of_rows(facts, edits))
    for path in sys.argv[1:]:
        with sys.stdin if path == "-" else open(path) as f:
            found += faults_of_log(f.read(), facts, edits)
    for fault in found:
        print(fault)
    print(len(found), "faults")
    sys.exit(1 if found else 0)


main()
