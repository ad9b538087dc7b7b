#!/usr/bin/env python3
"""Sees that what the documents cite exists: definitions, laws, functions, must-fail edits, requirements, files and lines of files.

    check_docs.py            says each citation that has no place; exit status 1 if there is one
    check_docs.py links      first makes each citation in the documents of LINKED a link, and gives each cited line its number

The forms are those of docs/THEOREMS.md: `crate:File.name` a definition, `crate!File.name` a law, `crate::module::function` a function or a
type, `crate::module::Type::function` a method, `crate/label` a must-fail edit; `path:line` (`text`) a line that holds the text; and REQ 4.3 a requirement. `resp::parse` is the Rust's.
In the documents of LINKED an indented line quotes a source.
"""

import glob
import os
import re
import sys

TOP = os.path.dirname(os.path.dirname(os.path.abspath(__file__)))
CRATES = {os.path.basename(p) for p in glob.glob(os.path.join(TOP, "crates", "*"))}
FOLDERS = "crates|station|reference|include|tests|docs|examples"
REQUIREMENT = r"\bREQ (R?\d+\.\d+)\b"
LINE = rf"`((?:{FOLDERS})/[^`:\s]+):(\d+)` \(`([^`]+)`"
LINKS = "<!-- The links, written by `reference/check_docs.py links`. -->"


def below(folder):
    return sorted(os.path.join(folder, name) for name in os.listdir(os.path.join(TOP, folder)) if name.endswith(".md"))


THEOREMS = below("docs/theorems")
LINKED = ["docs/THEOREMS.md", "docs/READING-SPECS.md"] + THEOREMS
DOCUMENTS = ["README.md", "CONTRIBUTING.md", "reference/README.md", "reference/edits/README.md", "station/README.md"] + below("docs") + THEOREMS


def text(*words):
    path = os.path.join(TOP, *words)
    if not os.path.isfile(path):
        return None
    with open(path) as f:
        return f.read()


def requirements():
    """Each requirement with its place in docs/REQUIREMENTS.md: the heading that it stands under."""
    places, heading = {}, ""
    for line in text("docs", "REQUIREMENTS.md").split("\n"):
        if line.startswith("## "):
            heading = re.sub(r"[^a-z0-9 -]", "", line[3:].lower()).replace(" ", "-")
        for number in re.findall(r"\*\*(R?\d+\.\d+)\*\*", line):
            places[number] = f"docs/REQUIREMENTS.md#{heading}"
    return places


REQUIREMENTS = requirements()
SOURCES = "".join(text(path) for part in ("specs/*.antt", "proofs/*.antt", "src/*.rt") for path in glob.glob(os.path.join(TOP, "crates", "*", part)))


def declares(source, name):
    """Whether an antt file declares the name at the start of a line, as a field or as a constructor."""
    return re.search(r"^\s*(?:(?:pub|abbrev|unfoldable|record|data|private) )*" + re.escape(name) + r"(?=[\s:({]|$)", source, re.M) is not None


def antt_place(crate, kind, path):
    file, _, name = path.partition(".")
    place = f"crates/{crate}/{'specs' if kind == ':' else 'proofs'}/{file}.antt"
    source = text(place)
    return place if source is not None and (not name or declares(source, name)) else None


def item_place(crate, *rest):
    in_root = len(rest) == 1 or text(f"crates/{crate}/src/{rest[0]}.rt") is None  # a module, else a type of the root file
    files = ["lib", "main"] if in_root else [rest[0]]
    if len(rest) > 1 and in_root and not any(re.search(r"\bimpl\b.*\b" + re.escape(rest[0]) + r"\b", text(f"crates/{crate}/src/{f}.rt") or "") for f in files):
        return None
    for place in (f"crates/{crate}/src/{file}.rt" for file in files):
        if re.search(r"\b(?:fn|enum|struct|const|mod) " + re.escape(rest[-1]) + r"\b", text(place) or ""):
            return place
    return None


def edit_place(crate, label):
    places = (f"crates/{crate}/must-fail/{label}.edit", f"reference/edits/{crate}/{label}.edit")
    return next((place for place in places if text(place) is not None), None)


def path_place(document, path):
    """As it stands or with the ending of an edit or a sample, from the top or from the document's folder."""
    places = (os.path.join(folder, path + ending) for folder in ("", os.path.dirname(document)) for ending in ("", ".edit", ".in"))
    return next((os.path.normpath(place) for place in places if os.path.exists(os.path.join(TOP, place))), None)


def place_of(document, word):
    """Where a cited thing stands, from the top; None if nowhere. "" if the word cites nothing; `crate` and `NAME` stand for any crate."""
    antt = re.fullmatch(r"([a-z_0-9]+)([:!])([A-Z][A-Za-z0-9]*(?:\.[^\s,]+)?)", word)
    item = re.fullmatch(r"([a-z_0-9]+)((?:::[A-Za-z_0-9]+){1,3})", word)
    edit = re.fullmatch(r"([a-z_0-9]+)/([a-z_0-9]+)", word)
    if antt and antt[1] != "crate":
        return antt_place(*antt.groups())
    if item and item[1] != "crate" and word != "resp::parse":
        return item_place(*word.split("::"))
    if edit and edit[1] in CRATES:
        return edit_place(*edit.groups())
    if re.fullmatch(rf"(?:{FOLDERS})/[^:*\s]+", word) and not re.search(r"/(?:crate|NAME|out)(?:/|$)", word):
        return path_place(document, word)
    return ""


def numbered(body):
    """The document in which each cited line has its number: of the lines that hold the text, the one nearest to where it was."""

    def cited(m):
        lines = (text(m[1]) or "").split("\n")
        held = [n for n, line in enumerate(lines, 1) if m[3] in line]
        line = min(held, key=lambda n: abs(n - int(m[2])), default=m[2])
        return f"`{m[1]}:{line}` (`{m[3]}`"

    return re.sub(LINE, cited, body)


def linked(document, body):
    """The document with each citation as a link, and the links behind it."""
    front = body.split(LINKS)[0].rstrip("\n")
    front = re.sub(r"(?<!\[)`([^`\n]+)`(?!\])", lambda m: f"[{m[0]}]" if place_of(document, m[1]) else m[0], front)
    front = re.sub(r"(?<!\[)" + REQUIREMENT + r"(?!\])", lambda m: f"[{m[0]}]" if m[1] in REQUIREMENTS else m[0], front)
    places = {f"`{word}`": place_of(document, word) for word in re.findall(r"\[`([^`\n]+)`\](?!\()", front)}
    places.update((f"REQ {number}", REQUIREMENTS.get(number)) for number in re.findall(r"\[" + REQUIREMENT + r"\]", front))
    lines = [f"[{label}]: {os.path.relpath(place, os.path.dirname(document))}" for label, place in sorted(places.items()) if place]
    return front + "\n\n" + LINKS + "\n\n" + "\n".join(lines) + "\n"


def faults_of(document):
    body = text(document)
    for word in sorted(set(re.findall(r"`([^`\n]+)`", body))):
        if place_of(document, word) is None:
            yield word
    for number in sorted(set(re.findall(REQUIREMENT, body)) - REQUIREMENTS.keys()):
        yield f"REQ {number}"
    for path, line, held in re.findall(LINE, body):
        lines = (text(path) or "").split("\n")
        if len(lines) < int(line) or held not in lines[int(line) - 1]:
            yield f"{path}:{line} ({held})"
    for path in sorted(set(re.findall(r"\]\(([^)#\s]+)\)", body))):
        if not path.startswith("http") and not os.path.exists(os.path.join(TOP, os.path.dirname(document), path)):
            yield path
    if document in LINKED:
        if sorted(linked(document, body).split("\n")) != sorted(body.split("\n")):
            yield "its links: run check_docs.py links"
        for line in re.findall(r"^ {4,}(.*\S)$", body, re.M):
            if line not in SOURCES:
                yield f"no source has: {line}"


def without_row():
    """Requirements and edits of the gate that the theorems do not have, and crates that ARCHITECTURE does not have."""
    cited = {number for document in THEOREMS for number in re.findall(REQUIREMENT, text(document))}
    for number in REQUIREMENTS.keys() - cited:
        yield f"REQ {number}"
    rows = text("docs", "theorems", "edits.md")
    for path in glob.glob(os.path.join(TOP, "crates", "*", "must-fail", "*.edit")):
        crate, label = path.split(os.sep)[-3], os.path.basename(path)[:-5]
        if f"| [`{crate}/{label}`] |" not in rows:
            yield f"{crate}/{label}"
    rows = text("docs", "ARCHITECTURE.md")
    for crate in CRATES:
        if f"| `{crate}` |" not in rows:
            yield f"crate {crate}"


def main():
    if sys.argv[1:] == ["links"]:
        for document in DOCUMENTS:
            body = numbered(text(document))
            with open(os.path.join(TOP, document), "w") as f:
                f.write(linked(document, body) if document in LINKED else body)
    faults = [(document, fault) for document in sorted(DOCUMENTS) for fault in faults_of(document)]
    faults += [("no row for", fault) for fault in sorted(without_row())]
    for document, fault in faults:
        print(f"{document}: {fault}")
    print(f"{len(faults)} citations without a place")
    return 1 if faults else 0


if __name__ == "__main__":
    sys.exit(main())
