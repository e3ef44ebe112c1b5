#!/usr/bin/env python3
"""Brings this repository's own definitions and lemmas to one spelling.

usage: python3 tools/spell.py [--list]     at the top of the repository

A name that is declared in a file of crates/*/specs/ or directly in crates/*/proofs/ and has a hyphen is respelled
wherever it stands in those crates: a word goes to snake case (free-name becomes free_name), a type to camel case
(Same-type becomes SameType). So is a word that stands in camel case (placeOf becomes place_of). Names of the library and names that the check makes for a proof keep their hyphens:
what a file imports from the library, and what an Answers.antt or Invariants.antt declares, is left alone.
Comments, strings and documents are left alone too. --list prints the pairs and writes nothing.
"""
import os
import re
import sys

NAME = r"[A-Za-zΓ-ω][\w'₀-₉]*(?:-[\w'₀-₉]+)+|[a-z]{2,}(?:[A-Z][a-z]+)+"
ALONE = r"(?<![\w'₀-₉◌-])(?:%s)(?![\w'₀-₉◌-])"
HEAD = re.compile(
    rf"^\s*(?:(?:pub|abbrev|unfoldable)\s+)*(?:(?:record|data)\s+({NAME})(?![\w'-])|({NAME})\s+:(?!\S))"
)


def files(top):
    for folder, dirs, names in os.walk(os.path.join(top, "crates")):
        dirs[:] = sorted(d for d in dirs if d not in ("out", ".git"))
        for name in sorted(names):
            if name.endswith((".antt", ".rt", ".edit")):
                yield os.path.join(folder, name)


def read(path):
    with open(path, encoding="utf-8") as f:
        return f.read()


def is_own(path, top):
    """A file whose declarations are this repository's: of specs/, or directly in proofs/."""
    parts = os.path.relpath(path, top).split(os.sep)
    return path.endswith(".antt") and (parts[2] == "specs" or (parts[2] == "proofs" and len(parts) == 4))


def code_of(line, path):
    """The line as far as its comment."""
    mark = "//" if path.endswith(".rt") else "--" if path.endswith(".antt") else None
    if mark is None:
        return line, ""
    at = re.search(r"(?:^|(?<=\s))" + mark, line)
    return (line, "") if at is None else (line[: at.start()], line[at.start() :])


def declared(top):
    own, kept = set(), set()
    for path in files(top):
        if not path.endswith(".antt"):
            continue
        text = read(path)
        for line in text.splitlines():
            code, _ = code_of(line, path)
            head = HEAD.match(code)
            if head:
                (own if is_own(path, top) else kept).add(head[1] or head[2])
            if re.match(r"\s*(?:pub )?(?:ghost )?use (?!Rattle\.(?!std\.))", code):
                kept.update(re.findall(NAME, code))
    for path in files(top):
        for line in read(path).splitlines():
            if re.match(r"\s*ghost use Rattle\.std\.", line):
                kept.update(re.findall(NAME, line))
    return own, kept


def respelled(name):
    first, *rest = name.split("-")
    if not rest:
        return re.sub(r"[A-Z]", lambda m: "_" + m[0].lower(), name)
    if first[0].isupper():
        return first + "".join(r[0].upper() + r[1:] for r in rest)
    return "_".join([first, *rest])


def main(argv):
    top = os.getcwd()
    own, kept = declared(top)
    pairs = {n: respelled(n) for n in sorted(own - kept)}
    words = set()
    for path in files(top):
        words.update(re.findall(r"[A-Za-zΓ-ω][\w'₀-₉]*(?:-[\w'₀-₉]+)*", read(path)))
    for name, new in pairs.items():
        if new in words:
            print(f"falls together: {name} and {new}")
    for name in sorted(own & kept):
        print(f"kept: {name}")
    if argv == ["--list"]:
        for name, new in pairs.items():
            print(name, new)
        return 0
    finder = re.compile(ALONE % "|".join(sorted(map(re.escape, pairs), key=len, reverse=True)))
    for path in files(top):
        text = read(path)
        lines = []
        for line in text.split("\n"):
            code, comment = code_of(line, path)
            lines.append(finder.sub(lambda m: pairs[m[0]], code) + comment)
        new = "\n".join(lines)
        if new != text:
            with open(path, "w", encoding="utf-8") as f:
                f.write(new)
    print(f"{len(pairs)} names respelled")
    return 0


if __name__ == "__main__":
    raise SystemExit(main(sys.argv[1:]))
