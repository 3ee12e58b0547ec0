#!/usr/bin/env python3
"""Respells the repository's own definitions and lemmas: snake case for words, camel case for types.

usage: tools/respell.py [--check] [TOP]

A name counts as the repository's own where a file of specs/ or proofs/ declares it: by a signature, by a `record`,
`data` or `module`, or by a `let`. What Rattle makes for a proof (signatures whose type begins with `goal.`) and what a
`use` line brings from another library keeps its name. Names turn in clauses and proofs, and in the code spans of
comments and of Markdown pages; strings, prose and must-fail edits stay. With --check nothing is written.
Names that would fall together with another one of the same files are printed, and nothing is written then.
"""
import pathlib
import re
import sys

NAME = r"[^\s(){}\[\].:;,|\"«»`]+"
SIGNATURE = re.compile(rf"^\s*(?:(?:pub|abbrev|unfoldable)\s+)*({NAME})\s+:\s+(.*)$")
HEAD = re.compile(rf"^\s*(?:pub\s+)?(?:record|data|module)\s+(?:pub\s+)?({NAME})")
LET = re.compile(r"\blet\s+([A-Za-z][\w'-]*)\b")
WORD = re.compile(r"[A-Za-z](?:[\w'₀-₉+]|-(?=[\w]))*")
USE = re.compile(r"use\s+([\w.'+]+)\.\{([^}]*)\}")
SPAN = re.compile(r"`[^`\n]*`")


def respelled(name):
    if name[0].isupper():
        return "".join(part[0].upper() + part[1:] for part in name.split("-"))
    return name.replace("-", "_")


def comments_apart(text, mark):
    """The text in pieces: (piece, whether it is a comment)."""
    for line in text.splitlines(keepends=True):
        at = line.find(mark)
        if at < 0:
            yield line, False
        else:
            yield line[:at], False
            yield line[at:], True


def turned(text, table, mark=None):
    word = lambda m: table.get(m[0], m[0])
    code = lambda piece: WORD.sub(word, piece)
    spans = lambda piece: SPAN.sub(lambda m: code(m[0]), piece)
    if mark is None:
        return spans(text)
    return "".join(spans(piece) if comment else code(piece) for piece, comment in comments_apart(text, mark))


def main():
    words = [a for a in sys.argv[1:] if a != "--check"]
    check = "--check" in sys.argv
    top = pathlib.Path(words[0] if words else ".")
    crates = [p for p in sorted((top / "crates").rglob("*")) if p.is_file() and "out" not in p.relative_to(top).parts]
    proofs = [p for p in crates if p.suffix == ".antt"]
    sources = [p for p in crates if p.suffix == ".rt"]
    ours = {p.name for p in (top / "crates").iterdir() if p.is_dir()}

    declared, brought, made = set(), set(), set()
    for path in proofs + sources:
        text = path.read_text()
        for home, names in USE.findall(text):
            parts = home.split(".")
            if not (parts[0] == "Rattle" and parts[1] in ours):
                brought |= {side for name in names.split(",") for side in name.strip().split(" as ")}
        if path in proofs:
            for line in text.splitlines():
                if found := SIGNATURE.match(line):
                    (made if found[2].startswith("goal.") else declared).add(found[1])
                if found := HEAD.match(line):
                    declared.add(found[1])
                declared |= set(LET.findall(line))
    own = {n for n in declared - brought - made if "-" in n and n[0].isalpha()}
    table = {name: respelled(name) for name in sorted(own)}
    taken = (declared - own) | brought | made
    clashes = [(old, new) for old, new in table.items() if new in taken]
    if len(set(table.values())) < len(table):
        clashes += [(old, new) for old, new in table.items() if list(table.values()).count(new) > 1]
    for old, new in clashes:
        print(f"falls together: {old} -> {new}")
    if clashes:
        sys.exit(1)

    pages = [top / "README.md", *sorted((top / "docs").glob("*.md"))]
    for path in proofs + sources + [p for p in pages if p.exists()]:
        text = path.read_text()
        mark = {".antt": "--", ".rt": "//"}.get(path.suffix)
        after = turned(text, table, mark)
        if after != text and not check:
            path.write_text(after)
    print(f"respelled: {len(table)} names")


if __name__ == "__main__":
    main()
