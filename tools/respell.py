#!/usr/bin/env python3
"""Spells the repository's own definitions, lemmas and fields in snake case, once, behind port.py of the Rattle kit.

usage: tools/respell.py [--list]     at the top of the repository

A name counts as the repository's own where a file of crates/*/specs or crates/*/proofs/*.antt declares it: a definition, a lemma, a
constructor, a record's field, a local definition of a `where`. What begins with a capital is a type and keeps its words. Strings, names of
functions of src/ and labels that Rattle makes are not touched. In comments and pages only names in backquotes and names with an inner capital turn.
"""
import re
import subprocess
import sys
from pathlib import Path

HEAD = re.compile(r"^ *((?:(?:abbrev|unfoldable|pub|record|data|ruleset) )*)([^\s(){}.;,@\"«»]+) (?:\{.*?\} |\(.*?\) )*[:=] ")
NAME = re.compile(r"[^\s(){}.;,@\"«»`\[\]]+")
# What the library has renamed meanwhile: the part of our names that speaks of it follows.
WORDS = {"getD": "get_or"}
# A definition that meets a lemma's name which port.py made: the lemma moves on.
FREED = {"all_held"}
WORDS_OF_TEXT = re.compile(r"`([^`\n]+)`")


def snake(name):
    for old, new in WORDS.items():
        name = re.sub(rf"(?<![A-Za-z]){old}(?![a-z])", new, name)
    if not name[0].isupper():
        name = re.sub(r"(?<=[a-z0-9])[A-Z](?![A-Z])", lambda m: "_" + m[0].lower(), name)
    return name.replace("-", "_")


def declared():
    """The names that our own files declare."""
    names = set()
    for path in list(Path("crates").glob("*/specs/*.antt")) + list(Path("crates").glob("*/proofs/*.antt")):
        for line in path.read_text().split("\n"):
            code = line.split("--")[0] if line.lstrip().startswith("--") else line
            m = HEAD.match(code + " ")
            if m:
                names.add(m[2])
    return {n for n in names if n[0].isalpha()}


def renamings():
    """Old name to new. Where two would fall together, the definition has the name and the lemma, which was written with dashes, gets `_lem`."""
    own = declared()
    taken = {n for n in own if snake(n) == n} | {snake(n) for n in own if "-" not in n}
    names = {n: snake(n) + ("_lem" if "-" in n and snake(n) in taken else "") for n in sorted(own) if snake(n) != n}
    assert len(set(names.values())) == len(names) and not set(names.values()) & own - FREED, sorted(set(names.values()) & own)
    return names


def turn_code(text, names):
    return NAME.sub(lambda m: names.get(m[0], m[0]), text)


def turn_comment(text, names):
    text = WORDS_OF_TEXT.sub(lambda m: "`" + turn_code(m[1], names) + "`", text)
    inner = {n: t for n, t in names.items() if re.fullmatch(r"[a-z0-9]+(?:[A-Z][a-z0-9]*)+", n)}
    return re.sub(r"\b[a-z0-9]+[A-Z]\w*", lambda m: inner.get(m[0], m[0]), text)


def turn_line(line, names, mark, start=""):
    """A line of code: what stands before its comment as code, the rest as text; strings stay."""
    if line.lstrip().startswith(mark):
        return turn_comment(line, names)
    parts = re.split(r'("(?:[^"\\]|\\.)*")', line)
    return "".join(p if i % 2 else turn_code(p, names) for i, p in enumerate(parts))


def turn(path, names):
    text = path.read_text()
    if path.suffix == ".antt":
        new = "\n".join(turn_line(l, names, "--") for l in text.split("\n"))
    elif path.suffix == ".rt":
        new = "\n".join(turn_line(l, names, "//") for l in text.split("\n"))
    elif path.suffix == ".edit":
        new = "\n".join(turn_line(l, names, "//") if l.startswith(("old:", "new:")) else turn_comment(l, names) for l in text.split("\n"))
    else:
        new = turn_comment(text, names)
    if new != text:
        path.write_text(new)
    return new != text


def main():
    names = renamings()
    if "--list" in sys.argv:
        for old, new in names.items():
            print(old, new)
        return
    tracked = subprocess.run(["git", "ls-files", "-co", "--exclude-standard"], capture_output=True, text=True, check=True).stdout.split("\n")
    paths = [Path(p) for p in tracked if p and Path(p).is_file() and not p.startswith(("tools/", "docs/PORT"))]
    paths = [p for p in paths if p.suffix in (".antt", ".rt", ".edit", ".md")]
    turned = sum(turn(p, names) for p in paths)
    print(f"respell: {len(names)} names, {turned} files")


if __name__ == "__main__":
    main()
