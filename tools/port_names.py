#!/usr/bin/env python3
"""Brings the tree's own names of definitions, fields and lemmas to snake case: checkAnswer becomes check_answer, and site-why site_why.

usage: python3 tools/port_names.py        at the top of the repository, once, after port.py

It rewrites specs/, proofs/, the clauses of src/ and the must-fail edits of every crate, and the names in the backquotes of docs/ and README.md. Names of types,
of functions of src/ and of what Rattle generates stay. A lemma that would fall together with another name ends in _lem. It prints each name that it changes.
In specs/, clauses and edits it also writes today's words for tests and bytes: `nat_lt`, `nat_le`, `a == b` and `slice_index xs i`.
"""

import glob
import os
import re
import sys

# The characters of a name of antt; a dash inside joins parts.
NAME = re.compile(r"[^\s.,;:(){}\[\]⌜⌝⟨⟩λ«»\"`=|]+")
CAMEL = re.compile(r"[a-z][a-z0-9]*(?:[A-Z][A-Za-z0-9]*)+'?")
TOP = re.compile(r"^(\s*)(?:pub |abbrev |unfoldable )*([^\s:(){}]+)((?:\s[^\s:(){}\[\]]+)*)\s+:(?:\s|$)")
TYPE = re.compile(r"^\s*(?:pub )?(?:record|data) ")


def text_of(path):
    with open(path, encoding="utf-8") as f:
        return f.read()


def antt():
    for path in sorted(glob.glob("crates/*/specs/**/*.antt", recursive=True) + glob.glob("crates/*/proofs/**/*.antt", recursive=True)):
        yield path


def snake(name):
    name = re.sub(r"(?<=[a-z0-9])([A-Z])", lambda m: "_" + m[1].lower(), name)
    return name.replace("-", "_")


def declared():
    """The names that the tree declares, each with what it names: a part (a field or a constructor), a definition of specs/, or a lemma."""
    found = {}
    for path in antt():
        if path.endswith("/Proof.antt"):
            continue
        kind = "definition" if "/specs/" in path else "lemma"
        depth = None
        for line in text_of(path).split("\n"):
            indent = len(line) - len(line.lstrip())
            if TYPE.match(line):
                depth = indent
                continue
            m = None if re.match(r"\s*(--|use )", line) else TOP.match(line)
            if m and depth is not None and indent > depth:
                found.update({n: "part" for n in [m[2], *m[3].split()] if n not in found})
            elif m:
                depth = None
                found.update({n: kind for n in [m[2], *m[3].split()] if found.get(n) != "definition"})
    return found


def table():
    """The new name of each name that changes. A lemma whose name would be a definition's ends in _lem."""
    kinds = declared()
    new = {n: snake(n) if ("-" in n.strip("-") and n[0] not in "◌_") or CAMEL.fullmatch(n) else n for n in sorted(kinds)}
    definitions = {new[n] for n in new if kinds[n] == "definition"}
    for n in new:
        if kinds[n] == "lemma" and new[n] in definitions:
            new[n] += "_lem"
    for n in new:
        same = [m for m in new if new[m] == new[n] and kinds[m] != "part" and kinds[n] != "part"]
        if len(same) > 1:
            sys.exit(f"port_names: these fall together: {same}")
    return {n: new[n] for n in new if new[n] != n}


def turned(text, names):
    return NAME.sub(lambda m: names.get(m[0], m[0]), text)


def argument(text, at):
    """Where the argument that begins at a place of the text ends."""
    if text[at] != "(":
        m = re.compile(r"[^\s()]+").match(text, at)
        return m.end() if m else at
    depth = 0
    for k in range(at, len(text)):
        depth += {"(": 1, ")": -1}.get(text[k], 0)
        if depth == 0:
            return k + 1
    return at


def bare(word):
    """An argument without its parentheses, where `==` needs none: around a call."""
    return word[1:-1] if re.fullmatch(r"\([\w'.]+( ([\w'.«»]+|\([^()]*\)))*\)", word) else word


def words(line):
    """A line with `eqb a b` as `a == b`, `get_or xs i 0` as `slice_index xs i`, and the tests by their names."""
    head = re.match(r"\s*(?:ghost |pub )*use ", line)
    line = re.sub(r"(?<![\w-])ltb(?![\w-])", "nat_lt", re.sub(r"(?<![\w-])leb(?![\w-])", "nat_le", line))
    if head:
        line = re.sub(r"(?<=[{ ])eqb(?=[,}])", "◌==◌", line)
        return re.sub(r"(?<=[{ ])get_or(?=[,}])", "slice_index", line)
    for m in reversed(list(re.finditer(r"(?<=\()(?:eqb|Dec\.eqb) ", line))):
        one = argument(line, m.end())
        two = argument(line, one + 1)
        line = line[: m.start()] + bare(line[m.end() : one]) + " == " + bare(line[one + 1 : two]) + line[two:]
    for m in reversed(list(re.finditer(r"(?<![\w-])(?:get_or|getD) ", line))):
        one = argument(line, m.end())
        two = argument(line, one + 1)
        if line[two : two + 2] == " 0":
            line = line[: m.start()] + "slice_index " + line[m.end() : two] + line[two + 2 :]
    return line


def main():
    names = table()
    code = glob.glob("crates/*/src/*.rt")
    edits = glob.glob("crates/*/must-fail/**/*.edit", recursive=True)
    pages = [p for p in [*glob.glob("docs/*.md"), "README.md", "CONTRIBUTING.md"] if os.path.exists(p)]
    for path in [*antt(), *code, *edits, *pages]:
        old = text_of(path)
        new = re.sub(r"`[^`\n]+`", lambda m: turned(m[0], names), old) if path in pages else turned(old, names)
        if "/specs/" in path or path in edits and "file: specs/" in old:
            new = "\n".join(map(words, new.split("\n")))
        elif path in code or path in edits:
            new = "\n".join(words(l) if re.match(r"\s*(ghost use|ensures|requires) ", l) else l for l in new.split("\n"))
        if new != old:
            with open(path, "w", encoding="utf-8") as f:
                f.write(new)
    for n in names:
        print(n, names[n])


if __name__ == "__main__":
    main()
