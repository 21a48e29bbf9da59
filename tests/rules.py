#!/usr/bin/env python3
"""rules.py: docs/RULES.md is true. Each of its examples is answered so by tests/paper.py and by the program `edges`, each definition that it names is there, and it names one of each file of definitions.

`--fill` writes the answers of tests/paper.py into the page: for a new example, which is then to be read."""
import glob
import os
import re
import subprocess
import sys

import expect

PAGE, PROGRAM = "docs/RULES.md", "crates/edges/out/edges"
EXAMPLE = re.compile(r"^    ((?:relative|pointer|instruction|entry|table|callsite|search|lookup|frame|audit|bundle) .*?) =(.*)$", re.M)
GROUP = re.compile(r"(\w+), (\w+): ((?:`[\w-]+`(?:, )?)+)")
SHOWN = 20  # so many values of a row that ends in `..`


def answered(case, row):
    number, values = expect.answer(case)
    words = [f"{x:x}" for x in [number, *values]]
    return " ".join(words[:SHOWN] + [".."]) if row.endswith("..") else " ".join(words)


def defined(crate, name):
    try:
        text = open(f"crates/{crate}/specs/{name}.antt", encoding="utf-8").read()
    except OSError:
        return set()
    return set(re.findall(r"^(?:unfoldable |abbrev )?pub (?:record |data )?([\w-]+)", text, re.M))


def examples_hold(text):
    found = EXAMPLE.findall(text)
    for case, row in found:
        if answered(case, row) != row.strip():
            sys.exit(f"rules: {case} = {answered(case, row)}, not{row}")
    run = subprocess.run([PROGRAM], input="".join(case + "\n" for case, _ in found), stdout=subprocess.PIPE, text=True, check=True).stdout.splitlines()
    for line, (case, row) in zip(run, found, strict=True):
        if not (line + " ").startswith(f"{case} ={row}".removesuffix("..").rstrip() + " "):
            sys.exit(f"rules: edges says {line}, not{row}")
    return len(found)


def names_hold(text):
    named, count = set(), 0
    for crate, file, names in GROUP.findall(text):
        named.add(f"crates/{crate}/specs/{file}.antt")
        for name in re.findall(r"`([\w-]+)`", names):
            count += 1
            if name not in defined(crate, file):
                sys.exit(f"rules: {name} is not in crates/{crate}/specs/{file}.antt")
    left = set(glob.glob("crates/*/specs/*.antt")) - set(glob.glob("crates/*/specs/Lib.antt")) - named
    if left:
        sys.exit(f"rules: no rule names {', '.join(sorted(left))}")
    decided = set(re.findall(r"^(\d+)\. ", open("docs/DECISIONS.md", encoding="utf-8").read(), re.M))
    left = decided - set(re.findall(r"[Dd]ecided (\d+)", text))
    if left:
        sys.exit(f"rules: no rule has decision {', '.join(sorted(left, key=int))}")
    return count


def main():
    os.chdir(os.path.join(os.path.dirname(os.path.abspath(__file__)), ".."))
    text = open(PAGE, encoding="utf-8").read()
    if "--fill" in sys.argv:
        text = EXAMPLE.sub(lambda m: f"    {m[1]} = {answered(m[1], m[2])}", text)
        with open(PAGE, "w", encoding="utf-8") as out:
            out.write(text)
    print(f"rules: {examples_hold(text)} examples hold, {names_hold(text)} definitions are named")


if __name__ == "__main__":
    main()
