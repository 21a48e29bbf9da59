#!/usr/bin/env python3
"""edits.py [--short] < LOG: what the prover said of each must-fail edit in the output of `rt must-fail` or `rt ci`, and which of the edits show nothing.

An edit that is not refused, or whose refusal is that a goal, a field or a name is gone, only made the proof unfit for the code. So does one that renames a goal which
crates/CRATE/proofs answers: a test's number is part of the name (`returns-then-k-ge5`), and the answer under the old name is not tried."""
import glob
import re
import sys


def shape(goal):
    """A goal's name without what a test compares with."""
    return re.sub(r"(?:lt|le|gt|ge|eq|ne)?[0-9]+", "#", goal)


def function_at(crate, path, line):
    """The function of a source that a line is in."""
    with open(f"crates/{crate}/{path}", encoding="utf-8") as text:
        lines = text.read().split("\n")[: line + 1]
    while lines and not re.match(r"\s*(?:pub(?:\(\w+\))? )?(?:extern \"C\" )?fn (\w+)", lines[-1]):
        lines.pop()
    return re.search(r"fn (\w+)", lines[-1])[1] if lines else ""


def renamed(crate, said):
    """Whether the goal that is open has no answer in its function's proof, while one of its shape has."""
    note = re.match(r"note: (\S+):(\d+):\d+: .*\(`([^`]+)`\)", said)
    if not note:
        return False
    function = function_at(crate, note[1], int(note[2]))
    answers = set()
    for path in glob.glob(f"crates/{crate}/proofs/**/{function}/Answers.antt", recursive=True):
        with open(path, encoding="utf-8") as text:
            answers.update(re.findall(r"^pub (\S+) : goal\.", text.read(), re.M))
    return note[3] not in answers and any(shape(a) == shape(note[3]) for a in answers)


unfit, count = [], 0
for line in sys.stdin:
    m = re.match(r"rt: must-fail (\S+)\.edit: (.*)", line)
    if not m:
        continue
    name, said = m.groups()
    count += 1
    refused = re.match(r"refused, as it must be: (.*)", said)
    if not refused or re.search(r"has no `|has no field|not in scope|error\[", refused[1]) or renamed(name.split("/")[0], refused[1]):
        unfit.append(name)
    if "--short" not in sys.argv or unfit[-1:] == [name]:
        print(f"{name}: {(refused[1] if refused else said)[:160]}")
print(f"{count} edits, {len(unfit)} that show nothing{': ' + ', '.join(unfit) if unfit else ''}")
sys.exit(1 if unfit or not count else 0)
