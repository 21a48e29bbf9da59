#!/usr/bin/env python3
"""wrong_edits.py [CRATE..] [--seconds N] [--seed S]: random wrong edits of the proved code, each tried by itself in a copy of the tree. The check must refuse each.

An edit changes a number, an operator, a case, a name or a call, or leaves out a statement or a condition. One that is accepted is shown: it means the same, or a contract leaves something open. `main` and what it
asks of the arguments are left alone: what a program reads and writes has no contract. Run it at the root of the project after `rt all check`."""
import argparse
import collections
import itertools
import os
import random
import re
import shutil
import subprocess
import sys
import tempfile
import time

CRATES = "section pointer instruction entry lsda image search lookup step audit walker bundle audit_image rows anrukfal anrukfal_c readers readers_c".split()
OTHER = {"<=": "<", "<": "<=", "==": "!=", "!=": "==", "+": "-", "-": "+", "*": "+", "/": "%", "%": "/"}
# lines whose edits may be accepted: a constant that only the crates above use, and a buffer that may be larger
MAY_DIFFER = ("pub const WORDS_MOST", "const MOST")
NOT_CODE = re.compile(r"\s*(//|ghost |use |mod |#|ensures|requires|(pub(\(crate\))? )?(extern \"C\" )?(fn|struct|enum|impl)\b|$)")


def numbers(line, text):
    for m in re.finditer(r"(?<![\w.])(0x[0-9A-Fa-f_]+|\d[\d_]*)(?!\w)", line):
        value = int(m[1].replace("_", ""), 0)
        for other in (value + 1, value - 1, 2 * value):
            if 0 <= other != value:
                yield m.span(), str(other)


def operators(line, text):
    for m in re.finditer(r" ([<=!]=|[<+*/%-]) ", line):
        yield m.span(1), OTHER[m[1]]


def cases(line, text):
    for m in re.finditer(r"\b([A-Z]\w*)::([A-Z]\w*)\b", line):
        for other in sorted(set(re.findall(rf"\b{m[1]}::([A-Z]\w*)\b", text)) - {m[2]}):
            yield m.span(2), other


def names(line, text):
    known = set(re.findall(r"\b([a-z_]\w*):", text)) | set(re.findall(r"\blet (?:mut )?(\w+)", text))
    for m in re.finditer(r"(?<![\w.:])([a-z_]\w*)(?![\w(:!])", line):
        if m[1] in known and not re.match(r"\s*let (mut )?$", line[: m.start()]):
            for other in sorted(known - {m[1]}):
                yield m.span(1), other


def calls(line, text):
    known = set(re.findall(r"\bfn (\w+)", text))
    for m in re.finditer(r"\b([a-z_]\w*)\(", line):
        if m[1] in known:
            for other in sorted(known - {m[1]}):
                yield m.span(1), other


def left_out(line, text):
    if line.rstrip().endswith(";") and not re.match(r"\s*(let|(pub )?const)\b", line):
        yield (0, len(line)), ""
    m = re.match(r"\s*(?:if|while) (.*) \{$", line)
    if m:
        yield m.span(1), "true"
        yield m.span(1), "false"


KINDS = (numbers, operators, cases, names, calls, left_out)


def edits(path):
    """Every edit of a file by its kind: where it stands, up to where, and what is written there."""
    text = open(path, encoding="utf-8").read()
    for item in re.finditer(r"^(?!//)(?:\S[^\n]*;|\S.*?^\})$", text, re.M | re.S):
        if re.search(r"^fn (main|is_given|fill_given)\b", item[0], re.M):
            continue
        for line in re.finditer(r"^.+$", item[0], re.M):
            if NOT_CODE.match(line[0]):
                continue
            for kind in KINDS:
                start = item.start() + line.start()
                for (a, b), new in kind(line[0], text if kind in (calls, cases) else item[0]):
                    yield kind, (path, start + a, start + b, new)


def checked(crate):
    """What a check comes to: accepted, or refused by the compiler or the prover."""
    done = subprocess.run(["rt", "check"], cwd=f"crates/{crate}", capture_output=True, text=True)
    if done.returncode == 0:
        return "accepted"
    return "refused by the compiler" if re.search(r"\.rt:\d+:\d+: error", done.stdout + done.stderr) else "refused by the prover"


def tried(crate, edit):
    path, a, b, new = edit
    text = open(path, encoding="utf-8").read()
    open(path, "w", encoding="utf-8").write(text[:a] + new + text[b:])
    answer = checked(crate)
    open(path, "w", encoding="utf-8").write(text)
    line = text.splitlines()[text.count("\n", 0, a)]
    if answer == "accepted" and line.strip().startswith(MAY_DIFFER):
        return "accepted as they may be"
    if answer == "accepted":
        print(f"accepted: {path}: {line.strip()}  with `{new}` for `{text[a:b].strip()}`", flush=True)
    return answer


def in_turn(crate):
    """All edits of a crate, each kind's shuffled, one of each kind in turn."""
    kinds = {kind: [] for kind in KINDS}
    for name in sorted(os.listdir(f"crates/{crate}/src")):
        for kind, edit in edits(f"crates/{crate}/src/{name}"):
            kinds[kind].append(edit)
    for of_kind in kinds.values():
        random.shuffle(of_kind)
    return [edit for turn in itertools.zip_longest(*kinds.values()) for edit in turn if edit]


def run(crate, seconds):
    """Tries a crate's edits for a time: how many were accepted."""
    assert checked(crate) == "accepted", f"{crate} is not proved as it is"
    every = in_turn(crate)
    answers = collections.Counter()
    end = time.time() + seconds
    for edit in every:
        if end < time.time():
            break
        answers[tried(crate, edit)] += 1
    print(f"{crate}: {answers.total()} of {len(every)} edits:", ", ".join(f"{n} {answer}" for answer, n in sorted(answers.items())), flush=True)
    return answers["accepted"]


def main():
    words = argparse.ArgumentParser(description=__doc__, formatter_class=argparse.RawDescriptionHelpFormatter)
    words.add_argument("crates", nargs="*", default=CRATES)
    words.add_argument("--seconds", type=float, default=60, help="for each crate")
    words.add_argument("--seed", type=int, default=1)
    said = words.parse_args()
    random.seed(said.seed)
    with tempfile.TemporaryDirectory() as work:
        for name in ("crates.txt", "crates"):
            (shutil.copytree if os.path.isdir(name) else shutil.copy)(name, f"{work}/{name}")
        os.chdir(work)
        accepted = sum(run(crate, said.seconds) for crate in said.crates)
        os.chdir("/")
    return 1 if accepted else 0


if __name__ == "__main__":
    sys.exit(main())
