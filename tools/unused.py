#!/usr/bin/env python3
"""Names that a file brings in and never uses, and laws and definitions that neither a proof nor a document cites. `unused.py --cut` takes the names out."""
import collections
import glob
import re
import sys

COMMENT = re.compile(r"^\s*(--|//)")
USE = re.compile(r"^(\s*(?:ghost )?use [^\s;{]+?)(?:\.\{([^}]*)\})?( as (\S+?))?(;?)$")
LAW = re.compile(r"^(\s*)(?:(?:abbrev|unfoldable|opaque) )*(?:pub )?(?:data |record )?([^\s:(){}◌]+)(?: \([^)]*\)| \{[^}]*\})* : ")


def words(text):
    found = collections.Counter()
    for word in re.findall(r'[^\s(){};,"]+', text):
        found.update({word, *re.split(r"[.:@`]+", word)})
    return found


def lines_of(path):
    return open(path, encoding="utf-8").read().split("\n")


def used(name, body, seen):
    if name in seen:
        return True
    parts = [part for part in name.split("◌") if part]
    return "◌" in name and bool(parts) and all(part in body for part in parts)


def without_unused(path):
    lines = lines_of(path)
    body = "\n".join(l for l in lines if not COMMENT.match(l) and not USE.match(l))
    seen = words(body)
    kept, cut = [], []
    for line in lines:
        m = USE.match(line)
        if m and m.group(4) and not used(m.group(4), body, seen):
            cut.append(m.group(4))
        elif m and m.group(2) and not m.group(4):
            names = [n.strip() for n in m.group(2).split(",")]
            stay = [n for n in names if used(n.split(" as ")[-1], body, seen)]
            cut += [n for n in names if n not in stay]
            if stay:
                kept.append(f"{m.group(1)}.{{{', '.join(stay)}}}{m.group(5)}")
        else:
            kept.append(line)
    return "\n".join(kept), cut


def uncited(files):
    text = {f: [l for l in lines_of(f) if not COMMENT.match(l) and not USE.match(l)] for f in files}
    counts = words("\n".join(l for ls in text.values() for l in ls))
    counts.update(words("\n".join(l for path in glob.glob("docs/*.md") for l in lines_of(path))))
    for path in files:
        # A function's own proof files have its goals.
        if path.endswith(("Proof.antt", "Answers.antt", "Invariants.antt", ".rt")):
            continue
        for indent, name in dict.fromkeys(m.groups() for l in text[path] if (m := LAW.match(l))):
            own = re.compile(f"{indent}(?:(?:abbrev|unfoldable|opaque) )*(?:pub )?(?:data |record )?{re.escape(name)}(?![^\\s:({{])")
            if counts[name] <= sum(1 for l in text[path] if own.match(l)):
                yield path, name


def main():
    files = sorted(f for f in glob.glob("crates/**/*.antt", recursive=True) + glob.glob("crates/*/src/*.rt") if "/out/" not in f)
    for path in files:
        text, cut = without_unused(path)
        if cut:
            print(f"{path}: unused: {', '.join(cut)}")
            if "--cut" in sys.argv:
                open(path, "w", encoding="utf-8").write(text)
    for path, name in uncited(files):
        print(f"{path}: nothing cites {name}")


main()
