#!/usr/bin/env python3
"""stamp.py: ./audit builds audit_image where it is missing, or was made of other sources, and only there.

A small tree with ./audit in it, and an rt that proves nothing: it links a program that says which build it is."""
import os
import shutil
import subprocess
import sys
import tempfile

HERE = os.path.dirname(os.path.abspath(__file__))
RT = """#!/bin/sh
[ ! -e out/audit_image.stamp ] || exit 1
echo x >>../../builds
mkdir -p out
printf '#!/bin/sh\\necho ok %s\\n' "$(wc -l <../../builds)" >out/audit_image
chmod +x out/audit_image
touch out/audit_image.stamp
for crate in section audit_image; do
    printf 'crate %s: modules loaded=0 checked=1\\nlogic=proved functions=1\\n' $crate >&2
done
"""


def written(path, text):
    os.makedirs(os.path.dirname(path) or ".", exist_ok=True)
    with open(path, "w") as out:
        out.write(text)


def audited(build):
    """Holds the program to be that build's, and what is told while it is made."""
    told = subprocess.run(["./audit", "bundle"], env=dict(os.environ, PATH=os.getcwd() + ":" + os.environ["PATH"]), capture_output=True, text=True)
    if not told.stdout.startswith(f"ok {build}\n"):
        sys.exit(f"stamp: not build {build}: {told.stdout + told.stderr}")
    return told.stderr


def main():
    tree = tempfile.TemporaryDirectory()
    os.chdir(tree.name)
    shutil.copy(os.path.join(HERE, "../audit"), ".")
    shutil.copytree(os.path.join(HERE, "../tools"), "tools")
    written("crates.txt", "section:\naudit_image: section io\nanrukfal: section\nanrukfal_c staticlib: anrukfal\n")
    for part in ("section/src/lib.rt", "section/specs/Rule.antt", "audit_image/src/main.rt", "audit_image/proofs/F/Answers.antt", "anrukfal/src/lib.rt"):
        written(f"crates/{part}", "one")
    written("bundle", "")
    written("rt", RT)
    os.chmod("rt", 0o755)
    told = audited(1)
    if "audit: section proved\n" not in told or "audit: audit_image proved\n" not in told:
        sys.exit(f"stamp: a build tells {told!r}")
    if audited(1):
        sys.exit("stamp: it is told where nothing is built")
    written("crates/anrukfal/src/lib.rt", "two")
    audited(1)
    changes = ["crates/section/src/lib.rt", "crates/section/specs/Rule.antt", "crates/audit_image/proofs/F/Answers.antt", "crates/section/src/new.rt", "crates/audit_image/out/audit_image", "target/audit_image.made"]
    for build, path in enumerate(changes, 2):
        written(path, "two")
        audited(build)
    os.remove("crates/audit_image/out/audit_image")
    audited(len(changes) + 2)
    written("crates.txt", open("crates.txt").read() + "bundle:\n")
    audited(len(changes) + 3)
    print("audit: a program of other sources is built anew")


if __name__ == "__main__":
    main()
