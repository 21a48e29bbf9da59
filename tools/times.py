#!/usr/bin/env python3
"""times.py NAME: how long each module of a crate took in its last check from nothing: `rm -rf out/incremental; rt check --jobs 1` in the crate's folder.

The prover saves a module as soon as it is checked, so the time between two saved files is the later one's."""
import os
import sys

if len(sys.argv) != 2:
    sys.exit(__doc__)
name = sys.argv[1]
saved = sorted(
    (os.stat(path).st_mtime_ns / 1e9, os.path.basename(path))
    for folder, _, files in os.walk(f"crates/{name}/out/incremental")
    for path in (os.path.join(folder, f) for f in files if f.endswith(".oantt"))
)
took, kinds = {}, {}
for (before, _), (after, file) in zip(saved, saved[1:]):
    module = file.removesuffix(".oantt").removeprefix(f"Rattle-{name}-proofs.")
    took[module] = took.get(module, 0) + after - before
for module, seconds in took.items():
    kind = module.split(".")[-1]
    kinds[kind] = kinds.get(kind, 0) + seconds
longest = lambda table, n: sorted(table.items(), key=lambda row: -row[1])[:n]
print(f"{sum(took.values()):.1f} s:", ", ".join(f"{kind} {seconds:.1f}" for kind, seconds in longest(kinds, 6)))
for module, seconds in longest(took, 25):
    print(f"{seconds:7.2f} {module}")
