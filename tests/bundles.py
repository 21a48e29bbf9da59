#!/usr/bin/env python3
"""bundles.py: runs the program audit_image on bundles of every kind and compares its line with tests/paper.py's.

Each refusal that a bundle can give at the first, a middle and the last entry; truncations at every byte of a small bundle; counts at their limits; leftovers; a largest bundle; tables that are no
multiple of 4 bytes long, with their fill as the argument; and arguments that say no fill."""
import os
import random
import subprocess
import sys
import time

import edges
import paper

PROGRAM = "crates/audit_image/out/audit_image"


def bundle(index, table, index_at=edges.INDEX_AT, table_at=edges.TABLE_AT, filler=b"\0"):
    table += filler * (-len(table) % 4)
    return edges.words(2, index_at, table_at, len(index) // 8) + index + edges.words(len(table) // 4) + table


def lsda(text):
    return edges.words(0x10, 0x00B0B0B0) + bytes.fromhex(text)


FAULTS = [
    (("table", -4), b""), (("table", 2), edges.words(0x80B0B0B0, 0)), (("table", 0), edges.words(0x81FFB0B0)), (("table", 0), edges.words(0x83B0B0B0)), (0x80B100B0, b""), (0x80B3B0B0, b""),
    (0x80B0B080, b""), (0x800000B2, b""), (0x80C81FB0, b""), (("table", 0), lsda("ffff050400000000")), (("table", 0), lsda("ffff0105808080808000")),
    (("table", 0), lsda("ffff01090001ffffffff0f00")), (("table", 0), lsda("ffff0109000100ffffffff0f")), (("table", 0), lsda("ffff0108ffffffff0f000000")), (("table", 0), lsda("")),
]


def faulty():
    for what, table in FAULTS:
        for at in (0, 2, 4):
            entries = [(0x08000000 + 0x1000 * k, 1) for k in range(5)]
            entries[at] = (entries[at][0], what)
            yield bundle(*edges.image(entries, table))
    for at in (1, 2, 4):
        for less in (0, 1, 0x2000):
            entries = [(0x08000000 + 0x1000 * k, 1) for k in range(5)]
            entries[at] = (entries[at - 1][0] - less, 1)
            yield bundle(*edges.image(entries))
    for at in (0, 2, 4):
        index = bytearray(edges.image([(0x08000000 + 0x1000 * k, 1) for k in range(5)])[0])
        index[8 * at + 3] |= 0x80
        yield bundle(bytes(index), b"")


def counted():
    for n in (8191, 8192, 8193, 1 << 32):
        for m in (16383, 16384, 16385, 1 << 32):
            n_bytes, m_bytes = (8 * min(n, 8193)), (4 * min(m, 16385))
            yield edges.words(2, 0, 0, n - (n >> 32)) + bytes(n_bytes) + edges.words(m - (m >> 32)) + bytes(m_bytes)
    for at in (0xFFFFFFF0, 0xFFFFFFF1):
        yield bundle(bytes(16), b"", at, 0)
        yield bundle(b"", bytes(16), 0, at)
    yield edges.words(2, 0x12345678, 0xFFFFFFFF, 0, 0)


def largest():
    """8,192 generic entries over a table of 65,536 bytes with call sites behind each other."""
    one = edges.words(0x10, 0x00B0B0B0) + bytes.fromhex("ffff0100")
    table = one * (65536 // len(one))
    table += bytes(65536 - len(table))
    entries = [(0x20000000 + 0x10 * k, ("table", len(one) * (k % (65536 // len(one))))) for k in range(8192)]
    return bundle(*edges.image(entries, table))


def all_bundles():
    whole = bundle(*edges.small_image())
    yield from (whole[:n] for n in range(len(whole) + 1))
    yield whole + b"\0"
    yield from faulty()
    yield from counted()
    big = largest()
    yield big
    yield big + b"\0"
    yield big + bytes(1000)
    yield from (edges.words(first) + whole[4:] for first in (0, 1, 3, 0xFFFFFFFF))
    rng = random.Random(1)
    for _ in range(2000):
        bad = bytearray(whole)
        for _ in range(rng.choice((1, 1, 2, 8))):
            bad[rng.randrange(12, len(bad))] = rng.choice((rng.randrange(256), 0, 0xFF, 0x80, 0xB0))
        yield bytes(bad)


def filled():
    """Bundles with a fill: every length of a small table, filled by zeros and by FF, and damaged ones."""
    index, table = edges.small_image()
    for n in range(len(table) + 1):
        for filler in (b"\0", b"\xFF"):
            data = bundle(index, table[:n], filler=filler)
            yield from ((data, fill) for fill in (1, 2, 3))
    yield from ((data, 1 + k % 3) for k, data in enumerate(all_bundles()) if k % 7 == 0)


def printed(data, *arguments):
    return subprocess.run([PROGRAM, *arguments], input=data, stdout=subprocess.PIPE, stderr=subprocess.PIPE, check=True)


def compare(data, fill):
    """The program's line, which is the paper's."""
    line = printed(data, *([str(fill)] if fill else [])).stdout.decode()
    expected = paper.audit_line(data, fill) + "\n"
    if line != expected:
        os.makedirs("target", exist_ok=True)
        open("target/differs.bundle", "wb").write(data)
        sys.exit(f"target/differs.bundle, fill {fill}: audit_image says {line!r}, the paper {expected!r}")
    return line


def usage():
    """No fill: nothing on standard output, and how the program is used on standard error."""
    data = bundle(*edges.small_image())
    wrong = [("",), ("0",), ("4",), ("9",), ("a",), ("-1",), ("01",), ("1 ",), ("12",), ("1\n",), ("1" * 5000,), ("1", "1"), ("", ""), ("1", "")]
    for arguments in wrong:
        done = printed(data, *arguments)
        if done.stdout or not done.stderr.startswith(b"usage: ") or done.stderr.count(b"\n") != 1:
            sys.exit(f"audit_image {arguments}: {done.stdout!r}, {done.stderr!r}")
    return len(wrong)


def main():
    seen = {}
    for data in all_bundles():
        line = compare(data, 0)
        kind = " ".join(line.split()[:2]) if line.startswith("fault") else "ok"
        seen[kind] = seen.get(kind, 0) + 1
    missing = [n for n in (1, 3, 4, 5, 6, 7, 8, 9, 10, 13, 14, 15, 16, 18) if f"fault {n}" not in seen]
    if missing:
        sys.exit(f"no bundle gave {missing}")
    fills = [(data, fill, compare(data, fill)) for data, fill in filled()]
    if all(line == compare(data, 0) for data, _, line in fills):
        sys.exit("no fill made a difference")
    data = largest()
    start = time.perf_counter()
    printed(data)
    took = time.perf_counter() - start
    print(f"audit_image: {sum(seen.values())} bundles as the paper has them: {', '.join(f'{k}: {v}' for k, v in sorted(seen.items()))}; {len(fills)} with a fill; {usage()} wrong arguments; a largest one in {took * 1000:.1f} ms")
    if took > 0.5:
        sys.exit("a largest bundle took too long")


if __name__ == "__main__":
    main()
