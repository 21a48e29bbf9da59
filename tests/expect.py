#!/usr/bin/env python3
"""expect.py < CASES > ANSWERS: each case with the answer that tests/paper.py gives it, as the program `edges` writes it.

A case is a word and its arguments: numbers in hex; bytes in hex, where `+n` adds n zero bytes."""
import sys

import paper


def data(text):
    head, _, zeros = text.partition("+")
    return bytes.fromhex(head) + bytes(int(zeros, 16) if zeros else 0)


def answer(line):
    word, *args = line.split(" ")
    n = lambda i: int(args[i], 16)
    d = lambda i: data(args[i])
    kind = word[0]
    if kind == "r":
        return 0, [paper.target(n(0), n(1))]
    if kind == "p":
        return paper.answered(2, paper.pointer, d(2), n(1), n(0))
    if kind == "i":
        return paper.answered(4, paper.instruction, d(1), n(0))
    if kind == "e":
        return paper.answered(6, paper.index_entry, d(2), n(0), n(1))
    if kind == "t":
        return paper.answered(6, paper.table_entry, d(2), n(0), n(1))
    if kind == "c":
        return paper.answered(5, paper.call_site, d(2), n(0), n(1))
    if kind == "s":
        return paper.answered(2, paper.search, d(2), n(0), n(1))
    if kind == "l":
        return paper.answered(9, paper.lookup, d(1), n(0), d(3), n(2), n(4))
    if kind == "a":
        return paper.audit(d(1), n(0), d(3), n(2))
    if kind == "b":
        return paper.answered(6, paper.bundle, d(0))
    if kind == "f":
        core = [int(x, 16) for x in args[6:22]]
        vfp = [k * 0x0101010101010101 for k in range(32)]
        number, row, core, vfp = paper.step(d(1), n(0), d(3), n(2), d(5), n(4), core, vfp)
        return number, row + core + vfp
    raise ValueError(line)


def main():
    for line in sys.stdin.read().splitlines():
        if not line or line.startswith("#"):
            print(line)
            continue
        number, row = answer(line)
        print(line, "=", " ".join(f"{x:x}" for x in [number, *row]))


if __name__ == "__main__":
    main()
