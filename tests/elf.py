#!/usr/bin/env python3
"""elf.py: makes small ELF files, runs ./audit on each, and compares its line, its exit code and what it says.

The line must be tests/paper.py's on the index and the table as they are, without a byte that fills. Where an image can't be taken, there is no line, and the reason is said."""
import collections
import os
import struct
import subprocess
import sys
import tempfile

import edges
import paper
from edges import INDEX_AT, TABLE_AT

HERE = os.path.dirname(os.path.abspath(__file__))
AUDIT, ELF2BUNDLE = os.path.join(HERE, "../audit"), os.path.join(HERE, "../tools/elf2bundle.py")
NOBITS, EXIDX, ALLOC, LOAD = 8, 0x70000001, 2, 1
Section = collections.namedtuple("Section", "name address body kind flags link", defaults=(1, ALLOC, 0))
Segment = collections.namedtuple("Segment", "kind address loaded size")


def named(symbols, before):
    """The sections of a symbol table behind so many others: name to address."""
    strings = b"\0" + b"".join(name.encode() + b"\0" for name in symbols)
    body = b"".join(struct.pack("<IIIBBH", strings.index(b"\0" + name.encode() + b"\0") + 1, at, 0, 16, 0, 1) for name, at in symbols.items())
    return [Section(".strtab", 0, strings, 3, 0), Section(".symtab", 0, body, 2, 0, before + 1)]


def elf(sections, segments=(), symbols=None, headers=True, kind=2, machine=40, bits=1, order="<"):
    """A file with these sections, program headers and symbols; a section's body is its bytes, or a size (NOBITS)."""
    sections = [Section("", 0, b"", 0, 0), *sections, *named(symbols or {}, len(sections)), Section(".shstrtab", 0, b"", 3, 0)]
    names = b"".join(s.name.encode() + b"\0" for s in sections)
    sections[-1] = sections[-1]._replace(body=names)
    heads, body, places, at = b"", b"", [], 52 + 32 * len(segments)
    for s in sections:
        held = b"" if s.kind == NOBITS else s.body
        places.append((s, at + len(body)))
        heads += struct.pack(order + "10I", names.index(s.name.encode() + b"\0"), s.kind, s.flags, s.address, at + len(body), len(held) or (s.body or 0), s.link, 0, 4, 0)
        body += held
    programs = b""
    for g in segments:
        offset = next(where + g.address - s.address for s, where in places if s.kind != NOBITS and s.flags and s.address <= g.address <= s.address + len(s.body))
        programs += struct.pack(order + "8I", g.kind, offset, g.address, g.address, g.loaded, g.size, 4, 4)
    counts = (40, len(sections), len(sections) - 1) if headers else (40, 0, 0)
    head = b"\x7fELF" + bytes([bits, 1 if order == "<" else 2, 1]) + bytes(9)
    head += struct.pack(order + "HHIIIIIHHHHHH", kind, machine, 1, 0, 52, at + len(body) if headers else 0, 0x5000000, 52, 32, len(segments), *counts)
    return head + programs + body + (heads if headers else b"")


def exidx(index, address=INDEX_AT):
    return Section(".ARM.exidx", address, index, EXIDX)


def extab(table, address=TABLE_AT):
    return Section(".ARM.extab", address, table)


def bounds(index, address=INDEX_AT):
    return Segment(EXIDX, address, len(index), len(index))


def verdict(index, table, table_at=TABLE_AT, index_at=INDEX_AT):
    number, (entry,) = paper.audit(index, index_at, table, table_at)
    if not number:
        return f"ok {len(index) // 8}"
    return "fault 1" if number == 1 else f"fault {number} at entry {entry}"


def generic(language):
    """An image of three entries, whose middle one has this language data at the table's end."""
    table = edges.words(0x80A8B0B0, 0x10, 0x00B0B0B0) + bytes.fromhex(language)
    return edges.image([(0x08000000, ("table", 0)), (0x08001000, ("table", 4)), (0x08002000, 1)], table)


def long_action(more):
    """Language data of 8 + `more` bytes, whose last one is needed."""
    return f"ffff01{4 + more:02x}100820" + "80" * more + "00"


def ends():
    """Tables of every length modulo 4, sound to the last byte, and the same with the last byte missing; .ARM.extab, in another section, in a segment."""
    languages = [long_action(more)[:n] for more in range(4) for n in (None, -2)] + ["", "ff", "ffff", "ffff01", "ffff0100", "ffff010000"]
    for language in languages:
        index, table = generic(language)
        line, what = verdict(index, table), f"language data {language or 'none'}"
        yield what, elf([exidx(index), extab(table)]), line, ""
        yield what + ", in .rodata", elf([exidx(index), Section(".rodata", TABLE_AT - 8, bytes(8) + table)], [bounds(index)]), line, "The table is in .rodata, from 0x10010000"
        sections = [exidx(index), Section("x", TABLE_AT - 8, bytes(8) + table)]
        segments = [bounds(index), Segment(LOAD, TABLE_AT - 8, 8 + len(table), 8 + len(table))]
        yield what + ", no section headers", elf(sections, segments, headers=False), line, "The table is in segment 1"
    for n in range(4, 13):
        index, table = edges.image([(0x08000000, ("table", 0))], edges.words(0x8102B0B0, 0xB0B0B0B0, 0xB0B0B0B0)[:n])
        yield f"counted words, {n} bytes of them", elf([exidx(index), extab(table)]), verdict(index, table), ""


def indexes():
    index, table = generic("ffff0100")
    sound = verdict(index, table)
    for n in (1, 4, 7, 12, 20):
        yield f"an index of {n} bytes", elf([exidx(index[:n]), extab(table)]), verdict(index[:n], table), f"Refusal 1: the index has {n} bytes, which is no whole number of entries of 8."
    padded = Section(".ARM.exidx", INDEX_AT - 8, bytes(8) + index + bytes(4), EXIDX)
    yield "padding around the index", elf([padded, extab(table)], [bounds(index)]), sound, ""
    for start, end, left in ((0, len(index), 12), (8, len(index), 20), (0, len(index) - 8, 20)):
        symbols = {"__exidx_start": INDEX_AT + start, "__exidx_end": INDEX_AT + end}
        line, said = (sound, f"{left} bytes of padding are left out") if end - start == len(index) else (None, "leave out a part of the index that is not padding")
        yield f"padding around {symbols}", elf([padded, extab(table)], [bounds(padded.body, INDEX_AT - 8)], symbols), line, said
    for symbols in ({"__exidx_start": INDEX_AT}, {"__exidx_start": 0, "__exidx_end": 8}, {"__exidx_start": INDEX_AT, "__exidx_end": INDEX_AT + len(index)}):
        yield f"an index with {symbols}", elf([exidx(index), extab(table)], [], symbols), sound, ""
    zeros = bytes(8) + edges.image([(0x20000000, 1)], b"", INDEX_AT + 8)[0]
    yield "padding that nothing tells of", elf([exidx(zeros), extab(table)]), verdict(zeros, table), ""
    yield "an index by its type", elf([exidx(index)._replace(name=".unwind"), extab(table)]), sound, ""
    yield "an index by its name", elf([exidx(index)._replace(kind=1), extab(table)]), sound, ""
    yield "an empty index", elf([exidx(b""), extab(table)]), "ok 0", ""
    yield "two index sections", elf([exidx(index[:8]), exidx(index[8:], INDEX_AT + 8), extab(table)]), None, "2 index sections: link the file first"
    yield "an index section out of bounds", elf([exidx(index[:8]), exidx(index[8:], INDEX_AT + 8), extab(table)], [bounds(index[:8])]), None, "2 index sections: link the file first"
    yield "two bounds", elf([exidx(index), extab(table)], [bounds(index)] * 2), None, "2 segments PT_ARM_EXIDX"
    yield "no index", elf([extab(table)]), None, "no index"
    yield "an index that is not in the file", elf([Section(".ARM.exidx", INDEX_AT, 16, NOBITS)]), None, "not all bytes of the index"
    yield "an index that ends past the file", elf([exidx(index)], [Segment(EXIDX, INDEX_AT, 4096, 4096)]), None, "the file ends inside segment 0"
    for entries in (8192, 8193):
        index, _ = edges.image([(0x20000000 + 16 * k, 1) for k in range(entries)])
        yield f"{entries} entries", elf([exidx(index), extab(b"")]), verdict(index, b""), ""
    for at in (0xFFFFFFF0, 0xFFFFFFF8):
        index, _ = edges.image([(0xE0000000, 1), (0xE0000010, 1)], b"", at)
        yield f"an index at {at:x}", elf([exidx(index, at)]), verdict(index, b"", 0, at), ""


def tables():
    index, table = generic("ffff0100")
    sound = verdict(index, table)
    yield "no table", elf([exidx(edges.words(0, 1))]), "ok 1", ""
    yield "a table that nothing leads to", elf([exidx(edges.words(0, 1)), extab(bytes(65537))]), "fault 1", ""
    yield "a table of 65,536 bytes", elf([exidx(index), extab(table + bytes(65536 - len(table)))]), sound, ""
    for n in (65533, 65535, 65537, 65538, 65540):
        whole = table + bytes(n - len(table))
        yield f"a table of {n} bytes", elf([exidx(index), extab(whole)]), verdict(index, whole), ""
    rodata = Section(".rodata", TABLE_AT - 64, bytes(64) + table + bytes(70000))
    yield "a long section", elf([exidx(index), rodata]), sound, "65536 bytes that a table may have: what reads past 0x10020000 is refused"
    sites = "ffff0180" + "8004" + "00010000" * 16384
    far, _ = generic(sites)
    cut = (edges.words(0x80A8B0B0, 0x10, 0x00B0B0B0) + bytes.fromhex(sites))[:65536]
    yield "language data past the cut", elf([exidx(far), rodata._replace(body=bytes(64) + cut + bytes(70000))]), verdict(far, cut), "what reads past 0x10020000 is refused"
    yield "an empty .ARM.extab beside it", elf([exidx(index), extab(b"", 0), rodata._replace(body=bytes(64) + table)]), sound, "The table is in .rodata"
    split = [extab(table[:4]), Section(".rodata", TABLE_AT + 4, table[4:])]
    yield "several sections", elf([exidx(index), *split]), None, "the entries lead into several sections: entry 0 into .ARM.extab, entry 1 into .rodata"
    yield "two tables", elf([exidx(index), extab(table[:4]), extab(table[4:], TABLE_AT + 4)]), None, "2 sections .ARM.extab"
    yield "overlaid sections", elf([exidx(index), rodata, rodata._replace(name=".overlay")]), None, ".rodata and .overlay both hold 0x10010000"
    yield "a table that is not in the file", elf([exidx(index), Section(".bss", TABLE_AT, 64, NOBITS)]), None, "the file has no bytes there, in .bss"
    part = [bounds(index), Segment(LOAD, TABLE_AT, 4, 64)]
    yield "a segment of which a part is in the file", elf([exidx(index), Section("x", TABLE_AT, table)], part, headers=False), None, "the file has no bytes there, in segment 1"
    yield "debug information over the table's address", elf([exidx(index), rodata._replace(body=bytes(64) + table), Section(".debug", TABLE_AT, bytes(64), 1, 0)]), sound, "The table is in .rodata"
    yield "a section laid over .ARM.extab", elf([exidx(index), extab(table), Section(".overlay", TABLE_AT, bytes(64))]), sound, ""


def places():
    """Entries that lead outside the table, or to no multiple of 4."""
    table = edges.words(0x80A8B0B0, 0x80A8B0B0)
    for at in (-4, -1, 1, 2, 3, 8, 9, 0x1000000):
        index, _ = edges.image([(0x08000000, ("table", 0)), (0x08001000, ("table", at))], table)
        yield f"an entry leads to {at}", elf([exidx(index), extab(table)]), verdict(index, table), ""
        line = verdict(index, table)
        yield f"an entry leads to {at}, in .rodata", elf([exidx(index), Section(".rodata", TABLE_AT, table)]), line, "The table is in .rodata, from 0x10010000"
    index, _ = edges.image([(0x08000000, 1), (0x08001000, ("table", 0))])
    yield "an entry leads nowhere", elf([exidx(index)]), None, "entry 1 leads to 0x10010000, which no section and no loaded segment holds"
    for at, odd in ((TABLE_AT + 2, 0), (TABLE_AT + 1, 0), (TABLE_AT, 2)):
        index, _ = edges.image([(0x08000000, ("table", odd))], b"", table_at=at)
        start = at + 3 & ~3
        yield f"a place in a section at {at:x}", elf([exidx(index), Section(".rodata", at, table * 2)]), verdict(index, (table * 2)[start - at:], start), "The table is in .rodata"
    index, _ = edges.image([(0x08000000, ("table", 0))], table_at=0xFFFFFFF9)
    yield "a table that ends at 2^32", elf([exidx(index), extab(table[:7], 0xFFFFFFF9)]), None, "no bundle can hold it"


def files():
    index, table = generic("ffff0100")
    parts = [exidx(index), extab(table)]
    yield "big-endian", elf(parts, order=">"), None, "a big-endian ELF file"
    yield "64 bits", elf(parts, bits=2), None, "not for 32 bits"
    yield "another machine", elf(parts, machine=3), None, "not for Arm"
    yield "a relocatable object", elf(parts, kind=1), None, "a relocatable object"
    yield "a shared object", elf(parts, kind=3), verdict(index, table), ""
    yield "a short header", elf(parts)[:51], None, "the file ends inside its header"
    whole = elf(parts)
    for n in (60, 100, len(whole) - 1):
        yield f"{n} bytes of a file", whole[:n], None, "the file ends before the headers"


def ran(data, path):
    with open(path, "wb") as out:
        out.write(data)
    return subprocess.run([AUDIT, path], capture_output=True, text=True)


def differs(data, line, said, path):
    """What of ./audit's answer is not as it must be."""
    run = ran(data, path)
    first = run.stdout.split("\n")[0] if run.stdout else None
    if first != line:
        return f"says {first!r}, not {line!r}"
    if run.returncode != (0 if line and line.startswith("ok") else 1):
        return f"exits {run.returncode}"
    if said not in run.stdout + run.stderr or "Traceback" in run.stderr:
        return f"says {run.stdout + run.stderr!r}, without {said!r}"
    return None


def bundled(path):
    """elf2bundle.py alone: an index that is not whole has no bundle, and a filled table is said."""
    for cut, asked, said in ((8, 0, "audit_image 3 <"), (12, 1, "no whole number of entries")):
        index, table = generic("ffff0100ff")
        ran(elf([exidx(index[:cut]), extab(table)]), path)
        run = subprocess.run([sys.executable, ELF2BUNDLE, path, path + ".bundle"], capture_output=True, text=True)
        if run.returncode != asked or said not in run.stderr or os.path.exists(path + ".bundle") == bool(asked):
            return f"elf2bundle.py: {run.stderr!r}"
        if not asked:
            os.remove(path + ".bundle")
    return None


def main():
    seen = collections.Counter()
    with tempfile.TemporaryDirectory() as folder:
        path = os.path.join(folder, "image.elf")
        for make in (ends, indexes, tables, places, files):
            for what, data, line, said in make():
                why = differs(data, line, said, path)
                if why:
                    sys.exit(f"elf: {what}: {why}")
                seen[" ".join(line.split()[:2 if "fault" in line else 1]) if line else "not taken"] += 1
        why = bundled(path)
    if why:
        sys.exit(f"elf: {why}")
    print(f"audit: {sum(seen.values())} ELF files as the paper has them: {', '.join(f'{k}: {n}' for k, n in sorted(seen.items()))}")


if __name__ == "__main__":
    main()
