#!/usr/bin/env python3
"""edges.py > crates/edges/stdin: the cases that the program `edges` runs. tests/expect.py says what each must answer.

The paper's "Edges to run", EHABI's rows, and bad input at every limit."""

LONGEST = 65536


def word(*instruction_bytes):
    """Instruction bytes as whole words in memory: byte 3 of each word comes first."""
    b = bytes(instruction_bytes)
    b += bytes(-len(b) % 4)
    return b"".join(b[k:k + 4][::-1] for k in range(0, len(b), 4)).hex()


def note(text):
    print(f"# {text}")


def zeros(n):
    return f"+{n:x}"


def prel31():
    note("prel31: the paper's two targets, the ends of the range, bit 31, and wrapping")
    for w, place in ((0x7FFFFFFF, 0x1000), (0x40000000, 0x40000000), (0, 0), (0x3FFFFFFF, 0), (0x3FFFFFFF, 0xFFFFFFFF), (0x40000000, 0),
                     (0xFFFFFFFF, 0), (0x80000000, 5), (0x80000001, 0xFFFFFFFF), (0x7FFFFFFF, 0)):
        print(f"relative {w:x} {place:x}")


def instructions():
    note("instructions: the paper's cases")
    for case in ((0x00,), (0x7F,), (0x80, 0x00), (0x8F, 0xFF), (0x9D,), (0x9E,), (0xAF,), (0xB1, 0x10), (0xB1, 0x0F), (0xB2, 0x81, 0x01),
                 (0xB2, 0xFE, 0xFE, 0xFF, 0xFF, 0x03), (0xB2, 0xFF, 0xFE, 0xFF, 0xFF, 0x03), (0xC8, 0x0F), (0xC8, 0x1F), (0xB2, 0x80, 0x80, 0x80, 0x80, 0x10)):
        print("instruction 0", word(*case))
    print("instruction 3", word(0, 0, 0, 0x80))
    for at in (1, 2, 3, 4):
        print(f"instruction {at}", "b0b0a880")
    note("EHABI's rows, in its order")
    for case in ((0x00,), (0x3F,), (0x40,), (0x7F,), (0x80, 0x00), (0x80, 0x01), (0x88, 0x00), (0x8F, 0xFF), (0x90,), (0x9B,), (0x9C,), (0x9D,), (0x9E,), (0x9F,),
                 (0xA0,), (0xA7,), (0xA8,), (0xAF,), (0xB0,), (0xB1, 0x00), (0xB1, 0x01), (0xB1, 0x0F), (0xB1, 0x10), (0xB1, 0xFF), (0xB2, 0x00), (0xB2, 0x7F), (0xB2, 0x80, 0x01),
                 (0xB3, 0x00), (0xB4,), (0xB5,), (0xB6,), (0xB7,), (0xB8,), (0xBF,), (0xC0,), (0xC5,), (0xC6, 0x00), (0xC7, 0x00), (0xC7, 0x01), (0xC7, 0x10), (0xC8, 0x00), (0xC8, 0xFF),
                 (0xC9, 0x00), (0xC9, 0xFF), (0xCA,), (0xCF,), (0xD0,), (0xD7,), (0xD8,), (0xFF,)):
        print("instruction 0", word(*case))
    note("B2: padded and overlong ULEBs, and its limit")
    for case in ((0x80, 0x80, 0x80, 0x80, 0x00), (0x81, 0x80, 0x80, 0x80, 0x00), (0x80, 0x80, 0x80, 0x80, 0x03), (0x80, 0x80, 0x80, 0x80, 0x04), (0x80, 0x80, 0x80, 0x80, 0x7F),
                 (0x80, 0x80, 0x80, 0x80, 0x80, 0x00), (0xFD, 0xFE, 0xFF, 0xFF, 0x03), (0xFE, 0xFE, 0xFF, 0xFF, 0x03), (0xFF, 0xFE, 0xFF, 0xFF, 0x03), (0xFF, 0xFF, 0xFF, 0xFF, 0x7F)):
        print("instruction 0", word(0xB2, *case))
    note("every first byte with 0 to 6 bytes after it")
    for op in range(256):
        for after in range(7):
            print(f"instruction {7 - after:x}", word(*([0] * (7 - after) + [op] + [0x80 if op == 0xB2 else 0x91] * after)[:8]))
    note("positions at and past the end and near 2^32; words that are not whole, and too many")
    for at in (0, 4, 5, 0xFFFFFFFE, 0xFFFFFFFF):
        print(f"instruction {at:x} 000000b0")
        print(f"instruction {at:x} ")
    for n in (1, 2, 3, 5, 6, 7):
        print(f"instruction 0 {zeros(n)}")
    for n in range(LONGEST - 1, LONGEST + 5):
        for at in (0, LONGEST - 1, LONGEST):
            print(f"instruction {at:x} {zeros(n)}")


def pointers():
    note("pointers: SLEB, ULEB, and the limits of their values")
    for case in ("7f", "3f", "40", "8080808078", "ffffffff77", "8080808008", "ffffffff07", "80808080", "8080808080", "808080808000", "ff7f", "807f", "c000"):
        print("pointer 9 0", case)
        print("pointer 1 0", case)
    for case in ("8101", "8180808000", "ffffffff0f", "8080808010", "00", "7f", ""):
        print("pointer 1 0", case)
    note("fields of 2, 4 and 8 bytes")
    for e in (0x00, 0x02, 0x03, 0x04, 0x0A, 0x0B, 0x0C):
        for case in ("feff", "ff7f", "00000080", "ffffff7f", "00000080ffffffff", "ffffff7fffffffff", "ffffffff00000000", "0000000001000000", "0000008000000000", "ffffffffffffffff", "01020304050607", "0102030405060708", "01"):
            print(f"pointer {e:x} 0 {case}")
    note("every encoding, with and without data")
    for e in range(256):
        print(f"pointer {e:x} 0 8182838401020304")
        print(f"pointer {e:x} 8 8182838401020304")
    note("positions at and past the end and near 2^32; data that is too long")
    for at in (0, 1, 2, 3, 0x7FFFFFFF, 0xFFFFFFF8, 0xFFFFFFFF):
        for e in (0x01, 0x02, 0x09, 0x0C, 0xFF):
            print(f"pointer {e:x} {at:x} 0102")
    for n in range(LONGEST - 1, LONGEST + 5):
        for e in (0x01, 0x03, 0x0C, 0xFF):
            print(f"pointer {e:x} {n - 4:x} {zeros(n)}")


def prel(target, place):
    """The prel31 word at `place` that leads to `target`."""
    return ((target - place) % (1 << 32)) & 0x7FFFFFFF


def words(*values):
    return b"".join((v % (1 << 32)).to_bytes(4, "little") for v in values)


INDEX_AT, TABLE_AT, STACK_AT = 0x10000000, 0x10010000, 0x20000100


def image(entries, table=b"", index_at=INDEX_AT, table_at=TABLE_AT):
    """Index and table of (function, content): content is a word, or ("table", offset)."""
    index = b""
    for k, (function, content) in enumerate(entries):
        if isinstance(content, tuple):
            content = prel(table_at + content[1], index_at + 8 * k + 4)
        index += words(prel(function, index_at + 8 * k), content)
    return index, table


def index_entries():
    note("index entries: each kind of content, the count, the section rule")
    index, _ = image([(0x08000000, 1), (0x08000100, 0x80A8B0B0), (0x08000200, 0xFFB0B0B0), (0x08000300, ("table", 0)), (0x08000400, 0)])
    for k in list(range(6)) + [0x1FFFFFFF, 0x20000000, 0xFFFFFFFF]:
        print(f"entry {INDEX_AT:x} {k:x} {index.hex()}")
    print(f"entry {INDEX_AT:x} 0 {words(0x80000000, 1).hex()}")
    for at in (0, 0xFFFFFFF8, 0xFFFFFFF9, 0xFFFFFFFF):
        print(f"entry {at:x} 0 {words(0x7FFFFFFF, 0x40000000).hex()}")
    for n in (0, 4, 7, 8, 9, 12, 16):
        print(f"entry {INDEX_AT:x} 0 {zeros(n)}")
    for n in (65528, 65535, 65536, 65537, 65544):
        print(f"entry {INDEX_AT:x} {n // 8 - 1:x} {zeros(n)}")


def table_entries():
    note("table entries: every selector, counted words, places")
    for selector in range(16):
        print(f"table {TABLE_AT:x} 0 {words(0x80000000 | selector << 24 | 0xB0B0, 0, 0).hex()}")
        print(f"table {TABLE_AT:x} 0 {words(0xF0000000 | selector << 24 | 0x02B0B0, 0, 0).hex()}")
    for count in (0, 1, 2, 3, 255):
        print(f"table {TABLE_AT:x} 4 {words(0, 0x81000000 | count << 16, 0, 0).hex()}")
        print(f"table {TABLE_AT:x} 4 {words(0, 0x7FFFFFFF, count << 24, 0, 0).hex()}")
    for at in (0, 1, 2, 3, 4, 8, 12, 0x7FFFFFFC, 0xFFFFFFFC, 0xFFFFFFFE, 0xFFFFFFFF):
        print(f"table {TABLE_AT:x} {at:x} {words(0x80B0B0B0, 0x00000010, 0x00B0B0B0).hex()}")
    for n in range(13):
        print(f"table {TABLE_AT:x} 0 {words(0x00000010, 0x01B0B0B0, 0xB0B0B0B0).hex()[:2 * n]}")
    for at in (0xFFFFFFF4, 0xFFFFFFF5):
        print(f"table {at:x} 0 {words(0x40000000, 0x00B0B0B0, 0).hex()}")
    for n in (65535, 65536, 65537, 65540):
        print(f"table {TABLE_AT:x} {LONGEST - 4:x} {zeros(n)}")


def call_sites():
    note("call sites: the paper's cases, truncations, sums, encodings")
    f = 0x08001000
    for n in ("04", "05", "00", "01"):
        for c in (0x0800100F, 0x08001010, 0x08001017, 0x08001018):
            print(f"callsite {f:x} {c:x} ffff01{n}10082000")
    whole = "9b8101" + "0104" + "10082000"
    long = "0300000020" + "9b05" + "01" + "0c" + "00010001" + "05102000" + "10082005"
    for n in range(0, len(long) + 1, 2):
        print(f"callsite {f:x} 20000012 {long[:n]}")
    for c in (0x20000000, 0x20000001, 0x20000004, 0x20000005, 0x20000014, 0x20000015, 0x20000018):
        print(f"callsite {f:x} {c:x} {long}")
    print(f"callsite {f:x} {f:x} {whole}")
    note("sums that end exactly at 0xFFFFFFFF, and one past; pad and action")
    for start, size, pad, action in (("0f", "00", "00", "00"), ("00", "0f", "00", "00"), ("00", "10", "00", "00"), ("10", "00", "00", "00"), ("00", "01", "0f", "00"), ("00", "01", "10", "00"),
                                     ("00", "01", "00", "ffffffff0f"), ("00", "01", "00", "feffffff0f"), ("00", "01", "10", "ffffffff0f")):
        print(f"callsite fffffff0 fffffff0 ffff0109{start}{size}{pad}{action}")
        print(f"callsite fffffff0 fffffff1 ffff0109{start}{size}{pad}{action}")
    note("a site whose pad does not fit, and a later one that is read; a bad later site; a base; types; every encoding with a table and without")
    for c in (f, 0x08001017):
        print(f"callsite {f:x} {c:x} ffff010c0001ffffffff0f0010082000")
        print(f"callsite {f:x} {c:x} ffff0108100820008080808080")
    for e in range(256):
        print(f"callsite {f:x} {f:x} ffff{e:02x}00")
        print(f"callsite {f:x} {f:x} ffff{e:02x}0400010203000000000000000000000000000000000000000000000000")
        print(f"callsite {f:x} {f:x} {e:02x}0010000000000000ff0100")
    for n in (65535, 65536, 65537):
        print(f"callsite {f:x} {f:x} ffff0100{zeros(n - 4)}")


def searches():
    note("search: on rising functions, at each edge; corrupt words; sections")
    for n in (0, 1, 2, 3, 7, 16):
        index, _ = image([(0x08000000 + 0x10 * k, 1) for k in range(n)])
        for c in sorted({0, 0x07FFFFFF, 0x08000000, 0x0800000F, 0x08000010, 0x08000000 + 0x10 * n - 1, 0x08000000 + 0x10 * n, 0xFFFFFFFF}):
            print(f"search {INDEX_AT:x} {c:x} {index.hex()}")
    index, _ = image([(0x08000000 + 0x10 * k, 1) for k in range(5)])
    for k in range(5):
        bad = bytearray(index)
        bad[8 * k + 3] |= 0x80
        for c in (0, 0x08000000, 0x08000025, 0xFFFFFFFF):
            print(f"search {INDEX_AT:x} {c:x} {bad.hex()}")
    for at in (0xFFFFFFD8, 0xFFFFFFD9):
        print(f"search {at:x} 0 {index.hex()}")
    print(f"search {INDEX_AT:x} 0 {index.hex()}00")
    for n in (65536, 65544):
        print(f"search {INDEX_AT:x} ffffffff {zeros(n)}")


def small_image():
    """Cannot unwind, compact in the index, compact in the table, generic with language data, and faults behind them."""
    table = words(0x80A8B0B0, 0x8101AAB0, 0xB0B0B0B0)
    generic = len(table)
    table += words(prel(0x08009000, TABLE_AT + generic), 0x00A8B0B0) + bytes.fromhex("ffff010410082000")
    return image([(0x08000000, 1), (0x08000100, 0x80A8B0B0), (0x08000200, ("table", 0)), (0x08000300, ("table", 4)), (0x08001000, ("table", generic)), (0x08002000, 1)], table)


def lookups():
    note("lookup: each kind of entry, places, refusals in their order")
    index, table = small_image()
    for c in (0, 0x07FFFFFF, 0x08000000, 0x080000FF, 0x08000100, 0x08000200, 0x080002FF, 0x08000300, 0x08001000, 0x0800100F, 0x08001010, 0x08001017, 0x08001018, 0x08001FFF, 0x08002000, 0xFFFFFFFF):
        print(f"lookup {INDEX_AT:x} {index.hex()} {TABLE_AT:x} {table.hex()} {c:x}")
    for offset in (-4, -1, 0, 1, 2, 4, 8, 12, len(table) - 4, len(table) - 1, len(table), len(table) + 4):
        index, _ = image([(0x08000000, ("table", offset))])
        print(f"lookup {INDEX_AT:x} {index.hex()} {TABLE_AT:x} {table.hex()} 8000000")
    index, table = small_image()
    for i, t in ((INDEX_AT, 0xFFFFFFF0), (0xFFFFFFF0, TABLE_AT), (0xFFFFFFD1, TABLE_AT)):
        print(f"lookup {i:x} {index.hex()} {t:x} {table.hex()} 8000000")
    print(f"lookup {INDEX_AT:x} {index.hex()[:-8]} {TABLE_AT:x} {table.hex()} 8000000")
    print(f"lookup {INDEX_AT:x}  {TABLE_AT:x}  0")


def frame(content, stack, core, stack_at=STACK_AT, table=b""):
    index, table = image([(0x08000000, content), (0x08010000, 1)], table)
    regs = [0] * 16
    regs[15] = 0x08000004
    for r, v in core.items():
        regs[r] = v
    print(f"frame {INDEX_AT:x} {index.hex()} {TABLE_AT:x} {table.hex()} {stack_at:x} {stack.hex() if isinstance(stack, bytes) else stack} " + " ".join(f"{r:x}" for r in regs))


def in_table(*instruction_bytes):
    """A table entry for selector 1 with these instructions."""
    b = bytes(instruction_bytes)
    b += b"\xB0" * ((2 - len(b)) % 4 if len(b) > 2 else 2 - len(b))
    more = (len(b) - 2) // 4
    whole = bytes([0x81, more]) + b
    return b"".join(whole[k:k + 4][::-1] for k in range(0, len(whole), 4))


def steps():
    note("step: the paper's cases")
    stack = bytes.fromhex("7856341201100008")
    frame(0x80A8B0B0, stack, {13: STACK_AT})
    frame(0x80A8B0B0, stack[:7], {13: STACK_AT})
    frame(0x80C81FB0, stack, {13: STACK_AT})
    note("cannot unwind; counters; refusals of the instructions")
    frame(1, stack, {13: STACK_AT})
    for c in (0, 0x07FFFFFF, 0x08000000, 0x0800FFFF, 0x08010000, 0xFFFFFFFF):
        frame(0x80A8B0B0, stack, {13: STACK_AT, 15: c})
    for content in (0x808000B0, 0x809DB0B0, 0x80B3B0B0, 0x80B0B0B0, 0x800001B1, 0x80B100B0, 0x80C8FFB0, 0x80C910B0, 0x803F7FB0, 0x804000B0, 0x80B0B080):
        frame(content, stack, {13: STACK_AT, 14: 0x08000123})
    note("sp at 0, near 2^32 and outside the stack on both sides; an empty stack; one that ends at 2^32; sums that wrap")
    for sp in (0, 4, STACK_AT - 4, STACK_AT - 1, STACK_AT, STACK_AT + 1, STACK_AT + 4, STACK_AT + 8, 0xFFFFFFF8, 0xFFFFFFFC, 0xFFFFFFFF):
        frame(0x80A8B0B0, stack, {13: sp})
        frame(0x80A8B0B0, stack, {13: sp}, 0xFFFFFFF8)
        frame(0x80A8B0B0, b"", {13: sp})
        frame(0x803F7FB0, b"", {13: sp})
    for at in (0xFFFFFFF9, 0xFFFFFFFF):
        frame(0x80A8B0B0, stack, {13: at}, at)
    note("register masks: 13 loaded, 15 loaded, all; VFP pops; long lists")
    big = bytes(range(256))
    for ops in ((0x88, 0x00), (0x82, 0x00), (0x84, 0x00), (0x8E, 0x00), (0x8F, 0xFF), (0x82, 0x00, 0x84, 0x00), (0xB1, 0x0F), (0xA7,), (0xAF,), (0x9B,), (0x94, 0x01), (0xB2, 0x04), (0xB2, 0x80, 0x80, 0x80, 0x80, 0x02)):
        frame(("table", 0), big, {13: STACK_AT, 14: 0x08000123, 11: STACK_AT + 16, 4: STACK_AT + 100}, table=in_table(*ops))
    for ops in ((0xC9, 0x80), (0xC9, 0x8F), (0xC8, 0x00), (0xC8, 0x0F), (0xC8, 0xF0), (0xC8, 0xF1), (0xC9, 0xFF), (0xC9, 0xF0, 0xC8, 0x1E)):
        frame(("table", 0), big, {13: STACK_AT, 14: 0x08000123}, table=in_table(*ops))
        frame(("table", 0), big[:127], {13: STACK_AT, 14: 0x08000123}, table=in_table(*ops))
    frame(("table", 0), big, {13: STACK_AT}, table=in_table(*([0x00] * 40 + [0x84, 0x08])))
    frame(("table", 0), zeros(65536), {13: STACK_AT}, table=in_table(0xA8))
    frame(("table", 0), zeros(65537), {13: STACK_AT}, table=in_table(0xA8))
    note("D31 popped, and then a refusal of each kind, or none: all 32 VFP registers come back as they were, or as they were popped")
    for pop in ((0xC8, 0x0F), (0xC8, 0xF0), (0xC9, 0x0F, 0xC8, 0x0F)):
        for after in ((0x80, 0x00), (0x9D,), (0xB1, 0x10), (0xB3, 0x00), (0x00,) * 3 + (0x80,), (0xC8, 0xF1), (0xA8,), (0xC8, 0xF0), (0x42, 0xC8, 0xF0)):
            frame(("table", 0), big[:128 if len(pop) == 2 else 256], {13: STACK_AT, 14: 0x08000123}, table=in_table(*pop, *after))


def audits():
    note("audit: a sound image, and each fault at the first, a middle and the last entry")
    index, table = small_image()
    print(f"audit {INDEX_AT:x} {index.hex()} {TABLE_AT:x} {table.hex()}")
    lsda = lambda text: words(0x10, 0x00B0B0B0) + bytes.fromhex(text)
    faults = [("corrupt", None, b""), ("unsorted", None, b""), (("table", -4), 0, b""), (("table", 2), 0, words(0x80B0B0B0, 0)), (("table", 0), 0, words(0x81FFB0B0)), (("table", 0), 0, words(0x83B0B0B0)),
              (0x80B100B0, 0, b""), (0x80B3B0B0, 0, b""), (0x80B0B080, 0, b""), (0x800000B2, 0, b""), (0x80C81FB0, 0, b""), (("table", 0), 0, lsda("ffff05040000000000")), (("table", 0), 0, lsda("ffff01058080808080000000")),
              (("table", 0), 0, lsda("ffff01090001ffffffff0f00")), (("table", 0), 0, lsda("ffff0109000100ffffffff0f00")), (("table", 0), 0, lsda("ffff0108ffffffff0f00000000")), (("table", 0), 0, lsda("ff"))]
    for what, _, table in faults:
        for at in (0, 2, 4):
            entries = [(0x08000000 + 0x1000 * k, 1) for k in range(5)]
            if what == "unsorted":
                entries[at] = (entries[at - 1][0] if at else 0x08010000, 1)
            elif what != "corrupt":
                entries[at] = (0x08000000 + 0x1000 * at, what)
            index, _ = image(entries)
            if what == "corrupt":
                index = index[:8 * at + 3] + bytes([index[8 * at + 3] | 0x80]) + index[8 * at + 4:]
            print(f"audit {INDEX_AT:x} {index.hex()} {TABLE_AT:x} {table.hex()}")
    for i, t, n in ((0xFFFFFFFF, 0, 8), (0, 0xFFFFFFFF, 8), (INDEX_AT, TABLE_AT, 4), (INDEX_AT, TABLE_AT, 65544), (INDEX_AT, TABLE_AT, 0)):
        print(f"audit {i:x} {zeros(n)} {t:x} {zeros(8)}")


def bundles():
    note("bundles: every truncation of a small one, leftovers, counts")
    index, table = small_image()
    table += bytes(-len(table) % 4)
    whole = words(2, INDEX_AT, TABLE_AT, len(index) // 8) + index + words(len(table) // 4) + table
    for n in range(len(whole) + 1):
        print(f"bundle {whole[:n].hex()}")
    print(f"bundle {whole.hex()}00")
    for first in (0, 1, 3, 0xFFFFFFFF):
        print(f"bundle {words(first).hex()}{whole.hex()[8:]}")
    print(f"bundle {words(2, 0x12345678, 0xFFFFFFFF, 0, 0).hex()}")
    for entries in (8192, 8193, 0xFFFFFFFF):
        print(f"bundle {words(2, 0, 0, entries).hex()}{zeros(8 * 8192 + 4)}")
    for count in (16384, 16385, 0xFFFFFFFF):
        print(f"bundle {words(2, 0, 0, 0, count).hex()}{zeros(4 * 16384)}")
    for i, t in ((0xFFFFFFF0, 0), (0xFFFFFFF1, 0), (0, 0xFFFFFFF8), (0, 0xFFFFFFF9)):
        print(f"bundle {words(2, i, t, 2).hex()}{bytes(16).hex()}{words(2, 0, 0).hex()}")


def main():
    prel31()
    instructions()
    pointers()
    index_entries()
    table_entries()
    call_sites()
    searches()
    lookups()
    steps()
    audits()
    bundles()


if __name__ == "__main__":
    main()
