#!/usr/bin/env python3
"""elf2bundle.py ELF BUNDLE: the unwind tables of an ELF file for 32-bit little-endian Arm, as a bundle.

The index is what the program header PT_ARM_EXIDX bounds; without one, the section .ARM.exidx; in either case without zero bytes that the symbols __exidx_start and __exidx_end leave out.
The table is .ARM.extab where every entry leads into it. Where a linker script folded it into another section, or only segments are left, the table is that one's bytes from the lowest place that
an entry names to its end, at most 65,536. A table that is no whole number of words is filled with zero bytes; how many is said, for `audit_image K`, as they are no part of the table.
`--functions` prints the functions of the index instead, one to a line: entry, address, and the symbol there."""
import collections
import struct
import sys

PT_LOAD, PT_ARM_EXIDX, SHT_ARM_EXIDX = 1, 0x70000001, 0x70000001
SHT_SYMTAB, SHT_NOBITS, SHF_ALLOC, SHF_TLS, STT_FUNC = 2, 8, 2, 0x400, 2
LONGEST, TOP = 65536, 1 << 32

# So many of a span's bytes are in the file.
Span = collections.namedtuple("Span", "name kind flags address size offset loaded link")
Image = collections.namedtuple("Image", "index_at index table_at table notes")


class NotAnImage(Exception):
    pass


class NotWhole(NotAnImage):
    """The index is no whole number of entries: refusal 1, and no bundle can say it."""


UNREADABLE = NotAnImage, ValueError, IndexError, struct.error


def asked_file(data):
    """Says in words what is no linked ELF file for 32-bit little-endian Arm."""
    for asked, why in (
        (data[:4] == b"\x7fELF", "no ELF file"),
        (data[4:5] == b"\1", "an ELF file that is not for 32 bits"),
        (data[5:6] == b"\1", "a big-endian ELF file: only little-endian tables are read"),
        (len(data) >= 52, "the file ends inside its header"),
        (data[18:20] == b"\x28\0", "an ELF file that is not for Arm"),
        (data[16:18] in (b"\2\0", b"\3\0"), "a relocatable object or a core file: link it first"),
        (data[32:36] == bytes(4) or data[48:50] != b"\0\0", "too many sections: their number is not in the header"),
    ):
        if not asked:
            raise NotAnImage(why)


class Elf:
    def __init__(self, data):
        asked_file(data)
        self.data = data
        segments_at, sections_at = struct.unpack_from("<II", data, 28)
        segment_size, segments, section_size, sections, names = struct.unpack_from("<HHHHH", data, 42)
        heads = [self.head("<10I", sections_at + k * section_size) for k in range(sections if sections_at else 0)]
        self.sections = []
        for name, kind, flags, address, offset, size, link, *_ in heads:
            text = self.text(heads[names][4] + name) if names < sections else ""
            self.sections.append(Span(text, kind, flags, address, size, offset, 0 if kind == SHT_NOBITS else size, link))
        self.segments = []
        for k in range(segments):
            kind, offset, address, _, loaded, size, *_ = self.head("<8I", segments_at + k * segment_size)
            self.segments.append(Span(f"segment {k}", kind, SHF_ALLOC, address, size, offset, loaded, 0))

    def head(self, form, at):
        if at + struct.calcsize(form) > len(self.data):
            raise NotAnImage("the file ends before the headers of its sections or segments")
        return struct.unpack_from(form, self.data, at)

    def text(self, at):
        end = self.data.find(b"\0", at)
        if end < 0:
            raise NotAnImage("the file ends inside a name")
        return self.data[at:end].decode("latin-1")

    def bytes_of(self, s):
        if s.size and not s.loaded:
            raise NotAnImage(f"the file has no bytes of {s.name}")
        if s.offset + s.loaded > len(self.data):
            raise NotAnImage(f"the file ends inside {s.name}")
        return self.data[s.offset:s.offset + s.loaded]

    def one(self, what, found):
        """Several are refused: they are parts of one section that is not linked yet."""
        if len(found) > 1:
            raise NotAnImage(f"{len(found)} {what}: link the file first")
        return found[0] if found else None

    def index(self):
        bounds = self.one("segments PT_ARM_EXIDX", [s for s in self.segments if s.kind == PT_ARM_EXIDX])
        sections = [s for s in self.sections if s.kind == SHT_ARM_EXIDX or s.name == ".ARM.exidx"]
        full = [s for s in sections if s.size]
        if bounds:
            full = [bounds] + [s for s in full if s.address >= bounds.address + bounds.size or s.address + s.size <= bounds.address]
        index = self.one("index sections", full or sections[:1])
        if not index:
            raise NotAnImage("no index: neither a program header PT_ARM_EXIDX nor a section .ARM.exidx")
        if index.loaded != index.size:
            raise NotAnImage("the file has not all bytes of the index")
        return index

    def trimmed(self, index):
        """The index without padding: linker scripts pad inside the section and name what is left, for the target to lend. Only zero bytes are left out."""
        bounds = [{value for symbol, value, _ in self.symbols() if symbol == name} for name in ("__exidx_start", "__exidx_end")]
        if [len(values) for values in bounds] != [1, 1]:
            return index, ""
        (start,), (end,) = bounds
        if not index.address <= start <= end <= index.address + index.size or end - start == index.size:
            return index, ""
        body, first = self.bytes_of(index), start - index.address
        if any(body[:first] + body[end - index.address:]):
            raise NotAnImage("__exidx_start and __exidx_end leave out a part of the index that is not padding")
        kept = index._replace(address=start, size=end - start, offset=index.offset + first, loaded=end - start)
        return kept, f"The index stands from {start:#010x} to below {end:#010x}, as __exidx_start and __exidx_end say: {index.size - kept.size} bytes of padding are left out."

    def holder(self, address):
        """The section that holds an address, else the loaded segment, else None."""
        placed = [s for s in self.sections if s.flags & SHF_ALLOC and not (s.flags & SHF_TLS and s.kind == SHT_NOBITS)]
        for spans in (placed, [s for s in self.segments if s.kind == PT_LOAD]):
            found = [s for s in spans if address in span_of(s)]
            if len(found) > 1:
                raise NotAnImage(f"{found[0].name} and {found[1].name} both hold {address:#010x}")
            if found and address >= found[0].address + found[0].loaded:
                raise NotAnImage(f"an entry leads to {address:#010x}: the file has no bytes there, in {found[0].name}")
            if found:
                return found[0]
        return None

    def symbols(self):
        """Name, value and type of each symbol that is defined; none where they can't be read, as they only help."""
        found = []
        try:
            for s in (s for s in self.sections if s.kind == SHT_SYMTAB):
                strings, body = self.sections[s.link].offset, self.bytes_of(s)
                for name, value, _, info, _, section in struct.iter_unpack("<IIIBBH", body[:len(body) // 16 * 16]):
                    if section:
                        found.append((self.text(strings + name), value, info & 15))
        except UNREADABLE:
            return []
        return found

    def functions(self):
        """Address to name; of several, the first."""
        return {value & ~1: name for name, value, kind in reversed(self.symbols()) if kind == STT_FUNC}


def span_of(s):
    return range(s.address, s.address + s.size)


def prel31(word, place):
    distance = word & 0x7FFFFFFF
    return (place + distance - (distance >> 30 << 31)) % TOP


def led(index_at, index):
    """Entry and table address of each entry that leads to the table."""
    for k in range(len(index) // 8):
        content = struct.unpack_from("<I", index, 8 * k + 4)[0]
        if content != 1 and not content >> 31:
            yield k, prel31(content, index_at + 8 * k + 4)


def table_of(elf, places):
    """Address and bytes of the table, and what has to be said about them. An entry that leads nowhere is the audit's business: 5."""
    own = elf.one("sections .ARM.extab", [s for s in elf.sections if s.name == ".ARM.extab" and s.size])
    holders = {}
    for k, address in places:
        holders.setdefault(own if own and address in span_of(own) else elf.holder(address), k)
    lost = holders.pop(None, None)
    if len(holders) > 1:
        raise NotAnImage("the entries lead into several sections: " + ", ".join(f"entry {k} into {s.name}" for s, k in holders.items()))
    held = next(iter(holders), own)
    if held and held == own:
        return own.address, elf.bytes_of(own), ""
    if held:
        return folded(elf, held, min(a for _, a in places if a in span_of(held)))
    if lost is not None:
        raise NotAnImage(f"entry {lost} leads to {dict(places)[lost]:#010x}, which no section and no loaded segment holds")
    return 0, b"", ""


def folded(elf, held, lowest):
    """The table begins at a multiple of 4, so that a place that is none stays 5, and never before what holds it."""
    start = max(lowest, held.address + 3) & ~3
    table = elf.bytes_of(held)[start - held.address:]
    note = f"The table is in {held.name}, from {start:#010x}, the lowest place that an entry leads to, to the end"
    if len(table) > LONGEST:
        note += f" of the {LONGEST} bytes that a table may have: what reads past {start + LONGEST:#010x} is refused"
    return start, table[:LONGEST], note + "."


def image(elf):
    span, trimmed = elf.trimmed(elf.index())
    index = elf.bytes_of(span)
    if len(index) % 8:
        raise NotWhole(f"the index has {len(index)} bytes, which is no whole number of entries of 8")
    # what leads into the index itself, as zero bytes do, leads to no table
    table_at, table, note = table_of(elf, [(k, a) for k, a in led(span.address, index) if a not in span_of(span)])
    return Image(span.address, index, table_at, table, [n for n in (trimmed, note) if n])


def filled(image):
    """How many zero bytes a bundle adds to the table."""
    return -len(image.table) % 4


def bundle(image):
    table = image.table + bytes(filled(image))
    if image.table_at + len(image.table) <= TOP < image.table_at + len(table):
        raise NotAnImage("the table ends below 2^32 by less than its last word: no bundle can hold it")
    return struct.pack("<IIII", 2, image.index_at, image.table_at, len(image.index) // 8) + image.index + struct.pack("<I", len(table) // 4) + table


def functions(index_at, index, names):
    for k in range(len(index) // 8):
        a = prel31(struct.unpack_from("<I", index, 8 * k)[0], index_at + 8 * k)
        yield k, a, names.get(a & ~1, "")


def main():
    args = [a for a in sys.argv[1:] if not a.startswith("--")]
    try:
        elf = Elf(open(args[0], "rb").read())
        taken = image(elf)
        if "--functions" in sys.argv:
            for k, a, name in functions(taken.index_at, taken.index, elf.functions()):
                print(f"{k} {a:08x} {name}")
            return
        whole = bundle(taken)
    except UNREADABLE as why:
        sys.exit(f"{args[0]}: {why}")
    open(args[1], "wb").write(whole)
    for note in taken.notes:
        print(note, file=sys.stderr)
    if filled(taken):
        print(f"The last {filled(taken)} bytes only fill the table's last word: audit_image {filled(taken)} <{args[1]}", file=sys.stderr)


if __name__ == "__main__":
    main()
