"""The paper's rules once more, in plain Python, written from the paper alone: what the test programs' stored answers are made with.

Every function answers (number, row), as the C library does: the refusal's number, 0 for none, and the values beside it, all zero at a refusal."""

SECTION, NO_ENTRY, CORRUPT, UNSORTED, PLACE, TRUNCATED, SELECTOR, ENCODING, VALUE, SUM, NO_SITE = range(1, 12)
REFUSED, RESERVED, UNSUPPORTED, MALFORMED, REGS, STACK, BUNDLE = range(12, 19)
LONGEST = 65536


class Refusal(Exception):
    """Carries the number."""


def refuse(number):
    raise Refusal(number)


def answered(rows, call, *args):
    try:
        return 0, list(call(*args))
    except Refusal as why:
        return why.args[0], [0] * rows


def sections(index=None, table=None, stack=None):
    for part, index_of_8 in ((index, True), (table, False), (stack, False)):
        if part is not None:
            data, address = part
            if len(data) > LONGEST or address + len(data) > 1 << 32 or (index_of_8 and len(data) % 8):
                refuse(SECTION)


def word(data, at):
    if at + 4 > len(data):
        refuse(TRUNCATED)
    return int.from_bytes(data[at:at + 4], "little")


def target(w, place):
    distance = w & 0x7FFFFFFF
    if distance >= 1 << 30:
        distance -= 1 << 31
    return (place + distance) % (1 << 32)


# ---- pointers

def leb(data, at):
    """Value, its bits and the next position."""
    value = 0
    for k in range(5):
        if at + k >= len(data):
            refuse(TRUNCATED)
        value |= (data[at + k] & 0x7F) << (7 * k)
        if data[at + k] < 0x80:
            return value, 7 * (k + 1), at + k + 1
    refuse(VALUE)


def as_unsigned(value, at):
    if value >= 1 << 32:
        refuse(VALUE)
    return value, at


def as_signed(value, bits, at):
    if value >> (bits - 1):
        value -= 1 << bits
    if not -(1 << 31) <= value < 1 << 31:
        refuse(VALUE)
    return value % (1 << 32), at


def uleb_at(data, at):
    value, _, after = leb(data, at)
    return as_unsigned(value, after)


def pointer_at(data, at, encoding):
    widths = {0x00: 8, 0x02: 2, 0x03: 4, 0x04: 8, 0x0A: 2, 0x0B: 4, 0x0C: 8}
    if encoding == 0x01:
        return uleb_at(data, at)
    if encoding == 0x09:
        return as_signed(*leb(data, at))
    if encoding not in widths:
        refuse(ENCODING)
    n = widths[encoding]
    if at + n > len(data):
        refuse(TRUNCATED)
    value = int.from_bytes(data[at:at + n], "little")
    if encoding >= 0x0A:
        return as_signed(value, 8 * n, at + n)
    return as_unsigned(value, at + n)


def long_data(data):
    if len(data) > LONGEST:
        refuse(SECTION)


def pointer(data, at, encoding):
    long_data(data)
    return pointer_at(data, at, encoding)


# ---- instructions

KINDS = ("end", "data pop", "data push", "register pop", "sp from register", "VFP pop", "finish", "refused", "reserved", "unimplemented", "error")


def whole_words(words):
    if len(words) % 4 or len(words) > LONGEST:
        refuse(SECTION)


def instruction_byte(words, at):
    return words[at // 4 * 4 + 3 - at % 4] if at < len(words) else None


def decoded(words, at):
    """Kind, a, b, next position."""
    error = ("error", 0, 0, len(words))
    op = instruction_byte(words, at)
    if op is None:
        return "end", 0, 0, at
    two = instruction_byte(words, at + 1)
    if op <= 0x3F:
        return "data pop", (op & 0x3F) * 4 + 4, 0, at + 1
    if op <= 0x7F:
        return "data push", (op & 0x3F) * 4 + 4, 0, at + 1
    if op <= 0x8F:
        if two is None:
            return error
        if op == 0x80 and two == 0:
            return "refused", 0, 0, at + 2
        return "register pop", ((op & 0xF) * 256 + two) * 16, 0, at + 2
    if op <= 0x9F:
        if op in (0x9D, 0x9F):
            return "reserved", 0, 0, at + 1
        return "sp from register", op & 0xF, 0, at + 1
    if op <= 0xAF:
        mask = sum(1 << r for r in range(4, 5 + (op & 7)))
        return "register pop", mask | (1 << 14 if op & 8 else 0), 0, at + 1
    if op == 0xB0:
        return "finish", 0, 0, at + 1
    if op == 0xB1:
        if two is None:
            return error
        if two == 0 or two & 0xF0:
            return "reserved", 0, 0, at + 2
        return "register pop", two, 0, at + 2
    if op == 0xB2:
        value = 0
        for k in range(5):
            b = instruction_byte(words, at + 1 + k)
            if b is None:
                return error
            value |= (b & 0x7F) << (7 * k)
            if b < 0x80:
                if value > 0x3FFFFF7E:
                    return error
                return "data pop", 4 * value + 0x204, 0, at + 2 + k
        return error
    if op in (0xC8, 0xC9):
        if two is None:
            return error
        return "VFP pop", (two >> 4) + (16 if op == 0xC8 else 0), (two & 0xF) + 1, at + 2
    return "unimplemented", 0, 0, at + 1


def instruction(words, at):
    whole_words(words)
    kind, a, b, after = decoded(words, at)
    return KINDS.index(kind), a, b, after


# ---- entries

def function_of(index, address, k):
    w = word(index, 8 * k)
    if w >> 31:
        refuse(CORRUPT)
    return target(w, (address + 8 * k) % (1 << 32))


def content_of(index, address, k):
    w = word(index, 8 * k + 4)
    if w == 1:
        return 0, 0, 0, 0, 0
    if w >> 31:
        return 1, (w >> 24) & 0xF, 8 * k + 4, 1, 1
    return 4, target(w, (address + 8 * k + 4) % (1 << 32)), 0, 0, 0


def index_entry(index, address, k):
    sections(index=(index, address))
    if k >= len(index) // 8:
        refuse(TRUNCATED)
    return (function_of(index, address, k),) + content_of(index, address, k)


def table_entry_at(table, address, offset):
    if offset % 4:
        refuse(PLACE)
    w = word(table, offset)
    if w >> 31:
        selector = (w >> 24) & 0xF
        if selector > 2:
            refuse(SELECTOR)
        at, words, skip = offset, 1, 1
        if selector:
            words, skip = 1 + ((w >> 16) & 0xFF), 2
        kind, who = 2, selector
    else:
        kind, who = 3, target(w, (address + offset) % (1 << 32))
        at, skip = offset + 4, 1
        words = 1 + (word(table, at) >> 24)
    if at + 4 * words > len(table):
        refuse(TRUNCATED)
    return kind, who, at, words, skip, at + 4 * words


def table_entry(table, address, offset):
    sections(table=(table, address))
    return table_entry_at(table, address, offset)


# ---- language data

def header_at(data, function):
    """Base, encoding, start and end of the call sites."""
    long_data(data)

    def byte(at):
        if at >= len(data):
            refuse(TRUNCATED)
        return data[at], at + 1

    encoding, at = byte(0)
    base = function
    if encoding != 0xFF:
        base, at = pointer_at(data, at, encoding)
    encoding, at = byte(at)
    if encoding != 0xFF:
        _, at = uleb_at(data, at)
    encoding, at = byte(at)
    length, at = uleb_at(data, at)
    return base, encoding, at, at + length


def fitting(value):
    if value > 0xFFFFFFFF:
        refuse(SUM)
    return value


def site_at(data, base, encoding, at):
    start, at = pointer_at(data, at, encoding)
    length, at = pointer_at(data, at, encoding)
    pad, at = pointer_at(data, at, encoding)
    action, at = uleb_at(data, at)
    start = fitting(base + start)
    return start, fitting(start + length), pad, action, at


def settled(base, pad, action):
    pad = fitting(base + pad) if pad else 0
    return pad, 1 if action else 0, fitting(action + 1) if action else 0


def call_site(data, function, counter):
    base, encoding, at, end = header_at(data, function)
    while at < end:
        start, stop, pad, action, at = site_at(data, base, encoding, at)
        if start <= counter < stop:
            return (start, stop) + settled(base, pad, action)
    refuse(NO_SITE)


# ---- search, lookup

def search_in(index, address, counter):
    n = len(index) // 8
    if n == 0:
        refuse(NO_ENTRY)
    if counter < function_of(index, address, 0):
        refuse(NO_ENTRY)
    low, high, read = 0, n, 1
    while high - low > 1:
        middle = (low + high) // 2
        read += 1
        if function_of(index, address, middle) <= counter:
            low = middle
        else:
            high = middle
    return low, read


def search(index, address, counter):
    sections(index=(index, address))
    return search_in(index, address, counter)


def entry_at(index, index_address, table, table_address, k):
    """Function, kind, selector or personality, the words' section, their offset, count and skip, the language data's offset."""
    function = function_of(index, index_address, k)
    kind, who, at, words, skip = content_of(index, index_address, k)
    if kind != 4:
        return function, kind, who, index, at, words, skip, 0
    if not table_address <= who < table_address + len(table):
        refuse(PLACE)
    kind, who, at, words, skip, language = table_entry_at(table, table_address, who - table_address)
    return function, kind, who, table, at, words, skip, language


def lookup(index, index_address, table, table_address, counter):
    sections(index=(index, index_address), table=(table, table_address))
    k, _ = search_in(index, index_address, counter)
    function, kind, who, _, _, _, _, language = entry_at(index, index_address, table, table_address, k)
    site = call_site(table[language:], function, counter) if kind == 3 else (0, 0, 0, 0, 0)
    return (k, function, kind, who) + tuple(site)


# ---- step

def run_frame(words, skip, stack, stack_address, core, vfp):
    """The registers after the frame, and how many instructions were executed."""
    core, vfp, at, count, loaded = list(core), list(vfp), skip, 0, False

    def pop(address, size):
        at = address - stack_address
        if at < 0 or at + size > len(stack):
            refuse(STACK)
        return int.from_bytes(stack[at:at + size], "little")

    while True:
        kind, a, b, at = decoded(words, at)
        if kind in ("end", "finish"):
            if not loaded:
                core[15] = core[14]
            return core, vfp, count + (kind == "finish")
        for name, number in (("refused", REFUSED), ("reserved", RESERVED), ("unimplemented", UNSUPPORTED), ("error", MALFORMED)):
            if kind == name:
                refuse(number)
        sp = core[13]
        if kind == "data pop":
            core[13] = (sp + a) % (1 << 32)
        elif kind == "data push":
            core[13] = (sp - a) % (1 << 32)
        elif kind == "sp from register":
            core[13] = core[a]
        elif kind == "register pop":
            for r in range(16):
                if a >> r & 1:
                    core[r] = pop(sp, 4)
                    sp = (sp + 4) % (1 << 32)
            if not a >> 13 & 1:
                core[13] = sp
            loaded = loaded or bool(a >> 15 & 1)
        else:
            if a + b > 32:
                refuse(REGS)
            for r in range(a, a + b):
                vfp[r] = pop(sp, 8)
                sp = (sp + 8) % (1 << 32)
            core[13] = sp
        count += 1


def step(index, index_address, table, table_address, stack, stack_address, core, vfp):
    """(number, row of kind and count, core, vfp): a refusal hands back the registers given."""
    try:
        sections(index=(index, index_address), table=(table, table_address), stack=(stack, stack_address))
        k, _ = search_in(index, index_address, core[15])
        _, kind, _, held, at, words, skip, _ = entry_at(index, index_address, table, table_address, k)
        if kind == 0:
            return 0, [1, 0], core, vfp
        after, doubles, count = run_frame(held[at:at + 4 * words], skip, stack, stack_address, core, vfp)
        return 0, [0, count], after, doubles
    except Refusal as why:
        return why.args[0], [0, 0], core, vfp


# ---- audit, bundle

def audit_entry(index, index_address, table, table_address, k, last):
    function = function_of(index, index_address, k)
    if k and function <= last:
        refuse(UNSORTED)
    _, kind, _, held, at, words, skip, language = entry_at(index, index_address, table, table_address, k)
    if kind == 0:
        return function
    words, at = held[at:at + 4 * words], skip
    while True:
        what, a, b, at = decoded(words, at)
        if what in ("end", "finish", "refused"):
            break
        for name, number in (("reserved", RESERVED), ("unimplemented", UNSUPPORTED), ("error", MALFORMED)):
            if what == name:
                refuse(number)
        if what == "VFP pop" and a + b > 32:
            refuse(REGS)
    if kind == 3:
        data = table[language:]
        base, encoding, at, end = header_at(data, function)
        while at < end:
            _, _, pad, action, at = site_at(data, base, encoding, at)
            settled(base, pad, action)
    return function


def audit(index, index_address, table, table_address):
    """(number, [entry])"""
    k = 0
    try:
        sections(index=(index, index_address), table=(table, table_address))
        last = None
        for k in range(len(index) // 8):
            last = audit_entry(index, index_address, table, table_address, k, last)
        return 0, [0]
    except Refusal as why:
        return why.args[0], [k]


def bundle(data):
    def count(at):
        if at + 4 > len(data):
            refuse(BUNDLE)
        return int.from_bytes(data[at:at + 4], "little")

    if count(0) != 2 or len(data) < 12:
        refuse(BUNDLE)
    index_address, table_address, entries = count(4), count(8), count(12)
    if entries > 8192:
        refuse(SECTION)
    if len(data) < 16 + 8 * entries:
        refuse(BUNDLE)
    words = count(16 + 8 * entries)
    if words > 16384:
        refuse(SECTION)
    if len(data) != 20 + 8 * entries + 4 * words:
        refuse(BUNDLE)
    if index_address + 8 * entries > 1 << 32 or table_address + 4 * words > 1 << 32:
        refuse(SECTION)
    return index_address, table_address, 16, 8 * entries, 20 + 8 * entries, 4 * words


def audit_line(data, fill=0):
    """What audit_image prints; the last `fill` bytes of the table only fill its last word."""
    number, row = answered(6, bundle, data)
    if number:
        return f"fault {number}"
    if fill > 3 or fill > row[5]:
        return f"fault {BUNDLE}"
    index = data[row[2]:row[2] + row[3]]
    table = data[row[4]:row[4] + row[5] - fill]
    number, (entry,) = audit(index, row[0], table, row[1])
    return f"fault {number} at entry {entry}" if number else f"ok {len(index) // 8}"
