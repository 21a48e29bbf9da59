//! The paper's rules in plain safe Rust, written from the paper alone.
use crate::anrukfal::{
    Answer, Bundle, CallSite, Content, Fault, Found, Image, IndexEntry, Instruction, Lookup, Personality, Read, Refusal, Registers,
    Section, Span, Stepped, TableEntry, Unwinding,
};
use crate::readers::{Entry, Header, Leads, Site, Walked};

pub const LONGEST: usize = 65_536;

fn rule(s: Section) -> Answer<()> {
    if s.bytes.len() > LONGEST || s.address as u64 + s.bytes.len() as u64 > 1 << 32 {
        return Err(Refusal::Section);
    }
    Ok(())
}

fn index_rule(s: Section) -> Answer<()> {
    if s.bytes.len() % 8 != 0 {
        return Err(Refusal::Section);
    }
    rule(s)
}

/// The offset of an address in a section of `len` bytes.
pub fn offset(section: u32, len: usize, address: u32) -> Answer<u32> {
    match address.checked_sub(section) {
        Some(offset) if (offset as usize) < len => Ok(offset),
        _ => Err(Refusal::Place),
    }
}

pub fn plus(a: u32, by: u32) -> Answer<u32> {
    a.checked_add(by).ok_or(Refusal::Sum)
}

pub fn word(bytes: &[u8], at: usize) -> Answer<u32> {
    match bytes.get(at..) {
        Some([a, b, c, d, ..]) => Ok(u32::from_le_bytes([*a, *b, *c, *d])),
        _ => Err(Refusal::Truncated),
    }
}

pub fn prel31(word: u32, place: u32) -> u32 {
    let distance = ((word << 1) as i32) >> 1;
    place.wrapping_add(distance as u32)
}

// ---- pointers

/// The digits of a LEB, how many bits they are, and the position after them.
fn leb(data: &[u8], at: usize) -> Answer<(u64, u32, usize)> {
    let mut value = 0;
    for k in 0..5 {
        let byte = *data.get(at + k).ok_or(Refusal::Truncated)?;
        value |= ((byte & 0x7F) as u64) << (7 * k);
        if byte < 0x80 {
            return Ok((value, 7 * (k as u32 + 1), at + k + 1));
        }
    }
    Err(Refusal::Value)
}

fn uleb(data: &[u8], at: usize) -> Answer<(u32, usize)> {
    let (value, _, next) = leb(data, at)?;
    Ok((u32::try_from(value).map_err(|_| Refusal::Value)?, next))
}

fn sleb(data: &[u8], at: usize) -> Answer<(u32, usize)> {
    let (value, bits, next) = leb(data, at)?;
    let value = ((value << (64 - bits)) as i64) >> (64 - bits);
    Ok((i32::try_from(value).map_err(|_| Refusal::Value)? as u32, next))
}

fn fixed<const N: usize>(data: &[u8], at: usize) -> Answer<([u8; N], usize)> {
    let bytes = data.get(at..).and_then(|rest| rest.first_chunk::<N>()).ok_or(Refusal::Truncated)?;
    Ok((*bytes, at + N))
}

fn pointer_at(data: &[u8], at: usize, encoding: u8) -> Answer<(u32, usize)> {
    match encoding {
        0x00 | 0x04 => {
            let (bytes, next) = fixed(data, at)?;
            Ok((u32::try_from(u64::from_le_bytes(bytes)).map_err(|_| Refusal::Value)?, next))
        }
        0x01 => uleb(data, at),
        0x02 => fixed(data, at).map(|(bytes, next)| (u16::from_le_bytes(bytes) as u32, next)),
        0x03 | 0x0B => fixed(data, at).map(|(bytes, next)| (u32::from_le_bytes(bytes), next)),
        0x09 => sleb(data, at),
        0x0A => fixed(data, at).map(|(bytes, next)| (i16::from_le_bytes(bytes) as u32, next)),
        0x0C => {
            let (bytes, next) = fixed(data, at)?;
            Ok((i32::try_from(i64::from_le_bytes(bytes)).map_err(|_| Refusal::Value)? as u32, next))
        }
        _ => Err(Refusal::Encoding),
    }
}

pub fn pointer(data: &[u8], at: u32, encoding: u8) -> Answer<Read> {
    if data.len() > LONGEST {
        return Err(Refusal::Section);
    }
    let (value, next) = pointer_at(data, at as usize, encoding)?;
    Ok(Read { value, next: next as u32 })
}

// ---- instructions

fn instruction_byte(words: &[u8], at: usize) -> Option<u8> {
    (at < words.len()).then(|| words[at ^ 3])
}

fn long_pop(words: &[u8], at: usize) -> Option<(Instruction, usize)> {
    let mut value = 0u64;
    for k in 0..5 {
        let byte = instruction_byte(words, at + k)?;
        value |= ((byte & 0x7F) as u64) << (7 * k);
        if byte < 0x80 {
            let fits = value <= 0x3FFF_FF7E;
            return fits.then(|| (Instruction::DataPop(4 * value as u32 + 0x204), at + k + 1));
        }
    }
    None
}

fn opcode(words: &[u8], op: u8, at: usize) -> Option<(Instruction, usize)> {
    let size = (op as u32 & 0x3F) * 4 + 4;
    let low = op as u32 & 0xF;
    let one = at + 1;
    let second = || instruction_byte(words, at + 1).map(|byte| byte as u32);
    Some(match op {
        0x00..=0x3F => (Instruction::DataPop(size), one),
        0x40..=0x7F => (Instruction::DataPush(size), one),
        0x80..=0x8F => match low * 256 + second()? {
            0 => (Instruction::Refused, at + 2),
            mask => (Instruction::RegPop(mask * 16), at + 2),
        },
        0x9D | 0x9F => (Instruction::Reserved, one),
        0x90..=0x9F => (Instruction::RegToSp(low), one),
        0xA0..=0xAF => {
            let run = ((2 << (low & 7)) - 1) << 4;
            (Instruction::RegPop(run | (low >> 3) << 14), one)
        }
        0xB0 => (Instruction::Finish, one),
        0xB1 => match second()? {
            mask @ 1..=0xF => (Instruction::RegPop(mask), at + 2),
            _ => (Instruction::Reserved, at + 2),
        },
        0xB2 => long_pop(words, at + 1)?,
        0xC8 | 0xC9 => {
            let byte = second()?;
            let start = (byte >> 4) + if op == 0xC8 { 16 } else { 0 };
            (Instruction::VfpPop { start, count: (byte & 0xF) + 1 }, at + 2)
        }
        _ => (Instruction::Unimplemented, one),
    })
}

fn decode(words: &[u8], at: usize) -> Option<(Instruction, usize)> {
    let op = instruction_byte(words, at)?;
    Some(opcode(words, op, at).unwrap_or((Instruction::Error, words.len())))
}

fn words_rule(words: &[u8]) -> Answer<()> {
    if words.len() % 4 != 0 || words.len() > LONGEST {
        return Err(Refusal::Section);
    }
    Ok(())
}

pub fn instruction(words: &[u8], at: u32) -> Answer<Option<(Instruction, u32)>> {
    words_rule(words)?;
    Ok(decode(words, at as usize).map(|(is, next)| (is, next as u32)))
}

pub fn byte(words: &[u8], at: u32) -> Answer<Option<u8>> {
    words_rule(words)?;
    Ok(instruction_byte(words, at as usize))
}

fn skip_rule(skip: u32) -> Answer<()> {
    if skip > 2 {
        return Err(Refusal::Section);
    }
    Ok(())
}

/// A walk that starts at a skip and has come to a position.
pub fn walk_byte(words: &[u8], skip: u32, pos: u32) -> Answer<Walked<u8>> {
    skip_rule(skip)?;
    let is = byte(words, pos)?;
    Ok((is, pos + is.is_some() as u32))
}

pub fn walk_instruction(words: &[u8], skip: u32, pos: u32) -> Answer<Walked<Instruction>> {
    skip_rule(skip)?;
    Ok(match instruction(words, pos)? {
        Some((is, next)) => (Some(is), next),
        None => (None, pos),
    })
}

// ---- entries

fn function_of(index: Section, number: usize) -> Answer<u32> {
    let w = word(index.bytes, 8 * number)?;
    if w >> 31 != 0 {
        return Err(Refusal::Corrupt);
    }
    Ok(prel31(w, index.address.wrapping_add(8 * number as u32)))
}

fn content_of(index: Section, number: usize) -> Answer<Content> {
    let offset = 8 * number as u32 + 4;
    let w = word(index.bytes, offset as usize)?;
    Ok(if w == 1 {
        Content::CannotUnwind
    } else if w >> 31 != 0 {
        Content::Compact { selector: w >> 24 & 0xF, span: Span { offset, words: 1, skip: 1 } }
    } else {
        Content::Table(prel31(w, index.address.wrapping_add(offset)))
    })
}

fn numbered(index: Section, number: u32) -> Answer<usize> {
    index_rule(index)?;
    if number as usize >= index.bytes.len() / 8 {
        return Err(Refusal::Truncated);
    }
    Ok(number as usize)
}

pub fn function(index: Section, number: u32) -> Answer<u32> {
    function_of(index, numbered(index, number)?)
}

pub fn content(index: Section, number: u32) -> Answer<Content> {
    content_of(index, numbered(index, number)?)
}

pub fn index_entry(index: Section, number: u32) -> Answer<IndexEntry> {
    Ok(IndexEntry { function: function(index, number)?, content: content(index, number)? })
}

fn table_entry_at(table: Section, offset: u32) -> Answer<TableEntry> {
    if offset % 4 != 0 {
        return Err(Refusal::Place);
    }
    let at = offset as usize;
    let first = word(table.bytes, at)?;
    let (personality, at, words, skip) = if first >> 31 != 0 {
        let selector = first >> 24 & 0xF;
        match selector {
            0 => (Personality::Compact(0), at, 1, 1),
            1 | 2 => (Personality::Compact(selector), at, 1 + (first >> 16 & 0xFF), 2),
            _ => return Err(Refusal::Selector),
        }
    } else {
        let who = prel31(first, table.address.wrapping_add(offset));
        let second = word(table.bytes, at + 4)?;
        (Personality::Generic(who), at + 4, 1 + (second >> 24), 1)
    };
    let language = at + 4 * words as usize;
    if language > table.bytes.len() {
        return Err(Refusal::Truncated);
    }
    Ok(TableEntry { personality, span: Span { offset: at as u32, words, skip }, language: language as u32 })
}

pub fn table_entry(table: Section, offset: u32) -> Answer<TableEntry> {
    rule(table)?;
    table_entry_at(table, offset)
}

// ---- language data

fn data_byte(data: &[u8], at: usize) -> Answer<u8> {
    data.get(at).copied().ok_or(Refusal::Truncated)
}

fn header_of(data: &[u8], function: u32) -> Answer<Header> {
    let (base, at) = match data_byte(data, 0)? {
        0xFF => (function, 1),
        encoding => pointer_at(data, 1, encoding)?,
    };
    let at = match data_byte(data, at)? {
        0xFF => at + 1,
        _ => uleb(data, at + 1)?.1,
    };
    let encoding = data_byte(data, at)?;
    let (length, at) = uleb(data, at + 1)?;
    Ok(Header { base, encoding, start: at as u32, end: at as u64 + length as u64 })
}

fn language_rule(data: &[u8]) -> Answer<()> {
    if data.len() > LONGEST {
        return Err(Refusal::Section);
    }
    Ok(())
}

pub fn header(data: &[u8], function: u32) -> Answer<Header> {
    language_rule(data)?;
    header_of(data, function)
}

fn site_of(data: &[u8], h: &Header, at: usize) -> Answer<(Site, usize)> {
    let (start, at) = pointer_at(data, at, h.encoding)?;
    let (length, at) = pointer_at(data, at, h.encoding)?;
    let (pad, at) = pointer_at(data, at, h.encoding)?;
    let (action, at) = uleb(data, at)?;
    let start = plus(h.base, start)?;
    let end = plus(start, length)?;
    Ok((Site { start, end, pad, action }, at))
}

/// What stands at a position: nothing more at or past the table's end.
pub fn site(data: &[u8], h: &Header, at: u32) -> Answer<Option<(Site, u32)>> {
    language_rule(data)?;
    if at as u64 >= h.end {
        return Ok(None);
    }
    let (site, next) = site_of(data, h, at as usize)?;
    Ok(Some((site, next as u32)))
}

fn settled(base: u32, site: &Site) -> Answer<CallSite> {
    let pad = match site.pad {
        0 => None,
        pad => Some(plus(base, pad)?),
    };
    let action = match site.action {
        0 => None,
        action => Some(plus(action, 1)?),
    };
    Ok(CallSite { start: site.start, end: site.end, pad, action })
}

pub fn call_site(data: &[u8], function: u32, counter: u32) -> Answer<CallSite> {
    let h = header(data, function)?;
    let mut at = h.start;
    while let Some((is, next)) = site(data, &h, at)? {
        if (is.start..is.end).contains(&counter) {
            return settled(h.base, &is);
        }
        at = next;
    }
    Err(Refusal::NoSite)
}

fn audit_sites(data: &[u8], function: u32) -> Answer<()> {
    let h = header(data, function)?;
    let mut at = h.start;
    while let Some((is, next)) = site(data, &h, at)? {
        settled(h.base, &is)?;
        at = next;
    }
    Ok(())
}

// ---- search, lookup

fn find(index: Section, counter: u32) -> Answer<Found> {
    let n = index.bytes.len() / 8;
    if n == 0 || counter < function_of(index, 0)? {
        return Err(Refusal::NoEntry);
    }
    let (mut low, mut high, mut read) = (0, n, 1);
    while high - low > 1 {
        let middle = (low + high) / 2;
        read += 1;
        if function_of(index, middle)? <= counter {
            low = middle;
        } else {
            high = middle;
        }
    }
    Ok(Found { entry: low as u32, read })
}

pub fn search(index: Section, counter: u32) -> Answer<Found> {
    index_rule(index)?;
    find(index, counter)
}

fn entry_of(image: &Image, number: usize) -> Answer<Entry> {
    let function = function_of(image.index, number)?;
    let leads = match content_of(image.index, number)? {
        Content::CannotUnwind => Leads::CannotUnwind,
        Content::Compact { selector, span } => Leads::CompactInIndex(selector, span),
        Content::Table(address) => {
            let table = image.table;
            let entry = table_entry_at(table, offset(table.address, table.bytes.len(), address)?)?;
            match entry.personality {
                Personality::Compact(selector) => Leads::CompactInTable(selector, entry.span),
                Personality::Generic(who) => Leads::Generic(who, entry.span, entry.language),
            }
        }
    };
    Ok(Entry { function, leads })
}

/// The words that an entry leads to, and their skip; none where it cannot unwind.
fn words_of<'a>(image: &Image<'a>, leads: Leads) -> Option<(&'a [u8], u32)> {
    let (bytes, span) = match leads {
        Leads::CannotUnwind => return None,
        Leads::CompactInIndex(_, span) => (image.index.bytes, span),
        Leads::CompactInTable(_, span) | Leads::Generic(_, span, _) => (image.table.bytes, span),
    };
    let at = span.offset as usize;
    Some((&bytes[at..at + 4 * span.words as usize], span.skip))
}

pub fn sections(image: &Image) -> Answer<()> {
    index_rule(image.index)?;
    rule(image.table)
}

pub fn entry(image: &Image, number: u32) -> Answer<Entry> {
    sections(image)?;
    entry_of(image, numbered(image.index, number)?)
}

pub fn lookup(image: &Image, counter: u32) -> Answer<Lookup> {
    sections(image)?;
    let found = find(image.index, counter)?;
    let Entry { function, leads } = entry_of(image, found.entry as usize)?;
    let unwinding = match leads {
        Leads::CannotUnwind => Unwinding::CannotUnwind,
        Leads::CompactInIndex(selector, _) => Unwinding::CompactInIndex(selector),
        Leads::CompactInTable(selector, _) => Unwinding::CompactInTable(selector),
        Leads::Generic(who, _, language) => {
            Unwinding::Generic(who, call_site(&image.table.bytes[language as usize..], function, counter)?)
        }
    };
    Ok(Lookup { entry: found.entry, function, unwinding })
}

// ---- step

fn popped<const N: usize>(stack: Section, sp: u32) -> Answer<[u8; N]> {
    let at = sp.checked_sub(stack.address).ok_or(Refusal::Stack)? as usize;
    let bytes = stack.bytes.get(at..).and_then(|rest| rest.first_chunk::<N>()).ok_or(Refusal::Stack)?;
    Ok(*bytes)
}

/// Executes one instruction that is no end; says whether it loaded register 15.
fn execute(is: Instruction, stack: Section, r: &mut Registers) -> Answer<bool> {
    let mut sp = r.core[13];
    match is {
        Instruction::DataPop(size) => r.core[13] = sp.wrapping_add(size),
        Instruction::DataPush(size) => r.core[13] = sp.wrapping_sub(size),
        Instruction::RegToSp(register) => r.core[13] = r.core[register as usize],
        Instruction::RegPop(mask) => {
            for register in 0..16 {
                if mask >> register & 1 != 0 {
                    r.core[register] = u32::from_le_bytes(popped(stack, sp)?);
                    sp = sp.wrapping_add(4);
                }
            }
            if mask >> 13 & 1 == 0 {
                r.core[13] = sp;
            }
            return Ok(mask >> 15 & 1 != 0);
        }
        Instruction::VfpPop { start, count } => {
            if start + count > 32 {
                return Err(Refusal::Registers);
            }
            for register in start..start + count {
                r.vfp[register as usize] = u64::from_le_bytes(popped(stack, sp)?);
                sp = sp.wrapping_add(8);
            }
            r.core[13] = sp;
        }
        Instruction::Refused => return Err(Refusal::Refused),
        Instruction::Reserved => return Err(Refusal::Reserved),
        Instruction::Unimplemented => return Err(Refusal::Unsupported),
        Instruction::Error => return Err(Refusal::Malformed),
        Instruction::Finish => unreachable!(),
    }
    Ok(false)
}

fn run(words: &[u8], skip: u32, stack: Section, r: &mut Registers) -> Answer<u32> {
    let (mut at, mut count, mut loaded) = (skip as usize, 0, false);
    while let Some((is, next)) = decode(words, at) {
        count += 1;
        if is == Instruction::Finish {
            break;
        }
        loaded |= execute(is, stack, r)?;
        at = next;
    }
    if !loaded {
        r.core[15] = r.core[14];
    }
    Ok(count)
}

pub fn step(image: &Image, stack: Section, registers: &mut Registers) -> Answer<Stepped> {
    sections(image)?;
    rule(stack)?;
    let found = find(image.index, registers.core[15])?;
    let leads = entry_of(image, found.entry as usize)?.leads;
    let Some((words, skip)) = words_of(image, leads) else { return Ok(Stepped::CannotUnwind) };
    let mut after = *registers;
    let count = run(words, skip, stack, &mut after)?;
    *registers = after;
    Ok(Stepped::Next(count))
}

// ---- audit, bundle

fn audit_instructions(words: &[u8], skip: u32) -> Answer<()> {
    let mut at = skip as usize;
    while let Some((is, next)) = decode(words, at) {
        match is {
            Instruction::Finish | Instruction::Refused => break,
            Instruction::Reserved => return Err(Refusal::Reserved),
            Instruction::Unimplemented => return Err(Refusal::Unsupported),
            Instruction::Error => return Err(Refusal::Malformed),
            Instruction::VfpPop { start, count } if start + count > 32 => return Err(Refusal::Registers),
            _ => at = next,
        }
    }
    Ok(())
}

fn audit_entry(image: &Image, number: usize, before: Option<u32>) -> Answer<u32> {
    let function = function_of(image.index, number)?;
    if before.is_some_and(|last| function <= last) {
        return Err(Refusal::Unsorted);
    }
    let leads = entry_of(image, number)?.leads;
    if let Some((words, skip)) = words_of(image, leads) {
        audit_instructions(words, skip)?;
    }
    if let Leads::Generic(_, _, language) = leads {
        audit_sites(&image.table.bytes[language as usize..], function)?;
    }
    Ok(function)
}

pub fn audit(image: &Image) -> Result<(), Fault> {
    sections(image).map_err(|refusal| Fault { refusal, entry: 0 })?;
    let mut before = None;
    for number in 0..image.index.bytes.len() / 8 {
        let function = audit_entry(image, number, before).map_err(|refusal| Fault { refusal, entry: number as u32 })?;
        before = Some(function);
    }
    Ok(())
}

pub fn bundle(bytes: &[u8]) -> Answer<Bundle> {
    let number = |at: usize| word(bytes, at).map_err(|_| Refusal::Bundle);
    if number(0)? != 2 {
        return Err(Refusal::Bundle);
    }
    let (index_address, table_address, entries) = (number(4)?, number(8)?, number(12)?);
    if entries > 8192 {
        return Err(Refusal::Section);
    }
    let index_bytes = 8 * entries;
    if bytes.len() < 16 + index_bytes as usize {
        return Err(Refusal::Bundle);
    }
    let words = number(16 + index_bytes as usize)?;
    if words > 16_384 {
        return Err(Refusal::Section);
    }
    let (table_offset, table_bytes) = (20 + index_bytes, 4 * words);
    if bytes.len() != (table_offset + table_bytes) as usize {
        return Err(Refusal::Bundle);
    }
    let past = |address: u32, len: u32| address as u64 + len as u64 > 1 << 32;
    if past(index_address, index_bytes) || past(table_address, table_bytes) {
        return Err(Refusal::Section);
    }
    Ok(Bundle { index_address, table_address, index_offset: 16, index_bytes, table_offset, table_bytes })
}
