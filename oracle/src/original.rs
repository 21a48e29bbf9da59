//! The Rust's own answers. None: it panicked.
use crate::anrukfal::{Answer, CallSite, Content, IndexEntry, Instruction, Personality, Refusal, Span, TableEntry};
use crate::readers::{Header, Site};
use crate::unwind::unw_lsda::{self, probe::Sites, LSDA};
use crate::unwind::unw_table::probe::{self, Walk};
use crate::unwind::unw_table::{ExTabEntry, PersonalityType, Prel31, UnwindInstruction};
use gimli::{Error, LittleEndian};
use std::panic::{catch_unwind, AssertUnwindSafe};

pub fn caught<T>(call: impl FnOnce() -> T) -> Option<T> {
    catch_unwind(AssertUnwindSafe(call)).ok()
}

/// The target of a word where it lies.
pub fn target(word: &[u8; 4]) -> u32 {
    Prel31::from_bytes(word).value()
}

/// The target of a word, had it lain at `place`.
pub fn target_at(word: u32, place: u32) -> u32 {
    probe::target_at(word, place)
}

pub fn instruction(is: UnwindInstruction) -> Instruction {
    match is {
        UnwindInstruction::DataPop { size } => Instruction::DataPop(size),
        UnwindInstruction::DataPush { size } => Instruction::DataPush(size),
        UnwindInstruction::RegPop { mask } => Instruction::RegPop(mask),
        UnwindInstruction::RegToSp { reg_num } => Instruction::RegToSp(reg_num as u32),
        UnwindInstruction::VfpPop { start_reg_num, count } => {
            Instruction::VfpPop { start: start_reg_num as u32, count: count as u32 }
        }
        UnwindInstruction::Finish => Instruction::Finish,
        UnwindInstruction::Refused => Instruction::Refused,
        UnwindInstruction::Reserved => Instruction::Reserved,
        UnwindInstruction::Unimplemented => Instruction::Unimplemented,
        UnwindInstruction::Error => Instruction::Error,
        UnwindInstruction::WregPop | UnwindInstruction::WcgrPop => unreachable!("the decoder never says so"),
    }
}

/// The next instruction of a walk, with the position after it.
pub fn next(walk: &mut Walk) -> Option<Option<(Instruction, u32)>> {
    let is = caught(|| walk.0.next())?;
    Some(is.map(|is| (instruction(is), walk.position() as u32)))
}

fn span(walk: &Walk, section: &[u8]) -> Span {
    Span {
        offset: (walk.bytes().as_ptr() as usize - section.as_ptr() as usize) as u32,
        words: (walk.bytes().len() / 4) as u32,
        skip: walk.position() as u32,
    }
}

fn compact(personality: PersonalityType) -> u32 {
    match personality {
        PersonalityType::Compact(selector) => selector as u32,
        PersonalityType::Generic(_) => unreachable!("a compact entry"),
    }
}

/// An entry of an index where it lies.
pub fn index_entry(index: &[u8], number: usize) -> Answer<IndexEntry> {
    let bytes = index[8 * number..].first_chunk().unwrap();
    let (function, content) = match probe::index_entry(bytes) {
        Ok(entry) => entry,
        Err("ExIdxEntry::from_bytes: corrupted entry.") => return Err(Refusal::Corrupt),
        Err(other) => unreachable!("{other}"),
    };
    Ok(IndexEntry { function, content: content_of(content, index) })
}

fn content_of(content: probe::Content, index: &[u8]) -> Content {
    match content {
        probe::Content::Table(address) => Content::Table(address),
        probe::Content::Compact(p, walk) => Content::Compact { selector: compact(p), span: span(&walk, index) },
        probe::Content::CantUnwind => Content::CannotUnwind,
    }
}

/// The content of an entry where it lies, whatever its function word is.
pub fn content(index: &[u8], number: usize) -> Content {
    content_of(probe::content(index[8 * number + 4..].first_chunk().unwrap()), index)
}

/// An entry of a table where it lies.
pub fn table_entry(table: &[u8], offset: usize) -> Option<Answer<TableEntry>> {
    Some(match caught(|| ExTabEntry::from_bytes(table, offset))? {
        Ok((entry, language)) => Ok(TableEntry {
            personality: match entry.get_personality() {
                PersonalityType::Compact(selector) => Personality::Compact(selector as u32),
                PersonalityType::Generic(address) => Personality::Generic(address),
            },
            span: span(&Walk(entry.get_unw_instr_iter()), table),
            language: (language.as_ptr() as usize - table.as_ptr() as usize) as u32,
        }),
        Err("ExTabEntry::from_bytes: offset not multiple of 4.") => Err(Refusal::Place),
        Err("ExTabEntry::from_bytes: unexpected compact personality number.") => Err(Refusal::Selector),
        Err(other) => unreachable!("{other}"),
    })
}

pub fn refusal(error: Error) -> Refusal {
    match error {
        Error::UnexpectedEof(_) => Refusal::Truncated,
        Error::CannotParseOmitPointerEncoding | Error::UnknownPointerEncoding => Refusal::Encoding,
        Error::BadUnsignedLeb128 | Error::BadSignedLeb128 => Refusal::Value,
        Error::NoUnwindInfoForAddress => Refusal::NoSite,
        other => unreachable!("{other}"),
    }
}

/// A pointer as wide as gimli reads it, and the position after it.
pub fn pointer(data: &[u8], at: usize, encoding: u8) -> Answer<(u64, usize)> {
    unw_lsda::probe::pointer(data, at, encoding).map_err(refusal)
}

/// The first call site that covers a counter, in language data where it lies.
pub fn call_site(data: &[u8], function: u32, counter: u32) -> Option<Answer<CallSite>> {
    caught(|| {
        let site = LSDA::new(data, LittleEndian, function).call_site_table_entry_for_address(counter).map_err(refusal)?;
        let covered = site.range_of_covered_addresses();
        Ok(CallSite { start: covered.start, end: covered.end, pad: site.landing_pad_address(), action: site.action_offset() })
    })
}

/// The header of language data.
pub fn header(data: &[u8], function: u32) -> Answer<Header> {
    let (base, encoding, start, length) = unw_lsda::probe::header(data, function).map_err(refusal)?;
    Ok(Header { base, encoding, start: start as u32, end: start as u64 + length as u64 })
}

/// The next site of the iterator, with the position after it.
pub fn next_site(sites: &mut Sites) -> Option<Answer<Option<(Site, u32)>>> {
    caught(|| {
        let Some((site, pad, action, next)) = sites.next().map_err(refusal)? else { return Ok(None) };
        let covered = site.range_of_covered_addresses();
        Ok(Some((Site { start: covered.start, end: covered.end, pad, action }, next as u32)))
    })
}

// ---- what the bench times: no panics are caught here

/// All instructions of a list, each folded into one number.
pub fn fold_list(words: &[u8], skip: usize) -> u32 {
    let walk = Walk::over(words, skip).unwrap();
    let mut total = 0u32;
    for is in walk.0 {
        let (kind, a, b) = match is {
            UnwindInstruction::DataPop { size } => (1, size, 0),
            UnwindInstruction::DataPush { size } => (2, size, 0),
            UnwindInstruction::RegPop { mask } => (3, mask, 0),
            UnwindInstruction::RegToSp { reg_num } => (4, reg_num as u32, 0),
            UnwindInstruction::VfpPop { start_reg_num, count } => (5, start_reg_num as u32, count as u32),
            UnwindInstruction::Finish => (6, 0, 0),
            UnwindInstruction::Refused => (7, 0, 0),
            UnwindInstruction::Reserved => (8, 0, 0),
            UnwindInstruction::Unimplemented => (9, 0, 0),
            _ => (10, 0, 0),
        };
        total = total.wrapping_mul(31).wrapping_add(kind).wrapping_add(a).wrapping_add(b);
    }
    total
}

/// A call site's fields folded into one number, or its refusal's number.
pub fn fold_site(data: &[u8], function: u32, counter: u32) -> u32 {
    match LSDA::new(data, LittleEndian, function).call_site_table_entry_for_address(counter) {
        Ok(site) => {
            let covered = site.range_of_covered_addresses();
            let (pad, action) = (site.landing_pad_address(), site.action_offset());
            covered.start ^ covered.end ^ pad.unwrap_or(0) ^ action.is_some() as u32 ^ action.unwrap_or(0)
        }
        Err(error) => refusal(error).number(),
    }
}

/// All pointers of an encoding that the data holds, added up.
pub fn sum_pointers(data: &[u8], encoding: u8) -> u32 {
    unw_lsda::probe::sum(data, encoding)
}
