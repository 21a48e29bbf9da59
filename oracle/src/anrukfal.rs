//! Anrukfal for Rust: the C library's calls with typed answers. Copy this file and link libanrukfal.a.

/// Why there is no answer. The number is the library's.
#[derive(Clone, Copy, Debug, PartialEq, Eq, PartialOrd, Ord)]
#[repr(u32)]
pub enum Refusal {
    Section = 1,
    NoEntry = 2,
    Corrupt = 3,
    Unsorted = 4,
    Place = 5,
    Truncated = 6,
    Selector = 7,
    Encoding = 8,
    Value = 9,
    Sum = 10,
    NoSite = 11,
    Refused = 12,
    Reserved = 13,
    Unsupported = 14,
    Malformed = 15,
    Registers = 16,
    Stack = 17,
    Bundle = 18,
}

impl Refusal {
    pub const ALL: [Refusal; 18] = {
        use Refusal::*;
        [
            Section, NoEntry, Corrupt, Unsorted, Place, Truncated, Selector, Encoding, Value, Sum, NoSite, Refused, Reserved,
            Unsupported, Malformed, Registers, Stack, Bundle,
        ]
    };

    pub fn number(self) -> u32 {
        self as u32
    }
}

pub type Answer<T> = Result<T, Refusal>;

pub(crate) fn answer<T>(number: u32, value: impl FnOnce() -> T) -> Answer<T> {
    match number {
        0 => Ok(value()),
        n => Err(Refusal::ALL[n as usize - 1]),
    }
}

/// Bytes and the address that they are at.
#[derive(Clone, Copy, Debug)]
pub struct Section<'a> {
    pub bytes: &'a [u8],
    pub address: u32,
}

/// The index and the table of an image.
#[derive(Clone, Copy, Debug)]
pub struct Image<'a> {
    pub index: Section<'a>,
    pub table: Section<'a>,
}

/// A value and the position after it.
#[derive(Clone, Copy, Debug, PartialEq, Eq)]
pub struct Read {
    pub value: u32,
    pub next: u32,
}

#[derive(Clone, Copy, Debug, PartialEq, Eq)]
pub enum Instruction {
    DataPop(u32),
    DataPush(u32),
    RegPop(u32),
    RegToSp(u32),
    VfpPop { start: u32, count: u32 },
    Finish,
    Refused,
    Reserved,
    Unimplemented,
    Error,
}

/// Instruction words: where they begin, how many they are, and how many bytes of them come before the first instruction.
#[derive(Clone, Copy, Debug, PartialEq, Eq)]
pub struct Span {
    pub offset: u32,
    pub words: u32,
    pub skip: u32,
}

#[derive(Clone, Copy, Debug, PartialEq, Eq)]
pub enum Content {
    CannotUnwind,
    Compact { selector: u32, span: Span },
    Table(u32),
}

#[derive(Clone, Copy, Debug, PartialEq, Eq)]
pub struct IndexEntry {
    pub function: u32,
    pub content: Content,
}

#[derive(Clone, Copy, Debug, PartialEq, Eq)]
pub enum Personality {
    Compact(u32),
    Generic(u32),
}

#[derive(Clone, Copy, Debug, PartialEq, Eq)]
pub struct TableEntry {
    pub personality: Personality,
    pub span: Span,
    /// The offset of the language data.
    pub language: u32,
}

#[derive(Clone, Copy, Debug, PartialEq, Eq)]
pub struct CallSite {
    pub start: u32,
    pub end: u32,
    pub pad: Option<u32>,
    pub action: Option<u32>,
}

/// An entry's number and how many function words were read to find it.
#[derive(Clone, Copy, Debug, PartialEq, Eq)]
pub struct Found {
    pub entry: u32,
    pub read: u32,
}

#[derive(Clone, Copy, Debug, PartialEq, Eq)]
pub enum Unwinding {
    CannotUnwind,
    CompactInIndex(u32),
    CompactInTable(u32),
    Generic(u32, CallSite),
}

#[derive(Clone, Copy, Debug, PartialEq, Eq)]
pub struct Lookup {
    pub entry: u32,
    pub function: u32,
    pub unwinding: Unwinding,
}

#[derive(Clone, Copy, Debug, PartialEq, Eq)]
pub struct Registers {
    /// 13 is sp, 14 the link, 15 the counter.
    pub core: [u32; 16],
    pub vfp: [u64; 32],
}

#[derive(Clone, Copy, Debug, PartialEq, Eq)]
pub enum Stepped {
    /// The next frame, after so many instructions.
    Next(u32),
    CannotUnwind,
}

#[derive(Clone, Copy, Debug, PartialEq, Eq)]
pub struct Fault {
    pub refusal: Refusal,
    pub entry: u32,
}

#[derive(Clone, Copy, Debug, PartialEq, Eq)]
pub struct Bundle {
    pub index_address: u32,
    pub table_address: u32,
    pub index_offset: u32,
    pub index_bytes: u32,
    pub table_offset: u32,
    pub table_bytes: u32,
}

/// The C calls as they are. A row is filled, all zero at a refusal.
pub mod raw {
    extern "C" {
        pub fn anrukfal_prel31(word: u32, place: u32) -> u32;
        pub fn anrukfal_pointer(data: *const u8, len: usize, at: u32, encoding: u8, row: *mut [u32; 2]) -> u32;
        pub fn anrukfal_instruction(words: *const u8, len: usize, at: u32, row: *mut [u32; 4]) -> u32;
        pub fn anrukfal_index_entry(index: *const u8, len: usize, index_address: u32, number: u32, row: *mut [u32; 6]) -> u32;
        pub fn anrukfal_table_entry(table: *const u8, len: usize, table_address: u32, offset: u32, row: *mut [u32; 6]) -> u32;
        pub fn anrukfal_call_site(data: *const u8, len: usize, function: u32, counter: u32, row: *mut [u32; 5]) -> u32;
        pub fn anrukfal_search(index: *const u8, len: usize, index_address: u32, counter: u32, row: *mut [u32; 2]) -> u32;
        pub fn anrukfal_lookup(
            index: *const u8,
            index_len: usize,
            index_address: u32,
            table: *const u8,
            table_len: usize,
            table_address: u32,
            counter: u32,
            row: *mut [u32; 9],
        ) -> u32;
        pub fn anrukfal_step(
            index: *const u8,
            index_len: usize,
            index_address: u32,
            table: *const u8,
            table_len: usize,
            table_address: u32,
            stack: *const u8,
            stack_len: usize,
            stack_address: u32,
            core: *mut [u32; 16],
            vfp: *mut [u64; 32],
            row: *mut [u32; 2],
        ) -> u32;
        pub fn anrukfal_audit(
            index: *const u8,
            index_len: usize,
            index_address: u32,
            table: *const u8,
            table_len: usize,
            table_address: u32,
            row: *mut [u32; 1],
        ) -> u32;
        pub fn anrukfal_bundle(bytes: *const u8, len: usize, row: *mut [u32; 6]) -> u32;
    }
}

// Each call below lends whole slices and rows of the length that the library states, so the calls are sound.

pub fn prel31(word: u32, place: u32) -> u32 {
    unsafe { raw::anrukfal_prel31(word, place) }
}

pub fn pointer(data: &[u8], at: u32, encoding: u8) -> Answer<Read> {
    let mut row = [0; 2];
    let number = unsafe { raw::anrukfal_pointer(data.as_ptr(), data.len(), at, encoding, &mut row) };
    answer(number, || Read { value: row[0], next: row[1] })
}

pub(crate) fn instruction_of([kind, a, b, next]: [u32; 4]) -> Option<(Instruction, u32)> {
    let is = match kind {
        0 => return None,
        1 => Instruction::DataPop(a),
        2 => Instruction::DataPush(a),
        3 => Instruction::RegPop(a),
        4 => Instruction::RegToSp(a),
        5 => Instruction::VfpPop { start: a, count: b },
        6 => Instruction::Finish,
        7 => Instruction::Refused,
        8 => Instruction::Reserved,
        9 => Instruction::Unimplemented,
        _ => Instruction::Error,
    };
    Some((is, next))
}

/// The instruction at a position and the position after it; none at the end.
pub fn instruction(words: &[u8], at: u32) -> Answer<Option<(Instruction, u32)>> {
    let mut row = [0; 4];
    let number = unsafe { raw::anrukfal_instruction(words.as_ptr(), words.len(), at, &mut row) };
    answer(number, || instruction_of(row))
}

pub(crate) fn content_of([kind, who, offset, words, skip]: [u32; 5]) -> Content {
    match kind {
        0 => Content::CannotUnwind,
        1 => Content::Compact { selector: who, span: Span { offset, words, skip } },
        _ => Content::Table(who),
    }
}

pub fn index_entry(index: Section, number: u32) -> Answer<IndexEntry> {
    let mut row = [0; 6];
    let told = unsafe { raw::anrukfal_index_entry(index.bytes.as_ptr(), index.bytes.len(), index.address, number, &mut row) };
    let [function, content @ ..] = row;
    answer(told, || IndexEntry { function, content: content_of(content) })
}

pub fn table_entry(table: Section, offset: u32) -> Answer<TableEntry> {
    let mut row = [0; 6];
    let told = unsafe { raw::anrukfal_table_entry(table.bytes.as_ptr(), table.bytes.len(), table.address, offset, &mut row) };
    let [kind, who, offset, words, skip, language] = row;
    answer(told, || TableEntry {
        personality: if kind == 2 { Personality::Compact(who) } else { Personality::Generic(who) },
        span: Span { offset, words, skip },
        language,
    })
}

fn site([start, end, pad, has_action, action]: [u32; 5]) -> CallSite {
    CallSite { start, end, pad: (pad != 0).then_some(pad), action: (has_action != 0).then_some(action) }
}

/// The first call site that covers a counter.
pub fn call_site(data: &[u8], function: u32, counter: u32) -> Answer<CallSite> {
    let mut row = [0; 5];
    let number = unsafe { raw::anrukfal_call_site(data.as_ptr(), data.len(), function, counter, &mut row) };
    answer(number, || site(row))
}

pub fn bundle(bytes: &[u8]) -> Answer<Bundle> {
    let mut row = [0; 6];
    let number = unsafe { raw::anrukfal_bundle(bytes.as_ptr(), bytes.len(), &mut row) };
    let [index_address, table_address, index_offset, index_bytes, table_offset, table_bytes] = row;
    answer(number, || Bundle { index_address, table_address, index_offset, index_bytes, table_offset, table_bytes })
}

pub fn search(index: Section, counter: u32) -> Answer<Found> {
    let mut row = [0; 2];
    let number = unsafe { raw::anrukfal_search(index.bytes.as_ptr(), index.bytes.len(), index.address, counter, &mut row) };
    answer(number, || Found { entry: row[0], read: row[1] })
}

pub fn lookup(image: &Image, counter: u32) -> Answer<Lookup> {
    let mut row = [0; 9];
    let Image { index, table } = image;
    let number = unsafe {
        raw::anrukfal_lookup(
            index.bytes.as_ptr(),
            index.bytes.len(),
            index.address,
            table.bytes.as_ptr(),
            table.bytes.len(),
            table.address,
            counter,
            &mut row,
        )
    };
    let [entry, function, kind, who, sites @ ..] = row;
    answer(number, || {
        let unwinding = match kind {
            0 => Unwinding::CannotUnwind,
            1 => Unwinding::CompactInIndex(who),
            2 => Unwinding::CompactInTable(who),
            _ => Unwinding::Generic(who, site(sites)),
        };
        Lookup { entry, function, unwinding }
    })
}

/// One frame up. The registers stay as they were at a refusal.
pub fn step(image: &Image, stack: Section, registers: &mut Registers) -> Answer<Stepped> {
    let mut row = [0; 2];
    let Image { index, table } = image;
    let number = unsafe {
        raw::anrukfal_step(
            index.bytes.as_ptr(),
            index.bytes.len(),
            index.address,
            table.bytes.as_ptr(),
            table.bytes.len(),
            table.address,
            stack.bytes.as_ptr(),
            stack.bytes.len(),
            stack.address,
            &mut registers.core,
            &mut registers.vfp,
            &mut row,
        )
    };
    answer(number, || if row[0] == 0 { Stepped::Next(row[1]) } else { Stepped::CannotUnwind })
}

/// Whether every lookup and every step of an image goes well; if not, the first fault.
pub fn audit(image: &Image) -> Result<(), Fault> {
    let mut row = [0; 1];
    let Image { index, table } = image;
    let number = unsafe {
        raw::anrukfal_audit(
            index.bytes.as_ptr(),
            index.bytes.len(),
            index.address,
            table.bytes.as_ptr(),
            table.bytes.len(),
            table.address,
            &mut row,
        )
    };
    answer(number, || ()).map_err(|refusal| Fault { refusal, entry: row[0] })
}
