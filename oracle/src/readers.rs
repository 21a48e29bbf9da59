//! Anrukfal's readers for Rust: the calls of libreaders.a with typed answers.
use crate::anrukfal::{answer, content_of, instruction_of, Answer, Content, Image, Instruction, Section, Span};

/// Where call sites count from, how they are written, and where they stand.
#[derive(Clone, Copy, Debug, PartialEq, Eq)]
pub struct Header {
    pub base: u32,
    pub encoding: u8,
    pub start: u32,
    pub end: u64,
}

/// A call site as it is read: what it covers, and its pad and action as they are written.
#[derive(Clone, Copy, Debug, PartialEq, Eq)]
pub struct Site {
    pub start: u32,
    pub end: u32,
    pub pad: u32,
    pub action: u32,
}

/// What an entry leads to.
#[derive(Clone, Copy, Debug, PartialEq, Eq)]
pub enum Leads {
    CannotUnwind,
    CompactInIndex(u32, Span),
    CompactInTable(u32, Span),
    /// The personality's address, and the offset of the language data.
    Generic(u32, Span, u32),
}

#[derive(Clone, Copy, Debug, PartialEq, Eq)]
pub struct Entry {
    pub function: u32,
    pub leads: Leads,
}

/// What a walk got, and the position after it.
pub type Walked<T> = (Option<T>, u32);

/// The C calls as they are. A row is filled, all zero at a refusal.
pub mod raw {
    extern "C" {
        pub fn anrukfal_sections(
            index: *const u8,
            index_len: usize,
            index_address: u32,
            table: *const u8,
            table_len: usize,
            table_address: u32,
        ) -> u32;
        pub fn anrukfal_offset(section: u32, len: usize, address: u32, row: *mut [u32; 1]) -> u32;
        pub fn anrukfal_plus(a: u32, by: u32, row: *mut [u32; 1]) -> u32;
        pub fn anrukfal_word(bytes: *const u8, len: usize, at: u32, row: *mut [u32; 1]) -> u32;
        pub fn anrukfal_language(table: *const u8, len: usize, table_address: u32, offset: u32, at: usize, row: *mut [u64; 2]) -> u32;
        pub fn anrukfal_byte(words: *const u8, len: usize, at: u32, row: *mut [u32; 2]) -> u32;
        pub fn anrukfal_function(index: *const u8, len: usize, index_address: u32, number: u32, row: *mut [u32; 1]) -> u32;
        pub fn anrukfal_content(index: *const u8, len: usize, index_address: u32, number: u32, row: *mut [u32; 5]) -> u32;
        pub fn anrukfal_header(data: *const u8, len: usize, function: u32, row: *mut [u64; 4]) -> u32;
        pub fn anrukfal_site(
            data: *const u8,
            len: usize,
            base: u32,
            encoding: u8,
            start: u32,
            end: u64,
            at: u32,
            row: *mut [u32; 6],
        ) -> u32;
        pub fn anrukfal_entry(
            index: *const u8,
            index_len: usize,
            index_address: u32,
            table: *const u8,
            table_len: usize,
            table_address: u32,
            number: u32,
            row: *mut [u32; 7],
        ) -> u32;
        pub fn anrukfal_walk_byte(bytes: *const u8, len: usize, skip: u32, pos: u32, row: *mut [u32; 3]) -> u32;
        pub fn anrukfal_walk_instruction(bytes: *const u8, len: usize, skip: u32, pos: u32, row: *mut [u32; 4]) -> u32;
    }
}

// Each call below lends whole slices and rows of the length that the library states, so the calls are sound.

pub fn sections(image: &Image) -> Answer<()> {
    let Image { index, table } = image;
    let (a, b) = (index.bytes, table.bytes);
    answer(unsafe { raw::anrukfal_sections(a.as_ptr(), a.len(), index.address, b.as_ptr(), b.len(), table.address) }, || ())
}

/// The offset of an address in a section of `len` bytes.
pub fn offset(section: u32, len: usize, address: u32) -> Answer<u32> {
    let mut row = [0];
    let number = unsafe { raw::anrukfal_offset(section, len, address, &mut row) };
    answer(number, || row[0])
}

pub fn plus(a: u32, by: u32) -> Answer<u32> {
    let mut row = [0];
    let number = unsafe { raw::anrukfal_plus(a, by, &mut row) };
    answer(number, || row[0])
}

pub fn word(bytes: &[u8], at: u32) -> Answer<u32> {
    let mut row = [0];
    let number = unsafe { raw::anrukfal_word(bytes.as_ptr(), bytes.len(), at, &mut row) };
    answer(number, || row[0])
}

/// How many bytes the language data of the entry at an offset has, and the one at a position, 0 past its end. A refusal has none.
pub fn language(table: Section, offset: u32, at: usize) -> (u32, [u64; 2]) {
    let mut row = [1; 2];
    let number = unsafe { raw::anrukfal_language(table.bytes.as_ptr(), table.bytes.len(), table.address, offset, at, &mut row) };
    (number, row)
}

/// The instruction byte at a position; none at the end.
pub fn byte(words: &[u8], at: u32) -> Answer<Option<u8>> {
    let mut row = [0; 2];
    let number = unsafe { raw::anrukfal_byte(words.as_ptr(), words.len(), at, &mut row) };
    answer(number, || (row[0] != 0).then_some(row[1] as u8))
}

pub fn function(index: Section, number: u32) -> Answer<u32> {
    let mut row = [0];
    let told = unsafe { raw::anrukfal_function(index.bytes.as_ptr(), index.bytes.len(), index.address, number, &mut row) };
    answer(told, || row[0])
}

pub fn content(index: Section, number: u32) -> Answer<Content> {
    let mut row = [0; 5];
    let told = unsafe { raw::anrukfal_content(index.bytes.as_ptr(), index.bytes.len(), index.address, number, &mut row) };
    answer(told, || content_of(row))
}

pub fn header(data: &[u8], function: u32) -> Answer<Header> {
    let mut row = [0; 4];
    let number = unsafe { raw::anrukfal_header(data.as_ptr(), data.len(), function, &mut row) };
    let [base, encoding, start, end] = row;
    answer(number, || Header { base: base as u32, encoding: encoding as u8, start: start as u32, end })
}

/// The call site at a position and the position after it; none at the table's end.
pub fn site(data: &[u8], h: &Header, at: u32) -> Answer<Option<(Site, u32)>> {
    let mut row = [0; 6];
    let number = unsafe { raw::anrukfal_site(data.as_ptr(), data.len(), h.base, h.encoding, h.start, h.end, at, &mut row) };
    let [there, start, end, pad, action, next] = row;
    answer(number, || (there != 0).then_some((Site { start, end, pad, action }, next)))
}

pub fn entry(image: &Image, number: u32) -> Answer<Entry> {
    let mut row = [0; 7];
    let Image { index, table } = image;
    let (a, b) = (index.bytes, table.bytes);
    let told = unsafe {
        raw::anrukfal_entry(a.as_ptr(), a.len(), index.address, b.as_ptr(), b.len(), table.address, number, &mut row)
    };
    let [function, kind, who, offset, words, skip, language] = row;
    let span = Span { offset, words, skip };
    answer(told, || {
        let leads = match kind {
            0 => Leads::CannotUnwind,
            1 => Leads::CompactInIndex(who, span),
            2 => Leads::CompactInTable(who, span),
            _ => Leads::Generic(who, span, language),
        };
        Entry { function, leads }
    })
}

/// The byte at a position of a walk that starts at a skip.
pub fn walk_byte(bytes: &[u8], skip: u32, pos: u32) -> Answer<Walked<u8>> {
    let mut row = [0; 3];
    let number = unsafe { raw::anrukfal_walk_byte(bytes.as_ptr(), bytes.len(), skip, pos, &mut row) };
    let [there, byte, next] = row;
    answer(number, || ((there != 0).then_some(byte as u8), next))
}

/// The instruction at a position of such a walk.
pub fn walk_instruction(bytes: &[u8], skip: u32, pos: u32) -> Answer<Walked<Instruction>> {
    let mut row = [0; 4];
    let number = unsafe { raw::anrukfal_walk_instruction(bytes.as_ptr(), bytes.len(), skip, pos, &mut row) };
    answer(number, || (instruction_of(row).map(|(is, _)| is), row[3]))
}
