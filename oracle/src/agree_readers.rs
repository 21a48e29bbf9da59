//! The readers against the plain reading of the paper: every number and every field of every row.
use crate::agree::{filled, lend, show, size};
use oracle::anrukfal::{Answer, Image, Section};
use oracle::images;
use oracle::memory::Arena;
use oracle::random::Random;
use oracle::readers::{self, raw, Header};
use oracle::rows::{told, Row};
use oracle::tally::{hex, number, Tally};
use oracle::{cases, plain};
use std::fmt::Debug;

pub struct Readers {
    sections: Tally,
    offset: Tally,
    plus: Tally,
    word: Tally,
    byte: Tally,
    walk_byte: Tally,
    walk_instruction: Tally,
    function: Tally,
    content: Tally,
    entry: Tally,
    header: Tally,
    site: Tally,
    r: Random,
}

/// A call's row and its typed answer, both held to the paper's.
fn held<const N: usize, T: Row<N> + PartialEq + Debug + Copy>(
    t: &mut Tally,
    call: impl FnOnce(&mut [u32; N]) -> u32,
    typed: Answer<T>,
    paper: Answer<T>,
    size: usize,
    input: impl FnOnce() -> String,
) {
    t.number(number(&paper));
    t.same((filled(call), typed), (told(paper), paper), size, input);
}

impl Readers {
    pub fn new() -> Readers {
        let new = Tally::new;
        Readers {
            sections: new("plain sections"),
            offset: new("plain offsets"),
            plus: new("plain sums"),
            word: new("plain words"),
            byte: new("plain bytes"),
            walk_byte: new("plain walker bytes"),
            walk_instruction: new("plain walker instructions"),
            function: new("plain functions"),
            content: new("plain contents"),
            entry: new("plain entries"),
            header: new("plain headers"),
            site: new("plain sites"),
            r: Random::seeded(32),
        }
    }

    pub fn tallies(self) -> Vec<Tally> {
        vec![
            self.sections, self.offset, self.plus, self.word, self.byte, self.walk_byte, self.walk_instruction, self.function,
            self.content, self.entry, self.header, self.site,
        ]
    }

    fn numbers(&mut self, section: u32, len: usize, a: u32) {
        let by = cases::word(&mut self.r);
        let show = || format!("{section:x} {len:x} {a:x} {by:x}");
        let row = |row: &mut _| unsafe { raw::anrukfal_offset(section, len, a, row) };
        held(&mut self.offset, row, readers::offset(section, len, a), plain::offset(section, len, a), 8, show);
        let row = |row: &mut _| unsafe { raw::anrukfal_plus(a, by, row) };
        held(&mut self.plus, row, readers::plus(a, by), plain::plus(a, by), 8, show);
    }

    fn words(&mut self, words: &[u8], skip: u32, at: u32) {
        let (n, size) = (words.as_ptr(), words.len());
        let show = || format!("{} from {at:x} after {skip}", hex(&words[..size.min(400)]));
        let row = |row: &mut _| unsafe { raw::anrukfal_word(n, size, at, row) };
        held(&mut self.word, row, readers::word(words, at), plain::word(words, at as usize), size, show);
        let row = |row: &mut _| unsafe { raw::anrukfal_byte(n, size, at, row) };
        held(&mut self.byte, row, readers::byte(words, at), plain::byte(words, at), size, show);
        let row = |row: &mut _| unsafe { raw::anrukfal_walk_byte(n, size, skip, at, row) };
        held(&mut self.walk_byte, row, readers::walk_byte(words, skip, at), plain::walk_byte(words, skip, at), size, show);
        let row = |row: &mut _| unsafe { raw::anrukfal_walk_instruction(n, size, skip, at, row) };
        let (typed, paper) = (readers::walk_instruction(words, skip, at), plain::walk_instruction(words, skip, at));
        held(&mut self.walk_instruction, row, typed, paper, size, show);
    }

    fn entries(&mut self, image: &Image, entry: u32) {
        let Image { index, table } = *image;
        let (a, b) = (index.bytes, table.bytes);
        let input = || format!("entry {entry:x} {}", show(image));
        let told = unsafe { raw::anrukfal_sections(a.as_ptr(), a.len(), index.address, b.as_ptr(), b.len(), table.address) };
        let paper = plain::sections(image);
        self.sections.number(number(&paper));
        self.sections.same((told, readers::sections(image)), (number(&paper), paper), size(image), input);
        let row = |row: &mut _| unsafe { raw::anrukfal_function(a.as_ptr(), a.len(), index.address, entry, row) };
        held(&mut self.function, row, readers::function(index, entry), plain::function(index, entry), size(image), input);
        let row = |row: &mut _| unsafe { raw::anrukfal_content(a.as_ptr(), a.len(), index.address, entry, row) };
        held(&mut self.content, row, readers::content(index, entry), plain::content(index, entry), size(image), input);
        let row = |row: &mut _| unsafe {
            raw::anrukfal_entry(a.as_ptr(), a.len(), index.address, b.as_ptr(), b.len(), table.address, entry, row)
        };
        held(&mut self.entry, row, readers::entry(image, entry), plain::entry(image, entry), size(image), input);
    }

    fn header(&mut self, data: &[u8], function: u32) -> Option<Header> {
        let mut row = [0xA5A5_A5A5_A5A5_A5A5; 4];
        let told = unsafe { raw::anrukfal_header(data.as_ptr(), data.len(), function, &mut row) };
        let paper = plain::header(data, function);
        let wanted = paper.map_or([0; 4], |h| [h.base as u64, h.encoding as u64, h.start as u64, h.end]);
        self.header.number(number(&paper));
        let ours = (told, row, readers::header(data, function));
        self.header.same(ours, (number(&paper), wanted, paper), data.len(), || {
            format!("function {function:x} data {}", hex(&data[..data.len().min(400)]))
        });
        paper.ok()
    }

    fn site(&mut self, data: &[u8], h: &Header, at: u32) {
        let row = |row: &mut _| unsafe {
            raw::anrukfal_site(data.as_ptr(), data.len(), h.base, h.encoding, h.start, h.end, at, row)
        };
        held(&mut self.site, row, readers::site(data, h, at), plain::site(data, h, at), data.len(), || {
            format!("{h:x?} at {at:x} of {}", hex(&data[..data.len().min(400)]))
        });
    }

    /// Every entry of images whose sections end where memory ends, and one past them.
    pub fn images(&mut self, images: usize, arenas: &mut [Arena]) {
        let [a, b, ..] = arenas else { unreachable!() };
        for _ in 0..images {
            let n = self.r.below(12);
            let wild = self.r.once_in(2);
            let made = images::image(&mut self.r, n, 64, wild);
            let image = Image { index: lend(a, &made.index), table: lend(b, &made.table) };
            for entry in 0..=n as u32 {
                self.entries(&image, entry);
            }
            let counter = images::counter(&mut self.r, &made);
            self.numbers(image.table.address, image.table.bytes.len(), counter);
        }
    }

    pub fn small(&mut self, rounds: usize) {
        for _ in 0..rounds {
            let (section, a) = (cases::word(&mut self.r), cases::word(&mut self.r));
            let len = self.r.below(65_540);
            self.numbers(section, len, a);
            let inside = section.wrapping_add(self.r.below(len + 2) as u32);
            self.numbers(section, len, inside);
            let bytes = cases::instruction_bytes(&mut self.r, 24);
            let mut words = cases::words(&bytes, 0);
            if self.r.once_in(8) {
                words.push(0);
            }
            let at = if self.r.once_in(8) { cases::word(&mut self.r) } else { self.r.below(words.len() + 2) as u32 };
            let skip = self.r.below(4) as u32;
            self.words(&words, skip, at);
            self.language();
        }
    }

    fn language(&mut self) {
        let function = if self.r.once_in(3) { cases::word(&mut self.r) } else { 0x0800_1000 };
        let mut data = cases::language(&mut self.r, function);
        if self.r.once_in(3) {
            cases::damage(&mut self.r, &mut data);
        }
        let Some(h) = self.header(&data, function) else { return };
        let at = if self.r.once_in(8) { cases::word(&mut self.r) } else { self.r.below(data.len() + 2) as u32 };
        self.site(&data, &h, h.start);
        self.site(&data, &h, at);
    }

    /// Lengths about the limits.
    pub fn limits(&mut self) {
        for n in [65_528usize, 65_532, 65_535, 65_536, 65_537, 65_540, 65_544, 131_072] {
            let data = vec![0u8; n];
            for at in [0, n as u32 - 4, n as u32 - 3, n as u32 - 1, n as u32, u32::MAX] {
                for skip in [0, 2, 3, u32::MAX] {
                    self.words(&data, skip, at);
                }
                let h = Header { base: 0, encoding: 1, start: 0, end: n as u64 };
                self.site(&data, &h, at);
            }
            self.header(&data, 0);
            for address in [0, 0u32.wrapping_sub(n as u32), 0u32.wrapping_sub(n as u32) + 1, u32::MAX] {
                let long = Section { bytes: &data, address };
                let short = Section { bytes: &data[..16], address: 0x1000 };
                for (index, table) in [(long, short), (short, long), (long, long)] {
                    let image = Image { index, table };
                    for entry in [0, n as u32 / 8 - 1, n as u32 / 8, u32::MAX] {
                        self.entries(&image, entry);
                    }
                }
                self.numbers(address, n, address.wrapping_add(n as u32 - 1));
                self.numbers(address, n, address.wrapping_add(n as u32));
            }
        }
    }
}
