//! The library against the plain reading of the paper: every number, every field of every row, every register, and what was lent.
use crate::agree_readers::Readers;
use oracle::anrukfal::{raw, Image, Registers, Section};
use oracle::images::{self, Held, Made};
use oracle::memory::Arena;
use oracle::random::Random;
use oracle::rows::{told, Asked};
use oracle::tally::{hex, number, Tally};
use oracle::{anrukfal, cases, plain};

/// What stands in a row before a call.
const BEFORE: u32 = 0xA5A5_A5A5;

pub fn filled<const N: usize>(call: impl FnOnce(&mut [u32; N]) -> u32) -> (u32, [u32; N]) {
    let mut row = [BEFORE; N];
    let number = call(&mut row);
    (number, row)
}

struct Tallies {
    prel31: Tally,
    pointer: Tally,
    instruction: Tally,
    index: Tally,
    table: Tally,
    site: Tally,
    bundle: Tally,
    search: Tally,
    lookup: Tally,
    step: Tally,
    audit: Tally,
    lent: Tally,
}

pub fn all(images: usize) -> Vec<Tally> {
    let mut t = Tallies::new();
    let mut readers = Readers::new();
    let mut arenas = Arena::more();
    let mut r = Random::seeded(31);
    for _ in 0..images {
        let entries = r.below(21);
        let wild = r.once_in(2);
        let made = images::image(&mut r, entries, 64, wild);
        t.of_image(&mut arenas, &made, &mut r, 1);
    }
    for entries in [8190, 8191, 8192, 8193, 8194, 1000] {
        for _ in 0..4 {
            let mut made = images::image(&mut r, entries, 64, false);
            made.table.bytes.truncate(65_532 + r.below(8));
            t.of_image(&mut arenas, &made, &mut r, 200);
        }
    }
    t.limits(&mut r);
    for _ in 0..images / 4 {
        t.small(&mut r);
        t.of_bundle(&mut r);
    }
    readers.images(images / 10, &mut arenas);
    readers.small(images / 4);
    readers.limits();
    let mut tallies = t.tallies();
    tallies.extend(readers.tallies());
    tallies
}

pub fn show(made: &Image) -> String {
    let one = |s: Section| format!("{} at {:x}", hex(&s.bytes[..s.bytes.len().min(400)]), s.address);
    format!("index {} table {}", one(made.index), one(made.table))
}

/// A section whose bytes end where memory ends.
pub fn lend<'a>(arena: &'a mut Arena, held: &Held) -> Section<'a> {
    Section { bytes: arena.put_last(&held.bytes), address: held.address }
}

pub fn size(image: &Image) -> usize {
    image.index.bytes.len() + image.table.bytes.len()
}

impl Tallies {
    fn new() -> Tallies {
        Tallies {
            prel31: Tally::new("plain prel31"),
            pointer: Tally::new("plain pointers"),
            instruction: Tally::new("plain instructions"),
            index: Tally::new("plain index entries"),
            table: Tally::new("plain table entries"),
            site: Tally::new("plain call sites"),
            bundle: Tally::new("plain bundles"),
            search: Tally::new("plain search"),
            lookup: Tally::new("plain lookup"),
            step: Tally::new("plain step"),
            audit: Tally::new("plain audit"),
            lent: Tally::new("plain lent memory"),
        }
    }

    fn tallies(self) -> Vec<Tally> {
        vec![
            self.prel31, self.pointer, self.instruction, self.index, self.table, self.site, self.bundle, self.search, self.lookup,
            self.step, self.audit, self.lent,
        ]
    }

    fn pointer(&mut self, data: &[u8], at: u32, encoding: u8) {
        let ours = filled(|row| unsafe { raw::anrukfal_pointer(data.as_ptr(), data.len(), at, encoding, row) });
        let paper = plain::pointer(data, at, encoding);
        self.pointer.number(number(&paper));
        self.pointer.same((ours, anrukfal::pointer(data, at, encoding)), (told(paper), paper), data.len(), || {
            format!("{} from {at:x} by {encoding:x}", hex(data))
        });
    }

    fn instruction(&mut self, words: &[u8], at: u32) {
        let ours = filled(|row| unsafe { raw::anrukfal_instruction(words.as_ptr(), words.len(), at, row) });
        let paper = plain::instruction(words, at);
        self.instruction.number(number(&paper));
        let row = told(paper.map(|is| Asked(at, is)));
        self.instruction.same((ours, anrukfal::instruction(words, at)), (row, paper), words.len(), || {
            format!("{} from {at:x}", hex(words))
        });
    }

    fn index_entry(&mut self, index: Section, entry: u32) {
        let Section { bytes, address } = index;
        let ours = filled(|row| unsafe { raw::anrukfal_index_entry(bytes.as_ptr(), bytes.len(), address, entry, row) });
        let paper = plain::index_entry(index, entry);
        self.index.number(number(&paper));
        self.index.same((ours, anrukfal::index_entry(index, entry)), (told(paper), paper), bytes.len(), || {
            format!("entry {entry:x} of {} at {address:x}", hex(bytes))
        });
    }

    fn table_entry(&mut self, table: Section, offset: u32) {
        let Section { bytes, address } = table;
        let ours = filled(|row| unsafe { raw::anrukfal_table_entry(bytes.as_ptr(), bytes.len(), address, offset, row) });
        let paper = plain::table_entry(table, offset);
        self.table.number(number(&paper));
        self.table.same((ours, anrukfal::table_entry(table, offset)), (told(paper), paper), bytes.len(), || {
            format!("offset {offset:x} of {} at {address:x}", hex(bytes))
        });
    }

    fn call_site(&mut self, data: &[u8], function: u32, counter: u32) {
        let ours = filled(|row| unsafe { raw::anrukfal_call_site(data.as_ptr(), data.len(), function, counter, row) });
        let paper = plain::call_site(data, function, counter);
        self.site.number(number(&paper));
        self.site.same((ours, anrukfal::call_site(data, function, counter)), (told(paper), paper), data.len(), || {
            format!("function {function:x} counter {counter:x} data {}", hex(data))
        });
    }

    fn bundle(&mut self, bytes: &[u8]) {
        let ours = filled(|row| unsafe { raw::anrukfal_bundle(bytes.as_ptr(), bytes.len(), row) });
        let paper = plain::bundle(bytes);
        self.bundle.number(number(&paper));
        self.bundle.same((ours, anrukfal::bundle(bytes)), (told(paper), paper), bytes.len(), || hex(&bytes[..bytes.len().min(400)]));
    }

    fn search(&mut self, image: &Image, counter: u32) {
        let Section { bytes, address } = image.index;
        let ours = filled(|row| unsafe { raw::anrukfal_search(bytes.as_ptr(), bytes.len(), address, counter, row) });
        let paper = plain::search(image.index, counter);
        self.search.number(number(&paper));
        self.search.same((ours, anrukfal::search(image.index, counter)), (told(paper), paper), bytes.len(), || {
            format!("counter {counter:x} {}", show(image))
        });
    }

    fn lookup(&mut self, image: &Image, counter: u32) {
        let Image { index, table } = *image;
        let ours = filled(|row| unsafe {
            let (a, b) = (index.bytes, table.bytes);
            raw::anrukfal_lookup(a.as_ptr(), a.len(), index.address, b.as_ptr(), b.len(), table.address, counter, row)
        });
        let paper = plain::lookup(image, counter);
        self.lookup.number(number(&paper));
        self.lookup.same((ours, anrukfal::lookup(image, counter)), (told(paper), paper), size(image), || {
            format!("counter {counter:x} {}", show(image))
        });
    }

    fn step(&mut self, image: &Image, stack: Section, before: &Registers) {
        let Image { index, table } = *image;
        let (mut ours, mut typed, mut paper) = (*before, *before, *before);
        let row = filled(|row| unsafe {
            raw::anrukfal_step(
                index.bytes.as_ptr(),
                index.bytes.len(),
                index.address,
                table.bytes.as_ptr(),
                table.bytes.len(),
                table.address,
                stack.bytes.as_ptr(),
                stack.bytes.len(),
                stack.address,
                &mut ours.core,
                &mut ours.vfp,
                row,
            )
        });
        let told_typed = anrukfal::step(image, stack, &mut typed);
        let told_paper = plain::step(image, stack, &mut paper);
        self.step.number(number(&told_paper));
        self.step.same((row, ours, told_typed, typed), (told(told_paper), paper, told_paper, paper), size(image) + stack.bytes.len(), || {
            format!("{before:x?} stack {} at {:x} {}", hex(stack.bytes), stack.address, show(image))
        });
    }

    fn audit(&mut self, image: &Image) {
        let Image { index, table } = *image;
        let ours = filled(|row: &mut [u32; 1]| unsafe {
            let (a, b) = (index.bytes, table.bytes);
            raw::anrukfal_audit(a.as_ptr(), a.len(), index.address, b.as_ptr(), b.len(), table.address, row)
        });
        let paper = plain::audit(image);
        let row = paper.map_or_else(|fault| (fault.refusal.number(), [fault.entry]), |()| (0, [0]));
        self.audit.number(row.0);
        self.audit.same((ours, anrukfal::audit(image)), (row, paper), size(image), || show(image));
    }

    /// Every call on an image whose sections end where memory ends.
    fn of_image(&mut self, arenas: &mut [Arena], made: &Made, r: &mut Random, times: usize) {
        let [a, b, c, ..] = arenas else { unreachable!() };
        let (index, table, stack) = (lend(a, &made.index), lend(b, &made.table), lend(c, &made.stack));
        let image = Image { index, table };
        let entries = index.bytes.len() as u32 / 8;
        for _ in 0..4 * times {
            self.search(&image, images::counter(r, made));
            self.lookup(&image, images::counter(r, made));
            self.step(&image, stack, &images::registers(r, made));
        }
        for _ in 0..2 * times {
            self.lookup(&image, images::counter(r, made));
            self.index_entry(index, r.below(entries as usize + 2) as u32);
            let offset = r.below(table.bytes.len() + 6) as u32;
            self.table_entry(table, if r.once_in(4) { offset } else { offset / 4 * 4 });
            let at = r.below(table.bytes.len() + 1);
            self.call_site(&table.bytes[at..], images::counter(r, made), images::counter(r, made));
        }
        self.audit(&image);
        let same = index.bytes == made.index.bytes && table.bytes == made.table.bytes && stack.bytes == made.stack.bytes;
        self.lent.value(same, true, size(&image), || show(&image));
    }

    /// Calls that take no image.
    fn small(&mut self, r: &mut Random) {
        let (word, place) = (cases::word(r), cases::word(r));
        self.prel31.value(anrukfal::prel31(word, place), plain::prel31(word, place), 8, || format!("{word:x} at {place:x}"));
        let encoding = if r.once_in(8) { r.byte() } else { r.one_of(&cases::ENCODINGS) };
        let data = cases::pointer_bytes(r, encoding);
        let at = if r.once_in(8) { cases::word(r) } else { r.below(2) as u32 };
        self.pointer(&data, at, encoding);
        let bytes = cases::instruction_bytes(r, 24);
        let mut words = cases::words(&bytes, 0);
        if r.once_in(16) {
            words.push(0);
        }
        let at = if r.once_in(8) { cases::word(r) } else { r.below(words.len() + 2) as u32 };
        self.instruction(&words, at);
        let function = if r.once_in(3) { cases::word(r) } else { 0x0800_1000 };
        let mut data = cases::language(r, function);
        if r.once_in(3) {
            cases::damage(r, &mut data);
        }
        self.call_site(&data, function, function.wrapping_add(r.below(64) as u32));
    }

    fn of_bundle(&mut self, r: &mut Random) {
        let (entries, words) = (r.below(6) as u32, r.below(12) as u32);
        let mut bytes = Vec::new();
        let top = |n: u32| 0u32.wrapping_sub(n);
        let index = r.one_of(&[0x0801_0000, top(8 * entries), top(8 * entries).wrapping_add(1), 0]);
        let table = r.one_of(&[0x0802_0000, top(4 * words), top(4 * words).wrapping_add(1), 0]);
        let odd = |r: &mut Random, n: u32, most: u32| if r.once_in(12) { r.one_of(&[n + 1, n.wrapping_sub(1), most, most + 1, u32::MAX]) } else { n };
        for word in [odd(r, 2, 1), index, table, odd(r, entries, 8192)] {
            bytes.extend(word.to_le_bytes());
        }
        bytes.extend(r.bytes(8 * entries as usize));
        bytes.extend(odd(r, words, 16_384).to_le_bytes());
        bytes.extend(r.bytes(4 * words as usize));
        match r.below(8) {
            0 => bytes.truncate(r.below(bytes.len() + 1)),
            1 => bytes.push(0),
            2 => cases::damage(r, &mut bytes),
            _ => {}
        }
        self.bundle(&bytes);
    }

    /// Lengths and addresses about the limits.
    fn limits(&mut self, r: &mut Random) {
        for n in [65_520usize, 65_528, 65_532, 65_535, 65_536, 65_537, 65_540, 65_544, 131_072] {
            let data = vec![0u8; n];
            for encoding in [0x00, 0x01, 0xFF, 0x10] {
                for at in [0, n as u32 - 1, n as u32, u32::MAX] {
                    self.pointer(&data, at, encoding);
                }
            }
            for at in [0, n as u32 - 1, n as u32, u32::MAX] {
                self.instruction(&data, at);
            }
            self.call_site(&data, 0, 0);
            for address in [0, 0u32.wrapping_sub(n as u32), 0u32.wrapping_sub(n as u32) + 1, u32::MAX] {
                let long = Section { bytes: &data, address };
                let short = Section { bytes: &data[..16], address: 0x1000 };
                let odd = Section { bytes: &data[..15], address: 0x1000 };
                self.index_entry(long, n as u32 / 8 - 1);
                self.index_entry(long, n as u32 / 8);
                self.table_entry(long, n as u32 / 4 * 4);
                self.table_entry(long, (n as u32 - 8) / 4 * 4);
                self.table_entry(long, u32::MAX - 3);
                for (index, table, stack) in [(long, short, short), (short, long, short), (short, short, long), (odd, long, long), (long, long, long)] {
                    let image = Image { index, table };
                    let registers = Registers { core: [r.word(); 16], vfp: [r.next(); 32] };
                    self.search(&image, r.word());
                    self.lookup(&image, r.word());
                    self.step(&image, stack, &registers);
                    self.audit(&image);
                }
            }
        }
        for words in [16_383u32, 16_384] {
            for entries in [8191u32, 8192] {
                let mut bytes = Vec::new();
                for word in [2, 0x0801_0000, 0x0810_0000, entries] {
                    bytes.extend(u32::to_le_bytes(word));
                }
                bytes.extend(r.bytes(8 * entries as usize));
                bytes.extend(words.to_le_bytes());
                bytes.extend(r.bytes(4 * words as usize));
                self.bundle(&bytes);
                bytes.push(0);
                self.bundle(&bytes);
            }
        }
    }
}
