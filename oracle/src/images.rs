//! Images: an index, a table and a stack, with registers that meet them.
use crate::anrukfal::{Image, Registers, Section};
use crate::cases;
use crate::random::Random;

/// Bytes of a section and its address.
#[derive(Clone, Default)]
pub struct Held {
    pub bytes: Vec<u8>,
    pub address: u32,
}

impl Held {
    pub fn section(&self) -> Section<'_> {
        Section { bytes: &self.bytes, address: self.address }
    }
}

#[derive(Clone, Default)]
pub struct Made {
    pub index: Held,
    pub table: Held,
    pub stack: Held,
    /// The functions, and some addresses at edges of call sites.
    pub functions: Vec<u32>,
}

impl Made {
    pub fn image(&self) -> Image<'_> {
        Image { index: self.index.section(), table: self.table.section() }
    }
}

/// An instruction list with no fault, of so many bytes.
pub fn good_list(r: &mut Random, n: usize) -> Vec<u8> {
    let mut out = Vec::new();
    while out.len() < n {
        let left = n - out.len();
        match r.below(10) {
            0..=2 => out.push(r.byte() & 0x7F),
            3 if left > 1 && r.once_in(6) => out.extend([0x80, 0x00]),
            3 if left > 1 => out.extend([0x80 | r.byte() & 0xF, 1 | r.byte()]),
            4 => out.push(0x90 | r.one_of(&[0, 4, 7, 11, 12, 14])),
            5 | 6 => out.push(0xA0 | r.byte() & 0xF),
            7 if left > 1 => out.extend([0xB1, 1 + r.below(15) as u8]),
            8 if left > 2 => out.extend([0xB2, 0x80 | r.byte(), r.byte() & 0x7F]),
            9 if left > 1 && r.once_in(2) => out.extend([0xC9, r.byte() & 0x77]),
            9 if left > 1 => out.extend([0xC8, (r.byte() & 0x70) | r.below(8) as u8]),
            _ => out.push(if r.once_in(3) { 0xB0 } else { r.byte() & 0x3F }),
        }
    }
    out
}

/// An instruction list as compilers write it: sp from a frame register or a data pop, VFP and register pops, then Finish up to so many bytes.
pub fn usual_list(r: &mut Random, n: usize) -> Vec<u8> {
    let mut out = Vec::new();
    match r.below(8) {
        0 | 1 => out.push(r.one_of(&[0x97, 0x9B])),
        2..=5 => out.push(r.below(12) as u8),
        6 => out.extend([0xB2, r.byte() & 0x7F]),
        _ => {}
    }
    if r.once_in(8) {
        out.extend([0xC9, 0x80 | r.below(8) as u8]);
    }
    match r.below(4) {
        0 => out.extend([0x84 | r.byte() & 0xB, r.byte()]),
        _ => out.push(0xA8 | r.byte() & 7),
    }
    out.resize(n.max(out.len()), 0xB0);
    out
}

/// Language data with no fault; its call sites lie below `room` bytes of the function. The usual one has ULEBs with no padding.
pub fn good_language(r: &mut Random, sites: usize, room: usize, usual: bool) -> Vec<u8> {
    let mut out = vec![0xFF];
    if r.once_in(3) {
        out.push(r.one_of(&[0x00, 0x10, 0x90]));
        cases::uleb(&mut out, r.below(300) as u64, 1);
    } else {
        out.push(0xFF);
    }
    let encoding = if !usual && r.once_in(4) { r.one_of(&cases::ENCODINGS[..9]) } else { 0x01 };
    let mut table = Vec::new();
    let mut start = 0;
    for _ in 0..sites {
        let length = r.below(room / (sites + 1) + 1) as u64;
        let padding = if !usual && r.once_in(8) { 1 + r.below(5) } else { 1 };
        cases::padded(&mut table, encoding, start, padding);
        cases::padded(&mut table, encoding, length, padding);
        let pad = if r.once_in(2) { 0 } else { r.below(room) as u64 };
        cases::padded(&mut table, encoding, pad, 1);
        cases::uleb(&mut table, if r.once_in(3) { r.below(200) as u64 } else { 0 }, 1);
        start += length + r.below(3) as u64;
    }
    out.push(encoding);
    cases::uleb(&mut out, table.len() as u64, 1);
    out.extend(table);
    out
}

/// A table entry with no fault.
pub fn good_entry(r: &mut Random, sites: usize, room: usize) -> Vec<u8> {
    let more = r.below(3);
    let mut out = Vec::new();
    match r.below(4) {
        0 => {
            out.extend(cases::words(&good_list(r, 3), 1));
            out[3] = 0x80;
        }
        1 => {
            out.extend(cases::words(&good_list(r, 2 + 4 * more), 2));
            out[3] = 0x81 + r.below(2) as u8;
            out[2] = more as u8;
        }
        _ => {
            out.extend((r.word() & 0x7FFF_FFFF).to_le_bytes());
            out.extend(cases::words(&good_list(r, 3 + 4 * more), 1));
            out[7] = more as u8;
            out.extend(good_language(r, sites, room, false));
        }
    }
    out
}

fn distance(from: u32, to: u32) -> [u8; 4] {
    (to.wrapping_sub(from) & 0x7FFF_FFFF).to_le_bytes()
}

/// An image of so many entries, `room` bytes to a function. A wild one has faults here and there.
pub fn image(r: &mut Random, entries: usize, room: usize, wild: bool) -> Made {
    let mut made = Made::default();
    let bytes = 8 * entries as u32;
    made.index.address = match r.below(5) {
        0 => 0u32.wrapping_sub(bytes),
        1 => r.one_of(&[0, 0x1000, 0x3FFF_FFF8, 0x7FFF_FFF0]),
        _ => 0x0801_0000,
    };
    made.table.address = made.index.address.wrapping_add(r.one_of(&[0x4000, 0x2_0000, 0x1_0000u32.wrapping_neg(), 0x2000_0000]));
    let mut function = made.index.address.wrapping_sub(r.one_of(&[0x2_0000, 0x400, 0x2000_0000]));
    for k in 0..entries as u32 {
        made.functions.push(function);
        let at = made.index.address.wrapping_add(8 * k);
        made.index.bytes.extend(distance(at, function));
        match r.below(6) {
            0 => made.index.bytes.extend([1, 0, 0, 0]),
            1 | 2 => {
                let list = if wild && r.once_in(4) { r.bytes(3) } else { good_list(r, 3) };
                let mut word = cases::words(&list, 1);
                word[3] = 0x80 | if r.once_in(3) { r.byte() } else { 0 };
                made.index.bytes.extend(word);
            }
            _ => {
                let place = made.table.address.wrapping_add(made.table.bytes.len() as u32);
                made.index.bytes.extend(distance(at.wrapping_add(4), place));
                let sites = r.below(4);
                let entry = if wild && r.once_in(4) { cases::table_entry(r, function) } else { good_entry(r, sites, room) };
                made.table.bytes.extend(entry);
                made.table.bytes.resize(made.table.bytes.len().next_multiple_of(4), 0);
            }
        }
        function = function.wrapping_add(1 + r.below(room) as u32);
    }
    let top = 0u32.wrapping_sub(made.table.bytes.len() as u32);
    if wild && r.once_in(20) || top != 0 && made.table.address > top {
        made.table.address = top;
    }
    if wild {
        damage(r, &mut made);
    }
    stack(r, &mut made);
    made
}

/// A sound image of so many entries as a linker lays it out; entries share those of the table once it is full.
pub fn sound(r: &mut Random, entries: usize) -> Made {
    let mut made = Made::default();
    made.index.address = 0x0806_0000;
    made.table.address = 0x0805_0000;
    let mut places = Vec::new();
    let mut function = 0x0800_0000;
    for k in 0..entries as u32 {
        made.functions.push(function);
        let at = made.index.address + 8 * k;
        made.index.bytes.extend(distance(at, function));
        match r.below(6) {
            0 => made.index.bytes.extend([1, 0, 0, 0]),
            1 | 2 => {
                let mut word = cases::words(&good_list(r, 3), 1);
                word[3] = 0x80;
                made.index.bytes.extend(word);
            }
            _ => {
                if made.table.bytes.len() < 65_000 {
                    places.push(made.table.address + made.table.bytes.len() as u32);
                    let mut entry = good_entry(r, 3, 32);
                    if entry[3] < 0x80 {
                        let words = 8 + 4 * entry[7] as usize;
                        entry.truncate(words);
                        entry.extend(good_language(r, 3, 32, true));
                    }
                    made.table.bytes.extend(entry);
                    made.table.bytes.resize(made.table.bytes.len().next_multiple_of(4), 0);
                }
                made.index.bytes.extend(distance(at + 4, r.one_of(&places)));
            }
        }
        function += 1 + r.below(40) as u32;
    }
    made.stack.address = 0x2000_0100;
    made.stack.bytes = r.bytes(4096);
    made
}

fn damage(r: &mut Random, made: &mut Made) {
    if r.once_in(3) {
        if !made.index.bytes.is_empty() {
            let at = r.below(made.index.bytes.len());
            made.index.bytes[at] ^= 1 << r.below(8);
        }
    }
    if r.once_in(3) {
        cases::damage(r, &mut made.table.bytes);
    }
    match r.below(40) {
        0 => made.index.bytes.push(0),
        1 => made.index.address = made.index.address.wrapping_add(r.below(16) as u32),
        2 => made.table.address = cases::word(r),
        3 => made.index.address = cases::word(r),
        4 => made.index.bytes.truncate(r.below(20)),
        _ => {}
    }
}

fn stack(r: &mut Random, made: &mut Made) {
    let n = match r.below(4) {
        0 => r.below(40),
        _ => 128 + r.below(300),
    };
    made.stack.bytes = r.bytes(n);
    made.stack.address = match r.below(5) {
        0 => 0u32.wrapping_sub(n as u32),
        1 => r.one_of(&[0, 1, 0x1000]),
        _ => 0x2000_0100,
    };
    if r.once_in(60) {
        made.stack.address = made.stack.address.wrapping_add(r.below(8) as u32);
    }
}

/// A counter in or about the functions.
pub fn counter(r: &mut Random, made: &Made) -> u32 {
    if made.functions.is_empty() || r.once_in(24) {
        return cases::word(r);
    }
    let at = r.one_of(&made.functions);
    at.wrapping_add(match r.below(6) {
        0 => u32::MAX,
        1 | 2 => 0,
        _ => r.below(64) as u32,
    })
}

pub fn registers(r: &mut Random, made: &Made) -> Registers {
    let mut out = Registers { core: [0; 16], vfp: [0; 32] };
    let (start, n) = (made.stack.address, made.stack.bytes.len());
    let near = |r: &mut Random| match r.below(8) {
        0 => start.wrapping_add(n as u32).wrapping_sub(r.below(70) as u32),
        1 => start.wrapping_sub(r.below(5) as u32),
        2 => start.wrapping_add(n as u32),
        3 => cases::word(r),
        _ => start.wrapping_add(r.below(n / 4 + 1) as u32),
    };
    for k in 0..15 {
        out.core[k] = near(r);
    }
    out.core[15] = counter(r, made);
    for v in &mut out.vfp {
        *v = r.next();
    }
    out
}
