//! Inputs: mostly good ones, with edges, and damage.
use crate::random::Random;

pub const EDGES: [u32; 20] = [
    0, 1, 2, 3, 4, 0x1000, 0x0800_1000, 0x3FFF_FFFF, 0x4000_0000, 0x4000_0001, 0x7FFF_FFFC, 0x7FFF_FFFF, 0x8000_0000, 0x8000_0001,
    0x80B0_B0B0, 0xBFFF_FFFF, 0xC000_0000, 0xFFFF_0000, 0xFFFF_FFF0, 0xFFFF_FFFF,
];
pub const ENCODINGS: [u8; 10] = [0x00, 0x01, 0x02, 0x03, 0x04, 0x09, 0x0A, 0x0B, 0x0C, 0xFF];

/// A number at an edge, near one, a power of two, or any.
pub fn word(r: &mut Random) -> u32 {
    match r.below(4) {
        0 => r.one_of(&EDGES),
        1 => r.one_of(&EDGES).wrapping_add(r.below(9) as u32).wrapping_sub(4),
        2 => 1 << r.below(32),
        _ => r.word(),
    }
}

/// The bytes of a LEB, with padding up to a length.
pub fn uleb(out: &mut Vec<u8>, mut value: u64, length: usize) {
    let mut k = 1;
    while value >= 0x80 || k < length {
        out.push(value as u8 | 0x80);
        value >>= 7;
        k += 1;
    }
    out.push(value as u8);
}

pub fn sleb(out: &mut Vec<u8>, mut value: i64, length: usize) {
    let mut k = 1;
    while !(-0x40..0x40).contains(&value) || k < length {
        out.push(value as u8 | 0x80);
        value >>= 7;
        k += 1;
    }
    out.push(value as u8 & 0x7F);
}

fn padding(r: &mut Random) -> usize {
    if r.once_in(8) {
        1 + r.below(7)
    } else {
        1
    }
}

/// A pointer; a LEB has padding up to a length.
pub fn padded(out: &mut Vec<u8>, encoding: u8, value: u64, length: usize) {
    match encoding {
        0x00 | 0x04 | 0x0C => out.extend(value.to_le_bytes()),
        0x01 => uleb(out, value, length),
        0x02 | 0x0A => out.extend((value as u16).to_le_bytes()),
        0x03 | 0x0B => out.extend((value as u32).to_le_bytes()),
        0x09 => sleb(out, value as i64, length),
        _ => {}
    }
}

pub fn pointer(r: &mut Random, out: &mut Vec<u8>, encoding: u8, value: u64) {
    padded(out, encoding, value, padding(r));
}

/// Bytes that are likely to be a pointer of some encoding, with something after them at times.
pub fn pointer_bytes(r: &mut Random, encoding: u8) -> Vec<u8> {
    let mut out = Vec::new();
    let value = match r.below(4) {
        0 => word(r) as u64,
        1 => word(r) as i32 as i64 as u64,
        2 => (word(r) as u64) << r.below(8) | r.below(4) as u64,
        _ => r.next() >> r.below(64),
    };
    if r.once_in(4) {
        let n = r.below(12);
        let mut bytes = r.bytes(n);
        bytes.iter_mut().for_each(|b| *b |= if n % 2 == 0 { 0x80 } else { 0 });
        out.extend(bytes);
    } else {
        pointer(r, &mut out, encoding, value);
    }
    if r.once_in(3) {
        out.extend([0, 0x7F, 0x80].iter().take(r.below(4)));
    }
    out
}

/// Instruction bytes in their order.
pub fn instruction_bytes(r: &mut Random, most: usize) -> Vec<u8> {
    let mut out = Vec::new();
    let n = r.below(most + 1);
    while out.len() < n {
        match r.below(12) {
            0..=2 => out.push(r.byte() & 0x7F),
            3 if r.once_in(6) => out.extend([0x80, 0x00]),
            3 => out.extend([0x80 | r.byte() & 0xF, r.byte()]),
            4 => out.push(0x90 | r.byte() & 0xF),
            5 | 6 => out.push(0xA0 | r.byte() & 0xF),
            7 => out.extend([0xB1, r.byte() & if r.once_in(4) { 0xFF } else { 0xF }]),
            8 => {
                out.push(0xB2);
                let value = if r.once_in(2) { r.next() >> (28 + r.below(36)) } else { 0x3FFF_FF7E + r.below(3) as u64 };
                uleb(&mut out, value, padding(r));
            }
            9 => out.extend([0xC8 | r.byte() & 1, r.byte()]),
            10 => out.push(if r.once_in(4) { 0xB0 } else { r.byte() & 0x3F }),
            _ => out.push(r.byte()),
        }
    }
    out.truncate(n);
    out
}

/// Words that hold these bytes in the order of instructions, from a position on.
pub fn words(bytes: &[u8], skip: usize) -> Vec<u8> {
    let mut out = vec![0; (skip + bytes.len()).div_ceil(4) * 4];
    let skip = out.len() - bytes.len();
    for (k, b) in bytes.iter().enumerate() {
        out[(skip + k) / 4 * 4 + 3 - (skip + k) % 4] = *b;
    }
    out
}

/// A start, a length or a pad, beside a base.
fn offset(r: &mut Random, base: u32) -> u64 {
    match r.below(24) {
        0 => (u32::MAX - base) as u64 + r.below(4) as u64 - (base < u32::MAX) as u64,
        1 => word(r) as u64,
        2 => r.next() >> r.below(40),
        3..=5 => r.below(0x4000) as u64,
        _ => r.below(64) as u64,
    }
}

/// Language data.
pub fn language(r: &mut Random, function: u32) -> Vec<u8> {
    let mut out = Vec::new();
    let mut base = function;
    if r.once_in(4) {
        let encoding = if r.once_in(16) { r.byte() } else { r.one_of(&ENCODINGS) };
        base = word(r);
        out.push(encoding);
        pointer(r, &mut out, encoding, base as u64);
    } else {
        out.push(0xFF);
    }
    if r.once_in(3) {
        out.push(r.one_of(&[0x00, 0x10, 0x90, 0x01, 0xFE]));
        let value = if r.once_in(8) { r.next() >> r.below(40) } else { r.below(300) as u64 };
        uleb(&mut out, value, padding(r));
    } else {
        out.push(0xFF);
    }
    let encoding = match r.below(16) {
        0 => r.byte(),
        1..=6 => r.one_of(&ENCODINGS),
        _ => 0x01,
    };
    let mut sites = Vec::new();
    for _ in 0..r.below(7) {
        for _ in 0..2 {
            let value = offset(r, base);
            pointer(r, &mut sites, encoding, value);
        }
        let pad = if r.once_in(2) { 0 } else { offset(r, base) };
        pointer(r, &mut sites, encoding, pad);
        let action = match r.below(16) {
            0 => word(r) as u64,
            1 => 0xFFFF_FFFE + r.below(3) as u64,
            2..=5 => 1 + r.below(200) as u64,
            _ => 0,
        };
        uleb(&mut sites, action, padding(r));
    }
    let length = match r.below(8) {
        0 => (sites.len() as u64 + 4).saturating_sub(r.below(9) as u64),
        1 if r.once_in(8) => r.next() >> r.below(40),
        _ => sites.len() as u64,
    };
    out.push(encoding);
    uleb(&mut out, length, padding(r));
    out.extend(sites);
    if r.once_in(3) {
        let n = r.below(6);
        out.extend(r.bytes(n));
    }
    out
}

/// Language data whose call sites lie over each other, some of them empty.
pub fn crowded(r: &mut Random) -> Vec<u8> {
    let mut sites = Vec::new();
    for _ in 0..1 + r.below(6) {
        for most in [4, 6, 3, 2] {
            uleb(&mut sites, r.below(most) as u64, 1);
        }
    }
    let mut out = vec![0xFF, 0xFF, 0x01];
    uleb(&mut out, sites.len() as u64, 1);
    out.extend(sites);
    out
}

/// Some bits flipped, an end cut off, a byte put in or taken out, or a byte of another kind.
pub fn damage(r: &mut Random, bytes: &mut Vec<u8>) {
    for _ in 0..1 + r.below(3) {
        if bytes.is_empty() {
            return;
        }
        let at = r.below(bytes.len());
        match r.below(5) {
            0 | 1 => bytes[at] ^= 1 << r.below(8),
            2 => bytes.truncate(at),
            3 => bytes[at] = r.one_of(&[0x00, 0x01, 0x7F, 0x80, 0xFF, 0xB2, 0xB0, 0x81, 0x10]),
            _ => {
                if r.once_in(2) {
                    bytes.insert(at, r.byte())
                } else {
                    bytes.remove(at);
                }
            }
        }
    }
}

/// A table entry: words, and language data behind them at times.
pub fn table_entry(r: &mut Random, function: u32) -> Vec<u8> {
    let mut out = Vec::new();
    match r.below(4) {
        0 => {
            let list = instruction_bytes(r, 3);
            out.extend(words(&pad_to(list, 3), 1));
            out[3] = 0x80 | r.byte() & 0x70;
        }
        1 => {
            let more = r.below(4);
            let list = instruction_bytes(r, 2 + 4 * more);
            out.extend(words(&pad_to(list, 2 + 4 * more), 2));
            out[3] = 0x81 + r.below(2) as u8;
            out[2] = more as u8;
        }
        _ => {
            out.extend((word(r) & 0x7FFF_FFFF).to_le_bytes());
            let more = r.below(3);
            let list = instruction_bytes(r, 3 + 4 * more);
            out.extend(words(&pad_to(list, 3 + 4 * more), 1));
            out[7] = more as u8;
            out.extend(language(r, function));
        }
    }
    out
}

// Good instructions up to a length, Finish after that.
fn pad_to(mut list: Vec<u8>, n: usize) -> Vec<u8> {
    list.resize(n, 0xB0);
    list
}
