//! Answers as the C library gives them: the refusal's number, 0 for none, and the row, all zero at a refusal.
use crate::anrukfal::*;
use crate::readers::{Entry, Leads, Site, Walked};

pub trait Row<const N: usize> {
    fn row(&self) -> [u32; N];
}

pub fn told<const N: usize>(answer: Answer<impl Row<N>>) -> (u32, [u32; N]) {
    match answer {
        Ok(is) => (0, is.row()),
        Err(refusal) => (refusal.number(), [0; N]),
    }
}

/// An instruction that was asked for at a position.
pub struct Asked(pub u32, pub Option<(Instruction, u32)>);

impl Row<4> for Asked {
    fn row(&self) -> [u32; 4] {
        let Some((is, next)) = self.1 else { return [0, 0, 0, self.0] };
        instruction_row(is, next)
    }
}

fn instruction_row(is: Instruction, next: u32) -> [u32; 4] {
    let (kind, a, b) = match is {
        Instruction::DataPop(size) => (1, size, 0),
        Instruction::DataPush(size) => (2, size, 0),
        Instruction::RegPop(mask) => (3, mask, 0),
        Instruction::RegToSp(register) => (4, register, 0),
        Instruction::VfpPop { start, count } => (5, start, count),
        Instruction::Finish => (6, 0, 0),
        Instruction::Refused => (7, 0, 0),
        Instruction::Reserved => (8, 0, 0),
        Instruction::Unimplemented => (9, 0, 0),
        Instruction::Error => (10, 0, 0),
    };
    [kind, a, b, next]
}

impl Row<2> for Read {
    fn row(&self) -> [u32; 2] {
        [self.value, self.next]
    }
}

impl Row<5> for Content {
    fn row(&self) -> [u32; 5] {
        match *self {
            Content::CannotUnwind => [0; 5],
            Content::Compact { selector, span } => [1, selector, span.offset, span.words, span.skip],
            Content::Table(address) => [4, address, 0, 0, 0],
        }
    }
}

impl Row<6> for IndexEntry {
    fn row(&self) -> [u32; 6] {
        let [kind, who, offset, words, skip] = self.content.row();
        [self.function, kind, who, offset, words, skip]
    }
}

impl Row<6> for TableEntry {
    fn row(&self) -> [u32; 6] {
        let (kind, who) = match self.personality {
            Personality::Compact(selector) => (2, selector),
            Personality::Generic(address) => (3, address),
        };
        [kind, who, self.span.offset, self.span.words, self.span.skip, self.language]
    }
}

impl Row<5> for CallSite {
    fn row(&self) -> [u32; 5] {
        [self.start, self.end, self.pad.unwrap_or(0), self.action.is_some() as u32, self.action.unwrap_or(0)]
    }
}

impl Row<2> for Found {
    fn row(&self) -> [u32; 2] {
        [self.entry, self.read]
    }
}

impl Row<9> for Lookup {
    fn row(&self) -> [u32; 9] {
        let (kind, who, site) = match self.unwinding {
            Unwinding::CannotUnwind => (0, 0, [0; 5]),
            Unwinding::CompactInIndex(selector) => (1, selector, [0; 5]),
            Unwinding::CompactInTable(selector) => (2, selector, [0; 5]),
            Unwinding::Generic(who, site) => (3, who, site.row()),
        };
        let [start, end, pad, has_action, action] = site;
        [self.entry, self.function, kind, who, start, end, pad, has_action, action]
    }
}

impl Row<2> for Stepped {
    fn row(&self) -> [u32; 2] {
        match *self {
            Stepped::Next(count) => [0, count],
            Stepped::CannotUnwind => [1, 0],
        }
    }
}

impl Row<6> for Bundle {
    fn row(&self) -> [u32; 6] {
        [self.index_address, self.table_address, self.index_offset, self.index_bytes, self.table_offset, self.table_bytes]
    }
}

// ---- the readers' rows

impl Row<1> for u32 {
    fn row(&self) -> [u32; 1] {
        [*self]
    }
}

impl Row<2> for Option<u8> {
    fn row(&self) -> [u32; 2] {
        [self.is_some() as u32, self.unwrap_or(0) as u32]
    }
}

impl Row<6> for Option<(Site, u32)> {
    fn row(&self) -> [u32; 6] {
        match *self {
            None => [0; 6],
            Some((s, next)) => [1, s.start, s.end, s.pad, s.action, next],
        }
    }
}

impl Row<7> for Entry {
    fn row(&self) -> [u32; 7] {
        let f = self.function;
        match self.leads {
            Leads::CannotUnwind => [f, 0, 0, 0, 0, 0, 0],
            Leads::CompactInIndex(selector, s) => [f, 1, selector, s.offset, s.words, s.skip, 0],
            Leads::CompactInTable(selector, s) => [f, 2, selector, s.offset, s.words, s.skip, 0],
            Leads::Generic(who, s, language) => [f, 3, who, s.offset, s.words, s.skip, language],
        }
    }
}

impl Row<3> for Walked<u8> {
    fn row(&self) -> [u32; 3] {
        let [there, byte] = self.0.row();
        [there, byte, self.1]
    }
}

impl Row<4> for Walked<Instruction> {
    fn row(&self) -> [u32; 4] {
        self.0.map_or([0, 0, 0, self.1], |is| instruction_row(is, self.1))
    }
}
