// What the comparison reads of unw_table.rs: private fields, and walks that begin at a position.
use super::*;

pub fn target_at(word: u32, place: u32) -> u32 {
    Prel31 { offset_raw: word as i32, self_addr: place }.value()
}

// The bytes that a walk is over, and its position.
pub struct Walk<'a>(pub UnwindInstrIter<'a>);

impl<'a> Walk<'a> {
    pub fn over(words: &'a [u8], skip: usize) -> Result<Self, &'static str> {
        let mut bytes = UnwindByteIter::from_bytes(words)?;
        for _ in 0..skip {
            bytes.next();
        }
        Ok(Walk(UnwindInstrIter::from_byte_iter(bytes)))
    }

    pub fn position(&self) -> usize {
        self.0.byte_iter.pos
    }

    pub fn bytes(&self) -> &'a [u8] {
        self.0.byte_iter.bytes
    }
}

// The walk over bytes alone, and its position.
pub struct Bytes<'a>(UnwindByteIter<'a>);

impl<'a> Bytes<'a> {
    pub fn over(words: &'a [u8]) -> Result<Self, &'static str> {
        UnwindByteIter::from_bytes(words).map(Bytes)
    }

    pub fn next(&mut self) -> Option<u8> {
        self.0.next()
    }

    pub fn position(&self) -> usize {
        self.0.pos
    }
}

pub enum Content<'a> {
    Table(u32),
    Compact(PersonalityType, Walk<'a>),
    CantUnwind,
}

fn content_of<'a>(is: &ExIdxEntryContent<'a>) -> Content<'a> {
    match is {
        ExIdxEntryContent::ExTabEntryAddr(a) => Content::Table(*a),
        ExIdxEntryContent::Compact(p, walk) => Content::Compact(p.clone(), Walk(walk.clone())),
        ExIdxEntryContent::CantUnwind => Content::CantUnwind,
    }
}

// The content word alone, whatever the function word is.
pub fn content(bytes: &[u8; 4]) -> Content<'_> {
    content_of(&ExIdxEntryContent::from_raw(Prel31::from_bytes(bytes), bytes))
}

pub fn index_entry(bytes: &[u8; 8]) -> Result<(u32, Content<'_>), &'static str> {
    let entry = ExIdxEntry::from_bytes(bytes)?;
    Ok((entry.get_func_addr(), content_of(&entry.content)))
}
