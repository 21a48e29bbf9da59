// What the comparison reads of unw_lsda.rs: the pointer reader with the position after it, the header, and the iterator's own sites with positions.
use super::*;

pub fn pointer(data: &[u8], at: usize, encoding: u8) -> gimli::Result<(u64, usize)> {
    let mut reader = EndianSlice::new(data, gimli::LittleEndian);
    reader.skip(at)?;
    let value = read_encoded_pointer(&mut reader, DwEhPe(encoding))?;
    Ok((value, data.len() - reader.len()))
}

// All pointers of an encoding that the data holds, added up.
pub fn sum(data: &[u8], encoding: u8) -> u32 {
    let mut reader = EndianSlice::new(data, gimli::LittleEndian);
    let mut total = 0u32;
    while reader.len() > 0 {
        match read_encoded_pointer(&mut reader, DwEhPe(encoding)) {
            Ok(value) => total = total.wrapping_add(value as u32),
            Err(_) => return u32::MAX,
        }
    }
    total
}

type Slice<'a> = EndianSlice<'a, gimli::LittleEndian>;

// Base, encoding, the position of the first call site, and the declared length.
pub fn header(data: &[u8], function: u32) -> gimli::Result<(u32, u8, usize, u32)> {
    let (top, table, reader) = LSDA::new(data, gimli::LittleEndian, function).parse_from_beginning()?;
    Ok((top.landing_pad_base.unwrap_or(function), table.encoding.0, data.len() - reader.len(), table.length))
}

// The iterator over call sites, with what it reads of.
pub struct Sites<'a>(CallSiteTableIterator<Slice<'a>>, usize);

impl<'a> Sites<'a> {
    pub fn of(data: &'a [u8], function: u32) -> gimli::Result<Self> {
        Ok(Sites(LSDA::new(data, gimli::LittleEndian, function).call_site_table_entries()?, data.len()))
    }

    // The next site, its pad and action as they are written, and the position after it.
    pub fn next(&mut self) -> gimli::Result<Option<(CallSiteTableEntry, u32, u32, usize)>> {
        let site = self.0.next()?;
        Ok(site.map(|s| {
            let (pad, action) = (s.landing_pad_offset, s.action_offset);
            (s, pad, action, self.1 - self.0.reader.len())
        }))
    }
}
