//! The readers against the Rust: the walker byte by byte, call sites one by one, and entries with what they lead to.
use crate::compare::list;
use oracle::anrukfal::{Answer, Content, Image, Personality, Refusal, Section, TableEntry};
use oracle::memory::{address, Arena};
use oracle::parted::{self, Why};
use oracle::random::Random;
use oracle::readers::{self, Entry, Header, Leads, Site};
use oracle::tally::{hex, number, Tally};
use oracle::unwind::unw_lsda::probe::Sites;
use oracle::unwind::unw_table::probe::Bytes;
use oracle::{cases, original, plain};

pub fn all(arenas: &mut [Arena]) -> Vec<Tally> {
    let mut tallies = walks();
    tallies.extend(sites(arenas));
    tallies.extend(entries(arenas));
    tallies
}

// ---- the walker

/// Byte by byte from a skip to the end. Where the Rust makes no walk, the words are refused.
fn bytes(t: &mut Tally, words: &[u8], skip: u32) {
    let show = || format!("words {} from {skip}", hex(words));
    let ask = |at: u32| (readers::walk_byte(words, skip, at), readers::byte(words, at));
    let Ok(mut walk) = Bytes::over(words) else {
        for at in [0, skip, words.len() as u32] {
            t.number(Refusal::Section.number());
            t.same(ask(at), (Err(Refusal::Section), Err(Refusal::Section)), words.len(), show);
        }
        return;
    };
    for _ in 0..skip {
        walk.next();
    }
    loop {
        let at = walk.position() as u32;
        let is = walk.next();
        t.number(0);
        t.same(ask(at), (Ok((is, walk.position() as u32)), Ok(is)), words.len(), show);
        if is.is_none() {
            return;
        }
    }
}

fn instructions(t: &mut Tally, words: &[u8], skip: u32) {
    list(t, words, skip as usize, |at| {
        let (is, next) = readers::walk_instruction(words, skip, at)?;
        Ok(is.map(|is| (is, next)))
    });
}

fn walks() -> Vec<Tally> {
    let mut all = vec![Tally::new("walker bytes"), Tally::new("walker instructions")];
    let mut r = Random::seeded(7);
    let mut case = |words: &[u8]| {
        for skip in 0..3 {
            bytes(&mut all[0], words, skip);
            if words.len() % 4 == 0 && words.len() >= skip as usize {
                instructions(&mut all[1], words, skip);
            }
        }
    };
    for n in 0..=40 {
        for _ in 0..500 {
            case(&r.bytes(n));
        }
    }
    for _ in 0..200_000 {
        case(&cases::words(&cases::instruction_bytes(&mut r, 24), 0));
    }
    for n in [65_532, 65_536] {
        case(&r.bytes(n));
    }
    all
}

// ---- call sites

struct Languages {
    header: Tally,
    plain: Tally,
    /// Behind one that covers the same.
    hidden: Tally,
    /// Of length 0.
    empty: Tally,
    /// The end of the table, or a refusal.
    ends: Tally,
}

impl Languages {
    fn tally(&mut self, ours: &Answer<Option<(Site, u32)>>, before: &[Site]) -> &mut Tally {
        match ours {
            Ok(Some((s, _))) if s.start == s.end => &mut self.empty,
            Ok(Some((s, _))) if before.iter().any(|b| b.start <= s.start && s.end <= b.end) => &mut self.hidden,
            Ok(Some(_)) => &mut self.plain,
            _ => &mut self.ends,
        }
    }

    fn case(&mut self, data: &[u8], function: u32) {
        let told = parted::Sites::of(data, function);
        let ours = readers::header(data, function);
        let show = || format!("function {function:x} data {} at {:x}", hex(data), address(data));
        if let (false, Some(why)) = (told.header, told.after) {
            self.header.left_out(why, ours, plain::header(data, function), data.len(), show);
            return;
        }
        self.header.number(number(&ours));
        self.header.same(ours, original::header(data, function), data.len(), show);
        if let Ok(h) = ours {
            self.sites(data, function, &h, &told);
        }
    }

    /// Site after site to the end, a refusal, or where the two part.
    fn sites(&mut self, data: &[u8], function: u32, h: &Header, told: &parted::Sites) {
        let mut walk = original::caught(|| Sites::of(data, function).unwrap());
        let mut before = Vec::new();
        let mut at = h.start;
        loop {
            let ours = readers::site(data, h, at);
            let show = || format!("function {function:x} from {at} of {} at {:x}", hex(data), address(data));
            let t = self.tally(&ours, &before);
            if let (true, Some(why)) = (before.len() == told.sites.len(), told.after) {
                t.left_out(why, ours, plain::site(data, h, at), data.len(), show);
                return;
            }
            let theirs = walk.as_mut().and_then(original::next_site);
            t.number(number(&ours));
            t.same(Some(ours), theirs, data.len(), show);
            match ours {
                Ok(Some((site, next))) if Some(ours) == theirs => {
                    before.push(site);
                    at = next;
                }
                _ => return,
            }
        }
    }
}

fn sites(arenas: &mut [Arena]) -> Vec<Tally> {
    let mut t = Languages {
        header: Tally::new("headers"),
        plain: Tally::new("sites"),
        hidden: Tally::new("hidden sites"),
        empty: Tally::new("empty sites"),
        ends: Tally::new("ends of sites"),
    };
    let mut r = Random::seeded(8);
    for round in 0..1_500_000 {
        let function = if r.once_in(3) { cases::word(&mut r) } else { 0x0800_1000 };
        let mut data = if round % 2 == 0 { cases::crowded(&mut r) } else { cases::language(&mut r, function) };
        if r.once_in(4) {
            cases::damage(&mut r, &mut data);
        }
        let arena = r.below(arenas.len());
        let size = arenas[arena].size();
        let place = if r.once_in(2) { size - data.len() } else { r.below(size - data.len() + 1) };
        t.case(arenas[arena].put(&data, place), function);
    }
    vec![t.header, t.plain, t.hidden, t.empty, t.ends]
}

// ---- entries

fn leads(entry: TableEntry) -> Leads {
    match entry.personality {
        Personality::Compact(selector) => Leads::CompactInTable(selector, entry.span),
        Personality::Generic(who) => Leads::Generic(who, entry.span, entry.language),
    }
}

/// What the Rust makes of an index entry and of the table entry that it leads to; none where it panics. It has no test of a place: that is the paper's.
fn followed(image: &Image, entry: usize) -> Option<Answer<Entry>> {
    let is = match original::index_entry(image.index.bytes, entry) {
        Ok(is) => is,
        Err(refusal) => return Some(Err(refusal)),
    };
    let leads = match is.content {
        Content::CannotUnwind => Ok(Leads::CannotUnwind),
        Content::Compact { selector, span } => Ok(Leads::CompactInIndex(selector, span)),
        Content::Table(at) => match plain::offset(image.table.address, image.table.bytes.len(), at) {
            Ok(offset) => original::table_entry(image.table.bytes, offset as usize)?.map(leads),
            Err(place) => Err(place),
        },
    };
    Some(leads.map(|leads| Entry { function: is.function, leads }))
}

fn entry_case(all: &mut [Tally; 3], image: &Image, entry: usize) {
    let [functions, contents, entries] = all;
    let Image { index, table } = *image;
    let show = || format!("entry {entry} of {} at {:x}, {} at {:x}", hex(index.bytes), index.address, hex(table.bytes), table.address);
    let size = index.bytes.len() + table.bytes.len();
    let function = original::index_entry(index.bytes, entry).map(|is| is.function);
    functions.number(number(&function));
    functions.same(readers::function(index, entry as u32), function, size, show);
    contents.value(readers::content(index, entry as u32), Ok(original::content(index.bytes, entry)), size, show);
    let ours = readers::entry(image, entry as u32);
    match followed(image, entry) {
        Some(there) => {
            entries.number(number(&there));
            entries.same(ours, there, size, show)
        }
        None => entries.left_out(Why::PastTable, ours, Err(Refusal::Truncated), size, show),
    }
}

/// An index of so many entries that lie at an address, most of them leading to these places.
fn index_to(r: &mut Random, at: u32, n: usize, places: &[u32]) -> Vec<u8> {
    let mut index = Vec::new();
    for k in 0..n as u32 {
        let function = if r.once_in(8) { cases::word(r) } else { r.word() & 0x7FFF_FFFF };
        let content = match r.below(8) {
            0 => 1,
            1 => cases::word(r),
            2 => r.word() | 0x8000_0000,
            _ => r.one_of(places).wrapping_sub(at.wrapping_add(8 * k + 4)) & 0x7FFF_FFFF,
        };
        index.extend(function.to_le_bytes());
        index.extend(content.to_le_bytes());
    }
    index
}

fn entries(arenas: &mut [Arena]) -> Vec<Tally> {
    let mut all = [Tally::new("functions"), Tally::new("contents"), Tally::new("entries")];
    let mut r = Random::seeded(9);
    for _ in 0..500_000 {
        let split = 1 + r.below(arenas.len() - 1);
        let (low, high) = arenas.split_at_mut(split);
        let mut two = [&mut low[r.below(split)], &mut high[0]];
        if r.once_in(2) {
            two.reverse();
        }
        let [first, second] = two;
        let mut table = Vec::new();
        let mut starts = Vec::new();
        for _ in 0..1 + r.below(3) {
            starts.push(table.len() as u32);
            table.extend(cases::table_entry(&mut r, 0x0800_1000));
            table.resize(table.len().next_multiple_of(4), 0);
        }
        if r.once_in(4) {
            cases::damage(&mut r, &mut table);
        }
        let place = if r.once_in(2) { second.size() - table.len() } else { r.below(second.size() - table.len() + 1) };
        let table = second.put(&table, place);
        let mut places: Vec<u32> = starts.iter().map(|s| address(table).wrapping_add(*s)).collect();
        places.push(address(table).wrapping_add(r.below(table.len() + 9) as u32).wrapping_sub(4));
        let n = 1 + r.below(3);
        let at = if r.once_in(2) { first.size() - 8 * n } else { r.below(first.size() - 8 * n + 1) };
        let index = index_to(&mut r, first.address(at), n, &places);
        let index = first.put(&index, at);
        let image = Image { index: Section { bytes: index, address: address(index) }, table: Section { bytes: table, address: address(table) } };
        for entry in 0..n {
            entry_case(&mut all, &image, entry);
        }
    }
    all.into()
}
