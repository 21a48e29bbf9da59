//! The library against the Rust, on the domain that the paper states.
use crate::compare_readers;
use oracle::anrukfal::{self, Answer, Instruction, Read, Refusal, Section, TableEntry};
use oracle::memory::{address, Arena};
use oracle::parted::{self, Sites, Why};
use oracle::random::Random;
use oracle::tally::{hex, number, Tally};
use oracle::unwind::unw_table::probe::Walk;
use oracle::{cases, original, plain, readers};

pub fn all() -> Vec<Tally> {
    let mut arenas = Arena::all();
    let mut tallies = vec![listed(&mut arenas), prel31(&mut arenas), instructions(), index_entries(&mut arenas), table_entries(&mut arenas), pointers(), call_sites(&mut arenas)];
    tallies.extend(compare_readers::all(&mut arenas));
    tallies
}

// ---- the inputs that docs/DIFFERENCES.md lists, with what it says of the Rust and of the paper

fn listed(arenas: &mut [Arena]) -> Tally {
    let mut t = Tally::new("listed");
    let mut pop = |bytes: &[u8], there: Option<Instruction>| {
        let words = cases::words(bytes, 0);
        let skip = words.len() - bytes.len();
        let says = original::next(&mut Walk::over(&words, skip).unwrap()).map(|is| is.unwrap().0);
        let ours = anrukfal::instruction(&words, skip as u32).map(|is| is.unwrap().0);
        t.value((ours, says), (Ok(Instruction::Error), there), bytes.len(), || hex(bytes));
    };
    pop(&[0xB2, 0x80, 0x80, 0x80, 0x80, 0x10], Some(Instruction::DataPop(0x204)));
    pop(&[0xB2, 0x80, 0x80, 0x80, 0x80, 0x80, 0x00], None);
    pop(&[0xB2, 0xFF, 0xFE, 0xFF, 0xFF, 0x03], None);
    let table = |bytes, offset| (anrukfal::table_entry(Section { bytes, address: 0x1000 }, offset), original::table_entry(bytes, offset as usize));
    t.value(table(&[], 0), (Err(Refusal::Truncated), None), 0, || "an empty table".into());
    t.value(table(&[0, 0, 0, 0x80], 2), (Err(Refusal::Place), Some(Err(Refusal::Place))), 4, || "offset 2".into());
    let mut pointer = |data: &[u8], encoding, there| {
        let both = (anrukfal::pointer(data, 0, encoding), original::pointer(data, 0, encoding));
        t.value(both, (Err(Refusal::Value), there), data.len(), || hex(data));
    };
    pointer(&[0x80, 0x80, 0x80, 0x80, 0x80, 0x00], 0x01, Ok((0, 6)));
    pointer(&[0x80, 0x80, 0x80, 0x80, 0x80], 0x01, Err(Refusal::Truncated));
    pointer(&[0x80, 0x80, 0x80, 0x80, 0x10], 0x01, Ok((1 << 32, 5)));
    pointer(&[0x80, 0x80, 0x80, 0x80, 0x08], 0x09, Ok((1 << 31, 5)));
    let top = arenas.last_mut().unwrap();
    let end = top.size();
    let mut site = |data: &[u8], at: usize, function, here, there| {
        let data = top.put(data, at);
        let both = (anrukfal::call_site(data, function, 0), original::call_site(data, function, 0));
        t.value(both, (Err(here), there), data.len(), || format!("{} at {:x}", hex(data), address(data)));
    };
    site(&[0xFF, 0xFF, 0x01, 0x04, 0x01, 0x00, 0x00, 0x00], 0, u32::MAX, Refusal::Sum, None);
    site(&[0xFF, 0xFF, 0x01, 0x01], end - 5, 0x1000, Refusal::Truncated, None);
    site(&[0xFF, 0xFF, 0x01, 0x01, 0, 0, 0, 0], end - 8, 0x1000, Refusal::NoSite, Some(Err(Refusal::Truncated)));
    t
}

// ---- prel31

fn prel31(arenas: &mut [Arena]) -> Tally {
    let mut t = Tally::new("prel31");
    let mut r = Random::seeded(1);
    let mut near = Vec::new();
    for edge in cases::EDGES {
        near.extend((0..9).map(|k| edge.wrapping_add(k).wrapping_sub(4)));
    }
    for &word in &near {
        for &place in &near {
            t.value(anrukfal::prel31(word, place), original::target_at(word, place), 8, || format!("{word:x} at {place:x}"));
        }
    }
    for _ in 0..2_000_000 {
        let (word, place) = (cases::word(&mut r), r.word());
        t.value(anrukfal::prel31(word, place), original::target_at(word, place), 8, || format!("{word:x} at {place:x}"));
    }
    // Where the word really lies.
    for _ in 0..500_000 {
        let word = cases::word(&mut r);
        let arena = r.below(arenas.len());
        let at = r.below(arenas[arena].size() - 3);
        let bytes = arenas[arena].put(&word.to_le_bytes(), at);
        let there = original::target(bytes.first_chunk().unwrap());
        let place = address(bytes);
        t.value(anrukfal::prel31(word, place), there, 8, || format!("{word:x} at {place:x}"));
    }
    t
}

// ---- instructions

/// Item by item, as `ask` says them, to the end, or to where the two part.
pub fn list(t: &mut Tally, words: &[u8], skip: usize, ask: impl Fn(u32) -> Answer<Option<(Instruction, u32)>>) {
    let mut walk = Walk::over(words, skip).unwrap();
    let show = || format!("words {} from {skip}", hex(words));
    loop {
        let at = walk.position();
        let ours = ask(at as u32);
        if at < words.len() && words[at / 4 * 4 + 3 - at % 4] == 0xB2 {
            if let Some(why) = parted::long_pop(words, at + 1) {
                t.left_out(why, ours, Ok(Some((Instruction::Error, words.len() as u32))), words.len(), show);
                return;
            }
        }
        let theirs = original::next(&mut walk);
        t.number(number(&ours));
        t.same(Some(ours), theirs.map(Ok), words.len(), show);
        if ours == Ok(None) || ours.is_err() || theirs.is_none() {
            return;
        }
    }
}

fn instructions() -> Tally {
    let mut t = Tally::new("instructions");
    let list = |t: &mut Tally, words: &[u8], skip| list(t, words, skip, |at| anrukfal::instruction(words, at));
    for n in 1..=3usize {
        for k in 0..1u32 << (8 * n) {
            list(&mut t, &cases_words(k, n), 4 - n);
        }
    }
    let mut r = Random::seeded(2);
    for _ in 0..1_500_000 {
        let bytes = cases::instruction_bytes(&mut r, 40);
        let words = cases::words(&bytes, 0);
        list(&mut t, &words, words.len() - bytes.len());
    }
    for _ in 0..500_000 {
        let n = 4 * r.below(8);
        let words = r.bytes(n);
        list(&mut t, &words, r.below(4));
    }
    t
}

// A list of up to three bytes, at the end of one word.
fn cases_words(k: u32, n: usize) -> [u8; 4] {
    let mut word = [0; 4];
    word[..n].copy_from_slice(&k.to_le_bytes()[..n]);
    word
}

// ---- entries

fn index_case(t: &mut Tally, index: &[u8], entry: usize) {
    let section = Section { bytes: index, address: address(index) };
    let there = original::index_entry(index, entry);
    t.number(number(&there));
    t.same(anrukfal::index_entry(section, entry as u32), there, index.len(), || {
        format!("entry {entry} of {} at {:x}", hex(index), address(index))
    });
}

fn index_entries(arenas: &mut [Arena]) -> Tally {
    let mut t = Tally::new("index entries");
    let mut r = Random::seeded(3);
    let mut near = Vec::new();
    for edge in cases::EDGES {
        near.extend((0..5).map(|k| edge.wrapping_add(k).wrapping_sub(2)));
    }
    near.extend((0..256).map(|k| k << 24 | 0x00B0_B0B0));
    for arena in arenas.iter_mut() {
        for &function in &near {
            for &content in &near {
                let mut entry = [0; 8];
                entry[..4].copy_from_slice(&function.to_le_bytes());
                entry[4..].copy_from_slice(&content.to_le_bytes());
                index_case(&mut t, arena.put_last(&entry), 0);
            }
        }
    }
    for _ in 0..1_000_000 {
        let n = 1 + r.below(4);
        let mut index = Vec::new();
        for _ in 0..2 * n {
            index.extend(cases::word(&mut r).to_le_bytes());
        }
        let arena = r.below(arenas.len());
        let at = r.below(arenas[arena].size() - index.len() + 1);
        let index = arenas[arena].put(&index, at);
        index_case(&mut t, index, r.below(n));
    }
    t
}

fn table_case(t: &mut Tally, table: &[u8], offset: usize) {
    let section = Section { bytes: table, address: address(table) };
    let at = table.len() % 9;
    let ours = (anrukfal::table_entry(section, offset as u32), readers::language(section, offset as u32, at));
    let show = || format!("offset {offset} of {} at {:x}", hex(table), address(table));
    match original::table_entry(table, offset) {
        Some(there) => {
            t.number(number(&there));
            t.same(ours, (there, language(table, there, at)), table.len(), show)
        }
        None => {
            let short = Err(Refusal::Truncated);
            t.left_out(Why::PastTable, ours, (short, language(table, short, at)), table.len(), show)
        }
    }
}

// The language data behind an entry: its length and the byte at a position.
fn language(table: &[u8], entry: Answer<TableEntry>, at: usize) -> (u32, [u64; 2]) {
    match entry {
        Ok(e) => {
            let data = &table[e.language as usize..];
            (0, [data.len() as u64, data.get(at).copied().unwrap_or(0) as u64])
        }
        Err(refusal) => (refusal.number(), [0; 2]),
    }
}

fn table_entries(arenas: &mut [Arena]) -> Tally {
    let mut t = Tally::new("table entries");
    let mut r = Random::seeded(4);
    // Every pair of high bytes of the first word, and every count of the second, in tables that end just before, at and just after.
    for high in 0..=0xFFFFu32 {
        let (three, two) = (high >> 8, high & 0xFF);
        let first = high << 16 | 0xB0B0;
        let needs = match three {
            0x80.. if three & 0xF == 0 => 4,
            0x80.. if three & 0xF < 3 => 4 + 4 * two as usize,
            0x80.. => 4,
            _ => 8 + 4 * two as usize,
        };
        let mut table = first.to_le_bytes().to_vec();
        table.extend([0, 0, 0, two as u8]);
        table.resize(needs + 2, 0xB0);
        for n in needs.saturating_sub(2)..=needs + 2 {
            let arena = r.below(arenas.len());
            table_case(&mut t, arenas[arena].put_last(&table[..n]), 0);
        }
    }
    for _ in 0..1_000_000 {
        let before = r.below(3);
        let mut table = Vec::new();
        for _ in 0..before {
            table.extend(cases::table_entry(&mut r, 0x0800_1000));
            table.resize(table.len().next_multiple_of(4), 0);
        }
        let at = table.len();
        table.extend(cases::table_entry(&mut r, 0x0800_1000));
        if r.once_in(3) {
            cases::damage(&mut r, &mut table);
        }
        let offset = if r.once_in(8) { r.below(table.len() + 9) } else { at };
        let arena = r.below(arenas.len());
        let place = if r.once_in(2) { arenas[arena].size() - table.len() } else { r.below(arenas[arena].size() - table.len() + 1) };
        table_case(&mut t, arenas[arena].put(&table, place), offset);
    }
    t
}

// ---- pointers

fn pointer_case(t: &mut Tally, data: &[u8], at: usize, encoding: u8) {
    let ours = anrukfal::pointer(data, at as u32, encoding);
    let show = || format!("{} from {at} by {encoding:x}", hex(data));
    match parted::pointer(data, at, encoding) {
        Ok(there) => {
            let there: Answer<Read> = there.map(|(value, next)| Read { value, next: next as u32 });
            t.number(number(&there));
            t.same(ours, there, data.len(), show)
        }
        Err(why) => t.left_out(why, ours, Err(why.here().unwrap()), data.len(), show),
    }
}

fn pointers() -> Tally {
    let mut t = Tally::new("pointers");
    for encoding in 0..=0xFF {
        pointer_case(&mut t, &[], 0, encoding);
        for k in 0..0x1_0000u32 {
            let bytes = k.to_le_bytes();
            if k < 0x100 {
                pointer_case(&mut t, &bytes[..1], 0, encoding);
            }
            pointer_case(&mut t, &bytes[..2], 0, encoding);
        }
    }
    for encoding in [0x01, 0x09] {
        for k in 0..0x100_0000u32 {
            pointer_case(&mut t, &k.to_le_bytes()[..3], 0, encoding);
        }
        // Five bytes: each first four at an edge, every fifth.
        const NEAR: [u8; 8] = [0x00, 0x01, 0x3F, 0x40, 0x7F, 0x80, 0xBF, 0xFF];
        for k in 0..4096 {
            let four = [NEAR[k & 7], NEAR[k >> 3 & 7], NEAR[k >> 6 & 7], NEAR[k >> 9 & 7]];
            for fifth in 0..=0xFF {
                let [a, b, c, d] = four;
                pointer_case(&mut t, &[a, b, c, d, fifth], 0, encoding);
                pointer_case(&mut t, &[a | 0x80, b | 0x80, c | 0x80, d | 0x80, fifth, 0], 0, encoding);
            }
        }
    }
    let mut r = Random::seeded(5);
    for _ in 0..3_000_000 {
        let encoding = if r.once_in(8) { r.byte() } else { r.one_of(&cases::ENCODINGS) };
        let before = r.below(4);
        let mut data = r.bytes(before);
        data.extend(cases::pointer_bytes(&mut r, encoding));
        if r.once_in(8) {
            cases::damage(&mut r, &mut data);
        }
        let at = before.min(data.len());
        pointer_case(&mut t, &data, at, encoding);
    }
    t
}

// ---- call sites

fn language_case(t: &mut Tally, data: &[u8], function: u32, most: usize, r: &mut Random) {
    let sites = Sites::of(data, function);
    let mut counters = sites.counters(function);
    while counters.len() > most {
        counters.swap_remove(r.below(counters.len()));
    }
    for counter in counters {
        let ours = anrukfal::call_site(data, function, counter);
        let show = || format!("function {function:x} counter {counter:x} data {} at {:x}", hex(data), address(data));
        match sites.parted(counter) {
            None => {
                t.number(number(&ours));
                t.same(Some(ours), original::call_site(data, function, counter), data.len(), show)
            }
            Some(why) => {
                let paper = plain::call_site(data, function, counter);
                t.left_out(why, ours, why.here().map_or(paper, Err), data.len(), show);
                assert!(ours == paper, "{}", show());
            }
        }
    }
}

fn call_sites(arenas: &mut [Arena]) -> Tally {
    let mut t = Tally::new("call sites");
    let mut r = Random::seeded(6);
    // Every text of up to seven bytes over these, behind a header that leads to call sites and without one.
    const LETTERS: [u8; 6] = [0x00, 0x01, 0x03, 0x7F, 0x80, 0xFF];
    for n in 0..=7usize {
        for k in 0..LETTERS.len().pow(n as u32) {
            let mut rest = k;
            let mut data = vec![0xFF, 0xFF, 0x01];
            for _ in 0..n {
                data.push(LETTERS[rest % LETTERS.len()]);
                rest /= LETTERS.len();
            }
            let arena = 1 + r.below(arenas.len() - 1);
            let data = arenas[arena].put_last(&data);
            language_case(&mut t, data, 0x0800_1000, 3, &mut r);
            language_case(&mut t, &data[3..], 0x0800_1000, 2, &mut r);
        }
    }
    for round in 0..800_000 {
        let function = if r.once_in(3) { cases::word(&mut r) } else { 0x0800_1000 };
        let mut data = cases::language(&mut r, function);
        if round % 3 == 0 {
            cases::damage(&mut r, &mut data);
        }
        let arena = r.below(arenas.len());
        let size = arenas[arena].size();
        let place = match r.below(4) {
            0 => size - data.len(),
            1 => size - data.len() - r.below(4),
            _ => r.below(size - data.len() + 1),
        };
        language_case(&mut t, arenas[arena].put(&data, place), function, 8, &mut r);
    }
    // Each length of good data.
    for _ in 0..20_000 {
        let data = cases::language(&mut r, 0x0800_1000);
        for n in 0..data.len() {
            let arena = r.below(arenas.len());
            language_case(&mut t, arenas[arena].put_last(&data[..n]), 0x0800_1000, 3, &mut r);
        }
    }
    t
}
