//! Writes the Rust's own answers, as the program `answers` is to give them: cases in crates/answers/stdin, and each with its answer in
//! crates/answers/stdout. Only cases that the Rust and the paper answer by the same rules.
use oracle::anrukfal::Read;
use oracle::memory::{address, Arena};
use oracle::parted::{self, Sites};
use oracle::random::Random;
use oracle::rows::{told, Asked};
use oracle::tally::hex;
use oracle::unwind::unw_table::probe::Walk;
use oracle::{cases, original};
use std::collections::HashSet;
use std::{fs, io, path::Path};

/// The cases so far, each once, and the same with their answers.
struct Recorded {
    seen: HashSet<String>,
    cases: String,
    answers: String,
    count: usize,
}

impl Recorded {
    fn title(&mut self, text: &str) {
        self.cases += &format!("# {text}\n");
        self.answers += &format!("# {text}\n");
    }

    fn add<const N: usize>(&mut self, case: String, (number, row): (u32, [u32; N])) -> bool {
        if !self.seen.insert(case.clone()) {
            return false;
        }
        self.cases += &format!("{case}\n");
        self.answers += &format!("{case} = {number:x}");
        for value in row {
            self.answers += &format!(" {value:x}");
        }
        self.answers += "\n";
        self.count += 1;
        true
    }
}

pub fn to(folder: &Path) -> io::Result<()> {
    let mut arenas = Arena::all();
    let mut all = Recorded { seen: HashSet::new(), cases: String::new(), answers: String::new(), count: 0 };
    prel31(&mut all);
    instructions(&mut all);
    index_entries(&mut all, &mut arenas);
    table_entries(&mut all, &mut arenas);
    pointers(&mut all);
    call_sites(&mut all, &mut arenas);
    assert!(all.cases.len() < 262_144, "{} bytes of cases", all.cases.len());
    fs::write(folder.join("stdin"), &all.cases)?;
    fs::write(folder.join("stdout"), &all.answers)?;
    println!("{} answers, {} bytes of cases", all.count, all.cases.len());
    Ok(())
}

fn prel31(all: &mut Recorded) {
    all.title("prel31");
    let mut r = Random::seeded(21);
    for _ in 0..400 {
        let (word, place) = (cases::word(&mut r), cases::word(&mut r));
        all.add(format!("relative {word:x} {place:x}"), (0, [original::target_at(word, place)]));
    }
}

// Each item of a list, up to where the two part.
fn list(all: &mut Recorded, words: &[u8], skip: usize) {
    let mut walk = Walk::over(words, skip).unwrap();
    loop {
        let at = walk.position();
        let is_long_pop = at < words.len() && words[at / 4 * 4 + 3 - at % 4] == 0xB2;
        if is_long_pop && parted::long_pop(words, at + 1).is_some() {
            return;
        }
        let next = original::next(&mut walk).unwrap();
        all.add(format!("instruction {at:x} {}", hex(words)), told(Ok(Asked(at as u32, next))));
        if next.is_none() {
            return;
        }
    }
}

fn instructions(all: &mut Recorded) {
    all.title("instructions: every first byte, alone and with a second; then lists");
    let mut r = Random::seeded(22);
    for op in 0..=0xFFu8 {
        let lone = [op, 0, 0, 0x80];
        let next = original::next(&mut Walk::over(&lone, 3).unwrap()).unwrap();
        all.add(format!("instruction 3 {}", hex(&lone)), told(Ok(Asked(3, next))));
        let second = match op {
            0x80 => 0,
            0xB2 => r.byte() & 0x7F,
            _ => r.byte(),
        };
        let words = [0, 0x80, second, op];
        let next = original::next(&mut Walk::over(&words, 0).unwrap()).unwrap();
        all.add(format!("instruction 0 {}", hex(&words)), told(Ok(Asked(0, next))));
    }
    let enough = all.count + 800;
    while all.count < enough {
        let bytes = cases::instruction_bytes(&mut r, 14);
        let words = cases::words(&bytes, 0);
        list(all, &words, words.len() - bytes.len());
    }
}

fn index_entries(all: &mut Recorded, arenas: &mut [Arena]) {
    all.title("index entries");
    let mut r = Random::seeded(23);
    for k in 0..500 {
        let n = 1 + r.below(2);
        let mut index = Vec::new();
        for j in 0..2 * n {
            let word = cases::word(&mut r);
            index.extend(if j % 2 == 0 && k % 4 != 0 { word & 0x7FFF_FFFF } else { word }.to_le_bytes());
        }
        if r.once_in(6) {
            index[4..8].copy_from_slice(&[1, 0, 0, 0]);
        }
        let arena = r.below(arenas.len());
        let at = r.below(arenas[arena].size() - index.len() + 1);
        let index = arenas[arena].put(&index, at);
        let number = r.below(n);
        all.add(format!("entry {:x} {number:x} {}", address(index), hex(index)), told(original::index_entry(index, number)));
    }
}

fn table_entries(all: &mut Recorded, arenas: &mut [Arena]) {
    all.title("table entries");
    let mut r = Random::seeded(24);
    let enough = all.count + 550;
    while all.count < enough {
        let mut table = Vec::new();
        for _ in 0..r.below(2) {
            table.extend(cases::table_entry(&mut r, 0x0800_1000));
            table.resize(table.len().next_multiple_of(4), 0);
        }
        let at = table.len();
        table.extend(cases::table_entry(&mut r, 0x0800_1000));
        table.truncate(at + 28);
        if r.once_in(10) {
            table[at + 3] = 0x80 | r.byte();
        }
        if r.once_in(4) {
            cases::damage(&mut r, &mut table);
        }
        if table.len() > 56 {
            continue;
        }
        let offset = if r.once_in(10) { r.below(table.len() + 1) } else { at };
        let arena = r.below(arenas.len());
        let at = r.below(arenas[arena].size() - table.len() + 1);
        let table = arenas[arena].put(&table, at);
        // None: the Rust panics.
        if let Some(answer) = original::table_entry(table, offset) {
            all.add(format!("table {:x} {offset:x} {}", address(table), hex(table)), told(answer));
        }
    }
}

fn pointers(all: &mut Recorded) {
    all.title("pointers: every encoding; then those that are known");
    let mut r = Random::seeded(25);
    let add = |all: &mut Recorded, data: &[u8], at: usize, encoding: u8| {
        if let Ok(answer) = parted::pointer(data, at, encoding) {
            let answer = answer.map(|(value, next)| Read { value, next: next as u32 });
            all.add(format!("pointer {encoding:x} {at:x} {}", hex(data)), told(answer));
        }
    };
    for encoding in 0..=0xFF {
        add(all, &[0x7F, 0xFE, 0, 0, 0, 0, 0, 0], 0, encoding);
    }
    let enough = all.count + 650;
    while all.count < enough {
        let encoding = r.one_of(&cases::ENCODINGS[..9]);
        let before = r.below(3);
        let mut data = r.bytes(before);
        data.extend(cases::pointer_bytes(&mut r, encoding));
        if r.once_in(6) {
            data.truncate(before + r.below(data.len() - before + 1));
        }
        add(all, &data, before, encoding);
    }
}

fn call_sites(all: &mut Recorded, arenas: &mut [Arena]) {
    all.title("call sites");
    let mut r = Random::seeded(26);
    let enough = all.count + 1000;
    while all.count < enough {
        let function = if r.once_in(4) { cases::word(&mut r) } else { 0x0800_1000 };
        let mut data = cases::language(&mut r, function);
        if r.once_in(4) {
            cases::damage(&mut r, &mut data);
        }
        if data.len() > 48 {
            continue;
        }
        let data = arenas[1].put(&data, 0);
        let sites = Sites::of(data, function);
        let mut counters = sites.counters(function);
        if !sites.sites.is_empty() {
            counters.retain(|c| *c != 0 && *c != u32::MAX);
        }
        while counters.len() > 3 {
            counters.swap_remove(r.below(counters.len()));
        }
        for counter in counters {
            if sites.parted(counter).is_none() {
                let answer = original::call_site(data, function, counter).unwrap();
                all.add(format!("callsite {function:x} {counter:x} {}", hex(data)), told(answer));
            }
        }
    }
}
