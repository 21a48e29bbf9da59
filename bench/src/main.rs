//! bench [ROUNDS]: nanoseconds for one call, the library's and the other's, and their ratio.
use oracle::anrukfal::{raw, Registers, Stepped};
use oracle::images::{self, Made};
use oracle::random::Random;
use oracle::{cases, original, plain};
use std::hint::black_box;
use std::process::ExitCode;

#[repr(C)]
struct Time {
    seconds: i64,
    nanoseconds: i64,
}

extern "C" {
    fn clock_gettime(clock: i32, at: *mut Time) -> i32;
}

/// This thread's own time, in nanoseconds.
fn now() -> i64 {
    const THREAD: i32 = 3;
    let mut at = Time { seconds: 0, nanoseconds: 0 };
    unsafe { clock_gettime(THREAD, &mut at) };
    at.seconds * 1_000_000_000 + at.nanoseconds
}

fn median(mut all: Vec<f64>) -> f64 {
    all.sort_by(f64::total_cmp);
    all[all.len() / 2]
}

struct Bench {
    rounds: usize,
    agreed: bool,
}

impl Bench {
    /// Times two ways to one sum over `calls` calls, in turn.
    fn compare(&mut self, what: &str, calls: usize, mut ours: impl FnMut() -> u32, mut theirs: impl FnMut() -> u32, goal: f64) {
        let same = ours() == theirs();
        self.agreed &= same;
        let (mut here, mut there, mut ratios) = (Vec::new(), Vec::new(), Vec::new());
        let timed = |f: &mut dyn FnMut() -> u32| {
            let from = now();
            black_box(f());
            (now() - from) as f64 / calls as f64
        };
        for round in 0..self.rounds {
            let (a, b) = if round % 2 == 0 {
                let a = timed(&mut ours);
                (a, timed(&mut theirs))
            } else {
                let b = timed(&mut theirs);
                (timed(&mut ours), b)
            };
            here.push(a);
            there.push(b);
            ratios.push(a / b);
        }
        let ratio = median(ratios);
        let mark = if !same { "DIFFERS" } else if ratio < goal { "" } else { "slower than the goal" };
        println!("| {what} | {:.1} | {:.1} | {ratio:.2} | {goal:.1} | {mark} |", median(here), median(there));
    }
}

fn main() -> ExitCode {
    let rounds = std::env::args().nth(1).map_or(101, |n| n.parse().unwrap());
    let mut b = Bench { rounds, agreed: true };
    println!("| what | ours, ns | theirs, ns | ratio | goal | |");
    println!("|---|---|---|---|---|---|");
    instructions(&mut b);
    pointers(&mut b);
    call_sites(&mut b);
    for entries in [10, 1000, 8192] {
        of_image(&mut b, entries);
    }
    match b.agreed {
        true => ExitCode::SUCCESS,
        false => ExitCode::FAILURE,
    }
}

// ---- against the Rust

fn fold_list(words: &[u8], skip: u32) -> u32 {
    let mut total = 0u32;
    let mut row = [0; 4];
    let mut at = skip;
    loop {
        unsafe { raw::anrukfal_instruction(words.as_ptr(), words.len(), at, &mut row) };
        let [kind, a, b, next] = row;
        if kind == 0 {
            return total;
        }
        total = total.wrapping_mul(31).wrapping_add(kind).wrapping_add(a).wrapping_add(b);
        at = next;
    }
}

fn lists(b: &mut Bench, what: &str, lists: &[Vec<u8>]) {
    let mut items = 0;
    for words in lists {
        let mut at = 1;
        while let Ok(Some((_, next))) = plain::instruction(words, at) {
            at = next;
            items += 1;
        }
    }
    b.compare(
        what,
        items,
        || lists.iter().fold(0u32, |sum, words| sum.wrapping_add(fold_list(words, 1))),
        || lists.iter().fold(0u32, |sum, words| sum.wrapping_add(original::fold_list(words, 1))),
        0.8,
    );
}

fn instructions(b: &mut Bench) {
    let mut r = Random::seeded(41);
    let mut made = |count: usize, n: usize| -> Vec<Vec<u8>> {
        (0..count).map(|_| cases::words(&images::good_list(&mut r, n), 1)).collect()
    };
    let (short, long) = (made(20_000, 3), made(1000, 63));
    let usual: Vec<Vec<u8>> = (0..20_000).map(|_| cases::words(&images::usual_list(&mut r, 7), 1)).collect();
    lists(b, "instruction, usual lists, the Rust", &usual);
    lists(b, "instruction, any lists of 3 bytes, the Rust", &short);
    lists(b, "instruction, any lists of 63 bytes, the Rust", &long);
}

fn pointers(b: &mut Bench) {
    let mut r = Random::seeded(42);
    for (name, encoding, most) in [("ULEB of 1 byte", 0x01, 7), ("ULEB of 1 to 5 bytes", 0x01, 32), ("SLEB of 1 to 5 bytes", 0x09, 31), ("udata4", 0x03, 32)] {
        let mut data = Vec::new();
        let n = 12_000;
        for _ in 0..n {
            let value = (r.word() as u64) >> (32 - most) >> if most > 7 { r.below(most) } else { 0 };
            cases::padded(&mut data, encoding, value, 1);
        }
        let ours = || {
            let (mut at, mut total, mut row) = (0, 0u32, [0; 2]);
            while (at as usize) < data.len() {
                if unsafe { raw::anrukfal_pointer(data.as_ptr(), data.len(), at, encoding, &mut row) } != 0 {
                    return u32::MAX;
                }
                total = total.wrapping_add(row[0]);
                at = row[1];
            }
            total
        };
        b.compare(&format!("pointer, {name}, the Rust"), n, ours, || original::sum_pointers(&data, encoding), 0.8);
    }
}

fn call_sites(b: &mut Bench) {
    let mut r = Random::seeded(43);
    for sites in [2, 10, 100] {
        let all: Vec<(Vec<u8>, Vec<u32>)> = (0..200)
            .map(|_| {
                let data = images::good_language(&mut r, sites, 20 * sites, true);
                let counters = (0..16).map(|_| 0x0800_1000 + r.below(20 * sites) as u32).collect();
                (data, counters)
            })
            .collect();
        let ours = || {
            let mut total = 0u32;
            for (data, counters) in &all {
                for &counter in counters {
                    let mut row = [0; 5];
                    let number = unsafe { raw::anrukfal_call_site(data.as_ptr(), data.len(), 0x0800_1000, counter, &mut row) };
                    total = total.wrapping_add(number ^ row[0] ^ row[1] ^ row[2] ^ row[3] ^ row[4]);
                }
            }
            total
        };
        let theirs = || {
            let mut total = 0u32;
            for (data, counters) in &all {
                for &counter in counters {
                    total = total.wrapping_add(original::fold_site(data, 0x0800_1000, counter));
                }
            }
            total
        };
        b.compare(&format!("call site, {sites} sites, the Rust"), 3200, ours, theirs, 0.8);
    }
}

// ---- against plain Rust

fn of_image(b: &mut Bench, entries: usize) {
    let mut r = Random::seeded(44);
    let made = images::sound(&mut r, entries);
    let image = made.image();
    let (index, table, stack) = (image.index, image.table, made.stack.section());
    assert!(plain::audit(&image).is_ok());
    let counters: Vec<u32> = (0..50_000).map(|_| images::counter(&mut r, &made)).collect();
    let title = |what: &str| format!("{what}, {entries} entries, plain Rust");

    let ours = || {
        counters.iter().fold(0u32, |sum, &counter| {
            let mut row = [0; 2];
            let n = unsafe { raw::anrukfal_search(index.bytes.as_ptr(), index.bytes.len(), index.address, counter, &mut row) };
            sum.wrapping_add(n ^ row[0] ^ row[1] << 16)
        })
    };
    let theirs = || {
        counters.iter().fold(0u32, |sum, &counter| {
            sum.wrapping_add(match plain::search(index, counter) {
                Ok(found) => found.entry ^ found.read << 16,
                Err(refusal) => refusal.number(),
            })
        })
    };
    b.compare(&title("search"), counters.len(), ours, theirs, 1.0);

    let ours = || {
        counters.iter().fold(0u32, |sum, &counter| {
            let mut row = [0; 9];
            let n = unsafe {
                let (a, b) = (index.bytes, table.bytes);
                raw::anrukfal_lookup(a.as_ptr(), a.len(), index.address, b.as_ptr(), b.len(), table.address, counter, &mut row)
            };
            sum.wrapping_add(n ^ row[0] ^ row[1] ^ row[3] ^ row[4] ^ row[5] ^ row[6] ^ row[7] ^ row[8])
        })
    };
    let theirs = || {
        use oracle::anrukfal::Unwinding;
        counters.iter().fold(0u32, |sum, &counter| {
            sum.wrapping_add(match plain::lookup(&image, counter) {
                Ok(found) => {
                    let rest = match found.unwinding {
                        Unwinding::CannotUnwind => 0,
                        Unwinding::CompactInIndex(selector) | Unwinding::CompactInTable(selector) => selector,
                        Unwinding::Generic(who, s) => {
                            who ^ s.start ^ s.end ^ s.pad.unwrap_or(0) ^ s.action.is_some() as u32 ^ s.action.unwrap_or(0)
                        }
                    };
                    found.entry ^ found.function ^ rest
                }
                Err(refusal) => refusal.number(),
            })
        })
    };
    b.compare(&title("lookup"), counters.len(), ours, theirs, 1.0);

    step(b, &title("step"), &made, &mut r);

    let calls = (8192 / entries).max(1);
    let ours = || {
        (0..calls).fold(0u32, |sum, _| {
            let mut row = [0; 1];
            let (a, b) = (index.bytes, table.bytes);
            let n = unsafe { raw::anrukfal_audit(a.as_ptr(), a.len(), index.address, b.as_ptr(), b.len(), table.address, &mut row) };
            sum.wrapping_add(n ^ row[0])
        })
    };
    let theirs = || (0..calls).fold(0u32, |sum, _| sum.wrapping_add(plain::audit(black_box(&image)).map_or_else(|f| f.refusal.number() ^ f.entry, |()| 0)));
    b.compare(&title("audit"), calls, ours, theirs, 1.0);
    black_box(stack.bytes.len());
}

fn mixed(n: u32, registers: &Registers) -> u32 {
    n ^ registers.core[4] ^ registers.core[13] ^ registers.core[14] ^ registers.core[15] ^ registers.vfp[8] as u32
}

fn step(b: &mut Bench, what: &str, made: &Made, r: &mut Random) {
    let image = made.image();
    let (index, table, stack) = (image.index, image.table, made.stack.section());
    let all: Vec<Registers> = (0..8192)
        .map(|_| {
            let mut registers = images::registers(r, made);
            for k in 0..15 {
                registers.core[k] = made.stack.address + r.below(64) as u32;
            }
            registers
        })
        .collect();
    let ours = || {
        all.iter().fold(0u32, |sum, before| {
            let mut row = [0; 2];
            let mut registers = *before;
            let n = unsafe {
                raw::anrukfal_step(
                    index.bytes.as_ptr(),
                    index.bytes.len(),
                    index.address,
                    table.bytes.as_ptr(),
                    table.bytes.len(),
                    table.address,
                    stack.bytes.as_ptr(),
                    stack.bytes.len(),
                    stack.address,
                    &mut registers.core,
                    &mut registers.vfp,
                    &mut row,
                )
            };
            sum.wrapping_add(mixed(n ^ row[0] << 8 ^ row[1] << 16, &registers))
        })
    };
    let theirs = || {
        all.iter().fold(0u32, |sum, before| {
            let mut registers = *before;
            let n = match plain::step(&image, stack, &mut registers) {
                Ok(Stepped::Next(count)) => count << 16,
                Ok(Stepped::CannotUnwind) => 1 << 8,
                Err(refusal) => refusal.number(),
            };
            sum.wrapping_add(mixed(n, &registers))
        })
    };
    b.compare(what, all.len(), ours, theirs, 1.0);
}
