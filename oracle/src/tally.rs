//! What was compared, what was left out and why, whether that was enough, and the smallest input that came out otherwise.
use crate::anrukfal::Answer;
use crate::floors::FLOORS;
use crate::parted::Why;
use std::collections::BTreeMap;
use std::fmt::Debug;

pub struct Tally {
    pub name: &'static str,
    pub compared: u64,
    /// How often each number was the answer.
    numbers: [u64; 19],
    left_out: BTreeMap<Why, u64>,
    pub faults: u64,
    smallest: Option<(usize, String)>,
}

impl Tally {
    pub fn new(name: &'static str) -> Tally {
        Tally { name, compared: 0, numbers: [0; 19], left_out: BTreeMap::new(), faults: 0, smallest: None }
    }

    /// Compares two answers to an input of a size. The input is shown only where they differ.
    pub fn same<T: PartialEq + Debug>(&mut self, ours: T, theirs: T, size: usize, input: impl FnOnce() -> String) {
        self.compared += 1;
        if ours != theirs {
            self.fault(size, || format!("{}\n    here {ours:x?}\n    there {theirs:x?}", input()));
        }
    }

    /// The same of values that no refusal goes with.
    pub fn value<T: PartialEq + Debug>(&mut self, ours: T, theirs: T, size: usize, input: impl FnOnce() -> String) {
        self.number(0);
        self.same(ours, theirs, size, input);
    }

    /// The number of an answer that was compared.
    pub fn number(&mut self, number: u32) {
        self.numbers[number as usize] += 1;
    }

    fn fault(&mut self, size: usize, text: impl FnOnce() -> String) {
        self.faults += 1;
        if self.smallest.as_ref().map_or(true, |(least, _)| size < *least) {
            self.smallest = Some((size, text()));
        }
    }

    /// A case that the Rust answers otherwise by a row of docs/DIFFERENCES.md; what is here must still be the paper's.
    pub fn left_out<T: PartialEq + Debug>(&mut self, why: Why, ours: T, paper: T, size: usize, input: impl FnOnce() -> String) {
        *self.left_out.entry(why).or_default() += 1;
        if ours != paper {
            self.fault(size, || format!("{}: {}\n    here {ours:x?}\n    paper {paper:x?}", why.row(), input()));
        }
    }

    fn counts(&self) -> impl Iterator<Item = (usize, u64)> + '_ {
        self.numbers.iter().copied().enumerate().filter(|(_, n)| *n > 0)
    }

    /// Says what there is to say; true where all answers were the same, and enough of each kind were compared.
    pub fn report(&self) -> bool {
        println!("{:>24}: {:>11} compared", self.name, self.compared);
        let each = self.counts().map(|(k, n)| format!("{n} of {k}"));
        println!("{:>24}  {:>11} by number: {}", "", "", each.collect::<Vec<_>>().join(", "));
        for (why, n) in &self.left_out {
            println!("{:>24}  {n:>11} left out: {}", "", why.row());
        }
        if let Some((_, text)) = &self.smallest {
            let text: String = text.chars().take(3000).collect();
            println!("{:>24}  {:>11} DIFFER, the smallest: {text}", "", self.faults);
        }
        let few = self.few();
        for text in &few {
            println!("{:>24}  {:>11} {text}", "", "FEW");
        }
        self.faults == 0 && few.is_empty()
    }

    /// What did not come up as often as its floor, and what has none.
    fn few(&self) -> Vec<String> {
        let Some((_, numbers, reasons)) = FLOORS.iter().find(|(name, ..)| *name == self.name) else {
            return vec!["no floors".into()];
        };
        let mut all = Vec::new();
        for (k, floor) in *numbers {
            if self.numbers[*k] < *floor {
                all.push(format!("answers with number {k}: {}, the floor is {floor}", self.numbers[*k]));
            }
        }
        for (why, floor) in *reasons {
            let n = self.left_out.get(why).copied().unwrap_or(0);
            if n < *floor {
                all.push(format!("left out by {}: {n}, the floor is {floor}", why.row()));
            }
        }
        all.extend(self.counts().filter(|(k, _)| numbers.iter().all(|(j, _)| j != k)).map(|(k, _)| format!("no floor for number {k}")));
        all.extend(self.left_out.keys().filter(|w| reasons.iter().all(|(v, _)| v != *w)).map(|w| format!("no floor for {}", w.row())));
        all
    }

    /// This run's line of the table of floors.
    pub fn floors(&self) -> String {
        let numbers: Vec<_> = self.counts().map(|(k, n)| format!("({k}, {})", half(n))).collect();
        let reasons: Vec<_> = self.left_out.iter().map(|(why, n)| format!("({why:?}, {})", half(*n))).collect();
        format!("    ({:?}, &[{}], &[{}]),", self.name, numbers.join(", "), reasons.join(", "))
    }
}

// About a half: one digit, or two from 10 on.
fn half(n: u64) -> u64 {
    let mut unit = 1;
    while n / 2 / unit >= 100 {
        unit *= 10;
    }
    (n / 2 / unit * unit).max(1)
}

/// An answer's number, 0 where it is no refusal.
pub fn number<T>(answer: &Answer<T>) -> u32 {
    answer.as_ref().map_or_else(|refusal| refusal.number(), |_| 0)
}

pub fn hex(bytes: &[u8]) -> String {
    bytes.iter().map(|b| format!("{b:02x}")).collect()
}
