//! oracle: compares the library with the Rust and with a plain reading of the paper. `oracle record FOLDER` writes the Rust's answers, `oracle floors` the lines of floors.rs.
mod agree;
mod agree_readers;
mod compare;
mod compare_readers;
mod record;
use oracle::floors::FLOORS;
use oracle::parted::Why;
use oracle::tally::Tally;
use std::path::Path;
use std::process::ExitCode;

fn main() -> ExitCode {
    std::panic::set_hook(Box::new(|_| {}));
    let rows = include_str!("../../docs/DIFFERENCES.md");
    for why in Why::ALL {
        if !rows.lines().any(|line| line.starts_with(&format!("| {} |", why.row()))) {
            println!("docs/DIFFERENCES.md has no row: {}", why.row());
            return ExitCode::FAILURE;
        }
    }
    if let [_, word, folder] = &std::env::args().collect::<Vec<_>>()[..] {
        assert!(word == "record");
        record::to(Path::new(folder)).unwrap();
        return ExitCode::SUCCESS;
    }
    let (rust, plain) = (compare::all(), agree::all(3_000_000));
    if std::env::args().nth(1).as_deref() == Some("floors") {
        rust.iter().chain(&plain).for_each(|t| println!("{}", t.floors()));
        return ExitCode::SUCCESS;
    }
    let good = report(&rust, "the Rust") & report(&plain, "a plain reading") & whole(&rust, &plain);
    if good { ExitCode::SUCCESS } else { ExitCode::FAILURE }
}

fn report(tallies: &[Tally], with: &str) -> bool {
    let good = tallies.iter().fold(true, |good, t| t.report() & good);
    let compared: u64 = tallies.iter().map(|t| t.compared).sum();
    println!("{:>24}: {compared:>11} compared with {with}", "all");
    good
}

/// Whether every kind that has floors was compared.
fn whole(rust: &[Tally], plain: &[Tally]) -> bool {
    let missing = FLOORS.iter().filter(|(kind, ..)| rust.iter().chain(plain).all(|t| t.name != *kind));
    missing.inspect(|(kind, ..)| println!("{kind:>24}: not compared")).count() == 0
}
