//! The Rust that Anrukfal follows, a plain reading of the paper, and the library, side by side.
pub mod anrukfal;
pub mod cases;
pub mod floors;
pub mod images;
pub mod memory;
pub mod original;
pub mod parted;
pub mod plain;
pub mod random;
pub mod readers;
pub mod rows;
pub mod tally;
pub mod unrecoverable;

include!(concat!(env!("OUT_DIR"), "/unwind.rs"));
