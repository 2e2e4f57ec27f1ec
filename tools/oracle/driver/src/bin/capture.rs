//! Writes the capture of the race, or one of another seed or size, to standard output.
//!
//!     capture SEED BYTES      the race has seed 1 and 16,777,216 bytes
use driver::make;
use std::io::Write;

fn main() {
    let words: Vec<u64> = std::env::args().skip(1).map(|w| w.parse().expect("capture SEED BYTES")).collect();
    std::io::stdout().write_all(&make::capture(words[0], words[1] as usize)).expect("written");
}
