//! Random streams with what the Rust makes of each, for the independent model: a stream in hex, the nine numbers of the ledger
//! (the three that the Rust does not count read off its state), and the frames' bodies without their check.
//!
//!     streams SEED COUNT
use driver::oracle::{hear, Heard};
use driver::rng::Rng;
use driver::{make, show};
use std::io::Write;

fn main() {
    let words: Vec<u64> = std::env::args().skip(1).map(|w| w.parse().expect("streams SEED COUNT")).collect();
    let mut rng = Rng::of(words[0], "streams");
    let mut out = std::io::BufWriter::new(std::io::stdout().lock());
    for _ in 0..words[1] {
        let stream = make::stream(&mut rng);
        let Heard { nine, frames, .. } = hear(&stream, &[]);
        let numbers: Vec<String> = nine.iter().map(u64::to_string).collect();
        let bodies: Vec<String> = frames.iter().map(|f| show::hex(&[&f.address.to_be_bytes(), &f.kind.to_be_bytes(), &f.payload[..]].concat())).collect();
        let bodies = if bodies.is_empty() { "-".into() } else { bodies.join(",") };
        writeln!(out, "{} {} {}", show::hex(&stream), numbers.join(" "), bodies).expect("written");
    }
}
