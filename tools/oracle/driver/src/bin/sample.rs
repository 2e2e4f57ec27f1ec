//! Writes a capture for newcomers to standard output. It looks like a line (enumeration, receive requests and responses with packets,
//! commands, pings, noise, damage; the frames are encoded by the Rust) and has something for each line of the ledger: runts, giants,
//! and eleven overlong frames whose 257th unit is an escape, which no counter of the Rust records. It breaks off inside a frame.
//!
//!     sample SEED BYTES
use driver::make;
use driver::rng::Rng;
use std::io::Write;

fn main() {
    let words: Vec<u64> = std::env::args().skip(1).map(|w| w.parse().expect("sample SEED BYTES")).collect();
    let mut rng = Rng::of(words[0], "sample");
    let part = words[1] as usize / 16;
    let mut out = Vec::new();
    for k in 0..16 {
        out.extend(make::capture(words[0] + k, part));
        match k {
            0 | 7 => out.extend([&[0x7e, 0x07][..], &[0x41; 300], &[0x7e, 0x08]].concat()),
            3 => out.extend(make::units(&mut rng, 4, false, &[0x7e, 0x08])),
            5..=15 if k != 7 => out.extend(make::units(&mut rng, 257, true, &[0x08])),
            _ => {}
        }
    }
    out.extend(make::units(&mut rng, 257, true, &[0x41, 0x7e, 0x08]));
    out.extend(make::units(&mut rng, 20, false, &[]));
    std::io::stdout().write_all(&out).expect("written");
}
