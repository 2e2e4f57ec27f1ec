//! Writes the streams that `crates/vectors_streams` replays and what the Rust makes of them: data/streams and stdout of that crate.
//!
//!     vectors SEED FOLDER
use driver::oracle::{crc, hear};
use driver::rng::Rng;
use driver::{make, show};
use std::fmt::Write;

/// A stream and the rule it is there for.
fn rows(seed: u64) -> Vec<(Vec<u8>, &'static str)> {
    let mut rng = Rng::of(seed, "vectors");
    let open = |units: usize, more: &[u8]| [&[0x7e, 0x07][..], &vec![0x41; units], more].concat();
    let mut rows = vec![
        (vec![], "no bytes: all 0"),
        (vec![0x7e, 0x7e], "7e 7e: noise 1"),
        (vec![0x41, 0x42, 0x00, 0x43], "41 42 00 43: noise 2"),
        (vec![0x7e, 0x07, 0x7e, 0x07], "7e 07 inside a frame breaks it and opens nothing"),
        (vec![0x7e, 0x07, 0x7e, 0x08], "a runt of no units"),
        (vec![0x7e], "a lone last 7e waits"),
        (open(3, &[0x7e]), "a lone last 7e in a frame: open"),
        (vec![0x7e, 0x7e, 0x07, 0x41], "the pair is 7e 7e"),
        (vec![0x7e, 0x00, 0x7e, 0xff], "every outside pair that is no opener is noise"),
    ];
    for units in [5, 6, 7] {
        rows.push((open(units, &[0x7e, 0x08]), "runt below six units, then checksum"));
    }
    for units in [255, 256, 257] {
        rows.push((open(units, &[0x7e, 0x08]), "closed, or overlong by a raw byte: giant"));
        rows.push((open(units - 1, &[0x7e, 0x01, 0x7e, 0x08]), "closed, or overlong by an escape: escaped"));
        rows.push((open(units, &[0x7e, 0x09, 0x41]), "broken with so many units"));
    }
    rows.push((open(256, &[0x7e, 0x01, 0x08, 0x41]), "the tail's first byte is a second half: 08 ends it"));
    rows.push((open(256, &[0x7e, 0x01, 0x07, 0x41]), "the tail's first byte is a second half: 07 opens"));
    rows.push((open(257, &[0x7e, 0x7e, 0x08, 0x7e, 0x07]), "pairs in a tail are taken two bytes at a time"));
    for len in [0, 1, 249, 250] {
        rows.push((make::frame_of(&mut rng, len).encode(), "a sound frame"));
    }
    for _ in 0..60 {
        let frames = rng.within(1, 3);
        let stream = make::mixed(&mut rng, frames);
        rows.push((make::damaged(&mut rng, &stream), "frames in a row, damaged"));
    }
    for _ in 0..40 {
        rows.push((make::interesting_bytes(&mut rng, 24), "bytes that the framing goes by"));
    }
    rows
}

fn main() {
    let words: Vec<String> = std::env::args().skip(1).collect();
    let (seed, folder) = (words[0].parse().expect("vectors SEED FOLDER"), &words[1]);
    let head = format!(
        "# Made by tools/oracle (driver/src/bin/vectors.rs), seed {seed}: what the Rust, willglynn/taptap at commit e5e2ec1437, makes of each stream, by its files\n\
         # as tools/oracle/hashes has them and the stand-ins of docs/DIFFERENCES.md. A line is a stream; its answer is for each sound frame its address, type,\n\
         # payload length and the check of its payload, and then openings, frames, runts, checksums, giants, escaped, broken, noise, open.\n\
         # Openings, escaped and broken are no counters of the Rust: they are read off its state around each byte.\n"
    );
    let (mut streams, mut answers) = (head.clone(), head);
    for (stream, rule) in rows(seed) {
        writeln!(streams, "# {rule}").unwrap();
        writeln!(answers, "# {rule}").unwrap();
        let hex = if stream.is_empty() { String::new() } else { show::hex(&stream) };
        writeln!(streams, "{hex}").unwrap();
        let heard = hear(&stream, &[]);
        for f in &heard.frames {
            write!(answers, "{} {} {} {} | ", f.address, f.kind, f.payload.len(), crc::crc(&f.payload)).unwrap();
        }
        let nine: Vec<String> = heard.nine.iter().map(u64::to_string).collect();
        writeln!(answers, "{}", nine.join(" ")).unwrap();
    }
    assert!(streams.len() < 65_536, "the program reads 65,536 bytes");
    std::fs::write(format!("{folder}/data/streams"), streams).expect("written");
    std::fs::write(format!("{folder}/stdout"), answers).expect("written");
}
