//! A search for bad days: streams made by rule from a few bytes, of which nobody thought one by one. Each is timed as frames handed out, by turns,
//! the best of many short rounds; a figure here says where to look, and a row of the race says how much it is.
use super::*;

/// The bytes that make a difference to the link receiver, and one of each sort that makes none.
const LETTERS: [u8; 7] = [0x00, 0x41, 0x7e, 0x07, 0x08, 0x01, 0xff];
const SIZE: usize = 1 << 16;
const ROUNDS: usize = 25;

struct Found {
    ratio: f64,
    rust: f64,
    ours: f64,
    name: String,
}

fn tried(name: String, s: &[u8]) -> Found {
    let (mut rust, mut ours) = (f64::MAX, f64::MAX);
    for _ in 0..ROUNDS {
        let a = timed(&mut || rust_frames(black_box(s)));
        let b = timed(&mut || our_frames(black_box(s)));
        assert_eq!(a.1, b.1, "{name}: the two sides disagree");
        // so short a round now and then ends before the clock has moved
        if a.0 == 0.0 || b.0 == 0.0 {
            continue;
        }
        rust = rust.min(a.0 / s.len() as f64);
        ours = ours.min(b.0 / s.len() as f64);
    }
    Found { ratio: ours / rust, rust, ours, name }
}

/// Every list of `n` letters.
fn patterns(n: u32) -> impl Iterator<Item = Vec<u8>> {
    let count = LETTERS.len();
    (0..count.pow(n)).map(move |k| (0..n).map(|i| LETTERS[k / count.pow(i) % count]).collect())
}

fn kept(bytes: Vec<u8>) -> &'static [u8] {
    Box::leak(bytes.into_boxed_slice())
}

/// Prints the streams whose ratio is `least` or more.
pub fn search(least: f64) {
    let mut found = Vec::new();
    for n in 1..=4 {
        for pattern in patterns(n) {
            let pattern = kept(pattern);
            found.push(tried(format!("{pattern:02x?} again and again"), &cycled(SIZE, pattern)()));
            if n == 4 {
                continue;
            }
            found.push(tried(format!("a tail of {pattern:02x?}"), &tail_of(SIZE, pattern)()));
            for times in [1, 3, 20, 100] {
                let frame = [&[0xff, 0x7e, 0x07], &pattern.repeat(times)[..], &[0x7e, 0x08]].concat();
                found.push(tried(format!("a frame of {times} times {pattern:02x?}"), &cycled(SIZE, kept(frame))()));
            }
        }
    }
    for mask in 1..1 << LETTERS.len() {
        let set: Vec<u8> = (0..LETTERS.len()).filter(|i| mask >> i & 1 == 1).map(|i| LETTERS[i]).collect();
        if set.len() < 2 {
            continue;
        }
        let set = kept(set);
        let random = random_of(SIZE, set)();
        found.push(tried(format!("random of {set:02x?}"), &random));
        found.push(tried(format!("a tail of random {set:02x?}"), &tail_of(SIZE, kept(random))()));
        for most in [2, 3, 5, 9, 17] {
            found.push(tried(format!("runs of 1 to {most} of {set:02x?}"), &runs_of(SIZE, most, set)()));
        }
    }
    for most in [0, 1, 2, 4, 8, 10, 14, 20, 30, 60, 250] {
        found.push(tried(format!("payloads of {most}"), &encoded(SIZE, most, most)));
        found.push(tried(format!("payloads of 0 to {most}"), &encoded(SIZE, 0, most)));
    }
    found.sort_by(|a, b| b.ratio.total_cmp(&a.ratio));
    for f in found.iter().take_while(|f| least <= f.ratio) {
        println!("{:.2}  Rust {:.2}  ours {:.2}  {}", f.ratio, f.rust, f.ours, f.name);
    }
    let over = |bar: f64| found.iter().filter(|f| bar < f.ratio).count();
    println!("{} streams: {} over 1.0, {} over 0.9, {} over 0.8; half of them at {:.2} or below", found.len(), over(1.0), over(0.9), over(0.8), found[found.len() / 2].ratio);
}
