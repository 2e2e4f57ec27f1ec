//! The differential run: the Rust and the proved side on the same inputs. Ends with a count and 'no difference', or with the
//! first difference and the smallest input found for it.
//!
//!     diff [SEED [SCALE [PART]]]      SCALE: how many times the random inputs, 1 or a part of it; PART: leaves, payloads, link or transport alone
use driver::compare::{leaves, link, payloads, transport, Run};
use driver::say;

fn main() {
    let words: Vec<String> = std::env::args().skip(1).collect();
    let number = |i: usize| words.get(i).map_or(1.0, |w| w.parse().expect("diff [SEED [SCALE [PART]]]"));
    let (seed, scale) = (number(0) as u64, number(1));
    let part = |name: &str| words.get(2).map_or(true, |w| w == name);
    let mut run = Run { seed, scale, cases: 0 };
    say::quiet();
    say::say(&format!("seed {seed}, scale {scale}"));
    if part("leaves") {
        leaves::check(&mut run);
        leaves::unescape(&mut run);
        leaves::escape(&mut run);
        leaves::address(&mut run);
        leaves::encode(&mut run);
        leaves::text(&mut run);
    }
    if part("payloads") {
        payloads::packets(&mut run);
        payloads::status(&mut run);
        payloads::numbers(&mut run);
        payloads::responses(&mut run);
        payloads::slots(&mut run);
        payloads::nodes(&mut run);
    }
    if part("link") {
        link::exhaustive(&mut run);
        link::runs(&mut run);
        link::short_runs(&mut run);
        link::limits(&mut run);
        link::random(&mut run);
        link::made_up(&mut run);
        link::captures(&mut run);
    }
    if part("transport") {
        transport::steps(&mut run);
        transport::refused(&mut run);
        transport::captures(&mut run);
    }
    say::say(&format!("{} cases, no difference", run.cases));
}
