//! The Rust's receivers over a capture: the event log on standard output, or what they count.
//!
//!     events FILE             01's event records, one after the other
//!     events FILE --ledger    the nine numbers of the link (openings, escaped, broken and open read off its state) and the 33 counters
//!
//! Where a table would hold more than 01 gives it, the domain of equality ends: the log stops before that frame, a line on standard
//! error says where, and the status is 3.
use driver::log::log;
use driver::oracle::Watched;
use driver::say;
use std::io::Write;

const NAMES: [&str; 9] = ["openings", "frames", "runts", "checksums", "giants", "escaped", "broken", "noise", "open"];

fn main() {
    let words: Vec<String> = std::env::args().skip(1).collect();
    let capture = std::fs::read(words.first().expect("events FILE [--ledger]")).expect("a file that can be read");
    say::quiet();
    let (log, end) = log(&capture);
    if words.get(1).is_some_and(|w| w == "--ledger") {
        let mut link = Watched::new();
        capture[..end].iter().for_each(|b| link.push(*b));
        NAMES.iter().zip(link.nine()).for_each(|(name, n)| say::say(&format!("{name} {n}")));
        log.transport.named_counters().iter().for_each(|(name, n)| say::say(&format!("{name} {n}")));
    } else {
        say::write(&log.records);
    }
    if let Some(number) = log.full {
        let told = writeln!(std::io::stderr(), "events: {number} is due at frame {}, which ends at byte {end} of {}", log.frames + 1, capture.len());
        told.expect("written");
        std::process::exit(3);
    }
}
