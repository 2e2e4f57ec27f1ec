//! The parts of the differential run.
use crate::rng::Rng;
use crate::say::say;
use crate::{show, shrink};

pub mod leaves;
pub mod link;
pub mod payloads;
pub mod transport;

pub struct Run {
    pub seed: u64,
    pub scale: f64,
    pub cases: u64,
}

impl Run {
    /// How many of a part's random inputs are tried: its own number times the scale, and one at least.
    pub fn times(&self, n: usize) -> usize {
        ((n as f64 * self.scale) as usize).max(1)
    }

    /// Numbers of its own for each part.
    pub fn part(&self, name: &str) -> Rng {
        Rng::of(self.seed, name)
    }

    pub fn done(&mut self, name: &str, cases: u64) {
        say(&format!("{cases:>9}  {name}"));
        self.cases += cases;
    }

    pub fn differ(&self, name: &str, what: &str) -> ! {
        say(&format!("DIFFERENCE in {name} (seed {}): {what}", self.seed));
        std::process::exit(1);
    }

    /// Holds two answers on one input to each other; where they differ, a smaller input is looked for.
    pub fn same<T: PartialEq + std::fmt::Debug>(&self, name: &str, input: &[u8], rust: &dyn Fn(&[u8]) -> T, ours: &dyn Fn(&[u8]) -> T) {
        if rust(input) == ours(input) {
            return;
        }
        let small = shrink::shrink(input, &mut |s| rust(s) != ours(s));
        self.differ(name, &format!("on {}\n  the Rust: {:?}\n  ours:     {:?}", show::short(&small), rust(&small), ours(&small)));
    }
}
