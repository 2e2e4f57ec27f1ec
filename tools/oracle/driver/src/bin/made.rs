//! Takes made-up states of the transport receiver through the proved side: cases on standard input, what became of them on standard output.
//! tools/model/states.py makes the cases up and judges the answers; the Rust, which cannot hold such states, has no part in it.
//!
//! All numbers are little-endian. A case is a state (its arrays in the order of `Transport`), a byte that is 1 for a reset of the counters and
//! 0 for a frame, and the frame: a byte that is 1 for From, gateway ID (2), type (2), payload length (2), payload. An answer is a refusal's
//! number or 0 (8), what the door answered otherwise (8), its four news (8 each) and the state afterwards.
use driver::doors::transport::Transport;
use std::io::{Read, Write};

struct Cases<'a>(&'a [u8]);

impl Cases<'_> {
    fn take<const N: usize>(&mut self) -> [u8; N] {
        let (first, rest) = self.0.split_at(N);
        self.0 = rest;
        first.try_into().expect("so many bytes")
    }

    fn two(&mut self) -> u16 {
        u16::from_le_bytes(self.take())
    }

    fn four(&mut self) -> u32 {
        u32::from_le_bytes(self.take())
    }

    fn state(&mut self) -> Box<Transport> {
        let mut t = Box::new(Transport::new());
        t.nkeys.fill_with(|| self.four());
        t.numbers.fill_with(|| self.two());
        t.skeys.fill_with(|| self.four());
        t.sequences = self.take();
        t.ckeys.fill_with(|| self.four());
        t.ctypes = self.take();
        t.clengths.fill_with(|| self.two());
        t.cpayloads = self.take();
        t.counters.fill_with(|| u64::from_le_bytes(self.take()));
        t
    }
}

fn put(out: &mut Vec<u8>, t: &Transport) {
    t.nkeys.iter().for_each(|k| out.extend(k.to_le_bytes()));
    t.numbers.iter().for_each(|n| out.extend(n.to_le_bytes()));
    t.skeys.iter().for_each(|k| out.extend(k.to_le_bytes()));
    out.extend(t.sequences);
    t.ckeys.iter().for_each(|k| out.extend(k.to_le_bytes()));
    out.extend(t.ctypes);
    t.clengths.iter().for_each(|n| out.extend(n.to_le_bytes()));
    out.extend(t.cpayloads);
    t.counters.iter().for_each(|c| out.extend(c.to_le_bytes()));
}

fn main() {
    let (mut bytes, mut out) = (Vec::new(), Vec::new());
    std::io::stdin().read_to_end(&mut bytes).expect("cases");
    let mut cases = Cases(&bytes);
    while !cases.0.is_empty() {
        let mut t = cases.state();
        let [reset, from] = cases.take();
        let (id, kind, len) = (cases.two(), cases.two(), usize::from(cases.two()));
        let (payload, rest) = cases.0.split_at(len);
        cases.0 = rest;
        let answer = if reset == 1 { t.reset() } else { t.step(from == 1, id, kind, payload) };
        out.extend(answer.err().unwrap_or(0).to_le_bytes());
        out.extend(answer.unwrap_or(0).to_le_bytes());
        t.news.iter().for_each(|n| out.extend(n.to_le_bytes()));
        put(&mut out, &t);
    }
    std::io::stdout().write_all(&out).expect("written");
}
