//! The link receiver's doors.
use super::{answer, Answer};
use crate::oracle::{Heard, Nine, Plain};

extern "C" {
    fn johkkesir_push_u8(place: *mut [u64; 10], body: *mut [u8; 256], found: *mut [u64; 4], byte: u8) -> u64;
    fn johkkesir_feed(place: *mut [u64; 10], body: *mut [u8; 256], found: *mut [u64; 4], s: *const u8, len: usize) -> u64;
    fn johkkesir_reset_counters(place: *mut [u64; 10], body: *mut [u8; 256]) -> u64;
    fn johkkesir_ledger(s: *const u8, len: usize, out: *mut [u64; 10]);
}

/// The receiver's state as it crosses a door: `place` is the state's number, the length and the eight tallies in the ledger's order;
/// `found` is what a call finds: its answer (0, 1 for a frame, or a refusal), and a frame's address, type and payload length. A call gives how
/// many bytes were taken.
#[derive(Debug, Clone, Eq, PartialEq)]
pub struct Receiver {
    pub place: [u64; 10],
    pub body: [u8; 256],
    pub found: [u64; 4],
}

impl Default for Receiver {
    fn default() -> Self {
        Self::new()
    }
}

impl Receiver {
    pub fn new() -> Self {
        Receiver { place: [0; 10], body: [0; 256], found: [0; 4] }
    }

    /// 1 for a frame, 0 for none, or a refusal; and how many bytes were taken.
    pub fn push_u8(&mut self, byte: u8) -> (Answer, usize) {
        let taken = unsafe { johkkesir_push_u8(&mut self.place, &mut self.body, &mut self.found, byte) };
        (answer(self.found[0]), taken as usize)
    }

    /// The same for a slice, up to the first frame or the end.
    #[inline]
    pub fn feed(&mut self, s: &[u8]) -> (Answer, usize) {
        let taken = unsafe { johkkesir_feed(&mut self.place, &mut self.body, &mut self.found, s.as_ptr(), s.len()) };
        (answer(self.found[0]), taken as usize)
    }

    pub fn reset_counters(&mut self) -> Answer {
        answer(unsafe { johkkesir_reset_counters(&mut self.place, &mut self.body) })
    }

    /// The frame that the last call found, read off the body.
    pub fn frame(&self) -> Plain {
        let len = self.found[3] as usize;
        Plain { address: self.found[1] as u16, kind: self.found[2] as u16, payload: self.body[4..4 + len].to_vec() }
    }

    /// The ledger's nine numbers.
    pub fn nine(&self) -> Nine {
        let p = &self.place;
        [p[2], p[3], p[4], p[5], p[6], p[7], p[8], p[9], u64::from(p[0] == 3 || p[0] == 4)]
    }

    /// The open frame's units; none outside a frame.
    pub fn units(&self) -> Vec<u8> {
        self.body[..self.place[1] as usize].to_vec()
    }

    pub fn heard(&self, frames: Vec<Plain>) -> Heard {
        Heard { nine: self.nine(), state: self.place[0] as u8, body: self.units(), frames }
    }
}

/// State, length and tallies after a whole slice, from fresh.
pub fn ledger(s: &[u8]) -> [u64; 10] {
    let mut out = [0; 10];
    unsafe { johkkesir_ledger(s.as_ptr(), s.len(), &mut out) };
    out
}
