//! The Rust, as compiled from its own files: what it knows of a stream, a frame or a payload, as plain numbers and bytes.
use std::fmt::Write;
use taptap::gateway::link::{self, Address, Frame, GatewayID, Type};

pub mod transport;

/// The same file again, as a module that can be reached: its functions are private to the link layer in the crate.
#[path = "../../../../target/taptap/src/gateway/link/escaping.rs"]
#[allow(dead_code)]
pub mod escaping;

/// The stand-in for the check, likewise.
#[path = "../../../../target/taptap/src/gateway/link/crc.rs"]
pub mod crc;

/// A frame in plain values: address and type as their 16 bits.
#[derive(Debug, Clone, Eq, PartialEq)]
pub struct Plain {
    pub address: u16,
    pub kind: u16,
    pub payload: Vec<u8>,
}

impl From<Frame> for Plain {
    fn from(frame: Frame) -> Self {
        Plain { address: frame.address.into(), kind: frame.frame_type.0, payload: frame.payload }
    }
}

impl Plain {
    pub fn frame(&self) -> Frame {
        Frame { address: Address::from(self.address), frame_type: Type(self.kind), payload: self.payload.clone() }
    }

    pub fn encode(&self) -> Vec<u8> {
        self.frame().encode()
    }
}

pub fn gateway(id: u16) -> Option<GatewayID> {
    GatewayID::try_from(id).ok()
}

/// The seven states, by the names that `Debug` gives them.
pub const STATES: [&str; 7] = ["Idle", "Noise", "StartOfFrame", "Frame", "FrameEscape", "Giant", "GiantEscape"];
const START_OF_FRAME: u8 = 2;
const FRAME: u8 = 3;
const FRAME_ESCAPE: u8 = 4;
const GIANT_ESCAPE: u8 = 6;
const NOISE: u8 = 1;

/// 01's nine numbers in the ledger's order: openings, frames, runts, checksums, giants, escaped, broken, noise, open.
pub type Nine = [u64; 9];

/// All that a receiver is known by after a stream.
#[derive(Debug, Clone, Eq, PartialEq)]
pub struct Heard {
    pub nine: Nine,
    pub state: u8,
    pub body: Vec<u8>,
    pub frames: Vec<Plain>,
}

/// Takes the first bytes of a `Debug` text and then stops it, so that the state is had without the rest.
struct Head {
    text: [u8; 64],
    len: usize,
}

impl Write for Head {
    fn write_str(&mut self, s: &str) -> std::fmt::Result {
        let n = s.len().min(self.text.len() - self.len);
        self.text[self.len..self.len + n].copy_from_slice(&s.as_bytes()[..n]);
        self.len += n;
        if n < s.len() || self.len == self.text.len() {
            Err(std::fmt::Error)
        } else {
            Ok(())
        }
    }
}

/// A sink whose `Debug` text is empty, so that the receiver's state comes first in its own.
#[derive(Default)]
pub struct Frames(pub Vec<Plain>);

impl std::fmt::Debug for Frames {
    fn fmt(&self, _: &mut std::fmt::Formatter) -> std::fmt::Result {
        Ok(())
    }
}

impl link::Sink for Frames {
    fn frame(&mut self, frame: Frame) {
        self.0.push(frame.into());
    }
}

/// The Rust's receiver, with the three counts that it does not keep read off its `Debug` state around each byte.
pub struct Watched {
    receiver: link::Receiver<Frames>,
    state: u8,
    openings: u64,
    escaped: u64,
    broken: u64,
}

impl Default for Watched {
    fn default() -> Self {
        Self::new()
    }
}

impl Watched {
    pub fn new() -> Self {
        let receiver = link::Receiver::new(Frames::default());
        let state = state_of(&receiver);
        Watched { receiver, state, openings: 0, escaped: 0, broken: 0 }
    }

    pub fn push(&mut self, byte: u8) {
        self.receiver.extend_from_slice(&[byte]);
        let to = state_of(&self.receiver);
        match (self.state, to) {
            (START_OF_FRAME | GIANT_ESCAPE, FRAME) => self.openings += 1,
            (FRAME_ESCAPE, GIANT_ESCAPE) => self.escaped += 1,
            (FRAME_ESCAPE, NOISE) => self.broken += 1,
            _ => {}
        }
        self.state = to;
    }

    pub fn reset(&mut self) {
        self.receiver.reset_counters();
        self.openings = 0;
        self.escaped = 0;
        self.broken = 0;
    }

    pub fn nine(&self) -> Nine {
        let c = self.receiver.counters();
        let open = u64::from(self.state == FRAME || self.state == FRAME_ESCAPE);
        [self.openings, c.frames, c.runts, c.checksums, c.giants, self.escaped, self.broken, c.noise, open]
    }

    pub fn heard(&self) -> Heard {
        Heard { nine: self.nine(), state: self.state, body: body_of(&self.receiver), frames: self.receiver.sink().0.clone() }
    }
}

fn state_of(receiver: &link::Receiver<Frames>) -> u8 {
    let mut head = Head { text: [0; 64], len: 0 };
    let _ = write!(head, "{receiver:?}");
    let text = &head.text[..head.len];
    let mark = b"state: ";
    let at = text.windows(mark.len()).position(|w| w == mark).expect("a state") + mark.len();
    let end = at + text[at..].iter().position(|b| *b == b',').expect("its end");
    let name = &text[at..end];
    STATES.iter().position(|s| s.as_bytes() == name).expect("a known state") as u8
}

fn body_of(receiver: &link::Receiver<Frames>) -> Vec<u8> {
    let text = format!("{receiver:?}");
    let at = text.rfind("buffer: [").expect("a buffer") + "buffer: [".len();
    let end = at + text[at..].find(']').expect("its end");
    text[at..end].split(", ").filter(|s| !s.is_empty()).map(|s| s.parse().expect("a byte")).collect()
}

/// What the Rust makes of a stream, with its counters reset before the bytes at the places of `resets`.
pub fn hear(stream: &[u8], resets: &[usize]) -> Heard {
    let mut w = Watched::new();
    for (i, byte) in stream.iter().enumerate() {
        if resets.contains(&i) {
            w.reset();
        }
        w.push(*byte);
    }
    if resets.contains(&stream.len()) {
        w.reset();
    }
    w.heard()
}
