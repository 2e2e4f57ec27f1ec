//! 01's event log as the Rust's two receivers make it, one on the other: their events, each as a record of 01's house form.
use crate::oracle::transport::{Event, Transport};
use crate::oracle::Plain;
use taptap::gateway::link::{self, Frame};

const RECEIVE_REQUEST: u16 = 0x0148;
const RECEIVE_RESPONSE: u16 = 0x0149;
const COMMAND_REQUEST: u16 = 0x0b0f;

/// 01, "Event record": length of what follows (2), version 1, kind, gateway (2), body.
fn record(event: &Event, mark: Option<u8>) -> Vec<u8> {
    let len = (4 + event.body.len() + mark.iter().len()) as u16;
    let mut out = len.to_be_bytes().to_vec();
    out.extend([1, event.kind]);
    out.extend(event.gateway.to_be_bytes());
    out.extend(&event.body);
    out.extend(mark);
    out
}

/// A sink of frames: the Rust's transport receiver, and the records of its events so far.
#[derive(Default)]
pub struct Log {
    pub transport: Transport,
    pub records: Vec<u8>,
    pub frames: u64,
    /// The refusal that is due where a table would take more entries than 01 gives it. The domain of equality ends there.
    pub full: Option<u64>,
}

impl Log {
    /// Which table holds more than its places after a frame, by the number of its refusal.
    fn over(&self, kind: u16) -> Option<u64> {
        if kind == RECEIVE_REQUEST {
            return (self.transport.numbers().len() > 32).then_some(25);
        }
        if kind != COMMAND_REQUEST {
            return None;
        }
        let tables = self.transport.tables();
        if tables.sequences.len() > 32 {
            return Some(26);
        }
        (tables.waiting.len() > 64).then_some(27)
    }

    /// The Rust's events of a frame, with the repeat mark, which is no knowledge of the Rust's: a good response replaces its gateway's
    /// number, so the mark is set when the numbers are the same before and after.
    fn take(&mut self, frame: &Plain) {
        let asked = frame.kind == RECEIVE_RESPONSE;
        let before = if asked { self.transport.numbers() } else { Vec::new() };
        self.transport.frame(frame);
        self.full = self.over(frame.kind);
        if self.full.is_some() {
            return;
        }
        self.frames += 1;
        for event in self.transport.events() {
            let mark = (event.kind == 6).then(|| u8::from(before == self.transport.numbers()));
            self.records.extend(record(&event, mark));
        }
    }
}

impl link::Sink for Log {
    fn frame(&mut self, frame: Frame) {
        if self.full.is_none() {
            self.take(&frame.into());
        }
    }
}

/// The log of a capture, and the place after the last byte that was taken: the end, unless a table is full before.
pub fn log(capture: &[u8]) -> (Log, usize) {
    let mut receiver = link::Receiver::new(Log::default());
    for (i, byte) in capture.iter().enumerate() {
        receiver.extend_from_slice(&[*byte]);
        if receiver.sink().full.is_some() {
            return (receiver.into_inner(), i + 1);
        }
    }
    (receiver.into_inner(), capture.len())
}
