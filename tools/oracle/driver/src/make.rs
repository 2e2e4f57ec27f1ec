//! What makes the inputs: streams of every kind that 01's rules tell apart, and a capture that looks like a line.
use crate::oracle::Plain;
use crate::rng::Rng;

/// Bytes by which the rules of the wire and of the reading go.
pub const INTERESTING: [u8; 20] = [
    0x00, 0xff, 0x7e, 0x07, 0x08, 0x01, 0x06, 0x41, 0x24, 0x23, 0x25, 0xa3, 0xa4, 0xa5, 0x02, 0x03, 0x04, 0x05, 0x09, 0x7f,
];

/// The eighteen named frame types.
pub const TYPES: [u16; 18] = [
    0x0148, 0x0149, 0x0b0f, 0x0b10, 0x0b00, 0x0b01, 0x0014, 0x0015, 0x0038, 0x0039, 0x003c, 0x003d, 0x003a, 0x003b, 0x000a,
    0x000b, 0x0e02, 0x0006,
];

pub fn interesting_bytes(rng: &mut Rng, n: usize) -> Vec<u8> {
    (0..n).map(|_| if rng.one_in(4) { rng.byte() } else { rng.pick(&INTERESTING) }).collect()
}

/// Any frame: address and type anything, a payload of `len` bytes, many of them escaped.
pub fn frame_of(rng: &mut Rng, len: usize) -> Plain {
    let address = match rng.below(4) {
        0 => rng.pick(&[0x0000, 0x8000, 0x7fff, 0xffff, 0x7e24, 0x23a5, 0xa37e]),
        _ => rng.word(),
    };
    let kind = match rng.below(4) {
        0 => rng.word(),
        1 => rng.pick(&[0x7e7e, 0x2425, 0x0000, 0xffff]),
        _ => rng.pick(&TYPES),
    };
    let payload = if rng.one_in(3) { rng.bytes(len) } else { interesting_bytes(rng, len) };
    Plain { address, kind, payload }
}

/// A payload length, the limits more often than their share.
pub fn payload_length(rng: &mut Rng) -> usize {
    match rng.below(8) {
        0 => rng.pick(&[0, 1, 2, 248, 249, 250]),
        1 => rng.within(200, 250),
        2 => rng.within(0, 250),
        _ => rng.within(0, 24),
    }
}

pub fn frame(rng: &mut Rng) -> Plain {
    let len = payload_length(rng);
    frame_of(rng, len)
}

/// One data unit of a frame: a raw byte, or an escape.
fn unit(rng: &mut Rng, escaped: bool, out: &mut Vec<u8>) {
    if escaped {
        out.push(0x7e);
        out.push(rng.within(0, 6) as u8);
    } else {
        let byte = if rng.one_in(3) { rng.pick(&INTERESTING) } else { rng.byte() };
        out.push(if byte == 0x7e { 0x24 } else { byte });
    }
}

/// An opened frame with `units` data units, the last as asked for, and what follows it.
pub fn units(rng: &mut Rng, units: usize, last_escaped: bool, after: &[u8]) -> Vec<u8> {
    let mut out = vec![0x7e, 0x07];
    let share = rng.pick(&[2, 8, 1000]);
    for i in 0..units {
        let escaped = if i + 1 == units { last_escaped } else { rng.one_in(share) };
        unit(rng, escaped, &mut out);
    }
    out.extend_from_slice(after);
    out
}

/// A sound frame whose body has exactly `units` data units: the check is right, the encoding the Rust's.
pub fn sound_of(rng: &mut Rng, units: usize) -> Vec<u8> {
    frame_of(rng, units - 6).encode()
}

/// What lies between frames on a line.
pub fn between(rng: &mut Rng, out: &mut Vec<u8>) {
    match rng.below(8) {
        0 => {
            for _ in 0..rng.within(1, 6) {
                out.push(rng.byte());
            }
        }
        1 => out.extend(interesting_bytes(rng, 3)),
        2 => out.push(0x7e),
        3..=5 => {
            for _ in 0..rng.within(1, 12) {
                out.push(rng.pick(&[0x00, 0xff, 0xff]));
            }
        }
        _ => {}
    }
}

/// Frames in a row, good ones and overlong and broken ones, with noise between.
pub fn mixed(rng: &mut Rng, frames: usize) -> Vec<u8> {
    let mut out = Vec::new();
    for _ in 0..frames {
        between(rng, &mut out);
        match rng.below(12) {
            0 => {
                let n = rng.within(250, 262);
                let last = rng.one_in(2);
                let after: &[u8] = rng.pick(&[&[0x7e, 0x08][..], &[0x7e, 0x07], &[0x7e, 0x7e, 0x08], &[0x08], &[0x07], &[0x41, 0x7e, 0x07]]);
                out.extend(units(rng, n, last, after));
            }
            1 => {
                let n = rng.within(0, 8);
                out.extend(units(rng, n, false, &[0x7e, 0x08]));
            }
            2 => {
                let n = rng.within(0, 30);
                let after = [0x7e, rng.pick(&[0x07, 0x09, 0x7e, 0xff, 0x00])];
                out.extend(units(rng, n, false, &after));
            }
            _ => out.extend(frame(rng).encode()),
        }
    }
    out
}

/// A copy with a few faults: a byte changed, dropped, doubled or put in, a stretch dropped, two stretches exchanged.
pub fn damaged(rng: &mut Rng, stream: &[u8]) -> Vec<u8> {
    let mut out = stream.to_vec();
    for _ in 0..rng.within(1, 4) {
        if out.is_empty() {
            break;
        }
        let at = rng.below(out.len());
        match rng.below(7) {
            0 => out[at] ^= 1 << rng.below(8),
            1 => out[at] = rng.pick(&INTERESTING),
            2 => {
                out.remove(at);
            }
            3 => out.insert(at, rng.pick(&INTERESTING)),
            4 => out.insert(at, out[at]),
            5 => {
                let end = (at + rng.within(1, 40)).min(out.len());
                out.drain(at..end);
            }
            _ => out.truncate(at),
        }
    }
    out
}

/// Places at which a stream of `len` bytes is cut, in rising order.
pub fn cuts(rng: &mut Rng, len: usize) -> Vec<usize> {
    let mut at = 0;
    let mut cuts = Vec::new();
    let most = rng.pick(&[1, 3, 20, 300, 5000]);
    while at < len {
        at += rng.within(1, most);
        if at < len {
            cuts.push(at);
        }
    }
    cuts
}

/// A stream of one of the kinds above.
pub fn stream(rng: &mut Rng) -> Vec<u8> {
    match rng.below(10) {
        0 => {
            let n = rng.within(0, 60);
            interesting_bytes(rng, n)
        }
        1 => {
            let n = rng.within(0, 200);
            rng.bytes(n)
        }
        2 => {
            // only the bytes that the framing goes by
            let n = rng.within(0, 80);
            (0..n).map(|_| rng.pick(&[0x7e, 0x07, 0x08, 0x7e, 0x00, 0xff, 0x41, 0x01])).collect()
        }
        3 => {
            let n = rng.within(250, 260);
            let last = rng.one_in(2);
            let mut after = interesting_bytes(rng, 6);
            if rng.one_in(2) {
                after.extend([0x7e, 0x08]);
            }
            let mut s = units(rng, n, last, &after);
            between(rng, &mut s);
            s.extend(frame(rng).encode());
            s
        }
        4..=6 => {
            let n = rng.within(1, 6);
            mixed(rng, n)
        }
        _ => {
            let n = rng.within(1, 6);
            let s = mixed(rng, n);
            damaged(rng, &s)
        }
    }
}

// ---- a capture that looks like a line

const GATEWAYS: [u16; 5] = [0x1201, 0x1202, 0x1203, 0x0007, 0x7ffe];

struct Line {
    rng: Rng,
    out: Vec<u8>,
    number: [u16; GATEWAYS.len()],
    sequence: u8,
    slot: u16,
}

impl Line {
    fn send(&mut self, from: bool, gateway: u16, kind: u16, payload: Vec<u8>) {
        let address = if from { gateway | 0x8000 } else { gateway };
        let mut bytes = Plain { address, kind, payload }.encode();
        if self.rng.one_in(150) {
            bytes = damaged(&mut self.rng, &bytes);
        }
        self.out.extend(bytes);
        // the line rests between frames, and now and then it is noisy
        for _ in 0..self.rng.below(4) {
            self.out.push(0xff);
        }
        if self.rng.one_in(60) {
            let n = self.rng.within(1, 9);
            let noise = self.rng.bytes(n);
            self.out.extend(noise);
        }
    }

    /// A packet of the PV network in a receive response: seven bytes and its data.
    fn packet(&mut self) -> Vec<u8> {
        let n = self.rng.pick(&[13, 13, 13, 15, 6, 40]);
        let mut packet = vec![0x31, 0x00, self.rng.byte(), 0x10, self.rng.byte(), self.rng.byte(), n];
        packet.extend(self.rng.bytes(usize::from(n)));
        packet
    }

    fn receive(&mut self, g: usize) {
        let asked = self.number[g].to_be_bytes();
        self.send(false, GATEWAYS[g], 0x0148, vec![0x00, 0x01, asked[0], asked[1], 0x04]);
        let packets = self.rng.pick(&[0, 0, 1, 1, 2, 4]);
        let mut payload = match self.rng.below(3) {
            0 => vec![0x00, 0xe0, 0x04, 0x0e, 0x00, 0x01, 0x02, 0x00, asked[0], asked[1]],
            1 => vec![0x00, 0xee, 0x04, asked[0], asked[1]],
            _ => vec![0x00, 0xff, asked[1]],
        };
        self.slot = self.slot.wrapping_add(200);
        payload.extend(self.slot.to_be_bytes());
        for _ in 0..packets {
            let packet = self.packet();
            payload.extend(packet);
        }
        if self.rng.one_in(100) {
            payload.pop();
        }
        payload.truncate(250);
        self.number[g] = self.number[g].wrapping_add(packets as u16);
        self.send(true, GATEWAYS[g], 0x0149, payload);
    }

    fn command(&mut self, g: usize) {
        self.sequence = self.sequence.wrapping_add(1);
        let n = self.rng.within(0, 40);
        let mut request = vec![0x00, 0x00, 0x00, 0x26, self.sequence];
        request.extend(self.rng.bytes(n));
        let twice = self.rng.one_in(12);
        self.send(false, GATEWAYS[g], 0x0b0f, request.clone());
        if twice {
            self.send(false, GATEWAYS[g], 0x0b0f, request);
        }
        if !self.rng.one_in(40) {
            let n = self.rng.within(0, 60);
            let mut response = vec![0x00, 0x0e, 0x00, 0x27, self.sequence];
            response.extend(self.rng.bytes(n));
            self.send(true, GATEWAYS[g], 0x0b10, response);
        }
    }

    /// The start of a day: who is there, by which address and version.
    fn enumeration(&mut self) {
        self.send(false, 0, 0x0014, vec![0x37, 0x9f, 0x1e, 0x36, 0x12, 0x35]);
        self.send(true, 0, 0x0015, vec![]);
        for g in GATEWAYS {
            let mut long = vec![0x04, 0xc0, 0x5b, 0x30, 0x00, 0x02, 0xbe];
            long.push(g as u8);
            long.extend(g.to_be_bytes());
            self.send(false, 0x1235, 0x0038, vec![]);
            self.send(true, 0x1235, 0x0039, long.clone());
            self.send(false, 0x1235, 0x003c, long.clone());
            self.send(true, g, 0x003d, vec![]);
            self.send(false, g, 0x003a, vec![]);
            self.send(true, g, 0x003b, long);
            self.send(false, g, 0x000a, vec![]);
            self.send(true, g, 0x000b, b"Mgate Version G8.59\rJul  6 2020\r16:51:51\rGW-H158.4.3S0.12\r".to_vec());
            self.send(false, g, 0x0e02, vec![]);
            self.send(true, g, 0x0006, vec![]);
        }
    }

    fn turn(&mut self) {
        let g = self.rng.below(GATEWAYS.len());
        match self.rng.below(40) {
            0 => {
                self.send(false, GATEWAYS[g], 0x0b00, vec![0x01]);
                self.send(true, GATEWAYS[g], 0x0b01, vec![0x01]);
            }
            1..=6 => self.command(g),
            7 if self.rng.one_in(200) => self.enumeration(),
            8 if self.rng.one_in(10) => {
                // a talker that never ends its frame
                let n = self.rng.within(240, 700);
                let tail = units(&mut self.rng, n, false, &[0x7e, 0x08]);
                self.out.extend(tail);
            }
            _ => self.receive(g),
        }
    }
}

/// At least `size` bytes of a line: enumeration, receive requests and responses with packets, commands, pings,
/// noise, damage and a rare overlong frame.
pub fn capture(seed: u64, size: usize) -> Vec<u8> {
    let mut line =
        Line { rng: Rng::of(seed, "capture"), out: Vec::with_capacity(size + 4096), number: [0x1200; 5], sequence: 0, slot: 0 };
    line.enumeration();
    while line.out.len() < size {
        line.turn();
    }
    line.out
}
