//! The check, escapes, addresses and encode.
use super::Run;
use crate::oracle::Plain;
use crate::{doors, make, oracle, show};
use taptap::gateway::link::Address;

pub fn check(run: &mut Run) {
    let name = "crc: every slice of 0 to 2 bytes, random ones of every length to 600";
    let rust = |s: &[u8]| oracle::crc::crc(s);
    let ours = |s: &[u8]| doors::crc(s);
    let mut n = 1;
    run.same(name, &[], &rust, &ours);
    for a in 0..=255 {
        run.same(name, &[a], &rust, &ours);
        for b in 0..=255 {
            run.same(name, &[a, b], &rust, &ours);
        }
        n += 257;
    }
    let mut rng = run.part("check");
    for len in 0..=600 {
        for _ in 0..run.times(20) {
            let s = rng.bytes(len);
            run.same(name, &s, &rust, &ours);
            n += 1;
        }
    }
    run.done(name, n);
}

pub fn unescape(run: &mut Run) {
    let name = "unescaped_byte: every byte";
    for code in 0..=255 {
        let rust = oracle::escaping::unescaped_byte(code).map(u64::from).map_err(|_| 14);
        let ours = doors::unescaped_byte(code);
        if rust != ours {
            run.differ(name, &format!("on {code:02x}: the Rust {rust:?}, ours {ours:?}"));
        }
    }
    run.done(name, 256);
}

/// The answer and the whole buffer that an escape into `room` bytes leaves, by the Rust's escaped form.
fn escaped(input: &[u8], before: &[u8]) -> (doors::Answer, Vec<u8>) {
    let mut form = Vec::new();
    oracle::escaping::escape(input, &mut form);
    let mut after = before.to_vec();
    if input.len() > 65_536 {
        return (Err(10), after);
    }
    if form.len() > before.len() {
        return (Err(11), after);
    }
    after[..form.len()].copy_from_slice(&form);
    (Ok(form.len() as u64), after)
}

fn escape_into(input: &[u8], before: &[u8]) -> (doors::Answer, Vec<u8>) {
    let mut out = before.to_vec();
    let answer = doors::escape(input, &mut out);
    (answer, out)
}

pub fn escape(run: &mut Run) {
    let name = "escape and its length: every byte, random inputs to 300 bytes, room below, at and above the exact length";
    let mut rng = run.part("escape");
    let mut n = 0;
    let mut inputs: Vec<Vec<u8>> = (0..=255).map(|b| vec![b]).collect();
    inputs.push(Vec::new());
    for _ in 0..run.times(20_000) {
        let len = rng.within(0, 300);
        inputs.push(if rng.one_in(2) { rng.bytes(len) } else { make::interesting_bytes(&mut rng, len) });
    }
    for input in &inputs {
        let exact = oracle::escaping::escaped_length(input);
        run.same(name, input, &|s| Ok(oracle::escaping::escaped_length(s) as u64), &doors::escaped_length);
        for room in [0, exact.saturating_sub(1), exact, exact + 1, exact + 7] {
            let before = rng.bytes(room);
            run.same(name, input, &|s| escaped(s, &before), &|s| escape_into(s, &before));
            n += 1;
        }
        n += 1;
    }
    run.done(name, n);

    let name = "escape and its length: inputs of 65,535 to 65,538 bytes (10 above 65,536)";
    let mut n = 0;
    for len in 65_535..=65_538 {
        for input in [vec![0x7e; len], vec![0x41; len], rng.bytes(len)] {
            let length = if len > 65_536 { Err(10) } else { Ok(oracle::escaping::escaped_length(&input) as u64) };
            let exact = oracle::escaping::escaped_length(&input);
            let mut good = doors::escaped_length(&input) == length;
            for room in [0, exact - 1, exact, exact + 1] {
                let before = rng.bytes(room);
                good &= escaped(&input, &before) == escape_into(&input, &before);
                n += 1;
            }
            if !good {
                run.differ(name, &format!("on {}", show::short(&input)));
            }
        }
    }
    run.done(name, n);
}

pub fn address(run: &mut Run) {
    let name = "address and gateway ID: every 16-bit number, both ways";
    for number in 0..=u16::MAX {
        let rust = match Address::from(number) {
            Address::From(id) => (true, u16::from(id)),
            Address::To(id) => (false, u16::from(id)),
        };
        let back = u64::from(u16::from(Address::from(number)));
        let ours = doors::address(number);
        if rust != ours || doors::address_number(ours.0, ours.1) != Ok(back) {
            run.differ(name, &format!("on {number:04x}: the Rust {rust:?}, ours {ours:?}"));
        }
        let rust = oracle::gateway(number).map(|id| u64::from(u16::from(id))).ok_or(13);
        let ours = doors::gateway_id(number);
        if rust != ours {
            run.differ(name, &format!("on ID {number:04x}: the Rust {rust:?}, ours {ours:?}"));
        }
        for from in [false, true] {
            let made = oracle::gateway(number).map(|id| u64::from(u16::from(if from { Address::From(id) } else { Address::To(id) }))).ok_or(13);
            if doors::address_number(from, number) != made {
                run.differ(name, &format!("on ID {number:04x}, From {from}: the Rust {made:?}, ours {:?}", doors::address_number(from, number)));
            }
        }
    }
    run.done(name, 4 << 16);
}

/// Bytes at both sides of each of RFC 3629's limits.
const EDGES: [u8; 26] = [
    0x00, 0x41, 0x7f, 0x80, 0x8f, 0x90, 0x9f, 0xa0, 0xbf, 0xc0, 0xc1, 0xc2, 0xdf, 0xe0, 0xe1, 0xec, 0xed, 0xee, 0xef, 0xf0, 0xf1, 0xf3,
    0xf4, 0xf5, 0xfe, 0xff,
];

pub fn text(run: &mut Run) {
    let rust = |s: &[u8]| matches!(std::str::from_utf8(s), Ok(t) if !t.is_empty());
    let name = "text: every one of 0 to 3 bytes";
    let mut n = 1;
    run.same(name, &[], &rust, &doors::is_text);
    for a in 0..=255 {
        run.same(name, &[a], &rust, &doors::is_text);
        for b in 0..=255 {
            run.same(name, &[a, b], &rust, &doors::is_text);
            for c in 0..=255 {
                run.same(name, &[a, b, c], &rust, &doors::is_text);
            }
        }
        n += 1 + 256 + 65_536;
    }
    run.done(name, n);

    let name = "text: every one of 4 bytes at the limits of RFC 3629, between other characters too";
    let mut n = 0;
    for a in EDGES {
        for b in EDGES {
            for c in EDGES {
                for d in EDGES {
                    run.same(name, &[a, b, c, d], &rust, &doors::is_text);
                    run.same(name, &[0x41, a, b, c, d, 0x42], &rust, &doors::is_text);
                    n += 2;
                }
            }
        }
    }
    run.done(name, n);

    let name = "text: random characters of every length, whole and damaged, to 250 bytes";
    let mut rng = run.part("text");
    let count = run.times(50_000);
    for _ in 0..count {
        let mut s = String::new();
        let most = rng.within(0, 250);
        while s.len() < most {
            let top = rng.pick(&[0x80, 0x800, 0x10000, 0x110000]);
            if let Some(c) = char::from_u32(rng.below(top) as u32) {
                s.push(c);
            }
        }
        let mut bytes = s.into_bytes();
        if rng.one_in(2) && !bytes.is_empty() {
            let at = rng.below(bytes.len());
            match rng.below(3) {
                0 => bytes[at] = rng.pick(&EDGES),
                1 => bytes.truncate(at),
                _ => bytes[at] = rng.byte(),
            }
        }
        run.same(name, &bytes, &rust, &doors::is_text);
    }
    run.done(name, count as u64);
}

/// The answer and the whole buffer after an encoding, by the Rust's encoder and 01's refusals.
fn encoded(from: bool, id: u16, kind: u16, payload: &[u8], before: &[u8]) -> (doors::Answer, Vec<u8>) {
    let mut after = before.to_vec();
    if id > 0x7fff {
        return (Err(13), after);
    }
    if payload.len() > 250 {
        return (Err(10), after);
    }
    let wire = Plain { address: id | if from { 0x8000 } else { 0 }, kind, payload: payload.to_vec() }.encode();
    if wire.len() > before.len() {
        return (Err(11), after);
    }
    after[..wire.len()].copy_from_slice(&wire);
    (Ok(wire.len() as u64), after)
}

fn encode_into(from: bool, id: u16, kind: u16, payload: &[u8], before: &[u8]) -> (doors::Answer, Vec<u8>) {
    let mut out = before.to_vec();
    let answer = doors::encode(from, id, kind, payload, &mut out);
    (answer, out)
}

pub fn encode(run: &mut Run) {
    let name = "encode: payloads of every length to 260, room below, at and above the exact length; every byte of the buffer";
    let mut rng = run.part("encode");
    let mut n = 0;
    for len in 0..=260 {
        for _ in 0..run.times(60) {
            let f = make::frame_of(&mut rng, len);
            let from = rng.one_in(2);
            let id = if rng.one_in(12) { f.address } else { f.address & 0x7fff };
            let exact = f.encode().len() + if from { 0 } else { 2 };
            let room = rng.pick(&[0, 4, exact - 3, exact - 2, exact - 1, exact, exact + 1, exact + 40, 519, 600]);
            let before = rng.bytes(room);
            run.same(name, &f.payload, &|s| encoded(from, id, f.kind, s, &before), &|s| encode_into(from, id, f.kind, s, &before));
            n += 1;
        }
    }
    run.done(name, n);

    let name = "encode: payloads of every length to 72 with each byte that is escaped at every place, and beside another";
    let mut n = 0;
    for len in 1..=72 {
        for at in 0..len {
            for b in [0x7e, 0x23, 0x24, 0x25, 0xa3, 0xa4, 0xa5] {
                let mut payload = vec![0x41; len];
                payload[at] = b;
                let before = rng.bytes(160);
                for other in [at, rng.below(len)] {
                    payload[other] = b;
                    run.same(name, &payload, &|s| encoded(true, 7, 0x0149, s, &before), &|s| encode_into(true, 7, 0x0149, s, &before));
                    n += 1;
                }
            }
        }
    }
    run.done(name, n);

    let name = "encode: every type, and every ID in both directions, with room to spare";
    let mut n = 0;
    for number in 0..=u16::MAX {
        let before = [0x5a; 40];
        for (from, id, kind) in [(false, 0x1201, number), (false, number, 0x0148), (true, number, 0x0149)] {
            run.same(name, &[0x24], &|s| encoded(from, id, kind, s, &before), &|s| encode_into(from, id, kind, s, &before));
            n += 1;
        }
    }
    run.done(name, n);

    let name = "encode: a longest frame, at most 519 bytes";
    let (answer, out) = encode_into(false, 0x2424, 0x2525, &[0x7e; 250], &[0; 600]);
    let worst = encoded(false, 0x2424, 0x2525, &[0x7e; 250], &[0; 600]);
    if (answer, out) != worst || worst.0.is_err() || worst.0 > Ok(519) {
        run.differ(name, &format!("the Rust {:?}, ours {answer:?}", worst.0));
    }
    run.done(name, 1);
}
