//! Packet areas and headers, status words, packet numbers, slot counters, node IDs and the gateways that payloads name.
use super::Run;
use crate::rng::Rng;
use crate::{doors, make};
use taptap::gateway::transport::{EnumerationStartRequest, IdentifyResponse, InvalidReceiveResponse, ReceiveResponse};
use taptap::pv::link::{LongAddress, SlotCounter, SlotEpoch, SlotNumber, DSN};
use taptap::pv::network::{NodeAddress, NodeID, ReceivedPackets};

/// Where each packet's data starts and ends by the Rust's own walk, whether the area ends too short, and the two counts.
fn walked(area: &[u8]) -> (Vec<(usize, usize)>, [u64; 2]) {
    let base = area.as_ptr() as usize;
    let mut places = Vec::new();
    let mut short = 0;
    for packet in ReceivedPackets(area) {
        match packet {
            Ok((_, data)) => {
                let start = data.as_ptr() as usize - base;
                places.push((start, start + data.len()));
            }
            Err(_) => short += 1,
        }
    }
    let counts = [places.len() as u64, short];
    (places, counts)
}

fn our_walk(area: &[u8]) -> (Vec<(usize, usize)>, [u64; 2]) {
    let mut places = Vec::new();
    let mut at = 0;
    while let doors::Found::Packet(start, end) = doors::packet_at(area, at) {
        places.push((start, end));
        at = end;
    }
    let ended = doors::packet_at(area, at) == doors::Found::Finished;
    let counts = doors::packets(area);
    assert_eq!(ended, counts[1] == 0, "the walk and the counts end alike");
    (places, counts)
}

/// An area of whole packets, often with a short end.
fn area(rng: &mut Rng) -> Vec<u8> {
    let mut area = Vec::new();
    for _ in 0..rng.below(6) {
        let n = rng.pick(&[0, 0, 1, 2, 7, 13, 40, 255]);
        area.extend(rng.bytes(6));
        area.push(n);
        area.extend(rng.bytes(usize::from(n)));
    }
    match rng.below(4) {
        0 => {}
        1 => {
            let n = rng.below(12);
            area.extend(rng.bytes(n));
        }
        2 => area.truncate(rng.below(area.len() + 1)),
        _ => {
            for _ in 0..rng.below(3) {
                if !area.is_empty() {
                    let at = rng.below(area.len());
                    area[at] = rng.byte();
                }
            }
        }
    }
    area
}

pub fn packets(run: &mut Run) {
    let name = "packet areas: every length to 40 with every length byte to 34, random areas, whole and cut short";
    let mut rng = run.part("packets");
    let mut n = 0;
    for len in 0..=40 {
        for data in 0..=34 {
            let mut area = rng.bytes(len);
            if len > 6 {
                area[6] = data;
            }
            run.same(name, &area, &walked, &our_walk);
            n += 1;
        }
    }
    for _ in 0..run.times(100_000) {
        let area = if rng.one_in(5) { make::interesting_bytes(&mut rng, 60) } else { area(&mut rng) };
        run.same(name, &area, &walked, &our_walk);
        n += 1;
    }
    run.done(name, n);
}

pub fn status(run: &mut Run) {
    let name = "status words: every one, on payloads of 2 to 14 bytes (accepted, length needed, where the area starts)";
    let mut rng = run.part("status");
    let mut n = 0;
    for status in 0..=u16::MAX {
        let mut payload = status.to_be_bytes().to_vec();
        payload.extend(rng.bytes(12));
        for len in 2..=14 {
            let rust = match ReceiveResponse::read_from_bytes(&payload[..len], 0x1234) {
                Err(InvalidReceiveResponse::UnknownStatusType(_)) => Err(22),
                Err(InvalidReceiveResponse::TooShort(n)) => Ok((n, false)),
                Ok((_, area)) => Ok((len - area.0.len(), true)),
            };
            let ours = if doors::accepted(status) { Ok((doors::needed(status), doors::needed(status) <= len)) } else { Err(22) };
            if rust != ours {
                run.differ(name, &format!("on {status:04x} of {len} bytes: the Rust {rust:?}, ours {ours:?}"));
            }
            n += 1;
        }
    }
    run.done(name, n);
}

pub fn numbers(run: &mut Run) {
    let name = "packet numbers: every low byte after every number";
    for old in 0..=u16::MAX {
        for lo in 0..=255 {
            let (read, _) = ReceiveResponse::read_from_bytes(&[0x00, 0xff, lo, 0, 0], old).expect("a whole response");
            let ours = doors::interpret_packet_number_lo(lo, old);
            if read.packet_number != ours {
                run.differ(name, &format!("on {lo:02x} after {old:04x}: the Rust {:04x}, ours {ours:04x}", read.packet_number));
            }
        }
    }
    run.done(name, 1 << 24);
}

fn read(payload: &[u8], old: u16) -> Result<[u64; 7], (u64, u64)> {
    let byte = |b: Option<u8>| b.map_or(1 << 16, u64::from);
    let pair = |p: Option<[u8; 2]>| p.map_or(1 << 16, |p| u64::from(u16::from_be_bytes(p)));
    match ReceiveResponse::read_from_bytes(payload, old) {
        Ok((r, area)) => Ok([
            byte(r.rx_buffers_used),
            byte(r.tx_buffers_free),
            pair(r.unknown_a),
            pair(r.unknown_b),
            u64::from(r.packet_number),
            u64::from(u16::from(r.slot_counter)),
            (payload.len() - area.0.len()) as u64,
        ]),
        Err(InvalidReceiveResponse::UnknownStatusType(s)) => Err((22, u64::from(s))),
        Err(InvalidReceiveResponse::TooShort(n)) => Err((23, n as u64)),
    }
}

pub fn responses(run: &mut Run) {
    let name = "receive responses: every low status byte, payloads of every length to 40, random fields and numbers";
    let mut rng = run.part("responses");
    let mut n = 0;
    for status in 0..=255 {
        for len in 0..=40 {
            for _ in 0..run.times(4) {
                let mut payload = rng.bytes(len);
                if len > 1 {
                    payload[1] = status;
                }
                let old = rng.word();
                run.same(name, &payload, &|p| read(p, old), &|p| doors::receive_response(p, old));
                n += 1;
            }
        }
    }
    run.done(name, n);
}

const EPOCHS: [SlotEpoch; 4] = [SlotEpoch::Epoch0, SlotEpoch::Epoch4, SlotEpoch::Epoch8, SlotEpoch::EpochC];

pub fn slots(run: &mut Run) {
    let name = "slot counters: every counter's epoch and number, every epoch and number made, every epoch addition";
    let mut n = 0;
    for c in 0..=u16::MAX {
        let rust = SlotCounter::from(c);
        let number = rust.slot_number().map(u16::from).map_err(|e| e.0);
        if (rust.epoch() as u8, number) != (doors::slot_epoch(c), doors::slot_number(c)) {
            run.differ(name, &format!("on {c:04x}: the Rust {:?} {number:?}, ours {} {:?}", rust.epoch(), doors::slot_epoch(c), doors::slot_number(c)));
        }
        for place in 0..4 {
            let rust = SlotNumber::try_from(c).map(|n| u16::from(SlotCounter::new(EPOCHS[usize::from(place)], n))).map_err(|e| e.0);
            if rust != doors::slot_counter(place, c) {
                run.differ(name, &format!("new of epoch {place} and {c:04x}: the Rust {rust:?}, ours {:?}", doors::slot_counter(place, c)));
            }
        }
        n += 5;
    }
    for place in 0..4 {
        for more in 0..=255 {
            let rust = (EPOCHS[usize::from(place)] + more) as u8;
            let mut assigned = EPOCHS[usize::from(place)];
            assigned += more;
            if rust != doors::epoch_add(place, more) || assigned as u8 != rust {
                run.differ(name, &format!("epoch {place} and {more}: the Rust {rust}, ours {}", doors::epoch_add(place, more)));
            }
            n += 1;
        }
    }
    run.done(name, n);

    let name = "slots_since: every counter against 120 others on a grid of the limits and at random, both ways";
    let mut rng = run.part("slots");
    let mut others: Vec<u16> = Vec::new();
    for epoch in [0x0000, 0x4000, 0x8000, 0xc000] {
        others.extend([0, 1, 2, 5999, 6000, 11_998, 11_999, 12_000, 12_001, 0x3fff].map(|n: u16| epoch | n));
    }
    while others.len() < 120 {
        others.push(rng.word());
    }
    let mut n = 0;
    for c in 0..=u16::MAX {
        for p in others.iter().copied().chain([c]) {
            for (a, b) in [(c, p), (p, c)] {
                let rust = SlotCounter::from(a).slots_since(&SlotCounter::from(b)).map_err(|e| e.0);
                if rust != doors::slots_since(a, b) {
                    run.differ(name, &format!("{a:04x} since {b:04x}: the Rust {rust:?}, ours {:?}", doors::slots_since(a, b)));
                }
                n += 1;
            }
        }
    }
    run.done(name, n);
}

pub fn nodes(run: &mut Run) {
    let name = "node IDs, their addresses and successors, and the gateways that payloads name: every 16-bit number";
    let number = |id: NodeID| NodeAddress::from(id).0.get();
    let mut n = 0;
    for value in 0..=u16::MAX {
        let node: Option<NodeID> = NodeAddress::from(value).into();
        let made = NodeID::try_from(value).ok();
        let rust = (node.map(number), NodeAddress::from(made).0.get(), made.and_then(|id| id.successor()).map(number));
        let ours = (doors::node(value), doors::node_address(value), doors::successor(value));
        if rust != ours || node != made {
            run.differ(name, &format!("on {value:04x}: the Rust {rust:?}, ours {ours:?}"));
        }
        let address = value.to_be_bytes();
        let identity = IdentifyResponse { pv_long_address: LongAddress([7; 8]), gateway_address: address };
        let start = EnumerationStartRequest { unknown: [7; 4], enumeration_address: address };
        let rust = (identity.gateway_id().map(u16::from), start.enumeration_gateway_id().map(u16::from));
        let ours = (doors::identified(&[&[7; 8], &address[..]].concat()), doors::enumerated(&[&[7; 4], &address[..]].concat()));
        if rust != ours {
            run.differ(name, &format!("named by {value:04x}: the Rust {rust:?}, ours {ours:?}"));
        }
        n += 5;
    }
    run.done(name, n);

    let name = "data sequence numbers: every sum";
    for dsn in 0..=255 {
        for more in 0..=255 {
            let rust = (DSN(dsn) + more).0;
            if rust != doors::dsn_add(dsn, more) {
                run.differ(name, &format!("{dsn} and {more}: the Rust {rust}, ours {}", doors::dsn_add(dsn, more)));
            }
        }
    }
    run.done(name, 1 << 16);

    let name = "packet headers: random bytes, 0 to 6 of them and a whole packet's";
    let mut rng = run.part("headers");
    let count = run.times(100_000);
    for _ in 0..count {
        let size = if rng.one_in(10) { rng.below(7) } else { 7 + 255 };
        let packet = rng.bytes(size);
        let rust = match ReceivedPackets(&packet).next() {
            Some(Ok((h, _))) => {
                let words = [h.node_address.0.get(), h.short_address.0.get(), u16::from(h.dsn.0), u16::from(h.data_length)].map(u64::from);
                Some([u64::from(h.packet_type.0), words[0], words[1], words[2], words[3]])
            }
            _ => None,
        };
        if rust != doors::header(&packet) {
            run.differ(name, &format!("on {}: the Rust {rust:?}, ours {:?}", crate::show::short(&packet), doors::header(&packet)));
        }
    }
    run.done(name, count as u64);
}
