//! The race: the Rust and the proved side on the same bytes in one process, run by turns, best and median of many.
//!
//! The rows stand in two groups: 'typical', what a line and a desk see every day, and 'bad days', streams that damage or a talker gone mad
//! could make and whose runs are of one or two bytes. At the end stands each group's worst ratio.
//!
//!     race [ROUNDS [MIB [NAME]]]      NAME: only the rows whose name has it
//!     race search [LEAST]             some 5,600 small streams, made by rule: those whose ratio is LEAST (0.8) or more, the worst first
mod search;

use driver::doors;
use driver::doors::link as ours;
use driver::make;
use driver::oracle::{self, Plain};
use driver::rng::Rng;
use std::hint::black_box;
use taptap::gateway::link::{self, Frame, GatewayID};
use taptap::gateway::transport;
use taptap::pv::network::ReceivedPacketHeader;
use taptap::pv::{LongAddress, PacketType, SlotCounter};

/// How many bytes a row goes through, and the two sides of it.
type Row = (usize, Box<dyn FnMut() -> u64>, Box<dyn FnMut() -> u64>);

/// The rows by name. A row's input is made when its turn comes, so that a row can be run, and looked at, alone.
#[derive(Default)]
struct Rows(Vec<(String, Box<dyn FnOnce() -> Row>)>);

impl Rows {
    fn add(&mut self, name: impl Into<String>, row: impl FnOnce() -> Row + 'static) {
        self.0.push((name.into(), Box::new(row)));
    }

    /// The two rows of a stream: its ledger, and its frames handed out.
    fn stream(&mut self, name: &str, stream: impl FnOnce() -> Vec<u8> + Clone + 'static) {
        let kept = move || -> &'static [u8] { Box::leak(stream().into_boxed_slice()) };
        let again = kept.clone();
        self.add(format!("{name}: ledger"), move || {
            let s = kept();
            (s.len(), Box::new(move || rust_ledger(black_box(s))), Box::new(move || our_ledger(black_box(s))))
        });
        self.add(format!("{name}: frames"), move || {
            let s = again();
            (s.len(), Box::new(move || rust_frames(black_box(s))), Box::new(move || our_frames(black_box(s))))
        });
    }
}

/// Nanoseconds a byte: the least of the rounds, and the one in their middle.
fn figures(times: &mut [f64], bytes: usize) -> (f64, f64) {
    times.sort_by(f64::total_cmp);
    (times[0] / bytes as f64, times[times.len() / 2] / bytes as f64)
}

/// Nanoseconds that this thread has had a processor: on a shared machine a clock on the wall counts its neighbours too.
fn clock() -> f64 {
    #[repr(C)]
    struct Time {
        seconds: i64,
        nanoseconds: i64,
    }
    extern "C" {
        fn clock_gettime(clock: i32, time: *mut Time) -> i32;
    }
    const THREAD_CPU_TIME: i32 = 3;
    let mut time = Time { seconds: 0, nanoseconds: 0 };
    assert_eq!(unsafe { clock_gettime(THREAD_CPU_TIME, &mut time) }, 0, "a clock");
    time.seconds as f64 * 1e9 + time.nanoseconds as f64
}

fn timed(f: &mut dyn FnMut() -> u64) -> (f64, u64) {
    let start = clock();
    let result = black_box(f());
    (clock() - start, result)
}

/// Runs a row and prints it; the ratio of the two bests.
fn race(name: &str, (bytes, mut rusts, mut own): Row, rounds: usize) -> f64 {
    let (mut rust, mut ours) = (Vec::new(), Vec::new());
    for round in 0..rounds {
        // who goes first changes, so that neither always finds the cache warm
        let (a, b) = if round % 2 == 0 {
            let a = timed(&mut rusts);
            (a, timed(&mut own))
        } else {
            let b = timed(&mut own);
            (timed(&mut rusts), b)
        };
        assert_eq!(a.1, b.1, "{name}: the two sides disagree");
        rust.push(a.0);
        ours.push(b.0);
    }
    let (r, o) = (figures(&mut rust, bytes), figures(&mut ours, bytes));
    println!(
        "| {:<46} | {:>6.2} | {:>6.2} | {:>6.0} | {:>6.2} | {:>6.2} | {:>6.0} | {:>5.2} | {:>5.2} |",
        name,
        r.0,
        r.1,
        1000.0 / r.0,
        o.0,
        o.1,
        1000.0 / o.0,
        o.0 / r.0,
        o.1 / r.1
    );
    o.0 / r.0
}

// ---- the link receiver

/// A sink for the ledger, which drops each frame unseen. rustc then leaves out the frame's `Vec` altogether.
#[derive(Debug, Default)]
struct Unseen;

impl link::Sink for Unseen {
    fn frame(&mut self, _: Frame) {}
}

/// A sink to which frames are handed out: each payload's bytes have to be there, and their lengths are added up.
#[derive(Debug, Default)]
struct Looked(u64);

impl link::Sink for Looked {
    fn frame(&mut self, frame: Frame) {
        self.0 += looked(&frame.payload);
    }
}

fn looked(payload: &[u8]) -> u64 {
    black_box(payload).len() as u64
}

/// The five counters as one number.
fn told(frames: u64, runts: u64, checksums: u64, giants: u64, noise: u64) -> u64 {
    [frames, runts, checksums, giants, noise].iter().fold(0, |sum, n| sum.wrapping_mul(1_000_003).wrapping_add(*n))
}

#[inline(never)]
fn rust_ledger(s: &[u8]) -> u64 {
    let mut r = link::Receiver::new(Unseen);
    r.extend_from_slice(s);
    let c = r.counters();
    told(c.frames, c.runts, c.checksums, c.giants, c.noise)
}

#[inline(never)]
fn our_ledger(s: &[u8]) -> u64 {
    let p = ours::ledger(s);
    told(p[3], p[4], p[5], p[6], p[9])
}

#[inline(never)]
fn rust_frames(s: &[u8]) -> u64 {
    let mut r = link::Receiver::new(Looked::default());
    r.extend_from_slice(s);
    let c = r.counters();
    told(c.frames, c.runts, c.checksums, c.giants, c.noise).wrapping_add(r.sink().0)
}

#[inline(never)]
fn our_frames(s: &[u8]) -> u64 {
    let mut r = ours::Receiver::new();
    let mut sum = 0;
    let mut at = 0;
    while at < s.len() {
        let (answer, taken) = r.feed(&s[at..]);
        if answer == Ok(1) {
            sum += looked(&r.body[4..4 + r.found[3] as usize]);
        }
        at += taken;
    }
    let p = &r.place;
    told(p[3], p[4], p[5], p[6], p[9]).wrapping_add(sum)
}

fn repeated(size: usize, mut one: impl FnMut() -> Vec<u8>) -> Vec<u8> {
    let mut out = Vec::with_capacity(size + 8192);
    while out.len() < size {
        out.extend(one());
    }
    out
}

// ---- the check

fn check_row(size: usize, slice: usize) -> Row {
    let data: &'static [u8] = Box::leak(Rng::new(3).bytes(size).into_boxed_slice());
    (size, Box::new(move || rust_checks(black_box(data), slice)), Box::new(move || our_checks(black_box(data), slice)))
}

#[inline(never)]
fn rust_checks(data: &[u8], slice: usize) -> u64 {
    data.chunks(slice).map(|s| u64::from(oracle::crc::crc(s))).sum()
}

#[inline(never)]
fn our_checks(data: &[u8], slice: usize) -> u64 {
    data.chunks(slice).map(|s| u64::from(doors::crc(s))).sum()
}

// ---- link and transport

/// A sink of events that adds up the lengths of what they carry.
#[derive(Debug, Default)]
struct Told(u64);

impl transport::Sink for Told {
    fn enumeration_started(&mut self, gateway: GatewayID) {
        self.0 += u64::from(u16::from(gateway));
    }
    fn gateway_identity_observed(&mut self, _: GatewayID, address: LongAddress) {
        self.0 += u64::from(address.0[7]);
    }
    fn gateway_version_observed(&mut self, _: GatewayID, version: &str) {
        self.0 += version.len() as u64;
    }
    fn enumeration_ended(&mut self, _: GatewayID) {
        self.0 += 1;
    }
    fn gateway_slot_counter_captured(&mut self, _: GatewayID) {
        self.0 += 1;
    }
    fn gateway_slot_counter_observed(&mut self, _: GatewayID, slot: SlotCounter) {
        self.0 += u64::from(u16::from(slot));
    }
    fn packet_received(&mut self, _: GatewayID, _: &ReceivedPacketHeader, data: &[u8]) {
        self.0 += data.len() as u64;
    }
    fn command_executed(&mut self, _: GatewayID, request: (PacketType, &[u8]), response: (PacketType, &[u8])) {
        self.0 += (request.1.len() + response.1.len()) as u64;
    }
}

#[inline(never)]
fn rust_whole(s: &[u8]) -> u64 {
    let mut r = link::Receiver::new(transport::Receiver::new(Told::default()));
    r.extend_from_slice(s);
    let c = r.sink().counters();
    r.sink().sink().0.wrapping_add(c.receive_packets).wrapping_add(c.command_responses << 32)
}

#[inline(never)]
fn our_whole(s: &[u8]) -> u64 {
    let mut r = ours::Receiver::new();
    let mut t = Box::new(doors::transport::Transport::new());
    let mut sum = 0;
    let mut at = 0;
    while at < s.len() {
        let (answer, taken) = r.feed(&s[at..]);
        if answer == Ok(1) {
            let address = r.found[1] as u16;
            let payload = &r.body[4..4 + r.found[3] as usize];
            sum += our_event(&mut t, address, r.found[2] as u16, payload);
        }
        at += taken;
    }
    let c = &t.counters;
    sum.wrapping_add(c[6]).wrapping_add(c[13] << 32)
}

/// The same sum for what one frame says.
fn our_event(t: &mut doors::transport::Transport, address: u16, kind: u16, payload: &[u8]) -> u64 {
    match t.step(address >= 0x8000, address & 0x7fff, kind, payload) {
        Ok(1) => t.news[0],
        Ok(2) => u64::from(payload[7]),
        Ok(3) => payload.len() as u64,
        Ok(4) | Ok(5) => 1,
        Ok(6) => {
            let area = &payload[t.news[3] as usize..];
            let mut sum = t.news[1];
            let mut at = 0;
            while let doors::Found::Packet(start, end) = doors::packet_at(area, at) {
                sum += (end - start) as u64;
                at = end;
            }
            sum
        }
        Ok(8) => t.news[2] + payload.len() as u64 - 5,
        _ => 0,
    }
}

// ---- encode

/// Frames with payloads of `least` to `most` random bytes, encoded one by one: by the Rust into a new `Vec`, by ours into one lent buffer
/// that is never cleared.
fn encode_row(size: usize, least: usize, most: usize) -> Row {
    let mut rng = Rng::of(2, "encode");
    let mut frames = Vec::new();
    let mut bytes = 0;
    while bytes < size / 4 {
        let n = rng.within(least, most);
        frames.push(frame(&mut rng, n));
        bytes += n + 6;
    }
    let taken: Vec<Frame> = frames.iter().map(Plain::frame).collect();
    let mut out = [0; 519];
    (bytes, Box::new(move || rust_encodes(black_box(&taken))), Box::new(move || our_encodes(black_box(&frames), &mut out)))
}

#[inline(never)]
fn rust_encodes(frames: &[Frame]) -> u64 {
    frames.iter().map(|f| sum(&f.encode())).sum()
}

#[inline(never)]
fn our_encodes(frames: &[Plain], out: &mut [u8; 519]) -> u64 {
    let mut total = 0;
    for f in frames {
        let n = doors::encode(f.address >= 0x8000, f.address & 0x7fff, f.kind, &f.payload, out).expect("room") as usize;
        total += sum(&out[..n]);
    }
    total
}

/// A look at what was written: its length and its ends.
fn sum(wire: &[u8]) -> u64 {
    wire.len() as u64 + u64::from(wire[wire.len() - 3])
}

/// Frames with payloads of `least` to `most` random bytes in a row, as the Rust encodes them.
fn encoded(size: usize, least: usize, most: usize) -> Vec<u8> {
    let mut rng = Rng::of(2, "frames");
    repeated(size, || {
        let n = rng.within(least, most);
        frame(&mut rng, n).encode()
    })
}

/// What a line and a desk see every day.
fn typical(size: usize) -> Rows {
    let mut rows = Rows::default();
    rows.add("crc, slices of 10 bytes", move || check_row(size, 10));
    rows.add("crc, slices of 64 bytes", move || check_row(size, 64));
    rows.add("crc, slices of 254 bytes", move || check_row(size, 254));
    rows.add("encode, payloads of 0 to 14", move || encode_row(size, 0, 14));
    rows.add("encode, payloads of 20 to 120", move || encode_row(size, 20, 120));
    rows.add("encode, payloads of 194 to 250", move || encode_row(size, 194, 250));
    rows.add("link and transport, capture: all events", move || {
        let s: &'static [u8] = Box::leak(make::capture(1, size).into_boxed_slice());
        (s.len(), Box::new(move || rust_whole(black_box(s))), Box::new(move || our_whole(black_box(s))))
    });
    rows.stream("capture", move || make::capture(1, size));
    rows.stream("bodies of 6 to 20", move || encoded(size, 0, 14));
    rows.stream("bodies of 200 to 256", move || encoded(size, 194, 250));
    rows.stream("idle ff", move || vec![0xff; size]);
    rows.stream("noise", move || Rng::of(2, "noise").bytes(size));
    rows.stream("tails of data", move || encoded(size, 4000, 4000));
    rows.stream("tails of many pairs", move || {
        let mut rng = Rng::of(2, "tails");
        repeated(size, || make::units(&mut rng, 4000, false, &[0x7e, 0x08]))
    });
    rows
}

/// The bytes again and again.
fn cycled(size: usize, bytes: &'static [u8]) -> impl FnOnce() -> Vec<u8> + Clone {
    move || repeated(size, || bytes.to_vec())
}

/// Random bytes of a few.
fn random_of(size: usize, bytes: &'static [u8]) -> impl FnOnce() -> Vec<u8> + Clone {
    move || {
        let mut rng = Rng::of(2, "few");
        (0..size).map(|_| rng.pick(bytes)).collect()
    }
}

/// An overlong frame whose tail goes on with the bytes, to the end of the stream.
fn tail_of(size: usize, bytes: &'static [u8]) -> impl FnOnce() -> Vec<u8> + Clone {
    move || {
        let mut out = vec![0x7e, 0x07];
        out.extend([0x41; 257]);
        out.extend(repeated(size, || bytes.to_vec()));
        out
    }
}

/// Frames, one after another, with the same payload.
fn frames_of(size: usize, payload: Vec<u8>) -> impl FnOnce() -> Vec<u8> + Clone {
    let one = Plain { address: 0x9201, kind: 0x0b00, payload }.encode();
    move || repeated(size, || one.clone())
}

/// Runs of the bytes, each of 1 to `most` of one of them.
fn runs_of(size: usize, most: usize, bytes: &'static [u8]) -> impl FnOnce() -> Vec<u8> + Clone {
    move || {
        let mut rng = Rng::of(2, "runs");
        repeated(size, || {
            let n = rng.within(1, most);
            vec![rng.pick(bytes); n]
        })
    }
}

/// Streams that damage could make, or a talker gone mad. What an encoder writes is not among them, but for frames that are all escapes.
fn bad_days(size: usize) -> Rows {
    let mut rows = Rows::default();
    rows.stream("a tail of 07", tail_of(size, &[0x07]));
    rows.stream("a tail of 08 41", tail_of(size, &[0x08, 0x41]));
    rows.stream("a tail of 41 41 41 41 07", tail_of(size, &[0x41, 0x41, 0x41, 0x41, 0x07]));
    rows.stream("a tail of 41 41 41 41 41 41 7e 41 08", tail_of(size, &[0x41, 0x41, 0x41, 0x41, 0x41, 0x41, 0x7e, 0x41, 0x08]));
    rows.stream("a tail of 7e 7e", tail_of(size, &[0x7e]));
    rows.stream("a tail of 7e 41", tail_of(size, &[0x7e, 0x41]));
    rows.stream("a tail of 7e 7e 07", tail_of(size, &[0x7e, 0x7e, 0x07]));
    rows.stream("tails ended at once by 7e 07", {
        let mut one = vec![0x41; 257];
        one.extend([0x7e, 0x07]);
        move || {
            let mut out = vec![0x7e, 0x07];
            out.extend(repeated(size, || one.clone()));
            out
        }
    });
    rows.stream("escaped overlong frames", {
        let mut one = vec![0x7e, 0x07];
        one.extend([0x41; 256]);
        one.extend([0x7e, 0x01, 0x08]);
        move || repeated(size, || one.clone())
    });
    rows.stream("41 00 by turns", cycled(size, &[0x41, 0x00]));
    rows.stream("00 ff by turns", cycled(size, &[0x00, 0xff]));
    rows.stream("41 41 00", cycled(size, &[0x41, 0x41, 0x00]));
    rows.stream("outside pairs 7e 7e", cycled(size, &[0x7e]));
    rows.stream("outside pairs 7e 00 ff", cycled(size, &[0x7e, 0x00, 0xff]));
    rows.stream("outside pairs 7e 00 ff ff", cycled(size, &[0x7e, 0x00, 0xff, 0xff]));
    rows.stream("outside pairs 41 7e 41", cycled(size, &[0x41, 0x7e, 0x41]));
    rows.stream("broken at once, 7e 07 7e 07", cycled(size, &[0x7e, 0x07, 0x7e, 0x07]));
    rows.stream("opened and broken by turns, 7e 07 41", cycled(size, &[0x7e, 0x07, 0x41]));
    rows.stream("opened and broken by turns, 7e 07 41 41", cycled(size, &[0x7e, 0x07, 0x41, 0x41]));
    rows.stream("opened and broken by turns, 7e 07 00 00", cycled(size, &[0x7e, 0x07, 0x00, 0x00]));
    rows.stream("broken by 7e 09 after a unit", cycled(size, &[0x7e, 0x07, 0x41, 0x7e, 0x09]));
    rows.stream("runts, 7e 07 7e 08", cycled(size, &[0x7e, 0x07, 0x7e, 0x08]));
    rows.stream("runts of one unit and noise", cycled(size, &[0x7e, 0x07, 0x41, 0x7e, 0x08, 0x41]));
    rows.stream("runts of two units", cycled(size, &[0xff, 0x7e, 0x07, 0x41, 0x41, 0x7e, 0x08]));
    rows.stream("frames of one unit", cycled(size, &[0x7e, 0x07, 0x41, 0x7e, 0x08]));
    rows.stream("frames of one escape", cycled(size, &[0x7e, 0x07, 0x7e, 0x00, 0x7e, 0x08]));
    rows.stream("runts of 0 to 5 random units", move || {
        let mut rng = Rng::of(2, "runts");
        repeated(size, || {
            let n = rng.within(0, 5);
            let mut one = vec![0xff, 0x7e, 0x07];
            one.extend((0..n).map(|_| rng.pick(&[0x41, 0x42, 0x00, 0xff])));
            one.extend([0x7e, 0x08]);
            one
        })
    });
    rows.stream("wrong checks of six", cycled(size, &[0xff, 0x7e, 0x07, 1, 2, 3, 4, 5, 6, 0x7e, 0x08]));
    rows.stream("empty pings", frames_of(size, vec![]));
    rows.stream("random empty pings", move || encoded(size, 0, 0));
    rows.stream("frames of 250 times 7e", frames_of(size, vec![0x7e; 250]));
    rows.stream("frames of 41 7e by turns", frames_of(size, [0x41, 0x7e].repeat(125)));
    rows.stream("frames of 41 41 41 a5 by turns", frames_of(size, [0x41, 0x41, 0x41, 0xa5].repeat(62)));
    rows.stream("frames of escapes and others at random", move || {
        let mut rng = Rng::of(2, "escapes");
        repeated(size, || {
            let payload = (0..rng.within(20, 250)).map(|_| rng.pick(&[0x7e, 0x24, 0xa3, 0x41, 0x42])).collect();
            Plain { address: 0x9201, kind: 0x0b00, payload }.encode()
        })
    });
    rows.stream("a noise before each short frame", move || {
        let mut rng = Rng::of(2, "one noise");
        repeated(size, || {
            let mut one = vec![0x41];
            let n = rng.within(0, 14);
            one.extend(Plain { address: 0x1201, kind: 0x0b01, payload: rng.bytes(n) }.encode());
            one
        })
    });
    rows.stream("outside pairs 7e 08", cycled(size, &[0x7e, 0x08]));
    rows.stream("random of 00 41", random_of(size, &[0x00, 0x41]));
    rows.stream("random of 41 7e", random_of(size, &[0x41, 0x7e]));
    rows.stream("random of 00 7e", random_of(size, &[0x00, 0x7e]));
    rows.stream("runs of 1 to 2 of 00 7e", runs_of(size, 2, &[0x00, 0x7e]));
    rows.stream("random of 00 41 7e", random_of(size, &[0x00, 0x41, 0x7e]));
    rows.stream("random of 7e 07", random_of(size, &[0x7e, 0x07]));
    rows.stream("random of 7e 07 08", random_of(size, &[0x7e, 0x07, 0x08]));
    rows.stream("random of 00 ff 41 7e 07 08", random_of(size, &[0x00, 0xff, 0x41, 0x7e, 0x07, 0x08]));
    rows.stream("random of 7e 07 08 00 01 06 ff 41 24", random_of(size, &[0x7e, 0x07, 0x08, 0x00, 0x01, 0x06, 0xff, 0x41, 0x24]));
    rows.stream("runs of 1 to 3 of 00 41 7e 07 08", runs_of(size, 3, &[0x00, 0x41, 0x7e, 0x07, 0x08]));
    rows.stream("runs of 1 to 17 of 00 41", runs_of(size, 17, &[0x00, 0x41]));
    rows.stream("runs of 1 to 17 of 00 41 7e 07", runs_of(size, 17, &[0x00, 0x41, 0x7e, 0x07]));
    rows.stream("a capture damaged all over", move || {
        let mut rng = Rng::of(2, "damage");
        make::capture(1, size).iter().map(|b| if rng.one_in(12) { rng.pick(&make::INTERESTING) } else { *b }).collect()
    });
    rows
}

fn main() {
    let words: Vec<String> = std::env::args().skip(1).collect();
    if words.first().map_or(false, |w| w == "search") {
        return search::search(words.get(1).map_or(0.8, |w| w.parse().expect("race search [LEAST]")));
    }
    let number = |i: usize, n: usize| words.get(i).map_or(n, |w| w.parse().expect("race [ROUNDS [MIB [NAME]]]"));
    let (rounds, size) = (number(0, 21), number(1, 16) << 20);
    println!("{rounds} rounds by turns; {} MiB a row; ns a byte, then MB/s at the best; below 1 in the last two columns ours is faster", size >> 20);
    for (group, rows) in [("typical", typical(size)), ("bad days", bad_days(size))] {
        println!("| {group} | Rust best | median | MB/s | ours best | median | MB/s | best/best | median/median |");
        println!("|---|---|---|---|---|---|---|---|---|");
        let mut worst = (0.0, String::new());
        for (name, row) in rows.0 {
            if words.get(2).map_or(true, |part| name.contains(part.as_str())) {
                let ratio = race(&name, row(), rounds);
                if worst.0 < ratio {
                    worst = (ratio, name);
                }
            }
        }
        println!("worst of {group}: {:.2}, {}", worst.0, worst.1);
    }
}

/// A frame of a payload of random bytes.
fn frame(rng: &mut Rng, len: usize) -> Plain {
    Plain { address: rng.word(), kind: rng.pick(&make::TYPES), payload: rng.bytes(len) }
}
