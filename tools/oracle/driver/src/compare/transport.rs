//! The transport step: events with all their data, the 33 counters and the tables, after runs of frames.
use super::Run;
use crate::doors::link::Receiver;
use crate::doors::transport as doors;
use crate::oracle::transport::Transport;
use crate::oracle::{hear, Plain};
use crate::rng::Rng;
use crate::say::say;
use crate::{make, show};

/// Refusals that 01 adds: the Rust holds any number of entries and any payload, so a run is compared up to the first of them.
const ADDED: [u64; 4] = [25, 26, 27, 32];

/// How often each answer was given, by the door's number for it or 01's for a refusal.
type Seen = [u64; 40];

/// The answers that random runs have to reach: counted, each event, a command kept, and each refusal of a frame that the link hands on.
const REACHED: [usize; 21] = [0, 1, 2, 3, 4, 5, 6, 8, 9, 20, 21, 22, 23, 24, 25, 26, 27, 28, 29, 30, 31];

/// How a run of frames ended: at its end, or at an added refusal after so many frames.
enum Ended {
    Same,
    Added(u64, usize),
}

fn told(frames: &[Plain]) -> String {
    let last: Vec<String> = frames.iter().rev().take(12).rev().map(|f| format!("{:04x} {:04x} {}", f.address, f.kind, show::hex(&f.payload))).collect();
    format!("{} frames, the last of them {}", frames.len(), last.join(" | "))
}

/// Both sides through the same frames, or what differs and after how many.
fn through(frames: &[Plain], seen: &mut Seen) -> Result<Ended, (usize, String)> {
    let mut rust = Transport::new();
    let mut ours = Box::new(doors::Transport::new());
    for (i, f) in frames.iter().enumerate() {
        // now and then the counters are reset on both sides
        if i % 97 == 96 {
            rust.reset();
            if ours.reset() != Ok(0) {
                return Err((i, "a reset is refused".into()));
            }
        }
        let before = rust.numbers();
        let answer = ours.frame(f);
        seen[answer.unwrap_or_else(|number| number) as usize] += 1;
        if let Err(number) = answer {
            if ADDED.contains(&number) {
                return full(&rust, &ours, f, number).map(|()| Ended::Added(number, i)).map_err(|what| (i, what));
            }
        }
        rust.frame(f);
        let (events, mark) = ours.events(f, answer);
        let theirs = rust.events();
        if events != theirs {
            return Err((i, format!("events: the Rust {theirs:?}, ours {answer:?} {events:?}")));
        }
        if rust.counters() != ours.counters {
            return Err((i, format!("counters: the Rust {:?}, ours {:?}", rust.counters(), ours.counters)));
        }
        if let Some(mark) = mark {
            // the mark is set when the response's number equals the one stored before it
            let repeat = before == rust.numbers();
            if mark != repeat {
                return Err((i, format!("repeat mark: {mark}, and the number before was {before:?}, after {:?}", rust.numbers())));
            }
        }
        if (i % 16 == 0 || i + 1 == frames.len()) && rust.tables() != ours.tables() {
            return Err((i, format!("tables: the Rust {:?}, ours {:?}", rust.tables(), ours.tables())));
        }
    }
    Ok(Ended::Same)
}

/// An added refusal is right if the table is full and the key is new, or the payload is over 250.
fn full(rust: &Transport, ours: &doors::Transport, f: &Plain, number: u64) -> Result<(), String> {
    let tables = rust.tables();
    let gateway = f.address & 0x7fff;
    let right = match number {
        25 => tables.numbers.len() == 32 && !tables.numbers.iter().any(|(g, _)| *g == gateway),
        26 => tables.sequences.len() == 32 && !tables.sequences.iter().any(|(g, _)| *g == gateway),
        27 => tables.waiting.len() == 64 && !tables.waiting.iter().any(|(k, _)| *k == (gateway, f.payload[4])),
        _ => f.payload.len() > 250,
    };
    if right && tables == ours.tables() && rust.counters() == ours.counters {
        Ok(())
    } else {
        Err(format!("refusal {number} is not due, or something changed: {} {} {} held", tables.numbers.len(), tables.sequences.len(), tables.waiting.len()))
    }
}

fn hold(run: &Run, name: &str, frames: &[Plain], seen: &mut Seen) -> Ended {
    match through(frames, seen) {
        Ok(ended) => ended,
        Err((i, _)) => {
            // leave frames out as long as a difference stays
            let mut best = frames[..=i].to_vec();
            let mut k = 0;
            while k < best.len() {
                let mut less = best.clone();
                less.remove(k);
                if through(&less, seen).is_err() {
                    best = less;
                } else {
                    k += 1;
                }
            }
            let what = match through(&best, seen) {
                Err((_, what)) => what,
                Ok(_) => "gone when shrunk".into(),
            };
            run.differ(name, &format!("after {}: {what}", told(&best)));
        }
    }
}

// ---- frames

/// A payload for a type: mostly of the right length, with status words, sequences and texts that meet each other.
fn payload(rng: &mut Rng, kind: u16, few: usize) -> Vec<u8> {
    let bytes = |rng: &mut Rng, n: usize| if rng.one_in(2) { rng.bytes(n) } else { vec![rng.byte() & 3; n] };
    let fixed = |rng: &mut Rng, n: usize| {
        let n = if rng.one_in(8) { rng.pick(&[0, 1, n - 1, n + 1, n + 7]) } else { n };
        bytes(rng, n)
    };
    match kind {
        0x0148 => {
            let mut p = fixed(rng, 5);
            if rng.one_in(2) && p.len() > 3 {
                p[2] = rng.pick(&[0x00, 0x12, 0xff]);
                p[3] = rng.pick(&[0x00, 0x05, 0xff]);
            }
            p
        }
        0x0149 => {
            let (any, low) = (rng.byte(), rng.byte());
            let mut p = vec![rng.byte(), rng.pick(&[0xe0, 0xff, 0xee, 0xf0, 0xfe, 0xe0 | low, 0xdf, any])];
            let n = rng.within(0, 14);
            p.extend(bytes(rng, n));
            for _ in 0..rng.below(4) {
                let n = rng.pick(&[0, 1, 13, 40]);
                p.extend(rng.bytes(6));
                p.push(n);
                p.extend(rng.bytes(usize::from(n)));
            }
            if rng.one_in(5) {
                p.truncate(rng.below(p.len() + 1));
            }
            p.truncate(250);
            p
        }
        0x0b0f | 0x0b10 => {
            let n = rng.pick(&[5, 5, 6, 10, 60, 250, 4, 0, 3]);
            let mut p = rng.bytes(n);
            if n > 4 {
                p[4] = rng.below(few) as u8;
            }
            p
        }
        0x0014 => {
            let mut p = fixed(rng, 6);
            if p.len() == 6 && rng.one_in(2) {
                p[4] &= 0x7f;
            }
            p
        }
        0x0039 | 0x003b => fixed(rng, 10),
        0x000b => match rng.below(4) {
            0 => Vec::new(),
            1 => rng.bytes(6),
            2 => b"Mgate Version G8.59\r".to_vec(),
            _ => "gränd 😀".as_bytes().to_vec(),
        },
        _ => {
            let n = rng.pick(&[0, 1, 6, 250]);
            rng.bytes(n)
        }
    }
}

/// A frame of a random type; `full` asks for runs that fill the tables.
fn frame(rng: &mut Rng, gateways: &[u16], few: usize, full: bool) -> Plain {
    let kind = match rng.below(20) {
        0 => rng.word(),
        1..=12 if full => rng.pick(&[0x0148, 0x0b0f]),
        1..=12 => rng.pick(&[0x0148, 0x0149, 0x0b0f, 0x0b10]),
        _ => rng.pick(&make::TYPES),
    };
    let usual = matches!(kind, 0x0149 | 0x0b10 | 0x0039 | 0x003b | 0x000b | 0x0006);
    let from = if rng.one_in(12) { !usual } else { usual };
    let gateway = if kind == 0x0014 && !rng.one_in(4) { 0 } else { rng.pick(gateways) };
    Plain { address: gateway | if from { 0x8000 } else { 0 }, kind, payload: payload(rng, kind, few) }
}

pub fn steps(run: &mut Run) {
    let name = "transport: runs of random frames of all types on 1 to 60 gateways: events, counters, repeat marks, tables";
    let mut rng = run.part("transport");
    let mut frames_in_all = 0;
    let mut added = [0; 4];
    let mut seen: Seen = [0; 40];
    for _ in 0..run.times(40_000) {
        let full = rng.one_in(10);
        let count = if full { rng.pick(&[4, 31, 32, 33, 34, 60]) } else { rng.pick(&[1, 2, 4, 8, 40]) };
        let gateways: Vec<u16> = (0..count).map(|_| if rng.one_in(9) { rng.pick(&[0, 0x7fff]) } else { rng.word() & 0x7fff }).collect();
        let few = rng.pick(&[1, 3, 8, 256]);
        let most = if full { 600 } else { 150 };
        let frames: Vec<Plain> = (0..rng.within(1, most)).map(|_| frame(&mut rng, &gateways, few, full)).collect();
        frames_in_all += match hold(run, name, &frames, &mut seen) {
            Ended::Same => frames.len() as u64,
            Ended::Added(n, before) => {
                added[ADDED.iter().position(|a| *a == n).unwrap()] += 1;
                before as u64
            }
        };
    }
    run.done(name, frames_in_all);
    say(&format!("           (frames; {} runs ended at 25, {} at 26, {} at 27, {} at 32, which 01 adds)", added[0], added[1], added[2], added[3]));
    match REACHED.iter().find(|n| seen[**n] == 0) {
        Some(never) if run.scale >= 1.0 => run.differ(name, &format!("no frame was answered by {never}")),
        _ => {}
    }
    let told: Vec<String> = REACHED[9..].iter().map(|n| format!("{n}: {}", seen[*n])).collect();
    say(&format!("           (refusals among them: {})", told.join(", ")));

    let name = "transport: every type from every direction, payloads of every length to 251";
    let mut n = 0;
    for kind in make::TYPES.iter().copied().chain([0x0000, 0x0149 + 1, 0xffff]) {
        for from in [0, 0x8000] {
            for len in 0..=251 {
                let mut payload = rng.bytes(len);
                if kind == 0x0149 && len > 1 {
                    payload[1] |= 0xe0;
                }
                let asked = Plain { address: 7, kind: 0x0148, payload: vec![0, 0, 0x12, 0x05, 0] };
                let sent = Plain { address: 7, kind: 0x0b0f, payload: vec![0, 0, 0, 1, payload.get(4).copied().unwrap_or(0)] };
                hold(run, name, &[asked, sent, Plain { address: 7 | from, kind, payload: payload.clone() }], &mut seen);
                hold(run, name, &[Plain { address: from, kind, payload }], &mut seen);
                n += 2;
            }
        }
    }
    run.done(name, n);

    let name = "transport: every type number in both directions, counted or refused";
    let mut n = 0;
    for kind in 0..=u16::MAX {
        for from in [0, 0x8000] {
            hold(run, name, &[Plain { address: 0x1201 | from, kind, payload: vec![0x41; 5] }], &mut seen);
            n += 1;
        }
    }
    run.done(name, n);
}

pub fn refused(run: &mut Run) {
    let name = "transport: 12 and 13 before all else, and 32; nothing changes (step, reset)";
    let mut rng = run.part("transport refusals");
    let mut n = 0;
    for kind in make::TYPES.iter().copied().chain([0x7777]) {
        for (over, id, len, number) in [(true, 0x1201, 5, 12), (true, 0x8000, 251, 12), (false, 0x8000, 5, 13), (false, 0xffff, 300, 13), (false, 0x1201, 251, 32)] {
            for from in [false, true] {
                let mut t = Box::new(doors::Transport::new());
                t.counters.iter_mut().for_each(|c| *c = rng.next());
                for i in 0..64 {
                    t.ckeys[i] = if rng.one_in(2) { 0 } else { rng.next() as u32 };
                    t.clengths[i] = if t.ckeys[i] == 0 { rng.within(0, 65_535) as u16 } else { rng.within(0, 245) as u16 };
                }
                if over {
                    let i = rng.below(64);
                    t.ckeys[i] = 1 + rng.below(1000) as u32;
                    t.clengths[i] = rng.pick(&[246, 247, 255, 256, 512, 65_535]);
                }
                let before = t.clone();
                let payload = rng.bytes(len);
                let answer = t.step(from, id, kind, &payload);
                t.news = before.news;
                let reset = if over { t.reset() } else { Err(12) };
                if answer != Err(number) || reset != Err(12) || *t != *before {
                    run.differ(name, &format!("{kind:04x} from {from} {id:04x}, {len} bytes: {answer:?}, and 12 was {over}"));
                }
                n += 1;
            }
        }
    }
    run.done(name, n);
}

/// The frames of a stream by the proved link receiver.
fn own_frames(stream: &[u8]) -> Vec<Plain> {
    let mut frames = Vec::new();
    let mut r = Receiver::new();
    let mut at = 0;
    while at < stream.len() {
        let (answer, taken) = r.feed(&stream[at..]);
        if answer == Ok(1) {
            frames.push(r.frame());
        }
        at += taken;
    }
    frames
}

pub fn captures(run: &mut Run) {
    let name = "link and transport: frames of captures of 256 KiB, whole and damaged, and of one of 4 MiB, to events, counters and tables";
    let mut rng = run.part("transport captures");
    let mut n = 0;
    let mut seen: Seen = [0; 40];
    for k in 0..=run.times(6) as u64 {
        let size = if k == 0 { run.times(4096) } else { 256 };
        let mut stream = make::capture(run.seed.wrapping_mul(2000) + k, size * 1024);
        if k % 2 == 1 {
            for _ in 0..300 {
                let at = rng.below(stream.len());
                stream[at] = rng.byte();
            }
        }
        // frames by each side's own receiver
        let frames = hear(&stream, &[]).frames;
        if frames != own_frames(&stream) {
            run.differ(name, "the frames differ");
        }
        n += match hold(run, name, &frames, &mut seen) {
            Ended::Same => frames.len() as u64,
            Ended::Added(number, before) => {
                say(&format!("           (capture {k} is compared to its frame {before}, where {number} is due)"));
                before as u64
            }
        };
    }
    run.done(name, n);
}
