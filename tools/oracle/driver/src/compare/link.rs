//! The link receiver: ledger, frames, state and body after a stream, in any cuts.
use super::Run;
use crate::oracle::{escaping, hear, Heard, Watched};
use crate::rng::Rng;
use crate::doors::link as doors;
use crate::make;

/// The proved receiver over a stream in cuts, each part fed again until it is used up, with the counters reset at `resets`.
fn ours(stream: &[u8], cuts: &[usize], resets: &[usize]) -> Heard {
    let mut places: Vec<usize> = cuts.iter().chain(resets).copied().chain([stream.len()]).collect();
    places.sort_unstable();
    places.dedup();
    let mut r = doors::Receiver::new();
    let mut frames = Vec::new();
    let mut at = 0;
    if resets.contains(&0) {
        r.reset_counters().expect("a fresh state is not refused");
    }
    for end in places {
        while at < end {
            let (answer, taken) = r.feed(&stream[at..end]);
            if answer.expect("a reached state is not refused") == 1 {
                frames.push(r.frame());
            }
            at += taken;
        }
        if end > 0 && resets.contains(&end) {
            r.reset_counters().expect("a reached state is not refused");
        }
    }
    r.heard(frames)
}

/// The same by single steps.
fn stepped(stream: &[u8]) -> Heard {
    let mut r = doors::Receiver::new();
    let mut frames = Vec::new();
    for byte in stream {
        let (answer, taken) = r.push_u8(*byte);
        assert_eq!(taken, 1, "a step takes one byte");
        if answer.expect("a reached state is not refused") == 1 {
            frames.push(r.frame());
        }
    }
    r.heard(frames)
}

/// Cuts and resets of a shrunk stream are those that still lie within it.
fn within(places: &[usize], stream: &[u8]) -> Vec<usize> {
    places.iter().copied().filter(|p| *p <= stream.len()).collect()
}

fn hold(run: &Run, name: &str, stream: &[u8], cuts: &[usize], resets: &[usize]) {
    run.same(name, stream, &|s| hear(s, &within(resets, s)), &|s| ours(s, &within(cuts, s), &within(resets, s)));
}

/// All streams over the alphabet of up to `most` bytes, each after a prefix.
fn every(run: &Run, name: &str, prefix: &[u8], alphabet: &[u8], most: usize) -> u64 {
    let mut n = 0;
    for len in 0..=most {
        let mut at = vec![0; len];
        'all: loop {
            let mut stream = prefix.to_vec();
            stream.extend(at.iter().map(|i| alphabet[*i]));
            hold(run, name, &stream, &[prefix.len()], &[]);
            n += 1;
            let mut k = 0;
            loop {
                if k == len {
                    break 'all;
                }
                at[k] += 1;
                if at[k] < alphabet.len() {
                    break;
                }
                at[k] = 0;
                k += 1;
            }
        }
    }
    n
}

/// Streams that lead a fresh receiver to each state, with bodies empty, at each limit and next to it.
fn beginnings() -> [Vec<u8>; 16] {
    let opened = |units: usize, more: &[u8]| [&[0x7e, 0x07][..], &vec![0x00; units], more].concat();
    [
        vec![0x41],
        vec![0x41, 0x7e],
        opened(0, &[]),
        opened(0, &[0x7e]),
        opened(4, &[]),
        opened(5, &[]),
        opened(6, &[]),
        opened(6, &[0x7e]),
        opened(254, &[]),
        opened(255, &[]),
        opened(255, &[0x7e]),
        opened(256, &[]),
        opened(256, &[0x7e]),
        opened(256, &[0x41]),
        opened(256, &[0x41, 0x7e]),
        opened(256, &[0x7e, 0x01]),
    ]
}

pub fn exhaustive(run: &mut Run) {
    let alphabet = [0x00, 0xff, 0x7e, 0x07, 0x08, 0x01, 0x41, 0x24];
    let most = if run.scale < 1.0 { 5 } else { 7 };
    let name = &format!("receiver: every stream of 0 to {most} bytes of 00 ff 7e 07 08 01 41 24");
    let n = every(run, name, &[], &alphabet, most);
    run.done(name, n);

    let name = "receiver: every stream of 0 to 4 of these bytes after each of 16 beginnings (open frames of 0 to 257 units, tails, noise)";
    let mut n = 0;
    for beginning in &beginnings() {
        n += every(run, name, beginning, &alphabet, 4);
    }
    run.done(name, n);

    let name = "receiver: every byte, and every pair, in each of those states";
    let all: Vec<u8> = (0..=255).collect();
    let mut n = 0;
    for beginning in &beginnings() {
        n += every(run, name, beginning, &all, 1);
        for b in 0..=255 {
            hold(run, name, &[&beginning[..], &[0x7e, b]].concat(), &[], &[]);
            hold(run, name, &[&beginning[..], &[b, 0x41]].concat(), &[], &[]);
            n += 2;
        }
    }
    run.done(name, n);
}

/// Runs of bytes of one sort, which the proved side takes many at a time.
pub fn runs(run: &mut Run) {
    let most = if run.scale < 1.0 { 18 } else { 72 };
    let name = &format!("receiver: runs of 0 to {most} bytes of each sort in each of 17 states, ended in 24 ways, whole and cut within");
    let mut rng = run.part("runs");
    let sorts: [&[u8]; 6] = [&[0x00], &[0xff], &[0x00, 0xff, 0xff], &[0x41], &[0x41, 0x00, 0x24], &[0x7f, 0x80, 0xfe, 0x01, 0x7d]];
    let mut ends: Vec<Vec<u8>> = make::INTERESTING.iter().map(|b| vec![*b]).collect();
    ends.extend([vec![0x7e, 0x07], vec![0x7e, 0x08], vec![0x7e, 0x01], vec![]]);
    let mut n = 0;
    for beginning in beginnings().iter().chain([&vec![]]) {
        for sort in sorts {
            for len in 0..=most {
                for end in &ends {
                    let mut stream = beginning.clone();
                    stream.extend(sort.iter().cycle().take(len));
                    stream.extend(end);
                    stream.extend(sort.iter().cycle().take(rng.below(20)));
                    stream.extend([0x7e, 0x08]);
                    let cuts = if rng.one_in(2) { Vec::new() } else { vec![rng.below(stream.len()), stream.len() - 1] };
                    hold(run, name, &stream, &cuts, &[]);
                    n += 1;
                }
            }
        }
    }
    run.done(name, n);
}

/// Short runs of units of one sort: where the proved side goes from byte to byte and where it goes by words differ by a byte or two.
pub fn short_runs(run: &mut Run) {
    const MOST: usize = 17;
    let sorts: [&[u8]; 11] = [
        &[0x00],
        &[0xff],
        &[0x41],
        &[0x07],
        &[0x08],
        &[0x7e, 0x7e],
        &[0x7e, 0x01],
        &[0x7e, 0x09],
        &[0x7e, 0x07],
        &[0x7e, 0x08],
        &[0x41, 0x00],
    ];
    let begins: Vec<Vec<u8>> = beginnings().into_iter().chain([vec![]]).collect();
    let name = "receiver: runs of 1 to 17 units of each of 11 sorts in each of 17 states, closed behind, whole and at every cut";
    let mut n = 0;
    for beginning in &begins {
        for sort in sorts {
            for len in 1..=MOST {
                let mut stream = beginning.clone();
                stream.extend(sort.repeat(len));
                stream.extend([0x41, 0x7e, 0x08, 0x7e, 0x07, 0x7e, 0x08]);
                for cut in beginning.len()..=stream.len() {
                    hold(run, name, &stream, &[cut], &[]);
                    n += 1;
                }
            }
        }
    }
    run.done(name, n);

    let name = "receiver: a run of 1 to 17 units of one sort behind one of 1 to 17 of another, for every two sorts in each of 17 states";
    let mut rng = run.part("short runs");
    let mut n = 0;
    for beginning in &begins {
        for first in sorts {
            for second in sorts {
                for len in 1..=MOST {
                    let mut stream = beginning.clone();
                    stream.extend(first.repeat(len));
                    stream.extend(second.repeat(rng.within(1, MOST)));
                    stream.extend(first.repeat(rng.within(1, 3)));
                    let cuts = if rng.one_in(2) { Vec::new() } else { vec![rng.below(stream.len() + 1)] };
                    hold(run, name, &stream, &cuts, &[]);
                    n += 1;
                }
            }
        }
    }
    run.done(name, n);
}

pub fn limits(run: &mut Run) {
    let name = "receiver: bodies of every number of units to 270, the last raw and escaped, closed, broken, overlong";
    let mut rng = run.part("limits");
    let mut n = 0;
    let afters: [&[u8]; 8] =
        [&[0x7e, 0x08], &[0x7e, 0x07], &[0x7e, 0x09], &[0x08], &[0x07], &[0x7e], &[], &[0x7e, 0x08, 0x7e, 0x07, 0x41, 0x7e, 0x08]];
    for units in 0..=270 {
        let times = if (250..=260).contains(&units) || units < 10 { 12 } else { 2 };
        for _ in 0..run.times(times) {
            for after in afters {
                for escaped in [false, true] {
                    let stream = make::units(&mut rng, units, escaped, after);
                    let cuts = make::cuts(&mut rng, stream.len());
                    hold(run, name, &stream, &cuts, &[]);
                    n += 1;
                }
            }
            if (6..=256).contains(&units) {
                let stream = make::sound_of(&mut rng, units);
                hold(run, name, &stream, &[], &[]);
                n += 1;
            }
        }
    }
    run.done(name, n);
}

pub fn random(run: &mut Run) {
    let name = "receiver: random streams (noise, framing bytes, frames in a row, damaged copies) in random cuts";
    let mut rng = run.part("random");
    let count = run.times(150_000);
    for _ in 0..count {
        let stream = make::stream(&mut rng);
        let cuts = make::cuts(&mut rng, stream.len());
        hold(run, name, &stream, &cuts, &[]);
    }
    run.done(name, count as u64);

    let name = "receiver: the same with counters reset at random places";
    let mut rng = run.part("resets");
    let count = run.times(15_000);
    for _ in 0..count {
        let stream = make::stream(&mut rng);
        let cuts = make::cuts(&mut rng, stream.len());
        let resets: Vec<usize> = (0..rng.within(1, 3)).map(|_| rng.below(stream.len() + 1)).collect();
        hold(run, name, &stream, &cuts, &resets);
    }
    run.done(name, count as u64);

    let name = "receiver: the same by single steps, and as the ledger of one slice";
    let mut rng = run.part("steps");
    let count = run.times(15_000);
    for _ in 0..count {
        let stream = make::stream(&mut rng);
        run.same(name, &stream, &|s| hear(s, &[]), &stepped);
        run.same(name, &stream, &|s| placed(&hear(s, &[])), &|s| doors::ledger(s).to_vec());
    }
    run.done(name, 2 * count as u64);
}

/// State, length and the eight tallies.
fn placed(heard: &Heard) -> Vec<u64> {
    let mut place = vec![u64::from(heard.state), heard.body.len() as u64];
    place.extend(&heard.nine[..8]);
    place
}

pub fn captures(run: &mut Run) {
    let name = "receiver: captures of 256 KiB that look like a line, whole and damaged, and one of 4 MiB, in random cuts";
    let mut rng = run.part("captures");
    let count = run.times(6) as u64;
    for k in 0..=count {
        let size = if k == 0 { run.times(4096) } else { 256 };
        let mut stream = make::capture(run.seed.wrapping_mul(1000) + k, size * 1024);
        if k % 2 == 1 {
            for _ in 0..200 {
                let at = rng.below(stream.len());
                stream[at] = rng.byte();
            }
        }
        let cuts = make::cuts(&mut rng, stream.len());
        let (rust, ours) = (hear(&stream, &[]), ours(&stream, &cuts, &[]));
        if rust != ours {
            hold(run, name, &stream, &cuts, &[]);
        }
        if placed(&rust) != doors::ledger(&stream) {
            run.differ(name, "the ledger of the whole slice");
        }
    }
    run.done(name, count + 1);
}

/// Bytes that lead a fresh receiver to a made-up state: to its number, and inside a frame to its units.
fn leading(r: &doors::Receiver) -> Vec<u8> {
    let inside = || {
        let mut bytes = vec![0x7e, 0x07];
        escaping::escape(&r.units(), &mut bytes);
        bytes
    };
    let overlong = || [&[0x7e, 0x07][..], &[0x41; 257]].concat();
    match r.place[0] {
        0 => vec![],
        1 => vec![0x41],
        2 => vec![0x7e],
        3 => inside(),
        4 => [inside(), vec![0x7e]].concat(),
        5 => overlong(),
        _ => [overlong(), vec![0x7e]].concat(),
    }
}

pub fn made_up(run: &mut Run) {
    let name = "receiver: made-up states of every kind (a stale body outside a frame, tallies about to wrap), fed and by single steps";
    let mut rng = run.part("made up");
    let count = run.times(15_000);
    for _ in 0..count {
        let state = rng.below(7) as u64;
        let stream = make::stream(&mut rng);
        let mut r = made(&mut rng, state);
        let mut rust = Watched::new();
        for byte in leading(&r) {
            rust.push(byte);
        }
        rust.reset();
        for byte in &stream {
            rust.push(*byte);
        }
        let before = r.place;
        let mut single = r.clone();
        let mut frames = Vec::new();
        let mut at = 0;
        while at < stream.len() {
            let (answer, taken) = r.feed(&stream[at..]);
            if answer.expect("a length within the limit") == 1 {
                frames.push(r.frame());
            }
            at += taken;
        }
        let heard = rust.heard();
        let moved: Vec<u64> = (2..10).map(|i| r.place[i].wrapping_sub(before[i])).collect();
        if heard.frames != frames || u64::from(heard.state) != r.place[0] || moved != heard.nine[..8] {
            run.differ(name, &format!("from {before:?} on {}: the Rust {heard:?}, ours {:?} {frames:?}", crate::show::short(&stream), r.place));
        }
        if (heard.state == 3 || heard.state == 4) && heard.body != r.units() {
            run.differ(name, &format!("from {before:?} on {}: another body", crate::show::short(&stream)));
        }
        let mut stepped = Vec::new();
        for byte in &stream {
            if single.push_u8(*byte).0.expect("a length within the limit") == 1 {
                stepped.push(single.frame());
            }
        }
        if stepped != frames || single.place != r.place || single.body != r.body {
            run.differ(name, &format!("from {before:?} on {}: by steps {:?}, fed {:?}", crate::show::short(&stream), single.place, r.place));
        }
    }
    run.done(name, 2 * count as u64);

    let name = "receiver: a length over 256 is refused by 12 and changes nothing (step, feed, reset)";
    let mut n = 0;
    for state in 0..7 {
        for len in [257, 258, 300, 65_536, u64::MAX] {
            for byte in 0..=255 {
                let mut r = made(&mut rng, state);
                r.place[1] = len;
                let before = r.clone();
                let answers = [r.push_u8(byte), r.feed(&[byte]), r.feed(&[]), (r.reset_counters(), 0)];
                if answers != [(Err(12), 0); 4] || (r.place, r.body) != (before.place, before.body) {
                    run.differ(name, &format!("from {:?} at byte {byte:02x}: {answers:?}", before.place));
                }
                n += 4;
            }
        }
    }
    run.done(name, n);
}

fn made(rng: &mut Rng, state: u64) -> doors::Receiver {
    let mut r = doors::Receiver::new();
    for b in &mut r.body {
        *b = rng.byte();
    }
    r.place[0] = state;
    r.place[1] = rng.pick(&[0, 1, 5, 6, 255, 256]);
    for t in &mut r.place[2..] {
        *t = rng.pick(&[0, 1, u64::MAX, u64::MAX - 1, u64::MAX - 2]);
    }
    r
}
