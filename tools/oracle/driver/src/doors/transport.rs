//! The transport receiver's doors.
use super::{answer, packet_at, Answer, Found};
use crate::oracle::transport::{Event, Tables};
use crate::oracle::Plain;

extern "C" {
    #[allow(clippy::too_many_arguments)]
    fn johkkesir_transport_step(
        nkeys: *mut [u32; 32],
        numbers: *mut [u16; 32],
        skeys: *mut [u32; 32],
        sequences: *mut [u8; 32],
        ckeys: *mut [u32; 64],
        ctypes: *mut [u8; 64],
        clengths: *mut [u16; 64],
        cpayloads: *mut [u8; 15680],
        counters: *mut [u64; 33],
        news: *mut [u64; 4],
        from: bool,
        id: u16,
        kind: u16,
        payload: *const u8,
        len: usize,
    ) -> u64;
    #[allow(clippy::too_many_arguments)]
    fn johkkesir_transport_reset(
        nkeys: *mut [u32; 32],
        numbers: *mut [u16; 32],
        skeys: *mut [u32; 32],
        sequences: *mut [u8; 32],
        ckeys: *mut [u32; 64],
        ctypes: *mut [u8; 64],
        clengths: *mut [u16; 64],
        cpayloads: *mut [u8; 15680],
        counters: *mut [u64; 33],
    ) -> u64;
}

/// The transport receiver's arrays as they are lent, and what the last step said besides its answer.
#[derive(Clone, Eq, PartialEq)]
pub struct Transport {
    pub nkeys: [u32; 32],
    pub numbers: [u16; 32],
    pub skeys: [u32; 32],
    pub sequences: [u8; 32],
    pub ckeys: [u32; 64],
    pub ctypes: [u8; 64],
    pub clengths: [u16; 64],
    pub cpayloads: [u8; 15680],
    pub counters: [u64; 33],
    pub news: [u64; 4],
}

impl Default for Transport {
    fn default() -> Self {
        Self::new()
    }
}

impl Transport {
    pub fn new() -> Self {
        Transport {
            nkeys: [0; 32],
            numbers: [0; 32],
            skeys: [0; 32],
            sequences: [0; 32],
            ckeys: [0; 64],
            ctypes: [0; 64],
            clengths: [0; 64],
            cpayloads: [0; 15680],
            counters: [0; 33],
            news: [0; 4],
        }
    }

    pub fn step(&mut self, from: bool, id: u16, kind: u16, payload: &[u8]) -> Answer {
        answer(unsafe {
            johkkesir_transport_step(
                &mut self.nkeys,
                &mut self.numbers,
                &mut self.skeys,
                &mut self.sequences,
                &mut self.ckeys,
                &mut self.ctypes,
                &mut self.clengths,
                &mut self.cpayloads,
                &mut self.counters,
                &mut self.news,
                from,
                id,
                kind,
                payload.as_ptr(),
                payload.len(),
            )
        })
    }

    pub fn reset(&mut self) -> Answer {
        answer(unsafe {
            johkkesir_transport_reset(
                &mut self.nkeys,
                &mut self.numbers,
                &mut self.skeys,
                &mut self.sequences,
                &mut self.ckeys,
                &mut self.ctypes,
                &mut self.clengths,
                &mut self.cpayloads,
                &mut self.counters,
            )
        })
    }

    /// A frame as it comes from the link.
    pub fn frame(&mut self, f: &Plain) -> Answer {
        self.step(f.address >= 0x8000, f.address & 0x7fff, f.kind, &f.payload)
    }

    /// The events of the last step, whose frame and answer are given, in order; and the repeat mark, where there is one.
    pub fn events(&self, f: &Plain, answer: Answer) -> (Vec<Event>, Option<bool>) {
        let gateway = f.address & 0x7fff;
        let one = |kind, gateway, body: &[u8]| vec![Event { kind, gateway, body: body.to_vec() }];
        let news = &self.news;
        match answer {
            Ok(1) => (one(1, news[0] as u16, &[]), None),
            Ok(2) => (one(2, gateway, &f.payload[..8]), None),
            Ok(3) => (one(3, gateway, &f.payload), None),
            Ok(4) => (one(4, gateway, &[]), None),
            Ok(5) => (one(5, gateway, &[]), None),
            Ok(6) => {
                let mut events = one(6, gateway, &(news[1] as u16).to_be_bytes());
                let area = &f.payload[news[3] as usize..];
                let mut at = 0;
                while let Found::Packet(_, end) = packet_at(area, at) {
                    events.extend(one(7, gateway, &area[at..end]));
                    at = end;
                }
                (events, Some(news[2] == 1))
            }
            Ok(8) => {
                let start = news[0] as usize * 245;
                let request = &self.cpayloads[start..start + news[2] as usize];
                let body = [&[news[1] as u8, news[2] as u8], request, &[news[3] as u8], &f.payload[5..]].concat();
                (one(8, gateway, &body), None)
            }
            _ => (Vec::new(), None),
        }
    }

    /// The tables by rising key, as the Rust's maps have them. A key is one more than what it stands for; 0 is a free place.
    pub fn tables(&self) -> Tables {
        let held = |k: &&u32| **k != 0;
        let mut numbers: Vec<_> = self.nkeys.iter().zip(&self.numbers).filter(|(k, _)| held(k)).map(|(k, n)| ((k - 1) as u16, *n)).collect();
        let mut sequences: Vec<_> =
            self.skeys.iter().zip(&self.sequences).filter(|(k, _)| held(k)).map(|(k, s)| ((k - 1) as u16, *s)).collect();
        let mut waiting: Vec<_> = (0..64)
            .filter(|i| self.ckeys[*i] != 0)
            .map(|i| {
                let key = self.ckeys[i] - 1;
                let payload = self.cpayloads[i * 245..i * 245 + usize::from(self.clengths[i])].to_vec();
                (((key >> 8) as u16, key as u8), (self.ctypes[i], payload))
            })
            .collect();
        numbers.sort();
        sequences.sort();
        waiting.sort();
        Tables { numbers, sequences, waiting }
    }
}
