//! The proved side, through the doors of `crates/doors`. A slice passes as its pointer and its length, an array as its pointer.


pub mod link;
pub mod transport;

extern "C" {
    fn johkkesir_crc(buffer: *const u8, len: usize) -> u16;
    fn johkkesir_unescaped_byte(code: u8) -> u64;
    fn johkkesir_escaped_length(input: *const u8, len: usize) -> u64;
    fn johkkesir_escape(input: *const u8, len: usize, out: *mut u8, room: usize) -> u64;
    fn johkkesir_gateway_id(number: u16) -> u64;
    fn johkkesir_address(number: u16) -> u32;
    fn johkkesir_address_number(from: bool, id: u16) -> u64;
    fn johkkesir_encode(from: bool, id: u16, kind: u16, payload: *const u8, len: usize, out: *mut u8, room: usize) -> u64;
    fn johkkesir_is_text(s: *const u8, len: usize) -> bool;
    fn johkkesir_packet_at(area: *const u8, len: usize, at: usize, found: *mut [u64; 2]) -> u64;
    fn johkkesir_packets(area: *const u8, len: usize, out: *mut [u64; 2]);
    fn johkkesir_accepted(status: u16) -> bool;
    fn johkkesir_needed(status: u16) -> usize;
    fn johkkesir_interpret_packet_number_lo(lo: u8, old: u16) -> u16;
    fn johkkesir_slot_number(counter: u16) -> u32;
    fn johkkesir_slot_epoch(counter: u16) -> u8;
    fn johkkesir_slots_since(counter: u16, past: u16) -> u32;
    fn johkkesir_epoch_add(place: u8, n: u8) -> u8;
    fn johkkesir_slot_counter(place: u8, number: u16) -> u32;
    fn johkkesir_receive_response(payload: *const u8, len: usize, old: u16, fields: *mut [u64; 7]) -> u64;
    fn johkkesir_node(address: u16) -> u32;
    fn johkkesir_node_address(number: u16) -> u16;
    fn johkkesir_successor(number: u16) -> u32;
    fn johkkesir_dsn_add(dsn: u8, n: u8) -> u8;
    fn johkkesir_header(packet: *const u8, len: usize, fields: *mut [u64; 5]) -> u64;
    fn johkkesir_identified(payload: *const u8, len: usize) -> u32;
    fn johkkesir_enumerated(payload: *const u8, len: usize) -> u32;
}

/// A value, or the number of 01's table by which it is refused.
pub type Answer = Result<u64, u64>;

#[inline]
fn answer(n: u64) -> Answer {
    if n < 1 << 32 {
        Ok(n)
    } else {
        Err(n >> 32)
    }
}

pub fn crc(buffer: &[u8]) -> u16 {
    unsafe { johkkesir_crc(buffer.as_ptr(), buffer.len()) }
}

pub fn unescaped_byte(code: u8) -> Answer {
    answer(unsafe { johkkesir_unescaped_byte(code) })
}

pub fn is_text(s: &[u8]) -> bool {
    unsafe { johkkesir_is_text(s.as_ptr(), s.len()) }
}

pub fn escaped_length(input: &[u8]) -> Answer {
    answer(unsafe { johkkesir_escaped_length(input.as_ptr(), input.len()) })
}

pub fn escape(input: &[u8], out: &mut [u8]) -> Answer {
    answer(unsafe { johkkesir_escape(input.as_ptr(), input.len(), out.as_mut_ptr(), out.len()) })
}

pub fn gateway_id(number: u16) -> Answer {
    answer(unsafe { johkkesir_gateway_id(number) })
}

/// Whether it is From, and the gateway.
pub fn address(number: u16) -> (bool, u16) {
    let n = unsafe { johkkesir_address(number) };
    (n >> 16 == 1, n as u16)
}

pub fn address_number(from: bool, id: u16) -> Answer {
    answer(unsafe { johkkesir_address_number(from, id) })
}

/// What stands in a packet area at a place.
#[derive(Debug, Copy, Clone, Eq, PartialEq)]
pub enum Found {
    Finished,
    TooShort,
    Packet(usize, usize),
}

pub fn packet_at(area: &[u8], at: usize) -> Found {
    let mut found = [0; 2];
    match unsafe { johkkesir_packet_at(area.as_ptr(), area.len(), at, &mut found) } {
        0 => Found::Finished,
        1 => Found::TooShort,
        _ => Found::Packet(found[0] as usize, found[1] as usize),
    }
}

/// Whole packets, and 1 if the area ends too short.
pub fn packets(area: &[u8]) -> [u64; 2] {
    let mut out = [0; 2];
    unsafe { johkkesir_packets(area.as_ptr(), area.len(), &mut out) };
    out
}

pub fn accepted(status: u16) -> bool {
    unsafe { johkkesir_accepted(status) }
}

pub fn needed(status: u16) -> usize {
    unsafe { johkkesir_needed(status) }
}

pub fn interpret_packet_number_lo(lo: u8, old: u16) -> u16 {
    unsafe { johkkesir_interpret_packet_number_lo(lo, old) }
}

pub fn encode(from: bool, id: u16, kind: u16, payload: &[u8], out: &mut [u8]) -> Answer {
    answer(unsafe { johkkesir_encode(from, id, kind, payload.as_ptr(), payload.len(), out.as_mut_ptr(), out.len()) })
}

/// A slot number or count of slots, or the value that is no slot number.
pub type Slots = Result<u16, u16>;

fn slots(n: u32) -> Slots {
    if n < 1 << 16 {
        Ok(n as u16)
    } else {
        Err(n as u16)
    }
}

pub fn slot_number(counter: u16) -> Slots {
    slots(unsafe { johkkesir_slot_number(counter) })
}

pub fn slot_epoch(counter: u16) -> u8 {
    unsafe { johkkesir_slot_epoch(counter) }
}

pub fn slots_since(counter: u16, past: u16) -> Slots {
    slots(unsafe { johkkesir_slots_since(counter, past) })
}

pub fn epoch_add(place: u8, n: u8) -> u8 {
    unsafe { johkkesir_epoch_add(place, n) }
}

pub fn slot_counter(place: u8, number: u16) -> Slots {
    slots(unsafe { johkkesir_slot_counter(place, number) })
}

/// The fields of a receive response in the order of their bytes, 65,536 for one that is missing, and where its packet area starts; or 22 with the
/// status word, or 23 with the length needed.
pub fn receive_response(payload: &[u8], old: u16) -> Result<[u64; 7], (u64, u64)> {
    let mut fields = [0; 7];
    match answer(unsafe { johkkesir_receive_response(payload.as_ptr(), payload.len(), old, &mut fields) }) {
        Ok(_) => Ok(fields),
        Err(number) => Err((number, fields[0])),
    }
}

/// 2^16 stands for none.
fn some(n: u32) -> Option<u16> {
    u16::try_from(n).ok()
}

pub fn node(address: u16) -> Option<u16> {
    some(unsafe { johkkesir_node(address) })
}

pub fn node_address(number: u16) -> u16 {
    unsafe { johkkesir_node_address(number) }
}

pub fn successor(number: u16) -> Option<u16> {
    some(unsafe { johkkesir_successor(number) })
}

pub fn dsn_add(dsn: u8, n: u8) -> u8 {
    unsafe { johkkesir_dsn_add(dsn, n) }
}

/// A packet's type, node address, short address, data sequence number and data length.
pub fn header(packet: &[u8]) -> Option<[u64; 5]> {
    let mut fields = [0; 5];
    match unsafe { johkkesir_header(packet.as_ptr(), packet.len(), &mut fields) } {
        0 => Some(fields),
        _ => None,
    }
}

/// The gateway that an identify response of 10 bytes names.
pub fn identified(payload: &[u8]) -> Option<u16> {
    some(unsafe { johkkesir_identified(payload.as_ptr(), payload.len()) })
}

/// The gateway that an enumeration start request of 6 bytes names.
pub fn enumerated(payload: &[u8]) -> Option<u16> {
    some(unsafe { johkkesir_enumerated(payload.as_ptr(), payload.len()) })
}
