//! The Rust's transport receiver: counters, events and tables as plain values.
use super::Plain;
use std::fmt::Write;
use taptap::gateway::link::{GatewayID, Sink as _};
use taptap::gateway::transport::{Counters, Receiver, Sink};
use taptap::pv::network::ReceivedPacketHeader;
use taptap::pv::{LongAddress, PacketType, SlotCounter};

/// An event by 01's kind, gateway and record body. Kind 6 has the slot counter alone: the repeat mark is no knowledge of the Rust's.
#[derive(Debug, Clone, Eq, PartialEq)]
pub struct Event {
    pub kind: u8,
    pub gateway: u16,
    pub body: Vec<u8>,
}

#[derive(Clone, Default)]
pub struct Events(pub Vec<Event>);

/// Empty, so that the tables come first in the receiver's text.
impl std::fmt::Debug for Events {
    fn fmt(&self, _: &mut std::fmt::Formatter) -> std::fmt::Result {
        Ok(())
    }
}

impl Events {
    fn push(&mut self, kind: u8, gateway: GatewayID, body: Vec<u8>) {
        self.0.push(Event { kind, gateway: gateway.into(), body });
    }
}

impl Sink for Events {
    fn enumeration_started(&mut self, gateway: GatewayID) {
        self.push(1, gateway, vec![]);
    }

    fn gateway_identity_observed(&mut self, gateway: GatewayID, address: LongAddress) {
        self.push(2, gateway, address.0.to_vec());
    }

    fn gateway_version_observed(&mut self, gateway: GatewayID, version: &str) {
        self.push(3, gateway, version.as_bytes().to_vec());
    }

    fn enumeration_ended(&mut self, gateway: GatewayID) {
        self.push(4, gateway, vec![]);
    }

    fn gateway_slot_counter_captured(&mut self, gateway: GatewayID) {
        self.push(5, gateway, vec![]);
    }

    fn gateway_slot_counter_observed(&mut self, gateway: GatewayID, slot_counter: SlotCounter) {
        self.push(6, gateway, u16::from(slot_counter).to_be_bytes().to_vec());
    }

    fn packet_received(&mut self, gateway: GatewayID, header: &ReceivedPacketHeader, data: &[u8]) {
        let mut body = vec![header.packet_type.0];
        body.extend(u16::from(header.node_address.0).to_be_bytes());
        body.extend(u16::from(header.short_address.0).to_be_bytes());
        body.push(header.dsn.0);
        body.push(header.data_length);
        body.extend(data);
        self.push(7, gateway, body);
    }

    fn command_executed(&mut self, gateway: GatewayID, request: (PacketType, &[u8]), response: (PacketType, &[u8])) {
        let mut body = vec![request.0 .0, request.1.len() as u8];
        body.extend(request.1);
        body.push(response.0 .0);
        body.extend(response.1);
        self.push(8, gateway, body);
    }
}

/// The 33 counters in the source's order.
pub fn counters(c: &Counters) -> [u64; 33] {
    [
        c.unhandled_frame_type,
        c.invalid_receive_request,
        c.receive_requests,
        c.invalid_receive_responses,
        c.receive_response_from_unknown_gateway,
        c.receive_responses,
        c.receive_packets,
        c.receive_packet_too_short,
        c.invalid_command_requests,
        c.retransmitted_command_requests,
        c.command_requests,
        c.invalid_command_responses,
        c.retransmitted_command_responses,
        c.command_responses,
        c.ping_requests,
        c.ping_responses,
        c.enumeration_start_requests,
        c.invalid_enumeration_start_request,
        c.enumeration_start_responses,
        c.enumeration_requests,
        c.enumeration_responses,
        c.invalid_enumeration_responses,
        c.version_requests,
        c.version_responses,
        c.invalid_version_responses,
        c.enumeration_end_requests,
        c.enumeration_end_responses,
        c.invalid_enumeration_end_responses,
        c.assign_gateway_id_requests,
        c.assign_gateway_id_responses,
        c.identify_requests,
        c.identify_responses,
        c.invalid_identify_responses,
    ]
}

/// The three tables, by rising key.
#[derive(Debug, Clone, Default, Eq, PartialEq)]
pub struct Tables {
    pub numbers: Vec<(u16, u16)>,
    pub sequences: Vec<(u16, u8)>,
    pub waiting: Vec<((u16, u8), (u8, Vec<u8>))>,
}

pub struct Transport(Receiver<Events>);

impl Default for Transport {
    fn default() -> Self {
        Self::new()
    }
}

impl Transport {
    pub fn new() -> Self {
        Transport(Receiver::new(Events::default()))
    }

    pub fn frame(&mut self, frame: &Plain) {
        self.0.frame(frame.frame());
    }

    pub fn reset(&mut self) {
        self.0.reset_counters();
    }

    pub fn counters(&self) -> [u64; 33] {
        counters(self.0.counters())
    }

    /// The 33 counters by the source's names, as its `Debug` text has them.
    pub fn named_counters(&self) -> Vec<(String, u64)> {
        let text = format!("{:?}", self.0.counters());
        let fields = text.trim_start_matches("Counters { ").trim_end_matches(" }");
        let pair = |field: &str| field.split_once(": ").map(|(name, n)| (name.to_string(), n.parse().expect("a number"))).expect("a field");
        fields.split(", ").map(pair).collect()
    }

    /// The events since the last call.
    pub fn events(&mut self) -> Vec<Event> {
        std::mem::take(&mut self.0.sink_mut().0)
    }

    /// The packet numbers by gateway, read off the start of the `Debug` text.
    pub fn numbers(&self) -> Vec<(u16, u16)> {
        let mut head = Head { text: String::new() };
        let _ = write!(head, "{:?}", self.0);
        let at = head.text.find("rx_packet_numbers: {").expect("a table") + "rx_packet_numbers: {".len();
        let end = at + head.text[at..].find('}').expect("its end");
        numbers_in(&head.text[at..end]).chunks(2).map(|p| (p[0] as u16, p[1] as u16)).collect()
    }

    /// The tables, read off the `Debug` text, which is all that shows them.
    pub fn tables(&self) -> Tables {
        let text = format!("{:?}", self.0);
        let part = |from: &str, to: &str| -> Vec<u64> {
            let at = text.find(from).expect("a table") + from.len();
            let end = at + text[at..].find(to).expect("its end");
            numbers_in(&text[at..end])
        };
        let numbers = part("rx_packet_numbers: {", "}, command_sequence_numbers");
        let sequences = part("command_sequence_numbers: {", "}, commands_awaiting_response");
        let at = text.find("commands_awaiting_response: {").expect("a table") + "commands_awaiting_response: {".len();
        let end = at + text[at..].find("}, counters").expect("its end");
        Tables {
            numbers: numbers.chunks(2).map(|p| (p[0] as u16, p[1] as u16)).collect(),
            sequences: sequences.chunks(2).map(|p| (p[0] as u16, p[1] as u8)).collect(),
            waiting: text[at..end].split("(GatewayID(").filter(|e| !e.is_empty()).map(waiting).collect(),
        }
    }
}

/// Takes a text up to the end of its first table.
struct Head {
    text: String,
}

impl Write for Head {
    fn write_str(&mut self, s: &str) -> std::fmt::Result {
        self.text.push_str(s);
        if s.contains('}') {
            Err(std::fmt::Error)
        } else {
            Ok(())
        }
    }
}

/// An entry `0x1201), CommandSequenceNumber(5)): (PacketType(38), [1, 2])`.
fn waiting(text: &str) -> ((u16, u8), (u8, Vec<u8>)) {
    let n = numbers_in(text);
    ((n[0] as u16, n[1] as u8), (n[2] as u8, n[3..].iter().map(|b| *b as u8).collect()))
}

/// The numbers in a text, `0x..` ones in base 16, the others in base 10; letters beside them are passed over.
fn numbers_in(text: &str) -> Vec<u64> {
    let mut found = Vec::new();
    let bytes = text.as_bytes();
    let mut i = 0;
    while i < bytes.len() {
        if bytes[i].is_ascii_alphabetic() {
            while i < bytes.len() && bytes[i].is_ascii_alphanumeric() {
                i += 1;
            }
        } else if bytes[i].is_ascii_digit() {
            let at = i;
            while i < bytes.len() && bytes[i].is_ascii_alphanumeric() {
                i += 1;
            }
            let word = &text[at..i];
            found.push(match word.strip_prefix("0x") {
                Some(hex) => u64::from_str_radix(hex, 16).expect("a number"),
                None => word.parse().expect("a number"),
            });
        } else {
            i += 1;
        }
    }
    found
}
