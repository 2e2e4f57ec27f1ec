//! As much of the application layer as the transport layer names: 01 takes a packet type as one byte.
use zerocopy::{FromBytes, Immutable, IntoBytes, KnownLayout, Unaligned};

#[derive(Debug, Copy, Clone, Eq, PartialEq, Ord, PartialOrd, FromBytes, IntoBytes, Unaligned, KnownLayout, Immutable)]
#[repr(transparent)]
pub struct PacketType(pub u8);
