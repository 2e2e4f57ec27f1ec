//! The few parts of zerocopy 0.8 that the source uses, by their names and their documented meaning:
//! a value is made of exactly its size in bytes, and a reference to one is taken where its alignment is 1.
pub use derive::{FromBytes, Immutable, IntoBytes, KnownLayout, Unaligned};
use std::mem::size_of;

/// # Safety
/// Every bit pattern of the type's size is a value of it.
pub unsafe trait FromBytes: Sized {
    fn ref_from_bytes(bytes: &[u8]) -> Result<&Self, SizeError>
    where
        Self: KnownLayout + Immutable + Unaligned,
    {
        if bytes.len() == size_of::<Self>() {
            // the size is right, the alignment is 1, and every bit pattern is a value
            Ok(unsafe { &*bytes.as_ptr().cast::<Self>() })
        } else {
            Err(SizeError)
        }
    }

    fn ref_from_prefix(bytes: &[u8]) -> Result<(&Self, &[u8]), SizeError>
    where
        Self: KnownLayout + Immutable + Unaligned,
    {
        if bytes.len() < size_of::<Self>() {
            return Err(SizeError);
        }
        let (value, rest) = bytes.split_at(size_of::<Self>());
        Ok((Self::ref_from_bytes(value)?, rest))
    }

    fn read_from_bytes(bytes: &[u8]) -> Result<Self, SizeError> {
        if bytes.len() == size_of::<Self>() {
            Ok(unsafe { bytes.as_ptr().cast::<Self>().read_unaligned() })
        } else {
            Err(SizeError)
        }
    }
}

#[derive(Debug, Copy, Clone, Eq, PartialEq)]
pub struct SizeError;

/// # Safety
/// As zerocopy's own: markers here.
pub unsafe trait IntoBytes {}
/// # Safety
/// As zerocopy's own.
pub unsafe trait KnownLayout {}
/// # Safety
/// As zerocopy's own.
pub unsafe trait Immutable {}
/// # Safety
/// The type's alignment is 1.
pub unsafe trait Unaligned {}

macro_rules! plain {
    ($($t:ty),*) => { $(
        unsafe impl FromBytes for $t {}
        unsafe impl IntoBytes for $t {}
        unsafe impl KnownLayout for $t {}
        unsafe impl Immutable for $t {}
        unsafe impl Unaligned for $t {}
    )* };
}
plain!(u8, [u8; 2], [u8; 3], [u8; 4], [u8; 8], big_endian::U16);

pub use big_endian::U16;

pub mod byteorder {
    pub use crate::big_endian;
}

pub mod big_endian {
    /// Two bytes, the higher first.
    #[derive(Debug, Copy, Clone, Eq, PartialEq, Ord, PartialOrd, Hash)]
    #[repr(transparent)]
    pub struct U16([u8; 2]);

    impl U16 {
        pub const ZERO: Self = Self([0; 2]);

        pub const fn new(value: u16) -> Self {
            Self(value.to_be_bytes())
        }

        pub const fn get(self) -> u16 {
            u16::from_be_bytes(self.0)
        }
    }

    impl From<u16> for U16 {
        fn from(value: u16) -> Self {
            Self::new(value)
        }
    }

    impl From<U16> for u16 {
        fn from(value: U16) -> Self {
            value.get()
        }
    }
}
