//! As much of serde as the source needs to compile. Serialization stays behind, so nothing here is ever run.
pub use derive::{Deserialize, Serialize};

pub trait Serialize {
    fn serialize<S: Serializer>(&self, serializer: S) -> Result<S::Ok, S::Error>;
}

pub trait Serializer: Sized {
    type Ok;
    type Error;
    fn serialize_u16(self, value: u16) -> Result<Self::Ok, Self::Error>;
}

pub trait Deserialize<'de>: Sized {
    fn deserialize<D: Deserializer<'de>>(deserializer: D) -> Result<Self, D::Error>;
}

pub trait Deserializer<'de>: Sized {
    type Error: de::Error;
    fn u16(self) -> Result<u16, Self::Error>;
}

impl<'de> Deserialize<'de> for u16 {
    fn deserialize<D: Deserializer<'de>>(deserializer: D) -> Result<Self, D::Error> {
        deserializer.u16()
    }
}

pub mod de {
    pub trait Error: Sized {
        fn custom<T: std::fmt::Display>(message: T) -> Self;
    }
}
