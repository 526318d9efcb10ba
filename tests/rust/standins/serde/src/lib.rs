//! Stand-in: names and signatures only. Nothing is ever read by it.

pub use serde_derive::Deserialize;

pub trait Deserialize<'de>: Sized {}

pub trait Deserializer<'de>: Sized {
    type Error: de::Error;
    fn deserialize_any<V: de::Visitor<'de>>(self, visitor: V) -> Result<V::Value, Self::Error>;
}

pub mod de {
    use std::fmt;

    pub trait Error: Sized {
        fn custom<T: fmt::Display>(message: T) -> Self;
    }

    pub trait Visitor<'de>: Sized {
        type Value;
        fn expecting(&self, formatter: &mut fmt::Formatter) -> fmt::Result;
        fn visit_bool<E: Error>(self, value: bool) -> Result<Self::Value, E>;
        fn visit_str<E: Error>(self, value: &str) -> Result<Self::Value, E>;
    }
}
