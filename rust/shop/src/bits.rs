//! Floats as their bits, for what one process hands to another: JSON's decimals are read by way of doubles.

use serde::de::{Deserialize, DeserializeOwned, Deserializer};
use serde::ser::{Serialize, Serializer};

/// What can be written as whole numbers and read back exactly.
pub trait Bits: Sized {
    type Words: Serialize + DeserializeOwned;
    fn words(&self) -> Self::Words;
    fn of(words: Self::Words) -> Self;
}

impl Bits for f32 {
    type Words = u32;
    fn words(&self) -> u32 {
        self.to_bits()
    }
    fn of(words: u32) -> Self {
        Self::from_bits(words)
    }
}

impl Bits for f64 {
    type Words = u64;
    fn words(&self) -> u64 {
        self.to_bits()
    }
    fn of(words: u64) -> Self {
        Self::from_bits(words)
    }
}

impl Bits for [f32; 3] {
    type Words = [u32; 3];
    fn words(&self) -> [u32; 3] {
        self.map(f32::to_bits)
    }
    fn of(words: [u32; 3]) -> Self {
        words.map(f32::from_bits)
    }
}

impl<T: Bits> Bits for Option<T> {
    type Words = Option<T::Words>;
    fn words(&self) -> Self::Words {
        self.as_ref().map(T::words)
    }
    fn of(words: Self::Words) -> Self {
        words.map(T::of)
    }
}

impl<T: Bits> Bits for Vec<T> {
    type Words = Vec<T::Words>;
    fn words(&self) -> Self::Words {
        self.iter().map(T::words).collect()
    }
    fn of(words: Self::Words) -> Self {
        words.into_iter().map(T::of).collect()
    }
}

pub fn serialize<T: Bits, S: Serializer>(value: &T, serializer: S) -> Result<S::Ok, S::Error> {
    value.words().serialize(serializer)
}

pub fn deserialize<'de, T: Bits, D: Deserializer<'de>>(deserializer: D) -> Result<T, D::Error> {
    T::Words::deserialize(deserializer).map(T::of)
}
