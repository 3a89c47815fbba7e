//! Saves [`um::End`] and [`um::Side`] by serde, as the octets of their `to_bytes`:
//!
//! ```
//! #[derive(serde::Serialize, serde::Deserialize)]
//! struct Call {
//!     #[serde(with = "um_serde")]
//!     side: um::Side,
//! }
//! ```
#![no_std]
#![warn(missing_docs)]

use core::{fmt, marker::PhantomData};
use serde::de::{Error, SeqAccess, Visitor};
use serde::{Deserializer, Serializer};
use um::{End, NotSaved, Side, END_OCTETS, SIDE_OCTETS};

/// What has a saved form: [`End`] and [`Side`].
pub trait Saved: Sized {
    /// Passes the octets of `to_bytes` to a function.
    fn with_bytes<T>(&self, then: impl FnOnce(&[u8]) -> T) -> T;

    /// `from_bytes`.
    ///
    /// # Errors
    ///
    /// [`NotSaved`] says what was found and what was expected.
    fn read(octets: &[u8]) -> Result<Self, NotSaved>;
}

impl Saved for End {
    fn with_bytes<T>(&self, then: impl FnOnce(&[u8]) -> T) -> T {
        then(&self.to_bytes())
    }

    fn read(octets: &[u8]) -> Result<End, NotSaved> {
        End::from_bytes(octets)
    }
}

impl Saved for Side {
    fn with_bytes<T>(&self, then: impl FnOnce(&[u8]) -> T) -> T {
        then(&self.to_bytes())
    }

    fn read(octets: &[u8]) -> Result<Side, NotSaved> {
        Side::from_bytes(octets)
    }
}

/// Serializes a state as bytes.
///
/// # Errors
///
/// Those of the serializer.
pub fn serialize<T: Saved, S: Serializer>(state: &T, serializer: S) -> Result<S::Ok, S::Error> {
    state.with_bytes(|octets| serializer.serialize_bytes(octets))
}

/// Deserializes a state from bytes, or from a sequence of numbers, as formats of text write bytes.
///
/// # Errors
///
/// Those of the deserializer, and [`NotSaved`].
pub fn deserialize<'de, T: Saved, D: Deserializer<'de>>(deserializer: D) -> Result<T, D::Error> {
    deserializer.deserialize_bytes(Octets(PhantomData))
}

struct Octets<T>(PhantomData<T>);

impl<'de, T: Saved> Visitor<'de> for Octets<T> {
    type Value = T;

    fn expecting(&self, f: &mut fmt::Formatter<'_>) -> fmt::Result {
        write!(f, "the {END_OCTETS} octets of a saved endpoint, or the {SIDE_OCTETS} of a side")
    }

    fn visit_bytes<E: Error>(self, octets: &[u8]) -> Result<T, E> {
        T::read(octets).map_err(E::custom)
    }

    fn visit_seq<A: SeqAccess<'de>>(self, mut numbers: A) -> Result<T, A::Error> {
        let mut octets = [0; SIDE_OCTETS];
        let mut count = 0;
        while let Some(number) = numbers.next_element()? {
            *octets.get_mut(count).ok_or_else(|| A::Error::invalid_length(count + 1, &self))? = number;
            count += 1;
        }
        T::read(&octets[..count]).map_err(A::Error::custom)
    }
}
