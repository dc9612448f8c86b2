//! A ship's weather station whose every figure is proved, for programs in Rust.
//!
//! Readings come in as messages, and the wind as a mate's entries too, are kept by minute, and are worked into pressure at sea level,
//! its tendency, the true wind and humidity; answers go into watch files. This crate is the safe face of the proved static library: a
//! store is a type, answers are types with their units, a refusal is an enum and reads as a sentence, and users write no `unsafe`. What
//! each function promises is proved of the library's source for all arguments, and allows a single answer; `include/zhitomrak.h` says
//! the same to C.
//!
//! ```
//! use zhitomrak::{Message, Settings, Store};
//!
//! let mut store = Store::open(&Settings {
//!     height: 120, // 12.0 m
//!     certificate: [(8500, 0), (11000, 0)].into(),
//!     ..Settings::default()
//! })?;
//! for minute in 0..=180 {
//!     if minute == 100 { continue } // the barometer missed a minute
//!     store.hear(Message::barometer(minute, 1004.2 - minute as f32 * 0.01))?;
//!     store.hear(Message::wheelhouse(minute, 18.0))?;
//! }
//! let tendency = store.tendency(180)?;
//! assert_eq!(tendency.to_string(), "-1.8 hPa in three hours, 1 minute without a reading");
//! let refused = store.tendency(279).unwrap_err();
//! assert_eq!(refused.to_string(), "the barometer has no reading at minute 279");
//! # Ok::<(), zhitomrak::Refused>(())
//! ```
//!
//! Features: `std` (default) makes [`Refused`] a `std::error::Error`; without it the crate needs neither `std` nor an allocator.

#![cfg_attr(not(feature = "std"), no_std)]
#![deny(missing_docs, unsafe_code)]

#[cfg(all(test, not(feature = "std")))]
extern crate std;

#[allow(missing_docs)]
mod ffi;
mod figures;
mod message;
mod refusal;
mod settings;
mod store;
pub mod watchfile;

pub use figures::{
    Direction, Humidity, Pressure, PressureChange, ShipSpeed, Speed, Temperature, Tendency,
    VapourPressure, Wind,
};
pub use message::Message;
pub use refusal::Refused;
pub use settings::{
    AnemometerCertificate, AnemometerPoint, Certificate, Point, Points, Settings, Unit,
};
pub use store::{BulbState, Channel, Counts, Entry, Kind, Reading, Store, LAST_MINUTE};

/// The library as C has it, for blocks of words that need not be a store: each answer by its number, with what stands beside it. It is
/// as safe as the rest of this crate, since any block gets an answer.
#[allow(missing_docs)]
pub mod raw {
    pub use crate::ffi::*;
}

/// A version: 0.1.0.
#[derive(Clone, Copy, Debug, PartialEq, Eq, PartialOrd, Ord, Hash)]
pub struct Version {
    /// The first number.
    pub major: u32,
    /// The second.
    pub minor: u32,
    /// The third.
    pub patch: u32,
}

impl Version {
    /// The version of this crate, and of the library that it was written for.
    pub const CRATE: Version = Version {
        major: number(env!("CARGO_PKG_VERSION_MAJOR")),
        minor: number(env!("CARGO_PKG_VERSION_MINOR")),
        patch: number(env!("CARGO_PKG_VERSION_PATCH")),
    };

    /// The version of the library that is linked.
    pub fn library() -> Version {
        let told = ffi::version();
        Version {
            major: told / 10_000,
            minor: told / 100 % 100,
            patch: told % 100,
        }
    }
}

impl core::fmt::Display for Version {
    fn fmt(&self, line: &mut core::fmt::Formatter<'_>) -> core::fmt::Result {
        write!(line, "{}.{}.{}", self.major, self.minor, self.patch)
    }
}

/// The number that digits say.
const fn number(digits: &str) -> u32 {
    let digits = digits.as_bytes();
    let (mut n, mut i) = (0, 0);
    while i < digits.len() {
        n = 10 * n + (digits[i] - b'0') as u32;
        i += 1;
    }
    n
}
