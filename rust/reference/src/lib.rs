//! A ship's weather station in plain Rust, written from the documents alone:
//! 01, as W1 to W5 of 02 change it.
//!
//! Readings come in as messages, and the wind as a mate's entries too, are kept by
//! minute, and are worked into four kinds of answer: pressure, tendency, true wind, humidity. Answers are stored
//! in a watch file, which a program lists.
//!
//! All quantities are whole numbers of the last place that document 01 shows:
//! 990.0 hPa is 9900, -0.4 is -4, 13.66 hPa of vapour is 1366.
//!
//! The sine, saturation and dew point tables are worked out when they are first
//! asked for, each entry from an interval that encloses the exact value and is
//! narrow enough to leave one answer. [`station::Store::open`] does it, so no
//! later call waits for them. Only [`console`], [`log`], [`sentence`] and
//! [`station::Store::stretch`] use the heap.

#![forbid(unsafe_code)]
#![deny(missing_docs)]

pub mod anemometer;
pub mod console;
pub mod humidity;
pub mod listing;
pub mod log;
pub mod message;
pub mod pressure;
pub mod refusal;
pub mod rounding;
pub mod sentence;
pub mod settings;
pub mod sine;
pub mod station;
pub mod store;
pub mod vapour;
pub mod watchfile;
pub mod wind;
