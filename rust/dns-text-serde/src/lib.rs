//! Serializes the types of [`dns_text`] by `serde`, with the feature `serde`, which is off by default. The forms are
//! those of `zonetext records --json`.
//!
//! Each module is for `#[serde(with = ..)]`:
//!
//! ```
//! # #[cfg(feature = "serde")]
//! # mod of_serde {
//! use dns_text::{Name, Ttl};
//! use serde::{Deserializer, Serializer};
//!
//! // With serde's derive: #[serde(with = "dns_text_serde::name")] zone: Name
//! pub fn serialize<S: Serializer>(zone: &Name, to: S) -> Result<S::Ok, S::Error> {
//!     dns_text_serde::name::serialize(zone, to)
//! }
//!
//! pub fn deserialize<'de, D: Deserializer<'de>>(from: D) -> Result<Ttl, D::Error> {
//!     dns_text_serde::ttl::deserialize(from)
//! }
//! # }
//! ```
#![cfg(feature = "serde")]
#![forbid(unsafe_code)]

mod fields;
mod words;

pub use fields::{record, record_data};
pub use words::{char_str, name, ttl, word};
