//! Document 01 and request f) of document 02 in plain safe Rust, written for speed: what the proved library
//! is measured against.
//!
//! `check` judges a map in linear time and keeps what it learnt; `search` and `edit` begin with it, and note
//! what they need of the slots on its way.
//! Unsafe code is in `interface` alone, which makes slices of C pointers.

#![deny(unsafe_code)]

mod bytes;
mod check;
mod edit;
mod journal;
mod layout;
mod narrow;
mod search;
mod taken;
mod wide;

#[allow(unsafe_code, clippy::missing_safety_doc, clippy::too_many_arguments)]
pub mod interface;

/// A refusal: document 01's number and place, and the count needed for number 9.
struct Refusal {
    number: u32,
    place: u32,
    count: u32,
}

/// Refusal `number` at `place`.
fn refuse<T>(number: u32, place: usize) -> Result<T, Refusal> {
    Err(Refusal { number, place: place as u32, count: 0 })
}
