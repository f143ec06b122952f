//! The Rust original as a library: the files of `upstream/` under a crate root of our own, since the published root is not among
//! them. This root makes two crates: `oracle`, of the files as they are, and `present`, of the files with document 02's replacements
//! (`replacements.rs`). What stands under `cfg(present)` is of the second alone.
//!
//! `build.rs` lays the files out, and a module takes its own in by `include!`: what stands beside the `include!` belongs to the same
//! module and sees private fields, which comparing state needs.

#![cfg_attr(not(feature = "std"), no_std)]

extern crate alloc;

use alloc::vec::Vec;

/// The state of a value, in the order of the replay format's dump: a bool as 0 or 1, a float by its bits, a choice by its
/// number, nothing as -1.
pub trait Peek {
    fn peek(&self, to: &mut Vec<i64>);
}

pub fn state_of(value: &impl Peek) -> Vec<i64> {
    let mut state = Vec::new();
    value.peek(&mut state);
    state
}

/// The items of a file of the original.
macro_rules! original {
    ($file:literal) => {
        include!(concat!(env!("OUT_DIR"), "/", $file));
    };
}

pub mod config {
    original!("config.rs");
}
pub mod error {
    original!("error.rs");
}
pub mod fixed {
    original!("fixed.rs");
}
pub mod pluck {
    original!("pluck.rs");
}
pub mod source {
    original!("source.rs");
}
pub mod tier {
    original!("tier.rs");
}

#[cfg(present)]
pub mod ages;
pub mod bank;
pub mod decode;
pub mod engine;
pub mod envelope;
pub mod output;
pub mod stream;
pub mod synth;
pub mod voice;
