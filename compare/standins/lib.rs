//! The root of the crate that holds the Rust's canvas. It is `no_std`, and no feature `std` is set,
//! so src/polyfills.rs supplies `round`, `floor`, `mul_add`, `sin` and `cos` (document 01, 'Kept from the Rust').
#![no_std]

extern crate alloc;

pub mod block;
pub mod canvas;
mod polyfills;

/// How often `Painter::paint` was called; the counted build alone adds to it.
pub static PAINTED: core::sync::atomic::AtomicU64 = core::sync::atomic::AtomicU64::new(0);
