//! Safe bindings to `libseremonek.a`.
//!
//! Each function lends slices and gives back a value or a [`Refusal`]. A refused call has changed no lent byte. The
//! declarations of the C functions stand in [`ffi`] and nowhere else; a test holds them to `include/seremonek.h` and
//! to the exported functions of `crates/seremonek_c`.

pub mod cell;
pub mod ffi;
pub mod interior_page;
pub mod overflow;
mod refusal;
pub mod utf8;
pub mod varint;

pub use refusal::Refusal;
