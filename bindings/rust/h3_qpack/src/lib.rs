//! QPACK, the header compression of HTTP/3 (RFC 9204), over a proved library: on every input, each call does what its
//! contract says. This crate has three layers:
//!
//! - [`connection`]: both ends of a connection, with the dynamic table and the two instruction streams.
#![cfg_attr(feature = "std", doc = "- [`poll`]: both ends for a stack whose tasks are polled.")]
#![cfg_attr(not(feature = "std"), doc = "- `poll`, which needs the feature `std`.")]
//! - [`encode_stateless`] and [`decode_stateless`]: a field section without a dynamic table, in the names of the `qpack`
//!   module of the crate `h3`.
//!
//! The crate depends on no other crate, and compiles no C. rustc assembles the library from text that was generated from
//! the proved code, for the targets that the README lists. To link an archive in its place, set `H3_QPACK_LIB`.
//!
//! | feature | with it | without it |
//! |---|---|---|
//! | `std` (default) | `poll`, random seeds, and errors of `std::error::Error` | `no_std` with `alloc`; set `seed` |
//! | `global-allocator` | the library takes memory from the program's allocator | it calls `malloc`, except without `std` |
//!
//! On Windows the library always calls `malloc`, and so does an archive.
//!
//! ```
//! use h3_qpack::{decode_stateless, encode_stateless, HeaderField};
//!
//! let mut section = Vec::new();
//! encode_stateless(&mut section, [HeaderField::new(":method", "GET")])?;
//! assert_eq!(section, [0x00, 0x00, 0xd1]);
//!
//! let decoded = decode_stateless(&section, 16_384)?;
//! assert_eq!(decoded.fields, [HeaderField::new(":method", "GET")]);
//! # Ok::<(), h3_qpack::Error>(())
//! ```
#![deny(missing_docs)]
#![deny(unsafe_op_in_unsafe_fn)]
#![deny(unsafe_code)]
// The flags `h3_qpack_..` are of build.rs. Before Rust 1.80 they can't be declared without a warning.
#![allow(unknown_lints, unexpected_cfgs)]
#![cfg_attr(not(feature = "std"), no_std)]

extern crate alloc;

pub mod connection;
mod copied;
#[cfg(feature = "std")]
mod error;
mod field;
#[allow(unsafe_code)]
#[cfg(not(h3_qpack_archive))]
mod generated;
#[allow(unsafe_code)]
#[cfg(h3_qpack_heap)]
mod heap;
#[cfg(feature = "std")]
pub mod poll;
mod room;
mod stateless;
#[allow(unsafe_code)]
mod sys;
mod view;

pub use field::{HeaderField, ESTIMATED_OVERHEAD_BYTES};
pub use stateless::{decode_stateless, encode_stateless, Decoded, DecoderError, EncoderError, Error};

/// Returns the version of the linked library, major and minor. A new major number breaks the interface, a new minor one
/// adds to it.
pub fn library_version() -> (u16, u16) {
    let version = sys::version();
    ((version >> 16) as u16, version as u16)
}
