//! The Rust that the port is compared with: std's BufWriter, LineWriterShim and BufReader, compiled
//! from the published files as they are, in a crate whose root looks to them like std's own.

#![feature(staged_api, rustc_attrs, prelude_import)]
#![feature(
    slice_internals,
    try_with_capacity,
    allocator_api,
    io_const_error,
    can_vector,
    min_specialization
)]
#![allow(internal_features, dead_code, unused_features, stable_features)]
#![unstable(feature = "real_code", issue = "none")]

/// Which code this is.
pub const CODE: &str = env!("REAL_CODE");

#[cfg(std_files)]
pub mod io;
#[cfg(not(std_files))]
#[path = "installed.rs"]
pub mod io;

// What the std files take from their crate's root.
#[cfg(std_files)]
use std::{cmp, error, fmt, mem, ptr, str};

/// std's files see a few private items of `io::Error` without importing them, so they must be in
/// the prelude here.
#[cfg(std_files)]
mod prelude {
    pub use crate::io::PrivateError;
    pub use std::prelude::rust_2024::*;
}
#[cfg(std_files)]
#[prelude_import]
#[allow(unused_imports)]
use crate::prelude::*;
