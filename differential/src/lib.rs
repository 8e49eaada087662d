//! Compares the port with the Rust it was ported from.

#![feature(bufreader_peek, real_code)]

pub mod answer;
pub mod compare;
pub mod damage;
pub mod device;
pub mod direct;
pub mod direct_worlds;
pub mod hex;
pub mod judge;
pub mod large;
#[cfg(feature = "linked")]
pub mod library;
pub mod limits;
#[cfg(feature = "linked")]
pub mod linked;
pub mod mirror;
pub mod numbers;
pub mod oracle;
pub mod port;
pub mod random;
pub mod request;
pub mod runs;
pub mod sample;
pub mod session;
pub mod small;
pub mod stored;
pub mod trace;
