//! The limits of document 01.

pub const CAPACITY: usize = 1_024;
pub const SCRIPT: usize = 4_096;
/// Of a slice, a destination, a medium, a stock, and of a trace's bytes.
pub const BYTES: usize = 16_384;
pub const CALLS: usize = 1_024;
pub const SESSION: usize = 32_768;
pub const TRACE_CALLS: usize = 256;
/// The highest error code that a script's number can name.
pub const CODE: u32 = u32::MAX - INTERRUPTED;

/// The reply `interrupted`; below it accepts, above it errors.
pub const INTERRUPTED: u32 = 65_536;
