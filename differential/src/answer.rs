//! The answers of document 01, and how the Rust's results say them.

use crate::device::Refusal;
use real::io::{Error, ErrorKind, Result};

#[derive(Clone, Copy, Debug, PartialEq, Eq, Hash, PartialOrd, Ord)]
pub enum Answer {
    /// With a count: `write`, `read`, `peek`, fill.
    Count(usize),
    /// Ok without a number.
    Done,
    Interrupted,
    Zero,
    Whole,
    Error(u32),
    Refused(u8),
}

impl Answer {
    pub fn counted(result: Result<usize>) -> Self {
        result.map_or_else(Self::failed, Self::Count)
    }

    pub fn done(result: Result<()>) -> Self {
        result.map_or_else(Self::failed, |()| Self::Done)
    }

    pub fn failed(error: Error) -> Self {
        if let Some(refusal) = error.get_ref().and_then(|inner| inner.downcast_ref::<Refusal>()) {
            return match *refusal {
                Refusal::Code(code) => Self::Error(code),
                Refusal::Seek => Self::Refused(4),
            };
        }
        match error.kind() {
            ErrorKind::Interrupted => Self::Interrupted,
            // Both are WriteZero: only the text tells flush_buf's from write_all's.
            ErrorKind::WriteZero => match error.to_string().as_str() {
                "failed to write the buffered data" => Self::Zero,
                "failed to write whole buffer" => Self::Whole,
                other => panic!("an unknown WriteZero: {other}"),
            },
            kind => panic!("an error that no device gave: {kind:?}"),
        }
    }

    /// The bytes that the call answered for.
    pub fn count(self) -> usize {
        match self {
            Self::Count(n) => n,
            _ => 0,
        }
    }
}

impl std::fmt::Display for Answer {
    fn fmt(&self, to: &mut std::fmt::Formatter<'_>) -> std::fmt::Result {
        match self {
            Self::Count(n) => write!(to, "ok {n}"),
            Self::Done => to.write_str("ok"),
            Self::Interrupted => to.write_str("interrupted"),
            Self::Zero => to.write_str("zero"),
            Self::Whole => to.write_str("whole"),
            Self::Error(code) => write!(to, "error {code}"),
            Self::Refused(number) => write!(to, "refused {number}"),
        }
    }
}
