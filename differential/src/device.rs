//! The scripted card of document 01, as a Rust device.

use crate::limits;
use real::io::{Error, ErrorKind, Read, Result, Seek, SeekFrom, Write};
use std::fmt;

/// What the card says other than accept and interrupted.
#[derive(Clone, Copy, Debug, PartialEq, Eq)]
pub enum Refusal {
    Code(u32),
    /// `seek_relative` left the buffered range and asked the device.
    Seek,
}

impl fmt::Display for Refusal {
    fn fmt(&self, to: &mut fmt::Formatter<'_>) -> fmt::Result {
        write!(to, "{self:?}")
    }
}

impl std::error::Error for Refusal {}

#[derive(Clone, Debug, Default, PartialEq, Eq)]
pub struct Device {
    pub script: Vec<u32>,
    pub used: usize,
    /// Device calls since `new`. One that meets the script's end counts and uses no reply.
    pub calls: usize,
    /// The bytes out, and how many the medium has room for in all.
    pub medium: Vec<u8>,
    pub size: usize,
    pub stock: Vec<u8>,
    pub taken: usize,
    /// What the next read lays into its whole room, and the count it gives for it, unseen by
    /// script and counts: it brings a reader into a state of the driver's choice.
    pub prime: Option<(Vec<u8>, usize)>,
}

impl Device {
    pub fn writing(script: Vec<u32>) -> Self {
        Self { script, size: limits::BYTES, ..Self::default() }
    }

    pub fn reading(script: Vec<u32>, stock: Vec<u8>) -> Self {
        Self { script, stock, ..Self::default() }
    }

    /// Takes a reply: the count that it accepts, before offer and room cut it.
    fn reply(&mut self) -> Result<usize> {
        self.calls += 1;
        let Some(&reply) = self.script.get(self.used) else {
            return Err(Error::other(Refusal::Code(0)));
        };
        self.used += 1;
        match reply {
            limits::INTERRUPTED => Err(ErrorKind::Interrupted.into()),
            0..limits::INTERRUPTED => Ok(reply as usize),
            _ => {
                let code = reply - limits::INTERRUPTED;
                Err(Error::other(Refusal::Code(code)))
            }
        }
    }
}

impl Write for Device {
    fn write(&mut self, offered: &[u8]) -> Result<usize> {
        let n = self.reply()?.min(offered.len()).min(self.size - self.medium.len());
        self.medium.extend_from_slice(&offered[..n]);
        Ok(n)
    }

    fn flush(&mut self) -> Result<()> {
        self.reply().map(drop)
    }
}

impl Read for Device {
    fn read(&mut self, room: &mut [u8]) -> Result<usize> {
        if let Some((storage, filled)) = self.prime.take() {
            room.copy_from_slice(&storage);
            return Ok(filled);
        }
        let left = &self.stock[self.taken..];
        let most = left.len().min(room.len());
        let n = self.reply()?.min(most);
        room[..n].copy_from_slice(&self.stock[self.taken..][..n]);
        self.taken += n;
        Ok(n)
    }
}

impl Seek for Device {
    fn seek(&mut self, _: SeekFrom) -> Result<u64> {
        Err(Error::other(Refusal::Seek))
    }
}
