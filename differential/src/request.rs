//! What the driver asks of the port, as bytes: the same for a linked and for a piped port.
//!
//! A request is a letter and what it needs. Numbers are 32 bits, lowest byte first; bytes and
//! replies come after their count.
//!
//! - `s`, then a session to the end: the answer is the session's lines.
//! - `j`, then a trace to the end: the answer is the judge's line.
//! - `w`, call, storage, held, script, used, medium, out, slice: the answer is
//!   answer, value, calls, held, out, used (numbers), then all of the storage and of the medium.
//! - `r`, call, storage, pos, filled, script, used, stock, taken, size (64 bits), destination: the
//!   answer is answer, value, calls, pos, filled, used, taken, then all of the storage and of the
//!   destination, then the bytes shown by `peek` and fill.
//!
//! The calls are numbered in `direct.rs`. No request is over 65,536 bytes.

/// Of the whole request.
pub const MOST: usize = 65_536;

pub fn session(input: &[u8]) -> Vec<u8> {
    let mut to = Vec::with_capacity(input.len() + 1);
    to.push(b's');
    to.extend_from_slice(input);
    to
}

pub fn put(to: &mut Vec<u8>, number: u32) {
    to.extend_from_slice(&number.to_le_bytes());
}

pub fn put_bytes(to: &mut Vec<u8>, bytes: &[u8]) {
    put(to, bytes.len() as u32);
    to.extend_from_slice(bytes);
}

pub fn put_script(to: &mut Vec<u8>, script: &[u32]) {
    put(to, script.len() as u32);
    script.iter().for_each(|&reply| put(to, reply));
}

/// What is left of a request that is read back.
pub struct Parts<'a>(pub &'a [u8]);

impl Parts<'_> {
    pub fn number(&mut self) -> u32 {
        let (number, rest) = self.0.split_first_chunk().unwrap();
        self.0 = rest;
        u32::from_le_bytes(*number)
    }

    pub fn count(&mut self) -> usize {
        self.number() as usize
    }

    pub fn size(&mut self) -> i64 {
        let (size, rest) = self.0.split_first_chunk().unwrap();
        self.0 = rest;
        i64::from_le_bytes(*size)
    }

    pub fn bytes(&mut self) -> Vec<u8> {
        let count = self.count();
        let (bytes, rest) = self.0.split_at(count);
        self.0 = rest;
        bytes.to_vec()
    }

    pub fn script(&mut self) -> Vec<u32> {
        (0..self.count()).map(|_| self.number()).collect()
    }
}
