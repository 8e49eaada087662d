//! A trace: what the judge reads.

use crate::limits;
use crate::numbers::{Fault, Reader, put, put_lengthened};

#[derive(Clone, Copy, Debug, PartialEq, Eq, Hash, PartialOrd, Ord)]
pub enum Claim {
    /// The count is 0 for a flush.
    Ok(u32),
    Interrupted,
    Zero,
    Error(u32),
}

#[derive(Clone, Debug, PartialEq, Eq)]
pub enum Traced {
    Write(Vec<u8>, Claim),
    Flush(Claim),
}

#[derive(Clone, Debug, PartialEq, Eq)]
pub struct Trace {
    pub capacity: usize,
    pub calls: Vec<Traced>,
    pub card: Vec<u8>,
}

pub fn check(bytes: &[u8]) -> Result<Trace, Fault> {
    let mut reader = Reader::new(bytes);
    let capacity = reader.number(limits::CAPACITY as u32)? as usize;
    let count = reader.number(limits::TRACE_CALLS as u32)?;
    let mut left = limits::BYTES as u32;
    let mut calls = Vec::new();
    for _ in 0..count {
        calls.push(match reader.number(1)? {
            0 => {
                let slice = reader.lengthened(left)?.to_vec();
                left -= slice.len() as u32;
                Traced::Write(slice, claim(&mut reader, true)?)
            }
            _ => Traced::Flush(claim(&mut reader, false)?),
        });
    }
    let card = reader.lengthened(limits::BYTES as u32)?.to_vec();
    reader.end()?;
    Ok(Trace { capacity, calls, card })
}

fn claim(reader: &mut Reader, counted: bool) -> Result<Claim, Fault> {
    Ok(match reader.number(3)? {
        0 => Claim::Ok(if counted { reader.number(u32::MAX)? } else { 0 }),
        1 => Claim::Interrupted,
        2 => Claim::Zero,
        _ => {
            let start = reader.place();
            match reader.number(limits::CODE)? {
                0 => return Err(Fault(start)),
                code => Claim::Error(code),
            }
        }
    })
}

impl Trace {
    /// The trace's bytes, without the session's kind number.
    pub fn bytes(&self) -> Vec<u8> {
        let mut to = Vec::new();
        put(&mut to, self.capacity as u32);
        put(&mut to, self.calls.len() as u32);
        for call in &self.calls {
            match call {
                Traced::Write(slice, claim) => {
                    to.push(0);
                    put_lengthened(&mut to, slice);
                    claim.put(&mut to, true);
                }
                Traced::Flush(claim) => {
                    to.push(1);
                    claim.put(&mut to, false);
                }
            }
        }
        put_lengthened(&mut to, &self.card);
        to
    }

    /// As an input of the bench program.
    pub fn session(&self) -> Vec<u8> {
        let mut to = vec![3];
        to.extend_from_slice(&self.bytes());
        to
    }
}

impl Claim {
    fn put(self, to: &mut Vec<u8>, counted: bool) {
        match self {
            Claim::Ok(n) => {
                to.push(0);
                if counted {
                    put(to, n);
                }
            }
            Claim::Interrupted => to.push(1),
            Claim::Zero => to.push(2),
            Claim::Error(code) => {
                to.push(3);
                put(to, code);
            }
        }
    }
}

#[cfg(test)]
mod tests {
    use super::*;

    #[test]
    fn faults() {
        let place = |bytes: &[u8]| Fault::place(check(bytes));
        assert_eq!(place(&[]), Some(0));
        assert_eq!(place(&[4]), Some(1));
        assert_eq!(place(&[4, 0, 0]), None);
        assert_eq!(place(&[4, 0, 0, 0]), Some(3));
        assert_eq!(place(&[4, 1, 2, 0]), Some(2));
        assert_eq!(place(&[4, 1, 1, 3, 0, 0]), Some(4));
        assert_eq!(place(&[4, 1, 1, 3, 0xff, 0xff, 0xfb, 0xff, 0x0f, 0]), None);
        assert_eq!(place(&[4, 1, 1, 3, 0x80, 0x80, 0xfc, 0xff, 0x0f, 0]), Some(4));
        assert_eq!(place(&[4, 1, 1, 4, 0]), Some(3));
        assert_eq!(place(&[4, 0x81, 0x02]), Some(1));
    }

    #[test]
    fn total() {
        let place = |bytes: &[u8]| Fault::place(check(bytes));
        let write = |n: usize| Traced::Write(vec![7; n], Claim::Zero);
        let trace = |calls| Trace { capacity: 1, calls, card: vec![] }.bytes();
        assert_eq!(place(&trace(vec![write(10_000), write(6_384), write(0)])), None);
        // 2 numbers, then 0, two bytes of length, the bytes and the claim; then the next 0.
        assert_eq!(place(&trace(vec![write(10_000), write(6_385)])), Some(2 + 10_004 + 1));
    }
}
