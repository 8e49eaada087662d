//! A session: what the bench program reads. Checked left to right, as document 01 says.

use crate::limits;
use crate::numbers::{Fault, Reader, put, put_lengthened};

#[derive(Clone, Copy, Debug, PartialEq, Eq)]
pub enum Kind {
    Writer,
    LineWriter,
    Reader,
}

#[derive(Clone, Debug, PartialEq, Eq)]
pub enum Call {
    Write(Vec<u8>),
    WriteAll(Vec<u8>),
    Flush,
    Read(usize),
    Peek(usize),
    Consume(usize),
    Seek(i64),
    Fill,
}

#[derive(Clone, Debug, PartialEq, Eq)]
pub struct Session {
    pub kind: Kind,
    pub capacity: usize,
    pub script: Vec<u32>,
    /// Empty for a writer.
    pub stock: Vec<u8>,
    pub calls: Vec<Call>,
}

/// What an input is.
#[derive(Debug, PartialEq, Eq)]
pub enum Input<'a> {
    Session(Session),
    /// Kind 3: the trace's bytes, not yet looked at.
    Trace(&'a [u8]),
}

pub fn check(bytes: &[u8]) -> Result<Input<'_>, Fault> {
    if bytes.len() > limits::SESSION {
        return Err(Fault(limits::SESSION));
    }
    let mut reader = Reader::new(bytes);
    let kind = match reader.number(3)? {
        0 => Kind::Writer,
        1 => Kind::LineWriter,
        2 => Kind::Reader,
        _ => return Ok(Input::Trace(&bytes[reader.place()..])),
    };
    let capacity = reader.number(limits::CAPACITY as u32)? as usize;
    let replies = reader.number(limits::SCRIPT as u32)?;
    let script = (0..replies).map(|_| reader.number(u32::MAX)).collect::<Result<_, _>>()?;
    let stock = match kind {
        Kind::Reader => reader.lengthened(limits::BYTES as u32)?.to_vec(),
        _ => Vec::new(),
    };
    let count = reader.number(limits::CALLS as u32)?;
    let calls = (0..count).map(|_| call(&mut reader, kind)).collect::<Result<_, _>>()?;
    reader.end()?;
    Ok(Input::Session(Session { kind, capacity, script, stock, calls }))
}

fn call(reader: &mut Reader, kind: Kind) -> Result<Call, Fault> {
    const BYTES: u32 = limits::BYTES as u32;
    let start = reader.place();
    let number = reader.number(u32::MAX)?;
    Ok(match (kind, number) {
        (Kind::Writer | Kind::LineWriter, 0) => Call::Write(reader.lengthened(BYTES)?.to_vec()),
        (Kind::Writer | Kind::LineWriter, 1) => Call::WriteAll(reader.lengthened(BYTES)?.to_vec()),
        (Kind::Writer | Kind::LineWriter, 2) => Call::Flush,
        (Kind::Reader, 3) => Call::Read(reader.number(BYTES)? as usize),
        (Kind::Reader, 4) => Call::Peek(reader.number(u32::MAX)? as usize),
        (Kind::Reader, 5) => Call::Consume(reader.number(u32::MAX)? as usize),
        (Kind::Reader, 6) => Call::Seek(offset(reader)?),
        (Kind::Reader, 7) => Call::Fill,
        _ => return Err(Fault(start)),
    })
}

fn offset(reader: &mut Reader) -> Result<i64, Fault> {
    let back = reader.number(1)? == 1;
    let start = reader.place();
    match (back, i64::from(reader.number(u32::MAX)?)) {
        (true, 0) => Err(Fault(start)),
        (true, size) => Ok(-size),
        (false, size) => Ok(size),
    }
}

impl Session {
    pub fn bytes(&self) -> Vec<u8> {
        let mut to = vec![self.kind as u8];
        put(&mut to, self.capacity as u32);
        put(&mut to, self.script.len() as u32);
        self.script.iter().for_each(|&reply| put(&mut to, reply));
        if self.kind == Kind::Reader {
            put_lengthened(&mut to, &self.stock);
        }
        put(&mut to, self.calls.len() as u32);
        self.calls.iter().for_each(|call| call.put(&mut to));
        to
    }
}

impl Call {
    pub fn put(&self, to: &mut Vec<u8>) {
        let sized = |to: &mut Vec<u8>, number: u8, size: usize| {
            to.push(number);
            put(to, size as u32);
        };
        match self {
            Call::Write(slice) => {
                to.push(0);
                put_lengthened(to, slice);
            }
            Call::WriteAll(slice) => {
                to.push(1);
                put_lengthened(to, slice);
            }
            Call::Flush => to.push(2),
            Call::Read(n) => sized(to, 3, *n),
            Call::Peek(n) => sized(to, 4, *n),
            Call::Consume(n) => sized(to, 5, *n),
            Call::Seek(offset) => {
                to.extend_from_slice(&[6, u8::from(*offset < 0)]);
                put(to, offset.unsigned_abs() as u32);
            }
            Call::Fill => to.push(7),
        }
    }
}

#[cfg(test)]
mod tests {
    use super::*;

    #[test]
    fn faults() {
        let place = |bytes: &[u8]| Fault::place(check(bytes));
        assert_eq!(place(&[]), Some(0));
        assert_eq!(place(&[4]), Some(0));
        assert_eq!(place(&[0x80, 0x80, 0x80, 0x80, 0x80]), Some(0));
        assert_eq!(place(&[0, 0xff, 0xff]), Some(3));
        assert_eq!(place(&[0, 0x81, 0x08]), Some(1));
        assert_eq!(place(&[0, 0x80, 0x08, 0, 0]), None);
        assert_eq!(place(&[0, 4, 0, 0, 9]), Some(4));
        assert_eq!(place(&[0, 4, 0, 1, 3, 0]), Some(4));
        assert_eq!(place(&[0, 4, 0, 1, 0, 2, 9]), Some(7));
        assert_eq!(place(&[0, 4, 0, 1, 0, 0x81, 0x80, 0x01]), Some(5));
        assert_eq!(place(&[2, 4, 0, 0, 1, 6, 1, 0]), Some(7));
        assert_eq!(place(&[2, 4, 0, 0, 1, 6, 2, 0]), Some(6));
        assert_eq!(place(&[2, 4, 0, 0, 1, 0, 0]), Some(5));
        assert_eq!(place(&vec![9; limits::SESSION + 1]), Some(limits::SESSION));
        assert_eq!(check(&[3]), Ok(Input::Trace(&[])));
    }
}
