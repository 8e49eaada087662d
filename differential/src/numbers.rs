//! Numbers in groups of seven bits, lowest first, and a reader that knows the place of a fault.

/// The place of the first fault.
#[derive(Clone, Copy, Debug, PartialEq, Eq)]
pub struct Fault(pub usize);

#[cfg(test)]
impl Fault {
    /// The place of the fault that a check found.
    pub fn place<T>(checked: Result<T, Self>) -> Option<usize> {
        checked.err().map(|Fault(place)| place)
    }
}

pub struct Reader<'a> {
    bytes: &'a [u8],
    at: usize,
}

impl<'a> Reader<'a> {
    pub fn new(bytes: &'a [u8]) -> Self {
        Self { bytes, at: 0 }
    }

    pub fn place(&self) -> usize {
        self.at
    }

    /// The next number, at most `most`.
    pub fn number(&mut self, most: u32) -> Result<u32, Fault> {
        let start = self.at;
        let mut value = 0u32;
        for group in 0.. {
            let &byte = self.bytes.get(self.at).ok_or(Fault(self.bytes.len()))?;
            self.at += 1;
            // The fifth byte has room for four bits only, and no further byte may follow it.
            if group == 4 && byte > 15 {
                return Err(Fault(start));
            }
            value |= u32::from(byte & 0x7f) << (7 * group);
            if byte < 0x80 {
                let shortest = byte > 0 || group == 0;
                return if shortest && value <= most { Ok(value) } else { Err(Fault(start)) };
            }
        }
        unreachable!()
    }

    /// A length of at most `most`, and so many bytes.
    pub fn lengthened(&mut self, most: u32) -> Result<&'a [u8], Fault> {
        let length = self.number(most)? as usize;
        let rest = &self.bytes[self.at..];
        let bytes = rest.get(..length).ok_or(Fault(self.bytes.len()))?;
        self.at += length;
        Ok(bytes)
    }

    /// Nothing follows.
    pub fn end(&self) -> Result<(), Fault> {
        if self.at < self.bytes.len() { Err(Fault(self.at)) } else { Ok(()) }
    }
}

pub fn put(to: &mut Vec<u8>, mut value: u32) {
    while value > 0x7f {
        to.push(value as u8 | 0x80);
        value >>= 7;
    }
    to.push(value as u8);
}

pub fn put_lengthened(to: &mut Vec<u8>, bytes: &[u8]) {
    put(to, bytes.len() as u32);
    to.extend_from_slice(bytes);
}

#[cfg(test)]
mod tests {
    use super::*;

    fn read(bytes: &[u8]) -> Result<u32, usize> {
        Reader::new(bytes).number(u32::MAX).map_err(|Fault(place)| place)
    }

    #[test]
    fn places() {
        assert_eq!(read(&[]), Err(0));
        assert_eq!(read(&[0]), Ok(0));
        assert_eq!(read(&[0x85, 0x80, 0x04]), Ok(65_541));
        assert_eq!(read(&[0xff, 0xff]), Err(2));
        assert_eq!(read(&[0x80, 0x00]), Err(0));
        assert_eq!(read(&[0x80; 4]), Err(4));
        assert_eq!(read(&[0x80; 5]), Err(0));
        assert_eq!(read(&[0x80, 0x80, 0x80, 0x80, 0x00]), Err(0));
        assert_eq!(read(&[0x80, 0x80, 0x80, 0x80, 0x10]), Err(0));
        assert_eq!(read(&[0xff, 0xff, 0xff, 0xff, 0x0f]), Ok(u32::MAX));
    }

    #[test]
    fn round_trip() {
        for value in [0, 1, 127, 128, 16_383, 16_384, 65_536, u32::MAX] {
            let mut bytes = Vec::new();
            put(&mut bytes, value);
            assert_eq!(read(&bytes), Ok(value));
        }
    }
}
