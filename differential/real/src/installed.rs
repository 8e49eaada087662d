//! Where the std files are not at hand: the same names from the installed standard library.

pub use std::io::{BufRead, BufReader, BufWriter, Error, ErrorKind, Read, Result};
pub use std::io::{Seek, SeekFrom, Write};

/// Whether the calls below that lay a writer's storage open are there.
pub const LAID_OPEN: bool = false;

pub struct LineWriter<W: Write>(std::io::LineWriter<W>);

impl<W: Write> LineWriter<W> {
    pub fn with_capacity(capacity: usize, inner: W) -> Self {
        Self(std::io::LineWriter::with_capacity(capacity, inner))
    }

    pub fn over(_writer: BufWriter<W>) -> Self {
        unimplemented!("only with the std files")
    }

    /// std's LineWriter shows its BufWriter to nobody, but is nothing else.
    pub fn plain(&mut self) -> &mut BufWriter<W> {
        const { assert!(size_of::<std::io::LineWriter<W>>() == size_of::<BufWriter<W>>()) };
        // SAFETY: a struct with this one field and of its size has it at its start.
        unsafe { &mut *(&raw mut self.0).cast::<BufWriter<W>>() }
    }
}

impl<W: Write> Write for LineWriter<W> {
    fn write(&mut self, buf: &[u8]) -> Result<usize> {
        self.0.write(buf)
    }

    fn flush(&mut self) -> Result<()> {
        self.0.flush()
    }

    fn write_all(&mut self, buf: &[u8]) -> Result<()> {
        self.0.write_all(buf)
    }
}

/// A writer that holds the first `held` bytes, made by writes that are only stored. What stands
/// behind them in the storage is lost here.
pub fn writer_over<W: Write>(inner: W, storage: &[u8], held: usize) -> BufWriter<W> {
    let mut writer = BufWriter::with_capacity(storage.len(), inner);
    for byte in &storage[..held] {
        assert_eq!(writer.write(&[*byte]).ok(), Some(1));
    }
    assert_eq!(writer.buffer(), &storage[..held]);
    writer
}

pub fn flush_buf<W: Write>(_writer: &mut BufWriter<W>) -> Result<()> {
    unimplemented!("only with the std files")
}

pub fn storage<W: Write>(_writer: &mut BufWriter<W>) -> Vec<u8> {
    unimplemented!("only with the std files")
}

/// The reader's buffer alone.
pub struct Buffer;

impl Buffer {
    pub fn with_capacity(_capacity: usize) -> Self {
        unimplemented!("only with the std files")
    }

    pub fn buffer(&self) -> &[u8] {
        &[]
    }

    pub fn pos(&self) -> usize {
        0
    }

    pub fn filled(&self) -> usize {
        0
    }

    pub fn consume(&mut self, _amt: usize) {}

    pub fn unconsume(&mut self, _amt: usize) {}

    pub fn backshift(&mut self) {}

    pub fn read_more(&mut self, _reader: impl Read) -> Result<usize> {
        Ok(0)
    }

    pub fn fill_buf(&mut self, _reader: impl Read) -> Result<&[u8]> {
        Ok(&[])
    }
}
