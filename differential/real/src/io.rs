//! As much of `crate::io` as the std files ask for. Errors, `Write` (with the default `write_all`)
//! and `Seek` are the installed standard library's own; `Read` is not, because the borrowed buffers
//! of its `read_buf` have changed between the two versions.

mod borrowed;

include!(concat!(env!("OUT_DIR"), "/tree.rs"));

pub use self::borrowed::{BorrowedBuf, BorrowedCursor};
pub use self::buffered::buffer::Buffer;
pub use self::buffered::bufreader::BufReader;
pub use self::buffered::bufwriter::BufWriter;
use self::buffered::linewritershim::LineWriterShim;
pub use std::io::{
    Error, ErrorKind, IoSlice, IoSliceMut, Result, Seek, SeekFrom, Write, const_error,
};

/// Whether the calls below that lay a writer's storage open are there.
pub const LAID_OPEN: bool = true;

const DEFAULT_BUF_SIZE: usize = 8 * 1024;

/// Items of `io::Error` that are private to std.
pub trait PrivateError {
    const INVALID_UTF8: Error;
    fn is_interrupted(&self) -> bool;
}

impl PrivateError for Error {
    const INVALID_UTF8: Error =
        const_error!(ErrorKind::InvalidData, "stream did not contain valid UTF-8");

    fn is_interrupted(&self) -> bool {
        self.kind() == ErrorKind::Interrupted
    }
}

pub trait Read {
    fn read(&mut self, buf: &mut [u8]) -> Result<usize>;

    /// The default of std: the part not yet initialised is zeroed, then `read` is offered it all.
    fn read_buf(&mut self, mut cursor: BorrowedCursor<'_>) -> Result<()> {
        let n = self.read(cursor.ensure_init())?;
        cursor.advance(n);
        Ok(())
    }

    fn read_vectored(&mut self, bufs: &mut [IoSliceMut<'_>]) -> Result<usize> {
        match bufs.iter_mut().find(|b| !b.is_empty()) {
            Some(buf) => self.read(buf),
            None => self.read(&mut []),
        }
    }

    fn is_read_vectored(&self) -> bool {
        false
    }

    fn read_to_end(&mut self, _buf: &mut Vec<u8>) -> Result<usize> {
        unimplemented!("not part of the port")
    }

    fn read_to_string(&mut self, _buf: &mut String) -> Result<usize> {
        unimplemented!("not part of the port")
    }

    fn read_exact(&mut self, _buf: &mut [u8]) -> Result<()> {
        unimplemented!("not part of the port")
    }

    fn read_buf_exact(&mut self, _cursor: BorrowedCursor<'_>) -> Result<()> {
        unimplemented!("not part of the port")
    }
}

impl<R: Read + ?Sized> Read for &mut R {
    fn read(&mut self, buf: &mut [u8]) -> Result<usize> {
        (**self).read(buf)
    }

    fn read_buf(&mut self, cursor: BorrowedCursor<'_>) -> Result<()> {
        (**self).read_buf(cursor)
    }
}

impl Read for &[u8] {
    fn read(&mut self, buf: &mut [u8]) -> Result<usize> {
        std::io::Read::read(self, buf)
    }
}

pub trait BufRead: Read {
    fn fill_buf(&mut self) -> Result<&[u8]>;
    fn consume(&mut self, amt: usize);
}

trait SizeHint {
    fn lower_bound(&self) -> usize;
    fn upper_bound(&self) -> Option<usize>;
}

impl<T: ?Sized> SizeHint for T {
    default fn lower_bound(&self) -> usize {
        0
    }

    default fn upper_bound(&self) -> Option<usize> {
        None
    }
}

trait SpecReadByte {
    fn spec_read_byte(&mut self) -> Option<Result<u8>>;
}

fn uninlined_slow_read_byte<R: Read>(_reader: &mut R) -> Option<Result<u8>> {
    unimplemented!("not part of the port")
}

fn default_read_exact<R: Read + ?Sized>(_reader: &mut R, _buf: &mut [u8]) -> Result<()> {
    unimplemented!("not part of the port")
}

fn default_read_buf_exact<R: Read + ?Sized>(_: &mut R, _: BorrowedCursor<'_>) -> Result<()> {
    unimplemented!("not part of the port")
}

unsafe fn append_to_string<F>(_buf: &mut String, _f: F) -> Result<usize>
where
    F: FnOnce(&mut Vec<u8>) -> Result<usize>,
{
    unimplemented!("not part of the port")
}

pub struct IntoInnerError<W>(W, Error);

impl<W> IntoInnerError<W> {
    fn new(writer: W, error: Error) -> Self {
        Self(writer, error)
    }
}

/// std's LineWriter: the shim around a BufWriter for the time of one call.
pub struct LineWriter<W: Write>(BufWriter<W>);

impl<W: Write> LineWriter<W> {
    pub fn with_capacity(capacity: usize, inner: W) -> Self {
        Self(BufWriter::with_capacity(capacity, inner))
    }

    pub fn over(writer: BufWriter<W>) -> Self {
        Self(writer)
    }

    pub fn plain(&mut self) -> &mut BufWriter<W> {
        &mut self.0
    }
}

impl<W: Write> Write for LineWriter<W> {
    fn write(&mut self, buf: &[u8]) -> Result<usize> {
        LineWriterShim::new(&mut self.0).write(buf)
    }

    fn flush(&mut self) -> Result<()> {
        self.0.flush()
    }

    fn write_all(&mut self, buf: &[u8]) -> Result<()> {
        LineWriterShim::new(&mut self.0).write_all(buf)
    }
}

/// A writer over this storage, of which the first `held` bytes are held.
pub fn writer_over<W: Write>(inner: W, storage: &[u8], held: usize) -> BufWriter<W> {
    let mut buf = Vec::with_capacity(storage.len());
    assert_eq!(buf.capacity(), storage.len());
    buf.extend_from_slice(storage);
    buf.truncate(held);
    BufWriter::with_buffer(inner, buf)
}

/// `flush_buf` alone, which std keeps to itself.
pub fn flush_buf<W: Write>(writer: &mut BufWriter<W>) -> Result<()> {
    writer.flush_buf()
}

/// The whole storage of a writer that came from `writer_over`.
pub fn storage<W: Write>(writer: &mut BufWriter<W>) -> Vec<u8> {
    let buf = writer.buffer_mut();
    // SAFETY: all bytes up to the capacity were initialised when the vector was made, and nothing
    // in BufWriter takes that back.
    unsafe { std::slice::from_raw_parts(buf.as_ptr(), buf.capacity()) }.to_vec()
}
