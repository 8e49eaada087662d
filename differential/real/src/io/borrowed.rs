//! The borrowed buffer and its cursor, as far as the reader's files use them.

use std::mem::MaybeUninit;

pub struct BorrowedBuf<'data> {
    buf: &'data mut [MaybeUninit<u8>],
    filled: usize,
    init: bool,
}

impl<'data> From<&'data mut [MaybeUninit<u8>]> for BorrowedBuf<'data> {
    fn from(buf: &'data mut [MaybeUninit<u8>]) -> Self {
        Self { buf, filled: 0, init: false }
    }
}

impl<'data> BorrowedBuf<'data> {
    pub fn len(&self) -> usize {
        self.filled
    }

    pub fn is_init(&self) -> bool {
        self.init
    }

    /// # Safety
    /// Every byte of the buffer is initialised.
    pub unsafe fn set_init(&mut self) {
        self.init = true;
    }

    pub fn unfilled<'this>(&'this mut self) -> BorrowedCursor<'this> {
        let start = self.filled;
        // SAFETY: the cursor only shortens the lifetime of the data it can reach.
        let buf = unsafe {
            std::mem::transmute::<&'this mut BorrowedBuf<'data>, &'this mut BorrowedBuf<'this>>(
                self,
            )
        };
        BorrowedCursor { start, buf }
    }
}

pub struct BorrowedCursor<'a> {
    buf: &'a mut BorrowedBuf<'a>,
    start: usize,
}

impl<'a> BorrowedCursor<'a> {
    pub fn reborrow<'this>(&'this mut self) -> BorrowedCursor<'this> {
        let start = self.start;
        // SAFETY: as in `unfilled`.
        let buf = unsafe {
            std::mem::transmute::<&'this mut BorrowedBuf<'a>, &'this mut BorrowedBuf<'this>>(
                self.buf,
            )
        };
        BorrowedCursor { buf, start }
    }

    pub fn capacity(&self) -> usize {
        self.buf.buf.len() - self.buf.filled
    }

    pub fn written(&self) -> usize {
        self.buf.filled - self.start
    }

    /// Zeroes what is not initialised, and gives the whole unfilled part.
    pub fn ensure_init(&mut self) -> &mut [u8] {
        let filled = self.buf.filled;
        let unfilled = &mut self.buf.buf[filled..];
        if !self.buf.init {
            unfilled.fill(MaybeUninit::new(0));
            self.buf.init = true;
        }
        // SAFETY: the unfilled part is initialised: just now, or by the flag's meaning.
        unsafe { unfilled.assume_init_mut() }
    }

    pub fn advance(&mut self, n: usize) {
        assert!(n <= self.capacity());
        self.buf.filled += n;
    }

    pub fn append(&mut self, bytes: &[u8]) {
        self.ensure_init()[..bytes.len()].copy_from_slice(bytes);
        self.advance(bytes.len());
    }
}
