//! What the tests of this package share: the examples of the `CALLING.md` files, and a reader and a writer that fail at a
//! chosen call.
use std::io::{self, Read, Write};

#[rustfmt::skip]
#[allow(missing_docs, missing_debug_implementations, clippy::all)]
pub mod uses;

/// A writer whose write number `left`, counted from 0, fails: by an error, or by taking nothing.
#[derive(Debug)]
pub struct Failing<'a> {
    /// How many writes succeed.
    pub left: usize,
    /// Whether the failing write takes nothing, instead of returning an error.
    pub takes_nothing: bool,
    /// The most bytes that it takes in one write.
    pub most: usize,
    /// Where the bytes that it takes go.
    pub bytes: &'a mut Vec<u8>,
}

impl Write for Failing<'_> {
    fn write(&mut self, bytes: &[u8]) -> io::Result<usize> {
        if self.left == 0 {
            return if self.takes_nothing {
                Ok(0)
            } else {
                Err(io::ErrorKind::BrokenPipe.into())
            };
        }
        self.left -= 1;
        let count = bytes.len().min(self.most);
        self.bytes.extend_from_slice(&bytes[..count]);
        Ok(count)
    }

    fn flush(&mut self) -> io::Result<()> {
        Ok(())
    }
}

/// A reader whose read number `left`, counted from 0, fails.
#[derive(Debug)]
pub struct Broken<'a> {
    /// How many reads succeed.
    pub left: usize,
    /// The most bytes that it returns in one read.
    pub most: usize,
    /// The bytes that it has not returned yet.
    pub bytes: &'a [u8],
}

impl Read for Broken<'_> {
    fn read(&mut self, bytes: &mut [u8]) -> io::Result<usize> {
        if self.left == 0 {
            return Err(io::ErrorKind::Other.into());
        }
        self.left -= 1;
        let count = bytes.len().min(self.most);
        self.bytes.read(&mut bytes[..count])
    }
}
