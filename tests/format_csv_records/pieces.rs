//! Readers that give few bytes at a time, that are interrupted, and that fail.
use std::io::{self, ErrorKind, Read};

/// A reader that is interrupted before each read, returns at most `step` bytes, and fails after a
/// given number of reads.
#[derive(Drop)]
pub struct Pieces<'a> {
    pub bytes: &'a [u8],
    pub step: usize,
    pub reads: usize,
    pub was_interrupted: bool,
}

impl<'a> Pieces<'a> {
    pub fn new(bytes: &'a [u8], step: usize) -> Pieces<'a> {
        Pieces {
            bytes,
            step,
            reads: usize::MAX,
            was_interrupted: false,
        }
    }
}

impl Read for Pieces<'_> {
    fn read(&mut self, buf: &mut [u8]) -> io::Result<usize> {
        self.was_interrupted = !self.was_interrupted;
        if self.was_interrupted {
            return Err(io::Error::from(ErrorKind::Interrupted));
        }
        if self.reads == 0 {
            return Err(io::Error::from(ErrorKind::PermissionDenied));
        }
        self.reads -= 1;
        let n = buf.len().min(self.step);
        self.bytes.read(&mut buf[..n])
    }
}

/// A socket that does not wait: each other read has one byte, and the others would block.
#[derive(Drop)]
pub struct Socket<'a> {
    pub bytes: &'a [u8],
    pub is_ready: bool,
}

impl Read for Socket<'_> {
    fn read(&mut self, buf: &mut [u8]) -> io::Result<usize> {
        self.is_ready = !self.is_ready;
        if !self.is_ready {
            return Err(io::Error::from(ErrorKind::WouldBlock));
        }
        let n = buf.len().min(1);
        self.bytes.read(&mut buf[..n])
    }
}
