use crate::alloc::Global;
use crate::vec::Vec;
use std::io::{self, BufRead, ErrorKind, Read, Write};

/// A reader with a buffer whose memory may be refused.
#[derive(Debug)]
pub struct BufReader<R> {
    reader: R,
    bytes: Vec<u8>,
    // What is held stands from `beg` to `end`.
    beg: usize,
    end: usize,
}

impl<R: Read> BufReader<R> {
    /// A buffer of this many bytes.
    pub fn with_capacity(alloc: Global, size: usize, reader: R) -> io::Result<BufReader<R>> {
        let mut bytes = Vec::with_capacity(alloc, size)?;
        bytes.resize(size, 0)?;
        Ok(BufReader {
            reader,
            bytes,
            beg: 0,
            end: 0,
        })
    }

    /// What is held.
    pub fn buffer(&self) -> &[u8] {
        &self.bytes[self.beg..self.end]
    }
}

impl<R: Read> BufRead for BufReader<R> {
    fn fill_buf(&mut self) -> io::Result<&[u8]> {
        if self.beg == self.end {
            (self.beg, self.end) = (0, 0);
            self.end = self.reader.read(&mut self.bytes)?.min(self.bytes.len());
        }
        Ok(self.buffer())
    }

    fn consume(&mut self, count: usize) {
        self.beg += count.min(self.end - self.beg);
    }
}

impl<R: Read> Read for BufReader<R> {
    fn read(&mut self, to: &mut [u8]) -> io::Result<usize> {
        let held = self.fill_buf()?;
        let count = held.len().min(to.len());
        to[..count].copy_from_slice(&held[..count]);
        self.consume(count);
        Ok(count)
    }
}

/// A writer with a buffer whose memory may be refused. What is held when it is dropped isn't written.
#[derive(Debug)]
pub struct BufWriter<W: Write> {
    writer: W,
    bytes: Vec<u8>,
}

impl<W: Write> BufWriter<W> {
    /// A buffer of this many bytes.
    pub fn with_capacity(alloc: Global, size: usize, writer: W) -> io::Result<BufWriter<W>> {
        Ok(BufWriter {
            writer,
            bytes: Vec::with_capacity(alloc, size)?,
        })
    }

    // Writes what is held. What was written isn't held any more, also where the rest fails.
    fn write_out(&mut self) -> io::Result<()> {
        let mut done = 0;
        let ended = loop {
            if done == self.bytes.len() {
                break Ok(());
            }
            match self.writer.write(&self.bytes[done..]) {
                Ok(0) => break Err(ErrorKind::WriteZero.into()),
                Ok(count) => done += count.min(self.bytes.len() - done),
                Err(why) if why.kind() == ErrorKind::Interrupted => {}
                Err(why) => break Err(why),
            }
        };
        self.bytes.as_std().drain(..done);
        ended
    }
}

impl<W: Write> Write for BufWriter<W> {
    fn write(&mut self, bytes: &[u8]) -> io::Result<usize> {
        if self.bytes.capacity() - self.bytes.len() < bytes.len() {
            self.write_out()?;
        }
        if self.bytes.capacity() <= bytes.len() {
            return self.writer.write(bytes);
        }
        self.bytes.as_std().extend_from_slice(bytes);
        Ok(bytes.len())
    }

    fn flush(&mut self) -> io::Result<()> {
        self.write_out()?;
        self.writer.flush()
    }
}

/// Reads to the end, puts that behind the bytes, and answers how many came.
pub fn read_to_end(reader: &mut impl Read, bytes: &mut Vec<u8>) -> io::Result<usize> {
    reader.read_to_end(bytes.as_std())
}
