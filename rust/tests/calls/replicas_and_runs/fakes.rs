use fallible::Vec;
use std::io;

// A reader that gives at most `step` bytes at a time. With `good` it fails once, after so many, and would go on then.
#[derive(Clone, Copy)]
pub(super) struct Reader<'a> {
    pub bytes: &'a [u8],
    pub step: usize,
    pub good: Option<usize>,
}

impl io::Read for Reader<'_> {
    fn read(&mut self, buf: &mut [u8]) -> io::Result<usize> {
        if self.good == Some(0) {
            self.good = None;
            return Err(io::ErrorKind::Other.into());
        }
        let most = self.good.unwrap_or(self.step).min(self.step);
        let len = self.bytes.len().min(most).min(buf.len());
        if let Some(good) = self.good {
            self.good = Some(good.saturating_sub(len));
        }
        let (given, left) = self.bytes.split_at(len);
        buf[..len].copy_from_slice(given);
        self.bytes = left;
        Ok(len)
    }
}

// How a writer fails.
#[derive(Clone, Copy)]
pub(super) enum Fault {
    Fails,
    IsInterrupted,
    TakesNothing,
}

// A writer that takes at most `step` bytes at a time and fails after `room` bytes, or when it was flushed
// `most` times. It was flushed `flushes` times, and of its bytes `flushed` are flushed.
pub(super) struct Limited {
    pub out: Vec<u8>,
    pub fault: Fault,
    pub step: usize,
    pub room: usize,
    pub most: usize,
    pub flushes: usize,
    pub flushed: usize,
}

impl io::Write for Limited {
    fn write(&mut self, buf: &[u8]) -> io::Result<usize> {
        let left = self.room.saturating_sub(self.out.len());
        let taken = buf.len().min(self.step).min(left);
        match self.fault {
            Fault::Fails if left == 0 => Err(io::ErrorKind::Other.into()),
            Fault::IsInterrupted if left == 0 => Err(io::ErrorKind::Interrupted.into()),
            _ => {
                self.out.extend_from_slice(&buf[..taken])?;
                Ok(taken)
            }
        }
    }

    fn flush(&mut self) -> io::Result<()> {
        if self.flushes >= self.most {
            return Err(io::ErrorKind::Other.into());
        }
        self.flushes += 1;
        self.flushed = self.out.len();
        Ok(())
    }
}
