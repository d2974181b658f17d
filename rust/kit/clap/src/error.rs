//! Why words give no options.

use fallible::{AllocError, Global, String};
use std::fmt;
use std::io::{self, Write};

/// What sort of error it is.
#[derive(Clone, Copy, Debug, PartialEq, Eq)]
#[non_exhaustive]
pub enum ErrorKind {
    /// No such option, or a word that is none.
    UnknownArgument,
    /// An option has no value.
    InvalidValue,
    /// A value stands where none is wanted.
    TooManyValues,
    /// An option stands twice.
    ArgumentConflict,
    /// A value isn't as its option wants it.
    ValueValidation,
    /// Help was asked for, which is no fault.
    DisplayHelp,
    /// Memory was refused.
    OutOfMemory,
}

/// Why words give no options, with what is printed of it.
#[derive(Debug)]
pub struct Error {
    kind: ErrorKind,
    text: String,
}

impl Error {
    pub(crate) fn new(kind: ErrorKind, text: String) -> Error {
        Error { kind, text }
    }

    /// What sort of error it is.
    pub fn kind(&self) -> ErrorKind {
        self.kind
    }

    /// Prints help to standard output, all else to standard error.
    pub fn print(&self) -> io::Result<()> {
        match self.kind {
            ErrorKind::DisplayHelp => {
                let mut output = io::stdout();
                output.write_all(self.text.as_bytes())?;
                output.flush()
            }
            _ => io::stderr().write_all(self.text.as_bytes()),
        }
    }
}

impl fmt::Display for Error {
    fn fmt(&self, f: &mut fmt::Formatter<'_>) -> fmt::Result {
        f.write_str(&self.text)
    }
}

impl std::error::Error for Error {}

impl From<AllocError> for Error {
    fn from(_: AllocError) -> Error {
        Error::new(ErrorKind::OutOfMemory, String::new(Global))
    }
}
