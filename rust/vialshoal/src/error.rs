use crate::messages::Messages;
use looks::Refusal;
use std::error;
use std::fmt;
use text_chunks::UnpackRefusal;
use texts::{EditRefusal, MergeRefusal};

/// Why a call did nothing.
#[derive(Clone, Copy, Debug, PartialEq, Eq, Hash)]
#[non_exhaustive]
pub enum Error {
    /// The text refused it.
    Refused(Refusal),
    /// A number is that of no text, no site or no name.
    NoNumber,
    /// A position lies outside the text, or a range ends before its begin.
    OutOfText,
    /// More than 2^24 bytes are to be put in.
    TooLong,
    /// The name is that of no character that was taken in.
    NoName,
    /// A change of looks selects none.
    NothingSelected,
}

fn words(refusal: Refusal) -> &'static str {
    match refusal {
        Refusal::Malformed => "the bytes spell no message",
        Refusal::WrongText => "it is of another text",
        Refusal::Conflict => "another operation has this identity",
        Refusal::BadOffset => "its offset isn't where its site's file ends",
        Refusal::BadStamp => "its stamp isn't above each cause's",
        Refusal::RoomFull => "as many messages wait as may wait",
        Refusal::Behind => "a message that waits shows that this site has gone further elsewhere",
        Refusal::StampsSpent => "the greatest stamp was taken in",
        Refusal::FileSpent => "the site's file, or the stretch, would pass 2^24 bytes",
        Refusal::Scattered => "a set of names needs more than 1,024 ranges",
        Refusal::BadFile => "the bytes are no file of a text",
        Refusal::SeqSpent => "the site's sequence numbers are spent",
        Refusal::OutOfMemory { .. } => "memory was refused",
        _ => "it was refused",
    }
}

impl fmt::Display for Error {
    fn fmt(&self, f: &mut fmt::Formatter<'_>) -> fmt::Result {
        f.write_str(match self {
            Error::Refused(refusal) => words(*refusal),
            Error::NoNumber => "the number is that of no text, no site or no name",
            Error::OutOfText => "the position lies outside the text",
            Error::TooLong => "more than 2^24 bytes are to be put in",
            Error::NoName => "the name is that of no character here",
            Error::NothingSelected => "no looks are selected",
        })
    }
}

impl error::Error for Error {}

impl From<Refusal> for Error {
    fn from(refusal: Refusal) -> Error {
        Error::Refused(refusal)
    }
}

/// Why an edit was refused, and the messages of what was done of it before that. These are to be sent.
#[derive(Debug)]
pub struct EditError {
    /// The messages of the edit's first operations, which stand; mostly none.
    pub sent: Messages,
    /// Why the edit, or its rest, was refused.
    pub why: Error,
}

impl EditError {
    pub(crate) fn new(refusal: EditRefusal, sent: Messages) -> EditError {
        let why = match refusal {
            EditRefusal::Whole(why) | EditRefusal::Partial { why, .. } => why.into(),
        };
        EditError { sent, why }
    }
}

impl fmt::Display for EditError {
    fn fmt(&self, f: &mut fmt::Formatter<'_>) -> fmt::Result {
        match self.sent.len() {
            0 => write!(f, "{}", self.why),
            count => write!(f, "{}, after {count} operations", self.why),
        }
    }
}

impl error::Error for EditError {}

impl From<Error> for EditError {
    fn from(why: Error) -> EditError {
        EditError {
            sent: Messages::none(),
            why,
        }
    }
}

/// Why a chunk wasn't unpacked to its end.
#[derive(Clone, Copy, Debug, PartialEq, Eq)]
pub struct UnpackError {
    /// How many of its operations were handed in before that, which stand.
    pub done: u64,
    /// Why the next one was refused.
    pub why: Error,
}

impl fmt::Display for UnpackError {
    fn fmt(&self, f: &mut fmt::Formatter<'_>) -> fmt::Result {
        write!(f, "{}, after {} operations", self.why, self.done)
    }
}

impl error::Error for UnpackError {}

impl From<UnpackRefusal> for UnpackError {
    fn from(refusal: UnpackRefusal) -> UnpackError {
        let (done, why) = match refusal {
            UnpackRefusal::Whole(why) => (0, why),
            UnpackRefusal::Partial { done, why } => (done, why),
        };
        UnpackError {
            done,
            why: why.into(),
        }
    }
}

/// Why a merge was refused.
#[derive(Clone, Copy, Debug, PartialEq, Eq)]
pub struct MergeError {
    /// How many operations were taken in before that, which stand.
    pub done: u64,
    /// Why the merge, or its rest, was refused; after some operations, that memory was.
    pub why: Error,
}

impl fmt::Display for MergeError {
    fn fmt(&self, f: &mut fmt::Formatter<'_>) -> fmt::Result {
        write!(f, "{}, after {} operations", self.why, self.done)
    }
}

impl error::Error for MergeError {}

impl From<MergeRefusal> for MergeError {
    fn from(refusal: MergeRefusal) -> MergeError {
        match refusal {
            MergeRefusal::Whole(why) => MergeError {
                done: 0,
                why: why.into(),
            },
            MergeRefusal::Stopped { done, .. } => MergeError {
                done,
                why: Refusal::from(fallible::AllocError).into(),
            },
        }
    }
}
