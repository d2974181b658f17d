use crate::alloc::{AllocError, AllocFailed};
use std::fmt;

/// Why a test fails.
pub struct Fail {
    why: std::string::String,
}

impl fmt::Debug for Fail {
    fn fmt(&self, f: &mut fmt::Formatter<'_>) -> fmt::Result {
        f.write_str(&self.why)
    }
}

impl<T: Copy + fmt::Debug> From<T> for Fail {
    fn from(why: T) -> Fail {
        Fail {
            why: std::format!("{why:?}"),
        }
    }
}

impl<T> From<AllocFailed<T>> for Fail {
    fn from(_: AllocFailed<T>) -> Fail {
        AllocError.into()
    }
}
