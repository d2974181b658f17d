//! Shared by the tests of this package. They call what neither a script nor the library for C reaches, and compare with plain programs.
#![forbid(unsafe_code)]
use fallible::Fail;

/// A failure that tells what isn't right.
pub fn is(right: bool, what: &'static str) -> Result<(), Fail> {
    if right { Ok(()) } else { Err(what.into()) }
}
