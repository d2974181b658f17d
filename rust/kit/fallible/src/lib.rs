//! Lists, texts, boxes, maps and buffers whose growth answers a `Result`.
//!
//! The proved sources are written against a standard library in which each allocation is passed an allocator and may be
//! refused. This crate gives Rust's own types those calls, so that the code that was proved stays as it is: where memory is
//! refused, it goes the way that it was proved to go. Nothing here is proved.
//!
//! Sizes have 64 bits in what was proved. Where they have 32, each conversion to a size is one that stays right, as
//! docs/RUST.md lists; of a narrower machine nothing was looked at.

#[cfg(not(any(target_pointer_width = "32", target_pointer_width = "64")))]
compile_error!("sizes and pointers have 32 or 64 bits here");

mod alloc;
mod boxed;
mod fail;
mod io;
mod map;
mod string;
mod vec;

pub use alloc::{AllocError, AllocFailed, Allocator, Global};
pub use boxed::Box;
pub use fail::Fail;
pub use io::{BufReader, BufWriter, read_to_end};
pub use map::BTreeMap;
pub use string::{AsStr, String, formatted};
pub use vec::{CollectIn, Vec, repeated};

/// A text of this format, made in memory that may be refused.
#[macro_export]
macro_rules! format {
    ($alloc:expr, $($words:tt)*) => {
        $crate::formatted($alloc, format_args!($($words)*))
    };
}

/// A list of this value so many times, made in memory that may be refused.
#[macro_export]
macro_rules! vec {
    ($alloc:expr; $value:expr; $count:expr) => {
        $crate::repeated($alloc, $value, $count)
    };
}
