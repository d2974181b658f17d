//! Texts that several sites edit at the same time, each on a copy of its own.
//!
//! A [`Text`] is a site's copy. An edit changes it, and answers [`Messages`]; other sites take these, in any order and any
//! number of times, and copies that took the same show the same. A message that comes before its causes waits for them.
//!
//! ```
//! use vialshoal::Text;
//!
//! # fn main() -> Result<(), Box<dyn std::error::Error>> {
//! let (mut a, mut b) = (Text::new(1, 1)?, Text::new(1, 2)?);
//! for message in &a.insert(0, b"Oberon")? {
//!     b.take(message)?;
//! }
//! for message in &b.delete(0..2)? {
//!     a.take(message)?;
//! }
//! assert!(a.bytes(0..4)?.eq(*b"eron") && b.bytes(0..4)?.eq(*b"eron"));
//!
//! // A site that was away takes what another has past its fronts.
//! a.insert(4, b"!")?;
//! for chunk in &a.pack(&b.fronts()?)? {
//!     b.unpack(chunk)?;
//! }
//! assert_eq!(b.len(), 5);
//! # Ok(())
//! # }
//! ```
//!
//! Positions and lengths count bytes, which are the text's characters. Texts and sites have numbers from 1 to 65535; all copies
//! of a text have its number, and no two copies may be of one site.
//!
//! **No call panics, whatever it is given**: each tests what it asks for and answers an [`Error`]. What it does with a text
//! is done by the crates that `bin/rust` makes from sources which are proved; they, as they stand here, and this crate aren't.
#![forbid(unsafe_code)]
#![warn(missing_docs)]

mod error;
mod fronts;
mod messages;
mod names;
mod text;
mod view;

pub use error::{EditError, Error, MergeError, UnpackError};
pub use fronts::{Front, Since};
pub use list_changes::{Change, ChangeKind};
pub use looks::{Colour, FontName, Looks, Refusal};
pub use messages::{Chunks, Messages};
pub use names::{Name, NameRange, Place};
pub use text::{Form, LooksChange, Past, Text};
pub use text_chunks::Unpacked;
pub use texts::{Replacement, Settled, Took};
pub use view::{Bytes, Character, Characters, Names, View};
