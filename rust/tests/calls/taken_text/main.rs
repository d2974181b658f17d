//! What no clause says: that operations are taken in, and that the definitions give the answers that were
//! worked out by hand.
use calls::is;

mod letters;
mod shown;
mod stretches;
mod told;
