//! Operations and the messages that spell them, worked out by hand, and what spells none.
use calls::is;

mod fixtures;
mod malformed;
mod messages;
mod spelled_looks;
mod values;
mod written_and_read;
