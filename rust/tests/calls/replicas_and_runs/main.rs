//! What no clause says: that calls succeed, and what a script can't reach: slow definitions beside replicas, and streams that fail at each byte.
use calls::is;

mod desks;
mod fakes;
mod faults;
mod own_edits;
mod random_orders;
mod replicas;
mod standing;
