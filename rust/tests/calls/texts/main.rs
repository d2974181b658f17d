//! What no clause says: that replicas tell changes of what is shown and of nothing else, in the order in which a list has
//! to make them.
use calls::is;

mod letters;
mod plain;
mod played;
mod rows;
mod scripts;
mod site;
