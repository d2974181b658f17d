//! Texts as files byte by byte, what isn't a file, and a replica as what is read: in its whole, whichever allocation is refused.
use calls::is;

mod files;
mod replicas;
