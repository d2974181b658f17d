"""Writes the proved crates as ordinary Rust: what is proof is taken out, and what differs in the standard library is named anew."""
