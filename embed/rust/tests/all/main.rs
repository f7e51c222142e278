//! The tests of this crate, on the archive itself.

mod clerks;
mod engine;
mod frames;
mod random;
mod sender;
