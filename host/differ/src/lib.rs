//! The compiled core and the specification in plain Rust side by side: random calls, and what both answer and leave.
pub mod calls;
pub mod captured;
pub mod codecs;
pub mod command;
pub mod cuts;
pub mod fence;
pub mod hashes;
pub mod keys;
pub mod lists;
pub mod model;
pub mod random;
pub mod sessions;
pub mod stored;
pub mod tally;
