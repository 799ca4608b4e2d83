//! An independent second program for the bench of docs/RULES.md, as a library.
//!
//! To read it beside that page: `setup`, then `channel`, `recent`, `sender`,
//! `receiver` and `bench` are the rules; `numbers` is all in which the two
//! kinds of number differ; `malformed` is the test of damaged states; `script`
//! and `listing` are the script program. `makers` makes random scripts;
//! `agree`, `compare` and `slips` compare runs; `soak` is one long run.

pub mod agree;
pub mod answers;
pub mod bench;
pub mod channel;
pub mod compare;
pub mod listing;
pub mod makers;
pub mod malformed;
pub mod numbers;
pub mod random;
pub mod receiver;
pub mod recent;
pub mod script;
pub mod sender;
pub mod setup;
pub mod slips;
pub mod soak;

#[cfg(test)]
mod tests;

pub use soak::soak;
