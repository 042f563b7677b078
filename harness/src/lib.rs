//! The archive's C functions against the second program.
//!
//! [`cases`] makes the calls, `perform` makes one through the archive and
//! [`wanted`] by the second program, [`check`] does both and compares every
//! lent word and byte, [`sessions`] does so step by step on a book that the
//! steps change, [`pairs`] holds the archive's answers against each other, and
//! [`stack`] measures what a call takes of a stack.

pub mod call;
pub mod cases;
pub mod check;
pub mod lent;
pub mod pairs;
mod perform;
pub mod progress;
pub mod sessions;
pub mod setting;
pub mod show;
pub mod stack;
pub mod tally;
pub mod wanted;
