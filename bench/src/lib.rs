//! Measures `route` of the archive: the instructions of a call, its time as a
//! ratio to the second program's in three modes, and how it grows with the plan.
//!
//! [`inputs`] has the fixed inputs over the [`plans`], [`archive`] makes the
//! calls, [`counts`] counts instructions under valgrind, [`times`] takes times
//! in turns, and [`page`] and [`plot`] write what was seen.

pub mod archive;
pub mod counts;
pub mod facts;
pub mod inputs;
pub mod page;
pub mod plans;
pub mod plot;
pub mod times;
