//! A second, independent contact-plan router, written from documents 01 and 02
//! alone; of the requests in 02 it has the first three: why a chain is turned
//! down, ranges that change during a pass, and bookings.
//!
//! It is the yardstick for the proved library and program: the calls [`read`],
//! [`write`], [`walk`] and [`route`], and on a lent book [`walk_booked`],
//! [`route_booked`], [`book_route`] and [`release`], have the shape of the
//! proved ones, and [`program::answers`] gives the bytes that the program
//! prints. [`plain`], [`definitions`], [`faults`], [`exhaustive`] and [`layered`]
//! say it all again, slowly, and only check this one, and [`cases`] makes the
//! plans, asks, chains, books and damaged texts to compare on.

pub mod ask;
pub mod book;
pub mod calls;
pub mod cases;
pub mod checks;
pub mod definitions;
pub mod exhaustive;
pub mod faults;
pub mod layered;
pub mod modes;
pub mod options;
pub mod plain;
pub mod plan;
pub mod program;
pub mod random;
pub mod refusal;
pub mod route;
pub mod router;
pub mod runner;
pub mod text;
pub mod timing;
pub mod units;

pub use ask::Ask;
pub use calls::{book_route, release, route, route_booked, walk, walk_booked, Routed};
pub use refusal::Refusal;
pub use text::{read, write};
pub use timing::Figures;
