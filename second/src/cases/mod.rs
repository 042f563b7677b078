//! The seeded generator of plans, asks, chains, tables, books, steps and damaged
//! texts.

pub mod asks;
pub mod books;
pub mod chains;
pub mod damage;
pub mod damaged_books;
pub mod draft;
pub mod edges;
pub mod faulty_lines;
pub mod folders;
mod large_plans;
pub mod lent;
pub mod lines;
pub mod long_ways;
pub mod plans;
mod ranging;
pub mod sessions;
pub mod shared_slots;
mod small_plans;
pub mod steps;
pub mod tables;
