//! A second checker of branch-and-cut derivations, written from the documents alone.

pub mod bytes;
pub mod check;
pub mod fault;
pub mod generator;
pub mod job;
pub mod limits;
pub mod list;
pub mod pack;
pub mod proof;
pub mod row;
pub mod step;
pub mod tally;
pub mod theory;
