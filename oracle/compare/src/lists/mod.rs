//! The program `replay` by the documents and the reference player: what it prints for a figure and a
//! list of calls, and the lists that are recorded.

pub mod call;
mod cases;
pub mod figures;
pub mod random_calls;
pub mod recorded;
pub mod report;
