//! Compares the Rattle port with the Rust that it ports, bit for bit. The library is what the
//! oracle's programs share: figures and their text, the check of a plan, the reference player with
//! the model beside it, and random input.

pub mod generator;
pub mod judge;
pub mod lists;
pub mod model;
pub mod narrowing;
pub mod player;
pub mod program;
pub mod recorded;
pub mod reference;
pub mod row;
pub mod rows;
pub mod self_test;
pub mod simplify;
pub mod texts;
