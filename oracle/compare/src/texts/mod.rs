//! The program `gentianlathe` by the documents and the reference player: what it prints for a text,
//! and the cases on which it is held to that.

pub mod case;
pub mod draft;
pub mod edges;
pub mod examples;
pub mod figure;
pub mod joints;
pub mod known_uses;
pub mod limits;
pub mod plan;
pub mod printed;
pub mod random;
pub mod random_figure;
mod random_joints;
#[cfg(test)]
mod random_tests;
pub mod reader;
mod shares;
mod shrink;
pub mod sparse_figure;
pub mod spoil;
pub mod uses;
mod wrong_figure;
