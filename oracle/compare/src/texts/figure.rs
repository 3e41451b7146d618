//! A figure as the start gets it, and a refusal of it.

/// A plan with its numbers, these as float bits.
#[derive(Clone, Debug, Default, PartialEq, Eq)]
pub struct Figure {
    pub plan: Vec<u16>,
    pub numbers: Vec<u32>,
}

#[derive(Clone, Copy, Debug, PartialEq, Eq)]
pub struct Refusal {
    pub number: u8,
    pub place: usize,
}
