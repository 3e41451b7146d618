//! How many whole loops a clip has played.

/// How many whole loops a clip has played, and how many samples of the next: see
/// [`Player::loops`](crate::Player::loops).
///
/// Of a clip of N samples, `loops * N + rest` is the position rounded down, and `rest` is below N. Where the position is
/// negative or NaN both are 0; from 2^64 on it counts as 2^64 − 1.
#[derive(Clone, Copy, Debug, PartialEq, Eq, Hash)]
pub struct Loops {
    /// How often the clip has gone round.
    pub loops: usize,
    /// The sample that it has come to since, counted from 0.
    pub rest: usize,
}
