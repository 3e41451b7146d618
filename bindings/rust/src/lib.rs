//! Safe calls to Gentianlathe, a proved evaluator of a signing figure's animation: clips, blend trees, a
//! controller with states and transitions, joint matrices out.
//!
//! A [`Figure`] is what is shown, read from a text or given as plan and numbers, and checked once. A [`Player`] is
//! what moves: clock, speed, state, parameters. Frames are written into a slice of the caller, 16 floats a joint.
//!
//! ```
//! use gentianlathe::Figure;
//!
//! # fn main() -> Result<(), gentianlathe::Refusal> {
//! let text = b"figure,1,1,0,1,0\n\
//!              joint,65535\n\
//!              clip,1,3f800000,0\n\
//!              state,1,0\n\
//!              node,0,0,0,0\n\
//!              pose,3f800000,40000000,40400000,3f800000,3f800000,00000000,00000000,00000000\n";
//! let figure = Figure::from_text(text)?;
//! let mut player = figure.start();
//! player.update(1.0 / 60.0);
//! player.set_parameter(0, 0.5)?;
//! let mut output = vec![0.0; figure.output_len()];
//! player.frame(&figure, 0.0, &mut output)?;
//! assert_eq!(output[3], 1.0); // x, y and z are the last floats of the first three rows
//! assert_eq!(output[7], 2.0);
//! assert_eq!(output[11], 3.0);
//! # Ok(())
//! # }
//! ```
//!
//! What a figure can ever use, and so also what nobody can see of it, is told by [`Figure::uses`], and how often a clip
//! has gone round by [`Player::loops`].
//!
//! A call that is refused says why by a [`Refusal`] and changes nothing. No call panics, allocates (but for
//! [`Figure::from_text`], and for the lists of [`Uses`]) or is undefined, whatever it is given. The evaluator keeps
//! nothing between calls, and [`Figure`] and [`Player`] are plain data: both are [`Send`] and [`Sync`].
//!
//! Floats follow IEEE 754. Which payload and sign a NaN has is not promised.
//!
//! # Panics
//!
//! Making the first figure or player panics where the linked archive's player has another size than this crate's:
//! then the two are of different versions.

#![deny(missing_docs, unsafe_code)]

#[allow(unsafe_code)]
mod calls;
mod figure;
mod loops;
mod player;
#[cfg(test)]
#[allow(unsafe_code)]
mod raw_tests;
mod refusal;
#[allow(missing_docs)]
mod sys;
mod uses;

pub use figure::{most_numbers, most_words, read_text, Figure, Written};
pub use loops::Loops;
pub use player::{ClipInstance, Player, PlayerParts, Transition, INSTANCES};
pub use refusal::Refusal;
pub use sys::{MAX_CLIPS, MAX_STATES, PARAMETERS};
pub use uses::{uses, Uses};

/// How many floats a joint's matrix has.
pub const MATRIX_FLOATS: usize = 16;

/// The most joints that a figure has.
pub const MAX_JOINTS: usize = 400;

/// The parent that marks a root in a plan. 255 marks one too, but only in a figure of at most 64 joints; in a
/// larger one it is joint 255.
pub const ROOT: u16 = 65_535;
