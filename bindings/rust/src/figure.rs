//! Figures: a plan with its numbers, checked.

use crate::calls::{self, Slices};
use crate::player::Player;
use crate::refusal::Refusal;
use crate::uses::Uses;
use std::fmt;

/// A figure that the start's check has accepted: a plan with its numbers.
///
/// `docs/FORMAT.md` in the repository says what both hold. A figure does not change; any number of players,
/// also in different threads, can be shown with one.
#[derive(Clone)]
pub struct Figure {
    plan: Vec<u16>,
    numbers: Vec<f32>,
    // What the check's start gave. With it, starting again cannot fail.
    fresh: Player,
}

impl Figure {
    /// Takes a plan and its numbers if a start accepts them.
    ///
    /// # Errors
    ///
    /// The start's refusal, with a number of 1 to 7 or 14.
    ///
    /// ```
    /// use gentianlathe::{Figure, Refusal, ROOT};
    ///
    /// let plan = vec![1, 1, 0, 1, 0, ROOT, 1, 0, 1, 0, 0, 0, 0, 0]; // the clip has 1 sample and loops (0)
    /// let numbers = vec![1.0, 1.0, 2.0, 3.0, 1.0, 1.0, 0.0, 0.0, 0.0];
    /// assert!(Figure::new(plan.clone(), numbers).is_ok());
    /// assert_eq!(Figure::new(plan, vec![]).unwrap_err(), Refusal::Numbers);
    /// ```
    pub fn new(plan: Vec<u16>, numbers: Vec<f32>) -> Result<Figure, Refusal> {
        let (answer, player) = calls::start(Slices {
            plan: &plan,
            numbers: &numbers,
        });
        answer?;
        Ok(Figure {
            plan,
            numbers,
            fresh: Player::from_raw(player),
        })
    }

    /// Reads a figure's text, of any length, and takes it as [`Figure::new`] does.
    ///
    /// # Errors
    ///
    /// [`Refusal::Line`] where the text cannot be read, else the start's refusal, with a number of 2 to 5
    /// or 14.
    ///
    /// ```
    /// let refusal = gentianlathe::Figure::from_text(b"figure,1,1,0,1\n").unwrap_err();
    /// assert_eq!((refusal.number(), refusal.place()), (11, 1));
    /// ```
    pub fn from_text(text: &[u8]) -> Result<Figure, Refusal> {
        let mut plan = vec![0; most_words()];
        let mut numbers = vec![0.0; most_numbers(text.len())];
        let written = read_text(text, &mut plan, &mut numbers)?;
        plan.truncate(written.words);
        plan.shrink_to_fit();
        numbers.truncate(written.numbers);
        numbers.shrink_to_fit();
        Figure::new(plan, numbers)
    }

    /// A fresh player, in the figure's initial state.
    pub fn start(&self) -> Player {
        self.fresh.clone()
    }

    /// Which states are reachable, which parameters they read and which clips they play: see [`Uses`]. Never refused,
    /// since the figure was accepted before; [`uses`](crate::uses()) takes any plan.
    ///
    /// ```
    /// # use gentianlathe::Figure;
    /// // State 0 plays clip 0. State 1 blends clips 1 and 2, but no transition leads to it.
    /// let text = b"figure,1,3,1,2,0\n\
    ///              joint,65535\n\
    ///              clip,0,3f800000,0\n\
    ///              clip,0,3f800000,0\n\
    ///              clip,0,3f800000,0\n\
    ///              state,1,0\n\
    ///              node,0,0,0,0\n\
    ///              state,3,0\n\
    ///              node,0,1,0,0\n\
    ///              node,0,2,0,0\n\
    ///              node,1,0,1,0\n";
    /// let uses = Figure::from_text(text)?.uses();
    /// let clips = uses.clips.iter().enumerate();
    /// let never_played: Vec<usize> = clips.filter(|(_, used)| !**used).map(|(clip, _)| clip).collect();
    /// assert_eq!(never_played, [1, 2]);
    /// assert_eq!(uses.states, [true, false]);
    /// assert_eq!(uses.parameters, [false]);
    /// # Ok::<(), gentianlathe::Refusal>(())
    /// ```
    pub fn uses(&self) -> Uses {
        let (_, marks) = calls::uses(self.slices());
        Uses::from_marks(&self.plan, &marks)
    }

    /// How many joints the figure has: 1 to [`MAX_JOINTS`](crate::MAX_JOINTS).
    pub fn joints(&self) -> usize {
        self.plan.first().copied().map_or(0, usize::from)
    }

    /// How many floats a frame writes: 16 a joint.
    pub fn output_len(&self) -> usize {
        calls::output_length(&self.plan)
    }

    /// The plan's words.
    pub fn plan(&self) -> &[u16] {
        &self.plan
    }

    /// The numbers.
    pub fn numbers(&self) -> &[f32] {
        &self.numbers
    }

    /// Gives plan and numbers back.
    pub fn into_parts(self) -> (Vec<u16>, Vec<f32>) {
        (self.plan, self.numbers)
    }

    pub(crate) fn slices(&self) -> Slices<'_> {
        Slices {
            plan: &self.plan,
            numbers: &self.numbers,
        }
    }
}

/// In short: a figure has thousands of numbers.
impl fmt::Debug for Figure {
    fn fmt(&self, f: &mut fmt::Formatter<'_>) -> fmt::Result {
        f.debug_struct("Figure")
            .field("joints", &self.joints())
            .field("words", &self.plan.len())
            .field("numbers", &self.numbers.len())
            .finish()
    }
}

/// How many words and numbers [`read_text`] wrote.
#[derive(Clone, Copy, Debug, PartialEq, Eq)]
pub struct Written {
    /// Words of the plan.
    pub words: usize,
    /// Numbers.
    pub numbers: usize,
}

/// Reads a figure's text into slices of the caller: for hosts that do not allocate. Others use
/// [`Figure::from_text`]. What follows the words and numbers written is kept.
///
/// Slices of [`most_words`] words and [`most_numbers`] numbers are never too short.
///
/// # Errors
///
/// [`Refusal::Line`] where the text cannot be read, then [`Refusal::Slices`] where it does not fit. Both slices
/// are then as they were.
pub fn read_text(text: &[u8], plan: &mut [u16], numbers: &mut [f32]) -> Result<Written, Refusal> {
    let (words, numbers) = calls::read_text(text, plan, numbers)?;
    Ok(Written { words, numbers })
}

/// Words of the longest plan that a text can have.
pub fn most_words() -> usize {
    calls::most_words()
}

/// The most numbers that a text of so many bytes can have.
pub fn most_numbers(text_length: usize) -> usize {
    calls::most_numbers(text_length)
}
