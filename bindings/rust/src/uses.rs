//! What a figure can ever use.

use crate::calls::{self, Slices};
use crate::refusal::Refusal;
use crate::sys::RawUses;

/// What a figure can ever use: of each state whether it is reachable, of each parameter whether a reachable state reads
/// it, of each clip whether a reachable state plays it. So authors find what nobody can see, before a review.
///
/// What is `false` never matters: a player that was started on this figure never gets to that state, and no frame of it
/// changes by that parameter's value, or by that clip's rate and poses. What is `true` need not be seen: transitions
/// count whatever their conditions say.
///
/// [`Figure::uses`](crate::Figure::uses) and [`uses`](crate::uses()) make one.
#[derive(Clone, Debug, PartialEq, Eq)]
pub struct Uses {
    /// For each state of the figure: it is the initial one, or a chain of transitions leads to it from there.
    pub states: Vec<bool>,
    /// For each parameter that the figure may read: a lerp or additive node or a condition of a reachable state does.
    pub parameters: Vec<bool>,
    /// For each clip: a node of a reachable state plays it, whether it has samples or not.
    pub clips: Vec<bool>,
}

impl Uses {
    /// The marks of what this plan, an accepted one, has.
    pub(crate) fn from_marks(plan: &[u16], marks: &RawUses) -> Uses {
        let first = |marks: &[u8], word: usize| {
            let count = plan.get(word).copied().map_or(0, usize::from);
            marks.iter().take(count).map(|mark| *mark != 0).collect()
        };
        Uses {
            states: first(&marks.states, 3),
            parameters: first(&marks.parameters, 2),
            clips: first(&marks.clips, 1),
        }
    }
}

/// As [`Figure::uses`](crate::Figure::uses), of any plan and numbers, which stay with the caller.
///
/// # Errors
///
/// The refusal that a start of them gives, with a number of 1 to 7 or 14.
///
/// ```
/// use gentianlathe::{uses, Refusal, ROOT};
///
/// let plan = [1, 1, 0, 1, 0, ROOT, 0, 0, 1, 0, 0, 0, 0, 0]; // its only clip is a pause, and is played
/// assert_eq!(uses(&plan, &[1.0])?.clips, [true]);
/// assert_eq!(uses(&plan, &[]), Err(Refusal::Numbers));
/// # Ok::<(), Refusal>(())
/// ```
pub fn uses(plan: &[u16], numbers: &[f32]) -> Result<Uses, Refusal> {
    let (answer, marks) = calls::uses(Slices { plan, numbers });
    answer?;
    Ok(Uses::from_marks(plan, &marks))
}
