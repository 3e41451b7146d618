//! Where a figure has clips without samples.

use crate::endings::clip_words;
use compare::player::Player;
use compare::texts::figure::Figure;
use compare::texts::plan::{check, Node, Plan, State};

/// The plan's first empty clip, if its words reach so far.
pub fn first_pause(plan: &[u16]) -> Option<usize> {
    let counts = clip_words(plan).step_by(2);
    counts.map(|place| plan[place]).position(|count| count == 0)
}

/// For each state whether it plays an empty clip; of a refused figure, for none.
pub struct Pauses(Vec<bool>);

impl Pauses {
    pub fn new(figure: &Figure) -> Pauses {
        let plan = check(figure).ok();
        let states = |plan: &Plan| {
            plan.states
                .iter()
                .map(|state| plays_pause(plan, state))
                .collect()
        };
        Pauses(plan.as_ref().map_or(Vec::new(), states))
    }

    /// Whether the frame after which the player is this one shows an empty clip.
    pub fn are_shown(&self, player: &Player) -> bool {
        let target = player.transition.map(|running| running.target);
        let mut states = [player.state].into_iter().chain(target);
        states.any(|state| self.0.get(state) == Some(&true))
    }
}

fn plays_pause(plan: &Plan, state: &State) -> bool {
    state.nodes.iter().any(|node| match node {
        Node::Clip(clip) => plan.clips[usize::from(*clip)].is_empty(),
        _ => false,
    })
}

#[cfg(test)]
mod tests {
    use super::*;
    use compare::player::{Running, BLANK};
    use compare::texts::edges::BLEND;
    use compare::texts::reader::read;

    /// In BLEND with its first clip empty, state 0 plays it and goes to state 1, which does not.
    #[test]
    fn pauses_are_shown_by_their_states() {
        let figure = read(BLEND.as_bytes()).unwrap();
        let mut paused = figure.clone();
        paused.plan[6] = 0;
        paused.numbers.drain(4..12);
        assert_eq!(first_pause(&figure.plan), None);
        assert_eq!(first_pause(&paused.plan), Some(0));
        assert_eq!(first_pause(&paused.plan[..6]), None);
        let arrived = Player { state: 1, ..BLANK };
        let back = Running {
            start: 0.0,
            target: 0,
            duration: 1.0,
        };
        let leaving = Player {
            transition: Some(back),
            ..arrived.clone()
        };
        for (figure, expected) in [(figure, [false; 3]), (paused, [true, false, true])] {
            let pauses = Pauses::new(&figure);
            let shown = [&BLANK, &arrived, &leaving].map(|player| pauses.are_shown(player));
            assert_eq!(shown, expected);
        }
    }
}
