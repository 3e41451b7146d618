//! What a question for loops is about, and what many of them have shown.

use crate::evaluator::Question;
use compare::model::clip::{floor_index, position};
use compare::model::figure::Checked;
use compare::model::loops::{clip_of, played, Played};
use compare::model::tree::Tree;
use compare::player::Player;
use compare::texts::figure::Refusal;

/// Of so many frames with questions among them each kind has to be there. With fewer it could be
/// missing by chance.
pub const ENOUGH: usize = 10_000;

/// A clip node that is there.
pub struct Asked<'a> {
    pub figure: &'a Checked,
    pub question: Question,
    pub clip: usize,
}

impl<'a> Asked<'a> {
    pub fn new(figure: &'a Checked, question: Question) -> Option<Asked<'a>> {
        let clip = clip_of(figure, question.state, question.node)?;
        Some(Asked {
            figure,
            question,
            clip,
        })
    }

    /// The number of its clip instance.
    pub fn instance(&self) -> usize {
        self.figure
            .instance(self.question.state, self.question.node)
    }

    pub fn rate(&self) -> f32 {
        self.figure.rate(self.clip)
    }

    pub fn samples(&self) -> u16 {
        self.figure.clip(self.clip).samples
    }

    pub fn position(&self, player: &Player) -> f32 {
        position(
            player.instances[self.instance()],
            self.question.time,
            self.rate(),
        )
    }

    /// The player with the state's clips synchronised at a time.
    pub fn synchronised(&self, player: &Player, time: f32) -> Player {
        let mut moved = player.clone();
        let tree = Tree {
            figure: self.figure,
            state: self.question.state,
            time,
        };
        tree.synchronise(&mut moved);
        moved
    }

    fn played(&self, player: &Player) -> Played {
        played(floor_index(self.position(player)), self.samples())
    }
}

/// How many answers were of each kind.
#[derive(Clone, Debug, Default)]
pub struct LoopsCounts {
    accepted: usize,
    /// Those whose index is 2^64 - 1.
    greatest: usize,
    /// Those that are 0 and 0 because the position is negative or NaN.
    nothing: usize,
    /// Those that would be others if the state were synchronised at the player's clock first.
    unsynchronised: usize,
    /// By 9, 16 and 17.
    refused: [usize; 3],
}

impl LoopsCounts {
    pub fn count_accepted(&mut self, asked: &Asked, player: &Player) {
        let position = asked.position(player);
        let synchronised = asked.synchronised(player, player.clock as f32);
        let is_other = asked.played(player) != asked.played(&synchronised);
        self.accepted += 1;
        self.greatest += usize::from(floor_index(position) == usize::MAX);
        self.nothing += usize::from(position.is_nan() || position < 0.0);
        self.unsynchronised += usize::from(is_other);
    }

    pub fn count_refused(&mut self, refusal: Refusal) {
        match refusal.number {
            9 => self.refused[0] += 1,
            16 => self.refused[1] += 1,
            17 => self.refused[2] += 1,
            _ => {}
        }
    }

    fn kinds(&self) -> [(&'static str, usize); 7] {
        let [nine, sixteen, seventeen] = self.refused;
        [
            ("accepted", self.accepted),
            ("with the index 2^64 - 1", self.greatest),
            ("at a negative or NaN position", self.nothing),
            ("told otherwise once synchronised", self.unsynchronised),
            ("refused with 9", nine),
            ("refused with 16", sixteen),
            ("refused with 17", seventeen),
        ]
    }

    /// A kind that never came, which shows nothing.
    pub fn missing(&self) -> Option<&'static str> {
        let kinds = self.kinds();
        let missing = kinds.iter().find(|(_, count)| *count == 0)?;
        Some(missing.0)
    }

    pub fn sentence(&self) -> String {
        let kinds = self.kinds();
        let kinds: Vec<String> = kinds
            .iter()
            .map(|(kind, count)| format!("{count} {kind}"))
            .collect();
        format!("questions for loops: {}", kinds.join(", "))
    }
}

#[cfg(test)]
mod tests {
    use super::*;

    #[test]
    fn a_missing_kind_is_told() {
        let mut counts = LoopsCounts {
            accepted: 1,
            greatest: 1,
            nothing: 1,
            unsynchronised: 1,
            refused: [1, 1, 0],
        };
        assert_eq!(counts.missing(), Some("refused with 17"));
        let refusal = |number| Refusal { number, place: 0 };
        counts.count_refused(refusal(7));
        assert_eq!(counts.missing(), Some("refused with 17"));
        counts.count_refused(refusal(17));
        assert_eq!(counts.missing(), None);
        counts.nothing = 0;
        assert_eq!(counts.missing(), Some("at a negative or NaN position"));
    }
}
