//! Faults about the endings of clips.

use crate::endings::{clip_words, with_counts, with_endings};
use crate::evaluator::{Answer, HostPlayer};
use crate::faults::{Fault, Faulty};
use crate::frame::Frame;
use compare::model::clip::{place, position, Place};
use compare::model::figure::Checked;
use compare::model::pose::Pose;
use compare::texts::plan::{Clip, Node};

impl Faulty<'_> {
    /// The plan that the library gets to see.
    pub fn plan_handed_on(&self, plan: &[u16]) -> Vec<u16> {
        match self.fault {
            Fault::StopLoops => with_endings(plan, |_, old| if old == 1 { 0 } else { old }),
            Fault::LoopStops => with_endings(plan, |_, old| if old == 0 { 1 } else { old }),
            Fault::EndingAccepted => with_endings(plan, |_, old| old.min(1)),
            Fault::PauseEndingAccepted => {
                with_endings(plan, |count, old| if count == 0 { old.min(1) } else { old })
            }
            // A count above the limit is refused as 0 was.
            Fault::PauseRefused => with_counts(plan, |count| if count == 0 { 4097 } else { count }),
            _ => self.joints_handed_on(plan),
        }
    }

    /// What the fault does to the answer that a plan gets.
    pub fn spoil_refusal(&self, plan: &[u16], answer: &mut Answer) {
        let words = clip_words(plan);
        let is_wrong = |place: usize| plan.get(place).is_some_and(|&ending| ending > 1);
        let is_count = |number: usize| number == 2 && words.contains(&answer.place);
        match (self.fault, answer.number) {
            (Fault::EndingPlace, 14) => answer.place -= 1,
            (Fault::EndingNumber, 14) => answer.number = 2,
            (Fault::EndingBeforeCount, number)
                if is_count(number) && is_wrong(answer.place + 1) =>
            {
                (answer.number, answer.place) = (14, answer.place + 1);
            }
            (Fault::EndingsAfterCounts, 14) => {
                let mut later = (answer.place + 1..words.end).step_by(2);
                if let Some(place) = later.find(|&place| plan[place] > 4096) {
                    (answer.number, answer.place) = (2, place);
                }
            }
            _ => {}
        }
    }

    /// The joints' poses, where the fault makes the only clip of the state that is shown others.
    pub fn held_poses(
        &self,
        frame: Frame,
        figure: &Checked,
        player: &HostPlayer,
    ) -> Option<Vec<Pose>> {
        let [Node::Clip(clip)] = figure.state(player.state).nodes[..] else {
            return None;
        };
        let clip = usize::from(clip);
        if player.running != 0 || !figure.clip(clip).stops {
            return None;
        }
        let time = frame.tree(figure, player, player.state).time;
        let instance = player.instances[figure.instance(player.state, 0)];
        let position = position(instance, time, figure.rate(clip));
        let Place {
            first,
            second,
            factor,
        } = self.spoiled_place(figure.clip(clip), position)?;
        let pose = |joint: usize| {
            let [one, other] = [first, second].map(|sample| figure.pose(clip, sample, joint));
            match self.fault {
                Fault::HeldWithoutLerp => one,
                _ => one.lerp(other, factor),
            }
        };
        Some((0..figure.joints()).map(pose).collect())
    }

    /// Where a stopping clip is sampled at a position, if not where it should be.
    fn spoiled_place(&self, clip: &Clip, position: f32) -> Option<Place> {
        let looping = Clip {
            samples: clip.samples,
            stops: false,
        };
        let last = usize::from(clip.samples).checked_sub(1)?;
        let held = Place {
            first: last,
            second: last,
            factor: 0.0,
        };
        let is_held = position >= last as f32;
        match self.fault {
            Fault::StopsAtCount if is_held && position < f32::from(clip.samples) => {
                place(&looping, position)
            }
            Fault::HeldFactorKept if is_held => Some(Place {
                factor: position - position.floor(),
                ..held
            }),
            Fault::HeldWithoutLerp if is_held => Some(held),
            Fault::InfinityLoops if position == f32::INFINITY => place(&looping, position),
            Fault::NanHeld if position.is_nan() => Some(held),
            _ => None,
        }
    }
}
