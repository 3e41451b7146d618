//! Faults about clips without samples.

use crate::evaluator::{Answer, HostPlayer, TextAnswer};
use crate::faults::{Fault, Faulty};
use crate::frame::Frame;
use crate::pauses::first_pause;
use compare::model::figure::Checked;
use compare::model::pose::Pose;
use compare::model::tree::Tree;
use compare::player::Player;
use compare::texts::plan::{Inputs, Node};

impl Faulty<'_> {
    /// What the fault does to the answer that a good figure gets.
    pub fn spoil_acceptance(&self, plan: &[u16], answer: &mut Answer) {
        let is_spoiled = self.fault == Fault::PauseWithoutRate && first_pause(plan).is_some();
        if answer.is_accepted() && is_spoiled {
            answer.number = 7;
        }
    }

    /// What the fault does to the answer of a text that is read. Clip lines stand behind the joints'.
    pub fn spoil_reading(&self, plan: &[u16], answer: &mut TextAnswer) {
        if let Some(clip) = first_pause(plan) {
            *answer = TextAnswer {
                number: 11,
                place: 2 + usize::from(plan[0]) + clip,
                words: 0,
                numbers: 0,
            };
        }
    }

    /// The joints' poses, where the fault makes those of a state with an empty clip others.
    pub fn paused_poses(
        &self,
        frame: Frame,
        figure: &Checked,
        player: &HostPlayer,
    ) -> Option<Vec<Pose>> {
        if player.running != 0 {
            return None;
        }
        let tree = frame.tree(figure, player, player.state);
        match figure.state(player.state).nodes.last()? {
            Node::Clip(clip) => self.lone_poses(figure, usize::from(*clip)),
            Node::Lerp(inputs) if self.fault == Fault::PauseLerped => {
                Some(lerped_pauses(&tree, inputs, &player.player()))
            }
            Node::Lerp(inputs) | Node::Additive(inputs) if self.fault == Fault::PauseSkipped => {
                let other = sampled_input(&tree, inputs)?;
                let player = player.player();
                Some(at_joints(figure, |joint| {
                    tree.node_pose(&player, other, joint)
                }))
            }
            _ => None,
        }
    }

    /// Of a state with nothing but this clip.
    fn lone_poses(&self, figure: &Checked, clip: usize) -> Option<Vec<Pose>> {
        if !figure.clip(clip).is_empty() {
            return None;
        }
        let stops = figure.clip(clip).stops;
        let (before, after) = (0..clip, clip + 1..figure.plan.clips.len());
        let has_samples = |&clip: &usize| !figure.clip(clip).is_empty();
        let neighbour = match self.fault {
            Fault::EmptyStopShowsNext if stops => after.into_iter().find(has_samples)?,
            Fault::EmptyLoopShowsLast if !stops => before.rev().find(has_samples)?,
            _ => return None,
        };
        let last = usize::from(figure.clip(neighbour).samples) - 1;
        let sample = if neighbour < clip { last } else { 0 };
        Some(at_joints(figure, |joint| {
            figure.pose(neighbour, sample, joint)
        }))
    }

    /// Synchronises what the fault does not leave alone in a fresh player.
    pub fn spoil_fresh_rates(&self, figure: &Checked, player: &mut HostPlayer) {
        for state in 0..figure.plan.states.len() {
            let tree = Tree {
                figure,
                state,
                time: 0.0,
            };
            self.spoil_rates(&tree, player);
        }
    }

    /// The same in a frame.
    pub fn spoil_shown_rates(&self, frame: Frame, figure: &Checked, player: &mut HostPlayer) {
        let target = (player.running != 0).then_some(player.target);
        for state in [player.state].into_iter().chain(target) {
            let tree = frame.tree(figure, player, state);
            self.spoil_rates(&tree, player);
        }
    }

    fn spoil_rates(&self, tree: &Tree, player: &mut HostPlayer) {
        for node in &tree.figure.state(tree.state).nodes {
            let Node::Lerp(inputs) = node else { continue };
            let [Some(a), Some(b)] = clips(tree, inputs) else {
                continue;
            };
            let empty = pauses(tree, inputs);
            let is_touched = match self.fault {
                Fault::EmptyFirstSynchronised => empty == [true, false],
                Fault::EmptySecondSynchronised => empty == [false, true],
                Fault::EmptyBothSynchronised => empty == [true, true],
                Fault::OtherSynchronised => empty[0] != empty[1],
                _ => false,
            };
            if !is_touched {
                continue;
            }
            let mut moved = player.player();
            tree.synchronise_clips(inputs, [a, b], &mut moved);
            let keeps_pause = self.fault == Fault::OtherSynchronised;
            for (input, is_empty) in [inputs.a, inputs.b].into_iter().zip(empty) {
                let number = tree.figure.instance(tree.state, usize::from(input));
                if !(is_empty && keeps_pause) {
                    player.instances[number] = moved.instances[number];
                }
            }
        }
    }
}

/// The clips that a node's inputs play.
fn clips(tree: &Tree, inputs: &Inputs) -> [Option<usize>; 2] {
    let nodes = &tree.figure.state(tree.state).nodes;
    [inputs.a, inputs.b].map(|input| match nodes[usize::from(input)] {
        Node::Clip(clip) => Some(usize::from(clip)),
        _ => None,
    })
}

fn at_joints(figure: &Checked, pose: impl Fn(usize) -> Pose) -> Vec<Pose> {
    (0..figure.joints()).map(pose).collect()
}

/// What a lerp node shows where an empty clip is a lerp of the identity with itself. Alone that has
/// the identity's matrix too.
fn lerped_pauses(tree: &Tree, inputs: &Inputs, player: &Player) -> Vec<Pose> {
    let factor = player.parameters[usize::from(inputs.parameter)];
    let pauses = pauses(tree, inputs);
    at_joints(tree.figure, |joint| {
        let [from, to] = [(inputs.a, pauses[0]), (inputs.b, pauses[1])].map(|input| match input {
            (_, true) => Pose::IDENTITY.lerp(Pose::IDENTITY, 0.0),
            (node, false) => tree.node_pose(player, usize::from(node), joint),
        });
        from.lerp(to, factor)
    })
}

/// Which inputs are empty clips.
fn pauses(tree: &Tree, inputs: &Inputs) -> [bool; 2] {
    let is_empty = |clip: usize| tree.figure.clip(clip).is_empty();
    clips(tree, inputs).map(|clip| clip.is_some_and(is_empty))
}

/// The input beside an empty clip.
fn sampled_input(tree: &Tree, inputs: &Inputs) -> Option<usize> {
    match pauses(tree, inputs) {
        [true, false] => Some(usize::from(inputs.b)),
        [false, true] => Some(usize::from(inputs.a)),
        _ => None,
    }
}
