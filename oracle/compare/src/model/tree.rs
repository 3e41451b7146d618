//! A state's tree: its clips' playback rates, and the pose of a joint.

use super::clip::{duration, place, position, with_rate};
use super::figure::Checked;
use super::pose::Pose;
use crate::player::Player;
use crate::texts::plan::{Inputs, Node};

/// A state of a figure at a time.
#[derive(Clone, Copy)]
pub struct Tree<'a> {
    pub figure: &'a Checked,
    pub state: usize,
    pub time: f32,
}

impl Tree<'_> {
    fn node(&self, node: u16) -> &Node {
        &self.figure.state(self.state).nodes[usize::from(node)]
    }

    /// Each lerp of two clips with samples has both run through in the same time.
    pub fn synchronise(&self, player: &mut Player) {
        for node in &self.figure.state(self.state).nodes {
            let Node::Lerp(inputs) = node else { continue };
            let clips = [inputs.a, inputs.b].map(|input| self.sampled_clip(input));
            if let [Some(a), Some(b)] = clips {
                self.synchronise_clips(inputs, [a, b], player);
            }
        }
    }

    /// The clip that a node plays, if that is one with samples.
    fn sampled_clip(&self, node: u16) -> Option<usize> {
        let Node::Clip(clip) = self.node(node) else {
            return None;
        };
        let clip = usize::from(*clip);
        (!self.figure.clip(clip).is_empty()).then_some(clip)
    }

    /// The lerp node with these inputs, which play these clips.
    pub fn synchronise_clips(&self, inputs: &Inputs, clips: [usize; 2], player: &mut Player) {
        let p = player.parameters[usize::from(inputs.parameter)];
        let lengths = clips.map(|clip| self.duration(clip));
        let target = (1.0 - p) * lengths[0] + p * lengths[1];
        for (input, length) in [inputs.a, inputs.b].into_iter().zip(lengths) {
            let number = self.figure.instance(self.state, usize::from(input));
            let instance = &mut player.instances[number];
            *instance = with_rate(*instance, self.time, length / target);
        }
    }

    fn duration(&self, clip: usize) -> f32 {
        duration(self.figure.clip(clip), self.figure.rate(clip))
    }

    /// The pose that the tree's root gives a joint.
    pub fn pose(&self, player: &Player, joint: usize) -> Pose {
        let root = self.figure.state(self.state).nodes.len() - 1;
        self.node_pose(player, root, joint)
    }

    pub fn node_pose(&self, player: &Player, node: usize, joint: usize) -> Pose {
        let input = |node: u16| self.node_pose(player, usize::from(node), joint);
        let value = |inputs: &Inputs| player.parameters[usize::from(inputs.parameter)];
        match &self.figure.state(self.state).nodes[node] {
            Node::Clip(clip) => self.clip_pose(player, node, usize::from(*clip), joint),
            Node::Lerp(inputs) => input(inputs.a).lerp(input(inputs.b), value(inputs)),
            Node::Additive(inputs) => {
                let added = Pose::IDENTITY.lerp(input(inputs.b), value(inputs));
                input(inputs.a).concat(added)
            }
        }
    }

    /// The identity itself where the clip has no samples: nothing is lerped then.
    fn clip_pose(&self, player: &Player, node: usize, clip: usize, joint: usize) -> Pose {
        let instance = player.instances[self.figure.instance(self.state, node)];
        let position = position(instance, self.time, self.figure.rate(clip));
        let Some(place) = place(self.figure.clip(clip), position) else {
            return Pose::IDENTITY;
        };
        let sample = |sample: usize| self.figure.pose(clip, sample, joint);
        sample(place.first).lerp(sample(place.second), place.factor)
    }
}
