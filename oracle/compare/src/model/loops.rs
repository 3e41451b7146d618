//! How many whole loops a clip has played, and the rest.

use super::clip::{floor_index, position};
use super::figure::Checked;
use super::{playable, refused, Model};
use crate::texts::figure::Refusal;
use crate::texts::plan::Node;

/// Of a clip of N samples: the position's floor is loops * N + rest.
#[derive(Clone, Copy, Debug, PartialEq, Eq)]
pub struct Played {
    pub loops: usize,
    pub rest: usize,
}

/// The samples are one at least.
pub fn played(index: usize, samples: u16) -> Played {
    let samples = usize::from(samples);
    Played {
        loops: index / samples,
        rest: index % samples,
    }
}

impl Model {
    /// From the clip instance as the player holds it: nothing is synchronised first.
    pub fn loops(&self, state: usize, node: usize, time: f32) -> Result<Played, Refusal> {
        let figure = playable(&self.figure, &self.player)?;
        let Some(clip) = clip_of(figure, state, node) else {
            return refused(16);
        };
        let kind = figure.clip(clip);
        if kind.is_empty() || kind.stops {
            return refused(17);
        }
        let instance = self.player.instances[figure.instance(state, node)];
        let position = position(instance, time, figure.rate(clip));
        Ok(played(floor_index(position), kind.samples))
    }
}

/// Of a clip node that is there.
pub fn clip_of(figure: &Checked, state: usize, node: usize) -> Option<usize> {
    let state = figure.plan.states.get(state)?;
    match state.nodes.get(node)? {
        Node::Clip(clip) => Some(usize::from(*clip)),
        Node::Lerp(_) | Node::Additive(_) => None,
    }
}
