//! A figure that passed the start's check, with its numbers found by their places.

use super::pose::Pose;
use crate::texts::figure::{Figure, Refusal};
use crate::texts::plan::{check, Clip, Node, Plan, State};

pub struct Checked {
    pub plan: Plan,
    numbers: Vec<f32>,
}

impl Checked {
    pub fn new(figure: &Figure) -> Result<Checked, Refusal> {
        let plan = check(figure)?;
        let numbers = figure.numbers.iter().map(|&bits| f32::from_bits(bits));
        Ok(Checked {
            plan,
            numbers: numbers.collect(),
        })
    }

    pub fn joints(&self) -> usize {
        self.plan.parents.len()
    }

    pub fn state(&self, state: usize) -> &State {
        &self.plan.states[state]
    }

    pub fn clip(&self, clip: usize) -> &Clip {
        &self.plan.clips[clip]
    }

    /// Samples per second.
    pub fn rate(&self, clip: usize) -> f32 {
        self.numbers[clip]
    }

    /// Value and duration of a state's transition.
    pub fn transition(&self, state: usize, transition: usize) -> [f32; 2] {
        let before = &self.plan.states[..state];
        let earlier: usize = before.iter().map(|state| state.transitions.len()).sum();
        let at = self.plan.clips.len() + 2 * (earlier + transition);
        [self.numbers[at], self.numbers[at + 1]]
    }

    pub fn pose(&self, clip: usize, sample: usize, joint: usize) -> Pose {
        let before = &self.plan.clips[..clip];
        let samples: usize = before.iter().map(|clip| usize::from(clip.samples)).sum();
        // Poses are the last numbers of a figure.
        let poses = self.numbers.len() - 8 * self.joints() * self.samples();
        let at = poses + 8 * ((samples + sample) * self.joints() + joint);
        let numbers: [f32; 8] = self.numbers[at..at + 8].try_into().expect("eight numbers");
        Pose::new(numbers)
    }

    fn samples(&self) -> usize {
        let counts = self.plan.clips.iter().map(|clip| usize::from(clip.samples));
        counts.sum()
    }

    /// Which clip instance belongs to a state's clip node.
    pub fn instance(&self, state: usize, node: usize) -> usize {
        let before = self.plan.states[..state].iter().flat_map(|s| &s.nodes);
        let earlier = before.chain(&self.state(state).nodes[..node]);
        earlier.filter(|node| matches!(node, Node::Clip(_))).count()
    }
}
